# `make run` and `make sheet` show roles, `make test` is the gate. For those who link the library: `make install`,
# `make example`, `make host-test`, `make bench`. A target that lacks a tool says which, in one line, and fails.
need = command -v $(1) >/dev/null 2>&1 || { echo "make $@: $(1) is missing: $(2)" >&2; exit 1; }

RATTLE = install the Rattle toolchain and put its bin folder on the PATH
PYTHON = install Python 3
GCC = install GCC
GXX = install GCC for C++
CARGO = install Rust with cargo
PKGCONFIG = install pkg-config

# $(call prove,CRATE,COMMAND): COMMAND in the folder of CRATE. What it says goes to target/CRATE.log, and each crate that
# is proved is a line here. What a program prints is sent to descriptor 3.
prove = { { (cd crates/$(1) && $(2)); echo $$? > target/$(1).status; } 2>&1 | tee target/$(1).log \
	| awk -f tools/progress.awk -v program=$(1) crates.txt - >&2; test "$$(cat target/$(1).status)" = 0; }

# prove the panel and build the archive of its calls for C, for every x86-64
LIBRARY = crates/panel_c/out/libpanel_c.a
define archive
@mkdir -p target
@echo "proving and building the panel (some minutes the first time; log: target/panel_c.log)" >&2
@$(call prove,panel_c,rt lib --cpu=x86-64) || { echo "make $@: the panel could not be proved or built: see target/panel_c.log" >&2; exit 1; }
endef
HOST = --offline --quiet --manifest-path host/Cargo.toml

.PHONY: test checks test-model test-vectors test-header test-trust test-sheet run sheet vectors example install uninstall \
	host-test bench

# A bad build that can't be tried fails the gate too: `rt ci` says how many are bad on its line `rt: ok`, and passes by itself.
test:
	@$(call need,rt,$(RATTLE))
	@$(call need,python3,$(PYTHON))
	@$(MAKE) --no-print-directory -j2 checks
	@mkdir -p target
	@{ rt ci; echo $$? > target/ci.status; } 2>&1 | tee target/ci.log
	@test "$$(cat target/ci.status)" = 0
	@! grep -Eq '^rt: ok;.* must-fail edits: [^;]*, [1-9][0-9]* bad' target/ci.log \
		|| { echo "make $@: a bad build could not be tried: see target/ci.log" >&2; exit 1; }

# what the gate checks beside the proofs, two at a time
checks: test-vectors test-model test-header test-trust test-sheet

test-vectors:
	python3 tests/vectors.py --check

test-model:
	python3 tests/test_model.py

test-header:
	python3 tests/header.py

test-trust:
	python3 tests/trust.py

test-sheet:
	python3 tests/test_sheet.py

CREW = examples/tour.crew

# prove and build the lister, and leave in target/roles.txt what it prints of CREW
define list_roles
@test -r "$(CREW)" || { echo "make $@: can't read $(CREW)" >&2; exit 1; }
@mkdir -p target
@echo "proving and building the lister (some minutes the first time; log: target/lister.log)" >&2
@$(call prove,lister,rt run >&3) < "$(CREW)" 3> target/roles.part || { echo "make $@: the lister could not be proved, built or run: see target/lister.log" >&2; exit 1; }
@mv target/roles.part target/roles.txt
endef

# make run [CREW=path] [PRETTY=1]: the roles of a crew text, as the lister prints them or for a person
run:
	@$(call need,rt,$(RATTLE))
	@$(if $(PRETTY),$(call need,python3,$(PYTHON)))
	$(list_roles)
	@$(if $(PRETTY),python3 tools/pretty.py "$(CREW)" target/roles.svg < target/roles.txt,cat target/roles.txt)

# make sheet [CREW=path] [OLD=listing]: the roles on one page to read and print, with what changed since an earlier listing. OLD is copied
# first, since it may be target/roles.txt itself; an older page goes first, so that it is never taken for the new one.
sheet:
	@rm -f target/sheet.html
	@$(call need,rt,$(RATTLE))
	@$(call need,python3,$(PYTHON))
	@$(if $(OLD),test -r "$(OLD)" || { echo "make $@: can't read $(OLD)" >&2; exit 1; })
	@$(if $(OLD),mkdir -p target && cp "$(OLD)" target/roles-old.txt)
	$(list_roles)
	@python3 tools/sheet.py "$(CREW)" target/sheet.html $(if $(OLD),target/roles-old.txt) < target/roles.txt

vectors:
	@$(call need,python3,$(PYTHON))
	python3 tests/vectors.py

example:
	@$(call need,rt,$(RATTLE))
	@$(call need,gcc,$(GCC))
	$(archive)
	gcc -std=c99 -O2 -Wall -Wextra -pedantic -Werror -Iinclude examples/panel.c $(LIBRARY) -o target/example
	./target/example

# make install [PREFIX=path] [DESTDIR=path]: header, archive and pkg-config file. DESTDIR goes before every path that is
# written to, and into none that is written down.
PREFIX = /usr/local
FOLDER = $(abspath $(PREFIX))
INCLUDE = $(DESTDIR)$(FOLDER)/include
LIB = $(DESTDIR)$(FOLDER)/lib
one_path = test $(words $(PREFIX)) = 1 || { echo "make $@: PREFIX has to be one path without blanks" >&2; exit 1; }
writable = install -d "$(1)" 2>/dev/null && test -w "$(1)" || { echo "make $@: can't write to $(1)" >&2; exit 1; }

install:
	@$(one_path)
	@$(call need,rt,$(RATTLE))
	@$(call writable,$(INCLUDE))
	@$(call writable,$(LIB)/pkgconfig)
	$(archive)
	install -m 644 include/rolepanel.h "$(INCLUDE)/rolepanel.h"
	install -m 644 $(LIBRARY) "$(LIB)/librolepanel.a"
	sed 's|@PREFIX@|$(FOLDER)|' rolepanel.pc.in > target/rolepanel.pc
	install -m 644 target/rolepanel.pc "$(LIB)/pkgconfig/rolepanel.pc"

uninstall:
	@$(one_path)
	rm -f "$(INCLUDE)/rolepanel.h" "$(LIB)/librolepanel.a" "$(LIB)/pkgconfig/rolepanel.pc"

host-test:
	@$(call need,rt,$(RATTLE))
	@$(call need,cargo,$(CARGO))
	@$(call need,gcc,$(GCC))
	@$(call need,g++,$(GXX))
	@$(call need,pkg-config,$(PKGCONFIG))
	sh tests/install.sh
	cargo test $(HOST) --test budget
	cargo test $(HOST) --test compare

bench:
	@$(call need,rt,$(RATTLE))
	@$(call need,cargo,$(CARGO))
	@$(call need,gcc,$(GCC))
	$(archive)
	cargo run $(HOST) --release --bin bench
