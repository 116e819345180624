#!/bin/sh
# Installs into a folder of its own and takes the library from there as a firmware would: the example, as C and as C++,
# and the program of docs/LINKING.md are built with what pkg-config says, and print what they should. The first fault is
# told in one line, and the exit is 1.
set -eu
cd "$(dirname "$0")/.."
folder=$PWD/target/install-test
strict="-O2 -Wall -Wextra -pedantic -Werror"

fail() {
    echo "tests/install.sh: $1" >&2
    exit 1
}

# make_it TARGET: in the folder, for a place that is not the folder
make_it() {
    make "$1" DESTDIR="$folder" PREFIX=/opt/rolepanel || fail "make $1 failed"
}

# files_are LIST: all files below the folder
files_are() {
    found=$(cd "$folder" && find . -type f | LC_ALL=C sort | tr '\n' ' ')
    test "$found" = "$1" || fail "installed are: $found"
}

# prints OUTPUT COMPILER WORDS..: what is built prints the lines of a file
prints() {
    expected=$1
    shift
    "$@" $(pkg-config --cflags --libs rolepanel) -o "$folder.program" || fail "can't be built: $*"
    "$folder.program" > "$folder.out" || fail "ends with $?: $*"
    diff "$expected" "$folder.out" >&2 || fail "prints something else than $expected: $*"
}

rm -rf "$folder"
mkdir -p "$folder"
make_it install
files_are "./opt/rolepanel/include/rolepanel.h ./opt/rolepanel/lib/librolepanel.a ./opt/rolepanel/lib/pkgconfig/rolepanel.pc "
grep -qx "prefix=/opt/rolepanel" "$folder/opt/rolepanel/lib/pkgconfig/rolepanel.pc" || fail "rolepanel.pc does not name PREFIX"
export PKG_CONFIG_LIBDIR="$folder/opt/rolepanel/lib/pkgconfig" PKG_CONFIG_SYSROOT_DIR="$folder"

prints examples/panel.out gcc -std=c99 $strict examples/panel.c
prints examples/panel.out g++ -std=c++11 $strict -x c++ examples/panel.c -x none

# the program of the page, and what the page says that it prints
awk '/^```/ { on = $0 == "```c"; next } on' docs/LINKING.md > "$folder.c"
awk '/^```/ { on = $0 == "```text"; next } on' docs/LINKING.md > "$folder.expected"
prints "$folder.expected" gcc $strict "$folder.c"

make_it uninstall
files_are ""
echo "install: the example as C and as C++, and the program of docs/LINKING.md, print what they should"
