# awk -f tools/progress.awk -v program=NAME crates.txt -: of what rt says in the folder of the crate NAME, a line for each crate that is proved, with
# how many of how many are done. Crates that were proved before and have not changed are counted and not shown.
FILENAME == "crates.txt" {
    sub(/#.*/, "")
    if (at = index($0, ":")) {
        name = $1
        sub(/:$/, "", name)
        rests[name] = substr($0, at + 1)
    }
    next
}
!all { all = reach(program, among) }
/^crate [a-z0-9_]+: / { crate = substr($2, 1, length($2) - 1) }
/^logic=proved/ { done += reach(crate, proved); print "  " done " of " all ": " crate " proved"; fflush() }
/^logic=not-proved/ { print "  " crate " NOT PROVED"; fflush() }
/: error\[|: no proof: |^rt: (the library|mend)/ { print "  " $0; fflush() }

# How many crates, this one and those under it, are new among those that were met.
function reach(name, met,   n, i, below, found) {
    if (!(name in rests) || name in met) return 0
    met[name] = found = 1
    n = split(rests[name], below, " ")
    for (i = 1; i <= n; i++) found += reach(below[i], met)
    return found
}
