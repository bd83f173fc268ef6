#!/bin/sh
# Prints what each crate assumes of C functions, a line a crate: the axioms that the check of a program or of the library for C reports, or none.
#
# A check reports axioms of those alone. Another crate has none where it stands on crates of this repository only: the toolchain refuses a crate that
# declares C functions, so that they come by the kit's crates and nothing else.
set -eu
cd "$(dirname "$0")/.."
crates=$(sed -n 's/^ *\([A-Za-z_][A-Za-z0-9_]*\)\( staticlib\)\{0,1\} *:.*/\1/p' crates.txt)

# The crates of a line of crates.txt that are not this repository's.
of_the_kit() {
    for name in $(sed -n "s/^ *$1 *: *//p" crates.txt); do
        [ -d "crates/$name" ] || printf ' %s' "$name"
    done
}

for crate in $crates; do
    if [ -f "crates/$crate/src/main.rt" ] || grep -q "^ *$crate staticlib" crates.txt; then
        checked=$(cd "crates/$crate" && rt check)
        what=$(echo "$checked" | sed -n 's/^axioms [a-z_]*: \(.*\) ([0-9].*/\1/p' | tr -d ',' | paste -s -d ' ')
    else
        what=$(of_the_kit "$crate" | sed 's/^./what it stands on: /')
    fi
    echo "$crate: ${what:-none}"
done
