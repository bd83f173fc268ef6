#!/bin/sh
# Counts the lines of each crate that are neither blank nor comments, as docs/FIGURES.md has them: code, definitions, laws, and proofs of functions;
# then what is held to a bar, with the bar beside it.
#
#   harness/figures.sh [--reach]
#
# --reach lists, in place of that, what a reader must believe: each definition of specs/ that the contracts of the exports reach, with its
# lines, its file, and what reached it first.
set -eu
exports=zijraduf
here=$(cd "$(dirname "$0")" && pwd)
cd "$here/../crates"
list=no
case ${1:-} in
'') ;;
--reach) list=yes ;;
*) echo 'usage: harness/figures.sh [--reach]' >&2 && exit 2 ;;
esac
crates=$(sed -n 's/^ *\([A-Za-z_][A-Za-z0-9_]*\)\( staticlib\)\{0,1\} *:.*/\1/p' ../crates.txt)

# files FOLDER TEST..: the files of a folder, in order.
files() {
    [ ! -d "$1" ] || find "$@" -type f | sort
}

# lines FILE..: how many lines of these files say something.
lines() {
    cat /dev/null "$@" | grep -c -v -e '^ *$' -e '^ *--' -e '^ *//' || :
}

# functions FILE..: how many functions these files declare.
functions() {
    cat /dev/null "$@" | grep -c '^ *\(pub \)\{0,1\}\(extern "C" \)\{0,1\}fn ' || :
}

# row CRATE: a row of the table. The names of files hold no spaces: left unquoted to be split.
row() {
    code=$(files "$1/src" -name '*.rt')
    definitions=$(files "$1/specs" -name '*.antt')
    laws=$(files "$1/proofs" -name '*.antt' ! -name Answers.antt ! -name Invariants.antt)
    proofs=$(files "$1/proofs" -name Answers.antt -o -name Invariants.antt)
    edits=$(files "$1/must-fail" -name '*.edit' | wc -l)
    echo "| $1 | $(functions $code) | $(lines $code) | $(lines $definitions) | $(lines $laws) | $(lines $proofs) | $edits |"
}

# reach yes|no: the lines that a reader must believe, after the list of them or alone.
reach() {
    LC_ALL=C awk -v list="$1" -f "$here/reach.awk" $(for crate in $crates; do files "$crate/specs" -name '*.antt'; done) $(files $exports/src -name '*.rt')
}

# longest: the characters of the longest line of code, and where it is.
longest() {
    LC_ALL=C awk '
        { gsub(/[\200-\277]/, ""); if (length($0) > most) { most = length($0); at = FILENAME ":" FNR } }
        END { print most " characters, at " at }' $(for crate in $crates; do files "$crate/src" -name '*.rt'; done)
}

if [ $list = yes ]; then
    believed=$(reach yes)
    printf '%s lines that a reader must believe\n' "$believed"
    exit
fi

echo '| crate | functions | code | definitions | laws | proofs of functions | must-fail edits |'
echo '|---|---:|---:|---:|---:|---:|---:|'
believed=$(reach no)
for crate in $crates; do row "$crate"; done |
    awk -F'|' -v longest="$(longest)" -v believed="$believed" '
        { print; for (k = 3; k <= 8; k++) sum[k] += $k }
        END {
            printf "| all | %d | %d | %d | %d | %d | %d |\n\n", sum[3], sum[4], sum[5], sum[6], sum[7], sum[8]
            printf "- Lines of antt a line of code: %.2f (at most 7.0).\n", (sum[5] + sum[6] + sum[7]) / sum[4]
            printf "- Longest line of code: %s (at most 150).\n", longest
            printf "- Definitions that a reader must believe: %d lines (at most 430).\n", believed
        }'
