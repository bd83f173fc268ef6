#!/bin/sh
# Tests the README's snippets: the one in C is compiled against the header and the library and run, those in Rattle are parts of the program that
# the toolchain proves and runs, whose line of crates.txt is the real one, the one with a job prints what it says, and the pictures are what the
# example prints first. Before that, that the library needs from outside what the header says, and that the README names what a reader must
# believe; after it, that prose is nowhere wider than 100 characters.
#
#   harness/snippets.sh [--lib FILE]
#
# Without --lib the library is proved and built first, as the job program is.
set -eu
ROOT=$(cd "$(dirname "$0")/.." && pwd)
. "$ROOT/harness/kit.sh"
LIB=
case ${1:-} in
'') ;;
--lib) LIB=${2:?--lib wants a file} ;;
*) echo 'usage: harness/snippets.sh [--lib FILE]' >&2; exit 2 ;;
esac
kit_room
[ -n "$LIB" ] || kit_lib >&2
kit_job >&2

# snippet KIND FILE: the README's block of a kind.
snippet() {
    awk -v start="\`\`\`$1" '$0 == start { inside = 1; next } /^```$/ { inside = 0 } inside' "$ROOT/README.md" >"$2"
    [ -s "$2" ] || { echo "README.md has no snippet of the kind $1" >&2; exit 1; }
}

# The library needs from outside what the header says, and nothing else.
needs=$(nm -u "$LIB" | awk '$1 == "U" { print $2 }' | sort | sed ':a;N;$!ba;s/\n/ and /g')
grep -q -F "; it needs $needs)" "$ROOT/include/zijraduf.h" || { echo "the header doesn't say that the library needs $needs" >&2; exit 1; }
echo "the library needs $needs, as the header says"

# What a reader must believe is listed in the README, file by file.
believe=$(awk '$0 == "## What to believe" { inside = 1; next } /^## / { inside = 0 } inside' "$ROOT/README.md")
reached=$("$ROOT/harness/figures.sh" --reach | sed -n 's/^ *[0-9]* *[a-z]*\/specs\/\([A-Za-z0-9]*\)\.antt .*/\1/p' | sort -u)
[ -n "$reached" ] || { echo 'the exports reach no definitions' >&2; exit 1; }
for file in $reached; do
    echo "$believe" | grep -q -w "$file" || { echo "README.md doesn't name $file among what to believe" >&2; exit 1; }
done
echo "README.md names each file of specs/ that the exports reach"

snippet c "$BUILD/snippet.c"
kit_cc "$BUILD/snippet.c" "$BUILD/snippet.o" -I"$ROOT/include"
kit_link "$BUILD/snippet" "$BUILD/snippet.o" "$LIB"
kit_run "$BUILD/snippet"
echo "the C snippet of README.md ran as it says"

# part SMALL LARGE: whether the lines of a file stand in another, side by side.
part() {
    awk 'NR == FNR { small = small $0 "\n"; next } { large = large $0 "\n" } END { exit index("\n" large, "\n" small) == 0 }' "$1" "$2"
}

awk -v out="$BUILD/rattle" '$0 == "```rust" { inside = 1; n++; next } /^```$/ { inside = 0 } inside { print > (out n) }' "$ROOT/README.md"
for block in "$BUILD/rattle1" "$BUILD/rattle2"; do
    part "$block" "$ROOT/crates/example/src/main.rt" || { echo 'a Rattle snippet is no part of crates/example' >&2; exit 1; }
done
line=$(grep '^example:' "$ROOT/crates.txt")
grep -q -F "\`$line\`" "$ROOT/README.md" || { echo "README.md has not the line of crates.txt: $line" >&2; exit 1; }
echo "the Rattle snippets of README.md are parts of the example program"

snippet shell "$BUILD/snippet.sh"
job() { "$PROGRAM"; }
sed -i 's#crates/job/out/job#job#' "$BUILD/snippet.sh"
printed=$(. "$BUILD/snippet.sh")
expected=$(sed -n '$s/^#//p' "$BUILD/snippet.sh")
[ "$printed" = "$expected" ] || { echo "the job snippet printed$printed, not$expected" >&2; exit 1; }
echo "the job snippet of README.md printed what it says"

snippet text "$BUILD/snippet.txt"
"$ROOT/harness/example.sh" 2>"$BUILD/example.log" >"$BUILD/printed"
head -n "$(wc -l <"$BUILD/snippet.txt")" "$BUILD/printed" | diff "$BUILD/snippet.txt" -
echo "the example printed what README.md says"

# Tables and blocks of code are as wide as they are.
wide=$(cd "$ROOT" && awk 'FNR == 1 { code = 0 } /^ *```/ { code = !code } !code && !/^\|/ { print FILENAME ":" FNR ":" $0 }' \
    README.md docs/*.md docs/requests/*.md | LC_ALL=C.UTF-8 grep -E '^[^:]*:[0-9]*:.{101}' | cut -d : -f 1,2) || :
[ -z "$wide" ] || { echo "wider than 100 characters: $wide" >&2; exit 1; }
echo "no line of prose is wider than 100 characters"
