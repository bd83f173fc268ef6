#!/bin/sh
# Compares the library with the independent second program, call by call.
#
#   harness/compare.sh [--lib FILE | --same] [--seed N] [--only N] [--short | --long] [--faults]
#
# Without --lib the library is proved and built first. --same compares the same calls in C,
# harness/bench/same.c, in its place.
# --short makes some 585,000 calls in place of 700,000, --long some three million; --faults
# makes every call twice, with all that is lent right before an inaccessible page, and
# right after one.
set -eu
ROOT=$(cd "$(dirname "$0")/.." && pwd)
. "$ROOT/harness/kit.sh"

LIB=
SAME=
OPTIONS=
while [ $# -gt 0 ]; do
    case $1 in
    --lib) LIB=${2:?--lib wants a file}; shift 2 ;;
    --same) SAME=yes; shift ;;
    --seed | --only) OPTIONS="$OPTIONS $1 ${2:?$1 wants a number}"; shift 2 ;;
    --short | --long | --faults) OPTIONS="$OPTIONS $1"; shift ;;
    *) sed -n 's/^#   harness/usage: harness/p' "$0" >&2; exit 2 ;;
    esac
done
[ -z "$LIB" ] || [ -z "$SAME" ] || { echo 'compare: --lib or --same, not both' >&2; exit 2; }

kit_room
if [ -n "$SAME" ]; then
    LIB=$BUILD/same.o
    kit_cc "$ROOT/harness/bench/same.c" "$LIB" -fhosted -I"$ROOT/include" -DAS_EXPORTS
elif [ -z "$LIB" ]; then
    kit_lib
fi
kit_second
kit_cc "$ROOT/harness/bridge.c" "$BUILD/bridge.o" -I"$ROOT/include"
kit_link "$BUILD/bridge" "$BUILD/bridge.o" "$LIB"

# A call that faults is reported; it leaves no core file behind.
ulimit -c 0 2>/dev/null || :
# OPTIONS holds plain words only: left unquoted to be split.
"$SECOND" $OPTIONS -- "$LOADER" --library-path "$TOOLS/lib" "$BUILD/bridge"
