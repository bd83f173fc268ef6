#!/bin/sh
# Compares the job program with the independent second program, a process a job. Before
# that it is given inputs that it can't read, or not to the end: it has to say so. Then come
# the jobs of harness/stored: both programs have to give the outputs that are stored there.
#
#   harness/jobs.sh [--program FILE] [--seed N] [--only N] [--jobs N]
#
# Without --program it is proved and built first. --jobs says how many random jobs come
# after the listed ones.
set -eu
ROOT=$(cd "$(dirname "$0")/.." && pwd)
. "$ROOT/harness/kit.sh"

PROGRAM=
JOBS=300
OPTIONS=
while [ $# -gt 0 ]; do
    case $1 in
    --program) PROGRAM=${2:?--program wants a file}; shift 2 ;;
    --jobs) JOBS=${2:?--jobs wants a number}; shift 2 ;;
    --seed | --only) OPTIONS="$OPTIONS $1 ${2:?$1 wants a number}"; shift 2 ;;
    *) sed -n 's/^#   harness/usage: harness/p' "$0" >&2; exit 2 ;;
    esac
done

kit_room
if [ -z "$PROGRAM" ]; then
    kit_job >&2
fi
kit_second

# A program that faults is reported; it leaves no core file behind.
ulimit -c 0 2>/dev/null || :
# One that doesn't end is ended. OPTIONS holds plain words only: left unquoted to be split.
"$SECOND" --jobs "$JOBS" --stored "$ROOT/harness/stored" $OPTIONS -- timeout 60 "$PROGRAM"
