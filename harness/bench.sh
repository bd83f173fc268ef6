#!/bin/sh
# Measures the library's calls beside the same algorithm in C, ISA-L, Jerasure, snapraid
# and memcpy, prints tables of each measure and holds the figures to the bars. It is a
# report and no gate: it fails only where something can't be built, or where the
# bytes are wrong, since nothing wrong is measured: the C is compared with the independent
# second program, the library with the C on all that is measured, and peers are checked.
#
#   harness/bench.sh [--quick] [--counts] [--only CALLS] [--codes CODES] [--lib FILE] [--keep FOLDER]
#
#   --quick       p = 5, 17 and 31; cells of 512 and 4,096 bytes
#   --counts      instructions only, no times
#   --only CALLS  some calls, named as in the tables, and deciding; rebuild is two-columns,
#                 one-column, four-cells, clean, bad-column and deciding, with encode and
#                 broken for their bars
#   --codes CODES some codes, by their numbers; for EVENODD's bars it takes '1 2 4'
#   --lib FILE    measures FILE in place of what `rt lib` makes in crates/zijraduf
#   --keep FOLDER leaves the driver and the figures there
#
# Instructions by perf or valgrind, and GB/s.
set -eu
ROOT=$(cd "$(dirname "$0")/.." && pwd)

# The calls are the rows of the table in calls.c. Of some only the stack is measured, of some
# all but times.
primes='5 7 17 31'
cells='512 1000 4096'
codes='1 2 3 4'
short='1m4 17' # RDP with four data columns
rebuild='two-columns one-column four-cells clean bad-column deciding'
stack_only='plan show job'
untimed='balanced-plan deciding'
only=$(sed -n 's/^    {"\([a-z-]*\)", .*/\1/p' "$ROOT/harness/bench/calls.c" | grep -vxF "$(printf '%s\n' $stack_only)")
known="$(echo $only) rebuild"
lib=
keep=
times=yes

# Ends where a word is no call's name.
want_known() {
    for word in $1; do
        case " $known " in
        *" $word "*) ;;
        *) echo "bench: no call is named $word; there are: $known" >&2 && exit 2 ;;
        esac
    done
}

while [ $# -gt 0 ]; do
    case $1 in
    --quick) primes='5 17 31' cells='512 4096' ;;
    --counts) times= ;;
    --only)
        want_known "${2:?--only wants calls}"
        only=$(echo "$2" | sed "s/rebuild/encode broken $rebuild/") && shift
        ;;
    --codes)
        case ${2:?--codes wants numbers} in
        *[!1-4\ ]*) echo "bench: the codes are $codes" >&2 && exit 2 ;;
        esac
        codes=$2 && shift
        ;;
    --lib) lib=$(realpath "${2:?--lib wants a file}") && shift ;;
    --keep) mkdir -p "${2:?--keep wants a folder}" && keep=$(realpath "$2") && shift ;;
    *) sed -n '2,/^set/s/^# \{0,1\}//p' "$0" >&2 && exit 2 ;;
    esac
    shift
done

cd "$ROOT"
. harness/kit.sh
kit_room
peers=$ROOT/target/bench/peers
snapraid=$ROOT/target/bench/snapraid
figures=$BUILD/figures
mkdir -p "$ROOT/target/bench"

say() { echo "bench: $*" >&2; }

# ---- the peers, below target/: made once, in this run's own folder ----

# put_in_place MADE FOLDER: where another run was first, what it made stays.
put_in_place() {
    mv "$1" "$2.$$" && { mv -T "$2.$$" "$2" 2>/dev/null || rm -rf "$2.$$"; }
}

# apt_in FOLDER: makes apt work with lists of its own there. It installs nothing and wants
# no rights.
apt_in() {
    command -v apt-get >/dev/null && command -v dpkg-deb >/dev/null || { echo 'no apt-get here'; return 1; }
    rm -rf "$1"
    mkdir -p "$1/state/lists/partial" "$1/cache/archives/partial" "$1/parts"
    : >"$1/status"
    cat >"$1/conf" <<END
APT::Architecture "amd64";
APT::Architectures { "amd64"; };
APT::Sandbox::User "root";
Dir::State "$1/state";
Dir::State::status "$1/status";
Dir::Cache "$1/cache";
Acquire::Languages "none";
Acquire::Retries "2";
Acquire::http::Timeout "30";
END
    export APT_CONFIG="$1/conf"
}

# apt_get FOLDER WHAT..: updates the lists and has apt-get do it. Says why it could not.
apt_get() {
    apt_log=$1/log
    shift
    if { apt-get -q update && apt-get -q "$@"; } >"$apt_log" 2>&1; then return 0; fi
    grep -m 1 'Failed to fetch' "$apt_log" || grep '^[EW]:' "$apt_log" | tail -n 1
    return 1
}

# Unpacked for amd64, whatever this machine is.
fetch_peers() {
    [ ! -e "$peers/done" ] || return 0
    new=$BUILD/peers
    mkdir -p "$new"
    apt_in "$BUILD/apt" || return 1
    (cd "$new" && apt_get "$BUILD/apt" download libisal2 libjerasure2 libgf-complete1) || return 1
    for deb in "$new"/*.deb; do
        dpkg-deb -x "$deb" "$new" || return 1
        dpkg-deb -f "$deb" Package Version | sed 's/^[^:]*: //' | paste -s -d ' ' >>"$new/versions"
    done
    touch "$new/done"
    put_in_place "$new" "$peers"
}

# No package has snapraid's library of parities: it is built from Debian's source.
fetch_snapraid() {
    [ ! -e "$snapraid/done" ] || return 0
    command -v cc >/dev/null || { echo 'no C compiler with headers for x86-64 here'; return 1; }
    new=$BUILD/snapraid
    mkdir -p "$new"
    apt_in "$BUILD/apt-source" || return 1
    echo "deb-src http://deb.debian.org/debian $(sed -n 's/^VERSION_CODENAME=//p' /etc/os-release) main" \
        >"$BUILD/apt-source/sources.list"
    cat >>"$APT_CONFIG" <<END
Dir::Etc::sourcelist "$BUILD/apt-source/sources.list";
Dir::Etc::sourceparts "$BUILD/apt-source/parts";
END
    (cd "$new" && apt_get "$BUILD/apt-source" source --download-only snapraid) || return 1
    tar -xf "$new"/*.orig.tar.* -C "$new" --strip-components=1 || return 1
    (cd "$new/raid" && cc -O2 -w -fPIC -shared -Wl,-z,defs -o ../libsnapraid.so \
        check.c raid.c tables.c module.c int.c intz.c x86.c x86z.c helper.c memory.c) 2>"$new/log" ||
        { echo 'its raid library does not compile'; return 1; }
    sed -n 's/^Version: /snapraid /p' "$new"/*.dsc | head -n 1 >"$new/done"
    put_in_place "$new" "$snapraid"
}

# cc_part NAME OBJECT [FLAGS...]
cc_part() {
    source=harness/bench/$1.c
    object=$BUILD/parts/$2.o
    shift 2
    kit_cc "$source" "$object" -Iinclude -Wall -Wextra "$@"
}

build() {
    if [ -z "$lib" ]; then
        kit_lib >&2
        lib=$LIB
    fi
    mkdir -p "$BUILD/parts"
    for part in harness/bench/*.c; do
        part=$(basename "$part" .c)
        case $part in
        # -fhosted: the library's loops too may become memset and memcpy.
        same) cc_part same same -fhosted ;;
        calls) cc_part calls c && cc_part calls ours -DAS_EXPORTS ;;
        *) cc_part "$part" "$part" ;;
        esac
    done
    kit_link "$BUILD/driver" "$BUILD"/parts/*.o "$lib"
}

compare_same() {
    say 'comparing the same algorithm in C with the second program'
    harness/compare.sh --same --short >"$BUILD/compared" 2>&1 || { cat "$BUILD/compared" >&2 && exit 1; }
}

# The driver, with the peers where it looks for them.
path=$TOOLS/lib:$peers/usr/lib/x86_64-linux-gnu:$snapraid
driver() { "$LOADER" --library-path "$path" "$BUILD/driver" "$@"; }

# ---- instructions: 'CALL WHO COUNT' for some calls of a shape ----

# Copies are made by vectors: `rep movsb` is a single instruction, and valgrind counts it once a byte.
by_callgrind() {
    rm -f "$BUILD"/callgrind*
    GLIBC_TUNABLES=glibc.cpu.hwcaps=-ERMS valgrind --tool=callgrind --callgrind-out-file="$BUILD/callgrind" \
        "$LOADER" --library-path "$path" "$BUILD/driver" count "$@" >"$BUILD/callgrind-log" 2>&1 || return 1
    cat "$BUILD"/callgrind.[0-9]* |
        awk '/Client Request: begin/ { call = $(NF - 1) " " $NF }
             /^summary:/ { n[call] = $2 }
             END { for (call in n) if (call != "- nothing") print call, n[call] - n["- nothing"] }'
}

perf_calls() {
    perf stat -x, -e instructions:u -o "$BUILD/perf" \
        "$LOADER" --library-path "$path" "$BUILD/driver" calls "$@" &&
        awk -F, '/instructions/ { n += $1 } END { printf "%.0f\n", n }' "$BUILD/perf"
}

# What 256 calls add to the count of one.
by_perf() {
    while read -r call who bytes; do
        one=$(perf_calls "$1" "$2" "$3" "$call" "$who" 1)
        all=$(perf_calls "$1" "$2" "$3" "$call" "$who" 257)
        echo "$call $who $(((all - one) / 256))"
    done <"$BUILD/list"
}

pick_counter() {
    if [ "$(perf_calls 1 5 512 encode ours 1 2>/dev/null || echo 0)" -gt 0 ]; then
        counter=by_perf
        how='perf stat -e instructions:u, 257 calls less 1 call, a 256th'
    elif [ -n "$(by_callgrind 1 5 512 encode 2>/dev/null)" ]; then
        counter=by_callgrind
        how='valgrind --tool=callgrind, one call less a call of nothing; AVX2 at most, memcpy and memset without rep'
    else
        counter=
        how='not counted: neither perf nor valgrind works here'
    fi
}

# ---- one shape: figures as lines 'KIND CODE P CELL CALL WHO VALUE' ----

# measure CODE P CELL CALLS...
measure() {
    shape="$1 $2 $3"
    shift 3
    say "code, p and cell $shape: $*"
    # A shape holds plain words only: left unquoted to be split.
    driver check $shape "$@" >"$BUILD/list"
    [ -s "$BUILD/list" ] || return 0
    awk -v s="$shape" '{ print "bytes", s, $0 }' "$BUILD/list"
    driver reads $shape "$@" | awk -v s="$shape" '{ print "reads", s, $0 }'
    if [ -n "$counter" ]; then
        $counter $shape "$@" >"$BUILD/counts"
        awk -v s="$shape" '{ print "instructions", s, $0 }' "$BUILD/counts"
    fi
    timed=$(printf '%s\n' "$@" | grep -vxF "$(printf '%s\n' $untimed)") && [ -n "$times" ] || return 0
    driver time $shape "$others" $timed >"$BUILD/times"
    awk -v s="$shape" '{ print "warm", s, $1, $2, $3; print "cold", s, $1, $2, $4 }' "$BUILD/times"
}

measure_all() {
    for code in $codes; do
        for p in $primes; do
            for cell in $cells; do
                [ -z "$of_all" ] || measure $code "$p" "$cell" $of_all >>"$figures"
            done
        done
        case $only in
        *deciding*) measure $code 31 1 deciding >>"$figures" ;;
        esac
    done
    case $codes in
    *1*) ;;
    *) return 0 ;;
    esac
    for cell in $cells; do
        [ -z "$of_all" ] || measure $short "$cell" $of_all >>"$figures"
    done
}

# What has to be read to push all else out of the caches: three times the last one, 64 MiB
# at least, half of the free memory at most.
other_bytes() {
    last=$(getconf LEVEL3_CACHE_SIZE 2>/dev/null || echo 0)
    awk -v last="${last:-0}" '/^MemAvailable:/ {
        n = 3 * last; if (n < 2 ^ 26) n = 2 ^ 26
        if (n > $2 * 512) n = $2 * 512
        printf "%d\n", n }' /proc/meminfo
}

header() {
    echo "# The library's calls, measured"
    echo
    echo "- Machine: $(sed -n 's/^model name[^:]*: //p' /proc/cpuinfo | head -n 1), $(uname -m)."
    level=SSE
    for flag in avx avx2 avx512f; do
        if grep -q "^flags.* $flag " /proc/cpuinfo; then level=$(echo $flag | tr a-z A-Z); fi
    done
    [ -z "$times" ] || echo "- GB/s of data. Warm: one stripe again and again, best of seven. Cold: 64 MiB of stripes in turn," \
        "after $((others >> 20)) MiB of other memory were read, best of five."
    echo "- Instruction set: x86-64 with SSE2 for ours and for the same algorithm in C ($("$TOOLS/bin/clang" --version | head -n 1)," \
        "-O3 -march=x86-64); SSE4.1 for ISA-L SSE; $level is the most that ISA-L and memcpy could pick."
    echo "- Instructions of a call: $how."
    echo "- RDP m=4: a shelf of six disks, four of them for data: p = 17 with m = 4 data columns given. The columns that don't exist are"
    echo "  neither stored nor read, and are no data bytes; the peers have as many sources as there are data columns."
    echo "- ISA-L: pq_gen beside encode, pq_check beside broken, with as many sources as the code has data columns."
    echo "  Beside write ec_encode_data_update: the difference of old and new, ready made, into two parities of p - 1 sources."
    echo "  Beside lost columns ec_encode_data: one by P, two by P and Q, with the tables of the inverse ready made; nothing is checked."
    echo "- Jerasure: RDP's bit matrix, smart schedules; its bytes are ours. Lost columns by jerasure_schedule_decode_cache with the"
    echo "  schedule ready made; lazy is jerasure_schedule_decode_lazy, which makes it in the call. Nothing is checked."
    echo "- snapraid: raid_scan beside bad column, a byte at a time by tables, on as many data blocks as the code has data columns and two"
    echo "  parities, with a middle block bad."
    echo "- Write: a data cell in the middle, with three dependent parity cells for RDP and two for the others. Write-many: one of EVENODD's"
    echo "  data cells with p of them."
    echo "- Two columns: 0 and 1; of the other pairs none takes 3 %, with m = 4 none 4 % more instructions, and of EVENODD none 3 % in C."
    echo "  One column: 0. Four cells: in four columns and four rows."
    echo "  Clean: no cell is lost, and the stripe is encoded. Bad column: the middle one, every byte of it bad."
    echo "- Run: all rows of the lost column 1 of RDP into a spare by the library's plan, made before; run-rows: by rows alone."
    echo "  No other column takes 1 % more instructions, with m = 4 none 9 %. With m below p - 1 a plan may read more than rows alone do."
    echo "  Balanced plan: asked for lost column 1, where p has one; it goes over no data. Run-balanced: a run by it, made before."
    echo "  Leaf: (p - 1)^2 times, with m given (p - 1) m times, one cell XORed into another (the first of a row put), by the function with"
    echo "  which the same algorithm in C does it. Sums: the same cells, all of a row XORed at once. Of both where the cells lie is ready made."
    if [ -e "$peers/done" ]; then
        echo "- Peers: $(cat "$peers/versions" "$snapraid/done" 2>/dev/null | paste -s -d , | sed 's/,/, /g')."
    fi
    for who in isal jerasure; do
        grep -q " $who " "$figures" || echo "- Missing: $who: ${why:-it can not be opened}."
    done
    grep -q ' snapraid ' "$figures" || echo "- Missing: snapraid: ${why_snapraid:-it can not be opened}."
}

build
compare_same
why=$(fetch_peers) || say "no peers: $why"
why_snapraid=$(fetch_snapraid) || say "no snapraid: $why_snapraid"
pick_counter
others=$(other_bytes)
of_all=$(echo "$only" | sed 's/deciding//')
of_all=$(echo $of_all)
driver check 1 7 512 $stack_only >/dev/null
driver stack | awk '{ print "stack 0 0 0", $1, "ours", $2 }' >"$figures"
measure_all
header
awk -f harness/bench/report.awk "$figures"
[ -z "$keep" ] || cp "$BUILD/driver" "$figures" "$keep"
