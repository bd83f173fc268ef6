# The kit's own tools for x86-64 programs. To be sourced by a POSIX shell with
# ROOT set to the top of the repository.
#
#   KIT, TOOLS  the kit, and its tools
#   LOADER      what starts a program that kit_link made
#   BUILD       where build output goes: set it, or have kit_room make a folder

KIT=$(dirname "$(rt doc)")
TOOLS=$KIT/toolchain
LOADER=$TOOLS/lib/ld-linux-x86-64.so.2

# kit_room: makes BUILD a folder of this run alone, gone when the script ends.
kit_room() {
    BUILD=$(mktemp -d)
    trap 'rm -rf "$BUILD"' EXIT
    trap 'exit 1' HUP INT TERM
}

# kit_lib: has rt prove and build the library for C, and keeps a copy of it in BUILD, where
# no other run builds: LIB.
kit_lib() {
    (cd "$ROOT/crates/zijraduf" && rt lib)
    LIB=$BUILD/libzijraduf.a
    cp "$ROOT/crates/zijraduf/out/libzijraduf.a" "$LIB"
}

# kit_job: the same of the job program: PROGRAM. It is run once, on no input.
kit_job() {
    (cd "$ROOT/crates/job" && rt run </dev/null >/dev/null)
    PROGRAM=$BUILD/job
    cp "$ROOT/crates/job/out/job" "$PROGRAM"
}

# kit_second: makes SECOND the independent second program, built once for its sources. Runs
# that build it at once don't meet: each builds in a folder of its own, and moves it whole.
kit_second() {
    kit_sum=$(cd "$ROOT/harness/compare" && { rustc --version && find . -name '*.rs' -exec sha256sum {} + | sort; } | sha256sum)
    SECOND=$ROOT/target/second/${kit_sum%% *}
    [ ! -x "$SECOND" ] || return 0
    mkdir -p "$ROOT/target/second"
    kit_new=$(mktemp -d "$ROOT/target/second/new.XXXXXX")
    if rustc --edition 2021 -O -o "$kit_new/compare" "$ROOT/harness/compare/main.rs"; then
        mv "$kit_new/compare" "$SECOND"
    fi
    rm -rf "$kit_new"
    [ -x "$SECOND" ]
}

# The kit's clang comes without headers: stand-ins made of what it predefines.
kit_headers() {
    mkdir -p "$BUILD/include"
    cat >"$BUILD/include/stddef.h.$$" <<'END'
#pragma once
typedef __SIZE_TYPE__ size_t;
typedef __PTRDIFF_TYPE__ ptrdiff_t;
#define NULL ((void *)0)
END
    cat >"$BUILD/include/stdint.h.$$" <<'END'
#pragma once
typedef __INT8_TYPE__ int8_t;
typedef __INT16_TYPE__ int16_t;
typedef __INT32_TYPE__ int32_t;
typedef __INT64_TYPE__ int64_t;
typedef __INTPTR_TYPE__ intptr_t;
typedef __UINT8_TYPE__ uint8_t;
typedef __UINT16_TYPE__ uint16_t;
typedef __UINT32_TYPE__ uint32_t;
typedef __UINT64_TYPE__ uint64_t;
typedef __UINTPTR_TYPE__ uintptr_t;
#define SIZE_MAX __SIZE_MAX__
#define UINT64_MAX __UINT64_MAX__
END
    mv "$BUILD/include/stddef.h.$$" "$BUILD/include/stddef.h"
    mv "$BUILD/include/stdint.h.$$" "$BUILD/include/stdint.h"
}

# kit_cc SRC OBJ [FLAGS...]: compiles a C file to an x86-64 object.
kit_cc() {
    kit_src=$1
    kit_obj=$2
    shift 2
    kit_headers
    "$TOOLS/bin/clang" --target=x86_64-unknown-linux-gnu -march=x86-64 -O3 -fPIC \
        -ffreestanding -nostdinc -isystem "$BUILD/include" "$@" -c "$kit_src" -o "$kit_obj"
}

# kit_link OUT OBJ...: links objects and static libraries to a program.
kit_link() {
    kit_out=$1
    shift
    "$TOOLS/bin/ld.lld" -pie -dynamic-linker /lib64/ld-linux-x86-64.so.2 -o "$kit_out" \
        "$TOOLS/lib/Scrt1.o" "$TOOLS/lib/crti.o" "$TOOLS/lib/crtbeginS.o" "$@" \
        "$TOOLS/lib/libc.so.6" "$TOOLS/lib/libc_nonshared.a" "$TOOLS/lib/libgcc.a" \
        "$TOOLS/lib/crtendS.o" "$TOOLS/lib/crtn.o"
}

# kit_run PROGRAM [ARGS...]: runs a program made by kit_link.
kit_run() {
    "$LOADER" --library-path "$TOOLS/lib" "$@"
}
