# Sourced by the scripts. The kit that `rt` stands in makes code for x86-64; on Arm its own emulator runs that code.

# The kit's tools for this machine.
kit_tools() {
    echo "${RATTLE_HOME:-$(dirname "$(readlink -f "$(command -v rt)")")/..}/on/$(uname -m)/toolchain"
}

# program NAME: runs the proved program NAME, target/bin/NAME, made where it is missing.
program() {
    local tools
    [ -e "target/bin/$1" ] || make_program "$1" || return
    tools=$(kit_tools)
    if [ -x "$tools/bin/qemu-x86_64" ]; then
        "$tools/bin/qemu-x86_64" "$tools/lib/ld-linux-x86-64.so.2" --library-path "$tools/lib" "target/bin/$1"
    else
        "target/bin/$1"
    fi
}

# make_program NAME: target/bin/NAME, proved and made anew.
make_program() {
    mkdir -p target/bin
    (cd "crates/$1" && rt run </dev/null) >"target/$1.log" 2>&1 && cp "crates/$1/out/$1" target/bin/ || {
        cat "target/$1.log" >&2
        return 1
    }
}

# make_library NAME [CRATE]: target/staticlib/libNAME.a, proved and made anew; CRATE is the static library that it comes from, NAME if left out.
make_library() {
    local crate=${2:-$1}
    mkdir -p target/staticlib
    (cd "crates/$crate" && rt lib) >"target/$1.log" 2>&1 && cp "crates/$crate/out/lib$crate.a" "target/staticlib/lib$1.a" || {
        cat "target/$1.log" >&2
        return 1
    }
}

# make_archive: target/staticlib/libmcs48_c.a, what C links; the crate mcs48_c_c exports it.
make_archive() {
    make_library mcs48_c mcs48_c_c
}

# need COMMAND PACKAGE..: installs Debian's packages where the command is missing.
need() {
    local command=$1
    shift
    command -v "$command" >/dev/null && return
    apt-get install -y "$@" >/dev/null 2>&1 || { apt-get update && apt-get install -y "$@"; } >/dev/null 2>&1
    command -v "$command" >/dev/null
}

# compile OUT WORDS..: C for x86-64, to link with a proved library. On Arm by the cross compiler, and static, since the emulator has no
# libraries of its own to load.
compile() {
    local out=$1 cc=(cc)
    shift
    if [ "$(uname -m)" = x86_64 ]; then
        need cc gcc libc6-dev || return
    else
        need x86_64-linux-gnu-gcc gcc-x86-64-linux-gnu libc6-dev-amd64-cross || return
        cc=(x86_64-linux-gnu-gcc -static)
    fi
    "${cc[@]}" -std=c11 -O2 -Wall -Wextra -Wpedantic -Wconversion -Werror -Iinclude -o "$out" "$@"
}

# run_built FILE WORDS..: runs what compile has made.
run_built() {
    local tools
    tools=$(kit_tools)
    if [ -x "$tools/bin/qemu-x86_64" ]; then
        "$tools/bin/qemu-x86_64" "$@"
    else
        "$@"
    fi
}
