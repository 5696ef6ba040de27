# Sourced, not run: what the scripts here and tests/run share. The archive and the programs are x86-64 code; on another machine C
# programs are cross-compiled and all run under an emulator, both from Debian packages that are installed where missing.

library=cisternfox
archive=crates/$library/out/lib$library.a
program=crates/run/out/run
version=$(sed -n 's/^#define CF_VERSION "\(.*\)"$/\1/p' include/$library.h)

# A person who waits sees what for.
say() {
    echo "$*" >&2
}

# Fetches and installs Debian packages.
fetch() {
    say "installing $*"
    apt-get update -qq >&2
    DEBIAN_FRONTEND=noninteractive apt-get install -qq -y --no-install-recommends "$@" >&2
}

# Installs the packages of the second word and those after it where the program of the first is missing.
need() {
    command -v "$1" >/dev/null || fetch "${@:2}"
}

# Sets `under` to what runs x86-64 programs here.
runner() {
    under=()
    [ "$(uname -m)" = x86_64 ] || {
        need qemu-x86_64 qemu-user
        # what the programs are linked to, where the machine has no such loader of its own
        [ -e /usr/x86_64-linux-gnu/lib/ld-linux-x86-64.so.2 ] || fetch libc6-amd64-cross
        export QEMU_LD_PREFIX=/usr/x86_64-linux-gnu
        under=(qemu-x86_64)
    }
}

# Sets `cc` and `cxx` to what compiles and links for x86-64.
compilers() {
    cc=(cc) cxx=(c++)
    [ "$(uname -m)" = x86_64 ] || {
        need x86_64-linux-gnu-gcc gcc-x86-64-linux-gnu libc6-dev-amd64-cross
        need x86_64-linux-gnu-g++ g++-x86-64-linux-gnu
        # static: there may be no x86-64 loader here. Not so C++, which links libm: Debian's static one for this compiler names files
        # that are not there; the loader is the one that `runner` points to
        cc=(x86_64-linux-gnu-gcc -static) cxx=(x86_64-linux-gnu-g++)
    }
}

# `prove all check` proves every crate; `prove lib CRATE` proves a crate and those that it stands on, and builds its archive; `prove run
# CRATE` builds a program, and runs it once on what stands on standard input, since rt builds none without. It shows each crate as it is
# proved: one line that is rewritten on a terminal, plain lines elsewhere. What rt printed is in target/logs/, and is shown where it fails.
prove() {
    command -v rt >/dev/null || { say "the Rattle toolchain is not here: there is no rt"; exit 1; }
    local log=$PWD/target/logs/$1-$2
    mkdir -p target/logs
    case $1 in
    # as many crates at a time as there are processors
    all) rt "$@" --jobs "$(nproc)" ;;
    # for every x86-64, where rt's default asks for more of the processor
    *) (cd "crates/$2" && rt "$1" --cpu x86-64) ;;
    esac 2>&1 | python3 scripts/progress "$log" "${@:2}" ||
        # on another machine rt builds a program and cannot run it
        { [ "$(uname -m)" != x86_64 ] && grep -q '^rt: running out/' "$log"; } ||
        { cat "$log"; exit 1; }
}
