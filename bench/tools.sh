# shellcheck shell=bash disable=SC2034,SC2154
# What bench/run and tests/verilog share: tools installed from Debian's packages where they
# are missing, and C for x86-64 linked with the proved calls. `room` is the caller's temporary folder.

compiler=x86_64-linux-gnu-gcc emulator=qemu-x86_64

compiles() { # for x86-64, with a C library to link
    echo 'int main(void) { return 0; }' | "$compiler" -static -x c -o "$room/empty" - 2>/dev/null
}
emulates() {
    command -v "$emulator" >/dev/null
}

# need TEST PACKAGE..: installs the packages where the test fails. It fails where that does not help.
need() {
    "$1" && return
    echo "installing ${*:2}" >&2
    { apt-get update && DEBIAN_FRONTEND=noninteractive apt-get install -y --no-install-recommends "${@:2}"; } >"$room/apt" 2>&1 </dev/null || true
    "$1" && return
    cat "$room/apt" >&2
    echo "${*:2} cannot be installed" >&2
    return 1
}
need_compiler() {
    if [ "$(uname -m)" = x86_64 ]; then
        need compiles gcc libc6-dev
    else
        need compiles gcc-x86-64-linux-gnu libc6-dev-amd64-cross
    fi
}
need_emulator() {
    need emulates qemu-user
}

# The proved calls, proved and compiled where that is still to be done.
calls=crates/bench_calls/out/libbench_calls.a
build_calls() {
    (cd crates/bench_calls && rt lib) >"$room/rt" 2>&1 && return
    cat "$room/rt" >&2
    return 1
}

compile() { # NAME SOURCE..
    "$compiler" -O2 -static -no-pie -o "$room/$1" "${@:2}"
}
