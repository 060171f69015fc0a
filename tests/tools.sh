# Finds the tools to build and run x86-64 programs. To be sourced. It sets
#     CC_X86    the C compiler for x86-64
#     CXX_X86   the C++ compiler for x86-64
#     RUN_X86   what to put before a program to run it; empty on an x86-64 machine
#
# need_x86_runner sees to what runs a program, need_x86_tools to the compilers too. Each installs what is missing where
# it can, and answers 1, having said what is missing, where it cannot be had.
# shellcheck shell=bash

if [[ $(uname -m) == x86_64 ]]; then
    CC_X86=gcc
    CXX_X86=g++
    RUN_X86=
    compiler_packages=(gcc g++ libc6-dev)
    runner_packages=()
else
    CC_X86=x86_64-linux-gnu-gcc
    CXX_X86=x86_64-linux-gnu-g++
    # The folder is where Debian keeps the C library that the two programs load.
    RUN_X86='qemu-x86_64 -L /usr/x86_64-linux-gnu'
    compiler_packages=(gcc-x86-64-linux-gnu g++-x86-64-linux-gnu)
    runner_packages=(qemu-user libc6-amd64-cross)
fi

missing_x86_runner() {
    [[ -z $RUN_X86 ]] && return
    command -v qemu-x86_64 >/dev/null || echo qemu-x86_64
    [[ -e ${RUN_X86##* }/lib/ld-linux-x86-64.so.2 ]] || echo "${RUN_X86##* }/lib/ld-linux-x86-64.so.2"
}

missing_x86_tools() {
    local tool
    for tool in "$CC_X86" "$CXX_X86"; do
        command -v "$tool" >/dev/null || echo "$tool"
    done
    missing_x86_runner
}

need_x86_runner() { see_to missing_x86_runner "${runner_packages[@]}"; }
need_x86_tools() { see_to missing_x86_tools "${compiler_packages[@]}" "${runner_packages[@]}"; }

# see_to MISSING PACKAGES..: MISSING is what prints the names of what is missing.
see_to() {
    local list=$1 missing
    shift
    missing=$("$list" | paste -sd' ')
    [[ -z $missing ]] && return 0
    echo "missing: $missing"
    if [[ $(id -u) != 0 ]] || ! command -v apt-get >/dev/null; then
        echo "install the Debian packages $*, or run this as root where apt-get is"
        return 1
    fi
    echo "installing by apt-get: $*"
    DEBIAN_FRONTEND=noninteractive apt-get install -y -q "$@" >/dev/null ||
        { apt-get update -q >/dev/null &&
          DEBIAN_FRONTEND=noninteractive apt-get install -y -q "$@" >/dev/null; }
    missing=$("$list" | paste -sd' ')
    [[ -z $missing ]] && return 0
    echo "still missing after the installation: $missing"
    return 1
}
