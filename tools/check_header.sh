#!/bin/sh
# Compiles the programs over gpurace_trace.h as C99 to C17 and as C++11 to C++20, each with all warnings as errors, and runs
# them: header_refusals.c (what is refused, and which answer says so), last_block.c (whose bytes are compared with the
# example's) and producer_threads.c (whose streams are judged, where there is a program to judge them).
#
#   check_header.sh      needs a C and a C++ compiler, `cc` and `c++` or $CC and $CXX; the gate doesn't know of it
#
# GPURACE_PROGRAM names a built gpurace; without it, the one of this tree is taken where it is built.
set -eu
tools=$(cd "$(dirname "$0")" && pwd)
data=$tools/../examples
program=${GPURACE_PROGRAM:-$tools/../crates/gr_cli/out/gr_cli}
work=$(mktemp -d)
trap 'rm -rf "$work"' EXIT INT TERM

# compile COMPILER.. -- PROGRAM
compile() {
    "$@" -pthread -Wall -Wextra -Wpedantic -Wconversion -Werror -o "$work/program"
}

check_as() {
    compile "$@" "$tools/header_refusals.c"
    "$work/program"
    compile "$@" "$tools/last_block.c"
    "$work/program" > "$work/trace.gpurace"
    cmp "$work/trace.gpurace" "$data/last_block_mended/trace.gpurace"
    compile "$@" "$tools/producer_threads.c"
    "$work/program" "$work"
}

# judge STATUS RACES WORD..: the streams of producer_threads have this status, and so many races
judge() {
    status=$1 races=$2
    shift 2
    "$work/program" "$work" "$@"
    if cat "$work"/group*.gpurace | "$program" replay > "$work/report"; then found=0; else found=$?; fi
    if [ "$found" != "$status" ] || ! grep -q "^end races $races diverge 0 unmatched 0 held 0$" "$work/report"; then
        echo "producer_threads $*: status $found" >&2
        cat "$work/report" >&2
        exit 1
    fi
}

for standard in c99 c11 c17; do check_as "${CC:-cc}" -std=$standard; done
for standard in c++11 c++14 c++17 c++20; do check_as "${CXX:-c++}" -std=$standard -x c++; done
echo "gpurace_trace.h: compiled as C99 to C17 and C++11 to C++20, refuses what it should, writes the example's trace"

# A write of the eighth part and the reads of the last group are of one item, so seven words race and not eight.
compile "${CC:-cc}" -std=c11 "$tools/producer_threads.c"
if [ -x "$program" ]; then
    judge 0 0
    judge 1 7 relaxed
    echo "producer_threads: no race, and the seven that a relaxed counter has"
else
    echo "producer_threads: written, but NOT JUDGED: there is no program $program (GPURACE_PROGRAM names one)"
fi
