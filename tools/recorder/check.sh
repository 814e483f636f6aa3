#!/bin/sh
# Builds the plugin, records the kernels of tests/ with their mistakes and without, and compares what is said with what was
# worked out by hand. Says SKIPPED where Oclgrind or an OpenCL loader to link with is not there.
#
#   check.sh      GPURACE_PROGRAM names a gpurace; without it that of this tree
set -eu
here=$(cd "$(dirname "$0")" && pwd)
failures=0
for needed in oclgrind oclgrind-kernel llvm-config-14 python3; do
    if ! command -v $needed > /dev/null; then
        echo "check.sh: SKIPPED, nothing was recorded: $needed is not here (Debian: apt-get install oclgrind" \
            "liboclgrind-dev llvm-14-dev ocl-icd-opencl-dev opencl-headers g++ make)"
        exit $failures
    fi
done
work=$(mktemp -d)
trap 'rm -rf "$work"' EXIT INT TERM
cd "$here/tests"
if ! "${CC:-cc}" -Wall -Wextra -o "$work/sum_tiles" sum_tiles.c -lOpenCL; then
    echo "check.sh: SKIPPED, nothing was recorded: no OpenCL program can be built (Debian: apt-get install" \
        "ocl-icd-opencl-dev)"
    exit $failures
fi

fail() {
    echo "FAILED: $*"
    cat "$work/said"
    failures=$((failures + 1))
}

# expect NAME STATUS LINE.. -- OPTION.. PROGRAM ARG..: the status, and lines that must be said (patterns of grep)
expect() {
    name=$1 status=$2
    shift 2
    : > "$work/lines"
    while [ "$1" != -- ]; do
        printf '%s\n' "$1" >> "$work/lines"
        shift
    done
    shift
    if "$here/../gpurace-record" --simulator "$@" > "$work/said" 2>&1; then got=0; else got=$?; fi
    [ "$got" = "$status" ] || fail "$name: status $got, and not $status"
    while IFS= read -r line; do
        grep -q -e "$line" "$work/said" || fail "$name: nowhere '$line'"
    done < "$work/lines"
}

# has FILE LINE..: the file of the kept launch has these lines (patterns of grep)
has() {
    file=$work/kept/000-sum_tiles/$1
    shift
    for line in "$@"; do
        grep -q -x -e "$line" "$file" || { cp "$file" "$work/said"; fail "$file: nowhere '$line'"; }
    done
}

expect "no mistake" 0 "sum 2016" "launch 0, sum_tiles: nothing found (4 groups of 16 work-items" \
    "1 launch: 0 with findings, 1 without, 0 not judged" -- "$work/sum_tiles" sum_tiles.cl 0
# each item writes tile[l]; items below 8 then read tile[l + 8]: eight words in each of four groups
expect "a barrier is missing" 1 "races 32 diverge 0 unmatched 0 held 0" \
    "race on tile\[8..15\] of 4 groups (32 words); on tile\[8\] of group 0:" \
    "kernel.cl:15:[0-9]*: write by group 0, item 8" "tile\[l\] = input\[get_global_id(0)\];" \
    "kernel.cl:19:[0-9]*: read by group 0, item 0" "a barrier with CLK_LOCAL_MEM_FENCE between them would" -- "$work/sum_tiles" sum_tiles.cl 1
expect "a flag is missing" 1 "races 32 diverge 0 unmatched 0 held 0" "the barrier at kernel.cl:16:5 does not order local memory: give it CLK_LOCAL_MEM_FENCE" \
    -- "$work/sum_tiles" sum_tiles.cl 2
# after the first barrier only items below 8, 4, 2 and 1 come: four divergent barriers a group, and tile[1..7] race
expect "barriers in a branch" 1 "races 28 diverge 16 unmatched 0 held 0" "race on tile\[1..7\] of 4 groups (28 words)" \
    "divergent barrier, number 1 of group 0, and 15 more alike:" "some work-items never reach it; 28 races follow from it" "kernel.cl:21:[0-9]*: 8 work-items, the first is item 0" \
    "no barrier: 8 work-items, the first is item 8" -- "$work/sum_tiles" sum_tiles.cl 3
expect "a window" 1 "races 16 diverge 0" "only groups 1 to 2 of 4 were recorded" \
    -- --groups 1:2 "$work/sum_tiles" sum_tiles.cl 1
expect "no group of the window" 2 "not recorded: it has 4 work-groups, and none of the window" \
    -- --groups 4:2 "$work/sum_tiles" sum_tiles.cl 1
expect "another kernel" 2 "no launch was recorded" -- --kernel other "$work/sum_tiles" sum_tiles.cl 1
expect "another launch" 2 "no launch was recorded" -- --launch 1 "$work/sum_tiles" sum_tiles.cl 1
expect "this kernel, and this launch" 1 "races 32 diverge 0" -- --kernel sum_tiles --launch 0 "$work/sum_tiles" sum_tiles.cl 1
expect "no program" 3 "there is no program ./sum" -- ./sum sum_tiles.cl 1
expect "no file" 3 "there is no file sum.sim" -- sum.sim
echo "a test" > "$work/label"
export GPURACE_LABEL="$work/label"
expect "a launch that is kept" 0 "recorded in $work/kept: 000-sum_tiles" \
    -- --only-record --keep "$work/kept" "$work/sum_tiles" sum_tiles.cl 1
# 160 records of a group: each of 16 items reads a number, writes it to the tile, comes to four barriers and writes a mark, a
# byte; 15 sums are two reads and a write each; one item reads the last and writes it; and the end
has buffers "g [0-9]* 64 input" "g [0-9]* 4 sums" "g [0-9]* 64 marks.byte" "l 0 [0-9]* 16 tile" "l 3 [0-9]* 16 tile"
unset GPURACE_LABEL
has info.txt "kernel sum_tiles" "launch 0" "label a test" "global 64 1 1" "local 16 1 1" "groups 4" "items 64" "records 640" \
    "accesses-of-parts-of-words 64"
expect "a folder that is not empty" 3 "$work/kept is not empty" -- --keep "$work/kept" "$work/sum_tiles" sum_tiles.cl 0
# six groups count themselves in turn; the last reads the five other parts
expect "a hand-over" 0 "launch 0, sum_all: nothing found" \
    -- --opencl20 --build-options -DORDER=memory_order_acq_rel sum_all.sim
expect "a hand-over of a program that asks for OpenCL 2.0" 0 "launch 0, sum_all: nothing found" \
    -- --build-options "-cl-std=CL2.0 -DORDER=memory_order_acq_rel" sum_all.sim
expect "atomics of a program that does not ask for OpenCL 2.0" 2 "no launch was recorded" "since it has atomics of OpenCL 2.0: --opencl20 gives it these" \
    -- --build-options -DORDER=memory_order_acq_rel sum_all.sim
# one thread runs the groups one by one, so that the last one is group 5, and nobody waits for a lock
export OCLGRIND_NUM_THREADS=1
# each of three groups takes a lock that is a flag, reads and writes the counter, lets it go, and ends
expect "a lock that is a flag" 0 "flag_lock: nothing found (3 groups of 1 work-item, 15 records)" \
    -- --build-options "-cl-std=CL2.0 -DORDER=memory_order_release" flag_lock.sim
expect "a relaxed count" 1 "races 5 diverge 0 unmatched 0 held 0" "race on parts\[0..4\]" "a release that an acquire takes, at memory_scope_device, would" \
    -- --opencl20 --build-options -DORDER=memory_order_relaxed sum_all.sim
# a scope that has no other item of the group is none that has other groups
for scope in work_item sub_group; do
    expect "a count of the scope $scope" 1 "races 6 diverge 0 unmatched 0 held 0" "race on parts\[0..4\]" "race on count\[0\]" \
        "atomics of work-item or sub-group scope, taken as of work-group scope: a race in a group may be missed: 6" \
        -- --opencl20 --build-options "-DORDER=memory_order_acq_rel -DSCOPE=memory_scope_$scope" sum_all.sim
done
# of the six releases that the load is to name, four are of groups that are not recorded
expect "a window of hand-overs" 2 "sum_all: nothing found in what was recorded (2 groups" "hand-overs from groups outside the window, not recorded: 4" \
    -- --opencl20 --groups 4:2 --build-options "-DORDER=memory_order_release -DACQUIRES" sum_all.sim
# group 2 is stopped, and group 3 never begins
expect "a kernel that is stopped" 2 "nothing found in what was recorded (4 groups of 2 work-items, 15 records)" \
    "records of 2 of 4 groups were lost (the first is group 2)" -- stopped.sim
unset OCLGRIND_NUM_THREADS
expect "a lock that is a flag and releases nothing" 1 "race on counter\[0\]" -- --build-options "-cl-std=CL2.0 -DORDER=memory_order_relaxed" flag_lock.sim
expect "releases alone" 1 "races 5 diverge 0 unmatched 0 held 0" \
    -- --opencl20 --build-options -DORDER=memory_order_release sum_all.sim
# Each count continues the sequences of all before it: the load names six releases, four of them by a load before it. Six
# groups write a part, count and end, the last one loads twice, and adds six parts with two reads and a write each.
expect "releases, and a load that acquires" 0 "sum_all: nothing found (6 groups of 1 work-item, 38 records)" \
    -- --opencl20 --build-options "-DORDER=memory_order_release -DACQUIRES" sum_all.sim
# two groups of two items each write a word; what they read of the table is not recorded
expect "constant memory" 0 "constants: nothing found (2 groups of 2 work-items, 6 records)" -- constants.sim
# each group has a record of each of its 64 items, and its end
expect "a large launch" 0 "large: nothing found (128 groups of 64 work-items, 8320 records)" -- large.sim
expect "a large window" 2 "(65 groups of 64 work-items, 4225 records)" "only groups 1 to 65 of 128 were recorded" \
    -- --groups 1:65 large.sim
expect "two windows" 2 "(16 groups of 64 work-items, 1040 records)" \
    "only groups 0 to 7, 96 to 103 of 128 were recorded" "in the trace these groups are 0 to 7, 8 to 15" -- --groups 0:8,96:8 large.sim
expect "windows in disorder" 3 "several in ascending order" -- --groups 96:8,0:8 large.sim
expect "a window of it" 2 "(32 groups of 64 work-items, 2080 records)" "groups 96 to 127 of 128" \
    -- --groups 96:32 large.sim
expect "a copy that is waited for" 0 "copy_tiles: nothing found" -- --build-options -DWAIT=1 copy_tiles.sim
expect "a copy that is not" 1 "races 16 diverge 0" "kernel.cl:6:[0-9]*: write by group 0, asynchronous copy" \
    "event_t copied = async_work_group_copy(tile, input + first, 8, 0);" -- --build-options -DWAIT=0 copy_tiles.sim
expect "a barrier beside a wait" 0 "waits: nothing found" -- waits.sim
expect "a wait that is no barrier" 1 "races 16 diverge 0" "race on turned\[0..7\] of 2 groups" \
    "wait_group_events at kernel.cl:8:5 waits for copies and is no barrier" -- --build-options -DWRONG waits.sim
# two copies of one input under way: the second one writes what is read before it is waited for
expect "two copies of the same" 1 "races 16 diverge 0" "kernel.cl:8:[0-9]*: write by group 0, asynchronous copy" \
    "copied = async_work_group_copy(other, input + first, 8, copied);" -- --build-options -DWAIT=2 copy_tiles.sim
# each item writes its word by a call, and the next one's by a call in a call: item 0 that of item 1
expect "one place that is called twice" 1 "races 1 diverge 0" "race on tile\[1\] of group 0" "kernel.cl:4:[0-9]*: write by group 0, item 0" \
    "called at kernel.cl:8:[0-9]*: put(tile, l + 1, 2);" "called at kernel.cl:15:[0-9]*: put_next(tile, l);" \
    "kernel.cl:4:[0-9]*: write by group 0, item 1" "called at kernel.cl:14:[0-9]*: put(tile, l, 1);" -- calls.sim
# of four items in two groups two write two words, and two read two and write one; and two ends
expect "components of vectors" 0 "components: nothing found (2 groups of 2 work-items, 12 records)" -- components.sim
expect "components that are written" 1 "race on both\[0\].y, both\[1\].y" "kernel.cl:7:[0-9]*: read by group 0, item 1" \
    "kernel.cl:12:[0-9]*: write by group 0, item 0" -- --build-options -DWRONG components.sim
# twelve bytes and shorts lie side by side; the thirteenth of each is written by several
expect "parts of words" 1 "races 2 diverge 0 unmatched 0 held 0" "race on bytes\[12\]" "write by group 4 (1,1), item 0 (0,0)" \
    "write by group 4 (1,1), item 1 (1,0)" "race on shorts\[12\]" "let one of them do so, or give each a word of its own by another index" -- parts.sim
# four work-items execute a fence, and one of them writes after the buffer; two groups write four words and end
expect "what is left out" 1 "left_out: FOUND (2 groups of 2 work-items, 6 records)" \
    "note: fences: 4: no work-item does an atomic access, and a fence alone orders nothing between work-items" \
    "out of bounds: write of 4 bytes, right after the end of words, which has 16 bytes:" "kernel.cl:8:[0-9]*: write by group 1, item 1" -- left_out.sim
# an atomic and reads by a call that begin before a buffer, or end after it
expect "out of bounds" 1 "out of bounds: read of 4 bytes, 8 bytes before the start of words, which has 16 bytes:" "kernel.cl:3:[0-9]*: read by group 0, item 0" \
    "called at kernel.cl:9:[0-9]*: " "read of 16 bytes, partly after the end of words, which has 16 bytes:" "2 times" \
    "atomic of 4 bytes, 4 bytes after the end of tile, which has 8 bytes:" -- outside.sim
# the folder is the same whatever the number of threads, where no atomics meet
for threads in 1 4; do
    OCLGRIND_NUM_THREADS=$threads "$here/../gpurace-record" --simulator --only-record --keep "$work/by-$threads" \
        "$work/sum_tiles" sum_tiles.cl 3 > "$work/said" 2>&1
done
diff -r "$work/by-1" "$work/by-4" > "$work/said" || fail "one thread, and four"
# where they meet, each acquire names what it read from
for turn in 1 2 3; do
    OCLGRIND_NUM_THREADS=4 "$here/../gpurace-record" --opencl20 --only-record --keep "$work/chains-$turn" chains.sim > "$work/said" 2>&1
    python3 chains.py "${GPURACE_PROGRAM:-$here/../../gpurace}" "$work/chains-$turn/000-chains" "$work/said" > "$work/names" 2>&1 ||
        { cp "$work/names" "$work/said"; fail "names by four threads"; }
done

[ $failures = 0 ] || exit 1
echo "check.sh: the recorder and its reports are as expected"
