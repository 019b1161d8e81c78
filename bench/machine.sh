#!/usr/bin/env bash
# Times loops of instructions on the machine over the proved build, in memory that is laid out as the loader does. For each
# loop of crates/bench_machine: the processor's instructions for one of the guest, counted by callgrind, which is repeatable;
# millions of guest instructions a second, of the processor time less that of a run of none; and the milliseconds of processor
# time of 300,000 from a cold start to the end of the short report. Times are the best of RUNS short runs (60 if not set), by
# perf stat. Then the processor's instructions for scripts of 10,000 and 100,000 lines, without those that a script of no line
# costs, and for each line; a text of 100,000 is read up to line 65,537 and refused there. Usage: bench/machine.sh
set -euo pipefail
top=$(cd "$(dirname "${BASH_SOURCE[0]}")/.." && pwd)
program=${PROGRAM:-$top/crates/bench_machine/out/bench_machine}
[ -x "$program" ] || { echo "bench: build the proved program first: cd crates/bench_machine && rt run" >&2; exit 1; }
counted() {
    valgrind --tool=callgrind --callgrind-out-file=/dev/null "$program" "$1" "$2" 2>&1 >/dev/null |
        awk '/Collected/ {print $NF}'
}
# The least processor time of the runs, in milliseconds.
milliseconds() {
    for _ in $(seq "${RUNS:-60}"); do
        perf stat -e task-clock "$program" "$1" "$2" 2>&1 >/dev/null | awk '/msec task-clock/ {print $1}'
    done | sort -g | head -1
}
none=$(milliseconds arithmetic 0)
for row in arithmetic:2000000 memory:2000000 globals:2000000 calls:500000 signs:500000; do
    name=${row%%:*}
    count=${row##*:}
    some=$(counted "$name" 100000)
    more=$(counted "$name" 300000)
    all=$(milliseconds "$name" "$count")
    cold=$(milliseconds "$name" 300000)
    awk -v name="$name" -v each="$(((more - some) / 20000))" -v count="$count" -v all="$all" -v none="$none" -v cold="$cold" \
        'BEGIN {printf "%s: %.1f instructions each, %.0f million a second, %.1f ms for 300,000\n", name, each / 10, count / (all - none) / 1e3, cold}'
done
for name in spread together; do
    none=$(counted "$name" 0)
    for count in 10000 60000 100000; do
        some=$(($(counted "$name" "$count") - none))
        echo "$name: $some instructions for $count lines, $((some / count)) each"
    done
done
