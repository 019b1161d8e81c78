#!/usr/bin/env bash
# Counts the instructions of making, laying out and comparing the types of a chain of typedefs over the proved build, by callgrind:
# `typedef T0 (*T1)(T0); typedef T1 (*T2)(T1); ..`, of 25, 50 and 99 lines. Written out, each type is twice the one before.
# Usage: bench/types.sh [LINES ..].
set -euo pipefail
top=$(cd "$(dirname "${BASH_SOURCE[0]}")/.." && pwd)
program=$top/crates/bench_types/out/bench_types
[ -x "$program" ] || { echo "bench: build the proved program first: cd crates/bench_types && rt run" >&2; exit 1; }
[ $# -gt 0 ] || set -- 25 50 99
# The instructions of so many calls on a chain of so many lines.
count() {
    valgrind --tool=callgrind --callgrind-out-file=/dev/null "$program" "$@" 2>&1 >/dev/null |
        awk '/Collected/ {print $NF}'
}
for lines in "$@"; do
    once=$(count "$lines" 1)
    twice=$(count "$lines" 2)
    echo "$lines lines: $((twice - once)) instructions, $(((twice - once) / lines)) a line"
done
