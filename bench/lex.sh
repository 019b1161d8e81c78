#!/usr/bin/env bash
# Times `lex` on texts of 1 MiB over the proved build: instructions of one call counted by callgrind, which is repeatable,
# those of a quarter of the text to show how the cost grows, and MB per second for orientation.
# Usage: bench/lex.sh [SHAPE ..], shapes being those of crates/bench_lex.
set -euo pipefail
top=$(cd "$(dirname "${BASH_SOURCE[0]}")/.." && pwd)
program=$top/crates/bench_lex/out/bench_lex
[ -x "$program" ] || { echo "bench: build the proved program first: cd crates/bench_lex && rt run" >&2; exit 1; }
[ $# -gt 0 ] || set -- source names distinct colliding marks spaces comment string digits
whole=1048576
times=100
# The instructions of TIMES calls on a text of BYTES bytes, with those that make the text.
count() {
    valgrind --tool=callgrind --callgrind-out-file=/dev/null "$program" "$@" 2>&1 >/dev/null |
        awk '/Collected/ {print $NF}'
}
# The instructions of one call.
call() {
    echo $(($(count "$1" "$2" 2) - $(count "$1" "$2" 1)))
}
for shape in "$@"; do
    all=$(call "$shape" $whole)
    quarter=$(call "$shape" $((whole / 4)))
    seconds=$({ TIMEFORMAT=%U; time "$program" "$shape" $whole $times >/dev/null; } 2>&1)
    awk -v shape="$shape" -v all="$all" -v quarter="$quarter" -v seconds="$seconds" -v bytes=$((whole * times)) 'BEGIN {
        printf "%s: %d instructions, %.1f a byte, %.2f times those of a quarter, %.0f MB a second\n",
            shape, all, all * '$times' / bytes, all / quarter, bytes / 1000000 / seconds
    }'
done
