#!/usr/bin/env bash
# Times `check` over the proved build on a text of 16 MiB beside `sha256sum` of as many bytes, in seconds of user time, and
# counts its instructions by callgrind on a text of 1 MiB and of a quarter of that: for functions as a compiler makes them, and
# for two functions made to cost much, half of branches into windows broken one after another, or into words that only look as
# if they opened a window. Usage: bench/check.sh [TIMES]
set -euo pipefail
top=$(cd "$(dirname "${BASH_SOURCE[0]}")/.." && pwd)
program=$top/crates/bench_check/out/bench_check
[ -x "$program" ] || { echo "bench: build the proved program first: cd crates/bench_check && rt run" >&2; exit 1; }
times=${1:-10}
words=4194304
seconds() {
    { TIMEFORMAT=%U; time "$program" "$1" $words "$2" >/dev/null; } 2>&1
}
# The instructions of one check.
count() {
    local once twice
    once=$(valgrind --tool=callgrind --callgrind-out-file=/dev/null "$program" "$1" "$2" 1 2>&1 >/dev/null | awk '/Collected/ {print $NF}')
    twice=$(valgrind --tool=callgrind --callgrind-out-file=/dev/null "$program" "$1" "$2" 2 2>&1 >/dev/null | awk '/Collected/ {print $NF}')
    echo $((twice - once))
}
sums=$({ TIMEFORMAT=%U; time head -c $((4 * words * times)) /dev/zero | sha256sum >/dev/null; } 2>&1)
for shape in functions broken pages; do
    once=$(seconds $shape 1)
    more=$(seconds $shape $((times + 1)))
    whole=$(count $shape 262144)
    quarter=$(count $shape 65536)
    awk -v shape=$shape -v once="$once" -v more="$more" -v sums="$sums" -v times="$times" -v whole="$whole" -v quarter="$quarter" 'BEGIN {
        one = (more - once) / times
        printf "%s: %.0f ms for 16 MiB, sha256sum %.0f ms, %.1f instructions a word, %.2f times those of a quarter\n",
            shape, 1000 * one, 1000 * sums / times, whole / 262144, whole / quarter
    }'
done
