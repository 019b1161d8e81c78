#!/usr/bin/env bash
# Times `parse` over the proved build: instructions of one call counted by callgrind, which is repeatable, those of a half and of a
# quarter of the file to show how the cost grows, and tokens per second of processor time, the best of many runs, for orientation. The
# files: 280 functions of C (16,000 nodes), an initializer list and a block as wide as is legal, functions as deep as is legal, and
# typedefs of 2,000 names. Then `lex` and `parse` of 1 MiB of source together beside `tcc -E` and `tcc -c` on the same text, where tcc
# is installed.
# Usage: bench/parse.sh [SHAPE ..], shapes being those of crates/bench_parse. PROGRAM names another build.
set -euo pipefail
top=$(cd "$(dirname "${BASH_SOURCE[0]}")/.." && pwd)
program=${PROGRAM:-$top/crates/bench_parse/out/bench_parse}
[ -x "$program" ] || { echo "bench: build the proved program first: cd crates/bench_parse && rt run" >&2; exit 1; }
[ $# -gt 0 ] || set -- source list block deep typedefs
declare -A copies=([source]=280 [list]=16380 [block]=5400 [deep]=600 [typedefs]=2000)
rounds=10
times=40
# The instructions of a command.
count() {
    valgrind --tool=callgrind --callgrind-out-file=/dev/null "$@" 2>&1 >/dev/null | awk '/Collected/ {print $NF}'
}
# The instructions of one call on a file of so many copies.
call() {
    echo $(($(count "$program" "$1" "$2" 2) - $(count "$program" "$1" "$2" 1)))
}
# The milliseconds of processor time of a command, the best of the rounds.
best() {
    for _ in $(seq $rounds); do
        perf stat -e task-clock:u "$@" 2>&1 >/dev/null | awk '/task-clock/ {print $1}'
    done | sort -g | head -1
}
for shape in "$@"; do
    n=${copies[$shape]}
    tokens=$("$program" "$shape" "$n" 1 | awk '{print $1}')
    all=$(call "$shape" "$n")
    half=$(call "$shape" $((n / 2)))
    quarter=$(call "$shape" $((n / 4)))
    once=$(best "$program" "$shape" "$n" 1)
    more=$(best "$program" "$shape" "$n" $((times + 1)))
    awk -v shape="$shape" -v tokens="$tokens" -v all="$all" -v half="$half" -v quarter="$quarter" -v once="$once" -v more="$more" -v times=$times 'BEGIN {
        printf "%s: %d tokens, %.0f instructions a token, %.2f times those of a half, %.2f of a quarter, %.1f million tokens a second\n",
            shape, tokens, all / tokens, all / half, all / quarter, tokens * times / 1000 / (more - once)
    }'
done
command -v tcc >/dev/null || exit 0
folder=$(mktemp -d)
trap 'rm -r "$folder"' EXIT
unit=$folder/unit.c
"$program" source 2907 0 >"$unit"
tcc -c "$unit" -o "$folder/unit.o"
show() {
    printf '%s: %d million instructions, %.1f ms\n' "$1" $(($2 / 1000000)) "$3"
}
echo "on $(stat -c %s "$unit") bytes of source:"
made=$(count "$program" source 2907 0)
made_in=$(best "$program" source 2907 0)
show 'lex and parse' $(($(count "$program" source 2907 1) - made)) "$(best "$program" source 2907 1 | awk -v made="$made_in" '{print $1 - made}')"
show 'tcc -E' "$(count tcc -E "$unit" -o /dev/null)" "$(best tcc -E "$unit" -o /dev/null)"
show 'tcc -c' "$(count tcc -c "$unit" -o "$folder/unit.o")" "$(best tcc -c "$unit" -o "$folder/unit.o")"
