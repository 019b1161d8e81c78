#!/usr/bin/env bash
# Times `decode` of the proved build over a text of 1 MiB: instructions a word, counted by callgrind, for a word of each of
# several lines of the table from its first to its last, for a word of no row, and for all of these mixed; and words a
# second of the mixed text by processor time. Usage: bench/decode.sh
set -euo pipefail
top=$(cd "$(dirname "${BASH_SOURCE[0]}")/.." && pwd)
program=$top/crates/bench_decode/out/bench_decode
[ -x "$program" ] || { echo "bench: build the proved program first: cd crates/bench_decode && rt run" >&2; exit 1; }
words_in_text=262144
rows=(
    'adrp=90000000' 'add(imm)=91000420' 'movz=d2800020' 'ubfm=d3401c20' 'and=8a020020' 'subs=eb02003f' 'madd=9b020c20'
    'sdiv=9ac20c20' 'asrv=9ac22820' 'csinc=9a820420' 'pacga=9ac23020' 'pacia=dac10020' 'autdb=dac11c20' 'xpaci=dac143e0'
    'ldr=f9400420' 'ldrsw=b9800420' 'ldrsb=39800420' 'stur=f81f8020' 'ldp=a9400c22' 'b=14000001' 'b.eq=54000020'
    'cbnz=b5000020' 'svc=d4000021' 'nop=d503201f' 'retab=d65f0fff' 'ret=d65f03c0' 'blraaz=d63f0a1f' 'blrab=d73f0e11'
    'none=00000000'
)
count() {
    valgrind --tool=callgrind --callgrind-out-file=/dev/null "$program" "$@" 2>&1 >/dev/null | awk '/Collected/ {print $NF}'
}
# The cost of a word is that of decoding the text twice without that of decoding it once.
cost() {
    awk -v twice="$(count 2 "$@")" -v once="$(count 1 "$@")" -v words=$words_in_text 'BEGIN {printf "%.1f", (twice - once) / words}'
}
mixed=()
for row in "${rows[@]}"; do
    echo "${row%=*} $(cost "${row#*=}") instructions"
    mixed+=("${row#*=}")
done
echo "mixed $(cost "${mixed[@]}") instructions"
TIMEFORMAT=%U
spent=$(for _ in 1 2 3 4 5; do { time "$program" 400 "${mixed[@]}" >/dev/null; } 2>&1; done | sort -g | head -1)
awk -v words=$((400 * words_in_text)) -v spent="$spent" 'BEGIN {printf "mixed %.0f million words a second\n", words / spent / 1e6}'
