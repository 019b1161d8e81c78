#!/usr/bin/env bash
# Times `assemble` over the proved build on a text of 100,000 labels with an instruction behind each: seconds for
# orientation, and instructions counted by callgrind, also on a quarter of the text. Then instructions for texts of 10,000 and
# 20,000 labels that were picked so that they collide under a hasher of a fixed seed. Usage: bench/asm.sh [LABELS]
set -euo pipefail
top=$(cd "$(dirname "${BASH_SOURCE[0]}")/.." && pwd)
labels=${1:-100000}
program=$top/crates/bench_asm/out/bench_asm
[ -x "$program" ] || { echo "bench: build the proved program first: cd crates/bench_asm && rt run" >&2; exit 1; }
run() {
    valgrind --tool=callgrind --callgrind-out-file=/dev/null "$program" "$@" 2>&1 >/dev/null | awk '/Collected/ {print $NF}'
}
# The instructions for so many labels whose hashes end in so many zero bits. The making of the text is left out: it is the
# same for no run and for one.
count() {
    echo $(($(run "$1" "$2" 1) - $(run "$1" "$2" 0)))
}
ratio() {
    awk "BEGIN {printf \"%.2f\", $1 / $2}"
}
seconds() {
    local begin end
    begin=$(date +%s%N)
    "$program" "$labels" 0 "$1" >/dev/null
    end=$(date +%s%N)
    echo $((end - begin))
}
whole=$(count "$labels" 0)
quarter=$(count $((labels / 4)) 0)
once=$(($(seconds 11) - $(seconds 1)))
echo "labels $labels instructions $whole quarter $quarter ratio $(ratio "$whole" "$quarter")" \
    "lines per second $(awk "BEGIN {printf \"%.0f\", 2 * $labels * 10 / ($once / 1e9)}")"
picked=$(count 20000 8)
half=$(count 10000 8)
echo "picked labels 20000 instructions $picked half $half ratio $(ratio "$picked" "$half")"
