#!/usr/bin/env bash
# Times `paclab run` on a source of 1,000 lines over the proved build: instructions counted by callgrind, which is
# repeatable, also of half as many lines and of each stage, and seconds for orientation. Usage: bench/run.sh [LINES]
set -euo pipefail
top=$(cd "$(dirname "${BASH_SOURCE[0]}")/.." && pwd)
lines=${1:-1000}
program=$top/crates/paclab/out/paclab
[ -x "$program" ] || { echo "bench: build the proved program first: cd crates/paclab && rt run" >&2; exit 1; }
work=$(mktemp -d)
trap 'rm -rf "$work"' EXIT
source_of() {
    printf '#include <stdio.h>\nint main(void){\n'
    for ((i = 0; i < $1; i++)); do printf 'putchar(%d);\n' $((65 + i % 26)); done
    printf 'return 0;\n}\n'
}
count() {
    source_of "$1" >"$work/source.c"
    valgrind --tool=callgrind --callgrind-out-file="$work/calls" "$program" run "$work/source.c" 2>&1 >/dev/null |
        awk '/Collected/ {print $NF}'
}
# The stages as LLVM leaves their functions: the image's making and reading are inlined into `load_written`, the run into
# `answer`, and the report into the program's start.
stages() {
    callgrind_annotate --tree=calling --inclusive=yes --threshold=100 "$work/calls" 2>/dev/null | awk '
        function number(text) { gsub(",", "", text); return text + 0 }
        /%\)  \*  / { caller = $0; next }
        /%\)  >  / {
            cost = number($1)
            if (caller ~ /top::answer/) {
                if ($0 ~ /source::framed/) read += cost
                else if ($0 !~ /load_written/) run += cost
            } else if (caller ~ /load_written/) {
                if ($0 ~ /write_image/) written += cost
                else if ($0 ~ /memset/) zeros += cost
                else if ($0 ~ /Segments|Exports|TextDigest|TextKey/) load += cost
                else compile += cost
            } else if (caller ~ /paclab::main\+start/ && $0 !~ /top::answer/) report += cost
        }
        END { print read + 0, compile + 0, written + 0, load + 0, zeros + 0, run + 0, report + 0 }'
    callgrind_annotate --inclusive=no --threshold=100 "$work/calls" 2>/dev/null | awk '
        function number(text) { gsub(",", "", text); return text + 0 }
        /top::answer/ { run = number($1) }
        /load_written/ { compile = number($1) }
        /paclab::main\+start/ { report = number($1) }
        END { print compile + 0, run + 0, report + 0 }'
}
half=$(count $((lines / 2)))
whole=$(count "$lines")
stages | awk -v whole="$whole" '
    NR == 1 { read = $1; compile = $2; written = $3; load = $4; zeros = $5; run = $6; report = $7 }
    NR == 2 {
        compile += $1; run += $2; report += $3
        printf "read %d compile %d image %d load %d zeros %d run %d report %d rest %d\n", read, compile, written, load, zeros,
            run, report, whole - read - compile - written - load - zeros - run - report
    }'
source_of "$lines" >"$work/source.c"
begin=$(date +%s%N)
"$program" run "$work/source.c" >/dev/null
end=$(date +%s%N)
echo "lines $lines instructions $whole half $half ratio $(awk "BEGIN {printf \"%.2f\", $whole / $half}") milliseconds $(((end - begin) / 1000000))"
