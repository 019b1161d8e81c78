#!/usr/bin/env bash
# Times SipHash-2-4 over the proved build, on messages of 17 bytes and of 1 MiB: instructions counted by callgrind, which
# are repeatable, and the best processor time of five runs. Usage: bench/sip.sh
set -euo pipefail
top=$(cd "$(dirname "${BASH_SOURCE[0]}")/.." && pwd)
program=$top/crates/bench_sip/out/bench_sip
[ -x "$program" ] || { echo "bench: build the proved program first: cd crates/bench_sip && rt run" >&2; exit 1; }
instructions() {
    valgrind --tool=callgrind --callgrind-out-file=/dev/null "$program" "$1" "$2" 2>&1 >/dev/null | awk '/Collected/ {print $NF}'
}
# Processor time, which other work on the machine disturbs least.
seconds() {
    local TIMEFORMAT=%U
    for _ in 1 2 3 4 5; do
        { time "$program" "$1" "$2" >/dev/null; } 2>&1
    done | sort -g | head -1
}
# The cost of a message is that of many without that of few.
line() {
    local bytes=$1 few=$2 many=$3 timed=$4
    awk -v bytes="$bytes" -v counted=$(($(instructions "$bytes" "$many") - $(instructions "$bytes" "$few"))) \
        -v messages=$((many - few)) -v spent="$(seconds "$bytes" "$timed")" -v timed="$timed" 'BEGIN {
        printf "%d bytes: %.0f instructions a message, %.2f a byte, %.2f million messages and %.2f GB a second\n",
            bytes, counted / messages, counted / messages / bytes, timed / spent / 1e6, timed * bytes / spent / 1e9
    }'
}
line 17 1000 101000 20001000
line 1048576 1 21 1001
