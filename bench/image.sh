#!/usr/bin/env bash
# Times `write_image` and `read_image` over the proved build, on an image of 16 MiB with 60,000 symbols and 150,000 slots, beside
# `sha256sum` of as many bytes. The seconds are of user time.
set -euo pipefail
top=$(cd "$(dirname "${BASH_SOURCE[0]}")/.." && pwd)
program=$top/crates/bench_image/out/bench_image
[ -x "$program" ] || { echo "bench: build the proved program first: cd crates/bench_image && rt run" >&2; exit 1; }
cells=14400000
times=${1:-10}
# The user time of so many writes, each with so many reads.
seconds() {
    { TIMEFORMAT=%U; time "$program" $cells 60000 150000 "$1" "$2" >/dev/null; } 2>&1
}
bytes=$("$program" $cells 60000 150000 1 1 | awk '/bytes/ {print $1}')
once=$(seconds 1 1)
reads=$(seconds 1 $((times + 1)))
writes=$(seconds $((times + 1)) 1)
sums=$({ TIMEFORMAT=%U; time head -c $((bytes * times)) /dev/zero | sha256sum >/dev/null; } 2>&1)
awk -v bytes="$bytes" -v times="$times" -v once="$once" -v reads="$reads" -v writes="$writes" -v sums="$sums" 'BEGIN {
    read = (reads - once) / times
    write = (writes - once) / times - read
    printf "%d bytes: read %.0f ms (%.0f MB a second), written %.0f ms (%.0f MB a second), sha256sum %.0f ms\n",
        bytes, 1000 * read, bytes / 1000000 / read, 1000 * write, bytes / 1000000 / write, 1000 * sums / times
}'
