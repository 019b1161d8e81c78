#!/usr/bin/env bash
# Lets llvm-objdump read an image that write_image made, and prints its segments, sections, fixups and symbols. It is no part
# of the gate. Where llvm-objdump or the proved program is missing it says so and ends.
# usage: tools/image-against-llvm.sh (build the program first: cd crates/bench_image && rt run)
set -euo pipefail
top=$(cd "$(dirname "${BASH_SOURCE[0]}")/.." && pwd)
program=$top/crates/bench_image/out/bench_image
objdump=$(command -v llvm-objdump-19 || command -v llvm-objdump || true)
[ -n "$objdump" ] || { echo "image-against-llvm: no llvm-objdump" >&2; exit 0; }
[ -x "$program" ] || { echo "image-against-llvm: build crates/bench_image first" >&2; exit 0; }
work=$(mktemp -d)
trap 'rm -rf "$work"' EXIT
"$program" 20000 3 1200 1 0 | tail -n 1 | xxd -r -p >"$work/image"
"$objdump" --macho --private-headers "$work/image" | grep -E 'segname|sectname|vmaddr|fileoff|dataoff|symoff|nsyms|cmd |name '
if "$objdump" --help | grep -q -- --chained-fixups; then
    "$objdump" --macho --chained-fixups "$work/image"
else
    echo "image-against-llvm: this llvm-objdump doesn't print fixups" >&2
fi
"$objdump" --macho --syms "$work/image"
