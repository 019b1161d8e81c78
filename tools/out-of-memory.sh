#!/usr/bin/env bash
# Runs the proved program once for each of its allocations, which alone fails, and looks at what it answers: status 7 with
# nothing or the line `memory`, or all that it answers with ample memory. `rt try --fail-alloc N` does the same for one N, but
# compiles anew each time; here a library of a few lines stands before the C library's. It is no part of the gate. Build the
# program first: cd crates/paclab && rt run. Usage: tools/out-of-memory.sh
set -euo pipefail
top=$(cd "$(dirname "${BASH_SOURCE[0]}")/.." && pwd)
program=$top/crates/paclab/out/paclab
[ -x "$program" ] || { echo "out-of-memory: build the proved program first: cd crates/paclab && rt run" >&2; exit 1; }
work=$(mktemp -d)
trap 'rm -rf -- "$work"' EXIT

cat >"$work/fail.c" <<'C'
#include <errno.h>
#include <stdlib.h>
#include <unistd.h>

void *__libc_malloc(size_t);
void *__libc_calloc(size_t, size_t);
void *__libc_realloc(void *, size_t);
void *__libc_memalign(size_t, size_t);

static long calls, failing = -1;

static int fails(void) {
    if (failing < 0) {
        const char *number = getenv("FAILING");
        failing = number ? atol(number) : 0;
    }
    if (++calls != failing) return 0;
    if (write(2, "failed\n", 7)) {}
    errno = ENOMEM;
    return 1;
}

void *malloc(size_t n) { return fails() ? 0 : __libc_malloc(n); }
void *calloc(size_t n, size_t m) { return fails() ? 0 : __libc_calloc(n, m); }
void *realloc(void *p, size_t n) { return fails() ? 0 : __libc_realloc(p, n); }
void *aligned_alloc(size_t a, size_t n) { return fails() ? 0 : __libc_memalign(a, n); }
int posix_memalign(void **p, size_t a, size_t n) {
    if (fails()) return ENOMEM;
    *p = __libc_memalign(a, n);
    return *p ? 0 : ENOMEM;
}
C
cc -O2 -shared -fPIC -o "$work/fail.so" "$work/fail.c"
printf 'return 07;\n' >"$work/other.c"

# sweep WORD..: fails each allocation of the program with these words in turn.
sweep() {
    local n status whole=0 seven=0 answer
    "$program" "$@" >"$work/answer" && answer=0 || answer=$?
    for ((n = 1; n < 100000; n++)); do
        FAILING=$n LD_PRELOAD=$work/fail.so "$program" "$@" >"$work/out" 2>"$work/err" && status=0 || status=$?
        grep -q failed "$work/err" || break
        if [ $status = 7 ] && { [ ! -s "$work/out" ] || [ "$(cat "$work/out")" = memory ]; }; then
            seven=$((seven + 1))
        elif [ $status = $answer ] && cmp -s "$work/out" "$work/answer"; then
            whole=$((whole + 1))
        else
            echo "FAILED: allocation $n of paclab $*: status $status"
            exit 1
        fi
    done
    echo "paclab $*: $((n - 1)) allocations, status 7 in $seven runs, the whole answer in $whole"
}
cd "$work"
cp "$top/examples/hello.c" hello.c
sweep run hello.c
sweep run other.c
sweep run absent.c
sweep
