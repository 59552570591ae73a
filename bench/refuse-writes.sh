#!/bin/sh
# Lets the output take one byte a call and fail at each call in turn: `basis` on the squares example then ends with status 8, and what was
# written is the beginning of its text.
# Usage: bench/refuse-writes.sh   (after ./invar --prove has built the program; needs a C compiler for the stand-in of write)
here=$(cd "$(dirname "$0")/.." && pwd)
folder=$(mktemp -d)
trap 'rm -rf "$folder"' EXIT
cat >"$folder/refuse.c" <<'C'
#define _GNU_SOURCE
#include <dlfcn.h>
#include <errno.h>
#include <stdlib.h>
#include <unistd.h>

// Takes one byte of what is written to standard output, and fails at the call with the number in REFUSE.
ssize_t write(int to, const void *bytes, size_t size) {
    static long count;
    ssize_t (*real)(int, const void *, size_t) = (ssize_t (*)(int, const void *, size_t))dlsym(RTLD_NEXT, "write");
    if (to != 1) return real(to, bytes, size);
    if (++count == atol(getenv("REFUSE"))) {
        errno = ENOSPC;
        return -1;
    }
    return real(to, bytes, size < 1 ? size : 1);
}
C
${CC:-cc} -shared -fPIC -o "$folder/refuse.so" "$folder/refuse.c" -ldl || exit 1
exec python3 - "$folder" "$here/crates/invar/out/invar" "$here/examples/squares.loop" <<'PY'
import os, subprocess, sys

folder, program, loop = sys.argv[1:]
text = b"a - 1/2*t + 1/2 = 0\nt^2 - 4*s + 2*t + 1 = 0\n"
for call in range(1, len(text) + 2):
    env = dict(os.environ, LD_PRELOAD=folder + "/refuse.so", REFUSE=str(call))
    done = subprocess.run([program, "basis", loop], capture_output=True, env=env)
    wanted = (8, text[: call - 1]) if call <= len(text) else (0, text)
    if (done.returncode, done.stdout) != wanted:
        sys.exit(f"call {call} fails: {done.returncode}, {done.stdout}, and not {wanted}")
print(f"{len(text)} calls fail in turn: status 8 and the bytes before")
PY
