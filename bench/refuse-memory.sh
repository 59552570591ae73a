#!/bin/sh
# Refuses each request for memory in turn: `basis`, `member`, `cert`, `check`, `full`, `checkfull`, `run` and `gen` then give their answers, or `memory` with status 6.
# Usage: bench/refuse-memory.sh   (after ./invar --prove has built the program; needs a C compiler for the stand-in of malloc)
here=$(cd "$(dirname "$0")/.." && pwd)
folder=$(mktemp -d)
trap 'rm -rf "$folder"' EXIT
cat >"$folder/refuse.c" <<'C'
#define _GNU_SOURCE
#include <dlfcn.h>
#include <stdlib.h>
#include <unistd.h>
#include <stdio.h>

// Counts the requests of the program and refuses the one with the number in REFUSE.
static long count, refused = -1;

static int refuse(void) {
    if (refused < 0) {
        const char *text = getenv("REFUSE");
        refused = text ? atol(text) : 0;
    }
    return ++count == refused;
}

#define REAL(name) ((__typeof__(&name))dlsym(RTLD_NEXT, #name))
void *malloc(size_t size) { return refuse() ? NULL : REAL(malloc)(size); }
void *realloc(void *old, size_t size) { return refuse() ? NULL : REAL(realloc)(old, size); }
void *calloc(size_t count, size_t size) { return refuse() ? NULL : REAL(calloc)(count, size); }
void *aligned_alloc(size_t to, size_t size) { return refuse() ? NULL : REAL(aligned_alloc)(to, size); }
int posix_memalign(void **out, size_t to, size_t size) { return refuse() ? 12 : REAL(posix_memalign)(out, to, size); }

__attribute__((destructor)) static void tell(void) {
    FILE *out = fopen(getenv("COUNT"), "w");
    if (out) {
        fprintf(out, "%ld", count);
        fclose(out);
    }
}
C
${CC:-cc} -shared -fPIC -o "$folder/refuse.so" "$folder/refuse.c" -ldl || exit 1
exec python3 - "$folder" "$here/crates/invar/out/invar" <<'PY'
import collections, os, pathlib, subprocess, sys

folder, program = pathlib.Path(sys.argv[1]), sys.argv[2]
FILES = {
    "squares": "vars a, s, t; init a=0, s=1, t=1; branch { a=a+1; t=t+2; s=s+t; }",
    "product": "vars a, b, x, y, z; init x=a, y=b, z=0; branch when even(x) { x=x/2; y=2*y; } branch when odd(x) { x=x-1; z=z+y; }",
    "good": '{"basis":["a - 1/2*t + 1/2","t^2 - 4*s + 2*t + 1"],"steps":[[["1","0"],["0","1"]]],"vars":["a","s","t"],"version":1}',
}
FILES["fails"] = FILES["good"].replace('["0","1"]', '["0","2"]')
FILES["cut"] = FILES["good"][:50]
FILES["sign"] = "vars x; init x=1; branch { x=-x; }"
FILES["full"] = (
    '{"basis":[[["1",[2]],["-1",[0]]]],"forms":[{"base":[],"polys":[[["1",[0,1,1]]]]}],"kind":"full","rounds":[[{"orbit":{"gens":[[[["1",'
    '[0,0,0]]],[],[],[]],[[],[["1",[0,0,0]]],[],[]]],"links":[[[["1",[0]]]]],"list":[[["1",[0,1,1]],["-1",[0,0,0]]],[["1",[0,2,0]],["-1",'
    '[0,0,0]]],[["1",[0,1,0]],["-1",[0,0,1]]],[["1",[0,0,2]],["-1",[0,0,0]]]],"out":[[["1",[2]],["-1",[0]]]],"pairs":[[[],[],[["-1",'
    '[0,0,0]]],[]],[[],[],[],[["1",[0,0,0]]]],[[],[],[["1",[0,0,0]]],[]],[[["1",[0,0,0]]],[],[],[]],[[],[["1",[0,0,0]]],[],[["-1",'
    '[0,0,0]]]],[[],[],[["1",[0,0,0]]],[["-1",[0,0,1]]]]]}}]],"start":{"links":[[[["1",[0]]]]],"out":[[["1",[1]],["-1",[0]]]]},'
    '"steps":[[[[["1",[0]]]]]],"vars":["x"],"version":1}'
)
FILES["full-fails"] = FILES["full"].replace('"links":[[[["1",[0]]]]],"list"', '"links":[[[["2",[0]]]]],"list"')
FILES["full-cut"] = FILES["full"].replace('"rounds"', '"round"')
CALLS = [
    (["basis", "squares"], 0, "a - 1/2*t + 1/2 = 0\nt^2 - 4*s + 2*t + 1 = 0\n"),
    (["basis", "product"], 0, "a*b - x*y - z = 0\n"),
    (["basis", "--budget", "1", "product"], 5, "budget: 1\n"),
    (["cert", "squares"], 0, '{"basis":["a - 1/2*t + 1/2","t^2 - 4*s + 2*t + 1"],"steps":[[[[0,"1"]],[[1,"1"]]]],"vars":["a","s","t"],"version":2}\n'),
    (["gen", "1"], 0, "loops 1, elements 2, greatest degree 2\n"),
    (["member", "squares", "s = (a+1)^2"], 0, "yes\n-a - 1/2*t - 3/2\n-1/4\n"),
    (["member", "squares", "s = a^2"], 1, "no\n"),
    (["check", "squares", "good"], 0, "valid\n"),
    (["check", "squares", "fails"], 1, "step fails: branch 1, element 2\n"),
    (["check", "squares", "cut"], 3, "certificate: not json\n"),
    (["full", "sign"], 0, FILES["full"] + "\n"),
    (["checkfull", "sign", "full"], 0, "complete\n"),
    (["checkfull", "sign", "full-fails"], 1, "fails: /rounds/0/0/orbit/links/0\n"),
    (["checkfull", "sign", "full-cut"], 3, "certificate: shape at /rounds\n"),
    (["run", "squares", "1,1", "0,1,1"], 0, "a = 0, s = 1, t = 1\na = 1, s = 4, t = 3\na = 2, s = 9, t = 5\n"),
]
MEMORY, NO_WORDS = (6, "memory\n"), (6, "")


def run(words, refused):
    """The answer where the request with this number is refused, and how many requests there were."""
    env = dict(os.environ, LD_PRELOAD=str(folder / "refuse.so"), REFUSE=str(refused), COUNT=str(folder / "count"))
    done = subprocess.run([program, *words], capture_output=True, text=True, env=env, cwd=folder)
    return (done.returncode, done.stdout), int((folder / "count").read_text())


def refuse(words, status, text):
    whole, requests = run(words, 0)
    if whole != (status, text):
        sys.exit(f"{' '.join(words)}: {whole}")
    answers = collections.Counter()
    for number in range(1, requests + 1):
        answer, _ = run(words, number)
        if answer not in (whole, MEMORY, NO_WORDS):
            sys.exit(f"{' '.join(words)}, request {number} refused: {answer}")
        answers[answer] += 1
    print(f"{' '.join(words)}: {requests} requests refused in turn: {answers[MEMORY]} answers `memory`, {answers[NO_WORDS]} without a text "
          f"for want of memory for the words, {answers[whole]} the answer", flush=True)


for name, text in FILES.items():
    (folder / name).write_text(text)
for call in CALLS:
    refuse(*call)
PY
