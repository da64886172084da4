#!/usr/bin/env python3
"""Refuses memory, reads and writes one by one, and looks at what the program answers.

    bench/faults.py PROGRAM [--rows NAME,..]

Each input is a worked row of crates/run_tests_rows/data, or `live` for a plan of two real commands. First the program runs
as it is, and its calls of malloc, read and write are counted; then once for each of them, with that call refused, or
made short (one byte). It prints, for each kind, how often each status came, and each answer that is not one of these:

- memory: the row's own status and text; or 11, with the line of that fault last;
- a read that fails: 10, with the line of that fault alone; a write that fails: 9, with each line whole, and (but of
  `live`, whose clock differs) one of the row's or that fault's;
- a read or a write of one byte: the row's own status and text.

The calls are refused by a library that this script compiles into a temporary folder and preloads (gcc).
"""
import argparse
import collections
import json
import os
import subprocess
import sys
import tempfile

HERE = os.path.dirname(os.path.abspath(__file__))
ROWS = os.path.join(HERE, "..", "crates", "run_tests_rows", "data")
LIVE = ('{"run_id":"00000000-0000-4000-8000-000000000001","threads":2,"tests":['
        '{"binary":"b","command":["echo","hi"],"name":"says"},'
        '{"binary":"b","command":["sh","-c","exit 3"],"name":"fails"}]}\n')
SHIM = r"""
#define _GNU_SOURCE
#include <dlfcn.h>
#include <errno.h>
#include <stdatomic.h>
#include <stdio.h>
#include <stdlib.h>
#include <string.h>
#include <sys/syscall.h>
#include <unistd.h>
static atomic_long mallocs, reads, writes;
static long fail_malloc, fail_read, fail_write, short_read, short_write;
static void *(*real_malloc)(size_t);
static void *(*real_realloc)(void *, size_t);
static void *(*real_aligned)(size_t, size_t);
static ssize_t (*real_read)(int, void *, size_t);
static ssize_t (*real_write)(int, const void *, size_t);
static long number(const char *name) { const char *v = getenv(name); return v ? atol(v) : 0; }
__attribute__((constructor)) static void begin(void) {
  real_malloc = dlsym(RTLD_NEXT, "malloc");
  real_realloc = dlsym(RTLD_NEXT, "realloc");
  real_aligned = dlsym(RTLD_NEXT, "aligned_alloc");
  real_read = dlsym(RTLD_NEXT, "read");
  real_write = dlsym(RTLD_NEXT, "write");
  fail_malloc = number("FAIL_MALLOC"); fail_read = number("FAIL_READ"); fail_write = number("FAIL_WRITE");
  short_read = number("SHORT_READ"); short_write = number("SHORT_WRITE");
  unsetenv("LD_PRELOAD");
  mallocs = 0;
}
static int refused(void) { return real_malloc && ++mallocs == fail_malloc; }
void *malloc(size_t n) { if (!real_malloc) begin(); if (refused()) { errno = ENOMEM; return 0; } return real_malloc(n); }
void *realloc(void *p, size_t n) { if (!real_realloc) begin(); if (refused()) { errno = ENOMEM; return 0; } return real_realloc(p, n); }
void *aligned_alloc(size_t a, size_t n) { if (!real_aligned) begin(); if (refused()) { errno = ENOMEM; return 0; } return real_aligned(a, n); }
ssize_t read(int f, void *b, size_t n) {
  if (f == 0) { long k = ++reads; if (k == fail_read) { errno = EIO; return -1; } if (k == short_read && n > 1) n = 1; }
  return real_read(f, b, n);
}
ssize_t write(int f, const void *b, size_t n) {
  if (f == 1) { long k = ++writes; if (k == fail_write) { errno = EIO; return -1; } if (k == short_write && n > 1) n = 1; }
  return real_write(f, b, n);
}
static void end(void) {
  const char *path = getenv("COUNTS");
  if (path) { FILE *f = fopen(path, "w"); if (f) { fprintf(f, "%ld %ld %ld\n", (long)mallocs, (long)reads, (long)writes); fclose(f); } }
}
__attribute__((destructor)) static void at_end(void) { end(); }
void _exit(int status) { end(); syscall(SYS_exit_group, status); __builtin_unreachable(); }
"""


def run(program, words, text, shim, **env):
    e = dict(os.environ, LD_PRELOAD=shim, **{k: str(v) for k, v in env.items()})
    p = subprocess.run([program] + words, input=text, stdout=subprocess.PIPE, stderr=subprocess.DEVNULL, env=e, timeout=60)
    return p.returncode, p.stdout


def last(out):
    lines = out.split(b"\n")
    return lines[-2] if len(lines) > 1 else b""


def are_whole(out, wanted):
    """Whether each line is whole: one of those that are wanted, where they are known, or a fault's."""
    *lines, rest = out.split(b"\n")
    faults = [b'{"fault":"report","status":9}', b'{"fault":"write","status":9}']
    known = None if wanted is None else wanted.split(b"\n") + faults
    return rest == b"" and all(isinstance(json.loads(l), dict) if known is None else l in known for l in lines)


def main():
    a = argparse.ArgumentParser()
    a.add_argument("program")
    a.add_argument("--rows", default="passes,usual_plan,live")
    a = a.parse_args()
    bad = 0
    with tempfile.TemporaryDirectory() as room:
        shim, counts = os.path.join(room, "shim.so"), os.path.join(room, "counts")
        with open(os.path.join(room, "shim.c"), "w") as f:
            f.write(SHIM)
        subprocess.run(["gcc", "-shared", "-fPIC", "-O1", "-o", shim, os.path.join(room, "shim.c"), "-ldl"], check=True)
        for row in a.rows.split(","):
            live = row == "live"
            words = ["live" if live else "replay"]
            text = LIVE.encode() if live else open(os.path.join(ROWS, row + ".in"), "rb").read()
            status, out = run(a.program, words, text, shim, COUNTS=counts)
            mallocs, reads, writes = map(int, open(counts).read().split())
            for kind, most in (("FAIL_MALLOC", mallocs), ("FAIL_READ", reads), ("FAIL_WRITE", writes),
                               ("SHORT_READ", reads), ("SHORT_WRITE", writes)):
                seen = collections.Counter()
                for n in range(1, most + 1):
                    try:
                        s, o = run(a.program, words, text, shim, **{kind: n})
                    except subprocess.TimeoutExpired:
                        s, o = "hangs", b""
                    same = s == status and (live or o == out)
                    memory = s == 11 and last(o) == b'{"fault":"memory","status":11}'
                    ok = {"FAIL_MALLOC": same or memory, "FAIL_READ": s == 10 and o == b'{"fault":"read","status":10}\n',
                          "FAIL_WRITE": s == 9 and are_whole(o, None if live else out), "SHORT_READ": same, "SHORT_WRITE": same}[kind]
                    seen[s] += 1
                    if not ok:
                        bad += 1
                        print(f"{row}: {kind}={n}: status {s}, last line {last(o)[:100]}")
                print(f"{row}: {kind} 1 to {most}: " + ", ".join(f"{k}: {v}" for k, v in sorted(seen.items(), key=str)))
    print(f"{bad} answers are not as they should be")
    sys.exit(1 if bad else 0)


if __name__ == "__main__":
    main()
