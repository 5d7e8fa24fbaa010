"""A library that refuses one allocation of a program that is run with it: the one whose number, from 1 on, is in REFUSED_ALLOCATION. It
tells on standard error that it did, and where COUNT_ALLOCATIONS is set how many there were, if the program ends by the C library."""
import os
import shutil
import subprocess
from pathlib import Path

SOURCE = """
#include <errno.h>
#include <stdio.h>
#include <stdlib.h>
#include <unistd.h>
extern void *__libc_malloc(size_t); extern void *__libc_calloc(size_t, size_t); extern void *__libc_realloc(void *, size_t);
static long left, made;
static int asked;
static int refused(void) {
  __sync_add_and_fetch(&made, 1);
  if (!asked) { const char *n = getenv("REFUSED_ALLOCATION"); left = n ? atol(n) : 0; asked = 1; }
  if (left <= 0 || __sync_sub_and_fetch(&left, 1) != 0) return 0;
  if (write(2, "refused\\n", 8) < 0) return 1;
  errno = ENOMEM; /* the C library relies on it where it starts a thread */
  return 1;
}
void *malloc(size_t n) { return refused() ? 0 : __libc_malloc(n); }
void *calloc(size_t m, size_t n) { return refused() ? 0 : __libc_calloc(m, n); }
void *realloc(void *p, size_t n) { return refused() ? 0 : __libc_realloc(p, n); }
__attribute__((destructor)) static void told(void) { if (getenv("COUNT_ALLOCATIONS")) fprintf(stderr, "%ld\\n", made); }
"""


def library(folder):
    """The library, built in a folder; None where there is no C compiler."""
    if not shutil.which("cc"):
        return None
    source, built = Path(folder) / "refusing.c", Path(folder) / "refusing.so"
    source.write_text(SOURCE)
    subprocess.run(["cc", "-O1", "-shared", "-fPIC", "-o", built, source], check=True)
    return built


def run(program, words, source, built, seconds, **variables):
    """What a program with this library answers."""
    return subprocess.run([program, *words], input=source, capture_output=True, timeout=seconds, env={**os.environ, "LD_PRELOAD": str(built), **variables})
