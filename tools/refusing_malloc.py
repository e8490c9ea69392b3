"""A malloc that fails one allocation. tools/refuse-allocations and tools/replay run programs under it.

It is loaded by LD_PRELOAD. The variable REFUSED is the number of the call that fails, from 1, and COUNT
names the file to which the number of calls is written at the end.
"""
import pathlib
import shutil
import subprocess

from tool import Missing

REFUSING_MALLOC = r"""
#define _GNU_SOURCE
#include <dlfcn.h>
#include <stdio.h>
#include <stdlib.h>
static long calls, refused = -1;
static void *(*real)(size_t);
void *malloc(size_t size) {
    if (!real) {
        real = dlsym(RTLD_NEXT, "malloc");
        const char *text = getenv("REFUSED");
        if (text) refused = atol(text);
    }
    return ++calls == refused ? 0 : real(size);
}
__attribute__((destructor)) static void count(void) {
    const char *file = getenv("COUNT");
    FILE *out = file ? fopen(file, "w") : 0;
    if (out) { fprintf(out, "%ld\n", calls); fclose(out); }
}
"""


def compile_shim(folder):
    """Compiles the malloc that fails one allocation."""
    shim = pathlib.Path(folder) / "refuse.so"
    if not shutil.which("cc"):
        raise Missing("no command cc: install a C compiler first")
    compiler = ["cc", "-shared", "-fPIC", "-O1", "-x", "c", "-o", str(shim), "-", "-ldl"]
    if subprocess.run(compiler, input=REFUSING_MALLOC.encode()).returncode:
        raise Missing("cc does not compile the malloc that fails one allocation")
    return shim
