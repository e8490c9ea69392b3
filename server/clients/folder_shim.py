"""A library that makes calls of davd on the files of its folder fail. It is loaded by LD_PRELOAD."""
import pathlib
import shutil
import subprocess

from harness import Skipped

CALLS = ("pwrite", "pread", "fsync", "fdatasync", "ftruncate")
# FAIL_FOLDER is what the paths of the files begin with. FAIL_CALL is the call, FAIL_AT the number of the first that fails,
# from 1. If there is a FAIL_WHEN, calls count only when that file exists. FAIL_HOW has the number of the error, or `short`:
# then only a part of the bytes is written or read; or `kill`: then davd is killed before the call. FAIL_ALWAYS is 1 if all later ones fail too, also those of the next davd. FAIL_NOTE
# is the file to which each failure is added. COUNTS is a file to which the number of each call is added at the end.
SOURCE = r"""
#define _GNU_SOURCE
#include <dlfcn.h>
#include <errno.h>
#include <fcntl.h>
#include <signal.h>
#include <stdio.h>
#include <stdlib.h>
#include <string.h>
#include <unistd.h>
static const char *folder, *failing, *how, *note, *counts, *when;
static long first, is_always, has_failed, seen;
static long made[5];
static const char *names[5] = {"pwrite", "pread", "fsync", "fdatasync", "ftruncate"};
static void __attribute__((constructor)) begin(void) {
    folder = getenv("FAIL_FOLDER");
    failing = getenv("FAIL_CALL");
    how = getenv("FAIL_HOW");
    note = getenv("FAIL_NOTE");
    counts = getenv("COUNTS");
    when = getenv("FAIL_WHEN");
    first = getenv("FAIL_AT") ? atol(getenv("FAIL_AT")) : 0;
    is_always = getenv("FAIL_ALWAYS") ? atol(getenv("FAIL_ALWAYS")) : 0;
    has_failed = note && access(note, F_OK) == 0;
}
static void __attribute__((destructor)) end(void) {
    FILE *out = counts ? fopen(counts, "a") : 0;
    if (!out) return;
    for (int i = 0; i < 5; i++) fprintf(out, "%s %ld\n", names[i], made[i]);
    fclose(out);
}
/* Whether this call, whose number is that of its name, fails. */
static int fails(int call, int fd) {
    char link[64], path[4096];
    snprintf(link, sizeof link, "/proc/self/fd/%d", fd);
    long length = readlink(link, path, sizeof path - 1);
    if (!folder || length < 0) return 0;
    path[length] = 0;
    if (strncmp(path, folder, strlen(folder))) return 0;
    made[call]++;
    if (!failing || strcmp(names[call], failing)) return 0;
    if (when && access(when, F_OK)) return 0;
    if (has_failed ? !is_always : ++seen < first) return 0;
    has_failed = 1;
    if (!strcmp(how, "kill")) kill(getpid(), SIGKILL);
    int out = !note ? -1 : open(note, O_WRONLY | O_CREAT | O_APPEND, 0600);
    if (out >= 0) {
        char line[4200];
        int size = snprintf(line, sizeof line, "%s of %s\n", failing, strrchr(path, '/') + 1);
        if (write(out, line, size)) {}
        close(out);
    }
    errno = atoi(how);
    return 1;
}
#define REAL(name) ((typeof(name) *)dlsym(RTLD_NEXT, #name))
#define MOVED(name, call, pointer, offset_type) \
    ssize_t name(int fd, pointer bytes, size_t size, offset_type place) { \
        if (!fails(call, fd)) return REAL(name)(fd, bytes, size, place); \
        if (strcmp(how, "short")) return -1; \
        return REAL(name)(fd, bytes, size > 1 ? size / 2 : size, place); \
    }
#define SYNCED(name, call) \
    int name(int fd) { return fails(call, fd) ? -1 : REAL(name)(fd); }
#define CUT(name, offset_type) \
    int name(int fd, offset_type length) { return fails(4, fd) ? -1 : REAL(name)(fd, length); }
MOVED(pwrite, 0, const void *, off_t)
MOVED(pwrite64, 0, const void *, off64_t)
MOVED(pread, 1, void *, off_t)
MOVED(pread64, 1, void *, off64_t)
SYNCED(fsync, 2)
SYNCED(fdatasync, 3)
CUT(ftruncate, off_t)
CUT(ftruncate64, off64_t)
"""


def compile_shim(folder: pathlib.Path) -> pathlib.Path:
    shim = folder / "fail.so"
    if not shutil.which("cc"):
        raise Skipped("no command cc")
    compiler = ["cc", "-shared", "-fPIC", "-O1", "-x", "c", "-o", str(shim), "-", "-ldl"]
    if (ran := subprocess.run(compiler, input=SOURCE.encode(), capture_output=True)).returncode:
        raise Skipped(f"cc does not compile the library that fails calls: {ran.stderr.decode()[:1000]}")
    return shim
