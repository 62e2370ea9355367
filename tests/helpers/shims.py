"""Libraries that stand before the C library and have it fail."""
import os
import shutil
import subprocess

import pytest

# Refuses the request for memory whose number is FAIL_ALLOC in the environment.
REFUSING = r"""
#define _GNU_SOURCE
#include <dlfcn.h>
#include <errno.h>
#include <stdlib.h>

static unsigned long count, refused;
static void *(*next_malloc)(size_t), *(*next_realloc)(void *, size_t);

static void begin(void) {
    char *number = getenv("FAIL_ALLOC");
    refused = number ? strtoul(number, 0, 10) : 0;
    next_malloc = dlsym(RTLD_NEXT, "malloc");
    next_realloc = dlsym(RTLD_NEXT, "realloc");
}

static int fails(void) {
    if (!next_malloc) begin();
    if (++count != refused) return 0;
    errno = ENOMEM;
    return 1;
}

void *malloc(size_t size) { return fails() ? 0 : next_malloc(size); }
void *realloc(void *at, size_t size) { return fails() ? 0 : next_realloc(at, size); }
"""


def built(folder, source):
    """The library of a C source, to be loaded by LD_PRELOAD."""
    compiler = os.environ.get("CC", "cc")
    if not shutil.which(compiler):
        pytest.skip(f"there is no C compiler {compiler}")
    with open(f"{folder}/shim.c", "w", encoding="utf-8") as it:
        it.write(source)
    subprocess.run([compiler, "-shared", "-fPIC", "-o", f"{folder}/shim.so", f"{folder}/shim.c", "-ldl"], check=True)
    return f"{folder}/shim.so"
