#!/usr/bin/env python3
"""Refuses each request for memory of the program loom_rows in turn, and tests what it answers.

usage: tools/refused_memory.py [PROGRAM]

PROGRAM is crates/loom_rows/out/loom_rows, which `rt run` makes there. A C compiler, `cc`, is needed for a library that is loaded
before the C library and refuses one request. Of six rows the program is run once for each request that it makes, up to a run in
which none was refused. It must print the row's line, or nothing: then its status is 2, with an error on standard error where the
check was refused memory, and with nothing or `memory allocation failed` there where the program itself was. The error's first line is
`error 14`, or of a row of closures `error 3`, and `error 1` where the start of a thread was refused, which counts as a request. After
each of these runs the program is run once more, with all the memory that it wants and the file that is there, and must answer as the
row does. Prints a line for each row, and ends with status 1 at the first answer that is another.
"""
import os
import subprocess
import sys
import tempfile

REFUSE = r"""
#define _GNU_SOURCE
#include <dlfcn.h>
#include <errno.h>
#include <fcntl.h>
#include <pthread.h>
#include <stdlib.h>
#include <unistd.h>

static unsigned long calls, refused;
static const char *mark;

__attribute__((constructor)) static void begin(void) {
    refused = strtoul(getenv("REFUSED_CALL"), 0, 10);
    mark = getenv("REFUSED_MARK");
    calls = 0;
}

// Whether this call is the one to be refused, which is then marked by a file.
static int is_refused(void) {
    unsigned long call = __atomic_add_fetch(&calls, 1, __ATOMIC_SEQ_CST);
    if (mark == 0 || call != refused)
        return 0;
    close(open(mark, O_CREAT | O_WRONLY, 0600));
    return 1;
}

void *malloc(size_t size) {
    static void *(*next)(size_t);
    if (next == 0)
        next = (void *(*)(size_t))dlsym(RTLD_NEXT, "malloc");
    return is_refused() ? 0 : next(size);
}

void *realloc(void *block, size_t size) {
    static void *(*next)(void *, size_t);
    if (next == 0)
        next = (void *(*)(void *, size_t))dlsym(RTLD_NEXT, "realloc");
    return is_refused() ? 0 : next(block, size);
}

int pthread_create(pthread_t *thread, const pthread_attr_t *attributes, void *(*run)(void *), void *given) {
    static int (*next)(pthread_t *, const pthread_attr_t *, void *(*)(void *), void *);
    if (next == 0)
        next = (int (*)(pthread_t *, const pthread_attr_t *, void *(*)(void *), void *))dlsym(RTLD_NEXT, "pthread_create");
    return is_refused() ? EAGAIN : next(thread, attributes, run, given);
}
"""

# The errors of a check that was refused memory, and of one of closures.
BODY = ("error 14",)
CLOSURES = ("error 3", "error 1")

# What the program answers where it was itself refused memory.
REFUSED_ITSELF = [(b"", b"", 2), (b"", b"memory allocation failed\n", 2)]

# The row, its line, its status, for a row with a file the line of the call that goes on, and its errors.
ROWS = [
    ("lock_beside", b"complete 3\n", 0, None, BODY),
    ("lock_beside_two", b"stopped 2\n", 0, b"complete 1\n", BODY),
    ("two_mutexes_deadlock", b"failed 2 3 t1 t1 t2 t2 t-\n", 1, None, BODY),
    ("store_buffering", b"complete 30\n", 0, None, BODY),
    ("send_then_recv", b"complete 1\n", 0, None, BODY),
    ("two_mutexes_deadlock_closures", b"failed 2 3 t1 t1 t2 t2 t-\n", 1, None, CLOSURES),
]


def build(folder):
    source = f"{folder}/refuse.c"
    library = f"{folder}/refuse.so"
    with open(source, "w") as it:
        it.write(REFUSE)
    subprocess.run(["cc", "-shared", "-fPIC", "-o", library, source, "-ldl"], check=True)
    return library


def answer(program, words, more):
    """What the program writes on both outputs, and its status."""
    made = subprocess.run([program, *words], capture_output=True, env={**os.environ, **more}, timeout=60)
    return made.stdout, made.stderr, made.returncode


def try_row(program, library, folder, name, line, status, goes_on, errors):
    file = f"{folder}/file"
    mark = f"{folder}/mark"
    words = [name] if goes_on is None else [name, file]
    counts = {**dict.fromkeys(errors, 0), "status 2": 0, "the row's line": 0}
    call = 0
    while True:
        call += 1
        for path in (file, mark):
            if os.path.exists(path):
                os.remove(path)
        found = answer(program, words, {"LD_PRELOAD": library, "REFUSED_CALL": str(call), "REFUSED_MARK": mark})
        was_refused = os.path.exists(mark)
        error = found[1].decode().partition("\n")[0]
        if found == (b"", found[1], 2) and error in errors and was_refused:
            kind = error
        elif found in REFUSED_ITSELF and was_refused:
            kind = "status 2"
        elif found == (line, b"", status):
            kind = "the row's line"
        else:
            sys.exit(f"{name}: request {call} refused: {found}")
        saved = os.path.exists(file)
        again = answer(program, words, {})
        wanted = goes_on if saved else line
        if again != (wanted, b"", status):
            sys.exit(f"{name}: after request {call} was refused: {again}")
        if not was_refused:
            break
        counts[kind] += 1
    said = ", ".join(f"{kind}: {count}" for kind, count in counts.items())
    print(f"{name}: {call - 1} requests, {said}", flush=True)


def main():
    here = os.path.dirname(os.path.dirname(os.path.abspath(__file__)))
    program = os.path.abspath(sys.argv[1] if len(sys.argv) > 1 else f"{here}/crates/loom_rows/out/loom_rows")
    with tempfile.TemporaryDirectory() as folder:
        library = build(folder)
        for row in ROWS:
            try_row(program, library, folder, *row)


main()
