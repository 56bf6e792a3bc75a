#!/usr/bin/env python3
"""Refuses each call for memory of a program that takes the words of `bin/cvc`, one at a time.

Each run has to end with status 9 and nothing written, or with the status and the bytes that it has with ample memory. A small library, which is
compiled with `cc`, stands before the C library and refuses the Nth call for memory, or that and all later ones. A thread's stack is memory as well:
the creation of a thread counts as a call. The files are those of circuits of a few devices, or those that --files names.
"""

import argparse
import collections
import os
import shlex
import struct
import subprocess
import tempfile

LIBRARY = r"""
#define _GNU_SOURCE
#include <dlfcn.h>
#include <errno.h>
#include <fcntl.h>
#include <pthread.h>
#include <stdatomic.h>
#include <stddef.h>
#include <stdlib.h>
#include <sys/mman.h>

static _Atomic long own[1];
static _Atomic long *count = own;
static long first = -1, last = -1;

extern void *__libc_malloc(size_t);
extern void *__libc_calloc(size_t, size_t);
extern void *__libc_realloc(void *, size_t);
extern void *__libc_memalign(size_t, size_t);

__attribute__((constructor)) static void begin(void) {
  int file = open(getenv("REFUSE_COUNT"), O_RDWR);
  void *shared = mmap(NULL, sizeof(long), PROT_READ | PROT_WRITE, MAP_SHARED, file, 0);
  if (shared != MAP_FAILED) count = shared;
  first = atol(getenv("REFUSE_FIRST"));
  last = atol(getenv("REFUSE_LAST"));
}

static int refused(void) {
  if (first < 0) return 0;
  long number = atomic_fetch_add(count, 1) + 1;
  return first <= number && number <= last;
}

void *malloc(size_t size) {
  if (refused()) { errno = ENOMEM; return NULL; }
  return __libc_malloc(size);
}

void *calloc(size_t number, size_t size) {
  if (refused()) { errno = ENOMEM; return NULL; }
  return __libc_calloc(number, size);
}

void *realloc(void *old, size_t size) {
  if (refused()) { errno = ENOMEM; return NULL; }
  return __libc_realloc(old, size);
}

void *aligned_alloc(size_t align, size_t size) {
  if (refused()) { errno = ENOMEM; return NULL; }
  return __libc_memalign(align, size);
}

int posix_memalign(void **place, size_t align, size_t size) {
  if (refused()) return ENOMEM;
  *place = __libc_memalign(align, size);
  return *place ? 0 : ENOMEM;
}

int pthread_create(pthread_t *thread, const pthread_attr_t *how, void *(*body)(void *), void *given) {
  static int (*real)(pthread_t *, const pthread_attr_t *, void *(*)(void *), void *);
  if (!real) real = (int (*)(pthread_t *, const pthread_attr_t *, void *(*)(void *), void *))dlsym(RTLD_NEXT, "pthread_create");
  if (refused()) return EAGAIN;
  return real(thread, how, body, given);
}
"""
INVERTERS = (
    "*.GLOBAL vdd!\n+ vss!\n.SUBCKT inv A Y\nMM0 Y A vss! vss! nch W=1u L=60n m=1\nMM1 Y A vdd! vdd! pch W=2u L=60n m=1\n.ENDS\n"
    ".SUBCKT top IN OUT\nXI0 IN net1 / inv\nXI1 net1 OUT / inv\n.ENDS\n",
    "nch nmos Vth=0.4 Vgs=1.32 Vgd=1.32 Vds=1.32\npch pmos Vth=-0.4 Vgs=1.32 Vgd=1.32 Vds=1.32\n",
    "vdd! power 1.2\nvss! power 0\nIN input 0 1.2\n",
)
RING = (
    "M1 a b c vss nhv\nM2 b c a vss nhv\nM3 c a b vss nhv\nR1 src a 100\nR2 src b 100\n",
    "nhv nmos Vth=0.7\nR resistor\n",
    "src input 0 3.3\nvss power 0\n",
)


def write(path, data):
    with open(path, "wb") as file:
        file.write(data)
    return path


class Refuser:
    """Runs a command with some calls for memory refused."""

    def __init__(self, folder):
        source = write(os.path.join(folder, "refuse.c"), LIBRARY.encode())
        library = os.path.join(folder, "refuse.so")
        subprocess.run(["cc", "-O1", "-shared", "-fPIC", "-o", library, source, "-ldl"], check=True)
        self.count = os.path.join(folder, "count")
        self.environment = {**os.environ, "LD_PRELOAD": library, "REFUSE_COUNT": self.count}

    def run(self, words, first, last):
        """The status, the bytes, and the number of calls."""
        write(self.count, bytes(8))
        environment = {**self.environment, "REFUSE_FIRST": str(first), "REFUSE_LAST": str(last)}
        try:
            done = subprocess.run(words, env=environment, stdout=subprocess.PIPE, stderr=subprocess.DEVNULL, timeout=60)
            answer = done.returncode, done.stdout
        except subprocess.TimeoutExpired:
            answer = None, b""
        with open(self.count, "rb") as file:
            return answer, struct.unpack("l", file.read(8))[0]


def refuse_each(refuser, name, words, most):
    """Refuses each call in turn, alone and with all later ones. Answers whether all is right."""
    full, calls = refuser.run(words, 0, 0)
    right = True
    for mode in ("alone", "and all later ones"):
        counts, wrong = collections.Counter(), []
        number, reached = 1, calls
        while number <= min(reached, most):
            answer, reached = refuser.run(words, number, number if mode == "alone" else 1 << 60)
            reached = max(reached, calls)
            counts["9" if answer == (9, b"") else "the full bytes" if answer == full else "wrong"] += 1
            if answer not in ((9, b""), full):
                wrong.append(f"{number}: status {answer[0]}, {len(answer[1])} bytes")
            number += 1
        right &= not wrong
        told = ", ".join(f"{count} {what}" for what, count in sorted(counts.items()))
        print(f"{name:28} status {full[0]}, {calls} calls, each refused {mode}: {told}{' WRONG ' if wrong else ''}{'; '.join(wrong[:6])}", flush=True)
    return right


def main():
    parser = argparse.ArgumentParser(description=__doc__, formatter_class=argparse.RawDescriptionHelpFormatter)
    parser.add_argument("program", metavar="PROGRAM", type=shlex.split)
    parser.add_argument("--files", nargs=3, metavar=("NETLIST", "MODELS", "POWER"), help="other files to run on")
    parser.add_argument("--most", type=int, default=100_000, help="refuse no call past this one")
    options = parser.parse_args()
    right = True
    with tempfile.TemporaryDirectory() as folder:
        refuser = Refuser(folder)
        cases = {"two inverters": INVERTERS, "ring of pass gates": RING}
        files = {name: [write(os.path.join(folder, f"{name[0]}{k}"), text.encode()) for k, text in enumerate(texts)] for name, texts in cases.items()}
        if options.files:
            files = {"files": options.files}
        runs = {}
        for name, paths in files.items():
            runs[f"{name}, check"] = [*options.program, "check", *paths, "nets"]
            runs[f"{name}, one worker"] = [*options.program, "check", *paths, "nets", "workers=1"]
            runs[f"{name}, serial"] = [*options.program, "serial", *paths, "nets"]
        if not options.files:
            runs["gen 4 1"] = [*options.program, "gen", "4", "1"]
            runs["refused words"] = [*options.program, "check", "a"]
        for name, words in runs.items():
            right &= refuse_each(refuser, name, words, options.most)
    raise SystemExit(0 if right else 1)


if __name__ == "__main__":
    main()
