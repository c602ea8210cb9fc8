#!/usr/bin/env python3
"""Refuses each allocation of some commands in turn, outside the gate.

    python3 bench/allocations.py PROGRAM

Each command is run once as it is, which counts its allocations, and then once for each of them with that one refused.
A run with a refused allocation has to answer as the first run, or with status 6, nothing on standard output and the
line `no memory`, which isn't written where there is no memory for the words themselves. A C compiler named `cc` makes the library that counts and refuses.
"""

import json
import os
import shutil
import subprocess
import sys
import tempfile

REFUSING = r"""
#define _GNU_SOURCE
#include <dlfcn.h>
#include <errno.h>
#include <fcntl.h>
#include <stdlib.h>
#include <unistd.h>

static long count = 0;

static int refused(void) {
    char *at = getenv("REFUSE_AT"), *counted = getenv("COUNT_TO");
    count++;
    if (counted) {
        int file = open(counted, O_WRONLY | O_CREAT, 0600);
        if (file >= 0) {
            if (pwrite(file, &count, sizeof count, 0) < 0) abort();
            close(file);
        }
    }
    return count == (at ? atol(at) : 0);
}

void *malloc(size_t size) {
    static void *(*next)(size_t);
    if (!next) next = dlsym(RTLD_NEXT, "malloc");
    if (refused()) { errno = ENOMEM; return 0; }
    return next(size);
}

void *realloc(void *block, size_t size) {
    static void *(*next)(void *, size_t);
    if (!next) next = dlsym(RTLD_NEXT, "realloc");
    if (refused()) { errno = ENOMEM; return 0; }
    return next(block, size);
}
"""

EXAMPLES = os.path.join(os.path.dirname(os.path.abspath(__file__)), "..", "examples")
POLICY = ["policy.hl", "policy.args.json", "policy.wit.json"]

SOURCES = {
    "swap.hl": "fn swap(x: u8, y: u8) -> (u8, u8) { (y, x) }",
    "character.hl": "fn main() { # }",
    "deep.hl": "fn f() { " + "(" * 127 + "1" + ")" * 127 + " }",
    "syntax.hl": "fn f() { let x: u8 = 1 }",
    "other.hl": "type P = (u8, [bool; 3]); fn f(x: P, y: List<u8, 4>) -> u8 { let (a, _): P = x; "
    "match jet::eq_8(a, 1) { true => fold::<g, 4>(y, a), false => { unwrap(witness::W) } } }",
}

COMMANDS = [
    ["build", "swap.hl", "fn=swap"],
    ["build", "missing.hl", "fn=swap"],
    ["build", "character.hl", "fn=f"],
    ["build", "deep.hl", "fn=f"],
    ["build", "syntax.hl", "fn=f"],
    ["build", "other.hl", "fn=f"],
    ["eval", "policy.hl", "args=policy.args.json", "wit=policy.wit.json"],
    ["eval", "policy.hl", "args=policy.args.json", "wit=failing.wit.json"],
    ["eval", "policy.hl", "args=policy.args.json"],
    ["eval", "policy.hl", "wit=policy.wit.json", "args=missing.json"],
    ["eval", "swap.hl", "fn=swap", "input=(1, 2)"],
    ["eval", "swap.hl", "fn=swap", "input=(1, 256)"],
    ["eval", "other.hl", "fn=f"],
    ["other", "words"],
]

NO_MEMORY = [(6, b"", b"no memory\n"), (6, b"", b"")]


def write_files(folder):
    for name, text in SOURCES.items():
        with open(os.path.join(folder, name), "w", encoding="utf-8") as file:
            file.write(text)
    for name in POLICY:
        shutil.copy(os.path.join(EXAMPLES, name), folder)
    with open(os.path.join(folder, POLICY[2]), encoding="utf-8") as file:
        entries = json.load(file)
    entries["PATH"]["value"] = "Left(1)"
    with open(os.path.join(folder, "failing.wit.json"), "w", encoding="utf-8") as file:
        json.dump(entries, file)


def main():
    program = os.path.abspath(sys.argv[1])
    wrong = 0
    with tempfile.TemporaryDirectory() as folder:
        library = os.path.join(folder, "refusing.so")
        subprocess.run(
            ["cc", "-shared", "-fPIC", "-x", "c", "-", "-o", library, "-ldl"],
            input=REFUSING.encode(),
            check=True,
        )
        write_files(folder)
        counted = os.path.join(folder, "count")

        def run(words, **settings):
            settings = dict(os.environ, LD_PRELOAD=library, **settings)
            done = subprocess.run([program, *words], cwd=folder, env=settings, capture_output=True)
            return done.returncode, done.stdout, done.stderr

        for words in COMMANDS:
            usual = run(words, COUNT_TO=counted)
            with open(counted, "rb") as file:
                count = int.from_bytes(file.read(), "little")
            refused = 0
            for place in range(1, count + 1):
                answer = run(words, REFUSE_AT=str(place))
                refused += answer in NO_MEMORY
                if answer != usual and answer not in NO_MEMORY:
                    wrong += 1
                    print("WRONG", words, place, answer)
            print("%s: status %d, %d allocations, no memory at %d" % (" ".join(words), usual[0], count, refused))
    print("wrong", wrong)
    return 1 if wrong else 0


if __name__ == "__main__":
    sys.exit(main())
