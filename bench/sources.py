#!/usr/bin/env python3
"""Processor time of `build` on sources of 32, 64, 128 and 256 KiB; outside the gate.

usage: bench/sources.py   (in any folder; the program is proved and built first where it isn't)

Each source is read, cut into tokens, parsed and refused, since it isn't a small source. For each size the least of a number
of runs counts, less the least of the same number of runs on an empty file. Twice the text may take at most 2.3 times
the time: the exit status is 1 where it takes more.
"""
import os
import resource
import subprocess
import sys
import tempfile

ROOT = os.path.join(os.path.dirname(os.path.abspath(__file__)), "..")
LAUNCHER = os.path.join(ROOT, "simphl")
PROGRAM = os.path.join(ROOT, "crates", "simphl", "out", "simphl")
LINE = b"fn name_%05d(left: u64, right: (u32, u8)) -> [bool; 4096] { 0x1234_ABCD } // words and symbols\n"
SIZES = [32, 64, 128, 256]
RUNS = 100


def source(size):
    text = b"".join(LINE % i for i in range(size // len(LINE % 0)))
    return text + b" " * (size - len(text))


def processor_time(path):
    begun = resource.getrusage(resource.RUSAGE_CHILDREN)
    answer = subprocess.run([PROGRAM, "build", path, "fn=f"], capture_output=True)
    ended = resource.getrusage(resource.RUSAGE_CHILDREN)
    if answer.stderr != b"source NotYet at 0..0\n":
        sys.exit("unexpected answer: %r" % answer.stderr)
    return ended.ru_utime - begun.ru_utime + ended.ru_stime - begun.ru_stime


def least_times(folder):
    times = {}
    for kib in [0] + SIZES:
        with open(os.path.join(folder, "%d.hl" % kib), "wb") as file:
            file.write(source(1024 * kib))
    for _ in range(RUNS):
        for kib in [0] + SIZES:
            times.setdefault(kib, []).append(processor_time(os.path.join(folder, "%d.hl" % kib)))
    return {kib: min(taken) for kib, taken in times.items()}


def main():
    subprocess.run([LAUNCHER], capture_output=True)
    with tempfile.TemporaryDirectory() as folder:
        times = least_times(folder)
    print("empty file: %.2f ms" % (1000 * times[0]))
    before, steady = None, True
    for kib in SIZES:
        taken = times[kib] - times[0]
        ratio = "" if before is None else ", %.2f times the half" % (taken / before)
        print("%3d KiB: %.2f ms%s" % (kib, 1000 * taken, ratio))
        steady = steady and (before is None or taken <= 2.3 * before)
        before = taken
    sys.exit(0 if steady else 1)


main()
