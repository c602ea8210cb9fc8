#!/usr/bin/env python3
"""Time of `read_program` on programs of 131,072 to 1,048,576 nodes; outside the gate.

usage: bench/readings.py   (in any folder; it proves and builds a small program over a copy of the crates first, with
the work that was kept of them)

The programs are a chain of takes and a chain of pairs with the first node; this script writes their bits. For each shape and count the milliseconds of the fastest of five runs are printed, each in a process of its own.
Twice the nodes may take at most 2.5 times the time: the exit status is 1 where a shape takes more. On a busy machine
the figures say little.
"""
import os
import shutil
import subprocess
import sys
import tempfile

CRATES = os.path.join(os.path.dirname(os.path.abspath(__file__)), "..", "crates")
LINES = {
    "simplicity": "sha2",
    "spelling": "simplicity",
    "jets": "",
    "lists": "",
    "core_data": "simplicity lists",
    "word_math": "jets simplicity core_data",
    "type_table": "simplicity core_data indexmap",
    "cell_bits": "spelling simplicity",
    "term_core": "simplicity jets core_data word_math type_table indexmap",
    "compact_codes": "spelling simplicity cell_bits core_data type_table",
    "bit_codec": "spelling simplicity jets cell_bits word_math term_core compact_codes",
    "reading_bench": "simplicity cell_bits term_core bit_codec",
}
COUNTS = [131072, 262144, 524288, 1048576]
RUNS = 5
MAIN = r"""//! How long the reading of a program takes.
#![tactic(auto)]

use bit_codec::read_program;
use std::fs;
use std::io;
use std::time::Instant;

fn main(rt: HostRuntime) -> io::Result<()> {
    let bytes = fs::read(&rt, "program")?;
    let begun = Instant::now(&rt)?;
    let count = match read_program(rt.alloc(), bytes.as_slice()) {
        Ok(nodes) => nodes.len(),
        Err(_) => 0,
    };
    let time = begun.elapsed(&rt)?.as_micros();
    println!(rt; "{count} {time}")?;
    Ok(())
}
"""


def natural(value):
    if value == 1:
        return "0"
    width = value.bit_length() - 1
    return "1" + natural(width) + bin(value)[3:]


def takes(count):
    return "01000" + "001100" * (count - 1)


def pairs(count):
    return "01000" + "".join("000100" + natural(index) for index in range(1, count))


SHAPES = {"takes": takes, "pairs": pairs}


def program(bits):
    bits += "0" * (-len(bits) % 8)
    return int(bits, 2).to_bytes(len(bits) // 8, "big")


def write(path, text):
    os.makedirs(os.path.dirname(path), exist_ok=True)
    with open(path, "w", encoding="utf-8") as file:
        file.write(text)


def make(folder):
    for name in LINES:
        if name != "reading_bench":
            shutil.copytree(os.path.join(CRATES, name), os.path.join(folder, "crates", name))
    bench = os.path.join(folder, "crates", "reading_bench")
    write(os.path.join(folder, "crates.txt"), "".join("%s: %s\n" % line for line in LINES.items()))
    write(os.path.join(bench, "src", "main.rt"), MAIN)
    write(os.path.join(bench, "specs", "Lib.antt"), "")
    write(os.path.join(bench, "program"), "")
    return bench


def main():
    late = False
    with tempfile.TemporaryDirectory() as folder:
        bench = make(folder)
        built = subprocess.run(["rt", "run"], cwd=bench, capture_output=True, text=True)
        binary = os.path.join(bench, "out", "reading_bench")
        if not os.path.exists(binary):
            sys.exit(built.stdout[-2000:] + built.stderr[-2000:])
        for name, bits_of in SHAPES.items():
            row = []
            for count in COUNTS:
                with open(os.path.join(folder, "program"), "wb") as file:
                    file.write(program(natural(count) + bits_of(count)))
                least = 1e9
                for _run in range(RUNS):
                    run = subprocess.run([binary], cwd=folder, capture_output=True, text=True)
                    read, time = run.stdout.split()
                    if int(read) != count:
                        sys.exit("%d nodes were read of %d %s" % (int(read), count, name))
                    least = min(least, int(time) / 1000)
                row.append(least)
            slow = row[3] > 2.5 * row[2]
            late = late or slow
            print("%s: %s ms%s" % (name, ", ".join("%.1f" % time for time in row), ", more than 2.5 times" if slow else ""))
    sys.exit(1 if late else 0)


main()
