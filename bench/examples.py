#!/usr/bin/env python3
"""Runs each row of rows.tsv beside this script with the proved program, and compares the status and both outputs.

Usage: examples/run [PROGRAM]. PROGRAM is the launcher at the top of the repository, if none is named.
Ends with 0 where each row is as it should be, else with 1.
"""
import pathlib
import subprocess
import sys

here = pathlib.Path(__file__).resolve().parent.parent / 'examples'


def rows():
    """The words, the status and the texts on both outputs of each row."""
    for line in (here / "rows.tsv").read_text(encoding="utf-8").splitlines():
        if line and not line.startswith("#"):
            words, status, out, err = line.split("\t")
            yield words.split(" "), int(status), out, err


def ended(text):
    """A line with its line feed, or nothing."""
    return (text + "\n").encode() if text else b""


def main():
    program = str(pathlib.Path(sys.argv[1]).resolve()) if len(sys.argv) > 1 else str(here.parent / "simphl")
    # The first run may build the program and say so.
    subprocess.run([program, "build", "swap.hl", "fn=swap"], cwd=here, stdout=subprocess.DEVNULL, check=False)
    wrong = count = 0
    for words, status, out, err in rows():
        run = subprocess.run([program, *words], cwd=here, capture_output=True, check=False)
        count += 1
        if (run.returncode, run.stdout, run.stderr) != (status, ended(out), ended(err)):
            wrong += 1
            print(f"{' '.join(words)}: status {run.returncode}, {run.stdout!r}, {run.stderr!r}")
            print(f"    wanted: status {status}, {ended(out)!r}, {ended(err)!r}")
    print(f"{count} rows, {wrong} wrong")
    return 1 if wrong else 0


if __name__ == "__main__":
    sys.exit(main())
