"""Compares a program with ring.py, byte by byte.

    python3 compare.py PROGRAM [COUNT] [SEED]

gives COUNT scripts of every kind, from SEED on, to the program on its standard
input. Of a script that prints otherwise, a copy is saved in the working folder
and the first line that differs is shown. Exits with 1 if any differs.
"""

import shutil
import subprocess
import sys
import time
from itertools import zip_longest
from pathlib import Path

from generate import KINDS, script
from ring import print_of

LONGEST_RUN = 60        # seconds


def print_by(program, text):
    """What the program prints, and what went wrong, if anything."""
    try:
        run = subprocess.run([program], input=text, stdout=subprocess.PIPE,
                             stderr=subprocess.PIPE, timeout=LONGEST_RUN)
    except subprocess.TimeoutExpired:
        return b"", f"still running after {LONGEST_RUN} s"
    if run.returncode < 0:
        return run.stdout, f"ended by signal {-run.returncode}"
    return run.stdout, ""


def first_difference(expected, printed):
    """The number of the first line that differs, and both versions of it."""
    pairs = zip_longest(expected.splitlines(True), printed.splitlines(True), fillvalue=b"")
    for number, (one, other) in enumerate(pairs, start=1):
        if one != other:
            return number, one, other
    return None


def show_difference(kind, seed, text, expected, printed, trouble):
    saved = Path(f"difference-{kind}-{seed}.script")
    saved.write_bytes(text)
    print(f"{kind} {seed}: differs, script saved as {saved}")
    if trouble:
        print(f"  the program: {trouble}")
    difference = first_difference(expected, printed)
    if difference:
        number, one, other = difference
        print(f"  line {number} expected: {one!r}")
        print(f"  line {number} printed:  {other!r}")


def main(program, count, first):
    found = shutil.which(program) or shutil.which(str(Path(program).resolve()))
    if not found:
        sys.exit(f"not a program: {program}")
    started = time.perf_counter()
    agree = differ = 0
    for kind in KINDS:
        for seed in range(first, first + count):
            text = script(kind, seed)
            expected = print_of(text)
            printed, trouble = print_by(found, text)
            if printed == expected and not trouble:
                agree += 1
            else:
                differ += 1
                show_difference(kind, seed, text, expected, printed, trouble)
    print(f"{agree} of {agree + differ} scripts agree, {time.perf_counter() - started:.1f} s")
    return 1 if differ else 0


if __name__ == "__main__":
    if not 2 <= len(sys.argv) <= 4:
        sys.exit("usage: compare.py PROGRAM [COUNT] [SEED]")
    sys.exit(main(sys.argv[1], int(sys.argv[2]) if len(sys.argv) > 2 else 50,
                  int(sys.argv[3]) if len(sys.argv) > 3 else 1))
