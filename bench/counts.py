#!/usr/bin/env python3
"""Counts the machine instructions that one turn of a loop costs, by valgrind, for programs beside one another.

    python3 bench/counts.py PROGRAM [PROGRAM ..]      each a built `faasm`; ratios are to the first

The loops are those of bench.py, and loops that only load or store: from a page of zeros, a page of the image, a page that
was written, and without the access. The count of a turn is the difference of two runs, so the start of the process and
what is made before the call are not in it.
"""
import argparse
import pathlib
import re
import shutil
import subprocess
import sys
import tempfile

from bench import AND, END, FUEL, LOAD, STORE, TYPES
from bench import arithmetic, calls, code, const, get, indirect, memory, repeat, section, switch, u, vec

DROP = b"\x1a"

TURNS = (2_000, 12_000)


def over_a_page(main, filled):
    """A module with one page, which a segment fills in part or not."""
    parts = [b"\0asm\x01\0\0\0", TYPES, section(3, vec([u(0)])), section(5, vec([b"\x00" + u(1)]))]
    parts.append(section(7, vec([vec([b"m", b"a", b"i", b"n"]) + b"\x00" + u(0)])))
    parts.append(section(10, vec([code(2, main + get(1))])))
    if filled:
        parts.append(section(11, vec([u(0) + const(0) + END + vec([b"\x01"] * 64)])))
    return b"".join(parts)


PLACE = get(0) + const(0xFFFC) + AND

LOADS = PLACE + LOAD + DROP

LOOPS = [
    ("arithmetic", arithmetic),
    ("memory", memory),
    ("calls", calls),
    ("indirect calls", indirect),
    ("switch", switch),
    ("loads, a page of zeros", lambda n: over_a_page(repeat(n, LOADS), False)),
    ("loads, a page of the image", lambda n: over_a_page(repeat(n, LOADS), True)),
    ("loads, a written page", lambda n: over_a_page(const(0) + const(1) + STORE + repeat(n, LOADS), False)),
    ("the same without the load", lambda n: over_a_page(repeat(n, PLACE + DROP), False)),
    ("stores", lambda n: over_a_page(repeat(n, PLACE + get(0) + STORE), False)),
    ("the same without the store", lambda n: over_a_page(repeat(n, PLACE + get(0) + DROP + DROP), False)),
]


def counted(program, module, folder):
    """The machine instructions of a call of the module."""
    file = folder / "loop.wasm"
    file.write_bytes(module)
    tool = ["valgrind", "--tool=callgrind", f"--callgrind-out-file={folder / 'callgrind.out'}"]
    done = subprocess.run([*tool, program, "call", str(file), "", FUEL], capture_output=True, text=True)
    if done.returncode != 0:
        sys.exit(f"{program} did not end with 0: {done.stdout}{done.stderr}")
    return int(re.search(r"Collected : (\d+)", done.stderr)[1])


def turn(program, make, folder):
    """The machine instructions of one turn."""
    few, many = TURNS
    return (counted(program, make(many), folder) - counted(program, make(few), folder)) / (many - few)


def main():
    parser = argparse.ArgumentParser(description=__doc__, formatter_class=argparse.RawDescriptionHelpFormatter)
    parser.add_argument("programs", nargs="+")
    options = parser.parse_args()
    if not shutil.which("valgrind"):
        sys.exit("valgrind is not installed")
    with tempfile.TemporaryDirectory() as name:
        for loop, make in LOOPS:
            counts = [turn(program, make, pathlib.Path(name)) for program in options.programs]
            cells = [f"{count:.0f} ({count / counts[0]:.2f})" for count in counts]
            print(f"{loop}: " + ", ".join(cells), flush=True)


if __name__ == "__main__":
    main()
