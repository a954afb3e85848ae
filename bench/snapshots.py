#!/usr/bin/env python3
"""Measures what makes a machine ready for a call: restoring its snapshot, and setting it back after pages were written.

It prints times in microseconds, the least of many turns, beside those of a plain copy of the whole image and of the pages
that were written alone; and where valgrind is installed the machine instructions of one turn. It takes a copy of the
crates that the program `snapshot_times` uses, adds that to them, and has the toolchain prove and build it; or it takes a
program that is built.
"""
import argparse
import pathlib
import re
import shutil
import subprocess
import tempfile

from bench import END, code, const, get, repeat, section, u, vec

USES = "proto_faaslet wasm_interp region_map function_rules wasm_validate wasm_decode fa_outside faaslet_meaning"

STORE = b"\x36\x02\x00"

HERE = pathlib.Path(__file__).resolve().parent

FILES = {
    "bench/snapshot_times/main.txt": "src/main.rt",
    "bench/snapshot_times/restore_again.txt": "proofs/restore_again/Invariants.antt",
    "bench/snapshot_times/reset_again.txt": "proofs/reset_again/Invariants.antt",
    "bench/snapshot_times/write_pages.txt": "proofs/write_pages/Invariants.antt",
    "crates/faasm_cli/src/edge.rt": "src/edge.rt",
}

PAGES = [1, 17, 1024]

COUNTED = {"restore": "restore_once", "reset": "reset_once", "copy": "copy_once"}


def module(pages, stores):
    """So many pages, a filled table, a segment, and an `init` that stores so many words."""
    names = [(b"main", 0), (b"init", 1)]
    exports = [u(len(name)) + name + b"\x00" + u(k) for name, k in names]
    place = get(0) + const(2) + b"\x74"
    fills = repeat(stores, place + get(0) + STORE) if stores else b""
    return b"".join(
        [
            b"\0asm\x01\0\0\0",
            section(1, vec([b"\x60" + vec([]) + vec([b"\x7f"]), b"\x60" + vec([]) + vec([])])),
            section(3, vec([u(0), u(1)])),
            section(4, vec([b"\x70\x00" + u(256)])),
            section(5, vec([b"\x00" + u(pages)])),
            section(6, vec([b"\x7f\x01" + const(k) + END for k in range(64)])),
            section(7, vec(exports)),
            section(9, vec([u(0) + const(0) + END + vec([u(0)] * 256)])),
            section(10, vec([code(0, const(42)), code(1, fills)])),
            section(11, vec([u(0) + const(0) + END + u(30_000) + bytes(range(1, 251)) * 120])),
        ]
    )


def needed(listed):
    """The crates that the program uses, and those below them."""
    uses = {}
    for line in listed.splitlines():
        name, _, rest = line.partition(":")
        if not line.startswith("#"):
            uses[name.split()[0]] = rest.split()
    found, left = set(), USES.split()
    while left:
        name = left.pop()
        if name in uses and name not in found:
            found.add(name)
            left += uses[name]
    return found


def built(folder):
    """The program, from a copy of the crates with what was proved of them."""
    top = HERE.parent
    listed = (top / "crates.txt").read_text()
    crates = needed(listed)
    for name in crates:
        shutil.copytree(top / "crates" / name, folder / "crates" / name, symlinks=True)
    program = folder / "crates" / "snapshot_times"
    for source, place in FILES.items():
        (program / place).parent.mkdir(parents=True, exist_ok=True)
        shutil.copy(top / source, program / place)
    lines = [line for line in listed.splitlines() if re.split(r"[ :]", line)[0] in crates]
    (folder / "crates.txt").write_text("\n".join([*lines, f"snapshot_times: {USES}"]) + "\n")
    shutil.copy(top / "HANDLES", folder / "HANDLES")
    first = folder / "first.wasm"
    first.write_bytes(module(1, 0))
    subprocess.run(["rt", "run", "--", str(first), "reset", "1", "1"], cwd=program, check=True, stdin=subprocess.DEVNULL)
    return program / "out" / "snapshot_times"


class Program:
    """The program, the folder for its modules, and how often it is run."""

    def __init__(self, path, folder, runs):
        self.path, self.folder, self.runs = str(path), folder, runs
        self.valgrind = shutil.which("valgrind")

    def words(self, pages, way, written, turns):
        file = self.folder / f"{pages}.wasm"
        if not file.exists():
            file.write_bytes(module(pages, 0))
        return [self.path, str(file), way, str(written), str(turns)]

    def times(self, pages, way, written, turns):
        """The least microseconds of writing the pages, and of what is measured."""
        words = self.words(pages, way, written, turns)
        told = [subprocess.run(words, check=True, capture_output=True, text=True).stdout.split() for _ in range(self.runs)]
        return [min(int(each[k]) for each in told) / 1e3 for k in (0, 1)]

    def counted(self, pages, way, written):
        """The machine instructions of one turn of what is measured."""
        out = self.folder / "callgrind.out"
        tool = [self.valgrind, "--tool=callgrind", f"--callgrind-out-file={out}"]
        tool.append(f"--toggle-collect=snapshot_times::{COUNTED[way]}*")
        told = subprocess.run([*tool, *self.words(pages, way, written, 1)], check=True, capture_output=True, text=True)
        return int(re.search(r"Collected : (\d+)", told.stderr)[1])

    def cell(self, pages, way, written):
        turns = 20 if written > 100 else 500
        write, ready = self.times(pages, way, written, turns)
        text = f"{way} {ready:.2f} us"
        if self.valgrind:
            text += f", {self.counted(pages, way, written):,} instructions"
        return write, text


def show(program):
    copies = {pages: program.cell(1, "copy", pages)[1] for pages in (1, 16, 17, 1024)}
    for pages in PAGES:
        _, anew = program.times(pages, "build", 0, 10)
        print(f"{pages} pages: built anew {anew:,.0f} us; plain {copies[pages]}", flush=True)
        for written in sorted({0, 1, 16, pages}):
            if written <= pages:
                write, reset = program.cell(pages, "reset", written)
                _, restore = program.cell(pages, "restore", written)
                plain = f"; of these alone a plain {copies[written]}" if written else ""
                print(f"    {written} written (in {write:,.1f} us): {restore}; {reset}{plain}", flush=True)


def main():
    parser = argparse.ArgumentParser(description=__doc__)
    parser.add_argument("--runs", type=int, default=5)
    parser.add_argument("--program", help="one that is built, in place of proving and building it")
    options = parser.parse_args()
    with tempfile.TemporaryDirectory() as name:
        folder = pathlib.Path(name)
        show(Program(options.program or built(folder), folder, options.runs))


if __name__ == "__main__":
    main()
