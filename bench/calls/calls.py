#!/usr/bin/env python3
"""Times calls of a call table: so many requests are submitted, taken by 16 hosts in turn, submit children, and are finished.

It takes a copy of the crates, adds the program `call_times` to them, and has the toolchain prove and build that. It prints
processor time for each request (one `submit_request`, one `take_next` and one `finish`), for each `submit` of a child and for
each `child_of`, at a thousand records and more.
"""
import argparse
import pathlib
import resource
import shutil
import subprocess
import tempfile

HERE = pathlib.Path(__file__).resolve().parent
# So often each request asks for its child, since one answer takes little beside all else of a run.
ASKS = 100
CRATES = ["faaslet_meaning", "turn_cell", "host_scheduler", "call_table"]


def built(folder):
    """The program, from a copy of the crates."""
    top = HERE.parent.parent
    for name in CRATES:
        shutil.copytree(top / "crates" / name, folder / "crates" / name, ignore=shutil.ignore_patterns("out"))
    program = folder / "crates" / "call_times"
    (program / "src").mkdir(parents=True)
    shutil.copy(HERE / "call_times" / "main.txt", program / "src" / "main.rt")
    shutil.copy(top / "HANDLES", folder / "HANDLES")
    listed = [line for line in (top / "crates.txt").read_text().splitlines() if line.split(" ")[0].strip(":") in CRATES]
    (folder / "crates.txt").write_text("\n".join(listed + ["call_times: call_table faaslet_meaning"]) + "\n")
    subprocess.run(["rt", "run", "--", "10", "1", "1"], cwd=program, check=True, stdin=subprocess.DEVNULL)
    return program / "out" / "call_times"


def spent(program, count, children, asks, runs):
    """The least processor time of some runs, in seconds."""
    times = []
    for _ in range(runs):
        before = resource.getrusage(resource.RUSAGE_CHILDREN)
        words = [str(program), str(count), str(children), str(asks)]
        out = subprocess.run(words, check=True, capture_output=True, text=True).stdout
        after = resource.getrusage(resource.RUSAGE_CHILDREN)
        if out.split() != [str(count), str(count + count * children), str(count * children if asks else 0)]:
            raise SystemExit(f"{count}: not all were run and submitted, but {out}")
        times.append(after.ru_utime + after.ru_stime - before.ru_utime - before.ru_stime)
    return min(times)


def main():
    parser = argparse.ArgumentParser(description=__doc__)
    parser.add_argument("--runs", type=int, default=3)
    parser.add_argument("--most", type=int, default=1_000_000)
    parser.add_argument("--program", help="a program that is built already")
    options = parser.parse_args()
    with tempfile.TemporaryDirectory() as name:
        program = options.program or built(pathlib.Path(name))
        empty = spent(program, 0, 0, 0, options.runs)
        for count in (1_000, 10_000, 100_000, 1_000_000):
            if count <= options.most:
                alone, more, asked = (spent(program, count, *rest, options.runs) for rest in ((0, 0), (1, 0), (1, ASKS)))
                request, child, ask = (took / count * 1e9 for took in (alone - empty, more - alone, (asked - more) / ASKS))
                told = f"{request:,.0f} ns a request, {child:,.0f} a child, {ask:,.1f} an answer of child_of"
                print(f"{count:>9,} records: {told}", flush=True)


if __name__ == "__main__":
    main()
