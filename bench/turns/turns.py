#!/usr/bin/env python3
"""Times turns of a cell beside std's `Mutex` in plain Rust: so many threads, each adds so often to one number.

It takes a copy of two crates, adds the program `turn_times` to them, and has the toolchain prove and build that. The
other program is `mutex.rs`, built by `rustc -O`. Both print the sum, and are measured from outside. With --keep FOLDER
the two programs stay in that folder, and nothing is measured; with --from FOLDER they are taken from there. So what takes
long is done before, and the measuring, about half a minute, while the machine is idle.
"""
import argparse
import os
import pathlib
import shutil
import subprocess
import tempfile
import time

HERE = pathlib.Path(__file__).resolve().parent
CRATES = ["turn_cell", "turn_counter"]


def built_turns(folder):
    """The program over a turn cell, from a copy of the crates with what was proved of them."""
    top = HERE.parent.parent
    for name in CRATES:
        shutil.copytree(top / "crates" / name, folder / "crates" / name)
    program = folder / "crates" / "turn_times"
    (program / "src").mkdir(parents=True)
    shutil.copy(HERE / "turn_times" / "main.txt", program / "src" / "main.rt")
    shutil.copy(top / "HANDLES", folder / "HANDLES")
    listed = [line for line in (top / "crates.txt").read_text().splitlines() if line.split(" ")[0].strip(":") in CRATES]
    (folder / "crates.txt").write_text("\n".join(listed + ["turn_times may_wait=1: turn_counter"]) + "\n")
    subprocess.run(["rt", "run", "--", "2", "1"], cwd=program, check=True, stdin=subprocess.DEVNULL)
    return program / "out" / "turn_times"


def build(folder):
    """Puts both programs into the folder."""
    folder.mkdir(parents=True, exist_ok=True)
    subprocess.run(["rustc", "-O", "-o", str(folder / "mutex"), str(HERE / "mutex.rs")], check=True)
    with tempfile.TemporaryDirectory() as name:
        shutil.copy(built_turns(pathlib.Path(name)), folder / "turn_times")


class Run:
    """One run: its wall time and processor time in seconds, and how often a thread of it was switched."""

    def __init__(self, command, threads, times):
        words = [str(word) for word in [*command, threads, times]]
        begun = time.perf_counter()
        child = subprocess.Popen(words, stdout=subprocess.PIPE, text=True)
        out = child.stdout.read()
        _, status, used = os.wait4(child.pid, 0)
        self.wall = time.perf_counter() - begun
        child.returncode = os.waitstatus_to_exitcode(status)
        child.stdout.close()
        self.processor = used.ru_utime + used.ru_stime
        self.switches = used.ru_nvcsw + used.ru_nivcsw
        if child.returncode != 0 or int(out) != 3 * threads * times:
            raise SystemExit(f"{words}: status {child.returncode}, wrong sum {out}")


def enough_times(command, threads, seconds):
    """How many turns a thread take about so many seconds."""
    times = 1_000
    while times < 50_000_000:
        wall = Run(command, threads, times).wall
        if wall > seconds / 4:
            return max(1, int(times * seconds / wall))
        times *= 4
    return times


def measured(command, threads, options):
    """The runs of one way, the fastest first, and the turns of each."""
    times = enough_times(command, threads, options.seconds)
    runs = sorted((Run(command, threads, times) for _ in range(options.runs)), key=lambda run: run.wall)
    return runs, threads * times


def measure(folder, options):
    """Prints the table."""
    cell, mutex = folder / "turn_times", folder / "mutex"
    ways = {"turn cell": [cell], "`Mutex`, in order": [mutex, "order"], "`Mutex`, any order": [mutex, "any"]}
    print("| Way | threads | thousand turns a second | slowest run | ns a turn | processor ns a turn | switches a turn |")
    print("|---|---|---|---|---|---|---|")
    waiters = {}
    for way, command in ways.items():
        for threads in (2, 4):
            runs, turns = measured(command, threads, options)
            best = runs[0]
            waiters[way, threads] = best.wall / turns, best.processor / turns
            print(
                f"| {way} | {threads} | {turns / best.wall / 1e3:,.0f} | {turns / runs[-1].wall / 1e3:,.0f} "
                f"| {best.wall / turns * 1e9:,.0f} | {best.processor / turns * 1e9:,.0f} | {best.switches / turns:.3f} |",
                flush=True,
            )
    print()
    for way in ways:
        few, many = waiters[way, 2], waiters[way, 4]
        print(f"{way}: with three threads beside the one that has the turn, in place of one, a turn takes "
              f"{many[0] / few[0]:.2f} times as long and {many[1] / few[1]:.2f} times the processor time.")


def main():
    parser = argparse.ArgumentParser(description=__doc__)
    parser.add_argument("--runs", type=int, default=5)
    parser.add_argument("--seconds", type=float, default=1.0, help="about how long one run is to take")
    parser.add_argument("--keep", type=pathlib.Path, metavar="FOLDER", help="build into this folder, and measure nothing")
    parser.add_argument("--from", type=pathlib.Path, metavar="FOLDER", dest="built", help="measure what is built there")
    options = parser.parse_args()
    if options.keep:
        build(options.keep)
    elif options.built:
        measure(options.built, options)
    else:
        with tempfile.TemporaryDirectory() as name:
            build(pathlib.Path(name))
            measure(pathlib.Path(name), options)


if __name__ == "__main__":
    main()
