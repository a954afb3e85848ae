#!/usr/bin/env python3
"""Times sessions over events: how many events a second `trace` does, as requests grow.

A request of a function that asks nothing is two events, its Take and its End; one of `counter` locks, pulls, loads, stores,
pushes and unlocks one key. The processor time of a session without a request is taken off.
"""
import argparse
import json
import pathlib
import subprocess
import tempfile

from bench import spent_so_far

TOP = pathlib.Path(__file__).resolve().parent.parent


def session(function, requests, hosts, workers):
    key = {"name": "visits", "size": 4, "init": "00000000"}
    return {
        "hosts": hosts,
        "workers": workers,
        "keys": [key],
        "functions": [{"name": "f", "module": str(TOP / f"examples/{function}.wasm"), "quota": 4, "grants": [{"key": "visits", "mode": "write"}]}],
        "requests": [{"label": f"r{i}", "function": "f", "host": i % hosts} for i in range(requests)],
    }


def least_of(program, folder, text, runs):
    file = pathlib.Path(folder, "session.json")
    file.write_text(json.dumps(text))
    least = None
    for seed in range(runs):
        begun = spent_so_far()
        done = subprocess.run([program, "trace", str(file), str(seed)], capture_output=True, text=True, stdin=subprocess.DEVNULL)
        spent = spent_so_far() - begun
        if done.returncode != 0:
            return None, done.stdout + done.stderr
        least = spent if least is None else min(least, spent)
    return least, done.stdout


def main():
    parser = argparse.ArgumentParser(description=__doc__, formatter_class=argparse.RawDescriptionHelpFormatter)
    parser.add_argument("--program", default=str(TOP / "crates/faasm_cli/out/faasm_cli"))
    parser.add_argument("--runs", type=int, default=5, help="seeds, of which the least time counts")
    options = parser.parse_args()
    with tempfile.TemporaryDirectory() as folder:
        for function, events in (("answer", 2), ("counter", None)):
            for hosts, workers in ((1, 1), (2, 2), (16, 8)):
                bare, _ = least_of(options.program, folder, session(function, 0, hosts, workers), options.runs)
                for requests in (64, 256, 1024):
                    spent, text = least_of(options.program, folder, session(function, requests, hosts, workers), options.runs)
                    if spent is None or bare is None:
                        print(f"{function}, {requests} requests: failed: {text.strip()[:200]}")
                        continue
                    one = (spent - bare) / requests
                    rate = f", {events / one:,.0f} events a second" if events and one > 0 else ""
                    print(f"{function}, {hosts} hosts of {workers} workers, {requests} requests: {one * 1e6:.1f} us a request{rate}", flush=True)


if __name__ == "__main__":
    main()
