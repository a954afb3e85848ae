#!/usr/bin/env python3
"""Times how a session file is read: one of 8 MB with 1,024 requests and 256 functions, and a file that is refused late.

It runs the built program on files that it writes itself, so many times each, and takes the least processor time. Whether a
session is accepted shows in what is printed.
"""
import argparse
import json
import pathlib
import subprocess
import tempfile

from bench import spent_so_far

TOP = pathlib.Path(__file__).resolve().parent.parent

LIMIT = 8_388_608


def session(module, input_bytes):
    """64 keys, 256 functions with 32 grants and 256 callable functions each, and 1,024 requests with so much input."""
    keys = [{"name": f"key-{i}", "size": 4096, "init": "00ff" * 8} for i in range(64)]
    names = [f"function-{i}" for i in range(256)]
    functions = [
        {
            "name": name,
            "module": module,
            "quota": 4,
            "grants": [{"key": f"key-{(i + j) % 64}", "mode": "write" if j % 2 else "read"} for j in range(32)],
            "calls": names,
        }
        for i, name in enumerate(names)
    ]
    requests = [
        {"label": f"request-{i}", "function": names[i % 256], "host": i % 4, "input": "a5" * input_bytes} for i in range(1024)
    ]
    return {"hosts": 4, "workers": 2, "keys": keys, "functions": functions, "requests": requests}


def of_length(length, module):
    """The text of a session of so many bytes: inputs as long as they fit, and spaces behind."""
    bare = len(json.dumps(session(module, 0)))
    text = json.dumps(session(module, min(65_536, (length - bare) // 2048)))
    return text + " " * (length - len(text))


def least_of(words, runs):
    least, text = None, ""
    for _ in range(runs):
        begun = spent_so_far()
        text = subprocess.run(words, capture_output=True, text=True, stdin=subprocess.DEVNULL).stdout
        spent = spent_so_far() - begun
        least = spent if least is None else min(least, spent)
    return least, text.strip()


def main():
    parser = argparse.ArgumentParser(description=__doc__, formatter_class=argparse.RawDescriptionHelpFormatter)
    parser.add_argument("--program", default=str(TOP / "crates/faasm_cli/out/faasm_cli"))
    parser.add_argument("--runs", type=int, default=5)
    options = parser.parse_args()
    answer = str(TOP / "examples/answer.wasm")
    with tempfile.TemporaryDirectory() as folder:
        rows = [
            ("256 functions, 1,024 requests, 8 MB", of_length(LIMIT, answer)),
            ("the same, and its modules are absent", of_length(LIMIT, f"{folder}/absent")),
            ("the same without its last brace", of_length(LIMIT, answer).rstrip(" ")[:-1].ljust(LIMIT)),
            ("8 MB of brackets", "[" * LIMIT),
            ("1 byte too long", " " * (LIMIT + 1)),
        ]
        for name, text in rows:
            file = pathlib.Path(folder) / "session.json"
            file.write_text(text)
            spent, line = least_of([options.program, "trace", str(file), "1"], options.runs)
            print(f"{name:<40} {len(text):>9,} bytes {1000 * spent:8.1f} ms   {line[:60]}")


if __name__ == "__main__":
    main()
