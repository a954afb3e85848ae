#!/usr/bin/env python3
"""Times `faasm call` and `faasm check` beside other programs that are installed, and prints ratios.

It writes its modules into a temporary folder, byte by byte, so nothing but Python is needed to make them.
"""
import argparse
import pathlib
import resource
import shutil
import subprocess
import sys
import tempfile

FUEL = "1099511627776"

I32, I64, VOID = b"\x7f", b"\x7e", b"\x40"


def u(n):
    """An unsigned number in LEB128."""
    out = bytearray()
    while True:
        n, low = n >> 7, n & 0x7F
        out.append(low | (0x80 if n else 0))
        if not n:
            return bytes(out)


def s(n):
    """A signed number in LEB128."""
    out = bytearray()
    while True:
        low, n = n & 0x7F, n >> 7
        if (n == 0 and not low & 0x40) or (n == -1 and low & 0x40):
            out.append(low)
            return bytes(out)
        out.append(low | 0x80)


def vec(items):
    return u(len(items)) + b"".join(items)


def section(number, content):
    return bytes([number]) + u(len(content)) + content


def get(k):
    return b"\x20" + u(k)


def put(k):
    return b"\x21" + u(k)


def const(n):
    return b"\x41" + s(n)


ADD, SUB, MUL, AND, XOR, ROTL = b"\x6a", b"\x6b", b"\x6c", b"\x71", b"\x73", b"\x77"
LOAD, STORE = b"\x28\x02\x00", b"\x36\x02\x00"
END = b"\x0b"


def repeat(count, body):
    """A loop that counts local 0 down to nought."""
    down = get(0) + const(1) + SUB + b"\x22" + u(0)
    return const(count) + put(0) + b"\x03" + VOID + body + down + b"\x0d\x00" + END


def code(locals_of_i32, expression):
    groups = vec([u(locals_of_i32) + I32]) if locals_of_i32 else vec([])
    body = groups + expression + END
    return u(len(body)) + body


TYPES = section(1, vec([b"\x60" + vec([]) + vec([I32]), b"\x60" + vec([I32]) + vec([I32])]))


def module(main, functions=(), table=False, memory=False):
    """A module with `main` as function 0 and functions of one parameter behind it."""
    count = len(functions)
    parts = [b"\0asm\x01\0\0\0", TYPES, section(3, vec([u(0)] + [u(1)] * count))]
    if table:
        parts.append(section(4, vec([b"\x70\x00" + u(count)])))
    if memory:
        parts.append(section(5, vec([b"\x00" + u(1)])))
    parts.append(section(7, vec([vec([b"m", b"a", b"i", b"n"]) + b"\x00" + u(0)])))
    if table:
        indices = vec([u(1 + k) for k in range(count)])
        parts.append(section(9, vec([u(0) + const(0) + END + indices])))
    parts.append(section(10, vec([code(2, main)] + [code(0, f) for f in functions])))
    return b"".join(parts)


def arithmetic(n):
    mixed = get(1) + const(0x9E3779B) + MUL + get(0) + XOR + const(7) + ROTL + put(1)
    return module(repeat(n, mixed) + get(1))


def memory(n):
    place = get(0) + const(0xFFFC) + AND
    return module(repeat(n, place + place + LOAD + get(0) + ADD + STORE) + const(64) + LOAD, memory=True)


def calls(n):
    return module(repeat(n, get(1) + b"\x10\x01" + put(1)) + get(1), [get(0) + const(3) + ADD])


def indirect(n):
    chosen = get(1) + get(0) + const(3) + AND + b"\x11\x01\x00" + put(1)
    functions = [get(0) + const(k) + ADD for k in range(1, 5)]
    return module(repeat(n, chosen) + get(1), functions, table=True)


def switch(n):
    cases = 8
    opens = (b"\x02" + VOID) * (cases + 1)
    table = get(0) + const(7) + AND + b"\x0e" + vec([u(k) for k in range(cases - 1)]) + u(cases - 1)
    arms = b"".join(
        END + get(1) + const(k + 1) + ADD + put(1) + b"\x0c" + u(cases - 1 - k) for k in range(cases)
    )
    return module(repeat(n, opens + table + arms + END) + get(1))


def large(size):
    """A valid module of about so many bytes: bodies with blocks, locals and arithmetic."""
    step = b"\x02" + VOID + get(0) + const(12345) + ADD + put(0) + END
    function = step * 400 + get(0)
    count = max(1, size // (len(function) + 8))
    return module(const(1), [function] * count)


LOOPS = [
    ("arithmetic", arithmetic, 20_000_000),
    ("memory", memory, 20_000_000),
    ("calls", calls, 20_000_000),
    ("indirect calls", indirect, 10_000_000),
    ("switch", switch, 10_000_000),
    ("start-up", calls, 1),
]

NODE = (
    "const b=require('fs').readFileSync(process.argv[1]);"
    "WebAssembly.instantiate(b).then(r=>console.log(r.instance.exports.main()))"
)


def spent_so_far():
    """The processor time of all children that have ended, in seconds."""
    used = resource.getrusage(resource.RUSAGE_CHILDREN)
    return used.ru_utime + used.ru_stime


def best(words, runs):
    """The least processor time of so many runs, and what the last one printed."""
    least, text = None, ""
    for _ in range(runs):
        begin = spent_so_far()
        done = subprocess.run(words, capture_output=True, text=True, stdin=subprocess.DEVNULL)
        spent = spent_so_far() - begin
        if done.returncode != 0:
            return None, (done.stdout + done.stderr).strip()
        text = done.stdout.strip()
        least = spent if least is None else min(least, spent)
    return least, text


def show(name, times):
    ours = times[0][1]
    cells = []
    for program, spent in times:
        if spent is None:
            cells.append(f"{program} failed")
        elif program == times[0][0] or not ours:
            cells.append(f"{program} {spent * 1000:.1f} ms")
        else:
            cells.append(f"{program} {spent * 1000:.1f} ms ({spent / ours:.2f} of ours)")
    print(f"{name}: " + ", ".join(cells), flush=True)


def main():
    parser = argparse.ArgumentParser(description=__doc__)
    here = pathlib.Path(__file__).resolve().parent
    parser.add_argument("--program", default=str(here.parent / "crates/faasm_cli/out/faasm_cli"))
    parser.add_argument("--runs", type=int, default=3)
    parser.add_argument("--scale", type=float, default=1.0, help="of the loops' counts")
    options = parser.parse_args()
    if not pathlib.Path(options.program).exists():
        sys.exit(f"{options.program} is not built: run ./faasm --help or rt ci first")
    interp, node, validate = map(shutil.which, ("wasm-interp", "node", "wasm-validate"))
    with tempfile.TemporaryDirectory() as folder:
        for name, make, count in LOOPS:
            file = pathlib.Path(folder, "loop.wasm")
            file.write_bytes(make(max(1, int(count * options.scale)) if count > 1 else 1))
            times = [("faasm", *best([options.program, "call", str(file), "", FUEL], options.runs))]
            if interp:
                times.append(("wasm-interp", *best([interp, str(file), "--run-all-exports"], options.runs)))
            if node:
                times.append(("node", *best([node, "-e", NODE, str(file)], options.runs)))
            show(f"call, {name}", [(program, spent) for program, spent, _ in times])
            for program, spent, text in times:
                print(f"    {program}: {text.splitlines()[-1] if text else ''}")
        for size in (1, 4):
            file = pathlib.Path(folder, "large.wasm")
            file.write_bytes(large(size * 1024 * 1024 - 65536))
            times = [("faasm", best([options.program, "check", str(file)], options.runs)[0])]
            if validate:
                times.append(("wasm-validate", best([validate, str(file)], options.runs)[0]))
            show(f"check, {size} MB", times)


if __name__ == "__main__":
    main()
