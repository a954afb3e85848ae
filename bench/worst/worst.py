#!/usr/bin/env python3
"""What one unit of fuel costs at most: writes modules that make it dear, and times them beside a loop of `i32.add`.

    python3 bench/worst/worst.py                                   # each module, the built program
    python3 bench/worst/worst.py --program OLD NEW --only zeros    # two programs side by side
    python3 bench/worst/worst.py --write "i64.load" FILE           # a module alone
"""
import argparse
import pathlib
import subprocess
import sys
import tempfile

HERE = pathlib.Path(__file__).resolve().parent
sys.path.insert(0, str(HERE.parent))

from bench import ADD, END, I32, I64, VOID, const, get, put, s, section, spent_so_far, u, vec  # noqa: E402

BLOCK, LOOP, IF, ELSE = b"\x02" + VOID, b"\x03" + VOID, b"\x04" + VOID, b"\x05"
DROP, RETURN, SELECT = b"\x1a", b"\x0f", b"\x1b"
TEE = b"\x22"


def br(n):
    return b"\x0c" + u(n)


def call(f):
    return b"\x10" + u(f)


def forever(body):
    """A loop without an end; its one own instruction is the branch."""
    return LOOP + body + br(0) + END


def often(step, count=200):
    """The same step so many times in a loop without an end."""
    return forever(step * count)


def body(expression, groups=()):
    inside = vec([u(count) + kind for count, kind in groups]) + expression + END
    return u(len(inside)) + inside


def module(main, others=(), types=(), groups=((3, I32),), memory=None, table=None, globals_=0):
    """A module whose function 0 is `main`; `others` are pairs of a type and a body. Type 0 is [] -> [i32], 1 is [] -> []."""
    kinds = [b"\x60" + vec([]) + vec([I32]), b"\x60" + vec([]) + vec([]), *types]
    parts = [b"\0asm\x01\0\0\0", section(1, vec(kinds)), section(3, vec([u(0)] + [u(kind) for kind, _ in others]))]
    if table is not None:
        parts.append(section(4, vec([b"\x70\x00" + u(len(table))])))
    if memory is not None:
        first, most = memory
        parts.append(section(5, vec([b"\x01" + u(first) + u(most)])))
    if globals_:
        parts.append(section(6, vec([I32 + b"\x01" + const(0) + END] * globals_)))
    parts.append(section(7, vec([vec([b"m", b"a", b"i", b"n"]) + b"\x00" + u(0)])))
    if table is not None:
        parts.append(section(9, vec([u(0) + const(0) + END + vec([u(k) for k in table])])))
    parts.append(section(10, vec([body(main + const(0), groups), *(code for _, code in others)])))
    return b"".join(parts)


def add():
    """The measure: i32.const and i32.add in turn."""
    return module(forever(get(0) + (const(7) + ADD) * 500 + put(0)))


def groups():
    """A callee with 2,000,000 groups of no locals."""
    inside = u(2_000_000) + (u(0) + I32) * 2_000_000 + END
    return module(often(call(1)), [(1, u(len(inside)) + inside)])


def zeros():
    """A callee with 50,000 locals, which it never sets."""
    return module(often(call(1)), [(1, body(b"", [(50_000, I64)]))])


def zeros_of(count):
    return lambda: module(often(call(1)), [(1, body(b"", [(count, I64)]))])


def set_zeros(stride):
    """A callee with 50,000 locals, of which it sets one in so many."""

    def make():
        sets = b"".join(b"\x42\x01" + put(k) for k in range(0, 50_000, stride))
        return module(often(call(1)), [(1, body(sets, [(50_000, I64)]))])

    return make


def teed_zeros(stride):
    """A callee with 50,000 locals, of which it sets one in so many, one unit of fuel each."""

    def make():
        sets = b"".join(TEE + u(k) for k in range(0, 50_000, stride))
        return module(often(call(1)), [(1, body(b"\x42\x01" + sets + DROP, [(50_000, I64)]))])

    return make


def zeros_and_value():
    """A callee with 50,000 locals that answers a value: two units of fuel, and a value is pushed above the zeros."""
    return module(often(call(1) + DROP), [(0, body(const(1), [(50_000, I64)]))])


def last_zero():
    """A callee with 50,000 locals, of which it sets the last."""
    return module(often(call(1)), [(1, body(b"\x42\x01" + put(49_999), [(50_000, I64)]))])


def nest():
    """60,000 blocks in one another, entered and left by their ends."""
    return module(forever(BLOCK * 60_000 + END * 60_000))


def nest_else():
    """As many, left at an `else`."""
    inner = b""
    for _ in range(300):
        inner = const(1) + IF + inner + ELSE + END
    return module(often(inner, 10))


def br_out():
    """60,000 blocks in one another, left by one branch."""
    return module(forever(BLOCK * 60_000 + br(59_999) + END * 60_000))


def return_out():
    """60,000 blocks in one another and 5,000 values under each branch, left by `return` of a callee."""
    return module(forever(call(1)), [(1, body(BLOCK * 60_000 + const(1) * 5_000 + RETURN + END * 60_000))])


def br_over_values():
    """60,000 values that one branch throws away."""
    return module(forever(BLOCK + const(1) * 60_000 + br(0) + END))


def br_table():
    """1,000,000 labels, of which the last but one is taken."""
    labels = vec([u(0)] * 1_000_000) + u(0)
    return module(forever(const(999_999) + b"\x0e" + labels))


def br_table_short():
    return module(often(BLOCK + const(1) + b"\x0e" + vec([u(0)] * 3) + u(0) + END))


def indirect(params):
    """A call through the table with so many parameters."""

    def make():
        kind = b"\x60" + vec([I32] * params) + vec([])
        turn = const(1) * params + const(0) + b"\x11" + u(2) + b"\x00"
        return module(often(turn, 20), [(2, body(b""))], types=[kind], table=[1])

    return make


def indirect_wide():
    """A call through the table of 65,536 elements."""
    turn = const(65_535) + b"\x11" + u(1) + b"\x00"
    return module(often(turn), [(1, body(b""))], table=[1] * 65_536)


def grow(first, most, pages):
    """memory.grow by so many pages."""
    return lambda: module(often(const(pages) + b"\x40\x00" + DROP), memory=(first, most))


def size():
    return module(often(b"\x3f\x00" + DROP), memory=(64, 64))


def load(op, address):
    return lambda: module(often(const(address) + op + b"\x00\x00" + DROP), memory=(1, 64))


def store(op, address, value):
    return lambda: module(often(const(address) + value + op + b"\x00\x00"), memory=(1, 64))


def number(op, kind, two):
    """One numeric instruction over its operands."""
    sample = const(-7) if kind == I32 else b"\x42" + s(-7)
    return lambda: module(often(sample * (2 if two else 1) + bytes([op]) + DROP))


def wide_globals():
    return module(often(b"\x23" + u(65_535) + b"\x24" + u(65_534)), globals_=65_536)


def far_local():
    return module(often(get(49_999) + put(49_998)), groups=[(50_000, I32)])


def deep_calls():
    """A recursion of 1,000 frames, over and over."""
    recursive = get(0) + IF + get(0) + const(1) + b"\x6b" + call(1) + END
    kind = b"\x60" + vec([I32]) + vec([])
    return module(forever(const(1_000) + call(1)), [(2, body(recursive))], types=[kind])


def small_calls():
    """A callee that does nothing."""
    return module(often(call(1)), [(1, body(b""))])


def wide_calls():
    """A callee with 1,024 parameters."""
    kind = b"\x60" + vec([I32] * 1_024) + vec([])
    return module(often(const(1) * 1_024 + call(1), 10), [(2, body(b""))], types=[kind])


def host():
    """`input_size` over and over. Only `--write` makes it: it was not timed by `call` yet."""
    name = lambda text: u(len(text)) + text  # noqa: E731
    kind = b"\x60" + vec([]) + vec([I32])
    return b"".join(
        [
            b"\0asm\x01\0\0\0",
            section(1, vec([kind])),
            section(2, vec([name(b"faasm") + name(b"input_size") + b"\x00" + u(0)])),
            section(3, vec([u(0)])),
            section(7, vec([name(b"main") + b"\x00" + u(1)])),
            section(10, vec([body(often(call(0) + DROP) + const(0))])),
        ]
    )


def simple(step, groups_=((3, I32),)):
    return lambda: module(often(step), groups=groups_)


NAMES = {
    0x67: "i32.clz", 0x68: "i32.ctz", 0x69: "i32.popcnt", 0x6D: "i32.div_s", 0x6F: "i32.rem_s", 0x75: "i32.shr_s",
    0x77: "i32.rotl", 0x79: "i64.clz", 0x7A: "i64.ctz", 0x7B: "i64.popcnt", 0x7F: "i64.div_s", 0x81: "i64.rem_s",
    0x87: "i64.shr_s", 0x89: "i64.rotl", 0x8A: "i64.rotr", 0x50: "i64.eqz", 0x53: "i64.lt_s", 0xA7: "i32.wrap_i64",
    0xAC: "i64.extend_i32_s",
}
ONE = {0x67, 0x68, 0x69, 0x79, 0x7A, 0x7B, 0x50, 0xA7, 0xAC}
I64_OPERAND = {0x79, 0x7A, 0x7B, 0x7F, 0x81, 0x87, 0x89, 0x8A, 0x50, 0x53, 0xA7}

CASES = [
    ("add", add),
    ("groups of no locals", groups),
    ("zeros: 50,000 locals", zeros),
    ("zeros: 2,000 locals", zeros_of(2_000)),
    ("zeros: 255 locals", zeros_of(255)),
    ("zeros: 60 locals", zeros_of(60)),
    ("zeros, the last set", last_zero),
    ("zeros, one in 256 set", set_zeros(256)),
    ("zeros, one in 64 set", set_zeros(64)),
    ("zeros, all set", set_zeros(1)),
    ("zeros, one in 2,048 set by local.tee", teed_zeros(2_048)),
    ("zeros, one in 512 set by local.tee", teed_zeros(512)),
    ("zeros, one in 64 set by local.tee", teed_zeros(64)),
    ("zeros and a value above them", zeros_and_value),
    ("calls of nothing", small_calls),
    ("calls, 1,024 parameters", wide_calls),
    ("calls, 1,000 frames", deep_calls),
    ("nest of 60,000", nest),
    ("nest left at else", nest_else),
    ("br out of 60,000", br_out),
    ("return out of 60,000", return_out),
    ("br over 60,000 values", br_over_values),
    ("br_table of 1,000,000", br_table),
    ("br_table of 3", br_table_short),
    ("call_indirect", indirect(0)),
    ("call_indirect, 1,024 parameters", indirect(1_024)),
    ("call_indirect, last of 65,536", indirect_wide),
    ("memory.grow 0", grow(1, 64, 0)),
    ("memory.grow past its most", grow(1, 1, 1)),
    ("memory.grow past 64 pages", grow(64, 65_536, 1)),
    ("memory.size", size),
    ("i64.load", load(b"\x29", 65_527)),
    ("i64.load32_s", load(b"\x34", 1)),
    ("i32.load8_s", load(b"\x2c", 3)),
    ("i64.store", store(b"\x37", 65_527, b"\x42\x7f")),
    ("i64.store8", store(b"\x3c", 5, b"\x42\x7f")),
    ("globals, 65,536", wide_globals),
    ("locals, 50,000", far_local),
    ("select", simple(const(1) + const(2) + const(0) + SELECT + DROP)),
    ("if and else", simple(const(1) + IF + ELSE + END)),
    ("local.tee", simple(const(1) + TEE + u(0) + DROP)),
    ("nop", simple(b"\x01")),
    *(
        (NAMES[op], number(op, I64 if op in I64_OPERAND else I32, op not in ONE))
        for op in sorted(NAMES)
    ),
]


OTHERS = [("host call", host)]

MOST_FUEL = 20_000_000


def spent(program, file, fuel):
    begin = spent_so_far()
    done = subprocess.run([program, "call", file, "", str(fuel)], capture_output=True, text=True, stdin=subprocess.DEVNULL)
    said = done.stdout.strip()
    if said != "call fuel":
        sys.exit(f"{file}: {said or done.stderr}")
    return spent_so_far() - begin


def nanoseconds(program, file, runs):
    """What a unit of fuel takes: the least of some runs, without what a run with one unit takes."""
    start = min(spent(program, file, 1) for _ in range(runs))
    fuel, time = 2_000, 0.0
    while time < 0.15 and fuel < MOST_FUEL:
        time = spent(program, file, fuel) - start
        fuel = min(MOST_FUEL, max(fuel * 4, int(fuel * 0.3 / max(time, 0.001)))) if time < 0.15 else fuel
    least = min(spent(program, file, fuel) - start for _ in range(runs))
    return max(least, 0) * 1e9 / fuel


def main():
    parser = argparse.ArgumentParser(description=__doc__, formatter_class=argparse.RawDescriptionHelpFormatter)
    parser.add_argument("--program", nargs="+", default=[str(HERE.parent.parent / "crates/faasm_cli/out/faasm_cli")])
    parser.add_argument("--only", default="", help="words, one of which a name has, separated by commas")
    parser.add_argument("--runs", type=int, default=3)
    parser.add_argument("--write", nargs=2, metavar=("NAME", "FILE"))
    options = parser.parse_args()
    if options.write:
        name, file = options.write
        pathlib.Path(file).write_bytes(dict([*CASES, *OTHERS])[name]())
        return
    words = [word for word in options.only.split(",") if word]
    measure = {}
    with tempfile.TemporaryDirectory() as folder:
        file = str(pathlib.Path(folder, "worst.wasm"))
        for name, make in CASES:
            if name != "add" and words and not any(word in name for word in words):
                continue
            pathlib.Path(file).write_bytes(make())
            cells = []
            for program in options.program:
                each = nanoseconds(program, file, options.runs)
                measure.setdefault(program, each)
                cells.append(f"{each:12.1f} ns {each / measure[program]:9.2f}")
            print(f"{name:34}" + "".join(cells), flush=True)


if __name__ == "__main__":
    main()
