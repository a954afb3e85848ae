"""The sheet that tools/draw draws: a panel of calls and one of keys, as the text of an SVG."""
import colorsys
import re

WIDTH, MARGIN, ROW = 1240, 24, 20
CHAR = 6.65  # the width of a character of the values' font at 11 pixels
INK, FAINT, LINE, RED = "#1f2933", "#66727f", "#d5dbe1", "#b3261e"
CHANGED, KEPT, ZERO = "#d9480f", "#93a1ae", "#e9edf1"
# Told apart by most eyes with a colour weakness too; further functions get colours from round the circle.
COLOURS = ["#4477aa", "#ee8866", "#228833", "#aa3377", "#66ccee", "#ccbb44", "#994455", "#009988", "#6f4fa2", "#bb5500"]
STYLE = (
    f"text{{font:12px 'DejaVu Sans',Verdana,sans-serif;fill:{INK};white-space:pre}}"
    f".m{{font:11px 'DejaVu Sans Mono',Menlo,Consolas,monospace}}.f{{fill:{FAINT}}}.r{{fill:{RED}}}.b{{font-weight:bold}}"
    ".h{font-size:17px;font-weight:bold}.c{font-size:11px}.e{text-anchor:end}.k{text-anchor:middle}"
)


def escape(text):
    """Text as XML may hold it: what it can't hold is a replacement character."""
    text = re.sub("[^\t\n\r\x20-\ud7ff\ue000-\ufffd\U00010000-\U0010ffff]", "\ufffd", str(text))
    return text.replace("&", "&amp;").replace("<", "&lt;").replace(">", "&gt;").replace('"', "&quot;")


def cut(text, most):
    """A text of at most so many characters: of a longer one its front and its end."""
    return text if len(text) <= most else f"{text[: most - most // 3 - 1]}…{text[len(text) - most // 3 :]}"


def shown(data, most):
    """Bytes as a person reads them: text in quotes where all can be printed, and else digits."""
    if data and all(32 <= it < 127 or it in (9, 10) for it in data):
        text = data.decode("ascii").replace("\\", "\\\\").replace("\n", "\\n").replace("\t", "\\t")
        return f"“{text if len(text) <= most - 2 else text[: most - 3] + '…'}”"
    return data.hex() if 2 * len(data) <= most else data.hex()[: (most - 1) // 2 * 2] + "…"


def count(n, one, many=None):
    return f"{n:,} {one if n == 1 else many or one + 's'}"


def colour_of(place):
    if place < len(COLOURS):
        return COLOURS[place]
    parts = colorsys.hls_to_rgb(place * 0.618034 % 1, (0.38, 0.52, 0.66)[place % 3], 0.55)
    return "#" + "".join(f"{round(255 * it):02x}" for it in parts)


def ticks(most):
    """Round numbers from 0 to the first that isn't below `most`, at most seven of them."""
    step, factors = 1, (2, 2.5, 2)
    while most > 6 * step:
        step, factors = int(step * factors[0]), factors[1:] + factors[:1]
    return list(range(0, most + step, step))


def path_order(path):
    return [int(it) for it in path.split(".")[1:]]


def content(front, size):
    """The front of a value, and the whole of it as a number too where it has the size of one."""
    if size in (1, 2, 4, 8):
        return f"{front.hex()} = {int.from_bytes(front, 'little'):,} as a number"
    text, more = front.rstrip(b"\0"), "…" if size > len(front) else ""
    told = shown(text, 112)
    if told.startswith("“") and (len(text) < len(front) or not more):
        return told if len(text) == size else f"{told} and zeros{more}"
    return f"{shown(front, 110).rstrip('…')}{more}"


class Sheet:
    def __init__(self, title, session, ends, waits, values):
        self.title, self.session, self.ends, self.waits, self.values = title, session, ends, waits, values
        asked = list(dict.fromkeys(it.function for it in session.requests))
        order = asked + [it for it in session.functions if it not in asked]
        self.colours = {name: colour_of(place) for place, name in enumerate(order)}
        self.parts, self.y = [], MARGIN

    def add(self, part):
        self.parts.append(part)

    def text_at(self, x, y, text, kind="", hint=None, style=""):
        inside = f"<title>{escape(hint)}</title>" if hint else ""
        self.add(f'<text x="{x:.1f}" y="{y:.1f}" class="{kind}"{style}>{escape(text)}{inside}</text>')

    def box(self, x, y, width, height, fill, more=""):
        self.add(f'<rect x="{x:.1f}" y="{y:.1f}" width="{max(width, 0):.1f}" height="{height:.1f}" fill="{fill}"{more}/>')

    def path(self, d, stroke=FAINT, more=""):
        self.add(f'<path d="{d}" fill="none" stroke="{stroke}"{more}/>')

    def heading(self):
        ends = self.ends
        kinds = [f"{sum(it.kind == kind for it in ends):,} {kind}" for kind in dict.fromkeys(it.kind for it in ends)]
        self.y += 16
        self.text_at(MARGIN, self.y, cut(self.title, 100), "h", self.title)
        self.y += 20
        session = self.session
        hosts = f"{count(session.hosts, 'host')} of {count(session.workers, 'worker')}"
        told = f"{count(len(ends), 'request')}{': ' if kinds else ''}{', '.join(kinds)}"
        told = [told, count(len(self.waits), "blocked call"), count(len(self.values), "key"), hosts]
        self.text_at(MARGIN, self.y, "  ·  ".join(told), "f")
        self.y += 10
        self.legend()

    def legend(self):
        x, names = MARGIN, list(self.colours)
        self.y += 14
        for name in names[:40]:
            text = cut(name, 28)
            wide = 22 + CHAR * len(text)
            if x + wide > WIDTH - MARGIN:
                x, self.y = MARGIN, self.y + 18
            self.box(x, self.y - 9, 10, 10, self.colours[name])
            self.text_at(x + 14, self.y, text, "m", name)
            x += wide + 8
        if len(names) > 40:
            self.text_at(x, self.y, f"and {len(names) - 40} more", "c f")
        self.y += 8

    def rows(self):
        """A row for each request, and behind it one for each of its children that a blocked line names: path, request, end."""
        named = {path for it in self.waits for path in (it.path, it.other) if "." in path}
        below = {}
        for path in sorted(named, key=path_order):
            below.setdefault(path.split(".")[0], []).append(path)
        for request, end in zip(self.session.requests, self.ends):
            yield request.label, request, end
            for path in below.get(request.label, ()):
                yield path, None, None

    def panel(self, title, note):
        self.y += 30
        self.text_at(MARGIN, self.y, title, "b")
        self.text_at(MARGIN + 8.2 * len(title) + 14, self.y, note, "c f")
        self.y += 8

    def calls(self):
        note = "a bar is the fuel that main used, and no time: each begins at 0. Children are drawn only where a line names them."
        self.panel("Calls", note)
        rows = list(self.rows())
        if not rows:
            self.y += 18
            self.text_at(MARGIN, self.y, "no request", "f")
            return
        lanes = self.lanes({path: place for place, (path, _, _) in enumerate(rows)})
        label = max(min(24, len(path)) + 2 * path.count(".") for path, _, _ in rows)
        function = max(min(18, len(it.function)) for it in self.session.requests)
        outcome = max(12, max(min(36, len(it.text)) for it in self.ends))
        output = max(6, max(len(shown(it.output, 24)) for it in self.ends))
        columns, x = {}, MARGIN + (12 * max(lane for lane, _, _ in lanes) + 26 if lanes else 0)
        for name, wide in (("call", label), ("function", function + 2), ("host", 4)):
            columns[name] = x
            x += CHAR * wide + 14
        right = WIDTH - MARGIN - CHAR * output
        columns["output"], columns["ended"] = right, right - CHAR * outcome - 14
        columns["used"] = columns["ended"] - 14
        most = max([it.used for it in self.ends if it.used is not None] + [1])
        bars = (x, columns["used"] - CHAR * max(5, len(f"{most:,}")) - 26)
        self.call_rows(rows, columns, bars, most, lanes)

    def call_rows(self, rows, columns, bars, most, lanes):
        marks = ticks(most)
        left, right = bars
        scale = (right - left) / marks[-1]
        self.y += 16
        for name, x in columns.items():
            self.text_at(x, self.y, name, "c f e" if name == "used" else "c f")
        top = self.y + 6
        self.axis(marks, left, scale, self.y)
        for place, (path, request, end) in enumerate(rows):
            y = top + ROW * place
            if place % 2 == 0:
                self.box(columns["call"] - 4, y, WIDTH - MARGIN - columns["call"] + 8, ROW, "#f5f7f9")
        bottom = top + ROW * len(rows)
        for mark in marks:
            self.path(f"M{left + scale * mark:.1f} {top}V{bottom}", LINE)
        for place, (path, request, end) in enumerate(rows):
            self.row(path, request, end, columns, left, scale, top + ROW * place)
        self.arrows(lanes, columns["call"], top)
        self.y = bottom + 14
        self.axis(marks, left, scale, self.y)
        self.y += 15
        self.text_at((left + right) / 2, self.y, "fuel used by main, in units", "c f k")

    def axis(self, marks, left, scale, y):
        wide = CHAR * max(len(f"{it:,}") for it in marks) + 8
        each = max(1, -(-int(wide) // max(1, int(scale * marks[1]))))
        for mark in marks[::each]:
            self.text_at(left + scale * mark, y, f"{mark:,}", "m f k")

    def row(self, path, request, end, columns, left, scale, y):
        base = y + 14
        depth = path.count(".")
        self.text_at(columns["call"] + 2 * CHAR * depth, base, cut(path, 24), "m", end.line[:400] if end else path)
        waits = [it for it in self.waits if it.path == path]
        if request:
            self.box(columns["function"], y + 5, 10, 10, self.colours[request.function])
            self.text_at(columns["function"] + 14, base, cut(request.function, 18), "m", request.function)
            self.text_at(columns["host"], base, request.host, "m")
            self.text_at(columns["ended"], base, cut(end.text, 36), "m" if end.kind == "done" else "m r", end.text)
            self.text_at(columns["output"], base, shown(end.output, 24), "m f", shown(end.output, 400) if end.output else None)
        if request and end.used is not None:
            self.text_at(columns["used"], base, f"{end.used:,}", "m e")
            trapped = end.kind == "trap"
            more = ' fill-opacity="0.45"' if trapped else ""
            self.box(left, y + 4, max(scale * end.used, 1.5), ROW - 8, self.colours[request.function], more)
            if trapped:
                x = left + max(scale * end.used, 1.5)
                self.path(f"M{x - 4:.1f} {y + 6}l8 8m0 -8l-8 8", RED, ' stroke-width="2"')
        for wait in waits:
            what = f"awaits {wait.other}" if wait.key is None else f"{wait.tier} {wait.key}, locked by {wait.other}"
            room = columns["ended"] if request else WIDTH - MARGIN
            self.text_at(left + 4, base, cut(what, int((room - left - 12) / CHAR)), "m r", what)
        if request and end.used is None and not waits:
            self.text_at(left + 4, base, self.unused(request, end), "c f")

    @staticmethod
    def unused(request, end):
        if end.kind == "fuel":
            return f"its fuel, {request.fuel:,}, was spent"
        told = {"broken": "no call of its function can begin", "want": "there was no memory for it"}
        return told.get(end.kind, "not begun: no line has it as blocked")

    def lanes(self, place_of):
        """One trunk for each call that others wait for: its lane, its row, and the rows of those."""
        trunks, lanes = {}, []
        for wait in self.waits:
            trunks.setdefault(place_of[wait.other], []).append(place_of[wait.path])
        for target, sources in sorted(trunks.items()):
            low, high = min([target, *sources]), max([target, *sources])
            taken = {lane for lane, other, others in lanes if low <= max([other, *others]) and high >= min([other, *others])}
            lanes.append((next(lane for lane in range(len(lanes) + 1) if lane not in taken) % 24, target, sources))
        return lanes

    def arrows(self, lanes, x, top):
        for lane, target, sources in lanes:
            trunk = x - 18 - 12 * lane
            # Those who wait leave a little below the middle of their row, and the arrow comes in above it.
            end = top + ROW * target + 7
            for source in sources:
                y = top + ROW * source + 13
                self.path(f"M{x - 6:.1f} {y}H{trunk:.1f}V{end}", RED, ' stroke-opacity="0.75"')
                self.add(f'<circle cx="{x - 6:.1f}" cy="{y}" r="2.2" fill="{RED}"/>')
            self.path(f"M{trunk:.1f} {end}H{x - 5:.1f}m-5 -3.5l5 3.5l-5 3.5", RED)

    def keys(self):
        note = "the global values at the end, beside the initial bytes of the session file. Which call wrote what is not printed."
        self.panel("Keys", note)
        self.y += 12
        x = MARGIN
        for fill, text in ((CHANGED, "differs from the initial bytes"), (KEPT, "as at first"), (ZERO, "zero as at first")):
            self.box(x, self.y - 9, 10, 10, fill)
            self.text_at(x + 14, self.y, text, "c f")
            x += 30 + 6.2 * len(text)
        if not self.values:
            self.y += 18
            self.text_at(MARGIN, self.y, "no key", "f")
        for key, value in zip(self.session.keys, self.values):
            self.key(key, value)

    def key(self, key, value):
        self.y += 12
        left, right = MARGIN + 250, WIDTH - MARGIN
        self.path(f"M{MARGIN} {self.y}H{right}", LINE)
        y = self.y + 16
        self.text_at(MARGIN, y, cut(key.name, 36), "m b", key.name)
        self.text_at(MARGIN, y + 15, count(key.size, "byte"), "c f")
        self.grants(key, y + 30)
        wide = (right - left) / len(value.cells)
        if wide > 24:
            wide = 24
        per = -(-key.size // len(value.cells))
        for at, (changed, filled) in enumerate(value.cells):
            fill = CHANGED if changed else KEPT if filled else ZERO
            more = f' fill-opacity="{0.35 + 0.65 * min(1, changed / per):.2f}"' if changed else ""
            self.box(left + wide * at, self.y + 6, wide - (0.8 if wide > 3 else 0), 14, fill, more)
        self.text_at(left, y + 17, "byte 0", "c f")
        self.text_at(max(left + wide * len(value.cells), left + 90), y + 17, f"{key.size:,}", "c f e")
        for name, text, kind in self.key_lines(key, value):
            y += 15
            self.text_at(left, y + 17, name, "c f")
            self.text_at(left + 70, y + 17, text, kind)
        self.y = y + 20

    def key_lines(self, key, value):
        """What is said of a key in words: its value, how much of it changed, and who is blocked on it."""
        first = key.init[:64].ljust(min(key.size, 64), b"\0")
        if value.changed:
            yield "at first", content(first, key.size), "m f"
        yield "at the end", content(value.front, key.size), "m"
        told = f"{value.changed:,} of {count(key.size, 'byte')} {'differs' if value.changed == 1 else 'differ'}"
        yield "changed", told if value.changed else "nothing", "c f"
        waits = [it for it in self.waits if it.key == key.name]
        for place, wait in enumerate(waits[:4]):
            tier = "copy of its host" if wait.tier == "local" else "global value"
            yield "" if place else "blocked", cut(f"{wait.path} on the {tier}, locked by {wait.other}", 130), "m r"
        if len(waits) > 4:
            yield "", f"and {len(waits) - 4:,} more", "c r"

    def grants(self, key, y):
        x = MARGIN
        for name, mode in key.grants[:4]:
            text = f"{cut(name, 11)} {'rw' if mode == 'write' else 'r'}"
            if x > MARGIN and x + 16 + CHAR * len(text) > MARGIN + 240:
                x, y = MARGIN, y + 14
            self.box(x, y - 8, 9, 9, self.colours[name])
            self.text_at(x + 13, y, text, "m f", f"{name} may {'read and write' if mode == 'write' else 'read'} {key.name}")
            x += 22 + CHAR * len(text)
        if len(key.grants) > 4:
            self.text_at(x, y, f"+{len(key.grants) - 4}", "m f")

    def text(self):
        self.heading()
        self.calls()
        self.keys()
        height = self.y + MARGIN
        size = f'width="{WIDTH}" height="{height}" viewBox="0 0 {WIDTH} {height}"'
        head = f'<svg xmlns="http://www.w3.org/2000/svg" {size} role="img">'
        paper = f'<rect width="{WIDTH}" height="{height}" fill="#ffffff"/>'
        parts = [head, f"<title>{escape(self.title)}</title>", f"<style>{STYLE}</style>", paper, *self.parts, "</svg>"]
        return "\n".join(parts) + "\n"
