#!/usr/bin/env python3
"""Draws a trace of the device's calls (rust/line-program/LINES.md) as an SVG.

Calls go from left to right. Each pool has a lane from its create to its destroy, which is filled by how many of its sets
are allocated, with the name of the first layout of its key. A refused call is a cross in the lane of its pool, and a
refused create one in a lane of its own. Above all lanes are the live sets, against the places of the pools. Comments of
the input become labels of at most 16 letters, if there is room. A line that is no call is refused, with exit code 2.

usage: tools/picture.py < TRACE > SVG
"""
import re
import sys
from xml.sax.saxutils import escape

from common import refuse

# A call of a trace: what it is, the pool, how many sets, whether it is marked, the counts, and a refusal.
CALL = re.compile(r"(create|alloc|release|destroy) (-|\d+)(?:: (\d+))?(?: sets)?(?:, no release)?(, mark)?"
                  r"(?:, ([a-z_]+=\d+(?: [a-z_]+=\d+)*))?(, refused: \w+)?")
# Comments of a trace that name a key, and comments that become labels.
LAYOUT = re.compile(r"# *layout\s+(\S+)\s+(plain|mark)((?:\s+[a-z_]+=\d+)*)\s*")
NOTE = re.compile(r"# *# *(.+)")

# In the picture's own units: its width and margins, the height of the chart and of a lane, and what is between.
WIDTH, LEFT, RIGHT, TOP, CHART, LANE, GAP = 800, 132, 16, 66, 120, 20, 7
COLOURS = ["#0072B2", "#009E73", "#CC79A7", "#E69F00", "#56B4E9", "#7A5195"]
MAX_LETTERS = 16
REFUSED, INK, FAINT, EMPTY, OUT = "#C1121F", "#222222", "#767676", "#E3E6EA", "#9AA5B1"


def key_of(mark, counts):
    """What pools go by: the mark, and the counts that aren't 0."""
    pairs = (word.split("=") for word in (counts or "").split())
    return bool(mark), frozenset((kind, int(count)) for kind, count in pairs if int(count))


def shortened(text):
    """A text that has room as a label. What no document can show is a sign for it."""
    text = "".join(it if it.isprintable() else "\N{REPLACEMENT CHARACTER}" for it in text)
    return text if len(text) <= MAX_LETTERS else f"{text[:MAX_LETTERS - 1].rstrip()}…"


class Pool:
    """A pool from one call to another: how many sets it is for, and how many are live after each of its calls."""

    def __init__(self, name, start, sets):
        self.name, self.start, self.end, self.sets = name, start, None, sets
        self.key, self.steps, self.refused = key_of(False, ""), [(start, 0)], []


class Trace:
    """What a trace says, by the number of the call."""

    def __init__(self, text):
        self.names, self.notes, self.pools, self.refused = {}, [], {}, []
        self.length, self.out, self.places = 0, [(0, 0)], [(0, 0)]
        for number, line in enumerate(text.removesuffix("\n").split("\n"), 1):
            if line.startswith("#"):
                self.comment(line.rstrip())
            elif (call := CALL.fullmatch(line)) and (call[3] or call[1] == "destroy"):
                self.call(*call.groups())
                self.length += 1
            else:
                refuse(f"line {number} is no call: {line}")
        if not self.pools:
            refuse("there is no pool in the trace")

    def comment(self, line):
        if layout := LAYOUT.fullmatch(line):
            self.names.setdefault(key_of(layout[2] == "mark", layout[3]), layout[1])
        elif note := NOTE.fullmatch(line):
            self.notes.append((self.length, shortened(note[1])))

    def call(self, verb, name, number, mark, counts, refused):
        pool, number = self.pools.get(name), int(number or 0)
        if verb == "alloc":
            pool.key = key_of(mark, counts)
        if refused:
            (pool.refused if pool else self.refused).append(self.length)
        elif verb == "create":
            self.pools[name] = Pool(name, self.length, number)
            self.step(self.places, number)
        elif verb == "destroy":
            pool.end = self.length
            self.step(self.places, -pool.sets)
        else:
            for steps in (pool.steps, self.out):
                self.step(steps, number if verb == "alloc" else -number)

    def step(self, steps, by):
        steps.append((self.length, steps[-1][1] + by))


class Drawing:
    """The parts of an SVG over some calls or frames from left to right."""

    def __init__(self, length, height):
        self.parts, self.length, self.height, self.end = [], length, height, length - 0.5

    def x(self, call):
        """Where a call is: its middle."""
        return LEFT + (call + 0.5) * (WIDTH - LEFT - RIGHT) / self.length

    def put(self, tag, text=None, **words):
        for name, value in words.items():
            shown = f"{value:g}" if isinstance(value, float) else value
            tag += f' {name.replace("_", "-")}="{shown}"'
        end = "/>" if text is None else f">{escape(text)}</{tag.split()[0]}>"
        self.parts.append(f"<{tag}{end}")

    def say(self, x, y, text, size=12, fill=INK, anchor="start"):
        self.put("text", text, x=float(x), y=float(y), font_size=size, fill=fill, text_anchor=anchor)

    def rule(self, x1, y1, x2, y2, colour, **words):
        self.put("line", x1=float(x1), y1=float(y1), x2=float(x2), y2=float(y2), stroke=colour, **words)

    def scale(self, most, y_of):
        """Lines at nothing, half and all of the greatest value."""
        for value in (0, most / 2, most):
            self.rule(LEFT, y_of(value), WIDTH - RIGHT, y_of(value), EMPTY)
            self.say(LEFT - 8, y_of(value) + 4, f"{value:g}", 11, FAINT, "end")

    def stairs(self, steps, end, y_of):
        """The corners of a line that changes at each call."""
        ends = [*(at for at, _ in steps[1:]), end]
        return [(self.x(at), y_of(value)) for (start, value), until in zip(steps, ends) for at in (start, until)]

    def line(self, tag, corners, **words):
        self.put(tag, points=" ".join(f"{x:g},{y:g}" for x, y in corners), **words)

    def area(self, corners, base, **words):
        self.line("polygon", [(corners[0][0], base), *corners, (corners[-1][0], base)], **words)

    def cross(self, x, y):
        path = f"M{x - 4:g},{y - 4:g}l8,8m0,-8l-8,8"
        self.put("path", d=path, stroke="white", stroke_width=5, fill="none")
        self.put("path", d=path, stroke=REFUSED, stroke_width=2.2, fill="none")

    def below(self, text):
        self.say((LEFT + WIDTH - RIGHT) / 2, self.height - 8, f"{text}, from left to right", 12, FAINT, "middle")

    def document(self):
        """The parts as an SVG."""
        size = f'width="{WIDTH}" height="{self.height}"'
        head = f'<svg xmlns="http://www.w3.org/2000/svg" viewBox="0 0 {WIDTH} {self.height}" {size}'
        font = 'font-family="Helvetica, Arial, sans-serif">'
        return "\n".join([f"{head} {font}", f'<rect {size} fill="white"/>', *self.parts, "</svg>\n"])


class Picture(Drawing):
    """A trace, from top to bottom: the legend, the chart, and a lane for each pool."""

    def __init__(self, trace):
        self.trace, self.pools = trace, [*trace.pools.values()]
        self.keys = [*dict.fromkeys(pool.key for pool in self.pools)]
        self.lanes = TOP + CHART + 42
        self.bottom = self.top(len(self.pools) + bool(trace.refused))
        super().__init__(trace.length, self.bottom + 40)
        self.say(LEFT, 24, f"What the device was asked: {len(self.pools)} pools", 16)
        self.legend()
        self.notes()
        self.chart()
        self.say(LEFT, self.lanes - 12, "each pool from its create to its destroy, filled by its live sets")
        for row, pool in enumerate(self.pools):
            self.lane(self.top(row), pool)
        if trace.refused:
            self.say(LEFT - 8, self.bottom - LANE - GAP + 14, "refused creates", 12, INK, "end")
        for at in trace.refused:
            self.cross(self.x(at), self.bottom - GAP - LANE / 2)

    def top(self, row):
        return self.lanes + row * (LANE + GAP)

    def legend(self):
        x, y = LEFT, 46
        out, places = (max(value for _, value in steps) for steps in (self.trace.out, self.trace.places))
        self.put("rect", x=x, y=y - 10, width=22, height=11, fill=OUT)
        x = self.term(x + 28, y, f"live sets, {out} at most")
        self.rule(x, y - 4, x + 22, y - 4, INK, stroke_width=2)
        x = self.term(x + 28, y, f"places of the pools, {places} at most")
        self.cross(x + 6, y - 4)
        self.term(x + 18, y, "a refused call")

    def term(self, x, y, text):
        """Writes a text of the legend, and answers where the next one has room."""
        self.say(x, y, text)
        return x + 6.6 * len(text) + 16

    def notes(self):
        """The comments of the lines, as far as there is room for them."""
        free = LEFT
        for at, text in self.trace.notes:
            x, length = self.x(at - 0.5), 6 * len(text)
            if free <= x <= WIDTH - length:
                self.rule(x, TOP, x, self.bottom + 4, "#C9CED4", stroke_dasharray="2,3")
                self.say(x + 2, self.bottom + 14, text, 10, FAINT)
                free = x + length + 8
        self.below(f"{self.trace.length} calls")

    def chart(self):
        """The live sets, and the places."""
        out, places, base = self.trace.out, self.trace.places, TOP + CHART
        most = max(value for _, value in out + places)
        height = lambda value: base - value * (CHART - 8) / most
        self.scale(most, height)
        self.area(self.stairs(out, self.end, height), base, fill=OUT)
        self.line("polyline", self.stairs(places, self.end, height), stroke=INK, stroke_width=1.8, fill="none")

    def lane(self, top, pool):
        mark, name = ", marked" if pool.key[0] else "", self.trace.names.get(pool.key, "")
        self.say(LEFT - 8, top + 9, shortened(f"{pool.name} {name}"), 12, INK, "end")
        self.say(LEFT - 8, top + 20, f"{pool.sets} places{mark}", 10, FAINT, "end")
        start, end = pool.start, self.end if pool.end is None else pool.end
        self.put("rect", x=self.x(start), y=top, width=self.x(end) - self.x(start), height=LANE, fill=EMPTY)
        steps = self.stairs(pool.steps, end, lambda value: top + LANE - value * LANE / pool.sets)
        self.area(steps, top + LANE, fill=COLOURS[self.keys.index(pool.key) % len(COLOURS)])
        for at in pool.refused:
            self.cross(self.x(at), top + LANE / 2)


if __name__ == "__main__":
    # Lines of the input may have any bytes.
    sys.stdout.write(Picture(Trace(sys.stdin.buffer.read().decode(errors="replace"))).document())
