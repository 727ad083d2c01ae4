"""The checks of `bench/compare --memory`: pools while traces are played, and the worst cases by name. The page has their
numbers, which are compared."""
import os
import sys

from common import TOP, Counts, account_of, read
from picture import COLOURS, LEFT, OUT, Drawing
from trace_table import HERE, build_columns, finish, traces

# Whose pools are measured in a trace; `pools` are the program's own.
PLAYERS = ["pools", "crate", "manager", "C", "lists"]

CASES = {
    "first": "a spike of 100,000 sets after one that stays",
    "middle": "the same, and the one that stays is in its middle",
    "bindless": "one set of 100,000 images",
    "same": "10,000 layouts come and go, all with the same counts",
    "different": "10,000 layouts come and go, each with its own counts",
    "limit": "under a limit of 500,000 the 500 sets of 1000 images that it has room for, then as many of 999",
}

# The trace of the picture.
DRAWN, PICTURE = "glmark2", f"{HERE}/memory.svg"


class Checks(Counts):
    """How many values are as they must be."""

    def equal(self, what, value, expected):
        self.check(what, None if value == expected else f"{value}, not {expected}")


def pools_of(words, file):
    """The frame, the pools, their sets and their descriptors after each call of a trace."""
    said, _ = finish([*words, file, "1"])
    return [tuple(map(int, line.split()[1:])) for line in said.splitlines() if line.startswith("at ")]


def played(columns):
    """Of each trace the pools of each player."""
    for name, trace, file in traces():
        yield name, trace, {player: pools_of(columns[player], file) for player in PLAYERS}


def has_row(checks, *cells):
    """The page has this row of a table."""
    row = " | ".join(cells)
    checks.equal(f"bench/README.md has the row '{row}'", row in read(f"{HERE}/README.md").splitlines(), True)


def check_trace_row(name, peak, pools, checks):
    """The row of a trace: of each player the pools at most and the sets that they hold, and what is left."""
    cells = []
    for player in ("pools", "crate", "manager", "lists"):
        _, count, sets, _ = zip(*pools[player])
        left = f", left {count[-1]} of {sets[-1]:,}" if count[-1] else ""
        cells.append(f"{max(count):,} of {max(sets):,}{left}")
    has_row(checks, f"`{name}`", f"{peak:,}", *cells)


def check_case_rows(name, cases, checks):
    """The rows of a worst case. Columns with the same numbers, pools, sets and descriptors, share one."""
    rows = {}
    for column, case in cases.items():
        cells = (f"{most:,} → {end:,}" if most != end else f"{most:,}" for most, end in zip(case["most"][:3], case["end"]))
        rows.setdefault(tuple(cells), []).append(column)
    for cells, names in rows.items():
        has_row(checks, f"`{name}`", ", ".join(names), *cells)


def check_traces(columns, checks):
    """Checks the pools of each trace, and the picture of one."""
    for name, trace, pools in played(columns):
        peak = account_of(trace)["peak"]
        checks.equal(f"{name}: the pools of C are the manager's", pools["C"] == pools["manager"], True)
        check_trace_row(name, peak, pools, checks)
        if name == DRAWN:
            checks.equal(f"{os.path.relpath(PICTURE, TOP)} is what it draws", read(PICTURE) == picture(pools, peak), True)


def case_of(words, name):
    """What a worst case prints, by the first word of a line."""
    said, _ = finish([*words, "worst", name])
    lines = [line.split() for line in said.splitlines()]
    numbers = {word: list(map(int, rest)) for word, *rest in lines if word not in ("case", "got")}
    return numbers | {"got": [int(rest[0]) for word, *rest in lines if word == "got"]}


def check_case(name, column, case, checks):
    """What is known of it that no row has. The list by hand has no promise, and the crate alone no bound of a pool."""
    check = lambda what, value, expected: checks.equal(f"{CASES[name]}, {column}: {what}", value, expected)
    if column == "lists":
        return
    check("pools, sets and descriptors once no set is live", case["gone"][:3], [0, 0, 0])
    if name == "same":
        check("bytes at most are below 8192", case["most"][3] < 8192, True)
    elif name == "limit":
        check("sets of the first layout, and of the second after all was freed", case["got"][::2], [500, 500])
        check("sets of the second, beside kept ones", column == "crate" or case["got"][1] == 500, True)


def check_cases(columns, checks):
    for name, about in CASES.items():
        print(about)
        cases = {column: case_of(columns[column], name) for column in PLAYERS[1:]}
        check_case_rows(name, cases, checks)
        for column, case in cases.items():
            print(f"{column}: {case['most'][3]:,} bytes at most, {case['end'][3]:,} at the end, sets: {case['got']}")
            check_case(name, column, case, checks)


def room_by_frame(rows):
    """The sets that the pools have room for: the peak in each frame, and what is left after the last one."""
    most = {}
    for frame, _, sets, _ in rows:
        most[frame] = max(sets, most.get(frame, 0))
    steps = [*most.items(), (rows[-1][0] + 1, rows[-1][2])]
    return [step for place, step in enumerate(steps) if place == 0 or step[1] != steps[place - 1][1]]


def picture(pools, peak):
    """The program's own pools and the library's, frame by frame."""
    frames, base = pools["C"][-1][0], 300
    it = Drawing(frames + 1, base + 40)
    own, ours = room_by_frame(pools["pools"]), room_by_frame(pools["C"])
    most = max(room for _, room in own + ours)
    height = lambda room: base - room * (base - 70) / most
    it.say(LEFT, 24, f"What the pools of {DRAWN} have room for. It has {peak} sets at most.", 16)
    for steps, colour, x, whose in (own, OUT, LEFT, "its own"), (ours, COLOURS[0], LEFT + 300, "the library's"):
        it.area(it.stairs(steps, it.end, height), base, fill=colour)
        it.put("rect", x=x, y=36, width=22, height=11, fill=colour)
        it.say(x + 28, 46, f"{whose}: {max(room for _, room in steps)} sets at most, {steps[-1][1]} at the end")
    it.scale(most, height)
    it.below(f"{frames} frames")
    return it.document()


def run(given):
    """What must be in the tables of the page, or the picture alone."""
    # Freed memory that malloc holds back for a thread would count as given.
    os.environ["GLIBC_TUNABLES"] = "glibc.malloc.tcache_count=0"
    columns, checks = build_columns(None, "memory"), Checks()
    if given.picture:
        trace, pools = next(it[1:] for it in played(columns) if it[0] == DRAWN)
        sys.stdout.write(picture(pools, account_of(trace)["peak"]))
        return 0
    check_traces(columns, checks)
    check_cases(columns, checks)
    return checks.end()
