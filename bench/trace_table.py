"""The table of `bench/compare --traces`: what programs asked of their descriptor pools, played by each column."""
import glob
import gzip
import os
import re
import subprocess
import tempfile

from common import OF_DEBIAN, SKIPPED, TOP, account_of, cargo_build, need, read, refuse, report, skip, write_original

HERE = os.path.dirname(os.path.abspath(__file__))
TRACES = f"{HERE}/traces"
BUILD = f"{HERE}/out"
PREFIX = f"{BUILD}/prefix"

# The columns by the program of bench/traces: the crate's allocator, its set manager with kept sets, the library
# for C, and by hand the program's own pools and a list of sets for each layout.
COLUMNS = ["crate", "manager", "C", "pools", "lists"]

# A trace whose first and third layout the library doesn't serve. It is checked, and isn't on the page.
WITH_REFUSED_LAYOUTS = """\
layout 0 flags 0 refused
layout 1 flags 0 6:5
layout 2 flags 0 refused
layout 3 flags 2 1:1 6:1
pool 0 max 16 flags 2 1:16 6:80
alloc 0 3 1 3 3 = 0
unlayout 2
free 0 1
unlayout 3
destroy 0
"""

# The first passes, in which pools grow, are left out: those of the shorter of two runs that are counted, and those
# that the programs don't time.
FEWER, MORE = 2, 4

# How many sets a run that is timed has at least.
SETS_A_RUN = 20_000

CALLGRIND = ["valgrind", "--tool=callgrind", "--callgrind-out-file=/dev/null"]


def build(program, over="counts", *words, **environment):
    """A program of bench/traces over the crate."""
    target = f"{BUILD}/{over}/traces"
    cargo_build(TRACES, "--bin", program, "--target-dir", target, *words, **environment)
    return f"{target}/release/{program}"


def build_original(allocator, program, over="counts", *words, **environment):
    """One over the original."""
    write_original(allocator)
    target = f"{BUILD}/{over}/original"
    cargo_build(f"{HERE}/original", "--bin", program, "--target-dir", target, *OF_DEBIAN, *words, **environment)
    return f"{target}/release/{program}"


def build_columns(allocator, over="counts"):
    """The words that play a trace, for each column: over the device that only counts, a `driver`, or one that
    accounts for `memory`. Without the file of the original its column is left out."""
    need("cargo", "it builds the programs")
    need("cc", "it compiles the calls of the library for C: apt-get install gcc")
    if over == "driver" and not os.path.exists("/usr/include/vulkan/vulkan.h"):
        skip("no headers of Vulkan: apt-get install libvulkan-dev")
    sources = ["-DWITH_DRIVER", f"{TRACES}/driver.c", "-lvulkan"] if over == "driver" else []
    features = [] if over == "counts" else [f"--features={over}"]
    folder = f"{BUILD}/{over}"
    os.makedirs(folder, exist_ok=True)
    # A shared library, as cargo doesn't see whether what it links has changed.
    words = ["cc", "-O2", "-shared", "-fPIC", f"-I{PREFIX}/include", f"{TRACES}/by_c.c", *sources,
             "-o", f"{folder}/libby_c.so", f"{PREFIX}/lib/libgpu_descriptor_c.a", "-Wl,--exclude-libs,ALL",
             "-lpthread", "-ldl", "-lm"]
    for command in ([f"{TOP}/rust/c/install", PREFIX], words):
        if subprocess.run(command, stdout=subprocess.DEVNULL).returncode:
            refuse(f"{command[0]} failed", 1)
    flags = f"-L native={folder} -l dylib=by_c -C link-arg=-Wl,-rpath,{folder}"
    columns = {}
    if allocator:
        own = flags if features else ""
        columns["original"] = [build_original(allocator, "traces", over, *features, RUSTFLAGS=own), "original"]
    program = build("traces", over, *features, RUSTFLAGS=flags)
    return columns | {name: [program, name] for name in COLUMNS}


def finish(words):
    """What a program wrote, on both outputs, once it has ended well."""
    ran = subprocess.run(words, capture_output=True, text=True)
    if ran.returncode == SKIPPED:
        skip(f"{ran.stderr.strip()}: apt-get install mesa-vulkan-drivers")
    if ran.returncode:
        refuse(f"{' '.join(words)} failed: {ran.stderr.strip()}", 1)
    return ran.stdout.strip(), ran.stderr


def count(words):
    """What a program wrote, and how many instructions it ran."""
    said, told = finish([*CALLGRIND, *words])
    found = re.search(r"Collected : (\d+)", told)
    if found is None:
        refuse(f"callgrind does not say what it counted of {' '.join(words)}", 1)
    return said, int(found[1])


def expected(trace, times):
    """The line that each column must write."""
    account = account_of(trace)
    allocated, left = account["allocated"] * times, account["left"] * times
    return f"played {times} {allocated} operations, {allocated - left} freed, {left} left"


def require(name, trace, times, said):
    if said != expected(trace, times):
        refuse(f"{name} did something else than the trace: {said}, not {expected(trace, times)}", 1)


def timed(words, name, trace, file, *how):
    """What a set took, and what the driver says if the words ask it: its calls, and their time."""
    sets = account_of(trace)["allocated"]
    passes = -(-SETS_A_RUN // sets)
    said, told = finish([*words, file, str(FEWER + passes), *how])
    require(name, trace, FEWER + passes, said)
    numbers = re.search(r"^(\d+) ns(?:, (\d+) calls of (\d+) ns)?$", told, re.M).groups("0")
    return [int(number) / (passes * sets) for number in numbers]


def nanoseconds(words, name, trace, file, how, runs):
    """The lowest time of a set."""
    return min(timed(words, name, trace, file, *how)[0] for _ in range(runs))


def instructions(words, name, trace, file, how):
    """The instructions of a set, in passes after the first ones."""
    counted = []
    for times in (FEWER, MORE):
        said, number = count([*words, file, str(times), *how])
        require(name, trace, times, said)
        counted.append(number)
    return (counted[1] - counted[0]) / (account_of(trace)["allocated"] * (MORE - FEWER))


def checks(columns, over_driver):
    """What each column does otherwise than a trace says. Over a driver a manager with layouts that stay must make no
    call after the first passes."""
    for column, words in columns.items():
        with tempfile.NamedTemporaryFile("w") as file:
            file.write(WITH_REFUSED_LAYOUTS)
            file.flush()
            for how in ((), ("stay",)):
                said, wanted = finish([*words, file.name, "3", *how])[0], expected(WITH_REFUSED_LAYOUTS, 3)
                yield f"refused layouts by {column}", None if said == wanted else f"{said}, not {wanted}"
    for name, trace, file in traces():
        for column, words in columns.items():
            said, _ = finish([*words, file, "1"])
            yield f"{name} by {column}", None if said == expected(trace, 1) else f"{said}, not {expected(trace, 1)}"
            if over_driver and column in ("manager", "C"):
                _, calls, _ = timed(words, name, trace, file, "timed", "stay")
                yield f"{name} by {column}, layouts stay", f"{calls} calls a set" if calls else None


def traces():
    """Name and text of each trace, and a file with it."""
    for path in sorted(glob.glob(f"{TRACES}/*.trace.gz")):
        with gzip.open(path) as packed, tempfile.NamedTemporaryFile() as it:
            it.write(packed.read())
            it.flush()
            yield os.path.basename(path).removesuffix(".trace.gz"), read(it.name), it.name


def over_driver(words, name, trace, file, how):
    """The time of a set, then the driver's part of it in a run that times its calls, and how many they were."""
    whole = timed(words, name, trace, file, *how)[0]
    _, calls, part = timed(words, name, trace, file, "timed", *how)
    return whole, part, calls


def row_over_driver(columns, runs, *where):
    """The lowest of all runs, in which the columns take turns. The calls are the same in each."""
    all_runs = [[over_driver(words, *where) for words in columns.values()] for _ in range(runs)]
    row = [[min(values) for values in zip(*column)] for column in zip(*all_runs)]
    return [f"{whole:9.1f}{part:7.1f}{calls:5.2f}" for whole, part, calls in row]


def print_rows(columns, row, unit, width):
    """Of each trace the row as it is, and the one with layouts that stay. Returns the cells by the row's name."""
    rows = {}
    print(f"{unit} a set\n{'trace':16}{'sets':>8}" + "".join(f"{name:>{width}}" for name in columns))
    for name, trace, file in traces():
        for how in ((), ("stay",)):
            cells = row(name, trace, file, how)
            stay = ", layouts stay" if how else ""
            print(f"{name:16}{account_of(trace)['allocated']:8}{''.join(cells)}{stay}", flush=True)
            rows[name + stay] = cells
    return rows


def page_checks(rows):
    """Whether the page's table of instructions has these rows, within one per cent."""
    lines = [line.split(" | ") for line in read(f"{HERE}/README.md").split("Instructions per set")[1].splitlines()]
    page = {name.lower().replace(" ", ""): cells for name, _, *cells in (line for line in lines if len(line) > 2)}
    for name, cells in rows.items():
        there = page.get(name.lower().replace("_", ",", name.startswith("firefox")).replace("_", "").replace(" ", ""), [])
        is_same = len(there) == len(cells) and all(
            abs(float(one) - float(other)) <= float(other) / 100 for one, other in zip(there, cells))
        yield f"{name}: the page's row", None if is_same else f"not {' | '.join(cell.strip() for cell in cells)}"


def run(given):
    """The table that was asked for, or the exit code of checks."""
    columns = build_columns(given.allocator, "driver" if given.vulkan else "counts")
    each = lambda value: lambda *where: [f"{value(words, *where):10.1f}" for words in columns.values()]
    if given.check:
        return report(checks(columns, given.vulkan))
    if given.vulkan:
        unit = f"nanoseconds, lowest of {given.runs}, of them the driver's, and calls of the driver,"
        print_rows(columns, lambda *where: row_over_driver(columns, given.runs, *where), unit, 21)
    elif given.instructions:
        need("valgrind", "it counts the instructions")
        rows = print_rows(columns, each(instructions), "instructions", 10)
        return report(page_checks(rows)) if given.check_page else 0
    else:
        time = each(lambda *where: nanoseconds(*where, given.runs))
        print_rows(columns, time, f"nanoseconds, lowest of {given.runs},", 10)
    return 0
