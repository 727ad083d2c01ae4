#!/usr/bin/env python3
"""What several tools want: whether a program is built, the original as it compiles, golden tests, and edits.

usage: tools/common.py is-built FILE ; it ends with 0 if the file is newer than all sources
"""
import glob
import os
import re
import shutil
import subprocess
import sys
from typing import NamedTuple

TOOLS = os.path.dirname(os.path.realpath(__file__))
TOP = os.path.dirname(TOOLS)
TOOL = os.path.basename(sys.argv[0])

# Where Debian's packages put the sources of crates.
REGISTRY = "/usr/share/cargo/registry"
PACKAGES = {"bitflags-1": "librust-bitflags-dev", "hashbrown-0.12": "librust-hashbrown-dev"}
# They are in the place of crates.io, without a network.
OF_DEBIAN = ["--config", 'source.crates-io.replace-with="debian"', "--config", f'source.debian.directory="{REGISTRY}"']

# The crates of which tools/generate makes Rust, by the package of rust/ that has their modules.
IN_RUST = {
    "gpu-descriptor": ("gpu_descriptor_types", "gpu_descriptor", "descriptor_frames", "descriptor_table", "descriptor_manager"),
    "line-program": ("descriptor_script", "descriptor_lines"),
}

# The exit code of a tool that can do nothing, because something is missing. Its output says what.
SKIPPED = 3

# The error of a tool that was given no file of the original.
NO_ORIGINAL = (
    "it takes src/allocator.rs of gpu-descriptor 0.3.2, which is not in this repository: "
    "`cargo add gpu-descriptor@=0.3.2` and `cargo fetch`, in any package, put it into "
    "~/.cargo/registry/src/*/gpu-descriptor-0.3.2"
)

# What bitflags 1 derives by itself, and bitflags 2, which the original takes, does not.
DERIVES = "    #[derive(Clone, Copy, Debug, Eq, PartialEq, Hash)]\n"
NAME = "    pub struct DescriptorSetLayoutCreateFlags"


def refuse(why, status=2):
    """Ends the tool: what it needs is missing, or what it was given is no such thing."""
    print(f"{TOOL}: {why}", file=sys.stderr)
    sys.exit(status)


def skip(why):
    """Ends the tool: for all that it does something is missing."""
    print(f"skipped: {why}")
    sys.exit(SKIPPED)


def need(command, why):
    if shutil.which(command) is None:
        skip(f"the command {command} is missing: {why}")


class Counts:
    """How many checks passed and failed."""

    def __init__(self):
        self.passed = 0
        self.failed = 0

    def say(self, is_fine, text):
        self.passed += is_fine
        self.failed += not is_fine
        print(text if is_fine else f"FAILED: {text}", flush=True)

    def check(self, name, fault):
        """Counts a check with its fault, if it has one. Whether it has none."""
        self.say(not fault, f"{name}: {fault}" if fault else name)
        return not fault

    def part(self, *words):
        """Runs a tool whose last line counts, and adds that."""
        ran = subprocess.run(words, stdout=subprocess.PIPE, text=True)
        print(f"-- {os.path.basename(words[0])}", ran.stdout, sep="\n", end="", flush=True)
        found = re.search(r"^(\d+) passed, (\d+) failed\n\Z", ran.stdout, re.M)
        passed, failed = map(int, found.groups()) if found else (0, 1)
        self.passed += passed
        self.failed += failed or int(ran.returncode != 0)

    def end(self):
        """Says how many, and is the exit code."""
        print(f"{self.passed} passed, {self.failed} failed")
        return 1 if self.failed or not self.passed else 0


def report(checks):
    """Says what is wrong, of checks with a name and a fault, or several or none; and ends as counts do."""
    counts = Counts()
    for name, faults in checks:
        found = [faults] if isinstance(faults, str) else [*(faults or ())]
        for fault in found:
            print(f"FAILED: {name}: {fault}", flush=True)
        counts.passed += not found
        counts.failed += bool(found)
    return counts.end()


def read(path):
    with open(path, encoding="utf-8") as it:
        return it.read()


def write(path, text):
    os.makedirs(os.path.dirname(path), exist_ok=True)
    with open(path, "w", encoding="utf-8") as it:
        it.write(text)


def is_built(file):
    """Whether a file is there, and newer than all sources of the crates."""
    sources = [f"{TOP}/crates.txt", *glob.glob(f"{TOP}/crates/*/src/**/*.rt", recursive=True)]
    return os.path.isfile(file) and os.path.getmtime(file) > max(map(os.path.getmtime, sources))


def builds_of(crate):
    """The program of a crate as LLVM and as Rattle's own compiler built it; what isn't there is named."""
    files = [f"{TOP}/crates/{crate}/out/{crate}{end}" for end in ("", ".by-rattle")]
    for it in files:
        if not is_built(it):
            print(f"skipped: {os.path.relpath(it, TOP)} isn't built")
    return [it for it in files if is_built(it)]


def write_original(path):
    """The original as a package of its name and version, in tools/out, of its file src/allocator.rs. The repository has its
    manifest under another name, or cargo finds two packages gpu-descriptor there: the other one is in rust/patch."""
    need("cargo", "it builds the original")
    if missing := {crate: package for crate, package in PACKAGES.items() if not glob.glob(f"{REGISTRY}/{crate}*")}:
        skip(f"no {' and no '.join(missing)}: apt-get install {' '.join(missing.values())}")
    folder, source = f"{TOOLS}/out/gpu-descriptor", f"{TOP}/bench/original/crate"
    try:
        text = read(path)
    except (OSError, UnicodeDecodeError) as error:
        refuse(f"the original's src/allocator.rs cannot be read: {error}")
    if text.count(DERIVES + NAME) != 1:
        refuse(f"{path} is not src/allocator.rs of gpu-descriptor 0.3.2")
    # As it compiles with bitflags 1.
    texts = {"Cargo.toml": read(f"{source}/package.toml"), "allocator.rs": text.replace(DERIVES + NAME, NAME),
             **{name: read(f"{source}/{name}") for name in ("lib.rs", "types.rs")}}
    for name, text in texts.items():
        write(f"{folder}/{name}", text)
    return folder


def cargo_build(folder, *words, **environment):
    """Builds a package in its release profile."""
    command = ["cargo", "build", "--offline", "--quiet", "--release", *words]
    if subprocess.run(command, cwd=folder, env={**os.environ, **environment}).returncode:
        refuse(f"cargo could not build {os.path.relpath(folder, TOP)}")


def account_of(trace):
    """What the text of a program's calls (rust/c/layer) says: how many sets were allocated, were live at
    the peak, and are left. Its sets have numbers in order."""
    pools, allocated, peak, misnumbered = {}, 0, 0, 0
    for word, *words in map(str.split, trace.splitlines()):
        if word == "alloc" and words[-2] == "=":
            first, count = int(words[-1]), int(words[1])
            misnumbered += first != allocated
            pools.setdefault(words[0], set()).update(range(first, first + count))
            allocated += count
            peak = max(peak, sum(map(len, pools.values())))
        elif word == "free":
            pools[words[0]] -= set(map(int, words[2:]))
        elif word in ("reset", "destroy"):
            pools.pop(words[0], None)
    return {"allocated": allocated, "peak": peak, "left": sum(map(len, pools.values())), "misnumbered": misnumbered}


def table(text, head):
    """The cells of the rows of a table."""
    rows = text.partition(head)[2].partition("\n\n")[0].splitlines()[2:]
    return [row.strip("| ").split(" | ") for row in rows]


# The escape of a byte in a line of a golden test.
ESCAPE = re.compile(rb"\\(?:([tr\\])|x([0-9a-fA-F]{2}))")
BYTES = {b"t": b"\t", b"r": b"\r", b"\\": b"\\"}


def line_of(text):
    """The bytes of a line of the input."""
    ends = re.fullmatch(r"(?:.*[^\\])?(?:\\\\)*\\", text) is None
    text = text if ends else text[:-1]
    line = ESCAPE.sub(lambda it: BYTES.get(it[1]) or bytes.fromhex(it[2].decode()), text.encode())
    return line + (b"\n" if ends else b"")


def golden_tests_of(path):
    """Name, input and answers of each golden test of a file."""
    with open(path, encoding="utf-8", newline="\n") as it:
        head, *tests = it.read().split("== ")
    for test in tests:
        name, _, body = test.strip("\n").partition("\n")
        lines, answers = b"", ""
        for line in body.splitlines():
            if line.startswith(">"):
                lines += line_of(line[2:])
            else:
                answers += f"{line}\n"
        yield name, lines, answers.encode()


def is_fault(answers):
    return answers.splitlines()[-1:] and answers.splitlines()[-1].startswith(b"line ")


def golden_files():
    """By the name of each golden file its tests, the name of each with a number after it that tells tests of one name
    apart. After a faulty line comes one more, which is not to be run."""
    counts, files = {}, {}
    for path in sorted(glob.glob(f"{TOP}/golden/*.txt")):
        tests = files[os.path.basename(path).removesuffix(".txt")] = []
        for name, lines, answers in golden_tests_of(path):
            counts[name] = counts.get(name, 0) + 1
            if is_fault(answers) and lines.endswith(b"\n"):
                lines += b"show\n"
            tests.append((f"{name}-{counts[name]}", lines, answers))
    return files


def golden_tests():
    """All golden tests, as `golden_files` has them."""
    return [it for tests in golden_files().values() for it in tests]


# Before a command that might wait for ever, such as a test. Its exit code then is 124.
TIMED = ["timeout", "--kill-after=10", "900"]


class BadEdit(Exception):
    """An edit that no longer applies."""


class Mutant(NamedTuple):
    """An edit that something has to refuse: its name, what stands after the name, its replacements (file, old, new)
    in order, and by their word its other lines."""
    name: str
    note: str
    pairs: list
    lines: dict


# In a line of a mutant what it takes out, and what it writes.
CHANGE = re.compile(r"\[-(.*?)-\]|\{\+(.*?)\+\}", re.S)


def mutants_of(path):
    """The mutants of a list, if it is there. A line 'file: PATH' is for all that follows up to the next one. A mutant
    begins with '== NAME' or '== NAME: NOTE'. A line that it changes is '~ if count > [-1-]{+2+} {', with what goes
    and what comes; ⏎ is where a line ends, before the spaces of the next one."""
    return read_mutants(path, []) if os.path.isfile(path) else []


def edits_of(crate):
    """The mutants of a crate's folder must-fail, as rt must-fail takes them: each file is one, whatever its name, so that
    none is passed over. It has lines 'file: PATH', and for each replacement 'old: TEXT' and 'new: TEXT'. Other lines
    rt would report, so these are in mutants/must-fail.txt, below a line '== NAME'."""
    beside = {it.name: it.lines for it in mutants_of(f"{crate}/mutants/must-fail.txt")}
    for path in sorted(it for it in glob.glob(f"{crate}/must-fail/**", recursive=True) if os.path.isfile(it)):
        name = os.path.basename(path).removesuffix(".edit")
        found = read_mutants(path, [Mutant(name, "", [], no_lines())])
        if len(found) > 1 or any(found[0].lines.values()):
            refuse(f"{path}: only 'file:', 'old:' and 'new:' begin its lines; others are in mutants/must-fail.txt")
        yield found[0]._replace(lines=beside.pop(name, no_lines()))
    if beside:
        refuse(f"{crate}/mutants/must-fail.txt: there is no edit {', '.join(beside)}")


def no_lines():
    return {"error": [], "function": [], "clause": [], "rust": []}


def read_mutants(path, found):
    """The mutants of a file, with those that it begins in."""
    file, last = None, None
    for number, line in enumerate([*read(path).splitlines(), ""], 1):
        mark, _, text = line.partition(" ")
        pairs = found[-1].pairs if found and file else None
        if last == "old:" and mark != "new:":
            refuse(f"{path}:{number}: no 'new:' is after 'old:'")
        elif mark == "file:":
            file = text
        elif mark == "==":
            name, _, note = text.partition(": ")
            found.append(Mutant(name, note, [], no_lines()))
        elif mark == "~" and pairs is not None:
            text = text.replace("⏎", "\n")
            pairs.append((file, *(CHANGE.sub(lambda it: it[side] or "", text) for side in (1, 2))))
        elif mark == "old:" and pairs is not None:
            pairs.append((file, text, ""))
        elif (last, mark) == ("old:", "new:"):
            pairs[-1] = (*pairs[-1][:2], text)
        elif found and mark[:-1] in found[-1].lines:
            found[-1].lines[mark[:-1]].append(text)
        elif line:
            refuse(f"{path}:{number}: this line is out of place: {line}")
        last = mark
    return found


def rust_mutants():
    """The folder and the mutant, of each list of rust/mutants."""
    for path in sorted(glob.glob(f"{TOP}/rust/mutants/*.txt")):
        yield from ((os.path.basename(path).removesuffix(".txt"), it) for it in mutants_of(path))


def edited(crate, pairs, texts=()):
    """The texts of a crate's files once an edit is made, beside texts that others have made of some, and
    the lines that it wrote ('src/lib.rt:7')."""
    texts, written = dict(texts), set()
    for file, old, new in pairs:
        if file not in texts:
            texts[file] = read(f"{crate}/{file}")
        before, found, after = texts[file].partition(old)
        if not found or old in after:
            raise BadEdit(f"an 'old:' text is in {file} {texts[file].count(old)} times, and not once")
        written.add(f"{file}:{before.count(chr(10)) + 1}")
        texts[file] = before + new + after
    return texts, written


def replace(folder, texts):
    """Writes files of a folder, and returns their old texts."""
    kept = {file: read(f"{folder}/{file}") for file in texts}
    for file, text in texts.items():
        write(f"{folder}/{file}", text)
    return kept


if __name__ == "__main__":
    if len(sys.argv) != 3 or sys.argv[1] != "is-built":
        print(__doc__.strip().split("\n")[-1].partition(" ;")[0], file=sys.stderr)
        sys.exit(2)
    sys.exit(0 if is_built(sys.argv[2]) else 1)
