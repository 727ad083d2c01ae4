"""The crates of crates.txt, and checks and builds of them by the kit's prover, as `rattle check --help` says."""
import os
import re
import shutil
import subprocess
import sys
import tempfile
import time
from graphlib import TopologicalSorter
from pathlib import Path
from typing import NamedTuple

from common import TOP, need, refuse

need("rt", "it proves the crates")
START = subprocess.check_output(["rt", "doc"], text=True).strip()
KIT = os.path.dirname(START)

# What a check takes of the kit: the prover, its libraries, the logic's project file, and the logic as it is built.
PROVER, LIBRARIES, PROJECT, LOGIC = (f"{KIT}/{it}" for it in ("bin/rattle", "rlibs", "rattle/logic/antt-project.json", "logic_built"))
for it in (PROVER, LIBRARIES, PROJECT, LOGIC):
    if not os.path.exists(it):
        refuse(f"this tool doesn't know this kit, which has no {it}")

# What a check reads of a crate.
PARTS = ("src", "specs", "proofs")


class Crate(NamedTuple):
    """A crate: its folder, the libraries of this repository that it names, and those of the kit."""
    name: str
    folder: str
    uses: tuple
    of_kit: tuple

    def below(self):
        """The libraries of this repository below it, each after those that it uses."""
        return [*dict.fromkeys(found for it in self.uses for found in [*it.below(), it])]

    def is_program(self):
        return Path(self.folder, "src/main.rt").is_file()

    def made(self):
        """What is there once it is proved and built: a library, or a program."""
        return Path(self.folder, "out", self.name if self.is_program() else "rlib")

    def is_built(self):
        """Whether that is newer than all that its proof reads, and no older than what is made of the libraries
        below. What isn't proved isn't built."""
        folders = [Path(it.folder, part) for it in [self, *self.below()] for part in PARTS]
        read = [Path(START), Path(self.folder, "../../crates.txt"), *folders, *(path for it in folders for path in it.rglob("*"))]
        newest = max(it.stat().st_mtime for it in read if it.exists())
        made = [it.made().stat().st_mtime if it.made().exists() else 0 for it in [self, *self.below()]]
        return made[0] > newest and made[0] == max(made)


def crates_of(top=TOP):
    """The crates of a repository, lowest first."""
    uses, found = {}, {}
    for line in Path(top, "crates.txt").read_text(encoding="utf-8").splitlines():
        if line := line.partition("#")[0].strip():
            read = re.fullmatch(r"(\w+):([\w ]*)", line) or refuse(f"crates.txt: this tool knows no such line: {line}")
            uses[read[1]] = read[2].split()
    for name in TopologicalSorter({name: {*words} & {*uses} for name, words in uses.items()}).static_order():
        below = tuple(found[it] for it in uses[name] if it in uses)
        found[name] = Crate(name, f"{top}/crates/{name}", below, ("std", *(it for it in uses[name] if it not in uses)))
    return [*found.values()]


def build(crate):
    """Proves and builds a library that isn't built as it is now, over those below it and the work that checks kept.
    Whether it is built."""
    if crate.is_built():
        return True
    begun, out = time.time(), Path(crate.folder, "out")
    out.mkdir(exist_ok=True)
    with tempfile.TemporaryDirectory(dir=out) as room:
        made = Path(room, "rlib")
        made.mkdir()
        said, status = rattle("build", crate, crate.folder, ["--incremental", "out/incremental", "-o", f"{made}/{crate.name}.rlib"])
        if status:
            print(said, file=sys.stderr)
            return False
        os.utime(made, (begun, begun))
        shutil.rmtree(crate.made(), ignore_errors=True)
        made.rename(crate.made())
    return True


def build_below(crate):
    """The same of each library below a crate, lowest first."""
    return all(build(it) for it in crate.below())


def rattle(verb, crate, folder, flags, is_of_sources=False):
    """What the prover says by a verb of the crate as it is in a folder, over the built libraries below it or over
    their sources, and with which status."""
    below = crate.below()
    named = dict.fromkeys(name for it in [crate, *(below if is_of_sources else ())] for name in ("core", *it.of_kit))
    root = "src/main.rt" if crate.is_program() else "src/lib.rt"
    # It ends with this tool, however that ends.
    words = ["setpriv", "--pdeathsig", "KILL", PROVER, verb, "--crate-name", crate.name, root]
    words += ["--antt-project", PROJECT, "--logic-built", LOGIC, "-L", f"dependency={LIBRARIES}"]
    words += [word for it in named for word in ("--extern", f"{it}={LIBRARIES}/{it}.rlib")]
    for it in below:
        if is_of_sources:
            uses = ",".join(["core", *it.of_kit, *(use.name for use in it.uses)])
            words += ["--lib", f"{it.name}:{uses}={it.folder}/src/lib.rt"]
        else:
            words += ["-L", f"dependency={it.made()}"]
            words += ["--extern", f"{it.name}={it.made()}/{it.name}.rlib"] if it in crate.uses else []
    how = {"stdin": subprocess.DEVNULL, "stdout": subprocess.PIPE, "stderr": subprocess.STDOUT, "errors": "replace"}
    ran = subprocess.run([*words, "--jobs", "1", *flags], cwd=folder, **how)
    return ran.stdout, ran.returncode


def checked(crate, texts, flags):
    """What a check says of a copy of the crate with these texts in place of its own, and with which status."""
    with tempfile.TemporaryDirectory(prefix="edited-") as room:
        copy_parts(crate, room)
        for file, text in texts.items():
            Path(room, file).write_text(text, encoding="utf-8")
        return rattle("check", crate, room, flags)


def copy_parts(crate, room):
    """Copies what a check reads of a crate."""
    for part in PARTS:
        if Path(crate.folder, part).is_dir():
            shutil.copytree(f"{crate.folder}/{part}", f"{room}/{part}")
