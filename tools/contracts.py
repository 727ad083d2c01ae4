#!/usr/bin/env python3
"""What the sources say of the contracts of functions, read as text: the clauses of each function, the definitions of
specs/, and the fields of those that are records.

usage: tools/contracts.py CRATE.. ; it prints the clauses of the crates' public functions
"""
import re
import sys
from pathlib import Path

import common

TOP = Path(common.TOP)
WORD = re.compile(r"[A-Za-z_]\w*")
DEFINED = re.compile(r"^ *(?:(?:abbrev|unfoldable) pub|pub (record|data)) (\w+)\b", re.M)
FUNCTION = re.compile(r"^( *)((?:pub(?:\(\w+\))? )?)(?:const )?(?:unsafe )?(?:extern \"C\" )?fn (\w+)", re.M)
AROUND = re.compile(r"^(?:pub(?:\(\w+\))? )?(impl|trait|struct|enum)\b(.*(?:\n    where.*)?)", re.M)
CLAUSE = re.compile(r"^ *(requires|ensures)\*? (?:(\w+) )?\{", re.M)
EXPORT = re.compile(r"^pub (?:mod (\w+)|use (\w+)[\w:]*::(?:\{([^}]*)\}|(\w+)));", re.M)


def sources(crate, kind, ending):
    return sorted((TOP / "crates" / crate / kind).glob(f"**/*.{ending}"))


CRATES = sorted(path.parent.name for path in (TOP / "crates").glob("*/src"))


def definitions():
    """Of each definition, by crate, module and name, whether it is a record or a data type, and its text."""
    found = {}
    for crate in CRATES:
        root = TOP / "crates" / crate / "specs"
        for path in sources(crate, "specs", "antt"):
            module = ".".join(path.relative_to(root).with_suffix("").parts)
            text = path.read_text()
            places = [*DEFINED.finditer(text)]
            for place, end in zip(places, [*(it.start() for it in places[1:]), len(text)]):
                found[crate, module, place[2]] = place[1], re.sub(r"--.*", "", text[place.start():end])
    return found


DEFINITIONS = definitions()


def fields(place):
    """The fields of a record, and the cases of a data type, each with its text."""
    kind, body = DEFINITIONS.get(place, (None, ""))
    parts = re.split(r"^ +(?:pub )?(\w+) :", body, flags=re.M)
    return dict(zip(parts[1::2], parts[2::2])) if kind else {}


class Function:
    """A function with its clauses. In its file it goes from start to end, and its body from inside on."""

    def __init__(self, crate, path, place, text):
        head = text[place.start():]
        end = re.compile(rf"(?<=\n){place[1]}(?:\{{|\).*\{{$)|^.*(?:///|\bfn )|^\}}", re.M)
        found = end.search(head, head.index("\n"))
        head = head[:0 if head.partition("\n")[0].endswith("{") else found and found.start()]
        self.start, self.inside = place.start(), place.start() + len(head or text[place.start():].partition("\n")[0])
        last = re.compile(rf"^{place[1]}(?:\{{ *)?\}}$", re.M).search(text, self.start)
        self.end = last.end() if last else self.inside
        before = [*AROUND.finditer(text[:place.start()])]
        last = before[-1] if before and place[1] else None
        self.path, self.name, self.is_public = path, place[3], bool(place[2].startswith("pub "))
        self.head, self.crate = head, crate
        self.type = type_of(last) if last else None
        self.trait = trait_of(last) if last else None
        self.is_public |= bool(last and (last[1] == "trait" or self.trait))
        clauses = CLAUSE.findall(head)
        self.requires = {name for kind, name in clauses if kind == "requires"}
        self.ensures = [name for kind, name in clauses if kind == "ensures"]


def without_parameters(text):
    """What comes after the parameters of an impl."""
    depth = 0
    for at, letter in enumerate(text if text.startswith("<") else ""):
        depth += (letter == "<") - (letter == ">" and text[at - 1] not in "-=")
        if depth == 0:
            return text[at + 1:]
    return text


def type_of(around):
    """The type of an impl; or the name of a trait, a struct or an enum."""
    text = without_parameters(around[2]) if around[1] == "impl" else around[2]
    found = re.search(r"(?:\w+::)*(\w+)", text.split(" for ")[-1])
    return found[1] if found else None


def trait_of(around):
    """The trait that an impl is of."""
    text = without_parameters(around[2]) if around[1] == "impl" else ""
    found = re.match(r"\s*(?:\w+::)*(\w+)", text) if " for " in text else None
    return found[1] if found else None


def functions_and_ghosts():
    """All functions; and of each type, by its crate and name, its ghost fields and members."""
    functions, ghosts = [], {}
    for crate in CRATES:
        for path in sources(crate, "src", "rt"):
            text = path.read_text()
            functions += [Function(crate, path, it, text) for it in FUNCTION.finditer(text)]
            parts = [*AROUND.finditer(text)]
            for part, end in zip(parts, [*(it.start() for it in parts[1:]), len(text)]):
                ghosts.setdefault((crate, type_of(part)), set()).update(
                    re.findall(r"^ +(?:pub )?ghost (\w+)\b(?: =|:)", text[part.start():end], re.M))
    return functions, ghosts


FUNCTIONS, GHOSTS = functions_and_ghosts()


def has_clause(crate, text):
    """Whether a crate has the clause that a line 'FUNCTION NAME' of a mutant names, or one without a name, or a ghost
    member 'TYPE NAME'."""
    function, _, clause = text.partition(" ")
    kind, _, name = function.rpartition("::")
    fits = [it for it in FUNCTIONS if it.crate == crate and it.name == name and kind in ("", it.type or it.path.stem)]
    return clause in GHOSTS.get((crate, function), ()) or any(clause in {*it.requires, *it.ensures} for it in fits)


def exports(crate):
    """The names that a library exports: public modules, items of its own, and items of other crates here."""
    modules, own, others = set(), set(), set()
    for module, first, several, one in EXPORT.findall((TOP / "crates" / crate / "src/lib.rt").read_text()):
        names = {it.strip() for it in (several or one).split(",")} - {""}
        modules.update({module} - {""})
        (others if first in CRATES else own).update(names)
    return modules, own, others


def exported_functions(crate):
    """The functions that a library exports of itself: of public modules, by their names, and of exported types and traits."""
    modules, own, _ = exports(crate)
    return [it for it in FUNCTIONS if it.crate == crate and it.is_public and not it.trait
            and (it.type in own if it.type else it.name in own or it.path.stem in modules)]


def index(crates):
    """The clauses of the public functions of crates, a line for each function."""
    for function in FUNCTIONS:
        if function.crate in crates and function.is_public and (function.requires or function.ensures):
            place = function.type or function.path.stem
            requires = [f"requires {it}".strip() for it in sorted(function.requires)]
            ensures = [it or "(unnamed)" for it in dict.fromkeys(function.ensures)]
            yield f"{place}::{function.name}: {', '.join(requires + ensures)}"


if __name__ == "__main__":
    if not sys.argv[1:] or not {*sys.argv[1:]} <= {*CRATES}:
        sys.exit(__doc__.strip().rsplit("\n", 1)[-1])
    print(*index(sys.argv[1:]), sep="\n")
