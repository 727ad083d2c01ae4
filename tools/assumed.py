"""A copy of a crate whose proofs are assumed, but for those of some functions: what a mutant's check needs.

A function is proved over the contracts of those that it calls, and over lemmas, whose own proofs a mutant doesn't touch.
So here an axiom of the same statement is in place of each lemma, and of the proof of each function that no mutant
changes, whose body, which nothing reads then, is one call that is never made. That all of these are proved is for rt ci
to show: what the copy assumes it calls 'not proved', so nothing built comes of it. Definitions that a proof unfolds stay
as they are, and so do a trait's functions and laws.
"""
import re
from pathlib import Path

from contracts import FUNCTIONS, sources
from kit import copy_parts

SIGNATURE = re.compile(r"( *)(?:pub )?([^\s◌:(){}.]+)(?: \{[^}]*\})? :(?: |$)")
UNFOLDED = re.compile(r"^ *unfolding (.*)$|\bunfold (.*?) in\b", re.M)
AXIOM = """use Rattle.{crate}.proofs.{path}.Statement.{{statement}}

axiom pub {name}_spec : {{M : Type 1}} → statement M
"""
# What a function's folder has of its proof.
PROOF = ("Proof.antt", "Answers.antt", "Invariants.antt")


def path_of(function):
    """The path of a function in its crate, where its type is declared; None for one of a trait."""
    file = function.path
    if function.type:
        declared = re.compile(rf"^(?:pub(?:\(\w+\))? )?(?:struct|enum) {function.type}\b", re.M)
        file = next((it for it in sources(function.crate, "src", "rt") if declared.search(it.read_text())), None)
    if function.trait or file is None:
        return None
    *_, module = re.split(r"/src/", str(file.with_suffix("")))
    modules = [] if module in ("lib", "main") else module.split("/")
    return "/".join([*modules, *filter(None, [function.type]), function.name])


def declaration(lines, at):
    """Of a declaration that begins at a line: its name, the end of its signature, and its own end."""
    indent, name = SIGNATURE.match(lines[at]).groups()

    def goes_on(number):
        return bool(re.match(rf"{indent}( +\S|[\])}}])", lines[number]))

    def is_clause(number):
        return bool(re.match(rf"{indent}{re.escape(name)}( |$)", lines[number])) and not SIGNATURE.match(lines[number])

    head = at + 1
    while head < len(lines) and goes_on(head):
        head += 1
    last = first = head + (head < len(lines) and lines[head].startswith(f"{indent}unfolding "))
    for number in range(first, len(lines)):
        if is_clause(number) or number > first and goes_on(number):
            last = number + 1
        elif lines[number].strip() or number == first:
            break
    return name, head, at + 1 if last == first else last


def with_axioms(text, kept):
    """A file of proofs with an axiom in place of each lemma, but for those of some names."""
    lines, written, at = text.split("\n"), [], 0
    while at < len(lines):
        if not SIGNATURE.match(lines[at]):
            written.append(lines[at])
            at += 1
            continue
        name, head, end = declaration(lines, at)
        if name in kept or end == at + 1:
            written += lines[at:end]
        else:
            indent = len(lines[at]) - len(lines[at].lstrip())
            written += [lines[at][:indent] + "axiom " + lines[at][indent:], *lines[at + 1:head]]
        at = end
    return "\n".join(written)


def without_body(text, function):
    """A file's text with a body that is never run in place of a function's own, if that has lines of its own."""
    begin = re.compile(r"(?:(?<=\{)|.*\{)\n").match(text, function.inside)
    return f"{text[:begin.end()]}unreachable!(){text[text.rfind(chr(10), 0, function.end):]}" if begin else text


def assumed(crate, room, is_kept):
    """Writes the copy to a folder, and returns its crate. It keeps the proofs of the functions that is_kept names
    by their paths."""
    copy_parts(crate, room)
    proofs, kept = Path(room, "proofs"), set()
    # From the end of each file on, so that the places of those before stay.
    for function in reversed(FUNCTIONS):
        path = path_of(function) if function.crate == crate.name and function.inside < function.end else None
        if path and is_kept(path):
            kept.add(proofs / path)
        elif path:
            source = Path(room, function.path.relative_to(crate.folder))
            source.write_text(without_body(source.read_text(), function), encoding="utf-8")
            (proofs / path).mkdir(parents=True, exist_ok=True)
            for name in PROOF:
                (proofs / path / name).unlink(missing_ok=True)
            text = AXIOM.format(crate=crate.name, path=path.replace("/", "."), name=function.name)
            (proofs / path / "Proof.antt").write_text(text, encoding="utf-8")
    texts = {it: it.read_text(encoding="utf-8") for it in proofs.rglob("*.antt")}
    unfolded = {name for text in texts.values() for names in UNFOLDED.findall(text) for name in "".join(names).split()}
    for path, text in texts.items():
        if path.name not in PROOF and not kept & {*path.parents}:
            path.write_text(with_axioms(text, unfolded), encoding="utf-8")
    return crate._replace(folder=str(room))
