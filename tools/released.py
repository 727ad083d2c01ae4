"""Tries what tools/release made: each archive is unpacked in an empty folder elsewhere and used from there.

The library for C is used by programs that are built by CMake and by pkg-config, static and shared, where no cargo and
no rustc is found.
"""
import os
import re
import shutil
import subprocess
import tarfile
import tempfile
import tomllib

from common import TIMED, TOP

LICENCES = ("LICENSE-APACHE", "LICENSE-MIT")
INCLUDE = f"{TOP}/rust/c/include"
LOST = re.compile(r"\]\((?![a-z+]+:|#)[^)\s]*\.(?:md|rs|svg)\b|\]\(\.\.?/")


def read(path):
    with open(path, encoding="utf-8", errors="surrogateescape") as it:
        return it.read()


def other_fault(names, first, second):
    """A file that two folders have not alike."""
    for name in names:
        files = f"{first}/{name}", f"{second}/{name}"
        if not all(map(os.path.isfile, files)) or read(files[0]) != read(files[1]):
            return f"{name} is missing, or another one"
    return None


def files_of(folder):
    return {os.path.relpath(f"{at}/{name}", folder) for at, _, names in os.walk(folder) for name in names}


def run(*words, cwd=None, **environment):
    """The fault of a command, or None."""
    ran = subprocess.run([*TIMED, *words], cwd=cwd, env={**os.environ, **environment}, capture_output=True, text=True)
    return f"it ended with {ran.returncode}: {(ran.stdout + ran.stderr)[-1500:]}" if ran.returncode else None


def unpacked(counts, part, archive, room):
    """The folder that an archive has, if it has only that, by the archive's name. It has the licences."""
    name = re.sub(r"\.crate$|\.tar\.gz$", "", os.path.basename(archive))
    with tarfile.open(archive) as it:
        it.extractall(f"{room}/{part}", filter="data")
    if not counts.check(f"the {part} is one folder", os.listdir(f"{room}/{part}") != [name] and "it is not"):
        return None
    folder = f"{room}/{part}/{name}"
    counts.check(f"licences of the {part}", other_fault(LICENCES, folder, f"{TOP}/rust/gpu-descriptor"))
    return folder


def manifest_fault(folder, fields):
    package = tomllib.loads(read(f"{folder}/Cargo.toml"))["package"]
    wrong = [name for name in ("repository", "documentation", "homepage") if package.get(name) != fields[name]]
    return f"Cargo.toml has not the address of {wrong}" if wrong else None


def link_fault(folder):
    """A link of a page or of a doc comment to a file: where the crate is read on a registry, that is not there."""
    for name in sorted(files_of(folder)):
        text = read(f"{folder}/{name}")
        if name.endswith(".rs"):
            text = "\n".join(re.findall(r"^\s*//[/!].*", text, re.M))
        elif not name.endswith(".md"):
            continue
        if found := LOST.search(text):
            return f"{name} has the link {found[0]}"
    return None


def docs_fault(folder):
    """The docs are built as docs.rs builds them, and say which items need a feature."""
    flags = "--cfg docsrs -D warnings"
    of_docs = tomllib.loads(read(f"{folder}/Cargo.toml"))["package"]["metadata"]["docs"]["rs"]
    features = ",".join(of_docs.get("features", ()))
    words = ["cargo", "doc", "--offline", "--no-deps", "--features", features, "--target-dir", f"{folder}/target"]
    if fault := run(*words, cwd=folder, RUSTDOCFLAGS=flags, RUSTC_BOOTSTRAP="1"):
        return fault
    page = f"{folder}/target/doc/gpu_descriptor/vulkan/index.html"
    is_said = os.path.isfile(page) and "Available on <strong>crate feature <code>vulkan</code></strong>" in read(page)
    return None if is_said else "the docs don't say that the module vulkan needs its feature"


def check_crate(counts, out, room, version, fields):
    if folder := unpacked(counts, "package", f"{out}/gpu-descriptor-proved-{version}.crate", room):
        counts.check("addresses of the package", manifest_fault(folder, fields))
        counts.check("links of the package", link_fault(folder))
        counts.check("docs of the package", docs_fault(folder))
    publish = ["cargo", "package", "--offline", "--allow-dirty", "--no-verify", "--list"]
    counts.check("the folder for cargo publish", run(*publish, cwd=f"{out}/crate"))


def source_fault(folder):
    words = ["git", "ls-tree", "-r", "--name-only", "-z", "HEAD"]
    listed = subprocess.run(words, cwd=TOP, check=True, capture_output=True, text=True).stdout
    different = {*listed.strip("\0").split("\0")} ^ files_of(folder)
    return f"files of one side alone: {sorted(different)[:5]}" if different else None


def check_source(counts, out, room, version, _):
    if folder := unpacked(counts, "source", f"{out}/gpu_descriptor-{version}.tar.gz", room):
        counts.check("files of the sources", source_fault(folder))
        counts.check("the sources build", run("cargo", "build", "--offline", "--workspace", cwd=folder))


def without_cargo(room):
    """A folder with the commands of PATH, but for those of Rust."""
    folder = f"{room}/commands"
    os.makedirs(folder)
    for at in os.environ["PATH"].split(":"):
        for name in os.listdir(at) if os.path.isdir(at) else ():
            if not name.startswith(("cargo", "rust")) and not os.path.lexists(f"{folder}/{name}"):
                os.symlink(f"{at}/{name}", f"{folder}/{name}")
    return folder


def path_fault(folder):
    """A path of the machine that built the library, in one of its files."""
    for name in sorted(files_of(folder)):
        for path in (TOP, os.path.expanduser("~"), tempfile.gettempdir()):
            if f"{path}/" in read(f"{folder}/{name}"):
                return f"{name} has the path {path}"
    return None


def check_library(counts, out, room, version, _):
    archive, = (it for it in os.listdir(out) if it.startswith("gpu_descriptor-c-"))
    if not (folder := unpacked(counts, "library", f"{out}/{archive}", room)):
        return
    headers = {*os.listdir(INCLUDE), *os.listdir(f"{folder}/include")}
    counts.check("headers of the library", other_fault(headers, f"{folder}/include", INCLUDE))
    counts.check("paths in the library", path_fault(folder))
    readme = read(f"{folder}/README.txt")
    counts.check("README of the library", None if version in readme and "@" not in readme else readme)
    kept = os.environ.copy()
    os.environ.update(PATH=without_cargo(room), HOME=room)
    try:
        if counts.check("no cargo and no rustc", shutil.which("cargo") or shutil.which("rustc")):
            counts.part(f"{TOP}/rust/c/tests/run", "--prefix", folder)
    finally:
        os.environ.update(kept)


def check(counts, out, parts, version, fields):
    """Tries the parts of a release."""
    checks = {"crate": check_crate, "source": check_source, "library": check_library}
    with tempfile.TemporaryDirectory() as room:
        for part in parts:
            checks[part](counts, out, room, version, fields)
    counts.check("SHA256SUMS", run("sha256sum", "--check", "--strict", "SHA256SUMS", cwd=out))
    summed = {*re.findall("  (.*)", read(f"{out}/SHA256SUMS"))}
    files = {it for it in os.listdir(out) if os.path.isfile(f"{out}/{it}")}
    counts.check("each file has a sum", ", ".join(files - summed - {"SHA256SUMS"}))
