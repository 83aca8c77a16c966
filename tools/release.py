#!/usr/bin/env python3
"""Writes a folder that runs scripts by itself: the proved program with what one needs to use it, and where it comes from.

release.py FOLDER [--gate LOG]: the folder must not be there. It takes the proved program of this checkout, which has to
be current, and of a commit with no changes; LOG is what `.ci/run` printed, whose last lines are kept.

A release has

    tipc_sim             as in a checkout: `./tipc_sim run FILE`, `--help`; it needs Python 3
    program/tipc_sim     the program alone, which needs the C library and nothing else
    RELEASE              version, commit, kit, checksums of the program and of all sources together
    SOURCES              the checksum of each source that the program is made of, by path
    GATE                 the last lines of the gate, where they were given
    FILES                the checksum of each file of the release but this one; `sha256sum -c FILES` compares them
    README.md, docs/, examples/, tools/

`RELEASE` tells how to make the program again and compare.
"""

import argparse
import hashlib
import importlib.machinery
import importlib.util
import pathlib
import re
import shutil
import subprocess
import sys

TOP = pathlib.Path(__file__).resolve().parent.parent
BUILT = TOP / "crates" / "tipc_sim" / "out" / "tipc_sim"
TAKEN = ("tipc_sim", "README.md", "CHANGELOG.md", "SECURITY.md", "docs", "examples")
TOOLS = ("bad_line", "shell", "chart", "capture", "dissecting")
# What shows the frames of a capture in Wireshark.
OF_WIRESHARK = "tipc.lua"
GATE_LINES = 40


class Refused(Exception):
    """Why no release can be made."""


def sum_of(path: pathlib.Path) -> str:
    return hashlib.sha256(path.read_bytes()).hexdigest()


def wrapper():
    """./tipc_sim as a module, which knows what the program is made of."""
    loader = importlib.machinery.SourceFileLoader("wrapper", str(TOP / "tipc_sim"))
    module = importlib.util.module_from_spec(importlib.util.spec_from_loader("wrapper", loader))
    loader.exec_module(module)
    return module


def said_by(*command: str) -> str:
    return subprocess.run(command, cwd=TOP, capture_output=True, text=True, check=False).stdout.strip()


def sources_of(crates: set) -> list:
    """The sources that the program is made of, by path, with the lines of crates.txt that name its crates."""
    paths = [path for crate in crates for kind in ("src", "specs", "proofs") for path in (TOP / "crates" / crate / kind).glob("**/*")]
    return sorted(str(path.relative_to(TOP)) for path in paths if path.is_file())


def check(module) -> str:
    """The commit of a checkout whose program may go out."""
    if why := module.newer_source():
        raise Refused(f"{why}; ./prove makes it")
    if said_by("git", "status", "--porcelain", "-uno"):
        raise Refused("there are changes that aren't committed")
    return said_by("git", "rev-parse", "HEAD") or "unknown"


def release_text(commit: str, sources: str, count: int) -> str:
    number = re.search(r"^## (\S+)", (TOP / "CHANGELOG.md").read_text(encoding="utf-8"), re.MULTILINE)
    return (
        f"version {number[1] if number else 'unknown'}\ncommit {commit}\nkit {said_by('rt', 'version') or 'unknown'}\n"
        f"program proved, of {BUILT.stat().st_size:,} bytes, sha256 {sum_of(BUILT)}\n"
        f"sources {count} files, in SOURCES, sha256 {hashlib.sha256(sources.encode()).hexdigest()}\n"
        f"to make it again: a clone at that commit, the kit, ./prove; then sha256sum crates/tipc_sim/out/tipc_sim\n"
    )


def tools_with_imports() -> set:
    """The tools of a release, and those that they import."""
    found, left = set(), list(TOOLS)
    while left:
        path = TOP / "tools" / f"{left.pop()}.py"
        if path.is_file() and path not in found:
            found.add(path)
            left += re.findall(r"(?m)^ *import (\w+)$", path.read_text(encoding="utf-8"))
    return found


def copy(folder: pathlib.Path):
    """What is taken over as it is."""
    (folder / "program").mkdir(parents=True)
    shutil.copy(BUILT, folder / "program" / "tipc_sim")
    for name in TAKEN:
        take = shutil.copytree if (TOP / name).is_dir() else shutil.copy
        take(TOP / name, folder / name)
    (folder / "tools").mkdir()
    for path in (*tools_with_imports(), TOP / "tools" / OF_WIRESHARK):
        shutil.copy(path, folder / "tools")


def make(folder: pathlib.Path, log: str) -> str:
    """Writes a release, and tells of it."""
    module = wrapper()
    commit = check(module)
    if folder.exists():
        raise Refused(f"{folder} is there already")
    last = pathlib.Path(log).read_text(encoding="utf-8", errors="replace").splitlines()[-GATE_LINES:] if log else []
    copy(folder)
    paths = sources_of(module.crates_below())
    sources = "".join(f"{sum_of(TOP / path)}  {path}\n" for path in paths)
    (folder / "SOURCES").write_text(sources, encoding="utf-8")
    (folder / "RELEASE").write_text(release_text(commit, sources, len(paths)), encoding="utf-8")
    if last:
        (folder / "GATE").write_text("\n".join([*last, ""]), encoding="utf-8")
    files = sorted(path for path in folder.glob("**/*") if path.is_file())
    lines = [f"{sum_of(path)}  {path.relative_to(folder)}\n" for path in files]
    (folder / "FILES").write_text("".join(lines), encoding="utf-8")
    return f"{folder} has {len(files) + 1} files; ./tipc_sim run examples/first_message.txt there"


def words_of(words: list) -> argparse.Namespace:
    parser = argparse.ArgumentParser(prog="release.py", description="Writes a folder that runs scripts by itself.")
    parser.add_argument("folder", type=pathlib.Path)
    parser.add_argument("--gate", default="", metavar="LOG", help="what .ci/run printed")
    return parser.parse_args(words)


def main(words: list) -> int:
    asked = words_of(words)
    try:
        print(make(asked.folder, asked.gate))
    except (Refused, OSError) as error:
        print(f"release.py: {error}", file=sys.stderr)
        return 1
    return 0


if __name__ == "__main__":
    sys.exit(main(sys.argv[1:]))
