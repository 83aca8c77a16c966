#!/usr/bin/env python3
"""Tries wrong bodies of the code: edits that the prover must refuse, beside those that the gate tries.

try_wrong_bodies.py [CRATE..]: those of these crates, or of all. Each is a file crates/NAME/wrong-bodies/*.edit, of the form of a must-fail
edit. It works on a copy of the repository in which they are the must-fail edits, and runs `rt must-fail` there, which says of each
whether it was refused. Where `rt` has kept nothing it first proves these crates and those below them; all edits together take some
hours of one processor. With --look it proves nothing, and says only whether each edit, those of the gate among them, still fits its file.
"""

import os
import pathlib
import shutil
import subprocess
import sys
import tempfile

TOP = pathlib.Path(__file__).resolve().parent.parent
FOLDERS = ("must-fail", "wrong-bodies")


def fits(edit: pathlib.Path) -> bool:
    """Whether each text that an edit takes away stands in its file exactly once, and another is put in its place."""
    lines = edit.read_text(encoding="utf-8").splitlines()
    files = [line[6:] for line in lines if line.startswith("file: ")]
    texts = [line[5:] for line in lines if line.startswith("old: ")]
    others = [line for line in lines if line.startswith("new: ")]
    if len(files) != 1 or not texts or len(texts) != len(others):
        return False
    source = edit.parent.parent / files[0]
    return source.is_file() and all(source.read_text(encoding="utf-8").count(text) == 1 for text in texts)


def look() -> int:
    """Prints each edit that doesn't fit its file, and how many do and don't."""
    edits = [edit for folder in FOLDERS for edit in sorted(TOP.glob(f"crates/*/{folder}/*.edit"))]
    wrong = [edit for edit in edits if not fits(edit)]
    for edit in wrong:
        print(f"doesn't fit: {edit.relative_to(TOP)}")
    print(f"{len(edits) - len(wrong)} edits fit their files, {len(wrong)} don't")
    return 1 if wrong or not edits else 0


def try_all(crates: list) -> int:
    """Runs `rt must-fail` of these crates in a copy of the repository."""
    with tempfile.TemporaryDirectory(prefix="wrong-bodies-") as room:
        top = pathlib.Path(room) / "repository"
        shutil.copytree(TOP, top, ignore=shutil.ignore_patterns("out", ".git"))
        (top / ".git").mkdir()
        for crate in crates:
            folder = top / "crates" / crate / "must-fail"
            shutil.rmtree(folder, ignore_errors=True)
            (top / "crates" / crate / "wrong-bodies").rename(folder)
        lanes = {"RT_JOBS": str(len(os.sched_getaffinity(0))), **os.environ}
        return subprocess.run(["rt", "must-fail", *crates], cwd=top, env=lanes, check=False).returncode


def main() -> int:
    """Looks at all edits, or tries those that are asked for."""
    if sys.argv[1:] == ["--look"]:
        return look()
    having = sorted(path.parent.name for path in TOP.glob("crates/*/wrong-bodies"))
    asked = sys.argv[1:] or having
    unknown = [crate for crate in asked if crate not in having]
    if unknown:
        print(f"no wrong bodies: {' '.join(unknown)}; there are some for {' '.join(having)}", file=sys.stderr)
        return 2
    return try_all(asked)


if __name__ == "__main__":
    sys.exit(main())
