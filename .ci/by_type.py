#!/usr/bin/env python3
"""Edits that the check must refuse by type, before anything is proved.

`rt must-fail` takes only edits that reach the prover. An edit of .ci/by-type/ is one that must not get so far: it names
a crate, a file of it, an old text that stands there once, the new text (one or more lines), and the error that the
check must give in that file. Each is applied to a copy of the repository, in which nothing has been proved: what such an
edit breaks is found before any proof.
"""

import pathlib
import shutil
import subprocess
import sys
import tempfile

ROOT = pathlib.Path(__file__).resolve().parent.parent


def read_edit(path):
    keys = {"crate": [], "file": [], "old": [], "new": [], "error": []}
    for line in path.read_text(encoding="utf8").splitlines():
        key, _, value = line.partition(": ")
        if key in keys:
            keys[key].append(value)
    return {key: "\n".join(lines) for key, lines in keys.items()}


def refused(copy, edit):
    """What went wrong with an edit, or nothing where it was refused as it must be."""
    target = copy / "crates" / edit["crate"] / edit["file"]
    before = target.read_text(encoding="utf8")
    if before.count(edit["old"]) != 1:
        return "its old text does not stand once in the file"
    target.write_text(before.replace(edit["old"], edit["new"]), encoding="utf8")
    run = subprocess.run(["rt", "check"], cwd=copy / "crates" / edit["crate"], capture_output=True, text=True)
    target.write_text(before, encoding="utf8")
    out = run.stdout + run.stderr
    found = [line for line in out.splitlines() if f"error[{edit['error']}]" in line and edit["file"] in line]
    if run.returncode == 0:
        return "it was not refused"
    if not found:
        return "it was refused for another reason:\n" + "\n".join(out.splitlines()[-10:])
    return ""


def main():
    edits = sorted((ROOT / ".ci" / "by-type").glob("*.edit"))
    if not edits:
        sys.exit("by type: there is no edit to try")
    with tempfile.TemporaryDirectory() as folder:
        copy = pathlib.Path(folder) / "copy"
        shutil.copytree(ROOT, copy, ignore=shutil.ignore_patterns(".git", "out"), symlinks=True)
        for path in edits:
            wrong = refused(copy, read_edit(path))
            if wrong:
                sys.exit(f"by type: {path.stem}: {wrong}")
            print(f"by type: {path.stem}: refused, as it must be", flush=True)


if __name__ == "__main__":
    main()
