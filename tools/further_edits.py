#!/usr/bin/env python3
"""Tries the wrong bodies that the gate doesn't, those of the folders must-fail-further/.

The gate tries the few of must-fail/ in each run; the others take longer than it may. This copies the repository to a folder
of its own, puts the others in the place of those of the gate there, and runs `rt must-fail` for the crates that are named
(all that have such a folder, where none is). Its output and its status are those of `rt must-fail`.
"""
import pathlib, shutil, subprocess, sys, tempfile

TOP = pathlib.Path(__file__).resolve().parent.parent
FURTHER = "must-fail-further"


def main():
    having = sorted(it.parent.name for it in TOP.glob(f"crates/*/{FURTHER}"))
    crates = sys.argv[1:] or having
    lacking = [it for it in crates if it not in having]
    if lacking:
        sys.exit(f"these crates have no folder {FURTHER}: {' '.join(lacking)}")
    with tempfile.TemporaryDirectory(prefix="fp2-edits-") as room:
        copy = pathlib.Path(room) / "repository"
        shutil.copytree(TOP, copy, ignore=shutil.ignore_patterns(".git", "drafts", "__pycache__"), symlinks=True)
        for folder in copy.glob("crates/*/must-fail"):
            shutil.rmtree(folder)
        for crate in crates:
            (copy / "crates" / crate / FURTHER).rename(copy / "crates" / crate / "must-fail")
        return subprocess.run(["rt", "must-fail", *crates], cwd=copy).returncode


sys.exit(main())
