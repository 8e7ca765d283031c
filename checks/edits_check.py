#!/usr/bin/env python3
"""Tries the edits that the gate leaves out: wrong programs that the prover must refuse.

    edits_check.py [CRATE ..]

The gate tries the edits of a few crates, crates/CRATE/must-fail/: Rule 6, periods, decisions, commits and the journal. A
crate with edits is proved once more for them. Those of checks/edits/CRATE/ are as good, and are tried here: in a copy of
the tree, in which they take the place of the others, `rt must-fail` is called for these crates. With no word, for all of
them. The status is that of `rt must-fail`. It needs git, `rt` and Python 3.8 or later.
"""
import os
import pathlib
import shutil
import subprocess
import sys
import tempfile

EDITS = pathlib.Path(__file__).resolve().parent / "edits"
TOP = EDITS.parent.parent


def copy_tree(copy):
    """Copies the files that git knows. What was proved of each crate stays where it is, and isn't proved anew."""
    files = subprocess.run(["git", "ls-files", "-z"], cwd=str(TOP), check=True, stdout=subprocess.PIPE).stdout
    for name in filter(None, files.decode().split("\0")):
        if (TOP / name).exists():
            (copy / name).parent.mkdir(parents=True, exist_ok=True)
            shutil.copy2(str(TOP / name), str(copy / name))
    for out in TOP.glob("crates/*/out"):
        (copy / out.relative_to(TOP)).symlink_to(out)


def put_edits(copy, crate):
    """Puts the edits of a crate into the copy, in the place of those that the gate tries."""
    folder = copy / "crates" / crate / "must-fail"
    shutil.rmtree(str(folder), ignore_errors=True)
    shutil.copytree(str(EDITS / crate), str(folder))


def main(crates):
    known = sorted(os.listdir(str(EDITS)))
    unknown = [crate for crate in crates if crate not in known]
    if unknown:
        sys.exit("no edits of {}; there are edits of {}".format(", ".join(unknown), ", ".join(known)))
    with tempfile.TemporaryDirectory() as folder:
        copy = pathlib.Path(folder)
        copy_tree(copy)
        for crate in crates or known:
            put_edits(copy, crate)
        return subprocess.run(["rt", "must-fail", *(crates or known)], cwd=folder, check=False).returncode


if __name__ == "__main__":
    sys.exit(main(sys.argv[1:]))
