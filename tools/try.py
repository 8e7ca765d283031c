#!/usr/bin/env python3
"""Runs a program from its sources, before any proof.

    try.py PROGRAM INPUT

`rt try` compiles the program and all below it with checks at run time, and proves nothing. It also runs a program on
an interpreter, which is too slow here, so it gets one step. What it says of itself is shown where the run fails. The
last line says that nothing was proved. The status is the program's. It needs x86-64 Linux and Python 3.8 or later.
"""
import pathlib
import subprocess
import sys

TOP = pathlib.Path(__file__).resolve().parent.parent


def main(program, path):
    print("compiling {} from its sources; this takes a minute or two".format(program), flush=True)
    with open(path, "rb") as rows:
        ran = subprocess.run(["rt", "try", "--steps", "1"], cwd=str(TOP / "crates" / program), stdin=rows,
                             stdout=subprocess.PIPE, stderr=subprocess.PIPE, check=False)
    sys.stdout.buffer.write(ran.stdout)
    sys.stdout.flush()
    if ran.returncode != 0:
        sys.stderr.buffer.write(ran.stderr)
        sys.exit(ran.returncode)
    print("Nothing was proved: this ran the sources. `make` proves and builds the program, `make test` proves all anew.")


if __name__ == "__main__":
    if len(sys.argv) != 3:
        sys.exit("usage: try.py PROGRAM INPUT")
    main(*sys.argv[1:])
