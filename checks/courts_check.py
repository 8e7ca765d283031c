#!/usr/bin/env python3
"""Runs the program on each district's court's file, and compares what it prints.

    courts_check.py PROGRAM FOLDER

For each FOLDER/NAME.toml the program reads that file, a line `%%` and FOLDER/NAME.rows. It must print FOLDER/NAME.out,
write nothing to standard error and end with status 0. The status is 0 where that is so of each. It needs Python 3.8 or
later.
"""
import pathlib
import subprocess
import sys


def is_answered(program, court):
    """Whether the program answers the rows of that court's file as is written."""
    text = court.read_bytes() + b"%%\n" + court.with_suffix(".rows").read_bytes()
    ran = subprocess.run([program], input=text, capture_output=True, check=False)
    if (ran.returncode, ran.stdout, ran.stderr) == (0, court.with_suffix(".out").read_bytes(), b""):
        return True
    print(f"{court}: status {ran.returncode}\n{ran.stdout.decode()}{ran.stderr.decode()}", end="")
    return False


def main():
    program, folder = sys.argv[1:]
    courts = sorted(pathlib.Path(folder).glob("*.toml"))
    answered = sum(is_answered(program, court) for court in courts)
    print(f"{answered} of {len(courts)} courts are answered as is written")
    sys.exit(0 if courts and answered == len(courts) else 1)


main()
