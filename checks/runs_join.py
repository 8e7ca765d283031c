#!/usr/bin/env python3
"""Joins the whole runs of `runs/` into the one run of the program stored_runs.

    runs_join.py [--check]

Each runs/FOLDER/NAME.in stands in crates/stored_runs/stdin after a line `%%%% FOLDER/NAME`, in which the words of NAME.words
stand after the name where there is one (where it has several lines, the input stands there once for each), and in
crates/stored_runs/stdout stands the same line and then NAME.out or the fault's line of NAME.fault. The lines of a NAME.made
stand after a line `%%%% made FOLDER/NAME`, and its NAME.sum stands in the place of NAME.out. So does an input that isn't
text, with `{ff}` for each byte 255. A line end stands after each input, so that one that ends within a line can be told from
one that doesn't. The runs of runs/calendar are among them. With --check nothing is written, and the status is 1 where the two
files aren't these. It needs Python 3.8 or later.
"""
import pathlib
import sys

from lib import stored_calendars
from runs_check import kept_runs, made_runs

CRATE = pathlib.Path(__file__).resolve().parent.parent / "crates" / "stored_runs"
MARK = b"\n%%%% "


def is_text(data):
    try:
        data.decode()
    except UnicodeDecodeError:
        return False
    return True


def stored_runs():
    """What stands before the name of each run, its name and words, the text that it is made of, and what it must write."""
    for name, words, data, (_, text, fault) in kept_runs():
        if is_text(data):
            yield "", name, words, data, text + fault
        else:
            yield "made ", name, words, data.replace(b"\xff", b"{ff}"), text + fault
    for name, words, data, (_, text, fault) in made_runs():
        yield "made ", name, words, data, text + fault
    for run in stored_calendars.runs():
        mark, text = "made " if run.is_made else "", stored_calendars.wanted_of(run).read_bytes()
        name, *words = stored_calendars.title_of(run)
        yield mark, name, words, run.stored, text


def joined():
    """The input of stored_runs and what it has to write."""
    inputs, outputs = b"", b""
    for mark, name, words, data, text in sorted(stored_runs(), key=lambda run: run[1]):
        if MARK in data:
            sys.exit("{}: a line of it begins as the lines that part runs do".format(name))
        line = " ".join([name] + words).encode() + b"\n"
        inputs += MARK + mark.encode() + line + data
        outputs += MARK[1:] + line + text
    return inputs, outputs


def main(words):
    if words not in ([], ["--check"]):
        sys.exit("usage: runs_join.py [--check]")
    differ = 0
    for name, data in zip(("stdin", "stdout"), joined()):
        path = CRATE / name
        if not words:
            path.write_bytes(data)
        elif not path.exists() or path.read_bytes() != data:
            differ += 1
            print("{}: it isn't what runs/ joins to; runs_join.py writes it".format(path.name))
    sys.exit(1 if differ else 0)


if __name__ == "__main__":
    main(sys.argv[1:])
