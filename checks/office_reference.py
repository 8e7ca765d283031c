#!/usr/bin/env python3
"""The whole program in plain Python, to compare the built program with.

    office_reference.py [--clerks N] [--journal N] < INPUT

It reads what the program reads and writes what the program has to write: the text to standard output, the line of a
fault to standard error, and it ends with the program's status. Rows of several clerks are done in the order in which
they stand, which is one of the orders that the program may come to. The files of `reference/` are its parts. It needs
Python 3.8 or later. What it doesn't read, though the program may, ends it with CannotTell and status 9: quotes in the middle
of a field, zones whose rules name days of the year and, before Python 3.11, other TOML than plain lines. From 3.11 on it
reads TOML 1.0: what only 1.1 has, and a byte order mark before the court's file, it answers with NotToml, though the
program reads it.
"""
import argparse
import sys

from reference.civil import CannotTell
from reference.court_file import CourtFault, court_of, split
from reference.docket import STEPS, opening, step, view
from reference.rows_in import RowFault, rows_of
from reference.text_out import answer_lines, closing_lines

MOST_BYTES = 16777216


class Words(argparse.ArgumentParser):
    """The words of a command line. What is said of refused words, and help, only the program knows."""

    def error(self, message):
        raise CannotTell(message)


class Once(argparse.Action):
    """An option that may be given once."""

    def __call__(self, parser, namespace, values, option_string=None):
        given = namespace.__dict__.setdefault("given", set())
        if self.dest in given:
            parser.error("argument {}: given twice".format(option_string))
        given.add(self.dest)
        setattr(namespace, self.dest, values)


def options_in(words):
    """How many clerks there are, and how many entries the journal takes, by the words of a command line."""
    parser = Words(add_help=False, allow_abbrev=False)
    # with no metavar argparse writes out all choices each time, and a million of them take a fifth of a second
    parser.add_argument("--clerks", type=int, default=1, choices=range(1, 65), metavar="N", action=Once)
    parser.add_argument("--journal", type=int, default=100000, choices=range(1000001), metavar="N", action=Once)
    return parser.parse_args(words)


def ended(data, words=(), told=None, at_desk=False):
    """The status, the text and the line of the fault, as bytes. `told` is called with each answer. At the desk more rows are read
    than clerk_office reads."""
    options = options_in(words)
    if len(data) > MOST_BYTES:
        return 4, b"", b"read fault\n"
    of_court, of_rows = split(data)
    try:
        court = court_of(of_court, at_desk)
        rows = rows_of(of_rows, options.clerks, court, at_desk)
    except CourtFault as fault:
        return 2, b"", (fault.line() + "\n").encode()
    except RowFault as fault:
        return 3, b"", (fault.line() + "\n").encode()
    limit = None if options.clerks == 1 else options.journal
    return 0, "".join(line + "\n" for line in lines_of(court, rows, limit, told)).encode(), b""


def lines_of(court, rows, limit, told):
    answers, docket = answered(court, rows, limit, told)
    return [line for answer in answers for line in answer] + closing_lines(court, docket)


def answers_of(data):
    """The lines with which each row of an input of one clerk is answered, which has no fault."""
    of_court, of_rows = split(data)
    court = court_of(of_court)
    return answered(court, rows_of(of_rows, 1, court), None, None)[0]


def answered(court, rows, limit, told):
    """The lines with which each row is answered, and the docket after all rows."""
    docket, entries = opening(court), 0
    answers = []
    for number, row in enumerate(rows, 1):
        if row.work[0] not in STEPS:
            answer = view(court, docket, row.work)
        elif entries == limit:
            answer = ("journal full",)
        else:
            docket, answer = step(court, docket, row.work)
            entries += 1
        if told is not None:
            told(row.work[0], answer)
        first, *more = answer_lines(court, docket, answer)
        answers.append(["{} {} {}".format(number, row.clerk, first), *more])
    return answers, docket


def main():
    try:
        status, text, fault = ended(sys.stdin.buffer.read(), sys.argv[1:])
    except CannotTell as why:
        print("the reference can't tell:", why, file=sys.stderr)
        sys.exit(9)
    sys.stdout.buffer.write(text)
    sys.stderr.buffer.write(fault)
    sys.exit(status)


if __name__ == "__main__":
    main()
