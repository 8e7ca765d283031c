#!/usr/bin/env python3
"""Lets one clerk and several read long inputs, and compares what is written: the same answers, or the same first fault.

    readers_check.py PROGRAM [SEED [COUNT]]

With one clerk one thread reads the rows, with more each thread reads a part of them. The inputs are drawn at random: up to
6,000 rows of clerk 1, ended by LF or CR LF, with blank lines, and in most of them a few rows that are at fault, that have
quotes, with the end of a line within them too, or that begin with a byte order mark; some have a byte that is no text. It
needs Python 3.8 or later; the status is 0 where all agree.
"""
import random
import subprocess
import sys

COURT = """zone = "EST5EDT,M3.2.0/2,M11.1.0/2"
opens = "08:30"
closes = "17:00"
from = "2007-01-01"
to = "2026-12-31"
federal = ["2025-05-26", "2025-06-19", "2025-07-04", "2025-09-01"]
state = []
judges = ["Ames"]
rooms = ["R1"]
%%
"""
ROWS = ["1,sheet,1", "1,compute,14d/after/filing/event/plain,2025-03-03,,,", "1,open,1,2025-03-03", "1,motion,1,2025-08-29,14"]
ODD_ROWS = ["", "1,sheet,01", "2x,sheet,1", "1,shet,1", "1", "1,sheet", "1,sheet,1,", "\ufeff1,sheet,1", '1,"sheet",1',
            '1,"she\net",1', '"1",sheet,1', "1,sheet,1\r", "1,sheet,\u00e9", '1,"sheet,1', " "]
CLERKS = (2, 3, 4, 5, 8, 13, 64)


def drawn(source):
    """The bytes of an input."""
    rows = [source.choice(ROWS) for _ in range(source.choice((300, 1700, 3000, 6000)))]
    for _ in range(source.choice((0, 0, 1, 1, 2, 3))):
        rows[source.randrange(len(rows))] = source.choice(ODD_ROWS)
    end = source.choice(("\n", "\n", "\r\n"))
    data = bytearray((COURT + end.join(rows) + source.choice(("", end))).encode())
    if source.random() < 0.1:
        data[source.randrange(len(data) // 2, len(data))] = 255
    return bytes(data)


def ended(program, data, clerks):
    """The status, and what the program wrote to both of its streams."""
    ran = subprocess.run([program, "--clerks", str(clerks)], input=data, stdout=subprocess.PIPE, stderr=subprocess.PIPE, check=False)
    return ran.returncode, ran.stdout, ran.stderr


def main(words):
    if not 1 <= len(words) <= 3:
        sys.exit("usage: readers_check.py PROGRAM [SEED [COUNT]]")
    seed, count = int((words + ["1"])[1]), int(words[2]) if len(words) > 2 else 100
    source = random.Random(seed)
    faults = differ = 0
    for number in range(1, count + 1):
        data = drawn(source)
        one = ended(words[0], data, 1)
        faults += one[0] != 0
        for clerks in source.sample(CLERKS, 3):
            many = ended(words[0], data, clerks)
            if many != one:
                differ += 1
                print("input {}, {} clerks: status {} and not {}: {} and not {}".format(
                    number, clerks, many[0], one[0], many[2] or "its text", one[2] or "its text"))
    print("{} inputs of seed {}, {} with a fault: {} differ".format(count, seed, faults, differ))
    sys.exit(1 if differ else 0)


if __name__ == "__main__":
    main(sys.argv[1:])
