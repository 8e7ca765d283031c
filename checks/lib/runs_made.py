"""Inputs that are too large to be kept, made from the lines of a NAME.made, and what is kept of the texts that they give."""
import hashlib
import re

REPEAT = re.compile(rb"repeat (\d+) (\d+): (.*)", re.DOTALL)
MARK = re.compile(rb"\{([^}]*)\}")


def made_of(text):
    """The input that the bytes of a NAME.made stand for; runs/README.md says how."""
    return b"".join(part for line in text.splitlines(keepends=True) for part in lines_of(line))


def lines_of(line):
    repeat = REPEAT.fullmatch(line)
    if repeat is None:
        return [with_number(line, 0)]
    first, last, rest = int(repeat[1]), int(repeat[2]), repeat[3]
    return [with_number(rest, number) for number in range(first, last + 1)]


def with_number(line, number):
    return MARK.sub(lambda mark: shown_by(mark[1], number), line)


def shown_by(mark, number):
    if mark == b"ff":
        return b"\xff"
    if mark.startswith(b"%"):
        number = (number - 1) % int(mark[1:]) + 1
    return str(number).encode()


def sum_of(text):
    """What is kept of a text: its lines, its bytes, and its digest by SHA-256."""
    digest = hashlib.sha256(text).hexdigest()
    return "{} lines, {} bytes, sha256 {}\n".format(text.count(b"\n"), len(text), digest).encode()
