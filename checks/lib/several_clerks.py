"""Rows of several clerks, made of rows of clerk 1, and what the answers to them are then.

The journal of a docket is one history, whoever gave its rows. So the reports answer rows of several clerks as those of one, and
each answer has the number of its own clerk.
"""
import re

ANSWER = re.compile(r"([0-9]+) 1 ")


def with_clerks(chance, data):
    """The input with its rows given to clerks at random, and the clerk of each row; or the input as it is, and none."""
    front, divider, rows = data.partition(b"\n%%\n")
    if not divider or b'"' in rows or chance.random() < 0.5:
        return data, None
    clerks = []

    def given(_):
        clerks.append(chance.choice([1, 2, 2, 3, 63, 64]))
        return b"%d," % clerks[-1]
    return front + divider + re.sub(rb"(?m)^1,", given, rows), clerks


def renumbered(text, clerks):
    """The text of rows of clerk 1, with the number of each row's clerk."""
    lines, row = [], 0
    for line in text.splitlines(keepends=True):
        answer = ANSWER.match(line)
        if clerks and answer and int(answer[1]) == row + 1:
            line = "{} {} {}".format(row + 1, clerks[row], line[answer.end():])
            row += 1
        lines.append(line)
    return "".join(lines)
