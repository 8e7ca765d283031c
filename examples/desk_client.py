"""A program that works with the desk: a line in, its answer out.

    desk_client.py FOLDER

It needs docket on the PATH, and Python 3.8 or later.
"""
import re
import subprocess
import sys

# What the first line of each answer begins with.
BEGINS = re.compile("[0-9]+ ([0-9]+|-) ")


def answers(rows, folder):
    """Enters rows, and gives the answer of each as a list of its lines."""
    with subprocess.Popen(["docket", "enter", folder], stdin=subprocess.PIPE, stdout=subprocess.PIPE, text=True) as desk:
        desk.stdin.writelines(row + "\n" for row in rows)
        desk.stdin.flush()
        lines = [desk.stdout.readline() for _ in rows[:1]]
        for _ in rows[1:]:
            line = desk.stdout.readline()
            while not BEGINS.match(line):
                lines.append(line)
                line = desk.stdout.readline()
            yield lines
            lines = [line]
        yield lines


for answer in answers(["1,sheet,7", "1,compute,59e,2025-08-04,,,"], sys.argv[1]):
    sys.stdout.writelines(answer)
