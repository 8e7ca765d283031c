#!/usr/bin/env python3
"""Runs the examples and the commands that the documents show, and compares what they print.

    docs_check.py DOCKET CLERK_OFFICE

Each examples/NAME.txt must be answered as examples/NAME.out, and where there is a file NAME.memo, NAME.due and so on, docket must
write that with the words of REPORTS. Where there is a NAME.words, the clerk's program alone answers it, called with the words of
that line, and NAME.other is another text that it may come to.

In README.md, CONTRIBUTING.md, docs/, examples/, runs/ and the README.md of each crate a line of an indented block that begins
with `$ ` is a command, run in a shell at the top of the repository; the lines below it, up to the next command or the end of
the block, are what it must print. There the programs are on the PATH, and FOLDER is a new folder for each document. A link to a
file of the repository must lead to one, and to a heading in it that there is. The rows in the table
of docs/clerk/WEEK.md, one after another in a folder of the court of examples/district.toml, must have the answers beside them. It needs
Python 3.8 or later; the status is 0 where all is as it is written.
"""
import os
import re
import subprocess
import sys
import tempfile

from lib.desk import Desk
from lib.programs import TOP, programs_of

DIVIDER = "%%\n"
# With which words docket writes an example of each kind.
REPORTS = {".memo": ["memo"], ".case": ["memo", "--case", "1", "--today", "2025-09-18"], ".due": ["due", "--from", "2025-09-15", "--to", "2025-09-19"],
           ".week": ["week", "--judge", "Calloway", "--of", "2025-09-16"], ".html": ["page"], ".ics": ["ics", "--stamp", "20250915T120000Z"],
           ".json": ["json"], ".sql": ["sql"]}
# The page about a clerk's week.
WEEK = TOP / "docs" / "clerk" / "WEEK.md"
MERGE = re.compile("^(<<<<<<<|>>>>>>>) ", re.MULTILINE)
LINK, HEADING = re.compile(r"\[(?:[^\[\]]|\[[^\]]*\])*\]\(([^()\s]+)\)"), re.compile(r"^#+ +(.*?) *$", re.MULTILINE)


def documents():
    yield from sorted(TOP.glob("*.md"))
    for folder in ("docs", "examples", "runs"):
        yield from sorted((TOP / folder).rglob("*.md"))
    yield from sorted((TOP / "crates").glob("*/README.md"))


def anchors_of(path):
    """The headings of a document as links name them: in small letters, with dashes for blanks, and without marks."""
    headings = HEADING.findall(path.read_text())
    return {re.sub(r"[^\w\- ]", "", re.sub(r"\[([^\]]*)\]\([^)]*\)", r"\1", heading)).lower().replace(" ", "-") for heading in headings}


def leads_somewhere(path, link):
    """Whether a link of a document to the repository leads to a file, and to a heading of it. Any other is passed over."""
    if re.match("[a-z]+:", link):
        return True
    file, _, anchor = link.partition("#")
    found = (path.parent / file).resolve() if file else path
    return found.exists() and (not anchor or found.suffix != ".md" or anchor in anchors_of(found))


def links_of(path):
    """The links of a document, each with whether it leads somewhere. What is in a block of code is none."""
    text = re.sub(r"^(    |\t).*$|`[^`\n]*`", "", path.read_text(), flags=re.MULTILINE)
    return [(link, leads_somewhere(path, link)) for link in LINK.findall(text)]


def commands_in(text):
    """Each command with the lines that stand below it."""
    command, printed = None, []
    for line in text.splitlines() + [""]:
        inside = line.startswith("    ")
        if command is not None and (not inside or line.startswith("    $ ")):
            yield command, "".join(p + "\n" for p in printed)
            command, printed = None, []
        if line.startswith("    $ "):
            command = line[6:]
        elif inside and command is not None:
            printed.append(line[4:])


def prints(command, wanted, surroundings):
    ran = subprocess.run(["sh", "-c", command], cwd=TOP, stdout=subprocess.PIPE, stderr=subprocess.STDOUT, env=surroundings,
                         check=False)
    return ran.stdout.decode() == wanted


def commands_that_differ(programs, path):
    """How many commands a document has, and those that print something else."""
    shown = list(commands_in(path.read_text()))
    with tempfile.TemporaryDirectory() as folder:
        on_path = [str(program.parent) for program in programs]
        surroundings = dict(os.environ, FOLDER=folder, PATH=os.pathsep.join([*on_path, os.environ["PATH"]]))
        return len(shown), [command for command, wanted in shown if not prints(command, wanted, surroundings)]


def words_of(example):
    """The words with which the program is called."""
    line = example.with_suffix(".words")
    return line.read_text().split() if line.exists() else []


def is_answered(programs, example, kind):
    """Whether the program writes what stands beside the example, or one of two texts where two stand there."""
    data = example.read_bytes()
    ended = programs.office(data, *words_of(example)) if kind == ".out" else programs.report(REPORTS[kind], data)
    texts = [path.read_bytes() for path in (example.with_suffix(kind), example.with_suffix(".other")) if path.exists()]
    return ended.status == 0 and not ended.errors and ended.output in texts


def rows_that_differ(programs, page):
    """The rows of the page's table whose answer isn't the one beside it, or that have none there."""
    pairs = re.findall(r"^\| [^|]* \| `(1,[^`]*)` \| `([^`]*)`", page, re.MULTILINE)
    with tempfile.TemporaryDirectory() as folder:
        desk = Desk(programs, folder, (TOP / "examples" / "district.toml").read_bytes())
        told = desk.enter((row + "\n").encode() for row, _ in pairs)
    answers = re.findall(r"^[0-9]+ 1 (.*)$", told.decode(), re.MULTILINE)
    answers += [None] * (len(pairs) - len(answers))
    return ["no rows"] * (not pairs) + [row for (row, wanted), answer in zip(pairs, answers) if answer != wanted]


def looked_at(programs):
    """All that is looked at: each as a line that says what is wrong where it is, and whether it is."""
    for path in documents():
        count, wrong = commands_that_differ(programs, path)
        yield from (("{}: prints something else: {}".format(path.relative_to(TOP), command), True) for command in wrong)
        yield from (("", False) for _ in range(count - len(wrong)))
        yield "{}: has the marks of a merge that isn't done".format(path.relative_to(TOP)), MERGE.search(path.read_text()) is not None
        yield from (("{}: leads nowhere: {}".format(path.relative_to(TOP), link), not leads) for link, leads in links_of(path))
    for row in rows_that_differ(programs, WEEK.read_text()):
        yield "{}: answered otherwise: {}".format(WEEK.relative_to(TOP), row), True
    for path in sorted((TOP / "examples").glob("*.txt")):
        for kind in [".out"] + [kind for kind in REPORTS if path.with_suffix(kind).exists()]:
            yield "{}: answered otherwise".format(path.with_suffix(kind).relative_to(TOP)), not is_answered(programs, path, kind)


def main(words):
    all_of_it = list(looked_at(programs_of(words)))
    wrong = [line for line, is_wrong in all_of_it if is_wrong]
    for line in wrong:
        print(line)
    print("{} passed, {} failed".format(len(all_of_it) - len(wrong), len(wrong)))
    sys.exit(0 if all_of_it and not wrong else 1)


if __name__ == "__main__":
    if len(sys.argv) != 3:
        sys.exit("usage: docs_check.py DOCKET CLERK_OFFICE")
    main(sys.argv[1:])
