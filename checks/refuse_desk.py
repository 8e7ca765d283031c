#!/usr/bin/env python3
"""Runs the desk with each growth of its memory refused in turn.

    refuse_desk.py DOCKET [STORED_DESK INPUT]

DOCKET opens a folder, enters rows, one after another and together, tries some, asks, reports, writes the rows out, and takes
another court's file, each again and again until a run ends without a refusal. A run in which a growth is refused must end with
status 5 and `out of memory` on standard error, or could do without that growth. What it wrote before is a beginning of what
it writes with ample memory to each of the two, the rows that it answered are kept, and the journal has all that it was to get or nothing of
it. Where it is named, STORED_DESK fills the journals of INPUT with a growth refused, for growths at random: all is as it
must be, or it ends with status 1 and says that there was no memory. The status is 0 where all of that is so. It needs
Linux, Python 3.8 or later and a C compiler, `cc` or the one that CC names.
"""
import pathlib
import random
import shutil
import subprocess
import sys
import tempfile

from lib.desk import Desk, KEEP_REFUSED, SHORT_COURT, TOGETHER
from lib.journal import read_journal
from lib.programs import programs_of
from lib.refusals import PROGRAM_ENDED, lacking, library_that_refuses, run, swept

REFUSED, NO_MEMORY = 5, b"out of memory\n"
# How a call ends whose rows are kept, and whose answers the system can't write for want of memory.
UNWRITTEN = (4, b"the answers can't be written; the rows that were read are kept, and 'rows' shows them\n")
ENDED, DONE_WITHOUT = "ended the run", "the run could do without"
ROWS = b"1,open,1,2025-03-03\n1,start,1,59e,2025-03-03,,,\n1,sheet,1\n1,nothing\n2,compute,59b,2025-08-04,,,\n"
OTHER_COURT = SHORT_COURT.replace(b'"2025-03-28"', b'"2025-03-28", "2025-03-31"')
REPORTS = (["due"], ["week", "--judge", "Ames", "--of", "2025-03-03"], ["page"], ["ics", "--stamp", "20250901T120000Z"], ["json"], ["sql"],
           *[["pending", "--on", "2025-03-03", *form] for form in ([], ["--page"], ["--csv"])],
           ["memo"], ["memo", "--case", "1", "--today", "2025-03-10"])
# How many growths are refused to the driver, and of how many the first it is.
DRIVER_RUNS, DRIVER_GROWTHS = 300, 200_000
# How the driver ends where it has no memory.
DRIVER_ENDED = PROGRAM_ENDED + [(1, b"", b"Error: " + text + b"\n") for text in (
    b"the journal can't be written", b"the journal can't be made durable", b"the journal can't be read")]


class Task:
    """A call of the desk on a folder that is the same before each run."""

    def __init__(self, desk, words, given):
        self.desk, self.words, self.given = desk, words, given
        self.before = {path.name: path.read_bytes() for path in desk.folder.iterdir()} if desk.folder.exists() else None

    def restore(self):
        """Makes the folder what it was."""
        shutil.rmtree(self.desk.folder, ignore_errors=True)
        if self.before is not None:
            self.desk.folder.mkdir()
            for name, data in self.before.items():
                (self.desk.folder / name).write_bytes(data)

    def entries(self):
        """The entries of the folder's journal."""
        return read_journal(self.desk.journal.read_bytes()).entries if self.desk.journal.exists() else []

    def sweep(self, library):
        """Whether each run ended as it must where a growth was refused."""
        self.restore()
        first = self.entries()
        whole = self.desk.call(*self.words, given=self.given)
        wanted, last = (whole.status, whole.output, whole.errors), self.entries()
        self.restore()

        def who_was_refused(ended):
            status, output, errors = ended
            entries = self.entries()
            self.restore()
            if ended == wanted and entries == last:
                return DONE_WITHOUT
            if (status, errors) == UNWRITTEN and entries == last and whole.output.startswith(output):
                return ENDED
            if status != REFUSED or not errors.endswith(NO_MEMORY) or not whole.errors.startswith(errors[:-len(NO_MEMORY)]) or \
                    not whole.output.startswith(output) or entries not in (first, last):
                return None
            return None if output and entries != last and self.words[0] == "enter" else ENDED

        counts = swept(library, self.words[0], self.desk.words(*self.words), self.given, who_was_refused,
                       lambda ended: ended == wanted)
        return counts is not None and not lacking(self.words[0], counts, [ENDED])


def refuse_tasks(programs, library):
    """Whether each task of the desk ends as it must."""
    with tempfile.TemporaryDirectory() as parent:
        other = pathlib.Path(parent, "other.toml")
        other.write_bytes(OTHER_COURT)
        desk = Desk(programs, parent, SHORT_COURT)
        ended = [Task(desk, ["enter"], ROWS).sweep(library)]
        desk.enter(ROWS.splitlines(True))
        sound = ROWS.replace(b"1,nothing\n", b"")
        for words, given in ((["enter"], ROWS), (["enter", TOGETHER], ROWS), (["enter", TOGETHER], sound),
                             (["enter", TOGETHER, KEEP_REFUSED], sound), (["try"], ROWS),
                             (["ask"], ROWS), *((words, b"") for words in REPORTS), (["rows"], b""), (["check"], b""),
                             (["court change", other], b""), (["court change", other, "--accept"], b"")):
            ended.append(Task(desk, words, given).sweep(library))
        shutil.rmtree(desk.folder)
        ended.append(Task(desk, ["init", "--court", pathlib.Path(parent, "court.toml")], b"").sweep(library))
    return all(ended)


def refuse_driver(program, path, library):
    """Whether the driver's runs end as they must."""
    text, draw, counts = path.read_bytes(), random.Random(1), {ENDED: 0, DONE_WITHOUT: 0}
    whole = subprocess.run([program], input=text, stdout=subprocess.PIPE, check=True).stdout
    journals = whole.count(b"all as it must be\n")
    for _ in range(DRIVER_RUNS):
        number = draw.randint(1, DRIVER_GROWTHS)
        refused, ended = run(library, [program], text, number, "growth")
        if not refused and ended == (0, whole, b""):
            continue
        if ended in DRIVER_ENDED:
            counts[ENDED] += 1
        elif ended[0] == 0 and not ended[2] and ended[1].count(b"all as it must be\n") == journals:
            counts[DONE_WITHOUT] += 1
        else:
            print("{}: with growth {} refused it ended so: {}".format(path, number, ended))
            return False
    return not lacking(path, counts, [])


def main(words):
    programs = programs_of(words[:1])
    with library_that_refuses() as library:
        ended = [refuse_tasks(programs, library)]
        if len(words) == 3:
            ended.append(refuse_driver(pathlib.Path(words[1]).resolve(), pathlib.Path(words[2]), library))
    sys.exit(0 if all(ended) else 1)


if __name__ == "__main__":
    if len(sys.argv) not in (2, 4):
        sys.exit("usage: refuse_desk.py DOCKET [STORED_DESK INPUT]")
    main(sys.argv[1:])
