"""The runs of the reports and of the desk that are stored in runs/calendar: their inputs and words, and what they must write.

Each line of runs/calendar/words is a run: its name, its input, which is INPUT.in or is made from INPUT.made, and the words
of the command line. The word `desk` alone is a run of a desk: the rows of an input that is made are entered there, and any other
input is calls of a desk, one after another. NAME.out is what a run writes, and NAME.sum what is kept of that where the input is
made.
"""
import pathlib
from collections import namedtuple

from lib.runs_made import made_of

FOLDER = pathlib.Path(__file__).resolve().parent.parent.parent / "runs" / "calendar"

# A run: its name, its input, whether that is made from lines, the text in which it is stored, and the words.
StoredRun = namedtuple("StoredRun", "name input is_made stored words")


def runs():
    """All runs, in the order of their names."""
    found = []
    for line in sorted((FOLDER / "words").read_text().splitlines()):
        name, of, *words = line.split(" ")
        path, is_made = FOLDER / (of + ".in"), False
        if not path.exists():
            path, is_made = FOLDER / (of + ".made"), True
        found.append(StoredRun(name, of, is_made, path.read_bytes(), words))
    return found


def is_of_desk(run):
    """Whether it is a run of a desk."""
    return run.words == ["desk"]


def calls_of(run):
    """The words and the input of each call of a desk, which begins with `$ ` as at a shell."""
    for call in run.stored.split(b"$ ")[1:]:
        line, given = call.split(b"\n", 1)
        yield line.decode().split(" "), given


def title_of(run):
    """The name of a run in the merge gate, with the words."""
    return ["desk/" + run.name] if is_of_desk(run) else ["calendar/" + run.name, *run.words]


def data_of(run):
    """The bytes of a run's input."""
    return made_of(run.stored) if run.is_made else run.stored


def wanted_of(run):
    """Where what the run must write is stored."""
    return FOLDER / (run.name + (".sum" if run.is_made else ".out"))
