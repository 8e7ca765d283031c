"""The two programs that the checks call, where they stand once they are built, and how they are called."""
import pathlib
import subprocess
from typing import NamedTuple

TOP = pathlib.Path(__file__).resolve().parent.parent.parent
CHECKS = TOP / "checks"


def built(crate):
    """Where a program is once it is built, seen from the top of the repository."""
    return "crates/{0}/out/{0}".format(crate)


class Ended(NamedTuple):
    """How a program ended: its status, and what it wrote."""
    status: int
    output: bytes
    errors: bytes

    def texts(self):
        """The same, with what it wrote as texts."""
        return self.status, self.output.decode(), self.errors.decode()


def run(words, given=b"", **how):
    """Runs a program with these words and that input."""
    ended = subprocess.run([str(word) for word in words], input=given, stdout=subprocess.PIPE, stderr=subprocess.PIPE,
                           check=False, **how)
    return Ended(ended.returncode, ended.stdout, ended.stderr)


class Programs(NamedTuple):
    """The built programs. Not each check needs the second, and it may have a stand-in that answers as that does."""
    docket: pathlib.Path
    clerk_office: pathlib.Path = None

    def office(self, text, *words):
        """What clerk_office says of an input."""
        return run([self.clerk_office, *words], text)

    def report(self, words, text):
        """What docket says of an input: the name of the report comes first."""
        name, *others = words
        return run([self.docket, name, "--input", "-", *others], text)


def programs_of(words):
    return Programs(*[pathlib.Path(word).resolve() for word in words])


def seed_and_count(words, count):
    """The seed and the count of a check that draws at random: those with which its command line ends, else 1 and this count."""
    numbers = [int(word) for word in words]
    return (numbers + [1, count][len(numbers):])[:2]
