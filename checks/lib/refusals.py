"""Runs a program with each growth of its memory, or each of its threads, refused in turn.

It needs Linux and a C compiler, `cc` or the one that CC names.
"""
import collections
import contextlib
import itertools
import os
import pathlib
import subprocess
import tempfile

SOURCE = pathlib.Path(__file__).with_name("refuse_memory.c")

# How the programs that are built for checks end where they lack memory for their input or for the text that they write.
# They end with status 1 and write nothing to standard output.
PROGRAM_ENDED = [(1, b"", b"Error: " + text + b"\n")
                 for text in (b"out of memory", b"11 OutOfMemory", b"no memory is left", b"memory allocation failed")]


@contextlib.contextmanager
def library_that_refuses():
    """The library that refuses, built for as long as it is used."""
    with tempfile.TemporaryDirectory() as folder:
        library = pathlib.Path(folder) / "refuse_memory.so"
        compiler = os.environ.get("CC", "cc")
        subprocess.run([compiler, "-shared", "-fPIC", "-O1", "-o", str(library), str(SOURCE), "-ldl"], check=True)
        yield library


def run(library, command, text, number, kind):
    """Whether that growth, or thread, was refused, and a run's status and what it wrote to its two outputs."""
    mark = library.with_name("refused")
    with contextlib.suppress(FileNotFoundError):
        mark.unlink()
    surroundings = dict(os.environ, LD_PRELOAD=str(library), REFUSED=str(mark))
    surroundings["REFUSE_" + kind.upper()] = str(number)
    ran = subprocess.run(command, input=text, stdout=subprocess.PIPE, stderr=subprocess.PIPE, env=surroundings, check=False)
    return mark.exists(), (ran.returncode, ran.stdout, ran.stderr)


def swept(library, name, command, text, who_was_refused, is_whole, kind="growth"):
    """Refuses the first growth or thread, then the second, and so on, until a run ends without a refusal.

    Where one was refused, `who_was_refused` says of how the run ended who it was, or None where it must not end so. A
    run without a refusal must be one that `is_whole` accepts. The result counts who was refused; it is None where a run
    didn't end as it must, which is printed.
    """
    counts = collections.Counter()
    for number in itertools.count(1):
        refused, ended = run(library, command, text, number, kind)
        who = who_was_refused(ended) if refused else None
        if not refused and is_whole(ended):
            return counts
        if who is None:
            print("{}: with {} {} refused it ended so: {}".format(name, kind, number, ended))
            return None
        counts[who] += 1


def lacking(name, counts, wanted, kind="growth"):
    """Prints who was refused and how often, and who of those wanted never was; those who never were."""
    told = ", ".join("{} {}".format(count, who) for who, count in sorted(counts.items()))
    print("{}: {} {}s refused, one in each run: {}".format(name, sum(counts.values()), kind, told or "none"), flush=True)
    missing = [who for who in wanted if who not in counts]
    if missing:
        print("{}: it never came up: {}".format(name, ", ".join(missing)))
    return missing
