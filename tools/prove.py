#!/usr/bin/env python3
"""Proves and builds programs, with the libraries below them.

    prove.py [--jobs N] PROGRAM..

`rt run` proves a program and the libraries below it one after the other, and says nothing of how far it is. Here each
crate is proved by itself, those first that most other work waits for, with as many jobs as there are processors, but no
more than memory allows. Crates that have no crate below them in common are proved side by side; `rt` works on no two
others at the same time. What is proved is kept in the crates' out/ folders. out/proved.json notes from which sources and
with which toolchain, and of a program which file was built; while that is the same, `rt` isn't asked. out/verdicts.json has what
`rt` said of each crate when it proved it.
Once a program is linked, `rt run` runs it: here with no words and no input, and what the run answers is passed over. What
counts is that `rt` said that the program is proved, and that it linked it. Where a crate isn't proved, the end of what
`rt` printed is shown, and no other is begun. On Ctrl-C all stops, and what was proved is kept. A run of more than a
minute ends with a table of the seconds of each crate. The status is 0 where all is proved and built. It needs Python
3.8 or later.
"""
import argparse
import hashlib
import json
import os
import pathlib
import signal
import subprocess
import sys
import time

from crates import TOP, is_program, needed_by, sources_of, uses_of_all

LOGS = TOP / "out" / "prove"
NOTES, VERDICTS = TOP / "out" / "proved.json", TOP / "out" / "verdicts.json"
# How much memory the first proof of a large crate takes with one job, and how many jobs one crate makes use of.
GIGABYTES_A_JOB = 3
MOST_JOBS = 4
# How many lines of a failed crate are shown, and how often a line says what is still being proved. A crate that takes
# a few seconds was proved before, and gets no line.
LAST_LINES = 25
SECONDS_BETWEEN_LINES = 60
FEW_SECONDS = 5


def jobs_that_fit():
    """As many jobs as there are processors, or as fit into the memory that is free."""
    processors = len(os.sched_getaffinity(0)) if hasattr(os, "sched_getaffinity") else os.cpu_count() or 1
    try:
        lines = pathlib.Path("/proc/meminfo").read_text().splitlines()
    except OSError:
        return processors
    free = next((int(line.split()[1]) for line in lines if line.startswith("MemAvailable:")), None)
    return processors if free is None else max(1, min(processors, free // (GIGABYTES_A_JOB * 1024 * 1024)))


def prints_of(crates, uses):
    """For each crate a number that changes where a source of it or of a crate below changes, or the toolchain."""
    version = subprocess.run(["rt", "version"], stdout=subprocess.PIPE, check=True).stdout
    made = {}

    def print_of(crate):
        if crate not in made:
            text = hashlib.sha256(version)
            for path in sources_of(crate):
                text.update(str(path.relative_to(TOP)).encode() + b"\0" + path.read_bytes() + b"\0")
            for below in sorted(uses[crate]):
                text.update(print_of(below).encode())
            made[crate] = text.hexdigest()
        return made[crate]

    return {crate: print_of(crate) for crate in crates}


def program_of(crate):
    """Where a program is once it is linked."""
    return TOP / "crates" / crate / "out" / crate


def mark_of(crate, prints):
    """What is noted of a crate that is proved: the number of its sources, and of a program that of the linked file as well.
    None where what was built isn't there."""
    if not is_program(crate):
        library = TOP / "crates" / crate / "out" / "rlib" / (crate + ".rlib")
        return prints[crate] if library.exists() else None
    program = program_of(crate)
    return prints[crate] + " " + hashlib.sha256(program.read_bytes()).hexdigest() if program.exists() else None


def noted(notes=NOTES):
    """What earlier runs noted of crates."""
    return json.loads(notes.read_text()) if notes.exists() else {}


def add_to(notes, more):
    """Notes something of crates, for the next time. What an earlier run noted of other crates stays noted."""
    notes.write_text(json.dumps({**noted(notes), **more}, indent=1, sort_keys=True) + "\n")


def weights_of(crates, uses):
    """How much waits for each crate: its own lines, and those of the longest chain of crates above it."""
    lines = {crate: sum(path.read_bytes().count(b"\n") for path in sources_of(crate)) for crate in crates}
    made = {}

    def weight_of(crate):
        if crate not in made:
            above = [other for other in crates if crate in uses[other]]
            made[crate] = lines[crate] + max(map(weight_of, above), default=0)
        return made[crate]

    return {crate: weight_of(crate) for crate in crates}


class Run:
    """One crate that is being proved."""

    def __init__(self, crate, jobs):
        self.crate, self.jobs, self.began = crate, jobs, time.monotonic()
        self.log = LOGS / (crate + ".log")
        # A program that is there afterwards was linked by this run.
        if is_program(crate) and program_of(crate).exists():
            program_of(crate).unlink()
        with open(self.log, "wb") as log:
            words = ["rt", "run" if is_program(crate) else "lib", "--jobs", str(jobs)]
            self.process = subprocess.Popen(words, cwd=str(TOP / "crates" / crate), stdin=subprocess.DEVNULL, stdout=log,
                                            stderr=subprocess.STDOUT, start_new_session=True)

    def is_well(self):
        """Whether rt has proved the crate, and linked it if it is a program. Then the status is the program's own."""
        if not is_program(self.crate):
            return self.process.returncode == 0
        return self.verdict().startswith("logic=proved ") and program_of(self.crate).exists()

    def verdict(self):
        """What rt said of the crate; an empty text where it was proved before, and rt says nothing."""
        return ([""] + [line for line in self.lines() if line.startswith("logic=")])[-1]

    def lines(self):
        """All that rt printed."""
        return self.log.read_text(errors="replace").splitlines()

    def seconds(self):
        return time.monotonic() - self.began

    def stop(self):
        """Ends rt and all that it started."""
        for number in (signal.SIGTERM, signal.SIGKILL):
            try:
                os.killpg(self.process.pid, number)
                self.process.wait(timeout=5)
            except (ProcessLookupError, subprocess.TimeoutExpired):
                continue


class Prover:
    """The crates that are wanted: those that wait, those that are being proved, and those that are."""

    def __init__(self, wanted, jobs):
        self.uses = uses_of_all()
        self.prints = prints_of(needed_by(wanted, self.uses), self.uses)
        notes = noted()
        self.done = {crate for crate in self.prints if notes.get(crate, "") == mark_of(crate, self.prints)}
        needed = needed_by(set(wanted) - self.done, self.uses)
        self.weights = weights_of(needed, self.uses)
        self.below = {crate: needed_by([crate], self.uses) for crate in needed}
        self.waiting = needed - self.done
        self.all = len(self.waiting)
        self.jobs, self.running, self.times, self.failed = jobs, [], {}, []

    def begin(self):
        """Begins crates whose libraries are proved, as long as there are jobs: no two that use the same crate, since `rt`
        would let one of them wait."""
        ready = [crate for crate in self.waiting if self.done.issuperset(self.uses[crate])]
        taken = set().union(*(self.below[run.crate] for run in self.running))
        apart = []
        for crate in sorted(ready, key=self.weights.get, reverse=True):
            if taken.isdisjoint(self.below[crate]):
                taken |= self.below[crate]
                apart.append(crate)
        for place, crate in enumerate(apart):
            free = self.jobs - sum(run.jobs for run in self.running)
            if free <= 0:
                return
            others = len(apart) - place - 1
            self.waiting.discard(crate)
            self.running.append(Run(crate, max(1, min(free - others, MOST_JOBS))))

    def end(self, run):
        self.running.remove(run)
        seconds = run.seconds()
        if not run.is_well():
            self.failed.append(run.crate)
            self.waiting.clear()
            print("{} is not proved. All that was printed is in {}; its last lines:".format(
                run.crate, run.log.relative_to(TOP)))
            print("\n".join("    " + line for line in run.lines()[-LAST_LINES:]), flush=True)
            return
        self.done.add(run.crate)
        self.times[run.crate] = seconds
        add_to(NOTES, {crate: mark_of(crate, self.prints) for crate in self.done})
        if run.verdict():
            add_to(VERDICTS, {run.crate: [self.prints[run.crate], run.verdict()]})
        if seconds >= FEW_SECONDS:
            print("{:>3} of {}  {:<20}{:>5.0f} s".format(len(self.times), self.all, run.crate, seconds), flush=True)

    def tell(self):
        print("still proving: " + ", ".join(
            "{} ({:.0f} s)".format(run.crate, run.seconds()) for run in self.running), flush=True)

    def prove(self):
        told = time.monotonic()
        self.begin()
        while self.running:
            time.sleep(0.2)
            for run in [run for run in self.running if run.process.poll() is not None]:
                self.end(run)
                told = time.monotonic()
            if time.monotonic() - told >= SECONDS_BETWEEN_LINES:
                self.tell()
                told = time.monotonic()
            self.begin()

    def stop(self):
        for run in self.running:
            run.stop()


def table(times, seconds):
    """The seconds of each crate, the longest first."""
    for crate in sorted(times, key=times.get, reverse=True):
        print("{:>6.0f} s  {}".format(times[crate], crate))
    print("{:>6.0f} s  all {}, side by side; {:.0f} s one after the other".format(
        seconds, len(times), sum(times.values())))


def interrupted(_number, _frame):
    raise KeyboardInterrupt


def main():
    reader = argparse.ArgumentParser(description="Proves and builds programs, several crates at a time.")
    reader.add_argument("--jobs", type=int, default=0, help="how many processors to use")
    reader.add_argument("programs", nargs="+", metavar="PROGRAM")
    given = reader.parse_args()
    unknown = [name for name in given.programs if name not in uses_of_all()]
    if unknown:
        sys.exit("crates.txt has no crate " + unknown[0])
    LOGS.mkdir(parents=True, exist_ok=True)
    began = time.monotonic()
    prover = Prover(given.programs, given.jobs or jobs_that_fit())
    signal.signal(signal.SIGTERM, interrupted)
    if prover.waiting:
        print("proving {} crates, {} jobs at a time".format(prover.all, prover.jobs), flush=True)
    try:
        prover.prove()
    except KeyboardInterrupt:
        prover.stop()
        sys.exit("\nstopped; the next run goes on with what is proved")
    if prover.failed:
        sys.exit(1)
    seconds = time.monotonic() - began
    if seconds >= SECONDS_BETWEEN_LINES:
        table(prover.times, seconds)


if __name__ == "__main__":
    main()
