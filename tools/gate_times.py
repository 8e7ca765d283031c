#!/usr/bin/env python3
"""Runs the gate, and says how many seconds each crate took of it.

    gate_times.py [--anew]

It runs `rt ci`, and prints what that prints. With --anew it takes nothing from earlier runs, which some kits keep.
`rt ci` prints no times, so this looks at its processes twice a second and adds up the processor time of each: what
proving a crate took, building it by two compilers, proving its tests, its must-fail edits, and the runs of its program
and tests. Processes that end within half a second may be missed. The table has the crates that took most first, and
comes before the last line of `rt ci`, 'N passed, M failed'. The status is that of `rt ci`. Where there is no /proc, as on
another system than Linux, there is no table.
By itself `rt ci` begins a crate only where some ten gigabytes are free for it, though few take more than three, so that
processors wait. Here RT_JOBS says how many crates it works on at a time: as many as there are processors, or as fit into the
memory that is free, unless it is set already. It needs Python 3.8 or later.
"""
import collections
import os
import pathlib
import subprocess
import sys
import threading
import time

TOP = pathlib.Path(__file__).resolve().parent.parent
KINDS = ("proof", "build", "tests", "edits", "runs")
SECONDS_BETWEEN_LOOKS = 0.5
PROCESSES = pathlib.Path("/proc/self/stat")
MEMORY, GIGABYTES_A_CRATE = pathlib.Path("/proc/meminfo"), 4
TICKS = os.sysconf("SC_CLK_TCK")


def read_process(folder):
    """A process's parent, its number with its start, its seconds, its words and its folder; None where it has ended."""
    try:
        fields = (folder / "stat").read_text().rpartition(")")[2].split()
        words = (folder / "cmdline").read_bytes().decode(errors="replace").split("\0")[:-1]
        place = os.readlink(str(folder / "cwd"))
    except (OSError, ValueError, IndexError):
        return None
    return int(fields[1]), (int(folder.name), fields[19]), (int(fields[11]) + int(fields[12])) / TICKS, words, place


def work_of(words, place):
    """The crate that a process works for and the kind of its work; None where its own words don't tell."""
    if "--crate-name" in words:
        crate = words[words.index("--crate-name") + 1]
        if os.path.basename(place).startswith("rt-edit"):
            return crate, "edits"
        if "--test" in words:
            return crate, "tests"
        return crate, "build" if "--crate-checked" in words else "proof"
    for word in words:
        if "/rt-run-" in word:
            name = os.path.basename(word)
            return name[:-len("_tests")] if name.endswith("_tests") else name, "runs"
    return None


class Times:
    """The processor seconds of each process that was seen, and what it worked for."""

    def __init__(self, root):
        self.root, self.seconds, self.works = root, {}, {}

    def look(self):
        """Takes in what each process below the root has used by now."""
        folders = [folder for folder in pathlib.Path("/proc").iterdir() if folder.name.isdigit()]
        found = {int(folder.name): read for folder in folders for read in [read_process(folder)] if read}
        for number, (_, key, seconds, _, _) in found.items():
            work = self.work_above(number, found)
            if work:
                self.seconds[key], self.works[key] = seconds, work

    def work_above(self, number, found):
        """What a process works for: what its words tell, or those of the nearest process above it."""
        told = None
        while number in found:
            if number == self.root:
                return told
            parent, _, _, words, place = found[number]
            told = told or work_of(words, place)
            number = parent
        return None

    def table(self):
        """The seconds of each crate by kind."""
        rows = collections.defaultdict(collections.Counter)
        for key, (crate, kind) in self.works.items():
            rows[crate][kind] += self.seconds[key]
        return rows


def print_table(rows, minutes):
    line = "{:<20}" + "{:>8}" * (len(KINDS) + 1)
    print(line.format("processor seconds", *KINDS, "all"))
    for crate in sorted(rows, key=lambda name: -sum(rows[name].values())):
        print(line.format(crate, *("{:.0f}".format(rows[crate][kind]) for kind in KINDS),
                          "{:.0f}".format(sum(rows[crate].values()))))
    sums = [sum(row[kind] for row in rows.values()) for kind in KINDS]
    print(line.format("all", *("{:.0f}".format(each) for each in sums), "{:.0f}".format(sum(sums))))
    print("{:.0f} processor minutes, in {:.0f} minutes".format(sum(sums) / 60, minutes))


def gate_words(is_anew):
    """`rt ci`, which in some kits keeps what it passed, and has a word to take nothing of that."""
    if not is_anew:
        return ["rt", "ci"]
    told = subprocess.run(["rt", "--help"], stdout=subprocess.PIPE, stderr=subprocess.STDOUT, check=False).stdout
    return ["rt", "ci", "--anew"] if b"--anew" in told else ["rt", "ci"]


def crates_at_a_time():
    """How many crates are worked on side by side."""
    processors = len(os.sched_getaffinity(0)) if hasattr(os, "sched_getaffinity") else os.cpu_count() or 1
    lines = MEMORY.read_text().splitlines() if MEMORY.exists() else []
    free = next((int(line.split()[1]) for line in lines if line.startswith("MemAvailable:")), None)
    return processors if free is None else max(1, min(processors, free // (GIGABYTES_A_CRATE << 20)))


class Passed(threading.Thread):
    """Passes on the lines of the gate as they come, each once the next is there; so the last is left to be printed."""

    def __init__(self, lines):
        super().__init__(daemon=True)
        self.lines, self.last = lines, b""

    def run(self):
        for line in self.lines:
            self.pass_on()
            self.last = line

    def pass_on(self):
        sys.stdout.buffer.write(self.last)
        sys.stdout.flush()


def main(words):
    if words not in ([], ["--anew"]):
        sys.exit("usage: gate_times.py [--anew]")
    began = time.monotonic()
    places = {"RT_JOBS": str(crates_at_a_time()), **os.environ}
    gate = subprocess.Popen(gate_words(bool(words)), cwd=str(TOP), stdout=subprocess.PIPE, env=places)
    times, passed = Times(gate.pid), Passed(gate.stdout)
    passed.start()
    try:
        while gate.poll() is None:
            if PROCESSES.exists():
                times.look()
            time.sleep(SECONDS_BETWEEN_LOOKS)
    except KeyboardInterrupt:
        gate.wait()
    passed.join()
    rows = times.table()
    if rows:
        print_table(rows, (time.monotonic() - began) / 60)
    sys.stdout.flush()
    passed.pass_on()
    sys.exit(gate.returncode)


if __name__ == "__main__":
    main(sys.argv[1:])
