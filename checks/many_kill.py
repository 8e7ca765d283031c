#!/usr/bin/env python3
"""Kills programs that enter rows into one folder at the same time, and lets their calls of the system fail.

    many_kill.py DOCKET CLERK_OFFICE [SEED [COUNT]]

COUNT times (2,000 without it), with rows drawn from SEED, two to six programs enter rows, most of them are ended at random moments,
by SIGKILL or SIGTERM, and beside them rows are struck and restored and the court is given another file, which is killed too. After
each round the journal must have the rows of each program, in their order and as far as it came, with the answers that it wrote;
`docket check` must pass; and the next round goes on with the folder. After some rounds a replay in Python decides all rows again.
Then each call of the system by which a program takes the lock, opens a file, reads, writes or syncs fails in turn in one of four
programs, and each ends it (this needs strace): the others go on, and nothing that was answered is lost. At last 990,000 rows are
entered (495 times COUNT) beside a program that waits for its clerk: it needs no more memory than before. It needs Linux and Python
3.8 or later.
"""
import itertools
import pathlib
import random
import shutil
import signal
import sys
import tempfile
import time
from collections import Counter

from lib.desk import Desk, SHORT_COURT
from lib.journal import corrections_in, rows_of
from lib.programs import programs_of, seed_and_count
from lib.sessions import (Correction, ENDED, ROW, Session, TO_THE_END, bursts_of_rows, explained, of_clerk, replayed, sound, whole,
                          with_faults)
from strike_check import drawn_row, opened

# How many rounds go on with one folder.
ROUNDS = 10
# The calls of the system that fail, each with an error.
CALLS = (("flock", "ENOLCK"), ("openat", "EMFILE"), ("pread64", "EIO"), ("pwrite64", "ENOSPC"), ("fdatasync", "EIO"))
# How many rows each of the four programs has whose calls fail, and by which of them that is.
FEW, FAILING = 3, 4
# Rows that are entered beside a program that waits, for each round of the long check, in so many calls; and how much more memory it
# may have at the end, in kilobytes.
BESIDE, PORTIONS, GROWTH = 495, 10, 500


# Programs that are killed


def killed_sessions(desk, draw):
    """Sessions, some of which are ended, while the docket is corrected: all, once each has ended, and what came of the corrections."""
    count, corrections = len(rows_of(desk.read())), []
    sessions = [Session(desk, clerk) for clerk in draw.sample(range(1, 65), draw.choice([2, 3, 4, 6]))]
    for session in sessions:
        rows = with_faults(draw, session.clerk, of_clerk(session.clerk, opened(draw) + [drawn_row(draw) for _ in range(draw.choice([3, 10, 40, 150]))]))
        slow = draw.choice([0, 0, 0.01])
        session.start(bursts_of_rows(draw, rows), iter(lambda slow=slow: draw.random() * slow, None), draw.random() < 0.5)
        if draw.random() < 0.6:
            session.end_after(draw.randint(0, len(rows)), draw.random() * draw.choice([0.002, 0.01]), draw.choice([signal.SIGKILL] * 4 + [signal.SIGTERM]))
    if count and draw.random() < 0.5:
        corrections.append(Correction(desk, draw, count))
        if draw.random() < 0.3:
            time.sleep(draw.random() * 0.05)
            corrections[0].process.kill()
    for session in sessions:
        assert session.end() in (*TO_THE_END, *ENDED), (session.process.returncode, session.errors)
    return sessions, [correction.end() for correction in corrections]


def check_round(desk, draw, counts):
    """A round: what was answered is kept, and the folder is sound."""
    before, tail = desk.read(), desk.tail()
    sessions, corrections = killed_sessions(desk, draw)
    journal = desk.read()
    sound(desk, len(rows_of(journal)))
    assert journal.entries[:len(before.entries)] == before.entries, "entries of earlier rounds were changed"
    kept, unanswered = explained(sessions, rows_of(journal), len(rows_of(before)))
    made = len(corrections_in(journal)) - len(corrections_in(before))
    assert corrections.count(True) <= made <= corrections.count(True) + corrections.count(None), (corrections, made)
    assert not (tail and kept) or tail in desk.cut().values(), "what was cut off wasn't saved"
    counts.update({"kept": kept, "unanswered": unanswered, "corrections": made,
                   "killed": sum(session.process.returncode < 0 for session in sessions), "sessions": len(sessions)})


def killed(programs, draw, count):
    """Rounds, of which some go on with the same folder."""
    counts = Counter()
    for first in range(0, count, ROUNDS):
        with tempfile.TemporaryDirectory() as parent:
            desk = Desk(programs, parent, SHORT_COURT)
            for _ in range(min(ROUNDS, count - first)):
                check_round(desk, draw, counts)
            ended = desk.call("enter")
            assert ended.status == 0 and not list(desk.folder.glob("entering*")), ended
            assert replayed(desk.read()).count == len(rows_of(desk.read()))
    return "{} rounds, {} sessions, {} of them killed, with {} corrections: {} rows kept, {} of them not answered any more, none lost that was".format(
        count, *(counts[what] for what in ("sessions", "killed", "corrections", "kept", "unanswered")))


# Calls of the system that fail


def under(call, *more, told="/dev/null"):
    """The words before a program's under which strace tells of these calls, or does more with them."""
    return ["strace", "-f", "-qq", "-o", str(told), "-e", "trace=" + call, *more]


def calls_of(desk, call):
    """How many of these calls a session makes that enters a few rows."""
    told = desk.folder.parent / "told"
    session = Session(desk, FAILING, under=under(call, told=told))
    session.start([[ROW % FAILING]] * FEW, itertools.repeat(0), waits=True)
    whole([session])
    return told.read_text().count(call + "(")


def check_failing_call(desk, call, how, when):
    """One call fails in one of four sessions, or ends it: whether it ended early."""
    before = len(rows_of(desk.read()))
    words = under(call, "-e", "inject={}:{}:when={}".format(call, how, when))
    sessions = [Session(desk, clerk, under=words if clerk == FAILING else ()) for clerk in range(1, FAILING + 1)]
    for session in sessions:
        session.start([[ROW % session.clerk]] * FEW, itertools.repeat(0), waits=True)
    whole(sessions[:FAILING - 1])
    status = sessions[FAILING - 1].end()
    kept, _ = explained(sessions, rows_of(desk.read()), before)
    sound(desk, before + kept)
    return status not in TO_THE_END


def failing(programs, draw, most):
    """Calls of the system fail in one of four programs: each of its calls, or so many of each kind."""
    if shutil.which("strace") is None:
        return "calls of the system that fail: NOT CHECKED, since there is no strace"
    told = []
    for call, error in CALLS:
        with tempfile.TemporaryDirectory() as parent:
            desk = Desk(programs, parent, SHORT_COURT)
            places = range(1, calls_of(desk, call) + 1)
            assert places, ("no such call is made", call)
            chosen = draw.sample(places, min(len(places), most))
            early = sum(check_failing_call(desk, call, how, when) for when in chosen for how in ("error=" + error, "signal=SIGKILL"))
            told.append("{} of {} {} ({} times it ended early)".format(len(chosen), len(places), call, early))
    return "calls that fail or kill in one of four programs, while the others go on: {}".format(", ".join(told))


# Memory


def memory_of(session):
    """How much memory a session has, in kilobytes."""
    return int(pathlib.Path("/proc/{}/status".format(session.process.pid)).read_text().split("VmRSS:")[1].split()[0])


def idle_memory(programs, count):
    """Beside a session that waits for its clerk another enters rows; one more session enters a row after each portion."""
    with tempfile.TemporaryDirectory() as parent:
        desk = Desk(programs, parent, SHORT_COURT)
        idle, woken = Session(desk, 1), Session(desk, 2)
        for session in (idle, woken):
            session.ask(ROW % session.clerk)
        first, grown = memory_of(idle), []
        for _ in range(PORTIONS):
            ended = desk.call("enter", given=ROW % 3 * (count // PORTIONS))
            assert ended.status == 0, ended
            assert memory_of(idle) < first + GROWTH, (first, memory_of(idle))
            woken.ask(ROW % 2)
            grown.append(memory_of(woken))
        idle.ask(ROW % 1)
        for session in (idle, woken):
            session.close()
        whole([idle, woken])
        assert idle.answered == 2 and woken.answered == PORTIONS + 1
    return "beside {:,} rows a session that waits has {:,} kB; one that enters a row after each tenth has {} kB".format(
        count // PORTIONS * PORTIONS, first, ", ".join(map("{:,}".format, grown)))


def main(words):
    programs, (seed, count) = programs_of(words[:2]), seed_and_count(words[2:], 2000)
    draw = random.Random(seed)
    for check in (lambda: killed(programs, draw, count), lambda: failing(programs, draw, count), lambda: idle_memory(programs, BESIDE * count)):
        print(check(), flush=True)


if __name__ == "__main__":
    if not 3 <= len(sys.argv) <= 5:
        sys.exit("usage: many_kill.py DOCKET CLERK_OFFICE [SEED [COUNT]]")
    main(sys.argv[1:])
