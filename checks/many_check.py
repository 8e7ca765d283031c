#!/usr/bin/env python3
"""Enters rows into one folder by several programs at the same time, and looks whether each row was decided on all before it.

    many_check.py DOCKET CLERK_OFFICE [SEED [COUNT]]

2, 4, 10 and 64 programs enter rows drawn from SEED that get in one another's way, and rows that don't, each row after the answer
to the one before, or many at once. The journal must have the rows of each program in their order with the answers that it got, each
once, under numbers that only grow; and it must be what a replay in Python and clerk_office answer to its rows, one after another.
The lock is held by another process, a program waits for rows and another isn't read; rows that are kept together stay neighbours;
each program says what becomes of its rows when others correct the docket, and the next which one was cut off; and accounts of a group
share a folder. Then COUNT times (30 without it) programs are killed, and calls fail in one of four, as many_kill.py does it. It needs
Linux, root for the accounts, strace for calls that fail or take long, and Python 3.8 or later.
"""
import fcntl
import itertools
import os
import random
import shutil
import signal
import subprocess
import sys
import tempfile
import time

from lib.desk import CUT_OFF, Desk, KEEP_REFUSED, SHORT_COURT, TOGETHER
from lib.journal import rows_of
from lib.programs import programs_of, seed_and_count
from lib.races_inputs import about_days, apart, court_text, for_slots, in_cases
from lib.sessions import (Correction, OPEN, ROW, Session, WHY, bursts_of_rows, by_one_clerk, explained, of_clerk, replayed, sound, turns, whole,
                          with_faults)
from many_kill import failing, killed, under
from strike_check import drawn_row, opened

# The status with which a call ends that waits too long for others.
LOCKED = 11
# Rows by what they have to do with those of others, with the court: which is the most that clerks can get in one another's way.
LOADS = (("one judge", court_text(1, 2), for_slots), ("shared cases", court_text(1, 1), in_cases),
         ("holidays and hearings", court_text(1, 1), about_days), ("nothing shared", court_text(32, 32), apart))
# How many programs there are, and how many rows each has.
SIZES = ((2, 60), (4, 30), (10, 20), (64, 8))
# How many rows have more answers than a pipe holds, and in how many seconds the busiest machine has done one thing.
MANY, LONG = 10_000, 60
# With what words rows are kept together, in as many lists as there are.
KEPT_TOGETHER = [(TOGETHER, KEEP_REFUSED), ("--as-written",), (TOGETHER, "--warn", KEEP_REFUSED)] * 6


# Loads


def check_load(programs, draw, load, count, each):
    """A load of so many programs: how many rows were kept, and how often the next was another program's."""
    name, court, made = load
    with tempfile.TemporaryDirectory() as parent:
        desk = Desk(programs, parent, court.encode())
        sessions = [Session(desk, clerk) for clerk in range(1, count + 1)]
        for session, rows in zip(sessions, made(draw, count, each)):
            given = with_faults(draw, session.clerk, of_clerk(session.clerk, rows))
            if draw.random() < 0.5:
                session.start([[row] for row in given], itertools.repeat(0), waits=True)
            else:
                session.start(bursts_of_rows(draw, given), iter(lambda: draw.random() / 100, None))
        whole(sessions)
        journal = desk.read()
        kept = rows_of(journal)
        assert explained(sessions, kept, 0) == (len(kept), 0), name
        assert replayed(journal).count == len(kept)
        by_one_clerk(desk)
        sound(desk, len(kept))
        return len(kept), turns(kept, 0)


def check_loads(programs, draw):
    """Each load, by each number of programs."""
    told = []
    for count, each in SIZES:
        rows, met = zip(*(check_load(programs, draw, load, count, each) for load in LOADS))
        assert sum(met) > 4 * count, ("the programs didn't meet", count, met)
        told.append("{} with {} rows, {} by turns".format(count, sum(rows), sum(met)))
    return "programs that enter rows at the same time: {}; each row was decided on all before it".format(", ".join(told))


# Waiting


def held(desk):
    """The folder's lock, held by this process."""
    lock = open(desk.folder / "lock", "a")
    fcntl.flock(lock, fcntl.LOCK_EX)
    return lock


def check_waits(programs):
    """Another process holds the lock: a program waits as long as it is told to, keeps nothing, and goes on once it is free."""
    with tempfile.TemporaryDirectory() as parent:
        desk, file = Desk(programs, parent, SHORT_COURT), parent + "/court.toml"
        desk.enter([OPEN % (1, 1)])
        idle = Session(desk, 3, "--wait", "1")
        idle.ask(ROW % 3)
        whole_before = desk.journal.read_bytes()
        lock = held(desk)
        for wait in (0, 1):
            for words, given in ((("enter",), ROW % 1), (("enter", TOGETHER), ROW % 1), (("enter", "--as-written"), ROW % 1), (("strike", 1, *WHY), b""),
                                 (("restore", 1, *WHY), b""), (("court change", file), b"")):
                began = time.monotonic()
                ended = desk.call(*words, "--wait", wait, given=given)
                assert ended.status == LOCKED and not ended.output and ended.errors, (words, ended)
                assert wait <= time.monotonic() - began < wait + LONG, (words, time.monotonic() - began)
        # One that has had a turn isn't let through either, and what only reads waits for nobody.
        idle.ask(ROW % 3, ROW % 3)
        assert idle.end() == LOCKED and idle.answered == 1, (idle.process.returncode, idle.lines)
        for words, given in ((("ask",), ROW % 1), (("try",), ROW % 1), (("check",), b""), (("rows",), b""), (("log",), b""), (("due",), b"")):
            assert desk.call(*words, given=given).status == 0, words
        assert desk.journal.read_bytes() == whole_before
        waiting = [Session(desk, clerk) for clerk in (5, 6)]
        for session in waiting:
            session.start([[ROW % session.clerk]], [0])
        time.sleep(1)
        assert not any(session.answered for session in waiting) and desk.journal.read_bytes() == whole_before
        lock.close()
        whole(waiting)
        assert explained([idle, *waiting], rows_of(desk.read()), 1) == (3, 0)
    return "programs that wait for another which holds the lock, and keep nothing where it doesn't let go"


def unread_session(desk, file):
    """A session of clerk 5 with many rows, once it waits for its answers to be read."""
    with open(file, "wb") as rows:
        rows.write(ROW % 5 * MANY)
    with open(file, "rb") as rows:
        session = subprocess.Popen(desk.words("enter"), stdin=rows, stdout=subprocess.PIPE, stderr=subprocess.DEVNULL)
    before = size = desk.journal.stat().st_size
    while size == before or size != desk.journal.stat().st_size:
        size = desk.journal.stat().st_size
        time.sleep(0.5)
    return session


def check_idle(programs):
    """Beside sessions that wait for rows, one that is stopped and one whose answers aren't read, all go on."""
    with tempfile.TemporaryDirectory() as parent:
        desk = Desk(programs, parent, SHORT_COURT)
        idle = [Session(desk, clerk) for clerk in (1, 2, 3)]
        for session in idle:
            session.ask(OPEN % (session.clerk, session.clerk))
        stopped, together = Session(desk, 4), Session(desk, 6, TOGETHER)
        together.write([ROW % 6])
        stopped.ask(ROW % 4)
        stopped.process.send_signal(signal.SIGSTOP)
        unread = unread_session(desk, parent + "/rows")
        for words in (("strike", 1, *WHY), ("restore", 1, *WHY), ("strike", 2, *WHY), ("court change", parent + "/court.toml")):
            ended = desk.call(*words, "--wait", LONG)
            assert ended.status == 0, (words, ended)
        for session in idle:
            session.ask(ROW % session.clerk)
        assert len(unread.stdout.read().splitlines()) == MANY and unread.wait() == 0
        stopped.process.send_signal(signal.SIGCONT)
        stopped.ask(ROW % 4)
        for session in [*idle, stopped, together]:
            session.close()
        whole([*idle, stopped, together])
        assert [session.answered for session in [*idle, stopped, together]] == [2, 2, 2, 2, 1]
        sound(desk, MANY + 9)
    return "sessions that wait, are stopped or aren't read stand in nobody's way"


def check_together(programs, draw):
    """Rows that are kept together, or written as people do, are neighbours in the journal beside others."""
    with tempfile.TemporaryDirectory() as parent:
        desk = Desk(programs, parent, SHORT_COURT)
        others = [Session(desk, clerk) for clerk in (1, 2, 3)]
        for session in others:
            session.start([[ROW % session.clerk]] * 150, itertools.repeat(0), waits=True)
        lists = []
        for clerk, words in enumerate(KEPT_TOGETHER, 4):
            lists.append(Session(desk, clerk, *words))
            lists[-1].start([of_clerk(clerk, [b"1,open,%d,2025-03-03\n" % clerk] + [ROW % 1] * draw.choice([1, 8, 30]))], [0])
            time.sleep(0.02)
        whole([*others, *lists])
        kept = rows_of(desk.read())
        assert explained([*others, *lists], kept, 0) == (len(kept), 0)
        places = {session.clerk: [at for at, (row, _) in enumerate(kept) if row.startswith(b"%d," % session.clerk)] for session in lists}
        divided = {clerk for clerk, at in places.items() if at[-1] - at[0] + 1 != len(at)}
        assert not divided, ("rows that are kept together were divided", divided)
        assert any(kept[at[0] - 1].row[:2] in (b"1,", b"2,", b"3,") for at in places.values() if at[0]), "nobody entered rows meanwhile"
        sound(desk, len(kept))
    return "{} lists that are kept together, each undivided among rows of others".format(len(lists))


# What is said of others


def told_of_own(own, known, kept, replay):
    """What a session says of its rows once others have corrected the docket: `known` has what their clerk knows."""
    text = b""
    for number in own:
        answer, now = kept[number - 1].answer, replay.answers[number - 1]
        if now == known.get(number, answer):
            continue
        known[number] = now
        if now is None:
            text += b"docket: row %d was struck\n" % number
        elif now == answer:
            text += b"docket: row %d is answered again as it was\n" % number
        else:
            text += b"docket: since others corrected the docket, row %d is answered\n" % number + now
    return text


def check_told(programs, draw, count):
    """Between the rows of two sessions others strike and restore rows and take another court's file: each session says which of its own
    rows are struck or answered otherwise than its clerk knows."""
    told, corrections = 0, 0
    for _ in range(count):
        with tempfile.TemporaryDirectory() as parent:
            desk = Desk(programs, parent, SHORT_COURT)
            sessions, own, known, said = [Session(desk, 1), Session(desk, 2)], {1: [], 2: []}, {1: {}, 2: {}}, {1: b"", 2: b""}
            for turn in range(10):
                journal = desk.read()
                corrections += Correction(desk, draw, len(rows_of(journal))).end()
                journal = desk.read()
                replay = replayed(journal)
                for session in sessions:
                    said[session.clerk] += told_of_own(own[session.clerk], known[session.clerk], rows_of(journal), replay)
                    before = len(rows_of(desk.read()))
                    session.ask(*of_clerk(session.clerk, [drawn_row(draw) for _ in range(2)] + (opened(draw) if turn == 0 else [])))
                    own[session.clerk] += range(before + 1, len(rows_of(desk.read())) + 1)
            for session in sessions:
                session.close()
                assert session.end() == 0 and session.errors == said[session.clerk], (session.errors, said[session.clerk], desk.read().entries)
                told += session.errors.count(b"docket: ")
            assert explained(sessions, rows_of(desk.read()), 0) == (len(rows_of(desk.read())), 0)
    assert told, "no session had anything to say"
    return "{} corrections beside sessions, which said {} times what became of their rows".format(corrections, told)


def check_mark_meets(desk):
    """A session ends just as another one, which begins, has opened its mark and doesn't know yet whether it is held."""
    ending, told = Session(desk, 1), desk.folder.parent / "told"
    ending.ask(ROW % 1)
    beginning = Session(desk, 2, under=under("flock,openat", "-e", "inject=flock:delay_enter=3000000:when=3", told=told))
    while not told.exists() or "/entering-1\"" not in told.read_text():
        time.sleep(0.01)
    ending.close()
    ending.end()
    beginning.ask(ROW % 2)
    beginning.close()
    whole([ending, beginning])
    assert not beginning.errors, beginning.errors


def check_marks(programs):
    """Who was cut off is said once, to the next that begins; more sessions than marks are served; and nothing is said of one that ends
    while another begins."""
    with tempfile.TemporaryDirectory() as parent:
        desk = Desk(programs, parent, SHORT_COURT)
        first, second = Session(desk, 1), Session(desk, 2)
        first.ask(ROW % 1)
        second.ask(ROW % 2)
        first.process.kill()
        first.end()
        third, fourth = Session(desk, 3), Session(desk, 4)
        third.ask(ROW % 3)
        fourth.ask(ROW % 4)
        many = [Session(desk, 5 + number % 60) for number in range(70)]
        for session in many:
            session.ask(ROW % session.clerk)
        assert len(list(desk.folder.glob("entering-*"))) == 64, list(desk.folder.iterdir())
        for session in (second, third, fourth, *many):
            session.close()
        whole([second, third, fourth, *many])
        said = [session.errors for session in (third, fourth) if session.errors]
        line = b"docket: a session of %s was cut off; the last row that is kept is row 2: see " % desk.read().stamps[-1].account
        assert len(said) == 1 and CUT_OFF.fullmatch(said[0]) and said[0].startswith(line), (said, line)
        assert not any(session.errors for session in many) and not list(desk.folder.glob("entering-*"))
        if shutil.which("strace"):
            check_mark_meets(desk)
        sound(desk, len(rows_of(desk.read())))
    return "sessions that were cut off, of which the next says so once, and 73 at once"


# Files


# A group of a folder, and accounts that are in it. What each leaves to itself alone of what it makes is its own business.
GROUP, ACCOUNTS = 54_321, ((20_001, 0o000), (20_002, 0o022), (20_003, 0o077))


def as_account(account, mask):
    """What a process does first that root has started, for an account of the group."""
    def first():
        os.setgroups([GROUP])
        os.setgid(account)
        os.setuid(account)
        os.umask(mask)
    return first


def shared_desk(programs, parent):
    """A folder that belongs to a group, with what a crash left after the journal's end."""
    desk = Desk(programs, parent, SHORT_COURT)
    for path, mode in ((desk.folder, 0o2770), (desk.journal, 0o660)):
        os.chown(path, -1, GROUP)
        os.chmod(path, mode)
    os.chmod(parent, 0o755)
    desk.journal.write_bytes(desk.journal.read_bytes() + b"a crash's")
    return desk


def check_files(programs):
    """Accounts of a group enter rows into its folder. What they make there belongs to the group, and others may not read it."""
    if os.getuid() != 0:
        return "the groups of files: NOT CHECKED, since only root may use other accounts"
    with tempfile.TemporaryDirectory() as parent:
        desk, sessions = shared_desk(programs, parent), []
        try:
            for clerk, (account, mask) in enumerate(ACCOUNTS, 1):
                sessions.append(Session(desk, clerk, preexec_fn=as_account(account, mask)))
                sessions[-1].ask(ROW % clerk)
        except PermissionError:
            return "the groups of files: NOT CHECKED, since nobody else may run the program where it stands"
        sessions[1].process.kill()
        sessions[1].end()
        found = {path.name: path.stat() for path in desk.folder.iterdir()}
        assert {"lock", "entering-1", "entering-2", "entering-3", "journal"} < set(found) and desk.cut(), found
        for name, of in found.items():
            assert of.st_gid == GROUP and not of.st_mode & 0o007 and of.st_mode & 0o060 == 0o060, (name, of.st_gid, oct(of.st_mode))
        for session in (sessions[0], sessions[2]):
            session.ask(ROW % session.clerk)
            session.close()
        last = Session(desk, 4, preexec_fn=as_account(*ACCOUNTS[0]))
        last.ask(ROW % 4)
        last.close()
        whole([sessions[0], sessions[2], last])
        assert CUT_OFF.fullmatch(last.errors) and b"(20002)" in last.errors, last.errors
        assert explained([*sessions, last], rows_of(desk.read()), 0) == (6, 0) and not list(desk.folder.glob("entering-*"))
    return "accounts of a group that enter rows into its folder, whatever their umask is"


def main(words):
    programs, (seed, count) = programs_of(words[:2]), seed_and_count(words[2:], 30)
    draw, few = random.Random(seed), max(3, count // 10)
    for check in (lambda: check_loads(programs, draw), lambda: check_waits(programs), lambda: check_idle(programs), lambda: check_together(programs, draw),
                  lambda: check_told(programs, draw, few), lambda: check_marks(programs), lambda: check_files(programs),
                  lambda: failing(programs, draw, few), lambda: killed(programs, draw, count)):
        print(check(), flush=True)


if __name__ == "__main__":
    if not 3 <= len(sys.argv) <= 5:
        sys.exit("usage: many_check.py DOCKET CLERK_OFFICE [SEED [COUNT]]")
    main(sys.argv[1:])
