#!/usr/bin/env python3
"""Ends the desk at random moments while rows come in, and looks for every row that it answered.

    desk_kill.py DOCKET CLERK_OFFICE [SEED [COUNT]]

COUNT sessions (2,000 without it), drawn from SEED, are given rows in bursts and end in one of four ways: killed (most of
them), stopped by SIGTERM, by a reader that closes the pipe of the answers, or by the end of the input. After each one
the journal is read byte by byte, by the reader in lib/journal.py. It must have the rows that were given, in their order,
up to one of them; and what was written must be a beginning of the answers in it. What stands after the journal's end then must be in
a file of its own once another session has answered a row, and nothing else may be saved. The next session goes on with the same
folder; after 50 of them the answers of all rows must be those of clerk_office, and so must those of what `rows` writes.
The last line says how many rows were kept and how many of them weren't answered any more. Then COUNT / 4 sessions that keep
their rows together are killed: each must have kept all of them or none, and all where it has answered one. It needs Python
3.8 or later.
"""
import random
import signal
import sys
import tempfile
import threading
import time
from collections import Counter

from lib.desk import Desk, KEEP_REFUSED, SHORT_COURT, TOGETHER, answers_alone, drawn_rows
from lib.journal import rows_of
from lib.programs import programs_of, seed_and_count

# How many sessions go on with the same folder, and of how many cases their rows are.
SESSIONS, CASES = 50, 200
KILLED, STOPPED, CLOSED, ENDED = "killed", "stopped by SIGTERM", "with the answers' pipe closed", "to the end"
WAYS = [KILLED] * 7 + [STOPPED, CLOSED, ENDED]
# With which statuses a session may end, for each way in which it is ended.
STATUSES = {KILLED: (-signal.SIGKILL, 0), STOPPED: (-signal.SIGTERM, 0), CLOSED: (4, -signal.SIGPIPE, 0), ENDED: (0,)}
LONGEST = 60


def give(pipe, bursts, pauses):
    """Writes bursts of rows, with a pause after each, and closes the pipe, unless nobody reads it any more."""
    try:
        for burst, pause in zip(bursts, pauses):
            pipe.write(burst)
            pipe.flush()
            time.sleep(pause)
        pipe.close()
    except (BrokenPipeError, ValueError):
        pass


def bursts_of(draw, rows):
    """Rows in bursts of one row or of many."""
    bursts, at = [], 0
    while at < len(rows):
        count = draw.choice([1, 1, 2, 10, 100])
        bursts.append(b"".join(rows[at:at + count]))
        at += count
    return bursts


def end(session, way, draw, moment):
    """Ends a session in that way: what it wrote until then, and its status."""
    if way == CLOSED:
        read = session.stdout.read1(draw.choice([1, 50, 5000]))
        session.stdout.close()
        session.wait(LONGEST)
        return read
    if way != ENDED:
        time.sleep(moment)
        session.send_signal(signal.SIGKILL if way == KILLED else signal.SIGTERM)
    read = session.stdout.read()
    session.wait(LONGEST)
    return read


def close(session):
    """Closes the pipes of a session that has ended."""
    for pipe in (session.stdin, session.stdout, session.stderr):
        try:
            pipe.close()
        except BrokenPipeError:
            pass


def serve(desk, rows, way, draw, pace):
    """A session with these rows that is ended in that way: the answers that it wrote."""
    session = desk.session()
    bursts = bursts_of(draw, rows)
    pauses = [0 if draw.random() < 0.5 else draw.random() * pace / 10 for _ in bursts]
    giver = threading.Thread(target=give, args=(session.stdin, bursts, pauses))
    giver.start()
    written = end(session, way, draw, draw.random() * pace)
    giver.join()
    errors = session.stderr.read()
    close(session)
    assert session.returncode in STATUSES[way], (way, session.returncode, errors)
    return answers_alone(written)


def check_session(desk, rows, way, draw, pace):
    """A session after which each row that it answered must be kept: how many rows it kept, and of these answered."""
    before, tail, cut = rows_of(desk.read()), desk.tail(), desk.cut()
    written = serve(desk, rows[len(before):len(before) + draw.choice([5, 60, 400])], way, draw, pace)
    saved = [data for name, data in desk.cut().items() if name not in cut]
    assert all(tail.startswith(data) for data in saved), "other bytes were saved than stood after the journal's end"
    assert not (tail and written) or saved == [tail], "what was cut off wasn't saved"
    kept = rows_of(desk.read())
    assert kept[:len(before)] == before, "rows of earlier sessions were changed"
    assert [row for row, _ in kept] == rows[:len(kept)], "other rows were kept than were given"
    answers = [answer for _, answer in kept[len(before):]]
    assert b"".join(answers).startswith(written), "an answer was lost: {}".format(written[-200:])
    answered = 0
    while answered < len(answers) and len(b"".join(answers[:answered + 1])) <= len(written):
        answered += 1
    return len(answers), answered


def check_folder(programs, draw, count):
    """Sessions that go on with one folder: how many ended in each way, how many rows were kept, and of these answered."""
    rows, counts = drawn_rows(draw, 400 * count, CASES), Counter()
    with tempfile.TemporaryDirectory() as parent:
        desk = Desk(programs, parent, SHORT_COURT)
        for _ in range(count):
            began = time.monotonic()
            desk.call("check")
            pace = 3 * (time.monotonic() - began) + 0.01
            way = draw.choice(WAYS)
            kept, answered = check_session(desk, rows, way, draw, pace)
            counts.update({way: 1, "kept": kept, "answered": answered})
        answers = b"".join(answer for _, answer in rows_of(desk.read()))
        whole = programs.office(desk.rows())
        assert whole.status == 0 and whole.output.startswith(answers), "clerk_office answers otherwise"
    return counts


def killed(programs, draw, count):
    """Ends this many sessions, and says what came of them."""
    counts = Counter()
    for first in range(0, count, SESSIONS):
        counts += check_folder(programs, draw, min(SESSIONS, count - first))
    ways = ", ".join("{} {}".format(counts[way], way) for way in STATUSES)
    return "{} sessions ({}): {} rows kept, {} of them not answered any more, none lost that was".format(
        count, ways, counts["kept"], counts["kept"] - counts["answered"])


def kill_together(desk, rows, pace, draw):
    """Kills a session that keeps these rows together: whether it has kept them, and whether it has answered one."""
    before = rows_of(desk.read())
    session = desk.session(TOGETHER, KEEP_REFUSED)
    giver = threading.Thread(target=give, args=(session.stdin, [b"".join(rows)], [0]))
    giver.start()
    written = answers_alone(end(session, KILLED, draw, draw.random() * pace))
    giver.join()
    close(session)
    kept = rows_of(desk.read())
    assert kept[:len(before)] == before, "rows of earlier sessions were changed"
    assert [row for row, _ in kept[len(before):]] in ([], rows), "some of the rows were kept, and not all"
    answers = b"".join(answer for _, answer in kept[len(before):])
    assert answers.startswith(written), "an answer was lost: {}".format(written[-200:])
    return len(kept) > len(before), bool(written)


def killed_together(programs, draw, count):
    """Kills that many sessions that keep their rows together, and says how many of them kept all rows."""
    counts = Counter()
    with tempfile.TemporaryDirectory() as parent:
        desk, pace = Desk(programs, parent, SHORT_COURT), 0
        for _ in range(count):
            rows = drawn_rows(draw, draw.choice([2, 60, 1500]), CASES)
            if counts["ended"] % 10 == 0:
                began = time.monotonic()
                desk.call("try", given=b"".join(drawn_rows(draw, 1500, CASES)))
                pace = 2 * (time.monotonic() - began)
            kept, answered = kill_together(desk, rows, pace, draw)
            counts.update({"ended": 1, "kept": kept, "answered": answered})
        whole = desk.call("check")
        assert whole.status == 0, whole
    return "{} sessions that keep their rows together, killed: {} kept all of them, {} answered one, {} kept none".format(
        count, counts["kept"], counts["answered"], count - counts["kept"])


def main(words):
    programs, (seed, count) = programs_of(words[:2]), seed_and_count(words[2:], 2000)
    draw = random.Random(seed)
    print(killed(programs, draw, count), flush=True)
    print(killed_together(programs, draw, count // 4))


if __name__ == "__main__":
    if not 3 <= len(sys.argv) <= 5:
        sys.exit("usage: desk_kill.py DOCKET CLERK_OFFICE [SEED [COUNT]]")
    main(sys.argv[1:])
