"""Sessions that enter rows into one folder at the same time: what each is given and writes, and what it must have written.

Each session has a clerk's number of its own, by which its rows are known in the journal.
"""
import re
import signal
import subprocess
import threading
import time

from lib.desk import answers_alone
from lib.journal import CORRECTIONS, COURT_MARK, STRIKE_MARK, after_name, rows_of, struck_in
from reference.court_file import court_of
from strike_check import Replay, other_court

# With what the answer to a line begins, with the number of its row and the word for one that can't be read; and that number in the
# answer to such a line.
ANSWER, FAULT = re.compile(rb"(\d+) \d+ (fault )?"), re.compile(rb"^\d+ (?=\d+ fault )", re.MULTILINE)
# What a row ends with that can't be read, and how the one of a clerk is answered, with another number.
FAULTY, UNREADABLE = b",no,row\n", b"0 %b fault 2 UnknownCommand\n"
# The statuses with which a session has come to the end of its input, for how many seconds a program waits for others that have the
# folder, so that none gives up on a busy machine, and how long one may take.
TO_THE_END, WAIT, LONGEST = (0, 8), ["--wait", "600"], 1200
# A row that opens a case of its clerk's number, and one that asks for the end of a period.
OPEN, ROW = b"%d,open,%d,2025-03-03\n", b"%d,compute,59e,2025-08-04,,,\n"
# The words by which a row is struck or restored whatever else changes, and the status with which it can't be.
WHY, CANNOT = ["--accept", "--reason", "entered twice"], 3
# How a process ends that is ended.
ENDED = (-signal.SIGKILL, -signal.SIGTERM)
# The number with which a row of the journal begins, and the first number in an answer to clerk 1.
CLERK, ANSWERED = re.compile(rb"^\d+,"), re.compile(rb"^(\d+) \d+ ")


class Session:
    """A session that enters the rows of one clerk. What it writes is read as it comes."""

    def __init__(self, desk, clerk, *words, under=(), **how):
        self.clerk, self.given, self.lines, self.errors = clerk, [], [], b""
        self.answered, self.ended, self.changed = 0, False, threading.Condition()
        words = words if "--wait" in words else (*words, *WAIT)
        self.process = subprocess.Popen([*under, *desk.words("enter", *words)], stdin=subprocess.PIPE, stdout=subprocess.PIPE,
                                        stderr=subprocess.PIPE, **how)
        self.threads = []
        for task in (self.read_answers, self.read_errors):
            self.begin(task)

    def begin(self, task, *words):
        self.threads.append(threading.Thread(target=task, args=words, daemon=True))
        self.threads[-1].start()

    def read_answers(self):
        for line in self.process.stdout:
            with self.changed:
                self.lines.append(line)
                self.answered += ANSWER.match(line) is not None
                self.changed.notify_all()
        with self.changed:
            self.ended = True
            self.changed.notify_all()

    def read_errors(self):
        self.errors = self.process.stderr.read()

    def wait_for(self, count):
        """Waits until so many lines are answered, or the session has ended."""
        with self.changed:
            assert self.changed.wait_for(lambda: self.answered >= count or self.ended, LONGEST), "no answer came"

    def write(self, rows):
        """Gives it rows, unless it has ended."""
        self.given += rows
        try:
            self.process.stdin.write(b"".join(rows))
            self.process.stdin.flush()
        except (BrokenPipeError, ValueError):
            pass

    def ask(self, *rows):
        """Gives it rows, and waits for the answers."""
        self.write(list(rows))
        self.wait_for(len(self.given))
        return b"".join(self.lines)

    def give(self, bursts, pauses, waits):
        """Gives it bursts of rows, each after a pause, or after the answers to those before, and then the end of its input."""
        for burst, pause in zip(bursts, pauses):
            self.write(burst)
            if waits:
                self.wait_for(len(self.given))
            time.sleep(pause)
        self.close()

    def start(self, bursts, pauses, waits=False):
        """Gives it bursts of rows as time goes on."""
        self.begin(self.give, bursts, pauses, waits)

    def end_after(self, count, pause, by):
        """Ends it by a signal, shortly after so many lines are answered, unless it has ended by then."""
        def end():
            self.wait_for(count)
            time.sleep(pause)
            if self.process.poll() is None:
                self.process.send_signal(by)
        self.begin(end)

    def close(self):
        try:
            self.process.stdin.close()
        except (BrokenPipeError, ValueError):
            pass

    def end(self):
        """Waits for its end: its status."""
        self.process.wait(LONGEST)
        for thread in self.threads:
            thread.join(LONGEST)
        self.close()
        return self.process.returncode


def wanted(rows, answers):
    """The answers to rows in their order, as far as rows are kept: those that can't be read have one too."""
    answers, told = iter(answers), []
    for row in rows:
        answer = UNREADABLE % row[:-len(FAULTY)] if row.endswith(FAULTY) else next(answers, None)
        if answer is None:
            break
        told.append(answer)
    return b"".join(told)


def check_numbers(lines):
    """The rows' numbers grow in what a session writes. A line that can't be read has the number that its row would have had."""
    last, least = 0, 1
    for found in filter(None, map(ANSWER.match, lines)):
        number = int(found[1])
        assert number >= max(least, last + 1), (number, last, least)
        if found[2]:
            least = number
        else:
            last = number


def check_session(session, mine):
    """What a session wrote are the answers to its rows in the journal, `mine`: all, if it came to its end, or else a beginning."""
    readable = [row for row in session.given if not row.endswith(FAULTY)]
    assert [row for row, _ in mine] == readable[:len(mine)], ("other rows were kept than were given", session.clerk, mine, session.given)
    told = wanted(session.given, [answer for _, answer in mine])
    written = FAULT.sub(b"0 ", answers_alone(b"".join(session.lines)))
    assert told.startswith(written), ("an answer isn't that of the journal", session.clerk, written[-300:], told[max(0, len(written) - 300):][:400])
    if session.process.returncode in TO_THE_END:
        assert len(mine) == len(readable) and written == told, ("a row isn't kept or not answered", session.clerk, session.errors)
    check_numbers(session.lines)
    return len(mine) - sum(bool(found and not found[2]) for found in map(ANSWER.match, session.lines))


def explained(sessions, kept, before):
    """The rows that were kept after the first `before` are those of these sessions, with the answers that each wrote: how many there
    are, and how many of them weren't answered."""
    found = {session.clerk: [] for session in sessions}
    for number, (row, answer) in enumerate(kept[before:], before + 1):
        clerk = int(row.partition(b",")[0])
        assert answer.startswith(b"%d %d " % (number, clerk)), ("a row has another number than its place", number, row, answer)
        found[clerk].append((row, answer))
    return len(kept) - before, sum(check_session(session, found[session.clerk]) for session in sessions)


def replayed(journal):
    """Decides each row of a journal on all before it, by the reference in Python, and compares the answers: the replay, which has what
    each row is answered now."""
    rows, struck, replay = [], set(), Replay(court_of(journal.entries[0], True), [], set(), {})
    for entry in journal.entries[1:]:
        if entry.startswith(CORRECTIONS):
            court = court_of(entry.partition(b"\n")[2], True) if entry.startswith(COURT_MARK) else replay.court
            if not entry.startswith(COURT_MARK):
                row = {int(entry.partition(b"\n")[0].split(b" ")[1])}
                struck = struck | row if entry.startswith(STRIKE_MARK) else struck - row
            replay = Replay(court, rows, struck, replay.given)
            continue
        row, end, answer = after_name(entry).partition(b"\n")
        rows.append(row + end)
        decided = replay.take(row + end)
        assert decided == answer, ("a row wasn't decided on all before it", len(rows), row, answer, decided)
    assert struck == struck_in(journal) == replay.struck
    return replay


def by_one_clerk(desk):
    """What `rows` writes, entered as one clerk's, is answered by clerk_office as the rows are kept."""
    front, divider, rows = desk.rows().partition(b"\n%%\n")
    ended = desk.programs.office(front + divider + b"".join(CLERK.sub(b"1,", row) for row in rows.splitlines(True)))
    kept = b"".join(ANSWERED.sub(rb"\1 1 ", answer) for _, answer in rows_of(desk.read()))
    assert ended.status == 0 and ended.output.startswith(kept), (ended, kept)


def turns(kept, before):
    """How often the next row is another clerk's."""
    clerks = [row.partition(b",")[0] for row, _ in kept[before:]]
    return sum(clerk != other for clerk, other in zip(clerks, clerks[1:]))


def sound(desk, count):
    """`docket check` finds so many rows, each answered as it was."""
    ended = desk.call("check")
    assert ended.status == 0 and ended.output.startswith(b"rows kept: %d," % count), ended


def of_clerk(clerk, rows):
    """Rows, each given as bytes of clerk 1 or as a text without a clerk, as those of this clerk; now and then one that can't be read."""
    return [b"%d," % clerk + (row.partition(b",")[2] if isinstance(row, bytes) else row.encode() + b"\n") for row in rows]


def with_faults(draw, clerk, rows):
    """The same with lines between them, now and then, that can't be read."""
    return [line for row in rows for line in ([b"%d" % clerk + FAULTY] if draw.random() < 0.05 else []) + [row]]


def whole(sessions):
    """Waits for the end of sessions, which must have come to the end of their inputs."""
    for session in sessions:
        assert session.end() in TO_THE_END, (session.clerk, session.process.returncode, session.errors)


def bursts_of_rows(draw, rows):
    """Lists of one row or of some."""
    bursts, at = [], 0
    while at < len(rows):
        size = draw.choice([1, 1, 3, 10, 100])
        bursts.append(rows[at:at + size])
        at += size
    return bursts


class Correction:
    """A strike, a restore or another court's file, beside sessions."""

    def __init__(self, desk, draw, number):
        word = draw.choice(["strike", "strike", "restore", "court change"])
        self.words = [word, draw.randint(1, max(1, number)), *WHY]
        if word == "court change":
            file = desk.folder.parent / "court{}.toml".format(draw.randint(1, 1_000_000))
            file.write_bytes(other_court(draw))
            self.words = [word, file, "--accept"]
        self.process = subprocess.Popen(desk.words(*self.words, *WAIT), stdin=subprocess.DEVNULL, stdout=subprocess.DEVNULL, stderr=subprocess.PIPE)

    def end(self):
        """Whether it was kept; None where it was ended, and may be kept or not."""
        _, errors = self.process.communicate()
        assert self.process.returncode in (0, CANNOT, *ENDED), (self.words, self.process.returncode, errors)
        return None if self.process.returncode < 0 else self.process.returncode == 0
