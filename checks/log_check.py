#!/usr/bin/env python3
"""Checks who entered what and when, by the journal and by `docket log`.

    log_check.py DOCKET [SEED [COUNT]]

COUNT folders (10 without it) are drawn from SEED: rows are entered in some calls, a row is struck, and another court's file is taken.
Each stamp in the journal must have the account that the system has of this user, whatever the environment says, and a second
between the beginning and the end of its call; seconds never go back, also where the folder's last entry is of a later time than the
clock's. `docket log` must list just these entries, and of each choice (a row, a case, an account, days) just those that Python chooses,
as text and as JSON. Control characters of an account are shown as text. `rows --as-of` a time must be what `rows` is of a journal that
ends there. `docket check` names an entry whose time goes back. A journal that is no plain file is refused before it is read; a session
ends when another file is put in its journal's place, and when one was cut off the next says so. It needs Python 3.8 or later, on Linux.
"""
import datetime
import itertools
import json
import os
import pathlib
import pwd
import random
import re
import signal
import socket
import sys
import tempfile
import time
from typing import NamedTuple

from lib.desk import CUT_OFF, Desk, REFUSED, SHORT_COURT, drawn_rows
from lib.journal import COURT_MARK, RESTORE_MARK, STRIKE_MARK, Stamp, after_name, packed, read_journal
from lib.programs import programs_of, seed_and_count

# What the environment says of who this is.
LIES = {**os.environ, "USER": "mallory", "LOGNAME": "mallory", "USERNAME": "mallory", "HOSTNAME": "elsewhere", "HOME": "/nowhere"}
# A court's file that is another only in its text.
SAME_COURT = SHORT_COURT + b"\n"
DAY = 86_400
# The court's clock in the days that are chosen.
WINTER = datetime.timezone(datetime.timedelta(hours=-5))
# What `docket check` says of an entry after what it is.
EARLIER = b" has an earlier time than the entry before it"
# The status with which a session ends some of whose rows had faults, and that of a log with no entry of the row or the case.
FAULTS, ABSENT = 8, 6


def account():
    """The account of this user, as the system has it."""
    number = os.getuid()
    try:
        name = pwd.getpwuid(number).pw_name
    except KeyError:
        name = str(number)
    return "{}@{} ({})".format(name[:64], socket.gethostname()[:64], number).encode()


def shown(text):
    """Bytes as they are shown, with no control character: those below 32, 127, and U+0080 to U+009F in UTF-8."""
    return re.sub(b"[\0-\x1f\x7f]|\xc2[\x80-\x9f]", lambda found: b"\\x%02x" % found[0][-1], text)


def moved_in(text):
    return b"".join(b"  " + shown(line) + b"\n" for line in text[:-1 if text.endswith(b"\n") else None].split(b"\n"))


class Listed(NamedTuple):
    """An entry as the log has it: what it is, the row that it is, strikes or restores, and that row's case, its line and its answer, or
    its remark."""
    kind: str
    row: int
    case: int
    says: bytes
    line: bytes = b""
    answer: bytes = b""

    @property
    def heading(self):
        return {"court": "court's file", "row": "row {}", "strike": "strike of row {}", "restore": "restore of row {}"}[self.kind].format(self.row).encode()

    def json_of(self, stamp):
        """The object that JSON has of it."""
        members = {"kind": self.kind, "row": self.row}
        members["time"] = datetime.datetime.fromtimestamp(stamp.time, datetime.timezone.utc).strftime("%Y-%m-%dT%H:%M:%SZ")
        members["account"] = stamp.account.decode()
        members["case"] = self.case
        if self.kind == "court":
            del members["row"], members["case"]
        elif self.kind == "row":
            members.update(line=self.line.decode(), answer=self.answer.decode())
        else:
            members["remark"] = self.says.decode()
        return members


def without_end(text):
    return text[:-1] if text.endswith(b"\n") else text


def case_of(line):
    """The case that a row names, by its third field; the commands that name none."""
    fields = line.decode().split(",")
    return None if fields[1] in ("holiday", "inaccessible", "compute", "calendar") else int(fields[2])


def listed_in(journal):
    """The entries of a journal as the log has them."""
    cases = [None]
    for place, entry in enumerate(journal.entries):
        if place == 0 or entry.startswith(COURT_MARK):
            yield Listed("court", None, None, b"")
        elif entry.startswith((STRIKE_MARK, RESTORE_MARK)):
            line, _, remark = entry.partition(b"\n")
            row = int(line.split(b" ")[1])
            yield Listed("strike" if entry.startswith(STRIKE_MARK) else "restore", row, cases[row], without_end(remark))
        else:
            line, _, answer = after_name(entry).partition(b"\n")
            cases.append(case_of(line))
            yield Listed("row", len(cases) - 1, cases[-1], entry, line, without_end(answer))


def log_of(journal, chosen, as_json=False):
    """What is written of the entries that are chosen by what they are and by their stamp."""
    text = b""
    for entry, stamp in zip(listed_in(journal), journal.stamps):
        if not chosen(entry, stamp):
            continue
        if as_json:
            text += json.dumps(entry.json_of(stamp), separators=(",", ":"), ensure_ascii=False).encode() + b"\n"
            continue
        told = datetime.datetime.fromtimestamp(stamp.time, datetime.timezone.utc).strftime("%Y-%m-%d %H:%M:%S UTC")
        text += entry.heading + b"  " + told.encode() + b"  " + shown(stamp.account) + b"\n" + (b"" if entry.kind == "court" else moved_in(entry.says))
    return text


def check_choices(desk, draw):
    """Compares each choice of `docket log`, as text and as JSON."""
    journal = desk.read()
    entries = list(listed_in(journal))
    rows = max([entry.row for entry in entries if entry.row], default=0)
    row, case, who = draw.randint(1, rows + 1), draw.randint(1, 5), account().partition(b"@")[0]
    begins = lambda day: int(datetime.datetime(day.year, day.month, day.day, tzinfo=WINTER).timestamp())
    day = datetime.date(2025, 12, 1) + datetime.timedelta(draw.randint(-5, 5))
    choices = [
        ([], lambda entry, stamp: True),
        (["--row", str(row)], lambda entry, stamp: entry.row == row),
        (["--case", str(case)], lambda entry, stamp: entry.case == case),
        (["--by", who.decode()], lambda entry, stamp: stamp.account == who or stamp.account.startswith(who + b"@")),
        (["--by", "mallory"], lambda entry, stamp: False),
        (["--from", str(day)], lambda entry, stamp: stamp.time >= begins(day)),
        (["--to", str(day)], lambda entry, stamp: stamp.time < begins(day + datetime.timedelta(1))),
        (["--from", str(day), "--to", str(day), "--row", str(row)],
         lambda entry, stamp: entry.row == row and begins(day) <= stamp.time < begins(day + datetime.timedelta(1))),
        (["--case", str(case), "--row", str(row)], lambda entry, stamp: entry.row == row and entry.case == case),
    ]
    for words, chosen in choices:
        for as_json in (False, True):
            ended = desk.call("log", *words, *["--json"][:as_json])
            wanted = log_of(journal, chosen, as_json)
            absent = not wanted and {"--row", "--case"}.intersection(words)
            assert ended.status == (ABSENT if absent else 0) and ended.output == wanted, (words, ended, wanted)
            assert bool(ended.errors) == bool(absent) and (not absent or b"has no such entry" in ended.errors), (words, ended)


def check_times(desk, draw):
    """Compares `rows --as-of` a time with `rows` of a journal that ends with what had come by then."""
    journal = desk.read()
    for _ in range(4):
        stamp = draw.choice(journal.stamps)
        moment = datetime.datetime.fromtimestamp(stamp.time + draw.randint(-70, 70), WINTER)
        if not 2025 <= moment.year <= 2026 or not 11 <= moment.month <= 12:
            continue
        is_minute = draw.random() < 0.5
        said = moment.strftime("%Y-%m-%dT%H:%M" if is_minute else "%Y-%m-%dT%H:%M:%S")
        last = int(moment.timestamp()) + (59 - moment.second if is_minute else 0)
        count = 1 + sum(1 for _ in itertools.takewhile(lambda one: one.time <= last, journal.stamps[1:]))
        with tempfile.TemporaryDirectory() as parent:
            then = Desk(desk.programs, parent, SHORT_COURT)
            then.journal.write_bytes(packed([[both] for both in zip(journal.stamps[:count], journal.entries[:count])]))
            wanted = then.rows()
        ended = desk.call("rows", "--as-of", said)
        assert ended.status == 0 and ended.output == wanted, (said, count, ended)


def timed(desk, *words, given=b""):
    """A call under an environment that lies, and the seconds before it and after it."""
    before = int(time.time())
    ended = desk.call(*words, given=given, env=LIES)
    assert ended.status in (0, FAULTS), ended
    return ended, before, int(time.time())


def check_folder(programs, draw):
    """A folder whose entries come from some calls. How many they are."""
    with tempfile.TemporaryDirectory() as parent:
        begun = int(time.time())
        desk = Desk(programs, parent, SHORT_COURT)
        spans = [(begun, int(time.time()))]
        file = pathlib.Path(parent) / "same.toml"
        file.write_bytes(SAME_COURT)
        calls = [("enter", b"".join(drawn_rows(draw, draw.randint(1, 5)))) for _ in range(draw.randint(1, 4))]
        for task, rows in [("enter", b"1,open,9,2025-03-03\n"), *calls, ("strike", b""), ("restore", b""), ("strike", b""), ("court change", b"")]:
            words = {"strike": ["strike", 1, "--reason", "twice", "--accept"], "restore": ["restore", 1, "--reason", "once", "--accept"], "court change": ["court change", file, "--accept"]}.get(task, [task])
            count = len(desk.read().entries)
            _, before, after = timed(desk, *words, given=rows)
            spans += [(before, after)] * (len(desk.read().entries) - count)
        stamps = desk.read().stamps
        assert all(stamp.account == account() for stamp in stamps), stamps
        assert all(before <= stamp.time <= after for stamp, (before, after) in zip(stamps, spans)), (stamps, spans)
        remark = [entry for entry in desk.read().entries if entry.startswith(STRIKE_MARK)][0].partition(b"\n")[2]
        assert remark.endswith(b" by " + account() + b": twice\n"), remark
        check_choices(desk, draw)
        return len(stamps)


def check_other(programs, draw):
    """A folder that others have entered rows in, at other times, some of them to come. How many entries it has."""
    with tempfile.TemporaryDirectory() as parent:
        desk = Desk(programs, parent, SHORT_COURT)
        desk.enter(drawn_rows(draw, 12))
        later = int(time.time()) + 9 * DAY
        first, *entries = desk.read().entries
        places = sorted(draw.randint(1_764_000_000, 1_765_500_000) for _ in entries)
        whos = [draw.choice([account(), b"ames@registry (1001)", "evil\x1b[2J\x7f\x9b31m@h\u00f6st (7)".encode(), b"", b"ames", bytes(200)]) for _ in entries]
        stamps = [Stamp(0, b"init"), *map(Stamp, places[:-1] + [later], whos)]
        data = packed([[both] for both in zip(stamps, [first, *entries])])
        desk.journal.write_bytes(data)
        assert len(read_journal(data).entries) == 1 + len(entries)
        check_choices(desk, draw)
        check_times(desk, draw)
        desk.enter([b"1,sheet,1\n"])
        assert desk.read().stamps[-1] == Stamp(later, account()), desk.read().stamps[-1]
        return 2 + len(entries)


def check_back(programs, draw):
    """A journal whose times go back: `docket check` names the first entry of an earlier time than the one before it, and leaves the file as
    it is."""
    with tempfile.TemporaryDirectory() as parent:
        desk = Desk(programs, parent, SHORT_COURT)
        desk.enter([b"1,open,9,2025-03-03\n", *drawn_rows(draw, 6)])
        assert desk.call("strike", 1, "--reason", "twice", "--accept").status == 0
        desk.enter(drawn_rows(draw, 3))
        journal = desk.read()
        times = sorted(draw.randint(1_764_000_000, 1_765_500_000) for _ in journal.entries)
        for place, entry in list(enumerate(listed_in(journal)))[1:]:
            back = times[:place] + [times[place - 1] - 1] + times[place + 1:]
            data = packed([[both] for both in zip([stamp._replace(time=time) for stamp, time in zip(journal.stamps, back)], journal.entries)])
            desk.journal.write_bytes(data)
            ended = desk.call("check")
            assert ended.status == REFUSED and not ended.output and ended.errors.startswith(entry.heading + EARLIER), (place, ended)
            assert desk.journal.read_bytes() == data
        desk.journal.write_bytes(packed([[both] for both in zip([stamp._replace(time=time) for stamp, time in zip(journal.stamps, times)], journal.entries)]))
        assert desk.call("check").status == 0


def check_no_file(programs):
    """A journal that is no plain file is refused by what it is, before it is read, and so is one with another name where it would be
    written."""
    with tempfile.TemporaryDirectory() as parent:
        desk = Desk(programs, parent, SHORT_COURT)
        desk.enter([b"1,open,9,2025-03-03\n"])
        whole, aside = desk.journal.read_bytes(), pathlib.Path(parent) / "aside"
        makes = {b"a named pipe": lambda: os.mkfifo(desk.journal), b"a folder": desk.journal.mkdir, b"a device": lambda: desk.journal.symlink_to("/dev/null")}
        for what, make in makes.items():
            desk.journal.unlink()
            make()
            for words in (["log"], ["rows"], ["check"], ["ask"], ["due"], ["enter"], ["strike", 1, "--reason", "x"]):
                ended = desk.call(*words, timeout=20)
                assert ended.status == REFUSED and not ended.output and ended.errors == b"%s is %s, not a file\n" % (bytes(desk.journal), what), (what, ended)
            desk.journal.rmdir() if desk.journal.is_dir() else desk.journal.unlink()
            desk.journal.write_bytes(whole)
        os.link(desk.journal, aside)
        for words in (["enter"], ["strike", 1, "--reason", "x"], ["court change", pathlib.Path(parent) / "court.toml"]):
            ended = desk.call(*words, given=b"1,open,8,2025-03-03\n" if words == ["enter"] else b"")
            assert ended.status == REFUSED and b"another name" in ended.errors and desk.journal.read_bytes() == whole, ended
        assert desk.call("check").status == 0
        aside.unlink()
        assert desk.call("enter", given=b"1,open,8,2025-03-03\n").status == 0


def check_replaced(programs):
    """A session in whose journal's place another file is put keeps and answers no row more."""
    with tempfile.TemporaryDirectory() as parent:
        desk = Desk(programs, parent, SHORT_COURT)
        desk.enter([b"1,open,9,2025-03-03\n"])
        other = pathlib.Path(parent) / "other"
        other.write_bytes(desk.journal.read_bytes())
        session = desk.session()
        session.stdin.write(b"1,open,8,2025-03-03\n")
        session.stdin.flush()
        assert session.stdout.readline() == b"2 1 opened\n"
        was = other.read_bytes()
        os.replace(other, desk.journal)
        output, errors = session.communicate(b"1,open,7,2025-03-03\n", timeout=60)
        assert session.returncode == REFUSED and not output and errors, (session.returncode, output, errors)
        assert desk.journal.read_bytes() == was
        ended = desk.call("enter", "--all-or-nothing", given=b"1,open,7,2025-03-03\n")
        assert ended.status == 0 and not ended.errors, ended


def check_cut_off(programs):
    """After a session that was cut off the next one says so, once; after one that ended it doesn't."""
    with tempfile.TemporaryDirectory() as parent:
        desk = Desk(programs, parent, SHORT_COURT)
        for rows, said in ((0, False), (2, True)):
            session = desk.session()
            for row in range(rows):
                session.stdin.write(b"1,open,%d,2025-03-03\n" % (row + 1))
                session.stdin.flush()
                session.stdout.readline()
            while not (desk.folder / "entering-1").exists():
                time.sleep(0.01)
            session.send_signal(signal.SIGKILL)
            session.communicate()
            assert not desk.call("check").errors and not desk.call("log").errors
            ended = desk.call("enter")
            found = CUT_OFF.fullmatch(ended.errors)
            assert ended.status == 0 and (found is not None and int(found.group(1)) == rows if said else not ended.errors), (rows, ended)
            assert not desk.call("enter").errors and not list(desk.folder.glob("entering*"))


def main(words):
    programs, (seed, count) = programs_of(words[:1]), seed_and_count(words[1:], 10)
    draw = random.Random(seed)
    entries = sum(check_folder(programs, draw) + check_other(programs, draw) for _ in range(count))
    check_back(programs, draw)
    check_no_file(programs)
    check_replaced(programs)
    check_cut_off(programs)
    print("{} folders and {} entries: each says who entered it and when, and the log lists them; after a session that was cut off the next says so".format(2 * count, entries))


if __name__ == "__main__":
    if not 2 <= len(sys.argv) <= 4:
        sys.exit("usage: log_check.py DOCKET [SEED [COUNT]]")
    main(sys.argv[1:])
