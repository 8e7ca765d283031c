#!/usr/bin/env python3
"""Cuts a desk's journal at every byte, changes each of its bytes, and damages a larger one as disks and people do.

    desk_damage.py DOCKET [SEED [COUNT]]

A journal of COUNT entries (200 without it), drawn from SEED, is cut after each of its bytes, and each byte is changed to
another and to that of a shut latch. One of 15 times as many entries has each sector of 512 bytes and each page of 4,096 zeroed,
each sector exchanged with another, doubled over the next, and taken from another journal; it is cut before each sector, it gets the
sectors that it had before its last rows back, and other journals and other files are joined to it or put in its place.
The desk must then say what the reader in lib/journal.py finds: the number of the entry that is damaged, with status 10 and the
file as it was; or the journal is opened with the first of its rows and their answers, and never with others. No changed byte hides an
entry, and of the larger journal's damage nothing does but what a crash may leave: a file of at most two bytes, and one whose last
batch isn't there. A file without entries is no journal: status 10, and it is as it was. It needs Python 3.8 or later.
"""
import concurrent.futures
import itertools
import os
import random
import sys
import tempfile
from collections import Counter

from lib.desk import Desk, REFUSED, SHORT_COURT, drawn_rows
from lib.journal import SHUT, Damaged, Stamp, packed, read_journal, rows_of
from lib.programs import programs_of, seed_and_count

# How many desks are asked at the same time.
WORKERS = max(2, os.cpu_count() or 2)
REFUSES, WHOLE, FEWER = "refused with their number", "opened with all rows", "opened with fewer rows"
# The larger journal has this many times as many entries, and these are the sizes of what a disk loses as a whole.
TIMES_LARGER, SECTOR, PAGE = 15, 512, 4_096


def fill(desk, draw, count):
    """Enters rows until the journal has this many entries, in batches of different sizes."""
    rows = drawn_rows(draw, count - 1)
    at = 0
    while at < len(rows):
        size = draw.choice([1, 1, 2, 5])
        desk.enter(rows[at:at + size])
        at += size


def files_of(data, draw, last):
    """Each cut file, and each with a byte changed, with the place, for this many of its last bytes."""
    for at in range(len(data) - last, len(data)):
        yield "cut at", at, data[:at]
    for at in range(len(data) - last, len(data)):
        others = [data[at] ^ draw.randint(1, 255)] + ([SHUT[0]] if data[at] != SHUT[0] else [])
        for byte in others:
            yield "changed at", at, data[:at] + bytes([byte]) + data[at + 1:]


def larger_damage(data, other, before, draw):
    """Files that disks and people make of a journal: with the place, and the other journal and the older one that are used for it."""
    for size, name in ((SECTOR, "sector"), (PAGE, "page")):
        for at in range(0, len(data), size):
            yield "zeroed " + name, at, data[:at] + bytes(len(data[at:at + size])) + data[at + size:]
    places = range(0, len(data) - SECTOR, SECTOR)
    for at in places:
        sector, far = data[at:at + SECTOR], draw.choice(places)
        files = {
            "exchanged": put(put(data, at, data[far:far + SECTOR]), far, sector),
            "doubled": put(data, at + SECTOR, sector[:len(data) - at - SECTOR]),
            "foreign": put(data, at, other[at:at + SECTOR]),
            "random": put(data, at, bytes(draw.choices(range(256), k=SECTOR))),
            "cut": data[:at],
            "not written": put(data, at, before[at:at + SECTOR]),
        }
        for how, left in files.items():
            if left != data:
                yield how, at, left
    for at in range(SECTOR, len(before), SECTOR):
        yield "old tail", at, data[:at] + before[at:]
    for how, left in (("joined", data + other), ("joined with itself", data + data), ("joined to", other + data), ("text", b"Dear diary,\n" * 40),
                      ("gzip", b"\x1f\x8b\x08\x00" + draw.getrandbits(8_000).to_bytes(1_000, "big")), ("a byte before", b"-" + data), ("a line end after", data[:-2] + b"\n")):
        yield how, 0, left


def put(data, at, part):
    """These bytes with others from a place on, and no longer than they are."""
    return data[:at] + part + data[at + len(part):]


def found(data):
    """What the reader finds: the number of the damaged entry, or the rows."""
    try:
        return read_journal(data), None
    except Damaged as damaged:
        return None, damaged.number


def check_file(desk, rows, data):
    """Whether the desk says of these bytes what the reader finds, and which of the three that is."""
    desk.journal.write_bytes(data)
    journal, number = found(data)
    ended = desk.call("rows")
    assert desk.journal.read_bytes() == data, "the file was written to, where it is only read"
    if number is not None:
        wanted = "entry {}".format(number).encode()
        for ended in (ended, desk.call("enter")):
            assert ended.status == REFUSED and not ended.output and wanted in ended.errors, (number, ended)
        assert desk.journal.read_bytes() == data, "the damaged file was written to"
        return REFUSES
    kept = rows_of(journal)
    assert kept == rows[:len(kept)], "other rows were found than were kept"
    if not journal.entries:
        for ended in (ended, desk.call("enter")):
            assert ended.status == REFUSED and not ended.output and b"no journal" in ended.errors, ended
        assert desk.journal.read_bytes() == data and not desk.cut(), "a file without entries was written to"
        return FEWER
    assert ended.status == 0, ended
    assert ended.output == desk.input_of(row for row, _ in kept), ended.output
    return WHOLE if len(kept) == len(rows) else FEWER


def check_part(programs, court, data, files):
    """Checks files in a folder of their own: what came of each."""
    rows = rows_of(read_journal(data))
    with tempfile.TemporaryDirectory() as parent:
        desk = Desk(programs, parent, court)
        return [(how, at, check_file(desk, rows, left)) for how, at, left in files]


def results_of(programs, data, files, draw):
    """What came of each damaged file of a journal, by several desks at the same time. `files` makes them by a draw, the same each
    time, so that no more than one for each desk is in memory."""
    seed = draw.random()
    with concurrent.futures.ThreadPoolExecutor(WORKERS) as pool:
        ended = pool.map(lambda part: check_part(programs, SHORT_COURT, data, itertools.islice(files(random.Random(seed)), part, None, WORKERS)), range(WORKERS))
        return [result for part in ended for result in part]


def told_of(count, data, results):
    counts = Counter((how, result) for how, at, result in results)
    told = ", ".join("{} {} and {}".format(number, how, result) for (how, result), number in sorted(counts.items()))
    return "a journal of {} entries and {} bytes: {}".format(count, len(data), told)


def filled(programs, draw, count):
    """The bytes of a journal of this many entries, and what they were before its last batches."""
    with tempfile.TemporaryDirectory() as parent:
        desk = Desk(programs, parent, SHORT_COURT)
        fill(desk, draw, count - count // 10)
        before = desk.journal.read_bytes()
        fill(desk, draw, count // 10 + 1)
        data = desk.journal.read_bytes()
    assert len(read_journal(data).entries) == count
    return data, before


def damaged(programs, draw, count, last=None):
    """Damages a journal of this many entries, in its last bytes or in all, and says what came of it."""
    data, _ = filled(programs, draw, count)
    results = results_of(programs, data, lambda again: files_of(data, again, last or len(data)), draw)
    hidden = {at for how, at, result in results if how == "changed at" and result == FEWER}
    assert not hidden, hidden
    return told_of(count, data, results)


def damaged_larger(programs, draw, count):
    """Damages a larger journal as disks and people do, and says what came of it."""
    data, before = filled(programs, draw, count)
    stamp = Stamp(1_760_000_000, b"someone@elsewhere (1001)")
    other = packed([[(stamp, SHORT_COURT)]] + [[(stamp, row + b"row")] for row in drawn_rows(draw, count)])
    results = results_of(programs, data, lambda again: larger_damage(data, other, before, again), draw)
    silent = Counter(how for how, at, result in results if result == FEWER)
    # What a crash may leave: nothing yet, the last batch without its latch, and, as old tails, the file as it was.
    assert silent["cut"] == 1 and silent["not written"] <= 1 and set(silent) <= {"cut", "not written", "old tail"}, silent
    return told_of(count, data, results)


def main(words):
    seed, count = seed_and_count(words[1:], 200)
    programs = programs_of(words[:1])
    print(damaged(programs, random.Random(seed), count))
    print(damaged_larger(programs, random.Random(seed), TIMES_LARGER * count))


if __name__ == "__main__":
    if not 2 <= len(sys.argv) <= 4:
        sys.exit("usage: desk_damage.py DOCKET [SEED [COUNT]]")
    main(sys.argv[1:])
