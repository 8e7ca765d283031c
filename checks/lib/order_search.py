"""The search for a serial order of a run of several clerks.

It tries no order twice that comes to the same, by three facts. A query, and a command that is refused, change nothing, so
that each can be placed as soon as what it printed is right. A command that has nothing to do with any row which other
clerks have left can be placed as soon as its answer is right. And clerks whose rows that are left have nothing to do with
those of others can be placed by themselves. And it gives up where a row that is left can't come right any more.
"""
import re
from collections import namedtuple

from reference.docket import SLOTS, STEPS, Hearing, assignment_of, hearing_of, opening, ruling_of, shares_slots, step, view
from reference.text_out import answer_lines, booking_line, closing_lines

# A row, and the lines of the answer to it. `reads` and `writes` are sets of parts of the docket, a bit each.
Item = namedtuple("Item", "row work lines reads writes")

# The docket, how many commands of each clerk were placed, the queries after them that aren't shown yet, and the numbers
# of the rows that were placed, as pairs of what stood before and a number.
Moment = namedtuple("Moment", "docket places waiting order")

FULL = ["journal full"]
MOST_MOMENTS = 4000


class NoOrder(Exception):
    """No serial order explains the run, or none was found among as many moments as are looked at; it says which."""


class Parts:
    """The parts of the docket that rows look at and change, as sets of bits; two rows that share none commute.

    An answer narrows them: a refused row changes nothing, and what was refused first was looked at alone.
    """

    def __init__(self, rows, told):
        self.bits = {}
        # of each motion the times for which its hearing was set
        self.times = {}
        for row, lines in zip(rows, told):
            if lines in (["booked"], ["moved"]):
                motion = row.work[1:3]
                self.times[motion] = self.times.get(motion, 0) | self.at_times(row.work)

    def set_of(self, *names):
        bits = 0
        for name in names:
            bits |= 1 << self.bits.setdefault(name, len(self.bits))
        return bits

    def at_times(self, work):
        """The slots of a hearing before each judge and in the room, and those calendars of that day."""
        judges, room, day, first, count = work[3:8]
        places = [("judge", judge) for judge in judges] + [("room", room)]
        slots = [(place, day, slot) for place in places for slot in range(first, min(first + count, SLOTS))]
        return self.set_of(*slots, *[(place, day) for place in places])

    def of(self, work, lines):
        """The parts that a row looks at, and those that it changes."""
        word, first = work[0], lines[0].split(" ")
        refusal = int(first[1]) if first[0] == "refused" else None
        if word in ("holiday", "inaccessible"):
            reads = writes = self.set_of("court")
            reads |= self.set_of("hearings")
        elif word in ("calendar", "compute"):
            reads = self.set_of("court") if word == "compute" else self.set_of((("judge", work[1]), work[2]))
            writes = 0
        else:
            reads, writes = self.of_case(work, first, refusal)
        return reads, 0 if refusal else writes

    def of_case(self, work, first, refusal):
        word, case = work[:2]
        here, changed = self.set_of(("case", case)), self.set_of(("sheet", case))
        if word == "open":
            return here, here | changed
        if refusal == 1:
            return here, 0
        if word == "sheet":
            return here | changed | self.set_of("court"), 0
        if word in ("motion", "start"):
            count = self.set_of((word, case), *["court"] * (word == "start"))
            made = self.set_of((word, case, int(first[1]))) if not refusal else 0
            return here | count, self.set_of((word, case)) | made | changed
        if word in ("close", "reopen"):
            return here | self.set_of(("facts", case), "court", "hearings"), here | changed
        if word == "assign":
            facts = self.set_of(("facts", case))
            return here | facts | self.set_of("court"), facts | changed
        if word == "title":
            return here | self.set_of(("facts", case), "court"), 0
        if word == "label":
            named = self.set_of(("start" if work[2] == "deadline" else "motion", case, work[3]))
            return here | named | self.set_of(("facts", case), "court"), 0
        if word in ("end", "resume"):
            deadline, facts = self.set_of(("start", case, work[2])), self.set_of(("facts", case))
            anew = deadline if word == "resume" and work[3] is not None else 0
            return here | deadline | facts | self.set_of("court"), facts | anew | changed
        if word == "rule":
            return self.of_ruling(work, first, here | self.set_of(("motion", case, work[2])), changed)
        if word in ("file", "extend"):
            deadline = self.set_of(("start", case, work[2]))
            return here | deadline | (self.set_of("court") if refusal != 3 else 0), deadline | changed
        return self.of_hearing(work, refusal, here | self.set_of(("motion", case, work[2])), changed)

    def of_ruling(self, work, first, there, changed):
        """A ruling changes the hearing of its motion where it took it off."""
        motion = work[1:3]
        hearing, facts, times = self.set_of(("hearing",) + motion), self.set_of(("facts", motion[0])), self.times.get(motion, 0)
        taken = hearing | times | self.set_of("hearings") if first[0] == "ruled," else 0
        return there | hearing | facts | times | self.set_of("court"), facts | changed | taken

    def of_hearing(self, work, refusal, there, changed):
        motion = work[1:3]
        hearing = self.set_of(("hearing",) + motion)
        writes = hearing | changed | self.set_of("hearings")
        if refusal == 4:
            return there, 0
        if refusal in (15, 16):
            return there | hearing, 0
        if work[0] == "cancel":
            return there | hearing | self.times.get(motion, 0), writes | self.times.get(motion, 0)
        times = self.at_times(work)
        old = self.times.get(motion, 0) if work[0] == "move" else 0
        return there | hearing | times | self.set_of("court"), writes | times | old


class Search:
    """The search for an order of one run. Rows, answers and the closing text are those of the run."""

    def __init__(self, court, rows, clerks, told, closing):
        self.court, self.closing = court, closing
        # of each clerk the commands, and the queries that come after as many of them
        self.commands = [[] for _ in range(clerks)]
        self.queries = [[[]] for _ in range(clerks)]
        self.parts = parts = Parts(rows, told)
        for number, (row, lines) in enumerate(zip(rows, told), 1):
            if lines == FULL:
                continue
            item = Item(number, row.work, lines, *parts.of(row.work, lines))
            if row.work[0] not in STEPS:
                self.queries[row.clerk - 1][-1].append(item)
            else:
                self.commands[row.clerk - 1].append(item)
                self.queries[row.clerk - 1].append([])
        self.later = [self.parts_later(clerk) for clerk in range(clerks)]
        # the line of each motion's hearing in the calendars after the answers
        self.last_lines = {}
        for line in closing:
            found = re.match(r"\d{4}-.* case (\d+) motion (\d+) room ", line)
            if found:
                self.last_lines[int(found[1]), int(found[2])] = line

    def parts_later(self, clerk):
        """The parts of a clerk's rows from each of its commands on."""
        parts = [NOTHING]
        for item, queries in reversed(list(zip(self.commands[clerk], self.queries[clerk][1:]))):
            parts.append(joined([parts[-1], item] + queries))
        return parts[::-1]

    def found(self):
        """The numbers of the rows of a journal that explains the run."""
        clerks = range(len(self.commands))
        docket = opening(self.court)
        waiting = tuple(self.not_shown(docket, self.queries[clerk][0]) for clerk in clerks)
        stack, seen = [Moment(docket, (0,) * len(clerks), waiting, None)], set()
        while stack:
            moment = self.advanced(stack.pop())
            if self.is_end(moment):
                return numbers_in(moment.order)
            key = key_of(moment)
            if key in seen:
                continue
            seen.add(key)
            if len(seen) > MOST_MOMENTS:
                raise NoOrder("no order was found in {} moments".format(MOST_MOMENTS))
            stack += reversed(self.next_moments(moment))
        raise NoOrder("no order explains the answers")

    def is_end(self, moment):
        placed = all(place == len(commands) for place, commands in zip(moment.places, self.commands))
        return placed and not any(moment.waiting) and closing_lines(self.court, moment.docket) == self.closing

    def head(self, moment, clerk):
        """The clerk's next command, or None."""
        commands, place = self.commands[clerk], moment.places[clerk]
        return commands[place] if place < len(commands) else None

    def clerks_in_order(self, moment):
        """The clerks who have commands left, in the order of their next ones."""
        heads = [(self.head(moment, clerk), clerk) for clerk in range(len(self.commands))]
        return [clerk for item, clerk in sorted((item.row, clerk) for item, clerk in heads if item is not None)]

    def left(self, moment, clerk):
        """The parts of the rows that a clerk has left."""
        return joined([self.later[clerk][moment.places[clerk]], *moment.waiting[clerk]])

    def not_shown(self, docket, queries):
        """Those of the queries that would be answered otherwise by this docket."""
        return tuple(query for query in queries
                     if answer_lines(self.court, docket, view(self.court, docket, query.work)) != query.lines)

    def placed(self, moment, clerk):
        """The moment after the clerk's next command, or None where it is answered otherwise."""
        item = self.head(moment, clerk)
        if moment.waiting[clerk]:
            return None
        docket, answer = step(self.court, moment.docket, item.work)
        if answer_lines(self.court, docket, answer) != item.lines:
            return None
        place = moment.places[clerk] + 1
        waiting = [queries if not any(item.writes & query.reads for query in queries) else self.not_shown(docket, queries)
                   for queries in moment.waiting]
        waiting[clerk] = self.not_shown(docket, self.queries[clerk][place])
        places = moment.places[:clerk] + (place,) + moment.places[clerk + 1:]
        after = Moment(docket, places, tuple(waiting), (moment.order, item.row))
        return None if item.writes and self.is_dead(after, item) else after

    def is_dead(self, moment, item):
        """Whether a row that is left can't be answered as it was any more, since this command was placed before it."""
        once, twice = self.written_later(moment)
        if item.work[0] in ("book", "move", "cancel"):
            motion = item.work[1:3]
            if not once & self.parts.set_of(("hearing",) + motion) and self.is_wrong_for_ever(moment, motion):
                return True
        if item.work[0] in ("motion", "start") and any(is_too_short(query, item) for query in self.queries_left(moment)):
            return True
        return any(row.reads & item.writes and not row.reads & (once & ~row.writes | twice) and self.is_wrong(moment, row)
                   for row in self.rows_left(moment))

    def written_later(self, moment):
        """The parts that commands which are left change, and those that more than one of them changes."""
        once = twice = 0
        for row in self.rows_left(moment):
            once, twice = once | row.writes, twice | once & row.writes
        return once, twice

    def rows_left(self, moment):
        for clerk, place in enumerate(moment.places):
            yield from self.commands[clerk][place:]

    def queries_left(self, moment):
        for clerk, place in enumerate(moment.places):
            yield from moment.waiting[clerk]
            for queries in self.queries[clerk][place + 1:]:
                yield from queries

    def is_wrong(self, moment, row):
        docket, answer = step(self.court, moment.docket, row.work)
        return answer_lines(self.court, docket, answer) != row.lines

    def is_wrong_for_ever(self, moment, motion):
        """Whether the motion's hearing, which no row that is left changes, can't be what was printed of it."""
        hearing = hearing_of(moment.docket, *motion)
        line = None if hearing is None else booking_line(self.court, hearing)
        if line != self.last_lines.get(motion):
            return True
        named = " {} {}".format(*motion)
        for row in self.rows_left(moment):
            if row.work[0] in ("book", "move"):
                clash = hearing is not None and clashes(hearing, Hearing(*row.work[1:]))
                if clash if row.writes else row.lines[0].endswith("Busy" + named) and not clash:
                    return True
        return any(shows_other(query, motion, hearing, line) for query in self.queries_left(moment))

    def is_apart(self, moment, clerk):
        """Whether the clerk's next command commutes with all rows that other clerks have left."""
        item = self.head(moment, clerk)
        return item.writes == 0 or not any(meet(item, self.left(moment, other)) for other in range(len(self.commands))
                                           if other != clerk)

    def advanced(self, moment):
        """The moment after all commands that can be placed without a choice."""
        went_on = True
        while went_on:
            went_on = False
            for clerk in self.clerks_in_order(moment):
                after = self.placed(moment, clerk) if self.is_apart(moment, clerk) else None
                if after is not None:
                    moment, went_on = after, True
        return moment

    def next_moments(self, moment):
        """The moments that may come next, of clerks whose rows have nothing to do with those of any others."""
        clerks = self.clerks_in_order(moment)
        if not clerks:
            return []
        parts = {clerk: self.left(moment, clerk) for clerk in range(len(self.commands))}
        group, grown = {clerks[0]}, [clerks[0]]
        while grown:
            one = grown.pop()
            near = [other for other in parts if other not in group and meet(parts[one], parts[other])]
            group.update(near)
            grown += near
        after = [self.placed(moment, clerk) for clerk in clerks if clerk in group]
        return [one for one in after if one is not None]


NOTHING = Item(0, (), [], 0, 0)


def joined(items):
    """The parts of all of them."""
    reads = writes = 0
    for item in items:
        reads, writes = reads | item.reads, writes | item.writes
    return NOTHING._replace(reads=reads, writes=writes)


def meet(one, other):
    """Whether one of them changes a part that the other looks at or changes."""
    return bool(one.writes & (other.reads | other.writes) or one.reads & other.writes)


def clashes(hearing, asked):
    """Whether both want a judge or the room at the same time."""
    shared = hearing.room == asked.room or set(hearing.judges) & set(asked.judges)
    return bool(shared) and shares_slots(hearing, asked)


def is_too_short(query, item):
    """Whether a sheet lacks the motion or the deadline that this command entered in its case."""
    entered = item.lines[0].split(" ")[:2]
    return (query.work == ("sheet", item.work[1]) and query.lines[0] == "sheet"
            and not any(line.split(" ")[:2] == entered for line in query.lines))


def shows_other(query, motion, hearing, line):
    """Whether a calendar or a sheet that has the motion shows its hearing otherwise."""
    if query.work == ("sheet", motion[0]):
        at = next((at for at, shown in enumerate(query.lines) if shown.startswith("motion {} ".format(motion[1]))), None)
        if at is None:
            return hearing is not None
        below = query.lines[at + 1:at + 2]
        shown = below and below[0].startswith("hearing ")
        return bool(shown) != (hearing is not None) or shown and line.split(" ")[:3] != below[0].split(" ")[1:4]
    if query.work[0] != "calendar":
        return False
    here = hearing is not None and hearing.day == query.work[2] and query.work[1] in hearing.judges
    named = " case {} motion {} room ".format(*motion)
    return [shown for shown in query.lines if named in shown] != ([line] if here else [])


def key_of(moment):
    """What tells moments apart: where they come to the same, only one is gone on from."""
    days, *lists = moment.docket
    days = [sorted(map(str, dates)) for dates in (days.federal, days.state, days.outages)]
    rows = [sorted(map(str, items)) for items in lists]
    # of two rulings on a motion the later row counts, and of two assignments of one day
    ruled = sorted(str(ruling_of(moment.docket, motion.case, motion.number)) for motion in moment.docket.motions)
    assigned = sorted(str(assignment_of(moment.docket, case.number)) for case in moment.docket.cases)
    return moment.places, tuple(query.row for queries in moment.waiting for query in queries), hash(str((days, rows, ruled, assigned)))


def numbers_in(order):
    numbers = []
    while order is not None:
        order, number = order
        numbers.append(number)
    return numbers[::-1]
