"""The text of a run: a line for each answer, the lines of sheets, and those of calendars."""
from .civil import civil, day_text, minute_text
from .docket import SLOT, assignment_of, calendar_of, case_of, closing_of, deadlines_of, ending_of, hearing_of, motions_of, ruling_of
from .periods import shown
from .rule6 import BEYOND, is_timely, notice_day

NAMES = {1: "NoSuchCase", 2: "CaseIsOpen", 3: "NoSuchDeadline", 4: "NoSuchMotion", 5: "BadDay", 6: "BadLength",
         7: "WrongService", 8: "Beyond", 9: "AlreadyMet", 10: "NotExtendable", 11: "NoGoodCause",
         12: "LateWithoutMotion", 13: "LateWithoutNeglect", 14: "NotLonger", 15: "AlreadySet", 16: "NotSet",
         17: "NotACourtDay", 18: "OutsideHours", 19: "ShortNotice", 20: "JudgeBusy", 21: "RoomBusy",
         22: "AlreadyHoliday", 23: "HearingThatDay", 24: "NoticeLost", 25: "Full", 26: "NoSuchJudge",
         27: "NoSuchRoom", 28: "WrongGrant", 29: "BadPanel", 30: "CaseIsClosed", 31: "NotClosed", 32: "HearingAhead", 33: "AlreadyEnded", 34: "NotEnded"}


def answer_lines(court, rows, answer):
    """The lines of an answer or a view; `rows` are those before a query and after a command."""
    word, rest = answer[0], answer[1:]
    if word == "refused":
        return [refusal_text(*rest)]
    if word == "started":
        return ["deadline {} {}".format(rest[0], shown_text(court, rest[1]))]
    if word == "filed":
        return ["filed timely" if rest[0] else "filed late"]
    if word in ("extended", "reset", "resumed"):
        return [word + " " + shown_text(court, rest[0])]
    if word == "ruled":
        return ["ruled" if rest[0] is None else "ruled, hearing of {} cancelled".format(day_text(rest[0]))]
    if word == "motion":
        return ["motion {}".format(rest[0])]
    if word == "computed":
        return [shown_text(court, rest[0])]
    if word == "sheet":
        return ["sheet"] + sheet_lines(court, rows, rest[0])
    if word == "calendar":
        return ["calendar"] + [booking_line(court, hearing) for hearing in rest[0]]
    return [word]


def refusal_text(number, *rest):
    after = [day_text(day) for day in rest] if number == 19 else [str(part) for part in rest]
    return " ".join(["refused", str(number), NAMES[number]] + after)


def shown_text(court, end):
    if end == BEYOND:
        return "beyond"
    if end.kind == "last":
        return "last " + day_text(end.end)
    day, second = civil(court.clock.zone, end.end)
    return "until {} {}:{:02}".format(day_text(day), minute_text(second // 60), second % 60)


def slots_text(count):
    return str(count // 2) if count % 2 == 0 else "{}q".format(count)


def panel_text(court, judges):
    return "+".join(court.judges[judge] for judge in judges)


def booking_line(court, hearing):
    return "{} {} {} case {} motion {} room {}".format(
        day_text(hearing.day), minute_text(SLOT * hearing.first), slots_text(hearing.count), hearing.case,
        hearing.motion, court.rooms[hearing.room])


def deadline_line(court, rows, deadline):
    row = deadline.row
    now = shown(rows.days, court.clock, row)
    text = "deadline {} {} {} ".format(deadline.number, row.period.text, shown_text(court, now))
    ended = ending_of(rows, deadline.case, deadline.number)
    if row.filed is None:
        return text + ("pending" if ended is None else "ended " + ended)
    if now == BEYOND:
        state = "undecided"
    else:
        state = "timely" if is_timely(court.clock, now, row.period.act, row.filed) else "late"
    text += "{} {} {} {}".format(state, day_text(row.filed.day), minute_text(row.filed.minute), row.filed.means)
    return text if ended is None else "{}, ended {}".format(text, ended)


def hearing_line(court, rows, hearing):
    affidavits = notice_day(rows.days, hearing.day, 7)
    return "hearing {} {} {} {} {} notice {} affidavits {}".format(
        day_text(hearing.day), minute_text(SLOT * hearing.first), slots_text(hearing.count),
        panel_text(court, hearing.judges), court.rooms[hearing.room], day_text(hearing.notice),
        "none" if affidavits is None else day_text(affidavits))


def assigned_text(court, rows, number):
    """Who has a case, and to whom it is referred. Empty where it isn't assigned."""
    assignment = assignment_of(rows, number)
    if assignment is None:
        return ""
    referred = "" if assignment.referred is None else ", referred to " + court.judges[assignment.referred]
    return "assigned " + court.judges[assignment.judge] + referred


def sheet_lines(court, rows, number):
    closed = closing_of(rows, number)
    how = "" if closed is None else ", closed {} {}".format(day_text(closed.dated), closed.why)
    lines = ["case {} filed {}{}".format(number, day_text(case_of(rows, number).filed), how)]
    lines += [text for text in [assigned_text(court, rows, number)] if text]
    lines += [deadline_line(court, rows, deadline) for deadline in deadlines_of(rows, number)]
    for motion in motions_of(rows, number):
        need = "exparte" if motion.need is None else motion.need
        ruled = ruling_of(rows, number, motion.number)
        how = "" if ruled is None else ", {} {}".format(ruled.how, day_text(ruled.dated))
        lines.append("motion {} served {} need {}{}".format(motion.number, day_text(motion.served), need, how))
        hearing = hearing_of(rows, number, motion.number)
        if hearing is not None:
            lines.append(hearing_line(court, rows, hearing))
    return lines


def closing_lines(court, rows):
    """The sheets of all open cases by number, then the judges' calendars in the order of the court's file."""
    lines = []
    for case in sorted(rows.cases, key=lambda case: case.number):
        lines += sheet_lines(court, rows, case.number)
    for judge, name in enumerate(court.judges):
        lines.append("judge " + name)
        lines += [booking_line(court, hearing) for hearing in calendar_of(rows, judge)]
    return lines
