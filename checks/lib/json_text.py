"""The text of clerk_office, written from the JSON of docket alone."""

WORDS = {"holiday": "holiday entered", "outage": "outage entered"}


def shown(o):
    if o["last_day"] is not None:
        return "last " + o["last_day"]
    return "beyond" if o["end"] is None else "until {} {}".format(o["end"][:10], o["end"][11:19])


def refused(refusal):
    detail = [str(refusal[key]) for key in ("day", "case", "motion") if refusal[key] is not None]
    return " ".join(["refused", str(refusal["number"]), refusal["name"], *detail])


def period(deadline):
    e = deadline["entered"]
    if deadline["period"] == "set":
        assert (e["days"], e["hours"], e["direction"], e["from"], e["mark"]) == (None, None, "after", "event", "plain"), e
        return "set/" + e["act"]
    if deadline["period"] is not None:
        return deadline["period"]
    length = "{}d".format(e["days"]) if e["days"] is not None else "{}h".format(e["hours"])
    return "/".join([length, e["direction"], e["act"], e["from"], e["mark"]])


def span(o):
    quarters = o["minutes"] // 15
    return "{} {} {}".format(o["day"], o["time"], "{}q".format(quarters) if quarters % 2 else quarters // 2)


def booking_line(b):
    return "{} case {} motion {} room {}".format(span(b), b["case"], b["motion"], b["room"])


def state(d, done):
    """The state of a deadline, with the act that was done, and why it is due no more, where it was ended."""
    if "ended" not in d:
        return d["state"] + done
    ended = d["ended"] + (" by motion {}".format(d["suspended_by"]) if "suspended_by" in d else "")
    return d["state"] + done + ", ended " + ended if done else "ended " + ended


def sheet_lines(sheet):
    yield "case {} filed {}".format(sheet["case"], sheet["filed"]) + (", closed {closed} {closing}".format(**sheet) if "closed" in sheet else "")
    if "assigned" in sheet:
        yield "assigned " + sheet["judge"] + (", referred to " + sheet["referred"] if sheet["referred"] is not None else "")
    for d in sheet["deadlines"]:
        filed = d["filed"]
        done = "" if filed is None else " {day} {time} {means}".format(**filed)
        yield "deadline {} {} {} {}".format(d["number"], period(d), shown(d), state(d, done))
    for m in sheet["motions"]:
        need = "exparte" if m["notice_days"] is None else m["notice_days"]
        ruled = ", {ruling} {ruled}".format(**m) if "ruling" in m else ""
        yield "motion {} served {} need {}{}".format(m["number"], m["served"], need, ruled)
        h = m["hearing"]
        if h is not None:
            yield "hearing {} {} {} notice {} affidavits {}".format(span(h), "+".join(h["judges"]), h["room"], h["notice"],
                                                                  h["affidavits"] or "none")


def answer_lines(a):
    kind = a["kind"]
    if kind == "deadline":
        yield "deadline {} {}".format(a["number"], shown(a))
    elif kind == "filed":
        yield "filed timely" if a["timely"] else "filed late"
    elif kind in ("extended", "reset", "resumed"):
        yield kind + " " + shown(a)
    elif kind == "ruled":
        yield "ruled" if a["hearing_cancelled"] is None else "ruled, hearing of {} cancelled".format(a["hearing_cancelled"])
    elif kind == "motion":
        yield "motion {}".format(a["number"])
    elif kind == "refused":
        yield refused(a["refusal"])
    elif kind == "sheet":
        yield "sheet"
        yield from sheet_lines(a["sheet"])
    elif kind == "calendar":
        yield "calendar"
        yield from map(booking_line, a["bookings"])
    else:
        yield shown(a) if kind == "computed" else WORDS.get(kind, kind)


def office_text(whole):
    """The text of clerk_office, written from the JSON alone."""
    lines = []
    for a in whole["answers"]:
        first, *others = answer_lines(a)
        lines += ["{} {} {}".format(a["row"], a["clerk"], first), *others]
    for sheet in whole["cases"]:
        lines += sheet_lines(sheet)
    bookings = {c["judge"]: c["bookings"] for c in whole["calendars"]}
    for judge in whole["court"]["judges"]:
        lines += ["judge " + judge, *map(booking_line, bookings.pop(judge, []))]
    return None if bookings else "".join(line + "\n" for line in lines)
