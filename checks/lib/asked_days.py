"""The first and the last day that words ask for."""
import datetime


def asked_days(chance, days, first, last, often):
    """A first and a last day of a report at random, from the days of what it may show, and the words that ask for them. What isn't asked
    for is the first or the last day that the court's file covers."""
    asked = {}
    if chance.random() < often:
        asked["--from"] = chance.choice(days)
    if chance.random() < often:
        asked["--to"] = min(chance.choice(days) + datetime.timedelta(chance.randrange(8)), last)
    if len(asked) == 2 and asked["--to"] < asked["--from"]:
        asked = {"--from": asked["--to"], "--to": asked["--from"]}
    words = [word for name, day in asked.items() for word in (name, str(day))]
    return asked.get("--from", first), asked.get("--to", last), words


def counted_days(chance, days):
    """A first and a last day at random, that number of days from a day that counts as today, and the words that ask for them."""
    today, count = chance.choice(days) - datetime.timedelta(chance.randrange(8)), chance.randint(1, 40)
    return today, today + datetime.timedelta(count - 1), ["--days", str(count), "--today", str(today)]


def missing_days(first, last, court_first, court_last):
    """What is said of a first and a last day of which one isn't covered, or which are the wrong way round; None where both are there."""
    for day in (first, last):
        if not court_first <= day <= court_last:
            return "{} isn't covered: the court's file covers {} to {}".format(day, court_first, court_last)
    return "the last day, {}, is before the first, {}".format(last, first) if last < first else None
