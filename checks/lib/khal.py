"""What Debian's khal, a calendar program, shows of calendars that are imported into it."""
import subprocess
import tempfile
from pathlib import Path

KHAL_CONFIG = """[calendars]
[[court]]
path = {folder}/court
[locale]
local_timezone = {zone}
default_timezone = {zone}
timeformat = %H:%M
dateformat = %Y-%m-%d
longdateformat = %Y-%m-%d
datetimeformat = %Y-%m-%d %H:%M
longdatetimeformat = %Y-%m-%d %H:%M
[default]
default_calendar = court
[sqlite]
path = {folder}/khal.db
"""


def khal_line(item):
    if item.ends is None:
        return "{}|{}|{}".format(item.day, clock_time(item.begins[1]) if item.begins else "", item.summary)
    return "{}|{}-{}|{}".format(item.day, clock_time(item.begins[1]), clock_time(item.ends[1]), item.summary)


def clock_time(second):
    return "{:02}:{:02}".format(second // 3600 % 24, second // 60 % 60)


def khal_lines(calendars, zone):
    """What khal lists of calendars that are imported one after another, in the zone of that name."""
    with tempfile.TemporaryDirectory() as folder:
        Path(folder, "court").mkdir()
        Path(folder, "config").write_text(KHAL_CONFIG.format(folder=folder, zone=zone))
        khal = ["khal", "-c", folder + "/config"]
        for data in calendars:
            Path(folder, "a.ics").write_bytes(data)
            subprocess.run(khal + ["import", "--batch", folder + "/a.ics"], check=True, stdout=subprocess.DEVNULL)
        listed = subprocess.run(khal + ["list", "--notstarted", "--day-format", "", "--format",
                                        "{start-date}|{start-time}|{end-time}|{title}", "2024-01-01", "2028-06-30"],
                                check=True, stdout=subprocess.PIPE).stdout.decode()
    # what goes on past midnight is listed on both days
    return sorted({khal_read(line) for line in listed.splitlines() if line})


def khal_read(line):
    """A line of khal's list. It gives an hour to what has no end, as the end of a deadline in hours, so that isn't looked at."""
    day, begins, ends, title = line.split("|", 3)
    return "{}|{}|{}".format(day, begins if begins == ends or " deadline " in title else begins + "-" + ends, title)
