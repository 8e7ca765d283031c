#!/usr/bin/env python3
"""Looks at pages that docket writes with programs of others: a browser and an HTML checker.

    page_check.py DOCKET CLERK_OFFICE [SEED [COUNT]]

Inputs are made at random, and half of them are entered into a folder, in which cases have names; one has the longest names that
there may be. For each page, and for that of the memo,
- `tidy` finds nothing;
- the text that Chromium shows is that of the page, so nothing is lost by its reading, and no policy keeps it back;
- at 360, 768 and 1280 pixels nothing is wider than the window, with all reasons folded and unfolded;
- lib/pages.py finds nothing: the order of headings, tables and their heads, links, contrast.

It needs Python 3.8 and Debian's packages `chromium` and `tidy`. The status is 0 where all is well.
"""
import pathlib
import random
import re
import subprocess
import sys
import tempfile

from lib.desk import Desk, divided
from lib.given_docket import folder_of, given_docket
from lib.made_inputs import INPUTS, made_input
from lib.pages import faults_of, read
from lib.programs import programs_of, run, seed_and_count

CHROMIUM = ["chromium", "--headless", "--no-sandbox", "--disable-gpu", "--allow-file-access-from-files",
            "--virtual-time-budget=5000", "--dump-dom"]
WIDTHS = [360, 768, 1280]
KINDS = [name for name in INPUTS if name not in ("row_faults", "court_faults")]
LONG, LONG_CASE = ["Calloway-Montgomery_von.Humboldt", "Wwwwwwwwwwwwwwwwwwwwwwwwwwwwwwww"], "9:25-wm-99999-WWW-WWWW-WWW-WWWW"
# Frames of these widths round the page; the title tells how wide the page is in each.
FRAMES = """<!DOCTYPE html><html><head><title>none</title></head><body>{frames}<script>
window.onload = () => {{ document.title = "wide " + [...document.querySelectorAll("iframe")].map(
  f => f.contentDocument.documentElement.scrollWidth).join(" "); }};
</script></body></html>"""


def long_names(programs, parent):
    """A folder with the longest names, also of a case, a hearing before them, a deadline of each kind of words, and two that
    another reading ends on another day or at another time."""
    listed = ", ".join('"{}"'.format(name) for name in LONG)
    text = ('zone = "EST5EDT,M3.2.0/2,M11.1.0/2"\nopens = "09:00"\ncloses = "17:00"\nfrom = "2025-01-01"\nto = "2025-12-31"\n'
            "federal = []\nstate = []\njudges = [{0}]\nrooms = [{0}]\n%%\n1,open,{3},2025-08-01\n"
            "1,motion,{3},2025-08-01,exparte\n1,book,{3},1,{1},{2},2025-09-15,10:00,2,2025-08-01\n"
            "1,start,{3},8760h/before/service/served/59e,2025-12-01,12:00,,E\n"
            "1,start,{3},12a1Aii-abroad,2025-08-04,,,\n1,start,{3},59e,2025-08-04,,,\n1,start,{3},72h/after/filing/event/plain,2025-08-04,,,\n"
            "1,inaccessible,2025-09-01,09:00,10:00\n").format(listed, "+".join(LONG), LONG[1], LONG_CASE)
    court, rows = divided(text.encode())
    desk = Desk(programs, parent, court)
    desk.enter(rows)
    return folder_of(programs, desk)


def shown(path):
    """What Chromium has of a page once it is loaded."""
    found = subprocess.run(CHROMIUM + [path.as_uri()], stdout=subprocess.PIPE, stderr=subprocess.DEVNULL, check=False)
    return found.stdout.decode()


def wide(folder, page):
    """Of each width the page's own, where it is greater."""
    (folder / "framed.html").write_text(page)
    frames = "".join('<iframe src="framed.html" width="{}" height="900" style="border: 0"></iframe>'.format(w) for w in WIDTHS)
    (folder / "frames.html").write_text(FRAMES.format(frames=frames))
    told = re.search(r"<title>wide ([0-9 ]+)</title>", shown(folder / "frames.html"))
    if not told:
        return ["no width"]
    return ["{} at {}".format(got, w) for got, w in zip(map(int, told.group(1).split()), WIDTHS) if got > w]


def fault_of(folder, page):
    faults = faults_of(page)
    if faults:
        return faults[0]
    (folder / "page.html").write_text(page)
    tidy = run(["tidy", "-e", "-q", folder / "page.html"])
    if tidy.status or tidy.output or tidy.errors:
        return tidy.output.decode() + tidy.errors.decode()
    root, faults = read(shown(folder / "page.html"))
    if faults or root.all("body")[0].text() != read(page)[0].all("body")[0].text():
        return "Chromium shows something else"
    too_wide = wide(folder, page) or wide(folder, page.replace("<details>", "<details open>"))
    return "a page is wider than its window: " + ", ".join(too_wide) if too_wide else None


def page_fault(given):
    """What is wrong with the page of a docket, or with that of its memo, or none."""
    with tempfile.TemporaryDirectory() as folder:
        pages = (given.report(words).output.decode() for words in (["page"], ["memo", "--html"]))
        return next(filter(None, (fault_of(pathlib.Path(folder), page) for page in pages)), None)


def main(words):
    programs, (seed, count) = programs_of(words[:2]), seed_and_count(words[2:], 12)
    with tempfile.TemporaryDirectory() as parent:
        fault = page_fault(long_names(programs, parent))
    if fault:
        sys.exit("the longest names: {}".format(fault))
    for number in range(count):
        chance = random.Random("page {} {}".format(seed, number))
        with tempfile.TemporaryDirectory() as parent:
            fault = page_fault(given_docket(programs, chance, made_input(chance, chance.choice(KINDS)), parent))
        if fault:
            sys.exit("seed {} input {}: {}".format(seed, number, fault))
    print("{} pages are shown as they are written".format(count + 1))


if __name__ == "__main__":
    main(sys.argv[1:])
