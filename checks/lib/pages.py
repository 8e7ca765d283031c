"""Reads a page that docket writes, and says what is wrong with its markup.

`parts_of` gives the texts of the page, as a person reads them; `faults_of` looks at the markup alone: whether each element is
closed in its place, whether there is a script or anything that is loaded, whether each link leads somewhere in the page,
whether headings, tables and their heads are such as a program that reads aloud can follow, and whether each colour of a text
is seen well on each background (WCAG 2.2, contrast of at least 4.5 to 1).
"""
import re
from collections import namedtuple
from html.parser import HTMLParser

# Elements that have no end.
VOID = {"meta"}
KNOWN = {"html", "head", "meta", "title", "style", "body", "main", "section", "h1", "h2", "h3", "p", "a", "table", "caption",
         "thead", "tbody", "tr", "th", "td", "div", "details", "summary"}
POLICY = "default-src 'none'; style-src 'unsafe-inline'; base-uri 'none'; form-action 'none'"

# `months` has of each judge the grid of each month: what it has, and of each week the texts of its cells and of what is in these.
Parts = namedtuple("Parts", "title chosen closing due judges months cases")
# Of a case: its heading, when it was filed, its rows of deadlines and of motions, and what is folded below each deadline.
Case = namedtuple("Case", "title filed deadlines motions reasons")


class Element:
    def __init__(self, name, attributes):
        self.name, self.attributes, self.inside = name, attributes, []

    def elements(self):
        return [part for part in self.inside if isinstance(part, Element)]

    def all(self, *names):
        """The elements of these names, in the order of the page."""
        return [e for part in self.elements() for e in ([part] if part.name in names else []) + part.all(*names)]

    def text(self):
        """The text as it is read, in which spaces count as one."""
        return " ".join("".join(part.text() if isinstance(part, Element) else part for part in self.inside).split())

    def raw(self):
        """The text as it is written, with all its spaces."""
        return "".join(part.raw() if isinstance(part, Element) else part for part in self.inside)

    def lines(self):
        """The text of each line of a cell, or the whole where it has none."""
        lines = [part.text() for part in self.elements() if part.name == "div"]
        return lines or [self.text()]


class Reader(HTMLParser):
    def __init__(self):
        super().__init__(convert_charrefs=True)
        self.root = Element("", {})
        self.open = [self.root]
        self.faults = []

    def handle_starttag(self, tag, attrs):
        if tag not in KNOWN:
            self.faults.append("an element " + tag)
        element = Element(tag, dict(attrs))
        self.open[-1].inside.append(element)
        if tag not in VOID:
            self.open.append(element)

    def handle_endtag(self, tag):
        if self.open[-1].name != tag:
            self.faults.append("{} ends within {}".format(tag, self.open[-1].name))
            return
        self.open.pop()

    def handle_data(self, data):
        self.open[-1].inside.append(data)


def read(page):
    reader = Reader()
    reader.feed(page)
    reader.close()
    if len(reader.open) > 1:
        reader.faults.append("{} doesn't end".format(reader.open[-1].name))
    return reader.root, reader.faults


def is_folded(row):
    return [cell.name for cell in row.elements()] == ["td"] and bool(row.all("details"))


def folded_in(section):
    """What is folded in a part: of each, what is seen of it, and its text as it is written."""
    return [(part.all("summary")[0].text(), part.all("div")[0].raw()) for part in section.all("details")]


def rows_of(table, columns):
    """The rows of a table under the head of each group, each a list of its cells, without rows of what is folded."""
    group, rows = None, []
    for row in table.all("tbody")[0].elements():
        cells = row.elements()
        if is_folded(row):
            continue
        if len(cells) == 1:
            group = cells[0].text()
        else:
            rows.append((group, cells))
    if any(len(cells) != columns for _, cells in rows):
        raise ValueError("a row with other columns")
    return rows


def is_month(table):
    return table.attributes.get("class") == "grid"


def month_in(table):
    """A grid: what it has, and of each week its load, how wide the bar is, and of each day whether it is of the month, its number and
    its blocks."""
    weeks = []
    for row in table.all("tbody")[0].elements():
        load, *days = row.elements()
        words, bar = load.elements()
        cells = [(day.attributes.get("class") == "date", "".join(part for part in day.inside if isinstance(part, str)).strip(),
                  [block.text() for block in day.elements()]) for day in days]
        weeks.append((words.text(), bar.text(), bar.attributes.get("style"), cells))
    return table.all("caption")[0].text(), weeks


def parts_of(page):
    """What the page says: what is due by day, the bookings of each judge, and the deadlines and motions of each case."""
    body = read(page)[0].all("body")[0]
    due, judges, cases = [part for part in body.all("main")[0].elements() if part.name == "section"]
    case_rows = {}
    for section in cases.all("section"):
        tables = {table.all("caption")[0].text().split(" ")[0]: rows_of(table, 4) for table in section.all("table")}
        case_rows[section.attributes["id"]] = Case(section.all("h3")[0].text(), section.all("p")[0].text(),
                                                   tables.get("Deadlines", []), tables.get("Motions", []), folded_in(section))
    return Parts(
        title=read(page)[0].all("title")[0].text(),
        chosen=body.all("p")[0].text(),
        closing=due.all("p")[0].text(),
        due=[row for table in due.all("table") for row in rows_of(table, 3)],
        judges=[(section.all("h3")[0].text(), [row for table in section.all("table") if not is_month(table) for row in rows_of(table, 4)])
                for section in judges.all("section")],
        months=[(section.all("h3")[0].text(), [month_in(table) for table in section.all("table") if is_month(table)])
                for section in judges.all("section")],
        cases=case_rows)


def brightness(colour):
    """The relative luminance of a colour, as WCAG defines it."""
    parts = [int(colour[at:at + 2], 16) / 255 for at in (1, 3, 5)]
    linear = [p / 12.92 if p <= 0.04045 else ((p + 0.055) / 1.055) ** 2.4 for p in parts]
    return 0.2126 * linear[0] + 0.7152 * linear[1] + 0.0722 * linear[2]


def contrast(one, other):
    light, dark = sorted((brightness(one), brightness(other)), reverse=True)
    return (light + 0.05) / (dark + 0.05)


def faults_of(page):
    """What is wrong with the markup of a page."""
    root, faults = read(page)
    if not page.startswith("<!DOCTYPE html>\n"):
        faults.append("no doctype")
    if re.search(r"<\s*(script|iframe|object|embed|link|img|base|form)|javascript:|url\(|@import|\son[a-z]+\s*=", page, re.I):
        faults.append("something that runs or is loaded")
    html, metas = root.all("html")[0], root.all("meta")
    if html.attributes.get("lang") != "en" or not root.all("title")[0].text():
        faults.append("no language or no title")
    if [m.attributes.get("content") for m in metas if m.attributes.get("http-equiv") == "Content-Security-Policy"] != [POLICY]:
        faults.append("another policy")
    if metas[0].attributes.get("charset") != "utf-8":
        faults.append("the character set isn't first")
    levels = [int(h.name[1]) for h in root.all("h1", "h2", "h3")]
    if levels[:1] != [1] or levels.count(1) != 1 or any(after > before + 1 for before, after in zip(levels, levels[1:])):
        faults.append("headings out of order")
    faults += ["an empty " + e.name for e in root.all("h1", "h2", "h3", "th", "caption", "a", "summary") if not e.text()]
    faults += ["something folded that doesn't begin with what is seen of it" for e in root.all("details")
               if [part.name for part in e.elements()] != ["summary", "div"]]
    for table in root.all("table"):
        if [part.name for part in table.elements()] != ["caption", "thead", "tbody"] or not table.all("tbody")[0].elements():
            faults.append("a table without a caption, heads or rows")
        faults += ["a head of nothing" for th in table.all("th") if th.attributes.get("scope") not in ("col", "row")]
        faults += ["a row without a head" for row in table.all("tr") if row.elements()[0].name != "th" and not is_folded(row)]
        columns = {sum(int(cell.attributes.get("colspan", 1)) for cell in row.elements()) for row in table.all("tr")}
        if len(columns) != 1:
            faults.append("rows of other lengths")
    names = [e.attributes["id"] for e in root.all("section") if "id" in e.attributes]
    if len(set(names)) != len(names) or any(a.attributes["href"][:1] != "#" or a.attributes["href"][1:] not in names
                                            for a in root.all("a")):
        faults.append("a link that leads nowhere")
    style = root.all("style")[0].text()
    for text in re.findall(r"(?<![-a-z])color: (#[0-9a-f]{6})", style):
        for background in re.findall(r"background: (#[0-9a-f]{6})", style):
            if contrast(text, background) < 4.5:
                faults.append("{} on {} isn't seen well".format(text, background))
    return faults
