"""The page that `docket memo --html` writes: the head of the memo as it is, and below it each line in an element of its own. The frame
is that of every page, and is taken from one that is stored.
"""
from lib.memo_head import HEAD
from lib.pages import faults_of, read
from lib.stored_calendars import FOLDER

TITLE = "Deadlines, and why"
# How a line begins, and its element.
ELEMENTS = (("  ", "div"), ("case ", "h2"), ("judge ", "h2"), ("deadline ", "h3"), ("motion ", "h3"), ("", "p"))
ESCAPES = {"&": "&amp;", "<": "&lt;", ">": "&gt;", '"': "&quot;", "'": "&#39;"}


def escaped(text):
    return "".join(ESCAPES.get(character, character) for character in text)


def in_columns(text):
    """Lines that stay in their columns."""
    return '<div class="reasons">{}</div>'.format(escaped(text))


def shown(line):
    """A line in its element."""
    name = next(name for begins, name in ELEMENTS if line.startswith(begins))
    return in_columns(line) if name == "div" else "<{0}>{1}</{0}>\n".format(name, escaped(line))


def page_of(memo):
    """The page of a memo."""
    head = HEAD.match(memo)[0]
    frame = (FOLDER / "page.out").read_text().split("<title>")[0]
    content = "<h1>{}</h1>\n".format(TITLE) + in_columns(head) + "".join(map(shown, memo[len(head):].split("\n")[:-1]))
    return "{}<title>{}</title>\n</head>\n<body><main>{}</main>\n</body>\n</html>\n".format(frame, TITLE, content)


def memo_on(page):
    """The memo that a page has, by what a reader of pages finds in its elements. What is wrong with its markup is an error."""
    faults = faults_of(page)
    assert not faults, faults
    title, head, *lines = read(page)[0].all("main")[0].elements()
    assert title.text() == TITLE, title.text()
    return head.raw() + "".join(line.raw() + "\n" for line in lines)
