"""The functions of the crates' sources: which are public, which may answer that memory ran out, and which call which.

It reads the layout that `rt fmt` gives: a function ends at the brace below its first letter, and its body begins at the first
brace after its contract. What a call means is told by its name and by the crates from which
the file takes that name, so a function may be taken for called that isn't.
"""
import re
from typing import NamedTuple

from crates import TOP, needed_by, uses_of_all

NO_MEMORY = "OutOfMemory"
ALLOCATION = {"AllocError", "AllocFailed"}
COMMENT = re.compile(r"//[^\n]*")
FUNCTION = re.compile(r"^( *)((?:pub(?:\(\w+\))? )?)(?:const )?fn (\w+)", re.MULTILINE)
IMPL = re.compile(r"^impl(?:<.*?>)? (?:(\w+)(?:<.*?>)? for )?(\w+)")
USE = re.compile(r"^(?:pub )?use (\w+)::([^;]*);", re.MULTILINE)
PASSED = re.compile(r"^pub use (\w+)::([^;]*);", re.MULTILINE)
CONTRACT = re.compile(r"^\s*(requires|ensures|ghost|maintains)\b")


class Taken:
    """From which crates of the repository a file takes each name that it takes from any, and what names are where they come from
    that are others here. What it takes from a module is its own, and what a crate passes on from another is that one's."""

    def __init__(self, crate, code, crates, passed):
        self.origins, self.renamed = {}, {}
        for origin, names in USE.findall(code):
            self.renamed.update((there, here) for here, there in re.findall(r"(\w+) as (\w+)", names))
            for name in re.findall(r"\w+", names):
                self.origins.setdefault(name, set()).add(passed.get((origin, name), origin) if origin in crates else crate)

    def may_be(self, name, crate):
        """Whether this name may be of that crate."""
        return crate in self.origins.get(name, {crate})


class Function(NamedTuple):
    """A function: its crate, file, type and trait where it has them, name, what it gives, its body, whether it is a test, whether
    other crates can call it, and from which crates its file takes names."""
    crate: str
    file: str
    type: str
    trait: str
    name: str
    gives: str
    body: str
    is_test: bool
    is_public: bool
    taken: "Taken"

    def __str__(self):
        return "{}::{}".format(self.type, self.name) if self.type else self.name


def code_of(path):
    return COMMENT.sub("", path.read_text())


def files_of(crate):
    return sorted((TOP / "crates" / crate / "src").rglob("*.rt"))


def exported(crate):
    """The names that other crates can use of a library; of a program there are none."""
    root = TOP / "crates" / crate / "src" / "lib.rt"
    if not root.exists():
        return set()
    used = re.findall(r"^pub use [\w:]*?(?:\{(.*?)\}|(\w+));", code_of(root), re.MULTILINE | re.DOTALL)
    own = re.findall(r"^pub (?:fn|struct|enum|trait) (\w+)", code_of(root), re.MULTILINE)
    return set(own).union(*(re.findall(r"\w+", names or name) for names, name in used))


def passed_on(crates):
    """The names that libraries pass on from others: by the crate and the name, the crate from which it comes."""
    roots = {crate: TOP / "crates" / crate / "src" / "lib.rt" for crate in crates}
    return {(crate, name): origin for crate, root in roots.items() if root.exists()
            for origin, names in PASSED.findall(code_of(root)) if origin in crates[crate] for name in re.findall(r"\w+", names)}


def body_at(lines, first, indent):
    """The head of the function that begins at this line, and its body."""
    last = next((at for at in range(first, len(lines)) if lines[at] == indent + "}"), first)
    for at in range(first, last + 1):
        is_open = lines[at] == indent + "{" or lines[at].endswith("{") and not CONTRACT.match(lines[at])
        if is_open:
            return "\n".join(lines[first:at + 1]), "\n".join(lines[at + 1:last])
        if lines[at].endswith(";"):
            break
    return "\n".join(lines[first:first + 1]), ""


def gives_of(head):
    """What a function gives, from its head."""
    before = re.split(r"\n\s*(?:requires|ensures|ghost|where)\b", head)[0]
    return before.rpartition("->")[2].rstrip("{ \n") if "->" in before else ""


def functions_of(crate, crates, passed):
    """All functions of a crate, which is one of these, of which some pass names on."""
    names, found = exported(crate), []
    for path in files_of(crate):
        of_tests = "tests" in path.parts or path.name == "tests.rt"
        code = code_of(path)
        lines, taken = code.split("\n"), Taken(crate, code, crates, passed)
        of_type = of_trait = ""
        for at, line in enumerate(lines):
            begins = IMPL.match(line)
            if begins:
                of_trait, of_type = begins.group(1) or "", begins.group(2)
            elif line == "}":
                of_type = of_trait = ""
            function = FUNCTION.match(line)
            if function:
                indent, visible, name = function.groups()
                head, body = body_at(lines, at, indent)
                outside = visible == "pub " or bool(of_trait)
                is_public = outside and (of_type or name) in names and not of_tests
                is_test = any("#[test]" in before for before in lines[max(0, at - 3):at])
                found.append(Function(crate, path.name, of_type if indent else "", of_trait if indent else "", name,
                                      gives_of(head), body, is_test, is_public, taken))
    return found


def all_functions():
    crates = uses_of_all()
    passed = passed_on(crates)
    return [function for crate in crates for function in functions_of(crate, crates, passed)]


def memory_faults():
    """The errors that may say that memory ran out."""
    found = set(ALLOCATION)
    for crate in uses_of_all():
        for path in files_of(crate):
            for name, cases in re.findall(r"\benum (\w+)[^{;]*\{(.*?)\n\}", code_of(path), re.DOTALL):
                if re.search(r"^\s*" + NO_MEMORY + r"\b", cases, re.MULTILINE):
                    found.add(name)
    return found


def is_fallible(function, faults):
    """Whether the function may answer that memory ran out."""
    return "Result<" in function.gives and not faults.isdisjoint(re.findall(r"\w+", function.gives))


class Calls:
    """Which functions each calls, by the names in its body. What the kit calls, by a trait of its own, each of the crate calls."""

    def __init__(self, functions):
        self.uses = uses_of_all()
        self.by_name, self.of_kit = {}, {}
        own = set(re.findall(r"\btrait (\w+)", "".join(code_of(path) for crate in self.uses for path in files_of(crate))))
        for function in functions:
            self.by_name.setdefault(function.name, []).append(function)
            if function.trait and function.trait not in own:
                self.of_kit.setdefault(function.crate, []).append(function)

    def is_called(self, caller, function, words, paths):
        if function.crate != caller.crate and not function.is_public:
            return False
        if function.trait:
            return "." + function.name in paths or any(path.endswith("::" + function.name) for path in paths)
        if function.crate != caller.crate and function.crate not in self.uses[caller.crate]:
            return False
        if not function.type:
            return function.name in words and caller.taken.may_be(function.name, function.crate)
        if not caller.taken.may_be(function.type, function.crate):
            return False
        return "." + function.name in paths or "{}::{}".format(function.type, function.name) in paths or \
            "Self::" + function.name in paths

    def of(self, caller):
        words = words_in(caller)
        paths = set(re.findall(r"\.\w+", caller.body)) | set(re.findall(r"\w+::\w+", re.sub(r"::<.*?>", "", caller.body)))
        return self.of_kit.get(caller.crate, []) + [function for word in words for function in self.by_name.get(word, ())
                                                    if self.is_called(caller, function, words, paths)]

    def reached(self, roots, cut=()):
        """All functions that these call, and those call, and so on, but for those of the names that are cut. A trait's function is
        called only of types that are named in what is called."""
        below = needed_by([function.crate for function in roots], self.uses)
        seen, left, named, waiting = set(roots), list(roots), set(), set()
        while left:
            caller = left.pop()
            named |= words_in(caller)
            found = {function for function in self.of(caller) if function.crate in below and function.name not in cut} | waiting
            waiting = {function for function in found if function.trait and function.type not in named}
            new = found - waiting - seen
            seen |= new
            left += new
        return seen


def words_in(function):
    """The words in a function's body, as they are where they come from, and the type whose function it is."""
    return {function.type, *(function.taken.renamed.get(word, word) for word in re.findall(r"\w+", function.body))}
