"""What the help of a program says of its command line: its commands, arguments and options."""
import re
import subprocess
from typing import NamedTuple

COMMAND, ARGUMENT = re.compile(r"  ([a-z_-]+) +(\S.*)"), re.compile(r"  (\[?<?[A-Z|]+>?\]?(?:\.\.\.)?) +(\S.*)")
OPTION = re.compile(r"  (?:(-\w), |    )(--[a-z-]+)(?: <([^>]+)>)?(?: +(\S.*))?")
SECTIONS = {"Commands:": COMMAND, "Arguments:": ARGUMENT, "Options:": OPTION}
USAGE = "Usage: "


class Option(NamedTuple):
    """An option: its letter and its name with their dashes, what it takes (an empty text where nothing), and what it is for."""
    letter: str
    name: str
    takes: str
    about: str


class Command(NamedTuple):
    """A command by its words, the program's name first. `commands` and `arguments` are pairs of a name and what it is for; `after`
    is the text at the end, line by line."""
    words: list
    about: list
    usage: str
    commands: list
    arguments: list
    options: list
    after: list


def helps(program, words):
    """The lines of a command's help."""
    ended = subprocess.run([str(program), *words[1:], "--help"], stdout=subprocess.PIPE, check=True)
    return ended.stdout.decode().splitlines()


def usage_of(words, line):
    """How a command is called, with all its words; some helps leave out those before the last."""
    called = line[len(USAGE):]
    return called if called.startswith(" ".join(words)) else " ".join(words[:-1] + [called])


def read(words, lines):
    """The command of these lines of help."""
    at = next(at for at, line in enumerate(lines) if line.startswith(USAGE))
    about, found, section, after = lines[:at], {heading: [] for heading in SECTIONS}, None, None
    for line in lines[at + 1:]:
        if after is not None:
            after.append(line)
        elif line in SECTIONS:
            section = line
        elif section and SECTIONS[section].fullmatch(line):
            found[section].append([group or "" for group in SECTIONS[section].fullmatch(line).groups()])
        elif section and found[section] and line.startswith("   "):
            found[section][-1][-1] = (found[section][-1][-1] + " " + line.strip()).strip()
        elif line and section:
            after = [line]
    return Command(words, trimmed(about), usage_of(words, lines[at]), found["Commands:"], found["Arguments:"],
                   [Option(*option) for option in found["Options:"]], trimmed(after or []))


def trimmed(lines):
    """Lines without empty ones at both ends."""
    text = "\n".join(lines).strip("\n")
    return text.split("\n") if text else []


def commands_of(program, words):
    """A program's command with this name, and all commands below it."""
    command = read(words, helps(program, words))
    found = [command]
    for name, _ in command.commands:
        if name != "help":
            found += commands_of(program, words + [name])
    return found


def version_of(program):
    """The program's version, as 0.2.0."""
    said = subprocess.run([str(program), "--version"], stdout=subprocess.PIPE, check=True).stdout.decode()
    return re.search(r"\d+\.\d+\.\d+", said)[0]
