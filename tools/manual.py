#!/usr/bin/env python3
"""Writes the man pages and the completions of the programs, as their `--help` says.

    manual.py DOCKET CLERK_OFFICE
    manual.py --check DOCKET CLERK_OFFICE

They are in share/, as they are installed: share/man/man1 has a page for each command, and there are completions for bash, zsh
and fish. With --check nothing is written, and the status is 1 where share/ has other texts. It needs Python 3.8 or later.
"""
import pathlib
import re
import sys

from completions import for_bash, for_fish, for_zsh
from crates import TOP
from helps import commands_of, version_of

SHARE = TOP / "share"
# With what the part of a help begins that says how the program ends.
STATUSES = "It ends with a status"


def escaped(text):
    """A text as troff reads it."""
    text = text.replace("\\", "\\e").replace("-", "\\-")
    return "\\&" + text if text[:1] in (".", "'") else text


def page_name(words):
    return "-".join(words)


def paragraphs(lines):
    """Lines of a text as paragraphs; those with blanks before them are left as they are."""
    found, kept = [], False
    for line in lines:
        is_kept = line.startswith("  ") or kept and not line
        if is_kept != kept:
            found.append(".nf" if is_kept else ".fi")
        kept = is_kept
        found.append(escaped(line) if line else "" if kept else ".PP")
    return found + ([".fi"] if kept else [])


def section(title, lines):
    return [".SH " + title, *lines] if lines else []


def described(name, about):
    return [".TP", "\\fB{}\\fR".format(escaped(name)), escaped(about)]


def option_head(option):
    names = ", ".join("\\fB{}\\fR".format(escaped(name)) for name in (option.letter, option.name) if name)
    return names + (" \\fI{}\\fR".format(escaped(option.takes)) if option.takes else "")


def after_sections(lines):
    """The text at the end of a help in sections: one begins where a line that is a word and a colon comes after an empty one, and
    where it says what the statuses are."""
    parts = [("NOTES", [])]
    for at, line in enumerate(lines):
        begins = at == 0 or not lines[at - 1]
        if begins and re.fullmatch("[A-Z][a-z]+:", line):
            parts.append((line[:-1].upper(), []))
            continue
        if begins and line.startswith(STATUSES):
            parts.append(("EXIT STATUS", []))
        parts[-1][1].append(line)
    return [line for title, text in parts for line in section(title, paragraphs(trimmed_end(text)))]


def trimmed_end(lines):
    while lines and not lines[-1]:
        lines = lines[:-1]
    return lines


def see_also(command, all_commands):
    """The pages of the command above and of those below it."""
    pages = [page_name(other.words) for other in all_commands
             if other.words == command.words[:-1] or other.words[:-1] == command.words]
    return [", ".join("\\fB{}\\fR(1)".format(escaped(page)) for page in pages)] if pages else []


def man_page(command, all_commands, version):
    """The man page of a command."""
    name = page_name(command.words)
    about = " ".join(" ".join(command.about).split())
    lines = ['.TH "{}" 1 "" "{} {}" "User Commands"'.format(name.upper(), command.words[0], version)]
    lines += section("NAME", ["{} \\- {}".format(escaped(name), escaped(about.partition(". ")[0].rstrip(".")))])
    lines += section("SYNOPSIS", ["\\fB{}\\fR{}".format(escaped(" ".join(command.words)), escaped(command.usage[len(" ".join(command.words)):]))])
    lines += section("DESCRIPTION", paragraphs(command.about))
    lines += section("COMMANDS", [line for pair in command.commands for line in described(*pair)])
    lines += section("ARGUMENTS", [line for pair in command.arguments for line in described(*pair)])
    lines += section("OPTIONS", [line for option in command.options for line in (".TP", option_head(option), escaped(option.about))])
    lines += after_sections(command.after)
    lines += section("SEE ALSO", see_also(command, all_commands))
    return "\n".join(lines) + "\n"


def texts_of(program):
    """Each file for a program, by its place in share/, with its text."""
    name = pathlib.Path(program).name
    commands, version = commands_of(program, [name]), version_of(program)
    texts = {"man/man1/{}.1".format(page_name(command.words)): man_page(command, commands, version) for command in commands}
    texts["bash-completion/completions/" + name] = for_bash(commands)
    texts["zsh/site-functions/_" + name] = for_zsh(commands)
    texts["fish/vendor_completions.d/{}.fish".format(name)] = for_fish(commands)
    return texts


def main(words):
    is_check = words[:1] == ["--check"]
    texts = {place: text for program in words[is_check:] for place, text in texts_of(program).items()}
    there = {str(path.relative_to(SHARE)) for path in SHARE.rglob("*") if path.is_file()}
    wrong = sorted(place for place in there | texts.keys()
                   if place not in there or place not in texts or (SHARE / place).read_text() != texts[place])
    if is_check:
        for place in wrong:
            print("share/{} isn't what the help says; tools/manual.py writes it".format(place))
        print("{} passed, {} failed".format(len(texts.keys() - wrong), len(wrong)))
        sys.exit(1 if wrong else 0)
    for place in wrong:
        path = SHARE / place
        if place not in texts:
            path.unlink()
            continue
        path.parent.mkdir(parents=True, exist_ok=True)
        path.write_text(texts[place])
    print("{} files of share/ were written".format(len(wrong)))


if __name__ == "__main__":
    if len(sys.argv) < 3 or sys.argv[1] == "--check" and len(sys.argv) != 4:
        sys.exit("usage: manual.py [--check] DOCKET CLERK_OFFICE")
    main(sys.argv[1:])
