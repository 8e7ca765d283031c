"""Completions for bash, zsh and fish of what a program's help says of its command line (helps.py)."""
import re

# What may be given, by how the help calls it: a folder or a file, or words, of which those are offered that the help has.
FOLDERS, FILES = ("FOLDER",), ("FILE",)
WORDS = {"DAY": ["today", "tomorrow", "monday", "tuesday", "wednesday", "thursday", "friday", "saturday", "sunday", "+7d"],
         "ORDER": ["month-first", "day-first"]}
# A line at the end of a help that has a word for an option, as `hawaii   District of Hawaii`.
LISTED = re.compile(r"  ([a-z_]+)  +\S.*")


def bare(name):
    """What the help calls an argument, without brackets."""
    return name.strip("[]<>.")


def kind_of(name):
    """Whether a folder or a file may be given, or nothing that is known."""
    names = re.split(r"[| ]", bare(name))
    return "folder" if set(names) & set(FOLDERS) else "file" if set(names) & set(FILES) else ""


def words_for(command, option):
    """The words that an option may be given, as far as they are known."""
    if option.takes == "NAME" and option.name == "--court":
        return [LISTED.fullmatch(line)[1] for line in command.after if LISTED.fullmatch(line)]
    texts = " ".join([option.about, *command.after])
    return [word for word in WORDS.get(option.takes, []) if re.search(r"(?<![\w+-]){}(?![\w-])".format(re.escape(word)), texts)]


def argument_kind(command):
    """What a command's arguments may be: a folder, a file or nothing that is known."""
    kinds = [kind_of(name) for name, _ in command.arguments]
    return "file" if "file" in kinds else "folder" if "folder" in kinds else ""


def names_of(command):
    """The names of a command's options, with the letters."""
    return [name for option in command.options for name in (option.letter, option.name) if name]


def path_of(command):
    """A command's words after the program's name, each after a blank."""
    return "".join(" " + word for word in command.words[1:])


def bash_replies(commands):
    """For bash what may follow each option that takes something: the options with the same reply together."""
    replies = {}
    for command in commands:
        for option in command.options:
            words, kind = words_for(command, option), kind_of(option.takes)
            reply = 'compgen -W "{}" -- "$word"'.format(" ".join(words)) if words else \
                {"folder": 'compgen -d -- "$word"', "file": 'compgen -f -- "$word"', "": ":"}[kind]
            if option.takes:
                replies.setdefault(reply, []).append('"{} {}"'.format(path_of(command), option.name))
    return ["        {}) {} ;;".format("|".join(options), reply) for reply, options in replies.items()]


def bash_words(command):
    """For bash what may follow a command."""
    words = [name for name, _ in command.commands] + names_of(command)
    kind = argument_kind(command)
    files = {"folder": '; compgen -d -- "$word"', "file": '; compgen -f -- "$word"', "": ""}[kind]
    return '        "{}") compgen -W "{}" -- "$word"{} ;;'.format(path_of(command), " ".join(words), files)


def for_bash(commands):
    """A script for bash, with the package bash-completion or without it."""
    program = commands[0].words[0]
    below = "|".join('"{}"'.format(path_of(command)) for command in commands[1:])
    lines = ["# Completion of {} for bash; tools/manual.py writes it from what --help says.".format(program),
             "_{}_words() {{".format(program), '    local word="$1" before="$2" path="$3"', '    case "$path $before" in',
             *bash_replies(commands), '        *) case "$path" in', *map(bash_words, commands), "        esac ;;", "    esac", "}",
             "_{}() {{".format(program), '    local path="" at']
    if below:
        lines += ["    for ((at = 1; at < COMP_CWORD; at++)); do", '        case "$path ${COMP_WORDS[at]}" in',
                  '            {}) path+=" ${{COMP_WORDS[at]}}" ;;'.format(below), "        esac", "    done"]
    lines += ['    mapfile -t COMPREPLY < <(_{}_words "${{COMP_WORDS[COMP_CWORD]}}" "${{COMP_WORDS[COMP_CWORD-1]}}" "$path")'.format(program),
              "    compopt -o filenames 2>/dev/null", "}", "complete -F _{0} {0}".format(program)]
    return "\n".join(lines) + "\n"


def quoted(text):
    """A text between single quotes, as bash, zsh and fish read it."""
    return "'" + text.replace("'", "'\\''") + "'"


def zsh_action(command, option):
    words, kind = words_for(command, option), kind_of(option.takes)
    return "({})".format(" ".join(words)) if words else {"folder": "_files -/", "file": "_files", "": ""}[kind]


def zsh_words(command):
    """The words of _arguments for a command's options."""
    found = []
    for option in command.options:
        about = re.sub(r"([\[\]:\\])", r"\\\1", option.about)
        takes = ":{}:{}".format(option.takes, zsh_action(command, option)) if option.takes else ""
        for name in (option.letter, option.name):
            if name:
                found.append(quoted("{}[{}]{}".format(name, about, takes)))
    return found


def for_zsh(commands):
    """A function for zsh."""
    program = commands[0].words[0]
    lines = ["#compdef " + program, "# Completion of {} for zsh; tools/manual.py writes it from what --help says.".format(program), ""]
    for command in commands:
        name = "_" + "_".join(command.words)
        lines += ["{}() {{".format(name), "    local state line"]
        if command.commands:
            listed = " ".join(quoted("{}:{}".format(word, about.replace(":", "\\:"))) for word, about in command.commands)
            lines += ["    local -a commands=({})".format(listed),
                      "    _arguments -C {} '1:command:->command' '*::argument:->argument'".format(" ".join(zsh_words(command))),
                      '    case "$state" in',
                      "        command) _describe command commands ;;",
                      '        argument) (( $+functions[{0}_$line[1]] )) && {0}_$line[1] ;;'.format(name),
                      "    esac"]
        else:
            arguments = [quoted("{}:{}:{}".format(at, bare(argument), {"folder": "_files -/", "file": "_files", "": ""}[kind_of(argument)]))
                         for at, (argument, _) in enumerate(command.arguments, 1)]
            lines.append("    _arguments {}".format(" ".join(zsh_words(command) + arguments)))
        lines += ["}", ""]
    return "\n".join(lines + ['_{} "$@"'.format(program)]) + "\n"


def fish_condition(command):
    """When a completion of a command is offered."""
    words = command.words[1:]
    within = ["__fish_seen_subcommand_from " + word for word in words]
    below = " ".join(name for name, _ in command.commands)
    if below:
        within.append("not __fish_seen_subcommand_from " + below)
    return "; and ".join(within)


def for_fish(commands):
    """A list of completions for fish."""
    program = commands[0].words[0]
    lines = ["# Completion of {} for fish; tools/manual.py writes it from what --help says.".format(program)]
    for command in commands:
        condition = fish_condition(command)
        head = "complete -c {}{}".format(program, " -n " + quoted(condition) if condition else "")
        lines += ["{} -f -a {} -d {}".format(head, name, quoted(about)) for name, about in command.commands]
        for option in command.options:
            words, kind = words_for(command, option), kind_of(option.takes)
            takes = "" if not option.takes else " -x -a {}".format(quoted(" ".join(words))) if words else \
                " -x -a '(__fish_complete_directories)'" if kind == "folder" else " -r" if kind == "file" else " -x"
            lines.append("{}{} -l {}{} -d {}".format(head, " -s " + option.letter[1:] if option.letter else "", option.name[2:], takes,
                                                    quoted(option.about)))
        if argument_kind(command) == "folder":
            lines.append("{} -f -a '(__fish_complete_directories)'".format(head))
    return "\n".join(lines) + "\n"
