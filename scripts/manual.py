#!/usr/bin/env python3
"""Writes the man page and the shell completions of a program from the help that it prints.

usage: scripts/manual.py PROGRAM FOLDER [--date YYYY-MM-DD]

Runs PROGRAM with --version, with --help, and with COMMAND --help for each command that it lists. Writes FOLDER/NAME.1
and FOLDER/completions/NAME.bash, _NAME and NAME.fish. NAME is the name that PROGRAM --version prints. --date is the
day in the man page. The help has the form that clap prints: a description, `Usage:`, and lists under titles such as
`Options:`."""
import argparse
import collections
import os
import re
import subprocess
import sys

# An entry of a list: what is typed, what it does, its option names, its values' names, and the words a value can be.
Entry = collections.namedtuple("Entry", "spec text names values words")
# The help of a command. Each section has a title and entries. `notes` are the paragraphs after all sections.
Page = collections.namedtuple("Page", "about usage sections notes")
# An entry begins after two spaces, and after four more if an option has no short name.
BEGINS = re.compile(r"  (?:    (?=--))?(?=\S)")
WORDS = re.compile(r"\[possible values: ([^\]]*)\]")
LISTED_WORD = re.compile(r"(?m)^- ([^\s:]+)")
OPTION = re.compile(r"(?:^|, )(--?[^\s,<\[=]+)")
VALUE = re.compile(r"[<\[]([^>\]]+)[>\]]")
# The signs that a man page prints as others.
SIGNS = {"\\": r"\e", "-": r"\-", "`": r"\(ga", "'": r"\(aq", "^": r"\(ha", "~": r"\(ti"}
# A value with one of these names is a file.
FILE_VALUES = ("FILE", "PATH")
FILE = "@file"


def run(*command):
    """Returns what a command prints on standard output."""
    try:
        done = subprocess.run(command, stdin=subprocess.DEVNULL, capture_output=True, text=True)
    except OSError as error:
        sys.exit(f"error: cannot run {command[0]}: {error.strerror}")
    if done.returncode or not done.stdout.strip():
        said = f"ended with status {done.returncode} and printed: {done.stdout}{done.stderr}"
        sys.exit(f"error: `{' '.join(command)}` {said}")
    return done.stdout


# The help that the program prints


def entry_of(lines):
    """Returns the entry that these lines describe. What is typed comes first, and two spaces after it."""
    spec, _, first = lines[0].strip().partition("  ")
    text = "\n".join(it.strip() for it in [first, *lines[1:]]).strip("\n")
    listed = WORDS.search(text)
    words = [it.strip('"') for it in listed[1].split(", ")] if listed else []
    words += LISTED_WORD.findall(text.partition("Possible values:")[2])
    return Entry(spec, text, OPTION.findall(spec), VALUE.findall(spec), words)


def entries_of(lines):
    """Returns the entries of a section."""
    found = []
    for line in lines:
        if BEGINS.match(line):
            found.append([line])
        elif found:
            found[-1].append(line)
    return [entry_of(it) for it in found]


def sections_of(lines):
    """Returns the sections of a help, and the text after them."""
    sections = []
    for at, line in enumerate(lines):
        if re.match(r"\S.*:$", line):
            sections.append((line[:-1], []))
        elif sections and (not line or line.startswith(" ")):
            sections[-1][1].append(line)
        elif line:
            return sections, "\n".join(lines[at:])
    return sections, ""


def parse(text):
    """Returns the page of help that this text is."""
    head, found, rest = text.partition("Usage: ")
    if not found:
        sys.exit(f"error: this help has no line `Usage:`:\n{text}")
    usage, _, rest = rest.partition("\n\n")
    sections, notes = sections_of(rest.rstrip("\n").split("\n"))
    sections = [(title, entries_of(lines)) for title, lines in sections]
    return Page(head.strip("\n"), [it.strip() for it in usage.strip("\n").split("\n")], sections, notes)


class Program:
    """A program and its commands, as its help describes them."""

    def __init__(self, path):
        self.name, _, self.version = run(path, "--version").strip().partition(" ")
        self.page = parse(run(path, "--help"))
        entries = [it for title, listed in self.page.sections if title == "Commands" for it in listed]
        # Each command with what the list says of it.
        self.listed = {it.spec.split(",")[0]: it for it in entries}
        # The page of each command. `help` itself prints the pages of others.
        self.pages = {it: parse(run(path, it, "--help")) for it in self.listed if it != "help"}

    def arguments(self, command):
        """Returns what each argument of a command can be, and whether the last one can be repeated."""
        if command == "help":
            return [" ".join(it for it in self.listed if it != "help")], False
        found = places(self.pages[command])
        return [follows(it) for it in found], bool(found) and found[-1].spec.endswith("...")


def options(page):
    """Returns the options of a command."""
    return [it for _, entries in page.sections for it in entries if it.names]


def places(page):
    """Returns the arguments of a command that are not options, in their order."""
    return [it for title, entries in page.sections if title != "Commands" for it in entries if not it.names]


def sentence(entry):
    """Returns what an entry does in one line, without the words that its value can be."""
    return " ".join(WORDS.sub("", entry.text).partition("Possible values:")[0].split())


def follows(entry, value=None):
    """Returns what a value can be: FILE, words with spaces between them, or nothing that is known."""
    value = value or (entry.values or [""])[0]
    return FILE if value in FILE_VALUES else " ".join(entry.words)


# The man page


def roff(text):
    """Returns a text for a man page. Its signs are printed as they are, and none begins a request."""
    text = "".join(SIGNS.get(it, it) for it in text)
    return re.sub(r"(?m)^\.", r"\\&.", text)


def typed(text):
    """Returns what is typed: names in bold, values in italics."""
    marked = []
    for part in re.split(r"(<[^>]*>|\[[^\]]*\])", text):
        if part[:1] == "<":
            marked.append(rf"\fI{roff(part[1:-1])}\fR")
        elif part[:1] == "[":
            marked.append(rf"[\fI{roff(part[1:-1])}\fR]")
        else:
            marked.append(re.sub(r"[^\s,.]+", lambda it: rf"\fB{roff(it[0])}\fR", part))
    return "".join(marked)


def paragraphs(text, between=".PP"):
    """Returns the paragraphs of a text as lines of a man page."""
    parts = [roff(it.strip("\n")) for it in re.split(r"\n\s*\n", text)] if text else []
    return [line for it in parts for line in (between, it)][1:]


def synopsis(page):
    """Returns how a command is used, as lines of a man page."""
    return [".nf", *(typed(it) for it in page.usage), ".fi"]


def man_entries(entries):
    """Returns a list as lines of a man page."""
    parts = [[".TP", typed(it.spec), *(paragraphs(it.text, ".IP") or [r"\&"])] for it in entries]
    return [line for it in parts for line in it]


def man_command(entry, page):
    """Returns the part of a man page for a command. The page of `help` is not known."""
    if page is None:
        return [f".SS {typed(entry.spec)}", *paragraphs(sentence(entry))]
    lines = [f".SS {typed(entry.spec)}", *synopsis(page), ".PP", *paragraphs(page.about)]
    lines += [line for _, entries in page.sections for line in man_entries(entries)]
    return lines + ([".PP", *paragraphs(page.notes)] if page.notes else [])


def man_page(program, day):
    """Returns the man page of the program."""
    name, page = program.name, program.page
    lines = [f'.TH {name.upper()} 1 "{roff(day)}" "{name} {roff(program.version)}" "User Commands"']
    lines += [".SH NAME", rf"{name} \- {roff(' '.join(page.about.split()))}", ".SH SYNOPSIS", *synopsis(page)]
    for title, entries in page.sections:
        lines.append(f".SH {roff(title.upper())}")
        if title == "Commands":
            for it, entry in program.listed.items():
                lines += man_command(entry, program.pages.get(it))
        else:
            lines += man_entries(entries)
    lines += [".SH NOTES", *paragraphs(page.notes)] if page.notes else []
    return "\n".join(lines) + "\n"


# The completions


def quoted(text):
    """Returns a text as one word of a shell."""
    return "'" + text.replace("'", "'\\''") + "'"


BASH = r"""# Completions of NAME for bash. scripts/manual.py made them from the help of NAME VERSION.

# Sets `options` to the options of the command $1, and `places` to what each of its arguments can be: words, or @file.
# Sets `repeats` if the last argument can be repeated.
_NAME_command()
{
    case $1 in
COMMANDS
    esac
}

# Sets `follows` to what each value of the option $2 of the command $1 can be.
_NAME_option()
{
    case "$1 $2" in
OPTIONS
    esac
}

# Completes the word $1, which can be a file if $2 is @file, or else one of the words of $2.
_NAME_offer()
{
    local before=
    case $1 in --*=*) before=${1%%=*}= ;; esac
    if [ "$2" = @file ]; then
        # (names in quotes are left to readline)
        compopt -o filenames -o default 2>/dev/null
        mapfile -t COMPREPLY < <(compgen -f -P "$before" -- "${1#"$before"}")
    else
        mapfile -t COMPREPLY < <(compgen -W "$2" -P "$before" -- "${1#"$before"}")
    fi
}

_NAME()
{
    local current=$2 line=$COMP_LINE rest word command='' options='' repeats='' is_plain='' at=0
    local words=() places=() follows=()
    # (COMP_WORDS is split at `=` and `:` too)
    for word in "${COMP_WORDS[@]:0:COMP_CWORD+1}"; do
        rest=${line#"${line%%[![:space:]]*}"}
        if [ "${#words[@]}" -gt 0 ] && [ "$rest" = "$line" ]; then
            words[-1]+=$word
        else
            words+=("$word")
        fi
        line=${rest#"$word"}
    done
    _NAME_command ''
    for word in "${words[@]:1:${#words[@]}-2}"; do
        if [ "${#follows[@]}" -gt 0 ]; then
            follows=("${follows[@]:1}")
        elif [ -z "$is_plain" ] && [ "$word" = -- ]; then
            is_plain=1
        elif [ -z "$is_plain" ] && [[ $word == -* ]]; then
            _NAME_option "$command" "$word"
        elif [ -z "$command" ]; then
            command=$word options='' places=()
            _NAME_command "$command"
        else
            at=$((at + 1))
        fi
    done
    word=${words[-1]}
    [ "$current" != = ] || current=
    [ -z "$repeats" ] || [ "$at" -lt "${#places[@]}" ] || at=$((${#places[@]} - 1))
    if [ "${#follows[@]}" -gt 0 ]; then
        _NAME_offer "$current" "${follows[0]}"
    elif [ -z "$is_plain" ] && [[ $word == --*=* ]]; then
        _NAME_option "$command" "${word%%=*}"
        _NAME_offer "$current" "${follows[0]-}"
    elif [ -z "$is_plain" ] && [[ $word == -* || $at -ge ${#places[@]} ]]; then
        _NAME_offer "$current" "$options"
    else
        _NAME_offer "$current" "${places[at]-}"
    fi
}

complete -F _NAME NAME
"""


def bash_command(program, command):
    """Returns the case of a command in the completions for bash."""
    page = program.pages.get(command) if command else program.page
    names = " ".join(name for it in options(page) for name in it.names) if page else ""
    can_be, repeats = program.arguments(command) if command else ([" ".join(program.listed)], False)
    lines = [f"        {command or quoted('')})"]
    lines += [f"            options={quoted(names)}"] if names else []
    lines += [f"            places=({' '.join(it if it == FILE else quoted(it) for it in can_be)})"]
    lines += ["            repeats=1"] if repeats else []
    return "\n".join([*lines, "            ;;"])


def bash_option(command, option):
    """Returns the case of an option that has values in the completions for bash."""
    names = " | ".join(quoted(f"{command} {it}") for it in option.names)
    values = [follows(option, it) for it in option.values]
    return f"        {names}) follows=({' '.join(it if it == FILE else quoted(it) for it in values)}) ;;"


def bash(program):
    """Returns the completions for bash."""
    pages = {"": program.page, **program.pages}
    valued = [bash_option(name, it) for name, page in pages.items() for it in options(page) if it.values]
    text = BASH.replace("COMMANDS", "\n".join(bash_command(program, it) for it in ["", *program.listed]))
    return text.replace("OPTIONS", "\n".join(valued)).replace("NAME", program.name).replace("VERSION", program.version)


ZSH = r"""#compdef NAME
# Completions of NAME for zsh. scripts/manual.py made them from the help of NAME VERSION.

_NAME() {
    local curcontext=$curcontext state line result=1
    local -A opt_args
    local -a commands=(
COMMANDS
    )
    _arguments -C \
OPTIONS
        '1: :->command' \
        '*:: :->argument' && result=0
    case $state in
        command) _describe -t commands command commands && result=0 ;;
        argument)
            curcontext=${curcontext%:*}-$words[1]:
            case $words[1] in
PAGES
            esac
            ;;
    esac
    return result
}

_NAME "$@"
"""


def zsh_text(text):
    """Returns a text for a description in the completions for zsh."""
    return re.sub(r"([\\\[\]:])", r"\\\1", text)


def zsh_action(can_be):
    """Returns how zsh completes a value."""
    return "_files" if can_be == FILE else f"({can_be})" if can_be else " "


def zsh_option(option):
    """Returns the words that describe an option for zsh."""
    values = "".join(f":{zsh_text(it)}:{zsh_action(follows(option, it))}" for it in option.values)
    # (one value can follow a long name after `=` too; an option with a free value can be repeated)
    marks = ["=" if len(option.values) == 1 and it.startswith("--") else "" for it in option.names]
    repeats = "*" if option.values and not option.words else ""
    excludes = f"({' '.join(option.names)})" if not repeats else ""
    about = zsh_text(sentence(option))
    return [quoted(f"{excludes}{repeats}{it}{mark}[{about}]{values}") for it, mark in zip(option.names, marks)]


def zsh_command(program, command):
    """Returns the case of a command in the completions for zsh."""
    page = program.pages.get(command)
    words = [word for it in options(page) for word in zsh_option(it)] if page else []
    can_be, repeats = program.arguments(command)
    names = [(it.values or [it.spec])[0] for it in places(page)] if page else ["command"]
    for at, (name, it) in enumerate(zip(names, can_be), 1):
        place = "*" if repeats and at == len(can_be) else at
        words.append(quoted(f"{place}:{zsh_text(name)}:{zsh_action(it)}"))
    call = " \\\n                        ".join(["_arguments", *words])
    return f"                {command})\n                    {call} && result=0\n                    ;;"


def zsh(program):
    """Returns the completions for zsh."""
    listed = [f"        {quoted(f'{zsh_text(name)}:{sentence(it)}')}" for name, it in program.listed.items()]
    words = [f"        {word} \\" for it in options(program.page) for word in zsh_option(it)]
    text = ZSH.replace("COMMANDS", "\n".join(listed)).replace("OPTIONS", "\n".join(words))
    text = text.replace("PAGES", "\n".join(zsh_command(program, it) for it in program.listed))
    return text.replace("NAME", program.name).replace("VERSION", program.version)


def fish_text(text):
    """Returns a text as one word of fish."""
    return "'" + text.replace("\\", "\\\\").replace("'", "\\'") + "'"


def fish_value(can_be):
    """Returns how fish completes the value of an option."""
    return "-r -F" if can_be == FILE else f"-x -a {fish_text(can_be)}" if can_be else "-x"


def fish_option(begin, option):
    """Returns the line for an option in the completions for fish."""
    names = [f"-l {it[2:]}" if it.startswith("--") else f"-s {it[1:]}" for it in option.names]
    value = [fish_value(follows(option, option.values[0]))] if option.values else []
    return " ".join([begin, *names, *value, "-d", fish_text(sentence(option))])


def fish(program):
    """Returns the completions for fish."""
    name = program.name
    made = f"scripts/manual.py made them from the help of {name} {program.version}."
    lines = [f"# Completions of {name} for fish. {made}", "", f"complete -c {name} -f"]
    begin = f"complete -c {name} -n __fish_use_subcommand"
    lines += [fish_option(begin, it) for it in options(program.page)]
    lines += [f"{begin} -a {it} -d {fish_text(sentence(entry))}" for it, entry in program.listed.items()]
    for command in program.listed:
        begin = f"complete -c {name} -n '__fish_seen_subcommand_from {command}'"
        if command in program.pages:
            lines += [fish_option(begin, it) for it in options(program.pages[command])]
        can_be = [it for it in program.arguments(command)[0] if it]
        lines += [f"{begin} -F" if it == FILE else f"{begin} -a {fish_text(it)}" for it in can_be]
    return "\n".join(lines) + "\n"


def main():
    parser = argparse.ArgumentParser(usage=__doc__.split("usage: ")[1])
    parser.add_argument("program")
    parser.add_argument("folder")
    parser.add_argument("--date", default="")
    given = parser.parse_args()
    program = Program(os.path.abspath(given.program))
    name = program.name
    texts = {f"{name}.1": man_page(program, given.date), f"completions/{name}.bash": bash(program)}
    texts.update({f"completions/_{name}": zsh(program), f"completions/{name}.fish": fish(program)})
    os.makedirs(f"{given.folder}/completions", exist_ok=True)
    for file, text in texts.items():
        with open(f"{given.folder}/{file}", "w", encoding="utf-8") as it:
            it.write(text)


if __name__ == "__main__":
    main()
