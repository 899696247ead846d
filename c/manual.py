#!/usr/bin/env python3
"""Prints the page of the manual of t5250, or its completions for bash.

    manual.py page PROGRAM VERSION
    manual.py completions PROGRAM

PROGRAM is t5250. What its help has, `help` and `help COMMAND`, is in both: each command, each argument, each option. The
page has the chapters of docs/MANUAL.md too.
"""
import dataclasses
import pathlib
import re
import subprocess
import sys

NAME = "t5250"
MANUAL = pathlib.Path(__file__).resolve().parent.parent / "docs/MANUAL.md"


@dataclasses.dataclass
class Entry:
    """A command, an argument or an option: the words by which it is given, the name of its value, and what it is."""

    words: list[str]
    value: str
    text: str

    @property
    def head(self):
        return f"{', '.join(self.words)} {self.value}".strip()


@dataclasses.dataclass
class Help:
    """What `help` prints of the program or of a command: `parts` has the lists, `rest` the lines behind them."""

    about: str
    usage: str
    parts: dict[str, list[Entry]]
    rest: list[str]


def entry(line):
    head, _, text = line.strip().partition("  ")
    found = re.fullmatch(r"((?:-\w, )?--[\w-]+)(?: (<.*>))?|(.*)", head)
    words = found[1].split(", ") if found[1] else [found[3]]
    return Entry(words, found[2] or "", text.strip())


def read_help(program, *words):
    """Reads what the program's help prints."""
    said = subprocess.run([program, "help", *words], capture_output=True, text=True, check=True).stdout
    lines = said.splitlines()
    parts, at = {}, 2
    usage = lines[at].partition("Usage: ")[2].partition(" ")[2]
    while at < len(lines) and (lines[at].startswith(("Usage:", " ")) or not lines[at] or lines[at] in LISTS):
        if lines[at] in LISTS:
            name = lines[at].rstrip(":")
            parts[name] = []
        elif lines[at].startswith("  "):
            parts[name].append(entry(lines[at]))
        at += 1
    return Help(lines[0], usage, parts, lines[at:])


LISTS = ("Commands:", "Arguments:", "Options:")


def commands(whole):
    return [found.words[0] for found in whole.parts["Commands"]]


# The page.


def escaped(text):
    """A text as roff has it: no character of it is a request or an escape, and each hyphen is the one that is typed."""
    text = text.replace("\\", "\\e").replace("-", "\\-").replace("'", "\\(aq").replace("`", "\\(ga")
    return re.sub(r"^\.", r"\\&.", text)


def entries(list_of_them):
    for found in list_of_them:
        yield ".TP"
        words = ", ".join(f"\\fB{escaped(word)}\\fR" for word in found.words)
        yield f"{words} \\fI{escaped(found.value)}\\fR" if found.value else words
        yield escaped(found.text) + "."


def free_text(lines):
    """Lines of help in paragraphs; those with blanks before them stay as they are."""
    is_literal = False
    for line in lines:
        literal = line.startswith("  ")
        if literal != is_literal:
            yield ".nf" if literal else ".fi"
            is_literal = literal
        if not line:
            yield ".PP"
        else:
            yield escaped(line)
    if is_literal:
        yield ".fi"


def section(lines, head):
    """The lines behind a head up to the next one that is empty, and the lines without these."""
    if head not in lines:
        return [], lines
    at = lines.index(head)
    end = lines.index("", at) if "" in lines[at:] else len(lines)
    return lines[at + 1 : end], lines[:at] + lines[end + 1 :]


def page(program, version):
    whole = read_help(program)
    statuses, rest = section(whole.rest, "Exit status:")
    yield f'.TH {NAME.upper()} 1 "" "ribbonscarp {version}" "User Commands"'
    yield ".SH NAME"
    yield f"{NAME} \\- {escaped(whole.about[0].lower() + whole.about[1:])}"
    yield ".SH SYNOPSIS"
    yield ".nf"
    below = {name: read_help(program, name) for name in commands(whole) if name != "help"}
    for help in below.values():
        yield f"\\fB{NAME}\\fR {escaped(help.usage)}"
    yield f"\\fB{NAME}\\fR help [COMMAND]"
    yield ".fi"
    yield ".SH DESCRIPTION"
    yield from free_text(rest)
    yield from entries(whole.parts["Commands"])
    yield ".SH OPTIONS"
    yield from entries(whole.parts["Options"])
    for name, help in below.items():
        yield f'.SH "{NAME.upper()} {name.upper()}"'
        yield f"{escaped(help.about)}."
        yield from entries(help.parts.get("Arguments", []) + help.parts["Options"])
        yield ".PP"
        yield from free_text(help.rest)
    yield from chapters(MANUAL.read_text(encoding="utf-8"))
    yield ".SH EXIT STATUS"
    yield from free_text(statuses)
    yield ".SH SEE ALSO"
    yield "\\fBterm5250\\fR(1)"


# The chapters of docs/MANUAL.md: its heads, paragraphs, lists, tables and literal text.


def marked(text):
    """A paragraph's text: what is in backquotes or between two stars is bold, what is between single ones in italics."""
    parts = re.split(r"`([^`]+)`", text)
    for at, part in enumerate(parts):
        if at % 2:
            parts[at] = f"\\fB{escaped(part)}\\fR"
        else:
            part = re.sub(r"\[([^\]]+)\]\([^)]+\)", r"\1", part)
            part = re.sub(r"\*\*(.+?)\*\*", r"\\fB\1\\fR", escaped(part))
            parts[at] = re.sub(r"\*(.+?)\*", r"\\fI\1\\fR", part)
    return "".join(parts)


def row(line):
    """A row of a table: its first cell heads the others."""
    head, *cells = (cell.strip() for cell in line.strip("|").split(" | "))
    return [".TP", marked(head), marked("; ".join(cell for cell in cells if cell))]


def chapters(text):
    is_literal, is_table = False, False
    lines = text[text.index("\n## ") :].splitlines()
    for at, line in enumerate(lines):
        is_table = is_table and line != "" or line in RULES
        if line == "```":
            is_literal = not is_literal
            yield ".nf" if is_literal else ".fi"
        elif is_literal:
            yield escaped(line)
        elif line.startswith("### "):
            yield f'.SS "{marked(line[4:])}"'
        elif line.startswith("## "):
            yield f'.SH "{marked(line[3:].upper())}"'
        elif line.startswith("- "):
            yield from (".IP \\(bu 2", marked(line[2:]))
        elif is_table and line not in RULES:
            yield from row(line)
        elif line and not RULES & {line, *lines[at + 1 : at + 2]}:
            yield from (".PP", marked(line))


# The line below the heads of a table.
RULES = {"---|---", "---|---|---"}


# The completions.

FUNCTION = """\
# Completions of {name} for bash.
_{name}() {{
    local current=${{COMP_WORDS[COMP_CWORD]}} before=${{COMP_WORDS[COMP_CWORD - 1]}} command=${{COMP_WORDS[1]}}
    local options valued places further place=0 at
    # bash takes the = of --cut=1 and the : of HOST:PORT for words of their own.
    [ "$current" != = ] || current=
    [ "$before" != = ] || before=${{COMP_WORDS[COMP_CWORD - 2]}}
    COMPREPLY=()
    if [ "$COMP_CWORD" -eq 1 ]; then
        mapfile -t COMPREPLY < <(compgen -W "{first}" -- "$current")
        return
    fi
    case $command in
{cases}
    *) return ;;
    esac
    case "$command $before" in
{values}
    esac
    case " $valued " in
    *" $before "*) return ;;
    esac
    if [[ $current == -* ]]; then
        mapfile -t COMPREPLY < <(compgen -W "$options" -- "$current")
        return
    fi
    # Which of the command's arguments this one is.
    for ((at = 2; at < COMP_CWORD; at++)); do
        case ${{COMP_WORDS[at]}} in -* | [=:]) continue ;; esac
        case " = : $valued " in *" ${{COMP_WORDS[at - 1]}} "*) continue ;; esac
        place=$((place + 1))
    done
    read -r -a places <<<"$places"
    case ${{places[place]:-$further}} in
    COMMAND) mapfile -t COMPREPLY < <(compgen -W "{commands}" -- "$current") ;;
    FILE | SCRIPT | PORT) mapfile -t COMPREPLY < <(compgen -f -- "$current") ;;
    esac
}}
complete -o filenames -F _{name} {name}"""


def case(pattern, options, valued, places, further=""):
    said = {"options": options, "valued": valued, "places": places, "further": [further]}
    return f"    {pattern}) " + " ".join(f'{name}="{" ".join(words)}"' for name, words in said.items()) + " ;;"


def value_of(option):
    """By which words `compgen` offers an option's value: the names that its text has, or files; None for any other."""
    names = re.findall(r"IBM-[\w-]+\w", option.text)
    for listed in re.findall(r"\[possible values: (.*)\]", option.text):
        names += listed.split(", ")
    return f'-W "{" ".join(names)}"' if names else "-f" if option.value == "<FILE>" else None


def completions(program):
    whole = read_help(program)
    first = [word for part in ("Commands", "Options") for found in whole.parts[part] for word in found.words]
    cases, values = [case("help", [], [], ["COMMAND"])], []
    for name in commands(whole):
        if name == "help":
            continue
        help = read_help(program, name)
        options = [word for found in help.parts["Options"] for word in found.words]
        valued = [word for found in help.parts["Options"] if found.value for word in found.words]
        # A place is named by its letters alone, as FILE of [FILE]. One with points behind it, [FILE]..., goes on.
        given = [found.words[0] for found in help.parts.get("Arguments", [])]
        places = [re.match(r"\W*(\w+)", word)[1] for word in given]
        cases.append(case(name, options, valued, places, places[-1] if given and given[-1].endswith("...") else ""))
        for found in help.parts["Options"]:
            offered = value_of(found)
            if offered:
                offers = f'mapfile -t COMPREPLY < <(compgen {offered} -- "$current")'
                values += [f'    "{name} {found.words[-1]}")', f"        {offers}", "        ;;"]
    yield FUNCTION.format(
        name=NAME,
        first=" ".join(first),
        cases="\n".join(cases),
        values="\n".join(values),
        commands=" ".join(name for name in commands(whole) if name != "help"),
    )


def main():
    kind, program = sys.argv[1], str(pathlib.Path(sys.argv[2]).resolve())
    lines = page(program, sys.argv[3]) if kind == "page" else completions(program)
    print("\n".join(lines))


if __name__ == "__main__":
    main()
