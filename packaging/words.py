"""The words of a program, as its help tells them: commands, options and arguments.

Man pages and completions are made of these alone, so they say what the program itself says.
"""
import re
import subprocess
from typing import NamedTuple, Optional

OPTION = re.compile(r"^ +(?:(-\w), |    )(--[\w-]+)(?: <([\w=]+)>)? {2,}(.*)$")
ARGUMENT = re.compile(r"^ +([<\[])([\w=]+)[>\]](\.\.\.)? {2,}(.*)$")
COMMAND = re.compile(r"^  (\w+) {2,}(.*)$")
NOTE = re.compile(r" \[(default|possible values): ([^]]*)\]")


class Option(NamedTuple):
    short: str
    long: str
    value: str
    help: str
    default: str
    values: tuple

    @property
    def spelling(self):
        return ", ".join(filter(None, (self.short, self.long))) + (f" {self.value}" if self.value else "")


class Argument(NamedTuple):
    name: str
    help: str
    is_required: bool
    is_repeated: bool = False

    @property
    def is_file(self):
        return self.help.startswith("File")


class Command(NamedTuple):
    name: str
    about: str
    usage: str
    options: tuple
    arguments: tuple


class Program(NamedTuple):
    name: str
    about: str
    version: str
    options: tuple
    commands: tuple

    def command(self, name) -> Optional[Command]:
        return next((it for it in self.commands if it.name == name), None)


def told(program, *words):
    """Returns what a program says of itself."""
    ran = subprocess.run([program, *words], stdin=subprocess.DEVNULL, capture_output=True, text=True, timeout=60)
    return ran.stdout + ran.stderr


def option_of(line):
    found = OPTION.match(line)
    if not found:
        return None
    short, long, value, text = found.groups()
    notes = dict(NOTE.findall(" " + text))
    values = tuple(filter(None, notes.get("possible values", "").split(", ")))
    return Option(short or "", long, value or "", NOTE.sub("", " " + text).strip(), notes.get("default", ""), values)


def argument_of(line):
    found = ARGUMENT.match(line)
    return found and Argument(found[2], found[4], found[1] == "<", bool(found[3]))


def sections(text):
    """Returns the lines of a help text below each of its headings, the first paragraph below `about`."""
    found, heading = {"about": []}, "about"
    for line in text.splitlines():
        if line.startswith("Usage: "):
            found["usage"] = [line.removeprefix("Usage: ")]
        elif re.fullmatch(r"\w+:", line):
            heading = line[:-1]
            found[heading] = []
        elif line.strip():
            found[heading].append(line)
    return found


def rows(lines, read):
    """Reads each line of a section; one that is not understood is an error, so that nothing is left out unseen."""
    found = [read(it) for it in lines]
    if None in found:
        raise ValueError(f"a line of help that is not understood: {lines[found.index(None)]!r}")
    return tuple(found)


def command_of(program, name):
    said = sections(told(program, name, "--help"))
    options, arguments = rows(said.get("Options", []), option_of), rows(said.get("Arguments", []), argument_of)
    return Command(name, " ".join(said["about"]), said["usage"][0], options, arguments)


def program_of(path, name):
    """Returns all words of the program in this file."""
    said = sections(told(path, "--help"))
    names = [it[1] for it in rows(said["Commands"], COMMAND.match) if it[1] != "help"]
    version = told(path, "--version").split(" ", 1)[1].strip()
    return Program(name, " ".join(said["about"]), version, rows(said["Options"], option_of), tuple(command_of(path, it) for it in names))
