"""What the program and the commands beside it say of themselves.

Of the program that is the groups of `novacrash help`, and the help of each command. Of novacrash-cc, novacrash-trace and novacrash-ask
it is their `--help`: a line of what they do, `Usage: ..`, paragraphs, lists with headings, and an example."""

import os
import re
import subprocess
from dataclasses import dataclass, field

from repository import ROOT

TOOLS = ("novacrash-cc", "novacrash-trace", "novacrash-ask")


@dataclass
class Word:
    """A word or an option of a command, as its help has it: `<FILE>`, `[CODE]`, `--steps <N>`, `-o OUT` or `--why`."""

    form: str
    about: str

    @property
    def name(self):
        """The name of an option, with its dashes."""
        return self.form.split()[0]

    @property
    def value(self):
        """The name of an option's value, empty where it takes none."""
        return self.form.partition(" ")[2].strip("<>")

    @property
    def is_file(self):
        """Whether the word or the value is the name of a file."""
        return "file" in self.about.lower()


@dataclass
class Command:
    """A command with what its help says: what it is for, its usage, its words and options, an example, and remarks."""

    name: str
    about: str
    usage: str = ""
    words: list = field(default_factory=list)
    options: list = field(default_factory=list)
    example: str = ""
    remarks: list = field(default_factory=list)


@dataclass
class Help:
    """All help of the program: what it is, its groups of commands by their headings, its own options, and what the help of each command
    ends with."""

    about: str
    groups: dict
    options: list
    ending: list

    def commands(self):
        return [command for group in self.groups.values() for command in group]


@dataclass
class Tool:
    """A command beside the program: what it does, its usages, what is to be known, its lists by their headings, and an example."""

    name: str
    about: str
    usages: list
    paragraphs: list = field(default_factory=list)
    lists: dict = field(default_factory=dict)
    example: str = ""

    @property
    def options(self):
        return self.lists["Options"]

    @property
    def runs_command(self):
        """Whether a command with its words stands behind `--`."""
        return " -- " in self.usages[0]


def program_of(word):
    """The program that a word of the command line names: a file, or without a slash the command of this name in bin/."""
    return word if "/" in word else str(ROOT / "bin" / word)


def printed(program, *words):
    """What the program prints for these words, as paragraphs of lines."""
    text = subprocess.run([program, *words], check=True, capture_output=True, text=True).stdout
    return [paragraph.splitlines() for paragraph in text.strip().split("\n\n")]


def rows(lines):
    """The rows of a list with a heading: what stands before two blanks, but for an option's short form, and what behind them. That may
    go on in lines of its own."""
    found = []
    for line in lines[1:]:
        row = re.fullmatch(r"(?:-\w, )?(\S.*?)  +(\S.*)", line.strip())
        if row:
            found.append(Word(*row.groups()))
        else:
            found[-1].about += " " + line.strip()
    return found


def command_of(program, name):
    """A command by its help, and the paragraph with which that ends."""
    (about, *_), (usage, *_), *rest, ending = printed(program, name, "--help")
    command = Command(name, about, usage.removeprefix("Usage: "))
    for lines in rest:
        if lines[0] == "Arguments:":
            command.words = rows(lines)
        elif lines[0] == "Options:":
            command.options = rows(lines)
        elif lines[0].startswith("Example: "):
            command.example = lines[0].removeprefix("Example: ")
        else:
            command.remarks += lines
    return command, ending


def help_of(program):
    """All help of the program."""
    (about, *_), _, *rest = printed(program, "help")
    groups, options, endings = {}, [], []
    for lines in rest:
        if lines[0] == "Options:":
            options = rows(lines)
        elif len(lines) > 1 and lines[0].endswith(":"):
            found = [command_of(program, row.form) for row in rows(lines)]
            groups[lines[0].rstrip(":")] = [command for command, _ in found]
            endings += [ending for _, ending in found]
    if any(ending != endings[0] for ending in endings):
        raise ValueError("the help of two commands ends otherwise")
    return Help(about, groups, options, endings[0])


def tool_of(program):
    """A command beside the program, by its help."""
    (about, *_), usages, *rest = printed(program, "--help")
    tool = Tool(os.path.basename(program), about.rstrip("."), [line.removeprefix("Usage: ").strip() for line in usages])
    for lines in rest:
        if lines[0].startswith("Example: "):
            tool.example = lines[0].removeprefix("Example: ")
        elif len(lines) > 1 and lines[0].endswith(":") and lines[1].startswith("  "):
            tool.lists[re.match(r"\w+", lines[0])[0]] = rows(lines)
        else:
            tool.paragraphs.append(" ".join(lines))
    return tool
