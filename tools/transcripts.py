"""The transcripts of the program: what each file has by docs/TRANSCRIPTS.md, and whether an answer is the one that it says."""

import os
import re
import sys
from dataclasses import dataclass, field

from repository import ROOT

FOLDER = ROOT / "transcripts"

# A file of which each write fails, to whomever.
FULL = "/dev/full"

# The options of a section, each with how many times it is typed.
OPTIONS = {"@ fifty times": 50}

# The forms of a command line, and of the file's name behind its ` | tee `.
LINE = re.compile(r"novacrash( .*)?|cat [^ ]+|cmp [^ ]+ [^ ]+")
KEPT = re.compile(r"[\w.-]+")


class Misread(Exception):
    """What stands in a transcript where it can't be, or is missing there."""


@dataclass
class Answer:
    """The lines of standard output and of standard error, and the status: None where there was no end."""

    output: list
    errors: list
    status: int


@dataclass
class Turn:
    """A command: where it stands, its line, the file that keeps what it prints (or ""), what is typed, and its answer."""

    place: str
    line: str
    kept: str
    typed: str
    answer: Answer

    def words(self):
        return self.line.split(" ")


@dataclass
class Section:
    """Commands that share a folder, and how many times they are typed."""

    place: str
    rounds: int
    turns: list = field(default_factory=list)


def typed_of(line):
    """What a line that begins with `<` types."""
    text = line[1:].removeprefix(" ")
    return text.removesuffix(" (no-eol)") if text.endswith(" (no-eol)") else text + "\n"


def answer_of(lines):
    """The answer that lines say: those of standard output, those of standard error, and the status."""
    status = re.fullmatch(r"\[([1-9][0-9]*)\]", lines[-1]) if lines else None
    lines = lines[:-1] if status else lines
    count = len(lines)
    while count and lines[count - 1].startswith("! "):
        count -= 1
    return Answer(lines[:count], [line[2:] for line in lines[count:]], int(status[1]) if status else 0)


def turn_of(place, command, lines):
    """The command that stands at a place, by the lines below it."""
    line, tee, kept = command.partition(" | tee ")
    if not LINE.fullmatch(line) or tee and not KEPT.fullmatch(kept):
        raise Misread(f"{place}: no command that can be typed: {command}")
    count = next((index for index, it in enumerate(lines) if not it.startswith("<")), len(lines))
    if any(it.startswith("<") for it in lines[count:]):
        raise Misread(f"{place}: a line is typed behind the answer")
    return Turn(place, line, kept, "".join(typed_of(it) for it in lines[:count]), answer_of(lines[count:]))


def parts_of(path):
    """What stands before the first section, then each heading and each command: its place, its line, and the lines below it but for comments."""
    place = f"{FOLDER.name}/{os.path.basename(path)}"
    with open(path, encoding="utf-8", newline="") as file:
        try:
            text = file.read()
        except UnicodeDecodeError:
            raise Misread(f"{place}: it isn't UTF-8")
    parts = [(place, "", [])]
    for number, line in enumerate(text.removesuffix("\n").split("\n") if text else [], 1):
        if line.startswith(("## ", "$ ")):
            parts.append((f"{place}:{number}", line, []))
        elif not line.startswith("#"):
            parts[-1][2].append(line)
    return parts


def rounds_of(place, lines):
    """How many times a section is typed, by the lines between its heading and its first command."""
    for line in lines:
        if line not in OPTIONS:
            raise Misread(f"{place}: neither a comment nor an option stands in front of its first command: {line}")
    return max((OPTIONS[line] for line in lines), default=1)


def sections_of(path):
    """The sections of a transcript."""
    (name, _, head), *parts = parts_of(path)
    if head or not parts:
        raise Misread(f"{name}: no comment stands in front of the first section: {head[0]}" if head else f"{name}: a file without a section")
    sections = []
    for place, line, below in parts:
        if line.startswith("## "):
            sections.append(Section(place, rounds_of(place, below)))
        elif sections:
            sections[-1].turns.append(turn_of(place, line[2:], below))
        else:
            raise Misread(f"{place}: a command stands in front of the first section")
    for section in sections:
        if not section.turns:
            raise Misread(f"{section.place}: a section without a command")
    return sections


def lines_of(text):
    """The lines of a stream, of which the last says so if it lacks its end."""
    return (text + " (no-eol)\n" if text and not text.endswith("\n") else text).split("\n")[:-1]


def agrees(expected, seen):
    """Whether the lines of a stream are the expected ones, of which `...` stands for one or more."""
    # How many of the lines seen may be those that were expected so far.
    counts = {0}
    for line in expected:
        if line == "...":
            counts = set(range(min(counts, default=len(seen)) + 1, len(seen) + 1))
        else:
            counts = {count + 1 for count in counts if count < len(seen) and stands_for(line, seen[count])}
    return len(seen) in counts


def stands_for(line, seen):
    """Whether an expected line stands for one, by three dots at its head or end for any beginning or rest."""
    has_head, has_end = line.startswith("..."), line.endswith("...")
    part = line[3:] if has_head else line
    part = part.removesuffix("...") if has_end else part
    if has_head and has_end:
        return part in seen
    return seen.endswith(part) if has_head else seen.startswith(part) if has_end else seen == part


def fill(folder, files, lines):
    """Writes those files into a folder that the lines of commands name, as no others are read, and `unwritable`."""
    if not os.path.exists(FULL):
        sys.exit(f"there is no {FULL}")
    for name, contents in files.items():
        if name in lines:
            with open(os.path.join(folder, name), "wb") as file:
                file.write(contents)
    os.symlink(FULL, os.path.join(folder, "unwritable"))


def files_of(folder):
    """The files of a folder by their names."""
    found = {}
    for name in os.listdir(folder):
        path = os.path.join(folder, name)
        if os.path.isfile(path):
            with open(path, "rb") as file:
                found[name] = file.read()
    return found
