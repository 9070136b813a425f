"""The repository as the tools see it: its crates, by crates.txt, and its files, by git."""

import pathlib
import subprocess

ROOT = pathlib.Path(__file__).resolve().parent.parent


def git(*words):
    """The lines that git prints for these words."""
    printed = subprocess.run(["git", *words], cwd=ROOT, check=True, capture_output=True, text=True).stdout
    return printed.splitlines()


def dependencies():
    """The repository's own crates, each with those of them that it names on its line of crates.txt."""
    lines = [line.split("#")[0] for line in (ROOT / "crates.txt").read_text().splitlines()]
    named = dict(line.split(":", 1) for line in lines if ":" in line)
    crates = {head.split()[0]: rest.split() for head, rest in named.items()}
    return {crate: [below for below in stands_on if below in crates] for crate, stands_on in crates.items()}


def with_those_below(crates, stands_on):
    """These crates and all that they stand on, each behind those that it stands on itself."""
    ordered = {}

    def add(crate):
        if crate not in ordered:
            for below in stands_on[crate]:
                add(below)
            ordered[crate] = stands_on[crate]

    for crate in crates:
        add(crate)
    return ordered
