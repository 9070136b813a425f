"""The statement beside a built program, as NAME.statement: what it is, what it was made of, and whether it is proved."""

import hashlib
import os
import subprocess

from repository import ROOT, dependencies, git, with_those_below

PROGRAM = ROOT / "crates" / "novacrash" / "out" / "novacrash"
KINDS = ("src", "specs", "proofs")


def place(program):
    """Where the statement of a program stands."""
    return program.with_name(program.name + ".statement")


def read(program):
    """The statement of a program, by the names of its lines, or none where there is no statement."""
    if not place(program).exists():
        return {}
    return dict(line.split(" ", 1) for line in place(program).read_text().splitlines())


def write(program, is_proved):
    """Writes the statement of a program that was made of the sources as they are now."""
    text = "".join(f"{name} {value}\n" for name, value in stated(program, is_proved).items())
    made = place(program).with_suffix(".new")
    made.write_text(text)
    os.replace(made, place(program))


def stated(program, is_proved):
    """What the statement says, by the names of its lines."""
    return {
        "version": printed([program, "--version"]).split()[-1],
        "sha256": sum_of(program),
        "commit": commit(),
        "sources": sources_sum(),
        "kit": printed(["rt", "version"]),
        "proved": "yes" if is_proved else "no",
    }


def printed(words):
    """What a command prints, in one line."""
    return subprocess.run(words, check=True, capture_output=True, text=True).stdout.strip()


def commit():
    """The commit that is checked out, with a word where files were changed since."""
    try:
        return git("rev-parse", "HEAD")[0] + (" with changes" if git("status", "--porcelain") else "")
    except (OSError, subprocess.CalledProcessError):
        return "unknown"


def sum_of(path):
    return hashlib.sha256(path.read_bytes()).hexdigest()


def crates_of_the_program():
    """The crates that the program is made of, each with those on which it stands."""
    return with_those_below([PROGRAM.parent.parent.name], dependencies())


def sources_sum():
    """The checksum of all that the program and its proof are made of: its crates, and on what each of them stands."""
    crates = crates_of_the_program()
    files = [path for crate in crates for kind in KINDS for path in (ROOT / "crates" / crate / kind).rglob("*") if path.is_file()]
    lines = [f"{crate}: {' '.join(sorted(below))}" for crate, below in sorted(crates.items())]
    lines += [f"{sum_of(path)} {path.relative_to(ROOT)}" for path in sorted(files)]
    return hashlib.sha256("\n".join(lines).encode()).hexdigest()


def fits(program):
    """Whether a program is the one that its statement is about."""
    return program.exists() and read(program).get("sha256") == sum_of(program)


def is_current(program):
    """Whether a program was made of the sources as they are now."""
    return fits(program) and read(program).get("sources") == sources_sum()
