"""What the benchmarks share: they run the built program and plain ones in a folder of their own, and take the time.

The scripts of this folder import it; it isn't run by itself. All but `compiled` work in the current folder, which is one that
`in_new_folder` made."""

import argparse
import contextlib
import os
import statistics
import subprocess
import sys
import tempfile
import time

HERE = os.path.dirname(os.path.abspath(__file__))
NAME = f"bench/{os.path.basename(sys.argv[0])}"
DEFAULT = "crates/novacrash/out/novacrash"
EXIT = ["li a7, 93", "ecall"]


def parser_of(text):
    """The reader of the command line, with the script's head as its help."""
    parser = argparse.ArgumentParser(prog=NAME, description=text, formatter_class=argparse.RawDescriptionHelpFormatter)
    parser.add_argument("program", nargs="?", default=os.environ.get("NOVACRASH", DEFAULT), type=os.path.abspath,
                        help=f"the built program (else the environment's NOVACRASH, else {DEFAULT})")
    return parser


def print_load():
    print(f"load      {os.getloadavg()[0]:.1f} on {os.cpu_count()} cores", flush=True)


@contextlib.contextmanager
def in_new_folder():
    """Makes a folder for the files of a benchmark, which is the current one until it is taken away."""
    before = os.getcwd()
    with tempfile.TemporaryDirectory() as folder:
        os.chdir(folder)
        try:
            yield
        finally:
            os.chdir(before)


def use_of(words):
    """What a run uses, its seconds by the clock, its status, and what it prints."""
    to_answer = (os.POSIX_SPAWN_OPEN, 1, "answer", os.O_WRONLY | os.O_CREAT | os.O_TRUNC, 0o600)
    start = time.perf_counter()
    pid = os.posix_spawnp(words[0], words, os.environ, file_actions=[to_answer])
    _, status, used = os.wait4(pid, 0)
    clock = time.perf_counter() - start
    with open("answer") as file:
        return used, clock, os.waitstatus_to_exitcode(status), file.read()


def run(words):
    """The processor seconds of a run, those by the clock, its status, and what it prints."""
    used, clock, status, answer = use_of(words)
    return used.ru_utime + used.ru_stime, clock, status, answer


def answer_of(words, statuses=(0,)):
    """What a run prints that ends well, or with one of these statuses."""
    _, _, status, answer = run(words)
    if status not in statuses:
        sys.exit(f"{NAME}: {' '.join(words)} ended with {status}")
    return answer


def best(commands, times=5):
    """The least processor seconds of each command, whose runs take turns."""
    least = [float("inf")] * len(commands)
    for _ in range(times):
        least = [min(seconds, run(words)[0]) for seconds, words in zip(least, commands)]
    return least


def middle(commands, times=7):
    """The middle of the seconds by the clock of each command, whose runs take turns."""
    took = [[run(words)[1] for words in commands] for _ in range(times)]
    return [statistics.median(seconds) for seconds in zip(*took)]


def want_same(name, answers):
    """Ends where the answers differ."""
    if len(set(answers)) != 1:
        shown = "\n".join(str(answer)[:1000] for answer in answers)
        sys.exit(f"{NAME}: {name}: the answers differ:\n{shown}")


def write(name, content):
    with open(name, "wb") as file:
        file.write(content if isinstance(content, bytes) else ("\n".join(content) + "\n").encode())


def read(name):
    with open(name, "rb") as file:
        return file.read()


def number(register, value):
    """Sets a register to a number of up to 31 bits, by two instructions in either assembler."""
    return [f"lui {register}, {(value + 2048) >> 12}", f"addi {register}, {register}, {(value + 2048) % 4096 - 2048}"]


def write_loop(program, before, body, turns, name, more=0):
    """Writes the program of a loop that goes round so many times and then exits, and a schedule of it. Tells its steps.

    The turns are counted in s0, and a0 is what t4 has at the end; `more` is how many steps what stands before makes beyond its lines."""
    before = [*before, *number("s0", turns)]
    body = [*body, "addi s0, s0, -1", "bnez s0, loop"]
    write(f"{name}.s", before + ["loop:"] + body + ["mv a0, t4", *EXIT])
    answer_of([program, "asm", f"{name}.s", f"{name}.o"])
    steps = len(before) + more + turns * len(body) + 1 + len(EXIT)
    write(f"{name}.schedule", [f"h0*{steps}"])
    return steps


def compiled(name):
    """Builds one of the programs of bench/c, in the current folder."""
    subprocess.run(["cc", "-O2", "-std=c11", "-pthread", "-o", name, os.path.join(HERE, "c", f"{name}.c")], check=True)
    return os.path.abspath(name)
