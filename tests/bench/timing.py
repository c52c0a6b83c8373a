"""Times programs that answer scripts, line by line (lines.c)."""
import os
import subprocess
from pathlib import Path

HERE = Path(__file__).resolve().parent
WORK = HERE.parent.parent / "target/bench"


def built(name, *options):
    """The program or library that name.c makes."""
    WORK.mkdir(parents=True, exist_ok=True)
    program = WORK / name
    subprocess.run(["cc", *options, "-o", str(program), str(HERE / f"{name}.c")], check=True)
    return program


def timed(program, fill, lines, timer):
    """The nanoseconds of each line, after those that fill the state."""
    script, times = WORK / "script", WORK / "times"
    script.write_text("".join(fill + lines))
    surroundings = dict(os.environ, LD_PRELOAD=str(timer), LINE_TIMES=str(times))
    with open(script) as stdin:
        subprocess.run(program, stdin=stdin, stdout=subprocess.DEVNULL, env=surroundings, check=True)
    return [int(line) for line in times.read_text().split()][len(fill):]


def least(programs, measure, rounds):
    """Of each program the least over the rounds, in which they take turns, of each number that it is measured by."""
    measured = [[measure(program) for program in programs] for _ in range(rounds)]
    return [[min(numbers) for numbers in zip(*of_program)] for of_program in zip(*measured)]
