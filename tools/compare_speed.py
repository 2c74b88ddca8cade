#!/usr/bin/env python3
"""How fast the program `limits` is beside the second opinion, which is plain Rust.

    python3 tools/compare_speed.py [crates/limits/out/limits] [--rounds N]

Both programs read the same lines from a file, and their answers are thrown away; what counts is the processor time that
each takes by itself. They run in turn, and of each the least of N rounds (5) is taken. The second opinion is built by
`rustc -O` into a temporary folder. Four loads are run: statements over the full book, shocks, small calls (deposit, price,
trade, specify), and whole random days. What it takes to read the sheets and to fill the book is measured by itself, and
taken off the first three.
"""

import argparse
import os
import resource
import subprocess
import sys
import tempfile
from pathlib import Path

import random_days
import time_statements

TOP = Path(__file__).resolve().parent.parent
SOURCE = TOP / "tools" / "second_opinion" / "src" / "main.rs"

STATEMENTS = 2_000
CONTRACTS = 15_625  # of 64 shocks each: a million
CALLS = 25_000  # of each of four kinds: a hundred thousand
DAYS = 20


def seconds_of(program, folder, lines):
    """The processor time that a program takes for the lines in a file."""
    before = resource.getrusage(resource.RUSAGE_CHILDREN)
    with open(lines, "rb") as source:
        subprocess.run([program], cwd=folder, stdin=source, stdout=subprocess.DEVNULL, stderr=subprocess.DEVNULL, check=False)
    after = resource.getrusage(resource.RUSAGE_CHILDREN)
    return after.ru_utime + after.ru_stime - before.ru_utime - before.ru_stime


def in_turn(programs, rounds, folder, lines):
    """The least time of each program, run in turn."""
    times = [[seconds_of(program, folder, lines) for program in programs] for _ in range(rounds)]
    return [min(column) for column in zip(*times)]


def write(folder, name, lines):
    """Writes lines into a file, and says where it is."""
    path = Path(folder) / name
    path.write_text("".join(line + "\n" for line in lines), encoding="utf-8")
    return path


def begun_day():
    """The lines with which a day begins."""
    time = time_statements
    return [f"sheet {place}.bin" for place in range(time.SHEETS)] + list(time.start_of(time.CLIENTS))


def full_book():
    """The lines of a day up to the full book."""
    time = time_statements
    return begun_day() + list(time.trades_of(time.TRADES, time.CLIENTS, time.mixed, time.spread))


def small_calls():
    """The lines of a hundred thousand small calls, a quarter of each kind. A trade is entered until the table is full, and
    given to a client; what comes then is refused, after the same tests."""
    return [line for turn in range(CALLS) for line in (
        f"deposit member 0 {1 + turn % 100}",
        f"price {time_statements.spread(turn % 64)} {1_000 + turn % 100}",
        f"trade 0 {time_statements.spread(turn % 64)} buy 1 1000",
        f"specify {turn} {turn % time_statements.CLIENTS}",
    )]


def loads(folder):
    """Each load: its name, its lines, and the lines of which the time is taken off."""
    time = time_statements
    begun = write(folder, "begun", begun_day() + ["open"])
    book = write(folder, "book", full_book())
    yield (f"{STATEMENTS:,} statements over the full book", write(folder, "statements", full_book() + ["statement 0"] * STATEMENTS), book)
    contracts = [f"contract {time.spread(turn % 64)}" for turn in range(CONTRACTS)]
    yield ("a million shocks, shown", write(folder, "contracts", full_book() + contracts), book)
    yield (f"{4 * CALLS:,} small calls", write(folder, "calls", begun_day() + ["open"] + small_calls()), begun)


def print_row(name, times):
    """A row of the table."""
    ratio = times[0] / times[1] if times[1] > 0 else float("inf")
    print(f"{name:<44}{times[0] * 1_000:>12.1f}{times[1] * 1_000:>16.1f}{ratio:>9.2f}")


def main():
    parser = argparse.ArgumentParser()
    parser.add_argument("program", nargs="?", default=str(TOP / "crates" / "limits" / "out" / "limits"))
    parser.add_argument("--rounds", type=int, default=5)
    asked = parser.parse_args()
    with tempfile.TemporaryDirectory() as folder:
        opinion = os.path.join(folder, "second_opinion")
        subprocess.run(["rustc", "-O", "--edition", "2021", "-o", opinion, str(SOURCE)], check=True)
        programs = [os.path.abspath(asked.program), opinion]
        time_statements.write_sheets(Path(folder), time_statements.SCENARIOS)
        print(f"{'processor time, in ms':<44}{'limits':>12}{'second opinion':>16}{'ratio':>9}")
        for name, lines, base in loads(folder):
            whole = in_turn(programs, asked.rounds, folder, lines)
            part = in_turn(programs, asked.rounds, folder, base)
            print_row(name, [max(0.0, a - b) for a, b in zip(whole, part)])
        days = [0.0, 0.0]
        for seed in range(1, DAYS + 1):
            day = Path(folder) / f"day{seed}"
            random_days.write_day(seed, str(day), large=True)
            days = [a + b for a, b in zip(days, in_turn(programs, asked.rounds, day, day / "lines"))]
        print_row(f"{DAYS} whole random days", days)


if __name__ == "__main__":
    sys.exit(main())
