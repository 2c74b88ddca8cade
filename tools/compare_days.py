#!/usr/bin/env python3
"""Compares the program `limits` with the second opinion on random days.

    compare_days.py FIRST LAST [--large] [--program PATH] [--opinion PATH] [--folder PATH]

For every seed from FIRST to LAST the day of `random_days.py` is written into a folder, and both
programs read its lines there. Every answer and the exit status must be the same. Of each day that
differs, the first differing line is printed with the lines before it, and the day is kept. At the
end stands how often each refusal and each kind of answer came, so that one sees what was tried.

The second opinion is built by rustc into a temporary folder unless a built one is given. The
program ends with status 1 if a day differs.
"""

import argparse
import collections
import os
import shutil
import subprocess
import sys
import tempfile
import time

import random_days

TOOLS = os.path.dirname(os.path.abspath(__file__))
PROGRAM = os.path.join(os.path.dirname(TOOLS), "crates", "limits", "out", "limits")
SOURCE = os.path.join(TOOLS, "second_opinion", "src", "main.rs")
LINES_SHOWN = 12


def build(folder):
    """Builds the second opinion, and says where it is."""
    path = os.path.join(folder, "second_opinion")
    subprocess.run(["rustc", "-O", "--edition", "2021", "-o", path, SOURCE], check=True)
    return path


def run(program, folder):
    """The answers of a program to the day in a folder, and its exit status."""
    with open(os.path.join(folder, "lines"), "rb") as lines:
        done = subprocess.run([program], stdin=lines, capture_output=True, cwd=folder, timeout=600)
    return done.stdout, done.returncode


def has_answer(line):
    """Whether a line asks anything, or cannot be read."""
    if len(line) > 4_096:
        return True
    try:
        text = line.decode()
    except UnicodeDecodeError:
        return True
    return not text.startswith("#") and text.strip(" ") != ""


def split_lines(data):
    """The lines of a day, without a carriage return before the newline."""
    *lines, last = data.split(b"\n")
    whole = [line[:-1] if line.endswith(b"\r") and len(line) <= 4_096 else line for line in lines]
    return whole + ([last] if last else [])


def split_answers(data):
    """The answers: each a line with its newline, or the block of a statement."""
    answers, block = [], []
    for line in data.splitlines(keepends=True):
        block.append(line)
        if not block[0].startswith(b"statement ") or line == b"end\n":
            answers.append(b"".join(block))
            block = []
    return answers + ([b"".join(block)] if block else [])


def pair(lines, answers):
    """Each line with its answer; nothing where there is none."""
    left = iter(answers)
    return [(line, next(left, b"") if has_answer(line) else b"") for line in lines]


def first_word(line):
    """The first word of a line as text."""
    return b"".join(line.split()[:1]).decode("ascii", "replace")


def count(pairs, counts):
    """Adds to the counts what came."""
    for line, answer in pairs:
        words = answer.split()
        if not words:
            counts["no answer"] += 1
            continue
        kind = first_word(answer)
        if kind == "refused":
            counts[f"refused {int(words[1]):2}"] += 1
            counts[f"refused {int(words[1]):2} {first_word(line)}"] += 1
        elif kind in ("unreadable", "misplaced"):
            counts[answer.decode("ascii", "replace").strip()] += 1
        elif kind == "accepted":
            counts[f"accepted {first_word(line)}"] += 1
        elif kind == "sheet":
            counts[f"sheet {words[2].decode()}"] += 1
        elif kind == "statement":
            counts["statement"] += 1
            limit = next(part for part in answer.split(b"\n") if part.startswith(b"limit "))
            counts["statement with a violation"] += limit.endswith(b" violation")
            counts["statement with a limit of 0"] += limit == b"limit 0"
            counts["statement without backing"] += b"utilisation no backing" in answer
        else:
            counts[kind] += 1


def first_difference(lines, ours, theirs):
    """Text that shows where two runs of a day differ first, with the lines before."""
    pairs = pair(lines, split_answers(ours))
    others = pair(lines, split_answers(theirs))
    for at, ((line, one), (_, other)) in enumerate(zip(pairs, others)):
        if one != other:
            text = []
            for before, answer in pairs[max(0, at - LINES_SHOWN):at]:
                text.append(f"    {show(before)}\n        {show(answer)}")
            text.append(f"line {at + 1}: {show(line)}")
            text.append(f"    second opinion: {show(one)}")
            text.append(f"    limits:         {show(other)}")
            return "\n".join(text)
    return f"the answers differ after the last line: {len(ours)} and {len(theirs)} bytes"


def show(data):
    """Bytes as text, shortened."""
    text = data.decode("ascii", "backslashreplace").strip("\n").replace("\n", "\n        ")
    text = text.replace("\r", "\\r").replace("\t", "\\t").replace("\0", "\\0")
    return text if len(text) < 2_000 else f"{text[:2_000]}.. ({len(data)} bytes)"


def compare(seed, arguments, opinion, counts, reasons):
    """Compares one day. Says whether it is the same for both."""
    folder = os.path.join(arguments.folder, f"{'large' if arguments.large else 'day'}{seed}")
    shutil.rmtree(folder, ignore_errors=True)
    reasons.update(random_days.write_day(seed, folder, arguments.large))
    ours, our_status = run(opinion, folder)
    theirs, their_status = run(arguments.program, folder)
    with open(os.path.join(folder, "lines"), "rb") as file:
        lines = split_lines(file.read())
    count(pair(lines, split_answers(ours)), counts)
    counts["lines"] += len(lines)
    counts[f"exit status {our_status}"] += 1
    same = (ours, our_status) == (theirs, their_status)
    if same:
        shutil.rmtree(folder)
        return True
    print(f"day {seed} differs; it is kept in {folder}")
    if our_status != their_status:
        print(f"    exit status of the second opinion {our_status}, of limits {their_status}")
    if ours != theirs:
        print(first_difference(lines, ours, theirs))
    sys.stdout.flush()
    return False


def main():
    parser = argparse.ArgumentParser(description=__doc__.splitlines()[0])
    parser.add_argument("first", type=int)
    parser.add_argument("last", type=int)
    parser.add_argument("--large", action="store_true", help="days of thousands of lines")
    parser.add_argument("--program", default=PROGRAM, help="the built program limits")
    parser.add_argument("--opinion", help="the built second opinion")
    parser.add_argument("--folder", help="where the days are written; a temporary folder if absent")
    arguments = parser.parse_args()
    arguments.program = os.path.abspath(arguments.program)
    arguments.folder = os.path.abspath(arguments.folder or tempfile.mkdtemp(prefix="random_days."))
    os.makedirs(arguments.folder, exist_ok=True)
    counts, reasons = collections.Counter(), collections.Counter()
    start, differing = time.monotonic(), []
    with tempfile.TemporaryDirectory() as built:
        opinion = os.path.abspath(arguments.opinion) if arguments.opinion else build(built)
        for seed in range(arguments.first, arguments.last + 1):
            if not compare(seed, arguments, opinion, counts, reasons):
                differing.append(seed)
    if not os.listdir(arguments.folder):
        os.rmdir(arguments.folder)
    days = arguments.last - arguments.first + 1
    print(f"{days} days in {time.monotonic() - start:.0f} seconds, {len(differing)} differ")
    if differing:
        print("    " + " ".join(map(str, differing)))
    for name, number in sorted(counts.items()):
        print(f"{number:9} {name}")
    print("What the days were aimed at, by their own ledger:")
    for name, number in sorted(reasons.items()):
        print(f"{number:9} {name}")
    return 1 if differing else 0


if __name__ == "__main__":
    sys.exit(main())
