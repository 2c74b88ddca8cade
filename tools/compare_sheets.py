#!/usr/bin/env python3
"""Compares the program `limits` with tools/read_sheets.py on random sheets, whole and damaged. Not part of the gate.

    (cd crates/limits && rt run < /dev/null)
    python3 tools/compare_sheets.py [SEED [SHEETS [TABLES]]]

Of SHEETS files the verdicts are compared, and of the first TABLES accepted ones every contract's line.
It prints how many there were of each verdict and how many lines differ, and ends with status 1 if one does.
"""

import os
import random
import subprocess
import sys
import tempfile
from pathlib import Path

from make_sheets import factors, series, strikes
from read_sheets import Refused, read

PROGRAM = Path(__file__).resolve().parent.parent / "crates" / "limits" / "out" / "limits"
UNKNOWN = "refused 10 unknown trader, client, trade, holder or contract"


def numbers(n):
    return sorted(random.sample(range(256), n))


def some_factors():
    n, scenarios, f = random.choice([1, 2, 5, 64]), random.choice([1, 2, 7, 64]), random.randint(1, 8)
    small, large = (lambda: random.randint(-3, 3)), (lambda: random.randint(-12500000, 12500000))
    records = [(c, random.randint(0, 10000), [random.choice([small, large])() for _ in range(f)]) for c in numbers(n)]
    rows = [[0] * f] + [[random.randint(-10000, 10000) for _ in range(f)] for _ in range(scenarios - 1)]
    return factors(records, rows)


def some_series():
    n, scenarios = random.choice([1, 2, 5, 64]), random.choice([1, 2, 7, 64])
    shock = lambda: random.choice([random.randint(-10**8, 10**8), 10**8, -10**8])
    return series([(c, [0] + [shock() for _ in range(scenarios - 1)]) for c in numbers(n)])


def some_strikes():
    return strikes(numbers(random.choice([1, 2, 63])), payoff=random.choice([1, 10**8, random.randint(1, 10**8)]))


def put(content, at, new):
    content[at:at + len(new)] = new[:max(0, len(content) - at)]


def damaged(content):
    """The file with up to three damages; some keep it acceptable."""
    content = bytearray(content)
    for _ in range(random.choice([0, 1, 1, 2, 3])):
        way = random.randrange(6)
        if way == 0 and content:
            content[random.randrange(min(len(content), random.choice([24, 65536])))] = random.randrange(256)
        elif way == 1:
            content = content[:random.randrange(len(content) + 1)]
        elif way == 2:
            content += bytes(random.randrange(256) for _ in range(random.randrange(8)))
        elif way == 3:
            put(content, 16, len(content).to_bytes(4, "little"))
        elif way == 4:
            offset = random.choice([0, 20, 24, 25, 28, max(0, len(content) - 4), len(content), 2**32 - 1])
            put(content, random.choice([8, 12]), offset.to_bytes(4, "little"))
        elif way == 5 and len(content) > 28:
            put(content, random.randrange(24, len(content)), bytes([random.choice([0, 127, 128, 255])]) * 4)
    return bytes(content)


def run(lines):
    ended = subprocess.run([PROGRAM], input="".join(line + "\n" for line in lines), capture_output=True, text=True, check=True)
    return ended.stdout.split("\n")[:-1]


def verdict(content):
    try:
        read(content)
        return "accepted"
    except Refused as refused:
        return f"refused {refused.args[0]}"


def answered(line):
    """A ninth accepted sheet is misplaced, and a refused one is refused whenever it comes."""
    return "accepted" if line.startswith(("sheet ", "misplaced ")) else " ".join(line.split()[:2])


def table_lines(content):
    sheet = read(content)
    lines = [f"sheet 0 {sheet.kind} contracts {len(sheet.contracts)} scenarios {sheet.scenarios}"]
    for c in range(257):
        if c in sheet.contracts:
            multiplier, row = sheet.contracts[c]
            lines.append(f"contract {c} subportfolio 0 multiplier {multiplier} shocks " + " ".join(map(str, row)))
        else:
            lines.append(UNKNOWN)
    return lines


def main(seed=1, sheets=3000, tables=300):
    random.seed(seed)
    contents = [damaged(random.choice([some_factors, some_series, some_strikes])()) for _ in range(sheets)]
    for i, content in enumerate(contents):
        Path(f"{i}.bin").write_bytes(content)
    expected = [verdict(content) for content in contents]
    differ = sum(answered(line) != e for line, e in zip(run(f"sheet {i}.bin" for i in range(sheets)), expected))
    for e in sorted(set(expected)):
        print(e, expected.count(e))
    print("verdicts that differ:", differ)
    accepted = [i for i in range(sheets) if expected[i] == "accepted"][:tables]
    lines = 0
    for i in accepted:
        answers, should = run([f"sheet {i}.bin"] + [f"contract {c}" for c in range(257)]), table_lines(contents[i])
        lines += sum(a != s for a, s in zip(answers, should)) + abs(len(answers) - len(should))
    print(f"lines that differ in {len(accepted)} tables:", lines)
    return 1 if differ or lines else 0


if __name__ == "__main__":
    with tempfile.TemporaryDirectory() as folder:
        os.chdir(folder)
        sys.exit(main(*map(int, sys.argv[1:])))
