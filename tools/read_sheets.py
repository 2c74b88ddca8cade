#!/usr/bin/env python3
"""Reads sheet files, from the description of the layout in docs/FORMATS.md alone, and prints what they mean.

    python3 tools/read_sheets.py FILE..    prints `refused N`, or a line for each contract: number, multiplier, shocks

It shares nothing with the program nor with the script that writes the files, so that the figures that the program is
held to come from outside it.
"""

import sys
from fractions import Fraction
from pathlib import Path

FACTORS, SERIES, STRIKES = 1, 2, 3
NAMES = {FACTORS: "factors", SERIES: "series", STRIKES: "strikes"}


class Refused(Exception):
    """The file breaks a rule; the argument is the rule's number."""


class Sheet:
    """What an accepted file means: its kind, its scenario count, and for each contract its multiplier and shocks."""

    def __init__(self, kind, scenarios, contracts):
        self.kind = kind
        self.scenarios = scenarios
        self.contracts = contracts


def nearest(x):
    """The whole number nearest to a fraction, halves away from zero."""
    doubled = 2 * abs(x) + 1  # |x| + 1/2, twice
    whole = (doubled.numerator // doubled.denominator) // 2
    return whole if x >= 0 else -whole


class Bytes:
    """Little-endian numbers of a file; a byte past the end counts as 0 (the rules about areas come before)."""

    def __init__(self, content):
        self.content = content

    def unsigned(self, at, size):
        part = self.content[at:at + size]
        return int.from_bytes(part + bytes(size - len(part)), "little")

    def signed(self, at):
        n = self.unsigned(at, 4)
        return n - 2**32 if n >= 2**31 else n


def need(fact, number):
    if not fact:
        raise Refused(number)


def read(content):
    b = Bytes(content)
    length = len(content)

    need(24 <= length <= 65536 and b.unsigned(16, 4) == length, 1)

    kind = b.unsigned(0, 2)
    need(kind in NAMES, 2)

    n, s, f = b.unsigned(2, 2), b.unsigned(4, 2), b.unsigned(6, 2)
    if kind == FACTORS:
        need(1 <= n <= 64 and 1 <= s <= 64 and 1 <= f <= 8, 3)
    elif kind == SERIES:
        need(1 <= n <= 64 and 1 <= s <= 64 and f == 0, 3)
    else:
        need(1 <= n <= 63 and s == n + 1 and f == 0, 3)

    contract_area, scenario_area = b.unsigned(8, 4), b.unsigned(12, 4)
    record = 4 + 4 * f
    contract_end = contract_area + n * record
    scenario_end = scenario_area + {FACTORS: 4 * s * f, SERIES: 4 * n * s, STRIKES: 0}[kind]
    need(contract_area >= 24 and scenario_area >= 24, 4)
    need(contract_end <= length and scenario_end <= length, 4)
    shared = set(range(contract_area, contract_end)) & set(range(scenario_area, scenario_end))
    need(not shared, 4)

    starts = [contract_area + record * j for j in range(n)]
    numbers = [b.unsigned(at, 2) for at in starts]
    need(all(number <= 255 for number in numbers), 5)
    need(all(low < high for low, high in zip(numbers, numbers[1:])), 5)

    payoff = b.unsigned(20, 4)
    seconds = [b.unsigned(at + 2, 2) for at in starts]
    need(1 <= payoff <= 10**8 if kind == STRIKES else payoff == 0, 6)
    if kind == FACTORS:
        need(all(multiplier <= 10000 for multiplier in seconds), 6)
        exposures = [[b.signed(at + 4 + 4 * i) for i in range(f)] for at in starts]
        need(all(abs(x) <= 12500000 for row in exposures for x in row), 6)
        rows = [[b.signed(scenario_area + 4 * (f * k + i)) for i in range(f)] for k in range(s)]
        need(all(abs(x) <= 10000 for row in rows for x in row), 6)
        need(all(x == 0 for x in rows[0]), 7)
        shocks = [[nearest(Fraction(sum(e * x for e, x in zip(exposure, row)), 10000)) for row in rows]
                  for exposure in exposures]
        multipliers = seconds
    else:
        need(all(zero == 0 for zero in seconds), 6)
        multipliers = [0] * n
        if kind == SERIES:
            shocks = [[b.signed(scenario_area + 4 * (s * j + k)) for k in range(s)] for j in range(n)]
            need(all(abs(x) <= 10**8 for row in shocks for x in row), 6)
            need(all(row[0] == 0 for row in shocks), 7)
        else:
            shocks = [[payoff if k == j + 1 else 0 for k in range(s)] for j in range(n)]

    return Sheet(NAMES[kind], s, {number: (m, row) for number, m, row in zip(numbers, multipliers, shocks)})


def main(paths):
    for path in paths:
        try:
            sheet = read(Path(path).read_bytes())
        except Refused as cause:
            print(f"{path}: refused {cause}")
            continue
        print(f"{path}: {sheet.kind} contracts {len(sheet.contracts)} scenarios {sheet.scenarios}")
        for number, (multiplier, shocks) in sheet.contracts.items():
            print(f"  contract {number} multiplier {multiplier} shocks {' '.join(map(str, shocks))}")


if __name__ == "__main__":
    main(sys.argv[1:])
