#!/usr/bin/env python3
"""Writes the sheets that the program `reading_speed` reads, and what it has to print of them.

    python3 tools/make_speed_sheets.py           writes crates/reading_speed/data/ and crates/reading_speed/stdout
    python3 tools/make_speed_sheets.py --check   says whether the files there are the ones that would be written

Both sheets have 64 contracts, numbered from 64 on, and 64 scenarios. The sums are worked out by tools/read_sheets.py,
which shares nothing with the program.
"""

import sys
from pathlib import Path

from make_sheets import factors, series
from read_sheets import read

CRATE = Path(__file__).resolve().parent.parent / "crates" / "reading_speed"
SHOCKS = 1_000_000

# Contract 64 + j has s x (j + 1) in scenario s, negative where s is odd.
SERIES = series([(64 + j, [(s if s % 2 == 0 else -s) * (j + 1) for s in range(64)]) for j in range(64)])

# Eight factors; exposures and factor shocks go through their ranges. The file has the most bytes that one may have.
FACTORS = factors(
    [(64 + j, 100 * j, [(j * 8 + f) * 37717 % 25000001 - 12500000 for f in range(8)]) for j in range(64)],
    [[0] * 8] + [[(s * 8 + f) * 7919 % 20001 - 10000 for f in range(8)] for s in range(1, 64)],
    length=65536,
)


def wrapped(n):
    """A number in 64 bits, signed."""
    n &= (1 << 64) - 1
    return n - (1 << 64) if n >= 1 << 63 else n


def total(content):
    """The sum of a million shocks; which contract is asked for hangs on the sum so far."""
    shocks = {number: row for number, (_, row) in read(content).contracts.items()}
    result = 0
    for turn in range(SHOCKS):
        result = wrapped(result + shocks[64 + ((abs(result) ^ turn) & 63)][turn & 63])
    return result


def files():
    lines = [f"{name} accepted true sum {total(content)}\n" for name, content in (("series.bin", SERIES), ("factors.bin", FACTORS))]
    return {CRATE / "data" / "series.bin": SERIES, CRATE / "data" / "factors.bin": FACTORS, CRATE / "stdout": "".join(lines).encode()}


def main(words):
    wrong = 0
    for path, content in files().items():
        if words == ["--check"]:
            if not path.is_file() or path.read_bytes() != content:
                print(f"{path.name} is not what it should be")
                wrong += 1
        else:
            path.write_bytes(content)
    return 1 if wrong else 0


if __name__ == "__main__":
    sys.exit(main(sys.argv[1:]))
