#!/usr/bin/env python3
"""Writes the sheet files that the program `tables` reads, into crates/tables/data/, and what it is to print, into
crates/tables/stdout.

    python3 tools/make_table_sheets.py           writes the files
    python3 tools/make_table_sheets.py --check   says whether the files there are the ones that would be written

The expected figures stand in crates/tables/stdin alone, one after the sign = of each row; what the program is to print
is made of them, and of nothing that the program has worked out. docs/FORMATS.md has the layout of a sheet.
"""

import sys
from pathlib import Path

from make_sheets import factors, series, strikes

CRATE = Path(__file__).resolve().parent.parent / "crates" / "tables"
FOLDER = CRATE / "data"

# --- the sheets -----------------------------------------------------------------------------------------------------

SHEETS = {}

# Rounding to the nearest centavo, halves away from zero: an exposure of 1 centavo to one factor, which moves by a half,
# by minus a half, and by a little less than a half. A price tick is worth 2500 centavos.
SHEETS["ties.bin"] = factors(
    records=[(7, 2500, [1])],
    rows=[[0], [5000], [-5000], [4999]],
)

# The sign of a shock: the four bytes of value 255 are the number -1.
SHEETS["signs.bin"] = series([(1, [0, -1])])

# What four trades are worth in three scenarios. The columns are scenario 0, in which nothing moves, and the three.
SHEETS["four_trades.bin"] = series([
    (1, [0, -50_000_000, -50_000_000, 35_000_000]),
    (2, [0, 20_000_000, 15_000_000, -25_000_000]),
    (3, [0, -90_000_000, -80_000_000, 60_000_000]),
    (4, [0, 5_000_000, -40_000_000, -10_000_000]),
])

# A dollar future (1), a coupon future (2) and an index future (3), with an exposure of 10000000 centavos each to the
# dollar or to the index; the four combinations of dollar +8 % and -8 % with index +10 % and -12 %, in ten-thousandths.
SHEETS["futures.bin"] = factors(
    records=[
        (1, 2500, [10_000_000, 0]),
        (2, 2500, [10_000_000, 0]),
        (3, 100, [0, 10_000_000]),
    ],
    rows=[[0, 0], [800, 1000], [800, -1200], [-800, 1000], [-800, -1200]],
)

# Two strikes, of which at most one pays 10000 centavos.
SHEETS["strikes.bin"] = strikes([1, 2], payoff=10_000)


# --- what is to be printed ------------------------------------------------------------------------------------------


def printed(line):
    """What the program is to print for a line of its input, or None."""
    if line.startswith("#"):
        return None
    words = line.split()
    if words[:1] == ["table"]:
        return " ".join(words[1:])
    if "=" in words:
        at = words.index("=")
        question, figure = " ".join(words[:at]), " ".join(words[at + 1:])
        return f"{question}: worked out {figure}, should be {figure}"
    return None


def output():
    lines = (CRATE / "stdin").read_text().splitlines()
    return "".join(f"{text}\n" for text in map(printed, lines) if text is not None)


# --- writing and comparing ------------------------------------------------------------------------------------------


def files():
    """Every file that this script answers for, with what it is to hold."""
    return {FOLDER / name: content for name, content in SHEETS.items()} | {CRATE / "stdout": output().encode()}


def write():
    FOLDER.mkdir(parents=True, exist_ok=True)
    for path, content in files().items():
        path.write_bytes(content)
    print(f"{len(files())} files written")
    return 0


def check():
    wrong = [path for path, content in files().items() if not path.is_file() or path.read_bytes() != content]
    wrong += [path for path in FOLDER.iterdir() if path.name not in SHEETS] if FOLDER.is_dir() else []
    for path in wrong:
        print(f"not as it would be written: {path.name}")
    print(f"{len(files())} files, {len(wrong)} wrong")
    return 1 if wrong else 0


if __name__ == "__main__":
    if sys.argv[1:] not in ([], ["--check"]):
        sys.exit(__doc__)
    sys.exit(check() if sys.argv[1:] else write())
