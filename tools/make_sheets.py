#!/usr/bin/env python3
"""Writes the sheet files that the program `limits` is run on, into crates/limits/data/.

    python3 tools/make_sheets.py           writes the files
    python3 tools/make_sheets.py --check   says whether the files there are the ones that would be written

Every number stands below in plain form, so that a reader can work out by hand what a file means. docs/FORMATS.md
has the layout. A file whose name begins `refused_N_` is refused with number N. It breaks that rule alone, but for one
that is too short to hold a header, and for those named `refused_N_before_M`: they break two rules, and the upper counts.
"""

import struct
import sys
from pathlib import Path

FOLDER = Path(__file__).resolve().parent.parent / "crates" / "limits" / "data"

HEADER = 24
GAP = 0xEE  # what the bytes hold that belong to no field: nothing may depend on it


# --- how a file is put together -------------------------------------------------------------------------------------


def u16(n):
    return struct.pack("<H", n)


def u32(n):
    return struct.pack("<I", n)


def i32(n):
    return struct.pack("<i", n)


def file_of(kind, contracts, scenarios, factors, contract_area, scenario_area, payoff, contract_bytes, scenario_bytes,
            length=None, length_field=None):
    """Puts the header and the two areas where the offsets say. Without `length` the file ends with the later area."""
    if length is None:
        length = max(HEADER, contract_area + len(contract_bytes), scenario_area + len(scenario_bytes))
    if length_field is None:
        length_field = length
    header = (u16(kind) + u16(contracts) + u16(scenarios) + u16(factors)
              + u32(contract_area) + u32(scenario_area) + u32(length_field) + u32(payoff))
    cells = [None] * length
    for start, content in ((0, header), (contract_area, contract_bytes), (scenario_area, scenario_bytes)):
        for at, byte in enumerate(content, start):
            if at < length:  # a field that ends past the file is cut off
                assert cells[at] in (None, byte), "two fields want another value of one byte"
                cells[at] = byte
    return bytes(GAP if cell is None else cell for cell in cells)


def factors(records, rows, **other):
    """Records (number, multiplier, exposures); one row of factor shocks, in ten-thousandths, for each scenario."""
    contract_bytes = b"".join(
        u16(number) + u16(multiplier) + b"".join(i32(x) for x in exposures) for number, multiplier, exposures in records)
    scenario_bytes = b"".join(i32(shock) for row in rows for shock in row)
    fields = dict(kind=1, contracts=len(records), scenarios=len(rows), factors=len(records[0][2]), payoff=0,
                  contract_area=HEADER, scenario_area=HEADER + len(contract_bytes))
    fields.update(other)
    return file_of(contract_bytes=contract_bytes, scenario_bytes=scenario_bytes, **fields)


def series(rows, zeros=None, **other):
    """Rows (number, shocks in centavos); `zeros` are the second fields of the records, which are to be 0."""
    zeros = zeros or [0] * len(rows)
    contract_bytes = b"".join(u16(number) + u16(zero) for (number, _), zero in zip(rows, zeros))
    scenario_bytes = b"".join(i32(shock) for _, shocks in rows for shock in shocks)
    fields = dict(kind=2, contracts=len(rows), scenarios=len(rows[0][1]) if rows else 1, factors=0, payoff=0,
                  contract_area=HEADER, scenario_area=HEADER + len(contract_bytes))
    fields.update(other)
    return file_of(contract_bytes=contract_bytes, scenario_bytes=scenario_bytes, **fields)


def strikes(numbers, payoff, zeros=None, **other):
    """The contract in place j, counted from 1, gains the payoff in scenario j, and 0 in every other."""
    zeros = zeros or [0] * len(numbers)
    contract_bytes = b"".join(u16(number) + u16(zero) for number, zero in zip(numbers, zeros))
    fields = dict(kind=3, contracts=len(numbers), scenarios=len(numbers) + 1, factors=0, payoff=payoff,
                  contract_area=HEADER, scenario_area=HEADER + len(contract_bytes))
    fields.update(other)
    return file_of(contract_bytes=contract_bytes, scenario_bytes=b"", **fields)


# --- the files ------------------------------------------------------------------------------------------------------

FILES = {}

# Rounding to the nearest centavo, halves away from zero: one factor, and the exposures 1, -1 and 3.
#   contract 1:  0  1 -1  0  0  1 -1  1 -1     since 5000 / 10000 is a half, and 4999 / 10000 less than a half
#   contract 2:  0 -1  1  0  0 -1  1 -1  1
#   contract 3:  0  2 -2  1 -1  2 -2  3 -3     since 3 x 5000 / 10000 is one and a half
FILES["factors_ties.bin"] = factors(
    records=[(1, 2500, [1]), (2, 0, [-1]), (3, 10000, [3])],
    rows=[[0], [5000], [-5000], [4999], [-4999], [5001], [-5001], [10000], [-10000]],
)

# Two factors; the scenario area (40 bytes from 32 on) stands before the contract area (48 bytes from 80 on), with gaps
# before it, between the two and after them. A shock is (first x its factor + second x its factor) / 10000.
#   contract 10:  0  10000  -2500  -20000  1250000
#   contract 11:  0      0      0       1      -49     -0.37, 0.12, 0.795, -49
#   contract 12:  0      1      1       0        0      0.5,  0.5,  0.25,    0
#   contract 13:  0     -1      0       1      -50     -0.5,    0,  0.75,  -50
FILES["factors_gaps.bin"] = factors(
    records=[
        (10, 2500, [1000000, -250000]),
        (11, 0, [-37, 12]),
        (12, 10000, [50, 50]),
        (13, 1, [-50, 0]),
    ],
    rows=[[0, 0], [100, 0], [0, 100], [-150, 200], [10000, -10000]],
    scenario_area=32,
    contract_area=80,
    length=136,
)

# The largest exposures under the largest factor shocks: 8 x 12500000 x 10000 / 10000 is 100000000, the largest shock.
#   contract 14:  0  100000000 -100000000          0
#   contract 15:  0 -100000000  100000000          0
FILES["factors_largest.bin"] = factors(
    records=[(14, 10000, [12500000] * 8), (15, 10000, [-12500000] * 8)],
    rows=[[0] * 8, [10000] * 8, [-10000] * 8, [10000, -10000] * 4],
)

# Signed shocks as they stand, up to the largest; -1 is four bytes of value 255. Contract 12 is known to factors_gaps.bin
# too: whichever file is read first has it.
FILES["series_signed.bin"] = series([
    (12, [0, 7, 7, 7, 7]),
    (20, [0, 5, -5, 120, -1]),
    (255, [0, 100000000, -100000000, 99999999, -99999999]),
])

# The sheets of the day in crates/limits/day: a dollar future that may move by 10,400.00 either way, and a small one by 1.00.
FILES["dollar.bin"] = series([(1, [0, -1040000, 1040000])])
FILES["small.bin"] = series([(2, [0, -100, 100])])

# The longest file, 65536 bytes, nearly all of it a gap between its areas.
#   contract 30:  0 -65536        contract 31:  0 65535
FILES["series_longest.bin"] = series([(30, [0, -65536]), (31, [0, 65535])], scenario_area=65536 - 16)

# All 64 contracts, numbered from 64 on, and 64 scenarios: contract 64 + j has s x (j + 1) in scenario s, negative where
# s is odd.
FILES["series_full.bin"] = series(
    [(64 + j, [(s if s % 2 == 0 else -s) * (j + 1) for s in range(64)]) for j in range(64)]
)

# Four strikes with a payoff of 10000.
#   contract 40:  0 10000     0     0     0
#   contract 41:  0     0 10000     0     0
#   contract 42:  0     0     0 10000     0
#   contract 43:  0     0     0     0 10000
FILES["strikes.bin"] = strikes([40, 41, 42, 43], payoff=10000)

# The largest payoff; the empty scenario area is placed inside the contract area, and overlaps nothing.
#   contract 0:  0 100000000         0
#   contract 9:  0         0 100000000
FILES["strikes_inside.bin"] = strikes([0, 9], payoff=100000000, scenario_area=HEADER + 2)


# Refusal 1: a file under 24 or over 65536 bytes, or whose length field is not its length.
PLAIN = [(5, [0, 1, -1]), (6, [0, 2, -2])]  # a right sheet of series, from which many files below differ in one thing
FILES["refused_1_short.bin"] = series(PLAIN)[:16] + u32(23) + bytes(3)
FILES["refused_1_long.bin"] = series(PLAIN, length=65537)
FILES["refused_1_length_field.bin"] = series(PLAIN, length_field=len(series(PLAIN)) + 1)

# Refusal 2: a kind that is not 1, 2 or 3.
FILES["refused_2_kind_0.bin"] = series(PLAIN, kind=0)
FILES["refused_2_kind_4.bin"] = series(PLAIN, kind=4)

# Refusal 3: a count outside its kind's range.
ONE = [(1, 2500, [1])]  # the one record of a sheet of factors
FILES["refused_3_contracts_0.bin"] = series([], scenarios=1)
FILES["refused_3_contracts_65.bin"] = series([(number, [0]) for number in range(65)])
FILES["refused_3_scenarios_0.bin"] = factors(ONE, [])
FILES["refused_3_scenarios_65.bin"] = factors(ONE, [[s] for s in range(65)])
FILES["refused_3_factors_0.bin"] = factors([(1, 2500, [])], [[]])
FILES["refused_3_factors_9.bin"] = factors([(1, 2500, [1] * 9)], [[0] * 9])
FILES["refused_3_factors_of_series.bin"] = series([(5, [0])], factors=1, length=HEADER + 8 + 4, scenario_area=HEADER + 8)
FILES["refused_3_strikes_64.bin"] = strikes(range(64), payoff=1)
FILES["refused_3_strikes_scenarios.bin"] = strikes([40, 41], payoff=1, scenarios=2)

# Refusal 4: an area that starts before byte 24, ends past the file or overlaps the other.
# - the record of contract 0 starts at byte 23, the last of the header's payoff, which is 0
FILES["refused_4_contracts_in_header.bin"] = series([(0, [0])], contract_area=23, scenario_area=27)
# - the empty scenario area starts at byte 23
FILES["refused_4_scenarios_in_header.bin"] = strikes([40], payoff=1, scenario_area=23)
# - the last byte, the highest of the shock 2, is left out of the file
FILES["refused_4_one_byte_past_the_end.bin"] = series([(5, [0, 2])], length=HEADER + 4 + 8 - 1)
# - the last byte of the contract area, 0, is the first of the scenario area, and the other way round
FILES["refused_4_overlap_by_one_byte.bin"] = factors(ONE, [[0], [5000]], scenario_area=HEADER + 8 - 1)
FILES["refused_4_overlap_by_one_byte_turned.bin"] = factors(
    [(0, 2500, [1])], [[0], [5000]], scenario_area=HEADER, contract_area=HEADER + 8 - 1)

# Refusal 5: a contract number above 255, or not above the one before.
FILES["refused_5_number_256.bin"] = strikes([255, 256], payoff=1)
FILES["refused_5_equal_numbers.bin"] = series([(5, [0]), (6, [0]), (6, [0])])
FILES["refused_5_falling_numbers.bin"] = factors([(2, 0, [1]), (1, 0, [1])], [[0]])

# Refusal 6: another field outside its range.
FILES["refused_6_multiplier.bin"] = factors([(1, 10001, [1])], [[0], [5000]])
FILES["refused_6_exposure.bin"] = factors([(1, 2500, [-12500001])], [[0], [5000]])
FILES["refused_6_factor_shock.bin"] = factors(ONE, [[0], [10001]])
FILES["refused_6_series_shock.bin"] = series([(5, [0, -100000001])])
FILES["refused_6_second_field.bin"] = series(PLAIN, zeros=[0, 1])
FILES["refused_6_payoff_of_series.bin"] = series(PLAIN, payoff=1)
FILES["refused_6_no_payoff.bin"] = strikes([40, 41], payoff=0)
FILES["refused_6_payoff.bin"] = strikes([40, 41], payoff=100000001)

# Refusal 7: a shock of scenario 0 that is not zero.
FILES["refused_7_factors.bin"] = factors([(1, 0, [0, 0])], [[0, -1], [0, 1]])
FILES["refused_7_series.bin"] = series([(5, [0, 1]), (6, [1, 0])])

# Two rules are broken, and the upper counts.
FILES["refused_1_before_2.bin"] = series(PLAIN, kind=4, length_field=0)
FILES["refused_2_before_3.bin"] = series([], scenarios=1, kind=0)
FILES["refused_3_before_4.bin"] = series([(5, [0])], scenarios=65)
FILES["refused_4_before_5.bin"] = series([(6, [0]), (5, [0])], scenario_area=HEADER + 7)
FILES["refused_5_before_6.bin"] = series([(6, [0]), (5, [0])], zeros=[1, 1])
FILES["refused_6_before_7.bin"] = series([(5, [1, 100000001])])


# --- writing and comparing ------------------------------------------------------------------------------------------


def write():
    FOLDER.mkdir(parents=True, exist_ok=True)
    for name, content in FILES.items():
        (FOLDER / name).write_bytes(content)
    print(f"{len(FILES)} files written")
    return 0


def check():
    wrong = [name for name, content in FILES.items()
             if not (FOLDER / name).is_file() or (FOLDER / name).read_bytes() != content]
    wrong += [path.name for path in FOLDER.iterdir() if path.name not in FILES] if FOLDER.is_dir() else []
    for name in wrong:
        print(f"not as it would be written: {name}")
    print(f"{len(FILES)} files, {len(wrong)} wrong")
    return 1 if wrong else 0


if __name__ == "__main__":
    if sys.argv[1:] not in ([], ["--check"]):
        sys.exit(__doc__)
    sys.exit(check() if sys.argv[1:] else write())
