#!/usr/bin/env python3
"""Answers the console's lines as docs/FORMATS.md describes them, over the reader of tools/read_sheets.py.

    cd crates/limits/data
    python3 ../../../tools/console_answers.py < ../stdin             prints the answers
    python3 ../../../tools/console_answers.py < ../stdin > ../stdout writes what the program is held to

Like the reader, it shares nothing with the program. It ends with status 1 if a line was unreadable.
"""

import re
import sys
from pathlib import Path

from read_sheets import Refused, read

PLACES = 8

REFUSALS = {
    1: "the file is shorter than 24 bytes, longer than 65536, or not as long as it says",
    2: "the kind of sheet is not 1, 2 or 3",
    3: "a count of contracts, scenarios or factors is outside its range",
    4: "an area starts before byte 24, ends past the file or overlaps the other",
    5: "a contract number is above 255 or not above the one before",
    6: "a field is outside its range",
    7: "a shock of scenario 0 is not zero",
    10: "unknown trader, client, trade, holder or contract",
}


def refused(number):
    return f"refused {number} {REFUSALS[number]}"


def sheet_answer(sheets, path):
    try:
        content = Path(path).read_bytes()
    except OSError:
        return "unreadable the file cannot be read"
    try:
        sheet = read(content)
    except Refused as cause:
        return refused(cause.args[0])
    if len(sheets) == PLACES:
        return "misplaced eight sheets are read already"
    sheets.append(sheet)
    return f"sheet {len(sheets) - 1} {sheet.kind} contracts {len(sheet.contracts)} scenarios {sheet.scenarios}"


def contract_answer(sheets, number):
    for place, sheet in enumerate(sheets):
        if number in sheet.contracts:
            multiplier, shocks = sheet.contracts[number]
            return f"contract {number} subportfolio {place} multiplier {multiplier} shocks {' '.join(map(str, shocks))}"
    return refused(10)


def answer(sheets, line):
    """The answer to a line, or None for one that is passed over."""
    words = [word for word in line.split(" ") if word]
    if not words or line.startswith("#"):
        return None
    if len(words) == 2 and words[0] == "sheet":
        return sheet_answer(sheets, words[1])
    if len(words) == 2 and words[0] == "contract" and re.fullmatch("[0-9]+", words[1]):
        return contract_answer(sheets, int(words[1]))
    return "unreadable not a line of this program"


def main():
    sheets, status = [], 0
    for line in sys.stdin.read().split("\n"):
        text = answer(sheets, line)
        if text is not None:
            print(text)
            status = 1 if text.startswith("unreadable") else status
    return status


if __name__ == "__main__":
    sys.exit(main())
