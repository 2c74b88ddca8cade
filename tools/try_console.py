#!/usr/bin/env python3
"""Talks to the built program over pipes, line by line, and compares each answer with that of tools/console_answers.py.

    python3 tools/try_console.py crates/limits/out/limits

It shows what the check's own run cannot: that each answer comes before the next line is sent, what unreadable lines
are answered, and with which status the program ends.
"""

import os
import select
import subprocess
import sys
from pathlib import Path

from console_answers import answer

DATA = Path(__file__).resolve().parent.parent / "crates" / "limits" / "data"

LINES = [
    b"contract 5",
    b"sheet strikes.bin",
    b"contract 41",
    b"",
    b"   ",
    b"# a comment",
    b"sheet",
    b"sheet strikes.bin strikes.bin",
    b"sheet no_such_file.bin",
    b"sheet .",  # a folder
    b"sheet /dev/zero",  # a file without an end
    b"Sheet strikes.bin",
    b"sheets strikes.bin",
    b" # no comment",
    b"contract",
    b"contract -1",
    b"contract +40",
    b"contract 4 0",
    b"contract 40x",
    b"contract\t40",
    b"contract 40",
    b"contract 00000000000000000000000000000000000000040",
    b"contract 99999999999999999999999999999999999999999",
    b"sheet stri\xffkes.bin",
    b"\xc3\xa7",
    b"contract 40".ljust(4096),  # as long as a line may be
    b"contract 40".ljust(4097),
    b"#" * 100_000,
    b"contract 40\r",
    "contract 4\u0660".encode(),  # a digit, but not a decimal one of ASCII
    b"sheet factors_gaps.bin",
    b"contract 10",
]

WAIT = 5  # seconds

LONGEST = 4096  # bytes of a line


def next_line(pipe):
    """The next line that the program writes, or None if none comes in time."""
    line = b""
    while not line.endswith(b"\n"):
        if not select.select([pipe], [], [], WAIT)[0]:
            return None
        byte = os.read(pipe.fileno(), 1)
        if not byte:
            return None
        line += byte
    return line[:-1].decode()


def expected(sheets, line):
    if len(line) > LONGEST:
        return "unreadable the line is too long"
    if line == b"sheet /dev/zero":
        return answer(sheets, "sheet refused_1_long.bin")
    try:
        return answer(sheets, line.removesuffix(b"\r").decode())
    except UnicodeDecodeError:
        return "unreadable not a line of this program"


def talk(program, lines):
    """Sends the lines one by one; answers how many answers were wrong, and the status."""
    wrong, sheets = 0, []
    with subprocess.Popen([program], stdin=subprocess.PIPE, stdout=subprocess.PIPE, cwd=DATA, bufsize=0) as process:
        for line in lines:
            process.stdin.write(line + b"\n")
            want = expected(sheets, line)
            got = None if want is None else next_line(process.stdout)
            if got != want:
                wrong += 1
                print(f"{line!r}: wanted {want!r}, got {got!r}")
        process.stdin.close()
        rest = process.stdout.read()
        if rest:
            wrong += 1
            print(f"written without a line: {rest!r}")
        return wrong, process.wait()


def main(program):
    os.chdir(DATA)
    wrong, status = talk(program, LINES)
    if status != 1:
        wrong += 1
        print(f"after unreadable lines the status is {status}")
    readable = (DATA.parent / "stdin").read_bytes().splitlines()
    more, status = talk(program, readable)
    wrong += more
    if status != 0:
        wrong += 1
        print(f"with readable lines alone the status is {status}")
    print(f"{len(LINES) + len(readable)} lines sent, {wrong} wrong")
    return 1 if wrong else 0


if __name__ == "__main__":
    if len(sys.argv) != 2:
        sys.exit(__doc__)
    sys.exit(main(str(Path(sys.argv[1]).resolve())))
