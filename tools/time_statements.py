#!/usr/bin/env python3
"""Measures how long the built program takes for a statement, and for the other calls of a day.

    python3 tools/time_statements.py crates/limits/out/limits
    python3 tools/time_statements.py crates/limits/out/limits 100      with 100 statements of each kind, for 300

It writes eight sheets into a temporary folder, serves the program a day over pipes, and prints tables. The time of a
statement goes from sending its line to reading its last line, `end`. Where the system tells it, the processor time that
the program used meanwhile stands beside: it leaves out the time in which another program had the processor. The last
line tells whether the bars are kept, and the status is 1 where one is not. docs/PERFORMANCE.md has figures.
"""

import os
import statistics
import subprocess
import sys
import tempfile
import time
from pathlib import Path

from make_sheets import factors, series

SHEETS = 8
CONTRACTS = 64  # of each sheet
SCENARIOS = 64  # of each sheet
CLIENTS = 128
TRADES = 1024
STATEMENTS = 300  # of each kind

BAR = 3.0  # milliseconds, for a statement over the full book
GROWTH = 1.5  # a small call may take so many times as long with the full book as with an empty one
BLOCK = 32  # small calls that are sent at once, as many as slips may stand
DAYS = 64  # days in which they are measured
WARMING = 5  # statements before those that are measured

LIMIT = 10**15  # of the trader: no limit comes below zero, so that no withdrawal and no cancellation is refused
COLLATERAL = 10**12  # of each second client, which can withdraw; the others have 1,000, and a deficit


# --- the sheets and the day ----------------------------------------------------------------------------------------


def numbers_of(place):
    """The contracts of a sheet: the first has 0 to 63, each other one 27 contracts of its own and 37 of the first's."""
    if place == 0:
        return list(range(CONTRACTS))
    own = CONTRACTS + 27 * (place - 1)
    return list(range(37)) + list(range(own, own + 27))


def owned_by(place):
    """The contracts that lie in the subportfolio: what several sheets know is the contract of the lowest place."""
    return numbers_of(place) if place == 0 else numbers_of(place)[37:]


def sheet_of(place, scenarios):
    """A sheet of factors where the place is even, and one of series where it is odd."""
    if place % 2 == 0:
        return factors(
            [(number, 100 * (number % 100), [(number * 8 + f) * 37717 % 2000001 - 1000000 for f in range(8)])
             for number in numbers_of(place)],
            [[0] * 8] + [[(s * 8 + f) * 7919 % 20001 - 10000 for f in range(8)] for s in range(1, scenarios)])
    return series([(number, [0] + [(number * 64 + s) * 7919 % 200001 - 100000 for s in range(1, scenarios)])
                   for number in numbers_of(place)])


def spread(n):
    """The subportfolio and the contract of trade `n`, which go round all of them."""
    place = n % SHEETS
    own = owned_by(place)
    return own[n // SHEETS % len(own)]


def in_place(place):
    """Trades that lie in one subportfolio alone."""
    own = owned_by(place)
    return lambda n: own[n % len(own)]


def lot_of(n, contract_of):
    return f"{contract_of(n)} {'buy' if n % 3 else 'sell'} {1 + n % 100} {1000 + n % 37}"


def mixed(n):
    """A quarter of the trades is carried, a half specified, a quarter without a client."""
    return ("carried", "specified", "specified", "open")[n // SHEETS % 4]


def start_of(clients):
    """The lines with which a day begins: a trader with its clients, one with none, and a price for each contract."""
    yield f"trader {LIMIT} {CLIENTS}"
    yield "trader 0 1"
    for client in range(clients):
        yield "client 0"
    for client in range(clients):
        yield f"deposit client {client} {COLLATERAL if client % 2 else 1000}"
    for place in range(SHEETS):
        for contract in owned_by(place):
            yield f"price {contract} {1000 + contract}"


def trades_of(trades, clients, standing, contract_of):
    """The lines that bring the trades in, through the opening."""
    carried = [n for n in range(trades) if standing(n) == "carried"]
    others = [n for n in range(trades) if standing(n) != "carried"]
    for n in carried:
        yield f"carry {n * 5 % clients} {lot_of(n, contract_of)}"
    yield "open"
    for n in others:
        yield f"trade 0 {lot_of(n, contract_of)}"
    for number, n in enumerate(others, len(carried)):
        if standing(n) == "specified":
            yield f"specify {number} {n * 7 % clients}"
        if standing(n) == "one client":
            yield f"specify {number} 0"


# --- talking to the program ----------------------------------------------------------------------------------------


class Program:
    """The program over pipes, in a folder with sheets."""

    def __init__(self, path, folder, sleeping=True):
        """With `sleeping` the reader sleeps until something comes. Else it asks again and again, and the program need
        not wake it line by line, which takes longer than a small call."""
        self.process = subprocess.Popen([path], stdin=subprocess.PIPE, stdout=subprocess.PIPE, cwd=folder, bufsize=0)
        self.inward, self.outward = self.process.stdin.fileno(), self.process.stdout.fileno()
        os.set_blocking(self.outward, sleeping)
        self.clock = None
        try:
            self.clock = open(f"/proc/{self.process.pid}/schedstat", "rb", buffering=0)
        except OSError:
            pass

    def __enter__(self):
        return self

    def __exit__(self, *_):
        if self.clock is not None:
            self.clock.close()
        self.process.stdin.close()
        self.process.stdout.close()
        if self.process.wait() != 0:
            sys.exit("the program ended with another status than 0")

    def used(self):
        """The processor time that the program has used, in seconds, 0 where the system does not tell it."""
        if self.clock is None:
            return 0.0
        return int(os.pread(self.clock.fileno(), 64, 0).split()[0]) / 1e9

    def read_more(self):
        """What the program has written meanwhile. Nothing only where the reader does not sleep."""
        try:
            more = os.read(self.outward, 65536)
        except BlockingIOError:
            os.sched_yield()  # to the program, if it waits for the reader's processor
            return b""
        if not more:
            sys.exit("the program ended before its answer")
        return more

    def ask(self, lines, wanted):
        """Sends lines that are answered in one line each; answers the time until the last answer, in seconds."""
        lines = list(lines)
        text = "".join(line + "\n" for line in lines).encode()
        got = b""
        begin = time.perf_counter()
        os.write(self.inward, text)
        while got.count(b"\n") < len(lines):
            got += self.read_more()
        end = time.perf_counter()
        for line, answer in zip(lines, got.decode().splitlines()):
            if not answer.startswith(wanted):
                sys.exit(f"{line}: {answer}")
        return end - begin

    def tell(self, lines):
        """Sends lines a few at a time, so that neither pipe fills up; each has to be accepted."""
        lines = list(lines)
        for at in range(0, len(lines), BLOCK):
            self.ask(lines[at:at + BLOCK], ("sheet", "accepted", "trader", "client", "trade"))

    def ask_statement(self, trader):
        """The time from sending the line to the last line of the statement, in seconds, and how many lines came."""
        got = b""
        begin = time.perf_counter()
        os.write(self.inward, b"statement %d\n" % trader)
        while not got.endswith(b"\nend\n"):
            got += self.read_more()
            if got.startswith((b"refused", b"misplaced", b"unreadable")):
                sys.exit(got.decode())
        return time.perf_counter() - begin, got.count(b"\n")


def begin_day(program, clients):
    program.tell(f"sheet {place}.bin" for place in range(SHEETS))
    program.tell(start_of(clients))


# --- statements ----------------------------------------------------------------------------------------------------


def write_sheets(folder, scenarios):
    for place in range(SHEETS):
        (Path(folder) / f"{place}.bin").write_bytes(sheet_of(place, scenarios))


def figures_of(times, used):
    """The least, the median, the 90th of a hundred and the processor time, in milliseconds."""
    times = sorted(times)
    return [1000 * x for x in (times[0], statistics.median(times), times[len(times) * 9 // 10], used / len(times))]


def take_statements(path, count, trades=TRADES, scenarios=SCENARIOS, clients=CLIENTS, standing=mixed,
                    contract_of=spread, trader=0):
    """Figures of the statements of a trader in a day, and how many lines each has."""
    with tempfile.TemporaryDirectory() as folder:
        write_sheets(folder, scenarios)
        with Program(path, folder) as program:
            begin_day(program, clients)
            program.tell(trades_of(trades, clients, standing, contract_of))
            for _ in range(WARMING):
                program.ask_statement(trader)
            before = program.used()
            taken = [program.ask_statement(trader) for _ in range(count)]
            used = program.used() - before
    return figures_of([x for x, _ in taken], used), taken[0][1]


def take_contracts(path, count):
    """Figures of a line that prints 64 shocks and asks for nothing of the book."""
    with tempfile.TemporaryDirectory() as folder:
        write_sheets(folder, SCENARIOS)
        with Program(path, folder) as program:
            begin_day(program, CLIENTS)
            before = program.used()
            taken = [program.ask(["contract 63"], "contract") for _ in range(count)]
            used = program.used() - before
    return figures_of(taken, used), 1


def title(first, *others):
    print(f"\n{first:<48}" + "".join(f"{word:>11}" for word in others))


def row(name, figures, *others):
    cells = ["-" if x == 0 else f"{x:.3f}" for x in figures] + list(others)
    print(f"{name:<48}" + "".join(f"{cell:>11}" for cell in cells), flush=True)


STATEMENT_ROWS = (
    ("the full book", {}),
    ("512 trades", {"trades": 512}),
    ("256 trades", {"trades": 256}),
    ("32 scenarios", {"scenarios": 32}),
    ("16 scenarios", {"scenarios": 16}),
    ("64 clients", {"clients": 64}),
    ("16 clients", {"clients": 16}),
    ("16 scenarios, 16 clients, 256 trades", {"scenarios": 16, "clients": 16, "trades": 256}),
    ("all trades without a client", {"standing": lambda n: "open"}),
    ("all trades with one client", {"standing": lambda n: "one client"}),
    ("all trades in the first subportfolio", {"contract_of": in_place(0)}),
    ("all trades in the last subportfolio", {"contract_of": in_place(SHEETS - 1)}),
    ("no trade", {"trades": 0}),
    ("no trade, 1 client", {"trades": 0, "clients": 1}),
    ("a trader without clients, by the full book", {"trader": 1}),
)


def print_statements(path, count):
    """Prints the statements' table, and answers the median over the full book."""
    title("A statement, in ms", "least", "median", "90 of 100", "processor", "lines")
    medians = []
    for name, day in STATEMENT_ROWS:
        figures, lines = take_statements(path, count, **day)
        medians.append(figures[1])
        row(name, figures, str(lines))
    figures, lines = take_contracts(path, count)
    row("a line `contract`", figures, str(lines))
    return medians[0]


def time_of_lines(path, folder, lines):
    """The time for a day whose lines stand in a file, and whose answers are thrown away, in seconds."""
    day = Path(folder) / "day"
    day.write_text("".join(line + "\n" for line in lines))
    with open(day, "rb") as source:
        begin = time.perf_counter()
        subprocess.run([path], stdin=source, stdout=subprocess.DEVNULL, cwd=folder, check=True)
        return time.perf_counter() - begin


def print_without_pipes(path, count):
    """Prints how long a day and a statement take where no pipe is between. Each time is the least of five."""
    with tempfile.TemporaryDirectory() as folder:
        write_sheets(folder, SCENARIOS)
        lines = [f"sheet {place}.bin" for place in range(SHEETS)] + list(start_of(CLIENTS))
        lines += trades_of(TRADES, CLIENTS, mixed, spread)
        day = min(time_of_lines(path, folder, lines) for _ in range(5))
        more = min(time_of_lines(path, folder, lines + ["statement 0"] * count) for _ in range(5))
    title("From a file, answers thrown away, in ms", "mean")
    row("a statement over the full book", [1000 * (more - day) / count])
    row(f"a day up to the full book, {len(lines)} lines", [1000 * day])


# --- small calls ---------------------------------------------------------------------------------------------------


def warming():
    """Calls that are sent before each block, so that no block finds the program asleep."""
    return [f"price {contract} {1000 + contract}" for contract in range(BLOCK)]


def calls_of(first):
    """Blocks of small calls in their order, with what an answer begins with. `first` is the next trade's number."""
    numbers = range(first, first + BLOCK)
    withdrawals = [f"withdraw client {(2 * n + 1) % CLIENTS} 1" for n in numbers]
    yield "price", [f"price {spread(n)} {1000 + n}" for n in numbers], "accepted"
    yield "deposit", [f"deposit client {n % CLIENTS} 1" for n in numbers], "accepted"
    yield "cash", [f"cash {n % CLIENTS} -{n}" for n in numbers], "accepted"
    yield "trade", [f"trade 0 {lot_of(n, spread)}" for n in numbers], "trade"
    yield "specify", [f"specify {n} {n % CLIENTS}" for n in numbers], "accepted"
    yield "withdraw", withdrawals, "slip"
    yield "putback", [f"putback {serial}" for serial in range(1, BLOCK + 1)], "accepted"
    yield "withdraw", withdrawals, "slip"
    yield "settle", [f"settle {serial}" for serial in range(BLOCK + 1, 2 * BLOCK + 1)], "accepted"
    yield "cancel", [f"cancel {n}" for n in numbers], "accepted"


def take_calls(path, folder, trades, blocks):
    """Serves a day with so many trades before the small calls, and keeps by call the time and the processor time of
    each block, for one call, in microseconds."""
    with Program(path, folder, sleeping=False) as program:
        begin_day(program, CLIENTS)
        program.tell(trades_of(trades, CLIENTS, mixed, spread))
        for name, lines, wanted in calls_of(trades):
            program.tell(warming())
            before = program.used()
            passed = program.ask(lines, wanted)
            used = program.used() - before
            blocks.setdefault(name, []).append([1e6 * x / len(lines) for x in (passed, used)])


def typical(blocks):
    """The median of the blocks' times, and that of their processor times."""
    return [statistics.median(block[at] for block in blocks) for at in range(2)]


def print_calls(path):
    """Prints the small calls' table. Answers how many times as long the worst of those that may not grow takes."""
    few, many = {}, {}
    with tempfile.TemporaryDirectory() as folder:
        write_sheets(folder, SCENARIOS)
        for _ in range(DAYS):  # by turns, so that what else the machine does falls on both
            take_calls(path, folder, 0, few)
            take_calls(path, folder, TRADES - BLOCK, many)
    title("A small call, in microseconds", "empty book", "full book", "processor", "processor", "calls")
    worst = 0.0
    for name in few:
        (passed, used), (passed_full, used_full) = typical(few[name]), typical(many[name])
        row(name, [passed, passed_full, used, used_full], str(len(few[name]) * BLOCK))
        if name not in ("withdraw", "cancel"):
            worst = max(worst, used_full / used if used else passed_full / passed)
    return worst


# --- calls that come once ------------------------------------------------------------------------------------------


def take_openings(path, folder, trades, times):
    """Serves a day in which so many trades are carried, up to the window, and keeps the times of its single calls."""
    with Program(path, folder) as program:
        program.ask(["contract 0"], "refused 10")  # so that the program's start is over
        for place in range(SHEETS):
            kind = ("a sheet of factors", "a sheet of series")[place % 2]
            times.setdefault(kind, []).append(program.ask([f"sheet {place}.bin"], "sheet"))
        program.tell(start_of(CLIENTS))
        program.tell(line for line in trades_of(trades, CLIENTS, lambda n: "carried", spread) if line != "open")
        # the opening is answered before the needs are worked out, the window after that
        name = f"the opening and the window, {trades} trades carried"
        times.setdefault(name, []).append(program.ask(["open", "window"], "accepted"))


def print_openings(path):
    times = {}
    with tempfile.TemporaryDirectory() as folder:
        write_sheets(folder, SCENARIOS)
        for _ in range(DAYS):
            take_openings(path, folder, 0, times)
            take_openings(path, folder, TRADES, times)
    title("What comes once, in ms", "least", "median", "90 of 100")
    for name, taken in times.items():
        row(name, figures_of(taken, 0.0)[:3])


def main(path, count):
    median = print_statements(path, count)
    print_without_pipes(path, count)
    worst = print_calls(path)
    print_openings(path)
    kept = median < BAR and worst < GROWTH
    print(f"\nA statement over the full book: {median:.3f} ms, the bar is {BAR} ms. A small call takes at most"
          f" {worst:.2f} times as long with the full book, the bar is {GROWTH}: {'kept' if kept else 'NOT KEPT'}")
    return 0 if kept else 1


if __name__ == "__main__":
    if len(sys.argv) not in (2, 3):
        sys.exit(__doc__)
    sys.exit(main(str(Path(sys.argv[1]).resolve()), int(sys.argv[2]) if len(sys.argv) == 3 else STATEMENTS))
