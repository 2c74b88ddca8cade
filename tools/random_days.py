#!/usr/bin/env python3
"""Writes a random day for the program `limits`: sheet files, and the lines that are read with them.

    random_days.py SEED FOLDER [--large]

The folder is made if it is missing. It gets the sheets as `*.bin` and the day as `lines`, which is
to be read by a program that runs in that folder. The same seed gives the same day. A small day has
some tens or hundreds of lines, a large one thousands, and fills the tables.

A day has calls that are likely to be accepted, calls that are refused by every number, values at
and beyond every bound, lines that cannot be read and lines that do not belong to their time. So
that limits move around zero, and withdrawals and cancellations come right at what is still covered,
the day keeps a ledger of its own (`Ledger`), after docs/RULES.md and docs/REFUSALS.md. The ledger
only serves to aim: nothing is compared with it.
"""

import argparse
import collections
import os
import random
import struct

MONEY = 10**15
SETTLEMENT = 10**13
QUANTITY = 10_000
PRICE = 100_000

EXTREMES = [
    0, 1, -1, 2, 15, 16, 17, 32, 33, 127, 128, 129, 255, 256, 257, 1023, 1024, 1025,
    9_999, 10_000, 10_001, 99_999, 100_000, 100_001, -10_000, 2**31 - 1, 2**31, 2**32 - 1, 2**32,
    10**9, 10**9 + 1, SETTLEMENT - 1, SETTLEMENT, SETTLEMENT + 1,
    -SETTLEMENT + 1, -SETTLEMENT, -SETTLEMENT - 1,
    MONEY - 1, MONEY, MONEY + 1, -MONEY, 9 * 10**18, 2**63 - 1, 2**63, 2**63 + 1,
    -2**63, -2**63 + 1, -2**63 - 1, 2**64 - 1, 2**64, 2**64 + 1, -2**64, 2**127, 2**128, 10**40,
]

# What stands behind the first word of each call: an Amount, a Number, a Side or a Holder's kind.
CALLS = {
    "trader": "AA", "client": "N", "carry": "NNSNN", "price": "NN", "deposit": "HNA", "open": "",
    "trade": "NNSNN", "specify": "NN", "cancel": "N", "withdraw": "HNA", "settle": "N",
    "putback": "N", "cash": "NA", "window": "", "statement": "N",
}
PREPARATION = ("trader", "client", "carry", "open")
BOTH = ("price", "deposit")
HOLDERS = ("client", "trader", "member")


# Sheets ------------------------------------------------------------------------------------------

class Sheet:
    """A sheet, whole or damaged: its fields, and the bytes that come of them."""

    def __init__(self, rng, full=False, beyond=None):
        """With `beyond` there is one more than may be of "contracts", "scenarios" or "factors"."""
        self.kind = rng.choice([1, 1, 2, 2, 3])
        most = 63 if self.kind == 3 else 64
        count = rng.choice([1, 2, 3, rng.randint(1, 8), rng.randint(1, most), most])
        if full:
            count = most
        if beyond == "contracts":
            count = most + 1
        highest = 255 if full else rng.choice([count + 1, 64, 80, 255])
        self.numbers = sorted(rng.sample(range(highest + 1), min(count, highest + 1)))
        count = len(self.numbers)
        self.scenarios = rng.choice([1, 2, 3, rng.randint(1, 9), rng.randint(1, 64), 64])
        if full:
            self.scenarios = 64
        if beyond == "scenarios":
            self.scenarios = 65
        self.factors, self.payoff = 0, 0
        self.multipliers, self.exposures, self.rows = [0] * count, [[]] * count, []
        if self.kind == 1:
            self.factors = 8 if full else rng.choice([1, 1, 2, 3, rng.randint(1, 8), 8])
            if beyond == "factors":
                self.factors = 9
            self.fill_factors(rng, count)
        elif self.kind == 2:
            scale = rng.choice([1, 100, 10_000, 10**6, 10**8])
            self.rows = [[0] + [shock(rng, scale, 10**8) for _ in range(self.scenarios - 1)]
                         for _ in range(count)]
        else:
            self.scenarios = count + 1
            self.payoff = rng.choice([1, 2, 10_000, 99_999_999, 10**8, rng.randint(1, 10**8)])
        self.overrides = {}

    def fill_factors(self, rng, count):
        """Multipliers, exposures and factor shocks; often such that products end on a half."""
        top = rng.choice([0, 1, 100, 2_500, 10_000])
        self.multipliers = [rng.choice([0, top, rng.randint(0, top), rng.randint(0, 10_000)])
                            for _ in range(count)]
        if rng.random() < 0.4:
            exposures = [0, 1, -1, 2, 3, -3, 5, 7, 4_999, 5_001, 12_500_000, -12_500_000]
            shocks = [0, 1, -1, 5_000, -5_000, 4_999, -4_999, 5_001, -5_001, 10_000, -10_000, 2_500]
            self.exposures = [[rng.choice(exposures) for _ in range(self.factors)]
                              for _ in range(count)]
            rows = [[rng.choice(shocks) for _ in range(self.factors)]
                    for _ in range(self.scenarios)]
        else:
            scale = rng.choice([10, 10_000, 10**6, 12_500_000])
            self.exposures = [[shock(rng, scale, 12_500_000) for _ in range(self.factors)]
                              for _ in range(count)]
            rows = [[shock(rng, rng.choice([10, 1_000, 10_000]), 10_000)
                     for _ in range(self.factors)] for _ in range(self.scenarios)]
        if rng.random() < 0.3:
            # The last factor brings the sum of each row for one contract to a half, or next to it.
            self.exposures[-1][-1] = rng.choice([1, -1])
            for row in rows:
                rest = sum(e * s for e, s in zip(self.exposures[-1][:-1], row))
                wanted = (5_000 - rest) % 10_000 + rng.choice([-1, 0, 1])
                row[-1] = max(-10_000, min(10_000, wanted)) * self.exposures[-1][-1]
        rows[0] = [0] * self.factors
        self.rows = rows

    def shocks(self):
        """For each contract its shocks, one for each scenario."""
        if self.kind == 2:
            return self.rows
        if self.kind == 3:
            return [[self.payoff if s == j + 1 else 0 for s in range(self.scenarios)]
                    for j in range(len(self.numbers))]
        return [[nearest(sum(e * s for e, s in zip(exposures, row))) for row in self.rows]
                for exposures in self.exposures]

    def to_bytes(self, rng):
        """The file. What `overrides` says of the header stands there instead."""
        contracts = bytearray()
        for number, multiplier, exposures in zip(self.numbers, self.multipliers, self.exposures):
            contracts += struct.pack("<HH", number & 0xFFFF, multiplier & 0xFFFF)
            contracts += b"".join(struct.pack("<i", e) for e in exposures)
        scenarios = b"".join(struct.pack("<i", s) for row in self.rows for s in row)
        gaps = [rng.choice([0, 0, 0, 1, 3, rng.randint(0, 40)]) for _ in range(3)]
        room = 65_536 - 24 - len(contracts) - len(scenarios) - sum(gaps)
        if room > 0 and rng.random() < 0.03:
            gaps[rng.randrange(3)] += room
        body, offsets = bytearray(), {}
        areas = [("contracts", contracts), ("scenarios", scenarios)]
        rng.shuffle(areas)
        for gap, (name, area) in zip(gaps, areas):
            body += rng.randbytes(gap)
            offsets[name] = 24 + len(body)
            body += area
        body += rng.randbytes(gaps[2])
        if not scenarios:
            offsets["scenarios"] = rng.choice(
                [24, 24 + len(body), rng.randint(24, 24 + len(body)), offsets["contracts"]])
        header = {
            "kind": self.kind, "n": len(self.numbers), "s": self.scenarios, "f": self.factors,
            "contracts": offsets["contracts"], "scenarios": offsets["scenarios"],
            "length": 24 + len(body), "payoff": self.payoff,
        }
        for name, change in self.overrides.items():
            header[name] = change(header)
        return struct.pack(
            "<HHHHIIII", *(header[name] & 0xFFFF for name in ("kind", "n", "s", "f")),
            *(header[name] & 0xFFFFFFFF for name in ("contracts", "scenarios", "length", "payoff")),
        ) + bytes(body)

    def damage(self, rng):
        """Breaks one rule or more."""
        for _ in range(rng.choice([1, 1, 2, 2, 3])):
            rng.choice([
                self.damage_header, self.damage_header, self.damage_areas, self.damage_numbers,
                self.damage_fields, self.damage_fields, self.damage_scenario_zero,
            ])(rng)

    def damage_header(self, rng):
        """A length, a kind, a count or a payoff that is not right."""
        name, values = rng.choice([
            ("length", None), ("kind", [0, 4, 5, 255, 256, 257, 65_535, 1, 2, 3]),
            ("n", [0, 63, 64, 65, 255, 65_535, 256 + 1]), ("s", [0, 1, 63, 64, 65, 255, 65_535]),
            ("f", [0, 1, 8, 9, 255, 65_535]),
            ("payoff", [0, 1, 10**8, 10**8 + 1, 2**31, 2**32 - 1]),
        ])
        if name == "length":
            by = rng.choice([1, -1, 1, -1, 65_536, -24, 2**31])
            self.overrides[name] = lambda header: header["length"] + by
        elif name in ("n", "s") and rng.random() < 0.5:
            by = rng.choice([1, -1])
            self.overrides[name] = lambda header: header[name] + by
        else:
            value = rng.choice(values)
            self.overrides[name] = lambda header: value

    def damage_areas(self, rng):
        """An area before byte 24, past the end, or over the other; by one byte, or by far."""
        name = rng.choice(["contracts", "scenarios"])
        other = "scenarios" if name == "contracts" else "contracts"
        value = rng.choice(
            [0, 23, 24, 2**31 - 1, 2**31, 2**32 - 1, 2**32 - 4, 2**32 - 24, None, -1])
        if value is None:
            by = rng.choice([-4, -1, 0, 1, 4])
            self.overrides[name] = lambda header: header[other] + by
        elif value == -1:
            by = rng.choice([-8, -4, -1, 1, 4, 8])
            self.overrides[name] = lambda header: header[name] + by
        else:
            self.overrides[name] = lambda header: value

    def damage_numbers(self, rng):
        """A contract number above 255, equal to the one before, or below it."""
        at = rng.randrange(len(self.numbers))
        before = self.numbers[at - 1] if at else 0
        self.numbers[at] = rng.choice([256, 257, 511, 65_535, before, max(0, before - 1)])

    def damage_fields(self, rng):
        """A multiplier, an exposure or a shock outside its range, or right at its end."""
        at = rng.randrange(len(self.numbers))
        choice = rng.randrange(3)
        if choice == 0:
            self.multipliers[at] = rng.choice([1, 10_000, 10_001, 65_535])
        elif choice == 1 and self.factors:
            exposures = self.exposures[at] = list(self.exposures[at])
            exposures[rng.randrange(self.factors)] = rng.choice(
                [12_500_000, 12_500_001, -12_500_000, -12_500_001, 2**31 - 1, -2**31])
        elif self.rows:
            row = rng.choice(self.rows)
            bound = 10_000 if self.kind == 1 else 10**8
            row[rng.randrange(len(row))] = rng.choice(
                [bound, bound + 1, -bound, -bound - 1, 2**31 - 1, -2**31])
        else:
            self.overrides["payoff"] = lambda header: rng.choice([0, 10**8 + 1, 2**31])

    def damage_scenario_zero(self, rng):
        """A shock of scenario 0 that is not zero."""
        if self.kind == 1:
            self.rows[0][rng.randrange(self.factors)] = rng.choice([1, -1, 10_000])
        elif self.kind == 2:
            rng.choice(self.rows)[0] = rng.choice([1, -1, 10**8])


def shock(rng, scale, bound):
    """A random number within the scale, often 0 or at an end, always within the bound."""
    number = rng.choice([0, scale, -scale, rng.randint(-scale, scale), rng.randint(-scale, scale)])
    return max(-bound, min(bound, number))


def sign(number):
    """How a number stands to zero, in a word."""
    return "below zero" if number < 0 else "zero" if number == 0 else "above zero"


def nearest(total):
    """A sum in ten-thousandths, to the nearest whole, halves away from zero."""
    magnitude = (2 * abs(total) + 10_000) // 20_000
    return magnitude if total >= 0 else -magnitude


def garbled(rng, whole):
    """A file that comes of a whole one by turning, dropping or adding bytes."""
    data = bytearray(whole)
    choice = rng.randrange(6)
    if choice == 0:
        for _ in range(rng.randint(1, 4)):
            data[rng.randrange(min(len(data), 80))] = rng.choice([0, 1, 255, rng.randrange(256)])
    elif choice == 1:
        del data[rng.choice([0, 1, 20, 23, 24, len(data) - 1, rng.randrange(len(data))]):]
    elif choice == 2:
        data += rng.randbytes(rng.choice([1, 2, 24, 65_536 - len(data), 65_537 - len(data)]))
        if rng.random() < 0.7:
            data[16:20] = struct.pack("<I", len(data))
    elif choice == 3:
        data = bytearray(rng.randbytes(rng.choice([0, 1, 23, 24, 25, 65_536, 65_537, 70_000])))
    elif choice == 4:
        data[rng.randrange(len(data))] ^= 1 << rng.randrange(8)
    else:
        del data[24:]
        data[16:20] = struct.pack("<I", len(data))
    return bytes(data)


# The ledger, to aim by ---------------------------------------------------------------------------

class Ledger:
    """What the calls so far have entered. `call` says whether a call was accepted."""

    def __init__(self):
        self.scenarios, self.places = [], {}
        self.traders, self.clients, self.trades = [], [], []
        self.prices, self.slips, self.made = {}, [], 0
        self.open, self.passed = False, False
        self.needs, self.risks = {}, {}
        self.reasons = collections.Counter()

    def add_sheet(self, sheet):
        """The next sheet of the model, if there is a place left."""
        if len(self.scenarios) == 8:
            return
        for number, multiplier, row in zip(sheet.numbers, sheet.multipliers, sheet.shocks()):
            self.places.setdefault(number, (len(self.scenarios), multiplier, row))
        self.scenarios.append(sheet.scenarios)

    def need(self, client):
        """The need of a client now."""
        if client not in self.needs:
            sums = [[0] * count for count in self.scenarios]
            marks, net = 0, {}
            for trade in self.trades:
                if trade["client"] == client:
                    contract, quantity = trade["contract"], trade["quantity"]
                    net[contract] = net.get(contract, 0) + quantity
                    marks += quantity * self.places[contract][1] * (
                        self.prices[contract] - trade["price"])
            for contract, quantity in net.items():
                place, _, row = self.places[contract]
                sums[place] = [a + quantity * b for a, b in zip(sums[place], row)]
            margins = sum(-min(row) for row in sums)
            settlement = min(0, self.clients[client]["settlement"])
            self.needs[client] = max(0, margins - marks - settlement)
        return self.needs[client]

    def risk_of_open_trades(self, trader):
        """The risk of a trader's unspecified trades now."""
        if trader not in self.risks:
            losses = [[0] * count for count in self.scenarios]
            for trade in self.trades:
                if trade["trader"] == trader and trade["client"] is None:
                    contract, quantity = trade["contract"], trade["quantity"]
                    place, multiplier, row = self.places[contract]
                    mark = quantity * multiplier * (self.prices[contract] - trade["price"])
                    losses[place] = [loss + max(0, -mark - quantity * shock)
                                     for loss, shock in zip(losses[place], row)]
            self.risks[trader] = sum(max(row) for row in losses)
        return self.risks[trader]

    def deficit(self, client):
        """The deficit of a client now."""
        return max(0, self.need(client) - self.clients[client]["collateral"])

    def limit(self, trader):
        """The limit of a trader now."""
        entry = self.traders[trader]
        deficits = sorted((self.deficit(client) for client in entry["clients"]), reverse=True)
        backing = entry["limit"] + entry["collateral"] + entry["member"]
        return backing - sum(deficits[:entry["count"]]) - self.risk_of_open_trades(trader)

    def account(self, kind, number):
        """The entry of a holder and the key of its collateral there; None if it is unknown."""
        table = self.clients if kind == "client" else self.traders
        if not 0 <= number < len(table):
            return None
        return table[number], "member" if kind == "member" else "collateral"

    def trader_of(self, kind, number):
        """The trader that a holder stands behind."""
        return self.clients[number]["trader"] if kind == "client" else number

    def on_slips(self, kind, number):
        """What stands on the slips of a holder."""
        return sum(slip[2] for slip in self.slips if slip[0] == (kind, number))

    def call(self, name, args):
        """Enters a readable call, if it is accepted."""
        if self.open and name in PREPARATION:
            return False
        if not self.open and name not in PREPARATION + BOTH:
            return False
        return bool(getattr(self, "call_" + name)(*args))

    # One for each call: enters what the call says and returns something true, or enters nothing
    # and returns something false.

    def call_trader(self, limit, count):
        if len(self.traders) < 16 and 0 <= limit <= MONEY and 1 <= count <= 128:
            self.traders.append({"limit": limit, "count": count, "clients": [],
                                 "collateral": 0, "member": 0})
            return True

    def call_client(self, trader):
        if trader < len(self.traders) and len(self.clients) < 128:
            self.traders[trader]["clients"].append(len(self.clients))
            self.clients.append({"trader": trader, "collateral": 0, "settlement": 0, "opening": 0})
            return True

    def enter(self, trader, client, contract, side, quantity, price):
        """A trade more, carried if it has a client."""
        if (len(self.trades) < 1024 and contract in self.prices
                and 1 <= quantity <= QUANTITY and 1 <= price <= PRICE):
            quantity = quantity if side == "buy" else -quantity
            self.trades.append({"trader": trader, "client": client, "contract": contract,
                                "quantity": quantity, "price": price,
                                "carried": client is not None})
            self.needs.pop(client, None)
            self.risks.pop(trader, None)
            return True

    def call_carry(self, client, *deal):
        if client < len(self.clients):
            return self.enter(self.clients[client]["trader"], client, *deal)

    def call_trade(self, trader, *deal):
        if trader < len(self.traders):
            return self.enter(trader, None, *deal)

    def call_price(self, contract, price):
        if contract in self.places and 1 <= price <= PRICE:
            self.prices[contract] = price
            self.needs, self.risks = {}, {}
            return True

    def call_deposit(self, kind, number, amount):
        account = self.account(kind, number)
        if account and 1 <= amount <= MONEY:
            entry, key = account
            if entry[key] + self.on_slips(kind, number) + amount <= MONEY:
                entry[key] += amount
                return True

    def call_open(self):
        self.open = True
        for client, entry in enumerate(self.clients):
            entry["opening"] = self.need(client)
        return True

    def move(self, trade, client):
        """Puts a trade with a client, or with none."""
        self.needs.pop(trade["client"], None)
        self.needs.pop(client, None)
        self.risks.pop(trade["trader"], None)
        trade["client"] = client

    def call_specify(self, trade, client):
        if trade < len(self.trades) and client < len(self.clients):
            trade = self.trades[trade]
            if trade["client"] is None and self.clients[client]["trader"] == trade["trader"]:
                self.move(trade, client)
                return True

    def limit_without(self, trade):
        """The limit of a specified trade's trader if the trade were cancelled."""
        trade = self.trades[trade]
        client = trade["client"]
        self.move(trade, None)
        limit = self.limit(trade["trader"])
        self.move(trade, client)
        return limit

    def call_cancel(self, trade):
        if trade < len(self.trades):
            entry = self.trades[trade]
            if entry["client"] is not None and not entry["carried"]:
                before, afterwards = self.limit(entry["trader"]), self.limit_without(trade)
                covered = afterwards >= min(0, before)
                self.reasons[f"cancel {'accepted' if covered else 'refused'}: limit "
                             f"{sign(before)}, then {sign(afterwards)}"
                             f"{' and equal' if before == afterwards else ''}"] += 1
                if covered:
                    self.move(entry, None)
                return covered

    def call_withdraw(self, kind, number, amount):
        account = self.account(kind, number)
        if account and len(self.slips) < 32 and 1 <= amount <= MONEY:
            entry, key = account
            entry[key] -= amount
            causes = ["collateral"] if entry[key] < 0 else []
            if self.limit(self.trader_of(kind, number)) < 0:
                causes.append("limit")
            if kind == "client" and entry[key] < entry["opening"]:
                causes.append("opening need")
            if kind == "client" and entry[key] < self.need(number):
                causes.append("need")
            if causes:
                entry[key] += amount
                self.reasons[f"withdraw {kind} refused: {', '.join(causes)}"] += 1
                return False
            self.made += 1
            self.slips.append(((kind, number), self.made, amount))
            nothing_over = (entry[key] == max(entry["opening"], self.need(number))
                            if kind == "client" else self.limit(number) == 0)
            self.reasons[f"withdraw {kind} accepted{', to the last' if nothing_over else ''}"] += 1
            return True

    def take(self, serial):
        """Takes out the slip with this serial, if it stands."""
        for slip in self.slips:
            if slip[1] == serial:
                self.slips.remove(slip)
                return slip
        return None

    def call_settle(self, serial):
        return self.take(serial)

    def call_putback(self, serial):
        slip = self.take(serial)
        if slip:
            entry, key = self.account(*slip[0])
            entry[key] += slip[2]
        return slip

    def call_cash(self, client, amount):
        if client < len(self.clients) and abs(amount) <= SETTLEMENT and not self.passed:
            self.clients[client]["settlement"] = amount
            self.needs.pop(client, None)
            return True

    def call_window(self):
        if not self.passed:
            self.passed = True
            for entry in self.clients:
                entry["settlement"] = 0
            self.needs = {}
            return True

    def call_statement(self, trader):
        return trader < len(self.traders)


# The day -----------------------------------------------------------------------------------------

class Day:
    """A random day: its lines, and the ledger that they make."""

    def __init__(self, seed, folder, large):
        self.rng = random.Random(seed)
        self.folder = folder
        self.large = large
        self.lines = []
        self.ledger = Ledger()
        self.called = False
        rng = self.rng
        self.noise = rng.choice([0, 0.01, 0.05, 0.15])
        self.wrong = rng.choice([0.01, 0.05, 0.15])
        self.center = rng.choice([1, 100, 4_400, 50_000, 100_000])
        self.spread = rng.choice([0, 1, 10, 1_000, 100_000])
        self.lots = rng.choice([1, 10, 300, 10_000])
        self.greatest = rng.random() < 0.05

    # Lines

    def line(self, data):
        """Writes a line as it is."""
        self.lines.append(data)

    def say(self, name, *args):
        """Writes a call, and enters it. Says whether it was accepted."""
        rng = self.rng
        words, readable = [name], True
        for kind, arg in zip(CALLS[name], args):
            word = str(arg)
            if kind in "NA":
                lowest, highest = (0, 2**64 - 1) if kind == "N" else (-2**63, 2**63 - 1)
                readable = readable and lowest <= arg <= highest
                if rng.random() < 0.01:
                    zeros = "0" * rng.choice([1, 2, 25])
                    word = "-" + zeros + word[1:] if word.startswith("-") else zeros + word
                if arg == 0 and kind == "A" and rng.random() < 0.2:
                    word = "-0"
            words.append(word)
        text = " ".join(words)
        if rng.random() < 0.03:
            text = (" " * rng.choice([0, 1, 3]) + (" " * rng.choice([1, 2, 5])).join(words)
                    + " " * rng.choice([0, 1, 3]))
        if rng.random() < 0.02:
            text += "\r"
        self.line(text.encode())
        if not readable:
            return False
        self.called = True
        return self.ledger.call(name, args)

    def unreadable(self):
        """A line that cannot be read, or asks nothing, or nearly so."""
        rng = self.rng
        name = rng.choice(list(CALLS))
        words = [name] + [self.word(kind) for kind in CALLS[name]]
        choice = rng.randrange(14)
        if choice == 0:
            words.append(rng.choice(["1", "x", "buy", "#", "0"]))
        elif choice == 1 and len(words) > 1:
            words.pop()
        elif choice == 2 and len(words) > 1:
            words[rng.randrange(1, len(words))] = rng.choice([
                "+1", "-", "--1", "-1", "1.0", "1,000", "1e9", "0x10", "1_000", "\u0661", "\uff11",
                "\u00b2", "ten", "1\t", "\t1", "1\r", "\u00a01", str(2**64), str(-2**63 - 1),
                "Buy", "SELL", "clients", "-00", "1-", "\0", "\u22121", "1\v", "1\f",
            ])
        elif choice == 3:
            words[0] = rng.choice([
                "Trader", "TRADE", "trades", "opens", "put", "sheets", "quit", "help", "end", "tra",
                "\ufefftrader", "contracts", "opening", "put back", "-", "0", "\t", "\r", "!",
            ])
        elif choice == 4:
            text = "\t".join(words).encode()
            return self.line(text)
        elif choice == 5:
            text = " ".join(words).encode()
            at = rng.randrange(len(text) + 1)
            bad = rng.choice([b"\xff", b"\x80", b"\xc0\x80", b"\xed\xa0\x80", b"\xf4\x90\x80\x80",
                              b"\xe2\x82", b"\xc3", b"\xf8\x88\x80\x80\x80", b"\xc3\xa9",
                              b"\xf0\x9f\x98\x80", b"\0", b"\x7f", b"\x0b", b"\x0c"])
            return self.line(text[:at] + bad + text[at:])
        elif choice == 6:
            return self.long_line(" ".join(words).encode())
        elif choice == 7:
            return self.line(rng.choice([
                b"", b" ", b"    ", b"#", b"# a comment", b"#trader 1 1", b" # no comment", b"\r",
                b" \r", b"\r\r", b"\t", b"\t#", b"##", b"#" + "\u00e9".encode(), b"\0", b"\r#",
                b"x" * 40, b" \x0b ", b"#\xff", b"# a \xc3",
            ]))
        elif choice == 8:
            return self.line(rng.randbytes(rng.randint(1, 30)).replace(b"\n", b""))
        elif choice == 9:
            return self.contract(rng.choice([
                "", "-1", "+1", "x", "1 2", "-0", "1.", "\u0661", "0x1", "1\t",
            ]))
        elif choice == 10:
            return self.contract(str(rng.choice(EXTREMES)))
        elif choice == 11:
            return self.line(rng.choice([b"sheet", b"sheet s0.bin s1.bin", b"sheet none.bin",
                                         b"sheet .", b"sheet \t", b"SHEET s0.bin",
                                         b"sheet s0.bin/x", b"sheet " + b"p" * 300,
                                         b"sheet \xff.bin", b"sheet a\0b",
                                         b"sheet " + b"a/" * 2_044]))
        elif choice == 12:
            words.insert(rng.randrange(len(words)), "\t")
        elif choice == 13:
            rng.shuffle(words)
        text = " ".join(words)
        if rng.random() < 0.1:
            text += "\r"
        # Some of these are right by chance; they must be entered like any other.
        self.enter_text(text)

    def long_line(self, text):
        """A line of about 4,096 bytes."""
        rng = self.rng
        length = rng.choice(
            [4_094, 4_095, 4_096, 4_097, 4_098, 5_000, 8_192, 8_193, 70_000, 140_000])
        choice = rng.randrange(6)
        if choice == 0:
            line = text + b" " * (length - len(text))
        elif choice == 1:
            line = b" " * (length - len(text)) + text
        elif choice == 2:
            line = (b"#" + text).ljust(length, b"x")
        elif choice == 3:
            line = b" " * length
        elif choice == 4:
            line = b"contract " + b"0" * (length - 10) + b"1"
        else:
            line = rng.choice([b"\xff", "\u00e9".encode(), b"open "]) * (length // 2)
        if rng.random() < 0.3:
            line = line[:-1] + b"\r" if rng.random() < 0.5 else line + b"\r"
        if len(line) <= 4_096 and line.strip(b" \r").isascii():
            return self.enter_text(line.decode())
        return self.line(line)

    def enter_text(self, text):
        """Writes a line that may be a call by chance, and enters it if it is one."""
        self.line(text.encode())
        words = [word for word in text.removesuffix("\r").split(" ") if word]
        if text.startswith("#") or not words or words[0] not in CALLS:
            return
        name, kinds = words[0], CALLS[words[0]]
        if len(words) != 1 + len(kinds):
            return
        args = []
        for kind, word in zip(kinds, words[1:]):
            if kind in "NA":
                plain = word[1:] if kind == "A" and word.startswith("-") else word
                if not (plain.isascii() and plain.isdigit()):
                    return
                lowest, highest = (0, 2**64 - 1) if kind == "N" else (-2**63, 2**63 - 1)
                if not lowest <= int(word) <= highest:
                    return
                args.append(int(word))
            elif word in (("buy", "sell") if kind == "S" else HOLDERS):
                args.append(word)
            else:
                return
        self.called = True
        self.ledger.call(name, args)

    def word(self, kind):
        """A word that fits its place, small."""
        rng = self.rng
        if kind == "S":
            return rng.choice(["buy", "sell"])
        if kind == "H":
            return rng.choice(HOLDERS)
        return str(rng.choice([0, 1, 2, rng.randint(0, 20), 1_000]))

    def contract(self, word):
        """Asks for a contract."""
        self.line(("contract " + word).encode())

    def maybe_noise(self):
        """A few odd lines, as many as this day likes."""
        while self.rng.random() < self.noise:
            self.unreadable()

    # Arguments

    def known_contract(self):
        """A contract of the model, mostly one with a price."""
        rng, ledger = self.rng, self.ledger
        if ledger.prices and rng.random() < 0.97:
            return rng.choice(list(ledger.prices))
        if ledger.places:
            return rng.choice(list(ledger.places))
        return rng.randint(0, 300)

    def market(self):
        """A price."""
        if self.greatest:
            return self.rng.choice([1, PRICE])
        low, high = self.center - self.spread, self.center + self.spread
        return max(1, min(PRICE, self.rng.randint(low, high)))

    def quantity(self):
        """A quantity."""
        rng = self.rng
        if self.greatest:
            return QUANTITY
        return rng.choice([1, self.lots, rng.randint(1, self.lots), rng.randint(1, self.lots)])

    def side(self):
        """A side."""
        return self.rng.choice(["buy", "sell"])

    def trader_number(self):
        """A known trader, if there is one."""
        count = len(self.ledger.traders)
        return self.rng.randrange(count) if count else self.rng.choice([0, 1])

    def client_number(self):
        """A known client, if there is one."""
        count = len(self.ledger.clients)
        return self.rng.randrange(count) if count else self.rng.choice([0, 1])

    def money(self):
        """An amount of the size that matters today."""
        rng, ledger = self.rng, self.ledger
        amounts = [1, 2, rng.randint(1, 10**6), 10 ** rng.randint(0, 15), rng.randint(1, MONEY)]
        if ledger.clients:
            client = self.client_number()
            amounts += [ledger.need(client), ledger.deficit(client)] * 3
        if ledger.traders:
            amounts += [abs(ledger.limit(self.trader_number()))] * 4
        amount = rng.choice(amounts) + rng.choice([0, 0, 0, 1, -1])
        return max(1, min(MONEY, amount))

    def settlement(self):
        """A settlement amount."""
        rng = self.rng
        amount = rng.choice([0, self.money(), -self.money(), -SETTLEMENT, SETTLEMENT,
                             -rng.randint(0, SETTLEMENT)])
        return max(-SETTLEMENT, min(SETTLEMENT, amount))

    def any_call(self, name):
        """A call with arguments that are likely right, in any order of things."""
        rng = self.rng
        deal = (self.known_contract(), self.side(), self.quantity(), self.market())
        kind = rng.choice(HOLDERS)
        number = self.client_number() if kind == "client" else self.trader_number()
        trades = len(self.ledger.trades)
        serials = [slip[1] for slip in self.ledger.slips] + [rng.randint(0, self.ledger.made + 1)]
        return {
            "trader": lambda: (rng.choice([0, self.money(), self.money()]),
                               rng.choice([1, 1, 2, 3, 128, rng.randint(1, 10)])),
            "client": lambda: (self.trader_number(),),
            "carry": lambda: (self.client_number(), *deal),
            "price": lambda: (rng.choice(list(self.ledger.places) or [0]), self.market()),
            "deposit": lambda: (kind, number, self.money()),
            "open": lambda: (),
            "trade": lambda: (self.trader_number(), *deal),
            "specify": lambda: (rng.randrange(trades + 1), self.client_number()),
            "cancel": lambda: (rng.randrange(trades + 1),),
            "withdraw": lambda: (kind, number, self.money()),
            "settle": lambda: (rng.choice(serials),),
            "putback": lambda: (rng.choice(serials),),
            "cash": lambda: (self.client_number(), self.settlement()),
            "window": lambda: (),
            "statement": lambda: (self.trader_number(),),
        }[name]()

    def wrong_call(self, names):
        """A call with one argument, or more, at or beyond a bound."""
        rng = self.rng
        name = rng.choice(names)
        args = list(self.any_call(name))
        kinds = CALLS[name]
        places = [at for at, kind in enumerate(kinds) if kind in "NA"]
        for _ in range(rng.choice([1, 1, 2])):
            if places:
                at = rng.choice(places)
                ledger = self.ledger
                close = [len(ledger.traders), len(ledger.clients), len(ledger.trades)]
                args[at] = rng.choice(EXTREMES + close * 4)
                if name in ("trade", "carry") and at >= 3:
                    args[at] = rng.choice([0, 1, 10_000, 10_001, 100_000, 100_001, args[at]])
        self.say(name, *args)

    # The sheets

    def write_sheets(self):
        """Writes files, and the lines that read them."""
        rng = self.rng
        wanted = rng.choice([0, 1, 1, 2, 3, rng.randint(1, 9), 8, 9])
        if self.large:
            wanted = rng.choice([1, 2, 8, 9, rng.randint(1, 8)])
        files = []
        for number in range(wanted):
            sheet = Sheet(rng, full=rng.random() < (0.3 if self.large else 0.05))
            files.append((f"s{number}.bin", sheet, sheet.to_bytes(rng)))
        damaged = rng.choice([0, 0, 1, 2, 5]) if rng.random() < 0.95 else 40
        for number in range(damaged):
            choice = rng.random()
            sheet = Sheet(rng)
            if choice < 0.1:
                sheet = Sheet(rng, beyond=rng.choice(["contracts", "scenarios", "factors"]))
                data = sheet.to_bytes(rng)
            elif choice < 0.8:
                sheet.damage(rng)
                data = sheet.to_bytes(rng)
            else:
                data = garbled(rng, sheet.to_bytes(rng))
            files.insert(rng.randrange(len(files) + 1), (f"d{number}.bin", None, data))
        for name, sheet, data in files:
            with open(os.path.join(self.folder, name), "wb") as file:
                file.write(data)
            self.maybe_noise()
            if rng.random() < 0.005:
                self.any_early_call()
            self.line(b"sheet " + name.encode())
            if not self.called:
                # A damaged sheet may be right all the same; then it is read back.
                sheet = sheet or read_sheet(data)
                if sheet:
                    self.ledger.add_sheet(sheet)
            if rng.random() < 0.1:
                self.contract(str(rng.randint(0, 256)))
        contracts = list(self.ledger.places)
        for number in rng.sample(contracts, min(len(contracts), rng.choice([0, 3, 10, 256]))):
            self.contract(str(number))

    def any_early_call(self):
        """A call that may come too early."""
        name = self.rng.choice([name for name in CALLS if name != "open"])
        self.say(name, *self.any_call(name))

    # The parts of a day

    def prepare(self):
        """The preparation: prices, traders, clients, carried positions, deposits."""
        rng = self.rng
        if rng.random() < 0.7:
            for number in self.ledger.places:
                if rng.random() < 0.95:
                    self.say("price", number, self.market())
        traders = rng.choice([1, 1, 2, 3, 5, 17]) if rng.random() < 0.97 else 0
        for _ in range(traders):
            self.say("trader", *self.any_call("trader"))
            self.maybe_noise()
        if traders == 17:
            for _ in range(3):
                self.wrong_call(["trader"])
        clients = rng.choice([0, 1, 2, 3, 5, 10]) if not self.large else rng.choice([3, 20, 130])
        if rng.random() < 0.03:
            clients = 130
        for _ in range(clients):
            self.say("client", self.trader_number())
        if clients == 130:
            for _ in range(3):
                self.wrong_call(["client"])
        steps = rng.choice([0, 5, 20]) if not self.large else rng.choice([50, 300, 1_100])
        for _ in range(steps):
            self.maybe_noise()
            if rng.random() < self.wrong:
                early = PREPARATION + BOTH if rng.random() < 0.9 else CALLS
                self.wrong_call([name for name in early if name != "open"])
            else:
                name = rng.choice(["carry"] * 6 + ["deposit"] * 2 + ["price", "trader", "client"])
                self.say(name, *self.any_call(name))
        if self.large and rng.random() < 0.2:
            for _ in range(1_100):
                self.say("carry", *self.any_call("carry"))
            for _ in range(20):
                self.wrong_call(["carry"])
        if rng.random() < 0.1:
            self.contract(str(self.known_contract()))

    def session(self):
        """The session, with the statements of all traders at its end."""
        rng = self.rng
        steps = rng.choice([5, 20, 60, 150]) if not self.large else rng.choice([800, 1_500, 3_000])
        deals = rng.choice([3, 8, 20])
        window = rng.choice([0, 0.01, 0.1])
        moves = [
            (deals, lambda: self.say("trade", *self.any_call("trade"))),
            (deals, self.specify),
            (3, self.cancel),
            (2, self.aimed_cancel),
            (3, self.deposit),
            (4, self.withdraw),
            (0.7, self.aimed_withdraw),
            (2, self.spend),
            (2, lambda: self.say("price", *self.any_call("price"))),
            (2, lambda: self.say("cash", *self.any_call("cash"))),
            (window, lambda: self.say("window")),
            (3, lambda: self.say("statement", self.trader_number())),
            (0.1, self.many_slips),
            (0.3, lambda: self.say(*self.late_call())),
            (0.3, lambda: self.contract(str(rng.randint(0, 260)))),
            (0.1, lambda: self.line(b"sheet " + rng.choice([b"s0.bin", b"none.bin", b"d0.bin"]))),
        ]
        weights = [weight for weight, _ in moves]
        actions = [action for _, action in moves]
        for _ in range(steps):
            self.maybe_noise()
            if rng.random() < self.wrong:
                names = set(CALLS) - set(PREPARATION) if rng.random() < 0.95 else set(CALLS)
                if rng.random() < 0.98:
                    names.discard("window")
                self.wrong_call(sorted(names))
            else:
                rng.choices(actions, weights)[0]()
        if self.large and rng.random() < 0.5:
            while len(self.ledger.trades) < 1_024:
                if not self.say("trade", *self.any_call("trade")) and rng.random() < 0.05:
                    break
            for _ in range(20):
                self.say("trade", *self.any_call("trade"))
                self.wrong_call(["trade"])
            for _ in range(100):
                rng.choices(actions, weights)[0]()
        for trader in range(len(self.ledger.traders)):
            self.say("statement", trader)

    def late_call(self):
        """A call of the preparation."""
        name = self.rng.choice(PREPARATION)
        return (name, *self.any_call(name))

    def specify(self):
        """Mostly an unspecified trade to a client of its trader."""
        rng, ledger = self.rng, self.ledger
        free = [number for number, trade in enumerate(ledger.trades) if trade["client"] is None]
        if free and rng.random() < 0.9:
            trade = rng.choice(free)
            clients = ledger.traders[ledger.trades[trade]["trader"]]["clients"]
            if clients and rng.random() < 0.95:
                return self.say("specify", trade, rng.choice(clients))
            return self.say("specify", trade, self.client_number())
        return self.say("specify", *self.any_call("specify"))

    def specified(self):
        """The trades that may be cancelled."""
        return [number for number, trade in enumerate(self.ledger.trades)
                if trade["client"] is not None and not trade["carried"]]

    def cancel(self):
        """Mostly a specified trade."""
        trades = self.specified()
        if trades and self.rng.random() < 0.9:
            return self.say("cancel", self.rng.choice(trades))
        return self.say("cancel", *self.any_call("cancel"))

    def aimed_cancel(self):
        """A cancellation after which the limit is 0, or just below; or one below zero."""
        rng, ledger = self.rng, self.ledger
        trades = self.specified()
        for trade in rng.sample(trades, min(4, len(trades))):
            trader = ledger.trades[trade]["trader"]
            before, afterwards = ledger.limit(trader), ledger.limit_without(trade)
            over = rng.choice([0, 0, 1, -1])
            if afterwards > 0:
                for kind in rng.sample(["trader", "member"], 2):
                    self.say("withdraw", kind, trader,
                             min(MONEY, max(1, ledger.limit_without(trade) + over)))
            elif before >= 0 > afterwards:
                self.say("deposit", rng.choice(["trader", "member"]), trader,
                         min(MONEY, max(1, -afterwards - over)))
            elif before < 0 and rng.random() < 0.5:
                self.say("deposit", rng.choice(["trader", "member"]), trader,
                         min(MONEY, max(1, -before + rng.choice([0, -1, 1]))))
            self.say("cancel", trade)
            if rng.random() < 0.5:
                self.say("statement", trader)

    def holder(self):
        """A holder."""
        kind = self.rng.choice(HOLDERS)
        return kind, self.client_number() if kind == "client" else self.trader_number()

    def deposit(self):
        """Mostly what is missing, or what would be too much."""
        rng, ledger = self.rng, self.ledger
        kind, number = self.holder()
        account = ledger.account(kind, number)
        if not account:
            return self.say("deposit", kind, number, self.money())
        entry, key = account
        room = MONEY - entry[key] - ledger.on_slips(kind, number)
        if kind == "client":
            missing = ledger.deficit(number)
        else:
            missing = -ledger.limit(number)
        amount = rng.choice([missing, missing, missing, self.money(), self.money(), room]
                            + ([room + 1] if rng.random() < 0.3 else []))
        amount += rng.choice([0, 0, 1, -1]) if amount not in (room, room + 1) else 0
        return self.say("deposit", kind, number, max(1, min(MONEY, amount)))

    def withdraw(self):
        """Mostly as much as is covered, or one more."""
        rng, ledger = self.rng, self.ledger
        kind, number = self.holder()
        account = ledger.account(kind, number)
        if not account:
            return self.say("withdraw", kind, number, self.money())
        entry, key = account
        covered = entry[key]
        if kind == "client":
            covered -= max(entry["opening"], ledger.need(number))
        else:
            covered = min(covered, ledger.limit(number))
        amounts = [covered, covered, covered + 1, covered + 1, covered - 1, entry[key],
                   entry[key] + 1, self.money(), 1, max(1, covered // 2)]
        if kind == "client":
            amounts += [entry[key] - entry["opening"], entry[key] - entry["opening"] + 1,
                        entry[key] - ledger.need(number), entry[key] - ledger.need(number) + 1]
        amount = rng.choice(amounts)
        if amount < 1 and rng.random() < 0.9:
            amount = 1
        self.say("withdraw", kind, number, min(MONEY, amount))
        if rng.random() < 0.2:
            self.say("withdraw", kind, number, 1)

    def aimed_withdraw(self):
        """Withdrawals of a client whose opening need is above its need, or next to it."""
        rng, ledger = self.rng, self.ledger
        clients = [client for client, entry in enumerate(ledger.clients)
                   if entry["opening"] > ledger.need(client)]
        if not clients:
            # A better price for what is carried may lower a need.
            carried = [trade for trade in ledger.trades if trade["carried"]]
            if carried:
                trade = rng.choice(carried)
                better = PRICE if trade["quantity"] > 0 else 1
                self.say("price", trade["contract"], rng.choice([better, self.market()]))
            return
        client = rng.choice(clients)
        entry = ledger.clients[client]
        trader = entry["trader"]
        over = rng.choice([0, 1, rng.randint(0, 1_000)])
        missing = entry["opening"] + over - entry["collateral"]
        if missing > 0:
            self.say("deposit", "client", client, min(MONEY, missing))
        if ledger.limit(trader) < 0 and rng.random() < 0.8:
            self.say("deposit", "trader", trader, min(MONEY, -ledger.limit(trader)))
        spare = entry["collateral"] - entry["opening"]
        self.say("withdraw", "client", client, min(MONEY, max(1, spare + 1)))
        self.say("withdraw", "client", client, min(MONEY, max(1, spare)))
        self.say("withdraw", "client", client, 1)

    def spend(self):
        """Settles or puts back a slip; sometimes with no room left beside it, or twice."""
        rng, ledger = self.rng, self.ledger
        name = rng.choice(["settle", "putback"])
        if ledger.slips and rng.random() < 0.9:
            slip = rng.choice(ledger.slips)
            if rng.random() < 0.2:
                entry, key = ledger.account(*slip[0])
                room = MONEY - entry[key] - ledger.on_slips(*slip[0])
                self.say("deposit", *slip[0], max(1, min(MONEY, room + rng.choice([0, 1]))))
            self.say(name, slip[1])
            if rng.random() < 0.2:
                self.say(rng.choice(["settle", "putback"]), slip[1])
        else:
            self.say(name, rng.randint(0, ledger.made + 2))

    def many_slips(self):
        """More slips than may stand, if there is a holder that can pay them."""
        rng, ledger = self.rng, self.ledger
        good = [number for number in range(len(ledger.traders)) if ledger.limit(number) >= 0]
        if not good:
            return
        trader = rng.choice(good)
        holders = [("trader", trader), ("member", trader)]
        holders += [("client", client) for client in ledger.traders[trader]["clients"]]
        kind, number = rng.choice(holders)
        account = ledger.account(kind, number)
        missing = (max(account[0]["opening"], ledger.need(number)) - account[0][account[1]]
                   if kind == "client" else 0)
        self.say("deposit", kind, number, max(100, min(MONEY, missing + rng.randint(100, 10_000))))
        for _ in range(rng.randint(20, 36)):
            self.say("withdraw", kind, number, rng.randint(1, 4))
        self.say("withdraw", kind, number, rng.choice([0, 1, MONEY, MONEY + 1]))
        for serial in [slip[1] for slip in ledger.slips]:
            if rng.random() < 0.8:
                self.say(rng.choice(["settle", "putback"]), serial)

    def write(self):
        """Makes the day and writes it."""
        rng = self.rng
        self.write_sheets()
        if rng.random() < 0.03:
            self.unreadable()
        self.prepare()
        if rng.random() < 0.1:
            self.any_early_call()
        if rng.random() < 0.98:
            self.say("open")
            self.session()
        text = b"".join(line + b"\n" for line in self.lines)
        if rng.random() < 0.2:
            text = text[:-1] + rng.choice(
                [b"", b"", b"\r", b" ", b"\nstatement 0", b"\nstatement 0\r"])
        with open(os.path.join(self.folder, "lines"), "wb") as file:
            file.write(text)


class ReadSheet:
    """A sheet that was read back from its file."""

    def __init__(self, numbers, multipliers, scenarios, rows):
        self.numbers, self.multipliers, self.scenarios = numbers, multipliers, scenarios
        self.rows = rows

    def shocks(self):
        """For each contract its shocks, one for each scenario."""
        return self.rows


def read_sheet(data):
    """The sheet of a file, or None if the file is to be refused."""
    if not 24 <= len(data) <= 65_536:
        return None
    kind, n, s, f, contracts, scenarios, length, payoff = struct.unpack("<HHHHIIII", data[:24])
    counts = {1: 1 <= n <= 64 and 1 <= s <= 64 and 1 <= f <= 8,
              2: 1 <= n <= 64 and 1 <= s <= 64 and f == 0,
              3: 1 <= n <= 63 and s == n + 1 and f == 0}
    if length != len(data) or not counts.get(kind):
        return None
    size = {1: s * f, 2: n * s, 3: 0}[kind]
    ends = contracts + n * (4 + 4 * f), scenarios + 4 * size
    if min(contracts, scenarios) < 24 or max(ends) > length:
        return None
    if size and contracts < ends[1] and scenarios < ends[0]:
        return None
    records = [struct.unpack_from(f"<HH{f}i", data, contracts + j * (4 + 4 * f)) for j in range(n)]
    numbers = [record[0] for record in records]
    shocks = struct.unpack_from(f"<{size}i", data, scenarios)
    if max(numbers) > 255 or any(a >= b for a, b in zip(numbers, numbers[1:])):
        return None
    multipliers = [record[1] for record in records]
    bound = 10_000 if kind == 1 else 10**8
    if (max(multipliers) > (10_000 if kind == 1 else 0)
            or not (1 <= payoff <= 10**8 if kind == 3 else payoff == 0)
            or any(abs(e) > 12_500_000 for record in records for e in record[2:])
            or any(abs(number) > bound for number in shocks)):
        return None
    zeros = {1: shocks[:f], 2: shocks[::s], 3: ()}[kind]
    if any(zeros):
        return None
    if kind == 1:
        rows = [[nearest(sum(e * x for e, x in zip(record[2:], shocks[k * f:k * f + f])))
                 for k in range(s)] for record in records]
    elif kind == 2:
        rows = [list(shocks[j * s:j * s + s]) for j in range(n)]
    else:
        rows = [[payoff if k == j + 1 else 0 for k in range(s)] for j in range(n)]
    return ReadSheet(numbers, multipliers, s, rows)


def write_day(seed, folder, large=False):
    """Writes the day of a seed into a folder. Returns how often its withdrawals and cancellations
    were accepted or refused, and why, by its own ledger.
    """
    os.makedirs(folder, exist_ok=True)
    day = Day(seed, folder, large)
    day.write()
    return day.ledger.reasons


def main():
    parser = argparse.ArgumentParser(description=__doc__.splitlines()[0])
    parser.add_argument("seed", type=int)
    parser.add_argument("folder")
    parser.add_argument("--large", action="store_true", help="a day of thousands of lines")
    arguments = parser.parse_args()
    write_day(arguments.seed, arguments.folder, arguments.large)


if __name__ == "__main__":
    main()
