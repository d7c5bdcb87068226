#!/usr/bin/env python3
"""Random calls for rulkhaved, to compare the program with tools/reference.py.

    python3 tools/random_calls.py SEED COUNT > calls.txt

Prints the calls of COUNT books. The same seed and count print the same calls.
Under an odd seed some lines are no calls, so the program ends with status 1;
under an even seed every line is a call, a comment or blank.

The books differ in size, in rules (chain ladder, extended, random, none), in
the size and sign of their amounts and in their number form, and some are made
to meet a ceiling exactly or to pass it by one. Refused calls of every ground,
calls that the book's state does not take, second drafts, questions out of range
and settings of the form in the middle of a book come between.
"""

import random
import sys

ENTRY_LIMIT = 1_000_000_000
HUGE = [2**32, 2**63 - 1, 2**63, 2**64 - 1]  # unsigned numbers far out of range
EXTREME = [2**63 - 1, -(2**63)]  # signed numbers far out of range


class Maker:
    """Makes the calls of one book after another and keeps the sizes of the present one."""

    def __init__(self, seed):
        self.rng = random.Random(seed)
        self.garbles = seed % 2 == 1
        self.sizes = (1, 1, 1)
        self.lines = []

    # ---- small choices

    def chance(self, percent):
        return self.rng.randrange(100) < percent

    def spelled(self, number):
        """A number as digits, now and then with a plus or leading zeros."""
        if number >= 0 and self.chance(1):
            return self.rng.choice(["+", "0", "000", "+00"]) + str(number)
        return str(number)

    def blanks(self):
        return self.rng.choice(["  ", "\t", " \t "]) if self.chance(2) else " "

    def call(self, name, *numbers):
        text = name
        for number in numbers:
            text += self.blanks() + self.spelled(number)
        self.put(text)
        self.between()

    def put(self, text):
        self.lines.append("  " + text + "\t" if self.chance(1) else text)

    def set_form(self):
        """The setting of a form, which holds from the next book on."""
        self.put("form" + self.blanks() + self.rng.choice(["ends", "centre"]))

    def between(self):
        """What may stand between any two calls."""
        if self.chance(2):
            self.set_form()
        if self.chance(1):
            self.lines.append(self.rng.choice(["", "   ", "\t", "# a comment", "  # close", "#close"]))
        if self.garbles and self.chance(2):
            self.lines.append(self.garbled())

    def garbled(self):
        return self.rng.choice([
            "reserve 0 0 0 0 0", "Open 1 1 1", "open", "open 1 2", "open 1 2 2 2", "open 1 2 -2", "open 1 2 -0",
            "enter 0 0 0", "enter 0 0 0 1 1", "enter 0 0 0 x", "enter 0 0 0 1.5", "enter 0 -1 0 5", "enter 0 0 0 --5",
            "enter 0 0 0 9223372036854775808", "enter 0 0 0 -9223372036854775809", "enter 18446744073709551616 0 0 1",
            "term 0 0 0 0", "term 0 0 0 0 1 1", "term 0 0 0 0 +", "term 0 0 0 0 -", "term 0 0 -1 0 1", "term a 0 0 0 1",
            "close 0", "close #", "factor", "factor 0", "factor 0 0 0", "factor 0 0x1", "factor  0\t1_0", "reopen now",
            "accepted", "100", "-", "closes", "fact or 0 0",
            "form", "form end", "form Centre", "form ENDS", "form center", "form ends centre", "form centre 4", "form 0",
            "Form ends", "forms ends", "form whole", "centre", "form centre #",
        ])

    # ---- the parts of a book

    def open_sizes(self):
        """Sizes of a book, from the least to the largest."""
        rng = self.rng
        most_rows = rng.choice([2, 3, 4, 6, 16])
        rows = rng.randint(1, most_rows)
        columns = rng.randint(1, min(rows, 12)) if self.chance(50) else min(rows, 12)
        self.sizes = (rng.randint(1, 4), rows, columns)

    def observed(self):
        properties, rows, columns = self.sizes
        return [(m, i, k) for m in range(properties) for i in range(rows) for k in range(min(columns, rows - i))]

    def amount(self, kind, m=0):
        """An amount of a kind. Coupled amounts are larger in later properties, as reported ones are than paid ones."""
        rng = self.rng
        if kind == "mixed":
            kind = rng.choice(["zero", "small", "signed", "ordinary", "large", "largest", "either"])
        return {
            "zero": lambda: 0,
            "small": lambda: rng.randint(0, 30),
            "signed": lambda: rng.randint(-300, 300),
            "ordinary": lambda: rng.randint(0, 2_000_000),
            "coupled": lambda: (m + 1) * rng.randint(500_000, 1_000_000),
            "large": lambda: rng.randint(500_000_000, ENTRY_LIMIT),
            "largest": lambda: ENTRY_LIMIT - rng.randint(0, 2),
            "either": lambda: rng.choice([1, -1]) * (ENTRY_LIMIT - rng.randint(0, 2)),
        }[kind]()

    def enter_all(self):
        """Enters the observed amounts, all or some, in rising or in any order."""
        kind = self.rng.choice(["small", "signed", "large", "largest", "either"] + ["ordinary", "coupled", "mixed"] * 2)
        cells = self.observed()
        if self.chance(30):
            self.rng.shuffle(cells)
        if self.chance(20):
            cells = cells[: self.rng.randint(0, len(cells))]
        zeros = self.rng.choice([0, 0, 10, 40])
        for m, i, k in cells:
            self.call("enter", m, i, k, 0 if self.chance(zeros) else self.amount(kind, m))

    def add_rules(self):
        """A rule for every property; of the kind "some" about half of the rules stay empty."""
        properties, _, _ = self.sizes
        kind = self.rng.choice(["chain ladder"] * 4 + ["extended"] * 2 + ["random"] * 3 + ["heavy", "some"])
        if kind == "extended" and properties == 1:
            kind = "chain ladder"
        paid, reported = sorted(self.rng.sample(range(properties), 2)) if properties > 1 else (0, 0)
        for m in range(properties):
            if kind == "chain ladder":
                self.call("term", m, m, 0, 0, 1)
            elif kind == "extended":
                self.call("term", m, reported, 0, 0, 1)
                self.call("term", m, paid, 0, 0, -1)
            elif kind == "heavy":
                for _ in range(self.rng.randint(1, 6)):
                    self.random_term(m, self.rng.choice([100, 99, 41, 40, 20, -40, -100]))
            elif kind == "random" or self.chance(50):
                for _ in range(self.rng.randint(1, 6)):
                    self.random_term(m, self.rng.choice([1, 1, 1, 2, 3, -1, -1, -2, self.coefficient()]))

    def coefficient(self):
        return self.rng.choice([1, -1]) * self.rng.randint(1, 100)

    def random_term(self, m, coefficient):
        properties, _, _ = self.sizes
        shift = self.rng.choice([0, 0, 0, 1, 2, self.rng.randint(0, 15), 15])
        self.call("term", m, self.rng.randrange(properties), shift, self.rng.randrange(3), coefficient)

    # ---- calls that are refused or not taken

    def beyond(self, limit):
        """A number from the limit on."""
        return self.rng.choice([limit, limit, limit + 1, limit + self.rng.randint(0, 20), self.rng.choice(HUGE)])

    def beyond_signed(self, limit):
        return self.rng.choice([limit + 1, -limit - 1, limit + self.rng.randint(1, 1000), self.rng.choice(EXTREME)])

    def refused_sizes(self):
        self.call("open", *self.rng.choice([
            (0, 3, 3), (5, 3, 3), (1, 0, 0), (1, 17, 3), (1, 3, 0), (1, 16, 13), (1, 3, 4), (4, 11, 12), (0, 0, 0),
            (self.beyond(5), self.beyond(17), self.beyond(13)), (2, self.beyond(17), 1), (self.beyond(5), 4, 4),
        ]))

    def refused_entry(self):
        """An entry that breaks one or several of its limits."""
        properties, rows, columns = self.sizes
        m, i, k = self.rng.choice(self.observed())
        amount = self.rng.randint(-5, 5)
        kinds = ["property", "row", "column", "amount"] + ["observed"] * (columns > 1)
        faults = self.rng.sample(kinds, self.rng.choice([1, 1, 1, 2, 3]))
        if "observed" in faults:
            k = self.rng.randint(1, columns - 1)
            i = self.rng.randint(rows - k, rows - 1)
        if "property" in faults:
            m = self.beyond(properties)
        if "row" in faults:
            i = self.beyond(rows)
        if "column" in faults:
            k = self.beyond(columns)
        if "amount" in faults:
            amount = self.beyond_signed(ENTRY_LIMIT)
        self.call("enter", m, i, k, amount)

    def refused_term(self):
        """A term that breaks one or several of its limits."""
        properties, _, _ = self.sizes
        m, l = self.rng.randrange(properties), self.rng.randrange(properties)
        shift, reach, coefficient = self.rng.randint(0, 15), self.rng.randrange(3), self.coefficient()
        faults = self.rng.sample(["rule", "property", "shift", "reach", "coefficient"], self.rng.choice([1, 1, 1, 2, 3]))
        if "rule" in faults:
            m = self.beyond(properties)
        if "property" in faults:
            l = self.beyond(properties)
        if "shift" in faults:
            shift = self.beyond(16)
        if "reach" in faults:
            reach = self.beyond(3)
        if "coefficient" in faults:
            coefficient = self.rng.choice([0, 101, -101, self.beyond_signed(100)])
        self.call("term", m, l, shift, reach, coefficient)

    def seventh_term(self):
        """Terms until the rule of one property is full, and one or two after that."""
        m = self.rng.randrange(self.sizes[0])
        for _ in range(self.rng.randint(7, 8)):
            self.random_term(m, self.coefficient())

    def not_taken(self, *names):
        name = self.rng.choice(names)
        count = {"enter": 4, "term": 5, "factor": 2}.get(name, 0)
        self.call(name, *[self.rng.choice([0, 0, 1, 2, 20]) for _ in range(count)])

    # ---- whole books

    def ask_factors(self):
        """Every factor of the book, or some, and questions out of range."""
        properties, _, columns = self.sizes
        for m in range(properties):
            for k in range(columns - 1):
                if self.chance(80):
                    self.call("factor", m, k)
        if self.chance(40):
            self.call("factor", self.beyond(properties), self.rng.choice([0, columns, self.rng.choice(HUGE)]))
        if self.chance(40):
            self.call("factor", self.rng.randrange(properties), self.beyond(columns - 1))
        if self.chance(20):
            self.not_taken("enter", "term", "close")

    def no_book(self):
        self.refused_sizes()
        for _ in range(self.rng.randint(0, 3)):
            self.not_taken("enter", "term", "close", "factor", "reopen")

    def any_book(self):
        self.open_sizes()
        self.call("open", *self.sizes)
        first, second = self.rng.sample([self.enter_all, self.add_rules], 2)
        first()
        self.disturb()
        second()
        self.disturb()
        if self.chance(5):
            self.seventh_term()
        self.call("close")
        self.ask_factors()
        while self.chance(35):
            self.call("reopen")
            self.disturb()
            for m, i, k in self.rng.sample(self.observed(), min(3, len(self.observed()))):
                self.call("enter", m, i, k, self.amount("mixed"))
            if self.chance(50):
                self.random_term(self.rng.randrange(self.sizes[0]), self.coefficient())
            self.call("close")
            self.ask_factors()

    def disturb(self):
        """Refused calls, and calls that a draft does not take."""
        while self.chance(40):
            self.rng.choice([self.refused_entry, self.refused_entry, self.refused_term, self.refused_term, self.draft_question])()

    def draft_question(self):
        self.not_taken("factor", "reopen")

    def amount_edge(self):
        """Exposures at the amount ceiling, or past it in a multiple, a sum of terms or a sum of rows."""
        rows = self.rng.randint(3, 5)
        self.sizes = (1, rows, 2)
        self.call("open", *self.sizes)
        row = self.rng.randrange(rows - 1)
        past = self.chance(50)
        step = self.rng.choice(["multiple", "terms", "rows"])
        if step == "multiple":
            self.call("term", 0, 0, 0, 1, 41 if past else 40)
        elif step == "terms":
            self.call("term", 0, 0, 0, 2, 39)
            self.call("term", 0, 0, 0, 1, 2 if past else 1)
            self.call("term", 0, 0, 0, 0, -3)
        else:
            self.call("term", 0, 0, 0, 0, 20)
            self.call("term", 0, 0, 1, 0, 20)
            self.call("enter", 0, self.rng.randrange(rows - 1), 0, 1 if past else 0)
        self.call("enter", 0, row, 0, self.rng.choice([1, 1, 1, -1]) * ENTRY_LIMIT)
        for i in range(rows - 1):
            self.call("enter", 0, i, 1, self.amount("mixed"))
        self.call("close")
        self.call("factor", 0, 0)

    def factor_edge(self):
        """Factors at the factor ceiling and just inside or past it, of either sign."""
        self.sizes = (1, 3, 2)
        self.call("open", *self.sizes)
        self.call("term", 0, 0, 0, 0, 1)
        self.call("close")
        self.call("factor", 0, 0)
        for _ in range(3):
            exposure = self.rng.choice([1, 7, 1000, self.rng.randint(1, 49_000_000), 49_999_999, 50_000_000])
            sign = self.rng.choice([1, -1])
            row = self.rng.randrange(2)
            self.call("reopen")
            self.call("enter", 0, row, 0, exposure)
            self.call("enter", 0, row, 1, sign * min(20 * exposure + self.rng.choice([-1, 0, 1]), ENTRY_LIMIT))
            self.call("enter", 0, 1 - row, 0, 0)
            self.call("enter", 0, 1 - row, 1, self.amount("mixed"))
            self.call("close")
            self.call("factor", 0, 0)

    def next_book(self):
        if self.chance(60):
            self.set_form()
        kind = self.rng.randrange(20)
        if kind == 0:
            self.no_book()
        elif kind <= 2:
            self.amount_edge()
        elif kind <= 4:
            self.factor_edge()
        else:
            self.any_book()


def main():
    if len(sys.argv) != 3 or not all(word.isdecimal() for word in sys.argv[1:]):
        sys.exit("usage: random_calls.py SEED COUNT")
    seed, count = map(int, sys.argv[1:])
    maker = Maker(seed)
    maker.not_taken("enter", "term", "close", "factor", "reopen")
    for _ in range(count):
        maker.next_book()
    print("\n".join(maker.lines))


if __name__ == "__main__":
    main()
