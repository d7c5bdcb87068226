#!/usr/bin/env python3
"""What rulkhaved has to print, worked in exact fractions.

    python3 tools/reference.py < examples/three-rows.calls

Reads calls on standard input, one a line, as the program does, and prints the
outcome of each. Ends with status 1 if some line was not understood. An empty
input prints nothing here; the program prints how to use it.

This is an independent reference. It is run by hand and is no part of the gate.
It knows nothing of the engine: it is written from the rules in docs/ alone,
with Python's whole numbers and fractions, which neither round nor overflow.
"""

import re
import sys

from collections import namedtuple
from fractions import Fraction
from math import ceil, floor

AMOUNT_CEILING = 40_000_000_000  # hundredths
FACTOR_CEILING = 200_000_000  # ten-millionths
ENTRY_LIMIT = 1_000_000_000  # hundredths
TEN_MILLIONTHS = 10_000_000  # in one

OF_BOOK, OF_FORM, OF_SOURCE = 0, 1, 2

Term = namedtuple("Term", "property shift reach coefficient")


class Refused(Exception):
    """A declined call: the ground's number, its origin, the place and the words."""

    def __init__(self, number, origin, place, words):
        super().__init__(words)
        self.number, self.origin, self.place, self.words = number, origin, place, words

    def __str__(self):
        m, i, k = self.place
        layers = 0
        return f"refused {self.number} {self.origin} {m} {i} {k} {layers}: {self.words}"


# ---- the number forms: the ends of a factor of an exact value in ten-millionths


def two_ends(exact):
    return floor(exact), ceil(exact)


def centre_ends(exact):
    """The value is rounded down to the centre; the radius is 1 unless it was a whole number."""
    centre = floor(exact)
    radius = 0 if centre == exact else 1
    return centre - radius, centre + radius


FORMS = {"ends": two_ends, "centre": centre_ends}


class Book:
    """Sizes, observed amounts and rules, and the number form that the book was opened with."""

    def __init__(self, properties, rows, columns, form):
        if not (1 <= properties <= 4 and 1 <= rows <= 16 and 1 <= columns <= 12 and columns <= rows):
            raise Refused(1, OF_BOOK, (0, 0, 0), "the sizes are outside the limits of a book")
        self.properties, self.rows, self.columns = properties, rows, columns
        self.form = form
        self.amounts = {}  # an amount that was never entered is 0
        self.rules = [[] for _ in range(properties)]

    def amount(self, m, i, k):
        return self.amounts.get((m, i, k), 0)

    def enter(self, m, i, k, amount):
        place = (m, i, k)
        if m >= self.properties:
            raise Refused(2, OF_BOOK, place, "no such property")
        if i >= self.rows:
            raise Refused(3, OF_BOOK, place, "no such row")
        if k >= self.columns:
            raise Refused(4, OF_BOOK, place, "no such column")
        if i + k > self.rows - 1:
            raise Refused(5, OF_BOOK, place, f"row {i} has no observed amount in column {k}")
        if abs(amount) > ENTRY_LIMIT:
            raise Refused(6, OF_BOOK, place, f"the amount passes the limit of an entry, {ENTRY_LIMIT}")
        self.amounts[place] = amount

    def add_term(self, m, l, shift, reach, coefficient):
        place = (m, 0, 0)
        if m >= self.properties or l >= self.properties:
            raise Refused(2, OF_BOOK, place, "no such property")
        if shift > 15:
            raise Refused(7, OF_BOOK, place, "a shift is 0 to 15 rows")
        if reach > 2:
            raise Refused(8, OF_BOOK, place, "a reach is 0, 1 or 2")
        if coefficient == 0 or abs(coefficient) > 100:
            raise Refused(9, OF_BOOK, place, "a coefficient is -100 to 100 and not 0")
        if len(self.rules[m]) == 6:
            raise Refused(10, OF_BOOK, place, "the rule has six terms already")
        self.rules[m].append(Term(l, shift, reach, coefficient))

    def exposure(self, m, i, k):
        """R(m,i,k), the terms in their order, each step tested by the ceiling."""
        place = (m, i, k)
        total = 0
        for term in self.rules[m]:
            row = i - term.shift
            if row < 0:
                continue
            if term.reach == 0:
                read = 0
                for column in range(k + 1):
                    read = step(read + self.amount(term.property, row, column), place)
            else:
                read = self.amount(term.property, row, 0 if term.reach == 1 else k)
            multiple = step(term.coefficient * read, place)
            total = step(total + multiple, place)
        return total

    def estimated_fraction(self, m, k):
        """The next amounts over the exposures, of the rows whose exposure is above 0."""
        if m >= self.properties:
            raise Refused(2, OF_SOURCE, (m, 0, k), "no such property")
        if k >= self.columns - 1:
            raise Refused(4, OF_SOURCE, (m, 0, k), "no such column")
        last_row = self.rows - 1
        next_amounts = exposures = 0
        for i in range(last_row - k):
            place = (m, i, k)
            exposure = self.exposure(m, i, k)
            if exposure < 0:
                raise Refused(13, OF_SOURCE, place, f"the exposure of row {i} in column {k} is negative")
            if exposure > 0:
                exposures = step(exposures + exposure, place)
                next_amounts += self.amount(m, i, k + 1)
        return Fraction(next_amounts, exposures) if exposures else Fraction(0)

    def factor(self, m, k):
        """The two ends of the estimated factor, in ten-millionths."""
        exact = self.estimated_fraction(m, k) * TEN_MILLIONTHS
        low, high = FORMS[self.form](exact)
        if low < -FACTOR_CEILING or high > FACTOR_CEILING:
            raise Refused(15, OF_FORM, (m, 0, k), f"the factor passes the ceiling, {FACTOR_CEILING}")
        return low, high


def step(amount, place):
    """One addition or multiple on the way to an amount: refused past the ceiling."""
    if abs(amount) > AMOUNT_CEILING:
        _, row, column = place
        words = f"an amount in row {row} and column {column} passes the ceiling, {AMOUNT_CEILING}"
        raise Refused(14, OF_FORM, place, words)
    return amount


# ---- the words of a line


def unsigned(word):
    """The value of a number without a minus, at most 2^64 - 1, or None."""
    if not re.fullmatch(r"\+?[0-9]+", word):
        return None
    return within(word, 0, 2**64 - 1)


def signed(word):
    """The value of a signed 64-bit number, or None."""
    if not re.fullmatch(r"[+-]?[0-9]+", word):
        return None
    return within(word, -(2**63), 2**63 - 1)


def form_name(word):
    """The name of a number form, or None."""
    return word if word in FORMS else None


def within(word, least, greatest):
    digits = word.lstrip("+-").lstrip("0") or "0"
    if len(digits) > 20:
        return None
    value = -int(digits) if word.startswith("-") else int(digits)
    return value if least <= value <= greatest else None


ARGUMENTS = {
    "form": [form_name],
    "open": [unsigned] * 3,
    "enter": [unsigned] * 3 + [signed],
    "term": [unsigned] * 4 + [signed],
    "close": [],
    "factor": [unsigned] * 2,
    "reopen": [],
}


def understood(words):
    """The arguments of a call, or None for words that are no call."""
    kinds = ARGUMENTS.get(words[0])
    if kinds is None or len(words) != 1 + len(kinds):
        return None
    values = [kind(word) for kind, word in zip(kinds, words[1:])]
    return None if None in values else values


# ---- a sequence of calls


class Calls:
    """A sequence of calls: it works on at most one book, a draft or closed.

    The form that was set last is that of the next book to be opened.
    """

    TAKEN = {
        "draft": ("form", "open", "enter", "term", "close"),
        "closed": ("form", "open", "factor", "reopen"),
        "none": ("form", "open"),
    }
    NOT_TAKEN = {
        "draft": "not taken by a draft",
        "closed": "not taken by a closed book",
        "none": "not taken: no book is open",
    }

    def __init__(self):
        self.state, self.book = "none", None
        self.next_form = "ends"

    def outcome(self, call, values):
        if call not in self.TAKEN[self.state]:
            return self.NOT_TAKEN[self.state]
        try:
            return getattr(self, call)(*values)
        except Refused as refusal:
            return str(refusal)

    def form(self, name):
        self.next_form = name
        return "accepted"

    def open(self, properties, rows, columns):
        self.state, self.book = "none", None
        self.book = Book(properties, rows, columns, self.next_form)
        self.state = "draft"
        return "accepted"

    def enter(self, m, i, k, amount):
        self.book.enter(m, i, k, amount)
        return "accepted"

    def term(self, m, l, shift, reach, coefficient):
        self.book.add_term(m, l, shift, reach, coefficient)
        return "accepted"

    def close(self):
        self.state = "closed"
        return "accepted"

    def factor(self, m, k):
        low, high = self.book.factor(m, k)
        return f"between {low} and {high}"

    def reopen(self):
        self.state = "draft"
        return "accepted"


def words_of(text):
    """The words of a line, without its line end."""
    if text.endswith("\n"):
        text = text[:-1].removesuffix("\r")
    return re.findall(r"[^ \t]+", text)


def main():
    # every byte is one character, so that what is not understood is repeated as it came
    sys.stdin.reconfigure(encoding="latin-1", newline="\n")
    sys.stdout.reconfigure(encoding="latin-1", newline="\n")
    calls, status = Calls(), 0
    for number, text in enumerate(sys.stdin, start=1):
        words = words_of(text)
        if not words or words[0].startswith("#"):
            continue
        typed = " ".join(words)
        values = understood(words)
        if values is None:
            print(f"line {number}: not understood: {typed}")
            status = 1
        else:
            print(f"{typed}: {calls.outcome(words[0], values)}")
    return status


if __name__ == "__main__":
    sys.exit(main())
