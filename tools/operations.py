#!/usr/bin/env python3
"""Operations of the number forms, worked in exact fractions.

    python3 tools/operations.py random SEED COUNT [ends|centre] > lines.txt
    python3 tools/operations.py expected < lines.txt
    python3 tools/operations.py counts < lines.txt

`random` prints COUNT operations, of both forms or of one, one a line. The same
seed, count and form print the same lines. The first lines are fixed cases.
`expected` prints what the program `operations` has to print for such lines. An
empty input prints nothing here; the program prints how to use it.
`counts` says how often each operation of each form comes to each outcome.

This is an independent reference. It knows nothing of the engine: every result
is worked out from the rule of the form with Python's whole numbers and
fractions, which neither round nor overflow.
"""

import random
import re
import sys

from collections import Counter
from fractions import Fraction
from math import ceil, floor

AMOUNT_CEILING = 40_000_000_000  # hundredths
FACTOR_CEILING = 200_000_000  # ten-millionths
TEN_MILLIONTHS = 10_000_000  # in one
LEAST, GREATEST = -(2**63), 2**63 - 1  # what a stored number can be


# ---- the forms


def mixed(w, f, g):
    """((1000 - w) f + w g) / 1000"""
    return Fraction((1000 - w) * f + w * g, 1000)


def applied(f, a):
    """A number of ten-millionths times an amount."""
    return Fraction(f * a, TEN_MILLIONTHS)


class Ends:
    """Two ends: the least exact result rounded down, the greatest rounded up."""

    @staticmethod
    def meant(low, high, ceiling):
        """What two stored numbers mean: numbers that break the form's meaning count as zero."""
        return (low, high) if -ceiling <= low <= high <= ceiling else (0, 0)

    @staticmethod
    def ends(x):
        return x

    @staticmethod
    def whole(h):
        return (h, h)

    @staticmethod
    def plus(a, b):
        return (a[0] + b[0], a[1] + b[1])

    @staticmethod
    def times(c, a):
        return (min(c * a[0], c * a[1]), max(c * a[0], c * a[1]))

    @staticmethod
    def exact(f):
        return (f, f)

    @staticmethod
    def ratio(p, q):
        value = Fraction(p, q) * TEN_MILLIONTHS
        return (floor(value), ceil(value))

    @staticmethod
    def mix(w, f, g):
        return (floor(mixed(w, f[0], g[0])), ceil(mixed(w, f[1], g[1])))

    @staticmethod
    def apply(f, a):
        products = [applied(x, y) for x in f for y in a]
        return (floor(min(products)), ceil(max(products)))


class Centre:
    """A centre rounded down and a radius rounded up, 1 more if the centre was not exact."""

    @staticmethod
    def meant(centre, radius, ceiling):
        inside = 0 <= radius and -ceiling <= centre - radius and centre + radius <= ceiling
        return (centre, radius) if inside else (0, 0)

    @staticmethod
    def ends(x):
        return (x[0] - x[1], x[0] + x[1])

    @staticmethod
    def rounded(centre, radius):
        inexact = 0 if centre.denominator == 1 else 1
        return (floor(centre), ceil(radius) + inexact)

    @staticmethod
    def whole(h):
        return (h, 0)

    @staticmethod
    def plus(a, b):
        return (a[0] + b[0], a[1] + b[1])

    @staticmethod
    def times(c, a):
        return (c * a[0], abs(c) * a[1])

    @staticmethod
    def exact(f):
        return (f, 0)

    @staticmethod
    def ratio(p, q):
        return Centre.rounded(Fraction(p, q) * TEN_MILLIONTHS, 0)

    @staticmethod
    def mix(w, f, g):
        return Centre.rounded(mixed(w, f[0], g[0]), mixed(w, f[1], g[1]))

    @staticmethod
    def apply(f, a):
        spread = applied(abs(f[0]), a[1]) + applied(f[1], abs(a[0])) + applied(f[1], a[1])
        return Centre.rounded(applied(f[0], a[0]), spread)


FORMS = {"ends": Ends, "centre": Centre}

# how many numbers an operation has, and the ceiling of its result
OPERATIONS = {
    "whole": (1, AMOUNT_CEILING),
    "plus": (4, AMOUNT_CEILING),
    "times": (3, AMOUNT_CEILING),
    "exact": (1, FACTOR_CEILING),
    "ratio": (2, FACTOR_CEILING),
    "mix": (5, FACTOR_CEILING),
    "apply": (4, AMOUNT_CEILING),
}


def ends_of(form, name, numbers):
    """The ends of the result before the ceiling is looked at, or None if a number is outside what the operation takes."""
    form = FORMS[form]

    def amount(at):
        return form.meant(numbers[at], numbers[at + 1], AMOUNT_CEILING)

    def factor(at):
        return form.meant(numbers[at], numbers[at + 1], FACTOR_CEILING)

    first = numbers[0]
    if name == "whole":
        result = form.whole(first)
    elif name == "plus":
        result = form.plus(amount(0), amount(2))
    elif name == "times" and -100 <= first <= 100:
        result = form.times(first, amount(1))
    elif name == "exact":
        result = form.exact(first)
    elif name == "ratio" and abs(first) <= AMOUNT_CEILING and 0 < numbers[1] <= AMOUNT_CEILING:
        result = form.ratio(first, numbers[1])
    elif name == "mix" and 0 <= first <= 1000:
        result = form.mix(first, factor(1), factor(3))
    elif name == "apply":
        result = form.apply(factor(0), amount(2))
    else:
        return None
    return form.ends(result)


def passes(name, ends):
    """Whether an end passes the ceiling of the operation's result."""
    ceiling = OPERATIONS[name][1]
    return ends[0] < -ceiling or ends[1] > ceiling


def answer(form, name, numbers):
    ends = ends_of(form, name, numbers)
    if ends is None:
        return "not understood"
    if passes(name, ends):
        return "refused 14" if OPERATIONS[name][1] == AMOUNT_CEILING else "refused 15"
    return f"between {ends[0]} and {ends[1]}"


# ---- the words of a line


def stored(word):
    """The value of a signed 64-bit number, or None."""
    if not re.fullmatch(r"[+-]?[0-9]+", word):
        return None
    digits = word.lstrip("+-").lstrip("0") or "0"
    if len(digits) > 19:
        return None
    value = -int(digits) if word.startswith("-") else int(digits)
    return value if LEAST <= value <= GREATEST else None


def understood(words):
    """The form, the operation and its numbers, or None for words that are no operation."""
    if len(words) < 2 or words[0] not in FORMS or words[1] not in OPERATIONS:
        return None
    form, name = words[:2]
    numbers = [stored(word) for word in words[2:]]
    if len(numbers) != OPERATIONS[name][0] or None in numbers:
        return None
    return form, name, numbers


def lines_of_input():
    """The words of every line that is neither blank nor a comment."""
    for text in sys.stdin.read().split("\n"):
        words = text.split()
        if words and not words[0].startswith("#"):
            yield words


def expected():
    for words in lines_of_input():
        operation = understood(words)
        print(" ".join(words) + ": " + (answer(*operation) if operation else "not understood"))


def counts():
    """A line for each form and operation, with the outcomes and how near to the ceiling they are."""
    columns = ["taken", "refused", "not understood", "low at", "high at", "low 1 past", "high 1 past"]
    table, others = {}, 0
    for words in lines_of_input():
        operation = understood(words)
        if operation is None:
            others += 1
            continue
        form, name, numbers = operation
        row = table.setdefault((form, name), Counter())
        row[{"between": "taken", "refused": "refused", "not": "not understood"}[answer(*operation).split()[0]]] += 1
        ends, ceiling = ends_of(*operation), OPERATIONS[name][1]
        if ends is not None:
            row["low at"] += ends[0] == -ceiling
            row["high at"] += ends[1] == ceiling
            row["low 1 past"] += ends[0] == -ceiling - 1
            row["high 1 past"] += ends[1] == ceiling + 1
    print("".join(f"{word:>16}" for word in ["form", "operation"] + columns))
    for form, name in sorted(table, key=lambda key: (list(FORMS).index(key[0]), list(OPERATIONS).index(key[1]))):
        print(f"{form:>16}{name:>16}" + "".join(f"{table[form, name][column]:>16}" for column in columns))
    print(f"no operation: {others}")


# ---- random lines

FIXED = [
    "ends apply -5000000 -5000000 1 1",
    "centre apply -5000000 0 1 0",
    "ends ratio 61 110",
    "ends apply 5545454 5545455 11000 11000",
    "centre ratio 61 110",
    "centre apply 5545454 1 11000 0",
]


class Maker:
    """Makes lines, of every operation of the forms that it is given alike."""

    def __init__(self, seed, forms):
        self.rng = random.Random(seed)
        self.forms = forms
        self.lines = [line for line in FIXED if line.split()[0] in forms]

    # ---- small choices

    def chance(self, percent):
        return self.rng.randrange(100) < percent

    def sign(self):
        return self.rng.choice([1, -1])

    def size(self, most):
        """A number from 0 to `most`, of any length."""
        return self.rng.choice([self.rng.randint(0, most), min(most, self.rng.randrange(2 ** self.rng.randint(1, most.bit_length())))])

    def number(self, ceiling):
        """A number within the ceiling: nothing, little, round, anything, or at the ceiling or a part of it."""
        rng = self.rng
        value = rng.choice([
            lambda: 0,
            lambda: rng.randint(1, 9),
            lambda: rng.randint(1, 9) * 10 ** rng.randrange(len(str(ceiling)) - 1),
            lambda: self.size(ceiling),
            lambda: self.size(ceiling),
            lambda: self.size(ceiling),
            lambda: ceiling - rng.randint(0, 3),
            lambda: ceiling // rng.choice([2, 4, 10, 20, 100]) + rng.randint(-2, 2),
        ])()
        return self.sign() * value

    def beyond(self, ceiling):
        """A number past the ceiling, by one, by a little or by far."""
        rng = self.rng
        return rng.choice([
            self.sign() * (ceiling + 1),
            self.sign() * (ceiling + rng.randint(1, 1000)),
            self.sign() * (ceiling + self.size(GREATEST - ceiling)),
            LEAST, LEAST + 1, GREATEST, GREATEST - 1,
        ])

    # ---- operands

    def between(self, form, low, high):
        """The operand with these ends, as far as the form has it."""
        if form == "ends":
            return [low, high]
        return [(low + high) // 2, (high - low) // 2]

    def narrow(self, form, ceiling):
        at = self.number(ceiling)
        by = self.rng.choice([0, 0, 1, 2, self.rng.randint(0, 1000)])
        return self.between(form, max(-ceiling, at - by), min(ceiling, at))

    def wide(self, form, ceiling):
        return self.between(form, *sorted([self.number(ceiling), self.number(ceiling)]))

    def touching(self, form, ceiling):
        """An operand with an end at the ceiling or a little short of it."""
        short = self.rng.choice([0, 0, 0, 1, 2, 3])
        width = self.rng.choice([0, 0, 1, 2, 3, self.size(2 * ceiling - short)])
        if form == "ends":
            low, high = ceiling - short - width, ceiling - short
            return [low, high] if self.chance(50) else [-high, -low]
        radius = width // 2
        return [self.sign() * (ceiling - short - radius), radius]

    def ill_formed(self, form, ceiling):
        """Numbers that break the form's meaning."""
        rng = self.rng
        a, b = self.number(ceiling), self.number(ceiling)
        if form == "ends":
            return rng.choice([
                lambda: [max(a, b) + 1, min(a, b)],
                lambda: [a + 1, a],
                lambda: [a, self.beyond(ceiling)],
                lambda: [self.beyond(ceiling), a],
                lambda: [min(a, b), ceiling + 1],
                lambda: [-ceiling - 1, max(a, b)],
                lambda: [self.beyond(ceiling), self.beyond(ceiling)],
            ])()
        room = ceiling - abs(a)
        return rng.choice([
            lambda: [a, -1],
            lambda: [a, -1 - self.size(ceiling)],
            lambda: [a, room + 1],
            lambda: [a, room + 1],
            lambda: [a, self.beyond(ceiling)],
            lambda: [self.beyond(ceiling), abs(b)],
            lambda: [self.beyond(ceiling), 0],
            lambda: [self.beyond(ceiling), self.beyond(ceiling)],
        ])()

    def operand(self, form, ceiling):
        kind = self.rng.randrange(20)
        if kind < 6:
            return self.narrow(form, ceiling)
        if kind < 14:
            return self.wide(form, ceiling)
        if kind < 18:
            return self.touching(form, ceiling)
        return self.ill_formed(form, ceiling)

    def amount(self, form):
        return self.operand(form, AMOUNT_CEILING)

    def factor(self, form):
        return self.operand(form, FACTOR_CEILING)

    def coefficient(self):
        return self.rng.choice([0, self.sign(), self.sign() * self.rng.randint(2, 9), self.sign() * self.rng.randint(1, 100), self.sign() * 100])

    def weight(self):
        return self.rng.choice([0, 1, 500, 999, 1000, self.rng.randint(0, 1000), self.rng.randint(0, 1000), 10 * self.rng.randint(0, 100)])

    def divisor(self):
        return self.rng.choice([
            self.rng.randint(1, 200),
            2 ** self.rng.randrange(12) * 5 ** self.rng.randrange(12),
            1 + self.size(AMOUNT_CEILING),
            1 + self.size(GREATEST - 1),
            self.rng.choice([1, AMOUNT_CEILING, AMOUNT_CEILING + 1, GREATEST]),
        ])

    # ---- operations

    def numbers(self, form, name):
        """Numbers of an operation, of every size."""
        rng = self.rng
        if name == "whole":
            return [self.beyond(AMOUNT_CEILING) if self.chance(35) else self.number(AMOUNT_CEILING)]
        if name == "exact":
            return [self.beyond(FACTOR_CEILING) if self.chance(35) else self.number(FACTOR_CEILING)]
        if name == "plus":
            return self.amount(form) + self.amount(form)
        if name == "times":
            return [self.coefficient()] + self.amount(form)
        if name == "ratio":
            q = self.divisor()
            multiple = self.sign() * q * rng.randint(0, 25)
            p = multiple if self.chance(20) and abs(multiple) <= AMOUNT_CEILING else self.number(AMOUNT_CEILING)
            return [p, q]
        if name == "mix":
            return [self.weight()] + self.factor(form) + self.factor(form)
        return self.factor(form) + self.amount(form)

    def aimed(self, form, name):
        """Numbers whose result is at the ceiling of either sign, or a little inside or past it."""
        rng, sign = self.rng, self.sign()
        little = rng.choice([-1, 0, 0, 0, 1, 1, 1, 2])
        if name == "whole":
            return [sign * (AMOUNT_CEILING + little)]
        if name == "exact":
            return [sign * (FACTOR_CEILING + little)]
        if name == "plus":
            a = self.touching(form, AMOUNT_CEILING) if self.chance(30) else self.narrow(form, AMOUNT_CEILING)
            low, high = FORMS[form].ends(a)
            target = sign * (AMOUNT_CEILING + little)
            end = target - (high if sign > 0 else low)
            if abs(end) > AMOUNT_CEILING:
                return a + self.amount(form)
            width = rng.choice([0, 0, 1, rng.randint(0, 1000)])
            if form == "centre":
                b = [end - sign * width, width]
            else:
                b = [end - width, end] if sign > 0 else [end, end + width]
            return a + b if self.chance(50) else b + a
        if name == "times":
            total = AMOUNT_CEILING + little
            c = rng.choice([c for c in range(1, 101) if total % c == 0])
            end = total // c
            width = rng.choice([0, 0, 1, 2 * self.size(end)])
            if form == "centre":
                a = [sign * (end - width // 2), width // 2]
            else:
                a = [end - width, end] if sign > 0 else [-end, width - end]
            return [self.sign() * c] + a
        if name == "ratio":
            if self.chance(40):
                q = TEN_MILLIONTHS * rng.randint(1, 190)
                p = q // TEN_MILLIONTHS * (FACTOR_CEILING + little)
            else:
                q = rng.choice([1, rng.randint(1, 1000), 1 + self.size(AMOUNT_CEILING // 20 - 1), rng.randint(10**7, 19 * 10**8)])
                p = min(20 * q + rng.choice([-2, -1, 0, 1, 2]), AMOUNT_CEILING)
            return [sign * p, q]
        if name == "mix":
            operands = []
            for _ in range(2):
                short, width = rng.choice([0, 0, 0, 0, 1, 2]), rng.choice([0, 1, 2, rng.randint(0, 1000)])
                if form == "centre":
                    operands += [sign * (FACTOR_CEILING - short - width), width]
                else:
                    low, high = FACTOR_CEILING - short - width, FACTOR_CEILING - short
                    operands += [low, high] if sign > 0 else [-high, -low]
            return [rng.choice([self.weight(), rng.randint(1, 999)])] + operands
        factor = rng.choice([
            rng.randint(TEN_MILLIONTHS, FACTOR_CEILING),
            TEN_MILLIONTHS + rng.randint(0, 1000),
            FACTOR_CEILING // rng.choice([1, 2, 4, 5, 8, 10, 16, 20]),
        ])
        exact = Fraction(AMOUNT_CEILING * TEN_MILLIONTHS, factor)
        size = min(AMOUNT_CEILING, rng.choice([floor(exact) - 1, floor(exact), floor(exact), ceil(exact), floor(exact) + 1]))
        width, factor_width = rng.choice([0, 0, 1, 2]), rng.choice([0, 0, 0, 1, 2])
        if form == "centre":
            return [self.sign() * (factor - factor_width), factor_width, self.sign() * (size - width), width]
        f = [factor - factor_width, factor] if self.chance(50) else [-factor, factor_width - factor]
        a = [size - width, size] if self.chance(50) else [-size, width - size]
        return f + a

    def edge(self, form, name):
        """The last taken and the first refused of two lines that differ by one in one number, if such are found."""
        numbers = self.numbers(form, name) if self.chance(50) else self.aimed(form, name)
        at = self.rng.randrange(len(numbers))
        ceiling = FACTOR_CEILING if name in ("exact", "mix") or name == "apply" and at < 2 else AMOUNT_CEILING

        def refused(value):
            ends = ends_of(form, name, numbers[:at] + [value] + numbers[at + 1 :])
            return None if ends is None else passes(name, ends)

        first = numbers[at]
        for other in [self.number(ceiling) for _ in range(10)] + [self.sign() * ceiling]:
            if None not in (refused(first), refused(other)) and refused(first) != refused(other):
                while abs(first - other) > 1:
                    middle = (first + other) // 2
                    if refused(middle) is None:
                        break
                    first, other = (middle, other) if refused(middle) == refused(first) else (first, middle)
                return [numbers[:at] + [value] + numbers[at + 1 :] for value in (first, other)]
        return [numbers]

    # ---- lines

    def spelled(self, number):
        """A number as digits, now and then with a plus or leading zeros."""
        if number >= 0 and self.chance(1):
            return self.rng.choice(["+", "0", "000", "+00"]) + str(number)
        return str(number)

    def line(self, form, name, numbers):
        words = [form, name] + [self.spelled(number) for number in numbers]
        self.lines.append((self.rng.choice(["  ", "\t"]) if self.chance(1) else " ").join(words))

    def out_of_range(self, form):
        """A coefficient, an amount, a divisor or a weight that the operation does not take."""
        rng = self.rng
        name = rng.choice(["times", "ratio", "ratio", "mix"])
        numbers = self.numbers(form, name)
        if name == "times":
            numbers[0] = rng.choice([101, -101, self.beyond(100)])
        elif name == "mix":
            numbers[0] = rng.choice([1001, -1, self.beyond(1000), 65536, 65536 + 500, -65536])
        elif self.chance(50):
            numbers[0] = self.beyond(AMOUNT_CEILING)
        else:
            numbers[1] = rng.choice([0, 0, -1, -self.divisor(), LEAST])
        self.line(form, name, numbers)

    def garbled(self, form):
        """A line that is no operation."""
        rng = self.rng
        name = rng.choice(list(OPERATIONS))
        words = [form, name] + [str(number) for number in self.numbers(form, name)]
        at = rng.randrange(2, len(words))
        rng.choice([
            lambda: words.pop(),
            lambda: words.append("0"),
            lambda: words.pop(0),
            lambda: words.insert(2, form),
            lambda: words.__setitem__(0, rng.choice(["end", "Ends", "center", "centred", "both", "whole"])),
            lambda: words.__setitem__(1, rng.choice(["minus", "Plus", "factor", "wholes", "0", "mixed"])),
            lambda: words.__setitem__(at, rng.choice(["x", "-", "+", "--1", "1.5", "1_0", "0x1", "1e3", "1,000"])),
            lambda: words.__setitem__(at, str(rng.choice([GREATEST + 1, LEAST - 1, 2**64, -(2**64), 10**30]))),
        ])()
        self.lines.append(" ".join(words))

    def more(self):
        form = self.rng.choice(self.forms)
        name = self.rng.choice(list(OPERATIONS))
        kind = self.rng.randrange(100)
        if kind < (20 if name == "mix" else 45):  # a mixture meets its ceiling seldom
            self.line(form, name, self.numbers(form, name))
        elif kind < 75:
            self.line(form, name, self.aimed(form, name))
        elif kind < 97:
            for numbers in self.edge(form, name):
                self.line(form, name, numbers)
        elif kind < 99:
            self.out_of_range(form)
        else:
            self.garbled(form)


def random_lines(seed, count, forms):
    maker = Maker(seed, forms)
    while len(maker.lines) < count:
        maker.more()
    for line in maker.lines[:count]:
        print(line)


def main():
    words = sys.argv[1:]
    if words == ["expected"]:
        expected()
    elif words == ["counts"]:
        counts()
    elif (
        len(words) in (3, 4)
        and words[0] == "random"
        and words[1].isdecimal()
        and words[2].isdecimal()
        and all(word in FORMS for word in words[3:])
    ):
        random_lines(int(words[1]), int(words[2]), words[3:] or list(FORMS))
    else:
        sys.exit("usage: operations.py random SEED COUNT [ends|centre] | operations.py expected | operations.py counts")


if __name__ == "__main__":
    main()
