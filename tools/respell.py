#!/usr/bin/env python3
"""Respells this repository's own specification names as the toolchain's style has them: definitions, fields, constructors
and lemmas in snake case, types in upper camel case. Names of the source, which a proof cites, and names that the toolchain
makes for goals keep their spelling. Run at the top of the repository, after the toolchain's own porting script; a second
run changes nothing. It prints each name that it changes, and stops where two names would fall together."""

import os
import re
import sys

# characters that end a name
END = r"\s(){}\[\],;.:\"`⌜⌝«»"
NAME = re.compile(r"[^%s]+" % END)
MADE = re.compile(r"\bgoal\.([^%s]+)" % END)
TOP = re.compile(r"^(?:(?:abbrev|unfoldable|pub|opaque)\s+)*(data|record)?\s*(?:pub\s+)?([^%s]+)(?=\s*:\s|\s+[({])" % END)
PART = re.compile(r"^\s+(?:pub\s+)?([^%s]+)\s*:\s" % END)

# names that the rule would give to two things, or that stood for a word of the library that has another name now
SAID = {
    "endsOf": "ends_of_centre",
    "ten-millionths": "in_ten_millionths",
    "natAbs-*": "unsigned_abs-*",
    "natAbs-neg": "unsigned_abs_neg",
    "negℤ-*ℤ": "neg_ℤ-*ℤ",
    "*ℤ-negℤ": "*ℤ-neg_ℤ",
}

# names that the library has too, spelled so
KEPT = {"drop-set-lt"}
# new names that also stand for a function or a test of another crate or module, which no file names beside them
APART = {"centre_ratio", "ends_ratio", "factor_ceiling", "negative_exposure", "rounded_down", "rounded_up"}


def texts(endings):
    for folder, dirs, files in os.walk("crates"):
        dirs[:] = sorted(d for d in dirs if d not in ("out", "target"))
        for f in sorted(files):
            if f.endswith(endings):
                yield os.path.join(folder, f)


def reads(path):
    with open(path, encoding="utf-8") as f:
        return f.read()


def is_plain(part):
    return re.fullmatch(r"[A-Za-z0-9_'₀-₉]+", part) is not None


def snake(part):
    return re.sub(r"(?<=[a-z0-9])([A-Z])", lambda m: "_" + m.group(1).lower(), part)


def respelled(name, is_type):
    if name in KEPT:
        return name
    if name in SAID:
        return SAID[name]
    parts = name.split("-")
    if "" in parts:
        return name
    if is_type or (name[0].isupper() and all(is_plain(p) for p in parts)):
        return "".join(p[0].upper() + p[1:] for p in parts)
    if not any(is_plain(p) for p in parts):
        return name
    out = snake(parts[0]) if is_plain(parts[0]) else parts[0]
    for before, p in zip(parts, parts[1:]):
        # a dash joins two names of the library; a plain word is added with a low line
        dash = "-" if not is_plain(p) or p == "≡" else "_"
        out += dash + (snake(p) if is_plain(p) else p)
    return out


def own_names():
    """Each name that the specifications and proofs define, and whether it is a type's."""
    found, made = {}, set()
    for path in texts((".antt",)):
        made.update(MADE.findall(reads(path)))
    for path in texts((".antt",)):
        inside = False
        for line in reads(path).split("\n"):
            if line.startswith(("--", "use ", "mod ", "pub mod ")):
                continue
            top = TOP.match(line)
            if top:
                inside = top.group(1) is not None
                if top.group(2) not in made:
                    found[top.group(2)] = top.group(1) is not None
            elif inside and PART.match(line):
                found.setdefault(PART.match(line).group(1), False)
            elif line and not line.startswith(" "):
                inside = False
    return found


def main():
    turned = {}
    for name, is_type in own_names().items():
        new = respelled(name, is_type)
        if new != name:
            turned[name] = new
    every = set()
    for path in texts((".antt", ".rt")):
        every.update(NAME.findall(reads(path)))
    clashes = [f"{a} -> {b}" for a, b in sorted(turned.items()) if b in every - APART]
    for b in set(turned.values()):
        olds = [a for a in turned if turned[a] == b]
        if len(olds) > 1:
            clashes.append(f"{', '.join(olds)} -> {b}")
    if clashes:
        sys.exit("names that would fall together:\n" + "\n".join(clashes))

    def turn(text):
        return NAME.sub(lambda m: turned.get(m.group(0), m.group(0)), text)

    for path in texts((".antt", ".rt", ".edit")):
        old = reads(path)
        new = "\n".join(respell_line(l, turn, path) for l in old.split("\n"))
        if new != old:
            with open(path, "w", encoding="utf-8") as f:
                f.write(new)
    for a, b in sorted(turned.items()):
        print(f"{a} {b}")


def respell_line(line, turn, path):
    """Comments stay, and so do texts in quotes that end on their line."""
    mark = "--" if path.endswith(".antt") else "//"
    at = line.find(mark)
    if path.endswith(".antt") and at > 0 and line[at - 1] not in " ":
        at = -1
    code, rest = (line, "") if at < 0 else (line[:at], line[at:])
    if path.endswith(".rt"):
        pieces = re.split(r'("(?:[^"\\]|\\.)*")', code)
        return "".join(p if p.startswith('"') else turn(p) for p in pieces) + rest
    return turn(code) + rest


main()
