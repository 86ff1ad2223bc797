#!/usr/bin/env python3
"""Brings this repository's own definitions and lemmas to the spelling of today's Rattle.

usage: python3 tools/spell_names.py        at the top of the repository, once, after /opt/rattle/port/port.py

Types are in camel case, all other names in snake case; a dash stays only where it joins the names of two functions.
Names of src/ stay, and so do comments, strings, inputs and outputs. In README.md and docs/ only what stands between backticks is turned.
Stops, with nothing changed, where two names would fall together.
"""
import glob
import os
import re
import sys

# What does not follow from the rule, or falls together with another name if it does.
BY_HAND = {
    "key-given": "KeyGiven",
    "given-number": "GivenNumber",
    "in_left": "In_left",
    "in_right": "In_right",
    "in_map": "In-map",
    "in-append": "In-append",
    "in-getD": "In-get_or",
    "in-or-not": "In_or_not",
    "in-each": "In-each",
}
# A lemma that would have the name of a function of src/.
BY_HAND.update({n: n.replace("-", "_") + "_lem" for n in ("own-accepted", "own-or-located", "keys-rise", "one-row", "never-twice", "must-know", "must-know-located")})
# A dash joins the names of two functions.
KEPT = {"length-each", "length-hex", "length-path", "length-spaced", "length-bytes"}
NAME = r"[A-Za-z_][A-Za-z0-9_'-]*"
DEFINED = re.compile(r"^(?:(?:abbrev|unfoldable) )?(?:pub )?(?:(?:data|record) )?(" + NAME + r")(?: \(.*\))*(?: \{.*\})* :", re.M)
CONSTRUCTOR = re.compile(r"^  (?:\| )?(own-\w+) :", re.M)
TOKEN = re.compile(r"(?<![A-Za-z0-9_'\-·])" + NAME)


def spelled(name):
    if name in BY_HAND:
        return BY_HAND[name]
    if name in KEPT or "-" not in name:
        return name
    if name[0].isupper():
        return "".join(w[0].upper() + w[1:] for w in name.split("-"))
    return name.replace("-", "_")


def names_of(files):
    found = set()
    for path in files:
        text = open(path, encoding="utf-8").read()
        found |= set(DEFINED.findall(text)) | set(CONSTRUCTOR.findall(text))
    return found


def turn(line, mark, table):
    at = line.find(mark)
    code, rest = (line, "") if at < 0 else (line[:at], line[at:])
    return TOKEN.sub(lambda m: table.get(m.group(0), m.group(0)), code) + rest


def main():
    own = sorted(glob.glob("crates/*/specs/*.antt") + glob.glob("crates/*/proofs/*.antt"))
    old = names_of(own)
    table = {n: spelled(n) for n in old if spelled(n) != n}
    together = [n for n in table if table[n] in old]
    news = list(table.values())
    together += [n for n in table if news.count(table[n]) > 1]
    if together:
        sys.exit("fall together: " + ", ".join(sorted(set(together))))
    proofs = glob.glob("crates/*/specs/**/*.antt", recursive=True) + glob.glob("crates/*/proofs/**/*.antt", recursive=True)
    for path in sorted(set(proofs)) + sorted(glob.glob("crates/*/src/**/*.rt", recursive=True)):
        mark = "-- " if path.endswith(".antt") else "//"
        lines = open(path, encoding="utf-8").read().split("\n")
        text = "\n".join(turn(l, mark, table) for l in lines)
        open(path, "w", encoding="utf-8").write(text)
    for path in ["README.md"] + sorted(glob.glob("docs/*.md")):
        if os.path.basename(path) == "PORT.md":
            continue
        text = open(path, encoding="utf-8").read()
        text = re.sub(r"`[^`\n]+`", lambda m: TOKEN.sub(lambda t: table.get(t.group(0), t.group(0)), m.group(0)), text)
        open(path, "w", encoding="utf-8").write(text)
    for n in sorted(table):
        print(n, table[n])


main()
