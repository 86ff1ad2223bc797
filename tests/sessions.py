#!/usr/bin/env python3
"""Random sessions, answered by the program and by tests/model.py, and compared.

Run by hand, not by the gate, after `rt run` in crates/kachumpe:  python3 tests/sessions.py [how many] [first seed]
With KACHUMPE=FILE it runs that file in the program's place.
"""
import os
import random
import subprocess
import sys

import model

HERE = sys.path[0]
PROGRAM = os.environ.get("KACHUMPE", HERE + "/../crates/kachumpe/out/kachumpe")
MEGABYTE = 2**20
TEXTS = [b"a deed", b"another deed", b"", b" two  spaces ", "naïve".encode(), b"na\xefve", b"\xff\xfe\x00", b"\ta deed\r", b"x" * 300]
UNREADABLE = """|sign|sign|signs x|sign\tx| root|root |root\r|store  1|store |store +1|store 4294967296 3 0 3|levels 0 bits 4|levels 0 bits 4 seed +1|sIgn x|power|power  2|state |states|slot 1| slot|key 0|parts|looks|look\t| look x|Look|loo"""
UNREADABLE = [line.encode() for line in UNREADABLE.split("|")] + [b"\xff", b"root\xff", b"store \xb2", b"\xefoot", b"\x00"]


def program(data):
    """What the program prints for this input, and its status."""
    ran = subprocess.run([PROGRAM], input=data, stdout=subprocess.PIPE)
    return ran.stdout.decode(), ran.returncode


def store(r):
    if r.random() < 0.2:
        return cut_store(r)
    numbers = []
    for _ in (0, 1):
        count = r.choice([0, 0, 0, 1, 1, 2, 3, 7, 8, 9, 15, 16, 17, 4294967295])
        numbers += [count, model.check(count) if r.random() < 0.8 else r.choice([3, 10, 17])]
    if r.random() < 0.1:
        numbers = numbers[: r.randrange(4)] if r.random() < 0.5 else numbers + [3]
    return "store" + "".join(" %d" % n for n in numbers)


def cut_store(r):
    """A store as power that fails between the two writes leaves it: beside the slot that counts, one with the count after it and most often another's check."""
    count = r.choice([0, 1, 1, 2, 3, 7, 8, 15])
    slots = [(count, model.check(count)), (count + 1, model.check(max(count + r.choice([-1, -1, -1, 0, 1]), 0)))]
    return "store" + "".join(" %d %d" % slot for slot in r.sample(slots, 2))


def power(r):
    return "power " + r.choice("0 0 1 1 1 2 2 3 01 18446744073709551615 18446744073709551616 -1 x".split() + ["", "1 ", " 1"])


def cut(r, session):
    """A request while power fails, which may be refused, and what is left; then one more, or none. Lines between that use no power up."""
    settings, others = "levels 4 bits 4 seed 17", [b"sign", "sIgn x", "look", "state", r.choice(UNREADABLE)]
    lines = ["power %d" % r.choice([0, 1, 1, 1])] + r.choice([[], [settings], [settings], ["levels 21 bits 4 seed 17"]])
    lines += r.choice([[], r.sample(others, 2), look(r, session)]) + [b"sign " + r.choice(TEXTS), "state", "slot"]
    return lines + [settings] * r.randrange(2) + [b"sign " + r.choice(TEXTS), "state"][: r.randrange(3)]


# What is asked with more levels than these is refused, or costs nothing since there are no bits.
def levels(r):
    tree = r.choice([0, 0, 1, 1, 2, 3, 3, 4, 4, 21, 64, 2**60, 2**64 - 1])
    bits = r.choice("1 4 4 4 4 5 255 256 257 300 0 007".split())
    if r.random() < 0.05:
        tree, bits = 20, "0"
    seed = r.choice(["0", "17", "17", "0017", "%d" % (2**64), "%d" % r.randrange(2**256), "%d" % (2**256 - 1), "%d" % (2**256 - r.randrange(2))])
    return "levels %d bits %s seed %s" % (tree, bits, seed)


def spoil(r, lines):
    """One change to a signature of four lines."""
    lines, k = list(lines), r.randrange(4)
    words = lines[k].split(" ")
    how = r.randrange(9)
    if how < 3 and k > 0 and len(words) > 1:
        j = r.randrange(1, len(words))
        words[j] = "%064x" % (int(words[j], 16) ^ 1 << r.randrange(256))
    elif how == 3 and k > 0:
        words = words[:-1] if len(words) > 1 else words + ["%064x" % r.randrange(2**256)]
    elif how == 4:
        words += ["%064x" % r.randrange(2**256)] if k else [""]
    elif how <= 5 and k == 0:
        words[1] = r.choice(["0", "1", "2", "3", "8", "16", "00", "18446744073709551615", "18446744073709551616", "x", "+0"])
    elif how == 5 and k > 0:
        words = words[:1] + words[:0:-1]
    elif how == 6 and k > 0:
        words = words[:1] + raised(r, words[1:])
    elif how == 7:
        words[0] = r.choice([" %s", "%s ", "%s\t", "%s\r"]) % words[0]
    else:
        words[0] = r.choice(["Parts", "key", "path", "others", ""])
    lines[k] = " ".join(words)
    return lines


def raised(r, numbers):
    """The letters among the digits in upper case: all, or of one number alone."""
    one = r.randrange(len(numbers)) if numbers and r.random() < 0.5 else None
    return [number if one not in (None, j) else number.upper() for j, number in enumerate(numbers)]


class Typed:
    """The lines of a session so far, and what they leave by the model."""

    def __init__(self):
        self.lines, self.after = [], model.Lines()

    def say(self, lines):
        for line in lines:
            line = line if isinstance(line, bytes) else line.encode()
            self.lines.append(line)
            self.after.line(line)


def session(r):
    """The bytes of one session. Whatever it looks at is a signature by the model, for the settings at that place, or a spoiled one."""
    typed = Typed()
    if r.random() < 0.95:
        typed.say([store(r), levels(r)])
    for _ in range(r.randrange(3, 9)):
        typed.say(some(r, typed.after.session))
    if r.random() < 0.01:
        typed.say(megabyte(r, typed.after.session))
    if r.random() < 0.2:
        # The input ends in a look, which is cut behind any of its lines, or in one.
        lines = (look if r.random() < 0.6 else unreadable_look)(r, typed.after.session)[: r.randrange(1, 6)]
        typed.say(lines)
        if r.random() < 0.3:
            return b"\n".join(typed.lines)[: -r.randrange(1, 80)]
    return b"\n".join(typed.lines) + r.choice([b"", b"\n"])


def some(r, session):
    """One line, or a few that belong together."""
    kind = r.choice("store levels root line line power state slot cut cut sign sign sign look look look look look unreadable_look".split())
    if kind in ("root", "state", "slot"):
        return [kind]
    if kind == "cut":
        return cut(r, session)
    if kind == "line":
        return [r.choice(UNREADABLE)]
    if kind == "sign":
        return [b"sign " + r.choice(TEXTS)]
    if kind == "look":
        return look(r, session)
    if kind == "unreadable_look":
        return unreadable_look(r, session)
    return [{"store": store, "levels": levels, "power": power}[kind](r)]


def look(r, session):
    text = r.choice(TEXTS)
    root, signature = right(r, session, text)
    if r.random() < 0.6:
        signature = spoil(r, signature)
    if r.random() < 0.1:
        text = r.choice(TEXTS)
    if r.random() < 0.05:
        signature = signature[: r.randrange(4)]
    if r.random() < 0.05:
        at = r.randrange(5)
        signature = signature[:at] + anything(r, signature, root)[at:]
    return [b"look %064x " % root + text] + signature


def unreadable_look(r, session):
    """A look whose own line cannot be read, and then the signature, or anything."""
    text = r.choice(TEXTS)
    root, signature = right(r, session, text)
    word = b"%064x" % root
    line = r.choice([b"", b" ", b"look", b"x", word, word[1:] + b" ", word + b"0 ", b" " + word + b" ", word + b"\t", b"+" + word[1:] + b" ", b"\xff" + word[1:] + b" "])
    if r.random() < 0.3:
        line = raised(r, ["%064x" % (root | 10)])[0].encode() + b" "
    return [r.choice([b"look", b"look " + line, b"look " + line + text])] + (signature if r.random() < 0.3 else anything(r, signature, root))


def anything(r, signature, root):
    """Four lines of any sort."""
    lines = [store(r), levels(r), power(r), "root", "state", "slot", b"sign " + r.choice(TEXTS), "look %064x x" % root, "look", r.choice(UNREADABLE)]
    return [r.choice(lines + signature) for _ in range(4)]


def right(r, session, text):
    """A root and a signature of this text that is accepted, with what the session asks with; now and then just any."""
    levels, bits = session.levels, model.text_bits(text, session.bits)
    if levels <= 4 and 1 <= session.bits <= 256:
        signature = model.signature(session.seed, levels, r.randrange(2**levels), bits)
        return model.root(session.seed, len(bits), levels), model.signature_lines(*signature)
    return any_levels(r, levels, bits) if r.random() < 0.5 else (1, ["key 0", "parts", "others", "path"])


def any_levels(r, levels, bits):
    """A signature along a path of random numbers, and the root that it leads to, whatever is asked with."""
    key, parts, others, _ = model.signature(17, 0, r.randrange(2 ** min(levels, 64)), bits)
    path = [r.randrange(2**256) for _ in range(levels if levels < 100 else r.randrange(3))]
    root = model.walk(key, model.leaf(17, len(bits), key), path)
    return root, model.signature_lines(key, parts, others, path)


def megabyte(r, session):
    """A line of a megabyte, and a few behind it: a text, no command, digits, numbers; in a look, too."""
    text = r.randbytes(MEGABYTE).replace(b"\n", b" ")
    root, signature = right(r, session, text)
    look = [b"look %064x " % root + text] + signature
    long = ["x" * MEGABYTE, "levels 1 bits 1 seed " + "0" * MEGABYTE + "17", "power " + "1" * MEGABYTE, "store" + " 7" * (MEGABYTE // 2)]
    row = r.choice(["parts", "others", "path"]) + (" %064x" % root) * (MEGABYTE // 65)
    return r.choice([[b"sign " + text], [text], look, look[:1] + [row] * 4, look[:2] + [row] * 3, look[:1] + long, [b"look" + text] + long, *([line] for line in long)]) + ["state"]


def compared(seed, data):
    """The lines that the program prints, which are the model's. It ends with status 0."""
    (ours, status), theirs = program(data), "".join(answer + "\n" for answer in model.answers(data))
    if ours != theirs or status != 0:
        sys.exit("session %d differs:\n%s\nprogram, status %d:\n%s\nmodel:\n%s" % (seed, shown(data.decode(errors="backslashreplace")), status, shown(ours), shown(theirs)))
    return ours.split("\n")


def shown(text):
    """The lines, and of long ones the beginning."""
    return "\n".join(line if len(line) < 1000 else line[:1000] + " .." for line in text.split("\n"))


def how_many(default):
    """How many sessions, and the first seed."""
    return [int(x) for x in sys.argv[1:3] + [default, "0"][len(sys.argv) - 1 :]]


def main():
    count, first = how_many("500")
    seen = {}
    for seed in range(first, first + count):
        for line in compared(seed, session(random.Random(seed))):
            kind = sort(line)
            seen[kind] = seen.get(kind, 0) + 1
    print("%d sessions agree; answers: %s" % (count, ", ".join("%s %d" % kv for kv in sorted(seen.items()) if kv[0])))


def sort(line):
    """Which sort of line this is: its first word, or that of a refusal."""
    word = line.split(" ")[0]
    if len(word) == 64:
        return "a root"
    return "refusal " + word if word[:1].isdigit() else word


if __name__ == "__main__":
    main()
