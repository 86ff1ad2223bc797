#!/usr/bin/env python3
"""Writes the lines of the program's run in the gate, and what the program must answer; and the worked day in README.md, which is the first of them.

Run by hand, not by the gate, where an example is added:  python3 tests/examples.py
It writes crates/kachumpe/stdin, and crates/kachumpe/stdout by tests/model.py. Of each example it says which answer it gets, and fails where the model gives another; the numbers in roots and signatures are the model's own, but for three roots that came from outside.
"""
import re
import sys

import model

HERE = sys.path[0]
DEED = "a deed"

# Roots that neither the program nor the model worked out: the levels, the bits, and the root for the seed 17.
FROM_OUTSIDE = (
    (2, 4, "7a319a2763eee74cd64ddbf1d5c76eaf8d116f981e3c0fa553ab2b2bb73078eb"),
    (3, 256, "16f89e3a0b8fa931d9300fc07988a75d01b0f33704cd8864a09e061994877978"),
    (10, 256, "0706261f1f47eda949d420f74f6393c03db54d09ebba3eadc3c55b64ce3fc852"),
)


def raw(text):
    """The bytes of a line or a text, which are UTF-8 where they are told as letters."""
    return text if isinstance(text, bytes) else text.encode()


class Run:
    """The lines so far, and the answers that they get."""

    def __init__(self):
        self.lines, self.expected = [], []

    def say(self, *lines):
        """Lines that are answered with nothing."""
        self.lines += map(raw, lines)

    def ask(self, line, answer):
        self.say(line)
        self.expected.append(answer)

    def sign(self, text, answer):
        self.ask(b"sign " + raw(text), answer)

    def look(self, root, text, lines, answer):
        self.ask(look_line(root, text), answer)
        self.say(*lines)

    def holds(self, numbers, slot):
        """The store has these numbers, and of its slots this one counts."""
        self.ask("state", "store" + numbers)
        self.ask("slot", "slot" + slot)

    def refuse(self, *lines):
        """Lines that cannot be read, and that take no others with them."""
        for line in lines:
            self.ask(line, "5 %d" % len(self.lines))

    def refuse_look(self, lines, place):
        """A `look` and the four lines behind it. The first that cannot be read is at this place among the five."""
        self.ask(lines[0], "5 %d" % (len(self.lines) + place))
        self.say(*lines[1:])


def look_line(root, text):
    return b"look %064x " % root + raw(text)


class Tree:
    """A signer's tree, and its signatures of one text."""

    def __init__(self, levels, bits, seed=17):
        self.levels, self.bits, self.seed = levels, bits, seed
        self.line = "levels %d bits %d seed %d" % (levels, bits, seed)
        self.root = model.root(seed, bits, levels)

    def signature(self, key, text=DEED):
        return model.signature(self.seed, self.levels, key, model.text_bits(raw(text), self.bits))

    def lines(self, key, text=DEED):
        return model.signature_lines(*self.signature(key, text))

    def printed_root(self):
        return "%064x" % self.root


# A tree of eight keys, and the signature by each.
EIGHT = Tree(3, 1)
GIVEN = ["\n".join(EIGHT.lines(key)) for key in range(8)]


def store(key):
    """A store whose next key is this one."""
    return "store %d %d 0 4" % (key, model.check(key))


def other(number):
    """A number that differs from this one in its last bit alone."""
    return number ^ 1


def spoiled(levels, key, parts, others, path):
    """Signatures that differ in one thing from a right one, and none of which is accepted."""
    yield key ^ 1, parts, others, path
    yield key + 2**levels, parts, others, path
    yield 2**levels, parts, others, path
    yield 2**64 - 1, parts, others, path
    for place, row in enumerate((parts, others, path)):
        for changed in [row[:j] + [other(row[j])] + row[j + 1 :] for j in range(len(row))] + [row[:-1]] * (len(row) > 0) + [row + [other(0)], row + row[-1:]]:
            if changed != row:
                rows = [parts, others, path]
                rows[place] = changed
                yield (key, *rows)
    yield key, others, parts, path
    if path[::-1] != path:
        yield key, parts, others, path[::-1]


def office_day():
    """A day of an office, line by line: what is typed, what is printed, if anything is, and what it means."""
    tree = Tree(3, 4)
    mill, field = "Deed 1: the mill goes to Anna", "Deed 2: the field goes to Bert"
    first, second = tree.lines(0, mill), tree.lines(1, field)
    ask = "look %s " % tree.printed_root()
    return (
        (["sign " + mill], "2 0", "Refused, by the refusal's number and its place: no store was given yet, so it has no numbers."),
        (["store 0 3 0 3"], None, "A new store: both slots have the count 0 and its check 3."),
        (["root"], "4 0", "Refused, too: nothing was said of levels and bits yet, so there are no bits."),
        ([tree.line], None, "The office's tree: three levels, so eight one-time keys, each for four bits, all from the seed 17."),
        (["root"], tree.printed_root(), "The root, which everybody gets."),
        (["sign " + mill], "\n".join(first), "Key 0 is reserved in the store, and signs the first four bits of the text's hash. For each bit `parts` has the secret number, and `others` what is shown of the other one; `path` is the authentication path."),
        (["state"], "store 1 10 0 3", "The first slot has the count 1 and its check, so key 1 is next."),
        (["power 1"], None, "At the next `sign` line power lasts for one write."),
        (["sign " + field], "cut", "It failed between the count and its check, and no signature was given."),
        (["state"], "store 1 10 2 3", "The second slot has the count 2, and not its check."),
        (["slot"], "slot 1 10", "So the first slot counts: key 1 is next, as before."),
        (["sign " + field], "\n".join(second), "Power lasts, and key 1 signs."),
        (["state"], "store 1 10 2 17", "Both slots are right. The higher count is that of the next key, 2."),
        ([ask + mill] + first, "accepted", "Who has the root looks at the first deed, with the four lines of key 0."),
        ([ask + field] + second, "accepted", "The second, with those of key 1."),
        ([ask + field + " and Carl"] + second, "no", "The same four lines do not sign another text."),
    )


def day(run):
    """The day that README.md tells."""
    for lines, answer, _ in office_day():
        run.say(*lines)
        run.expected += [] if answer is None else [answer]


def shortened(text):
    """Numbers in sixteens by their first four digits, and each line as it stands in a table."""
    short = re.sub(r"([0-9a-f]{4})[0-9a-f]{60}", r"\1..", text)
    return "<br>".join("`%s`" % line for line in short.split("\n"))


def day_table():
    """The day as README.md has it."""
    rows = ["| line | printed | what it means |", "|---|---|---|"]
    for lines, answer, meaning in office_day():
        typed = shortened(lines[0]) + " and the four lines" * (len(lines) > 1)
        rows.append("| %s | %s | %s |" % (typed, shortened(answer) if answer else "", meaning))
    return "\n".join(rows)


def one_key(run):
    """One key for four bits, and the refusals."""
    tree = Tree(0, 4)
    key, parts, others, path = tree.signature(0)
    right = tree.lines(0)
    run.say("store 0 3 0 3", tree.line)
    run.ask("root", tree.printed_root())
    run.sign(DEED, "\n".join(right))
    run.sign("a second deed", "all given")
    run.look(tree.root, DEED, right, "accepted")
    for numbers in ((key, parts[:1] + parts[2:3] + parts[2:], others, path), (key, parts, parts[:1] + others[1:], path), (key, parts, others, parts[:1])):
        run.look(tree.root, DEED, model.signature_lines(*numbers), "no")
    run.look(tree.root, "another deed", right, "no")
    for root in (parts[0], *[tree.root ^ 1 << bit for bit in (0, 127, 128, 255)]):
        run.look(root, DEED, right, "no")
    for line in ("levels 1 bits 4 seed 17", "levels 0 bits 5 seed 17"):
        run.say(line)
        run.look(tree.root, DEED, right, "no")
    run.say("levels 21 bits 0 seed 17")
    run.sign(DEED, "1 21")
    run.ask("root", "1 21")
    run.say("levels 0 bits 0 seed 17")
    run.ask("root", "4 0")
    for numbers, answer in (("", "2 0"), (" 0 3 0", "2 3"), (" 0 4 0 4", "2 0"), (" 2 17 2 17", "3 2"), (" 1 10 0 3", "4 0")):
        run.say("store" + numbers)
        run.sign(DEED, answer)
    run.say("levels 0 bits 257 seed 17")
    run.ask("root", "4 257")
    run.sign(DEED, "4 257")
    whole = Tree(0, 256, 5)
    run.say(whole.line, "store 0 3 0 4")
    run.sign("", "\n".join(whole.lines(0, "")))
    run.sign("", "all given")


def trees(run):
    """Each of some levels with each of some bits: the root, a signature, and looking at it."""
    for levels, key in ((0, 0), (1, 1), (3, 5)):
        for bits in (1, 4, 255, 256):
            tree = Tree(levels, bits)
            run.say(store(key), tree.line)
            run.ask("root", tree.printed_root())
            run.sign(DEED, "\n".join(tree.lines(key)))
            run.look(tree.root, DEED, tree.lines(key), "accepted")
        four = Tree(levels, 4)
        run.say(four.line)
        for numbers in spoiled(levels, *four.signature(key)):
            run.look(four.root, DEED, model.signature_lines(*numbers), "no")


def from_outside(run):
    """The roots that came from outside."""
    for levels, bits, root in FROM_OUTSIDE:
        run.say("levels %d bits %d seed 17" % (levels, bits))
        run.ask("root", root)


def texts(run):
    """Texts whose rows end in the middle of a block of the hash or at its end, of one block or many; and of whatever bytes but a newline."""
    tree = Tree(4, 16)
    run.say("store 0 3 0 3", tree.line)
    for key, text in enumerate(("", "a", "ab", "abc", "abcd", "naïve", " two  spaces ", "x" * 1000, "\ta deed\r", b"na\xefve\x00\xff")):
        run.sign(text, "\n".join(tree.lines(key, text)))
        run.look(tree.root, text, tree.lines(key, text), "accepted")
        run.look(tree.root, raw(text) + b" ", tree.lines(key, text), "no")


def all_keys(run):
    """A tree is used up: each key signs one text. The bit of some is set, and that of others is not."""
    tree = Tree(3, 1)
    run.say("store 0 3 0 3", tree.line)
    for key in range(8):
        run.sign("deed %d" % key, "\n".join(tree.lines(key, "deed %d" % key)))
    run.sign("deed 8", "all given")
    for key in range(8):
        run.look(tree.root, "deed %d" % key, tree.lines(key, "deed %d" % key), "accepted")


def limits(run):
    """The most levels, and what is refused first."""
    run.say(store(8), "levels 3 bits 0 seed 17")
    run.sign(DEED, "4 0")
    run.say(store(9))
    run.sign(DEED, "3 9")
    run.say("levels 18446744073709551615 bits 0 seed 17")
    run.ask("root", "1 18446744073709551615")
    run.sign(DEED, "1 18446744073709551615")
    run.say("levels 20 bits 0 seed 17")
    run.ask("root", "4 0")
    run.sign(DEED, "4 0")
    tree = Tree(20, 1)
    key = 699050
    run.say(store(key), tree.line)
    run.ask("root", tree.printed_root())
    run.sign(DEED, "\n".join(tree.lines(key)))
    run.look(tree.root, DEED, tree.lines(key), "accepted")
    run.say(store(2**20))
    run.sign(DEED, "all given")


def seeds(run):
    """Seeds are decimals below 2^256."""
    for seed in (2**64, 2**256 - 1):
        tree = Tree(0, 1, seed)
        run.say(tree.line)
        run.ask("root", tree.printed_root())
    for spelled in ("%d" % 2**256, "1" + "0" * 78, "", "-1"):
        run.refuse("levels 0 bits 1 seed " + spelled)
    run.ask("root", tree.printed_root())
    run.say("levels 00000000000000000000000 bits 0000000000000000000001 seed %0200d" % 17)
    run.ask("root", Tree(0, 1).printed_root())


def whatever_levels_and_bits(run):
    """Looking is never turned away."""
    bits = model.text_bits(DEED.encode(), 1)
    key, parts, others, _ = model.signature(17, 0, 0, bits)
    leaf = model.leaf(17, 1, 0)
    for levels, key in ((63, 2**63 - 1), (64, 2**64 - 1), (66, 2**63 + 5)):
        path = [model.row_hash([level]) for level in range(levels)]
        root = model.walk(key, leaf, path)
        run.say("levels %d bits 1 seed 17" % levels)
        run.look(root, DEED, model.signature_lines(key, parts, others, path), "accepted")
        run.look(root, DEED, model.signature_lines(key, parts, others, path[::-1]), "no")
        run.look(root, DEED, model.signature_lines(key ^ 1, parts, others, path), "no")
    run.say("levels 63 bits 1 seed 17")
    run.look(root, DEED, model.signature_lines(2**63, parts, others, path[:63]), "no")
    for levels in (2**60, 2**64 - 1):
        run.say("levels %d bits 1 seed 17" % levels)
        run.look(root, DEED, model.signature_lines(key, parts, others, path), "no")
    run.say("levels 0 bits 0 seed 17")
    run.look(model.row_hash([2]), DEED, ["key 0", "parts", "others", "path"], "accepted")
    run.look(model.row_hash([2]), DEED, model.signature_lines(0, parts, others, []), "no")
    tree = Tree(0, 256)
    for asked in (300, 2**64 - 1):
        run.say("levels 0 bits %d seed 17" % asked)
        run.look(tree.root, DEED, tree.lines(0), "accepted")


def looked_at_where_asked(run):
    """Levels and bits are told, whatever they are, and looked at only where something is asked with them."""
    run.say("store 5 38 6 45", "levels 18446744073709551615 bits 18446744073709551615 seed %d" % (2**256 - 1))
    run.holds(" 5 38 6 45", " 6 45")
    run.refuse("sign")
    run.say("power 0", "levels 21 bits 0 seed 0", EIGHT.line)
    run.ask("root", EIGHT.printed_root())
    run.sign(DEED, "cut")


def power_fails(run):
    """What a request leaves of the store: where power lasts, and where it fails before one of the writes."""
    run.say("store 0 3 0 3", EIGHT.line)
    run.holds(" 0 3 0 3", " 0 3")
    run.sign(DEED, GIVEN[0])
    run.holds(" 1 10 0 3", " 1 10")
    run.say("store 1 10 0 3")
    run.sign(DEED, GIVEN[1])
    run.holds(" 1 10 2 17", " 2 17")
    run.say("store 4 31 5 38", "power 0")
    run.holds(" 4 31 5 38", " 5 38")
    run.sign(DEED, "cut")
    run.holds(" 4 31 5 38", " 5 38")
    for _ in (0, 1):
        run.say("power 1")
        run.sign(DEED, "cut")
        run.holds(" 6 31 5 38", " 5 38")
    run.sign(DEED, GIVEN[5])
    run.holds(" 6 45 5 38", " 6 45")
    run.say("power 1")
    run.sign(DEED, "cut")
    run.holds(" 6 45 7 38", " 6 45")
    run.say("power 2")
    run.sign(DEED, GIVEN[6])
    run.holds(" 6 45 7 52", " 7 52")


def count_alone(run):
    """The check for the count is there before it, so that the slot is right with the count alone. The key that was reserved is given to nobody."""
    run.say("store 1 17 1 10", EIGHT.line, "power 1")
    run.holds(" 1 17 1 10", " 1 10")
    run.sign(DEED, "cut")
    run.holds(" 2 17 1 10", " 2 17")
    run.sign(DEED, GIVEN[2])
    run.holds(" 2 17 3 24", " 3 24")


def nothing_written(run):
    """What is refused, and what is asked where all keys were given, writes nothing, whatever the power."""
    for levels, bits, numbers, slot, answer in (
        (2, 1, " 4 31 4 31", " 4 31", "all given"),
        (2, 1, " 5 31 4 31", " 4 31", "all given"),
        (21, 1, " 0 3 0 3", " 0 3", "1 21"),
        (3, 1, "", "", "2 0"),
        (3, 1, " 6 31 5", "", "2 3"),
        (3, 1, " 6 45 5 38 0", "", "2 5"),
        (3, 1, " 6 31 5 39", "", "2 0"),
        (2, 1, " 6 31 5 38", " 5 38", "3 5"),
        (3, 1, " 4294967295 31 4 31", " 4294967295 31", "3 4294967295"),
        (3, 0, " 6 31 5 38", " 5 38", "4 0"),
        (3, 257, " 8 59 0 3", " 8 59", "4 257"),
    ):
        run.say("store" + numbers, "levels %d bits %d seed 17" % (levels, bits))
        run.holds(numbers, slot)
        for power in ([], ["power 0"], ["power 1"]):
            run.say(*power)
            run.sign(DEED, answer)
            run.holds(numbers, slot)


def power_for_one_request(run):
    """Power fails in one request alone, whatever that is answered."""
    run.say("store 0 3 0 3", EIGHT.line, "power 0")
    run.sign(DEED, "cut")
    run.sign(DEED, GIVEN[0])
    for levels, bits, numbers, answer in (
        (21, 1, " 0 3 0 3", "1 21"),
        (3, 1, " 0 3 0", "2 3"),
        (3, 1, " 9 66 0 3", "3 9"),
        (3, 0, " 0 3 0 3", "4 0"),
        (3, 1, " 8 59 0 3", "all given"),
    ):
        run.say("store" + numbers, "levels %d bits %d seed 17" % (levels, bits), "power 0")
        run.sign(DEED, answer)
        run.say("store 0 3 0 3", EIGHT.line)
        run.sign(DEED, GIVEN[0])
    run.say("power 2")
    run.sign(DEED, GIVEN[1])
    run.sign(DEED, GIVEN[2])


def power_until_a_request(run):
    """No other line uses power up, and of several lines of power the last holds."""
    run.say("power 0", "store 3 24 2 17", EIGHT.line)
    run.ask("root", EIGHT.printed_root())
    run.holds(" 3 24 2 17", " 3 24")
    run.look(EIGHT.root, DEED, EIGHT.lines(5), "accepted")
    run.refuse("sign", " sign " + DEED, "", "power", "power x")
    run.refuse_look(["look"] + ["sign " + DEED] * 4, 0)
    run.refuse_look([look_line(EIGHT.root, DEED)] + ["sign " + DEED] * 4, 1)
    run.sign(DEED, "cut")
    run.sign(DEED, GIVEN[3])
    for powers, answer in (
        (("power 0", "power 2"), GIVEN[4]),
        (("power 2", "power 0"), "cut"),
        (("power 0", "power 1", "power 18446744073709551615"), GIVEN[5]),
        (("power 0", "power 000000000000000000000000000000000000002"), GIVEN[6]),
        (("power 2", "power 00"), "cut"),
        (("power 0", "power 4294967296"), GIVEN[7]),
    ):
        run.say(*powers)
        run.sign(DEED, answer)
    run.holds(" 7 52 8 59", " 8 59")


def misspelled(line):
    """Lines that differ from this one in one thing."""
    yield from (" " + line, line + " ", line + "\t", line + "\r", line + " x", line.capitalize())
    if " " in line:
        yield from (line.replace(" ", "  ", 1), line.replace(" ", "\t", 1), line.replace(" ", "", 1), line.replace(" ", " +", 1), line.replace(" ", " -", 1))
        before, last = line.rsplit(" ", 1)
        yield from (before + "  " + last, before + "\t" + last, before + " 0x" + last, before + " \u0661")


def unreadable(run):
    """What is no command changes nothing: not the store, nor what is asked with, nor power."""
    run.say("store 5 38 6 45", EIGHT.line, "power 1")
    for line in ("root", "slot", "state", "store 1 10 0 3", "levels 1 bits 4 seed 5", "power 2"):
        run.refuse(*misspelled(line))
    run.refuse("", " ", "\r", "a deed", b"\xff", b"root\xff", b"\xefoot", b"store 1 \xb2 0 3", b"\x00", "key 0", "parts", "accepted", "#")
    run.refuse("sign", " sign x", "Sign x", "sign\tx", "sign\r", "signs x", "roots", "states", "slots")
    run.refuse("store ", "store 4294967296 3 0 3", "store 0 3 0 4294967296", "store 1,10 0 3", "store 0 3 0 a")
    for spelled in ("18446744073709551616 bits 4 seed 5", "1 bits 18446744073709551616 seed 5", "1 bits 4 seed %d" % 2**256):
        run.refuse("levels " + spelled)
    for spelled in ("1 bits 4", "1 bits 4 seed", "1 bits 4 seed ", "1 bits seed 5", " bits 4 seed 5", "1 Bits 4 seed 5", "1 seed 5 bits 4", "1 bits 4 seed 5 5", "1 bits 4 seed +5", "1 bits +4 seed 5"):
        run.refuse("levels " + spelled)
    for spelled in ("18446744073709551616", "", "-1", "1 2", "x"):
        run.refuse("power " + spelled)
    run.refuse("levels", "power")
    run.holds(" 5 38 6 45", " 6 45")
    run.ask("root", EIGHT.printed_root())
    run.sign(DEED, "cut")
    run.holds(" 7 38 6 45", " 6 45")
    run.sign(DEED, GIVEN[6])
    run.holds(" 7 52 6 45", " 7 52")


# Lines that would change the store, what is asked with and power, and sign with a key.
DONE = ["store 0 3 0 3", "levels 21 bits 0 seed 5", "power 0", "sign " + DEED]


def unreadable_looks(run):
    """Of a `look` and the four lines behind it the first that cannot be read is named, and none is done, whatever it would be alone."""
    run.say("store 5 38 6 45", EIGHT.line, "power 1")
    right = [look_line(EIGHT.root, DEED)] + EIGHT.lines(5)
    for place in range(5):
        behind = DONE[place - 1 :] + DONE[: place - 1]
        run.refuse_look(["look x"] + DONE if place == 0 else (right[:place] + behind)[:5], place)
        run.holds(" 5 38 6 45", " 6 45")
    run.refuse_look(["look", "", "look", b"\xff", "state"], 0)
    run.refuse_look(right[:2] + ["", "root", right[0]], 2)
    for place, line in misspelled_lines(right):
        run.refuse_look(right[:place] + [line] + right[place + 1 :], place)
    run.look(EIGHT.root, DEED, ["key 00000000000000000000000000005"] + right[2:], "accepted")
    run.sign(DEED, "cut")
    run.holds(" 7 38 6 45", " 6 45")


def misspelled_lines(right):
    """Of a `look` and a signature: one of the five places, and a line that cannot be read there."""
    root = EIGHT.printed_root()
    for spelled in (root, root + "\t" + DEED, " " + root + " " + DEED, root[1:] + " " + DEED, root.upper() + " " + DEED, raised(root) + " " + DEED):
        yield 0, "look " + spelled
    for spelled in ("key", "key x", "key +5", "key 5 ", " key 5", "key 5\r", "Key 5", "key 5a", "key 18446744073709551616"):
        yield 1, spelled
    # Each of these at one of the three lines of numbers, but for the digits in upper case alone, at each.
    for k, form in enumerate(("%s  %s", " %s %s", "%s %s ", "%s\t%s", "%s %s\r", "%s%s", "%ss %s", "%s %s 5", "%s 0%s")):
        word, numbers = right[2 + k % 3].split(" ", 1)
        yield 2 + k % 3, form % (word, numbers)
    for place in (2, 3, 4):
        word, numbers = right[place].split(" ", 1)
        yield place, word + " " + numbers.upper()
        yield place, word + " " + raised(numbers)
    yield 2, b"parts \xff" + raw(right[2][7:])
    yield 4, "path "


def raised(digits):
    """The same with its last letter, and no other, in upper case."""
    at = max(digits.rfind(letter) for letter in "abcdef")
    return digits[:at] + digits[at].upper() + digits[at + 1 :]


def no_looks(run):
    """A line whose first word is no `look` takes no other with it, so the next is done."""
    run.say("store 0 3 0 3", EIGHT.line)
    for line in (" look", "Look", "looks", "look\t", "look\r", "loo", b"look\xff"):
        run.refuse(line, raw(line) + b" " + raw(EIGHT.printed_root() + " " + DEED))
        run.ask("slot", "slot 0 3")


def stores_shown(run):
    """The state is shown whatever numbers a store has; a slot where it is sound."""
    for numbers, slot in (
        ("", ""),
        (" 0", ""),
        (" 0 3", ""),
        (" 0 3 0", ""),
        (" 0 3 0 3", " 0 3"),
        (" 0 3 0 3 0", ""),
        (" 0 3 0 3 0 3", ""),
        (" 0 4 0 4", ""),
        (" 3 0 3 0", ""),
        (" 0 4 0 3", " 0 3"),
        (" 0 3 0 4", " 0 3"),
        (" 9 3 0 3", " 0 3"),
        (" 1 10 2 17", " 2 17"),
        (" 2 17 1 10", " 2 17"),
        (" 2 17 2 17", " 2 17"),
        (" 4294967295 31 4294967294 24", " 4294967295 31"),
        (" 4294967295 4294967295 4294967295 31", " 4294967295 31"),
        (" 613566755 4294967288 613566756 4", " 613566756 4"),
        (" 4294967295 4294967295 4294967295 4294967295", ""),
    ):
        run.say("store" + numbers)
        run.holds(numbers, slot)
    run.say("store 007 0000000000000052 00 03")
    run.holds(" 7 52 0 3", " 7 52")


def all_keys_while_power_fails(run):
    """A tree is used up while power fails again and again: each key comes once, in order."""
    run.say("store 0 3 0 3", EIGHT.line)
    for key, powers in enumerate(([], [0], [1], [0, 1], [1, 0], [1, 1, 1], [0, 0, 1, 0], [1, 0, 1])):
        for power in powers:
            run.say("power %d" % power)
            run.sign(DEED, "cut")
        if key % 3 == 1:
            run.say("power 2")
        run.sign(DEED, GIVEN[key])
    for power in ([], ["power 0"], ["power 1"], ["power 2"]):
        run.say(*power)
        run.sign(DEED, "all given")
    run.holds(" 7 52 8 59", " 8 59")


def cut_off(run):
    """The input ends in a signature."""
    tree = Tree(0, 4)
    run.say(tree.line)
    run.look(tree.root, DEED, tree.lines(0)[:2], "5 %d" % (len(run.lines) + 3))


PARTS = (
    day,
    one_key,
    trees,
    from_outside,
    texts,
    all_keys,
    limits,
    seeds,
    whatever_levels_and_bits,
    looked_at_where_asked,
    power_fails,
    count_alone,
    nothing_written,
    power_for_one_request,
    power_until_a_request,
    unreadable,
    unreadable_looks,
    no_looks,
    stores_shown,
    all_keys_while_power_fails,
    cut_off,
)


README = HERE + "/../README.md"
FROM, TO = "<!-- the day, as tests/examples.py writes it -->\n\n", "\n\n<!-- the end of the day -->"


def with_day(page):
    """The page with the day's table between the two marks."""
    before, rest = page.split(FROM)
    return before + FROM + day_table() + TO + rest.split(TO)[1]


def main():
    run = Run()
    for part in PARTS:
        part(run)
    data = b"\n".join(run.lines)
    answers = model.answers(data)
    for place, (asked, answer) in enumerate(zip(run.expected, answers)):
        if asked != answer:
            sys.exit("answer %d should be %s, and the model gives %s" % (place, asked[:80], answer[:80]))
    if len(run.expected) != len(answers):
        sys.exit("%d answers should be given, and the model gives %d" % (len(run.expected), len(answers)))
    with open(HERE + "/../crates/kachumpe/stdin", "wb") as f:
        f.write(data)
    with open(HERE + "/../crates/kachumpe/stdout", "w") as f:
        f.write("".join(answer + "\n" for answer in answers))
    with open(README, encoding="utf-8") as f:
        page = f.read()
    with open(README, "w", encoding="utf-8") as f:
        f.write(with_day(page))
    print("%d lines, %d answers: %d accepted, %d no, %d lines refused" % (len(run.lines), len(answers), answers.count("accepted"), answers.count("no"), sum(a.startswith("5 ") for a in answers)))


if __name__ == "__main__":
    main()
