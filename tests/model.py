#!/usr/bin/env python3
"""A second account of the program, written from the rules alone: reads the program's lines on standard input and prints what it should print, each answer before the next line is waited for.

Run by hand, not by the gate:  python3 tests/model.py < crates/kachumpe/stdin | diff - crates/kachumpe/stdout
Other tests import it. It can be run in the program's place, with KACHUMPE=tests/model.py.
"""
import functools
import hashlib
import itertools
import multiprocessing
import re
import sys

STORE = re.compile(rb"store((?: [0-9]+)*)")
SETTINGS = re.compile(rb"levels ([0-9]+) bits ([0-9]+) seed ([0-9]+)")
POWER = re.compile(rb"power ([0-9]+)")
LOOK = re.compile(rb"look ([0-9a-f]{64}) (.*)", re.S)
KEY = re.compile(rb"key ([0-9]+)")
LASTS = 2  # Power that lasts: a key takes two writes.


def row_hash(row):
    """SHA-256 of the numbers, each in 32 bytes, the highest first; and its 32 bytes as a number again."""
    digest = hashlib.sha256(b"".join([x.to_bytes(32, "big") for x in row])).digest()
    return int.from_bytes(digest, "big")


def secret(seed, key, bit, value):
    return row_hash([0, seed, key, bit, value])


def shown(number):
    return row_hash([1, number])


def leaf(seed, bits, key):
    return row_hash([2] + [shown(secret(seed, key, j, b)) for j in range(bits) for b in (0, 1)])


def leaves(seed, bits, levels):
    keys, each = range(2**levels), functools.partial(leaf, seed, bits)
    if levels < 8:
        return [each(key) for key in keys]
    # On all processors: on one, 2^20 leaves of one bit take half a minute.
    with multiprocessing.Pool() as pool:
        return pool.map(each, keys)


@functools.lru_cache(maxsize=None)
def tree(seed, bits, levels):
    """All nodes, level by level: the leaves first, and the root alone at the end."""
    nodes = [leaves(seed, bits, levels)]
    for _ in range(levels):
        below = nodes[-1]
        nodes.append([row_hash([3, left, right]) for left, right in zip(below[::2], below[1::2])])
    return nodes


def root(seed, bits, levels):
    return tree(seed, bits, levels)[levels][0]


def walk(key, value, path):
    for level, beside in enumerate(path):
        value = row_hash([3, beside, value] if key >> level & 1 else [3, value, beside])
    return value


def signature(seed, levels, key, bits):
    parts = [secret(seed, key, j, b) for j, b in enumerate(bits)]
    others = [shown(secret(seed, key, j, 1 - b)) for j, b in enumerate(bits)]
    path = [nodes[key >> level ^ 1] for level, nodes in enumerate(tree(seed, len(bits), levels)[:levels])]
    return key, parts, others, path


def check(count):
    return (7 * count + 3) % 4294967291


def text_bits(text, n):
    digest = row_hash([4] + list(text))
    return [(digest >> (255 - k)) & 1 for k in range(min(n, 256))]


def signature_lines(key, parts, others, path):
    return ["key %d" % key] + [word + "".join(" %064x" % x for x in row) for word, row in (("parts", parts), ("others", others), ("path", path))]


class Session:
    def __init__(self):
        self.store, self.levels, self.bits, self.seed, self.power = [], 0, 0, 0, LASTS

    def right(self):
        return [self.store[2 * k + 1] == check(self.store[2 * k]) for k in (0, 1)]

    def written(self):
        """The place in the store of the slot that is written next."""
        if self.right() == [True, True]:
            return 0 if self.store[0] <= self.store[2] else 2
        return 2 if self.right()[0] else 0

    def counting(self):
        """The slot that is not written next: the next key, and its check."""
        return self.store[2:] if self.written() == 0 else self.store[:2]

    def refusal(self):
        if self.levels > 20:
            return "1 %d" % self.levels
        if refused := self.store_refusal():
            return refused
        if self.counting()[0] > 2**self.levels:
            return "3 %d" % self.counting()[0]
        return self.bits_refusal()

    def store_refusal(self):
        if len(self.store) != 4:
            return "2 %d" % len(self.store)
        return None if any(self.right()) else "2 0"

    def bits_refusal(self):
        return None if 1 <= self.bits <= 256 else "4 %d" % self.bits

    def state(self):
        return numbers_line("store", self.store)

    def slot(self):
        return numbers_line("slot", [] if self.store_refusal() else self.counting())

    def root(self):
        if self.levels > 20:
            return "1 %d" % self.levels
        return self.bits_refusal() or "%064x" % root(self.seed, self.bits, self.levels)

    def sign(self, text):
        power, self.power = self.power, LASTS
        refused = self.refusal()
        if refused:
            return refused
        key, at = self.counting()[0], self.written()
        if key == 2**self.levels:
            return "all given"
        writes = [key + 1, check(key + 1)][:power]
        self.store[at : at + len(writes)] = writes
        if power < LASTS:
            return "cut"
        return "\n".join(signature_lines(*signature(self.seed, self.levels, key, text_bits(text, self.bits))))

    def look(self, root, text, key, parts, others, path):
        bits = text_bits(text, self.bits)
        if (len(parts), len(others), len(path)) != (len(bits), len(bits), self.levels) or key >> self.levels:
            return "no"
        row = [2]
        for b, p, o in zip(bits, parts, others):
            row += [o, shown(p)] if b else [shown(p), o]
        return "accepted" if walk(key, row_hash(row), path) == root else "no"

    def told(self, line):
        """Whether this is a line that prints nothing. What it says holds from now on."""
        if (numbers := decimals(STORE, line, itertools.repeat(2**32))) is not None:
            self.store = list(numbers)
        elif (numbers := decimals(SETTINGS, line, (2**64, 2**64, 2**256))) is not None:
            self.levels, self.bits, self.seed = numbers
        elif (numbers := decimals(POWER, line, (2**64,))) is not None:
            self.power = numbers[0]
        else:
            return False
        return True

    def asked(self, line):
        """The answer to a line that has no others behind it; none if it cannot be read."""
        if line.startswith(b"sign "):
            return self.sign(line[5:])
        alone = {b"root": self.root, b"state": self.state, b"slot": self.slot}
        return alone[line]() if line in alone else None


def numbers_line(word, numbers):
    return word + "".join(" %d" % n for n in numbers)


def decimals(form, line, limits):
    """The numbers of a line of this form, each below its limit; none if it is no such line."""
    if not form.fullmatch(line):
        return None
    numbers = tuple(decimal(word, limit) for word, limit in zip(re.findall(rb"[0-9]+", line), limits))
    return None if None in numbers else numbers


def decimal(digits, limit):
    """The number, if it is below the limit. Nothing below 2^256 has more than 78 digits, but for zeros before them."""
    digits = digits.lstrip(b"0") or b"0"
    return int(digits) if len(digits) <= 78 and int(digits) < limit else None


def begins_look(line):
    """Whether the line takes the next four with it, also where it cannot be read itself."""
    return line.split(b" ")[0] == b"look"


def read_look(lines):
    """What a `look` and its four lines ask, and none; or none, and the place of the first that cannot be read. A line that is missing is None."""
    readers = [read_root_and_text, read_key] + [functools.partial(read_row, word) for word in (b"parts", b"others", b"path")]
    asked = ()
    for place, (read, line) in enumerate(zip(readers, lines)):
        values = None if line is None else read(line)
        if values is None:
            return None, place
        asked += values
    return asked, None


def read_root_and_text(line):
    m = LOOK.fullmatch(line)
    return m and (int(m.group(1), 16), m.group(2))


def read_key(line):
    return decimals(KEY, line, (2**64,))


def read_row(word, line):
    m = re.fullmatch(word + rb"((?: [0-9a-f]{64})*)", line)
    return m and ([int(x, 16) for x in m.group(1).split()],)


class Lines:
    """The program's lines, one after the other, and what is printed for each."""

    def __init__(self):
        self.session, self.next, self.look = Session(), 0, []

    def line(self, line):
        """What is printed before the next line is waited for, if anything is."""
        self.next += 1
        if self.look or begins_look(line):
            self.look.append(line)
            return self.looked() if len(self.look) == 5 else None
        if self.session.told(line):
            return None
        answer = self.session.asked(line)
        return "5 %d" % (self.next - 1) if answer is None else answer

    def end(self):
        """What is printed at the end of the input, if anything is."""
        return self.looked() if self.look else None

    def looked(self):
        lines, self.look = self.look, []
        asked, bad = read_look(lines + [None] * (5 - len(lines)))
        return "5 %d" % (self.next - len(lines) + bad) if asked is None else self.session.look(*asked)


def split(data):
    """The lines of an input. The last may lack its newline."""
    lines = data.split(b"\n")
    return lines if lines[-1] else lines[:-1]


def answers(data):
    """The answers that the program prints for this input."""
    lines = Lines()
    printed = [lines.line(line) for line in split(data)] + [lines.end()]
    return [answer for answer in printed if answer is not None]


def main():
    lines = Lines()
    for line in sys.stdin.buffer:
        say(lines.line(line.removesuffix(b"\n")))
    say(lines.end())


def say(answer):
    if answer is not None:
        print(answer, flush=True)


if __name__ == "__main__":
    main()
