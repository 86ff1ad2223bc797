"""Runs of the program with the store in a file, for tests/kill.py and tests/calls.py: what is asked, what came out, what the file then is, and what is counted."""
import os
import re
import struct
import subprocess
import tempfile

import model
import sessions

PROGRAM = os.path.abspath(sessions.PROGRAM)
SIGNATURE = re.compile(rb"key ([0-9]+)\nparts[ 0-9a-f]*\nothers[ 0-9a-f]*\npath[ 0-9a-f]*\n")
NEW = struct.pack(">4I", 0, 3, 0, 3)
LONGEST = 60  # Seconds that a run may take.
LOOKS = 500  # Signatures that one run looks at.

counts = {}  # By part and what is counted, in the order in which each was counted first.
faults = []


def count(part, what, number=1):
    counts[part, what] = counts.get((part, what), 0) + number


def hold(good, what):
    """Whether it holds. Where it does not, it is a fault."""
    if not good:
        faults.append(what)
        if len(faults) <= 50:
            print("FAULT: " + what, flush=True)
    return good


def told(data):
    """The store that these bytes are, as a session of the model."""
    session = model.Session()
    session.store = list(struct.unpack(">4I", data)) if len(data) == 16 else []
    return session


def reserved(data, keys, writes=2):
    """The bytes of a sound store after so many more keys, the last of them by so many writes."""
    session = told(data)
    for left in range(keys, 0, -1):
        at, key = session.written(), session.counting()[0]
        numbers = [key + 1, model.check(key + 1)][: 2 if left > 1 else writes]
        session.store[at : at + len(numbers)] = numbers
    return struct.pack(">4I", *session.store)


def ended(*arguments):
    """A run without a line: its status, what it printed and its message."""
    ran = subprocess.run([PROGRAM, *arguments], stdin=subprocess.DEVNULL, stdout=subprocess.PIPE, stderr=subprocess.PIPE)
    return ran.returncode, ran.stdout, ran.stderr


def in_memory(lines):
    """The lines that the program prints without a file."""
    ran = subprocess.run([PROGRAM], input=b"".join(line + b"\n" for line in lines), stdout=subprocess.PIPE)
    return ran.stdout.splitlines()


class Office:
    """A new store in a file, the tree that signs from it, and all signatures that came out whole, each with its text and its key."""

    def __init__(self, path, levels, bits, seed):
        self.path, self.lock = path, path + ".lock"
        self.levels, self.bits, self.seed = levels, bits, seed
        self.line = b"levels %d bits %d seed %d" % (levels, bits, seed)
        self.given, self.asked = [], 0
        made = ended("--new", path)
        hold(made[0] == 0 and self.data() == NEW, "--new: %s, and the file is %s" % (made, self.data().hex()))

    def data(self):
        with open(self.path, "rb") as file:
            return file.read()

    def next(self):
        """The next key; none, and a fault, where the store is not sound."""
        session = told(self.data())
        if hold(not session.store_refusal(), "not sound: %s" % self.data().hex()):
            return session.counting()[0]
        return None

    def texts(self, number):
        """Texts that were never asked for."""
        self.asked += number
        return [b"deed %d" % n for n in range(self.asked - number, self.asked)]


class Run:
    """The program as it runs on a store in a file, is asked these lines and then for so many signatures; and, once it has ended, what came out. Other words may run it, as strace."""

    def __init__(self, office, signs, words=(), lines=(), stdout=subprocess.PIPE, **how):
        texts = office.texts(signs)
        self.office, self.texts, self.before = office, [*lines, *texts], office.data()
        with tempfile.TemporaryFile() as typed:
            typed.write(b"".join(line + b"\n" for line in [office.line, *lines] + [b"sign " + text for text in texts]))
            typed.seek(0)
            self.process = subprocess.Popen([*words, PROGRAM, office.path], stdin=typed, stdout=stdout, stderr=subprocess.PIPE, **how)

    def end(self):
        try:
            printed, self.said = self.process.communicate(timeout=LONGEST)
        except subprocess.TimeoutExpired:
            self.process.kill()
            printed, self.said = self.process.communicate()
            hold(False, "a run did not end")
        self.status = self.process.returncode
        self.printed = self.rest = printed or b""
        self.keys, self.answers = [], []
        while b"\n" in self.rest and self.answer():
            pass
        return self

    def answer(self):
        """Takes the next answer from what was printed, if it is there to its end."""
        signature = SIGNATURE.match(self.rest)
        if not hold(len(self.answers) < len(self.texts), "more answers than lines: %s" % self.rest[:40]):
            return False
        if signature:
            self.keys.append(int(signature.group(1)))
            self.office.given.append((self.texts[len(self.answers)], self.keys[-1], signature.group()))
        elif self.rest.startswith(b"key "):
            return False
        end = signature.end() if signature else self.rest.index(b"\n") + 1
        self.answers.append(self.rest[:end].splitlines()[0].decode())
        self.rest = self.rest[end:]
        return True

    def told(self):
        """The answers and the status, to be counted."""
        answers = ["a signature" if answer.startswith("key ") else "`%s`" % answer for answer in self.answers]
        return "%s; status %d" % (", ".join(answers) or "nothing" + " printed, and a message" * bool(self.said), self.status)


def later(office):
    """A later run gives the next key, which was not given before."""
    key, before = office.next(), {key for _, key, _ in office.given}
    run = Run(office, 1).end()
    hold(run.keys == [key] and key not in before, "later: %s came, the next key was %s, and %d was given last" % (run.told(), key, max(before, default=-1)))
    hold(run.status == 0 and not os.path.exists(office.lock), "later: %s, and the lock is there: %s" % (run.told(), os.path.exists(office.lock)))


def verify(part, office):
    """The keys of all signatures differ; and each signature is accepted, and is the model's own."""
    keys = [key for _, key, _ in office.given]
    hold(len(set(keys)) == len(keys), "%s: %d keys, %d of them different" % (part, len(keys), len(set(keys))))
    root = in_memory([office.line, b"root"])[0]
    hold(root == b"%064x" % model.root(office.seed, office.bits, office.levels), "%s: root %s" % (part, root))
    accepted = 0
    for first in range(0, len(keys), LOOKS):
        lines = [office.line]
        for text, _, signature in office.given[first : first + LOOKS]:
            lines += [b"look %s %s" % (root, text)] + signature.splitlines()
        accepted += in_memory(lines).count(b"accepted")
    hold(accepted == len(keys), "%s: %d of %d signatures accepted" % (part, accepted, len(keys)))
    own = sum(signature == by_model(office, text, key) for text, key, signature in office.given)
    hold(own == len(keys), "%s: %d of %d signatures are the model's" % (part, own, len(keys)))
    count(part, "signatures that came out whole, no key twice, all accepted and the model's own", len(keys))


def by_model(office, text, key):
    """The signature that the model makes, as it is printed."""
    lines = model.signature_lines(*model.signature(office.seed, office.levels, key, model.text_bits(text, office.bits)))
    return "".join(line + "\n" for line in lines).encode()
