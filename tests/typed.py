#!/usr/bin/env python3
"""Types lines to the program one after the other, as a person would who waits for each answer, and compares each answer with tests/model.py.

Run by hand, not by the gate, after `rt run` in crates/kachumpe:  python3 tests/typed.py
With KACHUMPE=FILE it runs that file in the program's place.
It fails where an answer has not come before the next line is typed, where one comes too early, where the input is closed at some point and the program then prints anything else than it should, does not end or ends with a status other than 0, and where an output that is full is no error. It types over a pipe, and once over a pseudo-terminal.
"""
import os
import pty
import select
import subprocess
import sys
import termios
import time

import examples
import model
import sessions

LONGEST = 20.0  # Seconds that an answer may take.
QUIET = 0.05  # Seconds for which nothing may come where nothing is to be printed.


def lines():
    """Each kind of command and of answer, and looks of each sort."""
    tree = examples.EIGHT
    right = [examples.look_line(tree.root, examples.DEED)] + tree.lines(0)
    return [
        *("state", "slot", "root", "sign a deed", "a deed", ""),
        *("store 0 3 0 3", "state", tree.line, "root", "sign a deed", "slot"),
        *("power 1", "state", "sign a deed", "state", "sign another deed", "sign"),
        *("levels 21 bits 1 seed 17", "root", "levels 0 bits 257 seed 17", "root", tree.line),
        *right,
        *(*right[:2], right[3], right[2], right[4], "state"),
        *("look x", "root", "state", "look", "store"),
        *(right[0], "root", "state", "sign x", "", "state"),
        *(*right[:4], "path ", b"\xff", b"sign \xff"),
        *("store 8 59 0 3", "sign a deed", "store 9 66 0 3", "sign a deed"),
    ]


class Program:
    """The program as it runs, typed to and read from at these two ends."""

    def __init__(self, keyboard, screen, process):
        self.keyboard, self.screen, self.process = keyboard, screen, process

    def type(self, data):
        os.write(self.keyboard, data)

    def expect(self, answer):
        """The answer comes, and nothing else; or, where there is none, nothing."""
        wanted = b"" if answer is None else answer.encode() + b"\n"
        came, until = b"", time.monotonic() + (LONGEST if wanted else QUIET)
        while (not wanted or len(came) < len(wanted)) and self.ready(until - time.monotonic()):
            came += os.read(self.screen, 65536)
            if not wanted:
                break
        return came == wanted or "%r came for %r" % (came[:200], wanted[:200])

    def ready(self, seconds):
        return bool(select.select([self.screen], [], [], max(seconds, 0))[0])

    def rest(self):
        """What is still printed, to the end."""
        came, until = b"", time.monotonic() + LONGEST
        while self.ready(until - time.monotonic()):
            some = read_or_none(self.screen)
            if not some:
                return came
            came += some
        self.process.kill()
        return came + b" and no end of it"


def read_or_none(end):
    """What can be read; nothing at the end, which at a pseudo-terminal is an error."""
    try:
        return os.read(end, 65536)
    except OSError:
        return b""


def at_pipes():
    process = subprocess.Popen([sessions.PROGRAM], stdin=subprocess.PIPE, stdout=subprocess.PIPE, bufsize=0)
    return Program(process.stdin.fileno(), process.stdout.fileno(), process)


def at_terminal():
    """Both ends at one pseudo-terminal, which shows nothing of what is typed and leaves newlines as they are."""
    ours, theirs = pty.openpty()
    how = termios.tcgetattr(theirs)
    how[1] &= ~termios.OPOST
    how[3] &= ~termios.ECHO
    termios.tcsetattr(theirs, termios.TCSANOW, how)
    process = subprocess.Popen([sessions.PROGRAM], stdin=theirs, stdout=theirs)
    os.close(theirs)
    return Program(ours, ours, process)


def typed(program, said, halves=False):
    """Types these lines, each after the answer to the one before, or also each in two halves; what the model then waits for."""
    told = model.Lines()
    for number, line in enumerate(map(examples.raw, said)):
        half = len(line) // 2 if halves else 0
        if half:
            program.type(line[:half])
            check(program.expect(None), "half of line %d" % number)
        program.type(line[half:] + b"\n")
        check(program.expect(told.line(line)), "line %d, %s" % (number, line))
    return told


def check(good, where):
    if good is not True:
        sys.exit("%s: %s" % (where, good))


def ended(program, answers, where):
    """At the end of the input these answers come, those that are some, and the program ends with 0."""
    wanted = b"".join(answer.encode() + b"\n" for answer in answers if answer is not None)
    came = program.rest()
    check(came == wanted or "%r came for %r" % (came, wanted), where)
    status = program.process.wait(LONGEST)
    check(status == 0 or "it ended with %d" % status, where)


def closed(said, last):
    """The input is closed behind these lines and the last one, which has no newline or is nothing at all."""
    where = "closed behind %d lines and %r" % (len(said), last)
    program, told = at_pipes(), model.Lines()
    # All at once, since it was seen that each answer comes before the next line.
    program.type(b"".join(line + b"\n" for line in said))
    answers = [answer for answer in map(told.line, said) if answer is not None]
    check(not answers or program.expect("\n".join(answers)), where)
    program.type(last)
    close(program, [told.line(last) if last else None, told.end()], where)


def close(program, answers, where):
    program.process.stdin.close()
    ended(program, answers, where)
    program.process.stdout.close()


def full():
    """An output that takes nothing ends the run with an error."""
    with open("/dev/full", "wb") as nothing:
        ran = subprocess.run([sessions.PROGRAM], input=b"state\n", stdout=nothing, stderr=subprocess.PIPE)
    check(ran.returncode == 1 or "it ended with %d" % ran.returncode, "an output that is full")


def main():
    said = lines()
    program = at_pipes()
    close(program, [typed(program, said, True).end()], "pipe")
    print("over a pipe: %d lines, each answered before the next was typed" % len(said))
    program = at_terminal()
    told = typed(program, said + ["look"])
    program.type(b"\x04")
    ended(program, [told.end()], "pseudo-terminal")
    print("over a pseudo-terminal: the same, and the end inside a look")
    said = [examples.raw(line) for line in said]
    for count, line in enumerate(said):
        closed(said[:count], b"")
        closed(said[:count], line[: len(line) // 2])
        closed(said[:count], line)
    closed(said, b"")
    print("closed at %d places: it ended with 0" % (3 * len(said) + 1))
    full()
    print("an output that is full: it ended with 1")


if __name__ == "__main__":
    main()
