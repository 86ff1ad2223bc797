#!/usr/bin/env python3
"""Plants bugs one at a time in the code of each crate, and says what refuses each: a proof, a test, or nothing.

Run by hand, not by the gate:  python3 tests/planted.py [--write] [crate ..]
The bugs are the must-fail edits, which the gate tries too, and the files below tests/planted/, of the same form. With --write the table in docs/PLANTED.md is written again, the rows of the crates that were named alone. It works on a copy of the checkout.
"""
import contextlib
import functools
import os
import re
import shutil
import subprocess
import sys
import tempfile

TOP = os.path.dirname(sys.path[0])
PAGE = TOP + "/docs/PLANTED.md"
FROM, TO = "<!-- the table, as tests/planted.py writes it -->\n\n", "\n\n<!-- the end of the table -->"
HEAD = "| crate | file | the bug | refused by | where |\n|---|---|---|---|---|"


def crates():
    """Each crate, and those beneath it."""
    with open(TOP + "/crates.txt") as lines:
        pairs = [line.split(":") for line in lines if not line.startswith("#")]
    return {name: beneath.split() for name, beneath in pairs}


def bugs(crate):
    """The files of the bugs of a crate, by name, and whether the gate tries them."""
    found = {}
    for folder, in_gate in (("crates/%s/must-fail" % crate, True), ("tests/planted/" + crate, False)):
        if os.path.isdir("%s/%s" % (TOP, folder)):
            for name in os.listdir("%s/%s" % (TOP, folder)):
                assert name not in found, "%s is there twice" % name
                found[name] = ("%s/%s/%s" % (TOP, folder, name), in_gate)
    return dict(sorted(found.items()))


def told(file):
    """What a bug does, and the file that it is planted in."""
    with open(file) as it:
        first, rest = it.read().split("\n", 1)
    return first, re.search("^file: (.*)$", rest, re.M)[1]


def goal(first):
    """Which kind of fact the first error of a proof is about, and the name of the goal, as far as it is told."""
    names = [it for it in re.findall(r"`([a-z][\w-]*`?)", first) if it.startswith(("returns", "loop")) or "-requires" in it]
    if "that what the function ensures" in first or names and names[0].startswith("returns"):
        kind = "what it ensures"
    elif "invariant of the loop" in first or names and names[0].startswith("loop"):
        kind = "a loop's invariant"
    elif "invariant" in first:
        kind = "a type's invariant"
    elif "requires" in first:
        kind = "what a callee requires"
    else:
        kind = "another fact"
    by_hand = ", at a line by hand" if re.search(r"proofs/\S+?\.antt:\d+", first) else ""
    return kind + by_hand, "`%s`" % (names[0].rstrip("`") + ("" if names[0].endswith("`") else "..")) if names else ""


def proofs(room, crate):
    """What the proofs say of each bug of a crate: the kind of fact and its name, or nothing where the crate is still proved."""
    folder = "%s/crates/%s/must-fail" % (room, crate)
    shutil.rmtree(folder, ignore_errors=True)
    os.makedirs(folder)
    for name, (file, _) in bugs(crate).items():
        shutil.copy(file, "%s/%s" % (folder, name))
    ran = subprocess.run(["rt", "must-fail", crate], cwd=room, stdout=subprocess.PIPE, stderr=subprocess.STDOUT, text=True)
    said = dict(re.findall(r"must-fail %s/(\S+): (.*)" % crate, ran.stdout.replace("rt: must-fail", "must-fail")))
    answers = {}
    for name in bugs(crate):
        answer = said.get(name, "")
        if answer.startswith("NOT REFUSED"):
            answers[name] = None
        elif answer.startswith("refused, as it must be: "):
            answers[name] = goal(answer)
        elif answer.startswith("refused, as it must be (only by a limit"):
            answers[name] = "a limit of the checker, which says less", ""
        elif answer.startswith("refused, as it must be (only because"):
            answers[name] = "a proof by hand that no longer fits, which says little", ""
        else:
            sys.exit("%s/%s: %s" % (crate, name, answer or ran.stdout))
    return answers


def failing(room, tests):
    """The tests of a crate that fail or do not end, as the copy is."""
    ran = subprocess.run(["rt", "try", "--test", "--seconds", "15"], cwd="%s/crates/%s" % (room, tests), stdout=subprocess.PIPE, stderr=subprocess.STDOUT, text=True)
    said = dict(re.findall(r"^test (\S+) \.\.\. (.*)", ran.stdout, re.M))
    if not said:
        sys.exit("%s: %s" % (tests, ran.stdout))
    return [name for name, answer in said.items() if answer != "ok"]


@functools.cache
def never_ends(room, tests):
    """The tests of a crate that fail or do not end here with no bug, as some do where they are not built but run at once."""
    return failing(room, tests)


def tested(room, crate, file):
    """The first test that refuses a bug with which the crate is still proved."""
    others = [it for it, beneath in crates().items() if crate in [it] + beneath]
    with_tests = [it for it in others if it.endswith("_tests")]
    for tests in with_tests:
        never_ends(room, tests)
    with planted(room, crate, file):
        for tests in with_tests:
            for name in failing(room, tests):
                if name not in never_ends(room, tests):
                    return "a test of `%s`" % tests, "`%s`" % name
        for program in others:
            folder = "%s/crates/%s" % (room, program)
            if os.path.exists(folder + "/stdin") and not answers_well(folder):
                return "the run of `%s`" % program, ""
        if "kachumpe" in others:
            for words in (["typed.py"], ["sessions.py", "300"]):
                if subprocess.run(["python3", "tests/" + words[0]] + words[1:], cwd=room, stdout=subprocess.PIPE, stderr=subprocess.PIPE).returncode:
                    return "`tests/%s`" % words[0], ""
            # As root, and with strace there.
            if subprocess.run(["tests/kill.sh"], cwd=room, env=os.environ | {"KILLS": "20", "PAIRS": "5"}, stdout=subprocess.PIPE, stderr=subprocess.PIPE).returncode:
                return "`tests/kill.sh`", ""
    return "nothing", ""


def answers_well(folder):
    """Whether a program writes what its file stdout has."""
    with open(folder + "/stdin") as stdin, open(folder + "/stdout", "rb") as stdout:
        wanted = stdout.read()
        subprocess.run(["rt", "run"], cwd=folder, stdin=subprocess.DEVNULL, stdout=subprocess.PIPE, stderr=subprocess.PIPE)
        return subprocess.run([folder + "/out/" + os.path.basename(folder)], stdin=stdin, stdout=subprocess.PIPE, stderr=subprocess.PIPE).stdout == wanted


@contextlib.contextmanager
def planted(room, crate, file):
    """The copy with a bug in it."""
    was = {}
    with open(file) as it:
        lines = it.read().split("\n")
    for line in lines:
        if line.startswith("file: "):
            path = "%s/crates/%s/%s" % (room, crate, line[6:])
        elif line.startswith("old: "):
            old = line[5:]
        elif line.startswith("new:"):
            with open(path) as it:
                text = it.read()
            was.setdefault(path, text)
            with open(path, "w") as it:
                it.write(text.replace(old, line[4:].removeprefix(" ")))
    try:
        yield
    finally:
        for path, text in was.items():
            with open(path, "w") as it:
                it.write(text)


def rows(room, crate):
    """The rows of a crate in the table."""
    answers, lines = proofs(room, crate), []
    for name, (file, in_gate) in bugs(crate).items():
        what, path = told(file)
        by, where = answers[name] or tested(room, crate, file)
        lines.append("| `%s` | %s | %s | %s | %s |" % (crate, path.removeprefix("src/"), what.replace("|", "\\|"), by + (" *" if in_gate else ""), where))
        print(lines[-1], flush=True)
    return lines


def write(made_of, made):
    """Puts the rows that were made of a crate in the place of those that were there."""
    with open(PAGE) as it:
        before, rest = it.read().split(FROM)
    table, after = rest.split(TO)
    rows = {made_of: made}
    for line in table.split("\n")[2:]:
        if line.split("`")[1] != made_of:
            rows.setdefault(line.split("`")[1], []).append(line)
    lines = [line for crate in crates() for line in rows.get(crate, [])]
    with open(PAGE, "w") as it:
        it.write(before + FROM + "\n".join([HEAD] + lines) + TO + after)


def main():
    words = sys.argv[1:]
    named = [word for word in words if word != "--write"] or [it for it in crates() if bugs(it)]
    with tempfile.TemporaryDirectory() as folder:
        room = folder + "/planted"
        shutil.copytree(TOP, room, symlinks=True)
        for crate in named:
            made = rows(room, crate)
            if "--write" in words:
                write(crate, made)


main()
