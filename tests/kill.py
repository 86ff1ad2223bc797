#!/usr/bin/env python3
"""Kills the program while it signs from a store in a file, and starts it twice at once; then tests/calls.py traces its calls, fails each and fills the disk.

Run by hand, not by the gate, after `rt run` in crates/kachumpe, as root, with strace and mkfs.xfs there:  tests/kill.sh
With KACHUMPE=FILE it runs that file in the program's place, with KILLS=100 PAIRS=10 less often, with LEVELS=8 BITS=8 other trees. TMPDIR says on which disk the store lies.

It holds, wherever a run ends: no key comes out twice, each signature that came out whole is accepted, the store is sound, and its next key is above all that came out. One run at a time gets in, and a lock that a killed run left keeps all others out. Each of the two numbers of a reservation is on the disk before the next step, and the signature is printed behind both. Where a call fails no signature comes, and a later run goes on with a fresh key.
It prints its counts as a table at the end, and ends with 0 if all held. It leaves nothing behind.
"""
import os
import random
import select
import statistics
import subprocess
import sys
import tempfile
import time

import calls
from on_file import NEW, Office, Run, count, counts, ended, faults, hold, later, reserved, verify

KILLS, PAIRS = int(os.environ.get("KILLS", "2500")), int(os.environ.get("PAIRS", "200"))
LEVELS, BITS = int(os.environ.get("LEVELS", "13")), int(os.environ.get("BITS", "4"))
SIGNS = 3  # Signatures that a run which is killed is asked for.
SOON = 0.0005  # Seconds within which a run is killed behind something that was seen.
ENDS = ("killed before any output", "killed between", "killed behind all output", "ended by themselves before the kill")
LEFT = ("left the store as behind the last signature that came out", "left it between a count and its check", "left it with a key reserved whose signature did not come out")
KILLED, PAIR, STALE, REFUSED = "killed while it signs", "two at once", "a lock that was left", "what is refused"


def kill_somewhen(run, usual):
    """Kills the run at a moment drawn at random: in the time that a run takes, or soon after its first byte of output, or after some write to the store."""
    until = time.monotonic() + random.uniform(0, 1.1 * usual)
    kind = random.choice(("time", "print", "write", "write"))
    if kind == "print":
        select.select([run.process.stdout], [], [], 10 * usual)
    if kind == "write":
        wait_for_writes(run, random.randrange(1, 2 * SIGNS + 1))
    if kind != "time":
        until = time.monotonic() + random.choice((0, random.uniform(0, SOON)))
    time.sleep(max(until - time.monotonic() - SOON, 0))
    while time.monotonic() < until:
        pass
    run.process.kill()


def wait_for_writes(run, number):
    """Until so many writes to the store were seen, or the run ended."""
    file = os.open(run.office.path, os.O_RDONLY)
    seen = run.before
    while number and run.process.poll() is None:
        now = os.pread(file, 16, 0)
        number, seen = number - (now != seen), now
    os.close(file)


def killed(office, usual):
    """Whether the store is sound after one more run that was killed; and all else that must hold of it."""
    first, highest = office.next(), max((key for _, key, _ in office.given), default=-1)
    run = Run(office, SIGNS)
    kill_somewhen(run, usual)
    run.end()
    after, whole = office.next(), len(run.keys)
    count(KILLED, how_it_ended(run))
    if after is None:
        return False
    lies = "%d to %d, keys %s, status %d, rest %s" % (first, after, run.keys, run.status, run.rest[:40])
    hold(run.keys == list(range(first, first + whole)) and first > highest, "not the next keys: " + lies)
    hold(first + whole <= after <= first + min(whole + 1, SIGNS), "the next key: " + lies)
    hold(len(run.answers) == whole and b"key "[: len(run.rest)] == run.rest[:4] and not run.said, "another answer: %s, %s" % (run.told(), run.said))
    count(KILLED, what_is_left(office, run))
    unlock(office, run, whole)
    return True


def how_it_ended(run):
    if run.status == 0:
        return ENDS[3]
    if not run.printed:
        return ENDS[0]
    return ENDS[2] if len(run.keys) == SIGNS else ENDS[1]


def what_is_left(office, run):
    """Where among the writes the run was ended, by the bytes of the store."""
    whole, data = len(run.keys), office.data()
    if data == reserved(run.before, whole):
        return LEFT[0]
    if data == reserved(run.before, whole + 1, 1):
        return LEFT[1]
    hold(data == reserved(run.before, whole + 1), "not by whole numbers in their order: %s to %s" % (run.before.hex(), data.hex()))
    return LEFT[2]


def unlock(office, run, whole):
    """A run that ended by itself leaves no lock; one that was killed while it signed does, and it is removed, since the run is gone."""
    left = os.path.exists(office.lock)
    hold(run.status in (0, -9) and left <= (run.status != 0), "status %d, lock %s" % (run.status, left))
    hold(run.status == 0 or not run.printed or whole == SIGNS or left, "killed between, and no lock is left")
    if left:
        count(KILLED, "locks that were left, and removed")
        os.remove(office.lock)


def usual_time(office):
    """Seconds that a run takes that is not killed."""
    times = []
    for _ in range(5):
        began = time.monotonic()
        Run(office, SIGNS).end()
        times.append(time.monotonic() - began)
    return statistics.median(times)


def kills(folder):
    office, usual, seeds, began = None, 0, iter(range(17, 10**6)), time.monotonic()
    for what in ("files, each with another seed", "runs, one after the other", *ENDS, *LEFT):
        count(KILLED, what, 0)
    for number in range(KILLS):
        count(KILLED, "runs, one after the other")
        if office is None:
            office = Office("%s/killed%d" % (folder, number), LEVELS, BITS, next(seeds))
            count(KILLED, "files, each with another seed")
            usual = usual_time(office)
            print("a run takes %.1f ms" % (1000 * usual), flush=True)
        sound = killed(office, usual)
        if not sound or office.next() + SIGNS > 2**LEVELS or number == KILLS - 1:
            verify(KILLED, office)
            office = None
        if number % 500 == 499:
            print("%.0f s: %s" % (time.monotonic() - began, "; ".join("%s %d" % (what, n) for (part, what), n in counts.items() if part == KILLED)), flush=True)


def at_once(office):
    """Two runs that are let go at one moment: both wait for the end of one pipe."""
    behind, front = os.pipe()
    wait = ["bash", "-c", 'read -r go <&%d; exec "$@"' % behind, "bash"]
    runs = [Run(office, 2, wait, pass_fds=[behind]) for _ in range(2)]
    time.sleep(0.01)
    os.close(front)
    os.close(behind)
    return [run.end() for run in runs]


def pair(office):
    before, runs = office.data(), at_once(office)
    into = [run for run in runs if run.status == 0 and len(run.keys) == 2]
    out = [run for run in runs if run.status == 1 and not run.printed and office.lock.encode() in run.said]
    hold(len(into) >= 1 and len(into + out) == 2, "a pair: %s" % [(run.told(), run.said) for run in runs])
    if len(into) == 2:
        into.sort(key=lambda run: run.keys)
        hold(into[0].keys[-1] < into[1].keys[0], "both got in: %s" % [run.keys for run in into])
    count(PAIR, "both signed, one after the other" if len(into) == 2 else "one signed, the other was refused and named the lock")
    keys = sum(len(run.keys) for run in runs)
    hold(office.next() is not None and office.data() == reserved(before, keys), "a pair: %s became %s by %d keys" % (before.hex(), office.data().hex(), keys))
    if not hold(not os.path.exists(office.lock), "a pair left a lock"):
        os.remove(office.lock)


def pairs(folder):
    office = Office(folder + "/pairs", 10, BITS, 17)
    for number in range(PAIRS):
        if office.next() is None or office.next() + 4 > 2**10:
            verify(PAIR, office)
            office = Office("%s/pairs%d" % (folder, number), 10, BITS, office.seed + 1)
        count(PAIR, "pairs of runs")
        pair(office)
    verify(PAIR, office)


def stale(folder):
    """A lock that a killed run left keeps all others out until it is removed, and they leave it."""
    office = Office(folder + "/stale", 10, BITS, 17)
    for _ in range(20):
        run = Run(office, 10 * SIGNS)
        select.select([run.process.stdout], [], [], 60)
        run.process.kill()
        hold(run.end().status == -9, "not killed: " + run.told())
        count(STALE, "runs that were killed as soon as they printed")
        before = office.data()
        for _ in range(2):
            run = Run(office, 1).end()
            good = run.status == 1 and not run.printed and office.lock.encode() in run.said and office.data() == before
            hold(good, "with a lock: %s, %s, %s" % (run.told(), run.said, office.data().hex()))
            count(STALE, "runs that ended with 1, named the lock and changed nothing")
        if hold(os.path.exists(office.lock), "a run that was kept out removed the lock"):
            os.remove(office.lock)
        later(office)
        count(STALE, "runs after the lock was removed, with a key not given before")
    verify(STALE, office)


def refused(folder):
    """What is there is not made anew, no line puts the count back, and nothing is signed from a file that is no sound store."""
    office = Office(folder + "/refused", 3, BITS, 17)
    later(office)
    before = office.data()
    status, printed, said = ended("--new", office.path)
    hold(status == 1 and said and not printed and office.data() == before, "--new on a file that is there: %d, %s, %s" % (status, said, office.data().hex()))
    count(REFUSED, "`--new` on a store that is there")
    for line in (b"store 0 3 0 3", b"store", b"store 4 31 4 31"):
        run = Run(office, 1, lines=[line]).end()
        hold(run.answers[:1] == ["5 1"], "a store line: " + run.told())
        count(REFUSED, "a `store` line")
        later(office)
    for data in (b"", NEW[:15], NEW + b"\0", bytes(16), b"\xff" * 16, NEW[:7] + b"\4" + NEW[:7] + b"\4"):
        with open(office.path, "wb") as file:
            file.write(data)
        run = Run(office, 1).end()
        hold(not run.keys and office.data() == data and not os.path.exists(office.lock), "a store that is not sound, %s: %s" % (data.hex(), run.told()))
        count(REFUSED, "a store that is not sound: %s" % run.told())


def table():
    """The counts, as a table that can be kept."""
    lines = ["| what was done | what was counted | how often |", "|---|---|---|"]
    return lines + ["| %s | %s | %d |" % (part, what, number) for (part, what), number in counts.items()]


def main():
    began = time.monotonic()
    with tempfile.TemporaryDirectory() as folder:
        folder = os.path.realpath(folder)
        disk = subprocess.run(["findmnt", "-n", "-o", "FSTYPE", "-T", folder], stdout=subprocess.PIPE).stdout.decode().strip()
        for part in (refused, stale, calls.trace, calls.fail_each, calls.limit_each, calls.full_output, calls.full_memory, calls.full_disk, pairs, kills):
            part(folder)
            print("%s: %.0f s, %d faults so far" % (part.__name__, time.monotonic() - began, len(faults)), flush=True)
    print("\nLinux %s, %d processors, the store on %s, %.0f s; %d faults.\n" % (os.uname().release, os.cpu_count(), disk, time.monotonic() - began, len(faults)))
    print("\n".join(table()))
    sys.exit(1 if faults else 0)


if __name__ == "__main__":
    main()
