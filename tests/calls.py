"""The calls that a run makes on its store, in their order; and each of them failing, by strace, by a limit on the size of files and on disks that are full. Part of tests/kill.py."""
import ast
import collections
import contextlib
import os
import re
import resource
import shutil
import signal
import subprocess

import model
from on_file import PROGRAM, Office, Run, count, ended, hold, later, told, verify

TRACE, FAIL, LIMIT, FULL = "traced calls", "a call that fails", "a file that may not be so long", "a full disk"
CALL = re.compile(r"^\d+ +(\w+)\((.*)\) += (-?\d+)(.*)$", re.M)
WRITTEN = re.compile(r'"(.*)", (\d+), (\d+)$')
# Calls that neither write nor sync.
QUIET = "open openat read pread64 readv lseek close fcntl ioctl fstat newfstatat stat lstat statx access faccessat faccessat2 readlink readlinkat flock fadvise64".split()
RESERVE = ["pwrite64", "fdatasync", "pwrite64", "fdatasync"]
PLACES = ["the sync at the start", "the write of the count", "the sync behind it", "the write of the check", "the last sync"]

Call = collections.namedtuple("Call", "name words result rest")


def can_trace():
    """Whether strace can be run here. Where it cannot, that is a fault, since what it would show was not seen."""
    ran = shutil.which("strace") and subprocess.run(["strace", "-o", "/dev/null", "true"], capture_output=True)
    return hold(ran and ran.returncode == 0, "NOT DONE: no strace (apt-get install strace), or it may not trace: %s" % (ran and ran.stderr))


def traced(office, signs, *more):
    """A run under strace, and its calls on files and descriptors."""
    kept = office.path + ".calls"
    run = Run(office, signs, ["strace", "-f", "-y", "-s", "32", "-o", kept, "-e", "trace=%file,%desc", *more]).end()
    with open(kept) as file:
        text = file.read()
    hold("unfinished" not in text, "calls of several threads or processes: they cannot be told in order")
    return run, [Call(*groups) for groups in CALL.findall(text) if groups[0] != "execve"]


def on(path, call):
    return any("<%s>" % path in part or '"%s"' % path in part for part in (call.words, call.rest))


def changing(office, calls):
    """The places among the calls of those that write, sync or empty the store."""
    return [at for at, call in enumerate(calls) if on(office.path, call) and (call.name not in QUIET or "O_TRUNC" in call.words)]


def printing(calls):
    return [at for at, call in enumerate(calls) if call.words.startswith("1<") and call.name not in QUIET]


def numbers(office, before):
    """What is to be written for one key, as bytes and a place."""
    session = told(before)
    at, key = session.written(), session.counting()[0]
    return [(key + 1, 4 * at), (model.check(key + 1), 4 * at + 4)]


def written(call):
    """The number that a call writes, how many bytes it has, and where it goes."""
    data, length, place = WRITTEN.search(call.words).groups()
    data = ast.literal_eval('b"%s"' % data)
    return int.from_bytes(data, "big"), len(data), int(length), int(place), int(call.result)


def trace(folder):
    """One signature: the four calls on the store in their order, and its first byte behind them, all while the lock is there."""
    if not can_trace():
        return
    office = Office(folder + "/traced", 3, 256, 17)
    for _ in range(2):
        before = office.data()
        run, calls = traced(office, 1)
        ours = [call for at, call in enumerate(calls) if on(office.path, call) or on(office.lock, call) or at in printing(calls)]
        print("\n".join("  %s(%s) = %s%s" % (c.name, c.words[:150], c.result, c.rest[:60]) for c in ours), flush=True)
        store, out = changing(office, calls), printing(calls)
        names = [calls[at].name for at in store]
        if not hold(names[:1] in (["fsync"], ["fdatasync"]) and names[1:] == RESERVE, "the calls on the store are %s" % names):
            continue
        hold([calls[at].result for at in store] == ["0", "4", "0", "4", "0"], "the calls on the store gave %s" % [calls[at].result for at in store])
        wanted = [(number, 4, 4, place, 4) for number, place in numbers(office, before)]
        hold([written(calls[at]) for at in store[1::2]] == wanted, "written: %s, and not %s" % ([calls[at].words for at in store[1::2]], wanted))
        hold(len(run.keys) == 1 and out and out[0] > store[-1], "the signature is printed at call %s, the store's are %s" % (out, store))
        hold(locked(office, calls, store + out), "the lock is not around the calls on the store and the output")
        count(TRACE, "runs: write of 4 bytes, sync, write of 4 bytes, sync; then the first byte of the signature; the lock around all")
    verify(TRACE, office)


def locked(office, calls, places):
    """Whether the lock is made, and made new, before the store is opened, and removed behind these calls."""
    made = [at for at, call in enumerate(calls) if on(office.lock, call) and "O_CREAT" in call.words and "O_EXCL" in call.words and int(call.result) >= 0]
    gone = [at for at, call in enumerate(calls) if on(office.lock, call) and call.name.startswith("unlink") and call.result == "0"]
    opened = [at for at, call in enumerate(calls) if on(office.path, call)]
    return len(made) == len(gone) == 1 and made[0] < opened[0] and gone[0] > max(places)


def judge(part, what, run):
    """A run in which something failed: from the first cut on no key is given, the store is sound, and a later run goes on."""
    office, first = run.office, told(run.before).counting()[0]
    after, cut = office.next(), run.answers.index("cut") if "cut" in run.answers else len(run.answers)
    hold(set(run.answers[cut:]) <= {"cut"} and not run.rest, "%s: %s, rest %s" % (what, run.told(), run.rest[:40]))
    hold(run.keys == list(range(first, first + len(run.keys))), "%s: key %d was next, and %s came" % (what, first, run.told()))
    hold(after is not None and first + len(run.keys) <= after <= first + len(run.keys) + 1, "%s: the next key is %s after %d and %s" % (what, after, first, run.told()))
    hold(run.status == (1 if "cut" in run.answers else run.status) and bool(run.said) == (run.status == 1), "%s: %s, %s" % (what, run.told(), run.said))
    hold(not os.path.exists(office.lock), "%s: a lock is left" % what)
    count(part, "%s: %s" % (what, run.told()))
    if after is not None:
        later(office)


def fail_each(folder):
    """Each call on the store fails in turn, at either slot: nothing is signed, and no call on the store follows it."""
    if not can_trace():
        return
    office = Office(folder + "/failing", 7, 64, 17)
    for _ in range(2):
        for place, where in enumerate(PLACES):
            run, calls = traced(office, 1)
            store = changing(office, calls)
            if not hold(len(run.keys) == 1 and len(store) == 5, "before a call fails: %s, %d calls" % (run.told(), len(store))):
                return
            name = calls[store[place]].name
            error = "ENOSPC" if name == "pwrite64" else "EIO"
            when = sum(call.name == name for call in calls[: store[place] + 1])
            run, failed = traced(office, 2, "-e", "inject=%s:error=%s:when=%d" % (name, error, when))
            what = "%s fails with %s" % (where, error)
            made = [failed[at].name for at in changing(office, failed)]
            hold(made == [calls[at].name for at in store[: place + 1]] and error in failed[changing(office, failed)[-1]].rest, "%s: calls %s" % (what, made))
            hold(not run.keys and (place == 0 or run.answers == ["cut", "cut"]), "%s: %s" % (what, run.told()))
            judge(FAIL, what, run)
    verify(FAIL, office)


def limit_each(folder):
    """The system lets no file grow beyond so many bytes, so that a write fails, or is made in part, at each place of either slot."""
    office = Office(folder + "/limited", 8, 64, 17)
    for slot in (0, 1):
        for limit in range(17):
            if told(office.data()).written() // 2 != slot:
                later(office)
            run = Run(office, 2, preexec_fn=lambda: at_most(limit)).end()
            fit = [limit >= 8 * slot + 8, limit == 16]  # The first fits, and then the second, in the other slot.
            hold([answer != "cut" for answer in run.answers] == fit, "%d bytes, slot %d: %s" % (limit, slot, run.told()))
            judge(LIMIT, where_it_ends(limit - 8 * slot), run)
    verify(LIMIT, office)


def where_it_ends(room):
    """Which write of the first signature fails where there is so much room behind its slot's first byte."""
    if room >= 8:
        return "both writes fit"
    return "the write of the %s %s" % ("check" if room >= 4 else "count", "is made in part" if room > 0 and room % 4 else "fails")


def at_most(limit):
    signal.signal(signal.SIGXFSZ, signal.SIG_IGN)
    resource.setrlimit(resource.RLIMIT_FSIZE, (limit, limit))


def full_output(folder):
    """A signature for which the output has no room is lost with its key."""
    office = Office(folder + "/unprinted", 3, 64, 17)
    with open("/dev/full", "wb") as nothing:
        run = Run(office, 2, stdout=nothing).end()
    hold(run.status == 1 and run.said and office.next() == 1, "an output that is full: %s, the next key is %s" % (run.told(), office.next()))
    judge(FULL, "an output that is full", run)
    verify(FULL, office)


@contextlib.contextmanager
def mounted(folder, *words):
    """A disk for as long as it is needed; none where it cannot be mounted, which is counted."""
    os.mkdir(folder)
    ran = subprocess.run(["mount", *words, folder], stderr=subprocess.PIPE)
    if ran.returncode:
        count(FULL, "NOT DONE, mount %s: %s" % (" ".join(words[:2]), ran.stderr.decode().strip()))
    try:
        yield None if ran.returncode else folder
    finally:
        if not ran.returncode:
            subprocess.run(["umount", folder], check=True)


def fill(path):
    """A file that takes all the room that is left."""
    with open(path, "wb") as file:
        size, at = 2**28, 0
        while size:
            try:
                os.posix_fallocate(file.fileno(), at, size)
                at += size
            except OSError:
                size //= 2


def full_memory(folder):
    """A disk in memory that is full, first of bytes and then of files: what is there is written in its place, a new store finds no room, and then not even the lock."""
    with mounted(folder + "/memory", "-t", "tmpfs", "-o", "size=16k,nr_inodes=8", "tmpfs") as disk:
        if not disk:
            return
        office = Office(disk + "/store", 3, 64, 17)
        fill(disk + "/full")
        judge(FULL, "a tmpfs full of bytes", Run(office, 1).end())
        new_store(disk + "/another")
        for number in range(8):
            with contextlib.suppress(OSError):
                open("%s/%d" % (disk, number), "x").close()
        run = Run(office, 1).end()
        hold(run.status == 1 and run.said and not run.printed and run.before == office.data(), "no room for a lock: %s, %s" % (run.told(), run.said))
        count(FULL, "no room for the lock: %s" % run.told())
        for name in set(os.listdir(disk)) - {"store"}:
            os.remove(disk + "/" + name)
        later(office)
        verify(FULL, office)


def new_store(path):
    """A new store on a disk that is full: there is none, or one that nothing is signed from."""
    status, printed, said = ended("--new", path)
    hold(status == 1 and said and not printed, "--new on a full disk: %d, %s, %s" % (status, printed, said))
    left = "nothing is left"
    if os.path.exists(path):
        with open(path, "rb") as file:
            left = "%d bytes are left, which are refused" % len(file.read())
        ran = subprocess.run([PROGRAM, path], input=b"levels 3 bits 64 seed 17\nsign a deed\n", capture_output=True)
        hold(b"key" not in ran.stdout, "a store that was not made: %s, %s" % (ran.stdout[:80], ran.stderr))
    count(FULL, "`--new`: status 1 and a message; " + left)


def full_disk(folder):
    """A disk that writes nothing in its place: the store shares its block with a copy, so that the write needs a new one, and there is none. The lock lies elsewhere, where there is room."""
    image = folder + "/image"
    if not shutil.which("mkfs.xfs"):
        return count(FULL, "NOT DONE, xfs: no mkfs.xfs, which is in xfsprogs")
    with open(image, "wb") as file:
        file.truncate(2**20 * 320)
    subprocess.run(["mkfs.xfs", "-q", "-m", "reflink=1", image], check=True)
    with mounted(folder + "/xfs", "-o", "loop", image) as disk:
        if not disk:
            return
        office = Office(disk + "/store", 3, 64, 17)
        subprocess.run(["cp", "--reflink=always", office.path, disk + "/copy"], check=True)
        os.symlink(office.path, folder + "/beside")
        fill(disk + "/full")
        os.sync()
        office.path, office.lock = folder + "/beside", folder + "/beside.lock"
        run = Run(office, 2).end()
        hold(run.answers == ["cut", "cut"] and office.data() == run.before, "a full disk: %s" % run.told())
        os.remove(disk + "/full")
        judge(FULL, "an xfs that is full, the store's block shared", run)
        verify(FULL, office)
