#!/usr/bin/env python3
"""How fast our SHA-256 is: its block function beside one in plain C, and the program's root and its look at a signature beside the same by OpenSSL.

Run by hand, not by the gate, with nothing else running; needs gcc and OpenSSL's headers (libssl-dev):  python3 bench/speed.py [rounds]

bench/build.sh builds our programs as the gate does, by LLVM and for x86-64-v2, and once more for x86-64-v3; the verdicts are printed. All programs run in turns on one core, so that what slows the machine down slows them all. Of each the least time counts, less the least of the same program with next to nothing to do. Those that hash the same must print the same.
"""
import hashlib
import os
import subprocess
import sys
import tempfile
import time

HERE = os.path.abspath(sys.path[0])
CORE = str(max(os.sched_getaffinity(0)))
BLOCKS = 400000
LOOKS = 2000
LEVELS, BITS, SEED = 10, 256, 17
# as in tests/examples.py, where neither our program nor the second account worked it out
ROOT = "0706261f1f47eda949d420f74f6393c03db54d09ebba3eadc3c55b64ce3fc852"
# OpenSSL without the processor's instructions for SHA, which neither our program nor plain C uses
MASKED = {"OPENSSL_ia32cap": ":~0x20000000"}
GATE, WIDE = "ours, as the gate builds it", "ours, for x86-64-v3"


def has_sha():
    with open("/proc/cpuinfo") as file:
        return "sha_ni" in file.read().split()


def ours(room, crate):
    """A program of ours by how it is built. That of the gate is built last, so that it is the one that stays in out/."""
    built = {}
    for name, cpu in ((WIDE, ["x86-64-v3"]), (GATE, [])):
        built[name] = os.path.join(room, "-".join([crate, *cpu]))
        subprocess.run([os.path.join(HERE, "build.sh"), crate, built[name], *cpu], check=True)
    return {name: built[name] for name in (GATE, WIDE)}


def in_c(room, source, compiler, *libraries):
    """Builds a program in C."""
    program = os.path.join(room, (source + compiler).replace(" ", ""))
    subprocess.run([*compiler.split(), "-o", program, os.path.join(HERE, source), *libraries], check=True)
    return program


def run(command, lines, environment):
    """How many seconds a program takes, and what it prints."""
    begin = time.perf_counter()
    done = subprocess.run(["taskset", "-c", CORE, *command], input=lines, stdout=subprocess.PIPE, text=True, check=True, env={**os.environ, **environment})
    return time.perf_counter() - begin, done.stdout.strip()


def measure(programs, much, little, rounds):
    """The seconds that each program takes, and what it prints. A program says for an amount what its command, its input and its environment are."""
    least, printed = {}, {}
    for _ in range(rounds):
        for name, program in programs.items():
            for amount in (little, much):
                seconds, printed[name] = run(*program(amount))
                least[name, amount] = min(seconds, least.get((name, amount), seconds))
    return {name: least[name, much] - least[name, little] for name in programs}, printed


def check(printed, expected):
    for name, digest in printed.items():
        if digest != expected:
            sys.exit("%s: printed %s and not %s" % (name, digest, expected))


def blocks(room, rounds, hash_speed):
    programs = {"ours": lambda n: ([hash_speed[GATE]], "blocks %d\n" % n, {}), "ours, as a stream": lambda n: ([hash_speed[GATE]], "bytes %d\n" % (64 * n), {})}
    for compiler in ("gcc -O3", "gcc -O2", "gcc -O3 -march=native"):
        program = in_c(room, "block.c", compiler)
        programs["plain C, " + compiler] = lambda n, program=program: ([program, str(n)], "", {})
    seconds, printed = measure(programs, BLOCKS, 1, rounds)
    check({"stream": printed.pop("ours, as a stream")}, hashlib.sha256(bytes((i * 7 + 3) % 256 for i in range(256)) * (BLOCKS // 4)).hexdigest())
    check(printed, printed["plain C, gcc -O3"])
    print("\n| %s blocks by | seconds | kilobytes a second | speed of ours / its | wanted |\n|---|---|---|---|---|" % format(BLOCKS, ","))
    for name in programs:
        ratio = "" if "ours" in name else "%.2f" % (seconds[name] / seconds["ours"])
        wanted = "0.9 or more" if name == "plain C, gcc -O3" else ""
        print("| %s | %.3f | %s | %s | %s |" % (name, seconds[name], format(int(BLOCKS * 0.064 / seconds[name]), ","), ratio, wanted))
    return seconds["plain C, gcc -O3"] / seconds["ours"] >= 0.9


def table(title, seconds, wanted):
    """Prints the seconds of each program, and what ours take of those of each other one; whether no more than is wanted, by what is ours and what the other is."""
    met = True
    print("\n| %s by | seconds | time of ours as the gate builds it / its | wanted | time of ours for x86-64-v3 / its | wanted |\n|---|---|---|---|---|---|" % title)
    for name in seconds:
        row = [name, "%.3f" % seconds[name]]
        for own in (GATE, WIDE):
            limit = wanted.get((own, name))
            ratio = seconds[own] / seconds[name]
            met = met and (limit is None or ratio <= limit)
            row += ["", ""] if name in (GATE, WIDE) else ["%.2f" % ratio, "" if limit is None else "%.2f or less" % limit]
        print("| %s |" % " | ".join(row))
    return met


def roots(room, rounds, kachumpe, openssl):
    programs = {name: lambda size, file=file: ([file], "levels %d bits %d seed %d\nroot\n" % (*size, SEED), {}) for name, file in kachumpe.items()}
    ways = {"OpenSSL, each row from its start": "init", "OpenSSL, the state after the seed copied": "copied", "OpenSSL, and that after the key and the bit, as in ours": "shared"}
    wanted = {}
    for name, way in ways.items():
        programs[name] = lambda size, way=way: ([openssl, "root", *map(str, size), str(SEED), way], "", MASKED)
        if way != "shared":
            wanted.update({(GATE, name): 0.65, (WIDE, name): 0.40})
        if has_sha():
            programs[name + "; SHA instructions on"] = lambda size, way=way: ([openssl, "root", *map(str, size), str(SEED), way], "", {})
            wanted[WIDE, name + "; SHA instructions on"] = 1.00
    seconds, printed = measure(programs, (LEVELS, BITS), (0, 1), rounds)
    check(printed, ROOT)
    met = table("a root of %d levels and %d bits" % (LEVELS, BITS), seconds, wanted)
    if not has_sha():
        print("\nThis processor has no instructions for SHA, so nothing is compared with them.")
    return met


def looks(rounds, hash_speed, openssl):
    programs = {name: lambda n, file=file: ([file], "looks %d\n" % n, {}) for name, file in hash_speed.items()}
    other = "OpenSSL"
    programs[other] = lambda n: ([openssl, "looks", str(n)], "", MASKED)
    seconds, printed = measure(programs, LOOKS, 1, rounds)
    check(printed, printed[other])
    return table("%s looks at a signature of 256 bits and 10 levels" % format(LOOKS, ","), seconds, {(GATE, other): 1.30})


def main():
    rounds = int(sys.argv[1]) if len(sys.argv) > 1 else 20
    with tempfile.TemporaryDirectory() as room:
        kachumpe, hash_speed = ours(room, "kachumpe"), ours(room, "hash_speed")
        openssl = in_c(room, "openssl.c", "gcc -O3 -Wno-deprecated-declarations", "-lcrypto")
        met = [blocks(room, rounds, hash_speed), roots(room, rounds, kachumpe, openssl), looks(rounds, hash_speed, openssl)]
    if not all(met):
        sys.exit("not as fast as is wanted")


main()
