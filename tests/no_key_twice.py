#!/usr/bin/env python3
"""Many requests to one store while power fails at random: the keys that the program gives rise, so that none comes twice.

Run by hand, not by the gate, after `rt run` in crates/kachumpe:  python3 tests/no_key_twice.py [how many stores] [first seed]
For each store the program is run once. Behind each request it is asked for the store and for the slot that counts. What it prints is compared with tests/model.py, and the keys and the next keys are read in it.
"""
import random
import re
import sys

import model
import sessions

REQUESTS = 200


def store(r):
    """Two slots with counts near each other, each with its check or one of another. Now and then neither is right."""
    count = r.choice([0, 0, 0, 1, 5, 20])
    near = range(max(count - 1, 0), count + 3)
    slots = [(count, model.check(count)), (r.choice(near), model.check(r.choice(near)))]
    if r.random() < 0.1:
        slots[0] = (count, model.check(count + 1))
    return "store" + "".join(" %d %d" % slot for slot in r.sample(slots, 2))


def request(r, number):
    levels = r.choice([0, 1, 2, 3, 4, 5] + [6] * 12 + [21])
    bits = r.choice([1] * 16 + [0, 257])
    power = r.choice([[], [], ["power 0"], ["power 1"], ["power 2"]])
    return ["levels %d bits %d seed 17" % (levels, bits)] + power + ["sign deed %d" % number, "state", "slot"]


def session(r):
    lines = [store(r)]
    for number in range(REQUESTS):
        lines += request(r, number)
    return "\n".join(lines).encode()


def numbers(form, printed):
    return [int(m.group(1)) for m in map(re.compile(form).fullmatch, printed) if m]


def tell(seed, printed):
    """How often each sort of answer came. It stops where a key does not rise, or a next key gets smaller."""
    keys, nexts = numbers("key ([0-9]+)", printed), numbers("slot ([0-9]+) [0-9]+", printed)
    if any(a >= b for a, b in zip(keys, keys[1:])):
        sys.exit("store %d: the keys do not rise: %s" % (seed, keys))
    if any(a > b for a, b in zip(nexts, nexts[1:])):
        sys.exit("store %d: the next key gets smaller: %s" % (seed, nexts))
    told = len(keys), printed.count("cut"), len(numbers("([1-4]) [0-9]+", printed)), printed.count("all given")
    if sum(told) != REQUESTS:
        sys.exit("store %d: %d answers to %d requests" % (seed, sum(told), REQUESTS))
    return told


def main():
    count, first = sessions.how_many("40")
    told = [tell(seed, sessions.compared(seed, session(random.Random(seed)))) for seed in range(first, first + count)]
    keys, cuts, refused, over = [sum(column) for column in zip(*told)]
    print("%d stores, %d requests: no key came twice; %d keys, %d cut, %d refused, %d all given" % (count, count * REQUESTS, keys, cuts, refused, over))


main()
