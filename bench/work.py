#!/usr/bin/env python3
"""How many leaves and inner nodes the program works out for a root and for a signature, how many blocks it hashes for that, and how much memory that takes.

Run by hand, not by the gate, after `rt run` in crates/kachumpe; needs valgrind:  python3 bench/work.py [levels ..]

Calls are counted and nothing is timed, so every run gives the same counts. Leaves are made eight at a time, each eight with the seven nodes above it, or one by one in a tree of fewer than three levels; the maker of paths else joins two nodes, so its other calls are the nodes. That is checked by how many blocks are hashed in all, by the block function of one block and by that of eight.
"""
import re
import subprocess
import sys
import tempfile

PROGRAM = sys.path[0] + "/../crates/kachumpe/out/kachumpe"
BITS, TEXT = 100, "a deed"
# of the largest root that is measured elsewhere
LARGE, WANTED = (10, 256), 2362366


def blocks(numbers):
    """How many blocks of 64 bytes a row of so many numbers takes, with its padding."""
    return numbers // 2 + 1


# of a secret number's row the block of 0 and the seed is hashed once for all, that of the key and the bit once for both numbers of the bit where eight bits or keys stand side by side, and the last one for each
FRONT, PAIR, SECRET, SHOWN, NODE = 1, 3, blocks(5) - 1, blocks(2), blocks(3)


def leaves_of(bits, eights, single):
    """The blocks of leaves: those that are hashed eight at a time, by calls, and the others."""
    row = blocks(1 + 2 * bits)
    together = eights * (bits * (PAIR + 2 * SHOWN) + row) + single * (bits // 8) * (PAIR + 2 * SHOWN)
    return together, single * (bits % 8 * 2 * (SECRET + SHOWN) + row)


def away(bits):
    """What a signature takes beside its path: both secret numbers of each bit, and what is shown of one; and the text's hash."""
    return bits // 8 * (PAIR + SHOWN), bits % 8 * (2 * SECRET + SHOWN) + blocks(1 + len(TEXT))


def run(tool, levels, command, bits=BITS):
    """What valgrind writes of the program's run on one command."""
    lines = "store 0 3 0 3\nlevels %d bits %d seed 17\n%s\n" % (levels, bits, command)
    with tempfile.NamedTemporaryFile("r") as out:
        subprocess.run(["valgrind", "--tool=" + tool[0], tool[1] + out.name, *tool[2:], PROGRAM], input=lines.encode(), capture_output=True, check=True)
        return out.read()


def calls(levels, command, bits=BITS):
    """How often each function is called."""
    names, called, seen = {}, None, {}
    for line in run(("callgrind", "--callgrind-out-file="), levels, command, bits).split("\n"):
        if m := re.match(r"c?fn=\((\d+)\)(?: (.*))?", line):
            if m.group(2):
                names[m.group(1)] = re.sub(r"::<#.*|'\d+$", "", m.group(2))
            called = names[m.group(1)]
        elif m := re.match(r"calls=(\d+)", line):
            seen[called] = seen.get(called, 0) + int(m.group(1))
    return seen


def memory(levels, command):
    """The most bytes of heap and stack at once."""
    text = run(("massif", "--massif-out-file=", "--stacks=yes"), levels, command)
    heap = [int(x) for x in re.findall(r"mem_heap_B=(\d+)", text)]
    stack = [int(x) for x in re.findall(r"mem_stacks_B=(\d+)", text)]
    return max(h + s for h, s in zip(heap, stack))


def work(levels, command, bits=BITS):
    """The leaves and the nodes of a command, and how many blocks are hashed for it."""
    seen = calls(levels, command, bits)
    low, single = seen.get("tree::own::TreeMaker::make_low_path", 0), seen.get("keys::one_time::OneTimeKey::leaf", 0)
    leaves = 8 * low + single
    nodes = 7 * low + seen["tree::own::TreeMaker::make_path"] - low - single
    counted = [leaves_of(bits, low, single), (0, FRONT + nodes * NODE), away(bits) if command != "root" else (0, 0)]
    expected = tuple(map(sum, zip(*counted)))
    found = (seen.get("lanes::block::compress_eight", 0), seen["compression::block::compress"])
    if found != expected:
        sys.exit("%s with %d levels: %s blocks are hashed, and not the %s of %d leaves and %d nodes" % (command, levels, found, expected, leaves, nodes))
    return leaves, nodes, 8 * found[0] + found[1]


def main():
    print("%-12s levels   leaves  / 2^l    nodes  / (2^l - 1)    blocks   bytes of memory" % "")
    for name, command in (("a root", "root"), ("a signature", "sign " + TEXT)):
        for levels in [int(word) for word in sys.argv[1:]] or [0, 1, 3, 6, 10]:
            leaves, nodes, hashed = work(levels, command)
            of_nodes = "%.4f" % (nodes / (2**levels - 1)) if levels else ""
            print("%-12s %6d %8d %6.4f %8d %13s %9d %17d" % (name, levels, leaves, leaves / 2**levels, nodes, of_nodes, hashed, memory(levels, command)))
    hashed = work(LARGE[0], "root", LARGE[1])[2]
    print("a root of %d levels and %d bits: %s blocks, and no more than %s are wanted" % (*LARGE, format(hashed, ","), format(WANTED, ",")))
    if hashed > WANTED:
        sys.exit("more blocks than are wanted")


main()
