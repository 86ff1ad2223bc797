#!/usr/bin/env python3
"""Prints SHA-256 test vectors, a line each: a name, and the digest in sixteens. They come from two tools, which must agree.

Run by hand, not by the gate, for the tests of the hash:  python3 tests/vectors.py
"""
import hashlib
import subprocess
import sys

# At 56 and 120 bytes the padding takes a block more, and at 64 a block ends; and the lengths beside these.
LENGTHS = (55, 56, 63, 64, 65, 119, 120)


def messages():
    yield "empty", b""
    yield "abc", b"abc"
    yield "bits_448", b"abcdbcdecdefdefgefghfghighijhijkijkljklmklmnlmnomnopnopq"
    yield "bits_896", b"abcdefghbcdefghicdefghijdefghijkefghijklfghijklmghijklmnhijklmnoijklmnopjklmnopqklmnopqrlmnopqrsmnopqrstnopqrstu"
    yield "million_a", b"a" * 1000000
    for n in LENGTHS:
        yield "bytes_%d" % n, bytes((i * 7 + 3) % 256 for i in range(n))


def by_coreutils(message):
    return subprocess.run(["sha256sum"], input=message, capture_output=True, check=True).stdout.decode().split()[0]


def main():
    for name, message in messages():
        digest = hashlib.sha256(message).hexdigest()
        if by_coreutils(message) != digest:
            sys.exit("%s: hashlib and sha256sum differ" % name)
        print(name, digest)


if __name__ == "__main__":
    main()
