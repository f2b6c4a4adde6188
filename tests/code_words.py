#!/usr/bin/env python3
"""The correcting code once more, in another language: computes what the program codecases prints, from docs/code.md alone, and compares.

Usage: tests/code_words.py    from anywhere.
"""
import itertools
import pathlib
import sys

STDOUT = pathlib.Path(__file__).resolve().parent.parent / "crates" / "codecases" / "stdout"


class Code:
    def __init__(self, kappa, f, block, lengths):
        self.kappa, self.f, self.block, self.lengths = kappa, f, block, lengths
        self.checks = range(2 * f)
        self.mu = kappa + sum(lengths)
        self.starts = [kappa + sum(lengths[:j]) for j in self.checks]
        self.places = [[self.place(j, k) for k in range(kappa)] for j in self.checks]

    def place(self, j, k):
        if self.block and j == 0:
            return k // (self.kappa // self.lengths[0])
        return k % self.lengths[j]

    def parities(self, payload):
        found = [[0] * long for long in self.lengths]
        for j in self.checks:
            for k, bit in enumerate(payload):
                found[j][self.places[j][k]] ^= bit
        return found

    def encode(self, message):
        payload = [(message[k // 8] >> (7 - k % 8)) & 1 for k in range(self.kappa)]
        return payload + [bit for check in self.parities(payload) for bit in check]

    def correct(self, word):
        payload = word[: self.kappa]
        found = self.parities(payload)
        bits = []
        for k, bit in enumerate(payload):
            places = [(j, self.places[j][k]) for j in self.checks]
            differ = sum(found[j][place] != word[self.starts[j] + place] for j, place in places)
            bits.append(bit ^ (differ >= self.f + 1))
        return bytes(sum(bits[8 * i + q] << (7 - q) for q in range(8)) for i in range(self.kappa // 8))


def mended(code, flips):
    """Over all messages of one byte: how many patterns of so many flips are mended, and how many there are."""
    tried = right = 0
    for byte in range(256):
        word = code.encode([byte])
        for places in itertools.combinations(range(code.mu), flips):
            received = list(word)
            for place in places:
                received[place] ^= 1
            tried += 1
            right += code.correct(received) == bytes([byte])
    return f"{right} of {tried} mended"


def small(code):
    yield f"f {code.f}, {code.mu} symbols"
    for flips, name in enumerate(["no flip", "one flip", "two flips"]):
        yield f"  {name}: {mended(code, flips)}"


def messages():
    yield from (bytes(32), b"\xff" * 32, b"\xa5" * 32, bytes(range(32)))
    for k in [0, 1, 7, 8, 15, 16, 37, 128, 254, 255]:
        yield (1 << (255 - k)).to_bytes(32, "big")


def large(code):
    yield f"f {code.f}, {code.mu} symbols"
    for message in messages():
        word = "".join(map(str, code.encode(message)))
        yield message.hex() + " " + "".join(f"{int(word[i:i + 4], 2):x}" for i in range(0, code.mu, 4))


def main():
    lines = [
        *small(Code(8, 1, False, [3, 4])),
        *small(Code(8, 2, False, [3, 4, 5, 7])),
        *large(Code(256, 5, True, [16, 16, 17, 31, 19, 29, 23, 25, 27, 37])),
    ]
    wanted = STDOUT.read_text().splitlines()
    failed = sum(a != b for a, b in itertools.zip_longest(lines, wanted))
    print(f"{len(wanted) - failed} passed, {failed} failed")
    return 1 if failed else 0


if __name__ == "__main__":
    sys.exit(main())
