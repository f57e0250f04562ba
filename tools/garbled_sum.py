#!/usr/bin/env python3
"""The stream, the dealt labels and the output of one small program, by hashlib alone (docs/GARBLING.md).

The program adds an input of the garbler and one of the evaluator, of 8 bits each, and puts out the sum: 200 + 100 with
a seed of 32 zero bytes. The tests of mage_garbling_tests compare what the drivers make with what this prints.
"""
import hashlib

SEED, WORKER, WIDTH = bytes(32), 0, 8


def first(message):
    return hashlib.sha256(message).digest()[:16]


def xor(*labels):
    result = 0
    for label in labels:
        result ^= int.from_bytes(label, "big")
    return result.to_bytes(16, "big")


def times(bit, label):
    return label if bit else bytes(16)


def colour(label):
    return label[15] & 1


def place(number):
    return WORKER.to_bytes(2, "big") + number.to_bytes(8, "big")


def hashed(label, tweak):
    return first(b"\2" + label + place(tweak))


R = first(SEED + b"\0")
R = R[:15] + bytes([R[15] | 1])


class Garbler:
    def __init__(self):
        self.stream, self.wires, self.gates = b"", 0, 0

    def input(self, value, own):
        zeros = [first(SEED + b"\1" + place(self.wires + i)) for i in range(WIDTH)]
        self.wires += WIDTH
        active = [xor(zero, times(value >> i & 1, R)) for i, zero in enumerate(zeros)]
        if own:
            self.stream += b"".join(active)
        return zeros, active

    def gate(self, a, b):
        j, k = 2 * self.gates, 2 * self.gates + 1
        self.gates += 1
        tg = xor(hashed(a, j), hashed(xor(a, R), j), times(colour(b), R))
        te = xor(hashed(b, k), hashed(xor(b, R), k), a)
        self.stream += tg + te
        return xor(hashed(a, j), times(colour(a), tg), hashed(b, k), times(colour(b), xor(te, a)))

    def output(self, wires):
        self.stream += bytes(colour(wire) for wire in wires)


class Evaluator:
    def __init__(self, stream, labels):
        self.stream, self.labels, self.gates, self.at = stream, labels, 0, 0

    def take(self, count):
        self.at += count
        return self.stream[self.at - count:self.at]

    def gate(self, a, b):
        j, k = 2 * self.gates, 2 * self.gates + 1
        self.gates += 1
        tg, te = self.take(16), self.take(16)
        return xor(hashed(a, j), times(colour(a), tg), hashed(b, k), times(colour(b), xor(te, a)))

    def output(self, wires):
        return sum((self.take(1)[0] ^ colour(wire)) << i for i, wire in enumerate(wires))


def add(party, a, b):
    total, carry = [xor(a[0], b[0])], party.gate(a[0], b[0])
    for i in range(1, WIDTH):
        total.append(xor(a[i], b[i], carry))
        if i < WIDTH - 1:
            carry = xor(carry, party.gate(xor(a[i], carry), xor(b[i], carry)))
    return total


def main():
    garbler = Garbler()
    a, _ = garbler.input(200, True)
    b, dealt = garbler.input(100, False)
    garbler.output(add(garbler, a, b))
    evaluator = Evaluator(garbler.stream, dealt)
    x = [evaluator.take(16) for _ in range(WIDTH)]
    value = evaluator.output(add(evaluator, x, dealt))
    labels = b"".join(dealt)
    for name, data in [("stream", garbler.stream), ("labels", labels)]:
        print(name, len(data), "bytes, SHA-256", hashlib.sha256(data).hexdigest())
        print("  first", data[:16].hex(), "last", data[-16:].hex())
    print("value", value)


if __name__ == "__main__":
    main()
