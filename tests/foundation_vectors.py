#!/usr/bin/env python3
"""Digits and products from an implementation that shares nothing with the library.

Writes the input and the expected output of the program crates/vectors:
    python3 tests/foundation_vectors.py
Digits go by signed integers, products by exact integers and one reduction modulo X^N + 1,
where the library has words modulo 2^32, shifts and masks, and sums rows modulo 2^32.

Input, words of four bytes, lowest first: a count, then g, L and a word each; a count, then
N, g, L, j and the N words of each of x, row and out. Output: the digits of each word, and
out plus digit polynomial j of x times row, as words in decimal.
"""
import os
import random
import struct

Q = 1 << 32
GADGETS = [(g, length) for g in range(1, 17) for length in range(1, 33) if g * length <= 32]
EDGES = [0, 1, 2**31 - 1, 2**31, 2**31 + 1, Q - 1, Q - 2**15, 2**15 - 1, 2**15]
# A degree and how many products of it: the whole input stays below 65,536 bytes.
DEGREES = {1: 20, 2: 20, 4: 20, 8: 20, 16: 16, 32: 8, 64: 4, 128: 2, 256: 2, 512: 1, 1024: 1}


def digits(g, length, word):
    """Signed digits, digit 1 first: round to the nearest multiple, ties up, then carry."""
    unit = 1 << (32 - g * length)
    rest = (2 * word + unit) // (2 * unit)
    result = []
    for _ in range(length):
        digit = rest % (1 << g)
        if digit >= 1 << (g - 1):
            digit -= 1 << g
        rest = (rest - digit) >> g
        result.append(digit)
    return result[::-1]


def product(y, p):
    """The exact product of two integer polynomials, reduced by X^N = -1."""
    n = len(y)
    full = [0] * (2 * n)
    for i, a in enumerate(y):
        for k, b in enumerate(p):
            full[i + k] += a * b
    return [full[k] - full[n + k] for k in range(n)]


def main():
    rng = random.Random(20_260_101)
    words, lines = [], []

    records = [(8, 2, w) for w in (0, 32767, 32768, 8388608, 2139095040, 4294934528, 2147483648)]
    records += [(g, length, rng.choice(EDGES)) for g, length in GADGETS]
    records += [(*rng.choice(GADGETS), rng.randrange(Q)) for _ in range(300)]
    words.append(len(records))
    for g, length, word in records:
        words += [g, length, word]
        lines.append([d % Q for d in digits(g, length, word)])

    words.append(sum(DEGREES.values()))
    for n, times in DEGREES.items():
        for _ in range(times):
            g, length = rng.choice(GADGETS)
            j = rng.randrange(1, length + 1)
            x, row, out = ([rng.choice([rng.randrange(Q), rng.choice(EDGES)]) for _ in range(n)] for _ in range(3))
            words += [n, g, length, j, *x, *row, *out]
            small = [digits(g, length, w)[j - 1] for w in x]
            lines.append([(a + b) % Q for a, b in zip(out, product(small, row))])

    crate = os.path.join(os.path.dirname(os.path.abspath(__file__)), "..", "crates", "vectors")
    with open(os.path.join(crate, "stdin"), "wb") as file:
        file.write(struct.pack(f"<{len(words)}I", *words))
    with open(os.path.join(crate, "stdout"), "w") as file:
        for line in lines:
            file.write(" ".join(map(str, line)) + "\n")


if __name__ == "__main__":
    main()
