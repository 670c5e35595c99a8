"""What ratejob must print for a file, written from documents 01 and 02 alone.

Plain and slow: words and sums are exact integers, reduced modulo 2^32 where the documents say so; digits go by carries; the
table is joined level by level, and then rotated step by step. It shares no code with the library and none with bench/.
"""
import struct
from typing import NamedTuple

Q = 1 << 32
LARGEST = 65_536


class Refusal(Exception):
    """The number that the program answers, and the bound beside it."""

    def __init__(self, number, bound=0):
        super().__init__(number, bound)
        self.number = number
        self.bound = bound


class Job(NamedTuple):
    """A lawful job. The document's L is digit_count; the first `rotating` selectors rotate; a message is a list of classes."""

    n: int
    g: int
    digit_count: int
    m: int
    rotating: int
    amplitudes: list
    blocks: list
    messages: list


def is_power_of_two(x):
    return bin(x).count("1") == 1


def check(number, holds):
    if not holds:
        raise Refusal(number)


def rotating_selectors(n, s, d):
    """A table of single classes with more than ten selectors is packed vertically: consecutive classes fill a sample."""
    return min(n.bit_length() - 1, d) if s == 1 and d > 10 else 0


def parse(data):
    """The job in a file; a refusal from 1 to 7 where the file has a fault."""
    check(5, 28 <= len(data) <= LARGEST and len(data) % 4 == 0)
    words = list(struct.unpack(f"<{len(data) // 4}I", data))
    check(5, words[0] == 5)
    n, g, digit_count, m, s, d = words[1:7]
    check(1, is_power_of_two(n) and n <= 1024)
    check(2, 1 <= g <= 16 and digit_count >= 1 and g * digit_count <= 32)
    check(3, is_power_of_two(m) and 2 <= m <= 65_536)
    check(4, 1 <= s <= n and d <= (16 if s == 1 else 10))

    selector_words, class_words = 1 + 4 * digit_count * n, s * 2**d
    third = 7 + d * selector_words
    check(5, len(words) == third + 1 + class_words and words[third] == class_words)
    selectors = [words[at : at + selector_words] for at in range(7, third, selector_words)]
    amplitudes, blocks = [selector[0] for selector in selectors], [selector[1:] for selector in selectors]
    classes = words[third + 1 :]
    check(6, all(amplitude <= 2**31 for amplitude in amplitudes))
    check(7, all(c < m for c in classes))
    rotating = rotating_selectors(n, s, d)
    held = s * 2**rotating
    messages = [classes[at : at + held] for at in range(0, class_words, held)]
    return Job(n, g, digit_count, m, rotating, amplitudes, blocks, messages)


def noise_bound(job):
    """The sum of the charges. A job file declares no weight of the key: it means n."""
    precision = 2 ** (31 - job.g * job.digit_count) if job.g * job.digit_count < 32 else 0
    return sum(2 * job.digit_count * job.n * 2 ** (job.g - 1) * amplitude + (1 + job.n) * precision for amplitude in job.amplitudes)


def digits(job, word):
    """Digit 1 first. The word is rounded to the nearest multiple of the last step, ties up; then split from the last digit on."""
    step = 2 ** (32 - job.g * job.digit_count)
    rest = (word + step // 2) // step
    result = []
    for _ in range(job.digit_count):
        digit = rest % 2**job.g
        if digit >= 2 ** (job.g - 1):
            digit -= 2**job.g
        result.insert(0, digit)
        rest = (rest - digit) // 2**job.g
    return result


def add_product(total, small, row):
    """Adds small times row modulo X^n + 1: a term that passes the end returns with its sign changed."""
    n = len(row)
    for i, a in enumerate(small):
        if a == 0:
            continue
        for k, b in enumerate(row):
            if i + k < n:
                total[i + k] += a * b
            else:
                total[i + k - n] -= a * b


def gate(job, block, sample0, sample1):
    """sample0 plus the external product of the block with the difference. A sample is a mask and a body."""
    result = [list(polynomial) for polynomial in sample0]
    polynomials = [block[at : at + job.n] for at in range(0, len(block), job.n)]
    rows = zip(polynomials[0::2], polynomials[1::2])
    for polynomial0, polynomial1 in zip(sample0, sample1):
        digits_of_words = [digits(job, (y - x) % Q) for x, y in zip(polynomial0, polynomial1)]
        for small in zip(*digits_of_words):
            mask, body = next(rows)
            add_product(result[0], small, mask)
            add_product(result[1], small, body)
    return [[word % Q for word in polynomial] for polynomial in result]


def rotated(polynomial, q):
    """X^(-q) times it: coefficient t + q comes to t, and those that pass the end change their sign."""
    return polynomial[q:] + [-word % Q for word in polynomial[:q]]


def picked(job):
    """One of the table's samples, and how many gates it took. The lowest selector that doesn't rotate joins samples 2t and 2t + 1,
    the next those results, and so on."""
    samples = []
    for classes in job.messages:
        message = [c * (Q // job.m) for c in classes] + [0] * (job.n - len(classes))
        samples.append([[0] * job.n, message])
    gates = 0
    for block in job.blocks[job.rotating :]:
        gates += len(samples) // 2
        samples = [gate(job, block, samples[t], samples[t + 1]) for t in range(0, len(samples), 2)]
    return samples[0], gates


def lookup(job):
    """The sample, and how many gates it took. Selector i, if it rotates, picks between the sample and X^(-2^i) times it."""
    sample, gates = picked(job)
    for i, block in enumerate(job.blocks[: job.rotating]):
        sample = gate(job, block, sample, [rotated(polynomial, 2**i) for polynomial in sample])
    return sample, gates + job.rotating


def output(data):
    """All that the program prints, as bytes."""
    try:
        job = parse(data)
        bound = noise_bound(job)
        if bound >= 2**31 // job.m:
            raise Refusal(9, bound)
    except Refusal as refusal:
        return f"answer {refusal.number}\nbound {refusal.bound}\n".encode()
    (mask, body), gates = lookup(job)
    lines = ["answer 0", f"bound {bound}", f"gates {gates}"]
    lines += [f"mask {i} {word}" for i, word in enumerate(mask)]
    lines += [f"body {i} {word}" for i, word in enumerate(body)]
    return "".join(line + "\n" for line in lines).encode()
