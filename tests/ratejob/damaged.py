"""Files for ratejob: no job at all, a job with a fault, a job at a limit or with random words, a file that arrives in pieces.

Nothing is said here of what the program must print: oracle.py says it of each file.
"""
import itertools
import random
import struct
import sys
from typing import NamedTuple

JOB_J = [5, 1, 16, 2, 16, 1, 1, 7, 65536, 0, 1, 0, 0, 65536, 0, 1, 2, 3, 8]
EXTREMES = [0, 1, 2**31, 2**32 - 1]
BUFFER = 65_536


class Case(NamedTuple):
    """A file: what it is, and its bytes. They arrive in pieces of a size, with a pause of so many seconds between two of them."""

    name: str
    data: bytes
    piece: int = sys.maxsize
    pause: float = 0.0


def pack(words):
    return struct.pack(f"<{len(words)}I", *words)


def padded(words, length):
    """The words, then zero bytes up to a length."""
    return pack(words).ljust(length, b"\0")


def replaced(words, place, word):
    return words[:place] + [word] + words[place + 1 :]


def lengths():
    """Job J at every length: cut, or with zeros or another Job J behind it. A bad N tells an early 5 from a late one."""
    job = pack(JOB_J)
    for length in range(101):
        yield Case(f"Job J at {length} bytes", job[:length].ljust(length, b"\0"))
    for length in range(len(job) + 1, 2 * len(job) + 1):
        yield Case(f"Job J twice, at {length} bytes", (job + job)[:length])
    bad = pack(replaced(JOB_J, 1, 3))
    for length in range(len(bad) + 1):
        yield Case(f"Job J with a bad N, at {length} bytes", bad[:length])


def single_words():
    for place in range(len(JOB_J)):
        for word in EXTREMES:
            yield Case(f"Job J, word {place} is {word}", pack(replaced(JOB_J, place, word)))


def numbers():
    """Words 1 to 6 at their limits and beyond, in the shortest file that is judged by them. Lawful ones get 5, for its length."""
    least, greatest, deepest = [5, 1, 1, 1, 2, 1, 0], [5, 1024, 16, 2, 65_536, 1024, 10], [5, 1024, 16, 2, 65_536, 1, 16]
    for words in (least, greatest, deepest):
        yield Case(f"the numbers {words}", pack(words))
        for place in range(1, 7):
            limit = words[place]
            for word in sorted({(limit - 1) % 2**32, limit + 1, 2 * limit}):
                yield Case(f"the numbers {words}, word {place} is {word}", pack(replaced(words, place, word)))
    for g in range(1, 33):
        for digit_count in (32 // g, 32 // g + 1):
            yield Case(f"the gadget g = {g}, L = {digit_count}", pack([5, 1, g, digit_count, 16, 1, 0]))


def depths():
    """How many selectors are lawful goes by the classes of an entry. Up to twelve of them a file has the length for its numbers."""
    for s in range(4):
        for d in range(9, 19):
            words = [5, 2, 16, 1, 4, s, d] + [0] * (9 * d) + [s * 2**d] + [0] * (s * 2**d)
            yield Case(f"s = {s}, d = {d} beside N = 2", pack(words if d < 13 else words[:7]))


# Job J with two selectors: packed horizontally. Eleven selectors, with one class an entry: the lowest one rotates.
TWO_SELECTORS = JOB_J[:6] + [2] + JOB_J[7:16] + JOB_J[7:16] + [4, 3, 8, 15, 0]
ELEVEN_SELECTORS = [5, 2, 16, 2, 16, 1, 11] + ([7] + [65_536, 0, 0, 1] * 4) * 11 + [2048] + [3, 8] * 1024


def faults(words):
    """A fault for each check: its place in the job, and the word."""
    d, selector_words = words[6], 1 + 4 * words[3] * words[1]
    third = 7 + d * selector_words
    return {
        "first word": (0, 6), "N": (1, 3), "g": (2, 17), "L": (3, 3), "M": (4, 17), "s": (5, 2), "d": (6, 17), "length": (6, d - 1),
        "section three count": (third, 3), "amplitude": (third - selector_words, 2**31 + 1), "class": (len(words) - 1, 16),
        "noise": (7, 2**31),
    }


def pairs_of_faults():
    """A fault alone, or two in one file: the lower number is answered, except that a wrong first word goes before all."""
    for job in (TWO_SELECTORS, ELEVEN_SELECTORS):
        for first, second in itertools.combinations_with_replacement(faults(job).items(), 2):
            words = job
            for _, (place, word) in (first, second):
                words = replaced(words, place, word)
            yield Case(f"{job[6]} selectors, faults: {first[0]}, {second[0]}", pack(words))


def random_job(rng, n, g, digit_count, m, s, amplitudes):
    """A lawful job with any words as blocks."""
    d = len(amplitudes)
    words = [5, n, g, digit_count, m, s, d]
    for amplitude in amplitudes:
        words.append(amplitude)
        words += [rng.choice([rng.randrange(2**32), rng.choice(EXTREMES)]) for _ in range(4 * digit_count * n)]
    return words + [s * 2**d] + [rng.randrange(m) for _ in range(s * 2**d)]


GADGETS = [(g, digit_count) for g in range(1, 17) for digit_count in range(1, 33) if 8 <= g * digit_count <= 32]


def random_jobs():
    """Small jobs, with amplitudes that are mostly small enough for acceptance; then jobs that go to a limit."""
    rng = random.Random(1)
    for number in range(100):
        n, (g, digit_count) = 2 ** rng.randrange(4), rng.choice(GADGETS)
        amplitudes = [rng.choice([0, 1, 1, 7, 1000]) for _ in range(rng.randrange(5))]
        words = random_job(rng, n, g, digit_count, 2 ** rng.randrange(1, 6), rng.randrange(1, n + 1), amplitudes)
        yield Case(f"random job {number}", pack(words))
    yield Case("the greatest N", pack(random_job(rng, 1024, 16, 1, 8, 1024, [1])))
    yield Case("the most selectors in the horizontal packing", pack(random_job(rng, 8, 8, 3, 16, 8, [1] * 10)))
    yield Case("the greatest bound of a file", pack(random_job(rng, 512, 16, 1, 2, 1, [2**31] * 7)))
    yield Case("an accepted bound of 2^31/M - 1", pack(random_job(rng, 2, 1, 31, 16, 2, [1_082_401])))


def long_tables():
    """Tables of single classes, packed vertically. A file has room for thirteen selectors, or for eleven with N = 256."""
    rng = random.Random(3)
    for number in range(20):
        n, (g, digit_count) = 2 ** rng.randrange(6), rng.choice([gadget for gadget in GADGETS if gadget[1] <= 4])
        amplitudes = [rng.choice([0, 1, 1, 7, 1000]) for _ in range(rng.randrange(11, 13))]
        yield Case(f"long table {number}", pack(random_job(rng, n, g, digit_count, 2 ** rng.randrange(1, 6), 1, amplitudes)))
    yield Case("the most selectors of a file", pack(random_job(rng, 8, 16, 2, 2, 1, [1] * 13)))
    yield Case("the greatest N of a long table", pack(random_job(rng, 256, 16, 1, 4, 1, [1] * 11)))


def large():
    """Files about as large as the program's buffer. No job has exactly 65,536 bytes; the largest has 65,520."""
    job = random_job(random.Random(2), 512, 16, 1, 2, 511, [1] * 4)
    assert len(pack(job)) == 65_520
    bad = replaced(job, 1, 3)
    yield Case("the largest job", pack(job))
    yield Case("the largest job, in pieces", pack(job), 5_000, 0.01)
    yield Case("the largest job, less a byte", pack(job)[:-1])
    yield Case("the largest job, less a word", pack(job)[:-4])
    for length in (BUFFER - 1, BUFFER, BUFFER + 1, BUFFER + 4, 2 * BUFFER, 1_000_000):
        yield Case(f"{length} zero bytes", bytes(length))
        yield Case(f"Job J, then zeros up to {length} bytes", padded(JOB_J, length))
        yield Case(f"the largest job, then zeros up to {length} bytes", padded(job, length))
        yield Case(f"a bad N in {length} bytes", padded(bad, length))
        yield Case(f"a bad N in {length} bytes, in pieces", padded(bad, length), length // 7, 0.005)
    # The last byte comes alone: after the buffer is full, or as the one that fills it.
    yield Case(f"a bad N in {BUFFER} bytes and one more", padded(bad, BUFFER + 1), BUFFER, 0.1)
    yield Case(f"a bad N in {BUFFER - 1} bytes and one more", padded(bad, BUFFER), BUFFER - 1, 0.1)


def in_pieces():
    job = pack(JOB_J)
    yield Case("Job J, byte by byte", job, 1, 0.002)
    for piece in (3, 4, 27, 28, 75):
        yield Case(f"Job J, {piece} bytes at a time", job, piece, 0.01)


def all_cases():
    for series in (lengths, single_words, numbers, depths, pairs_of_faults, random_jobs, long_tables, large, in_pieces):
        yield from series()
