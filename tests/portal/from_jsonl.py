#!/usr/bin/env python3
"""Writes the calls of a file of JSON lines as lines that a C program reads simply.

    python3 from_jsonl.py CALLS.jsonl > calls.txt

A line of the input has the call's name, its arguments (numbers by value, slices as hex, the
written ones as they were before), its number, bound and gates, and the written slices as they
must be afterwards. Calls that the table doesn't list are left out. A number that LEFT_OUT lists
can be missing: the call was made before there was such a number.
"""
import json
import sys

# Name in the input: name in the output, then the numbers, the slices that are only read and
# the slices that are written, each in the order of the C call.
TABLE = {
    "encrypt_classes": ("encrypt_classes", "N M s", "key mask errors classes", "out"),
    "decrypt_packed": ("decrypt_classes", "N M s", "key sample", "out"),
    "decrypt_scalar": ("decrypt_scalar", "N M", "key sample", "out"),
    "extract": ("extract", "N p", "sample", "out"),
    "encrypt_selector": ("encrypt_selector", "N g L bit", "key masks errors", "out"),
    "external_product": ("external_product", "N g L W A A_in", "block sample", "out"),
    "gate": ("cmux", "N g L W A A0 A1", "block sample0 sample1", "out"),
    "lookup": ("lookup", "N g L W M s d", "blocks amps classes", "out work"),
    "lookup_vertical": ("lookup_vertical", "N g L W M s d", "blocks amps classes", "out work"),
    "lookup_hidden": ("lookup_hidden", "N g L W M s d", "blocks amps samples entry_amps", "out work"),
    "lookup_hidden_vertical": (
        "lookup_hidden_vertical", "N g L W M s d", "blocks amps samples entry_amps", "out work",
    ),
}

# What a number is that an earlier call didn't take: any key was as heavy as its degree allows.
LEFT_OUT = {"W": lambda arguments: arguments["N"]}

HEADER = """\
# Calls made by another implementation of the scheme, which shares no code with this one; written by from_jsonl.py.
# Fields, by spaces: the call's name; its numbers; its slices, in order, before the call; the returned number, the bound,
# the gates; the written slices, in order, after the call. A slice is the hex of its bytes; or 'XX*COUNT', so many bytes
# that are all the same; or '-', none. And it is '=' where it is as it was: before the call, as in the last line of this
# call; after it, as before. The last line has the number of calls."""


def written_out(slice_):
    """A slice by itself. One byte again and again is counted."""
    count = len(slice_) // 2
    return f"{slice_[:2]}*{count}" if count > 2 and slice_ == slice_[:2] * count else slice_ or "-"


def field(slice_, earlier):
    return "=" if slice_ and slice_ == earlier else written_out(slice_)


def line(call, last):
    """The line of a call; the one before it of the same name had these arguments."""
    name, numbers, read, written = TABLE[call["call"]]
    arguments, after, slices = call["args"], call["after"], (read + " " + written).split()
    for number in set(numbers.split()) & set(LEFT_OUT) - set(arguments):
        arguments[number] = LEFT_OUT[number](arguments)
    assert sorted(numbers.split() + slices) == sorted(arguments) and sorted(written.split()) == sorted(after)
    fields = [name] + [arguments[n] for n in numbers.split()] + [field(arguments[n], last.get(n)) for n in slices]
    fields += [call["code"], call["bound"], call["gates"]] + [field(after[n], arguments[n]) for n in written.split()]
    return " ".join(map(str, fields))


def lines(calls):
    last = {}
    for call in calls:
        yield line(call, last.get(call["call"], {}))
        last[call["call"]] = call["args"]


def main(path):
    with open(path) as source:
        calls = [json.loads(text) for text in source]
    written = list(lines(call for call in calls if call["call"] in TABLE))
    print(HEADER)
    print("\n".join(written))
    print("end", len(written))


main(sys.argv[1])
