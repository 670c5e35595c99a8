#!/usr/bin/env python3
"""Lists the conditional jumps of the library in a program that is linked with it: address and function, a line each.

    jumps.py PROGRAM ARCHIVE

Their outcomes are the path of a call, as long as nothing else decides where it goes. So this ends with status 1 if the library
jumps to an address that it computes, has an instruction that repeats, or calls a function of another library but memcpy and memset.
"""

import re
import subprocess
import sys

CONDITIONAL = re.compile(r"j(?!mp)[a-z]+")
OTHER_WAYS = re.compile(r"(?:jmp|call)q? +\*|loop|rep|j[er]?cxz|xbegin|syscall")
SEEN = {"memcpy", "memset", "_GLOBAL_OFFSET_TABLE_"}


def output(*command):
    return subprocess.run(command, check=True, capture_output=True, text=True).stdout


def symbols(archive, kinds):
    """The names in an archive that nm gives one of these letters."""
    matches = re.finditer(rf"^[0-9a-f ]* [{kinds}] (.*)$", output("nm", archive), re.M)
    return {match[1] for match in matches}


def instructions(program):
    """Function, address and text of each instruction of a program."""
    function = ""
    for line in output("objdump", "-d", "--no-show-raw-insn", program).splitlines():
        header = re.fullmatch(r"[0-9a-f]+ <(.*)>:", line)
        instruction = re.fullmatch(r" *([0-9a-f]+):\t(.*)", line)
        if header:
            function = header[1]
        elif instruction:
            yield function, instruction[1], instruction[2]


def main():
    program, archive = sys.argv[1:]
    functions = symbols(archive, "tT")
    code = [(name, address, text) for name, address, text in instructions(program) if name in functions]
    strange = sorted(symbols(archive, "U") - symbols(archive, "A-TV-Za-z") - SEEN)
    strange += [f"{name}: {text}" for name, _, text in code if OTHER_WAYS.search(text.split("<")[0])]
    if strange or not code:
        print("jumps.py: can't follow", "; ".join(strange) or "a library without functions", file=sys.stderr)
        return 1
    for name, address, text in code:
        if CONDITIONAL.match(text):
            print(address, name.replace(" ", "_"))
    return 0


if __name__ == "__main__":
    sys.exit(main())
