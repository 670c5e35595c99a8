"""Runs ratejob on every stored vector and on every file of damaged.py, and compares all that it prints.

    python3 -B compare.py PROGRAM

The oracle is compared with the vectors too, so that it stands on them where it judges the other files.
"""
import itertools
import os
import subprocess
import sys
import threading
import time

import damaged
import oracle

# How many vectors are stored, so that the test can't pass without them; and how many seconds a run may take.
VECTORS = 218
LIMIT = 10
JOBS = os.path.join(os.path.dirname(os.path.abspath(__file__)), "jobs")


class Report:
    """Names what fails. A program that fails everywhere, or never ends, isn't run to the last file."""

    MOST = 30

    def __init__(self):
        self.failures = 0

    def judge(self, name, fault):
        if fault is None:
            return
        self.failures += 1
        print(f"ratejob: {name}: {fault}", file=sys.stderr)
        if self.failures == self.MOST:
            sys.exit(f"ratejob: {self.MOST} failures; the rest isn't tried")


def run(program, stdin):
    """What is wrong with the run itself, or None; and the standard output."""
    process = subprocess.Popen([program], stdin=stdin, stdout=subprocess.PIPE, stderr=subprocess.PIPE)
    try:
        printed, complaints = process.communicate(timeout=LIMIT)
    except subprocess.TimeoutExpired:
        process.kill()
        process.communicate()
        return f"no end after {LIMIT} s", b""
    if process.returncode != 0:
        return f"exit status {process.returncode}", printed
    if complaints:
        return f"on standard error: {complaints[:200]!r}", printed
    return None, printed


def feed(pipe, case):
    """Writes a file into a pipe and closes it. The program may stop reading earlier."""
    try:
        with os.fdopen(pipe, "wb") as sink:
            for at in range(0, len(case.data), case.piece):
                if at > 0:
                    time.sleep(case.pause)
                sink.write(case.data[at : at + case.piece])
                sink.flush()
    except BrokenPipeError:
        pass


def run_piped(program, case):
    source, sink = os.pipe()
    feeder = threading.Thread(target=feed, args=(sink, case))
    feeder.start()
    try:
        return run(program, source)
    finally:
        os.close(source)
        feeder.join()


def difference(expected, printed):
    """The first line that differs, or None."""
    pairs = itertools.zip_longest(expected.splitlines(keepends=True), printed.splitlines(keepends=True), fillvalue=b"")
    for number, (wanted, got) in enumerate(pairs, 1):
        if wanted != got:
            return f"line {number} should be {wanted!r} and is {got[:100]!r}"
    return None


def contents(name):
    with open(os.path.join(JOBS, name), "rb") as file:
        return file.read()


def compare_vectors(program, report):
    names = sorted(name[:-4] for name in os.listdir(JOBS) if name.endswith(".job"))
    if len(names) != VECTORS:
        report.judge("vectors", f"there are {len(names)} and should be {VECTORS}")
    for name in names:
        expected = contents(name + ".out")
        with open(os.path.join(JOBS, name + ".job"), "rb") as job:
            fault, printed = run(program, job)
        report.judge(name, fault or difference(expected, printed))
        report.judge(name + ", the oracle", difference(expected, oracle.output(contents(name + ".job"))))
    return len(names)


def compare_damaged(program, report):
    expected, count = {}, 0
    for case in damaged.all_cases():
        if case.data not in expected:
            expected[case.data] = oracle.output(case.data)
        fault, printed = run_piped(program, case)
        report.judge(case.name, fault or difference(expected[case.data], printed))
        count += 1
    return count


def lost_output(program):
    """What is wrong with a run whose output can't be written, or None: it must end, and tell so on standard error."""
    with open("/dev/full", "wb") as full:
        run = subprocess.run([program], input=b"", stdout=full, stderr=subprocess.PIPE, timeout=LIMIT, check=False)
    return None if run.returncode == 0 and run.stderr.endswith(b"could not be written\n") else "an output that is lost isn't told"


def main():
    program, report = sys.argv[1], Report()
    vectors = compare_vectors(program, report)
    files = compare_damaged(program, report)
    report.judge("/dev/full", lost_output(program))
    tried = f"ratejob: {vectors} vectors, {files} damaged and random files"
    if report.failures:
        sys.exit(f"{tried}: {report.failures} failures")
    print(tried)


if __name__ == "__main__":
    main()
