#!/usr/bin/env python3
"""Instructions of stores and texts at two sizes, and texts at their limit, by the program of cases tm_cases_stores.

Wants valgrind, and the program built: `rt run` in crates/tm_cases_stores. A number is the difference of two runs, one with
twice the steps, so that what the program does besides falls out; of `put` and `replace` the reading of a step of the case is
taken off, which is measured by a step of as many fields that does little."""
import json
import os
import re
import subprocess
import sys
import tempfile

TOP = os.path.dirname(os.path.dirname(os.path.abspath(__file__)))
PROGRAM = os.path.join(TOP, "crates", "tm_cases_stores", "out", "tm_cases_stores")

# (case, answer): one character more than there may be is refused; a line break counts as one
LIMITS = [
    ('repeat "%s", 16384' % ("a" * 1024), "lines 1"),
    ('repeat "%s", 24929' % ("a" * 673), "full at 16777217"),
    ('repeat "%s", 16400' % ("a" * 1022 + "\\r\\n"), "lines 16401"),
    ('repeat "%s", 16401' % ("a" * 1022 + "\\r\\n"), "full at 16778223"),
    ('grow 16777216, ""', "first 0 old 1 new 1; lines 1"),
    ('grow 16777215, "x"', "first 0 old 1 new 1; lines 1"),
    ('grow 16777215, "\\r\\n"', "first 0 old 1 new 2; lines 2"),
    ('grow 16777216, "x"', "full at 16777217; lines 1"),
    ('grow 16777215, "\\n\\r"', "full at 16777217; lines 1"),
]


def answer(case):
    return subprocess.run([PROGRAM], input=case + "\n", capture_output=True, text=True, check=True).stdout.strip()


def instructions(case):
    with tempfile.NamedTemporaryFile() as out:
        run = subprocess.run(
            ["valgrind", "--tool=callgrind", "--callgrind-out-file=" + out.name, PROGRAM],
            input=case + "\n", capture_output=True, text=True, check=True)
    return int(re.search(r"Collected : (\d+)", run.stderr).group(1))


def each(make, few):
    """Instructions of one of what `make` makes so many of."""
    return (instructions(make(2 * few)) - instructions(make(few))) / few


def steps(lines, step, start=()):
    return lambda count: "store %d, %s" % (lines, json.dumps(list(start) + [step(i) for i in range(count)]))


def main():
    wrong = [(case[:20], given, want) for case, want in LIMITS if (given := answer(case)) != want]
    print("limits: %d right, %d wrong" % (len(LIMITS) - len(wrong), len(wrong)), *wrong)
    idle = each(steps(3, lambda i: ["block", 0, 7, 5]), 1000)
    for lines in (100_000, 1_000_000):
        print(lines, "lines: new %.0f a line" % (instructions("store %d, []" % lines) / lines), end=", ")
        print("put %.0f" % (each(steps(lines, lambda i: ["put", i, 7, 5]), 1000) - idle), end=", ")
        print("front with its step %.0f" % each(steps(lines, lambda i: ["front"]), 1000), end=", ")
        print("replace by as many %.0f" % (each(steps(lines, lambda i: ["replace", 5, 1, 1]), 10) - idle), end=", ")
        print("by one more %.1f a line" % (each(steps(lines, lambda i: ["replace", 5, 1, 2]), 10) / lines))
    for name, piece in (("of 19", "let x = alpha + 1;\\n" * 50), ("of 40", "let x = alpha + beta * gamma + delta12;\\n" * 25), ("of 950,000", "a" * 950)):
        size = len(json.loads('"%s"' % piece))
        print("bytes in lines %s: %.1f a byte" % (name, each(lambda count: 'repeat "%s", %d' % (piece, count), 500) / size))
    return 1 if wrong else 0


if __name__ == "__main__":
    sys.exit(main())
