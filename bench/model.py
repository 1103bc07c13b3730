#!/usr/bin/env python3
"""Instructions of an edit of one line and the settle behind it, in texts of several sizes, by the program of cases
tm_cases_lines, whose small tokenizer makes one token a line.

bench/model.py [LINES ..]    100,000 and 1,000,000 lines, or those named

Wants valgrind, and the program built: `rt run` in crates/tm_cases_lines. A number is the difference of two runs, one with
twice the edits, so that what the program does besides falls out. What the reading and printing of the two acts take is
taken off: an edit that is refused for its place, and `version`, are as long and do next to nothing."""
import json
import os
import re
import subprocess
import sys
import tempfile

TOP = os.path.dirname(os.path.dirname(os.path.abspath(__file__)))
PROGRAM = os.environ.get("PROGRAM", os.path.join(TOP, "crates", "tm_cases_lines", "out", "tm_cases_lines"))
FEW = 50


def instructions(lines, acts):
    case = "model %s, 1000, 16, %s\n" % (json.dumps("a" + "\n" * (lines - 1)), json.dumps(["settle"] + acts))
    with tempfile.NamedTemporaryFile() as out:
        run = subprocess.run(["valgrind", "--tool=callgrind", "--callgrind-out-file=" + out.name, PROGRAM],
                             input=case, capture_output=True, text=True, check=True)
    return int(re.search(r"Collected : (\d+)", run.stderr).group(1))


def each(lines, acts):
    """Instructions of one of the acts, done so many times."""
    return (instructions(lines, acts * 2 * FEW) - instructions(lines, acts * FEW)) / FEW


def main():
    for lines in [int(word) for word in sys.argv[1:]] or (100_000, 1_000_000):
        middle = lines // 2
        idle = each(lines, [[middle, 9, middle, 9, "x"], "version"])
        same = each(lines, [[middle, 0, middle, 0, "x"], "settle"]) - idle
        more = each(lines, [[middle, 0, middle, 0, "\n"], "settle"]) - idle
        force = each(lines, [[middle, 0, middle, 0, "x"], {"force": middle}]) - idle
        print("%d lines: a line by a line and a settle %.0f, and a force %.0f, a line by two and a settle %.0f, %.1f a line behind it"
              % (lines, same, force, more, more / (lines - middle)))


if __name__ == "__main__":
    main()
