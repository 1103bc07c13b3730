#!/usr/bin/env python3
"""Instructions of calls of what is known in tables of several sizes, by the program of cases tm_cases_states.

Wants valgrind, and the program built: `rt run` in crates/tm_cases_states. A table has as many texts, scope lists and states as
the size says, one more or less; its states are stacks of depth 20, and each frame has an end and one name in each list. A number
is the difference of two whole runs, with twice the calls and with the calls, by the calls: what a run does besides falls out."""
import os
import re
import subprocess
import sys

TOP = os.path.dirname(os.path.dirname(os.path.abspath(__file__)))
PROGRAM = os.path.join(TOP, "crates", "tm_cases_states", "out", "tm_cases_states")
CALLS = 1000

# (call, fields after the count, answer): the state that `reintern` adds stands beside state 20, on state 19
ROWS = [
    ("text", "{known}", "{known}"),
    ("push", "0, {known}", "{list}"),
    ("intern", "{state}", "{state}"),
    ("diff", "20, {size}", "1 away, 1 more"),
]


def instructions(size, case, answer):
    """The instructions of a run that fills a table with so many entries and answers one case."""
    lines = [f"states {size + 1}", f"fill {size}", "reintern 7, 19", case]
    run = subprocess.run(
        ["valgrind", "--tool=callgrind", "--callgrind-out-file=/dev/null", PROGRAM],
        input="\n".join(lines) + "\n", capture_output=True, text=True, check=True)
    given = run.stdout.splitlines()[3]
    if given != answer:
        sys.exit(f"{case} answered {given} and not {answer}")
    return int(re.search(r"Collected : (\d+)", run.stderr).group(1))


def measure(size, call, fields, answer):
    """The instructions of one call in a table of so many entries."""
    known = {"size": size, "known": size // 2, "list": size // 2 + 1, "state": size // 2}
    totals = [
        instructions(size, f'times "{call}", {count}, {fields.format(**known)}', answer.format(**known)) for count in (CALLS, 2 * CALLS)
    ]
    return (totals[1] - totals[0]) / CALLS


def main():
    for size in map(int, sys.argv[1:] or ["1000", "100000"]):
        print(size, "entries:", ", ".join(f"{row[0]} {measure(size, *row):.0f}" for row in ROWS), flush=True)
    return 0


if __name__ == "__main__":
    sys.exit(main())
