#!/usr/bin/env python3
"""Instructions of reading scripts, a byte and a step, by the program of cases tm_cases_stores; seconds and peak memory of a
script of a million steps.

Wants valgrind, and the program built: `rt run` in crates/tm_cases_stores. A number of instructions is the difference of two
runs, one with twice the steps, so that what the program does besides falls out; the making of the script is within it."""
import json
import os
import re
import resource
import subprocess
import tempfile
import time

TOP = os.path.dirname(os.path.dirname(os.path.abspath(__file__)))
PROGRAM = os.path.join(TOP, "crates", "tm_cases_stores", "out", "tm_cases_stores")

STEPS = [
    '{"step":"edit","at":[7,0,7,1],"text":"x"}',
    '{"text": "fn main() {", "at": [1203, 14, 1203, 25], "step": "edit"}',
    '{"step":"show","from":17,"to":38}',
    '{"step":"force","line":1203}',
    '{"step":"line"}',
]


def case(step, count):
    return 'script_repeated "", %s, %d, ""\n' % (json.dumps(step + "\n"), count)


def instructions(step, count):
    with tempfile.NamedTemporaryFile() as out:
        run = subprocess.run(
            ["valgrind", "--tool=callgrind", "--callgrind-out-file=" + out.name, PROGRAM],
            input=case(step, count), capture_output=True, text=True, check=True)
    assert run.stdout.startswith("%d steps" % count), run.stdout
    return int(re.search(r"Collected : (\d+)", run.stderr).group(1))


def whole(step):
    begin = time.monotonic()
    answer = subprocess.run([PROGRAM], input=case(step, 1000000), capture_output=True, text=True, check=True).stdout
    assert answer.startswith("1000000 steps"), answer
    return time.monotonic() - begin


def main():
    print("| Step | Bytes | Instructions a step | A byte |\n|---|---|---|---|")
    for step in STEPS:
        size = len(step) + 1
        one = (instructions(step, 20000) - instructions(step, 10000)) / 10000
        print(f"| `{step}` | {size} | {one:,.0f} | {one / size:.1f} |", flush=True)
    print(f"a million edits: {whole(STEPS[0]):.2f} s,",
          f"{resource.getrusage(resource.RUSAGE_CHILDREN).ru_maxrss / 1024:.0f} MB at most")


if __name__ == "__main__":
    main()
