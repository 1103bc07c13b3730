#!/usr/bin/env python3
"""Instructions of a worker's lines and of its posts, by the program of cases tm_cases_workers; a text at its limit.

Wants valgrind, and the program built: `rt run` in crates/tm_cases_workers. A number is the difference of two whole runs, by the
lines: what a run does besides falls out. The tokenizer does next to nothing, so that what a worker adds to a line weighs most."""
import json
import os
import re
import subprocess
import sys

TOP = os.path.dirname(os.path.dirname(os.path.abspath(__file__)))
PROGRAM = os.path.join(TOP, "crates", "tm_cases_workers", "out", "tm_cases_workers")
LINES = int((sys.argv[1:] or ["100000"])[0])

# what stands so many times: every line as the one before, one frame opened and closed, and four of them
TEXTS = {"a line leaves its state": ("a\n", 1), "a line opens or closes a frame": ("ab\n\n", 2), "four open, one closes": ("ab\nab\nab\nab\n\n", 5)}

FULL = [{"each": "a" * 1024, "times": 16384}, 100, 10]
LIMITS = [
    (FULL + [[[1, 0, 0, 0, 0, "x"], [2, 0, 0, 0, 0, "x"], [1, 9, 0, 0, 0, "x"], [1, 0, 0, 0, 1, "x"]]],
     "text full at 16777217; gap between 0 and 2; line 9 is not one of 1; obeyed"),
]


def run(case, *tool):
    return subprocess.run([*tool, PROGRAM], input=case + "\n", capture_output=True, text=True, check=True)


def instructions(side, text, turns, answer):
    """The instructions of a run that answers one case."""
    case = f"many {json.dumps(side)}, {json.dumps(text)}, {turns}"
    done = run(case, "valgrind", "--tool=callgrind", "--callgrind-out-file=/dev/null")
    if done.stdout.strip() != answer:
        sys.exit(f"{case} answered {done.stdout.strip()} and not {answer}")
    return int(re.search(r"Collected : (\d+)", done.stderr).group(1))


def measure(piece, lines):
    """Instructions of a line in the foreground, of one of a worker, and of one of a post."""
    text = {"each": piece, "times": LINES // lines}
    none = {side: instructions(side, text, 0, "done 0, posted 0") for side in ("model", "worker")}
    model = instructions("model", text, LINES, f"done {LINES}, posted 0") - none["model"]
    worker = instructions("worker", text, LINES, f"done {LINES}, posted 0")
    post = instructions("post", text, LINES, f"done {LINES}, posted {LINES}") - worker
    return model / LINES, (worker - none["worker"]) / LINES, post / LINES


def main():
    wrong = [given for case, want in LIMITS if (given := run("worker " + json.dumps(case)[1:-1]).stdout.strip()) != want]
    print("limits: %d right, %d wrong" % (len(LIMITS) - len(wrong), len(wrong)), *wrong)
    for name, (piece, lines) in TEXTS.items():
        model, worker, post = measure(piece, lines)
        print(f"{LINES} lines, {name}: foreground {model:.0f}, worker {worker:.0f} ({worker / model:.3f} times), post {post:.0f}", flush=True)
    return 1 if wrong else 0


if __name__ == "__main__":
    sys.exit(main())
