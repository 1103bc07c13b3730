#!/usr/bin/env python3
"""random_edits.py [NUMBER ..]

For each number: makes a text of 1,000 lines and a script of 1,000 random edits, lines and shows from
it, runs the program on them, and compares each show with runs on the text as it stood then: a line
that is marked accurate must have the tokens that the fresh run gives. At the end of the script all
lines are done, and its last show must be the fresh run's, byte for byte. Prints a line for each number
and ends with status 1 at the first difference.

Then measures 2,000 edits of the first line of a settled text, each with its line, at 2,000 and at 4,000
lines, as a ratio in one run.
"""
import json
import os
import random
import subprocess
import sys
import tempfile
import time

HERE = os.path.dirname(os.path.abspath(__file__))
PROGRAM = os.path.join(HERE, "..", "crates", "tm_prog", "out", "tm_prog")
GRAMMAR = {"scopeName": "source.t", "patterns": [
    {"match": "let", "name": "keyword.t"},
    {"match": "x", "name": "comment.line.t"},
    {"begin": "q", "end": "p", "name": "comment.block.t", "patterns": [
        {"match": "s", "name": "string.t"},
        {"begin": "r", "end": "p", "name": "meta.embedded.t", "patterns": [
            {"match": "x", "name": "regex.t"}, {"begin": "q", "end": "r", "name": "string.q.t"}]}]}]}
WORDS = ["let", "x", "a", "s", "bb", " ", "  ", "\t", "ab let"]
OPENS_AND_ENDS = ["q", "p", "p", "r"]


def run(folder, text, steps):
    """The printed lines of a run."""
    for name, data in (("t", text.encode()), ("e", "\n".join(map(json.dumps, steps)).encode())):
        with open(os.path.join(folder, name), "wb") as file:
            file.write(data)
    done = subprocess.run([os.path.abspath(PROGRAM), "replay", "s", "t", "e"], cwd=folder,
                          stdout=subprocess.PIPE, stderr=subprocess.PIPE, timeout=600)
    if done.returncode != 0:
        sys.exit(f"status {done.returncode}: {done.stderr.decode()}")
    return done.stdout.decode().splitlines()


def some_text(rng, lines):
    return "\n".join("".join(rng.choice(WORDS if rng.random() < 0.97 else OPENS_AND_ENDS)
                             for _ in range(rng.randrange(6))) for _ in range(lines))


def edit_of(rng, text):
    """A random edit of a text, as a step, and the text after it."""
    lines = text.split("\n")
    first = rng.randrange(len(lines))
    last = min(len(lines) - 1, first + rng.choice([0, 0, 0, 1, 3]))
    places = sorted([(first, rng.randrange(len(lines[first]) + 1)), (last, rng.randrange(len(lines[last]) + 1))])
    new = some_text(rng, rng.choice([1, 1, 1, 2, 4]))
    (a, b), (c, d) = places
    changed = lines[:a] + (lines[a][:b] + new + lines[c][d:]).split("\n") + lines[c + 1:]
    return {"step": "edit", "at": [a, b, c, d], "text": new}, "\n".join(changed)


def shows_in(printed):
    """The shows of a run, each as its lines. A show begins at line 0."""
    shows = []
    for line in printed:
        if line[0] in "=~?":
            if line[2:].split(" ")[0] == "0":
                shows.append([])
            shows[-1].append(line)
    return shows


def fresh(folder, text):
    return shows_in(run(folder, text, [{"step": "line"}] * (text.count("\n") + 1) + [{"step": "show"}]))[-1]


def compare(folder, number):
    rng = random.Random(number)
    opening = text = some_text(rng, 1000)
    steps, texts = [], []
    for _ in range(1000):
        kind = rng.choices(["edit", "line", "show"], [30, 66, 4])[0]
        if kind == "edit":
            step, text = edit_of(rng, text)
            steps.append(step)
        else:
            steps.append({"step": kind})
            if kind == "show":
                texts.append(text)
    steps += [{"step": "line"}] * (text.count("\n") + 2) + [{"step": "show"}]
    texts.append(text)
    began = time.perf_counter()
    printed = run(folder, opening, steps)
    seconds = time.perf_counter() - began
    shows = shows_in(printed)
    assert len(shows) == len(texts), (len(shows), len(texts))
    accurate = 0
    for show, then in zip(shows, texts):
        right = fresh(folder, then)
        assert len(show) == len(right)
        for line, want in zip(show, right):
            if line[0] == "=":
                accurate += 1
                if line != want:
                    sys.exit(f"{number}: {line!r}, and from scratch {want!r}")
    if shows[-1] != fresh(folder, text) or "idle" not in printed:
        sys.exit(f"{number}: the last show differs")
    print(f"{number}: {len(shows)} shows, {accurate} accurate lines, all from scratch; "
          f"the last show is the fresh run's; {seconds:.2f} s")


def growth(folder):
    """Seconds of 2,000 edits with their lines, without those of settling the text, at two sizes."""
    times = []
    for lines in (2000, 4000):
        text = "\n".join(["let x"] * lines)
        base = [{"step": "line"}] * lines
        change = [{"step": "edit", "at": [0, 0, 0, 1], "text": "l"}, {"step": "line"}] * 2000
        taken = []
        for steps in (base, base + change):
            best = min(timed(folder, text, steps) for _ in range(3))
            taken.append(best)
        times.append(taken[1] - taken[0])
    print(f"2,000 edits, each with its line: {times[0]:.3f} s at 2,000 lines, {times[1]:.3f} s at 4,000 "
          f"lines; ratio {times[1] / times[0]:.2f}")


def timed(folder, text, steps):
    began = time.perf_counter()
    run(folder, text, steps)
    return time.perf_counter() - began


def main():
    numbers = [int(word) for word in sys.argv[1:]] or [1, 2, 3]
    with tempfile.TemporaryDirectory() as folder:
        with open(os.path.join(folder, "s"), "w") as file:
            json.dump({"settings": [{"grammar": "g"}]}, file)
        with open(os.path.join(folder, "g"), "w") as file:
            json.dump(GRAMMAR, file)
        for number in numbers:
            compare(folder, number)
        growth(folder)


main()
