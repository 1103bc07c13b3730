#!/usr/bin/env python3
"""lint.py [RUNS]

Measures `lint` of the built program over settings files of 1, 16, 32 and 64 settings with one grammar of 300 KB,
RUNS times each (5), and prints the least of the times, peak memory and the lines printed.

The grammar has rules in groups of twenty: match rules, and every fifth a rule with begin and end that lists its
group and the next. One pattern of each group is unreadable. The root lists all groups.
"""
import json
import os
import subprocess
import sys
import tempfile
import time

TOP = os.path.dirname(os.path.dirname(os.path.abspath(__file__)))
PROGRAM = os.path.join(TOP, "crates", "tm_prog", "out", "tm_prog")

GROUP = 20
SIZE = 300_000


def rule(group, place, groups):
    if place % 5 == 0:
        return {"begin": f"\\b(begin{group}_{place})\\s*\\(", "end": "\\)", "name": f"meta.block.g{group}.r{place}",
                "contentName": f"meta.inner.g{group}",
                "patterns": [{"include": f"#group{group}"}, {"include": f"#group{(group + 1) % groups}"}]}
    if place == GROUP - 1:
        return {"match": f"(?<x>\\((?:[^()]|\\g<x>)*\\)){group}", "name": f"meta.unread.g{group}"}
    return {"match": f"(?<![-\\w])(?:word{group}_{place}|other{place})(?:\\s+([a-z_]\\w*))?(?=\\s|;|$)",
            "name": f"keyword.control.g{group}.r{place}"}


def grammar(groups):
    repository = {}
    for group in range(groups):
        repository[f"group{group}"] = {"patterns": [rule(group, place, groups) for place in range(GROUP)]}
    patterns = [{"include": f"#group{group}"} for group in range(groups)]
    return json.dumps({"scopeName": "source.t", "patterns": patterns, "repository": repository})


def grammar_of_size(size):
    groups = 1
    while len(grammar(groups)) < size:
        groups += 1
    return groups, grammar(groups)


def run(words):
    """Seconds, peak memory in kilobytes, and how many lines were printed."""
    begin = time.monotonic()
    process = subprocess.Popen([PROGRAM] + words, stdout=subprocess.PIPE)
    printed = process.stdout.read()
    _, status, usage = os.wait4(process.pid, 0)
    seconds = time.monotonic() - begin
    if os.waitstatus_to_exitcode(status) != 0:
        sys.exit(f"lint.py: {' '.join(words)} ended with {status}")
    return seconds, usage.ru_maxrss, printed.count(b"\n")


def main():
    runs = int(sys.argv[1]) if len(sys.argv) > 1 else 5
    groups, text = grammar_of_size(SIZE)
    with tempfile.TemporaryDirectory() as folder:
        name = os.path.join(folder, "grammar.json")
        with open(name, "w", encoding="utf-8") as file:
            file.write(text)
        print(f"grammar: {len(text)} bytes, {groups * (GROUP + 1) + 1} rules")
        for settings in (1, 16, 32, 64):
            path = os.path.join(folder, f"settings{settings}.json")
            with open(path, "w", encoding="utf-8") as file:
                json.dump({"settings": [{"grammar": name}] * settings}, file)
            results = [run(["lint", path]) for _ in range(runs)]
            seconds = min(result[0] for result in results)
            print(f"lint of {settings} settings: {seconds:.3f} s, {results[0][1] / 1024:.1f} MB, {results[0][2]} lines")


if __name__ == "__main__":
    main()
