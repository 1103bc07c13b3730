#!/usr/bin/env python3
"""Instructions of the metadata of scopes by a theme of 300 rules, by the program of cases tm_cases_themes.

Wants valgrind, and the program built: `rt run` in crates/tm_cases_themes. The theme is bench/themes/theme.json, which was
written for this: 300 rules over scopes as grammars of some dozen languages name them. The paths are those of
bench/themes/paths.txt, eight names each; an argument takes the first so many alone. A number is the difference of two runs
of a call, one with twice as many calls, so that what the program does besides falls out. `pushed` is the last name of a
path, where the parts above it are known; `known` is the same where what the theme says of that name is known too; `meta` is
the whole path. Prints all for each path, and whether the means are within the targets."""
import json
import os
import re
import subprocess
import sys
import tempfile

TOP = os.path.dirname(os.path.dirname(os.path.abspath(__file__)))
PROGRAM = os.path.join(TOP, "crates", "tm_cases_themes", "out", "tm_cases_themes")
FILES = os.path.join(TOP, "bench", "themes")

CALLS = 100
TARGETS = {"known": 600, "pushed": None, "meta": 5000}
LANGUAGES = [["source.js", 2], ["source.css", 3], ["source.json", 4], ["text.html.basic", 5]]


def theme():
    with open(os.path.join(FILES, "theme.json"), encoding="utf-8") as file:
        return file.read().replace("\n", "").replace('"', "'")


def paths():
    with open(os.path.join(FILES, "paths.txt"), encoding="utf-8") as lines:
        found = [line.strip() for line in lines]
    return found[:int(sys.argv[1])] if len(sys.argv) > 1 else found


def instructions(case):
    with tempfile.NamedTemporaryFile() as out:
        run = subprocess.run(
            ["valgrind", "--tool=callgrind", "--callgrind-out-file=" + out.name, PROGRAM],
            input=case + "\n", capture_output=True, text=True, check=True)
    if run.stdout.startswith("fault") or run.stdout.startswith("Bad"):
        raise SystemExit(run.stdout)
    return int(re.search(r"Collected : (\d+)", run.stderr).group(1))


def slope(make, few):
    """Instructions of one of what `make` makes so many of."""
    return (instructions(make(2 * few)) - instructions(make(few))) / few


def each(call, file, path):
    """Instructions of one such call."""
    file, path, languages = json.dumps(file), json.dumps(path), json.dumps(LANGUAGES)
    return slope(lambda count: "%s_times %d, %s, %s, %s" % (call, count, file, languages, path), CALLS)


def main():
    file = theme()
    rules = json.loads(file.replace("'", '"'))["tokenColors"]
    written = [it.get("scope", []) for it in rules]
    print("%d rules, %d scopes" % (len(rules), sum(1 if isinstance(it, str) else len(it) for it in written)))
    found = {call: [] for call in TARGETS}
    for path in paths():
        for call in TARGETS:
            found[call].append(each(call, file, path))
        print("%5d %5d %6d  %3d %s" % (*(found[call][-1] for call in TARGETS), len(path.split(" ")[-1]), path), flush=True)
    for call, target in TARGETS.items():
        all_of = found[call]
        mean = sum(all_of) / len(all_of)
        print("%s: least %.0f, mean %.0f, greatest %.0f%s" % (
            call, min(all_of), mean, max(all_of),
            "" if target is None else "; target %d: %s" % (target, "met" if mean <= target else "not met")))


if __name__ == "__main__":
    sys.exit(main())
