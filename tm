#!/usr/bin/env python3
"""Runs the program: ./tm scan SETTINGS FILE. On first use, and after a change, it is proved and built before.

./tm --try scan SETTINGS FILE    runs it at once, compiled with checks but not proved: a first look"""
import json
import os
import subprocess
import sys
import time

TOP = os.path.dirname(os.path.realpath(__file__))
CRATE = os.path.join(TOP, "crates", "tm_prog")
PROGRAM = os.path.join(CRATE, "out", "tm_prog")
SOURCES = (".rt", ".antt", "crates.txt")
SHOWN = 30


def say(text):
    print(f"tm: {text}", file=sys.stderr, flush=True)


def is_stale():
    """Whether there is no program, or one older than a source."""
    if not os.access(PROGRAM, os.X_OK):
        return True
    built = os.path.getmtime(PROGRAM)
    for at, folders, files in os.walk(os.path.join(TOP, "crates")):
        folders[:] = [it for it in folders if it != "out"]
        if any(it.endswith(SOURCES) and os.path.getmtime(os.path.join(at, it)) > built for it in files):
            return True
    return os.path.getmtime(os.path.join(TOP, "crates.txt")) > built


def crates_below(name):
    """The crates of the repository on which a crate stands, itself among them."""
    stands_on = {}
    with open(os.path.join(TOP, "crates.txt"), encoding="utf-8") as lines:
        for line in lines:
            crate, colon, on = line.partition("#")[0].partition(":")
            if colon:
                stands_on[crate.split()[0]] = on.split()
    found, waiting = set(), [name]
    while waiting:
        crate = waiting.pop()
        if crate in stands_on and crate not in found:
            found.add(crate)
            waiting += stands_on[crate]
    return found


def prove():
    """Proves and builds the program, and tells how far it is. A program of before is no answer, so it goes first."""
    if os.path.exists(PROGRAM):
        os.remove(PROGRAM)
    waiting = crates_below("tm_prog")
    count, done, started = len(waiting), 0, time.monotonic()
    say(f"the program is proved and built, {count} crates; ./tm --try shows a first output before")
    how = {"stdin": subprocess.DEVNULL, "stdout": subprocess.PIPE, "stderr": subprocess.STDOUT}
    run = subprocess.Popen(["rt", "run"], cwd=CRATE, text=True, errors="replace", **how)
    lines = []
    for line in run.stdout:
        lines.append(line)
        name = line.removeprefix("crate ").partition(":")[0]
        if line.startswith("crate ") and name in waiting:
            waiting.remove(name)
            done += 1
            say(f"{name} is proved, crate {done} of {count}, {(time.monotonic() - started) / 60:.1f} minutes so far")
    run.wait()
    if not os.access(PROGRAM, os.X_OK):
        sys.stderr.write("".join(lines[-SHOWN:]))
        sys.exit(1)


def names_in(settings):
    """The names of files that a settings file has; none where it is not one."""
    try:
        with open(settings, encoding="utf-8-sig") as file:
            value = json.load(file)
        for setting in value["settings"]:
            for key in ("grammar", "theme"):
                yield setting.get(key)
            for key in ("grammars", "injected"):
                yield from setting.get(key, [])
    except (OSError, ValueError, TypeError, KeyError, AttributeError):
        return


def try_now(words):
    """Runs the program with no proof, in a new folder with a copy of each file that it may read."""
    say("not proved: the program is compiled with checks, which takes a minute or two")
    data = []
    for name in dict.fromkeys([*words[1:], *(names_in(words[1]) if len(words) > 1 else [])]):
        if isinstance(name, str) and os.path.isfile(name):
            data += ["--data", f"{name}={os.path.abspath(name)}"]
    run = subprocess.run(["rt", "try", *data, "--", *words], cwd=CRATE, stderr=subprocess.PIPE, text=True, errors="replace")
    # the lines of the compiler are told only where there is no answer
    told = [it for it in run.stderr.splitlines() if not it.startswith(("checked:", "races:", "run="))]
    if told:
        print("\n".join(told[-SHOWN:]), file=sys.stderr)
    return run.returncode


def main():
    words = sys.argv[1:]
    if words[:1] == ["--try"]:
        return try_now(words[1:])
    if is_stale():
        prove()
    os.execv(PROGRAM, [PROGRAM, *words])


if __name__ == "__main__":
    sys.exit(main())
