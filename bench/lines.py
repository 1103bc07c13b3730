#!/usr/bin/env python3
"""lines.py [RUNS]

Measures whole runs of the built program over generated texts, RUNS times each (5), and prints the least
of the times:

- `replay` of one settle and one show over 10,000 and 20,000 lines, by a grammar of five patterns;
- `scan` of 100,000 and 200,000 short lines by the ini grammar of examples/: a text file of the form that is
  built has at most 1,000,000 bytes, so a line has four characters at most;
- `scan` of 50,000 and 100,000 lines of nine characters at most by a grammar of forty patterns;
- `scan` of 5,000 and 10,000 lines of usual code, of 80 and 84 characters, by the same grammar.

Peak memory is that of the program's process, as the system counts it.
"""
import json
import os
import subprocess
import sys
import tempfile
import time

TOP = os.path.dirname(os.path.dirname(os.path.abspath(__file__)))
PROGRAM = os.path.join(TOP, "crates", "tm_prog", "out", "tm_prog")

FIVE = {"scopeName": "source.t", "patterns": [
    {"match": "\\b(?:let|be|if|then|else)\\b", "name": "keyword.t"},
    {"match": "\\d+", "name": "constant.t"},
    {"begin": "\"", "end": "\"|\\n", "name": "string.t"},
    {"begin": "/\\*", "end": "\\*/", "name": "comment.block.t"},
    {"match": "//.*", "name": "comment.line.t"},
]}

FIVE_LINES = ["let a be 12", "if \"x y\" then b", "/* a note", "goes on */ else 7", "name = 44 // rest",
              "plain words here", ""]

INI_LINES = ["; ab", "[ab]", "a=12", "b=\"x", "c= 1", "", "#"]


WORDS = ["as", "do", "for", "if", "in", "let", "be", "new", "of", "or", "try", "use", "var", "with", "and", "not",
         "case", "else", "enum", "from", "goto", "loop", "move", "next", "pub", "self", "then", "this", "type", "void"]

FORTY = {"scopeName": "source.t", "patterns": [
    {"begin": "/\\*", "end": "\\*/", "name": "comment.block.t"},
    {"match": "//.*", "name": "comment.line.t"},
    {"begin": "\"", "end": "\"|$", "name": "string.t", "patterns": [{"match": "\\\\.", "name": "constant.t"}]},
    {"match": "'(?:\\\\.|[^'])'", "name": "string.t"},
    {"match": "\\b0x\\h+\\b", "name": "constant.t"},
    {"match": "\\b\\d+(?:\\.\\d+)?\\b", "name": "constant.t"},
    {"match": "\\b\\w+(?=\\()", "name": "entity.t"},
    {"match": "(?<=\\.)\\w+", "name": "variable.t"},
    {"match": "\\b[A-Z]\\w*", "name": "support.t"},
    *({"match": f"\\b{word}\\b", "name": "keyword.t"} for word in WORDS),
    {"match": "[-+*/=<>]+", "name": "operator.t"},
]}

FORTY_LINES = ["let a = 1", "if f(x) :", "a.b = 0x1", "/* b */ c", "x // note", "\"a\\n\" of", "T new", ""]

# usual code, lines of 80 and 84 characters
USUAL_LINES = ["    if (count > 0x1F && table.has(name)) { return new Value(key, \"a\\n\", 12.5); }",
               "    for item in list.items() { total = total + item.size * 2; log(\"done\", item.id) }"]


def written(folder, name, data):
    path = os.path.join(folder, name)
    with open(path, "w", encoding="utf-8") as file:
        file.write(data)
    return path


def text_of(lines, count):
    return "\n".join(lines[i % len(lines)] for i in range(count))


def run(words):
    """Seconds, peak memory in kilobytes, and how many lines were printed."""
    begin = time.monotonic()
    process = subprocess.Popen([PROGRAM] + words, stdout=subprocess.PIPE)
    printed = process.stdout.read()
    _, status, usage = os.wait4(process.pid, 0)
    seconds = time.monotonic() - begin
    if os.waitstatus_to_exitcode(status) != 0:
        sys.exit(f"lines.py: {' '.join(words)} ended with {status}")
    return seconds, usage.ru_maxrss, printed.count(b"\n")


def table(title, sizes, words, runs):
    print(title)
    times = []
    for size in sizes:
        results = [run(words(size)) for _ in range(runs)]
        seconds = min(result[0] for result in results)
        times.append(seconds)
        print(f"  {size} lines: {seconds:.3f} s, {size / seconds:.0f} lines a second, "
              f"{results[0][1] / 1024:.1f} MB, {results[0][2]} printed")
    print(f"  ratio {times[1] / times[0]:.2f}")


def main():
    runs = int(sys.argv[1]) if len(sys.argv) > 1 else 5
    with tempfile.TemporaryDirectory() as folder:
        grammar = written(folder, "five.json", json.dumps(FIVE))
        five = written(folder, "five_settings.json", json.dumps({"settings": [{"grammar": grammar}]}))
        ini = os.path.join(TOP, "examples", "ini", "ini.json")
        ini_settings = written(folder, "ini_settings.json", json.dumps({"settings": [{"grammar": ini}]}))
        script = written(folder, "script.jsonl", '{"step":"settle"}\n{"step":"show"}\n')

        def replay(size):
            text = written(folder, f"five_{size}.txt", text_of(FIVE_LINES, size))
            return ["replay", five, text, script]

        def scan(size):
            text = written(folder, f"ini_{size}.txt", text_of(INI_LINES, size))
            return ["scan", ini_settings, text]

        forty = written(folder, "forty.json", json.dumps(FORTY))
        forty_settings = written(folder, "forty_settings.json", json.dumps({"settings": [{"grammar": forty}]}))

        def scan_forty(size):
            text = written(folder, f"forty_{size}.txt", text_of(FORTY_LINES, size))
            return ["scan", forty_settings, text]

        def scan_usual(size):
            text = written(folder, f"usual_{size}.txt", text_of(USUAL_LINES, size))
            return ["scan", forty_settings, text]

        table("replay, five patterns", (10_000, 20_000), replay, runs)
        table("scan, ini grammar", (100_000, 200_000), scan, runs)
        table("scan, forty patterns", (50_000, 100_000), scan_forty, runs)
        table("scan, forty patterns, usual code", (5_000, 10_000), scan_usual, runs)


if __name__ == "__main__":
    main()
