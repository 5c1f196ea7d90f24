#!/usr/bin/env python3
"""Every line of the vectors through `janorembe check --json`, against a second walk over its text.

    cli/tests/places.py PROGRAM

For each text: number and place of a refusal as recorded; each diagnostic's record as recorded, and its line, column and token by
the walk below, which shares nothing with the tool. A line whose buffers were too short (numbers 2, 8 and 9) has no recorded
answer for longer ones; its places are compared all the same. The last line is `N texts, M diagnostics, 0 differ`."""
import json
import os
import re
import subprocess
import sys
import tempfile

ROOT = os.path.join(os.path.dirname(os.path.abspath(__file__)), "..", "..")
FILES = ["base.txt", "generated.txt", "damaged.txt", "original.txt"]
AT_TOKEN, AT_SECOND, AT_LABEL, AT_KEYWORD = range(4)
MARKED = {1: AT_LABEL, 11: AT_SECOND, 13: AT_KEYWORD}
NOTED = {1, 5, 6, 8, 11, 12}


def unhex(field):
    return b"" if field == "-" else bytes.fromhex(field)


def vectors():
    for name in FILES:
        with open(os.path.join(ROOT, "vectors", name), encoding="ascii") as lines:
            for line in lines:
                if not line.startswith("#") and line.strip():
                    yield line.split()


def split(text):
    """The tokens that stand in no comment, each with its offset."""
    out, inside = [], False
    for found in re.finditer(rb"[^\t\n\f\r ]+", text):
        token = found.group()
        if inside:
            inside = token != b"$)"
        elif token == b"$(":
            inside = True
        else:
            out.append((found.start(), token))
    return out


def statements(text):
    """For each statement's offset: label or nothing, keyword, math tokens."""
    out, held = {}, []
    for at, token in split(text):
        if not held and token in (b"${", b"$}"):
            continue
        held.append((at, token))
        if token == b"$.":
            labelled = not held[0][1].startswith(b"$")
            body = held[2 if labelled else 1:-1]
            words = [token for _, token in body]
            math = body[:words.index(b"$=")] if b"$=" in words else body
            out[held[0][0]] = (held[0] if labelled else None, held[1 if labelled else 0], math)
            held = []
    return out


def place(text, at, token):
    before = text[:at]
    return {"offset": at, "line": before.count(b"\n") + 1, "column": at - (before.rfind(b"\n") + 1) + 1,
            "token": token.decode("ascii")}


def token_at(text, at):
    return at, re.match(rb"[^\t\n\f\r ]+", text[at:]).group()


def expected(text, record, found):
    """Where a diagnostic is, and where its note is."""
    kind, statement, index, other = record
    label, keyword, math = found[statement]
    where = MARKED.get(kind, AT_TOKEN)
    marked = {AT_TOKEN: lambda: math[index], AT_SECOND: lambda: math[1], AT_LABEL: lambda: label, AT_KEYWORD: lambda: keyword}[where]()
    note = None
    if kind in NOTED:
        note = place(text, *(math[other] if kind == 8 else token_at(text, other)))
    return place(text, *marked), note


def bare(shown):
    return shown and {key: shown[key] for key in ("offset", "line", "column", "token")}


def wrong_refusal(text, fields, answer):
    number, at = answer["number"], answer["place"]
    recorded = int(fields[5]), int(fields[6])
    if recorded[0] != 2 and recorded != (number, at):
        return True
    shown = answer["at"]
    before = text[:at]
    return (shown["offset"], shown["line"], shown["column"]) != (at, before.count(b"\n") + 1, at - before.rfind(b"\n"))


def compare(fields, text, answers):
    """The number of diagnostics, and whether something differs."""
    if answers[-1]["type"] == "refused":
        return 0, wrong_refusal(text, fields, answers[0]) or len(answers) != 1
    differs = answers[-1]["type"] != "checked" or int(fields[5]) not in (0, 2, 8, 9)
    diagnostics = answers[:-1]
    if int(fields[5]) == 0:
        stream = unhex(fields[8])
        recorded = [[int.from_bytes(stream[at + a:at + b], "little") for a, b in ((4, 6), (6, 10), (10, 14), (14, 18))]
                    for at in range(0, len(stream), 18)]
        differs |= recorded != [d["record"] for d in diagnostics]
    found = statements(text)
    for d in diagnostics:
        differs |= expected(text, d["record"], found) != (bare(d["at"]), bare(d.get("note_at")))
    return len(diagnostics), differs or answers[-1]["diagnostics"] != len(diagnostics)


def run(program, folder, lines):
    """What the tool writes for each text, by file name."""
    for place, fields in enumerate(lines):
        with open(os.path.join(folder, str(place)), "wb") as out:
            out.write(unhex(fields[1]))
    names = [str(place) for place in range(len(lines))]
    done = subprocess.run([program, "check", "--json", *names], cwd=folder, stdout=subprocess.PIPE, check=False)
    if done.returncode > 2:
        sys.exit(f"status {done.returncode}")
    answers = {}
    for line in done.stdout.splitlines()[1:]:
        answer = json.loads(line)
        answers.setdefault(answer["file"], []).append(answer)
    return [answers[name] for name in names]


def main():
    program = os.path.abspath(sys.argv[1])
    lines = list(vectors())
    total, differing = 0, []
    with tempfile.TemporaryDirectory() as folder:
        for fields, answers in zip(lines, run(program, folder, lines)):
            count, differs = compare(fields, unhex(fields[1]), answers)
            total += count
            if differs:
                differing.append(fields[0])
    for name in differing:
        print(name)
    print(f"{len(lines)} texts, {total} diagnostics, {len(differing)} differ")
    sys.exit(1 if differing else 0)


main()
