#!/usr/bin/env python3
"""A stand-in for dapseq_faults in the tests: of the one set of a job it finds the first `??` of each text, or else each loop without end.

Of the set it knows less than the program: the sequences of each level in order, those for another processor left out.
"""

import json
import sys


def texts_of(steps, path=()):
    """The texts of steps: the numbers that lead to each step, its part, and the text."""
    for number, step in enumerate(steps):
        here = [*path, number]
        for part in ("if", "while", "block"):
            if part in step:
                yield here, part, step[part]
        if step.get("while") == "for ever":
            yield here, "control", None
        yield from texts_of(step.get("control", []), here)


def levels_of(pack, variant):
    yield pack.get("defaults", {})
    level = pack["families"][0]
    yield level
    for key in ("subFamilies", "devices"):
        if key in level:
            level = level[key][0]
            yield level
    yield from (it for it in level.get("variants", []) if it["Dvariant"] == variant)


def place(text):
    """The line and column of the first fault of a text, counting bytes."""
    before = text[:text.index("??")].encode()
    return {"line": before.count(10) + 1, "column": len(before) - before.rfind(10)}


def fault(kind, sequence, path, part, text):
    at = place(text) if text else {"line": 0, "column": 0}
    return {"kind": kind, "name": None, "sequence": sequence, "path": path, "part": part, **at}


def faults(job, words):
    names = dict(zip(words[::2], words[1::2]))
    levels = list(levels_of(job["pack"], names.get("--variant")))
    debugvars = [level["debugvars"] for level in levels if "debugvars" in level][-1:]
    texts = [(None, [], "debugvars", text) for text in debugvars]
    for level in levels:
        for sequence in level.get("sequences", []):
            if sequence.get("Pname") in (None, names.get("--pname")):
                texts += [(sequence["name"], *found) for found in texts_of(sequence["steps"])]
    bad = [fault("Syntax", *it) for it in texts if it[3] and "??" in it[3]]
    return bad or [fault("UnboundedLoop", *it) for it in texts if it[3] is None]


def answer(job, words):
    return json.dumps({"faults": faults(job, words)})


if __name__ == "__main__":
    print(answer(json.load(sys.stdin.buffer), sys.argv[1:]))
