#!/usr/bin/env python3
"""Lists the places of src/ that docs/DESIGN-PASS.md counts, by its points.

usage: tools/places.py [POINT]        at the top of the repository

A line a place, and the count of each point at its end. It goes by text: what is listed is a place to look at.
"""

import collections
import glob
import itertools
import re
import sys

# variants that stand for nothing found, nothing said or a refusal; and those of which an enum of refusals alone is made
NOTHING = {"None", "Nothing", "Unknown", "Other", "Bad", "BadSetup", "BadState", "Misfit", "Unreadable", "Refuse", "Refused", "Stopped",
           "NoMore", "NoOctets", "NoRoom", "Unfinished", "BadLinks"}
REFUSALS = {"BadMark", "CutOff", "OutOfRange", "NoRoom", "Malformed", "Misfit", "ShortList", "BadState", "SmallAssembly", "SmallOutput"}
SENTINEL = re.compile(r"\b(?:0|10|16|more than 9|nothing|the empty one|how many these are|an end of line)\b.* where |above every|has this value\.$")


def sources():
    for name in sorted(glob.glob("crates/*/src/*.rt")):
        yield name, open(name).read()


def functions():
    """Each function: its file, name, comment above, parameters, result, clauses and body."""
    for name, text in sources():
        text = text.split("#[cfg(test)]")[0]
        starts = list(re.finditer(r"(?m)^((?:[ \t]*//[^\n]*\n)*)(?:[ \t]*#\[[^\n]*\n)*[ \t]*(?:pub )?fn (\w+)(?:<[^>]*>)?\(", text))
        for start, after in zip(starts, starts[1:] + [None]):
            part = text[start.end():after.start() if after else len(text)]
            m = re.match(r"(.*?)\)([^\n{]*)", part, re.S)
            body = re.split(r"(?m)^[ \t]*\{\n", part[m.end():], maxsplit=1)
            clauses = body[0] if len(body) == 2 else ""
            parameters = [p.split(":")[0].replace("mut ", "").strip() for p in m[1].split(",") if ":" in p]
            yield name, start[2], start[1], parameters, m[2], clauses, body[-1]


def enums():
    for name, text in sources():
        for m in re.finditer(r"(?ms)^(?:pub )?enum (\w+) \{\n(.*?)^\}", text):
            variants = re.findall(r"(?m)^    (\w+)(\([^\n]*\)| \{)?", m[2])
            yield name, m[1], variants


def point1():
    for name, enum, variants in enums():
        named = {v for v, _ in variants}
        if named & NOTHING and not named <= REFUSALS:
            yield f"{name}: enum {enum}"
    for name, text in sources():
        for m in re.finditer(r"(?m)^\s*(?:pub )?const (\w+): (?:u8|u32) = [0-9x]+;", text):
            if re.search(r"(status|commands)\.rt$", name) or m[1].startswith("NO_") or m[1] in ("TO_BOX", "FROM_BOX"):
                yield f"{name}: const {m[1]}"
        for m in re.finditer(r"(?m)^    (?:pub )?(\w+): bool,", text):
            yield f"{name}: flag {m[1]}"
    for name, function, head, parameters, result, clauses, inner in functions():
        if SENTINEL.search(head.replace("\n", " ")) and re.search(r"-> (?:u8|u32|usize|&\[u8\])", result):
            yield f"{name}: sentinel of {function}"
        if re.search(r"-> bool", result) and re.search(r"(?ms)return true;\n.*^    false\n", inner) and re.search(r"show::|stdout", inner):
            yield f"{name}: whether {function} did something"


def shape(text):
    words = []
    for token in re.findall(r"[A-Za-z_]\w*|\d\w*|[^\sA-Za-z0-9_]", text):
        words.append(token if re.fullmatch(r"if|else|while|loop|for|in|match|return|let|mut|[^\w]", token) else "x")
    return " ".join(words)


def point2():
    seen = collections.defaultdict(list)
    for name, function, head, parameters, result, clauses, inner in functions():
        lines = [l for l in inner.split("\n") if l.strip()]
        if len(lines) >= 3:
            seen[shape(inner)].append(f"{name}: {function}")
    for name, text in sources():
        for m in re.finditer(r"(?ms)^pub struct (\w+) \{\n(.*?)^\}", text):
            fields = re.findall(r"(?m)^    (?:pub )?\w+: ([^\n]*),$", m[2])
            seen["struct " + " ".join("[u8; N]" if t.startswith("[u8;") else t for t in fields)].append(f"{name}: struct {m[1]}")
    for key, places in seen.items():
        if len(places) > 1:
            yield " = ".join(places)


def point3():
    for name, text in sources():
        for number, line in enumerate(text.split("\n"), 1):
            if re.match(r"\s*(?:let \S.* = )?(?:while|loop)\b", line):
                yield f"{name}:{number}: {line.strip()}"


def point4():
    for name, function, head, parameters, result, clauses, inner in functions():
        if re.fullmatch(r"same_\w+|kind_of|command_of|number|step|status|cause|next|print\w*|tell\w*|told|name|why|address_of|digit_of|value", function):
            if re.search(r"same_", function) or re.search(r"match |if ", inner) or function.startswith("print"):
                yield f"{name}: {function}"


def point5():
    facts = collections.defaultdict(set)
    groups = collections.defaultdict(set)
    for name, function, head, parameters, result, clauses, inner in functions():
        place = f"{name.split('/')[1]}::{function}"
        for three in itertools.combinations(sorted(parameters), 3):
            groups[three].add(place)
        for m in re.finditer(r"(?m)requires(?: \w+)? \{(.*)\}\s*$", clauses):
            for fact in re.split(r"\s*×\s*", m[1]):
                facts[fact.strip().strip("()").strip()].add(place)
    for fact, places in facts.items():
        if len(places) >= 3:
            yield f"fact {fact}: {len(places)} functions"
    # of parameters, the largest group for each set of functions
    for places in sorted({frozenset(p) for p in groups.values() if len(p) >= 3}, key=lambda p: sorted(p)):
        together = sorted({n for three, p in groups.items() if places <= p for n in three})
        yield f"parameters {', '.join(together)}: {', '.join(sorted(places))}"


def point6():
    for name, text in sources():
        for m in re.finditer(r"(?ms)^(?:pub )?struct (\w+)[^\n]*\{\n(.*?)^\}", text):
            if re.search(r": \[u\w+; ", m[2]) and re.search(r"\b(len|count): usize", m[2]):
                yield f"{name}: struct {m[1]}, an array and its length"
    for name, function, head, parameters, result, clauses, inner in functions():
        for m in re.finditer(r"let mut (\w+) = \[[^\];]*; [^\]]*\];", inner):
            yield f"{name}: {function}, the buffer {m[1]}"


def point7():
    for name, function, head, parameters, result, clauses, inner in functions():
        if re.search(r"match place\(", inner):
            yield f"{name}: {function}, a match on the number of a word"
        if "told" in parameters or "first_told" in parameters:
            yield f"{name}: {function}, a flag that says what to do"
        if re.search(r"\*table = next\.table;", inner):
            yield f"{name}: {function}, the same step with another call"


def point8():
    for crate in sorted(glob.glob("crates/*/proofs")):
        count = sum(len(open(f).read().split("\n")) - 1 for f in glob.glob(crate + "/**/*.antt", recursive=True))
        answers = len(glob.glob(crate + "/**/Answers.antt", recursive=True))
        yield f"{crate}: {count} lines, {answers} files of answers"


def main():
    points = {"1": point1, "2": point2, "3": point3, "4": point4, "5": point5, "6": point6, "7": point7, "8": point8}
    for key in sys.argv[1:] or sorted(points):
        lines = list(points[key]())
        print(f"# point {key}")
        for line in lines:
            print(line)
        print(f"# point {key}: {len(lines)}")


main()
