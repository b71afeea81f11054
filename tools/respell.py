#!/usr/bin/env python3
"""Spells the repository's own definitions, lemmas, constructors and fields in snake case, and its facts like types.

usage: tools/respell.py        at the top of the repository, once

It goes by text: a name that a file of specs/ or proofs/ declares and that has a capital or a dash inside is respelled in every .antt file,
in the clauses of every .rt file, in every must-fail edit and between backticks in the documents. A lemma that would get the name of a
definition gets `_lem` behind it. Names that functions of src/ have are left as they are: they are in snake case already.
"""

import collections
import os
import re

# names that would meet another name of their file, and names that stand where no signature shows them
SPECIAL = {"inArray": "of_array", "in-array": "in_array", "to-box": "goes_to_box", "is-reset": "is_reset", "gave-up": "gave_up", "no-event": "no_event"}
KEPT = {"goes_on"}
SIGNATURE = re.compile(r"^( *)((?:(?:abbrev|unfoldable|pub|record|data)\s+)*)([^\s(){}.;,@:\"«»]+)(?: \([^()]*\)| \{[^{}]*\})*\s*:(?!=)", re.M)
USE = re.compile(r"\buse ([^\s;{]+)(\{[^;]*?\}(?=;|[ \t]*$))?", re.M)
TOKEN = re.compile(r"[^\s(){}.;,@\"«»`:]+")
DOCUMENTS = ["README.md", "docs/PROMISES.md", "docs/DECISIONS.md"]


def snake(name):
    return re.sub(r"(?<=[a-z0-9'])[A-Z]", lambda m: "_" + m[0].lower(), name).replace("-", "_")


def files(*endings):
    for folder, dirs, names in os.walk("crates"):
        dirs[:] = sorted(d for d in dirs if d != "out")
        for name in sorted(names):
            if name.endswith(endings):
                yield os.path.join(folder, name)


def read(path):
    with open(path, encoding="utf-8") as f:
        return f.read()


def declared():
    """Each name that is declared, with whether it is a definition of specs/, and whether it is a field or a constructor."""
    names = collections.defaultdict(lambda: [False, False])
    for path in files(".antt"):
        for m in SIGNATURE.finditer(read(path)):
            if m[3][0].islower():
                names[m[3]][0] |= "/specs/" in path and not m[1]
                names[m[3]][1] |= bool(m[1])
        for m in re.finditer(r"[{,] *[^\s,{}]+ as ([^\s,{}]+)", read(path)):
            if m[1][0].islower() and re.search("[A-Z]", m[1]):
                names[m[1]][0] |= False
    return names


def mapping(names):
    new = {}
    taken = {n for n in names if snake(n) == n and n not in SPECIAL}
    camel = [n for n in names if re.search("[A-Z]", n) and n not in SPECIAL]
    for n in camel:
        new[n] = snake(n)
    meets = {snake(n) for n in camel}
    for n in names:
        if n in SPECIAL:
            continue
        elif n in new or n in KEPT:
            continue
        elif snake(n) in meets or snake(n) != n and snake(n) in taken:
            new[n] = snake(n) + "_lem"
        elif snake(n) != n:
            new[n] = snake(n)
    return new | SPECIAL


def of_libraries(text, own):
    """The names that a file brings in from outside the repository."""
    names = set()
    for m in USE.finditer(text):
        steps = m[1].split(".")
        if not (steps[0] == "Rattle" and len(steps) > 1 and steps[1] in own):
            names |= set(TOKEN.findall(m[2] or ""))
    return names


def respell(text, new, fields):
    out, at = [], 0
    paths = [m.span(1) for m in USE.finditer(text)]
    comments = [m.span() for m in re.finditer(r"^ *-- .*$", text, re.M)]
    for m in TOKEN.finditer(text):
        while paths and paths[0][1] <= m.start():
            paths.pop(0)
        if paths and paths[0][0] <= m.start():
            continue
        word = m[0]
        while comments and comments[0][1] <= m.start():
            comments.pop(0)
        if comments and comments[0][0] <= m.start():
            # in a comment's sentence a word with a dash is a word; between backticks it is a name
            if not re.search("[A-Z]", word) and text[comments[0][0]:m.start()].count("`") % 2 == 0:
                continue
        bare = word.rstrip("?!")
        tail = word[len(bare):]
        behind_dot = m.start() > 0 and text[m.start() - 1] == "."
        if bare in new and not (behind_dot and bare not in fields and not re.search("[A-Z]", bare)):
            out.append(text[at:m.start()] + new[bare] + tail)
            at = m.end()
    out.append(text[at:])
    return "".join(out)


def clauses(text, turn):
    """The text with `turn` on ghost lines and on the braces of requires and ensures."""
    out, at = [], 0
    for m in re.finditer(r"^[ \t]*(?:pub )?ghost [^;]*;|\b(?:requires|ensures)\*?(?: \w+)? \{", text, re.M):
        if m.start() < at:
            continue
        end = m.end()
        if m[0].endswith("{"):
            depth = 1
            while depth:
                depth += {"{": 1, "}": -1}.get(text[end], 0)
                end += 1
        out.append(text[at:m.start()] + turn(text[m.start():end]))
        at = end
    out.append(text[at:])
    return "".join(out)


def main():
    names = declared()
    new = mapping(names)
    fields = {n for n in names if names[n][1]}
    own = set(os.listdir("crates"))
    said = []
    lent = set()

    def turn(text):
        return respell(text, {n: s for n, s in new.items() if n not in lent}, fields)

    def write(path, text, old):
        if text != old:
            with open(path, "w", encoding="utf-8") as f:
                f.write(text)

    for path in files(".antt", ".rt", ".edit"):
        old = read(path)
        words = set(TOKEN.findall(old))
        lent = of_libraries(old, own)
        if path.endswith(".rt"):
            for n in sorted(words & set(new)):
                if re.search(rf"\b{re.escape(new[n])}: ", old):
                    said.append(f"look: {path}: {n} becomes {new[n]}, which a parameter or a field is called")
        if path.endswith(".antt"):
            for n in sorted(lent & set(new)):
                said.append(f"look: {path}: {n} stays, since it is a library's")
            for n in sorted(words & set(new)):
                if new[n] in words:
                    said.append(f"look: {path}: {n} becomes {new[n]}, which stands there already")
        if path.endswith(".rt"):
            text = clauses(old, turn)
        elif path.endswith(".edit"):
            lines, code = [], False
            for line in old.split("\n"):
                if line.startswith("file: "):
                    code = line.startswith("file: src/")
                elif re.match("(old|new): ", line):
                    line = clauses(line, turn) if code and not re.search("≡|≤|⌜", line) else turn(line)
                lines.append(line)
            text = "\n".join(lines)
        else:
            text = turn(old)
        if path.startswith("crates/ncp/src/"):
            text = re.sub(r"(?<=[{,] )keeps(?= \(|[,}])", "KeepsState", text)
        if path.startswith("crates/ncp/") and path.endswith(".antt"):
            text = re.sub(r"(?<![.\w-])keeps(?= : State)|(?<=: )keeps(?= )|(?<=[,{] )keeps(?=[,}])|(?<=[×→] )keeps(?= )|^keeps(?= s =)", "KeepsState", text, flags=re.M)
        if path.endswith("diagnosis/proofs/Classified.antt"):
            text = re.sub(r"(?<![.\w])goes_on(?= :| c r start)(?! : Device)", "goes_on_lem", text)
        write(path, text, old)
    lent = set()
    for path in DOCUMENTS:
        old = read(path)
        text = re.sub(r"`[^`\n]+`", lambda m: turn(m[0]) if not re.search(r"[/$]|\.rt\b", m[0]) else m[0], old)
        write(path, text, old)
    print("\n".join(said))
    print(f"{len(new)} names respelled, {len(said)} places to look at")


if __name__ == "__main__":
    main()
