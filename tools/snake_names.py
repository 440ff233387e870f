#!/usr/bin/env python3
"""Gives the repository's own definitions, fields and lemmas (specs/ and proofs/) the library's spelling: words in snake case, types
and their constructors in camel case. Run once, at the top, after the kit's own script. Functions of src/, strings and comments'
plain words keep their text.

usage: tools/snake_names.py [--list]      --list prints the renamings and changes nothing"""
import os
import re
import sys

NAME = r"[A-Za-z][\w'-]*"
TOKEN = re.compile(r"(?<![\w'-])" + NAME + r"(?![\w'-])")
# Where the plain rule would give two things one name: the function of that name in src/, or a word of the library.
OTHERWISE = {
    "addressBelow": "address_under",
    "atRest": "is_at_rest",
    "directoryEnd": "end_of_directory",
    "executed-by": "executed_by_class",
    "first-closed": "first_closed_at",
    "inBase": "number_in_base",
    "isOpen": "cell_is_open",
    "readAt": "reads_at",
    "shown-at": "shown_at_last",
    "wordsBefore": "words_up_to",
}
# Parameters of definitions, which no signature names.
PARAMETERS = {"flagsAfter", "pcAfter", "registersAfter"}


def files(*ends):
    for folder, _, names in os.walk("crates"):
        for name in sorted(names):
            if name.endswith(ends):
                yield os.path.join(folder, name)


def own_names():
    """What specs/ and proofs/ define: heads of signatures, fields of records, constructors, types."""
    found = set(PARAMETERS)
    for path in files(".antt"):
        if path.endswith("/Answers.antt") or path.endswith("/Invariants.antt") or path.endswith("/Lib.antt"):
            continue
        for line in open(path, encoding="utf-8"):
            m = re.match(r"(?:abbrev\s+)?(?:pub\s+)?(" + NAME + r")\s*(?:\{[^}]*\}\s*)*:\s", line)
            m = m or re.match(r"(?:pub\s+)?(?:record|data)\s+(" + NAME + r")", line)
            m = m or re.match(r"\s+pub\s+(" + NAME + r")\s*:", line)
            m = m or re.match(r"\s+(" + NAME + r")\s*:\s", line)
            if m:
                found.add(m[1])
    return found


def spelled(name):
    if name in OTHERWISE:
        return OTHERWISE[name]
    parts = name.split("-")
    if name[0].isupper():
        return "".join(p[:1].upper() + p[1:] for p in parts)
    return "_".join(re.sub(r"(?<=[a-z0-9])([A-Z])", lambda m: "_" + m[1].lower(), p) for p in parts)


def renamings():
    return {n: s for n in sorted(own_names()) if (s := spelled(n)) != n}


def turned(text, names, comment, plain):
    """The text with the names replaced: not in strings, and in comments only those that are no plain words (camel case)."""
    out, i = [], 0
    piece = re.compile(r'"(?:\\.|[^"\\])*"|' + re.escape(comment) + r"[^\n]*")
    for m in piece.finditer(text):
        out.append(TOKEN.sub(lambda t: names.get(t[0], t[0]), text[i:m.start()]))
        part = m[0]
        if part.startswith(comment):
            part = TOKEN.sub(lambda t: plain.get(t[0], t[0]), part)
        out.append(part)
        i = m.end()
    out.append(TOKEN.sub(lambda t: names.get(t[0], t[0]), text[i:]))
    return "".join(out)


def main():
    names = renamings()
    if "--list" in sys.argv:
        for old, new in names.items():
            print(old, new)
        return
    plain = {o: n for o, n in names.items() if "-" not in o}
    for path in files(".antt", ".rt", ".edit"):
        text = open(path, encoding="utf-8").read()
        new = turned(text, names, "--" if path.endswith(".antt") else "//", plain)
        if new != text:
            open(path, "w", encoding="utf-8").write(new)
    for folder in (".", "docs"):
        for name in sorted(os.listdir(folder)):
            if name.endswith(".md") and name != "PORT.md":
                path = os.path.join(folder, name)
                text = open(path, encoding="utf-8").read()
                new = TOKEN.sub(lambda t: plain.get(t[0], t[0]), text)
                if new != text:
                    open(path, "w", encoding="utf-8").write(new)


if __name__ == "__main__":
    main()
