#!/usr/bin/env python3
"""Brings the goals' names in proof files (Answers.antt and Invariants.antt) to the newer Rattle's spelling, in which a name of src/
keeps its underscores and the words of a label have them: `returns-then-is-some` is `returns-then-is_some`.

usage: tools/goal_labels.py CRATE..      run once for each crate"""
import os
import re
import sys

LABELS = ["overflow_add", "overflow_sub", "overflow_mul", "overflow_cast", "slice_bounds", "invariant_of", "in_err", "in_ok",
          "in_default", "from_residual", "strip_prefix", "copy_from_slice", "split_at", "in_range"]
TOKEN = re.compile(r"(?<![\w'+-])[A-Za-z][\w'+-]*(?![\w'+-])")


def snake_names(crate):
    found = set(LABELS)
    for folder, _, names in os.walk(os.path.join("crates", crate, "src")):
        for name in names:
            text = open(os.path.join(folder, name), encoding="utf-8").read()
            found |= set(re.findall(r"\b[a-z][a-z0-9]*(?:_[a-z0-9]+)+\b", text))
    return sorted(found, key=len, reverse=True)


def main():
    for crate in sys.argv[1:]:
        names = snake_names(crate)
        for folder, _, files in os.walk(os.path.join("crates", crate, "proofs")):
            for name in files:
                if name not in ("Answers.antt", "Invariants.antt"):
                    continue
                path = os.path.join(folder, name)
                text = open(path, encoding="utf-8").read()
                imported = set(re.findall(r"[\w'-]+", " ".join(re.findall(r"(?m)^use (?![^{\n]*\.(?:Goals|Given)\.)[^{\n]*\{([^}]*)\}", text))))

                def turned(m):
                    token = m[0]
                    if "-" not in token or token in imported:
                        return token
                    for n in names:
                        token = re.sub(r"(?<![\w'])" + re.escape(n.replace("_", "-")) + r"(?![\w'])", n, token)
                    return token

                new = TOKEN.sub(turned, text)
                if new != text:
                    open(path, "w", encoding="utf-8").write(new)


if __name__ == "__main__":
    main()
