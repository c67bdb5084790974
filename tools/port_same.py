#!/usr/bin/env python3
"""Compares the files of two folders with crates/ by their words, those of OLD in the spelling before the port.

usage: tools/port_same.py OLD NEW [specs] [src] [proofs]

It turns OLD's names by port_names.tsv, `λ r. ⌜ P ⌝` to `P` with `result` for r, and `now (x .entry)` and `now (x .exit)` to the projections
of today, leaves out comments, imports, brackets, labels and derives, and prints each place where the words differ still. It sees no
difference in how a term is bracketed.
"""

import difflib
import os
import re
import sys

import port_names

WORD = re.compile(r'"[^"]*"|[^\s(){}.;,\[\]"]+|\.|[(){};,\[\]]')
SAME = {"getD": "get_or", "get_d": "get_or", "the_variants": "TheVariants", "shrZ": "shr_z"}


def snake(name):
    if name[0].islower() or not name[0].isalpha():
        name = re.sub(r"(?<=[a-z0-9])[A-Z]+(?=[A-Z][a-z]|$|[^A-Za-z])|(?<=[a-z0-9])[A-Z]", lambda m: "_" + m[0].lower(), name)
    return name.replace("-", "_").replace("\u2032", "'")


def clean(text, kind):
    mark = "--" if kind == "antt" else "//"
    lines = [l for l in text.split("\n") if not l.strip().startswith(mark)]
    if kind == "antt":
        lines = [l for l in lines if not re.match(r"(pub )?use ", l.strip())]
    text = "\n".join(lines)
    if kind == "rt":
        text = re.sub(r"(?m)^\s*(pub )?(ghost )?use [^;]*;", "", text)
        text = text.replace("#![tactic(auto)]", "").replace("#[no_mangle]", "#[unsafe(no_mangle)]")
        text = re.sub(r"#\[derive\([^\]]*\)\]", "", text)
        text = re.sub(r"\b(ensures|requires) [a-z_0-9]+ \{", r"\1 {", text)
    return text


def result(m):
    bound, fact = m[1], m[2]
    if bound != "_":
        fact = re.sub(r"(?<![\w'.-])" + re.escape(bound) + r"(?![\w'-])", "result", fact)
    return "ensures { " + fact + " }"


def words(text, kind, old, table):
    if old:
        if kind == "rt":
            text = re.sub(r"ensures \{ λ (\S+)\. (.*?) \}(?=\s*\n)", result, text, flags=re.S)
        text = re.sub(r"now \((\S+) \.entry\)", r"\1.E", text)
        text = re.sub(r"now \((\S+) \.exit\)", r"\1.X", text)
        text = re.sub(r"(?<![\w'.-])now (\w+)(?![\w'-])", r"\1.E", text)
        text = re.sub(r"\s+\.(?=[A-Za-z0-9])", ".", text)
    elif kind == "rt":
        text = re.sub(r"(?<=[\w)])\.(old|now)(?![\w'-])", ".E", text)
        text = re.sub(r"(?<=[\w)])\.new(?![\w'-])(?!\()", ".X", text)
    out = []
    for m in WORD.finditer(text.replace("⌜", "").replace("⌝", "")):
        word = m[0]
        if word in "()":
            continue
        if old and word in table:
            word = table[word][0][0]
        word = snake(word)
        word = re.sub(r"_lem$", "", SAME.get(word, word))
        out.append(word if old else word.replace("◌", "_"))
    return out


def main(argv):
    old, new, parts = argv[0], argv[1], argv[2:] or ["specs", "src"]
    table, files, places = port_names.rows(), 0, 0
    for crate in sorted(os.listdir(os.path.join(old, "crates"))):
        for part in parts:
            for folder, dirs, names in os.walk(os.path.join(old, "crates", crate, part)):
                dirs[:] = sorted(d for d in dirs if d != "out")
                for name in sorted(names):
                    kind = name.rpartition(".")[2]
                    if kind not in ("antt", "rt") or name in ("Proof.antt", "Answers.antt", "Invariants.antt"):
                        continue
                    path = os.path.join(folder, name)
                    other = os.path.join(new, os.path.relpath(path, old))
                    label = os.path.relpath(path, os.path.join(old, "crates"))
                    if not os.path.exists(other):
                        print("gone:", label)
                        continue
                    with open(path, encoding="utf-8") as f:
                        a = words(clean(f.read(), kind), kind, True, table)
                    with open(other, encoding="utf-8") as f:
                        b = words(clean(f.read(), kind), kind, False, table)
                    files += 1
                    for tag, i, j, k, l in difflib.SequenceMatcher(None, a, b, autojunk=False).get_opcodes():
                        if tag != "equal":
                            places += 1
                            print(f"{label}: {' '.join(a[max(0, i - 4):i])} << {' '.join(a[i:j])} >> {' '.join(a[j:j + 3])} || << {' '.join(b[k:l])} >>")
    print(f"{files} files, {places} places differ")


if __name__ == "__main__":
    main(sys.argv[1:])
