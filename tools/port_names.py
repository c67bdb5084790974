#!/usr/bin/env python3
"""Spells this repository's own definitions and lemmas as today's Rattle does: words and lemmas in snake case.

usage: tools/port_names.py [ROOT]        once, after /opt/rattle/port/port.py, at the top of the repository

The names are the rows of port_names.tsv beside this script: old, a tab, new; a third column limits a row to the files whose path
below crates/ begins with one of its words. It turns .antt and .rt files and, in .edit files, the lines 'old:' and 'new:'. A name
that a file imports from the kit stays in that file, and one
behind a dot turns only where it is camelCase, or stands behind a module, or is a field of a record here (the fourth column says
'field'). Strings stay. It then writes #![tactic(auto)] into each root file that lacks it.
"""

import os
import re
import sys

HERE = os.path.dirname(os.path.realpath(__file__))
NAME = re.compile(r'[^\s(){}.;,@"«»`]+')
STRING = re.compile(r'"(?:[^"\\\n]|\\.)*"')
CAMEL = re.compile(r"[a-z0-9][A-Z]")


def rows():
    table = {}
    with open(os.path.join(HERE, "port_names.tsv"), encoding="utf-8") as f:
        for line in f:
            if line.strip() and not line.startswith("#"):
                cells = line.rstrip("\n").split("\t") + ["", ""]
                table.setdefault(cells[0], []).append((cells[1], cells[2].split(), cells[3] == "field"))
    return table


USE = re.compile(r"(?m)^(?:pub )?(?:ghost )?use ([^\s{;]+?)(?:\.\{([^}]*)\}|\.([^\s.{};]+))(?=[ ;\n]|$)")


def from_kit(text, own):
    """The names that a file imports from a library that is not this repository's."""
    names = set()
    for m in USE.finditer(text):
        steps = m[1].split(".")
        if steps[0] != "Rattle" or steps[1:2] and steps[1] not in own:
            names |= {it.split(" as ")[0].strip() for it in (m[2] or m[3] or "").split(",")}
    return names


def turn(text, table, path, comments):
    """The text with each name of the table turned; of a comment only what stands in backticks or is camelCase."""
    aliases = set(re.findall(r"(?m)^use \S+ as (\S+)$", text)) - {"tie", "goal"}

    def code(part, is_comment):
        out, at = [], 0
        for m in NAME.finditer(part):
            word = m[0]
            bare = word.rstrip("'") if is_comment else word
            tail = word[len(bare):]
            if is_comment:
                stripped = bare.strip(":*?!“”")
                lead = bare[: bare.find(stripped)] if stripped else ""
                bare, tail = stripped, bare[len(lead) + len(stripped):] + tail
            else:
                lead = ""
            for new, where, is_field in table.get(bare, ()):
                if where and not any(path.startswith(it) for it in where):
                    continue
                dotted = part[: m.start()].endswith(".")
                camel = bool(CAMEL.search(bare)) and bare[0].islower() and "-" not in bare
                if is_comment and not camel and not part[: m.start()].endswith("`"):
                    continue
                if dotted and not camel and not is_field:
                    head = re.search(r'([^\s(){}.;,@"«»`]+)\.$', part[: m.start()])
                    if not (head and (head[1][:1].isupper() or head[1] in aliases)):
                        continue
                out += [part[at : m.start()], lead, new, tail]
                at = m.end()
                break
        out.append(part[at:])
        return "".join(out)

    lines = []
    for line in text.split("\n"):
        cut = None
        for m in re.finditer(re.escape(comments), line):
            before = line[: m.start()]
            if before.count('"') % 2 == 0 and (comments != "--" or before == "" or before[-1] in " \t(){};,"):
                cut = m.start()
                break
        body, rest = (line, "") if cut is None else (line[:cut], line[cut:])
        parts, at = [], 0
        for m in STRING.finditer(body):
            parts += [code(body[at : m.start()], False), m[0]]
            at = m.end()
        parts.append(code(body[at:], False))
        lines.append("".join(parts) + code(rest, True))
    return "\n".join(lines)


def turn_edit(text, table, path):
    """Lines 'old: ' and 'new: ' turn; file names and notes stay."""
    out = []
    for line in text.split("\n"):
        if line.startswith(("old: ", "new: ")):
            out.append(line[:5] + turn(line[5:], table, path, "\0"))
        else:
            out.append(line)
    return "\n".join(out)


def main(argv):
    root = argv[0] if argv else "."
    table, changed = rows(), 0
    inside = os.path.join(root, "crates")
    own = set(os.listdir(inside))
    for folder, dirs, files in os.walk(inside):
        dirs[:] = sorted(d for d in dirs if d != "out")
        for name in sorted(files):
            kind = name.rpartition(".")[2]
            if kind not in ("antt", "rt", "edit"):
                continue
            path = os.path.join(folder, name)
            below = os.path.relpath(path, inside)
            with open(path, encoding="utf-8") as f:
                text = f.read()
            if kind == "edit":
                new = turn_edit(text, table, below)
            else:
                kept = from_kit(text, own)
                new = turn(text, {k: v for k, v in table.items() if k not in kept}, below, "--" if kind == "antt" else "//")
            if kind == "rt" and re.search(r"(^|/)src/(lib|main)\.rt$", below) and "#![tactic(" not in new:
                # Behind the comment at the file's head, above the first item.
                head = re.match(r"(?://[^\n]*\n)*", new)
                new = new[: head.end()] + ("\n" if head.end() else "") + "#![tactic(auto)]\n" + ("\n" if new[head.end() :].strip() and not new[head.end():].startswith("\n") else "") + new[head.end() :]
            if new != text:
                with open(path, "w", encoding="utf-8") as f:
                    f.write(new)
                changed += 1
    print(f"port_names: {changed} files turned")


if __name__ == "__main__":
    main(sys.argv[1:])
