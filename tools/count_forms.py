#!/usr/bin/env python3
"""Lists the places in crates/*/src where code may be of an older form, for docs/DESIGN-PASS.md.

usage: count_forms.py [POINT ..]      (1 to 7; none: all, as numbers alone)

A row is a place to look, not a verdict. The points:
1  enums; fields that are flags or codes; functions that answer a number for a code, a kind or "none"
2  functions of one shape: the same but for names, types and numbers (groups of two and more in one crate)
3  loops: while, loop, and for over numbers that index something
4  conversions by hand (`as` between numbers, a branch on a sign), fields copied one by one
5  a requires clause, or a run of three parameters, that stands in three functions or more
6  a slice or an array with a length, a count or a place beside it in the parameters
7  a match whose arms all call something with the same arguments
"""
import pathlib, re, sys
from collections import defaultdict

ROOT = pathlib.Path(__file__).resolve().parent.parent
FILES = sorted(ROOT.glob("crates/*/src/**/*.rt"))


def functions(text):
    """(line, signature, clauses, body) of each function."""
    lines = text.split("\n")
    i = 0
    while i < len(lines):
        if re.match(r"\s*(pub(\([a-z]+\))? )?(const )?(extern \"C\" )?fn ", lines[i]) and not lines[i].rstrip().endswith(";"):
            indent = len(lines[i]) - len(lines[i].lstrip())
            end = i
            while end < len(lines) and lines[end] != " " * indent + "}":
                if end > i and lines[end].rstrip().endswith("}") and "{" in lines[end] and re.match(r"\s*(pub|fn)", lines[end]):
                    break
                end += 1
            block = lines[i : end + 1]
            open_at = next((k for k, l in enumerate(block) if l == " " * indent + "{"), None)
            if open_at is None:  # the body opens on the signature's last line
                open_at = next((k for k, l in enumerate(block) if l.rstrip().endswith("{")), 0)
            head, body = block[: open_at + 1], block[open_at + 1 : -1]
            clause_at = next((k for k, l in enumerate(head) if re.match(r"\s*(requires|ensures)", l)), len(head))
            signature = " ".join(l.strip() for l in head[:clause_at]).replace("( ", "(").replace(", )", ")")
            yield i + 1, signature.rstrip(" {"), [l.strip() for l in head[clause_at:] if l.strip() != "{"], body
            i = end
        i += 1


def places():
    for f in FILES:
        text = f.read_text()
        name = f"{f.parts[-3]}/{f.name}" if f.parent.name == "src" else str(f)
        yield name, text


def shape(signature, body):
    text = signature + "\n" + "\n".join(body)
    text = re.sub(r"//.*", "", text)
    names = {}
    def blank(m):
        w = m.group(0)
        if w in ("if", "else", "let", "mut", "match", "fn", "pub", "crate", "as", "for", "in", "while", "return", "true", "false", "self"):
            return w
        return names.setdefault(w, f"n{len(names)}")
    text = re.sub(r"\b\d[\w]*", "0", text)
    text = re.sub(r"\b[iu](8|16|32|64|size)\b", "num", text)
    return re.sub(r"\s+", " ", re.sub(r"\b[A-Za-z_]\w*", blank, text))


def point1():
    for name, text in places():
        for i, l in enumerate(text.split("\n"), 1):
            if re.match(r"\s*(pub(\(crate\))? )?enum ", l):
                yield f"{name}:{i}: {l.strip()}"
            if re.match(r"\s*(pub )?(code|stop|clear|pad|clean|register|slot|refusal): (bool|u32|u64|Result)", l):
                yield f"{name}:{i}: field {l.strip()}"
        for i, s, c, body in functions(text):
            told = "\n".join(body)
            if re.search(r"-> (u64|usize|Answer)$", s) and re.search(r"return \d+;|=> \d+,|\{ \d+ \}|code: \d+|0xffff_ffff_ffff_ffff", told):
                yield f"{name}:{i}: {s}"
            elif re.search(r"\b(trap|fault|raise|Trap)\((c, r, )?\d+|code: u(32|64)|refused\(\d+\)", s + told):
                yield f"{name}:{i}: {s}"
            elif re.search(r"match word % 64", told):
                yield f"{name}:{i}: {s}"


def point2():
    for f in sorted({p.parent for p in FILES}):
        groups = defaultdict(list)
        for p in sorted(f.rglob("*.rt")):
            for i, s, c, body in functions(p.read_text()):
                if body:
                    groups[shape(s, body)].append(f"{p.parts[-3]}/{p.name}:{i}: {s}")
        for g in groups.values():
            if len(g) > 1:
                yield from (x + (" (twins)" if k else f" (twins, {len(g)})") for k, x in enumerate(g))
    for name, text in places():  # types that differ in the types of their fields alone
        pass
    kinds = defaultdict(list)
    for name, text in places():
        for m in re.finditer(r"pub struct (\w+)(?:<[^>]*>)? \{\n((?:    pub \w+: [\w<>]+,\n)+)\}", text):
            kinds[tuple(re.findall(r"pub (\w+):", m.group(2)))].append(f"{name}: struct {m.group(1)}")
    for g in kinds.values():
        if len(g) > 1:
            yield from (x + f" (fields of {len(g)})" for x in g)


def point3():
    for name, text in places():
        for i, l in enumerate(text.split("\n"), 1):
            if re.search(r"^\s*(while\b|loop\b|for \w+ in [\w.()]+\.\.)", l):
                yield f"{name}:{i}: {l.strip()}"


def point4():
    for name, text in places():
        for i, s, c, body in functions(text):
            told = "\n".join(body)
            if re.search(r"^\s*\w+ as (u|i)(8|16|32|64|size)$", told) or re.search(r"if \w+ < (0|0x8\w*) \{\s*[\w()]* ?as", told):
                yield f"{name}:{i}: {s}"
        for i, l in enumerate(text.split("\n"), 1):
            if re.match(r"\s*let (\w+) = \w+\.\1;$", l) or re.match(r"\s*let [a-z] = \w+\.(flow|pending|system|product|mac|ir|v);$", l) or re.match(r"\s*(\w+): \w+\.\1,$", l) or re.match(r"\s*(\w+): \1,$", l):
                yield f"{name}:{i}: {l.strip()}"


def point5():
    clauses, runs = defaultdict(list), defaultdict(list)
    for name, text in places():
        for i, s, c, body in functions(text):
            for l in c:
                if l.startswith("requires"):
                    clauses[re.sub(r"\d+", "N", re.sub(r"requires \w* ?", "requires ", l))].append(f"{name}:{i}")
            inside = re.search(r"\((.*)\)", s)
            given = [p.strip() for p in re.split(r", (?=\w+:)", inside.group(1))] if inside else []
            for k in range(len(given) - 2):
                runs[", ".join(given[k : k + 3])].append(f"{name}:{i}")
    for table in (clauses, runs):
        for what, where in table.items():
            if len(where) > 2:
                yield f"{len(where):3} {what}: {', '.join(where[:4])} .."


def point6():
    for name, text in places():
        for i, s, c, body in functions(text):
            if re.search(r"\w+: &(mut )?\[\w+(; \d+)?\], (n|len|length|count|space|lines): usize", s) or re.search(r"(\w+): &(mut )?\[u8[^\]]*\].*\1_length", s):
                yield f"{name}:{i}: {s}"
        for i, l in enumerate(text.split("\n"), 1):
            if re.match(r"\s*pub \w+_length: usize", l):
                yield f"{name}:{i}: {l.strip()}"


def point7():
    for name, text in places():
        for m in re.finditer(r"match ([^\n{]+) \{\n((?:\s+[^\n]*=> \w+\(([^\n]*)\),\n){3,})", text):
            arguments = re.findall(r"=> \w+\(([^\n]*)\),", m.group(2))
            if len(set(arguments)) * 2 <= len(arguments):
                yield f"{name}:{text[: m.start()].count(chr(10)) + 1}: match {m.group(1)}"


POINTS = {"1": point1, "2": point2, "3": point3, "4": point4, "5": point5, "6": point6, "7": point7}
chosen = sys.argv[1:]
for p, find in POINTS.items():
    if chosen and p not in chosen:
        continue
    found = list(find())
    print(f"point {p}: {len(found)}")
    if chosen:
        print("\n".join("  " + x for x in found))
