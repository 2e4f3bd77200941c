#!/usr/bin/env python3
"""Counts the places of the points 1 to 8 of the design pass in another way than tools/count_places: by a small parser of the
.rt and .antt files, which knows no names of this repository.

    tools/count_places_otherwise.py CHECKOUT

Left out: comments, #[cfg(test)] items, src/tests.rt and the crate `cases` (their functions stand in rows of their own,
marked 'tests'). A place with a line "// Stays: .." within the six lines above it is marked [reason].
"""
import difflib
import itertools
import os
import re
import subprocess
import sys
from collections import Counter, defaultdict

ROOT = os.path.abspath(sys.argv[1])
CRATES = os.path.join(ROOT, "crates")
FILES = subprocess.run(["git", "ls-files"], cwd=CRATES, capture_output=True, text=True, check=True).stdout.split("\n")
FILES = [f for f in FILES if f and os.path.exists(os.path.join(CRATES, f))]
TEXT = {f: open(os.path.join(CRATES, f), encoding="utf-8").read() for f in FILES if f.endswith((".rt", ".antt"))}
LINES = {f: t.split("\n") for f, t in TEXT.items()}

TOKEN = re.compile(
    r"//[^\n]*|/\*.*?\*/|b?\"(?:\\.|[^\"\\])*\"|b?'(?:\\.|[^'\\])'|'[a-z_]+\b|0x[0-9A-Fa-f_]+|[0-9][0-9_]*(?:[iu](?:8|16|32|64|128|size))?"
    r"|[A-Za-z_][A-Za-z0-9_]*|\.\.=|\.\.|=>|->|::|==|!=|<=|>=|&&|\|\||[+\-*/%|&^]=|\S",
    re.S,
)


class Tok(str):
    line = 0


def tokens(text):
    out = []
    for m in TOKEN.finditer(text):
        w = m.group(0)
        if w.startswith("//") or w.startswith("/*"):
            continue
        t = Tok(w)
        t.line = text.count("\n", 0, m.start()) + 1
        out.append(t)
    return out


OPEN = {"(": ")", "[": "]", "{": "}"}


def close(ts, i):
    """The index after the bracket that closes the one at i."""
    depth = 0
    while i < len(ts):
        if ts[i] in OPEN:
            depth += 1
        elif ts[i] in OPEN.values():
            depth -= 1
            if depth == 0:
                return i + 1
        i += 1
    return i


def until(ts, k, ends):
    """The tokens from k to the first of `ends`, with what stands in brackets taken whole, and where they end."""
    got = []
    while k < len(ts) and ts[k] not in ends:
        end = close(ts, k) if ts[k] in OPEN else k + 1
        got += ts[k:end]
        k = end
    return got, k


def split(ts, sep=","):
    """Parts between separators at depth 0; angle brackets count too."""
    parts, part, depth, angle = [], [], 0, 0
    for k, t in enumerate(ts):
        if t in OPEN:
            depth += 1
        elif t in OPEN.values():
            depth -= 1
        elif t == "<":
            angle += 1
        elif t == ">" and angle:
            angle -= 1
        if t == sep and depth == 0 and angle == 0:
            parts.append(part)
            part = []
        else:
            part.append(t)
    if part:
        parts.append(part)
    return parts


class Item:
    def __init__(self, kind, name, file, line, **more):
        self.kind, self.name, self.file, self.line = kind, name, file, line
        self.test = False
        self.owner = ""
        self.__dict__.update(more)


ITEMS = []


def parse(ts, file, test, owner=""):
    i = 0
    attrs = []
    while i < len(ts):
        t = ts[i]
        if t == "#":
            j = i + 1 if ts[i + 1] == "[" else i + 2
            end = close(ts, j)
            attrs.append(" ".join(ts[j + 1 : end - 1]))
            i = end
            continue
        here = test or any("cfg ( test )" in a for a in attrs)
        if t == "pub":
            i += 1
            if i < len(ts) and ts[i] == "(":
                i = close(ts, i)
            continue
        if t in ("unsafe", "extern") or t.startswith('"'):
            i += 1
            continue
        if t == "ghost" or t == "use":
            i += 1
            while i < len(ts) and ts[i] not in (";", ","):
                i = close(ts, i) if ts[i] in OPEN else i + 1
            i += 1
            attrs = []
            continue
        if t == "const" and i + 1 < len(ts) and ts[i + 1] == "fn":
            i += 1
            continue
        if t in ("const", "static", "type"):
            j = i
            while j < len(ts) and ts[j] != ";":
                j = close(ts, j) if ts[j] in OPEN else j + 1
            item = Item(t, ts[i + 1], file, t.line, body=ts[i + 2 : j], attrs=attrs)
            item.test, item.owner = here, owner
            ITEMS.append(item)
            i, attrs = j + 1, []
            continue
        if t == "mod":
            if ts[i + 2] == "{":
                end = close(ts, i + 2)
                parse(ts[i + 3 : end - 1], file, here)
                i = end
            else:
                i += 3
            attrs = []
            continue
        if t in ("struct", "enum"):
            name, j = ts[i + 1], i + 2
            while ts[j] not in ("{", "(", ";"):
                j += 1
            body = []
            end = j + 1
            if ts[j] != ";":
                end = close(ts, j)
                body = ts[j + 1 : end - 1]
                if ts[j] == "(" and end < len(ts) and ts[end] == ";":
                    end += 1
            item = Item(t, name, file, t.line, body=body, attrs=attrs, tuple=ts[j] == "(")
            item.test, item.owner = here, owner
            ITEMS.append(item)
            i, attrs = end, []
            continue
        if t in ("impl", "trait"):
            j = i + 1
            while ts[j] != "{":
                j += 1
            head = " ".join(ts[i:j])
            end = close(ts, j)
            item = Item(t, head, file, t.line, attrs=attrs, body=ts[j + 1 : end - 1])
            item.test, item.owner = here, owner
            ITEMS.append(item)
            parse(ts[j + 1 : end - 1], file, here, head)
            i, attrs = end, []
            continue
        if t == "fn":
            name = ts[i + 1]
            j = i + 2
            while ts[j] != "(":
                j += 1
            end = close(ts, j)
            params = []
            for part in split(ts[j + 1 : end - 1]):
                part = [p for p in part if p != "mut" or ":" not in part or part.index("mut") > part.index(":")]
                if ":" in part:
                    k = part.index(":")
                    params.append((" ".join(part[:k]), " ".join(part[k + 1 :])))
                else:
                    params.append(("self", " ".join(part)))
            k = end
            ret = []
            if k < len(ts) and ts[k] == "->":
                ret, k = until(ts, k + 1, ("{", ";", "requires", "ensures", "where"))
            clauses = []
            while k < len(ts) and ts[k] in ("requires", "ensures", "where"):
                word = ts[k]
                k += 1
                label = ""
                while ts[k] != "{":
                    label += ts[k]
                    k += 1
                e = close(ts, k)
                clauses.append((str(word), label, " ".join(ts[k + 1 : e - 1]), ts[k].line))
                k = e
            body = []
            if k < len(ts) and ts[k] == "{":
                e = close(ts, k)
                body = ts[k + 1 : e - 1]
                k = e
            elif k < len(ts) and ts[k] == ";":
                k += 1
            item = Item("fn", name, file, t.line, params=params, ret=" ".join(ret), clauses=clauses, body=body, attrs=attrs)
            item.test = here or any("test" == a.strip() for a in attrs)
            item.owner = owner
            ITEMS.append(item)
            i, attrs = k, []
            continue
        i += 1


for f in FILES:
    if f.endswith(".rt"):
        parts = f.split("/")
        test = parts[-1] == "tests.rt" or parts[0] == "cases" and parts[-1] != "lib.rt"
        parse(tokens(TEXT[f]), f, test)

CODE = [x for x in ITEMS if not x.test]
FNS = [x for x in CODE if x.kind == "fn"]
TEST_FNS = [x for x in ITEMS if x.kind == "fn" and x.test]


def reason(file, line):
    above = LINES[file][max(0, line - 7) : line]
    return any("Stays:" in a for a in above)


def crate(file):
    return file.split("/")[0]


def show(what, places, note=""):
    """places: (file, line, text)"""
    places = sorted(set((f, int(l), re.sub(r"\s+", " ", t)) for f, l, t in places))
    n = sum(reason(f, l) for f, l, _ in places)
    print(f"== {what}: {len(places)} (of them {n} with a reason beside){note}")
    for f, l, t in places:
        print(f"    {f}:{l}:{'[reason] ' if reason(f, l) else ''}{t[:150]}")


def at(x):
    return (x.file, x.line)


def fields(x):
    """name, type, line of a struct's plain fields"""
    out = []
    for part in split(x.body):
        part = [p for p in part]
        while part and part[0] == "#":
            part = part[close(part, 1) :]
        if part and part[0] == "pub":
            part = part[1:]
            if part and part[0] == "(":
                part = part[close(part, 0) :]
        if not part or part[0] == "ghost" or ":" not in part:
            continue
        k = part.index(":")
        out.append((part[k - 1], " ".join(part[k + 1 :]), part[0].line))
    return out


STRUCTS = [x for x in CODE if x.kind == "struct"]
ENUMS = [x for x in CODE if x.kind == "enum"]
LITERAL = re.compile(r"^(0x[0-9A-Fa-f_]+|[0-9][0-9_]*\w*|b?'.*'|b?\".*\"|true|false)$")


def matches(body):
    """(line, subject, arms) with arms (pattern, value), of each match in a body"""
    out = []
    for i, t in enumerate(body):
        if t != "match":
            continue
        j = i + 1
        while j < len(body) and body[j] != "{":
            j = close(body, j) if body[j] in ("(", "[") else j + 1
        e = close(body, j)
        inner = body[j + 1 : e - 1]
        arms, k = [], 0
        while k < len(inner):
            p = []
            while k < len(inner) and inner[k] != "=>":
                p.append(inner[k])
                k += 1
            k += 1
            v = []
            if k < len(inner) and inner[k] == "{":
                ee = close(inner, k)
                v = inner[k:ee]
                k = ee
            else:
                v, k = until(inner, k, (",",))
            if k < len(inner) and inner[k] == ",":
                k += 1
            arms.append((p, v))
        out.append((t.line, " ".join(body[i + 1 : j]), arms))
    return out


print("POINT 1. Own enums of the shape of Option or Result, a flag with a value beside it, numbers for kinds or refusals")
found = []
for x in ENUMS:
    variants = [v for v in split(x.body) if v]
    variants = [v[close(v, 1) :] if v[0] == "#" else v for v in variants]
    payload = [len(v) > 1 and v[1] in ("(", "{") for v in variants]
    if len(variants) == 2 and sum(payload) >= 1:
        found.append((x.file, x.line, f"enum {x.name} {{ {' '.join(x.body)} }}"))
show("POINT 1 enums with two variants of which one or both have a value", found)
found = []
for x in STRUCTS:
    fs = fields(x)
    for name, ty, line in fs:
        if ty == "bool" and len(fs) > 1:
            found.append((x.file, line, f"struct {x.name}: {name}: bool beside {len(fs) - 1} fields"))
show("POINT 1 fields `bool` beside other fields", found)
KINDS = re.compile(r"^(side|class|category|currency|letter|code|half|op|opcode|tag|state|status|way|direction|type_)$")
found = []
for x in STRUCTS:
    for name, ty, line in fields(x):
        if KINDS.match(name) and re.match(r"^(u|i)(8|16|32|64|size)$", ty):
            found.append((x.file, line, f"struct {x.name}: {name}: {ty}"))
for x in FNS:
    for name, ty in x.params:
        if KINDS.match(name) and re.match(r"^(u|i)(8|16|32|64|size)$", ty):
            found.append((x.file, x.line, f"fn {x.name}: parameter {name}: {ty}"))
show("POINT 1 numbers named as kinds, sides, classes, letters, codes", found)
found = []
for x in FNS:
    for line, subject, arms in matches(x.body):
        lit = [p for p, v in arms if p and LITERAL.match(p[0]) and not p[0].startswith(('"', 'b"')) and p[0] not in ("true", "false")]
        if lit:
            found.append((x.file, line, f"fn {x.name}: match {subject}: {len(lit)} arms by a number or letter, to {sorted(set(v[0] for p, v in arms if v))}"))
show("POINT 1 matches on a code", found)
found = [(x.file, x.line, f"{x.owner[:40]} fn {x.name}(&mut self ..) -> bool") for x in FNS if x.ret == "bool" and any(p[0] == "self" and "mut" in p[1] for p in x.params)]
show("POINT 1 steps that answer whether they did something by a bool", found)
found = [(x.file, x.line, f"fn {x.name} -> {x.ret}") for x in FNS if re.match(r"Option < \w*(Fault|Refusal|Error)", x.ret)]
for x in STRUCTS:
    for name, ty, line in fields(x):
        if re.match(r"Option < \w*(Fault|Refusal|Error)", ty):
            found.append((x.file, line, f"struct {x.name}: {name}: {ty}"))
show("POINT 1 an Option of a fault in place of a Result", found)
found = []
for x in FNS:
    for line, subject, arms in matches(x.body):
        vals = [v for p, v in arms if len(v) == 1 and re.match(r"^(0x)?[0-9]", v[0])]
        if len(vals) >= 2:
            found.append((x.file, line, f"fn {x.name}: match {subject}: {len(vals)} arms to a number"))
show("POINT 1 and 4 matches from variants to numbers", found)

print("\nPOINT 2. Twins")
KEY = set("if else match for while loop let return mut in as ref move fn self Self true false Some None Ok Err break continue".split())


def mask(body, rename):
    names, out = {}, []
    for k, t in enumerate(body):
        if t in KEY:
            out.append(str(t))
        elif re.match(r"^(0x[0-9A-Fa-f_]+|[0-9])", t):
            out.append("N")
        elif re.match(r"^b?[\"']", t):
            out.append("S")
        elif re.match(r"^(u|i)(8|16|32|64|128|size)$", t):
            out.append("T")
        elif re.match(r"^[A-Z][A-Z0-9_]*$", t) and len(t) > 1:
            out.append("N")
        elif re.match(r"^[A-Z]", t):
            out.append("T")
        elif re.match(r"^[a-z_]", t) and rename:
            out.append(names.setdefault(str(t), f"v{len(names)}"))
        else:
            out.append(str(t))
    return out


def pairs(fns, rename, least):
    groups = defaultdict(list)
    for x in fns:
        if len(x.body) >= least:
            groups[" ".join(mask(x.body, rename))].append(x)
    return [g for g in groups.values() if len(g) > 1]


def label(x):
    return f"{crate(x.file)} {re.sub(r'^(impl|trait)( <.*?>)? ', '', x.owner)[:45]}{'::' if x.owner else ''}{x.name}"


def show_groups(what, groups):
    print(f"== {what}: {len(groups)} groups, {sum(len(g) for g in groups)} functions")
    for g in groups:
        print("    - " + " = ".join(f"{label(x)} ({x.file}:{x.line}{' [reason]' if reason(x.file, x.line) else ''})" for x in g))


show_groups("POINT 2 functions that are equal but for types, numbers and constants (8 tokens and more)", pairs(FNS, False, 8))
loose = pairs(FNS, True, 12)
show_groups("POINT 2 .. and for all names, each for one (12 tokens and more)", loose)
near = []
long = [(x, mask(x.body, True)) for x in FNS if len(x.body) >= 24]
for (x, a), (y, b) in itertools.combinations(long, 2):
    if a == b or not 0.8 < len(a) / len(b) < 1.25:
        continue
    m = difflib.SequenceMatcher(None, a, b, autojunk=False)
    if m.real_quick_ratio() > 0.86 and m.quick_ratio() > 0.86 and m.ratio() > 0.86:
        near.append((round(m.ratio(), 2), x, y))
print(f"== POINT 2 functions that are nearly equal after that (24 tokens and more, 0.86 alike): {len(near)} pairs")
for r, x, y in sorted(near, key=lambda n: (-n[0], n[1].file, n[1].line)):
    print(f"    - {r} {label(x)} ({x.file}:{x.line}) ~ {label(y)} ({y.file}:{y.line})")
show_groups("POINT 2 tests: helper functions that are equal but for names (12 tokens and more)", [g for g in pairs([x for x in TEST_FNS if not any(a.strip() == "test" for a in x.attrs)], True, 12)])
groups = defaultdict(list)
for x in STRUCTS:
    groups[" ".join(mask([t for t in x.body if t not in ("pub", "crate")], False))].append(x)
found = [g for k, g in groups.items() if len(g) > 1 and len(k.split()) > 6]
print(f"== POINT 2 structs with the same fields but for types and sizes: {len(found)}")
for g in found:
    print("    - " + " = ".join(f"{x.name} ({x.file}:{x.line})" for x in g))
traits = Counter(re.sub(r".*?(\w+)( <.*>)? for .*", r"\1", x.name) for x in CODE if x.kind == "impl" and " for " in x.name)
found = [(x.file, x.line, x.name) for x in CODE if x.kind == "impl" and " for " in x.name and traits[re.sub(r".*?(\w+)( <.*>)? for .*", r"\1", x.name)] > 1]
show("POINT 2 impls of a trait that has several", found)
consts = defaultdict(list)
for x in CODE:
    if x.kind == "const" and "=" in x.body:
        v = "".join(x.body[x.body.index("=") + 1 :]).replace("_", "")
        if re.match(r"^[0-9]{2,}$", v):
            consts[v].append((x.file, x.line, f"const {x.name} = {v}"))
numerals = defaultdict(list)
for f, t in TEXT.items():
    if not f.endswith(".rt") and "/specs/" not in f or crate(f) == "cases":
        continue
    for n, line in enumerate(LINES[f], 1):
        line = re.sub(r"(//|--).*", "", line)
        for w in re.findall(r"(?<![\w.])[0-9][0-9_]+(?![\w.])", line):
            v = w.replace("_", "")
            if int(v) > 99 and v not in ("255", "256") and not f.endswith(("Cases.antt", "/tests.rt")):
                numerals[v].append((f, n, line.strip()))
found = [p for v, ps in numerals.items() if len(ps) > 2 and len(set(crate(p[0]) for p in ps) | set(p[0] for p in ps)) > 1 for p in [(q[0], q[1], f"{v}: {q[2]}") for q in ps]]
print(f"== POINT 2 numbers that stand three times or more in src and specs: {len(set(p[2].split(':')[0] for p in found))} numbers, {len(found)} places")
for v in sorted(set(p[2].split(":")[0] for p in found), key=int):
    print(f"    {v}: " + ", ".join(f"{p[0]}:{p[1]}" for p in found if p[2].split(":")[0] == v))

# definitions of specs
DEFS = []
for f in TEXT:
    if "/specs/" not in f:
        continue
    cur = None
    for n, line in enumerate(LINES[f], 1):
        line = re.sub(r"(^|\s)--\s.*", "", line)
        m = re.match(r"^\s*(?:abbrev|unfoldable) (?:pub )?(\S+) : ?(.*)", line) or re.match(r"^\s*pub (?:record|data) (\S+)(.*)", line)
        if m:
            cur = [f, n, m.group(1), m.group(2) + "\n"]
            DEFS.append(cur)
        elif cur is not None:
            cur[3] += line + "\n"
groups = defaultdict(list)
for f, n, name, text in DEFS:
    ws = re.findall(r"[A-Za-z_][\w']*|[0-9]+|\S", text)
    names, out = {}, []
    for w in ws:
        if re.match(r"^[0-9]+$", w):
            out.append("N")
        elif w in ("record", "cond", "λ", "Type"):
            out.append(w)
        elif re.match(r"^[A-Za-z_]", w):
            out.append(names.setdefault(w, f"v{len(names)}"))
        else:
            out.append(w)
    if len(out) > 14:
        groups[" ".join(out)].append((f, n, name))
found = [g for g in groups.values() if len(g) > 1]
print(f"== POINT 2 definitions of specs that are equal but for names (15 words and more): {len(found)} groups, {sum(len(g) for g in found)} definitions")
for g in found:
    print("    - " + " = ".join(f"{n} ({f}:{l})" for f, l, n in g))
names = defaultdict(list)
for f, n, name, _ in DEFS:
    names[name].append((f, n))
found = {k: v for k, v in names.items() if len(set(p[0] for p in v)) > 1 and k != "_"}
print(f"== POINT 2 words that several files of specs declare: {len(found)}")
for k, v in sorted(found.items()):
    print(f"    {k}: " + ", ".join(f"{f}:{n}" for f, n in v))


print("\nPOINT 3. Loops that count an index by hand")


def loops(x):
    """(line, head, body) of each loop of a function"""
    b = x.body
    for i, t in enumerate(b):
        if t in ("for", "while", "loop"):
            if t == "for" and i + 1 < len(b) and b[i + 1] == "<":
                continue
            j = i + 1
            while j < len(b) and b[j] != "{":
                j = close(b, j) if b[j] in ("(", "[") else j + 1
            e = close(b, j)
            yield t.line, b[i:j], b[j + 1 : e - 1], b[e : e + 3]


def kind_of(head, body, after):
    text, h = " ".join(body), " ".join(head)
    if "u64 :: MAX" in h or "forever" in h:
        return None
    kinds = []
    if head[0] == "while":
        kinds.append("while")
    if head[0] == "for" and ".." in head[head.index("in") if "in" in head else 0 :] or "..=" in head:
        kinds.append("range")
    if "enumerate" in head:
        kinds.append("enumerate")
    if "windows" in head or "zip" in head and "range" in kinds:
        pass
    if re.search(r"return (Some|true|false|None)", text):
        kinds.append("search or test")
    if re.search(r"\b\w+ \+= |(\w+) = \1 \. (saturating_add|wrapping_add|checked_add)", text):
        kinds.append("sum or count")
    var = head[1:head.index("in")] if "in" in head else []
    for v in [w for w in var if re.match(r"^[a-z]", w)]:
        if re.search(rf"\[ [^\]]*\b{v}\b[^\]]* \]", text):
            kinds.append(f"subscript by {v}")
    return kinds


found, plain, tests = [], [], []
for x in FNS + TEST_FNS:
    for line, head, body, after in loops(x):
        k = kind_of(head, body, after)
        if k is None:
            continue
        place = (x.file, line, f"fn {x.name}: {' '.join(head)}: {', '.join(k) or 'each'}")
        (tests if x.test else found if k else plain).append(place)
show("POINT 3 loops by range, index or while, or that search, test, sum or count", found)
show("POINT 3 other loops (for each)", plain)
show("POINT 3 loops of tests and cases", tests)
found = []
for x in FNS:
    for i, t in enumerate(x.body):
        if t == "[" and i and re.match(r"^[a-z_]\w*$|^\]$|^\)$", x.body[i - 1]) and x.body[i - 1] not in KEY:
            e = close(x.body, i)
            inner = " ".join(x.body[i + 1 : e - 1])
            if re.match(r"^([0-9]+|\w+( \+ [0-9]+)?|2 \* \w+( \+ 1)?)$", inner) and ".." not in inner:
                found.append((x.file, t.line, f"fn {x.name}: {x.body[i - 1]}[{inner}] token {i}"))
print(f"== POINT 3 subscripts: {len(found)} in {len(set(f[2].split(':')[0] + f[0] for f in found))} functions; by a numeral: {sum(bool(re.search(r'[0-9]+[]]', p[2])) for p in found)}")
for (f, fn), ps in sorted(itertools.groupby(sorted(found), key=lambda p: (p[0], p[2].split(":")[0])), key=lambda g: g[0]) if False else sorted(Counter((p[0], p[2].split(":")[0]) for p in found).items()):
    print(f"    {f}: {fn}: {ps}")

print("\nPOINT 4. Equality, order, copying, conversion and printing by hand")
found = [at(x) + (x.name,) for x in CODE if x.kind == "impl" and re.search(r"\b(PartialEq|Eq|PartialOrd|Ord|Clone|Copy|Default|Hash|Debug|Display|From|Into|TryFrom|FromStr|Error)\b( <.*>)? for ", x.name)]
show("POINT 4 impls by hand of a derivable or converting trait (From, TryFrom are the form that is wanted)", found)
found = [at(x) + (f"{x.owner[:40]} fn {x.name}({', '.join(t for _, t in x.params)}) -> {x.ret}",) for x in FNS if re.match(r"^(of|new_from|from_\w+|to_\w+|as_u\d+|number|row|letter|reason|text|name|describe|equals?|same|compare|cmp|copy|copied)$", x.name) and " for " not in x.owner]
show("POINT 4 functions named as conversions", found)
found = []
for x in FNS:
    for line, subject, arms in matches(x.body):
        to_text = [v for p, v in arms if len(v) == 1 and re.match(r'^b?"', v[0])]
        to_variant = [1 for p, v in arms if p and LITERAL.match(p[0]) and re.search(r"\b[A-Z]\w+ :: [A-Z]\w+", " ".join(v))]
        if len(to_text) > 1:
            found.append((x.file, line, f"fn {x.name}: match {subject}: {len(to_text)} arms to a text"))
        if len(to_variant) > 1:
            found.append((x.file, line, f"fn {x.name}: match {subject}: {len(to_variant)} arms from a literal to a variant"))
show("POINT 4 matches that print or convert", found)
found = []
for x in FNS:
    text = " ".join(x.body)
    for m in re.finditer(r"\b([A-Z]\w*) \{", text):
        pass
    by = Counter(m.group(2) for m in re.finditer(r"\b(\w+) : (\w+) \. \1 [,}]", text + " }"))
    for who, n in by.items():
        if n > 1:
            found.append((x.file, x.line, f"fn {x.name}: {n} fields copied from {who}"))
show("POINT 4 functions that copy two fields or more by name", found)
found = []
for f, n, name, text in DEFS:
    by = Counter(m.group(2) for m in re.finditer(r"\b(\w+) = (\w+)\.\1\b", text))
    for who, k in by.items():
        if k > 1:
            found.append((f, n, f"{name}: {k} fields copied from {who}"))
show("POINT 4 definitions of specs that copy two fields or more", found)
derives = sum(1 for x in STRUCTS + ENUMS if any("derive" in a for a in x.attrs))
print(f"== POINT 4 structs and enums: {len(STRUCTS) + len(ENUMS)}, with a derive: {derives}")

print("\nPOINT 5. Facts in three or more contracts; parameters that travel together")
clauses = defaultdict(list)
for x in FNS:
    names = {p for p, _ in x.params} | {"self", "result"}
    for word, lab, text, line in x.clauses:
        if word == "where":
            continue
        t = re.sub(r" \. (now|old|new)\b", "", text)
        t = re.sub(r"\bself \. \w+( \. \w+)*", "_", t)
        ws = ["_" if w in names else w for w in t.split()]
        ws = [w for w in ws if w not in ("(", ")")]
        t = re.sub(r"\b[a-z]\b(?= :)", "x", " ".join(ws))
        clauses[(crate(x.file), word, t)].append((x, line, text))
found = [(k, v) for k, v in clauses.items() if len(set(id(p[0]) for p in v)) >= 3 and k[2] not in ("_ ≡ _",)]
print(f"== POINT 5 clauses that stand, but for names, in three or more contracts of a crate: {len(found)} clauses, {sum(len(v) for k, v in found)} places (clauses in all: {sum(len([c for c in x.clauses if c[0] != 'where']) for x in FNS)})")
for (c, w, t), v in sorted(found, key=lambda kv: -len(kv[1])):
    n = sum(reason(x.file, l) for x, l, _ in v)
    print(f"    {len(v)} x {c} {w} {{ {t[:110]} }} ({n} with a reason): " + ", ".join(f"{x.name} {x.file.split('/')[-1]}:{l}" for x, l, _ in v))
heads = defaultdict(set)
for x in FNS:
    for word, lab, text, line in x.clauses:
        if word == "requires":
            for w in re.findall(r"\b[A-Z]\w+", text):
                heads[(crate(x.file), w)].add((x.file, line, x.name))
found = [(k, v) for k, v in heads.items() if len(set(p[2] for p in v)) >= 3]
print(f"== POINT 5 facts (words with a capital) in the `requires` of three or more functions: {len(found)}")
for (c, w), v in sorted(found, key=lambda kv: -len(kv[1])):
    print(f"    {len(v)} x {c} {w}: " + ", ".join(sorted(p[2] for p in v)))
sets = defaultdict(set)
for x in FNS:
    ps = sorted(p for p in x.params if p[0] not in ("self", "_", "heap", "alloc", "f"))
    trait_impl = " for " in x.owner or x.owner.startswith("trait")
    if trait_impl:
        continue
    for n in range(2, len(ps) + 1):
        for c in itertools.combinations(ps, n):
            sets[(crate(x.file), c)].add((x.file, x.line, x.name))
big = {k: v for k, v in sets.items() if len(v) >= 3}
best = {k: v for k, v in big.items() if not any(k[0] == o[0] and set(k[1]) < set(o[1]) and len(big[o]) >= len(v) for o in big)}
print(f"== POINT 5 parameters that stand together in three or more functions: {len(best)} sets")
for (c, ps), v in sorted(best.items(), key=lambda kv: -len(kv[1])):
    n = sum(reason(f, l) for f, l, _ in v)
    print(f"    {len(v)} x {c} ({', '.join(a + ': ' + b for a, b in ps)}) ({n} with a reason): " + ", ".join(sorted(f"{p[2]} {p[0].split('/')[-1]}:{p[1]}" for p in v)))

print("\nPOINT 6. Buffers with a length beside them, parallel arrays, lists searched by hand")
ARRAY = re.compile(r"\[ (.+?) ; (.+?) \]")
found = []
for x in STRUCTS:
    fs = fields(x)
    arrays = [(n, t) for n, t, _ in fs if ARRAY.search(t) or t.startswith("Vec")]
    lens = [n for n, t, _ in fs if t in ("usize", "u8", "u16", "u32") and re.match(r"^(len|length|count|used|size|end|start|head|tail|next|index|kinds)$", n)]
    if arrays and lens:
        found.append((x.file, x.line, f"struct {x.name}: {arrays} with {lens}"))
show("POINT 6 structs with an array or Vec and a length or index beside", found)
found = []
for x in STRUCTS:
    arrays = [(n, t) for n, t, _ in fields(x) if ARRAY.search(t) or re.match(r"^(Vec|ArrayVec)", t)]
    if len(arrays) > 1:
        found.append((x.file, x.line, f"struct {x.name}: " + "; ".join(f"{n}: {t}" for n, t in arrays)))
for x in FNS:
    arrays = [(n, t) for n, t in x.params if ARRAY.search(t) or re.match(r"^& (mut )?\[", t)]
    if len(arrays) > 1:
        found.append((x.file, x.line, f"fn {x.name}: " + "; ".join(f"{n}: {t}" for n, t in arrays)))
show("POINT 6 parallel arrays and slices (two or more in a struct or in a function's parameters)", found)
found = []
for x in FNS:
    for n, t in x.params + [("result", x.ret)]:
        m = ARRAY.search(t)
        if m:
            found.append((x.file, x.line, f"fn {x.name}: {n}: {t}"))
for x in STRUCTS:
    for n, t, line in fields(x):
        if ARRAY.search(t) or re.match(r"^Vec", t):
            found.append((x.file, line, f"struct {x.name}: {n}: {t}"))
show("POINT 6 all arrays [T; N] in signatures, arrays and Vec in fields", found)

print("\nPOINT 7. A switch on which step to run, tables of functions")
found = []
for x in FNS:
    for line, subject, arms in matches(x.body):
        calls = [re.sub(r"\s", "", " ".join(v)) for p, v in arms]
        called = [re.match(r"^(?:&mut|&)?([a-z_.]+)\((.*)\)$", c) for c in calls]
        called = [c for c in called if c]
        if len(called) >= 2:
            same = Counter(c.group(1).split(".")[-1] for c in called).most_common(1)[0]
            if same[1] >= 2:
                found.append((x.file, line, f"fn {x.name}: match {subject}: {same[1]} arms call {same[0]} on different values"))
    for m in re.finditer(r"\bif (.*?) \{ (?:& ?)?([\w .]+?) \. (\w+) \( ([^{}]*) \) \} else \{ (?:& ?)?([\w .]+?) \. \3 \( ([^{}]*) \) \}", " ".join(x.body)):
        found.append((x.file, x.line, f"fn {x.name}: if {m.group(1)[-30:]}: {m.group(2)}.{m.group(3)} or {m.group(5)}.{m.group(3)}"))
show("POINT 7 branches that make one call on one of two values", found)
found = []
for x in ITEMS:
    text = " ".join(x.body) + " ".join(t for _, t in getattr(x, "params", []))
    if x.kind in ("fn", "struct", "const", "type", "static") and re.search(r": (& )?fn \(|\[ fn|dyn |Box < dyn", " : " + text):
        found.append(at(x) + (f"{x.kind} {x.name}",))
show("POINT 7 function pointers, dyn", found)
found = []
for x in [y for y in ITEMS if y.kind == "enum"]:
    used = [y for y in ITEMS if y.kind == "fn" and any(sum(bool(re.match(rf"^{x.name} ::", " ".join(p))) for p, v in arms) >= 2 for _, _, arms in matches(y.body))]
    n = len(split(x.body))
    if len(used) == 1 and "interpret" and all(re.search(r"\.\. \w+|\(", " ".join(v)) for _, _, arms in matches(used[0].body) for p, v in arms):
        found.append(at(x) + (f"enum {x.name}, {n} variants, taken apart by fn {used[0].name} ({used[0].file}:{used[0].line}) alone{' (tests)' if x.test else ''}",))
show("POINT 7 enums that one function alone takes apart, each arm a step (tests too)", found)

print("\nPOINT 8. Proofs")
PROOFS = [f for f in TEXT if "/proofs/" in f]


def plain(f):
    return re.sub(r"(?m)(^|\s)--\s.*$", "", TEXT[f])


LEMMAS = []
for f in PROOFS:
    if re.match(r"^[^/]+/proofs/[^/]+\.antt$", f) and not f.endswith("/Lib.antt"):
        inside = -1  # how far the head of a record is indented, whose fields are no lemmas
        for n, line in enumerate(LINES[f], 1):
            indent = len(line) - len(line.lstrip())
            if line.strip() and indent <= inside:
                inside = -1
            if re.match(r"^\s*(pub )?record ", line):
                inside = indent
                continue
            m = re.match(r"^\s*(?:abbrev |unfoldable )*(pub )?([^\s:(){}]+) :(?!:) ", line)
            if m and inside < 0 and m.group(2) not in ("use", "mod", "pub", "let", "where"):
                LEMMAS.append((f, n, m.group(2), bool(m.group(1)), line))
words = {f: Counter(re.findall(r"[^\s(){}\[\].,;:λ]+", "\n".join(l for l in plain(f).split("\n") if not re.match(r"^(pub )?use ", l)))) for f in PROOFS}
usings = {f: Counter(re.findall(r"[\w-]+", " ".join(re.findall(r"#\[tactic\(.*?\)\]", TEXT[f], re.S)) + " ".join(re.findall(r"ghost [^;]*;", TEXT[f])))) for f in TEXT if f.endswith(".rt")}
never, once, total = [], [], 0
for f, n, name, public, line in LEMMAS:
    own = 0
    for l in plain(f).split("\n"):
        if re.match(rf"^\s*(abbrev |unfoldable )*(pub )?(record )?{re.escape(name)}(\s|$)", l) and re.search(r"\s(=|:)(\s|$)", l):
            own += 1
    uses = sum(words[g][name] for g in PROOFS) - own + sum(u[name] for u in usings.values())
    # the clause heads of its own definition count as its own; a recursive call counts as a use in its own file
    total += 1
    if uses <= 0:
        never.append((f, n, line.strip()))
    elif uses == 1:
        once.append((f, n, line.strip()))
print(f"== POINT 8 lemmas and definitions in files of lemmas: {total}; lines: {sum(len(LINES[f]) - 1 for f in PROOFS if re.match(r'^[^/]+/proofs/[^/]+.antt$', f))}")
show("POINT 8 .. that are used nowhere else", never)
show("POINT 8 .. that are used once", once)
# Proofs of functions: an answer is a name and its right side.
alone, answers = [], 0
bodies = defaultdict(list)
for f in PROOFS:
    if re.match(r"^[^/]+/proofs/[^/]+\.antt$", f):
        continue
    text = plain(f)
    blocks = re.split(r"(?m)^(?=(?:abbrev )?(?:pub )?[^\s:]+ : goal)", text)
    for b in blocks[1:]:
        answers += 1
        m = re.match(r"(?:abbrev )?(?:pub )?([^\s:]+) : ", b)
        right = re.search(r"(?m)^" + re.escape(m.group(1)) + r"\b[^=]*=(.*)", b, re.S)
        right = re.sub(r"\s+", " ", right.group(1)).strip() if right else ""
        line = text[: text.index(b)].count("\n") + 1
        if re.match(r"^(search|grind|omega|simp|auto|solve)\b[\w\s,()+-]*$", right) or re.match(r"^record \{( ?[\w-]+ = (refl|search \w+);?)+ \}$", right) or right in ("refl", "tt"):
            alone.append((f, line, f"{m.group(1)} = {right}"))
        if len(right.split()) >= 4:
            bodies[re.sub(r"\b(c|g|l)\.[\w.-]+", "_", right)].append((f, line, m.group(1), right))
print(f"== POINT 8 answers in proofs of functions: {answers} in {sum(1 for f in PROOFS if not re.match(r'^[^/]+/proofs/[^/]+.antt$', f))} files, {sum(len(LINES[f]) - 1 for f in PROOFS if not re.match(r'^[^/]+/proofs/[^/]+.antt$', f))} lines")
show("POINT 8 answers that are one search, refl or tactic", alone)
found = [v for v in bodies.values() if len(v) >= 3]
print(f"== POINT 8 texts that three answers or more repeat: {len(found)}, {sum(len(v) for v in found)} answers")
for v in sorted(found, key=lambda v: -len(v)):
    print(f"    {len(v)} x {v[0][3][:100]}: " + ", ".join(f"{f}:{l}" for f, l, _, _ in v[:6]))
