#!/usr/bin/env python3
"""Counts the places that docs/DESIGN-PASS.md goes through, in the src/ of every crate of a checkout.

    python3 tools/design/places.py [--list] [POINT ..]     in the checkout's top folder

Without --list it prints a number for each kind of place, with it each place too.
"""
import os, re, subprocess, sys
from collections import defaultdict

ROOT = os.getcwd()
LIST = "--list" in sys.argv
WANT = [a for a in sys.argv[1:] if a.isdigit()]


def files():
    names = subprocess.run(["git", "ls-files", "crates/*/src/*.rt", "crates/*/src/**/*.rt"], capture_output=True, text=True, cwd=ROOT).stdout.split()
    return sorted(set(names))


TEXT = {name: open(os.path.join(ROOT, name), encoding="utf-8").read() for name in files()}


def code(text):
    """The text with its comments blank."""
    return re.sub(r"//[^\n]*", lambda m: " " * len(m.group()), text)


CODE = {name: code(text) for name, text in TEXT.items()}


def line_of(name, at):
    return TEXT[name].count("\n", 0, at) + 1


def find(pattern, flags=re.M):
    out = []
    for name, text in CODE.items():
        for m in re.finditer(pattern, text, flags):
            out.append((name, line_of(name, m.start()), " ".join(m.group().split())[:90]))
    return out


def functions():
    """(file, line, name, parameters, clauses, body) of each function with a body."""
    out = []
    for name, text in CODE.items():
        for m in re.finditer(r"^[ \t]*(?:#\[[^\]]*\]\s*)*(?:pub(?:\([a-z]+\))? )?(?:extern \"C\" )?fn (\w+)", text, re.M):
            i = text.index("(", m.end(1))
            depth, j = 0, i
            while True:
                depth += text[j] in "([" 
                depth -= text[j] in ")]"
                j += 1
                if depth == 0:
                    break
            parameters = [" ".join(p.split()) for p in split_commas(text[i + 1 : j - 1])]
            rest = text[j:]
            clauses, k = [], 0
            while True:
                c = re.match(r"\s*(?:->\s*[^{]*?(?=\s(?:requires|ensures)\b|\{))?\s*((?:requires|ensures)(?: \w+)?)\s*\{", rest[k:], re.S)
                if not c:
                    break
                end = close(rest, k + c.end() - 1)
                clauses.append((c.group(1), " ".join(rest[k + c.end() : end].split())))
                k = end + 1
            b = rest.find("{", k)
            if b < 0:
                continue
            out.append((name, line_of(name, m.start(1)), m.group(1), parameters, clauses, rest[b + 1 : close(rest, b)]))
    return out


def split_commas(text):
    parts, depth, last = [], 0, 0
    for i, ch in enumerate(text):
        if ch in "([{<":
            depth += 1
        elif ch in ")]}>" and not (ch == ">" and text[i - 1] == "-"):
            depth -= 1
        elif ch == "," and depth == 0:
            parts.append(text[last:i])
            last = i + 1
    parts.append(text[last:])
    return [p.strip() for p in parts if p.strip()]


def close(text, i):
    depth = 0
    for j in range(i, len(text)):
        depth += text[j] == "{"
        depth -= text[j] == "}"
        if depth == 0:
            return j
    return len(text) - 1


FUNCTIONS = functions()


def shape(body):
    """A body with its names, types and numbers taken out, so that functions that differ in those alone are one."""
    words = re.findall(r"[A-Za-z_]\w*|\d[\w.]*|\S", body)
    keep = {"if", "else", "while", "for", "in", "match", "return", "let", "mut", "break", "continue", "true", "false", "as"}
    return " ".join(w if w in keep or not re.match(r"[\w]", w) else "x" for w in words)


def twins():
    groups = defaultdict(list)
    for f in FUNCTIONS:
        s = shape(f[5])
        if len(s.split()) >= 14:
            groups[s].append(f)
    return [(f[0], f[1], "; ".join(sorted({g[2] for g in fs}))[:90]) for fs in groups.values() if len(fs) > 1 for f in fs]


def long_parameters():
    return [(f[0], f[1], f"{f[2]}: {len(f[3])}") for f in FUNCTIONS if len(f[3]) >= 6]


def together():
    """Functions that take two or more of a group of parameters that travel together."""
    group = ["counts", "adjacency", "geometry", "heads", "places", "facing", "bordering", "codes", "values", "starts", "equations", "weights", "inverses"]
    out = []
    for f in FUNCTIONS:
        names = {p.split(":")[0].replace("mut ", "").strip() for p in f[3]}
        if len(names & set(group)) >= 2:
            out.append((f[0], f[1], f"{f[2]}: {len(names & set(group))}"))
    return out


def facts():
    where = defaultdict(list)
    for f in FUNCTIONS:
        for kind, text in f[4]:
            if kind.startswith("requires") and len(text) > 12:
                where[text].append(f)
    return [(f[0], f[1], text[:90]) for text, fs in where.items() if len(fs) >= 3 for f in fs]


def answers():
    out, long = 0, []
    for d, _, names in os.walk(os.path.join(ROOT, "crates")):
        if "/out" in d:
            continue
        for n in names:
            if n == "Answers.antt":
                for i, text in enumerate(open(os.path.join(d, n), encoding="utf-8"), 1):
                    out += text.startswith("pub ") and " : " in text
                    if len(text) > 160:
                        long.append((os.path.relpath(os.path.join(d, n), ROOT), i, f"{len(text)} characters"))
    return out, long


POINTS = [
    ("1", "own enums", lambda: find(r"^(?:pub(?:\([a-z]+\))? )?enum \w+")),
    ("1", "numbers of refusals written out", lambda: find(r"\b(?:Refused|Bad|Early|Late|Halted|Failed|Unmeasured|at|tell)\(\s*\d+")),
    ("1", "refusals handed on by a match", lambda: find(r"\w+::(?:Refused|Bad|Halted|Failed|Unmeasured)\((\w+)(?:, (\w+))?\) =>[^,}]*::\w+\(\1")),
    ("1", "kinds, forms and slices as numbers", lambda: find(r"\b(?:kind|slice|held|left)\s*:\s*usize|^pub const (?:ADJACENCY|GEOMETRY|HEADS|PLACES|FACING|BORDERING|CODES|VALUES|STARTS|EQUATIONS|WEIGHTS|INVERSES|DIAGONAL|RESPONSES|PRESSURE|VELOCITY|GRADIENT|WALLS|PREDICTED|COEFFICIENTS|CORRECTION|FLUX|OUTFLOW|METRICS|CORRECTED)\b")),
    ("1", "numbers that stand for none", lambda: find(r"\bNOWHERE\b|\b(?:neighbour|peer|q|n|h|g) [!=]= 0\b|< 16\b")),
    ("1", "flags beside values", lambda: find(r"^\s+(?:pub )?\w+: bool,")),
    ("2", "functions with a twin (same body but for names, types, numbers)", twins),
    ("3", "loops that count by hand", lambda: [p for p in find(r"^[ \t]*(?:'\w+: )?while [^{]*\{")]),
    ("4", "conversions, copies and printing by hand", lambda: find(r"^\s*(?:pub(?:\([a-z]+\))? )?fn (?:print_\w+|number_of|index_of|condition_of|early_number|is_early|is_late|early|late|compared|component|text|decimal|word|float|refusal|words|floats|next_word|next_float)\b")),
    ("5", "functions of six parameters or more", long_parameters),
    ("5", "functions that take slices that travel together", together),
    ("5", "requirements that stand in three functions or more", facts),
    ("6", "fixed buffers", lambda: find(r"= \[[^\];\[]+; [A-Z0-9_]+\]|: \[[A-Za-z0-9]+; [A-Z0-9_]+\],?$")),
    ("6", "places in a list kept as numbers", lambda: find(r"^\s+(?:pub )?(?:adjacency|geometry|heads|places|facing|bordering|codes|values|starts|equations|weights|inverses|fields|at|end|lengths|outputs): usize,")),
    ("7", "switches on which step to run", lambda: find(r"\bmatch (?:kind|form|slice|left)\b")),
]

for point, what, places in POINTS:
    if WANT and point not in WANT:
        continue
    found = places()
    print(f"point {point}: {what}: {len(found)}")
    if LIST:
        for name, line, text in found:
            print(f"    {name}:{line}: {text}")
if not WANT or "8" in WANT:
    n, long = answers()
    print(f"point 8: answers: {n}")
    print(f"point 8: answer lines of more than 160 characters: {len(long)}")
    if LIST:
        for name, line, text in long:
            print(f"    {name}:{line}: {text}")
