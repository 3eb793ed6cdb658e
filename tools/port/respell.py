#!/usr/bin/env python3
"""Brings this repository's own definitions and lemmas to Rattle's spelling, once, behind port.py.

usage: python3 tools/port/respell.py          at the top of the repository: rewrites crates/, README.md, docs/ and tools/
       python3 tools/port/respell.py --list   prints old and new name, a line each

Words are in snake case. A dash stays where it joins the names of two definitions, as in `length-append`; a plain
word is joined by an underscore. Types, modules, functions of src/, strings and goals of a proof keep their names.
"""

import glob
import re
import subprocess
import sys

# definitions of the library that names of lemmas here are made of
LIBRARY = set(
    "length append set take drop map filter reverse cond neg add sub mul div sqrt abs suc zero pred pow get_or and or not eqb leb ltb nan of_bits to_bits sum".split()
)
# pieces whose old spelling is the library's no longer
PIECES = {"getD": "get_or"}
WORD = r"[^\W\d]['′\w]*(?:-['′\w]+)*[₀-₉]*"
DECLARED = re.compile(
    r"^\s*(?:(?:abbrev|unfoldable|opaque|pub|record|data|irreducible)\s+)*(" + WORD + r")((?:\s+[({][^)}]*[)}])*)\s+:(?:\s|$)(.*)"
)
RECORDS = re.compile(r"^\s*(?:pub\s+)?(?:record|data)\s+(" + WORD + ")")


def files(kinds):
    found = []
    for kind in kinds:
        found += glob.glob(kind, recursive=True)
    return sorted(f for f in found if "/out/" not in f)


def snake(piece):
    piece = PIECES.get(piece, piece)
    if not re.match(r"[a-z]", piece):
        return piece
    return re.sub(r"(?<=[a-z0-9])([A-Z])", lambda m: "_" + m.group(1).lower(), piece)


def declared():
    """Names declared in specs/ and proofs/, and those of them that are goals' answers."""
    specs, names, answers = set(), set(), set()
    for path in files(["crates/*/specs/**/*.antt", "crates/*/proofs/**/*.antt"]):
        with open(path, encoding="utf-8") as f:
            for line in f:
                m = DECLARED.match(line)
                if not m:
                    continue
                name = m.group(1)
                if re.match(r"(tie|goal)\.", m.group(3).strip()):
                    answers.add(name)
                    continue
                names.add(name)
                if "/specs/" in path and not line.startswith(" "):
                    specs.add(name)
    return specs, names, answers


def functions():
    found = set()
    for path in files(["crates/*/src/**/*.rt"]):
        with open(path, encoding="utf-8") as f:
            found |= set(re.findall(r"\bfn (\w+)", f.read()))
    return found


def respelled(name, known):
    """The new spelling of a name."""
    pieces = [snake(p) for p in name.split("-")]
    if pieces[-1] == "spec":
        return "_".join(pieces)
    out = pieces[0]
    for left, right in zip(pieces, pieces[1:]):
        capital = re.match(r"[A-Z]", left) or re.match(r"[A-Z]", right)
        out += ("-" if (left in known and right in known) or (capital and right in known) else "_") + right
    return out


def table():
    specs, names, answers = declared()
    known = {snake(n) for n in specs if "-" not in n} | LIBRARY
    turned = {}
    for name in sorted(names):
        if not (re.match(r"[a-z]", name) and re.search(r"[a-z][A-Z]", name)) and "-" not in name:
            continue
        if name in answers and "-" in name:
            continue
        new = respelled(name, known)
        if new != name:
            turned[name] = new
    # a lemma keeps its dashes where its new name is another's
    taken = (names - set(turned)) | {new for old, new in turned.items() if "-" not in old}
    seen = set()
    for name in [n for n in sorted(turned) if "-" in n]:
        if turned[name] in taken or turned[name] in seen:
            del turned[name]
        else:
            seen.add(turned[name])
    return turned, names


def main(argv):
    turned, names = table()
    if argv == ["--list"]:
        for old, new in sorted(turned.items()):
            print(old, new)
        return 0
    meet = {}
    for name in sorted(names):
        meet.setdefault(turned.get(name, name), []).append(name)
    for new, olds in sorted(meet.items()):
        if len(olds) > 1:
            print(f"falls together: {' '.join(olds)} as {new}")
    camel = {o: n for o, n in turned.items() if re.search(r"[a-z][A-Z]", o)}
    token = re.compile(r"(?<![\w'′-])(" + WORD + r")(?![\w'′])")

    def antt(m, text):
        word = m.group(1)
        if word not in turned:
            return word
        before = text[max(0, m.start() - 5):m.start()]
        if before.endswith(".") and "-" in word and not before.endswith("{."):
            # a member or a goal's name; a lemma is named whole
            return word if not before[:-1].rstrip().endswith("}") else turned[word]
        return turned[word]

    changed = 0
    for path in files(["crates/*/specs/**/*.antt", "crates/*/proofs/**/*.antt", "crates/*/src/**/*.rt", "crates/*/must-fail/*.edit", "README.md", "docs/**/*.md", "tools/roots/*"]):
        if path.startswith("docs/PORT"):
            continue
        try:
            with open(path, encoding="utf-8") as f:
                text = f.read()
        except (UnicodeDecodeError, IsADirectoryError):
            continue
        if path.endswith(".antt"):
            new = token.sub(lambda m: antt(m, text), text)
        elif path.endswith(".md"):
            new = re.sub(r"`[^`\n]+`", lambda s: token.sub(lambda m: camel.get(m.group(1), m.group(1)), s.group(0)), text)
        elif path.endswith((".rt", ".edit")):
            lines = []
            for line in text.split("\n"):
                parts = re.split(r'(b?"(?:[^"\\]|\\.)*"|//.*$)', line)
                for i in range(0, len(parts), 2):
                    parts[i] = token.sub(lambda m: camel.get(m.group(1), m.group(1)), parts[i])
                lines.append("".join(parts))
            new = "\n".join(lines)
        else:
            new = token.sub(lambda m: camel.get(m.group(1), m.group(1)), text)
        if new != text:
            with open(path, "w", encoding="utf-8") as f:
                f.write(new)
            changed += 1
    print(f"{len(turned)} names, {changed} files")
    return 0


if __name__ == "__main__":
    raise SystemExit(main(sys.argv[1:]))
