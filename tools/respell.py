#!/usr/bin/env python3
"""Brings the names that this repository defines in specs/ and proofs/ to the spelling of the library:
functions, lemmas, fields and variables in snake case (first_char), types, records and what else begins with
a capital in camel case (ChainLaws). Names that Rattle makes of the source, and those of the library, stay.

usage: python3 tools/respell.py [--list]      at the top of the repository; --list only prints the table

Rewrites .antt, .rt and .edit files, and words in backquotes in docs/ and README.md.
It goes by whole tokens, and tells where two names fall together in a file: look there.
"""

import os
import re
import sys

TOKEN = re.compile(r"[^\s(){}\[\];,.`\"]+")
# a definition, a record or a constructor at the head of a line, a field or a local function below one
HEAD = re.compile(r"^(?:unfoldable\s+|abbrev\s+)?(?:pub\s+)?(?:(record|data)\s+)?(?:pub\s+)?([^\s:(){}=.,;`]+)((?:\s*[({].*)?\s*:.*)$")
BELOW = re.compile(r"^\s+(?:pub\s+)?([^\s:(){}=.,;`]+)\s+:(?:\s.*)?$")
AS = re.compile(r"\bas\s+([^\s(){}\[\];,.]+)")


def files(root, *endings):
    for folder, dirs, names in os.walk(os.path.join(root, "crates")):
        dirs[:] = sorted(d for d in dirs if d != "out")
        for n in sorted(names):
            if n.endswith(endings):
                yield os.path.join(folder, n)


def read(p):
    with open(p, encoding="utf-8", newline="") as f:
        return f.read()


def camel(name):
    return "".join(part[:1].upper() + part[1:] for part in name.split("-"))


def turned(name, is_type):
    if not re.fullmatch(r"[^\W\d][\w'-]*", name) or "-" not in name.strip("-"):
        return None
    if is_type or (name[0].isupper() and "-" in name):
        return camel(name)
    return name.replace("-", "_")


def in_proof_of_a_function(p):
    """proofs/F/../X.antt, whose top names are goals that Rattle made."""
    parts = p.split(os.sep)
    return "proofs" in parts and len(parts) - parts.index("proofs") > 2


def collect(root):
    table = {}
    for p in files(root, ".antt"):
        goals = in_proof_of_a_function(p)
        for line in read(p).splitlines():
            code = re.split(r"(?:^|\s)--(?:\s|$)", line)[0]
            m = HEAD.match(code)
            if m:
                kind, name, rest = m.groups()
                if goals and re.match(r"\s*:\s*(goal|need)\.", rest):
                    continue
                new = turned(name, bool(kind))
                if new:
                    table[name] = new
                continue
            m = BELOW.match(code)
            if m:
                new = turned(m.group(1), False)
                if new:
                    table[m.group(1)] = new
    for p in files(root, ".antt", ".rt"):
        for line in read(p).splitlines():
            if re.match(r"\s*(?:ghost\s+|pub\s+)?use\s", line):
                for name in AS.findall(line):
                    new = turned(name, False)
                    if new:
                        table[name] = new
    return table


def rewrite(text, table):
    return TOKEN.sub(lambda m: table.get(m.group(0), m.group(0)), text)


def docs(text, table):
    return re.sub(r"`[^`\n]+`", lambda m: rewrite(m.group(0), table), text)


def main():
    root = os.getcwd()
    table = collect(root)
    if "--list" in sys.argv:
        for k in sorted(table):
            print(k, table[k])
        return
    seen = {}
    for p in files(root, ".antt", ".rt"):
        tokens = set(TOKEN.findall(read(p)))
        for old in tokens & table.keys():
            new = table[old]
            if new in tokens:
                seen.setdefault((old, new), []).append(os.path.relpath(p, root))
    for (old, new), where in sorted(seen.items()):
        print(f"together: {old} and {new} in {', '.join(where)}")
    changed = 0
    todo = [(p, rewrite) for p in files(root, ".antt", ".edit", ".rt")]
    for folder in ("docs", "."):
        for n in sorted(os.listdir(os.path.join(root, folder))):
            if n.endswith(".md"):
                todo.append((os.path.join(root, folder, n), docs))
    for p, how in todo:
        t = read(p)
        u = how(t, table)
        if u != t:
            with open(p, "w", encoding="utf-8", newline="") as f:
                f.write(u)
            changed += 1
    print(f"{len(table)} names, {changed} files")


main()
