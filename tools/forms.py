#!/usr/bin/env python3
"""Lists places in src/ that may read like an older language: python3 tools/forms.py [POINT..].

The points are those of docs/DESIGN-PASS.md. A row is a place to look at; which of them count, that page says."""
import pathlib
import re
import sys

ROOT = pathlib.Path(__file__).resolve().parent.parent
SOURCES = sorted(ROOT.glob("crates/*/src/**/*.rt"))

# lines by a pattern: the point, what it finds, the pattern
LINES = [
    (1, "enum", r"^\s*(pub(\([a-z]+\))? )?enum \w+"),
    (1, "flag with a value beside it", r"\((bool|negative: bool),"),
    (1, "number for a kind", r"\b(field|digits|[abcd]): u(8|64)\b|\bField\(u8\)|case\.[abcd]\b|numbers\[\d\]"),
    (1, "result taken apart by hand", r"^\s*(Err|None)\b.* => |^\s*(Err|None) => "),
    (1, "refusal returned early", r"^\s*return (Err\b|None\b|Ok\(None\))"),
    (3, "loop with its index", r"\.enumerate\(\)"),
    (3, "count kept by hand", r"= \w+\.saturating_add\(1\);|\b(n|end|i) \+= "),
    (3, "loop that only searches", r"^\s*return (true|false|Some\(.*\)|Ok\(i\)|i);$"),
    (4, "cast", r" as (u8|u32|i32|i64|usize|char)\b"),
    (4, "conversion by a function", r"fn (of|of_\w+|from_\w+|\w+_of|named|number|numbers|precision|digit|as_text|on_clock)\("),
    (4, "equality by hand", r"fn (same|equal|same_value)\b"),
    (5, "clause cut", r"ensures cut \{"),
    (5, "clause same", r"ensures same \{"),
    (5, "clause of a chain", r"ensures (\w+ )?\{ Takes "),
    (5, "clause of a getter", r"ensures \{ result ≡ parsed_table "),
    (5, "runtime and heap, or flags, together", r"heap: Global,|allow_\w+: bool,"),
    (6, "buffer, table or list", r"\bVec<|: \[.*; \d+\] =|\bBox<|\[\w+; \d+\]"),
    (7, "choice among steps", r"^\s*match (setter|form|verb|command|known|case\.\w+|separator)\b"),
]
KEYWORDS = {"fn", "pub", "match", "if", "else", "for", "while", "let", "return", "impl", "mut", "in", "Ok", "Err", "Some", "None", "self", "Self"}


def name(path):
    return str(path.relative_to(ROOT / "crates"))


def lines(point):
    for p, what, pattern in LINES:
        if p != point:
            continue
        rows = [f"  {name(f)}:{n}: {l.strip()}" for f in SOURCES for n, l in enumerate(f.read_text().split("\n"), 1)
                if re.search(pattern, l) and not l.lstrip().startswith(("//", "ghost"))]
        print(f"{point}, {what}: {len(rows)}", *rows, sep="\n")


def functions(text):
    """Each function: the line where it begins, and its signature and body without clauses."""
    for m in re.finditer(r"^[ ]*(?:pub(?:\([a-z]+\))? )?fn (\w+)", text, re.M):
        depth, i, end = 0, m.end(), None
        body = re.sub(r"\b(requires|ensures)( \w+)? \{[^\n]*\}\n", lambda c: " " * (len(c[0]) - 1) + "\n", text[m.start():])
        for j, c in enumerate(body):
            depth += (c == "{") - (c == "}")
            if c == "}" and depth == 0:
                end = j + 1
                break
            if c == ";" and depth == 0 and "{" not in body[:j] and "[" not in body[:j].rsplit("(", 1)[-1]:
                break
        if end:
            yield text.count("\n", 0, m.start()) + 1, m[1], body[:end]


def shape(code):
    """The code without its names, types and constants."""
    tokens = re.findall(r"//[^\n]*|b?\"[^\"]*\"|b?'[^']'|\w+|[^\w\s]", code)
    return " ".join(t if t in KEYWORDS or not re.match(r"[\w\"'b]", t) else "x" for t in tokens if not t.startswith("//"))


def twins():
    groups = {}
    for f in SOURCES:
        for n, fn, code in functions(f.read_text()):
            groups.setdefault(shape(code), []).append(f"{name(f)}:{n} {fn}")
    groups = [g for g in groups.values() if len(g) > 1]
    print(f"2, functions of one shape: {len(groups)} groups, {sum(map(len, groups))} functions")
    for g in sorted(groups, key=len, reverse=True):
        print("  " + "; ".join(g))


for point in map(int, sys.argv[1:] or [1, 2, 3, 4, 5, 6, 7]):
    twins() if point == 2 else lines(point)
