"""Counts places in crates/*/src that an older design leaves: python3 tools/design_places.py [FOLDER] [--list]

Each line is a point of docs/DESIGN-PASS.md, with the number of places that its rule finds. The rules go by text, so they find
candidates: docs/DESIGN-PASS.md says which of them are places, and what became of each."""
import glob
import os
import re
import sys
from collections import defaultdict

WORDS = set("fn pub let mut match if else for while in return impl self Self as loop break continue where unsafe ref move struct enum const type "
            "ghost use Ok Err Some None true false".split())


def sources(root):
    for path in sorted(glob.glob(os.path.join(root, "crates/*/src/**/*.rt"), recursive=True)):
        text = open(path, encoding="utf-8").read()
        cut = text.find("#[cfg(test)]")
        yield os.path.relpath(path, root), text if cut < 0 else text[:cut]


def lines(root, rule):
    found = []
    for path, text in sources(root):
        for number, line in enumerate(text.split("\n"), 1):
            if re.search(rule, line) and not line.strip().startswith("//"):
                found.append(f"{path}:{number}: {line.strip()}")
    return found


def functions(text):
    """Each function with a body: its name, its line and the body's lines, without comments."""
    for m in re.finditer(r"^( *)(?:pub(?:\([a-z]+\))? )?(?:extern \"C\" )?fn (\w+)", text, re.M):
        indent = m.group(1)
        open_brace = re.compile(rf"^{indent}\{{$|\{{$", re.M).search(text, m.end())
        if open_brace is None:
            continue
        rest = text[m.start():]
        close = re.search(rf"^{indent}\}}$", rest, re.M)
        if close is None:
            continue
        block = rest[:close.start()]
        body = block.split("{\n", 1)[1] if "{\n" in block else ""
        body = "\n".join(l for l in body.split("\n") if l.strip() and not re.match(r"\s*(//|requires|ensures)", l))
        yield m.group(2), text[:m.start()].count("\n") + 1, body


def shape(body):
    """The body with every name, number and string replaced by one mark."""
    body = re.sub(r'b?"[^"]*"|b\'[^\']*\'', "S", body)
    body = re.sub(r"\b\d[\w_]*\b", "N", body)
    body = re.sub(r"\b[A-Za-z_]\w*\b", lambda w: w.group(0) if w.group(0) in WORDS else "x", body)
    body = re.sub(r"(x::)+x", "x", body)
    return re.sub(r"\s+", " ", body)


def twins(root):
    groups = defaultdict(list)
    for path, text in sources(root):
        for name, line, body in functions(text):
            if body.count("\n") >= 2:
                groups[shape(body)].append(f"{path}:{line}: {name}")
    return [g for g in groups.values() if len(g) > 1]


def repeated_clauses(root):
    seen = defaultdict(list)
    for path, text in sources(root):
        for number, line in enumerate(text.split("\n"), 1):
            m = re.match(r"\s*requires(?: \w+)? \{ (.*) \}", line)
            if m:
                seen[re.sub(r"\b(old|new|now|entry)\b", "v", m.group(1))].append(f"{path}:{number}: {line.strip()}")
    return [g for g in seen.values() if len(g) >= 3]


def travelling(root):
    """Parameters of the same name and type, side by side in three or more functions."""
    seen = defaultdict(list)
    for path, text in sources(root):
        for m in re.finditer(r"fn (\w+)(?:<[^(]*>)?\(([^)]*)\)", text):
            parts = [re.sub(r"\s+", " ", p).strip() for p in m.group(2).split(",")]
            parts = [re.sub(r"'\w+ ", "", p) for p in parts if p and "self" not in p]
            for pair in zip(parts, parts[1:]):
                seen[pair].append(f"{path}: {m.group(1)}")
    return [f"{p[0]}, {p[1]}: " + " | ".join(g) for p, g in sorted(seen.items()) if len(g) >= 3]


POINTS = [
    ("1 enums", lambda r: lines(r, r"^(pub )?enum ")),
    ("1 numbers for none", lambda r: lines(r, r"return 0;|=> 0,|^\s+0$|== 0 \{$|usize::MAX")),
    ("2 functions of one shape (groups)", lambda r: [" | ".join(g) for g in twins(r)]),
    ("3 places counted by hand", lambda r: lines(r, r"^\s*while .*(<|>)[^|]*\{$|^\s*\w+(\.\w+)? \+= ")),
    ("3 loops over numbers", lambda r: lines(r, r"for \w+ in 0\.\.")),
    ("4 impls of std's by hand", lambda r: lines(r, r"^impl.* (PartialEq|Eq|PartialOrd|Ord|Clone|Debug|Display|From<.*>|TryFrom<.*>|Iterator) for ")),
    ("4 conversions by a match or a chain", lambda r: lines(r, r"if same\(|fn (numbered|from_words|to_word|from_word|layer_named|parse_(pool|flag|layer|bottom))\(")),
    ("5 requires of three functions (groups)", lambda r: [" | ".join(g) for g in repeated_clauses(r)]),
    ("5 parameters side by side in three functions (groups)", travelling),
    ("6 arrays with a length beside", lambda r: lines(r, r": \[\w+; \d+\]|^\s*(pub(\(crate\))? )?used: usize")),
    ("7 steps by a chain of names", lambda r: lines(r, r"(if|else if) same\(\w+, b\"[a-z_]+(sql|list|texts|check)\"\)|dyn |: fn\(")),
]


def main():
    given = [a for a in sys.argv[1:] if not a.startswith("-")]
    root = given[0] if given else "."
    for name, rule in POINTS:
        found = rule(root)
        print(f"{len(found):4} {name}")
        if "--list" in sys.argv:
            for place in found:
                print("       " + place)
    print(f"{sum(1 for _ in glob.iglob(os.path.join(root, 'crates/*/proofs/**/*.antt'), recursive=True)):4} 8 files of proofs")
    print(f"{sum(open(p, encoding='utf-8').read().count(chr(10)) for p in glob.iglob(os.path.join(root, 'crates/*/proofs/**/*.antt'), recursive=True)):4} 8 lines of proofs")


main()
