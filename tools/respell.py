#!/usr/bin/env python3
"""Gives the repository's own definitions and lemmas today's spelling: snake case for words, camel case for facts and types.

usage: tools/respell.py            at the top of the repository, once, after the kit's own scripts

A name with a hyphen, or one in capitals with an underscore, that a file of specs/ or proofs/ declares is respelled wherever it stands as a word of its own:
`value-at` becomes `value_at`, `Reads-back` becomes `ReadsBack`. Left alone are the names that the prover makes (goals,
steps of a function, arms), names that a file imports from a library, comments and texts in quotes.
"""
import os
import re
import sys

DECLARED = re.compile(
    r"^\s*(?:(?:abbrev|unfoldable|pub)\s+)*(?:(?:record|data|module|ruleset)\s+)?(?:pub\s+)?([^\s:(){}.,;|=λ?]+)\s*(.*)$")
WORD = re.compile(r"[^\s(){}\[\];,.«»@\"?]+|[.]")
SKIPPED = re.compile(r'"(?:[^"\\]|\\.)*"|//[^\n]*|--[^\n]*')


def files(root, endings):
    for folder, dirs, names in os.walk(root):
        dirs[:] = sorted(d for d in dirs if d != "out")
        for name in sorted(names):
            if name.endswith(endings):
                yield os.path.join(folder, name)


# A lemma that would get the name of a word of the library that it speaks of.
OTHER = {"put-mid": "put_mid_is"}


def spelled(name):
    if name in OTHER:
        return OTHER[name]
    if name[0].isupper():
        return "".join(p[:1].upper() + p[1:] for p in re.split("[-_]", name))
    return name.replace("-", "_")


def declared(text):
    """The names with a hyphen that a proof or definition file declares, but for those of the prover's own goals."""
    found, made = set(), set()
    for line in text.split("\n"):
        line = line.split(" -- ")[0]
        if line.lstrip().startswith(("--", "use ", "|", "unfolding ")):
            continue
        m = DECLARED.match(line)
        if not m or not re.match(r"^([A-Z].*[-_]|[a-z].*-)", m.group(1)):
            continue
        rest = m.group(2)
        if re.search(r":\s*(goal|given|need)\.", rest):
            made.add(m.group(1))
        elif re.search(r"(^|\s|\))(:|where)(\s|$)", rest):
            found.add(m.group(1))
    return found, made


def imported(text, own):
    """The names that a file imports from a library."""
    names = set()
    for m in re.finditer(r"^\s*(?:ghost |pub )*use ([^\s{;]+?)\.\{([^}]*)\}", text, re.M):
        path = m.group(1)
        head = path.split(".")
        if head[0] == "Rattle" and len(head) > 1 and head[1] in own:
            made = [p for p in head if p in ("Goals", "Given")]
            if not made:
                continue
        for n in m.group(2).split(","):
            names.add(n.strip().split(" as ")[-1].strip())
    return names


def respell(text, names):
    out, at = [], 0
    for m in SKIPPED.finditer(text):
        out.append(turn(text[at:m.start()], names))
        out.append(m.group(0))
        at = m.end()
    out.append(turn(text[at:], names))
    return "".join(out)


def turn(text, names):
    before = [""]

    def one(m):
        w = m.group(0)
        dotted = before[0] == "."
        tight = m.start() > 0 and text[m.start() - 1] == "."
        before[0] = w
        if w in names and not (dotted and tight and step(text, m.start())):
            return spelled(w)
        return w

    return WORD.sub(one, text)


def step(text, at):
    """Whether the word at `at` is a field of a proof's context or of a loop's variables: a name of the prover's."""
    start = at
    while start > 0 and not re.match(r"[\s(){},;λ]", text[start - 1]):
        start -= 1
    head = text[start:at].split(".")[0]
    return head in ("c", "l", "w", "g", "goal", "given", "need")


def main():
    own = [line.split(":")[0].split()[0] for line in open("crates.txt", encoding="utf-8")
           if ":" in line and not line.startswith("#")]
    texts = {p: open(p, encoding="utf-8").read() for p in files("crates", (".antt", ".rt", ".edit"))}
    names, made, every = set(), set(), set()
    for p, t in texts.items():
        if p.endswith(".antt"):
            found, goals = declared(t)
            names |= found
            made |= goals
        every |= set(WORD.findall(t))
    names -= made
    turned = {}
    for n in sorted(names):
        turned.setdefault(spelled(n), []).append(n)
    for s, ns in sorted(turned.items()):
        if len(ns) > 1 or s in every:
            print("falls together:", s, "from", ", ".join(ns), "(it stands already)" if s in every else "")
    if "--dry" in sys.argv:
        print(len(names), "names")
        return
    for p, t in texts.items():
        new = respell(t, names - imported(t, own))
        if new != t:
            with open(p, "w", encoding="utf-8") as f:
                f.write(new)


main()
