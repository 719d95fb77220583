#!/usr/bin/env python3
"""Calls a fact about each element of a list by the library's own name where it goes by recursion over the list.

usage: tools/all_by_recursion.py   at the top of the repository, once, after tools/respell.py

A file that imports `AllByRecursion as All` imports `AllByRecursion`, and says so wherever it said `All`.
"""
import re

from pathlib import Path

for path in sorted(Path("crates").rglob("*")):
    if path.suffix in (".antt", ".rt") and "out" not in path.parts:
        text = path.read_text(encoding="utf-8")
        if "AllByRecursion as All" in text:
            text = text.replace("AllByRecursion as All", "AllByRecursion")
            path.write_text(re.sub(r"(?<![\w.'-])All(?![\w'-])", "AllByRecursion", text), encoding="utf-8")
