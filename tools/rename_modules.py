#!/usr/bin/env python3
"""Gives modules that had the name of a crate another one: the prover refuses a module named as a library that its crate uses.

usage: tools/rename_modules.py   at the top of the repository, once, after tools/all_by_recursion.py
"""
import re
import subprocess

from pathlib import Path

NAMES = {
    "layer": {"array": "array_layer", "range": "range_layer"},
    "validator": {"array": "array_of", "range": "range_of"},
    "content": {"array": "array_content", "range": "range_content"},
}


def moved(old, new):
    if old.exists():
        subprocess.run(["git", "mv", str(old), str(new)], check=True)


for crate, names in NAMES.items():
    for old, new in names.items():
        folder = Path("crates") / crate
        moved(folder / f"src/{old}.rt", folder / f"src/{new}.rt")
        moved(folder / f"proofs/{old}", folder / f"proofs/{new}")
        for path in sorted(Path("crates").rglob("*")) + [Path("docs/INTERFACES.md"), Path("docs/PROMISES.md")]:
            if path.suffix not in (".antt", ".rt", ".edit", ".md") or "out" in path.parts:
                continue
            text = path.read_text(encoding="utf-8")
            turned = re.sub(rf"\bRattle\.{crate}\.(proofs|specs\.declared)\.{old}\.", rf"Rattle.{crate}.\1.{new}.", text)
            turned = re.sub(rf"\b{crate}::{old}\b", f"{crate}::{new}", turned)
            if path.parts[:2] == folder.parts:
                turned = re.sub(rf"\bcrate::{old}\b", f"crate::{new}", turned)
                turned = re.sub(rf"\bmod {old};", f"mod {new};", turned)
                turned = re.sub(rf"^file: src/{old}\.rt", f"file: src/{new}.rt", turned, flags=re.M)
            if turned != text:
                path.write_text(turned, encoding="utf-8")
