#!/usr/bin/env python3
"""Packs a folder of vectors into `vectors`, and their word forms into `vectors.txt`: pack.py FOLDER (README.md says the form)."""
import pathlib, re, struct, sys

FIRST, PLENTY = "doc-printed-report", 65536

def said(text, what, else_):
    found = re.search(rf"^#! {what} (\d+)$", text, re.M)
    return int(found.group(1)) if found else else_

packed, words = b"", ""
for file in sorted(pathlib.Path(sys.argv[1]).glob("*.txt"), key=lambda f: (f.stem != FIRST, f.stem)):
    text, log, report = file.read_text(), file.with_suffix(".log").read_bytes(), file.with_suffix(".report").read_bytes()
    packed += struct.pack("<4I", len(log), said(text, "room", PLENTY), said(text, "status", 0), len(report)) + log + report
    words += f"## {file.stem}\n{text.rstrip()}\n\n"
here = pathlib.Path(__file__).parent
(here / "vectors").write_bytes(packed)
(here / "vectors.txt").write_text(words)
