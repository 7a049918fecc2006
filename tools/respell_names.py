#!/usr/bin/env python3
"""Spells the repository's own definitions and lemmas in snake case, as `codeNumber` to `code_number`. Types and modules keep their capitals.

usage: tools/respell_names.py [TOP]

What turns: .antt files; .rt files and must-fail edits, but for strings; the code spans and blocks of Markdown. A dash joins two names, so each part of
`length-leBytes` is a name of its own. `getD` is the library's `get_or` today. The name xHCI, USB 2.0's field names in prose, and the letters of shapes stay.
"""

import os
import re
import sys

NAME = re.compile(r"(?<![\w·′'])[a-z][A-Za-z0-9_]*[A-Z][A-Za-z0-9_]*'*")
STRING = re.compile(r'b?"(?:[^"\\\n]|\\.)*"')
PROSE = re.compile(r"(?:(?<=\s)|^)--[^\n]*|//[^\n]*|^#[^\n]*", re.M)
CODE = re.compile(r"```.*?```|`[^`\n]+`|^ {4,}.*$", re.S | re.M)
ENDINGS = (".antt", ".rt", ".edit", ".md")
SKIPPED = {"out", "target", ".git", "usbvfiod", "stubs", "tools"}


STANDARD = {"bmRequestType", "bRequest", "wValue", "wIndex", "wLength"}
SHAPE = re.compile(r"[sdnetSDNTE]+")


def snake(name):
    if name.startswith("0x") or name.rstrip("'") in ("xHCI", "together_N") or SHAPE.fullmatch(name):
        return name
    if name == "getD":
        return "get_or"
    parted = re.sub(r"([a-z0-9])([A-Z])", r"\1_\2", name)
    return re.sub(r"([A-Z])([A-Z][a-z])", r"\1_\2", parted).lower()


def turn(text):
    return NAME.sub(lambda m: snake(m.group(0)), text)


def turn_prose(text):
    return NAME.sub(lambda m: m.group(0) if m.group(0) in STANDARD else snake(m.group(0)), text)


def turn_code(text):
    at, parts = 0, []
    for m in PROSE.finditer(text):
        parts += [turn(text[at : m.start()]), turn_prose(m.group(0))]
        at = m.end()
    return "".join(parts) + turn(text[at:])


def turned(path, text):
    if path.endswith(".md"):
        return CODE.sub(lambda m: turn_prose(m.group(0)), text)
    if path.endswith(".antt"):
        return turn_code(text)
    at, parts = 0, []
    for m in STRING.finditer(text):
        parts += [turn_code(text[at : m.start()]), m.group(0)]
        at = m.end()
    return "".join(parts) + turn_code(text[at:])


def main():
    top = sys.argv[1] if len(sys.argv) > 1 else "."
    for folder, below, names in os.walk(top):
        below[:] = sorted(b for b in below if b not in SKIPPED and not os.path.islink(os.path.join(folder, b)))
        for path in (os.path.join(folder, n) for n in sorted(names) if n.endswith(ENDINGS)):
            with open(path, encoding="utf-8") as f:
                old = f.read()
            new = turned(path, old)
            if new != old:
                with open(path, "w", encoding="utf-8") as f:
                    f.write(new)


main()
