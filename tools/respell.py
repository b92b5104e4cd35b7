#!/usr/bin/env python3
"""Brings the names of this repository's own definitions, laws, fields and constructors to snake case.

usage: tools/respell.py            at the top of the repository, once

A name that holds a dash and is declared in specs/ or proofs/*.antt gets underscores in place of its dashes, there and wherever a
file of the crates cites it. Names that are imported from the library, names that Rattle makes, and functions keep their spelling.
"""

import os
import re
import sys

TOKEN = re.compile(r"[^\s(){}\[\];,.\"@]+")
OWN = sorted(os.listdir("crates"))
ASCII_NAME = re.compile(r"^[^\W\d][\w'₀-₉]*(-[\w'₀-₉]+)+$")


def files():
    for folder, folders, names in os.walk("crates"):
        folders[:] = sorted(f for f in folders if f != "out")
        for name in sorted(names):
            if name.endswith((".rt", ".antt")):
                yield os.path.join(folder, name)


def is_law_file(path):
    parts = path.split("/")
    return path.endswith(".antt") and len(parts) == 4 and parts[2] in ("specs", "proofs")


def without_comments(text):
    return re.sub(r"(?m)(^|\s)--(\s.*)?$", r"\1", text)


def imported(text):
    """The names that a file takes from the library, by the name that it has there and here."""
    names = set()
    for path, inner in re.findall(r"(?m)^\s*(?:pub )?use ([^\s{]+?)(?:\.\{([^}]*)\})?\s*$", text):
        if any(path.startswith("Rattle." + c + ".") for c in OWN):
            continue
        for part in (inner or "").split(","):
            for name in part.split(" as "):
                names.add(name.strip())
    return names


def aliases(text):
    """The names that a file gives to what it takes from this repository."""
    names = set()
    for path, inner in re.findall(r"(?m)^\s*(?:pub |ghost )*use (Rattle\.[^\s{]+?)\.\{([^}]*)\};?\s*$", text):
        if any(path.startswith("Rattle." + c + ".") for c in OWN):
            names |= {part.split(" as ")[1].strip() for part in inner.split(",") if " as " in part}
    return names


def declared(text):
    """Tokens that stand where something is declared: before a colon or an equals sign, or in a binder."""
    names = set()
    for head in re.findall(r"(?m)([^:=\n]*?)\s(?::|=)(?=\s|$)", text):
        names.update(TOKEN.findall(head))
    for line in re.findall(r"(?m)^\s*(?:pub )?(?:open |use )?.*$", text):
        for binder in re.findall(r"λ ([^.]*)\.", line):
            names.update(TOKEN.findall(binder))
        for head in re.findall(r"[({]([^(){}:]*) :", line):
            names.update(TOKEN.findall(head))
        for head in re.findall(r"let \(?([^=:)]*)\)?", line):
            names.update(TOKEN.findall(head))
    for head in re.findall(r"(?m)^((?:abbrev |unfoldable |pub |data |record |module |mutual )*\S+)", text):
        names.update(TOKEN.findall(head))
    return names


def respelled(text, to, mark):
    """The text with names respelled: not in strings, and in comments only where code is cited or laws are listed."""

    def names(code):
        return TOKEN.sub(lambda m: to.get(m.group(0), m.group(0)), code)

    def comment(words):
        words = re.sub(r"`[^`]*`", lambda m: names(m.group(0).replace("`", " ` ")).replace(" ` ", "`"), words)
        listed = re.match(r"(--     ?)(\S.*?)(  +\S.*|$)", words)
        return listed.group(1) + names(listed.group(2)) + listed.group(3) if listed else words

    piece = re.compile(r'"(?:[^"\\\n]|\\.)*"|(?:(?<=\s)|^)' + mark + r"(?=\s|$)[^\n]*|" + ("//[^\n]*" if mark == "//" else "(?!)"), re.M)
    out, at = [], 0
    for m in piece.finditer(text):
        out.append(names(text[at : m.start()]))
        out.append(m.group(0) if m.group(0)[0] == '"' else comment(m.group(0)))
        at = m.end()
    return "".join(out + [names(text[at:])])


def main():
    ours, theirs = set(), set()
    for path in files():
        with open(path, encoding="utf-8") as f:
            text = without_comments(f.read())
        theirs |= imported(text)
        if is_law_file(path):
            ours |= {n for n in declared(text) if ASCII_NAME.match(n)}
        ours |= {n for n in aliases(text) if ASCII_NAME.match(n)}
    ours -= theirs
    to = {n: n.replace("-", "_") for n in ours}
    if "--list" in sys.argv:
        print("\n".join(sorted(to)))
        return
    changed = 0
    for path in files():
        with open(path, encoding="utf-8") as f:
            text = f.read()
        new = respelled(text, to, "//" if path.endswith(".rt") else "--")
        if new != text:
            changed += 1
            with open(path, "w", encoding="utf-8") as f:
                f.write(new)
    print(f"{len(to)} names, {changed} files")


if __name__ == "__main__":
    main()
