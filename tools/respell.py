#!/usr/bin/env python3
"""Respells this repository's own definitions and lemmas as today's Rattle spells names.

Run at the top of the repository, after the kit's port.py. A name that a file of specs/ or proofs/ declares and that has a
dash becomes snake_case, and UpperCamelCase where it begins with a capital. Left alone are the names that the check makes
(goals, invariants, measures), names that a file imports from the kit, and lemmas `length-f`, where the dash joins two
functions. Strings and code of src/ hold no such names. Running it again changes nothing.
"""
import glob
import re
import sys

IDENTIFIER = r"[A-Za-z_][^\s(){}\[\],;.:`\"]*"
DECLARED = re.compile(r"\s*(?:abbrev\s+|unfoldable\s+)*(?:pub\s+)?(?:record\s+|data\s+)?(" + IDENTIFIER + r")(?:\s+[({].*?)?\s*:\s")
MADE = re.compile(r":\s*(goal|need)\.")
KIT_IMPORT = re.compile(r"^(?:ghost )?use (?:Rattle[.·](?:std)\b|borrow\.|native\.|mathlib\.|Prim\.|lib\.|logic\.)[^{]*\{([^}]*)\}", re.M)


def proof_files():
    return sorted(glob.glob("crates/*/specs/**/*.antt", recursive=True) + glob.glob("crates/*/proofs/**/*.antt", recursive=True))


def declared_names():
    names = set()
    for path in proof_files():
        for line in open(path, encoding="utf-8"):
            found = DECLARED.match(line)
            if found and not MADE.search(line) and "-" in found[1] and not found[1].startswith("length-"):
                names.add(found[1])
    return names


def respelled(name):
    if name[0].isupper():
        return "".join(part[:1].upper() + part[1:] for part in name.split("-"))
    return name.replace("-", "_")


def respell(text, names):
    kept = set()
    for imports in KIT_IMPORT.findall(text):
        kept |= {part.split(" as ")[-1].strip() for part in imports.split(",")}

    def put(found):
        name = found[0]
        return respelled(name) if name in names and name not in kept else name

    return re.sub(r"(?<![^\s(){}\[\];,.:`\"])" + IDENTIFIER, put, text)


def main():
    names = declared_names()
    new = {}
    for name in names:
        new.setdefault(respelled(name), []).append(name)
    clashes = [both for both in new.values() if len(both) > 1]
    if clashes:
        sys.exit(f"names that fall together: {clashes}")
    paths = proof_files() + sorted(glob.glob("crates/*/src/**/*.rt", recursive=True) + glob.glob("crates/*/must-fail/*.edit"))
    for path in paths:
        text = open(path, encoding="utf-8").read()
        turned = respell(text, names)
        if turned != text:
            open(path, "w", encoding="utf-8").write(turned)
    for path in ["README.md"] + sorted(glob.glob("docs/*.md")):
        text = open(path, encoding="utf-8").read()
        turned = re.sub(r"`[^`\n]*`", lambda found: respell(found[0], names), text)
        if turned != text:
            open(path, "w", encoding="utf-8").write(turned)
    print(f"{len(names)} names respelled")


if __name__ == "__main__":
    main()
