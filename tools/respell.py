#!/usr/bin/env python3
"""Respells this repository's own definitions and lemmas as today's Rattle spells names.

Run once, at the top, after port.py. A type's or fact's name that has dashes gets upper camel case, any other
snake case. A dash stays where it joins a lemma's outer function to the rest of its left side, as in length-marked.
Names that Rattle makes (goals, invariants) are not touched, nor is anything that src/ declares.
"""
import pathlib
import re
import subprocess

LEFT_SIDES = ("length", "numbered", "counter", "opposite", "waits")
DEFINES = re.compile(r"^\s*(?:(?:abbrev|unfoldable|pub) )*(?:record |data )?([^\s:(){},;=.]+)(?: .*)?(?: :|$)")


def spelled(name, in_proofs):
    if name[0].isupper():
        return "".join(part[:1].upper() + part[1:] for part in name.split("-"))
    first, rest = name.split("-", 1)
    joint = "-" if in_proofs and first in LEFT_SIDES else "_"
    return first + joint + rest.replace("-", "_")


def definitions(root):
    names = {}
    files = [(p, False) for p in sorted(root.glob("crates/*/specs/**/*.antt"))]
    files += [(p, True) for p in sorted(root.glob("crates/*/proofs/*.antt"))]
    for path, in_proofs in files:
        for line in path.read_text().split("\n"):
            declares = re.match(r"\s*(?:pub )?(?:record|data)\b", line)
            if line.lstrip().startswith("--") or not (" : " in line or line.rstrip().endswith(" :") or declares):
                continue
            found = DEFINES.match(line)
            if found and "-" in found.group(1):
                names.setdefault(found.group(1), spelled(found.group(1), in_proofs))
    return names


def main():
    root = pathlib.Path(".")
    names = definitions(root)
    taken = {}
    for old, new in names.items():
        taken.setdefault(new, []).append(old)
    for new, olds in taken.items():
        if len(olds) > 1:
            raise SystemExit(f"fall together: {olds}")
    token = re.compile(r"(?<![\w'\-])(" + "|".join(re.escape(n) for n in sorted(names, key=len, reverse=True)) + r")(?![\w'\-])")
    tracked = subprocess.run(["git", "ls-files", "-co", "--exclude-standard"], capture_output=True, text=True, check=True).stdout.split("\n")
    for name in tracked:
        path = pathlib.Path(name)
        if not path.is_file() or path.parts[0] == "tools":
            continue
        if path.suffix in (".antt", ".rt"):
            text = path.read_text()
            changed = token.sub(lambda m: names[m.group(1)], text)
        elif path.suffix == ".md":
            text = path.read_text()
            changed = re.sub(r"`[^`\n]+`", lambda code: token.sub(lambda m: names[m.group(1)], code.group(0)), text)
        else:
            continue
        if changed != text:
            path.write_text(changed)
    for old, new in sorted(names.items()):
        print(old, new)


main()
