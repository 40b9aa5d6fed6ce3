#!/usr/bin/env python3
"""Counts the places of docs/DESIGN-PASS.md in src/, by text.

    python3 tools/places.py [COMMIT] [--list]

of the working tree, or of a commit. Tests (src/tests.rt) are left out.
"""
import re
import subprocess
import sys
from collections import defaultdict

args = [a for a in sys.argv[1:] if not a.startswith("--")]
commit = args[0] if args else None
listing = "--list" in sys.argv


def git(*words):
    return subprocess.run(["git", *words], capture_output=True, text=True, check=True).stdout


def paths(pattern):
    names = git("ls-tree", "-r", "--name-only", commit) if commit else git("ls-files", "-co", "--exclude-standard")
    gone = "" if commit else git("ls-files", "-d")
    return [n for n in names.split("\n") if re.fullmatch(pattern, n) and n not in gone.split("\n")]


def text(name):
    return git("show", f"{commit}:{name}") if commit else open(name, encoding="utf-8").read()


sources = {n: text(n) for n in paths(r"crates/\w+/src/.*\.rt")}
code = {n: t for n, t in sources.items() if not n.endswith("tests.rt")}


def found(pattern, texts=code, flags=re.M):
    rows = []
    for name, body in sorted(texts.items()):
        for m in re.finditer(pattern, body, flags):
            rows.append(f"{name}:{body.count(chr(10), 0, m.start()) + 1}: {' '.join(m.group(0).split())[:110]}")
    return rows


def functions():
    """Every function with a body: where it stands, and its text from `fn` to its last brace."""
    for name, body in sorted(code.items()):
        for m in re.finditer(r"^( *)(?:pub(?:\(\w+\))? )?(?:const )?fn \w+", body, re.M):
            end = re.compile(rf"^{m.group(1)}\}}$", re.M).search(body, m.end())
            if end and "{" in body[m.start() : end.end()]:
                yield f"{name}:{body.count(chr(10), 0, m.start()) + 1}", body[m.start() : end.end()]


KEPT = set("fn pub let mut if else match for in while return self Self Ok Err Some None true false as".split())


def shape(text):
    """A function's text with other names, numbers and strings all alike."""
    text = re.sub(r"//.*|^\s*(requires|ensures)[^{]*\{.*\}$", "", text, flags=re.M)
    text = re.sub(r"b?'[^']'|b?\"[^\"]*\"", "S", text)
    text = re.sub(r"\b[A-Za-z_]\w*\b", lambda m: m.group(0) if m.group(0) in KEPT else "i", text)
    return " ".join(re.sub(r"\b\d[\d_]*\b", "n", text).split())


def twins():
    """Groups of functions of one shape whose bodies say more than one call."""
    groups = defaultdict(list)
    for where, text in functions():
        if len(re.findall(r"[;{]|=>", text)) > 1:
            groups[shape(text)].append(where + " " + re.search(r"fn (\w+)", text).group(1))
    return [g for g in groups.values() if len(g) > 1]


# name, what is looked for
LOOKED_FOR = [
    ("1a an enum with a variant for a refusal beside those of success", r"^    Refused\(\w+\),"),
    ("1b a number that means none", r"^ *//.*(0 for none|0 while it waits|0 where it is the only one).*$"),
    ("1c Some or None made by an if", r"\{\s*Some\([^{}]*\)\s*\}\s*else\s*\{\s*None\s*\}|\{\s*None\s*\}\s*else\s*\{\s*Some\([^{}]*\)\s*\}|return None;\s*\}\s*Some\([^;{}]*\)\s*\}"),
    ("1d an Err taken apart and put together again by hand", r"^ *Err\(\w+\) => [^{\n]*$"),
    ("1e a Result that is thrown away", r"let _ = .*;"),
    ("3a a loop over an index", r"for \w+ in 0\.\..*"),
    ("3b a number counted up by one", r"\w+ \+= 1;"),
    ("3c a loop that asks for the next by hand", r"while .*\{"),
    ("3d a loop that leaves with what it found", r"for [^{]*\{\s*if [^{]*\{\s*return [^;]*;\s*\}\s*\}"),
    ("4a equality by hand", r"matches!\(|\.is\(\w|match \((one|self), other\)"),
    ("4b a test of two bounds by hand", r"\w+ == 0 \|\| [\w.]+ > |\b[\w.]+ <= \w+ && \w+ <=? |!\w+\.is_ascii_digit"),
    ("4c a cast by as", r" as (u64|usize|i64|char|u8)\b"),
    ("4d From, Display, Error by hand", r"^impl(<[^>]*>)? (From<\w+>|fmt::Display|Error|TryFrom<\w+>) for \w+"),
    ("6a an array", r"(: |&'static )\[[\w<>' &]+; \w+\]"),
    ("6b an offset or a length beside a buffer", r"^    at: usize,"),
    ("7a a match over calls or words that runs one step each", r"match (call|word) \{"),
    ("7b dyn, tables of functions", r"\bdyn |: fn\("),
]


def main():
    for name, pattern in LOOKED_FOR:
        rows = found(pattern)
        print(f"{name}: {len(rows)}")
        if listing:
            print("".join(f"    {r}\n" for r in rows), end="")
    groups = twins()
    print(f"2 groups of functions of one shape: {len(groups)}, of {sum(len(g) for g in groups)} functions")
    if listing:
        for g in groups:
            print("    " + "; ".join(g))
    # point 5: the same clause in the contracts of three functions or more
    clauses = defaultdict(set)
    for name, body in code.items():
        fn = ""
        for line in body.split("\n"):
            if m := re.search(r"\bfn (\w+)", line):
                fn = f"{name}:{m.group(1)}"
            if m := re.match(r"\s*(requires|ensures)[^{]*\{ (.*) \}$", line):
                clauses[f"{m.group(1)} {m.group(2)}"].add(fn)
    repeated = {c: f for c, f in clauses.items() if len(f) >= 3}
    print(f"5 clauses that stand word for word in three contracts or more: {len(repeated)}, in {sum(len(f) for f in repeated.values())} places")
    if listing:
        for c, f in sorted(repeated.items(), key=lambda x: -len(x[1])):
            print(f"    {len(f)} x {c}")
    # point 8
    answers = paths(r"crates/\w+/proofs/.*/Answers\.antt")
    goals = sum(len(re.findall(r"^pub ", text(n), re.M)) for n in answers)
    lemmas = [n for n in paths(r"crates/\w+/proofs/\w+\.antt") if not n.endswith("/Lib.antt")]
    stated = sum(len(re.findall(r"^ *(?:pub )?[a-z][\w'-]*(?: \{[^}]*\})? : ", text(n), re.M)) for n in lemmas)
    lines = sum(text(n).count("\n") for n in paths(r"crates/\w+/proofs/.*\.antt"))
    print(f"8 functions with answers: {len(answers)}; answers: {goals}; lemmas: {stated} in {len(lemmas)} files; lines of proofs: {lines}")


main()
