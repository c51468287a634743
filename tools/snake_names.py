#!/usr/bin/env python3
"""Respells the repository's own definitions, record fields, lemmas and local names: a-b becomes a_b.

usage: python3 tools/snake_names.py        at the top of the repository, once, after the toolchain's own port script

Names of the toolchain's library keep their spelling, and so do the names that the toolchain makes for the goals
of a proof (all that stands in proofs/FUNCTION/ after a dot, or that answers a goal). Functions of src/ are in
snake case already. Two names that would fall together stop the script before anything is written.
"""

import os
import re
import sys

NAME = r"[A-Za-z][\w'≡≢]*(?:-[\w'≡≢]+)+"
TOKEN = re.compile(rf"(?<![\w'◌◦-])({NAME})(?![\w'-])")
USE = re.compile(r"^\s*(?:ghost use|pub use|use) ([^;{]*)\.\{([^}]*)\};?")
DECLARED = re.compile(rf"^\s*(?:(?:pub|abbrev|unfoldable|opaque|private|instance)\s+)*({NAME})(?:\s+{NAME})* :")
LET = re.compile(rf"(?:\blet|\bin|;)\s+({NAME})\s*(?::|=)|\blet ({NAME})\b")
BOUND = re.compile(rf"[({{]({NAME}(?: {NAME})*) :")
MODULE = re.compile(rf"\bmodule ({NAME})\b")


def files():
    for top, dirs, names in os.walk("crates"):
        dirs[:] = sorted(d for d in dirs if d != "out")
        for name in sorted(names):
            if name.endswith((".antt", ".rt")):
                yield os.path.join(top, name)


def is_answer(path):
    above = os.path.basename(os.path.dirname(path))
    return above not in ("specs", "proofs") and os.path.basename(path) in ("Answers.antt", "Invariants.antt", "Proof.antt")


def code(line, path):
    return line.split("//" if path.endswith(".rt") else "--")[0]


def main():
    own = {line.split(":")[0].split()[0] for line in open("crates.txt") if ":" in line.split("#")[0]}
    texts = {path: open(path, encoding="utf-8").read() for path in files()}
    declared, imported, plain = set(), set(), {}
    for path, text in texts.items():
        for line in text.split("\n"):
            line = code(line, path)
            used = USE.match(line)
            if used:
                parts = used.group(1).split(".")
                if parts[0] != "Rattle" or parts[1] not in own:
                    imported.update(n.strip() for n in used.group(2).split(","))
                continue
            if path.endswith(".rt"):
                continue
            for found in re.findall(r"[A-Za-z][\w']*", line):
                plain.setdefault(found, path)
            if not is_answer(path):
                # goals are named in answers alone, so each of these names is the repository's own or imported
                declared.update(TOKEN.findall(line))
                continue
            at = DECLARED.match(line)
            if at and f"goal.{at.group(1)}" not in line:
                declared.add(at.group(1))
            for found in LET.findall(line):
                declared.update(n for n in found if n)
            for found in BOUND.findall(line) + MODULE.findall(line):
                declared.update(found.split())
    own_names = {n for n in declared if n not in imported}
    clash = sorted(n for n in own_names if n.replace("-", "_") in plain)
    spelled = {}
    for n in own_names:
        spelled.setdefault(n.replace("-", "_"), []).append(n)
    twice = sorted(v for v in spelled.values() if len(v) > 1)
    for n in clash:
        print(f"look: {n} becomes {n.replace('-', '_')}, which stands in {plain[n.replace('-', '_')]}")
    if twice:
        sys.exit(f"these would fall together: {twice}")
    changed = 0
    for path, text in texts.items():
        lines = []
        for line in text.split("\n"):
            body = code(line, path)
            rest = line[len(body):]
            at_goal = is_answer(path) and re.match(r"^(abbrev |pub )*[\w-]+ (:|.*=)", body)

            def turn(m):
                n = m.group(1)
                if n not in own_names:
                    return n
                before = body[: m.start()]
                if before.endswith("goal."):
                    return n
                if at_goal and not before.strip().replace("pub", "").replace("abbrev", "").strip() and n not in declared:
                    return n
                return n.replace("-", "_")

            lines.append(TOKEN.sub(turn, body) + rest)
        new = "\n".join(lines)
        if new != text:
            changed += 1
            with open(path, "w", encoding="utf-8") as f:
                f.write(new)
    print(f"{len(own_names)} names in {changed} files")


if __name__ == "__main__":
    main()
