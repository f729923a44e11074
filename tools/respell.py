#!/usr/bin/env python3
"""Spells this repository's own definitions, lemmas and fields in snake case, as the kit spells its own.

usage: tools/respell.py [--list]      at the top, after the kit's port.py

A name that a file of specs/ or proofs/ declares and that begins with a small letter gets underscores in place of its dashes and before its capitals:
`entryTotal` becomes `entry_total`, `entry-count` becomes `entry_count`. A name that begins with a capital is a type, a fact or a module, and stays.
It writes the files of specs/ and proofs/, the clauses and ghost lines of src/, and the edits; a name in a comment is written anew where it stands between backticks.
Where two names would fall together in a file, the definition keeps the name, and the lemma gets `_lem`; where that cannot be, it stops and writes nothing. --list prints the names alone.
"""

import glob
import re
import sys
from collections import defaultdict

TOKEN = re.compile(r"[^\s(){}.;,@\"«»`\[\]]+")
SIGNATURE = re.compile(r"^ *(?:(?:pub|abbrev|unfoldable|private) )*([^\s(){}.;,@\"«»|λ]+)(?: \{[^{}]*\}| \([^()]*\))* :(?= |$)")
RESERVED = set("data record deriving module where use mod pub package open as unfoldable abbrev axiom unfold unfolding ruleset mutual infix infixl infixr elim let in do Type coe fcoe tcoe hcom com".split())
# Names that Rattle makes for a function's proof, and so not this repository's.
OF_RATTLE = re.compile(r"^(invariant|decreases)-|-requires(-\d+)?$|-spec$")


def new_name(name):
    if not re.match(r"[a-z]", name) or not re.fullmatch(r"[A-Za-z0-9_'₀-₉′-]+", name):
        return name
    text = re.sub(r"(?<=[a-z0-9])([A-Z])(?![A-Z])", lambda m: "_" + m[1].lower(), name)
    text = re.sub(r"(?<=[a-z0-9])([A-Z]+)", lambda m: "_" + m[1].lower(), text)
    text = re.sub(r"([A-Z]+)", lambda m: m[1].lower(), text)
    text = text.replace("-", "_")
    return text if text not in RESERVED else name


def antt_files():
    return sorted(glob.glob("crates/*/specs/**/*.antt", recursive=True) + glob.glob("crates/*/proofs/**/*.antt", recursive=True))


def of_function(path):
    return path.endswith(("/Proof.antt", "/Answers.antt", "/Invariants.antt"))


def declared():
    found = defaultdict(set)
    for path in antt_files():
        if of_function(path):
            continue
        with open(path, encoding="utf-8") as f:
            for line in f:
                line = line.rstrip("\n")
                if line.lstrip().startswith("--"):
                    continue
                m = SIGNATURE.match(line)
                if m and not m[1].endswith(":"):
                    found[m[1]].add(path)
    return found


def imported_from_kit(text):
    names = set()
    for m in re.finditer(r"use ([A-Za-z_]\S*?)\.\{([^}]*)\}", text):
        root = m[1].split(".")
        if root[0] != "Rattle" or root[1] in ("std", "core"):
            for it in m[2].split(","):
                names.add(it.strip().split(" as ")[0].strip())
    return names


def turn(text, table, in_comment=False):
    return TOKEN.sub(lambda m: table.get(m[0], m[0]), text)


# In a function's proof a path from these begins at what Rattle makes, whose words are the source's own.
PATH = re.compile(r"(?<![^\s(){},;])([csltw]|tie)((?:\.[^\s(){}.;,@\"«»`\[\]]+)+)")


def turn_antt(text, table, in_function=False):
    kit = imported_from_kit(text)
    table = {a: b for a, b in table.items() if a not in kit}
    if in_function:
        table = {a: b for a, b in table.items() if not OF_RATTLE.search(a)}
    out = []
    for line in text.split("\n"):
        at = re.search(r"(?:^|\s)--(?=\s|$|-)", line)
        code, comment = (line[: at.start()], line[at.start():]) if at else (line, "")
        comment = re.sub(r"`[^`]*`", lambda m: turn(m[0], table), comment)
        if in_function:
            held = {}
            def hold(m):
                key = f"\x00{len(held)}\x00"
                held[key] = m[0]
                return key
            code = PATH.sub(hold, code)
            code = turn(code, table)
            for key, it in held.items():
                code = code.replace(key, it)
            out.append(code + comment)
            continue
        out.append(turn(code, table) + comment)
    return "\n".join(out)


def turn_rt(text, table):
    """Ghost lines, clauses and backticked names."""
    out, depth = [], 0
    for line in text.split("\n"):
        stripped = line.lstrip()
        if stripped.startswith("//"):
            out.append(re.sub(r"`[^`]*`", lambda m: turn(m[0], table), line))
            continue
        begins = re.match(r"(ghost |requires|ensures)", stripped)
        if depth > 0 or begins:
            out.append(turn(line, table))
            depth = max(0, depth + line.count("{") - line.count("}"))
            if stripped.startswith("ghost use"):
                depth = 0
        else:
            out.append(line)
    return "\n".join(out)


def turn_edit(text, table):
    dashed = {a: b for a, b in table.items() if re.search(r"[A-Z-]", a)}
    out = []
    for line in text.split("\n"):
        out.append(turn(line, dashed) if line.startswith(("old:", "new:")) else re.sub(r"`[^`]*`", lambda m: turn(m[0], dashed), line))
    return "\n".join(out)


def main():
    names = declared()
    table = {}
    for name in names:
        it = new_name(name)
        if it != name and not OF_RATTLE.search(name):
            table[name] = it
    # A lemma that would have its function's name gets `_lem`: the definition in capitals comes first, then what was in snake case already.
    together = defaultdict(set)
    for name in list(table) + [it for it in names if it not in table]:
        together[table.get(name, name)].add(name)
    used = {}
    for path in antt_files():
        with open(path, encoding="utf-8") as f:
            used[path] = set(TOKEN.findall("\n".join(l for l in f.read().split("\n") if not l.lstrip().startswith("--"))))
    clash = []
    for b, olds in together.items():
        if len(olds) > 1 and any(len(tokens & olds) > 1 for tokens in used.values()):
            keeps = sorted(olds, key=lambda it: (not re.search(r"[A-Z]", it), "-" in it, it))
            for it in keeps[1:]:
                table[it] = b + "_lem"
                if b + "_lem" in names or re.search(r"[A-Z]", it):
                    clash.append((b, it))
    if "--list" in sys.argv:
        for a, b in sorted(table.items()):
            print(a, b)
    for b, it in clash:
        print("falls together:", b, it, file=sys.stderr)
    if "--list" in sys.argv:
        return 0
    if clash:
        return 1
    n = 0
    for path in antt_files() + sorted(glob.glob("crates/*/src/**/*.rt", recursive=True)) + sorted(glob.glob("crates/*/must-fail/*.edit")):
        with open(path, encoding="utf-8", newline="") as f:
            text = f.read()
        by = turn_antt if path.endswith(".antt") else turn_rt if path.endswith(".rt") else turn_edit
        it = by(text, table, of_function(path)) if by is turn_antt else by(text, table)
        if it != text:
            with open(path, "w", encoding="utf-8", newline="") as f:
                f.write(it)
            n += 1
    print(f"respell: {len(table)} names, {n} files")
    return 0


if __name__ == "__main__":
    raise SystemExit(main())
