#!/usr/bin/env python3
"""Spells the repository's own definitions and lemmas in snake case: goodFid is good_fid, number-low is number_low.

usage: python3 tools/respell.py [--check]   at the top of the repository, once, after port.py

Own names are those that a file of specs/ or proofs/ declares. In each file those turn that it declares itself or imports
from a crate of the repository, the fields of own records and what stands behind an own module's name. Names that begin
with a capital, and names of the toolchain's library, stay. Functions of src/ and strings stay.
It refuses where two names of one file would fall together. --check writes nothing.
"""

import os
import re
import sys

WORD = re.compile(r'[^\s(){}.;,@"«»]+')
DECLARED = re.compile(r'^(\s*)((?:(?:pattern|unfoldable|abbrev|pub|axiom)\s+)*)([^\s(){}.;,@"«»:|↦]+)\s*(?:\{[^}]*\}\s*)?:(?=\s|$)')
IMPORT = re.compile(r"(?:ghost )?use\s+([^\s{;]+)\.\{([^}]*)\}")
ALIAS = re.compile(r"(?m)^\s*(?:pub )?(?:mod )?use\s+(\S+?)(?:\s+as\s+(\S+?))?;?$")
QUOTED = re.compile(r'"(?:[^"\\\n]|\\.)*"')
# A name that stands by itself, and not behind a dot.
BARE = re.compile(r'(?<![^\s(){};,@"«»])[^\s(){}.;,@"«»]+(?=[\s(){};,@"«»]|\.?$|\.\s)')


# Constructors and lemmas that would have a definition's name.
SPELLED = {
    "object-row": "object_record",
    "parent_row": "parent_record",
    "destroyed-row": "destroyed_record",
} | {n: n + "_lem" for n in "number_by goes_on is_digit stop_is stops_at slots_read none_left look_at look_in from_start cut_step slot_step".split()}


def snake(name):
    """The name in snake case; a name that begins with a capital, an operator or a mark stays."""
    if not re.match(r"[a-z]", name) or name in ("in-", "where"):
        return name
    parts = []
    for part in name.split("-"):
        if re.fullmatch(r"[A-Z][A-Z0-9]*", part) or not re.search(r"[A-Za-z0-9]", part):
            parts.append(part)
            continue
        part = re.sub(r"([a-z0-9])([A-Z]+)(?=$|[A-Z][a-z]|[0-9'_])", lambda m: m[1] + "_" + m[2].lower(), part)
        part = re.sub(r"([a-z0-9])([A-Z])", lambda m: m[1] + "_" + m[2].lower(), part)
        parts.append(part[0].lower() + part[1:] if part else part)
    if "" in parts:
        return name
    return "_".join(parts)


def files():
    for folder, dirs, names in os.walk("crates"):
        dirs[:] = sorted(d for d in dirs if d != "out")
        for name in sorted(names):
            if name.endswith((".antt", ".rt")):
                yield os.path.join(folder, name)


def read(path):
    with open(path, encoding="utf-8") as f:
        return f.read()


def declared(text):
    """The names that a text declares, and the fields of its records."""
    names, fields, depth = set(), set(), None
    for line in text.split("\n"):
        if line.lstrip().startswith("--") or not line.strip():
            continue
        indent = len(line) - len(line.lstrip())
        if depth is not None and indent <= depth:
            depth = None
        record = re.match(r"^\s*(?:pub )?record \S+.*", line)
        found = DECLARED.match(line)
        if record and line.rstrip().endswith("where"):
            depth = indent
        elif found and found[3] not in ("_", "let", "in", "use", "module"):
            names.add(found[3])
            if depth is not None:
                fields.add(found[3])
    return names, fields


def imported(text, own):
    names, modules = set(), set()
    for path, items in IMPORT.findall(text):
        if path.split(".")[0] == "Rattle" and path.split(".")[1] in own:
            for item in items.split(","):
                words = item.split()
                if words:
                    names.update((words[0], words[-1]))
    for path, alias in ALIAS.findall(text):
        parts = path.split(".")
        if "{" not in path and parts[0] == "Rattle" and len(parts) > 1 and parts[1] in own:
            modules.add(alias or parts[-1])
    return names, modules


def brought(path, texts):
    """The files whose names a file has by 'use Child.*': its child, and what that child brings."""
    found = []
    for child in re.findall(r"(?m)^\s*(?:unfoldable )?(?:pub )?use (\w+)\.\*$", texts[path]):
        below = os.path.join(path[: -len(".antt")], child + ".antt")
        if below in texts:
            found += [below] + brought(below, texts)
    return found


def aliases(text, own):
    """The names that a text gives to what it imports from a crate of the repository."""
    found = set()
    for path, items in IMPORT.findall(text):
        if path.split(".")[0] == "Rattle" and path.split(".")[1] in own:
            found.update(i.split()[2] for i in items.split(",") if len(i.split()) == 3 and re.match(r"[a-z]", i.split()[2]))
    return found


def apart(names):
    """Each name's spelling. A lemma that would have a definition's name, or that of another lemma, ends in _lem."""
    turn = {}
    for name in sorted(names, key=lambda n: ("-" in n, n)):
        new = SPELLED.get(name, snake(name))
        turn[name] = new + "_lem" if "-" in name and name not in SPELLED and new in turn.values() else new
    return turn


def main(argv):
    own = {d for d in os.listdir("crates") if os.path.isdir(os.path.join("crates", d))}
    texts = {p: read(p) for p in files()}
    mine, fields = {}, set()
    for path, text in texts.items():
        if path.endswith(".antt"):
            mine[path], here = declared(text)
            if not path.endswith("Proof.antt"):
                fields |= here
    everywhere = set().union(*mine.values())
    for text in texts.values():
        everywhere |= aliases(text, own)
    turn = apart(everywhere)
    together = False
    written = {}
    for path, text in texts.items():
        names, modules = imported(text, own)
        for below in brought(path, texts):
            names |= mine[below] | imported(texts[below], own)[0]
        scope = (mine.get(path, set()) | (names & everywhere) | fields) if path.endswith(".antt") else (names & everywhere)
        table = {n: turn[n] for n in scope if turn.get(n, n) != n}
        present = set(BARE.findall(QUOTED.sub(" ", re.sub(r"(?m)--.*$", " ", text))))
        back = {}
        for old in sorted(set(table) & present):
            back.setdefault(table[old], set()).add(old)
        for new, olds in sorted(back.items()):
            if new in present and new not in table and path.endswith(".antt") or len(olds) > 1:
                print(f"{path}: {new} would be {', '.join(sorted(olds | ({new} if new in present else set())))}")
                together = True

        def word(m):
            before = m.string[m.start() - 1 : m.start()]
            if before == ".":
                head = re.search(r'([^\s(){}.;,@"«»]+)\.$', m.string[: m.start()])
                if m[0] not in fields and not (head and head[1] in modules):
                    return m[0]
            elif m[0] not in table:
                return m[0]
            return turn.get(m[0], m[0])

        parts, at = [], 0
        for quoted in QUOTED.finditer(text):
            parts += [WORD.sub(word, text[at : quoted.start()]), quoted[0]]
            at = quoted.end()
        new = "".join(parts) + WORD.sub(word, text[at:])
        if new != text:
            written[path] = new
    if together:
        print("respell: names fall together; give one of them another spelling in SPELLED")
        return 1
    if "--check" not in argv:
        for path, text in written.items():
            with open(path, "w", encoding="utf-8") as f:
                f.write(text)
    print(f"respell: {sum(1 for n in turn if turn[n] != n)} names, {len(written)} files")
    return 0


if __name__ == "__main__":
    raise SystemExit(main(sys.argv[1:]))
