#!/usr/bin/env python3
"""Brings the repository's own definitions and lemmas to snake case, after port.py: `rightHere` and `right-here` both become `right_here`.

usage: python3 tools/snake.py        at the top of the repository, once

It goes by the names that specs/ and the lemma files of proofs/ define (fields and constructors too), and turns them there, in proof files, in clauses,
in must-fail edits, and between backticks in comments and pages. Types keep their capital, and names from src/ are never turned.
Where a definition and a lemma would fall together, the lemma gets `_lem`; it stops where two names fall together all the same.
"""

import collections
import glob
import re

WORD = r"[^\s(){}\[\];,.:|⌜⌝`\"]+"
DEFINED = re.compile(r"\s*(?:(?:abbrev|unfoldable|pub|private|instance|record|data|ruleset)\s+)*(" + WORD + r")\s*(?:\(.*\)\s*|\{.*\}\s*)*:(?!:)")
BLOCK = re.compile(r"\s*(?:pub\s+)?(?:record|data|ruleset)\s+(" + WORD + ")")
# names that the rule below doesn't reach: two local ones, and one with a word of one letter
LOCAL = {"poolA": "pool_a", "poolB": "pool_b", "maxReadAPair": "max_read_a_pair"}
FIELD = re.compile(r"\s+(?:pub\s+)?(" + WORD + r")\s*:(?!:)")


def snake(name):
    if name[0].isupper():
        return name
    name = re.sub(r"([a-z0-9])([A-Z])(?=[a-z])", lambda m: m.group(1) + "_" + m.group(2).lower(), name)
    name = re.sub(r"([a-z0-9])([A-Z])(?=$|[-_'])", lambda m: m.group(1) + "_" + m.group(2).lower(), name)
    return name.replace("-", "_")


def defined():
    names, fields = collections.defaultdict(set), set()
    for path in sorted(glob.glob("crates/*/specs/**/*.antt", recursive=True) + glob.glob("crates/*/proofs/*.antt")):
        for line in open(path, encoding="utf-8"):
            for rule in (DEFINED, BLOCK):
                m = rule.match(line)
                if m and not line.lstrip().startswith("--"):
                    names[m.group(1)].add(path)
            m = FIELD.match(line)
            if m:
                fields.add(m.group(1))
    turn = {n: snake(n) for n in names if snake(n) != n}
    return turn, fields, names


def words(text):
    return re.findall(WORD, text)


def turned(text, turn, fields):
    """Each word that stands alone, or a field after a point."""

    def one(m):
        w = m.group(2)
        if w not in turn or (m.group(1) == "." and w not in fields):
            return m.group(0)
        return m.group(1) + turn[w]

    return re.sub(r"(\.|(?<![^\s(){}\[\];,.:|⌜⌝`\"]))(" + WORD + ")", one, text)


def in_ticks(text, turn, fields):
    return re.sub(r"`[^`\n]*`", lambda m: turned(m.group(0), turn, fields), text)


def antt(text, turn, fields):
    out = []
    for line in text.split("\n"):
        code, mark, said = line.partition("-- ") if re.match(r"\s*-- |.*\s-- ", line) else (line, "", "")
        out.append(turned(code, turn, fields) + mark + in_ticks(said, {k: v for k, v in turn.items()}, fields))
    return "\n".join(out)


def rt(text, turn, fields):
    # no word of Rust has a capital inside or a dash: comments and strings are spared
    out = []
    for line in text.split("\n"):
        at = line.find("//")
        code, said = (line, "") if at < 0 else (line[:at], line[at:])
        parts = re.split(r'(b?"(?:[^"\\]|\\.)*")', code)
        code = "".join(p if i % 2 else turned(p, {k: v for k, v in turn.items() if "-" not in k}, fields) for i, p in enumerate(parts))
        out.append(code + in_ticks(said, turn, fields))
    return "\n".join(out)


def edit(text, turn, fields):
    return re.sub(r"^((?:old|new): )(.*)$", lambda m: m.group(1) + turned(m.group(2), turn, fields), text, flags=re.M)


def settled(turn, names, there):
    """The lemmas that fall together with a definition get `_lem`."""
    spec = {n for n in names if any("/specs/" in p for p in names[n])}
    back = collections.defaultdict(list)
    for old, new in sorted(turn.items()):
        back[new].append(old)
    for new, olds in sorted(back.items()):
        if new in names:
            olds = olds + [new]
        if len(olds) < 2:
            continue
        keep = [o for o in olds if o in spec]
        if len(olds) != 2 or len(keep) != 1:
            raise SystemExit(f"falls together: {olds} -> {new}")
        for o in olds:
            if o not in spec:
                turn[o] = new + "_lem"
                if turn[o] in there:
                    raise SystemExit(f"falls together: {o} -> {turn[o]}")
                print(f"{o} -> {turn[o]}, since {keep[0]} -> {new}")


def main():
    turn, fields, names = defined()
    there = collections.defaultdict(set)
    for path in glob.glob("crates/**/*.antt", recursive=True):
        for w in words(open(path, encoding="utf-8").read()):
            there[w].add(path)
    settled(turn, names, there)
    for old, new in sorted(turn.items()):
        if new in there and new not in names:
            print(f"{old} -> {new} is also a name from src/, in {sorted(there[new])[0]}")
    turn.update(LOCAL)
    done = 0
    for pattern, rule in (("crates/**/*.antt", antt), ("crates/**/*.rt", rt), ("crates/*/must-fail/*.edit", edit), ("README.md", in_ticks), ("docs/**/*.md", in_ticks)):
        for path in sorted(glob.glob(pattern, recursive=True)):
            text = open(path, encoding="utf-8").read()
            new = rule(text, turn, fields)
            if new != text:
                open(path, "w", encoding="utf-8").write(new)
                done += 1
    print(f"{len(turn)} names in {done} files")


main()
