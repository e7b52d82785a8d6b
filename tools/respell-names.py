#!/usr/bin/env python3
"""Respells this repository's own definitions and lemmas as today's Rattle spells names.

Run once, at the top, after the toolchain's port.py: words in snake case, types (and what is spelled like one) in
camel case. What Rattle makes of a name of the code keeps that name's spelling, so labels in proofs follow suit.
Strings, comments and code are left alone; pages under docs/ and the README follow where a name stands in backticks.
"""
import glob
import re
import subprocess
import sys

TOKEN = re.compile(r"[^\s(){}\[\];,.`\"|⊢]+")
DEFINED = re.compile(
    r"^\s*(?:pub )?(?:abbrev |unfoldable )?(?:pub )?(record |data )?([^\s:(){};,]*-[^\s:(){};,]*)\s*(?:[({].*[)}]\s*)?:")
BOUND = re.compile(r"\b(?:let|λ) \(?([a-z][^\s:(){};,]*-[^\s:(){};,=]*)")
ANSWERS = ("Answers.antt", "Invariants.antt", "Proof.antt")
# words that Rattle writes into labels
MADE = ("slice_bounds in_ok in_err in_some in_none overflow_add overflow_sub overflow_mul well_formed type_inv "
        "if_let let_else").split()


def antt(folder):
    return sorted(glob.glob(f"crates/*/{folder}/**/*.antt", recursive=True))


# a definition whose new spelling is the name of a function or a variant beside it
OTHERWISE = {
    "add-xor-roll": "add_xor_roll_of",
    "initial-state": "initial_state_of",
    "quarter-round": "quarter_round_of",
    "column-round": "column_round_of",
    "diagonal-round": "diagonal_round_of",
    "beat-vacant": "vacant_beat",
    "beat-occupied": "occupied_beat",
    "No-memory": "OutOfMemory",
    "Sealed-again": "Resealed",
    "No-such-block": "UnknownBlock",
}


def respelled(name):
    if name in OTHERWISE:
        return OTHERWISE[name]
    if name[0].isupper():
        return "".join(part[:1].upper() + part[1:] for part in name.split("-"))
    return name.replace("-", "_")


def owned():
    """Every name with a dash that specs/ or proofs/ define, fields and constructors too."""
    names = set()
    for path in antt("specs") + antt("proofs"):
        for line in open(path):
            if line.lstrip().startswith("--"):
                continue
            m = DEFINED.match(line)
            if m and not (path.endswith(ANSWERS) and re.search(r": goal\.\S+\s*$", line)):
                names.add(m.group(2))
            names.update(BOUND.findall(line))
    return {n: respelled(n) for n in names}


def code_words():
    """Every word with an underscore that the code writes, and those that Rattle adds."""
    words = set(MADE)
    for path in glob.glob("crates/*/src/**/*.rt", recursive=True):
        words.update(w for w in re.findall(r"[A-Za-z][A-Za-z0-9_]*", open(path).read()) if "_" in w)
    return words


def label(token, words):
    """A label that Rattle made: parts that spell a word of the code are joined by an underscore again."""
    parts, out = token.split("-"), []
    while parts:
        for n in range(len(parts), 0, -1):
            if n == 1 or "_".join(parts[:n]) in words:
                out.append("_".join(parts[:n]))
                parts = parts[n:]
                break
    return "-".join(out)


def turn_line(line, turn):
    code, dashes, comment = line, "", ""
    m = re.match(r"^(\s*)(--|//)", line)
    if m:
        return re.sub(r"`[^`]*`", lambda q: TOKEN.sub(turn, q.group()), line)
    m = re.search(r"\s(--|//)\s", code)
    if m and code[: m.start()].count('"') % 2 == 0:
        code, comment = code[: m.start()], code[m.start():]
    pieces = re.split(r'("(?:[^"\\]|\\.)*")', code)
    pieces[::2] = [TOKEN.sub(turn, p) for p in pieces[::2]]
    return "".join(pieces) + comment


def main():
    names, words = owned(), code_words()
    seen = {}
    for old, new in sorted(names.items()):
        if new in seen:
            sys.exit(f"{old} and {seen[new]} fall together")
        seen[new] = old

    def own(m):
        return names.get(m.group(), m.group())

    def own_or_label(m):
        t = m.group()
        called = t in OTHERWISE and m.string[m.start() - 1 : m.start()] == "."
        if t in names and not called:
            return names[t]
        return label(t, words) if "-" in t and not t.startswith("-") else t

    for path in antt("specs") + antt("proofs") + sorted(glob.glob("crates/*/src/**/*.rt", recursive=True)):
        text = open(path).read()
        before = set(TOKEN.findall(text))
        turn = own_or_label if "/proofs/" in path else own
        new = "\n".join(turn_line(l, turn) for l in text.split("\n"))
        for t in before & set(names):
            if names[t] in before:
                print(f"look: {path}: {t} becomes {names[t]}, which stood there before", file=sys.stderr)
        if new != text:
            open(path, "w").write(new)
    for path in ["README.md", *glob.glob("docs/*.md")]:
        text = open(path).read()
        new = re.sub(r"`[^`\n]*`", lambda q: TOKEN.sub(own, q.group()), text)
        if new != text:
            open(path, "w").write(new)
    print(f"{len(names)} names respelled", file=sys.stderr)


main()
