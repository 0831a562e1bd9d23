#!/usr/bin/env python3
"""Brings the names of this repository's own definitions, lemmas, fields and constructors to today's spelling.

usage: tools/respell.py [--list] [FOLDER]     once, after the kit's port.py, at the top of the repository or on FOLDER

A word is in snake case: namesAt becomes names_at, and a name that begins in upper case, as a fact or a module, stays.
A dash stays where it joins two names, as in count_of-bound beside count_of; at a plain word it becomes _.
What Rattle makes, functions of src/ and the kit's own names stay. --list prints the table and writes nothing.
Two names of one file that would fall together stop it.
"""

import os
import re
import sys

WORD = r"[^\s(){}.;,@\"«»\[\]|\\λ:]+"
TOKEN = re.compile(r"--[^\n]*|\"[^\"\n]*\"|[^\s(){}.;,@\"«»]+|.", re.S)
DECLARED = re.compile(r"^ *(?:pub |abbrev |unfoldable |data |record |ruleset |constructor )*([^\s(){}.;,@\"«»]+)(?: [^\s(){}.;,@\"«»]+)* :(?= |\n)", re.M)


def snake(word):
    if not re.match(r"[a-z]", word):
        return word
    out = re.sub(r"(?<=[a-z0-9₀-₉])[A-Z]+", lambda m: "_" + m[0].lower(), word)
    return out


def files(top):
    for at, dirs, names in os.walk(os.path.join(top, "crates")):
        dirs[:] = sorted(d for d in dirs if d not in ("out", "must-fail"))
        for n in sorted(names):
            if n.endswith((".antt", ".rt")):
                yield os.path.join(at, n)


def edits(top):
    for at, dirs, names in os.walk(os.path.join(top, "crates")):
        dirs[:] = sorted(d for d in dirs if d != "out")
        yield from (os.path.join(at, n) for n in sorted(names) if n.endswith(".edit"))


def pages(top):
    for at, dirs, names in os.walk(top):
        dirs[:] = sorted(d for d in dirs if d not in ("crates", "target", ".git"))
        yield from (os.path.join(at, n) for n in sorted(names) if n.endswith(".md"))


def is_proof(path):
    return os.path.basename(path) == "Proof.antt"


def declared(text):
    """The names that stand at the head of a signature: definitions, lemmas, fields and constructors."""
    found = set()
    for m in DECLARED.finditer(text):
        words = m[0].split()
        while words and words[0] in ("pub", "abbrev", "unfoldable", "data", "record", "ruleset", "constructor", "axiom"):
            words.pop(0)
        if "in" in words or "let" in words or "=" in words or "→" in words:
            continue
        for w in words[:-1]:
            found.add(w)
    return found


# The kit's functions that names of lemmas here join.
KIT_WORDS = "length take drop set get_or map append replicate reverse filter sum cond min max sets all any fold".split()


def rust_names(top):
    found = set()
    for p in files(top):
        if p.endswith(".rt"):
            with open(p, encoding="utf-8") as f:
                t = f.read()
            found |= set(re.findall(r"\b(?:fn|const|mod|struct|enum) (\w+)", t))
            found |= set(re.findall(r"\b(\w+): ", t))
    return found


def kit_names(top):
    """What the files import from the kit's own modules, which keeps its name everywhere."""
    own = set(os.listdir(os.path.join(top, "crates")))
    found = set()
    for p in files(top):
        with open(p, encoding="utf-8") as f:
            for m in re.finditer(r"\buse ([^\s;{]+)\.\{([^}]*)\}", f.read()):
                steps = m[1].split(".")
                if steps[0] != "Rattle" or steps[1] not in own:
                    found |= {w.split(" as ")[0].strip() for w in m[2].split(",")}
    return found


def table(top):
    names, single = set(), set(KIT_WORDS)
    for p in files(top):
        if p.endswith(".antt") and not is_proof(p):
            with open(p, encoding="utf-8") as f:
                text = f.read()
            names |= declared(text)
            single |= {snake(n) for n in re.findall(r"(?m)^(?:abbrev |unfoldable )(?:pub )?([a-z][^ ]*) :", text) if "-" not in n}
    names = {n for n in names if re.match(r"[a-z]", n)} - kit_names(top)
    out = {}
    for n in sorted(names):
        parts = [snake(p) for p in n.split("-")]
        new = parts[0]
        for a, b in zip(parts, parts[1:]):
            joins = a and b and (a in single or a[0].isupper()) and (b in single or b[0].isupper())
            new += ("-" if joins or not a or not b else "_") + b
        if new != n:
            out[n] = new
    # A lemma or a fact that would have its definition's name, or another's that stands, gets _lem.
    taken = {n for n in names if n not in out} | {b for a, b in out.items() if "-" not in a}
    for n in sorted(out):
        if "-" in n and out[n] in taken:
            out[n] += "_lem"
    return out


def turned(text, rows):
    """The text with each name of rows turned. In code of .rt only the clauses have such names; a word behind a dot stays
    unless it is a field or a module's member."""
    out = []
    for m in TOKEN.finditer(text):
        w = m[0]
        if w.startswith("--") or w.startswith('"'):
            w = re.sub(r"`([^`\s]+)`", lambda s: "`" + rows.get(s[1], s[1]) + "`", w) if w.startswith("--") else w
        elif w in rows:
            w = rows[w]
        out.append(w)
    return "".join(out)


CLAUSE = re.compile(r"(?:requires|ensures)\s*\*?\s*(?:\w+\s*)?\{|ghost\s*(?:\w+\s*(?::\s*|=\s*))?\{|ghost use [^;]*;")


def turned_rt(text, rows):
    out, at = [], 0
    while True:
        m = CLAUSE.search(text, at)
        if not m:
            out.append(text[at:])
            return "".join(out)
        if m[0].startswith("ghost use"):
            out.append(text[at : m.start()] + turned(m[0], rows))
            at = m.end()
            continue
        depth, end = 1, m.end()
        while depth:
            depth += {"{": 1, "}": -1}.get(text[end], 0)
            end += 1
        out.append(text[at : m.end()] + turned(text[m.end() : end], rows))
        at = end


def main(argv):
    listing = "--list" in argv
    rest = [a for a in argv if not a.startswith("--")]
    top = rest[0] if rest else "."
    rows = table(top)
    rust = rust_names(top)
    if listing:
        for a, b in rows.items():
            print(a, b, "(a name of src/)" if b in rust else "")
        return 0
    changed = {}
    for p in files(top):
        with open(p, encoding="utf-8") as f:
            t = f.read()
        if p.endswith(".rt"):
            new = turned_rt(t, rows)
        else:
            new = turned(t, rows)
        if new != t:
            changed[p] = new
    fallen = {}
    for a, b in rows.items():
        fallen.setdefault(b, []).append(a)
    fallen = {b: it for b, it in fallen.items() if len(it) > 1}
    if fallen:
        print("fall together:", fallen)
        return 1
    for p in edits(top):
        with open(p, encoding="utf-8") as f:
            t = f.read()
        new = "".join(turned(l, rows) if re.match(r"(old|new):", l) else l for l in t.splitlines(keepends=True))
        if new != t:
            changed[p] = new
    for p in pages(top):
        with open(p, encoding="utf-8") as f:
            t = f.read()
        new = re.sub(r"`([^`\n]+)`", lambda m: "`" + turned(m[1], rows) + "`", t)
        if new != t:
            changed[p] = new
    for p, t in changed.items():
        with open(p, "w", encoding="utf-8") as f:
            f.write(t)
    print(f"{len(rows)} names, {len(changed)} files")
    return 0


if __name__ == "__main__":
    raise SystemExit(main(sys.argv[1:]))
