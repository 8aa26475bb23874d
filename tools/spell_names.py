#!/usr/bin/env python3
"""Spells the repository's own definitions, fields and lemmas as today's library does: snake case, and camel case for types.

usage: python3 tools/spell_names.py [FOLDER]

It goes over crates/ and docs/ below FOLDER (here, if none is given), and prints each old and new name. A name is one that a text of specs/ or
proofs/ declares. The labels that Rattle makes (goals, invariants, the steps behind `c.`, `l.`, `w.` and `goal.`) stay, and so do the code, its
strings and the names that src/ declares. A second run changes nothing.
"""

import os
import re
import sys

WORD = r'[^\s(){}.;,@"«»]+'
QUIET = re.compile(r'"(?:[^"\\\n]|\\.)*"|(?<![^\s(){}.;,@"«»])--[^\n]*|\{-.*?-\}', re.S)
NAME = r'[^\s(){}.;,@"«»:]+'
SIGNATURE = re.compile(
    rf"(?m)^ *(?:(?:pub|abbrev|unfoldable|pattern|record|data) )*({NAME}(?: {NAME})*?)(?: \{{[^{{}}\n]*\}}| \([^()\n]*\))* :( goal\.)?"
)
LET = re.compile(rf"\b(?:let|where) +({NAME}) [:=]")
TOKEN = re.compile(rf"(?<![^\s(){{}};,@«»\[\]])((?:c|l|w|g|goal|q)[0-9']*)((?:\.{WORD})+)|({WORD})")
PATH = re.compile(rf"\b(?:Rattle|package)(?:\.{NAME})+?(?=\.\{{| as |\s|$)", re.M)
USE = re.compile(r"ghost\s+use\b[^;]*;")
CLAUSE = re.compile(r"(?:requires|ensures)\s*\*?\s*(?:\w+\s*)?\{|ghost\s*(?:\w+\s*(?::\s*(?:(?:owns|lends)\s*)?|=\s*))?(?:invariant\s*)?\{")
# A text that names what Rattle makes of a function.
MADE = re.compile(r"\.(?:Goals|Given|Lts)\b")
PROSE = re.compile(r"[A-Za-z][\w'-]*")


# Names that would fall together with another in some file.
APART = {
    "Start-asks": "StartAlwaysAsks",
    "Path-asks": "PathAlwaysAsks",
    "Inclusion-asks": "InclusionAlwaysAsks",
    "Start-tells": "StartAlwaysTells",
    "Path-tells": "PathAlwaysTells",
    "Inclusion-tells": "InclusionAlwaysTells",
    "Start-numbers": "StartAlwaysNumbers",
    "Path-numbers": "PathAlwaysNumbers",
    "Inclusion-numbers": "InclusionAlwaysNumbers",
}
# The same, of names that are in snake case already.
IN_FILE = {
    "crates/question/proofs/Numbers.antt": {"in_frame": "in_frame_lem"},
    "crates/sheet/proofs/Limits.antt": {"pair_fits": "pair_fits_lem"},
}
LEMMAS = set(
    """all-below clause-set drawn-if first-bad grown-by grown-if inclusion-list line-text literal-set pair-from path-list read-by start-list
    start-made unless-spent""".split()
)


def spelled(name):
    if name in APART:
        return APART[name]
    if name in LEMMAS:
        return name.replace("-", "_") + "_lem"
    if name[0].isupper():
        return re.sub(r"[-_](\w)", lambda m: m[1].upper(), name)
    return re.sub(r"(?<=[a-z0-9])[A-Z]", lambda m: "_" + m[0].lower(), name).replace("-", "_")


def files(top, ending, but=()):
    for folder, below, names in sorted(os.walk(top)):
        below[:] = sorted(d for d in below if d not in ("out", ".git", *but))
        yield from (os.path.join(folder, n) for n in sorted(names) if n.endswith(ending))


def read(path):
    with open(path, encoding="utf-8") as f:
        return f.read()


def declared(top):
    own, made = set(), set()
    for path in files(top, ".antt"):
        text = QUIET.sub(" ", read(path))
        for names, goal in SIGNATURE.findall(text):
            (made if goal else own).update(names.split())
        own.update(LET.findall(text))
    return own - made, own & made


def turn(text, table):
    """A text of antt: its code, and the names that stand in its comments."""
    made = MADE.search(text)

    def one(m):
        if m[3]:
            return table.get(m[3], m[3])
        if not made:
            return re.sub(WORD, lambda w: table.get(w[0], w[0]), m[0])
        first, *rest = m[2][1:].split(".")
        return ".".join([m[1], first, *(table.get(it, it) for it in rest)])

    out, at = [], 0
    for m in QUIET.finditer(text):
        out.append(TOKEN.sub(one, text[at : m.start()]))
        quiet = m[0]
        if quiet[:1] != '"':
            quiet = PROSE.sub(lambda w: in_prose(w[0], table), quiet)
        out.append(quiet)
        at = m.end()
    return "".join([*out, TOKEN.sub(one, text[at:])])


def in_prose(word, table):
    """A word of a comment is a name if no word of English is spelled so."""
    return table.get(word, word) if re.search(r"[a-z][A-Z]|^[A-Z]\w*-", word) else word


def closing(text, at):
    deep = 0
    for m in re.compile(r'"(?:[^"\\\n]|\\.)*"|[{}]').finditer(text, at):
        deep += (m[0] == "{") - (m[0] == "}")
        if deep < 0:
            return m.start()
    raise SystemExit("a clause is not closed: " + text[at : at + 80])


def turn_source(text, table):
    out, at = [], 0
    while m := min(filter(None, (USE.search(text, at), CLAUSE.search(text, at))), key=lambda m: m.start(), default=None):
        end = m.end() if USE.match(m[0]) else closing(text, m.end())
        start = m.start() if USE.match(m[0]) else m.end()
        out += [comments(text[at:start], table), turn(text[start:end], table)]
        at = end
    return "".join([*out, comments(text[at:], table)])


def comments(text, table):
    return re.sub(r"//[^\n]*", lambda m: PROSE.sub(lambda w: in_prose(w[0], table), m[0]), text)


def realigned(old, new):
    """The later lines of a `where` or `let` block stand under its first item again."""
    was, lines = old.split("\n"), new.split("\n")
    by = [0] * len(lines)
    for row, (a, b) in enumerate(zip(was, lines)):
        for x, y in zip(re.finditer(r"\b(?:where|let|do) +(?=\S)", a), re.finditer(r"\b(?:where|let|do) +(?=\S)", b)):
            below = row + 1
            while x.end() != y.end() and below < len(was):
                if was[below].strip() and was[below][: x.end()].strip():
                    break
                by[below] += (y.end() - x.end()) * bool(was[below].strip())
                below += 1
    return "\n".join(" " * n + line if n >= 0 else line[-n:] for n, line in zip(by, lines))


def main(top):
    crates = os.path.join(top, "crates")
    own, both = declared(crates)
    table = {it: spelled(it) for it in own if spelled(it) != it}
    texts = {p: read(p) for p in files(crates, (".antt", ".rt"))}
    clash = set()
    tables = {p: {**table, **IN_FILE.get(os.path.relpath(p, top), {})} for p in texts}
    for path, text in texts.items():
        if path.endswith(".antt"):
            words = set(re.findall(WORD, PATH.sub(" ", QUIET.sub(" ", text))))
            seen = {}
            for it in sorted(words):
                new = tables[path].get(it, it)
                if new in seen:
                    clash.add((seen[new], it, new, path))
                seen[new] = it
    for a, b, new, path in sorted(clash):
        print(f"look: {path}: {a} and {b} would both be {new}")
    for it in sorted(both):
        if spelled(it) != it:
            print(f"look: {it} is a name of a goal too, and stays")
    if clash and "--anyway" not in sys.argv:
        raise SystemExit(1)
    for path, text in texts.items():
        new = turn(text, tables[path]) if path.endswith(".antt") else turn_source(text, table)
        if path.endswith(".antt"):
            new = realigned(text, new)
        if new != text:
            with open(path, "w", encoding="utf-8") as f:
                f.write(new)
    for path in [*files(os.path.join(top, "docs"), ".md", ("PORT.md",)), os.path.join(top, "README.md")]:
        text = read(path)
        new = re.sub(r"`[^`\n]+`", lambda m: PROSE.sub(lambda w: table.get(w[0], w[0]) if len(m[0]) - 2 == len(w[0]) else in_prose(w[0], table), m[0]), text)
        if new != text:
            with open(path, "w", encoding="utf-8") as f:
                f.write(new)
    for old in sorted(table):
        print(old, table[old])


if __name__ == "__main__":
    main(next((it for it in sys.argv[1:] if it[0] != "-"), "."))
