#!/usr/bin/env python3
"""Brings the repository's own definitions and lemmas to today's spelling: words in snake case.

Run once, at the top of a checkout, after the kit's own port (docs/PORT.md says at which commit). Rules:
- a word in lower camel case becomes snake case (`deskPieces` -> `desk_pieces`), in definitions, clauses and proofs;
- a lemma's dash stays where it joins the names of two definitions (`mem-keep`), and is `_` between plain words;
- where the new name is another's already, the lemma gets `_lem` at its end.
Functions of src/, exported names, texts and numbers stay. `--table` prints old and new names and changes nothing.
"""
import collections
import os
import re
import sys

LETTER = "A-Za-z0-9_'\u0370-\u03ff\u2080-\u2089"
TOKEN = re.compile(rf"[A-Za-z_\u0370-\u03ff][{LETTER}]*(?:-[{LETTER}]+)*")
# The head of a definition, a lemma or a field: its name or names, and a colon behind them.
HEAD = re.compile(rf"^ *(?:(?:pub|unfoldable|abbrev|private) )*((?:[a-z\u03b1-\u03ff_][{LETTER}-]* )+):(?: |$)", re.M)
USE = re.compile(r"^(?:ghost )?use [^\n{]*?\{([^}]*)\}", re.M)
# Words of the kit that stand in old proofs by hand.
KIT = re.compile(r"_(?:Tells|Lawful|Makes|Meets)$|^cut-set-Inv-loop$")
OTHERS = {"getD": "get_or"}
# Names of definitions that are plain words at the end of a lemma's name.
PLAIN = {"left", "start", "least", "found", "rest", "refl", "first", "here", "last", "most", "more"}


def texts(top, ends):
    for folder, dirs, files in os.walk(top):
        dirs[:] = sorted(d for d in dirs if d not in ("out", ".git", "target"))
        for f in sorted(files):
            if f.endswith(ends):
                yield os.path.join(folder, f)


def read(path):
    with open(path, encoding="utf-8") as f:
        return f.read()


def without_comments(path, text):
    return re.sub(r"--[^\n]*" if path.endswith(".antt") else r"//[^\n]*", "", text)


def snake(word):
    """`leZ-trans` -> `le_z-trans`; a part that begins with a capital (a fact) stays."""
    parts = []
    for part in word.split("-"):
        part = OTHERS.get(part, part)
        if part[:1].islower():
            part = re.sub(r"(?<=[a-z0-9])([A-Z])", lambda m: "_" + m.group(1).lower(), part)
        parts.append(part)
    return "-".join(parts)


def table():
    antt = {p: read(p) for p in texts("crates", (".antt",))}
    code = {p: read(p) for p in texts("crates", (".rt",))}
    words = collections.Counter()
    for p, t in list(antt.items()) + list(code.items()):
        words.update(TOKEN.findall(without_comments(p, t)))
    defined, functions = set(), set()
    for p, t in antt.items():
        by_hand = p.endswith("Proof.antt")
        for m in HEAD.finditer(without_comments(p, t)):
            names = m.group(1).split()
            if not by_hand:
                defined.update(names)
            if "/specs/" in p and re.search(r"\b(unfoldable|abbrev)\b", m.group(0)):
                functions.update(names)
        for m in USE.finditer(t):
            if "Rattle.std" in m.group(0) or "mathlib" in m.group(0) or "Prim." in m.group(0):
                functions.update(n.strip() for n in m.group(1).split(","))
    functions = {snake(n) for n in functions if "-" not in n}
    new = {}
    for w in words:
        if w[:1].islower() and re.search(r"[A-Z]", w) and not KIT.search(w):
            if any(re.search(r"[a-z0-9][A-Z]", part) and part[:1].islower() for part in w.split("-")):
                new[w] = snake(w)
    for w in defined:
        if "-" in w:
            s = new.get(w, snake(w))
            parts = s.split("-")
            if len(parts) == 2 and all(part in functions for part in parts) and parts[1] not in PLAIN:
                new[w] = s
            else:
                new[w] = s.replace("-", "_")
    new = {w: s for w, s in new.items() if w != s}
    taken = (set(words) - set(new)) | {p for p in functions}
    said, out = collections.defaultdict(list), {}
    for w in sorted(new, key=lambda w: ("-" in w, w)):
        s = new[w]
        if s in said or ("-" in w and s in taken):
            s += "_lem"
        said[s].append(w)
        out[w] = s
    clash = {s: ws for s, ws in said.items() if len(ws) > 1}
    if clash:
        sys.exit(f"names fall together: {clash}")
    return out


def respell(text, new):
    return TOKEN.sub(lambda m: new.get(m.group(0), m.group(0)), text)


def in_ticks(text, new):
    return re.sub(r"`[^`\n]*`", lambda m: respell(m.group(0), new), text)


def in_lines(path, text, new):
    """Code is respelled whole, but for texts in quotes; a comment only between backticks, and its camel case words."""
    mark = "--" if path.endswith(".antt") else "//"
    camel = {w: s for w, s in new.items() if "-" not in w}
    lines = []
    for line in text.split("\n"):
        at = line.find(mark)
        code, comment = (line, "") if at < 0 else (line[:at], line[at:])
        bits = re.split(r'("(?:[^"\\]|\\.)*")', code)
        code = "".join(b if b.startswith('"') else respell(b, new) for b in bits)
        lines.append(code + respell(in_ticks(comment, new), camel))
    return "\n".join(lines)


def main():
    new = table()
    if "--table" in sys.argv:
        for w in sorted(new):
            print(w, new[w])
        return
    done = 0
    for p in texts("crates", (".antt", ".rt")):
        old = read(p)
        text = in_lines(p, old, new)
        if text != old:
            with open(p, "w", encoding="utf-8") as f:
                f.write(text)
            done += 1
    edits = list(texts("crates", (".edit",))) + list(texts("tests", (".edit",)))
    for p in edits:
        old = read(p)
        lines = [l if l.startswith("file:") else respell(l, new) for l in old.split("\n")]
        if "\n".join(lines) != old:
            with open(p, "w", encoding="utf-8") as f:
                f.write("\n".join(lines))
            done += 1
    for p in [q for q in ("README.md",) if os.path.exists(q)] + list(texts("docs", (".md",))) + list(texts("tests", (".md",))):
        if os.path.basename(p) == "PORT.md":
            continue
        old = read(p)
        text = in_ticks(old, new)
        if text != old:
            with open(p, "w", encoding="utf-8") as f:
                f.write(text)
            done += 1
    print(f"{len(new)} names, {done} files")


main()
