#!/usr/bin/env python3
"""Spells the repository's own definitions and lemmas as its specs and proofs do today: words in snake case, types and modules in upper camel case.

usage: respell.py FOLDER        the folder above crates/; the files are rewritten in place
       respell.py --list FOLDER prints the renamed names, old and new, and what fell together

A name is one of the repository's own where a file of specs/ or proofs/ declares it. Renamed are those with a dash or with a capital inside:
`isWord` is is_word, `in-order-longer` in_order_longer. Types, records and modules keep their capitals. Functions of src/ are not touched, nor
is a name that a file imports from a library, or that is part of a longer name. Where two names fall together, the definition has the plain
one, a lemma gets _lem behind it, and a field _fact, if some file has both.
"""

import glob
import os
import re
import sys

# a name of antt: anything up to a blank or one of the marks that end a name
NAME = r"[^\s(){}.;,@\"«»\[\]\\:]+"
TOKEN = re.compile(r"--[^\n]*|\"(?:[^\"\\]|\\.)*\"|" + NAME)
DECLARED = re.compile(r"(?m)^ *(?:(?:abbrev|unfoldable|pub|infix[lr]? \d+) )*((?:" + NAME + r" )+): ")
HEAD = re.compile(r"(?m)^ *(?:pub )?(?:record|data) (" + NAME + r")")
MODULE = re.compile(r"(?m)^ *(?:pub )?mod (" + NAME + r")")
USE = re.compile(r"(?m)^ *(?:pub |ghost )*use ([^\s{;]+?)(?:\.\{([^}]*)\}|(?: as (\S+))|(?: use \*))?;?$")
KEYWORDS = {"abbrev", "unfoldable", "pub", "let", "in", "elim", "where", "record", "data", "use", "module", "open", "mod", "as"}


def spelled(name):
    """The name in snake case, or None where it stays."""
    if not re.match(r"^[a-zμλ]", name) or not re.fullmatch(r"[\w'′₀₁₂₃₄-]+", name):
        return None
    new = re.sub(r"(?<=[a-z0-9])([A-Z])(?=[a-z]|\b|-|_|$)", lambda m: "_" + m[1].lower(), name)
    new = re.sub(r"(?<=[a-z0-9])([A-Z])", lambda m: "_" + m[1].lower(), new)
    new = new.replace("-", "_")
    new = re.sub("_+", "_", new)
    return new if new != name else None


def files(root):
    for part in ("specs", "proofs", "src"):
        for p in sorted(glob.glob(f"{root}/crates/*/{part}/**/*", recursive=True)):
            if p.endswith((".antt", ".rt")) and os.path.isfile(p) and "/out/" not in p:
                yield p


def read(p):
    with open(p, encoding="utf-8", newline="") as f:
        return f.read()


def declared(text):
    found = set()
    plain = re.sub(r"--[^\n]*", "", text)
    for m in DECLARED.finditer(plain):
        for name in m[1].split():
            if name not in KEYWORDS:
                found.add(name)
    return found


def imported(text, own):
    """The names that a file has from modules that are not the repository's."""
    out = set()
    for m in re.finditer(r"(?m)^ *(?:pub |ghost )*use ([^\s{;]+)\.\{([^}]*)\}", text):
        crate = m[1].split(".")[1] if m[1].startswith("Rattle.") and "." in m[1] else ""
        if crate not in own:
            out.update(x.split(" as ")[-1].strip() for x in m[2].split(","))
    return out


def roles(text):
    """How a file declares its names: 'def', 'field' or 'lemma'."""
    out = []
    record = False
    for line in re.sub(r"--[^\n]*", "", text).split("\n"):
        if re.match(r" *(?:abbrev )?(?:pub )?(?:record|data)\b.* where *$", line):
            record = True
            continue
        if line and not line.startswith(" "):
            record = False
        m = DECLARED.match(line)
        if not m:
            continue
        is_def = re.match(r" *(?:abbrev|unfoldable)\b", line) is not None
        for name in m[1].split():
            if name not in KEYWORDS:
                out.append((name, "def" if is_def else "field" if record and line.startswith("  ") else "lemma"))
    return out


def field_places(text):
    """Where a file declares fields of records."""
    out, record, at = set(), False, 0
    for line in text.split("\n"):
        if re.match(r" *(?:abbrev )?(?:pub )?record\b.* where *$", line):
            record = True
        elif line and not line.startswith(" "):
            record = False
        elif record:
            m = DECLARED.match(line)
            if m:
                out.add(at + m.start(1))
        at += len(line) + 1
    return out


def renames(texts):
    """The table of new names, and the names without a dash that a definition takes from a lemma, which are renamed where that is in scope."""
    role = {}
    for p, t in texts.items():
        if p.endswith(".antt") and not p.endswith("/Proof.antt"):
            for name, it in roles(t):
                role.setdefault(name, set()).add(it)
    groups = {}
    for name in role:
        groups.setdefault(spelled(name) or name, []).append(name)
    tokens = {p: {m[0] for m in TOKEN.finditer(t)} for p, t in texts.items()}
    table, taken = {}, {}
    for new, many in groups.items():
        if many == [new]:
            continue
        rank = lambda n: (re.search("[a-z][A-Z]", n) is None, "def" not in role[n], "-" in n)
        first, *rest = sorted(many, key=rank)
        if first != new:
            table[first] = new
        for name in rest:
            if name == new:
                taken[name] = new + "_lem"
            elif role[name] == {"field"} and not any(name in it and first in it for it in tokens.values()):
                table[name] = new
            else:
                table[name] = new + ("_fact" if role[name] == {"field"} else "_lem")
    return table, taken


def main(argv):
    listing = argv and argv[0] == "--list"
    root = argv[-1]
    own = {os.path.basename(p) for p in glob.glob(f"{root}/crates/*")}
    texts = {p: read(p) for p in files(root)}
    table, taken = renames(texts)
    if listing:
        for n, s in sorted({**table, **taken}.items()):
            print(n, s)
    lemmas = {}
    for p, t in texts.items():
        if p.endswith(".antt"):
            m = re.search(r"crates/(\w+)/(specs|proofs)/(.*)\.antt$", p)
            module = f"Rattle.{m[1]}.{m[2]}.{m[3].replace('/', '.')}"
            lemmas[module] = {n for n, it in roles(t) if n in taken and it == "lemma"}
    changed = 0
    for p, t in texts.items():
        theirs = imported(t, own)
        here = dict(table)
        if p.endswith(".antt"):
            m = re.search(r"crates/(\w+)/(specs|proofs)/(.*)\.antt$", p)
            scope = set(lemmas.get(f"Rattle.{m[1]}.{m[2]}.{m[3].replace('/', '.')}", ()))
            for m in re.finditer(r"(?m)^ *(?:pub )?use ([^\s{;]+)\.\{([^}]*)\}", t):
                scope |= lemmas.get(m[1], set()) & {x.strip() for x in m[2].split(",")}
            here.update({n: taken[n] for n in scope})
        words = {m[0] for m in TOKEN.finditer(t)}
        fields = field_places(t)
        for n in sorted(words & set(here)):
            if here[n] in words and here[n] not in here and n not in theirs:
                print(f"clash: {p[len(root) + 1:]}: {n} and {here[n]}")

        def turn(m):
            w = m[0]
            if w.startswith("--"):
                return re.sub(r"`([^`\s]+)`", lambda k: "`" + here.get(k[1], k[1]) + "`", w)
            if w.startswith('"') or w in theirs:
                return w
            before, behind = t[max(0, m.start() - 80) : m.start()], t[m.end() : m.end() + 3]
            is_field = m.start() in fields or before.endswith(".") or (re.search(r"[{;]\s*$", before) and re.match(r"\s*=", behind))
            if w in taken and is_field:
                return w
            return here.get(w, w)

        new = turn_source(t, table, theirs) if p.endswith(".rt") else TOKEN.sub(turn, t)
        if new != t:
            changed += 1
            if not listing:
                with open(p, "w", encoding="utf-8", newline="") as f:
                    f.write(new)
    print(f"respell: {len(table) + len(taken)} names, {changed} files")


def turn_source(t, table, theirs):
    """In code: the imports of clauses and the clauses, and names in back quotes in comments."""
    out, i = [], 0
    clause = re.compile(r"//[^\n]*|^ *ghost use [^;]*;|(?:requires|ensures|ghost|invariant|decreases)\b[^\n{]*\{", re.M)
    word = lambda s: TOKEN.sub(lambda m: m[0] if m[0] in theirs else table.get(m[0], m[0]), s)
    while True:
        m = clause.search(t, i)
        if not m:
            out.append(t[i:])
            return "".join(out)
        out.append(t[i : m.start()])
        if m[0].startswith("//"):
            out.append(re.sub(r"`([^`\s]+)`", lambda k: "`" + table.get(k[1], k[1]) + "`", m[0]))
            i = m.end()
        elif "ghost use" in m[0]:
            out.append(word(m[0]))
            i = m.end()
        else:
            depth, j = 1, m.end()
            while depth and j < len(t):
                depth += {"{": 1, "}": -1}.get(t[j], 0)
                j += 1
            out.append(m[0] + word(t[m.end() : j]))
            i = j


if __name__ == "__main__":
    main(sys.argv[1:])
