#!/usr/bin/env python3
"""Spells this repository's own names in snake case, once, behind port.py: definitions, lemmas, fields, parameters.

usage: python3 tools/spell.py [--check]      at the top of the repository

A name in camel case that begins small, or with a dash, gets underscores: `numberOfBits` is `number_of_bits`, `length-bitsOf` is
`length_bits_of`. Types and modules keep theirs, and so do the names of the toolchain's libraries and those that it makes for proof files.
It reads crates/*/specs, crates/*/proofs and the clauses of crates/*/src. It writes tools/spelled.tsv, old and new, and prints the names
that fall together. Functions of src/, exported names, strings, inputs and outputs stay.
"""
import collections
import glob
import os
import re
import sys

NAME = r"[^\s(){}\[\].;,@\"«»]+"
TOKEN = re.compile(r"--[^\n]*|\"(?:[^\"\\\n]|\\.)*\"|«[^»]*»|" + NAME + r"(?:\." + NAME + r")*")
CAMEL = re.compile(r"(?<=[a-z0-9₀-₉])(?=[A-Z])")
USE = re.compile(r"^(\s*(?:pub )?(?:ghost )?use )([^\s{;]+?)(?:\.\{([^}]*)\})?(?: as (\S+?))?(;?)\s*$", re.M)
DECLARED = re.compile(r"^\s*(?:(?:pub|abbrev|unfoldable|record|data|constructor)\s+)*(" + NAME + r")(?:\s+[({].*)?\s*:\s")
FIELD = re.compile(r"^\s+pub (" + NAME + r") :")


def snake(name):
    if name.startswith("-") or name.endswith("-") or not re.match(r"[A-Za-z]", name):
        return name
    if re.match(r"[a-z]", name):
        name = CAMEL.sub("_", name)
        name = "".join(c.lower() if c.isupper() else c for c in name) if re.search(r"_[A-Z]|[A-Z]", name) else name
    return re.sub(r"(?<=[\w?'₀-₉])-(?=[\w₀-₉])", "_", name)


def files(*kinds):
    for kind in kinds:
        yield from sorted(glob.glob(kind, recursive=True))


def crates():
    return {os.path.basename(os.path.dirname(d)) for d in glob.glob("crates/*/")}


def is_own(path, own):
    parts = path.split(".")
    return parts[0] == "Rattle" and len(parts) > 1 and parts[1] in own


def imports(text, own):
    """The names that a file takes from the libraries, and its aliases of modules: of the libraries, of this repository."""
    library, aliases, ours = set(), set(), set()
    for m in USE.finditer(text):
        path, names, alias = m[2], m[3], m[4]
        mine = is_own(path, own)
        if names is not None:
            for it in names.split(","):
                words = it.split(" as ")
                if not mine:
                    library.add(words[-1].strip())
                    library.add(words[0].strip())
        if alias:
            (ours if mine else aliases).add(alias)
        elif names is None:
            (ours if mine else aliases).add(path.split(".")[-1])
    return library, aliases, ours


class Spelling:
    def __init__(self):
        self.own = crates()
        self.new = {}
        self.fields = set()
        self.words = set()
        for f in files("crates/*/specs/**/*.antt", "crates/*/proofs/**/*.antt"):
            if f.endswith("/Proof.antt"):
                continue
            with open(f, encoding="utf-8") as it:
                for line in it:
                    m = FIELD.match(line)
                    if m:
                        self.fields.add(m[1])
                    m = DECLARED.match(line)
                    if m and not line.lstrip().startswith("--"):
                        self.words.add(m[1])

        # A lemma that would have a definition's name gets `_lem`.
        defined = {snake(w) for w in self.words if re.match(r"[a-z]\w*[A-Z]", w) and "-" not in w}
        self.lemmas = {w for w in self.words if re.match(r"[a-z]", w) and not re.search(r"[A-Z]", w) and (snake(w) in defined or "-" in w and snake(w) in self.words)}

    def word(self, name, library):
        """A name without a dot."""
        if name in library:
            return name
        to = snake(name)
        if name in self.lemmas:
            to += "_lem"
        if to != name:
            self.new[name] = to
        return to

    def token(self, text, library, aliases, ours, is_proof):
        parts = text.split(".")
        head = parts[0]
        if head in ("Rattle",) or len(parts) > 1 and head in ("native", "mathlib", "lib", "borrow", "mir", "Prim", "denote", "logic", "std", "core"):
            return text
        if len(parts) > 1 and head in aliases:
            return text
        out = [self.word(head, library)]
        for p in parts[1:]:
            if head in ours:
                out.append(self.word(p, ()))
            elif (p in self.fields) and not (is_proof and "-" in p):
                out.append(self.word(p, ()))
            else:
                out.append(p)
        return ".".join(out)

    def antt(self, text, is_proof):
        library, aliases, ours = imports(text, self.own)
        if is_proof:
            aliases |= {"tie", "goal", "c"}
            aliases.discard("c")

        def use(m):
            if not is_own(m[2], self.own) or m[3] is None:
                return m[0]
            parts = m[2].split(".")
            path = ".".join(parts[:2] + [p for p in parts[2:]])
            names = re.sub(NAME, lambda w: w[0] if w[0] == "as" else self.word(w[0], ()), m[3])
            return m[1] + path + ".{" + names + "}" + (" as " + m[4] if m[4] else "") + m[5]

        out, at = [], 0
        spans = [(m.start(), m.end(), m) for m in USE.finditer(text)]
        for a, b, m in spans + [(len(text), len(text), None)]:
            out.append(self.body(text[at:a], library, aliases, ours, is_proof))
            if m:
                out.append(use(m) + ("\n" if text[a:b].endswith("\n") else ""))
            at = b
        return "".join(out)

    def body(self, text, library, aliases, ours, is_proof):
        def one(m):
            t = m[0]
            if t.startswith("--"):
                return re.sub(r"\b[a-z][a-z0-9]*(?:[A-Z][a-z0-9]*)+\b", lambda w: self.word(w[0], library) if w[0] in self.words else w[0], t)
            if t.startswith(('"', "«")):
                return t
            return self.token(t, library, aliases, ours, is_proof)

        return TOKEN.sub(one, text)

    def rt(self, text):
        library, aliases, ours = imports(text, self.own)
        out = []
        for line in text.split("\n"):
            if re.match(r"\s*ghost use ", line):
                m = USE.match(line)
                if m and is_own(m[2], self.own) and m[3] is not None:
                    line = m[1] + m[2] + ".{" + re.sub(NAME, lambda w: w[0] if w[0] == "as" else self.word(w[0], ()), m[3]) + "}" + (" as " + m[4] if m[4] else "") + m[5]
            elif re.match(r"\s*//", line):
                line = re.sub(r"\b[a-z][a-z0-9]*(?:[A-Z][a-z0-9]*)+\b", lambda w: self.word(w[0], library) if w[0] in self.words else w[0], line)
            elif re.search(r"\b(requires|ensures)\b", line):
                line = self.body(line, library, aliases, ours, False)
            out.append(line)
        return "\n".join(out)


def main():
    check = "--check" in sys.argv
    s = Spelling()
    texts = {}
    for f in files("crates/*/specs/**/*.antt", "crates/*/proofs/**/*.antt"):
        with open(f, encoding="utf-8") as it:
            old = it.read()
        parts = f.split("/")
        is_proof = parts[2] == "proofs" and parts[-1] in ("Proof.antt", "Answers.antt", "Invariants.antt")
        texts[f] = (old, s.antt(old, is_proof))
    for f in files("crates/*/src/**/*.rt"):
        with open(f, encoding="utf-8") as it:
            old = it.read()
        texts[f] = (old, s.rt(old))
    by = collections.defaultdict(set)
    for a, b in s.new.items():
        by[b].add(a)
        if b in s.words and b not in s.lemmas:
            by[b].add(b)
    together = {b: v for b, v in by.items() if len(v) > 1}
    for b in sorted(together):
        at = []
        for f, (old, new) in texts.items():
            words = set(re.findall(NAME, old))
            if len([v for v in together[b] if v in words]) > 1:
                at.append(f)
        print("together:", b, sorted(together[b]), at[:6])
    for f, (old, new) in texts.items():
        library, _, _ = imports(old, s.own)
        for a, b in s.new.items():
            if b in library and a not in library and re.search(r"(?<![^\s(){};,.])" + re.escape(a) + r"(?![^\s(){};,.])", old):
                print("library:", a, b, f)
    if check:
        return
    for f, (old, new) in texts.items():
        if old != new:
            with open(f, "w", encoding="utf-8") as it:
                it.write(new)
    with open("tools/spelled.tsv", "w", encoding="utf-8") as it:
        for a in sorted(s.new):
            it.write(f"{a}\t{s.new[a]}\n")


main()
