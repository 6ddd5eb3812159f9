#!/usr/bin/env python3
"""Spells the repository's own definitions, fields and lemmas in snake case: rowCount becomes row_count.

Run once at the top of the repository, after the toolchain's own script. It turns every word of specs/ and proofs/ that
begins small and has a capital inside, wherever it stands: in specs/, proofs/, must-fail/, the clauses and comments of src/,
and the pages. Strings of src/ are left alone, and code has no such words. In edits and pages it also turns the words that
the toolchain's script turned elsewhere. Where a word as it is then spelled was already the name of a lemma, the lemma gets
`_lem`; a field of that name keeps it, since a field is read behind a dot. It prints each pair that would have fallen
together.
"""
import glob
import re
import sys

WORD = re.compile(r"[A-Za-z_ℕ][\w'₀-₉-]*")
DECLARED = re.compile(r"^(\s*)(?:(?:pub|abbrev|unfoldable) )*([A-Za-z_][\w'₀-₉-]*(?: [A-Za-z_][\w'₀-₉-]*)*) :")
HEX = re.compile(r"^n[0-9B]")


def own_files(kind):
    return sorted(f for f in glob.glob(f"crates/*/{kind}", recursive=True) if "/out/" not in f)


def snake(word):
    def part(p):
        if not p[:1].islower():
            return p
        return re.sub(r"([a-z0-9])([A-Z])", lambda m: m.group(1) + "_" + m.group(2).lower(), p)

    return "-".join(part(p) for p in word.split("-"))


def words_of(text):
    for line in text.split("\n"):
        if not line.strip().startswith("--"):
            yield from WORD.findall(line)


def declared_in(text):
    """The lemmas and local lemmas that a file declares; the fields of its records."""
    lemmas, fields, record = set(), set(), False
    for line in text.split("\n"):
        if re.match(r"^(pub )?record ", line):
            record = True
        elif line and not line[0].isspace():
            record = False
        m = DECLARED.match(line)
        if m:
            (fields if record else lemmas).update(m.group(2).split())
    return lemmas, fields


def main():
    antt = own_files("specs/**/*.antt") + own_files("proofs/**/*.antt")
    texts = {f: open(f).read() for f in antt}
    turned = {}
    for text in texts.values():
        for word in words_of(text):
            if snake(word) != word and not HEX.match(word):
                turned[word] = snake(word)
    backward = {}
    for old, new in turned.items():
        if backward.setdefault(new, old) != old:
            sys.exit(f"{old} and {backward[new]} would both be {new}")
    declared = {f: declared_in(text) for f, text in texts.items()}
    clashing = {new for new in backward if any(new in lemmas for lemmas, _ in declared.values())}

    def clash_here(f, word):
        if word not in clashing:
            return False
        lemmas, _ = declared[f]
        return word in lemmas or re.search(r"^use Rattle\.\w+\.proofs\.[^{]*\{[^}]*(?<![\w.'-])" + re.escape(word) + r"(?![\w'-])[^}]*\}", texts[f], re.M) is not None

    def turn(text, f=None):
        def one(m):
            word = m.group()
            before = text[m.start() - 1] if m.start() else ""
            if f is not None and word in clashing and before != "." and clash_here(f, word):
                print(f"{f}: the lemma {word} is now {word}_lem, since {backward[word]} is now {word}")
                return word + "_lem"
            return turned.get(word, word)

        return WORD.sub(one, text)

    for f in antt:
        put(f, texts[f], turn(texts[f], f))
    for f in own_files("src/**/*.rt"):
        text = open(f).read()
        pieces = re.split(r'("(?:[^"\\]|\\.)*")', text)
        put(f, text, "".join(p if i % 2 else turn(p) for i, p in enumerate(pieces)))
    known = {turned.get(word, word) for text in texts.values() for word in WORD.findall(text)}

    def page(m):
        word = m.group()
        return turned.get(word) or (snake(word) if snake(word) in known else word)

    for f in own_files("must-fail/*.edit") + ["README.md"] + sorted(glob.glob("docs/**/*.md", recursive=True)):
        text = open(f).read()
        put(f, text, WORD.sub(page, text))


def put(f, old, new):
    if old != new:
        open(f, "w").write(new)


main()
