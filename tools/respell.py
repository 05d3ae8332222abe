#!/usr/bin/env python3
"""Brings the repository's own names to the spelling of today's Rattle, after port.py has run.

usage: tools/respell.py [--dry]     at the top of the checkout, once

Definitions, lemmas and fields of crates/*/specs and crates/*/proofs that are spelled in camel case or with dashes
become snake case, in every file of crates/ and between the backticks of README.md and docs/. Functions of src/ keep
their names. Where a lemma and a definition fall together, the lemma gets `_lem`.
"""
import collections
import glob
import os
import re
import sys

TOP = os.path.realpath(os.path.join(os.path.dirname(os.path.realpath(__file__)), ".."))
TOKEN = re.compile(r"[^\s(){}\[\],;.«»`⌜⌝\"']+'*")

# lemmas that port.py had turned, beside a definition that gets the same name now: by file
LEMMAS = {
    "reader_at": ["run_machine/proofs/ReaderLaws.antt", "text_own/proofs/Loops.antt"],
    "same_kept": ["text_own/proofs/Own.antt", "text_read/proofs/Told.antt"],
    "body_bytes": ["sheet_format/proofs/Read.antt"],
    "front_of": ["text_form/proofs/Lists.antt", "text_print/proofs/Answers.antt"],
    "is_digit": ["text_grammar/proofs/CompleteOperators.antt"],
    "same_row": ["sheet_step/proofs/Rows.antt"],
    "to_end": ["text_scan/proofs/Whole.antt"],
}
# lemmas with dashes that fall together with a function of src/ or with a lemma that port.py had turned
APART = {"variable-is": "variable_is_lem", "is-line": "is_line_lem", "run-from": "run_from_lem", "at-byte": "at_byte_lem"}


def snake(name):
    name = name.replace("′", "'").replace("getD", "get_or").replace("-", "_")
    if re.match(r"[a-zα-ω]", name):
        name = re.sub(r"([a-z0-9])([A-Z])", lambda m: m.group(1) + "_" + m.group(2).lower(), name)
    return name


def files(*endings):
    return sorted(f for f in glob.glob(os.path.join(TOP, "crates/**/*"), recursive=True) if f.endswith(endings) and "/out/" not in f)


def declared():
    """The names that lemmas, definitions and fields are declared by, outside the proofs of functions."""
    found = set()
    for f in files(".antt"):
        if f.endswith("/Proof.antt"):
            continue
        with open(f) as it:
            text = it.read()
        found |= set(re.findall(r"(?m)^ *(?:pub |abbrev |unfoldable )*([^\s:(){}]+) :", text))
    return {n for n in found if re.match(r"^[A-Za-zα-ω][A-Za-z0-9_'′₀-₉-]*$", n)}


def table():
    names = declared()
    to = {}
    for n in sorted(names):
        new = snake(n)
        if n in APART:
            to[n] = APART[n]
        elif new != n:
            to[n] = new
    for n, new in list(to.items()):
        if "-" in n and any(o != n and to[o] == new and "-" not in o for o in to):
            to[n] = new + "_lem"
    return names, to


def turned(text, to, skip_fields):
    out, last = [], 0
    for m in TOKEN.finditer(text):
        if m.group(0) in to and not (skip_fields and m.start() and text[m.start() - 1] == "."):
            out += [text[last:m.start()], to[m.group(0)]]
            last = m.end()
    return "".join(out) + text[last:]


def main():
    if any("Goals as goal" in open(f).read() for f in files("/Answers.antt")):
        sys.exit("respell: these files have today's form, in which names of goals have dashes: it is run once, after port.py")
    names, to = table()
    dry = "--dry" in sys.argv
    if dry:
        news = collections.defaultdict(list)
        for n, new in to.items():
            news[new].append(n)
        print(len(to), "names;", "together:", {k: v for k, v in news.items() if len(v) > 1})
        for f in files(".antt", ".rt"):
            with open(f) as it:
                toks = set(TOKEN.findall(it.read()))
            lem = {n for n, fs in LEMMAS.items() if os.path.relpath(f, os.path.join(TOP, "crates")) in fs}
            both = [(o, to[o]) for o in toks if o in to and to[o] in toks and to[o] not in lem]
            if both:
                print(os.path.relpath(f, TOP), both)
        return
    for f in files(".antt", ".rt", ".edit"):
        with open(f) as it:
            old = it.read()
        rel = os.path.relpath(f, os.path.join(TOP, "crates"))
        mine = {n: n + "_lem" for n, fs in LEMMAS.items() if rel in fs}
        new = turned(turned(old, mine, True), to, f.endswith("/Proof.antt"))
        if new != old:
            with open(f, "w") as it:
                it.write(new)
    for f in [os.path.join(TOP, "README.md")] + glob.glob(os.path.join(TOP, "docs/**/*.md"), recursive=True):
        with open(f) as it:
            old = it.read()
        new = re.sub(r"`[^`\n]*`", lambda m: turned(m.group(0), to, False), old)
        if new != old:
            with open(f, "w") as it:
                it.write(new)


main()
