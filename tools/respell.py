#!/usr/bin/env python3
"""Brings this repository's own words to snake case: definitions, lemmas, fields and constructors in specs/ and proofs/.

usage: python3 tools/respell.py        at the top, once, after port.py

It makes a table of the words that specs/ and proofs/ declare in another spelling, and lets the kit's own script turn them,
in clauses too. Types, modules and what Rust declares keep their names. It stops where two words would fall together.
"""
import glob
import os
import re
import subprocess
import sys

SNAKE = "/opt/rattle/port/notes/2026-11-18-names-are-in-snake-case/snake.py"
WORD = r"[^\s(){}.;,@\"«»:]+"
DECLARED = re.compile(rf"^\s*(?:where\s+)?(?:(?:abbrev|unfoldable|pub)\s+)*((?:{WORD}\s+)*{WORD})\s+:\s")
# A lemma that would have the name of a definition or of a function gets _lem: these are the lemmas whose plain turn gives a
# word that another declares, and the words of that kind that port.py had turned already.
LEMMAS = """
bad-mark bad-page bad-width at-job behind-count copy-a copy-b copy-length group-fault in-rule is-foreign is-last may-see may-write
member-at no-plan no-unit not-ready other-count other-table passed-by past-last phase-after saved-none short-scratch start-number
turns-in all_made goes_on in_bytes no_record no_room other_width passes_at row_below too_large
""".split()


def files():
    for p in glob.glob("crates/*/specs/**/*.antt", recursive=True) + glob.glob("crates/*/proofs/**/*.antt", recursive=True):
        yield p


def snake(word):
    if word in LEMMAS:
        return word.replace("-", "_") + "_lem"
    word = re.sub(r"([a-z0-9])([A-Z]+)", lambda m: m.group(1) + "_" + m.group(2).lower(), word)
    return word.replace("-", "_").lower() if re.match(r"[a-z]", word) else word


def table():
    declared, library = set(), set()
    own = "|".join(sorted(os.listdir("crates")))
    for p in files():
        with open(p, encoding="utf-8") as f:
            text = "".join(l for l in f if not l.strip().startswith("--"))
        for m in re.finditer(rf"^(?:pub )?use (?!Rattle\.(?:{own})\.)[^{{\n]*\{{([^}}\n]*)\}}", text, re.M):
            library.update(w.strip().split(" as ")[0] for w in m.group(1).split(","))
        if p.endswith("/Proof.antt"):
            continue
        for line in text.split("\n"):
            m = DECLARED.match(line)
            if m:
                declared.update(w for w in m.group(1).split() if re.match(r"[a-z]", w))
    rows = {w: snake(w) for w in sorted(declared - library) if snake(w) != w}
    turned = {}
    bad = []
    for old, new in rows.items():
        if new in declared - rows.keys() or new in turned:
            bad.append(f"{old} would be {new}, as {turned.get(new, 'a word there already')}")
        turned[new] = old
    return rows, bad


def main():
    rows, bad = table()
    print("\n".join(bad))
    if bad and "--anyway" not in sys.argv:
        raise SystemExit(f"{len(bad)} words fall together")
    with open("tools/respell.tsv", "w", encoding="utf-8") as f:
        f.writelines(f"{old}\t{new}\n" for old, new in rows.items())
    print(f"{len(rows)} words")
    if "--check" not in sys.argv:
        subprocess.run([sys.executable, SNAKE, "--table", "tools/respell.tsv", "crates"], check=True)
        # the module of a function keeps the function's name
        for p in files():
            text = open(p, encoding="utf-8").read()
            turned = re.sub(r"(proofs\.\w+?)_lem\.(Statement|Tie)\b", r"\1.\2", text)
            if turned != text:
                open(p, "w", encoding="utf-8").write(turned)


if __name__ == "__main__":
    main()
