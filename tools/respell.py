#!/usr/bin/env python3
"""Brings the repository's own definitions and lemmas to snake case, as the language's library spells its own.

usage: python3 tools/respell.py        at the top of the repository, once, after the language's own port script

Each part of a name in .antt files, in the sources' clauses and comments and in must-fail/*.edit that is in lower
camel case becomes snake case; functions of src/ have it already. Names from sources, strings and numbers stay.
It prints names that would fall together with another one.
"""
import os
import re
import sys

IDENT = re.compile(r"(?<![0-9A-Za-z_])[A-Za-z_ℕℤμκα-ω][A-Za-z0-9_ℕℤμκα-ω'₀-₉]*")
CAMEL = re.compile(r"^[a-zμ][a-z0-9_]*[A-Zℤ]")
# facts, which are types, and old words of the library's in lemmas' names
GIVEN = {"leftAfter": "LeftAfter", "getD": "get_or"}
# lemmas that would have their definition's name afterwards: the module that has the lemma, and the lemma
LEMMAS = {
    "Rattle.model.proofs.Written": "row_word",
    "Rattle.remove.proofs.Runs": "is_live",
    "Rattle.sheet_card.proofs.Cards": "last_line",
    "Rattle.soundness.proofs.Rows": "row_fine",
}
# left as they are: the library's own
KEEP = {"to_ℕ", "to_ℤ", "of_ℤ", "coded_ℕ"}


def snake(word):
    if word in GIVEN:
        return GIVEN[word]
    word = re.sub(r"(?<=[A-Za-z0-9'])(?<!_)([A-Zℤ])", lambda m: "_" + m.group(1), word)
    return "".join(c if c == "ℤ" else c.lower() for c in word)


def files(root):
    for folder, dirs, names in os.walk(os.path.join(root, "crates")):
        dirs[:] = sorted(d for d in dirs if d != "out")
        for n in sorted(names):
            if n.endswith((".antt", ".rt", ".edit")):
                yield os.path.join(folder, n)


def pieces(path, text):
    """The text in pieces: (piece, whether names in it are respelled). Strings of sources aren't."""
    if not path.endswith((".rt", ".edit")):
        return [(text, True)]
    return [(p, not p.startswith('"')) for p in re.split(r'("(?:[^"\\\n]|\\.)*")', text)]


def lemmas(path, text):
    """The lemmas of LEMMAS under the name that ends in _lem, in their file and where they are imported."""
    for module, word in LEMMAS.items():
        _, crate, _, name = module.split(".")
        own = path.endswith(f"/{crate}/proofs/{name}.antt")
        if path.endswith(".antt") and (own or re.search(re.escape(module) + r"\.\{[^}]*(?<![\w'-])" + word + r"(?![\w'-])", text)):
            text = re.sub(r"(?<![.\w'-])" + word + r"(?![\w'-])", word + "_lem", text)
    return text


def turn(word, made):
    if not CAMEL.match(word) or word in KEEP:
        return word
    new = snake(word)
    made[word] = new
    return new


def main():
    root = sys.argv[1] if len(sys.argv) > 1 else "."
    made, seen = {}, {}
    old = {p: open(p, encoding="utf-8").read() for p in files(root)}
    texts = {p: lemmas(p, text) for p, text in old.items()}
    for p, text in texts.items():
        for piece, names in pieces(p, text):
            if names:
                for w in IDENT.findall(piece):
                    seen.setdefault(w, set()).add(p)
    changed = 0
    for p, text in texts.items():
        new = "".join(IDENT.sub(lambda m: turn(m.group(), made), piece) if names else piece for piece, names in pieces(p, text))
        if new != old[p]:
            changed += 1
            with open(p, "w", encoding="utf-8") as f:
                f.write(new)
    for old, new in sorted(made.items()):
        if new in seen:
            print(f"falls together: {old} becomes {new}, which stands in {len(seen[new])} files, as {sorted(seen[new])[0]}")
    print(f"{len(made)} words respelled in {changed} files")


if __name__ == "__main__":
    main()
