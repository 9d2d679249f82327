#!/usr/bin/env python3
"""Brings the repository's own definitions and lemmas to today's spelling: words in snake case, facts and types in camel case.

Run once at the top of the repository, right after the kit's script that turns an older repository. It reads what the
files of specs/ and proofs/ declare, and respells each declared name that has a dash wherever that word stands: in antt, in
the code but for comments and strings, and between backquotes in the pages. Names that a proof binds for itself, by `let` or
as a parameter, are respelled in that file. A name in «» that needs none is written bare. Functions of src/, strings, inputs
and outputs stay as they are. A word is turned whatever it means where it stands, so what the check or the library calls by
the same word is turned too: docs/PORT.md says which places were turned back.
"""

import glob
import re
import sys

# Facts and types, in camel case; names that join two names, with their dash; then names that stand only behind `as` or in a
# file of answers. `first_of` gets another name, since a tactic has that one. All other names get `_` for `-`.
SPECIAL = {
    "Forward-like": "ForwardLike",
    "Home-of": "HomeOf",
    "Kind-rules": "KindRules",
    "Lawful-rows": "LawfulRows",
    "Sealed-rules": "SealedRules",
    "Straight-laws": "StraightLaws",
    "Fitting-field": "FittingField",
    "Refers-to": "RefersTo",
    "getD-shapes": "get_or-shapes",
    "in-getD": "in_get_or",
    "lib-set": "lib_set",
    "words-stand": "words_stand",
    "room-left": "room_left",
    "accepted-acts": "accepted_acts",
    "first_of": "first_offset",
}

# Words of antt, which keep their «».
RESERVED = set(
    "data record deriving module where use mod pub package open as unfoldable abbrev axiom unfold unfolding ruleset "
    "mutual infix infixl infixr elim let in do Type coe fcoe tcoe hcom com".split()
)
MADE = re.compile(r"(^|/)(Answers|Invariants|Choices|Proof)\.antt$")
HEAD = re.compile(r"^(?:pub\s+|abbrev\s+|unfoldable\s+|ruleset\s+|data\s+|record\s+)*([A-Za-z_][^\s:({]*)\s*(?:[:({]|$)")
FIELD = re.compile(r"^\s+(?:pub\s+|abbrev\s+|unfoldable\s+|data\s+|record\s+)*([A-Za-z][^\s:({]*)\s+:\s")
LOCAL = re.compile(r"\blet\s+([a-z][\w-]*)\s*[:=]|\(((?:[a-z][\w-]*\s+)+):\s")
NAME = re.compile(r"(?<![\w'\-◌×≡∥₁])[A-Za-z_][A-Za-z0-9_]*(?:-[A-Za-z0-9_]+)*'*(?![\w'\-◌×≡∥₁])")


def declared(path):
    """The names that a file declares: at the left margin, and the fields and constructors below."""
    for line in open(path, encoding="utf8"):
        if line.startswith(("use ", "mod ", "pub mod", "--", "unfolding", "open")):
            continue
        match = (FIELD if line.startswith(" ") else HEAD).match(line)
        if match and ":" in line:
            yield match.group(1)


def table(files):
    """Of each declared name with a dash what it becomes; and the names that pages still have with a dash."""
    names, older = {}, {}
    for path in files:
        if MADE.search(path):
            continue
        for name in declared(path):
            if "-" in name:
                names[name] = name.replace("-", "_")
            elif "_" in name:
                older[name.replace("_", "-")] = name
    names.update(SPECIAL)
    return names, older | names


def local(text):
    """The names with a dash that a proof binds for itself, by `let` or as a parameter."""
    found = {name for m in LOCAL.finditer(text) for name in (m.group(1) or m.group(2)).split()}
    bound = {name: name.replace("-", "_") for name in found if "-" in name}
    words = set(NAME.findall(text))
    for old, new in sorted(bound.items()):
        if new in words:
            print(f"look: {old}, bound in a proof, becomes {new}, and that word stands already")
    return bound


def turned(text, names, bound=None):
    def one(m):
        word, field = m.group(0), text[m.start() - 1 : m.start()] == "."
        return names.get(word) or (bound or {}).get(word if not field else "", word)

    text = NAME.sub(one, text)

    def bare(m):
        inner = m.group(1)
        plain = re.fullmatch(r"[A-Za-z_][A-Za-z0-9_]*", inner) and inner not in RESERVED
        return inner if plain else m.group(0)

    return re.sub("«([^»]*)»", bare, text)


def turn_code(text, names):
    """The code of a .rt file without its comments, strings and characters."""
    keep = re.compile(r'//[^\n]*|"(?:[^"\\]|\\.)*"|\'(?:[^\'\\]|\\.)\'')
    out, at = [], 0
    for match in keep.finditer(text):
        out += [turned(text[at : match.start()], names), match.group(0)]
        at = match.end()
    return "".join(out) + turned(text[at:], names)


def turn_antt(text, names):
    return turned(text, names, local(text))


def turn_page(text, names):
    return re.sub(r"`[^`\n]+`", lambda m: turned(m.group(0), names), text)


def apart(names, files):
    """No new name may be another of ours, or a word that the files use already for something else."""
    words = set()
    for path in files:
        words.update(NAME.findall(open(path, encoding="utf8").read()))
    for old, new in sorted(names.items()):
        if new in words:
            print(f"look: {old} becomes {new}, and that word stands already")
    turned_names = list(names.values())
    for new in sorted({n for n in turned_names if turned_names.count(n) > 1}):
        print(f"look: two names become {new}")


def main():
    antt = sorted(glob.glob("crates/*/specs/**/*.antt", recursive=True) + glob.glob("crates/*/proofs/**/*.antt", recursive=True))
    code = sorted(glob.glob("crates/*/src/**/*.rt", recursive=True))
    pages = sorted(glob.glob("docs/*.md")) + ["README.md"]
    if not antt:
        sys.exit("respell: run it at the top of the repository")
    names, everywhere = table(antt)
    apart(names, antt + code)
    for files, turn, words in ((antt, turn_antt, names), (code, turn_code, names), (pages, turn_page, everywhere)):
        for path in files:
            before = open(path, encoding="utf8").read()
            after = turn(before, words)
            if after != before:
                open(path, "w", encoding="utf8").write(after)
    print(f"respell: {len(names)} names")


if __name__ == "__main__":
    main()
