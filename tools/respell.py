#!/usr/bin/env python3
"""Brings the repository's own definitions and lemmas to the spelling of today's Rattle: words in snake case.

usage: tools/respell.py        at the top, once, after the kit's port.py and before any other change

port.py respells the names that the kit's library has too. What is left: our definitions in camel case, our lemmas with
dashes between plain words, our local names of either kind. Types and modules keep their capitals, names that the
library exports stay as they are, and so do the names that Rattle makes in a function's proof. Where a definition and a
lemma fall together, the lemma gets `_lem`. Pages and must-fail edits follow. It changes text and proves nothing.
"""
import collections
import os
import re
import sys

WORD = re.compile(r"[^\s(){}\[\];,.:=λ→⊢|`\"⌜⌝×]+")
BOUND = r"(?<![\w'₀₁₂-])%s(?![\w'₀₁₂-])"


def files(ends, below="crates"):
    for folder, inner, names in os.walk(below):
        inner[:] = sorted(d for d in inner if d not in ("out", "target", ".git", "data"))
        for name in sorted(names):
            if name.endswith(ends):
                yield os.path.join(folder, name)


def read(path):
    with open(path, encoding="utf-8") as f:
        return f.read()


def is_law(path):
    return re.search(r"/(specs|proofs)/[^/]+\.antt$", path) is not None


def wants_respelling(word):
    if not re.match(r"[a-z_≤≡<]", word):
        return False
    return re.search(r"[\w']-[\w']", word) is not None or re.search(r"[a-z0-9][A-Z]", word) is not None


def snake(word):
    word = word.replace("-", "_")
    return re.sub(r"([a-z0-9])([A-Z])", lambda m: m.group(1) + "_" + m.group(2).lower(), word)


def of_the_library(paths):
    """The names that some file imports from outside the repository."""
    own = set(os.listdir("crates"))
    names = set()
    for path in paths:
        for module, listed in re.findall(r"^\s*(?:ghost |pub )?use ([\w.·]+)\.\{([^}]*)\}", read(path), re.M):
            parts = module.split(".")
            if parts[0] == "Rattle" and parts[1] in own:
                continue
            names.update(n.strip().split(" as ")[0].strip() for n in listed.split(","))
    return names


def without_notes(text):
    return re.sub(r"--[^\n]*", "", text)


def respelling():
    """Old to new, for all of the repository's names that change."""
    antt = list(files(".antt"))
    library = of_the_library(antt + list(files(".rt")))
    words = collections.Counter()
    defined = set()
    for path in filter(is_law, antt):
        text = without_notes(read(path))
        words.update(WORD.findall(re.sub(r"^\s*(pub )?use [^\n]*", "", text, flags=re.M)))
        marks = r"(?:(?:abbrev|unfoldable)\s+)?(?:pub )?(?:record |data )?"
        defined.update(re.findall(r"^" + marks + r"([^\s:(){}]+) :", text, re.M))
        defined.update(re.findall(r"^ +pub ([^\s:(){}]+) :", text, re.M))
    changed = {w: snake(w) for w in words if wants_respelling(w) and w not in library}
    taken = collections.defaultdict(set)
    for old, new in changed.items():
        taken[new].add(old)
    for old in sorted(changed):
        new = changed[old]
        others = taken[new] - {old} | ({new} if new in words or new in library else set())
        if others and "-" in old:
            changed[old] = new + "_lem"
        elif others and new in defined:
            changed[new] = new + "_lem"
    return changed, defined


def replaced(text, changed):
    """The text with the words respelled; the path of a `use` line names modules and functions, and stays."""
    lines = []
    for line in text.split("\n"):
        path = re.match(r"\s*(?:ghost )?(?:pub )?use [\w.·]+(?:\.(?=\{)|(?= as )|;?$)", line)
        at = path.end() if path else 0
        lines.append(line[:at] + WORD.sub(lambda m: changed.get(m.group(0), m.group(0)), line[at:]))
    return "\n".join(lines)


def in_backticks(text, changed):
    return re.sub(r"`[^`\n]+`", lambda m: replaced(m.group(0), changed), text)


def main():
    changed, defined = respelling()
    clause = {old: new for old, new in changed.items() if old in defined}
    camel = {old: new for old, new in clause.items() if "-" not in old}
    for path in list(files((".antt", ".rt", ".edit"))) + list(files(".md", ".")):
        text = read(path)
        if path.endswith(".md"):
            new = in_backticks(text, clause)
        elif path.endswith(".antt"):
            new = replaced(text, changed if is_law(path) else clause)
        elif path.endswith(".rt"):
            new = replaced(text, camel)
        else:
            new = replaced(text, clause)
        if new != text:
            with open(path, "w", encoding="utf-8") as f:
                f.write(new)
    for old in sorted(changed):
        if changed[old] != snake(old):
            print(f"{old} -> {changed[old]}")
    print(f"{len(changed)} names")


if __name__ == "__main__":
    sys.exit(main())
