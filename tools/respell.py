#!/usr/bin/env python3
"""Respells this repository's own definitions and lemmas: snake case for words, camel case for types and facts.

Run once at the top, after the toolchain's own script. It renames by the names that specs/ and proofs/ declare, wherever
they are cited: in specs/, proofs/, clauses of src/ and must-fail edits. Functions of src/, exported names, strings,
inputs and outputs keep their names. `--list` prints the renamings and the names that would fall together, and writes nothing.
"""
import collections
import glob
import re
import sys

# A name, or any other text between what no name holds.
TOKEN = re.compile(r"[^\s(){}\[\].,;:\"|⌜⌝`]+")
DECLARED = re.compile(r"^\s*(?:(?:abbrev|unfoldable|pub|record|data)\s+)*([^\s(){}.,;:\"]+)\s+(?:[^=:]*\s)?:\s")
IMPORT = re.compile(r"^\s*(?:pub |ghost )*use ([^\s{]+?)\.?\{([^}]*)\}")

# Names that would otherwise fall together with another, or read badly.
CHOSEN = {
    "Some-None": "some_not_none",
    "E1-most": "e1_most",
}

# Names bound by a `λ` or a `let`, which no declaration gives.
BOUND = ["drain-rank", "due-now", "after-work", "after-code", "after-drain", "Halts-at", "Stands-by", "window-machine", "some-open"]

# A fact that was named like a value: only in the files that cite it.
FACTS = {
    "word": "IsWord",
}
FACT_FILES = [
    "crates/pins/specs/Outside.antt",
    "crates/pins/specs/Settled.antt",
    "crates/pins/specs/View.antt",
    "crates/pins/proofs/Settling.antt",
]


def spelled(name):
    """The name in today's spelling."""
    if name in CHOSEN:
        return CHOSEN[name]
    if name[0].isupper():
        return "".join(part[:1].upper() + part[1:] for part in re.split("[-_]", name))
    words = name.replace("-", "_")
    words = re.sub(r"([a-z0-9])([A-Z])", lambda m: m.group(1) + "_" + m.group(2).lower(), words)
    return words.replace("′", "'")


def is_code(path):
    """Whether the file answers goals, whose names the toolchain makes."""
    return path.endswith("/Answers.antt") or path.endswith("/Invariants.antt") or path.endswith("/Proof.antt")


def antt_files():
    return sorted(glob.glob("crates/*/specs/**/*.antt", recursive=True) + glob.glob("crates/*/proofs/**/*.antt", recursive=True))


def declared():
    """Each declared name, with the files that declare it."""
    names = collections.defaultdict(set)
    for path in antt_files():
        for line in open(path, encoding="utf-8"):
            if line.lstrip().startswith(("--", "use ", "pub use ")):
                continue
            match = DECLARED.match(line)
            if not match:
                continue
            name = match.group(1)
            if is_code(path) and "goal." in line:
                continue
            names[name].add(path)
    return names


def foreign(text):
    """The names that a file imports from elsewhere than this repository, and from its goals."""
    names = set()
    for line in text.splitlines():
        match = IMPORT.match(line)
        if match and is_foreign(match.group(1)):
            names |= {n.split(" as ")[-1].strip() for n in match.group(2).split(",")}
    return names


OWN = set()


def is_foreign(module):
    parts = module.split(".")
    if parts[0] != "Rattle" or parts[1] not in OWN:
        return True
    return parts[-1] in ("Goals", "Given") or "declared" in parts


def respell_text(text, renaming, keep, comments):
    def token(match):
        name = match.group(0)
        return name if name in keep else renaming.get(name, name)

    lines = []
    for line in text.split("\n"):
        code, mark, comment = line, "", ""
        if comments and comments in line:
            at = line.index(comments)
            code, mark, comment = line[:at], comments, line[at + len(comments):]
        pieces = re.split(r'("(?:[^"\\]|\\.)*")', code)
        code = "".join(p if p.startswith('"') else TOKEN.sub(token, p) for p in pieces)
        lines.append(code + mark + comment)
    return "\n".join(lines)


def main():
    OWN.update(line.split(":")[0].split()[0] for line in open("crates.txt") if line.strip() and not line.startswith("#"))
    names = declared()
    renaming = {n: spelled(n) for n in list(names) + BOUND if spelled(n) != n}
    taken = collections.defaultdict(set)
    for old, new in renaming.items():
        taken[new].add(old)
    for new in sorted(taken):
        others = taken[new] | ({new} if new in names else set())
        if len(others) > 1:
            print("fall together:", new, "from", " ".join(sorted(others)))
    if "--list" in sys.argv:
        for old in sorted(renaming):
            print(old, renaming[old])
        return
    for path in antt_files() + sorted(glob.glob("crates/*/src/**/*.rt", recursive=True)) + sorted(glob.glob("crates/*/must-fail/*.edit")):
        text = open(path, encoding="utf-8").read()
        here = dict(renaming, **FACTS) if path in FACT_FILES else renaming
        comments = "--" if path.endswith(".antt") else "//" if path.endswith(".rt") else None
        after = respell_text(text, here, foreign(text), comments)
        if after != text:
            open(path, "w", encoding="utf-8").write(after)


if __name__ == "__main__":
    main()
