#!/usr/bin/env python3
"""Brings the repository's own definitions and lemmas to the spelling of today's library.

usage: tools/snake_names.py [FOLDER]

Run once, after the toolchain's own port script, at the top of a checkout. Words of a name are
joined by _ and no longer by -, getD in a name becomes get_or, and figures, a fact that was spelled
as a value, becomes Figures. The names are those that the antt files of specs/ and proofs/ declare
with a type: definitions, lemmas, record fields, parameters and local ones. Names that the check
makes of the code (goals and steps, behind goal., given. or in a path of c) stay, and so do
comments, strings of src/ and the names of src/. A name of the library that is spelled as one of
these is turned too: look at the imports afterwards. Two names with - that would become one stop
the script; one that is in use already is only told.
"""
import glob
import os
import re
import sys

# names with another change than of - into _
OTHER = {"figures": "Figures"}

END = r"[\s(){}\[\].,;@]"
TOKEN = re.compile(r"[^\s(){}\[\].,;@]+")
DECLARES = re.compile(
    r"^\s*(?:let )?(?:abbrev |unfoldable )?(?:pub )?([^\s(){}:;,.]+(?: [^\s(){}:;,.]+)*) : "
)


# a parameter, and a name that an import gives
BINDS = re.compile(r"[({]([^\s(){}:;,.]+(?: [^\s(){}:;,.]+)*) : ")
RENAMES = re.compile(r"[^\s(){}:;,.]+ as ([^\s(){}:;,.]+)")


def is_made(path):
    return os.path.basename(path) in ("Answers.antt", "Invariants.antt", "Proof.antt")


def code_of(line, mark):
    at = line.find(mark)
    return (line, "") if at < 0 else (line[:at], line[at:])


def declared(paths):
    names, fields = set(), set()
    for path in paths:
        goals = set()
        for line in open(path, encoding="utf-8"):
            code = code_of(line, "-- ")[0]
            for found in BINDS.findall(code) + RENAMES.findall(code):
                names |= {n for n in found.split() if "-" in n.strip("-")}
            m = DECLARES.match(code)
            if not m:
                continue
            is_goal = is_made(path) and re.search(r": (goal|given)\.", code)
            for name in m[1].split():
                if "-" not in name or name.startswith("-") or name in ("--", "->"):
                    continue
                if is_goal:
                    goals.add(name)
                    continue
                names.add(name)
                if line.startswith("  pub "):
                    fields.add(name)
    return names, fields


def new_name(name):
    return name.replace("getD", "get_or").replace("-", "_")


def turned(text, names, fields, path):
    made = is_made(path)

    def one(m):
        word = m[0]
        before = text[m.start() - 1] if m.start() else " "
        if word in OTHER and path.endswith(".antt"):
            return OTHER[word]
        if word in names:
            if made and before == "." and word not in fields:
                return word
            return new_name(word)
        return word

    return TOKEN.sub(one, text)


def main():
    os.chdir(sys.argv[1] if len(sys.argv) > 1 else ".")
    antt = sorted(
        p
        for p in glob.glob("crates/*/specs/**/*.antt", recursive=True)
        + glob.glob("crates/*/proofs/**/*.antt", recursive=True)
    )
    names, fields = declared(antt)
    for path in glob.glob("crates/*/src/**/*.rt", recursive=True):
        for line in open(path, encoding="utf-8"):
            if line.startswith("ghost use "):
                names |= {n for n in RENAMES.findall(line) if "-" in n}
    both = {}
    for name in sorted(names):
        both.setdefault(new_name(name), []).append(name)
    for new, olds in both.items():
        if len(olds) > 1:
            sys.exit(f"these names fall together as {new}: {olds}")
    used = set()
    for path in antt:
        used |= set(re.split(END + r"+|:", open(path, encoding="utf-8").read()))
    # what falls together with a record's field or a method of src/ is told apart by where it stands
    for new, olds in both.items():
        if new in used:
            print(f"note: {new}, from {olds[0]}, was used already")
    files = antt + sorted(
        glob.glob("crates/*/src/**/*.rt", recursive=True)
        + glob.glob("crates/*/must-fail/*.edit")
    )
    changed = 0
    for path in files:
        mark = "-- " if path.endswith(".antt") else "// "
        old = open(path, encoding="utf-8").read()
        lines = []
        for line in old.split("\n"):
            code, rest = code_of(line, mark)
            parts = re.split(r'("(?:[^"\\]|\\.)*")', code) if path.endswith(".rt") else [code]
            parts[::2] = [turned(p, names, fields, path) for p in parts[::2]]
            lines.append("".join(parts) + rest)
        new = "\n".join(lines)
        if new != old:
            open(path, "w", encoding="utf-8").write(new)
            changed += 1
    print(f"{len(both)} names, {changed} files changed")


main()
