#!/usr/bin/env python3
"""Brings the names of this repository's definitions and lemmas to today's spelling, once, right after the kit's port.py.

    respell.py            at the top of the repository: rewrites crates/, docs/, tools/ and the pages in place, by respelled.txt
    respell.py --list     what respelled.txt was made by: prints old and new name, a line each

Words are in snake case: bucketOf becomes bucket_of, and each part of a lemma's name likewise. A dash stays where it joins two names,
and a plain word is added with an underscore: turns-start becomes turns_start. Functions of src/, exported names, strings, inputs and
outputs keep theirs. A name that would fall together with another one keeps its dashes, and is told.
"""

import re
import sys
from pathlib import Path

TOKEN = re.compile(r"(?<![\w'-])[^\W\d][\w'-]*")
DEFINES = re.compile(r"^(\s*)(?:(?:pub|abbrev|unfoldable|opaque) )*((?:[^\s:(){}\[\],;.=]+ )*[^\s:(){}\[\],;.=]+) :(?= |$)")
HEAD = re.compile(r"^\s*(?:use|open|module|let|--|where|in|unfolding|data|record|mod|pub data|pub record|pub mod|ruleset)\b|^\s*--")
CAMEL = re.compile(r"(?<=[a-z0-9₀-₉])([A-Z])")
# names that the kit's scripts took for the library's, with what stands for each
GARBLED = {"ParamKind": "PK", "get_d_tabulate": "get_or-tabulate", "getD-column": "get_or-column", "getD-put": "get_or-put",
           "each-getD": "each-get_or"}
# a function of the code has the name that these would get
OTHERWISE = {"badRatio": "is_bad_ratio", "casesEnd": "end_of_cases", "goesOn": "is_going_on", "keptFrom": "bytes_kept_from",
             "limitsOf": "the_limits_of", "lineSized": "sized_line", "movedFrom": "moved_out_of", "oneIn": "one_within",
             "readAt": "reading_at", "stepCut": "cut_step", "turnedBy": "turned_away_by", "wantedBy": "wants_of"}
# what a goal or a step is named by: no name of ours
MADE = re.compile(r"^(?:loop|returns|overflow|bounds|slice|shared|same|in|if|else|then|inv|invariant|decreases|Need|match|branch|cast)-")
# words of the library that a lemma's name may join
WORDS = {"length", "drop", "take", "set", "get_or", "append", "map", "replicate", "reverse", "le", "lt", "eq", "div", "mod", "mul", "add",
         "sub", "pow", "suc", "zero", "cond", "true", "false", "and", "or", "not", "total", "filter", "some", "none", "all", "sum"}


def snake(name):
    return re.sub(r"(?<=[a-z0-9₀-₉])([A-Z])", lambda m: "_" + m.group(1).lower(), name)


def lower_camel(name):
    return any(re.match(r"[a-z][a-z0-9₀-₉]*[A-Z]", part) for part in re.split(r"[-_]", name))


def antt(root):
    return sorted(p for p in root.glob("crates/*/specs/**/*.antt")) + sorted(p for p in root.glob("crates/*/proofs/**/*.antt"))


def own(path, root):
    """Whether the file holds definitions or laws, and is no proof of a function."""
    parts = path.relative_to(root).parts
    return len(parts) == 4


def defined(root):
    found = {}
    for path in antt(root):
        for line in path.read_text(encoding="utf-8").split("\n"):
            if HEAD.match(line):
                continue
            m = DEFINES.match(line)
            if m:
                for name in m.group(2).split():
                    if TOKEN.fullmatch(name):
                        found.setdefault(name, set()).add(path)
    return found


def renames(root):
    found = defined(root)
    tokens = set()
    for path in antt(root):
        tokens |= set(TOKEN.findall(path.read_text(encoding="utf-8")))
    plain = {snake(n) for n in found if "-" not in n} | WORDS
    new = GARBLED | OTHERWISE
    camel = {t for t in tokens if lower_camel(t)}
    for name in sorted(camel | {n for n in found if "-" in n}):
        if name in new:
            continue
        if "-" in name and (name not in found or not any(own(p, root) for p in found[name]) or MADE.match(name)):
            if not lower_camel(name):
                continue
        parts = [snake(p) for p in name.split("-")]
        to = parts[0]
        for left, right in zip(parts, parts[1:]):
            to += ("-" if left in plain and right in plain and name in found else "_" if name in found else "-") + right
        if to != name:
            new[name] = to
    # a name of the code may be a definition's too, but not in a file that brings both in
    kept = set(found) - set(new)
    taken, told = {}, []
    for name in sorted(new, key=lambda n: ("-" in n, n)):
        to = new[name]
        if name in GARBLED:
            continue
        assert name not in OTHERWISE or to not in tokens, to
        if to in kept or to in taken or together(root, name, to):
            told.append((name, to))
            del new[name]
        else:
            taken[to] = name
    return new, told


def together(root, name, to):
    """Whether a source brings in the name where it has the other one as an item."""
    for path in root.glob("crates/*/src/**/*.rt"):
        text = path.read_text(encoding="utf-8")
        brought = re.findall(r"ghost use[^;]*;", text)
        if any(name in TOKEN.findall(line) for line in brought) and re.search(rf"\b(?:fn|mod|struct|enum|const|use [^;]*) {to}\b", text):
            return True
    return False


class Cited(dict):
    """The new names, and beside them those that the kit's scripts gave: snake case, where that is a name now."""

    def __init__(self, new, names):
        super().__init__(new)
        self.names = names

    def get(self, name, default=None):
        if name in self or not lower_camel(name):
            return super().get(name, default)
        return snake(name) if snake(name) in self.names else default


def turn(text, new):
    return TOKEN.sub(lambda m: new.get(m.group(0), m.group(0)), text)


def outside_strings(text, new):
    return "".join(part if i % 2 else turn(part, new) for i, part in enumerate(re.split(r"(\"(?:[^\"\\\n]|\\.)*\")", text)))


def in_backticks(text, new):
    return re.sub(r"`[^`\n]+`", lambda m: turn(m.group(0), new), text)


def main(args):
    root = Path(__file__).resolve().parents[1]
    if "--list" in args:
        new, told = renames(root)
        for name, to in told:
            print(f"stays, since it would fall together: {name} -> {to}", file=sys.stderr)
        print("\n".join(f"{a} {b}" for a, b in sorted(new.items())))
        return 0
    lines = Path(__file__).with_name("respelled.txt").read_text(encoding="utf-8").splitlines()
    new = dict(line.split(" ") for line in lines)
    for path in antt(root):
        text = path.read_text(encoding="utf-8")
        path.write_text(turn(text, new), encoding="utf-8")
    for path in sorted(root.glob("crates/*/src/**/*.rt")):
        path.write_text(outside_strings(path.read_text(encoding="utf-8"), new), encoding="utf-8")
    # what the kit's scripts respelled themselves
    names = {t for path in antt(root) for t in TOKEN.findall(path.read_text(encoding="utf-8"))}
    cited = Cited(new, names)
    for path in sorted(root.glob("crates/*/must-fail/*.edit")):
        path.write_text(turn(path.read_text(encoding="utf-8"), cited), encoding="utf-8")
    pages = [p for p in sorted(root.glob("docs/*.md")) if p.name != "LANDINGS.md"]
    for path in [root / "README.md", root / "CONTRIBUTING.md", *pages, *sorted(root.glob("host/*.md"))]:
        path.write_text(in_backticks(path.read_text(encoding="utf-8"), cited), encoding="utf-8")
    for path in [root / "tools/theorems.txt", root / "tools/names.txt"]:
        path.write_text(turn(path.read_text(encoding="utf-8"), cited), encoding="utf-8")
    return 0


if __name__ == "__main__":
    sys.exit(main(sys.argv[1:]))
