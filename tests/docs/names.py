"""What the documents cite is there: files, definitions and theorems by the file that is named beside them, must-fail edits.

    names.py [ROOT]

A name counts as cited from a file in "`a`, `b` in crates/..", with the file's path behind the names. Every edit has to be named in
docs/PROMISES.md, by its path or, after "crates/NAME/must-fail:", by its label.
"""

import re
import sys
from pathlib import Path

# crates/NAME and the like stand for any crate
PATH = r"crates/[a-z][\w/-]*\.(?:antt|rt|edit|bin)"
NAME = r"`[^`\n]+`(?:\s\([^()`]*\))?"
CITED = re.compile(rf"({NAME}(?:(?:,|\sand|\sor|,\sand)\s{NAME})*)\sin\s(?:the\s)?({PATH})")
LABELS = re.compile(r"crates/(\w+)/must-fail: (\w+(?:, \w+)*)")


def documents(root):
    for path in [root / "README.md", root / "CONTRIBUTING.md", *sorted((root / "docs").glob("*.md"))]:
        # what landed is told as it was then
        if path.name != "LANDINGS.md":
            yield path.relative_to(root), path.read_text(encoding="utf-8")


def findings(root):
    edits = {(path.parts[-3], path.stem) for path in root.glob("crates/*/must-fail/*.edit")}
    for document, text in documents(root):
        for path in sorted(set(re.findall(PATH, text))):
            if not (root / path).exists():
                yield f"{document}: {path} is not there"
        for names, path in CITED.findall(text):
            if not (root / path).exists():
                continue
            words = set(re.split(r"[\s(){};:,.]+", (root / path).read_text(encoding="utf-8")))
            for name in re.findall(r"`([^`]+)`", names):
                if name.split("::")[-1] not in words:
                    yield f"{document}: `{name}` is not in {path}"
        for crate, labels in LABELS.findall(text):
            for label in labels.split(", "):
                if (crate, label) not in edits:
                    yield f"{document}: crates/{crate}/must-fail/{label}.edit is not there"
    promises = (root / "docs/PROMISES.md").read_text(encoding="utf-8")
    named = set(re.findall(r"crates/(\w+)/must-fail/(\w+)\.edit", promises))
    named |= {(crate, label) for crate, labels in LABELS.findall(promises) for label in labels.split(", ")}
    for crate, label in sorted(edits - named):
        yield f"docs/PROMISES.md: crates/{crate}/must-fail/{label}.edit is not named"


def main(root):
    found = list(findings(root))
    print("\n".join(found) or "names: what the documents cite is there")
    return 1 if found else 0


if __name__ == "__main__":
    sys.exit(main(Path(sys.argv[1]) if len(sys.argv) > 1 else Path(__file__).resolve().parents[2]))
