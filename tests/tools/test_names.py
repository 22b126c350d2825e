"""tests/docs/names.py says where a document cites what is not there."""

import subprocess
import sys
import tempfile
import unittest
from pathlib import Path

TOOL = Path(__file__).resolve().parents[1] / "docs" / "names.py"

TREE = {
    "README.md": "See `Promise` in crates/top/specs/Top.antt, and crates/NAME/specs/X.antt for the others.\n",
    "CONTRIBUTING.md": "",
    "docs/PROMISES.md": "`kept` and\n`Promise` in crates/top/specs/Top.antt; crates/top/must-fail/slip.edit, crates/top/must-fail: other\n",
    "docs/LANDINGS.md": "`gone` in crates/top/specs/Gone.antt\n",
    "crates/top/specs/Top.antt": "pub record Promise : Type 0 where\n  pub kept : One\n",
    "crates/top/must-fail/slip.edit": "",
    "crates/top/must-fail/other.edit": "",
}


class Names(unittest.TestCase):
    def told(self, **changes):
        """What is said of the tree with a text put in place of another: path and (old, new)."""
        with tempfile.TemporaryDirectory() as folder:
            for path, text in TREE.items():
                old, new = changes.get(Path(path).stem, ("", ""))
                full = Path(folder) / path
                full.parent.mkdir(parents=True, exist_ok=True)
                full.write_text(text.replace(old, new) if old else text, encoding="utf-8")
            done = subprocess.run([sys.executable, TOOL, folder], capture_output=True, check=False, text=True)
            return done.returncode, done.stdout.strip()

    def test_good(self):
        self.assertEqual(self.told(), (0, "names: what the documents cite is there"))

    def test_a_name_that_is_not_there(self):
        self.assertEqual(self.told(Top=("kept", "held")), (1, "docs/PROMISES.md: `kept` is not in crates/top/specs/Top.antt"))

    def test_a_file_that_is_not_there(self):
        self.assertEqual(self.told(README=("Top.antt", "Tip.antt")), (1, "README.md: crates/top/specs/Tip.antt is not there"))

    def test_an_edit_that_is_not_there(self):
        found = self.told(PROMISES=("slip.edit", "slips.edit"))
        lines = "docs/PROMISES.md: crates/top/must-fail/slips.edit is not there\ndocs/PROMISES.md: crates/top/must-fail/slip.edit is not named"
        self.assertEqual(found, (1, lines))

    def test_a_label_that_is_not_there(self):
        found = self.told(PROMISES=("must-fail: other", "must-fail: others"))
        lines = "docs/PROMISES.md: crates/top/must-fail/others.edit is not there\ndocs/PROMISES.md: crates/top/must-fail/other.edit is not named"
        self.assertEqual(found, (1, lines))


if __name__ == "__main__":
    unittest.main()
