"""tools/believe finds what the promises rest on, and says where README.md's list is not that."""

import contextlib
import importlib.machinery
import importlib.util
import io
import tempfile
import unittest
from pathlib import Path
from unittest import mock

TOOL = Path(__file__).resolve().parents[2] / "tools" / "believe"
loader = importlib.machinery.SourceFileLoader("believe", str(TOOL))
believe = importlib.util.module_from_spec(importlib.util.spec_from_loader("believe", loader))
loader.exec_module(believe)

TOP = """-- What is promised.
use Rattle.std.specs.Prelude.{ℕ, ◌≡◌}
use Rattle.low.specs.Parts.{half as part, Pair, both, start}

-- the promise
pub record Promise (n : ℕ) : Type 0 where
  pub holds : local n ≡ part (n + start.first)

local : ℕ → ℕ
local n = n

-- nothing needs this
abbrev pub apart : Pair → ℕ
apart (both a b) = a
"""
PARTS = """-- Parts.

abbrev pub half : ℕ → ℕ
half n = n / 2

pub start : Ends
start = record { first = 0; last = 0 }

pub record Ends : Type 0 where
  pub first : ℕ
  pub last : ℕ

pub data Pair : Type 0 where
  both : ℕ → ℕ → Pair
"""
README = """# x

## What you have to believe

| crates/top/specs: Promises; crates/low/specs: Parts |

## More

crates/more/specs: Elsewhere
"""
ROOTS = [("top", "Promises", "Promise")]


class Believe(unittest.TestCase):
    def setUp(self):
        folder = tempfile.TemporaryDirectory()
        self.addCleanup(folder.cleanup)
        self.root = Path(folder.name)
        self.write("crates.txt", "# the crates\nlow:\ntop staticlib: low\nmore:\n")
        self.write("README.md", README)
        self.write("crates/top/specs/Promises.antt", TOP)
        self.write("crates/top/specs/Lib.antt", "pub mod Promises\n")
        self.write("crates/low/specs/Parts.antt", PARTS)
        self.write("crates/low/specs/Lib.antt", "pub mod Parts\n")
        self.write("crates/more/specs/Elsewhere.antt", PARTS)

    def write(self, path, text):
        (self.root / path).parent.mkdir(parents=True, exist_ok=True)
        (self.root / path).write_text(text, encoding="utf-8")

    def run_tool(self, *words, most=100):
        out = io.StringIO()
        status = 0
        with mock.patch("sys.argv", ["believe", *words]), contextlib.redirect_stdout(out):
            try:
                believe.main(self.root, ROOTS, most)
            except SystemExit as stop:
                status = stop.code
        return status, out.getvalue()

    def test_what_is_reached(self):
        text = self.run_tool("--read")[1]
        for needed in ("record Promise", "local n = n", "half n = n / 2", "start = record", "record Ends"):
            self.assertIn(needed, text)
        for other in ("apart", "both", "Prelude"):
            self.assertNotIn(other, text)

    def test_good(self):
        self.assertEqual(self.run_tool("--check"), (0, "believe: 14 lines in 2 files, and README.md names each\n"))

    def test_a_file_left_out(self):
        self.write("README.md", README.replace("; crates/low/specs: Parts", ""))
        status, text = self.run_tool("--check")
        self.assertEqual((status, text), (1, "README.md does not name crates/low/specs/Parts.antt, and the promises rest on it\n"))

    def test_a_file_too_many(self):
        self.write("README.md", README.replace("specs: Parts", "specs: Parts; crates/more/specs: Elsewhere"))
        status, text = self.run_tool("--check")
        self.assertEqual((status, text), (1, "README.md names crates/more/specs/Elsewhere.antt, and no promise rests on it\n"))

    def test_too_long(self):
        status, text = self.run_tool("--check", most=14)
        self.assertEqual((status, text), (1, "14 lines have to be believed, which is not under 14\n"))

    def test_a_name_that_is_gone(self):
        self.write("crates/low/specs/Parts.antt", PARTS.replace("half", "third"))
        self.assertEqual(self.run_tool("--check")[0], "believe: crates/low/specs/Parts.antt has no half")


if __name__ == "__main__":
    unittest.main()
