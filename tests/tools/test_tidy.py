"""tools/tidy on a tiny tree: each kind of finding is reported where it stands, and a clean tree has none."""

import os
import subprocess
import sys
import tempfile
import unittest

HERE = os.path.dirname(os.path.abspath(__file__))
TOOL = os.path.join(HERE, "../../tools/tidy")

LOW_CODE = """ghost use Rattle.std.specs.Prelude.{◌≡◌};
ghost use Rattle.low.specs.Twos.{twice};

pub struct Pair {
    pub a: u8,
}

const TWO: u8 = 2;

fn half(x: u8) -> u8 {
    x / TWO
}

pub fn double(p: Pair) -> u8
    ensures { result ≡ twice p.a }
{
    half(p.a) + half(p.a)
}
"""

LOW_SPECS = """-- Twice a number.
use Prim.Native.Nat.{ℕ, ◌+◌}

unfoldable pub twice : ℕ → ℕ
twice n = n + n

-- how two numbers compare
pub data Order : Type 0 where
  less more : Order
"""

LOW_LAWS = """-- Laws of doubling.
use mathlib.Core.Path.{◌≡◌, refl}
use Prim.Native.Nat.{ℕ, zero, suc, ◌+◌}
use Rattle.low.specs.Twos as twos
use Rattle.low.specs.Twos.{less}

pub twice-is : (n : ℕ) → twos.twice n ≡ n + n
unfolding twos.twice
twice-is n = refl

module _ (n : ℕ)
    (m : ℕ) where
  pub lower : twos.Order
  lower = pick n
    where
      pick : ℕ → twos.Order
      pick zero = less
      pick (suc k) = less
"""

LOW_ANSWERS = """-- `low::double` meets its contract.
use borrow.Author.Rules.{rules}
use Rattle.low.proofs.TwosLaws.{twice-is}
use Rattle.low.proofs.double.Goals as goal

ruleset laws = (rules, twice-is)

pub returns : goal.returns
returns c = search laws
"""

LOW_INVARIANTS = """use Rattle.low.proofs.double.Given as goal

abbrev pub invariant-loop : goal.invariant-loop
invariant-loop l = l.x

abbrev pub decreases-loop : goal.decreases-loop
decreases-loop l = l.x
"""

TOP_CODE = """use low::Pair;

#[unsafe(no_mangle)]
pub extern "C" fn four(x: u8) -> u8 {
    low::double(Pair { a: x })
}
"""

CLEAN = {
    "crates.txt": "low:\ntop staticlib: low\n",
    "crates/low/src/lib.rt": LOW_CODE,
    "crates/low/specs/Twos.antt": LOW_SPECS,
    "crates/low/proofs/TwosLaws.antt": LOW_LAWS,
    "crates/low/proofs/double/Answers.antt": LOW_ANSWERS,
    "crates/low/proofs/double/Invariants.antt": LOW_INVARIANTS,
    "crates/top/src/lib.rt": TOP_CODE,
    "tools/theorems.txt": "# theorems\nlow TwosLaws lower -- readers are pointed to it\n",
    "tools/names.txt": "",
}


def run(root, *words):
    done = subprocess.run([sys.executable, TOOL, *words], cwd=root, capture_output=True, check=False, text=True)
    return done.returncode, done.stdout.splitlines()


def plant(root, files):
    for path, text in files.items():
        full = os.path.join(root, path)
        os.makedirs(os.path.dirname(full), exist_ok=True)
        with open(full, "w", encoding="utf-8") as file:
            file.write(text)


class Tidy(unittest.TestCase):
    def report(self, changes):
        """What is said of the clean tree with some files changed: {path: (old, new)}, or {path: added text}."""
        files = dict(CLEAN)
        for path, change in changes.items():
            if isinstance(change, tuple):
                self.assertEqual(files[path].count(change[0]), 1, path)
                files[path] = files[path].replace(*change)
            else:
                files[path] = files.get(path, "") + change
        with tempfile.TemporaryDirectory() as root:
            plant(root, files)
            return run(root)

    def expect(self, changes, *lines):
        self.assertEqual(self.report(changes), (1, [*lines, "tidy: 1 finding" if len(lines) == 1 else f"tidy: {len(lines)} findings"]))

    def test_clean(self):
        self.assertEqual(self.report({}), (0, ["tidy: ok"]))

    def test_unreferenced_law(self):
        path = "crates/low/proofs/TwosLaws.antt"
        law = "\nidle : (n : ℕ) → n ≡ n\nidle zero = refl\nidle (suc n) = idle n\n"
        self.expect({path: law}, f"{path}:20: `idle` (definition) is referenced nowhere")

    def test_needed_only_by_the_unneeded(self):
        path = "crates/low/proofs/TwosLaws.antt"
        law = "\nrecord Odd (n : ℕ) : Type 0 where\n  pub odd : n ≡ suc zero\n\nlone : Odd (suc zero)\nlone = record { odd = refl }\n"
        self.expect(
            {path: law},
            f"{path}:20: `Odd` (record) is referenced only by what nothing needs",
            f"{path}:23: `lone` (definition) is referenced nowhere",
        )

    def test_unreferenced_helper(self):
        path = "crates/low/proofs/TwosLaws.antt"
        helper = "      aside : ℕ\n      aside = zero\n"
        self.expect({path: helper}, f"{path}:13: the helper `aside` of `lower` is referenced nowhere")

    def test_theorems(self):
        path = "tools/theorems.txt"
        lines = "low TwosLaws twice-is -- cited by an answer\nlow TwosLaws gone -- no such law\n"
        self.expect(
            {path: lines},
            f"{path}:3: `twice-is` is referenced anyway",
            f"{path}:4: `low TwosLaws gone` names nothing (a line is: crate Module name -- reason)",
        )

    def test_a_lone_law(self):
        law = "crates/low/proofs/TwosLaws.antt"
        self.expect({law: "\nlone : ℕ\nlone = zero\n"}, f"{law}:20: `lone` (definition) is referenced nowhere")

    def test_a_promise_in_proofs(self):
        path = "crates/low/proofs/TwosLaws.antt"
        law = "\nrecord Odd (n : ℕ) : Type 0 where\n  pub odd : n ≡ suc zero\n\nlone : Odd (suc zero)\nlone = record { odd = refl }\n"
        self.expect(
            {path: law, "tools/theorems.txt": "low TwosLaws lone -- for readers\n"},
            f"{path}:23: `lone` is for readers, and `Odd` in its statement stands in proofs/",
        )

    def test_unused_imports(self):
        law, code = "crates/low/proofs/TwosLaws.antt", "crates/low/src/lib.rt"
        self.expect(
            {law: ("ℕ, zero, suc, ◌+◌}", "ℕ, zero, suc, ◌+◌, ◌*◌}"), code: ("{◌≡◌}", "{◌≡◌, ◌/◌, refl}")},
            f"{law}:3: `◌*◌` is imported and not used",
            f"{code}:1: `refl` is imported and not used",
            f"{code}:1: `◌/◌` is imported and not used",
        )

    def test_unused_module(self):
        path = "crates/low/proofs/double/Answers.antt"
        line = "use Rattle.low.proofs.double.Goals as goal\n"
        self.expect({path: (line, line + "use mathlib.Core.List as lists\n")}, f"{path}:5: `lists` is imported and not used")

    def test_what_rt_does_not_ask_for(self):
        """An answer is needed because it is a goal's, and what it does not name is not; a theorem by hand has its own end."""
        answers, invariants = "crates/low/proofs/double/Answers.antt", "crates/low/proofs/double/Invariants.antt"
        self.expect(
            {answers: "\npub more : goal.returns\nmore c = returns c\n", invariants: ("decreases-loop : goal.d", "decreases-lop : goal.d")},
            f"{answers}:11: `more` (definition) is referenced nowhere",
            f"{invariants}:6: `decreases-lop` (definition) is referenced nowhere",
        )
        proof = "pub half_spec : statement\nhalf_spec = walk\n\nidle_specs : statement\nidle_specs = walk\n"
        path = "crates/low/proofs/half/Proof.antt"
        self.expect({path: proof}, f"{path}:4: `idle_specs` (definition) is referenced nowhere")

    def test_a_lemma_that_only_an_attribute_names(self):
        laws, code = "crates/low/proofs/TwosLaws.antt", "crates/low/src/lib.rt"
        law = "\npub idle : (n : ℕ) → n ≡ n\nidle n = refl\n"
        given = "#[tactic(auto, unfolding(crate::specs::Twos::twice), using(low::proofs::TwosLaws::idle))]\nfn half("
        self.assertEqual(self.report({laws: law, code: ("fn half(", given)})[0], 0)

    def test_contracts_alone_speak_antt(self):
        """A name of specs/ that stands in a clause is needed, also where clauses have names, and one in the code is not."""
        path, specs = "crates/low/src/lib.rt", "crates/low/specs/Twos.antt"
        clauses = "    requires low { p.a ≤ bound }\n    requires { matches (record { at = bound }) }\n    ensures {"
        bound = "\npub bound : ℕ\nbound = 3\n\npub matches : ℕ → ℕ\nmatches n = n\n"
        imports = ("{twice}", "{twice, bound, matches}")
        files = {path: LOW_CODE.replace("    ensures {", clauses).replace(*imports).replace("{◌≡◌}", "{◌≡◌, ◌≤◌}"), specs: bound}
        with tempfile.TemporaryDirectory() as root:
            plant(root, {**CLEAN, path: files[path], specs: LOW_SPECS + bound})
            self.assertEqual(run(root), (0, ["tidy: ok"]))
        code = LOW_CODE.replace("half(p.a) +", "// p ≤ bound\n    let bound = half(p.a);\n    bound +").replace("{twice}", "{twice, bound}")
        with tempfile.TemporaryDirectory() as root:
            plant(root, {**CLEAN, path: code, specs: LOW_SPECS + "\npub bound : ℕ\nbound = 3\n"})
            self.assertEqual(run(root), (1, [
                f"{specs}:11: `bound` (definition) is referenced nowhere", f"{path}:2: `bound` is imported and not used", "tidy: 2 findings"]))

    def test_a_trait_is_used_by_its_methods(self):
        """What a trait of std brings are its methods; `self` in braces is the module itself."""
        path = "crates/low/src/lib.rt"
        lines = "use std::io::{self, Read, Write};\n\npub fn double(p: Pair"
        self.expect({path: ("pub fn double(p: Pair", lines)}, *[f"{path}:14: `{name}` is imported and not used" for name in ("Read", "Write", "self")])
        used = LOW_CODE.replace("pub fn double(p: Pair", lines).replace("half(p.a) +", "io::one(p.a.read_exact()) +")
        with tempfile.TemporaryDirectory() as root:
            plant(root, {**CLEAN, path: used.replace("half(x: u8)", "half(x: u8, io: u8)").replace("half(p.a)", "half(p.a, 0)")})
            self.assertEqual(run(root), (1, [f"{path}:14: `Write` is imported and not used", "tidy: 1 finding"]))

    def test_passed_on(self):
        laws, more = "crates/low/proofs/TwosLaws.antt", "crates/low/specs/More.antt"
        changes = {more: "pub use Rattle.low.specs.Twos.{twice, less}\n", laws: ("specs.Twos.{less}", "specs.More.{less}")}
        self.expect(changes, f"{more}:1: `twice` is passed on, and nothing takes it from here")

    def test_fix_imports(self):
        path = "crates/low/proofs/TwosLaws.antt"
        changed = LOW_LAWS.replace("{◌≡◌, refl}", "{◌∙◌, ◌≡◌, refl, sym as turn}\nuse mathlib.Core.List.{List}")
        with tempfile.TemporaryDirectory() as root:
            plant(root, {**CLEAN, path: changed})
            self.assertEqual(run(root, "--fix-imports", "low"), (0, [f"{path}: 3 unused imports removed"]))
            with open(os.path.join(root, path), encoding="utf-8") as file:
                self.assertEqual(file.read(), LOW_LAWS)

    def test_long_line(self):
        path = "crates/low/specs/Twos.antt"
        self.expect({path: "-- " + "≡" * 158 + "\n"}, f"{path}:10: 161 columns, above 160")
        self.assertEqual(self.report({path: "-- " + "≡" * 157 + "\n"})[0], 0)

    def test_code(self):
        path = "crates/low/src/lib.rt"
        self.expect(
            {path: ("const TWO: u8 = 2;", "pub const TWO: u8 = 2;\n\nfn idle() {\n}")},
            f"{path}:8: `TWO` (const) is pub, and no other crate uses it",
            f"{path}:10: `idle` (fn) is used nowhere",
        )

    def test_names(self):
        path = "crates/low/src/lib.rt"
        twice = {path: ("pub struct Pair {\n    pub a: u8,", "pub enum Order {\n    Less,\n}\n\npub struct Pair {\n    pub o: Order,\n    pub a: u8,")}
        self.expect(twice, "crates/low/specs/Twos.antt:8: `Order` is also defined in crates/low/src/lib.rt:4")
        self.assertEqual(self.report({**twice, "tools/names.txt": "Order -- the code's form\n"}), (0, ["tidy: ok"]))
        self.expect({"tools/names.txt": "Order -- the code's form\n"}, "tools/names.txt:1: `Order` is not defined twice")

    def test_a_crate_above_the_door_names_one_behind_it(self):
        """`top` stands above `store` once crates.txt says so, and then may not name `pool`."""
        listed = {"crates.txt": ("top staticlib: low\n", "store:\ntop staticlib: low store\n")}
        added = "\n// As pool::fill does.\nfn five() -> u8 {\n    5\n}\n\n#[unsafe(no_mangle)]\npub extern \"C\" fn six() -> u8 {\n    five() + 1\n}\n"
        self.assertEqual(self.report({"crates/top/src/lib.rt": added})[0], 0)
        self.expect({**listed, "crates/top/src/lib.rt": added}, "crates/top/src/lib.rt:8: `pool::` is named above `store`")

    def test_a_rule_that_is_cited_and_not_there(self):
        """Sections are cited in any text, also over a line's end; numbers are put together here so that this file cites none."""
        rules = "# Rules\n\n## 1. The state\n\n### 1.2 When it is sound\n\n## 12. Amendments\n"
        cited = f"Twice (RULES {1}, RULES {12}.\nSee RULES\n{1.2}.\n"
        self.assertEqual(self.report({"docs/RULES.md": rules, "docs/NOTES.md": cited}), (0, ["tidy: ok"]))
        path = "crates/low/specs/Twos.antt"
        self.expect(
            {"docs/RULES.md": rules, "docs/NOTES.md": f"See RULES {2},\nRULES {1.3} and RULES\n{11}.\n", path: f"-- as RULES\n-- {1.2}.1 says\n"},
            f"{path}:10: docs/RULES.md has no section 1.2.1",
            "docs/NOTES.md:1: docs/RULES.md has no section 2",
            "docs/NOTES.md:2: docs/RULES.md has no section 1.3",
            "docs/NOTES.md:2: docs/RULES.md has no section 11",
        )

    def test_rules_are_cited_and_there_are_none(self):
        self.expect({"mk/run.mk": f"# RULES {1}\n"}, "mk/run.mk:1: docs/RULES.md has no section 1")

    def test_the_paper_is_cited(self):
        end = "cites a paper that is not here; docs/RULES.md has the rules"
        path, paper = "crates/low/src/lib.rt", "01"
        self.expect(
            {path: f"// Doubling ({paper}, \"Twos\").\n", "Makefile": f"# as document {paper} says\n# in {paper}'s table\n# 4E 57 {paper} 00\n"},
            f"Makefile:1: `document {paper}` {end}",
            f"Makefile:2: `{paper}'s` {end}",
            f"{path}:19: `({paper},` {end}",
        )

    def test_what_is_no_text_is_not_read(self):
        with tempfile.TemporaryDirectory() as root:
            plant(root, CLEAN)
            for place in ("target", ".git", "crates/low/out", "docs/unfinished"):
                plant(root, {f"{place}/notes": f"RULES {1}\n"})
            with open(os.path.join(root, "data.bin"), "wb") as file:
                file.write(b"\xff\xfe RULES" + b" 1\n")
            self.assertEqual(run(root), (0, ["tidy: ok"]))


if __name__ == "__main__":
    unittest.main()
