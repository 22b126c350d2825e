"""tools/edits-judge on made-up lines of rt: a refusal counts where a fact fails, and nowhere else; and each edit has its line."""

import os
import subprocess
import sys
import tempfile
import unittest

HERE = os.path.dirname(os.path.abspath(__file__))
TOOL = os.path.join(HERE, "../../tools/edits-judge")

PLACE = "./proofs/half/Answers.antt:5:11: error: "
NOTE = "note: src/lib.rt:4:1: it is not proved that what the function ensures holds when it returns (`returns`); `search` gave up at one of its limits"

# What an error says, as far as rt shows it: its first line, cut off after 160 characters.
GOOD = {
    "ensures": "`returns`: `search`: no proof of `Rattle.low.proofs.half.Reads.Post (tt {0}) (Rattle.low.proofs.half.Lts.dens",
    "requires": "`twice-requires`: `search`: no proof of `Rattle.low.proofs.twice.Reads.Asked κs (borrow.Fn.Args.argsV κs)`",
    "a statement": "`returns`: `search`: no proof of `Rattle.low.specs.Twos.Even c.args.n`",
    "a law's statement": "`kept`: `search`: no proof of `Rattle.low.proofs.TwosLaws.Halving n 2`",
    "an invariant": "`loop-preserved`: `search`: no proof of `Rattle.low.proofs.half.Invariants.invariant-loop l`",
    "an invariant in a generic function": "`loop-i-preserved`: `search`: no proof of `goal.the-asks-loop-i-preserved g.row.W g.W.fits c` was found. Ev",
    "a bound": "`returns`: `search`: no proof of `Prim.Native.Nat.◌<◌ 7 (twice n)`",
    "an equation": "`returns`: `search`: no proof of `mathlib.Core.Path.◌≡◌ (twice n) 7`",
    "a sum": "`overflow`: `search`: no proof of `(borrow.Rule.Scalar.k-op2 Rattle.low.proofs.half.Lts.T10 mir.Syntax.add) .asks`",
    "omega": "`least`: `omega`: the goal does not follow from what it read. All of that holds, and the goal fails, at `n` = 0",
    "omega, of a part": "`least`: `omega`: the part `.0.1` of the goal does not follow from what it read. All of that holds, and the part f",
    "cc": "`fits`: `cc` met a bound of its own before the equations had joined `low.Even n` to `mathlib.Core.Bool.false`",
    "types": "`law`: expected type `Even (twice n)`, but this has type `Even n`",
    "a type cut off": "`law`: expected type `(left_by o s (shift_end d (cut_at i))).kept ≡ (left_by (o + d) x",
    "types cut off between": "`law`: expected type `Even (twice n)`, but this ",
    "two types": "`walks`: computed as far as they go, the two types differ only where one has `HI` (expected) and the other has `G",
    "two types as printed": "`rows`: as printed, the two types differ only where one has `mathlib.Core.List.◌∷◌ (Rattle.low.specs.Twos.twice",
    "a constructor": "`walks`: computed as far as they go, the two indices are `1` (the constructor's) and `2` (the expected type's)",
}

WORTHLESS = {
    "another goal": "`returns`: expected type `goal.returns-2`, but this has type `goal.returns`",
    "a goal for a fact": "`returns`: expected type `Even n`, but this has type `tie.Need-add-result`",
    "a binder too few": "`returns`: expected type `Rattle.low.proofs.half.Lts.Closed (Reads.Asked, Reads.Learnt) ?0`, but this has",
    "a binder too many": "`returns`: this λ has 2 binders, but its type has room for only 1: at `κs` the type is `Rattle.low.proofs.half.Reads.Post`",
    "a tuple": "`returns`: a tuple is checked against `Prim.Native.Nat.ℕ`, which is not a `×` type",
    "a value": "`returns`: `search`: no proof of `denote.Triple.Entry.Res Rattle.low.proofs.half.signature (Prim.tt {0})`",
    "two values": "`returns`: computed as far as they go, the two values are `c.before.args.s.name` (expected) and `κs` (found)",
    "two types of the walk": "`returns`: computed as far as they go, the two types differ only where one has `Rattle.low.proofs.half.Lts.T1` (expected)",
    "a field": "`returns`: the record has no field `before`",
    "a name": "`returns`: `twice-is` is not in scope; did you mean `twice`?",
    "a module": "`Rattle.low.specs.Ones` is no module that can be named from here",
    "a parenthesis": "the `(` at 9:29 is never closed (reached end of file)",
}

# What rt says in the place of a refusal that shows something.
NONE = {
    "a proof that names what is gone": "refused, as it must be (only because a proof file names what the edit took away, so this says little of the contract: "
                                       f"change a value and keep the names): {PLACE}`returns`: `search`: no proof of `Rattle.low.specs.Twos.Even n`",
    "a limit": "refused, as it must be (only by a limit of the prover, which gave no verdict, so this says less of the contract: choose a change that "
               f"it refuses sooner): {PLACE}`returns`: `omega`: the goal does not follow from what it read",
    "nothing": "refused, as it must be",
    "a bad edit": "BAD EDIT: an 'old:' text is in src/lib.rt 0 times, and not once",
    "an edit that is proved": "NOT REFUSED: the crate is still proved with this edit (one that means the same as before cannot be refused: remove it)",
    "an edit that was not tried": "NOT TRIED: its check was killed, most likely for memory, so nothing is known of it: run this again",
}


def refused(text):
    return "refused, as it must be: " + text


class EditsJudge(unittest.TestCase):
    def judge(self, said, edits=None):
        """What it says where rt has said this, as (one, what) pairs, and these edits are there, by default those."""
        with tempfile.TemporaryDirectory() as root:
            for one in (one for one, _ in said) if edits is None else edits:
                self.write(root, f"crates/{one.replace('/', '/must-fail/')}.edit", "file: src/lib.rt\nold: 1\nnew: 2\n")
            lines = [f"rt: must-fail {one.split('/')[0]}/{one.split('/')[1]}.edit: {what}" for one, what in said]
            self.write(root, "said", "\n".join(["== low", "fn low::half: proved", "rt: low proved", *lines, "1 passed, 0 failed", ""]))
            done = subprocess.run([sys.executable, TOOL, os.path.join(root, "said"), root], capture_output=True, check=False, text=True)
            return done.returncode, done.stdout.splitlines()

    @staticmethod
    def write(root, path, text):
        full = os.path.join(root, path)
        os.makedirs(os.path.dirname(full), exist_ok=True)
        with open(full, "w", encoding="utf-8") as file:
            file.write(text)

    def one(self, said):
        code, lines = self.judge([("low/one", said)])
        self.assertEqual(len(lines), 2)
        self.assertEqual(lines[1], f"1 edits, 1 tried, {code} worthless")
        return code, lines[0]

    def test_a_fact_fails(self):
        for name, text in GOOD.items():
            with self.subTest(name):
                self.assertEqual(self.one(refused(PLACE + text)), (0, f"good      low/one: {PLACE}{text}"))

    def test_no_fact(self):
        for name, text in WORTHLESS.items():
            with self.subTest(name):
                self.assertEqual(self.one(refused(PLACE + text)), (1, f"WORTHLESS low/one: {PLACE}{text}"))

    def test_what_rt_says_is_no_refusal_that_counts(self):
        for name, text in NONE.items():
            with self.subTest(name):
                self.assertEqual(self.one(text), (1, f"WORTHLESS low/one: {text}"[:260]))

    def test_a_function_with_no_proof_file(self):
        self.assertEqual(self.one(refused(NOTE)), (0, "good      low/one: " + NOTE))

    def test_all_good(self):
        said = refused(PLACE + GOOD["ensures"])
        code, lines = self.judge([("low/one", said), ("low/two", said), ("top/one", said)])
        self.assertEqual((code, len(lines), lines[3]), (0, 4, "3 edits, 3 tried, 0 worthless"))

    def test_a_line_is_missing(self):
        code, lines = self.judge([("low/one", refused(PLACE + GOOD["ensures"]))], ["low/one", "top/one"])
        self.assertEqual((code, lines[1:]), (1, ["NO LINE   top/one: it was not tried", "2 edits, 1 tried, 0 worthless"]))

    def test_a_line_too_many(self):
        said = refused(PLACE + GOOD["ensures"])
        code, lines = self.judge([("low/one", said), ("low/gone", said)], ["low/one"])
        self.assertEqual((code, lines[0]), (1, "NO EDIT   low/gone: the line of an edit that is not there"))
        self.assertEqual(lines[2], "1 edits, 2 tried, 0 worthless")
        code, lines = self.judge([("low/one", said), ("low/one", said)])
        self.assertEqual((code, lines), (1, ["WORTHLESS low/one: it has 2 lines", "1 edits, 1 tried, 1 worthless"]))

    def test_as_many_lines_of_other_edits(self):
        self.assertEqual(self.judge([("low/gone", refused(PLACE + GOOD["ensures"]))], ["low/one"])[0], 1)

    def test_no_lines(self):
        self.assertEqual(self.judge([], ["low/one"]), (1, ["NO LINE   low/one: it was not tried", "1 edits, 0 tried, 0 worthless"]))
        self.assertEqual(self.judge([], []), (1, ["0 edits, 0 tried, 0 worthless"]))


if __name__ == "__main__":
    unittest.main()
