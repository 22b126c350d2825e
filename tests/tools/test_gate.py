"""The gate (mk/gate.mk, tools/rt-ci) with an rt and with targets that only say that they ran: what runs in which order, that a
failure anywhere is the gate's, and that rt ci's tally is the last line exactly where everything passed."""

import os
import shutil
import subprocess
import tempfile
import unittest

TOP = os.path.join(os.path.dirname(os.path.abspath(__file__)), "../..")

# Each thing that runs says so in the file `ran`, and fails where FAIL is its name.
STEP = """#!/bin/sh
echo "{0}" >> "$RAN"
[ "$FAIL" != "{0}" ] || {{ echo "{0} fails" >&2; exit 7; }}
"""

RT = STEP.format("rt $1") + """
[ "$1" = ci ] || exit 0
[ $# = 1 ] || exit 8
[ -e target/host/said/earlier ] || exit 9
echo 'rt: some crate proved'
echo 'said on standard error' >&2
printf '%s' "$CI_OK"
echo "$CI_SAYS"
exit "$CI_ENDS"
"""

MAKEFILE = """NATIVE := {native}
MACHINE := some
HOST := target/host
SAID := target/host/said
include mk/gate.mk
tidy generated chains sentences gate-test rust-fmt library replay rust-clippy $(RUN_OUTSIDE):
	@echo $@ >> "$$RAN"; test "$$FAIL" != $@ || {{ echo "$@ fails" >&2; exit 7; }}
"""

FIGURES = """import os, subprocess, sys
assert os.path.exists("target/host/said/last-lines")
assert not os.path.exists("target/host/said/earlier")
sys.exit(subprocess.run(["sh", "figures.sh"]).returncode)
"""

FIRST = ["tidy", "generated", "chains", "sentences", "gate-test", "rust-fmt", "rt ci", "library", "replay"]
OUTSIDE = ["rust-clippy", "last-lines target/host/rt-ci", "machine", "host-test", "constants", "store-example", "replay-streams",
           "replay-cases", "fuzz-gate", "differential-gate"]
LAST = ["figures", "edits-judge target/host/rt-ci"]
TALLY = "3 passed, 0 failed"
OK = "rt: ok; handles allowed: none; must-fail edits: 2 refused; every proof and must-fail edit was done in this run\n"


class Gate(unittest.TestCase):
    def setUp(self):
        folder = tempfile.TemporaryDirectory()
        self.addCleanup(folder.cleanup)
        self.top = folder.name
        self.write("bin/rt", RT)
        self.write("tools/edits-judge", STEP.format("edits-judge $1"))
        self.write("tools/last-lines", STEP.format("last-lines $1"))
        self.write("tests/docs/figures.py", FIGURES)
        self.write("figures.sh", STEP.format("figures"))
        os.mkdir(os.path.join(self.top, "mk"))
        shutil.copy(os.path.join(TOP, "mk/gate.mk"), os.path.join(self.top, "mk"))
        shutil.copy(os.path.join(TOP, "tools/rt-ci"), os.path.join(self.top, "tools"))

    def write(self, path, text):
        path = os.path.join(self.top, path)
        os.makedirs(os.path.dirname(path), exist_ok=True)
        with open(path, "w", encoding="utf-8") as file:
            file.write(text)
        os.chmod(path, 0o755)

    def environment(self, fail, says, ends, ok=OK):
        known = {name: value for name, value in os.environ.items() if not name.startswith(("MAKE", "MFLAGS"))}
        return {**known, "PATH": os.path.join(self.top, "bin") + os.pathsep + os.environ["PATH"],
                "RAN": os.path.join(self.top, "ran"), "FAIL": fail, "CI_SAYS": says, "CI_ENDS": str(ends), "CI_OK": ok}

    def gate(self, *words, fail="", says=TALLY, ends=0, native="x86_64", ok=OK):
        """The status, the lines that were shown, and what ran. Nothing that an earlier run left is taken away before rt ci, and none of what
        it printed is there when the figures are compared."""
        self.write("Makefile", MAKEFILE.format(native=native))
        self.write("target/host/said/earlier", "")
        self.write("target/host/tally", "9 passed, 0 failed\n")
        self.write("target/host/rt-ci", "9 passed, 0 failed\n")
        self.write("ran", "")
        done = subprocess.run(["make", "test", *words], cwd=self.top, env=self.environment(fail, says, ends, ok), text=True,
                              stdout=subprocess.PIPE, stderr=subprocess.STDOUT, check=False)
        with open(os.path.join(self.top, "ran"), encoding="utf-8") as file:
            return done.returncode, done.stdout.splitlines(), file.read().splitlines()

    def test_all_is_good(self):
        for native in ["x86_64", ""]:
            status, shown, ran = self.gate(native=native)
            self.assertEqual(status, 0, shown)
            self.assertEqual(ran[:len(FIRST)], FIRST)
            self.assertEqual(sorted(ran[len(FIRST):-len(LAST)]), sorted(OUTSIDE))
            self.assertEqual(ran[-len(LAST):], LAST)
            self.assertIn("rt: some crate proved", shown)
            self.assertIn("said on standard error", shown)
            self.assertEqual((shown[-1], shown.count(TALLY)), (TALLY, 2))
            with open(os.path.join(self.top, "target/host/rt-ci"), encoding="utf-8") as file:
                self.assertEqual(file.read(), f"rt: some crate proved\nsaid on standard error\n{OK}{TALLY}\n")

    def test_what_fails_at_any_place_is_the_gates_failure(self):
        for step in FIRST + OUTSIDE + LAST:
            status, shown, ran = self.gate(fail=step)
            self.assertNotEqual(status, 0, step)
            self.assertNotEqual(shown[-1], TALLY, step)
            self.assertIn(f"{step} fails", shown)
            self.assertEqual("rt ci" in ran, step not in FIRST[:FIRST.index('rt ci')], step)
            self.assertEqual(shown.count(TALLY), int(step not in FIRST[:FIRST.index('rt ci') + 1]), step)

    def test_rt_ci_fails(self):
        for says, ends in [("2 passed, 1 failed", 1), (TALLY, 1), (TALLY, 2)]:
            status, shown, ran = self.gate(says=says, ends=ends)
            self.assertNotEqual(status, 0)
            self.assertNotEqual(shown[-1], TALLY)
            self.assertIn(says, shown)
            self.assertEqual(ran[-1], "rt ci")

    def test_rt_ci_does_not_end_with_a_tally(self):
        for says in ["", "rt: ok", "2 passed, 1 failed", "0 passed, 0 failed", " passed, 0 failed", "x passed, 0 failed", TALLY + "."]:
            status, shown, ran = self.gate(says=says)
            self.assertNotEqual(status, 0, says)
            self.assertTrue(any("rt-ci: the last line of rt ci is" in line for line in shown), says)
            self.assertEqual(ran[-1], "rt ci")

    def test_edits_that_are_bad_fail(self):
        """rt ci passes with them; the line that says all is well tells how many there are. Without that line nothing is known."""
        for ok in [OK.replace("2 refused", "2 refused, 1 bad"), OK.replace("2 refused", "2 refused, 1 of them only by a limit, 12 bad")]:
            status, shown, ran = self.gate(ok=ok)
            self.assertNotEqual(status, 0)
            self.assertTrue(any("rt-ci: there are bad must-fail edits" in line for line in shown), shown)
            self.assertEqual((ran[-1], shown.count(TALLY)), ("rt ci", 1))
        for ok in ["", OK + OK, "rt: note: ok\n"]:
            status, shown, ran = self.gate(ok=ok)
            self.assertNotEqual(status, 0)
            self.assertTrue(any("rt-ci: rt ci does not say 'rt: ok' once" in line for line in shown), shown)
            self.assertEqual(ran[-1], "rt ci")

    def test_without_hosts(self):
        status, shown, ran = self.gate("HOSTS=none", native="")
        self.assertEqual((status, shown[-1]), (0, TALLY))
        self.assertEqual(ran, FIRST + ["rust-clippy", LAST[-1]])
        self.assertTrue(any("HOSTS=none leaves out" in line for line in shown))
        status, shown, _ = self.gate("HOSTS=none")
        self.assertNotEqual(status, 0)
        self.assertIn("HOSTS=none is for machines that are not x86-64", shown)

    def test_rt_ci_is_shown_while_it_runs(self):
        self.write("bin/rt", "#!/bin/sh\necho began\nfor n in 1 2 3 4 5; do [ -e seen ] && break; sleep 1; done\n"
                             "[ -e seen ] && echo 'rt: ok' && echo '1 passed, 0 failed'\n")
        with subprocess.Popen(["tools/rt-ci", "target/tally", "target/said"], cwd=self.top, env=self.environment("", "", 0), text=True,
                              stdout=subprocess.PIPE) as running:
            self.assertEqual(running.stdout.readline(), "began\n")
            self.write("seen", "")  # rt waits for this a while, and fails where it does not come
            self.assertEqual(running.stdout.read(), "rt: ok\n1 passed, 0 failed\n")
        self.assertEqual(running.returncode, 0)
        with open(os.path.join(self.top, "target/tally"), encoding="utf-8") as file:
            self.assertEqual(file.read(), "1 passed, 0 failed\n")


if __name__ == "__main__":
    unittest.main()
