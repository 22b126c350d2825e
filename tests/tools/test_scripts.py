"""tools/version, tools/progress and tools/last-lines: what they print, what they refuse, and that the status of what they run is kept."""

import os
import shutil
import subprocess
import tempfile
import unittest

TOOLS = os.path.join(os.path.dirname(os.path.abspath(__file__)), "../../tools")
LINE = '    pub const VERSION: [u8; 5] = *b"1.22.3";\n'


class Tree(unittest.TestCase):
    """A copy of one tool in a tree of its own."""

    def setUp(self):
        self.folder = tempfile.TemporaryDirectory()
        self.addCleanup(self.folder.cleanup)

    def write(self, path, text):
        path = os.path.join(self.folder.name, path)
        os.makedirs(os.path.dirname(path), exist_ok=True)
        with open(path, "w", encoding="utf-8") as file:
            file.write(text)
        return path

    def run_tool(self, name, *words):
        os.makedirs(os.path.join(self.folder.name, "tools"), exist_ok=True)
        tool = shutil.copy(os.path.join(TOOLS, name), os.path.join(self.folder.name, "tools"))
        done = subprocess.run([tool, *words], capture_output=True, text=True, check=False)
        return done.returncode, done.stdout, done.stderr


class Version(Tree):
    def version_of(self, source):
        self.write("crates/s3_fifo/src/lib.rt", source)
        return self.run_tool("version")

    def test_it_stands_once(self):
        self.assertEqual(self.version_of(f"impl S3FifoCache {{\n{LINE}}}\n"), (0, "1.22.3\n", ""))

    def test_it_is_not_there(self):
        for source in ["", LINE.replace("VERSION", "VERSIONS"), "//" + LINE, LINE.replace("1.22.3", "1.22")]:
            status, version, said = self.version_of(source)
            self.assertEqual((status, version), (1, ""), source)
            self.assertIn("has no line", said)

    def test_it_stands_twice(self):
        status, version, said = self.version_of(LINE + LINE)
        self.assertEqual((status, version), (1, ""))
        self.assertIn("more than one line", said)


class Progress(Tree):
    CRATES = "# the crates\nlow:\nother:\nmiddle: low kit # and more\ntop staticlib: middle io\n"

    def progress(self, script):
        self.write("crates.txt", self.CRATES)
        self.write("crates/top/here", "in the crate's folder\n")
        command = self.write("command", "cat here\n" + script)
        status, shown, said = self.run_tool("progress", "top", "sh", command)
        first, here, *rest = shown.splitlines()
        self.assertIn("3 crates are proved first", first)
        self.assertEqual(here, "in the crate's folder")
        return status, rest, said

    def test_each_crate_is_counted_as_it_is_proved(self):
        status, shown, said = self.progress(
            "echo 'rt: chose --jobs 2 for low'; echo 'fn low::f: proved'; echo 'struct low::S: proved'\n"
            "echo 'logic /kit/antt-project.json: libraries=16 files=2 sum=1'; echo 'statements core: modules loaded=1 checked=0'\n"
            "echo 'crate low: modules loaded=0 checked=40'; echo 'logic=proved functions=1 sum=1'\n"
            "echo 'rt: top: begins with what a check kept in /other/crates/top' >&2; echo 'rt: chose --jobs 2 for top'\n"
            "echo 'library low: modules loaded=1 checked=0'; echo 'axioms os: none reached of the 22 declared'; echo 'logic=proved functions=1 axioms=2'\n"
            "echo 'linked target=x86_64 files=out/top.o'; echo 'rt: running out/top; to give it other input, run that file yourself'; echo 'top 0.1.0'\n")
        self.assertEqual((status, said), (0, ""))
        self.assertRegex(shown[0], r"^\[1/3\] low \(\d s\)$")
        self.assertRegex(shown[1], r"^\[2/3\] top \(\d s\)$")
        self.assertEqual(shown[2:], ["top 0.1.0"])

    def test_what_is_wrong_is_shown_and_the_status_kept(self):
        wrong = ["error: this does not hold", "logic=not-proved functions=1", "fn low::f: not proved",
                 "rt: the library low did not build, so nothing above it was checked"]
        script = "".join(f"echo '{line}' >&2\n" for line in wrong)
        for status in [1, 2, 3]:
            ended, shown, _ = self.progress(f"{script}exit {status}\n")
            self.assertEqual((ended, shown), (status, wrong))


class LastLines(Tree):
    """tools/last-lines with an rt whose check says of each crate that it counts as many as its name has letters."""

    CRATES = "low:\nkept:\nlib staticlib: low # the archive\napp: kept\nother: low\n"
    RT = "#!/bin/sh\n[ \"$1\" = check ] || exit 9\nname=$(basename \"$PWD\")\necho 'fn f: proved'\necho \"logic=proved axioms=${#name} x\"\n"
    SAID = ("rt: kept is kept: an earlier run on this machine proved the same files\n"
            "== low\nfn low::f: proved\nlogic=proved functions=1 a\nrt: low proved\n== low: its tests\nlogic=proved functions=2 b\nrt: low: its tests are proved\n"
            "rt: lib is kept: an earlier run\n== app\nlogic=proved functions=1 axioms=8 c\nrt: app proved\nrt: other is kept: an earlier run\n1 passed, 0 failed\n")

    def lines(self, said=SAID, rt=RT):
        self.write("crates.txt", self.CRATES)
        for program in ("app", "other"):
            self.write(f"crates/{program}/src/main.rt", "")
        os.makedirs(os.path.join(self.folder.name, "crates/lib"), exist_ok=True)
        os.chmod(self.write("bin/rt", rt), 0o755)
        path, os.environ["PATH"] = os.environ["PATH"], os.path.join(self.folder.name, "bin") + os.pathsep + os.environ["PATH"]
        self.addCleanup(os.environ.update, PATH=path)
        return self.run_tool("last-lines", self.write("said", said))

    def test_what_was_proved_and_what_was_kept(self):
        wanted = "low: logic=proved functions=1 a\nlib: logic=proved axioms=3 x\napp: logic=proved functions=1 axioms=8 c\nother: logic=proved axioms=5 x\n"
        self.assertEqual(self.lines(), (0, wanted, ""))

    def test_a_check_that_fails(self):
        status, _, said = self.lines(rt=self.RT + "exit 1\n")
        self.assertEqual(status, 1)
        self.assertIn("last-lines: rt check does not say that lib is proved", said)

    def test_a_crate_of_which_nothing_is_said(self):
        status, _, said = self.lines(said=self.SAID.replace("rt: kept is kept", "rt: kept was kept"))
        self.assertEqual(status, 1)
        self.assertIn("says neither that kept is proved nor that it is kept", said)


if __name__ == "__main__":
    unittest.main()
