#!/usr/bin/env python3
"""The replay program on streams that behave badly: slow pipes, too much input, reads and writes that fail.

usage: REPLAY=program [STRICT=1] python3 test_streams.py   with STRICT=1 a missing /dev/full is a failure
"""
import os
import subprocess
import sys
import tempfile
import time
import unittest

sys.dont_write_bytecode = True  # the repository stays as it is
sys.path.insert(0, os.path.join(os.path.dirname(os.path.abspath(__file__)), "../../tools"))
from make_calls import CL, EV, IN, MOST_REQUEST_BYTES, OK, no, settings  # noqa: E402

REPLAY = os.environ["REPLAY"]

# trace A, and its answer as RULES 10 writes it out
TRACE = settings(1) + IN(7, 70) + IN(8, 80) + IN(7, 71)
ANSWER = bytes.fromhex(
    "4E57" + "00" * 8
    + "4553" + "07" + "00" * 7 + "46" + "00" * 7 + "4E57" + "01" + "00" * 7
    + "4553" + "08" + "00" * 7 + "50" + "00" * 7 + "4E57" + "01" + "00" * 7
)


def run(data):
    return subprocess.run([REPLAY], input=data, capture_output=True, timeout=60)


class Streams(unittest.TestCase):
    def test_in_one_piece(self):
        done = run(TRACE)
        self.assertEqual((done.returncode, done.stdout, done.stderr), (0, ANSWER, b""))

    def test_byte_by_byte(self):
        program = subprocess.Popen([REPLAY], stdin=subprocess.PIPE, stdout=subprocess.PIPE, stderr=subprocess.PIPE, bufsize=0)
        for i, byte in enumerate(TRACE):
            program.stdin.write(bytes([byte]))
            if i % 10 == 0:
                time.sleep(0.002)  # so that reads end between two bytes
        program.stdin.close()
        self.assertEqual((program.stdout.read(), program.stderr.read()), (ANSWER, b""))
        program.stdout.close()
        program.stderr.close()
        program.wait()

    def test_no_input(self):
        done = run(b"")
        self.assertEqual((done.returncode, done.stdout, done.stderr), (0, no(9), b""))

    def test_no_more_is_read_than_can_be_accepted(self):
        with tempfile.TemporaryFile() as file:
            file.write(settings(1) + EV * 100000)
            file.flush()
            file.seek(0)
            done = subprocess.run([REPLAY], stdin=file, capture_output=True, timeout=60)
            self.assertEqual(done.stdout, no(8))
            self.assertEqual(os.lseek(file.fileno(), 0, os.SEEK_CUR), len(settings(1)) + MOST_REQUEST_BYTES + 1)

    def test_the_most_that_is_accepted(self):
        done = run(settings(1) + CL * (MOST_REQUEST_BYTES // 2))
        self.assertEqual(done.stdout, OK * (MOST_REQUEST_BYTES // 2))

    def test_a_read_that_fails(self):
        folder = os.open(".", os.O_RDONLY)  # a folder opens, and its first read fails
        try:
            done = subprocess.run([REPLAY], stdin=folder, capture_output=True, timeout=60)
        finally:
            os.close(folder)
        self.assertEqual(done.stdout, b"")
        self.assertEqual(done.stderr.count(b"\n"), 1)

    def test_a_write_that_fails(self):
        if not os.path.exists("/dev/full"):
            missing = "there is no /dev/full, to which no write succeeds"
            if os.environ.get("STRICT") == "1":
                self.fail(missing)
            print(f"replay-streams: {missing}: a write that fails is left out")
            self.skipTest(missing)
        with open("/dev/full", "wb", buffering=0) as full:
            done = subprocess.run([REPLAY], input=TRACE, stdout=full, stderr=subprocess.PIPE, timeout=60)
        self.assertEqual(done.stderr.count(b"\n"), 1)


if __name__ == "__main__":
    unittest.main()
