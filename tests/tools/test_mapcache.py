"""tools/mapcache as people use it: run in a shell's place, with files and pipes.

The store of trace D that `show` is tried on is named by the environment variable STORE (host/c/test.c writes it), the header
by HEADER."""

import os
import random
import re
import struct
import subprocess
import sys
import unittest

HERE = os.path.dirname(os.path.abspath(__file__))
TOOL = os.path.join(HERE, "../../tools/mapcache")
EXAMPLE = os.path.join(HERE, "../../examples/first.trace")


def mapcache(*words, given=b""):
    """The status, what was written, and what was said on standard error."""
    if isinstance(given, str):
        given = given.encode()
    done = subprocess.run([sys.executable, TOOL, *words], input=given, capture_output=True, check=False)
    return done.returncode, done.stdout, done.stderr.decode()


def number(value):
    return struct.pack("<Q", value)


class Encode(unittest.TestCase):
    def test_every_request(self):
        trace = "capacity 3 small 0.5 ghost 1\ninsert 1 0x10\nget 2\npeek 3\nremove 4\nevict\nclear\n"
        status, data, said = mapcache("encode", given=trace)
        self.assertEqual((status, said), (0, ""))
        settings = b"CF" + number(3) + struct.pack("<dd", 0.5, 1)
        requests = b"IN" + number(1) + number(16) + b"GT" + number(2) + b"PK" + number(3) + b"RM" + number(4) + b"EVCL"
        self.assertEqual(data, settings + requests)

    def test_default_ratios_comments_and_blank_lines(self):
        short = mapcache("encode", given="# a comment\n\ncapacity 7 # small 1\n  get 18446744073709551615\n")
        long = mapcache("encode", given="capacity 7 small 0.1 ghost 0.9\nget 0xffffffffffffffff")
        self.assertEqual(short, long)
        self.assertEqual(short[0], 0)

    def test_requests_alone(self):
        self.assertEqual(mapcache("encode", "--requests", given="evict")[1], b"EV")
        self.assertEqual(mapcache("encode", "--requests", given="capacity 1\nevict")[1], b"EV")

    def test_bad_lines_are_named(self):
        for trace, told in [
            ("capacity 1\nget", "standard input:2: 'get' takes a key"),
            ("capacity 1\ninsert 1", "standard input:2: 'insert' takes a key and a value"),
            ("capacity 1\nevict 3", "standard input:2: 'evict' takes no number"),
            ("capacity 1\n\nput 1 2", "standard input:3: 'put' is none of"),
            ("capacity 1\nget x", "the key 'x' is no whole number"),
            ("capacity 1\nget -1", "the key -1 is not from 0"),
            ("capacity 1\nget 18446744073709551616", "is not from 0"),
            ("capacity 1\ncapacity 1", "stand once"),
            ("capacity 1 small", "settings are"),
            ("capacity 1 large 2", "settings are"),
            ("capacity 1 small half", "the small ratio 'half' is no number"),
            ("get 1", "there is no line 'capacity N ..'"),
            (b"capacity 1\n\xff", "is no text"),
        ]:
            status, data, said = mapcache("encode", given=trace)
            self.assertEqual((status, data), (1, b""), trace)
            self.assertIn(told, said, trace)

    def test_a_file_that_is_not_there(self):
        status, _, said = mapcache("encode", "no such file")
        self.assertEqual(status, 1)
        self.assertIn("no such file: No such file or directory", said)

    def test_notes_on_what_will_be_refused(self):
        self.assertIn("refusal 8", mapcache("encode", given="capacity 1\n" + "get 1\n" * 3277)[2])
        self.assertIn("refusal 10", mapcache("encode", given="capacity 1\n" + "evict\n" * 1821)[2])
        self.assertEqual(mapcache("encode", given="capacity 1\n" + "evict\n" * 1820)[2], "")


class Decode(unittest.TestCase):
    def test_back_and_forth(self):
        draw = random.Random(6)
        lines = ["capacity 9 small 0.25 ghost 1e-300"]
        for _ in range(500):
            word = draw.choice(["get", "peek", "remove", "insert", "evict", "clear"])
            count = {"insert": 2, "evict": 0, "clear": 0}.get(word, 1)
            numbers = [draw.choice([0, 1, 2**64 - 1, draw.getrandbits(64)]) for _ in range(count)]
            lines.append(" ".join([word, *map(str, numbers)]))
        trace = "\n".join(lines) + "\n"
        status, text, said = mapcache("decode", given=mapcache("encode", given=trace)[1])
        self.assertEqual((status, said), (0, ""))
        self.assertEqual(text.decode(), trace)

    def test_ratios_keep_their_bits(self):
        for bits in [0, 1 << 63, 0x7FF0000000000001, 0x7FF8000000000000, 0x7FF0000000000000, 0xFFF0000000000000, 1]:
            data = b"CF" + number(1) + number(bits) + number(bits)
            self.assertEqual(mapcache("encode", given=mapcache("decode", given=data)[1])[1], data, hex(bits))

    def test_bad_bytes_are_named(self):
        for data, told in [
            (b"EVXX", "offset 2: 'XX' is no mark of a request"),
            (b"EVE", "offset 2: the request 'E' is cut short"),
            (b"IN" + number(1), "offset 0: the request 'IN' is cut short"),
            (b"CF" + number(1), "the settings' record is cut short: it has 10 bytes of 26"),
        ]:
            status, _, said = mapcache("decode", given=data)
            self.assertEqual(status, 1)
            self.assertIn(told, said)


class Replies(unittest.TestCase):
    ALL = (b"MI" + b"HI" + number(5) + b"RE" + number(6) + b"NW" + number(0)
           + b"ES" + number(1) + number(2) + b"NW" + number(1) + b"EM" + number(3) + number(4) + b"NW" + number(7)
           + b"GO" + number(8) + b"EX" + number(9) + number(10) + b"OK")

    def test_every_reply(self):
        status, text, _ = mapcache("replies", given=self.ALL)
        self.assertEqual(status, 0)
        self.assertEqual(text.decode().splitlines(), [
            "nothing", "found 5", "replaced 6", "new",
            "1 -> 2 left Small; new, after 1 pop", "3 -> 4 left Main; new, after 7 pops",
            "took out 8", "handed back 9 -> 10", "cleared"])

    def test_beside_the_trace(self):
        replies = b"NW" + number(0) + b"ES" + number(7) + number(70) + b"MI"
        trace = os.path.join(HERE, "evict.trace")
        status, text, _ = mapcache("replies", "--trace", trace, given=replies)
        self.assertEqual((status, text.decode()), (0, "insert 7 70  new\nevict        7 -> 70 left Small; nothing\n"))
        status, _, said = mapcache("replies", "--trace", trace, given=b"OK")
        self.assertEqual(status, 1)
        self.assertIn("1 answers to the 2 requests", said)

    def test_a_refusal_is_explained(self):
        status, text, _ = mapcache("replies", "--trace", EXAMPLE, given=b"NO\x09" + number(18))
        self.assertEqual(status, 3)
        self.assertIn("refusal 9", text.decode())
        self.assertIn("line 6 of the trace: get 1", text.decode())

    def test_bad_replies_are_named(self):
        for data, told in [
            (b"GT", "offset 0: 'GT' is no mark of a reply"),
            (b"MIHI", "offset 2: the reply 'HI' is cut short"),
            (b"ES" + number(1) + number(2), "end within an answer"),
        ]:
            status, _, said = mapcache("replies", given=data)
            self.assertEqual(status, 1)
            self.assertIn(told, said)

    def test_nothing(self):
        self.assertEqual(mapcache("replies"), (0, b"", ""))


class Explain(unittest.TestCase):
    @classmethod
    def setUpClass(cls):
        with open(os.environ["HEADER"], encoding="utf-8") as file:
            cls.numbers = [int(number) for number in re.findall(r"^    MAPCACHE_\w+ = (\d+)", file.read(), re.M)]

    def test_every_refusal_of_the_header(self):
        self.assertEqual(self.numbers, sorted(set(self.numbers)))
        texts = set()
        for refusal in self.numbers:
            status, text, _ = mapcache("explain", str(refusal))
            self.assertEqual(status, 0)
            self.assertTrue(text.startswith(f"refusal {refusal}: ".encode()))
            texts.add(text.split(b":", 1)[1])
        self.assertEqual(len(texts), len(self.numbers))

    def test_details(self):
        self.assertIn(b"detail 28: the reply bytes", mapcache("explain", "10", "28")[1])
        self.assertIn(b"line 6 of the trace: get 1", mapcache("explain", "9", "18", "--trace", EXAMPLE)[1])

    def test_what_concerns_streams(self):
        self.assertIn(b"or in the whole stream", mapcache("explain", "9")[1].replace(b"\n", b" "))
        self.assertIn(b"Lend 32 bytes, zero where a stream starts", mapcache("explain", "17")[1].replace(b"\n", b" "))
        self.assertNotIn(b"detail 5", mapcache("explain", "17", "5")[1])

    def test_the_manual_page_has_the_orders_of_the_header(self):
        with open(os.environ["HEADER"], encoding="utf-8") as file:
            of_header = dict(re.findall(r"^ \*   (mapcache_\w+) +(\d.*)$", file.read(), re.M))
        with open(os.path.join(HERE, "../../man/mapcache.1.in"), encoding="utf-8") as file:
            of_page = dict(re.findall(r'^\.BR (mapcache_\w+) " +(\d.*)"$', file.read(), re.M))
        self.assertEqual(set(of_page), set(of_header))
        for call, order in of_header.items():
            # a new 9 comes after them all, and the page says so in words
            self.assertEqual(re.findall(r"\d+", of_page[call]), re.findall(r"\d+", order.split(";")[0]), call)

    def test_no_such_refusal(self):
        others = set(range(self.numbers[-1] + 2)) - set(self.numbers)
        self.assertTrue({0, self.numbers[-1] + 1} <= others)
        for refusal in sorted(others):
            status, _, said = mapcache("explain", str(refusal))
            self.assertEqual(status, 1)
            self.assertIn(f"there is no refusal {refusal}: they are numbered {self.said_in_words()}", said)

    def said_in_words(self):
        """The numbers, those in a row by the first and the last of them."""
        rows = []
        for number in self.numbers:
            if rows and rows[-1][-1] == number - 1:
                rows[-1].append(number)
            else:
                rows.append([number])
        return ", ".join(f"{row[0]} to {row[-1]}" if len(row) > 1 else str(row[0]) for row in rows)


class Show(unittest.TestCase):
    PICTURE = """resident: 2 of 2; ghosts: 1 of 2; free nodes: 1

Small  limit 0    head > [4=40] > tail
Main              head > [1=10 *] > tail
Ghosts limit 2    newest > (3) > oldest

[key=value] with a star for each step of its frequency; (key) of a ghost. Eviction pops at the tail.
"""

    @classmethod
    def setUpClass(cls):
        with open(os.environ["STORE"], "rb") as file:
            cls.store = file.read()

    def test_picture(self):
        self.assertEqual(mapcache("show", os.environ["STORE"]), (0, self.PICTURE.encode(), ""))
        self.assertEqual(mapcache("show", given=self.store)[1], self.PICTURE.encode())

    def test_the_manual_page_has_that_picture(self):
        with open(os.path.join(HERE, "../../man/mapcache.1.in"), encoding="utf-8") as file:
            self.assertIn("$ mapcache show cache.store\n" + self.PICTURE.rsplit("\n\n", 1)[0] + "\n", file.read())

    def damaged(self, change):
        store = bytearray(self.store)
        change(store)
        status, text, said = mapcache("show", given=bytes(store))
        self.assertEqual((status, text), (1, b""))
        return said

    # A store of four nodes: the columns' first bytes (docs/STORE.md).
    KEY, NEXT, CHAIN, QUEUE, FREQ = 128, 256, 288, 304, 312
    FREES_SENTINEL = 4

    def is_key_in_main(self, key, node):
        at = self.KEY + 8 * node
        return self.store[at:at + 8] == number(key) and self.store[self.QUEUE + node] == 2

    def test_what_is_damaged_is_said(self):
        node = next(n for n in range(4) if self.is_key_in_main(1, n))

        def put(place, value):
            return lambda store: store.__setitem__(place, value)

        self.assertIn("the capacity is 0", self.damaged(put(0, 0)))
        self.assertIn("Small has 1 nodes, and the header says 2", self.damaged(put(8 * 5, 2)))
        self.assertIn("frequency 4, above 3", self.damaged(put(self.FREQ + node, 4)))
        self.assertIn("is tagged with list 1", self.damaged(put(self.QUEUE + node, 1)))
        self.assertIn("which is no node", self.damaged(put(self.NEXT + 2 * node + 1, 255)))
        self.assertIn("where it does not belong", self.damaged(put(self.KEY + 8 * node, 99)))
        self.assertIn("ends with 5, not with 4", self.damaged(put(self.CHAIN + 2 * node, 5)))
        self.assertIn("Free's sentinel has the chain 0", self.damaged(put(self.CHAIN + 2 * self.FREES_SENTINEL, 0)))
        self.assertIn("and the list 1", self.damaged(put(self.QUEUE + self.FREES_SENTINEL, 1)))

    def test_what_is_no_store(self):
        self.assertIn("this is no store: it has 3 bytes", mapcache("show", given=b"abc")[2])
        self.assertIn("the store is cut", mapcache("show", given=self.store[:200])[2])


class Usage(unittest.TestCase):
    def test_help(self):
        for words in [["--help"], *([command, "--help"] for command in ["encode", "decode", "replies", "explain", "show", "constants"])]:
            status, text, said = mapcache(*words)
            self.assertEqual((status, said), (0, ""))
            self.assertIn(b"usage: mapcache", text)

    def test_version(self):
        script = os.path.join(os.path.dirname(TOOL), "version")
        version = subprocess.run([script], capture_output=True, check=True).stdout
        self.assertEqual(mapcache("--version"), (0, b"mapcache " + version, ""))

    def test_bad_usage(self):
        for words in [[], ["paint"], ["explain"]]:
            self.assertEqual(mapcache(*words)[0], 2)

    def test_a_reader_that_stops_early(self):
        trace = "capacity 1\n" + "evict\n" * 100000
        line = f"'{TOOL}' encode --requests | '{TOOL}' decode | head -n 1"
        pipe = subprocess.run(line, shell=True, input=trace.encode(), capture_output=True, check=True)
        self.assertEqual(pipe.stdout, b"evict\n")
        self.assertNotIn(b"Traceback", pipe.stderr)


if __name__ == "__main__":
    unittest.main()
