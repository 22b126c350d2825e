#!/usr/bin/env python3
"""Header, wrapper and tools have the constants of the proved code, and name the same refusals.

The proved code's constants are what the program `constants` prints, crates/constants/stdout: `rt check` holds it to that
file. The version is what tools/version reads off the source, so that no file repeats it. HEADER names the header, WRAPPER is
the command that prints the wrapper's constants.

usage: HEADER=mapcache.h WRAPPER='cargo run ..' python3 test_constants.py
"""
import os
import re
import struct
import subprocess
import sys
import tempfile
import unittest

TOP = os.path.join(os.path.dirname(os.path.abspath(__file__)), "../..")
HEADER = os.environ["HEADER"]

# Which of the constants each place has. A place that stops having one, or comes to have another, belongs here.
IN_HEADER = {
    "version", "default_small_ratio", "default_ghost_ratio", "store_bytes", "most", "most_request_bytes", "carry_bytes",
}
# What the settings of capacity 100 come to, where a capacity alone stands for settings.
DEFAULTS = {"settings_capacity", "settings_small_ratio", "settings_ghost_ratio"}
IN_WRAPPER = IN_HEADER | {"max_freq"} | DEFAULTS
IN_TOOL = IN_HEADER | {"max_freq", "settings_bytes"}
IN_CALLS = {"store_bytes", "most_request_bytes"}
IN_SIZES = {"most"}

# The refusals that no recorded call comes to, since only a feed and a finish give them: host/c/feed.c has them.
OF_PIECES = {17}

C_PROGRAM = r"""
#include "mapcache.h"
#include <stdio.h>
#include <string.h>

static unsigned long long bits(double ratio)
{
    unsigned long long bits;
    memcpy(&bits, &ratio, sizeof bits);
    return bits;
}

int main(void)
{
    printf("version %s\n", MAPCACHE_VERSION);
    printf("default_small_ratio %llu\n", bits(MAPCACHE_SMALL_RATIO));
    printf("default_ghost_ratio %llu\n", bits(MAPCACHE_GHOST_RATIO));
    printf("store_bytes %d\n", MAPCACHE_STORE_BYTES);
    printf("most %d\n", MAPCACHE_MOST);
    printf("most_request_bytes %d\n", MAPCACHE_MOST_REQUEST_BYTES);
    printf("carry_bytes %d\n", MAPCACHE_CARRY_BYTES);
    printf("parts %d.%d\n", MAPCACHE_VERSION_MAJOR, MAPCACHE_VERSION_MINOR);
    return 0;
}
"""


def read(path):
    with open(os.path.join(TOP, path), encoding="utf-8") as file:
        return file.read()


def constants_of(text):
    """The constants of some lines `name value`; a name that stands twice is an error."""
    pairs = [line.split(" ", 1) for line in text.splitlines()]
    constants = dict(pairs)
    if len(constants) != len(pairs):
        raise ValueError(f"a name stands twice:\n{text}")
    return constants


def output_of(*command):
    return subprocess.run(command, stdout=subprocess.PIPE, text=True, check=True, cwd=TOP).stdout


def assigned_in(script, name):
    """The number that a script assigns to a name at its top level, once."""
    found = re.findall(rf"^{name} = (\d+)$", read(script), re.M)
    if len(found) != 1:
        raise ValueError(f"{script} assigns {name} {len(found)} times")
    return found[0]


def numbers_of_header():
    return [int(number) for number in re.findall(r"^    MAPCACHE_\w+ = (\d+)", read(HEADER), re.M)]


class Constants(unittest.TestCase):
    @classmethod
    def setUpClass(cls):
        cls.proved = constants_of(read("crates/constants/stdout"))
        cls.proved["version"] = output_of("tools/version").strip()

    def compare(self, place, constants, names):
        self.assertEqual(set(constants), names, f"the names in {place}")
        self.assertEqual(constants, {name: self.proved[name] for name in names}, f"the values in {place}")

    def test_each_is_known_to_some_place(self):
        self.assertEqual(set(self.proved), IN_HEADER | IN_WRAPPER | IN_TOOL | IN_CALLS | IN_SIZES)

    def test_header(self):
        with tempfile.TemporaryDirectory() as folder:
            source, program = os.path.join(folder, "constants.c"), os.path.join(folder, "constants")
            with open(source, "w", encoding="utf-8") as file:
                file.write(C_PROGRAM)
            flags = ["-std=c11", "-Wall", "-Wextra", "-Werror", "-I", os.path.dirname(HEADER)]
            output_of(os.environ.get("CC", "gcc"), *flags, source, "-o", program)
            constants = constants_of(output_of(program))
        parts = constants.pop("parts")
        self.assertEqual(parts, self.proved["version"].rsplit(".", 1)[0], "the version's first two numbers")
        self.compare("the header", constants, IN_HEADER)

    def test_each_number_of_the_header_is_compared(self):
        defined = set(re.findall(r"^#define MAPCACHE_(\w+) ", read(HEADER), re.M))
        printed = set(re.findall(r"MAPCACHE_(\w+)", C_PROGRAM))
        self.assertEqual(defined, printed)

    def test_wrapper(self):
        self.compare("the wrapper", constants_of(output_of("sh", "-c", os.environ["WRAPPER"])), IN_WRAPPER)

    def test_tool(self):
        self.compare("tools/mapcache", constants_of(output_of(sys.executable, "tools/mapcache", "constants")), IN_TOOL)

    def test_what_writes_recorded_calls_and_sizes(self):
        for script, names in [("tools/make_calls.py", IN_CALLS), ("tools/make_sizes.py", IN_SIZES)]:
            self.compare(script, {name: assigned_in(script, name.upper()) for name in names}, names)


class Refusals(unittest.TestCase):
    """A number that is new stands in the proved code, in the header's table and enumeration, in the order of some call there, in
    the tool, and in the table of recorded calls or in the test of pieces."""

    def test_header_has_those_of_the_proved_code(self):
        code = read("crates/rules/src/lib.rt")
        function = code[code.index("fn number("):code.index("fn detail(")]
        proved = [int(number) for number in re.findall(r"^ +Turned::\w+(?:\(_\))? => (\d+),$", function, re.M)]
        self.assertEqual(numbers_of_header(), proved)
        self.assertEqual(proved, sorted(set(proved)))

    def test_header_lists_what_it_numbers(self):
        listed = [int(number) for number in re.findall(r"^ \* {3,4}(\d+)  ", read(HEADER), re.M)]
        self.assertEqual(listed, numbers_of_header())

    def test_header_has_each_in_the_order_of_some_call(self):
        orders = re.findall(r"^ \*   (mapcache_\w+) +(\d.*)$", read(HEADER), re.M)
        self.assertEqual([call for call, _ in orders], re.findall(r"^int64_t (mapcache_\w+)\(", read(HEADER), re.M))
        judged = {int(number) for _, order in orders for number in re.findall(r"\d+", order)}
        self.assertEqual(judged, set(numbers_of_header()))

    def test_tool_explains_each_and_no_other(self):
        tool = read("tools/mapcache")
        table = tool[tool.index("REFUSALS = {"):tool.index("\n}\n", tool.index("REFUSALS = {"))]
        explained = [int(number) for number in re.findall(r"^    (\d+): \(", table, re.M)]
        self.assertEqual(explained, numbers_of_header())

    def test_each_comes_up_in_the_recorded_calls(self):
        with open(os.path.join(TOP, "crates/recorded/data/calls.bin"), "rb") as file:
            data = file.read()
        at, met = 0, set()
        while at < len(data):
            kind, _, _, number, given, wanted, _ = struct.unpack_from("<IIIIIIQ", data, at)
            at += 32 + given + wanted
            if kind >= 2:
                met.add(number)
        self.assertEqual(met, {0, *numbers_of_header()} - OF_PIECES)
        for number in OF_PIECES:
            self.assertRegex(read("host/c/feed.c"), rf"REFUSES\(.*, {number}, 0\);")


if __name__ == "__main__":
    unittest.main()
