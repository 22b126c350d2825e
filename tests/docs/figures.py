#!/usr/bin/env python3
"""The figures of the documents are those that the gate's runs have just printed.

usage: figures.py                                    those that follow from files alone
       figures.py SAID MACHINE [without-original]    all

SAID is the folder where the runs left what they printed (Makefile, `said`), MACHINE is x86-64 or other: under an emulator the
gate runs less, and the table of docs/RELIABILITY.md has a column for each. What is compared:

 - each row of that table with its column for this machine; a row that nothing here knows, and a figure without a row, fail;
 - sentences with figures, in several documents. Each must stand there with the figures that were printed, however its lines
   are broken;
 - the assumptions that the check of each program and of each library counts (tools/last-lines).
"""
import os
import re
import struct
import sys

TOP = os.path.join(os.path.dirname(os.path.abspath(__file__)), "../..")
TABLE = "docs/RELIABILITY.md"
COLUMNS = ["x86-64", "other"]
HEADING = "| figure | on x86-64 | elsewhere, under an emulator |"


def read(path):
    with open(os.path.join(TOP, path), encoding="utf-8") as file:
        return file.read()


def grouped(text):
    """The text with its numbers grouped by thousands, as the documents write them."""
    return re.sub(r"\d{4,}", lambda number: f"{int(number[0]):,}", text)


class Printed:
    """What one run printed."""

    def __init__(self, folder, name):
        self.path = os.path.join(folder, name)
        with open(self.path, encoding="utf-8") as file:
            self.text = file.read()

    def __call__(self, pattern):
        """The one place that fits the pattern: its groups, numbers grouped."""
        found = re.findall(pattern, self.text, re.M)
        if len(found) != 1:
            sys.exit(f"figures: {self.path} fits '{pattern}' {len(found)} times")
        return grouped(found[0]) if isinstance(found[0], str) else tuple(map(grouped, found[0]))


def rows_of_fuzz(said):
    fuzz = Printed(said, "fuzz")
    yield "fuzz: calls", fuzz(r"^fuzz: seed 1, (\d+) calls, each as it must be$")
    yield "fuzz: kinds of damage", str(len(re.findall(r"^    \w+ +\d+ +\d+$", fuzz.text, re.M)))
    yield "fuzz: creations accepted", fuzz(r"^  create: accepted (\d+);")
    yield "fuzz: creations refused, by number", fuzz(r"^  create: .*; refused (.*)$")
    yield "fuzz: runs accepted", fuzz(r"^  run: accepted (\d+);")
    yield "fuzz: runs refused, by number", fuzz(r"^  run: .*; refused (.*)$")
    yield "fuzz: feeds accepted, those that stop their stream among them", fuzz(r"^  feed: accepted (\d+);")
    yield "fuzz: feeds refused, by number", fuzz(r"^  feed: .*; refused (.*)$")
    stopped = (fuzz(rf"^    streams stopped by a feed {how} replies +(\d+)$") for how in ("with", "without"))
    yield "fuzz: streams stopped by a feed, with replies and without", ", ".join(stopped)
    yield "fuzz: finishes of a complete stream", fuzz(r"^  finish: accepted (\d+);")
    yield "fuzz: finishes refused, by number", fuzz(r"^  finish: .*; refused (.*)$")
    yield "fuzz: things wrong with a carry, each by itself", str(things_wrong_with_a_carry(fuzz))
    yield "fuzz: stores that an accepted call left, lent again and accepted", fuzz(r"each accepted again: (\d+)$")


def things_wrong_with_a_carry(fuzz):
    """The lines of their table, which have words and two numbers."""
    return len(re.findall(r"^    [a-z]+,? [a-z].* +\d+ +\d+$", fuzz.text, re.M))


def rows_of_hosts(said, original):
    host = Printed(said, "c-host")
    yield "host in C: recorded steps", host(r"^c host: (\d+) recorded steps")
    yield "host in C: random calls", host(r"^c host: (\d+) random calls")
    yield "host in C: pairs that leave, each named", host(r" random calls, (\d+) pairs")
    yield "host in C: checks", host(r"^c host: (\d+) checks, 0 failed$")
    feed = Printed(said, "c-host-feed")
    yield "host in C, pieces: random streams", feed(r"^c host, pieces: (\d+) random streams")
    yield "host in C, pieces: checks", feed(r"^c host, pieces: (\d+) checks, 0 failed$")
    runs = Printed(said, "thin-runs")
    yield "example host: random runs of 300 events", runs(r"^Over the mapping cache, (\d+) random runs of 300 events:$")
    yield "example host: blocks given out", runs(r"^  (\d+) blocks given out,")
    yield "example host: pairs written as they leave", runs(r" (\d+) pairs written as they left,$")
    if original:
        yield "example host, over the original: runs in which a block comes to belong to two", runs(r"^  in (\d+) of \d+ a block came to belong")
    passed = re.findall(r"^test result: ok\. (\d+) passed; 0 failed;", Printed(said, "host-rust").text, re.M)
    yield "tests of the wrapper in Rust", str(sum(map(int, passed)))
    yield "tests of the tools", str(tests_in(said, "tools-mapcache") + tests_in(said, "tools-scripts"))
    yield "tests of the constants", str(tests_in(said, "constants"))


def tests_in(said, name):
    return int(Printed(said, name)(r"^Ran (\d+) tests in "))


def rows_of_programs(said):
    cases = Printed(said, "replay-cases")
    recorded = [cases(rf"^crates/recorded/data/{name}.bin: .*, (\d+) cases$") for name in ("few", "many", "most")]
    yield "replay program: cases of the original's answers", f"{sum(int(number.replace(',', '')) for number in recorded):,}"
    yield "replay program: cases written out by hand", cases(r"calls.cases: .*, (\d+) cases$")
    yield "replay program: tests on streams", str(tests_in(said, "replay-streams"))


def rows(said, machine, original):
    """The figures of the table, by name. The valgrind run of the host in C is left out where there is none."""
    yield from rows_of_fuzz(said)
    yield from rows_of_hosts(said, original)
    yield from rows_of_programs(said)
    if os.path.exists(os.path.join(said, "c-host-valgrind")):
        yield "host in C under valgrind, 300 random calls: checks", Printed(said, "c-host-valgrind")(r"^c host: (\d+) checks, 0 failed$")
        pieces = Printed(said, "c-host-feed-valgrind")
        yield "host in C under valgrind, 50 random streams: checks", pieces(r"^c host, pieces: (\d+) checks, 0 failed$")
    if original:
        run = Printed(said, "differential")
        yield "differential run: requests", run(r"^ +(\d+)  requests$")
        yield "differential run: calls", run(r"^ +(\d+)  calls$")
        yield "differential run: requests fed", run(r"^ +(\d+)  requests fed$")
        yield "differential run: pieces", run(r"^ +(\d+)  pieces fed$")
        yield "differential run: kinds of event", str(kinds_of_event(said))


MAY_BE_MISSING = {
    "host in C under valgrind, 300 random calls: checks",
    "host in C under valgrind, 50 random streams: checks",
    "example host, over the original: runs in which a block comes to belong to two",
    "differential run: requests", "differential run: calls", "differential run: requests fed", "differential run: pieces",
    "differential run: kinds of event",
}


def wrong_rows(said, machine, original):
    text = read(TABLE)
    if text.count(HEADING) != 1:
        yield f"{TABLE} does not have one table '{HEADING}'"
        return
    lines = text[text.index(HEADING):].split("\n\n")[0].splitlines()[2:]
    written = {}
    for line in lines:
        name, *cells = (cell.strip() for cell in line.strip("|").split("|"))
        if name in written:
            yield f"{TABLE} has the row '{name}' twice"
        written[name] = cells[COLUMNS.index(machine)]
    printed = dict(rows(said, machine, original))
    for name, figure in printed.items():
        if written.get(name) != figure:
            yield f"{TABLE}: '{name}' is {written.get(name, 'not there')}, and {figure} was printed"
    for name in sorted(written.keys() - printed.keys() - MAY_BE_MISSING):
        yield f"{TABLE}: nothing prints '{name}'"


def sentences_of_files():
    """(document, what must stand in it), as files of the repository say."""
    constants = dict(line.split() for line in read("crates/constants/stdout").splitlines())
    store, requests = (grouped(constants[name]) for name in ("store_bytes", "most_request_bytes"))
    yield "README.md", f"{store} bytes, lent to each call"
    yield "host/README.md", f"how long a store must be ({store})"
    yield "docs/STORE.md", f"which every store must have (refusal 6 below it) | {store} |"
    yield TABLE, f"stores from 0 bytes on and around {store}, requests around {requests} bytes"
    yield TABLE, f"pieces around {requests} bytes"
    yield TABLE, f"pieces of 0 bytes to {requests} and more"
    yield TABLE, f"of which the program reads {int(constants['settings_bytes']) + int(constants['most_request_bytes']) + 1:,} bytes and no more"
    yield "man/mapcache-replay.1.in", f"(the bits of two IEEE 754 doubles): {constants['settings_bytes']} bytes."
    yield "man/mapcache-replay.1.in", f"More than {requests} bytes of requests are"

    needs = crates()
    count = 1 + sum(name in needs for name in needs["replay"][1])
    yield "README.md", f"it proves {count} crates first"
    yield "README.md", f"`[3/{count}] rules"
    yield "README.md", " ".join("\n".join(read("examples/first.answers").splitlines()[:5]).split())

    sizes = read("crates/sizes/stdout").splitlines()
    yield TABLE, f"runs {len([line for line in sizes if line != 'no settings']):,} settings"
    script = read("tools/make_calls.py")
    steps = re.search(r"^calls.bin: (\d+) replayed, 0 differ$", read("crates/recorded/stdout"), re.M)[1]
    damages = len(re.findall(r"^    damaged\(", script, re.M))
    yield TABLE, f"takes {steps} steps made by the same script, with stores short, longer, damaged in {damages} ways"

    for capacity, ratios in ratios_of_speed().items():
        low, high = (f"{round(end, 1):.1f}" for end in (min(ratios), max(ratios)))
        yield "README.md", f"{low} to {high} times" + (" the original's time" if capacity == "100" else "") + f" at capacity {int(capacity):,}"


def sentences_of_fuzz(said):
    """The same, as the fuzzer has printed."""
    yield TABLE, f"Of carries each of {things_wrong_with_a_carry(Printed(said, 'fuzz'))} things that can be wrong"


def sentences_of_runs(said):
    """The same, as the runs against the original have printed."""
    recorded = Printed(said, "record")
    few, many, most = (recorded(rf"^crates/recorded/data/{name}.bin: (\d+) cases are") for name in ("few", "many", "most"))
    total = sum(int(number.replace(",", "")) for number in (few, many, most))
    yield "docs/DIFFERENCES.md", f"crates/recorded/data has {total:,} cases of the original's answers: {few} short runs"
    yield "docs/DIFFERENCES.md", f"{many} runs at capacities up to 1,024, and {most} calls as long as a call can be"
    ghosts = r"^crates/ghosts/stdin: (\d+) operations \((\d+) new, (\d+) record, (\d+) remove, (\d+) evict_lru, (\d+) clear\)"
    operations, lists, record, remove, oldest, clear = recorded(ghosts)
    limits, full, there, none = records_of_ghosts()
    yield "docs/DIFFERENCES.md", f"{operations} operations on {lists} lists of limits {limits}."
    yield "docs/DIFFERENCES.md", f"Of them {record} record a key ({full} on a full list, {there} a key that is there already, {none} at limit 0)"
    yield "docs/DIFFERENCES.md", f"{remove} remove one, {oldest} take the oldest, {clear} clear"
    yield "docs/DIFFERENCES.md", f"The run fails if any of {kinds_of_event(said)} kinds of event"


def kinds_of_event(said):
    return len(re.findall(r"^ {1,11}\d+  (?!different|creations)", Printed(said, "differential").text, re.M))


def records_of_ghosts():
    """The limits of crates/ghosts/stdin, and how many records are on a full list, of a key that is there, and at limit 0."""
    with open(os.path.join(TOP, "crates/ghosts/stdin"), "rb") as file:
        data = file.read()
    limits, ghosts, limit, full, there, none = set(), [], 0, 0, 0, 0
    for letter, key in struct.iter_unpack("<cQ", data):
        if letter == b"N":
            ghosts, limit = [], key
            limits.add(limit)
        elif letter == b"C":
            ghosts = []
        elif letter == b"E":
            ghosts = ghosts[1:]
        else:
            recorded, known = letter == b"R", key in ghosts
            none += recorded and limit == 0
            there += recorded and known
            full += recorded and not known and 0 < limit == len(ghosts)
            ghosts = [other for other in ghosts if other != key] + [key] * recorded
            ghosts = ghosts[max(0, len(ghosts) - limit):]
    *first, last = (f"{limit:,}" for limit in sorted(limits))
    return f"{', '.join(first)} and {last}", full, there, none


# Where docs/DECISIONS.md has the counts.
COUNTED = "**Assumptions that a program's check counts.**"


def wrong_axioms(said):
    """What the check of each crate counts after `axioms=`: none for a library, and for a program what docs/DECISIONS.md says. Of a library
    that rt ci kept there is no line: the programs' and the archive's are of all that they reach."""
    decisions = " ".join(read("docs/DECISIONS.md").partition(COUNTED)[2].split("\n\n")[0].split())
    lines = dict(re.findall(r"^(\w+): (logic=proved .*)$", Printed(said, "last-lines").text, re.M))
    for crate, (kind, _) in crates().items():
        counted = re.search(r" axioms=(\d+)( |$)", lines.get(crate, ""))
        if os.path.exists(os.path.join(TOP, "crates", crate, "src/main.rt")):
            written = re.search(rf"`{crate}`(?: and `\w+`)?:? (\d+)[ ,.]", decisions)
            if crate not in lines:
                yield f"{said}/last-lines does not say that {crate} is proved"
            elif written is None or counted is None or written[1] != counted[1]:
                yield f"docs/DECISIONS.md: `{crate}` counts {written[1] if written else 'no'} assumptions, and its check {counted[1] if counted else 'none'}"
        elif crate not in lines and kind == "staticlib":
            yield f"{said}/last-lines does not say that {crate} is proved"
        elif counted:
            yield f"README.md says that libraries rest on no axiom, and the check of {crate} counts {counted[1]}"


def crates():
    """The crates of crates.txt: what stands behind the name, `staticlib` or nothing, and those that it names."""
    rows = (line.split("#")[0].partition(":") for line in read("crates.txt").splitlines())
    return {head.split()[0]: (" ".join(head.split()[1:]), rest.split()) for head, colon, rest in rows if colon}


def ratios_of_speed():
    """The ratios to the original in docs/SPEED.md's table of times, by capacity."""
    found, column, width = {}, None, 0
    for line in read("docs/SPEED.md").splitlines():
        cells = [cell.strip() for cell in line.strip("|").split("|")]
        if "lookups that hit" in cells:
            column, width = cells.index("now / original"), len(cells)
        elif len(cells) == width and cells[0].replace(",", "").isdigit():
            found.setdefault(cells[0].replace(",", ""), []).append(float(cells[column]))
    return found


def wrong_sentences(sentences):
    documents = {}
    for name, sentence in sentences:
        if name not in documents:
            documents[name] = " ".join(read(name).split())
        if sentence not in documents[name]:
            yield f"{name} does not say '{sentence}'"


def main():
    try:
        wrong, compared = compare(*sys.argv[1:])
    except FileNotFoundError as missing:
        sys.exit(f"figures: {missing.filename} is not there: `make test` leaves it, or the target that prints it")
    for problem in wrong:
        print(f"figures: {problem}", file=sys.stderr)
    if wrong:
        sys.exit(1)
    print(f"figures: {compared}")


def compare(said=None, machine=None, *without):
    """What is wrong, and what was compared, in words."""
    sentences = list(sentences_of_files())
    if said is None:
        return list(wrong_sentences(sentences)), f"{len(sentences)} sentences of the documents are what the files say"
    original = without != ("without-original",)
    sentences += sentences_of_fuzz(said)
    sentences += sentences_of_runs(said) if original else []
    wrong = [*wrong_rows(said, machine, original), *wrong_sentences(sentences), *wrong_axioms(said)]
    count = len(sentences) + len(dict(rows(said, machine, original)))
    return wrong, f"{count} of the documents are those that were printed{'' if original else ' (without those of the original)'}"


if __name__ == "__main__":
    main()
