#!/usr/bin/env python3
"""Holds the worked example of docs/STORE.md against a store's bytes: compare.py STORE.md STORE

Every byte that the example names must have its value, and every byte that it does not name must still be 0xa5, what the
memory held before.
"""
import re
import sys

BEFORE = 0xA5


def example(text):
    """The bytes that the document's store-example names, by offset."""
    block = re.search(r"^```store-example\n(.*?)^```$", text, re.S | re.M)
    if block is None:
        sys.exit("the document has no store-example")
    named = {}
    for line in block.group(1).splitlines():
        line = line.split("#")[0].strip()
        if not line:
            continue
        offset, values = line.split(":")
        for i, value in enumerate(bytes.fromhex(values)):
            if int(offset) + i in named:
                sys.exit(f"the document names byte {int(offset) + i} twice")
            named[int(offset) + i] = value
    return named


def main():
    with open(sys.argv[1], encoding="utf-8") as document, open(sys.argv[2], "rb") as file:
        named, store = example(document.read()), file.read()
    wrong = [i for i, value in enumerate(store) if value != named.get(i, BEFORE)]
    wrong += [i for i in named if i >= len(store)]
    for i in wrong[:20]:
        has = f"{store[i]:02x}" if i < len(store) else "nothing"
        print(f"byte {i}: the document says {named.get(i, BEFORE):02x}, the store has {has}", file=sys.stderr)
    if wrong:
        sys.exit(f"docs/STORE.md: {len(wrong)} bytes differ")
    print(f"docs/STORE.md: the worked example's {len(named)} bytes are the store's, the other {len(store) - len(named)} untouched")


if __name__ == "__main__":
    main()
