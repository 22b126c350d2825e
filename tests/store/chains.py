#!/usr/bin/env python3
"""Prints the table of docs/STORE.md on how long the index's chains are, by the formula that stands there: chains.py

Each cell has the longest chain, and the average number of nodes that a successful lookup looks at, with three buckets to a key.
"""
import random
from collections import Counter

COUNTS = (2048, 32768)
BUCKETS = 3


def bucket(key, buckets):
    folded = (key // 2**32 * 2246822507 + key % 2**32) % 2**32
    mixed = folded * 2654435769 % 2**32
    return mixed * buckets // 2**32


def cell(keys):
    lengths = Counter(bucket(key, BUCKETS * len(keys)) for key in keys).values()
    looked_at = sum(length * (length + 1) // 2 for length in lengths)
    return f"{max(lengths)} / {looked_at / len(keys):.2f}"


def cells(key_of):
    return [cell([key_of(i) for i in range(count)]) for count in COUNTS]


def strided(bits):
    return lambda i: i << bits


def tagged(tags, bits, stride=1):
    return lambda i: (i % tags << bits) + i // tags * stride


def drawn(seed):
    draw = random.Random(seed)
    return lambda i: draw.getrandbits(64)


def rows():
    yield "0, 1, 2, ..", strided(0)
    for bits in (3, 6, 9, 12):
        yield f"stride 2^{bits}", strided(bits)
    alike = [strided(bits) for bits in (16, 20, 32, 48)]
    if any(cells(other) != cells(alike[0]) for other in alike):
        raise ValueError("the strides 2^16, 2^20, 2^32 and 2^48 do not come to the same")
    yield "stride 2^16, 2^20, 2^32 or 2^48", alike[0]
    for bits in (24, 28, 40):
        yield f"stride 2^{bits}", strided(bits)
    for bits, counts in [(32, (2, 4, 16, 64, 256)), (48, (2, 4, 16, 64, 256)), (56, (4, 16))]:
        for tags in counts:
            yield f"{tags} tags in bits {bits} and up, block below", tagged(tags, bits)
    yield "16 tags in bits 32 and up, block times 4,096", tagged(16, 32, 4096)
    yield "random 64-bit numbers", drawn(1)


def main():
    print("| keys | " + " | ".join(f"{count:,} keys" for count in COUNTS) + " |\n|---|---|---|")
    for name, key_of in rows():
        print(f"| {name} | " + " | ".join(cells(key_of)) + " |")


if __name__ == "__main__":
    main()
