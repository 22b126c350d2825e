# Writes to a folder (crates/sizes) stdin, settings records (CF), and stdout, the lines that the program `sizes` has to print for
# them. The answers come from exact fractions alone: a double is read from its bits as a fraction, the product is rounded to a
# double by whole numbers, and no float is computed with.
#
#     python3 tools/make_sizes.py FOLDER
import os
import sys
from fractions import Fraction

MOST = 1024
SIGN, INFINITY, ONE = 1 << 63, 0x7FF << 52, 0x3FF << 52


def value(bits):
    """What the bits of a double stand for: a fraction, or None for an infinity and a NaN."""
    field, digits = (bits % SIGN) >> 52, bits % (1 << 52)
    if field == 0x7FF:
        return None
    size = digits if field == 0 else ((1 << 52) + digits) << (field - 1)
    return Fraction(-size if bits & SIGN else size, 1 << 1074)


def double(q):
    """The bits of the double nearest to a fraction q >= 0, the even one of two; an infinity from halfway past the largest on."""
    exponent = q.numerator.bit_length() - q.denominator.bit_length()
    if q < Fraction(2) ** exponent:
        exponent -= 1
    unit = max(exponent - 52, -1074) if q else -1074
    scaled = q / Fraction(2) ** unit
    whole, rest = divmod(scaled.numerator, scaled.denominator)
    twice = 2 * rest - scaled.denominator
    if twice > 0 or (twice == 0 and whole % 2 == 1):
        whole += 1
    return min(((unit + 1074) << 52) + whole, INFINITY)


def limit(capacity, ratio):
    """The whole number nearest to the product, halves up; None where the product is infinite."""
    p = value(double(capacity * value(ratio)))
    if p is None:
        return None
    c = (2 * p.numerator + p.denominator) // (2 * p.denominator)
    assert 2 * c - 1 <= 2 * p < 2 * c + 1
    return c


def no_ratio(bits):
    return value(bits) is None or value(bits) < 0


def answer(capacity, small, ghosts):
    if capacity == 0:
        return "refused 1"
    if capacity > MOST:
        return "refused 2"
    if no_ratio(small) or value(small) > 1:
        return "refused 3"
    if no_ratio(ghosts):
        return "refused 4"
    ghost_limit = limit(capacity, ghosts)
    if ghost_limit is None or ghost_limit > MOST:
        return "refused 5"
    return f"small {limit(capacity, small)}, ghosts {ghost_limit}"


def decimal(text):
    return double(Fraction(text))


SMALL, GHOSTS = decimal("0.1"), decimal("0.9")
records, seen = [], set()


def add(capacity, small=SMALL, ghosts=GHOSTS):
    record = (capacity, small, ghosts)
    if record not in seen:
        seen.add(record)
        records.append(record)


# the table
add(4)
add(5)
add(1024)
add(1, decimal("0.49999999999999994"), 0)
add(1024, ONE, ONE)
add(4, SIGN, SIGN)
add(1024, SMALL, decimal("1.00048828125"))
# every capacity with the default ratios, and some that are far above
for capacity in list(range(0, 1026)) + [2048, 1 << 31, 1 << 32, 1 << 52, (1 << 53) + 1, (1 << 63) - 1, 1 << 63, (1 << 64) - 1024, (1 << 64) - 1]:
    add(capacity)
# refusals that meet: the lowest wins
for capacity in [0, 1, 1024, 1025, 1 << 63]:
    for small in [SMALL, ONE + 1, SIGN + 1, INFINITY, INFINITY + 1]:
        for ghosts in [GHOSTS, SIGN + 1, INFINITY, INFINITY + 1, INFINITY - 1]:
            add(capacity, small, ghosts)
# either zero for either ratio
for capacity in [1, 2, 1023, 1024]:
    for small in [0, SIGN]:
        for ghosts in [0, SIGN]:
            add(capacity, small, ghosts)
# zeros, the smallest and largest of each kind, 1 and its neighbours, infinities, NaNs, each with either sign
odd = [0, 1, 2, 3, (1 << 52) - 1, 1 << 52, (1 << 52) + 1, ONE - (1 << 52), ONE - 1, ONE, ONE + 1, ONE + (1 << 52)]
odd += [INFINITY - 1, INFINITY, INFINITY + 1, INFINITY + (1 << 51), SIGN - 1]
for capacity in [1, 2, 3, 1023, 1024]:
    for bits in odd + [SIGN + bits for bits in odd]:
        add(capacity, bits, GHOSTS)
        add(capacity, SMALL, bits)
# halves and whole numbers, and one or two steps to either side: of both limits, and of the largest ghost limit
steps = [-2, -1, 0, 1, 2]
for capacity in [1, 2, 3, 7, 10, 100, 1000, 1023, 1024]:
    for k in sorted({0, 1, capacity // 3, capacity // 2, capacity - 1}):
        for step in steps:
            bits = double(Fraction(2 * k + 1, 2 * capacity)) + step
            add(capacity, bits, bits)
    for twice in [2 * MOST - 1, 2 * MOST, 2 * MOST + 1, 2 * MOST + 2]:
        for step in steps:
            add(capacity, ONE, double(Fraction(twice, 2 * capacity)) + step)
# products that overflow, by a little or not quite
for step in range(-2, 3):
    add(2, ONE, INFINITY - (1 << 52) + step)
# digits without a pattern, from a fixed sequence
state = 1
for _ in range(600):
    state = (state * 6364136223846793005 + 1442695040888963407) % (1 << 64)
    capacity = 1 + (state >> 32) % MOST
    add(capacity, ONE - ((1 + state % 3) << 52) + (state >> 12), ONE - ((state % 7) << 52) + (state >> 12))

stdin, lines = b"", []
for capacity, small, ghosts in records:
    stdin += b"CF" + b"".join(n.to_bytes(8, "little") for n in (capacity, small, ghosts))
    lines.append(f"capacity {capacity}: {answer(capacity, small, ghosts)}")
# other marks, and a record that is one byte short
whole = stdin[:26]
for bad in [b"cf" + whole[2:], b"CG" + whole[2:], b"DF" + whole[2:], b"FC" + whole[2:], bytes(26), whole[:25]]:
    stdin += bad
    lines.append("no settings")
assert len(stdin) <= 65536, len(stdin)
folder, = sys.argv[1:]
with open(os.path.join(folder, "stdin"), "wb") as f:
    f.write(stdin)
with open(os.path.join(folder, "stdout"), "w") as f:
    f.write("\n".join(lines) + "\n")
print(len(records), "settings,", len(stdin), "bytes")
