#!/usr/bin/env python3
"""Writes recorded calls with what the rules say of each (docs/RULES.md): make_calls.py STEPS CASES PROGRAM

STEPS (crates/recorded/data/calls.bin) is for the program `recorded` and for the hosts' tests in C and Rust: steps on one store,
each with 32 bytes in front (kind, store bytes lent, reply room, number; lengths of input and output; detail), input and output.
CASES is for the replay program, written when it is tested: lengths of input and output, settings and requests, and what the
program must write. PROGRAM (crates/replay) is the folder whose stdin and stdout are trace B and its answer, which the replay
program is run on when it is proved. This is the one table of refused creations and runs: a new refusal of those
gets its cases here; those of feeds and finishes stand in host/c/feed.c.

The answers are written out here by hand from that page. Nothing is asked of the library, and no rule is worked out.
"""
import os
import struct
import sys

STORE_BYTES = 61696
MOST_REQUEST_BYTES = 32768
REPLAY_ROOM = 65536
FILL, LAY, CREATE, RUN = range(4)
MEMORY = 0xA5  # what a store's memory holds before


def record(mark, *numbers):
    return mark.encode() + b"".join(struct.pack("<Q", n) for n in numbers)


def GT(k): return record("GT", k)
def PK(k): return record("PK", k)
def RM(k): return record("RM", k)
def IN(k, v): return record("IN", k, v)
def HI(v): return record("HI", v)
def GO(v): return record("GO", v)
def RE(v): return record("RE", v)
def NW(pops): return record("NW", pops)
def ES(k, v): return record("ES", k, v)
def EM(k, v): return record("EM", k, v)
def EX(k, v): return record("EX", k, v)
EV, CL, MI, OK = b"EV", b"CL", b"MI", b"OK"


def settings(capacity, small=0.1, ghost=0.9):
    return b"CF" + struct.pack("<Qdd", capacity, small, ghost)


# Trace B: its requests, at capacity 2, and the replies.
TRACE_B = (IN(1, 10) + GT(1) + IN(2, 20) + IN(3, 30), NW(0) + HI(10) + NW(0) + ES(2, 20) + NW(2))

steps = []
cases = []


def step(kind, store=0, room=0, number=0, detail=0, given=b"", wanted=b""):
    steps.append(struct.pack("<IIIIIIQ", kind, store, room, number, len(given), len(wanted), detail) + given + wanted)


def fill(byte):
    step(FILL, number=byte)


def lay(offset, *values):
    step(LAY, room=offset, given=bytes(values))


def create(given, number=0, store=STORE_BYTES):
    step(CREATE, store=store, number=number, given=given)


def run(requests, wanted=b"", number=0, detail=0, room=1000, store=STORE_BYTES):
    step(RUN, store=store, room=room, number=number, detail=detail, given=requests, wanted=wanted)


def replay(given, wanted):
    cases.append(struct.pack("<II", len(given), len(wanted)) + given + wanted)


def no(number, detail=0):
    return b"NO" + struct.pack("<BQ", number, detail)


def trace(given, *parts):
    """Parts of a trace, each a call of its own on one store; and for the program all of them at once."""
    fill(MEMORY)
    create(given)
    for requests, wanted in parts:
        run(requests, wanted)
    replay(given + b"".join(p[0] for p in parts), b"".join(p[1] for p in parts))


def refused_settings(number, *bad):
    """No cache is made of these, and the program says so, whatever follows them."""
    for given in bad:
        create(given, number)
        replay(given, no(number))
        replay(given + b"??", no(number))


def accepted_settings(*good):
    for given in good:
        create(given)
        run(GT(5), MI)
        replay(given, b"")
        replay(given + GT(5), MI)


def refused_run(requests, number, detail=0):
    """A fresh cache turns these requests away, also with all the room that the program has."""
    create(settings(2))
    run(requests, number=number, detail=detail, room=REPLAY_ROOM)
    replay(settings(2) + requests, no(number, detail))


def traces():
    a = IN(7, 70) + IN(8, 80) + IN(7, 71)
    told = bytes.fromhex(
        "4E57" + "00" * 8
        + "4553" + "07" + "00" * 7 + "46" + "00" * 7 + "4E57" + "01" + "00" * 7
        + "4553" + "08" + "00" * 7 + "50" + "00" * 7 + "4E57" + "01" + "00" * 7)
    # A; that 7 is in Main afterwards shows when it leaves
    trace(settings(1), (a, told), (IN(9, 90), EM(7, 71) + NW(1)))
    # B, C, D, E
    trace(settings(2),
          TRACE_B,
          (IN(2, 21), ES(3, 30) + NW(1)),
          (GT(1) * 4 + GT(2) + IN(4, 40), HI(10) * 4 + HI(21) + EM(2, 21) + NW(4)),
          (EV, ES(4, 40) + EX(1, 10)),
          (GT(1) + GT(2) + GT(3) + GT(4), MI * 4))
    # F
    trace(settings(1), (IN(7, 70) + EV, NW(0) + ES(7, 70) + MI))
    # G
    trace(settings(2, 1.0, 0.9), (IN(1, 10) + IN(2, 20) + IN(3, 30), NW(0) + NW(0) + ES(1, 10) + NW(1)))
    # H, with either zero; that 7 is in Small afterwards shows when it leaves. B's Small limit is 0, so that -0.0 gives its answers
    for zeros in [(0.1, 0.0), (0.1, -0.0), (0.0, 0.0), (0.0, -0.0), (-0.0, 0.0), (-0.0, -0.0)]:
        trace(settings(1, *zeros), (a, told), (IN(9, 90), ES(7, 71) + NW(1)))
    for zero in [0.0, -0.0]:
        trace(settings(2, zero), TRACE_B)


def other_rules():
    trace(settings(3), (EV, MI))
    # RM of a ghost is a miss, and it stays a ghost: its IN lands in Main, as its leaving shows
    trace(settings(1), (IN(7, 70) + IN(8, 80) + RM(7), NW(0) + ES(7, 70) + NW(1) + MI),
          (IN(7, 71), ES(8, 80) + NW(1)), (IN(9, 90), EM(7, 71) + NW(1)))
    trace(settings(4), (IN(1, 10) + IN(1, 11) + PK(1) + RM(1) + RM(1) + PK(1), NW(0) + RE(10) + HI(11) + GO(11) + MI + MI))
    trace(settings(4), (IN(1, 10) + CL + GT(1), NW(0) + OK + MI), (IN(1, 12), NW(0)))
    top = 2 ** 64 - 1
    trace(settings(2), (IN(0, 0) + IN(top, top) + GT(0) + GT(top), NW(0) + NW(0) + HI(0) + HI(top)),
          (RM(0) + RM(top), GO(0) + GO(top)))
    trace(settings(2), (b"", b""))


def refusals_1_to_5():
    nan, inf = float("nan"), float("inf")
    above = struct.unpack("<d", struct.pack("<Q", 0x3FF0000000000001))[0]  # the double after 1.0
    below = struct.unpack("<d", struct.pack("<Q", 0x3FF001FFFFFFFFFF))[0]  # the double before 1.00048828125
    least = struct.unpack("<d", struct.pack("<Q", 0x8000000000000001))[0]  # the double before -0.0
    fill(MEMORY)
    refused_settings(1, settings(0), settings(0, nan, nan))
    refused_settings(2, settings(1025), settings(2 ** 64 - 1), settings(1025, nan, nan))
    refused_settings(3, settings(1, nan), settings(1, inf), settings(1, -inf), settings(1, above), settings(1, least),
                     settings(1, -0.5), settings(1, least, least), settings(1, nan, nan), settings(1024, 2.0, 2.0))
    refused_settings(4, settings(1, 0.1, nan), settings(1, 0.1, inf), settings(1, 0.1, -inf), settings(1, 0.1, least),
                     settings(1, 0.1, -0.5), settings(1, -0.0, least))
    refused_settings(5, settings(1024, 0.1, 1.00048828125), settings(1, 0.1, 1024.5), settings(1024, 0.1, 1e308))
    accepted_settings(settings(1), settings(1024), settings(1, 0.0, 0.0), settings(4, -0.0, -0.0), settings(1, 1.0, 1024.0),
                      settings(1, 1.0, 1024.25), settings(1024, 1.0, 1.0), settings(1024, 0.1, below))
    replay(b"", no(9))
    replay(settings(1)[:25], no(9))
    replay(b"CG" + settings(1)[2:], no(9))
    replay(b"CG" + settings(0)[2:], no(9))


def refusal_6():
    fill(MEMORY)
    create(settings(2), 6, store=STORE_BYTES - 1)
    create(settings(2), 6, store=0)
    create(settings(0), 1, store=0)
    create(settings(2))
    run(GT(1), number=6, store=STORE_BYTES - 1)
    run(b"??", number=6, store=0)
    run(IN(1, 10), NW(0))
    # a longer store: the surplus stays, and the cache is the same
    create(settings(2), store=STORE_BYTES + 100)
    run(IN(1, 10) + GT(1), NW(0) + HI(10), store=STORE_BYTES + 100)
    run(GT(1), HI(10))


def damaged(offset, before, after):
    """These bytes damage the store of trace B, which is mended again."""
    lay(offset, *after)
    run(PK(1), number=7)
    run(b"", number=7, room=0)
    lay(offset, *before)
    run(PK(1), HI(10))


def open_byte(offset, before, after):
    """These bytes make it no other store, or another sound one."""
    lay(offset, *after)
    run(PK(1), HI(10))
    lay(offset, *before)


# The store that docs/STORE.md shows: four nodes, four sentinels; each field a column, and the buckets' heads behind them.
NODES, SENTINELS = 4, 4
END = [NODES, 0]  # the link that ends a chain


def column(before, width):
    return lambda node: 128 + before * (NODES + SENTINELS) + width * node


key, value, next_of, prev_of, chain = column(0, 8), column(8, 8), column(16, 2), column(18, 2), column(20, 2)
queue, freq = column(22, 1), column(23, 1)


def bucket(number):
    return 128 + 24 * (NODES + SENTINELS) + 2 * number


def shared_bucket():
    """Two keys of bucket 0, the smaller one first; changed about, with all links as they should be, it is no index."""
    smaller, larger = 0, 6343112085
    create(settings(2))
    run(IN(larger, 20) + IN(smaller, 10), NW(0) + NW(0))
    links = [(bucket(0), 2), (chain(2), 3), (chain(3), NODES)]
    for offset, node in [(bucket(0), 3), (chain(3), 2), (chain(2), NODES)]:
        lay(offset, node, 0)
    run(PK(smaller), number=7)
    for offset, node in links:
        lay(offset, node, 0)
    run(PK(smaller) + PK(larger), HI(10) + HI(20))
    create(settings(2))
    run(*TRACE_B)


def refusal_7():
    """Damage to the store that docs/STORE.md shows, one piece at a time, and the store mended again after each."""
    fill(MEMORY)
    run(GT(1), number=7)
    run(b"?" * (MOST_REQUEST_BYTES + 1), number=7)
    create(settings(2))
    run(*TRACE_B)

    damaged(0, [2], [0])                       # the capacity is 0
    damaged(0, [2, 0], [1, 4])                 # the capacity is 1,025
    damaged(0, [2], [3])                       # another capacity, so that the lists stand elsewhere
    damaged(8, [0], [3])                       # Small's limit is above the capacity
    damaged(16, [2, 0], [1, 4])                # the ghost limit is 1,025
    damaged(16, [2], [1])                      # another ghost limit
    damaged(40, [1], [2])                      # Small has another length
    damaged(56, [1], [0])                      # the ghosts have another length
    damaged(key(1), [3], [1])                  # two residents with one key
    damaged(key(1), [3], [5])                  # a key in another's bucket
    damaged(next_of(1), [5], [9])              # a link to a node that is none
    damaged(next_of(1), [5], [6])              # a link into another list
    damaged(prev_of(1), [5], [1])              # a backward link that is not the forward one
    damaged(chain(1), END, [1, 0])             # a chain that goes round
    damaged(chain(1), END, [0, 0])             # a chain that goes on to a free node
    damaged(chain(1), END, [255, 255])         # a chain that ends with another number
    damaged(chain(NODES), END, [0, 0])         # what ends the chains leads on
    damaged(queue(NODES), [0], [1])            # what ends the chains is in a list
    damaged(queue(1), [1], [2])                # a tag that is not its list's
    damaged(freq(1), [0], [4])                 # a frequency of 4
    damaged(bucket(10), [1, 0], END)           # a resident that the index does not find
    damaged(bucket(2), [2, 0], END)            # a ghost that the index does not find
    damaged(bucket(0), END, [0, 0])            # a bucket that has a free node
    damaged(bucket(0), END, [5, 0])            # an empty bucket with another number
    open_byte(8, [0], [2])                     # Small's limit is the capacity: another sound state
    open_byte(freq(1), [0], [3])               # a frequency of 3: another sound state
    open_byte(24, [MEMORY], [0])               # header cell 3
    open_byte(64, [MEMORY] * 64, range(64))    # header cells 8 to 15
    open_byte(value(2), [20], [99])            # the value of a ghost
    open_byte(freq(2), [0], [9])               # the frequency of a ghost
    open_byte(chain(0), [MEMORY] * 2, [9, 0])  # the chain of a free node
    open_byte(chain(5), [MEMORY] * 2, [1, 0])  # the chain of another sentinel than Free's
    shared_bucket()
    for byte in (0, 255, 1):
        fill(byte)
        run(b"", number=7)


def refusal_8():
    fill(MEMORY)
    full = CL * (MOST_REQUEST_BYTES // 2)
    create(settings(2))
    run(full, OK * (MOST_REQUEST_BYTES // 2), room=REPLAY_ROOM)
    replay(settings(2) + full, OK * (MOST_REQUEST_BYTES // 2))
    refused_run(full + b"C", 8)
    refused_run(full + CL, 8)
    refused_run(b"?" * (MOST_REQUEST_BYTES + 1), 8)


def refusal_9():
    refused_run(b"??", 9, 0)
    refused_run(b"?", 9, 0)
    refused_run(b"G", 9, 0)
    refused_run(b"gt" + GT(1)[2:], 9, 0)
    refused_run(settings(2), 9, 0)
    refused_run(IN(7, 70) + b"GX", 9, 18)
    refused_run(IN(7, 70) + CL + EV + b"HI", 9, 22)
    refused_run(IN(7, 70) + b"??" + GT(1)[:3], 9, 18)
    refused_run(b"?" * MOST_REQUEST_BYTES, 9, 0)
    for whole in (GT(1), PK(1), RM(1), IN(1, 10)):
        for cut in (1, 2, len(whole) - 1):
            refused_run(whole[:cut], 9, 0)
            refused_run(EV + whole[:cut], 9, 2)
    for cut in (EV[:1], CL[:1]):
        refused_run(CL + cut, 9, 2)
    # before the room is looked at
    create(settings(2))
    run(IN(7, 70) + b"??", number=9, detail=18, room=0)


def refusal_10():
    create(settings(2))
    run(b"", room=0)
    for requests, room, wanted in ((GT(1), 10, MI), (PK(1), 10, MI), (RM(1), 10, MI), (EV, 36, MI), (CL, 2, OK),
                                   (IN(1, 10), 28, NW(0)), (IN(1, 11) + IN(1, 12), 56, RE(10) + RE(11)),
                                   (GT(1) + EV + CL, 48, HI(12) + EX(1, 12) + OK)):
        run(requests, number=10, detail=room, room=0)
        run(requests, number=10, detail=room, room=room - 1)
        run(requests, wanted, room=room)
    # the program's own reply buffer: 1,820 times 36 bytes of room fit, 1,821 do not
    run(EV * 1820, MI * 1820, room=REPLAY_ROOM)
    replay(settings(2) + EV * 1820, MI * 1820)
    refused_run(EV * 1821, 10, 65556)


def main():
    if len(sys.argv) != 4:
        sys.exit(__doc__.splitlines()[0])
    for part in (traces, other_rules, refusals_1_to_5, refusal_6, refusal_7, refusal_8, refusal_9, refusal_10):
        part()
    given, wanted = TRACE_B
    program = sys.argv[3]
    for path, parts in [(sys.argv[1], steps), (sys.argv[2], cases),
                        (os.path.join(program, "stdin"), [settings(2), given]), (os.path.join(program, "stdout"), [wanted])]:
        with open(path, "wb") as file:
            file.write(b"".join(parts))
    print(f"{len(steps)} steps, {len(cases)} cases")


if __name__ == "__main__":
    main()
