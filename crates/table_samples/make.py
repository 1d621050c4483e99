#!/usr/bin/env python3
"""Makes the folder of stored tables that the program `table_samples` lists, and what it must write for them; and the input and output of `showtable`.

    python3 crates/table_samples/make.py

writes, beside this file, a file for each sample into data/, their names into args, and into stdout for each the name and its listing. The bytes and the
listings come from docs/FORMAT.md alone; they share nothing with the Rattle code or its definitions.
"""
import os
import shutil
import struct

here = os.path.dirname(os.path.abspath(__file__))
STATUS = ["set", "delete", "ttl"]
MODES = ["plain", "fenced", "guarded"]
PROFILES = ["free", "meter", "shared"]
TOP = 2**64 - 1
AREA, TABLE = 29705, 29964


def number(n):
    return struct.pack("<Q", n)


def record(key, value, version, status, start):
    return bytes([len(key)]) + key.ljust(32, b"\0") + bytes([len(value)]) + value.ljust(64, b"\0") + number(version) + bytes([status]) + number(start)


def node(n, heartbeat, top, gc, records):
    front = number(n) + number(heartbeat) + number(top) + number(gc) + bytes([len(records)])
    return (front + b"".join(record(*r) for r in records)).ljust(3713, b"\0")


def table(mode, profile, nodes, removed):
    area = (bytes([len(nodes)]) + b"".join(node(*n) for n in nodes)).ljust(AREA, b"\0")
    tail = bytes([mode, profile, len(removed)]) + b"".join(number(n) + number(h) for n, h in removed)
    whole = area + tail.ljust(TABLE - AREA, b"\0")
    assert len(whole) == TABLE
    return whole


def shown(text):
    return "".join(chr(b) if 33 <= b <= 126 and b not in (37, 61) else "%%%02X" % b for b in text)


def listing(mode, profile, nodes, removed):
    lines = ["mode=%s profile=%s" % (MODES[mode], PROFILES[profile])]
    for n, heartbeat, top, gc, records in nodes:
        lines.append("node=%d heartbeat=%d max=%d gc=%d" % (n, heartbeat, top, gc))
        for key, value, version, status, start in records:
            lines.append("key=%s value=%s version=%d status=%s start=%d" % (shown(key), shown(value), version, STATUS[status], start))
    for n, heartbeat in removed:
        lines.append("removed=%d heartbeat=%d" % (n, heartbeat))
    lines.append("end=ok nodes=%d records=%d removed=%d" % (len(nodes), sum(len(n[4]) for n in nodes), len(removed)))
    return "".join(line + "\n" for line in lines)


def refused(what=""):
    return "end=refused code=14%s\n" % what


# number, heartbeat, max, last_gc, records: key, value, version, status, start
ODD = [
    (1, 0, 0, 0, []),
    (7, 5, 9, 3, [
        (b"", b"", 4, 1, 1000),
        (bytes([0, 32, 33, 126, 127, 255]), b"50% = a", 5, 0, 0),
        (b"flat.3", b"41", 9, 0, 0),
        (b"z" * 32, bytes(range(64)), 8, 2, 1234567890123),
    ]),
    (TOP, TOP, TOP, TOP, [(b"\n%=", b"\xff" * 64, TOP, 2, TOP)]),
]
GONE = [(3, 0), (10, TOP), (2, 77)]
READINGS = [
    (7, 5, 4, 0, [(b"flat.3", b"", 3, 1, 1000), (b"flat.4", b"17", 1, 0, 0), (b"total", b"0041", 4, 2, 2000)]),
    (9, 0, 0, 0, []),
]
FIRMS = [(7, 5, 4, 0, [(b"b/door", b"open", 2, 0, 0), (b"b/lift", b"", 3, 1, 1000), (b"m/total", b"41", 4, 0, 0)])]
BY_PROFILE = [ODD, READINGS, FIRMS]
# everything as long as it can be
FULL = [(TOP - 7 + i, TOP, TOP, TOP - 32, [(bytes([j]) + b"\xff" * 31, b"\xff" * 64, TOP - 31 + j, 1, TOP) for j in range(32)]) for i in range(8)]
LAST = [(TOP - 100 - i, TOP) for i in range(16)]

samples = []


def good(name, mode, profile, nodes, removed):
    samples.append((name, table(mode, profile, nodes, removed), listing(mode, profile, nodes, removed)))


def bad(name, what, changes, of=None):
    whole = bytearray(of or table(0, 0, READINGS, GONE))
    for at, byte in changes:
        whole[at] = byte
    samples.append((name, bytes(whole), refused(what)))


for mode in range(3):
    for profile in range(3):
        good("%s-%s" % (MODES[mode], PROFILES[profile]), mode, profile, BY_PROFILE[profile], GONE)
good("empty", 0, 0, [], [])
good("longest", 2, 0, FULL, LAST)

# a hub's file: its head, and what the tool says of the table behind it; a file that is no more than a head begins as no table does, and has another length
HEAD = b"kevhub 1" + number(7) + number(0) + number(TABLE) + number(0)
good("behind-a-head", 1, 1, READINGS, GONE)
samples[-1] = (samples[-1][0], HEAD + samples[-1][1], samples[-1][2])
samples.append(("head-alone", HEAD, refused(" length=0")))
samples.append(("half-a-head", HEAD[:39], refused(" length=39")))

FIRST, SECOND = 1, 1 + 3713
samples.append(("nothing", b"", refused(" length=0")))
samples.append(("area-alone", table(0, 0, ODD, [])[:AREA], refused(" length=29705")))
samples.append(("one-byte-more", table(0, 0, ODD, []) + b"\0", refused(" length=29965")))
bad("nine-nodes", " nodes=9", [(0, 9), (FIRST + 32, 33), (AREA, 3)])
bad("first-node-of-two-bad", " place=0", [(FIRST + 32, 33), (SECOND + 32, 33)])
bad("second-node-bad", " place=1", [(SECOND + 32, 33), (AREA, 3), (AREA + 1, 3)])
bad("keys-out-of-order", " place=0", [(FIRST + 33 + 1, ord("x"))])
bad("version-above-max", " place=0", [(FIRST + 16, 2)])
bad("byte-behind-a-key", " place=0", [(FIRST + 33 + 1 + 31, 1)])
bad("mode-3", " mode=3", [(AREA, 3), (AREA + 1, 3)])
bad("profile-3", " profile=3", [(AREA + 1, 3), (AREA + 2, 17)])
bad("seventeen-removed", "", [(AREA + 2, 17)])
bad("nodes-out-of-order", "", [(FIRST, 200)])
bad("byte-behind-the-nodes", "", [(AREA - 1, 1)])
bad("held-and-removed", "", [(AREA + 3, 7)])
bad("last-byte", "", [(TABLE - 1, 1)])
bad("letter-of-a-meter", "", [(FIRST + 33 + 115 + 34, ord("x"))], table(0, 1, READINGS, []))
bad("key-of-no-firm", "", [(FIRST + 33 + 1, ord("a"))], table(0, 2, FIRMS, []))

shutil.rmtree(os.path.join(here, "data"), ignore_errors=True)
os.mkdir(os.path.join(here, "data"))
for name, bytes_, _ in samples:
    with open(os.path.join(here, "data", name), "wb") as f:
        f.write(bytes_)
with open(os.path.join(here, "args"), "w") as f:
    f.write("".join("%s\n" % name for name, _, _ in samples))
with open(os.path.join(here, "stdout"), "w") as f:
    f.write("".join("%s\n%s" % (name, text) for name, _, text in samples))

with open(os.path.join(here, "..", "showtable", "stdin"), "wb") as f:
    f.write(table(1, 0, ODD, GONE))
with open(os.path.join(here, "..", "showtable", "stdout"), "w") as f:
    f.write(listing(1, 0, ODD, GONE))
