#!/usr/bin/env python3
"""Writes the stored scripts that are made: each call at each of document 01's boundaries, each refusal that it can give, and the
pairs of refusals in their order. The others beside it are written by hand (local-walk is a random walk over local calls).

    python3 oracle/fixed/make.py           writes the scripts
    oracle/fixed/check --store             the original's answers to them
    oracle/fixed/check --gate              what the gate runs the port on
"""
import struct
from pathlib import Path

HERE = Path(__file__).resolve().parent
TOP = 2**64 - 1
NODE, AREA, TABLE = 3713, 29705, 29964
NUMBERS, PRESENT, GCS, MAXES, GRID = 1, 65, 73, 585, 1097
CALLS = ("add 7", "remove 7", "removed 7", "write 7 x61 x31 0 9", "write 7 x61 x31 2 5", "write 7 x61 x31 1 5", "delete 7 x61 5", "deletettl 7 x61 5",
         "offer 7 3", "beat 7", "get 7 x61", "list 7 x 32", "gc 9 1", "digest - 0 258 0", "compute x0000 100 - 0 0 100 0", "plan x0000 100 - 7 1 0 100 0",
         "planfault x0000 100 - 7 1 0", "apply x 5 8")


def u64(*numbers):
    return b"".join(struct.pack("<Q", n) for n in numbers)


def u16(number):
    return struct.pack("<H", number)


def x(data):
    return "x" + data.hex()


# A delta's operations, in bytes.
def node(number, last_gc=0, start=0):
    return b"\0" + u64(number, last_gc, start)


def kv(key, value, version, status=0):
    return b"\1" + u16(len(key)) + key + u16(len(value)) + value + u64(version) + bytes([status])


def top(version):
    return b"\2" + u64(version)


def digest(*entries, count=None):
    return u16(len(entries) if count is None else count) + b"".join(u64(*entry) for entry in entries)


def bare(*entries):
    """A digest of the second edition."""
    return digest(*entries)[2:]


# A table's bytes.
def record(key, value, version, status=0, start=0):
    return bytes([len(key)]) + key.ljust(32, b"\0") + bytes([len(value)]) + value.ljust(64, b"\0") + u64(version) + bytes([status]) + u64(start)


def slot(number, records, max_version, heartbeat=0, last_gc=0):
    return (u64(number, heartbeat, max_version, last_gc) + bytes([len(records)]) + b"".join(records)).ljust(NODE, b"\0")


def table(*slots, mode=0, profile=0, removed=()):
    """The removed nodes with their heartbeats, the longest remembered first."""
    tail = bytes([mode, profile, len(removed)]) + b"".join(u64(*pair) for pair in removed)
    return ((bytes([len(slots)]) + b"".join(slots)).ljust(AREA, b"\0") + tail).ljust(TABLE, b"\0")


def grid(*numbers, told={}):
    """A grid's bytes: the columns' numbers, and of each peer present a pair of last_gc and max for each column."""
    arrays = [b"".join(u64(*(pair[which] for pair in told.get(peer, ()))).ljust(64, b"\0") for peer in range(8)) for which in (0, 1)]
    present = bytes(peer in told for peer in range(8))
    return bytes([len(numbers)]) + u64(*numbers).ljust(64, b"\0") + present + b"".join(arrays)


def put(data, place, byte):
    return data[:place] + bytes([byte]) + data[place + 1:]


def apply(*ops, now=5, places=8):
    return f"apply {x(b''.join(ops))} {now} {places}"


def nodes():
    """Eight nodes and no ninth; one held already changes nothing; removal in the middle and at both ends."""
    yield "remove 0"
    numbers = (5, 0, TOP, 3, 2**63, 256, 255, 1)
    for number in numbers:
        yield f"add {number}"
    for number in (4, 5, 0, TOP, 6):
        yield f"add {number}"
    yield "write 256 x61 x31 0 9"
    for number in (4, 0, 0, 255, TOP, 3):
        yield f"remove {number}"
    for number in (9, 255, 0, 3, 10):
        yield f"add {number}"
    yield "get 256 x61"
    yield "get 255 x61"
    yield "new"
    yield "remove 5"


def nodes_used():
    """Nodes with more and with fewer records move to each other's places, up and down: what stood behind the shorter one goes."""
    for number, count in ((10, 2), (20, 0), (30, 5), (40, 1), (50, 32)):
        yield f"add {number}"
        for key in range(count):
            yield f"write {number} {x(b'%02d' % key)} {x(bytes([48 + number // 10]) * (1 + key))} 0 9"
    for number in (10, 30):
        yield f"remove {number}"
    for number in (5, 60, 25, 45):
        yield f"add {number}"
    yield f"write 25 {x(b'k')} {x(b'v')} 0 9"
    for number in (5, 20, 60):
        yield f"remove {number}"
    yield "add 1"
    yield "remove 50"
    for number in (50, 41, 2):
        yield f"add {number}"
    for number in (1, 25, 40):
        yield f"remove {number}"
    yield "dump"


def removed():
    """Removed nodes are remembered with their last heartbeats, sixteen of them; adding forgets one, and asking changes nothing."""
    yield "removed 1"
    yield "remove 1"
    yield "removed 1"
    yield "add 1"
    yield "removed 1"
    yield "remove 1"
    yield "removed 1"
    yield "add 1"
    yield "removed 1"
    for number in range(2, 19):
        yield f"add {number}"
        yield f"offer {number} {100 + number}"
        yield f"remove {number}"
        yield f"remove {number}"
    # 2 went by the seventeenth; 3 is the longest remembered now, and asking for it does not make it younger.
    for number in (2, 3, 18, 3):
        yield f"removed {number}"
    yield "add 19"
    yield f"offer 19 {TOP}"
    yield "remove 19"
    for number in (3, 4, 19):
        yield f"removed {number}"
    # One in the middle is forgotten; the others keep their order, so that the next two removals need no room.
    yield "add 10"
    yield "removed 10"
    yield "add 10"
    for number in (4, 9, 11, 18):
        yield f"removed {number}"
    yield "remove 10"
    yield "removed 10"
    yield "removed 4"
    yield "remove 1"
    yield "removed 1"
    yield "removed 4"
    yield "removed 5"
    # A ninth node is refused and forgets nothing; a node that is held is added again and forgets nothing.
    for number in range(20, 28):
        yield f"add {number}"
    yield "add 5"
    yield "removed 5"
    yield "add 20"
    yield "removed 6"
    yield "dump"
    # A reset is no removal, and a removal by the clock takes records alone.
    yield "offer 20 7"
    yield apply(node(20, 3), top(3))
    yield "removed 20"
    yield "gc 9 1"
    yield "remove 20"
    yield "removed 20"
    yield "make 1"
    yield "removed 5"
    # Tables with a memory of their own: full, and with the largest numbers.
    full = tuple((number, number + 100) for number in range(30, 46))
    yield f"table {x(table(slot(7, [], 0, heartbeat=9), removed=full, mode=1))}"
    for call in ("removed 30", "removed 45", "removed 7", "removed 0", "remove 7", "removed 30", "removed 31", "removed 7", "add 40", "dump"):
        yield call
    yield f"table {x(table(slot(0, [], 0), removed=((TOP, TOP), (1, 0))))}"
    for call in (f"removed {TOP}", "removed 1", "removed 0", f"add {TOP}", f"removed {TOP}", "remove 0", "removed 0", "dump"):
        yield call


def bad_memories():
    """14 for a memory of more than 16, with a node twice, with one that is held, or with a free place that is not zero."""
    seven = slot(7, [], 0)
    pairs = tuple((number, 5) for number in range(20, 36))
    broken = (put(table(seven, removed=pairs), AREA + 2, 17), put(table(seven), AREA + 2, 255), table(seven, removed=((7, 5),)),
              table(seven, removed=pairs[:15] + ((7, 5),)), table(seven, removed=pairs[:2] + ((21, 6),)), table(seven, removed=pairs[:15] + ((20, 5),)),
              put(table(seven, removed=pairs[:1]), AREA + 3 + 16, 1), put(table(seven, removed=pairs[:15]), TABLE - 1, 1),
              put(table(seven, removed=pairs), AREA + 2, 15), put(table(seven, removed=pairs), AREA + 1, 255))
    for data in broken:
        yield f"table {x(data)}"
        yield from ("removed 7", "removed 20", "add 7", "remove 7", "beat 7")
    yield f"table {x(table(seven, removed=pairs))}"
    yield from ("removed 7", "removed 20", "add 7", "remove 7", "beat 7")
    yield f"table {x(put(table(seven), AREA + 2, 1))}"
    yield from ("removed 0", "add 0", "removed 0")


def beats():
    """Heartbeats held at 0 and above, offered below, at and above, and at the end."""
    yield "offer 1 5"
    yield "beat 1"
    yield "add 1"
    for heartbeat in (0, 5, 5, 4, 6, 0, TOP - 1, TOP - 1):
        yield f"offer 1 {heartbeat}"
    for _ in range(3):
        yield "beat 1"
    yield "offer 1 6"
    yield f"offer 1 {TOP}"
    yield "add 2"
    yield "beat 2"
    yield "offer 2 1"
    yield "offer 2 2"


def sizes():
    """Keys of 0, 31, 32 and 33 bytes, values of 0, 63, 64 and 65, in each call that takes them; 2 before 1, 1 before 3."""
    keys = [b"k" * n for n in (0, 1, 31, 32, 33)]
    values = [b"v" * n for n in (0, 1, 63, 64, 65)]
    writes = ("write 1 {} {} 0 9", "write 1 {} {} 2 7")
    for call in ("write 1 {} {} 0 9", "write 1 {} {} 2 7", "delete 1 {} 7", "deletettl 1 {} 7", "get 1 {}", "list 1 {} 0"):
        yield call.format(x(keys[4]), x(values[4]))
    yield "add 1"
    for call in writes:
        for key in keys:
            yield call.format(x(key), x(b"v"))
        for value in values:
            yield call.format(x(b"w"), x(value))
        yield call.format(x(keys[4]), x(values[4]))
        yield call.format(x(keys[3]), x(values[3]))
    for key in keys:
        for call in ("get 1 {}", "list 1 {} 32", "list 1 {} 0", "delete 1 {} 7", "get 1 {}", "deletettl 1 {} 8", "get 1 {}"):
            yield call.format(x(key))
    for key in (b"kk", b"k" * 33):
        yield f"delete 1 {x(key)} 7"
        yield f"deletettl 1 {x(key)} 7"


def versions():
    """The last version and the 33rd key: 1, 3, nothing to change, 5, 6 in this order."""
    yield "add 1"
    for place in range(31):
        yield f"write 1 {x(b'k%02d' % place)} x 0 9"
    yield "write 1 x6b3939 x31 2 9"
    for call in ("write 1 x6e x31 0 9", "write 1 x6e x31 2 4", "write 1 x6b3030 x 0 9", "write 1 x6b3939 x31 2 10", "write 1 x6b3939 x31 0 9",
                 "write 1 x6b3030 x 2 4"):
        yield call
    yield f"write 1 {x(b'n' * 33)} x 0 9"
    yield apply(node(1), top(TOP - 1), places=1)
    yield "write 1 x6b3031 x32 0 9"
    writes = ("write 1 x6b3031 x32 0 9", "write 1 x6b3031 x33 0 9", "write 1 x6b3031 x32 2 4", "write 1 x6b3030 x 2 9", "delete 1 x6b3031 4",
              "deletettl 1 x6b3031 4", "write 1 x6e x31 0 9", "write 1 x6e x31 2 4", "delete 1 x6e 4", "deletettl 1 x6e 4",
              "delete 1 x6b3939 4", "get 1 x6b3031")
    yield from writes
    for call in ("write 1 {} x 0 9", "write 1 {} x 2 4", "delete 1 {} 4", "deletettl 1 {} 4"):
        yield call.format(x(b"n" * 33))
    yield f"write 1 x6b3031 {x(b'v' * 65)} 0 9"
    yield "gc 100 1"
    yield from writes
    yield "offer 1 5"
    yield "compute x0000 16384 - 0 0 16384 0"


def statuses():
    """Each write on a record of each status, with the same value and with another one; what a reader sees."""
    def look():
        yield "get 1 x61"
        yield "list 1 x 9"
    first = ("write 1 x61 x31 0 9", "write 1 x61 x31 2 3", "delete 1 x61 4", "deletettl 1 x61 6")
    second = first + ("write 1 x61 x32 0 9", "write 1 x61 x32 2 8", "write 1 x61 x 0 9", "write 1 x61 x 2 8")
    yield "add 1"
    for a in first:
        for b in second:
            yield "remove 1"
            yield "add 1"
            yield "write 1 x61 x31 0 9"
            yield a
            yield b
            yield from look()
    yield from (apply(node(1, 0, 0), kv(b"a", b"dead", 99, 1)), *look(), "deletettl 1 x61 5", *look(), "write 1 x61 x 0 9", "delete 1 x61 3", *look())


def wanted():
    """The write's wanted status: Set and TTL alone; any other number is 10, straight after 14 and before 2, 1, nothing to change, 5, 6.
    Under Set the time is not looked at."""
    others = (1, 3, 4, 10, 255, 256, 258, 2**32, 2**32 + 2, 2**63, 2**63 + 2, TOP)
    def each(key, value, now=7):
        yield from (f"write 1 {x(key)} {x(value)} {status} {now}" for status in others)
    yield "table x"
    yield from each(b"a", b"1")
    yield "new"
    yield from each(b"a", b"1")
    yield from each(b"k" * 33, b"v" * 65)
    yield "add 1"
    yield from each(b"k" * 33, b"1")
    yield from each(b"a", b"v" * 65)
    yield from each(b"a", b"1")
    for now in (TOP, 0, 7):
        for status, value in ((0, "x31"), (0, "x31"), (2, "x31"), (2, "x31"), (0, "x31"), (0, "x32"), (2, "x32"), (2, "x33"), (0, "x33")):
            yield f"write 1 x61 {value} {status} {now}"
        yield from each(b"a", b"3", now)
    yield "delete 1 x61 8"
    yield from each(b"a", b"")
    yield "write 1 x61 x 0 9"
    yield "write 1 x61 x 2 9"
    yield "get 1 x61"
    for place in range(31):
        yield f"write 1 {x(b'k%02d' % place)} x {place % 2 * 2} {place}"
    yield from each(b"n", b"1")
    yield apply(node(1), top(TOP))
    yield from each(b"a", b"")
    yield from each(b"a", b"1")


def reading():
    """Hits in key order, hidden ones counted but not told; just enough places and one too few; 2, 1, 8 in this order."""
    yield "list 1 x 0"
    yield f"list 1 {x(b'k' * 33)} 0"
    yield "add 1"
    yield "list 1 x 0"
    keys = (b"b", b"", b"a", b"ab", b"abc", b"b\0", b"\0", "é".encode(), "éa".encode(), "\U0010ffff".encode(), b"k" * 32)
    for key in keys:
        yield f"write 1 {x(key)} {x(key[:1] if key[:1] < bytes([128]) else b'')} 0 9"
    yield "delete 1 x6162 3"
    yield "deletettl 1 x62 3"
    for key in keys + (b"abcd", b"c", b"k" * 31):
        yield f"get 1 {x(key)}"
        for places in (0, 1, 2, 3, 9, 10, TOP):
            yield f"list 1 {x(key)} {places}"
    yield f"list 1 {x(b'k' * 33)} 0"
    yield f"list 2 {x(b'k' * 33)} 0"
    yield "get 2 x61"
    for place in range(22):
        yield f"write 1 {x(b'm%02d' % place)} x 0 9"
    for places in (20, 21, 22, 23):
        yield f"list 1 x6d {places}"
    for places in (29, 30, 31, 32, 33):
        yield f"list 1 x {places}"


def keys():
    """Keys are ordered by their first difference, whatever stands behind it: at each of the first 16 places, which are two words of eight."""
    yield "add 1"
    for place in range(16):
        for byte, behind in ((b"a", b"z"), (b"b", b"a")):
            yield f"write 1 {x(b'm' * place + byte + behind * (19 - place))} x 0 9"
    yield "list 1 x6d 32"


def removal():
    """Grace at 149 and 150, sums past 2^64, last_gc as the larger, all nodes, live records stay, freed room."""
    yield "add 1"
    yield "add 2"
    yield "write 1 x61 x31 0 9"
    yield "write 1 x62 x32 0 9"
    yield "write 1 x63 x33 2 100"
    yield "delete 1 x62 101"
    yield "write 2 x61 x31 0 9"
    yield "deletettl 2 x61 100"
    yield "gc 0 0"
    for now in (99, 149, 150, 150, 151):
        yield f"gc {now} 50"
    yield "write 1 x62 x33 0 9"
    yield "delete 1 x62 0"
    yield f"gc {TOP} {TOP}"
    yield f"write 2 x61 x 2 {TOP}"
    for now, grace in ((0, 0), (TOP - 1, 0), (TOP, 1), (TOP, TOP), (TOP, 0)):
        yield f"gc {now} {grace}"
    yield apply(node(1, 40, 0), kv(b"a", b"v", 45, 1), kv(b"b", b"v", 50, 2), kv(b"c", b"v", 60), now=7)
    yield "gc 7 1"
    yield "gc 7 0"
    yield "digest - 0 66 0"
    yield "new"
    yield "add 1"
    for place in range(32):
        yield f"write 1 {x(b'k%02d' % place)} x 2 {place}"
    yield "write 1 x6e x 0 9"
    yield "gc 10 3"
    yield "list 1 x 32"
    yield "write 1 x6e x 0 9"
    yield "delete 1 x6b3331 40"
    yield "gc 40 30"
    yield "list 1 x 32"
    yield "digest - 0 34 0"
    yield "gc 9 0"


def digests():
    """Writing: excluded nodes, repeats and strangers, exactly enough bytes and one too few, places to the end and past it."""
    yield "digest - 0 0 0"
    yield "digest - 0 1 0"
    yield "digest - 0 2 0"
    yield "digest - 2 2 0"
    yield "digest - 1 3 0"
    for number in (9, 3, TOP, 0, 7, 256, 4, 1):
        yield f"add {number}"
        yield f"offer {number} {number % 97}"
        yield f"write {number} x61 x31 0 9"
    yield "delete 7 x61 1"
    yield "gc 5 1"
    for excluded, size in (("-", 258), ("3", 226), ("3,3,3", 226), ("5,6,8,10,11,12,13,14,15", 258), (f"{TOP},0", 194), ("0,1,3,4,7,9,256", 34),
                           (f"0,1,3,4,7,9,256,{TOP}", 2)):
        yield f"digest {excluded} 0 {size} 0"
        yield f"digest {excluded} 0 {size - 1} 0"
        yield f"digest {excluded} 7 {size + 7} 0"
        yield f"digest {excluded} 7 {size + 6} 0"
    for place, size in ((0, 300), (42, 300), (43, 300), (300, 300), (301, 300), (TOP, 300), (TOP - 1, 300), (20, 300)):
        yield f"digest - {place} {size} 0"
    yield "readdigest @digest 0"
    yield "digest 3 0 226 0"
    yield "digest - 0 5 0"
    yield "readdigest @digest 0"


def digest_reading():
    """Cut in the count, 13, cut in the entries; repeats, any order, the rest."""
    good = digest((2, 1, 2, 3), (1, 4, 5, 6), (2, 7, 8, 9), (TOP, TOP, TOP, TOP))
    eight = [(n, n + 1, n + 2, n + 3) for n in (80, 70, 60, 50, 40, 30, 20, 10)]
    for size in (0, 1, 2, 33, 34, 129, 130):
        yield f"readdigest {x(good[:size])} 0"
    yield f"readdigest {x(good + b'rest')} 0"
    yield f"readdigest {x(digest())} 0"
    yield f"readdigest {x(digest() + b'!')} 0"
    yield f"readdigest {x(digest(*eight))} 0"
    yield f"readdigest {x(digest(*eight[:7], eight[0]))} 0"
    yield f"readdigest {x(digest(*eight)[:-1])} 0"
    for count in (9, 255, 256, 65535):
        yield f"readdigest {x(digest(count=count))} 0"
    yield f"readdigest {x(digest(*eight, (1, 1, 1, 1)))} 0"
    yield f"readdigest {x(digest(*eight, count=7))} 0"
    yield f"readdigest {x(digest((5, 1, 1, 1), (5, 0, 0, 0)))} 0"
    yield "readdigest @digest 0"
    yield "readdelta @delta"


def editions():
    """Both editions: exactly enough bytes and one too few, 20 before 8 and before the digest's numbers; V1 cut anywhere, 9 before 13, no rest; a repeated node;
    editions confused; computing's order; two hubs that use V1."""
    yield "digest - 0 0 1"
    yield "digest - 0 4 1"
    yield "digest - 3 9 1"
    yield "digest - 0 0 2"
    yield "digest - 9 0 2"
    for number in (9, 3, TOP, 0, 7, 256, 4, 1):
        yield f"add {number}"
        yield f"offer {number} {number % 97}"
        yield f"write {number} x61 x31 0 9"
    for excluded, size in (("-", 256), ("3", 224), (f"{TOP},0,1,3,4,7,9", 32), (f"0,1,3,4,7,9,256,{TOP}", 0)):
        yield f"digest {excluded} 0 {size} 1"
        yield f"digest {excluded} 7 {size + 7} 1"
        yield f"digest {excluded} 7 {size + 6} 1"
    yield "digest - 0 255 1"
    yield "digest - 5 300 1"
    for edition in (1, 0, 2, 3, TOP):
        yield f"readdigest @digest {edition}"
    yield "digest - 5 300 0"
    for edition in (0, 1, 2):
        yield f"readdigest @digest {edition}"
    for edition in (2, 3, 256, TOP - 1, TOP):
        yield f"digest - 0 258 {edition}"
        yield f"readdigest x {edition}"
        yield f"readdigest x0900 {edition}"
    two, eight = bare((1, 2, 3, 4), (5, 6, 7, 8)), bare(*((n, n + 1, n + 2, n + 3) for n in (80, 70, 60, 50, 40, 30, 20, 10)))
    for size in range(len(two) + 1):
        yield f"readdigest {x(two[:size])} 1"
    nine = eight + bare((1, 1, 1, 1))
    for data in (eight, eight + b"!", eight + bytes(31), nine[:-1], nine, nine + b"!", nine + nine, bytes(288), bytes(289), bytes(320)):
        yield f"readdigest {x(data)} 1"
    yield f"readdigest {x(bare((5, 1, 1, 1), (5, 0, 0, 0)))} 1"
    yield f"readdigest {x(bare((5, 1, 1, 1), (4, 9, 9, 9), (5, 0, 0, 0)))} 1"
    yield "new"
    yield "add 1"
    yield "write 1 x61 x31 0 9"
    for data in (b"", bare((1, 0, 0, 0)), bare((1, 0, 0, 1)), bare((1, 0, 0, 0), (1, 0, 0, 1)), bare((1, 0, 0, 1), (1, 0, 0, 0)), eight, two[:-1], nine, nine[:-1]):
        yield f"compute {x(data)} 100 - 0 0 100 1"
    for mtu, ties, size in ((99, "0", 99), (100, "0", 99), (100, "-", 100), (100, "0", 100)):
        for edition, data in ((2, b""), (1, two[:-1]), (1, nine), (0, two[:-1]), (TOP, nine)):
            yield f"compute {x(data)} {mtu} - {ties} 0 {size} {edition}"
    yield "hub 1"
    yield "add 1"
    for edition, read in ((1, 1), (1, 0), (0, 1), (0, 0)):
        yield "hub 1"
        yield f"digest - 3 40 {edition}"
        yield "hub 0"
        yield f"compute @digest 100 - 0 0 100 {read}"
        yield "hub 1"
        yield "apply @delta 5 1"


def delta_reading():
    """Each fault of a stream and its place: fields from left to right, then 11, 12, 13 on the whole operation."""
    def read(*ops):
        return f"readdelta {x(b''.join(ops))}"
    yield read()
    good = [node(1, 2, 3), kv(b"", b"", 1), kv(b"k" * 32, b"v" * 64, 2, 1), top(2), top(9), kv("é".encode(), b"t", 10, 2), node(0), top(0), top(0), node(TOP, TOP, TOP),
            kv(b"z", b"41", TOP)]
    for count in range(1, len(good) + 1):
        yield read(*good[:count])
    whole = b"".join(good)
    for size in (1, 9, 17, 24, 26, 27, 28, 29, 30, 38, 39, 41, 42, 73, 74, 75, 139, 140, 147, 148, 149, 150, 157):
        yield read(whole[:size])
    for tag in (3, 4, 255):
        yield read(node(1), bytes([tag]))
        yield read(bytes([tag]))
    start = node(1) + kv(b"a", b"b", 5)
    faults = (kv(b"k" * 33, b"v", 6), kv(b"k", b"v" * 65, 6), kv(b"k" * 33, b"v" * 65, 5, 3), kv(b"k", b"v" * 65, 5, 3), kv(b"k", b"v", 6, 3), kv(b"k", b"v", 5, 3),
              kv(b"k", b"v", 5), kv(b"k", b"v", 4), kv(b"k", b"v", 0), kv(b"k", b"v", 6, 255), top(4), top(0), node(1), node(1) + node(1))
    yield "add 1"
    for fault in faults:
        yield read(start, fault)
        yield read(start, fault[:-1])
        yield read(fault)
        yield apply(start, fault, places=0)
    for key, value in ((33, 65), (65535, 65535)):
        yield read(start, b"\1" + u16(key))
        yield read(start, b"\1" + u16(1) + b"k" + u16(value))
    yield read(start, b"\1" + u16(32) + b"k" * 31)
    yield read(start, b"\1" + u16(1) + b"k" + u16(64) + b"v" * 63)
    yield read(kv(b"a", b"", 0))
    yield read(node(1), kv(b"a", b"", 0))
    yield read(node(1), top(TOP), kv(b"a", b"", TOP))
    yield read(node(1), top(TOP - 1), kv(b"a", b"", TOP), top(TOP), top(TOP - 1))
    yield read(node(1), kv(b"a", b"", 7), node(2), kv(b"a", b"", 1), node(3), top(0))
    for numbers in (range(8), range(9), (*range(8), 0), (*range(8), 7), (*range(7), 0), (0, 1, 2, 1), (*range(8), 9, 9)):
        ops = [node(number) for number in numbers]
        yield read(*ops)
        yield read(*ops)[:-2]
    yield read(*(node(number) for number in range(8)), top(1), top(2), b"\0")
    yield apply(*(node(number) for number in range(9)), places=0)
    yield apply(start[:-1], places=0)
    yield read(node(1), kv(b"a", b"1", 1), kv(b"a", b"2", 2), kv(b"a", b"3", 3, 1))


def lacking():
    """What the field lacks in which the bytes end: an operation and a digest, cut off anywhere."""
    yield "add 7"
    start, longest = node(7), kv(b"k" * 32, b"v" * 64, 9)
    for op in (node(8, 9, 10), kv(b"ab", b"123", 4, 1), kv(b"", b"", 5), top(6)):
        for size in range(1, len(op)):
            yield f"readdelta {x(start + op[:size])}"
    for size in (3, 4, 34, 35, 36, 37, 38, 100, 101, 108, 109):
        yield f"readdelta {x(longest[:size])}"
        yield apply(start, longest[:size], places=0)
    two = digest((1, 2, 3, 4), (5, 6, 7, 8))
    for size in range(len(two)):
        yield f"readdigest {x(two[:size])} 0"
    for size in (0, 1, 2, 3, 9, 10, 33, 34, 65):
        yield f"compute {x(two[:size])} 100 - 0 0 100 0"


def delta_lengths():
    """16,384 bytes are read and 16,385 are not, before anything else in them is looked at."""
    longest = b"".join(node(number) + top(9) * 257 for number in range(7)) + top(9) * 2
    assert len(longest) == 16384
    yield "add 3"
    yield f"apply {x(bytes([7]) + longest)} 5 0"
    yield f"apply {x(longest)} 5 7"
    yield f"readdelta {x(bytes([7]) + longest)}"
    yield f"readdelta {x(longest)}"


def asking():
    """Computing's numbers alone: 7, 8, 15, then the digest's 9, 13, 9, each pair in this order."""
    yield "add 1"
    yield "add 2"
    yield "write 1 x61 x31 0 9"
    good, bad = "x0000", ("x00", "x0900", x(digest(count=9) + bytes(288)), x(digest(count=1) + bytes(31)), x(digest(count=8)), "x")
    for mtu in (0, 99, 100, 16384, 16385, TOP):
        for place, size in ((0, min(mtu, 16385)), (1, min(mtu, 16385)), (TOP, 100), (0, 0)):
            for ties in ("0,0", "0", "-", "0,0,0"):
                yield f"compute {good} {mtu} 1,2 {ties} {place} {size} 0"
    for digested in bad:
        for mtu, ties, size in ((100, "0,0", 100), (99, "0,0", 99), (100, "0", 100), (100, "0,0", 99), (16384, "0,0", 16384)):
            yield f"compute {digested} {mtu} - {ties} 0 {size} 0"
    for place, size in ((100, 200), (101, 200), (200, 200), (201, 200), (0, 100), (7, 120), (TOP, 200), (TOP - 99, 200)):
        yield f"compute {good} 100 - 0,0 {place} {size} 0"
    yield f"compute {x(digest((1, 0, 0, 0), (1, 0, 0, 1)) + b'rest')} 100 - 0,0 0 100 0"
    yield f"compute {x(digest((1, 0, 0, 1), (1, 0, 0, 0)))} 100 - 0,0 0 100 0"
    yield "readdelta @delta"
    yield "new"
    yield "compute x0000 100 - - 0 100 0"
    yield "compute x0000 100 - 0 0 100 0"
    yield "compute x 100 - - 0 100 0"


def from_where():
    """Own (4,9) and (10,3) against digest pairs around them."""
    for last_gc, most in ((4, 9), (10, 3), (0, 5)):
        yield "new"
        yield "add 1"
        yield apply(node(1, last_gc), kv(b"b", b"2", 2), kv(b"c", b"3", 3), top(most))
        for pair in ((0, 0), (0, 2), (0, 3), (0, 4), (0, 5), (0, 8), (0, 9), (0, 10), (3, 2), (4, 2), (4, 3), (5, 3), (9, 2), (10, 2), (11, 0), (TOP, TOP), (TOP, 0)):
            yield f"compute {x(digest((1, 77, *pair)))} 200 - 0 0 200 0"
        yield f"compute {x(digest((2, 0, 0, 9)))} 200 - 0 0 200 0"
        yield "compute x0000 200 1 0 0 200 0"


def in_line():
    """From 0 first by rising max, whatever the count of records, then by most stale records; ties by the lent list, then by number."""
    yield from (f"add {number}" for number in (1, 2, 3, 4, 5, 6, 7, 8))
    for number, writes in ((1, 3), (2, 1), (3, 3), (4, 2), (5, 4), (6, 4), (7, 5), (8, 4)):
        for write in range(writes):
            yield f"write {number} {x(bytes([97 + (write if number > 1 else 0)]))} {x(bytes([97 + write]))} 0 9"
    partly = x(digest((5, 0, 0, 1), (6, 0, 0, 1), (7, 0, 0, 1), (8, 0, 0, 3)))
    for ties in ("0,0,0,0,0,0,0,0", "8,7,6,5,4,3,2,1", f"1,0,0,1,{TOP},0,0,0", "5,0,5,0,0,1,9,9"):
        for excluded in ("-", "3,7,99,3", "1,2,3,4", "5,6,7,8"):
            yield f"compute {partly} 16384 {excluded} {ties} 0 16384 0"
        yield f"compute {partly} 100 - {ties} 3 110 0"
    yield "compute x0000 16384 - 0,0,0,0,0,0,0 0 16384 0"
    yield "compute x0000 16384 1,2,3,4,5,6,7,8 0,0,0,0,0,0,0,0 0 16384 0"


def cuts():
    """The MTU at the end of each operation and one below it: a record or a Node ends the delta, a SetMaxVersion is dropped."""
    yield "add 1"
    yield "add 2"
    yield "add 3"
    yield apply(node(1), top(20))
    for write in range(5):
        yield f"write 2 {x(bytes([97 + write]))} {x(b'v' * (13 * write))} 0 9"
    yield f"write 3 {x(b'k' * 32)} {x(b'v' * 64)} 0 9"
    yield "write 3 x61 x31 2 4"
    yield "delete 3 x61 5"
    for order in ("0,0,0", "2,1,0", "1,2,0"):
        for mtu in (100, 101, 118, 119, 120, 124, 125, 134, 135, 136, 149, 150, 151, 170, 171, 183, 184, 185, 209, 210, 230, 231, 249, 250, 260, 261, 275, 276, 277,
                    298, 299, 310, 311, 312, 400):
            yield f"compute x0000 {mtu} - {order} 0 {mtu} 0"
    for pair in ((1, 0, 0, 0), (1, 0, 0, 19), (1, 0, 0, 20)):
        for mtu in (100, 101, 169, 170, 171, 200, 400):
            yield f"compute {x(digest(pair, (2, 0, 0, 2)))} {mtu} - 0,0,0 5 {mtu + 9} 0"


def plan(nodes, counts, told=digest(), mtu=100, excluded="-", edition=0, place=0, size=None):
    """Both lines of a plan: what is at fault in it, and the delta."""
    asked = f"{x(told)} {mtu} {excluded} {nodes} {counts}"
    yield f"planfault {asked} {edition}"
    yield f"plan {asked} {place} {min(mtu, 16385) if size is None else size} {edition}"


def planned_nodes():
    """Eight nodes: records whose versions do not follow their keys, a tombstone and a TTL among them; no records; a reset that is due, with records and
    without; and a node of which the digest below has the max, but not last_gc."""
    return table(
        slot(1, [record(b"a", b"3", 3, 2, 5), record(b"b", b"", 1, 1, 4), record(b"c", b"2", 2)], 3),
        slot(2, [record(b"k", b"v" * 60, 9)], 9), slot(3, [], 7),
        slot(4, [record(b"a", b"6", 6), record(b"b", b"2", 2)], 6, last_gc=5), slot(5, [], 2, last_gc=2), slot(6, [record(b"a", b"5", 5)], 5, last_gc=5),
        slot(7, [record(bytes([97 + n]), b"v", 4 - n) for n in range(4)], 4), slot(8, [record(b"k", b"v" * 61, TOP)], TOP))


PLANNED = ((4, 0, 0, 3), (5, 0, 0, 1), (6, 0, 0, 5), (7, 0, 0, 2))


def plans():
    """Each condition of a plan alone, beside plans that pass it: held, not excluded, named once, stale, the count. From, the lowest versions first, and
    SetMaxVersion, in the plan's order."""
    yield f"table {x(planned_nodes())}"
    told = digest(*PLANNED)
    def ask(nodes, counts, excluded="-", mtu=16384):
        return plan(nodes, counts, told, mtu, excluded)
    yield from ask("-", "-")
    for number, most in ((1, 3), (2, 1), (3, 0), (4, 2), (5, 0), (6, 0), (7, 2), (8, 1)):
        for count in (*range(most + 2), 33, 256, 2**32, 2**63, TOP - 1, TOP):
            yield from ask(number, count)
        yield from ask(number, most, f"9,{number}")
        yield from ask(number, most, "9,10")
    for number in (0, 9, 256 + 1, 2**32 + 1, TOP):
        yield from ask(number, 0)
        yield from ask(number, 1, number)
    for nodes, counts in (("1,2", "3,1"), ("2,1", "1,3"), ("3,1", "0,2"), ("7,5,4,1", "1,0,1,1"), ("8,7,5,4,3,2,1", "1,2,0,2,0,1,3"), ("1,2,3,4,5,7,8", "1,1,0,1,0,1,1")):
        yield from ask(nodes, counts)
        yield "readdelta @delta"
    # Named twice, and two faults in one line, or in two: the first one is told.
    for nodes, counts in (("1,1", "1,1"), ("1,1", "1,2"), ("1,2,1", "1,1,1"), ("3,3", "0,0"), ("1,2,2,1", "1,1,1,1"), ("1,1", "1,4"), ("1,1", "1,0"), ("1,1", "4,1"), ("9,9", "0,0"),
                          ("6,6", "0,0"), ("1,6,9", "1,0,0"), ("1,9,6", "1,0,0"), ("1,6", "1,1"), ("1,2", "0,2"), ("1,2", "1,2"), ("3,1,2", "1,0,0")):
        yield from ask(nodes, counts)
    for nodes, excluded in (("1,1", "1"), ("2,1", "1"), ("9", "9"), ("6", "6"), ("1,6", "6"), ("1,1", "2")):
        yield from ask(nodes, "1,1"[:len(nodes)], excluded)
    # Nothing but a max, and the digest is not at the beginning.
    for told_max in (3, 6, 7):
        yield from plan("3", "0", digest((3, 0, 0, told_max)), 16384)
    yield from plan("3", "1", digest((3, 0, 0, 6)), 16384)
    # What the digest leaves out counts as (0,0); what it tells twice, as it is told last.
    yield from plan("6", "1", digest(), 16384)
    yield from plan("4,6,7", "2,1,4", digest((5, 0, 0, 9)), 16384)
    yield from plan("7", "2", digest((7, 0, 0, 4), (7, 0, 0, 2)), 16384)
    yield from plan("7", "2", digest((7, 0, 0, 2), (7, 0, 0, 4)), 16384)
    yield "dump"


def plan_lists():
    """Lists of unequal length, nine lines and more, in either edition."""
    yield f"table {x(planned_nodes())}"
    for edition, told in ((0, digest(*PLANNED)), (1, bare(*PLANNED))):
        def ask(nodes, counts):
            return plan(nodes, counts, told, 16384, edition=edition)
        for nodes, counts in (("1", "-"), ("-", "1"), ("-", "0"), ("1,2", "1"), ("1", "1,1"), ("1,2,3", "1"), ("9", "-"), ("9,1", "1"), ("1", "0,0"), ("1,1", "1"), ("1", "1,1,1,1,1,1,1,1,1")):
            yield from ask(nodes, counts)
        # All eight nodes, but for the one that is not stale; then a ninth line.
        seven, counts = "1,2,3,4,5,7,8", "1,1,0,1,0,1,1"
        for more, count in (("", ""), (",6", ",1"), (",8", ",1"), (",9", ",0"), (",9,10", ",0,0"), (",9", ""), ("", ",1")):
            yield from ask(seven + more, counts + count)
    eight = [slot(number, [], 1) for number in range(1, 9)]
    yield f"table {x(table(*eight))}"
    all_eight = ",".join(str(number) for number in range(1, 9))
    for more, count in (("", ""), (",1", ",0"), (",9", ",0"), (",8,9,10,11,12,13,14,15", ",0,0,0,0,0,0,0,0"), (",9", ""), ("", ",0")):
        yield from plan(all_eight + more, "0,0,0,0,0,0,0,0" + count, mtu=272)
    yield from plan("8,7,6,5,4,3,2,1", "0,0,0,0,0,0,0,0", mtu=272)
    yield from plan("8,7,6,5,4,3,2,1", "0,0,0,0,0,0,0,0", mtu=271)
    yield "new"
    for nodes, counts in (("-", "-"), ("0", "0"), ("-", "0"), ("0", "-")):
        yield from plan(nodes, counts)


def plan_cuts():
    """The bytes at the MTU and one above it: nothing is cut, and a SetMaxVersion is not dropped."""
    yield f"table {x(planned_nodes())}"
    told = digest(*PLANNED)
    for nodes, counts, size in (("2", "1", 100), ("8", "1", 101), ("3,5", "0,0", 68), ("8,3", "1,0", 135), ("3,8", "0,1", 135), ("1,2", "1,1", 140), ("7,5,4,1", "1,0,1,1", 156),
                                ("8,7,5,4,3,2,1", "1,2,0,2,0,1,3", 455), ("1,2,3,4,5,7,8", "3,1,0,2,0,2,1", 455)):
        for mtu in sorted({100, max(size - 1, 100), max(size, 100), 455}):
            yield from plan(nodes, counts, told, mtu)
    # Three nodes with nothing but a max: 102 bytes.
    yield "new"
    for number in (1, 2, 3):
        yield f"add {number}"
        yield apply(node(number), top(number))
    for mtu in (100, 101, 102):
        yield from plan("3,1,2", "0,0,0", mtu=mtu)
    # Five full nodes and a record: 16,384 bytes.
    full = [slot(number, [record(b"%032d" % n, b"v" * 55, 1 + n) for n in range(32)], 40) for number in range(1, 6)]
    for longer in (0, 1):
        sixth = slot(6, [record(b"k" * 30, b"v" * (30 + longer), 1)], 1)
        yield f"table {x(table(*full, sixth))}"
        for mtu in (16383, 16384, 16385):
            yield from plan("6,5,4,3,2,1", "1,32,32,32,32,32", mtu=mtu)
        yield from plan("1,2,3,4,5,6", "32,32,32,31,32,1", mtu=16384)


def plan_refusals():
    """A plan's numbers, each pair in their order: 14, 20, 7, 8, then the digest's, then 23. No datagram is lent where the fault alone is asked for: 8 cannot come."""
    cut, many = digest(count=1) + bytes(31), digest(count=9)
    yield "table x"
    for edition in (0, 2):
        yield from plan("1", "-", cut, 0, edition=edition, size=0)
    yield "new"
    yield "add 1"
    yield "write 1 x61 x31 0 9"
    for counts in ("1", "2", "-"):
        for edition, told in ((0, digest()), (0, cut), (1, b""), (1, cut), (2, digest()), (TOP, cut)):
            for mtu in (0, 99, 100, 16384, 16385, TOP):
                yield from plan("1", counts, told, mtu, edition=edition)
        for told in (digest(), b"\0", b"", cut, many, many + bytes(288), digest(count=8)):
            for place, size in ((0, 99), (0, 100), (1, 101)):
                yield from plan("1", counts, told, place=place, size=size)
        for told in (b"", bytes(31), bytes(32), bytes(288), bytes(289)):
            for size in (99, 100):
                yield from plan("1", counts, told, edition=1, size=size)
        for place, size in ((1, 100), (100, 200), (101, 200), (200, 200), (201, 200), (TOP, 100), (TOP - 99, 100), (0, 0)):
            yield from plan("1", counts, place=place, size=size)
    yield from plan("1", "1", digest() + b"rest")
    yield "dump"


def longest_record():
    """A record of 110 bytes: MTU 135 carries it behind its Node, 134 the Node alone."""
    yield "add 1"
    yield f"write 1 {x(b'k' * 32)} {x(b'v' * 64)} 0 9"
    for mtu in (100, 134, 135, 136):
        yield f"compute x0000 {mtu} - 0 0 {mtu} 0"
        yield "readdelta @delta"
        yield "hub 1"
        yield "new"
        yield "add 1"
        yield "apply @delta 9 1"
        yield "hub 0"


def verdicts():
    """The three steps around own (2,5), without records; Unknown; answers in stream order; too few places."""
    for last_gc in (0, 2, 3, 5, 6):
        for start in (0, 1, 5, 6):
            for most in (0, 5, 6):
                yield "new"
                yield "add 1"
                yield apply(node(1, 2), top(5))
                yield "offer 1 9"
                yield apply(node(1, last_gc, start), top(most))
    yield apply(node(2), top(1), node(1, 0, 6), top(9), node(0), node(1 + TOP // 2), top(3))
    yield apply(node(1), top(7), node(2), top(1), places=1)
    yield apply(node(1), top(7), node(2), top(1), places=2)
    yield "apply x 5 0"
    yield f"apply x 5 {TOP}"
    yield "add 2"
    yield "add 3"
    yield apply(node(3), kv(b"a", b"1", 1), node(1, 50), kv(b"b", b"2", 51), node(2, 0, 1), kv(b"c", b"3", 9), node(9), top(1), node(4))
    yield "digest - 0 98 0"


def taking():
    """Records around the max and last_gc held, of each status, after a reset and without; a key twice; the max at the end."""
    for status in (0, 1, 2):
        for last_gc, start in ((0, 0), (3, 0), (7, 0), (3, 3)):
            yield "new"
            yield "add 1"
            yield apply(node(1, 4), kv(b"a", b"old", 2), kv(b"b", b"old", 3, 1), now=1)
            yield apply(node(1, last_gc, start), kv(b"a", b"2", 2, status), kv(b"c", b"3", 3, status), kv(b"d", b"4", 4, status), kv(b"e", b"5", 5, status),
                        kv(b"a", b"6", 6, status), kv(b"b", b"7", 7, status), kv(b"a", b"8", 8, status), now=6)
            yield "list 1 x 9"
            yield "get 1 x61"
            yield "get 1 x62"
            yield "compute x0000 400 - 0 0 400 0"
    yield apply(node(1), kv(b"z", b"1", 30), kv(b"z", b"2", 31, 1), kv(b"z", b"3", 32), kv(b"", b"", 33), kv(b"k" * 32, b"v" * 64, 34), top(40))
    yield "get 1 x7a"


def room():
    """Room counts the keys of the outcome: a held key, a skipped one and one that came twice take none. The rest goes on."""
    yield "add 1"
    yield "add 2"
    yield apply(node(1, 60), *(kv(b"k%02d" % place, b"", 1 + place) for place in range(31)))
    yield apply(node(1), kv(b"n", b"", 61), kv(b"m", b"", 62), node(2), kv(b"z", b"", 1))
    yield apply(node(1), kv(b"n", b"", 40, 1), kv(b"m", b"", 62), node(2), kv(b"z", b"", 2))
    yield apply(node(1), kv(b"o", b"", 50, 1), kv(b"m", b"1", 63), kv(b"m", b"2", 64), kv(b"k00", b"3", 65, 1))
    yield apply(node(1), kv(b"o", b"", 70))
    yield apply(node(1), kv(b"o", b"", 70, 1), node(2), kv(b"y", b"", 3))
    yield apply(node(1), kv(b"m", b"", 71), kv(b"k00", b"4", 72))
    yield apply(node(1, 100, 0), *(kv(b"r%02d" % place, b"", 1 + place) for place in range(33)), node(2), top(9))
    yield apply(node(1, 100, 0), *(kv(b"r%02d" % place, b"", 1 + place, place % 2) for place in range(33)), node(2), top(10))
    yield "list 1 x 32"
    yield apply(node(1, 200, 0), *(kv(b"s%02d" % place, b"", 201 + place) for place in range(32)), node(2), top(11))
    yield "write 1 x61 x 0 9"
    yield "gc 0 0"
    yield "digest - 0 66 0"


def fence():
    """A fenced table: own (10,3) against a last_gc below, at and above 10, step 1 before the fence; own (10,10) and (3,10), where it is down."""
    for last_gc, most in ((10, 3), (10, 10), (3, 10)):
        for told, start in ((9, 0), (10, 0), (11, 0), (9, most + 1)):
            yield "make 1"
            yield "add 1"
            yield apply(node(1, last_gc), kv(b"a", b"1", most))
            yield apply(node(1, told, start), kv(b"b", b"2", most + 2))


def guard():
    """A guarded table: own (10,3) against a last_gc and a max below, at and above 10, step 1 before the guard; own (10,10), where it is down."""
    for most in (3, 10):
        for told, start, reach in ((9, 0, 9), (9, 0, 10), (9, 0, 11), (10, 0, 9), (11, 0, 9), (9, 0, 3), (9, most + 1, most + 2)):
            yield "make 2"
            yield "add 1"
            yield apply(node(1, 10), kv(b"a", b"1", most))
            yield apply(node(1, told, start), kv(b"b", b"2", reach))


# ---- nets: P is hub 0 and owns node 1, F, G and H follow it

P, F, G, H = range(4)
A, B = "x61", "x62"


def two_datagrams():
    """A delta with every kind of answer, whole on hub 0; cut at each Node, the first part first on hub 1, the second first on hub 2: the same answers and tables."""
    before = (node(1) + kv(b"a", b"1", 1) + kv(b"b", b"2", 4), node(2, 9) + kv(b"c", b"3", 2), node(3) + kv(b"d", b"4", 3),
              node(4) + b"".join(kv(b"%02d" % i, b"x", i + 1) for i in range(32)), node(5) + kv(b"e", b"5", 7))
    parts = (node(1, 0, 4) + kv(b"a", b"", 5, 1) + kv(b"f", b"6", 6, 2), node(2, 0, 2) + kv(b"g", b"7", 5), node(9) + kv(b"h", b"8", 1),
             node(3, 8) + kv(b"i", b"9", 2) + kv(b"j", b"", 9, 1), node(4, 0, 32) + kv(b"zz", b"x", 40), node(5, 0, 8) + top(9))

    def fresh(hub, mode):
        yield f"hub {hub}"
        yield f"make {mode}"
        yield from (f"add {number}" for number in range(1, 6))
        yield apply(*before, now=3)

    for mode in (0, 1, 2):
        yield from fresh(0, mode)
        yield apply(*parts, now=50)
        for cut in range(len(parts) + 1):
            for hub in (1, 2):
                yield from fresh(hub, mode)
                halves = [parts[:cut], parts[cut:]]
                for half in halves if hub == 1 else reversed(halves):
                    yield apply(*half, now=50)
    for hub in (1, 2):
        yield from fresh(hub, 0)
        halves = [parts[0][:25 + 14 + 1], parts[0][25 + 14 + 1:]]
        for half in halves if hub == 1 else reversed(halves):
            yield apply(half, now=50)


def two_datagrams_kinds():
    """The same in meter and shared tables, with Room of a node, or of one party where the other has room. Then a record out of form in the second part: the whole is refused, and of the parts
    the second alone."""
    for profile, key, other, odd in ((1, b"k%02d", b"z", b"K"), (2, b"m/%02d", b"b/1", b"k")):
        full = 32 if profile == 1 else 16
        before = (node(1) + kv(key % 1, b"1", 1) + kv(key % 2, b"2", 4), node(2) + b"".join(kv(key % i, b"1", i + 1) for i in range(full)))
        good = (node(1, 0, 4) + kv(key % 1, b"", 5, 1) + kv(key % 3, b"6", 6, 2), node(9) + kv(key % 1, b"8", 1), node(2, 0, full) + kv(key % 90, b"1", 40) + kv(other, b"1", 41), node(3, 7) + kv(other, b"9", 2))
        bad = good[:3] + (node(3, 7) + kv(odd, b"9", 2),)

        def fresh(hub, mode):
            yield f"hub {hub}"
            yield f"kind {mode} {profile}"
            yield from (f"add {number}" for number in range(1, 4))
            yield apply(*before, now=3)

        for mode in (0, 1, 2):
            for parts in (good, bad):
                yield from fresh(0, mode)
                yield apply(*parts, now=50)
                for cut in range(len(parts) + 1):
                    for hub in (1, 2):
                        yield from fresh(hub, mode)
                        halves = [parts[:cut], parts[cut:]]
                        for half in halves if hub == 1 else reversed(halves):
                            yield apply(*half, now=50)


def net(*modes):
    for hub, mode in reversed(list(enumerate(modes))):
        yield f"hub {hub}"
        yield f"make {mode}"
        yield "add 1"


def hears(hub, *others):
    """Prompt exchanges at the largest MTU: the hub's own digest, another's delta, applied."""
    for other in others:
        yield f"hub {hub}"
        yield "digest - 0 34 0"
        yield f"hub {other}"
        yield "compute @digest 16384 - 0 0 16384 0"
        yield f"hub {hub}"
        yield "apply @delta 9 1"


def sets(*keys):
    yield f"hub {P}"
    for key in keys:
        yield f"write 1 {key} x31 0 9"


def deletes(key):
    yield f"hub {P}"
    yield f"delete 1 {key} 9"
    yield "gc 9 0"


def shown(key, *hubs):
    for hub in hubs:
        yield f"hub {hub}"
        yield f"get 1 {key}"
        yield "digest - 0 34 0"


def triangle():
    """G hears P, then F, who has not heard of the removal, then P. A plain G ends at P's own pair and shows b; a fenced or guarded one does not."""
    for mode in (0, 1, 2):
        yield from net(mode, mode, mode)
        yield from sets(A, B)
        yield from hears(F, P)
        yield from deletes(B)
        yield from hears(G, P, F, P)
        yield from shown(B, G, P)


def line():
    """P, F and G in a line, F hears both: what it lost to P's reset comes back from G. In both ways, for each hears its neighbour."""
    for mode in (0, 1, 2):
        yield from net(mode, mode, mode)
        yield from sets(A, B)
        yield from hears(F, P)
        yield from hears(G, F)
        yield from deletes(B)
        yield from hears(F, P, G, P)
        yield from hears(G, F, F)
        yield from shown(B, F, G, P)


def relay():
    """A plain relay F takes b from H, who is behind, and hands it on: G, fenced or guarded, hears F alone and ends at P's own pair with b."""
    for mode in (1, 2):
        yield from net(mode, 0, mode, mode)
        yield from sets(A, B)
        yield from hears(H, P)
        yield from deletes(B)
        yield from hears(F, P, H, P)
        yield from hears(G, F, F)
        yield from shown(B, G, P)


def owner():
    """P sets a, then b, and F hears it. P is restored with b lost: hub 2 has the very bytes that P had before. It gives version 2 again, to c, and F never hears of it."""
    for mode in (0, 1, 2):
        yield from net(mode, mode, mode)
        yield from sets(A)
        yield f"hub {G}"
        yield f"write 1 {A} x31 0 9"
        yield from sets(B)
        yield from hears(F, P)
        yield f"hub {G}"
        yield "write 1 x63 x31 0 9"
        yield from hears(F, G)
        yield from shown(B, F, G)
        yield from shown("x63", F, G)


def handed():
    """P sets a, and F hears it. P sets b, version 2, and G hears that. F, which has not, becomes the owner and sets c: version 2 again, and the two differ for ever. Then the same, but F hears
    P first: it is at 2, and c gets version 3, which P and G hear of F."""
    for mode in (0, 1, 2):
        for lags in (True, False):
            yield from net(mode, mode, mode)
            yield from sets(A)
            yield from hears(F, P)
            yield from sets(B)
            yield from hears(G, P)
            if not lags:
                yield from hears(F, P)
            yield f"hub {F}"
            yield "write 1 x63 x31 0 9"
            yield from hears(G, F)
            yield from hears(P, F)
            yield from hears(F, G)
            yield from shown(B, F, G, P)
            yield from shown("x63", F, G, P)


def heard_another():
    """P sets a and b and gives c a TTL, with values of 64 bytes, so that one record goes into a delta of 135 bytes. G hears P and removes c: (3,3). F hears G, cut behind a: (3,1). From then on it
    hears P alone, which sends b: a plain F takes it, a fenced or guarded one answers Fenced, again and again. Not cut, a guarded one takes it at once."""
    large = "x" + "31" * 64
    for mode in (0, 1, 2):
        yield from net(mode, mode, mode)
        yield f"hub {P}"
        yield f"write 1 {A} {large} 0 9"
        yield f"write 1 {B} {large} 0 9"
        yield f"write 1 x63 {large} 2 9"
        yield from hears(G, P)
        yield f"hub {G}"
        yield "gc 60 5"
        for other in (G, P, P, P):
            yield f"hub {F}"
            yield "digest - 0 34 0"
            yield f"hub {other}"
            yield "compute @digest 135 - 0 0 300 0"
            yield f"hub {F}"
            yield "apply @delta 9 1"
        yield from hears(F, P)
        yield from shown(B, F, P)


def behind():
    """G is reset to (2,1) by P, and from then on hears only F, at (0,2): a fenced G is left behind, a guarded one is at (2,2), as P is."""
    for mode in (0, 1, 2):
        yield from net(mode, mode, mode)
        yield from sets(A)
        yield f"write 1 {B} x31 2 9"
        yield from hears(F, P)
        yield f"hub {P}"
        yield "gc 9 0"
        yield from hears(G, P, F, F)
        yield from shown(B, G, P)


def exchange():
    """Two hubs: digest, delta, applied, until the follower has all; late and repeated deltas; a reset after removal."""
    def round_trip(mtu, ties, now=9):
        yield "hub 1"
        yield "digest - 4 300 0"
        yield "hub 0"
        yield f"compute @digest {mtu} - {ties} 2 {mtu + 5} 0"
        yield "hub 1"
        yield f"apply @delta {now} 8"
        yield f"apply @delta {now + 1} 8"
        yield "hub 0"
    for hub in (1, 0):
        yield f"hub {hub}"
        for number in (1, 2, 3):
            yield f"add {number}"
    for number in (1, 2, 3):
        for place in range(4):
            yield f"write {number} {x(b'k%d%d' % (number, place))} {x(b'v' * (9 * place))} 0 9"
    yield "beat 1"
    for mtu in (100, 101, 135, 200, 16384, 100):
        yield from round_trip(mtu, "0,1,0")
    yield "delete 1 x6b3130 20"
    yield "write 2 x6b3230 x31 2 21"
    yield from round_trip(16384, "0,0,0", 22)
    yield "compute x0000 16384 - 0,0,0 0 16384 0"
    for call in ("delete 1 x6b3131 23", "delete 3 x6b3330 23", "gc 60 30", "write 1 x6b3130 x32 0 9"):
        yield call
    yield "hub 1"
    yield "apply @delta 61 3"
    yield "offer 1 7"
    yield "remove 3"
    yield "hub 0"
    for mtu in (100, 16384, 16384):
        yield from round_trip(mtu, "1,1,1", 62)
    yield "hub 1"
    for call in ("get 1 x6b3131", "get 1 x6b3130", "list 1 x 32", "list 2 x 32", "gc 100 1"):
        yield call
    yield "hub 0"
    yield "get 1 x6b3131"


def bad_tables():
    """14 before all else, for bytes of another length and for tables that break one rule."""
    yield "table x"
    yield from CALLS
    yield "dump"
    for number in (1, 2, 3):
        yield "new"
        yield f"add {number}"
    yield "digest - 0 34 0"
    yield "table @digest"
    yield "dump"
    yield "add 1"
    yield "new"
    yield "add 3"
    yield "write 3 x61 x31 0 9"
    yield "compute x0000 100 - 0 0 100 0"
    yield "table @delta"
    yield f"write 3 {x(b'k' * 33)} x 0 9"
    yield "compute x 99 - - 1 0 0"
    yield "digest - 9 0 0"
    yield f"list 3 {x(b'k' * 33)} 0"
    yield "apply x03 5 0"
    yield "beat 4"
    one, two = record(b"a", b"1", 1), record(b"b", b"2", 2, 2, 9)
    good = table(slot(7, [one, two], 2))
    broken = (table(slot(7, [one, two], 1)), table(slot(7, [one, record(b"b", b"2", 1)], 5)), table(slot(7, [record(b"a", b"1", 0), two], 5)),
              table(slot(7, [two, one], 5)), table(slot(7, [], 0), slot(6, [], 0)), good[:-1], good[:-1] + b"\1",
              table(slot(7, [one, two], 2), mode=3), good[:AREA] + b"\0\xff" + good[AREA + 2:], good[:AREA])
    for data in broken:
        yield f"table {x(data)}"
        yield from CALLS
    # The first record begins behind a byte of the table and 33 of its node; its value's length is 33 bytes on.
    hidden = (put(good, 34 + 2, 1), put(table(slot(7, [record(b"a", b"", 1)], 1)), 34 + 33, 65), table(slot(7, [one, record(b"b", b"2", 2, 3, 9)], 2)),
              table(slot(7, [one, record(b"a", b"2", 2)], 2)), good[:-2] + b"\1\1")
    for data in hidden:
        yield f"table {x(data)}"
        yield "beat 7"


def over_writes():
    """Overrides: document 01's rules of one node without 2, at their boundaries, and the pairs of refusals in their order."""
    yield "overrides 7"
    yield "dump"
    for key in (b"", b"k" * 32, b"k" * 33):
        yield f"label {x(key)} x31 0 9"
    for value in (b"", b"v" * 64, b"v" * 65):
        yield f"label x61 {x(value)} 0 9"
    for status in (0, 1, 2, 3, 255):
        yield f"label x62 x32 {status} 9"
    yield f"label {x(b'k' * 33)} {x(b'v' * 65)} 3 9"
    yield f"label x61 {x(b'v' * 65)} 3 9"
    yield f"unlabel {x(b'k' * 33)} 9"
    yield f"unlabelttl {x(b'k' * 33)} 9"
    yield from ("unlabel x63 9", "unlabelttl x63 9", "unlabel x61 9", "unlabel x61 10", "unlabelttl x61 11", "unlabelttl x61 12", "unlabelttl x62 12", "dump")
    # As many records as a node has, and one more.
    yield "overrides 7"
    for rank in range(33):
        yield f"label {x(b'%02d' % (rank * 7 % 33))} x31 0 9"
    yield "label x3030 x32 0 9"
    yield f"label {x(b'k')} {x(b'v' * 65)} 0 9"
    yield "unlabel x3030 10"
    yield "label x6b x31 0 11"
    yield "dump"
    # The last version, and none behind it.
    for last in (TOP - 1, TOP):
        yield f"table {x(slot(7, [record(b'a', b'1', 1)], last))}"
        yield from ("label x61 x31 0 9", "unlabel x61 9", "dump")
        yield f"table {x(slot(7, [record(b'a', b'1', 1)], last))}"
        yield from ("unlabelttl x61 9", "label x62 x32 0 9", "dump")
    yield f"table {x(slot(7, [record(b'%02d' % k, b'1', 1 + k) for k in range(32)], TOP))}"
    yield from ("label x6b x31 0 9", "label x3030 x31 0 9", "label x3030 x32 0 9", "unlabel x6b 9", "unlabel x3030 9")
    # Removal at the grace's end, behind it, and of what is not hidden.
    for now in (18, 19, 20, TOP):
        yield "overrides 7"
        yield from ("label x61 x31 0 9", "label x62 x32 0 9", "label x63 x33 0 9", "unlabel x61 9", "unlabelttl x62 9", f"gclabels {now} 10", "dump")
    for now, grace in ((0, 0), (0, TOP), (TOP, 0), (TOP, TOP)):
        yield "overrides 7"
        yield from ("label x61 x31 0 9", "label x62 x32 0 9", "unlabel x61 9", f"gclabels {now} {grace}", "dump")


def over_reads():
    """Reading over both: which of the two shows, a hidden override, an empty one, the places of either, and their number."""
    calls = ("getover 3 7 x61", "getover 3 7 x62", "getover 3 7 x63", "getover 3 7 x64", "getover 3 7 x", "listover 3 7 x 64", "listover 3 7 x61 64", "listover 3 7 x 0")
    one = [record(b"a", b"1", 1), record(b"b", b"2", 2, 1, 9), record(b"c", b"3", 3, 2, 9)]
    many = ([], [record(b"a", b"4", 1)], [record(b"a", b"", 1)], [record(b"a", b"", 1, 1, 9)], [record(b"a", b"4", 1, 2, 9)],
            [record(b"", b"5", 1), record(b"b", b"6", 2), record(b"c", b"7", 3), record(b"d", b"8", 4)])
    for shared in ([], one):
        yield f"table {x(table(slot(5, one, 5), slot(7, shared, 5)))}"
        for own in many:
            yield "hub 3"
            yield f"table {x(slot(9, own, 5))}"
            yield "hub 0"
            yield from calls
        yield from ("getover 3 9 x61", "listover 3 9 x 64")
    # Every key of both is another: 64 hits. Then every key of both is the same: 32.
    for prefix, many in ((b"l", 64), (b"k", 32)):
        yield "hub 3"
        yield f"table {x(slot(9, [record(prefix + b'%02d' % k, b'1', 1 + k) for k in range(32)], 32))}"
        yield "hub 0"
        yield f"table {x(table(slot(7, [record(b'k%02d' % k, b'2', 1 + k) for k in range(32)], 32)))}"
        yield from (f"listover 3 7 x {places}" for places in (64, TOP, many, many - 1, 33, 32, 31, 0))
        yield from (f"listover 3 7 {x(text)} 10" for text in (b"k0", b"l0", b"k1", b"l3", b"m", b"k" * 32))
        yield from ("getover 3 7 x6b3331", "getover 3 7 x6c3331", "getover 3 7 x6b3332")


def over_refusals():
    """What is refused over both, and in which order; overrides where a table belongs, and a table where overrides belong."""
    own = slot(9, [record(b"a", b"1", 1), record(b"b", b"2", 2)], 2)
    long = x(b"k" * 33)
    reads = ("getover 3 7 x61", "listover 3 7 x 64", "getover 3 6 x61", "listover 3 6 x 64", f"getover 3 7 {long}", f"listover 3 7 {long} 64", f"getover 3 6 {long}", f"listover 3 6 {long} 64",
             "listover 3 7 x 1", f"listover 3 7 {long} 0")
    writes = ("label x61 x31 0 9", f"label {long} x31 3 9", "unlabel x61 9", f"unlabel {long} 9", "unlabelttl x61 9", "gclabels 9 1")
    good = table(slot(7, [record(b"a", b"3", 1), record(b"c", b"4", 2)], 2))
    for below in (good, good[:-1], own):
        yield f"table {x(below)}"
        for data in (own, put(own, 32, 33), own[:-1], good):
            yield "hub 3"
            yield f"table {x(data)}"
            yield "hub 0"
            yield from reads
    yield "hub 3"
    for data in (own, put(own, 24, 3), put(own, 32, 33), put(own, 33, 33), own[:-1], own + b"\0", b"", own[:-1] + b"\1", put(own, 16, 1), good):
        yield f"table {x(data)}"
        yield from writes
        yield "dump"
    # Overrides are no table: no call writes, reads or applies gossip of them.
    yield "overrides 7"
    yield from CALLS
    yield "hub 0"
    yield from ("getover 0 7 x61", "listover 0 7 x 64", "overrides 7", "getover 0 7 x61", "listover 0 7 x 64")
    yield from ("new", "add 7", "getover 1 7 x61")


METER = 1
TOTAL = x(b"total")


def meter(mode=0):
    """An empty meter table with node 1."""
    yield f"kind {mode} {METER}"
    yield "add 1"


def meter_forms():
    """Keys of 1 to 32 of `a` to `z`, `0` to `9` and `.`, values of 1 to 10 digits, or empty under TTL: 17 in a write, and in no other local call."""
    keys = [bytes([letter]) for letter in b"-./09:@AZ[`az{~ \0\x7f"] + ["é".encode(), "ａ".encode(), b"aA", b"Aa", b"a.9", b"a/9", b"a\0", b""] + [b"k" * n for n in (1, 31, 32, 33)] + [b"K" * 33]
    values = [bytes([digit]) for digit in b"/09:.-+ ax\0"] + ["٣".encode(), b"1a", b"a1", b"1.5", b"0" * 10, b"9" * 10, b"0" * 11, b"12345678901", b"1" * 63, b"1" * 64, b"1" * 65, b""]
    yield from meter()
    for key in keys:
        yield f"write 1 {x(key)} x37 0 9"
    for key in keys:
        for call in ("delete 1 {} 9", "deletettl 1 {} 9", "get 1 {}", "list 1 {} 32"):
            yield call.format(x(key))
    for status in (0, 2):
        yield from meter(status)
        for value in values:
            yield f"write 1 x6b {x(value)} {status} 9"
            yield f"write 1 {x(b'k%d' % len(value))} {x(value)} {status} 9"
        yield "dump"
    # A free table takes them all.
    yield from ("kind 2 0", "add 1")
    for key in keys[:8]:
        yield f"write 1 {x(key)} x 0 9"
    yield "dump"


def meter_totals():
    """A write to `total` states no smaller number than the unhidden record there: by number and not by text, empty is 0, TTL is not hidden, Delete is."""
    numbers = (b"", b"0", b"00", b"7", b"007", b"8", b"9", b"10", b"010", b"65535", b"65536", b"70000", b"999999999", b"0999999999", b"4294967296", b"9999999999")
    for held in numbers:
        for status in (0, 2):
            yield from meter()
            yield f"write 1 {TOTAL} {x(held)} {status} 9"
            for value in numbers:
                # Nothing is written that would be there for the next one: the version is the last.
                if value == b"":
                    yield apply(node(1), top(TOP))
                yield f"write 1 {TOTAL} {x(value)} {2 - status} 9"
    between = ((), (f"delete 1 {TOTAL} 9",), (f"deletettl 1 {TOTAL} 9",), (f"delete 1 {TOTAL} 9", f"deletettl 1 {TOTAL} 10"), (f"deletettl 1 {TOTAL} 9", f"delete 1 {TOTAL} 10"),
               (f"deletettl 1 {TOTAL} 9", "gc 100 5"), (f"delete 1 {TOTAL} 9", "gc 100 5"), (f"deletettl 1 {TOTAL} 9", "gc 9 5"), ("remove 1", "add 1"), (apply(node(1, 50), top(50)),))
    for calls in between:
        for status in (0, 2):
            yield from meter(2)
            yield f"write 1 {TOTAL} x37 {status} 9"
            yield from calls
            yield f"get 1 {TOTAL}"
            for value in (b"", b"0", b"6", b"7"):
                yield f"write 1 {TOTAL} {x(value)} {status} 11"
    # Another key may fall, and so may what a peer sends, and a total in a free table.
    for key in (b"tota", b"totals", b"total.", b"total0", b"0total", b"t"):
        yield f"write 1 {x(key)} x39 0 9"
        yield f"write 1 {x(key)} x38 0 9"
    yield from meter(1)
    yield f"write 1 {TOTAL} x39 0 9"
    yield apply(node(1), kv(b"total", b"8", 2))
    yield from (f"write 1 {TOTAL} x37 0 9", f"write 1 {TOTAL} x38 0 9", f"write 1 {TOTAL} x39 0 9")
    for status in (1, 2):
        yield apply(node(1), kv(b"total", b"5", 90 + status, status))
        yield from (f"write 1 {TOTAL} x34 0 9", f"write 1 {TOTAL} x35 0 9")
    yield from ("new", "add 1", f"write 1 {TOTAL} x39 0 9", f"write 1 {TOTAL} x38 0 9")


def meter_orders():
    """A write's refusals in their order: 14, 10, 2, 1, 17, (nothing to change), 18, 5, 6."""
    writes = [f"write 1 {x(key)} {x(value)} {status} 9" for status in (0, 1, 2) for key in (b"total", b"new", b"k00", b"N", b"", b"K" * 33)
              for value in (b"4", b"5", b"", b"x", b"1" * 11, b"1" * 65)]
    yield "table x"
    yield from writes
    yield f"kind 0 {METER}"
    yield from writes
    for held in (b"total", b"k31"):
        for last in (40, TOP):
            records = sorted([record(b"k%02d" % place, b"5", 1 + place) for place in range(31)] + [record(held, b"5", 32)], key=lambda data: data[1:33])
            yield f"table {x(table(slot(1, records, last), profile=METER))}"
            yield from writes
            yield from (f"delete 1 {x(b'N')} 9", f"deletettl 1 {x(b'')} 9", f"delete 1 {x(b'K' * 33)} 9", f"delete 1 {TOTAL} 9", f"write 1 {TOTAL} x30 0 9")


def meter_streams():
    """17 in a stream: after the record's own 11, at its tag; the first operation at fault decides; before 8; also of a record that would not be taken. Digits under Delete are in form."""
    odd, good = kv(b"A", b"1", 2), node(1) + kv(b"a", b"1", 1)
    others = (kv(b"b", b"2", 1), kv(b"b", b"2", 9, 3), kv(b"k" * 33, b"2", 9), kv(b"b", b"1" * 65, 9), node(1), top(0), b"\3", kv(b"b", b"2", 9)[:-1], kv(b"b", b"2", 9)[:5], top(9)[:4], node(2)[:9])
    yield from meter()
    for other in others:
        yield apply(good, odd, other)
        yield apply(good, other, odd)
    for ops in ((odd,), (top(1), odd), (node(1), kv(b"A", b"1", 0)), (node(1), kv(b"a", b"1", 5), kv(b"A", b"1", 5)), (node(1), kv(b"A", b"1", 5, 3)), (node(1), kv(b"A" * 33, b"1", 5)),
                (node(1), odd, node(2), kv(b"B", b"2", 1)), (node(2), kv(b"b", b"1", 1), node(1), odd)):
        yield apply(*ops)
    yield from (apply(good, odd, places=0), apply(good, places=0), f"readdelta {x(good + odd)}")
    # 16,384 bytes with the odd record at the end, and one more: 13 for the length comes first.
    long = node(1) + b"".join(top(1) for _ in range(1813))
    last = 16384 - len(long)
    for more in (0, 1):
        yield apply(long, kv(b"A", b"1" * (last + more - 15), 2))
    forms = [(b"a", b"1"), (b"a", b""), (b"", b"1"), (b"A", b"1"), (b"k" * 32, b"9" * 10), (b"a", b"0" * 11), (b"a", b"x"), (b"a.b", b"007")]
    for status in (0, 1, 2):
        for key, value in forms:
            yield from meter(status)
            yield apply(node(1), kv(key, value, 3, status))
    # Skipped, of an unknown node, rejected, fenced, without room: refused all the same, and nothing of the others is taken.
    for mode in (0, 1, 2):
        for gc, last in ((0, 5), (9, 5), (5, 0)):
            for delta in (node(1, 0, 0), node(1, 0, 6), node(1, 4, 0), node(1, 10, 0), node(1, 10, 1), node(9)):
                yield from meter(mode)
                yield "add 2"
                yield apply(node(1, gc), top(last))
                yield apply(delta, odd)
                yield apply(node(2), kv(b"b", b"1", 4), delta, odd, kv(b"c", b"1", 7))
    yield from meter()
    yield apply(node(1), *(kv(b"k%02d" % place, b"1", 1 + place) for place in range(32)))
    yield apply(node(1), kv(b"new", b"1", 40), kv(b"New", b"1", 41))
    yield apply(node(1), kv(b"new", b"1", 40))


def meter_tables():
    """14 for a table of the meter profile with one record out of form, wherever it stands; which numbers name a kind of table; the same bytes as a free table."""
    calls = ("beat 1", "write 1 x61 x39 0 9", "get 1 x61", "removed 7", "digest - 0 258 0", "compute x0000 100 - 0,0 0 100 0", "apply x 5 8", "gc 0 0")
    for mode in (0, 1, 2, 3, 255, 256, TOP):
        for profile in (0, 1, 2, 3, 255, 256, 257, 2**32 + 1, TOP):
            yield f"kind {mode} {profile}"
            yield "add 1"
    one, last = record(b"a", b"1", 1), record(b"z", b"2", 3, 2, 9)
    middles = ((b"b", b"2", 0, True), (b"b", b"", 0, False), (b"b", b"", 1, True), (b"b", b"", 2, True), (b"b", b"5", 1, True), (b"b/", b"2", 0, False), (b"B", b"2", 0, False), (b"b", b"12345678901", 1, False),
               (b"b", b"2a", 2, False), (b"b", b"1234567890", 0, True))
    for key, value, status, good in middles:
        records = sorted([one, record(key, value, 2, status, 9 if status else 0), last], key=lambda data: data[1:33])
        yield f"table {x(table(slot(1, records, 3), slot(2, [], 0), profile=METER))}"
        yield from calls[:3] if good else calls
    for slots in ((slot(1, [record(b"", b"1", 1)], 1),), (slot(1, [], 0), slot(2, [record(b"k" * 32, b"1", 1)], 1), slot(3, [record(b"Z", b"1", 1)], 1))):
        for profile in (METER, 0):
            yield f"table {x(table(*slots, profile=profile, mode=2))}"
            yield from calls[:3]
    for profile in (2, 3, 255):
        yield f"table {x(table(slot(1, [], 0), profile=profile))}"
        yield from calls[:3]


def tell(peer, *entries, edition=0):
    """A digest of nodes, last_gcs and maxes, told by a peer."""
    told = (digest if edition == 0 else bare)(*((number, 3, last_gc, top) for number, last_gc, top in entries))
    return f"tell {peer} {x(told)} {edition}"


def asked(peers, numbers):
    """All that a grid answers."""
    for number in numbers:
        yield f"least {number}"
        yield from (f"told {peer} {number}" for peer in peers)


def grid_columns():
    """The columns are the table's nodes: they come at (0,0) and go, in front, between and behind, and what was told of the others goes with them."""
    numbers = (5, 0, TOP, 3, 2**63, 256, 255, 1)
    yield "dumpgrid"
    yield "gridremove 0"
    for place, number in enumerate(numbers):
        yield f"gridadd {number}"
        # What a peer told before of a number that is no column is not kept.
        yield tell(place, *((told, 100 * place + rank, 200 * place + rank + 1) for rank, told in enumerate(numbers)))
        yield f"told {place} {number}"
    yield "dumpgrid"
    yield from asked(range(8), numbers)
    for number in (4, 5, 0, TOP):
        yield f"gridadd {number}"
    yield "dumpgrid"
    yield "write 256 x61 x31 0 9"
    for number in (4, 0, 0, 255, TOP, 3):
        yield f"gridremove {number}"
        yield "dumpgrid"
    for number in (9, 255, 0, 3, 10):
        yield f"gridadd {number}"
        yield from asked((0, 3, 7), (number, 256))
    yield "dumpgrid"
    yield "removed 0"
    yield "removed 5"
    for number in (5, 3, 10, 256, 9, 255, 1, 0, 2**63):
        yield f"gridremove {number}"
    yield "dumpgrid"
    # A grid is made for whatever table there is, from whatever stood there.
    yield "add 7"
    yield "add 2"
    yield "gridadd 3"
    yield f"grid {x(bytes([255]) * GRID)}"
    yield "newgrid"
    yield "dumpgrid"
    yield "newgrid"
    # Past the grid: a node that came or went is found by its number, one that went and came is not.
    yield tell(0, (7, 1, 9), (2, 3, 8))
    yield "remove 7"
    yield from ("gridadd 7", "gridremove 2", "careful 9 1", "least 7", "told 0 7", "add 7", "gridadd 7", "careful 9 1", "told 0 7")
    for mode in (0, 1, 2, 3):
        yield f"make {mode}"
        yield "dumpgrid"
        yield "gridadd 1"
        yield tell(3, (1, 1, 1))
    yield "new"
    yield "dumpgrid"


def grid_told():
    """What peers tell: the last digest counts, whatever it says; a refused one changes nothing; a peer is present from its first one until it is taken out."""
    def looks():
        yield from asked((0, 1, 7), (7, 9))
    for number in (7, 9):
        yield f"gridadd {number}"
    yield from looks()
    entries = (((7, 0, 5),), ((7, 4, 6), (9, 1, 2)), ((9, 0, 1), (7, 0, 1)), ((7, 2, 3),), (), ((9, 9, 9),), ((7, 0, 5), (7, 1, 3)), ((7, 1, 3), (7, 0, 5), (9, 1, 1), (7, 2, 4)),
               ((8, 1, 2), (10, 3, 4)), ((8, 1, 2), (9, 3, 4)), ((7, TOP, TOP), (9, 0, TOP)), tuple((k, k, k + 1) for k in range(2, 10)))
    for edition in (0, 1):
        for told in entries:
            yield tell(edition, *told, edition=edition)
            yield from looks()
    # Behind the entries of the first edition anything may stand; the second has nothing behind them.
    yield f"tell 0 {x(digest((7, 3, 1, 6)) + b'rest')} 0"
    yield f"tell 0 {x(digest((7, 3, 1, 8), (9, 3, 1, 8), count=1))} 0"
    yield from looks()
    # 20, 9, 13, in the order of reading; and nobody comes by it.
    for peer in (0, 7):
        whole, ends = digest((7, 3, 1, 2)), bare((7, 3, 1, 2))
        for data in (b"", b"\1", b"\1\0", whole[:-1], whole[:9], whole[:10], whole[:26], digest(count=8), digest(count=9), digest(*[(k, 0, 0, 1) for k in range(9)])):
            yield f"tell {peer} {x(data)} 0"
        for data in (ends[:1], ends[:-1], ends[:8], ends[:24], ends + b"\0", ends * 9, ends * 9 + b"\0"):
            yield f"tell {peer} {x(data)} 1"
        for edition in (2, 3, 256, 2**32, TOP):
            yield f"tell {peer} x {edition}"
            yield f"tell {peer} {x(whole)} {edition}"
        yield from looks()
    # 21 before them all.
    for peer in (7, 8, 9, 255, 256, 2**32, TOP):
        yield f"tell {peer} {x(ends)} 1"
        yield f"tell {peer} x 0"
        yield f"tell {peer} x 2"
        yield f"told {peer} 7"
        yield f"told {peer} 8"
        yield f"takeout {peer}"
        yield f"takeout {peer}"
    yield from looks()
    # Taken out, and back.
    for peer in (0, 1, 1):
        yield f"takeout {peer}"
        yield from looks()
        yield "dumpgrid"
    yield tell(1)
    yield from looks()
    yield "dumpgrid"
    # A hub's own digest, told to another's grid, in both editions.
    yield "hub 1"
    for number in (7, 8, 9):
        yield f"add {number}"
    for call in ("write 7 x61 x31 0 9", "write 7 x62 x31 0 9", "delete 7 x61 9", "gc 9 0", "write 8 x61 x31 0 9", "beat 9"):
        yield call
    for edition in (0, 1):
        yield "hub 1"
        yield f"digest - 3 300 {edition}"
        yield "digest 7 3 300 1"
        yield "hub 0"
        yield f"tell {2 + edition} @digest 1"
        yield f"tell {2 + edition} @digest {edition}"
        yield from asked((2, 3), (7, 8, 9))


def grid_least():
    """The least max over the peers present: an absent one does not count, one that told nothing of the node counts as 0."""
    for number in (7, 9):
        yield f"gridadd {number}"
    calls = ("least 7", "least 9", "least 8")
    yield from calls
    for maxes in ((5,), (5, 6), (6, 5), (5, 5), (3, 4, 5), (4, 3, 5), (4, 5, 3), (TOP,), (TOP, TOP - 1), (2**32, 2**32 - 1), (256, 255, 2**63), (0, 1), (1, 0)):
        for peer in range(8):
            yield f"takeout {peer}"
        yield from calls
        for rank, most in enumerate(maxes):
            yield tell((7, 0, 3)[rank], (7, 1, most), (9, TOP - most, 10 + rank))
            yield from calls
    for peer in range(8):
        yield tell(peer, (7, 0, 20 - peer), (9, 0, 10 + peer))
    yield from calls
    for peer in (7, 0, 3, 6, 1, 2, 5, 4):
        yield f"takeout {peer}"
        yield from calls
    yield tell(4, (8, 1, 1))
    yield from calls


def careful():
    """A scheduled record goes exactly if the clock says so and every peer present told a max not below its version; last_gc moves by what goes."""
    records = [record(b"a", b"1", 1), record(b"b", b"", 2, 1, 10), record(b"c", b"3", 4, 2, 10), record(b"d", b"", 5, 1, 30), record(b"e", b"", 7, 1, 10)]
    def given(told, last_gc=0, mode=0):
        yield f"table {x(table(slot(7, records, 8, 1, last_gc), slot(9, records, 8, 2, last_gc), mode=mode))}"
        yield f"grid {x(grid(7, 9, told=told))}"
    # One peer, each max; the time at the grace's end and before it.
    for most in range(9):
        for now in (19, 20, 40):
            yield from given({0: [(0, most), (0, 8 - most)]})
            yield f"careful {now} 10"
            yield "digest - 0 66 0"
    # Two and three peers: all of them must have seen it, whoever they are.
    for maxes in ((3, 8), (8, 3), (5, 4), (8, 8), (0, 8), (2, 2), (4, 7, 5), (7, 7, 7), (8, 8, 1)):
        yield from given({peer: [(0, most), (0, 8)] for peer, most in zip((0, 7, 3), maxes)})
        yield "careful 40 10"
        for peer in (0, 3, 7):
            yield f"takeout {peer}"
            yield "careful 40 10"
    # last_gc: it grows by what goes, and does not fall; what the peers told as last_gc is nothing to it.
    for last_gc in (0, 1, 2, 3, 4, 5, 6, 7, TOP):
        yield from given({2: [(TOP, 4), (0, 2)]}, last_gc)
        yield "careful 40 10"
        yield "digest - 0 66 0"
    # Then the plain one takes the rest.
    yield "gc 20 10"
    yield "gc 40 10"
    yield "digest - 0 66 0"
    for now, grace in ((0, 0), (9, 0), (10, 0), (0, TOP), (TOP, 0), (TOP, TOP), (TOP, TOP - 10), (TOP, TOP - 9), (TOP - 1, TOP - 10)):
        yield from given({5: [(0, TOP), (0, 4)]})
        yield f"careful {now} {grace}"
    for mode in (1, 2):
        yield from given({1: [(0, 5), (0, 5)]}, mode=mode)
        yield "careful 40 10"
        yield "dump"
    # The largest version, and a max one below it.
    for most in (TOP - 1, TOP):
        yield f"table {x(table(slot(7, [record(b'a', b'', TOP, 1, 10), record(b'b', b'', TOP - 1, 1, 10)], TOP)))}"
        yield f"grid {x(grid(7, told={6: [(0, most)]}))}"
        yield "careful 40 10"
    # Nobody present, no node, and no record to go.
    yield from given({})
    yield "careful 40 10"
    for call in ("new", "careful 9 1", tell(0), "careful 9 1", "gridadd 7", "careful 9 1", "least 7"):
        yield call
    # A full node goes, record by record, as the peer sees more of it.
    yield f"table {x(table(slot(7, [record(b'%02d' % k, b'', 1 + k * 7 % 32, 1, 9) for k in range(32)], 40)))}"
    yield "newgrid"
    for most in (0, 1, 16, 31, 32, 5):
        yield tell(4, (7, 0, most))
        yield "careful 9 0"
        yield "digest - 0 34 0"


GRID_CALLS = ("gridadd 7", "gridremove 7", "gridadd 8", "gridremove 8", "tell 0 x0000 0", "tell 8 x 2", "tell 0 x 2", "takeout 0", "takeout 8", "least 7", "least 8", "told 0 7", "told 8 8", "told 0 8",
              "careful 99 1")


def grid_refusals():
    """14 before all else: grids that break one rule, tables that do, and grids of other nodes; then 21, 22 and the others in their order."""
    records = [record(b"a", b"", 1, 1, 9), record(b"b", b"2", 2)]
    good = table(slot(7, records, 2), slot(9, records, 2))
    told = {0: [(1, 2), (3, 4)], 5: [(5, 6), (7, 8)]}
    fits = grid(7, 9, told=told)
    yield f"table {x(good)}"
    behind = NUMBERS + 16
    broken = [fits[:-1], fits + b"\0", b"", fits[:1], put(fits, 0, 9), put(fits, 0, 255), put(fits, 0, 1), put(fits, 0, 3), put(fits, 0, 0),
              grid(9, 7, told=told), grid(7, 7, told=told), put(fits, behind, 1), put(fits, PRESENT - 1, 1), put(fits, PRESENT, 2), put(fits, PRESENT + 1, 2), put(fits, PRESENT + 7, 255),
              put(fits, PRESENT, 0), put(fits, PRESENT + 5, 0)]
    for array in (GCS, MAXES):
        # An absent peer's first and last byte, and the places behind the columns, of a peer present.
        broken += [put(fits, array + place, 1) for place in (64, 64 + 63, 7 * 64 + 63, 16, 63, 5 * 64 + 16)]
    broken.append(fits[:-1] + b"\1")
    for data in broken:
        yield f"grid {x(data)}"
        yield from GRID_CALLS
    yield "dumpgrid"
    # Good grids that are not the table's: the calls that take the table refuse them, the others do not.
    for data in (grid(7, told={0: [(1, 2)]}), grid(9), grid(7, 8, told=told), grid(6, 7, 9), grid(), grid(7, 9 + 2**56, told=told)):
        yield f"grid {x(data)}"
        yield from GRID_CALLS
    # The grid is good, and the table is not.
    for data in (b"", good[:-1], put(good, 0, 1), put(good, 34 + 2, 1), good[:AREA] + b"\3" + good[AREA + 1:], slot(7, records, 2), good[:AREA + 2] + b"\1" + u64(7, 0) + good[AREA + 19:]):
        yield f"table {x(data)}"
        yield f"grid {x(fits)}"
        yield from GRID_CALLS
        yield "newgrid"
        yield "dumpgrid"
    # Both are good and belong together; nobody is present; then a ninth node.
    yield f"table {x(good)}"
    for data in (fits, grid(7, 9)):
        yield f"grid {x(data)}"
        yield from GRID_CALLS
    yield "new"
    for number in range(10, 18):
        yield f"gridadd {number}"
    for call in ("gridadd 7", "gridremove 7", "gridadd 17", tell(2, (17, 1, 2)), "gridadd 7", "gridadd 17", "told 2 17", "dumpgrid"):
        yield call
    # The grid may be what was last written, too; a new one wants the length alone.
    for call in ("digest - 0 34 0", "grid @digest", "dumpgrid", "newgrid", "compute x0000 16384 - 0,0,0,0,0,0,0,0 0 16384 0", "grid @delta", "newgrid", f"grid {x(b'k' * (GRID - 1))}", "newgrid",
                 f"grid {x(b'k' * (GRID + 1))}", "newgrid", f"grid {x(b'k' * GRID)}", "newgrid", "gridadd 17"):
        yield call


def grids(*hubs):
    """Each of the hubs has a grid of its table."""
    for hub in hubs:
        yield f"hub {hub}"
        yield "newgrid"


def tells(hub, *others):
    """The digests of others, told to the hub's grid; a peer has its hub's number."""
    for other in others:
        yield f"hub {other}"
        yield "digest - 0 34 0"
        yield f"hub {hub}"
        yield f"tell {other} @digest 0"


def deleted(key):
    yield f"hub {P}"
    yield f"delete 1 {key} 9"


def carefully(hub):
    yield f"hub {hub}"
    yield "least 1"
    yield "careful 9 0"
    yield "digest - 0 34 0"


def owner_alone():
    """Careful at the owner alone is not enough: F removes by the clock, G hears F and is reset, then H, who has b, then P. A plain G ends at P's own max and shows b."""
    for mode in (0, 1, 2):
        yield from net(mode, mode, mode, mode)
        yield from grids(P)
        yield from sets(A)
        yield from hears(G, P)
        yield from sets(B)
        yield from hears(H, P)
        yield from deleted(B)
        yield from hears(F, P)
        yield from tells(P, F, G, H)
        yield from carefully(P)
        yield f"hub {F}"
        yield "gc 9 0"
        yield from hears(G, F, H, P)
        yield from shown(B, G, P)


def whoever_present():
    """Careful over whoever is present is not enough: F alone told P that it knows of the deletion. G hears P, then H, who does not, then P."""
    for mode in (0, 1, 2):
        yield from net(mode, mode, mode, mode)
        yield from grids(P)
        yield from sets(A, B)
        yield from hears(H, P)
        yield from deleted(B)
        yield from hears(F, P)
        yield from tells(P, F)
        yield from carefully(P)
        yield from hears(G, P, H, P)
        yield from shown(B, G, P)


def restored():
    """Restored hubs do harm: G and H told that they know of the deletion, and are restored to what they held before it. G hears P, then H, then P."""
    for mode in (0, 1, 2):
        yield from net(mode, mode, mode, mode)
        yield from grids(P)
        yield from sets(A, B)
        yield from hears(G, P)
        yield from hears(H, P)
        yield from deleted(B)
        yield from hears(G, P)
        yield from hears(H, P)
        yield from tells(P, G, H)
        yield from carefully(P)
        # As both were when they had heard a and b.
        saved = table(slot(1, [record(b"a", b"1", 1), record(b"b", b"1", 2)], 2), mode=mode)
        for hub in (G, H):
            yield f"hub {hub}"
            yield f"table {x(saved)}"
        yield from hears(G, P, H, P)
        yield from shown(B, G, P)


def taken_out():
    """The follower taken out: a delta for G is late. P removes with F alone present, and G is reset by a small MTU; the late delta comes, and b with it. With G present the removal waits."""
    def computes(edition, mtu):
        yield f"hub {G}"
        yield f"digest - 0 34 {edition}"
        yield f"hub {P}"
        yield f"compute @digest {mtu} - 0 0 {mtu} {edition}"
    long = x(b"1" * 40)
    late = x(node(1, 0, 1) + kv(b"b", b"1", 2))
    for mode in (0, 1, 2):
        for out in (True, False):
            yield from net(mode, mode, mode)
            yield from grids(P)
            yield f"hub {P}"
            yield f"write 1 {A} {long} 0 9"
            yield from hears(G, P)
            yield from sets(B)
            # The very delta that is late.
            yield from computes(0, 300)
            yield from tells(P, G)
            yield from deleted(B)
            yield from hears(F, P)
            yield from tells(P, F)
            yield f"hub {P}"
            yield f"takeout {G if out else H}"
            yield from carefully(P)
            yield f"write 1 x63 {long} 0 9"
            yield from computes(0, 100)
            yield f"hub {G}"
            yield "apply @delta 9 1"
            yield f"apply {late} 9 1"
            yield from hears(G, P)
            yield from shown(B, G, P)


def careful_net():
    """Four plain hubs, each of which removes only carefully and while all the others are present. What P sent first comes again to all, late and twice. b goes everywhere, and stays gone."""
    everyone = (P, F, G, H)
    yield from net(0, 0, 0, 0)
    yield from grids(*everyone)
    yield from sets(A, B)
    yield from hears(F, P)
    yield from hears(G, F)
    yield from deleted(B)
    for hub in (F, G, H):
        yield from hears(hub, *(other for other in everyone if other != hub))
        for each in everyone:
            yield from tells(each, *(other for other in everyone if other != each))
            yield from carefully(each)
        for each in everyone:
            yield f"hub {each}"
            yield apply(node(1), kv(b"a", b"1", 1), kv(b"b", b"1", 2), now=9, places=1)
            yield apply(node(1), kv(b"a", b"1", 1), kv(b"b", b"1", 2), now=9, places=1)
    for hub in (F, G, H):
        yield from hears(hub, P)
    yield from shown(B, *everyone)


def malformed():
    """Lines that are not of the language, each beside one that is. The tables and the hub stay."""
    yield "add 1"
    for number in (":", "1:", "/", "", "+1", "-1", "a", "1,2", str(TOP + 1), str(10 * TOP)):
        yield f"add {number}"
    for key in ("", "61", "X61", "x6", "x6g", "x6:", "x6/", "x6`", "x6A", "@digest"):
        yield f"get 1 {key}"
    for numbers in ("", ",", "1,", ",1", "1,,2", "1,:", "--"):
        yield f"digest {numbers} 0 34 0"
    yield from ("", " ", "add", "add 1 ", "add  1", " add 1", "add 1 2", "Add 1", "adds 1", "ad 1", "new 0", "make", "make 0 0", "kind", "kind 0", "kind 0 0 0", "kind 0 :", "kind : 0", "kind 0 -1", "kinds 0 0", "hub", "hub 4", "hub :", "dump 0",
                "readdelta", "readdelta @delt", "table @", "gc 1", "digest - 0 34", "digest - 0 34 -1", "digest - 0 34 0 0", "readdigest x0000", "readdigest x0000 x",
                "compute x0000 100 - 0 0 100", "compute x0000 100 - 0 0 100 +1", "plan x0000 100 - - - 0 100", "plan x0000 100 - - - 0 100 0 0", "plan x0000 100 - - 0 100 0",
                "plan x0000 100 - 1, - 0 100 0", "plan x0000 100 - - -1 0 100 0", "plan @ 100 - - - 0 100 0", "planfault x0000 100 - - -", "planfault x0000 100 - - - 0 0",
                f"planfault x0000 100 - - {TOP + 1} 0", "planfault x0000 100 - - : 0", "plans x0000 100 - - - 0 100 0", "planfaults x0000 100 - - - 0")
    yield "hub 3"
    yield "overrides 1"
    yield from ("overrides", "overrides :", "overrides 1 2", "label x61 x31 0", "label x61 x31 0 9 9", "label 61 x31 0 9", "label x61 x31 -1 9", "unlabel x61", "unlabel x61 9 9", "unlabelttl x61", "gclabels 9",
                "gclabels 9 1 1", "labels x61 x31 0 9", "dump", "hub 0", "getover 4 1 x61", "getover 3 1", "getover 3 1 61", "getover : 1 x61", "getover 3 1 x61 0", "listover 4 1 x 64", "listover 3 1 x",
                "listover 3 1 x 64 0", "listover 3 1 @digest 64", "getover 3 1 x61", "listover 3 1 x 64")
    yield from ("newgrid 1", "newgrid", "grid", "grid 00", "grid x0", "grid x00 0", "grid @grid", "dumpgrid 0", "dumpgrids", "gridadd", "gridadd x01", "gridadd 3 4", "gridremove", "gridremove -1", "tell 0 x0000",
                "tell 0 x0000 0 0", "tell x0000 0 0", "tell 0 0 x0000", "tell 0 0000 0", "tell : x0000 0", "tell 0 @ 0", f"tell {TOP + 1} x0000 0", "takeout", "takeout 0 1", "takeout +0", "least", "least 1 2",
                "least x01", "told 0", "told 0 1 2", "told 0 :", "told - 1", "careful 9", "careful 9 1 1", "careful 9 -1", "careful : 1", "least 1", "dumpgrid")
    yield "add 2"


SCRIPTS = {
    "nodes": nodes, "nodes-used": nodes_used, "beats": beats, "sizes": sizes, "versions": versions, "statuses": statuses, "wanted": wanted, "reading": reading, "keys": keys,
    "removal": removal, "removed": removed, "bad-memories": bad_memories,
    "digests": digests, "digest-reading": digest_reading, "editions": editions, "delta-reading": delta_reading, "lacking": lacking, "delta-lengths": delta_lengths, "asking": asking,
    "from": from_where, "in-line": in_line, "plans": plans, "plan-lists": plan_lists, "plan-cuts": plan_cuts, "plan-refusals": plan_refusals,
    "cuts": cuts, "longest-record": longest_record, "verdicts": verdicts, "taking": taking, "room-counts": room, "fence": fence, "guard": guard, "two-datagrams": two_datagrams, "two-datagrams-kinds": two_datagrams_kinds, "exchange": exchange,
    "net-triangle": triangle, "net-line": line, "net-relay": relay, "net-owner": owner, "net-behind": behind, "net-handed": handed, "net-heard-another": heard_another,
    "meter-forms": meter_forms, "meter-totals": meter_totals, "meter-orders": meter_orders, "meter-streams": meter_streams, "meter-tables": meter_tables,
    "over-writes": over_writes, "over-reads": over_reads, "over-refusals": over_refusals,
    "grid-columns": grid_columns, "grid-told": grid_told, "grid-least": grid_least, "grid-refusals": grid_refusals, "careful": careful,
    "careful-owner-alone": owner_alone, "careful-whoever-present": whoever_present, "careful-restored": restored, "careful-taken-out": taken_out, "careful-net": careful_net,
    "bad-tables": bad_tables, "malformed": malformed,
}

if __name__ == "__main__":
    for name, lines in SCRIPTS.items():
        (HERE / f"{name}.script").write_text("".join(line + "\n" for line in lines()))
