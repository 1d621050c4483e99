#!/usr/bin/env python3
"""Makes the folder of samples that the program `listing_samples` replays, and what it must write for them.

    python3 crates/listing_samples/make.py

writes, beside this file, a file for each sample into data/, their names into args, and into stdout for each the name, its listing, and what comes of
reading that listing back. The listings come from `listing` below, which was written from document 01 ("Bytes", "Numbers given on refusal", "The
listing") and from tickets 1 and 5 of the change requests; what comes of a listing from `written`, which was written from ticket 7. Both share nothing with
the Rattle code or its definitions.
"""
import os, re, shutil, struct

SET, DELETE, TTL = 0, 1, 2


class Refused(Exception):
    """The number, and with 9 how many bytes the field lacks (ticket 5)."""


# ---- document 01's reading

def take(b, at, n):
    if len(b) - at < n:
        raise Refused(9, n - (len(b) - at))
    return b[at:at + n], at + n


def number(b, at, n):
    field, at = take(b, at, n)
    return int.from_bytes(field, 'little'), at


def text(b, at, most):
    n, at = number(b, at, 2)
    if n > most:
        raise Refused(1)
    return take(b, at, n)


def operation(b, at):
    tag, at = number(b, at, 1)
    if tag == 0:
        node, at = number(b, at, 8)
        gc, at = number(b, at, 8)
        start, at = number(b, at, 8)
        return ('node', node, gc, start), at
    if tag == 1:
        key, at = text(b, at, 32)
        value, at = text(b, at, 64)
        version, at = number(b, at, 8)
        status, at = number(b, at, 1)
        if status > 2:
            raise Refused(10)
        return ('kv', key, value, version, status), at
    if tag == 2:
        most, at = number(b, at, 8)
        return ('max', most), at
    raise Refused(10)


def shown(s):
    """Ticket 1 of the change requests: bytes outside 33 to 126, and % and =, print as % with two capital hexadecimal digits."""
    return ''.join('%%%02X' % c if c < 33 or c > 126 or chr(c) in '%=' else chr(c) for c in s)


def listing(b):
    if len(b) > 16384:
        return 'end=refused code=13 at=0\n'
    at, lines, nodes, most = 0, [], [], None
    while at < len(b):
        place = at
        try:
            op, at = operation(b, at)
            if op[0] == 'node':
                if op[1] in nodes:
                    raise Refused(12)
                if len(nodes) == 8:
                    raise Refused(13)
                nodes.append(op[1])
                most = 0
                lines.append('op=node id=%d gc=%d from=%d\n' % op[1:])
            elif op[0] == 'kv':
                if most is None or op[3] <= most:
                    raise Refused(11)
                most = op[3]
                lines.append('op=kv version=%d status=%s key=%s value=%s\n' % (op[3], ('set', 'delete', 'ttl')[op[4]], shown(op[1]), shown(op[2])))
            else:
                if most is None or op[1] < most:
                    raise Refused(11)
                most = op[1]
                lines.append('op=max version=%d\n' % op[1])
        except Refused as r:
            return 'end=refused code=%d at=%d%s\n' % (r.args[0], place, ''.join(' need=%d' % n for n in r.args[1:]))
    return ''.join(lines) + 'end=ok ops=%d bytes=%d\n' % (len(lines), len(b))


# ---- ticket 7: a delta from its listing

NUMBER = rb'(0|[1-9][0-9]*)'
TEXT = rb'((?:[!-~])*)'
LINES = [
    ('node', re.compile(rb'op=node id=' + NUMBER + rb' gc=' + NUMBER + rb' from=' + NUMBER)),
    ('kv', re.compile(rb'op=kv version=' + NUMBER + rb' status=(set|delete|ttl) key=' + TEXT + rb' value=' + TEXT)),
    ('max', re.compile(rb'op=max version=' + NUMBER)),
    ('end', re.compile(rb'end=ok ops=' + NUMBER + rb' bytes=' + NUMBER)),
]


class NotInForm(Exception):
    pass


def unescaped(s, most):
    """What a shown key or value stands for, if it is shown just so and not too long."""
    b = re.sub(rb'%([0-9A-F]{2})', lambda m: bytes([int(m.group(1), 16)]), s)
    if shown(b).encode() != s or len(b) > most:
        raise NotInForm
    return b


def small(s):
    if len(s) > 20 or int(s) >= 2 ** 64:
        raise NotInForm
    return int(s)


def of_line(line):
    """The line's kind, and the bytes of its operation or the counts of an end line."""
    for kind, form in LINES:
        m = form.fullmatch(line)
        if m and kind == 'node':
            return kind, node(*map(small, m.groups()))
        if m and kind == 'kv':
            status = [b'set', b'delete', b'ttl'].index(m.group(2))
            return kind, kv(unescaped(m.group(3), 32), unescaped(m.group(4), 64), small(m.group(1)), status)
        if m and kind == 'max':
            return kind, most(small(m.group(1)))
        if m:
            return kind, m.groups()
    raise NotInForm


def written(text):
    """The delta's bytes, or the line that is printed where there are none."""
    at, number, delta = 0, 0, b''
    try:
        while True:
            number += 1
            end = text.find(b'\n', at)
            if end < 0:
                raise NotInForm
            kind, told = of_line(text[at:end])
            at = end + 1
            if kind == 'end':
                if told != (b'%d' % (number - 1), b'%d' % len(delta)):
                    raise NotInForm
                if at < len(text):
                    number += 1
                    raise NotInForm
                break
            delta += told
    except NotInForm:
        return 'end=refused code=16 line=%d\n' % number
    told = listing(delta)
    return told if told.startswith('end=refused') else delta


# ---- the samples

def u64(v):
    return struct.pack('<Q', v)


def node(n, gc=0, start=0):
    return b'\0' + u64(n) + u64(gc) + u64(start)


def kv(key, value, version, status=SET):
    return b'\1' + struct.pack('<H', len(key)) + key + struct.pack('<H', len(value)) + value + u64(version) + bytes([status])


def most(v):
    return b'\2' + u64(v)


TOP = 2 ** 64 - 1
EXAMPLE = node(7) + kv(b'z', b'41', 1) + most(3)


def long_delta(size):
    """A good delta of exactly so many bytes: SetMaxVersions, and one record that takes up the rest."""
    b = node(1)
    rest = size - len(b)
    fill = (rest - 14) % 9
    b += kv(b'', b'x' * fill, 1)
    while len(b) < size:
        b += most(1)
    assert len(b) == size
    return b


def each_byte():
    """For every byte value a record with it as key and one with it as value."""
    b = node(1)
    for c in range(256):
        b += kv(bytes([c]), b'k', 2 * c + 1) + kv(b'v', bytes([c]), 2 * c + 2)
    return b


def old_shown(s):
    """As listings were before ticket 1."""
    return ''.join(chr(c) if 33 <= c <= 126 else '?' for c in s)


def differ(one, other):
    """Two deltas that only differ where the old listing did not show it."""
    assert one != other and len(one) == len(other) and old_shown(one) == old_shown(other)
    yield node(1) + kv(one, b'x', 1)
    yield node(1) + kv(other, b'x', 1)


def odd_delta():
    """A good delta of 16,384 bytes whose records are as long as they can be, of bytes that are all escaped."""
    b, version = node(1), 1
    while len(b) + 110 <= 16384:
        b += kv(b'\xff' * 32, b'\0' * 64, version)
        version += 1
    rest = 16384 - len(b) - 14
    b += kv(b'=' * min(32, rest), b'%' * (rest - min(32, rest)), version)
    assert len(b) == 16384
    return b


def samples():
    yield 'example', EXAMPLE
    for n in range(len(EXAMPLE)):
        yield 'example cut at %d' % n, EXAMPLE[:n]
    yield 'three statuses', node(1) + kv(b'a', b'1', 1, SET) + kv(b'b', b'', 2, DELETE) + kv(b'c', b'3', 3, TTL)
    yield 'largest numbers', node(TOP, TOP, TOP) + kv(b'k', b'v', TOP) + most(TOP)
    yield 'powers of ten', b''.join(node(10 ** i, 10 ** i - 1, 10 ** (19 - i)) for i in range(0, 16, 2))
    yield 'nineteen and twenty digits', node(10 ** 19 - 1, 10 ** 19, 9) + most(10)
    yield 'unprintable bytes', node(2) + kv(bytes([0, 32, 33, 126, 127, 255]), b' ~!\n\xc3\xa9', 5)
    yield 'every byte as key and value', each_byte()
    yield 'longest key and value of 255', node(1) + kv(b'\xff' * 32, b'\xff' * 64, 1, DELETE)
    yield 'longest key and value of 0', node(TOP, TOP, TOP) + kv(bytes(32), bytes(64), TOP, DELETE)
    yield 'longest key and value of percent and equals', node(1) + kv(b'%=' * 16, b'=%' * 32, 1, TTL)
    yield '16384 bytes of longest records of odd bytes', odd_delta()
    for place, (one, other) in enumerate([(b'a\0', b'a\1'), (b'\x7f', b'?'), (b'a b', b'a\tb'), (b'\x80' * 31 + b'\xfe', b'\x80' * 31 + b'\xff')]):
        for name, delta in zip(('first', 'second'), differ(one, other)):
            yield 'once alike %d %s' % (place + 1, name), delta
    yield 'escapes as text', node(1) + kv(b'%41', b'%25', 1) + kv(b'A', b'%', 2) + kv(b'key= value=', b'\nend=ok ops=0 bytes=0\n', 3)
    yield 'max starts at 0 with each node', node(1) + kv(b'a', b'', 9) + node(2) + kv(b'a', b'', 1)
    yield 'max not lowered', node(1) + kv(b'a', b'', 4) + most(4) + kv(b'b', b'', 5)
    yield 'node alone', node(3, 4, 5)
    yield 'max 0 after a node', node(1) + most(0)
    # the limits
    yield 'key of 32', node(1) + kv(b'k' * 32, b'', 1)
    yield 'key of 33', node(1) + kv(b'k' * 33, b'', 1)
    yield 'value of 64', node(1) + kv(b'', b'v' * 64, 1)
    yield 'value of 65', node(1) + kv(b'', b'v' * 65, 1)
    yield 'largest record', node(1) + kv(b'k' * 32, b'v' * 64, 1)
    yield 'eight nodes', b''.join(node(n) for n in range(8))
    yield 'nine nodes', b''.join(node(n) for n in range(9))
    yield '16383 bytes', long_delta(16383)
    yield '16384 bytes', long_delta(16384)
    yield '16385 bytes', long_delta(16385)
    yield '16385 bytes of 255', b'\xff' * 16385
    yield '16384 bytes, last cut', long_delta(16384)[:-9] + b'\0' * 9
    # the refusals
    yield '1 before 9', node(1) + b'\1' + struct.pack('<H', 33)
    yield '1 value before 9', node(1) + b'\1' + struct.pack('<H', 0) + struct.pack('<H', 65)
    yield '1 length of 65535', node(1) + b'\1\xff\xff'
    yield '9 before 10', node(1) + kv(b'a', b'', 1, 3)[:-1]
    longest = kv(b'k' * 32, b'v' * 64, 1)
    for n in (3, 4, 34, 35, 36, 37, 38, 100, 101, 102, 108, 109):
        yield 'longest record cut at %d' % n, node(1) + longest[:n]
    yield 'max cut at 1', node(1) + most(1)[:1]
    yield 'max cut at 8', node(1) + most(1)[:8]
    yield '10 tag 3', node(1) + b'\3' + u64(1)
    yield '10 tag 255', b'\xff'
    yield '10 status 3', node(1) + kv(b'a', b'', 1, 3)
    yield '10 status 255', node(1) + kv(b'a', b'', 1, 255)
    yield '10 before 11', kv(b'a', b'', 1, 3)
    yield '11 record before a node', kv(b'a', b'', 1)
    yield '11 max before a node', most(1)
    yield '11 version 0', node(1) + kv(b'a', b'', 0)
    yield '11 version not above', node(1) + kv(b'a', b'', 5) + kv(b'b', b'', 5)
    yield '11 max below', node(1) + kv(b'a', b'', 5) + most(4)
    yield '11 version at the max', node(1) + most(5) + kv(b'a', b'', 5)
    yield '12 node repeated', node(1) + node(2) + node(1)
    yield '12 before 13', b''.join(node(n) for n in range(8)) + node(0)
    yield '13 ninth node', b''.join(node(n) for n in range(8)) + node(8, 1, 1) + b'\3'


def main():
    here = os.path.dirname(os.path.abspath(__file__))
    folder = os.path.join(here, 'data')
    shutil.rmtree(folder, ignore_errors=True)
    os.mkdir(folder)
    with open(os.path.join(here, 'args'), 'w') as args, open(os.path.join(here, 'stdout'), 'w') as told:
        for name, delta in samples():
            name = name.replace(',', '').replace(' ', '-')
            with open(os.path.join(folder, name), 'wb') as sample:
                sample.write(delta)
            args.write(name + '\n')
            back = written(listing(delta).encode())
            told.write(name + '\n' + listing(delta) + (back if isinstance(back, str) else 'made=same\n' if back == delta else 'made=other\n'))


if __name__ == '__main__':
    main()
