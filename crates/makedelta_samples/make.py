#!/usr/bin/env python3
"""Makes the folder of listings that the program `makedelta_samples` replays, and what it must write for them.

    python3 crates/makedelta_samples/make.py

writes, beside this file, a file for each sample into data/, their names into args, and into stdout for each the name and what comes of the listing: the
listing of the delta that was made, which is the sample itself, or the one line of a refusal. That comes from `written` and `listing` of
crates/listing_samples/make.py, which share nothing with the Rattle code or its definitions.
"""
import importlib.util, os, shutil

here = os.path.dirname(os.path.abspath(__file__))
spec = importlib.util.spec_from_file_location('listings', os.path.join(here, '..', 'listing_samples', 'make.py'))
listings = importlib.util.module_from_spec(spec)
spec.loader.exec_module(listings)
node, kv, most, TOP, SET, DELETE, TTL = (getattr(listings, n) for n in 'node kv most TOP SET DELETE TTL'.split())

EXAMPLE = listings.listing(listings.EXAMPLE).encode()
LINES = EXAMPLE.splitlines(keepends=True)
THREE = node(1) + kv(b'a', b'1', 1) + kv(b'b', b'2', 2) + node(2) + most(5)


def record(key=b'k', value=b'v', version=b'1', status=b'set'):
    """A listing with one Node and one record, printed as it is told, and its counts as if it were printed right."""
    size = 25 + 14 + len(key) + len(value)
    return (b'op=node id=1 gc=0 from=0\nop=kv version=' + version + b' status=' + status + b' key=' + key + b' value=' + value + b'\n'
            b'end=ok ops=2 bytes=%d\n' % size)


def numbered(line):
    """A Node's line as it is told, and an end line."""
    return line + b'\nend=ok ops=1 bytes=25\n'


def long_listing(count, end=None):
    """So many SetMaxVersions under a Node, and an end line that is right or another."""
    text = b'op=node id=1 gc=0 from=0\n' + b'op=max version=1\n' * count
    return text + (end if end is not None else b'end=ok ops=%d bytes=%d\n' % (count + 1, 25 + 9 * count))


def samples():
    yield 'example', EXAMPLE
    # edited: a value, a version, a key, a status
    yield 'a value changed, bytes left', EXAMPLE.replace(b'value=41', b'value=4100')
    yield 'a value changed, bytes too', EXAMPLE.replace(b'value=41', b'value=4100').replace(b'bytes=51', b'bytes=53')
    yield 'a value changed for one as long', EXAMPLE.replace(b'value=41', b'value=42')
    yield 'a value emptied', EXAMPLE.replace(b'value=41', b'value=').replace(b'bytes=51', b'bytes=49')
    yield 'a key changed', EXAMPLE.replace(b'key=z', b'key=y')
    yield 'a status changed', EXAMPLE.replace(b'status=set', b'status=ttl')
    yield 'a version above the max', EXAMPLE.replace(b'version=1 ', b'version=4 ')
    yield 'a version of 0', EXAMPLE.replace(b'version=1 ', b'version=0 ')
    yield 'a node number changed', EXAMPLE.replace(b'id=7', b'id=18446744073709551615')
    # a line taken out, put in, swapped
    yield 'the record taken out, counts left', LINES[0] + LINES[2] + LINES[3]
    yield 'the record taken out, counts too', LINES[0] + LINES[2] + b'end=ok ops=2 bytes=34\n'
    yield 'the node taken out, counts left', LINES[1] + LINES[2] + LINES[3]
    yield 'the node taken out, counts too', LINES[1] + LINES[2] + b'end=ok ops=2 bytes=26\n'
    yield 'the node twice, counts too', LINES[0] + LINES[0] + b'end=ok ops=2 bytes=50\n'
    yield 'node and record swapped', LINES[1] + LINES[0] + LINES[2] + LINES[3]
    yield 'record and max swapped', LINES[0] + LINES[2] + LINES[1] + LINES[3]
    yield 'max and end swapped', LINES[0] + LINES[1] + LINES[3] + LINES[2]
    three = listings.listing(THREE).encode().splitlines(keepends=True)
    yield 'two nodes', b''.join(three)
    yield 'two nodes swapped', b''.join(three[3:5] + three[:3] + three[5:])
    yield 'two records swapped', b''.join([three[0], three[2], three[1]] + three[3:])
    yield 'nine nodes', b''.join(b'op=node id=%d gc=0 from=0\n' % n for n in range(9)) + b'end=ok ops=9 bytes=225\n'
    # the end
    yield 'empty', b''
    yield 'one line feed', b'\n'
    yield 'no operation', b'end=ok ops=0 bytes=0\n'
    yield 'no end line', b''.join(LINES[:3])
    yield 'no end line, last not closed', b''.join(LINES[:3])[:-1]
    yield 'end line not closed', EXAMPLE[:-1]
    yield 'end line closed twice', EXAMPLE + b'\n'
    yield 'end line twice', EXAMPLE + LINES[3]
    yield 'a line behind the end line', EXAMPLE + LINES[2]
    yield 'one byte behind the end line', EXAMPLE + b'x'
    yield 'two listings', EXAMPLE + EXAMPLE
    yield 'a refused line', b'end=refused code=11 at=0\n'
    yield 'a refused line of form', b'end=refused code=16 line=3\n'
    yield 'a refused line behind', b''.join(LINES[:3]) + b'end=refused code=9 at=40\n'
    yield 'ops one fewer', EXAMPLE.replace(b'ops=3', b'ops=2')
    yield 'ops one more', EXAMPLE.replace(b'ops=3', b'ops=4')
    yield 'bytes one fewer', EXAMPLE.replace(b'bytes=51', b'bytes=50')
    yield 'bytes one more', EXAMPLE.replace(b'bytes=51', b'bytes=52')
    yield 'ops with a leading zero', EXAMPLE.replace(b'ops=3', b'ops=03')
    yield 'bytes with a leading zero', EXAMPLE.replace(b'bytes=51', b'bytes=051')
    # spaces, carriage returns, capitals
    yield 'carriage returns', EXAMPLE.replace(b'\n', b'\r\n')
    yield 'a carriage return at the end', EXAMPLE[:-1] + b'\r\n'
    yield 'a space too many within', EXAMPLE.replace(b' gc=', b'  gc=')
    yield 'a space too many at the end', EXAMPLE.replace(b'from=0\n', b'from=0 \n')
    yield 'a space too many at the front', b' ' + EXAMPLE
    yield 'a space too many in the end line', EXAMPLE.replace(b' bytes=', b'  bytes=')
    yield 'a tab for a space', EXAMPLE.replace(b' key=', b'\tkey=')
    yield 'a capital', EXAMPLE.replace(b'op=kv', b'Op=kv')
    yield 'an empty line between', LINES[0] + b'\n' + b''.join(LINES[1:])
    yield 'a zero byte', EXAMPLE.replace(b'id=7', b'id=7\0')
    yield 'no name', EXAMPLE.replace(b'id=7', b'7')
    yield 'another status', EXAMPLE.replace(b'status=set', b'status=gone')
    yield 'a status cut', EXAMPLE.replace(b'status=set', b'status=se')
    # numbers
    yield 'number 0', numbered(b'op=node id=0 gc=0 from=0')
    yield 'number 00', numbered(b'op=node id=00 gc=0 from=0')
    yield 'number 07', numbered(b'op=node id=07 gc=0 from=0')
    yield 'no number', numbered(b'op=node id= gc=0 from=0')
    yield 'a sign', numbered(b'op=node id=+7 gc=0 from=0')
    yield 'the largest number', numbered(b'op=node id=%d gc=%d from=%d' % (TOP, TOP, TOP))
    for name, value in (('2^64', TOP + 1), ('2^64 and 4', TOP + 5), ('ten times 2^64', 10 * (TOP + 1)), ('twenty nines', 10 ** 20 - 1), ('twenty-one digits', 10 ** 20),
                        ('2^128', 2 ** 128)):
        yield 'number %s' % name, numbered(b'op=node id=%d gc=0 from=0' % value)
        yield 'gc %s' % name, numbered(b'op=node id=0 gc=%d from=0' % value)
        yield 'from %s' % name, numbered(b'op=node id=0 gc=0 from=%d' % value)
    yield 'version 2^64', record(version=b'18446744073709551616')
    yield 'max 2^64', b'op=node id=1 gc=0 from=0\nop=max version=18446744073709551616\nend=ok ops=2 bytes=34\n'
    # keys and values
    yield 'escapes', record(key=b'%25%3D', value=b'%00%20%FF%7F').replace(b'bytes=57', b'bytes=45')
    yield 'lower-case digits', record(value=b'%0a').replace(b'bytes=43', b'bytes=41')
    yield 'one lower-case digit', record(value=b'%fF').replace(b'bytes=43', b'bytes=41')
    yield 'an escape that is not needed', record(value=b'%41').replace(b'bytes=43', b'bytes=41')
    yield 'an escape that is needed', record(value=b'%25').replace(b'bytes=43', b'bytes=41')
    yield 'a digit that is none', record(value=b'%G0').replace(b'bytes=43', b'bytes=41')
    yield 'a digit below the digits', record(value=b'%/1').replace(b'bytes=43', b'bytes=41')
    yield 'a digit between the digits', record(value=b'%:A').replace(b'bytes=43', b'bytes=41')
    yield 'an escape cut', record(value=b'%F').replace(b'bytes=42', b'bytes=41')
    yield 'a percent alone', record(value=b'%')
    yield 'a percent before an escape', record(value=b'%%25')
    yield 'an equals sign', record(value=b'a=b')
    yield 'a space in a value', record(value=b'a b')
    yield 'a byte above 126', record(value=b'\xc3\xa9')
    yield 'a key of 32', record(key=b'k' * 32)
    yield 'a key of 33', record(key=b'k' * 33)
    yield 'a value of 64', record(value=b'v' * 64)
    yield 'a value of 65', record(value=b'v' * 65)
    yield 'a key of 32 escaped', record(key=b'%FF' * 32).replace(b'bytes=136', b'bytes=72')
    yield 'a key of 33 escaped', record(key=b'%FF' * 33).replace(b'bytes=139', b'bytes=73')
    yield 'a value of 64 escaped', record(value=b'%00' * 64).replace(b'bytes=232', b'bytes=104')
    yield 'a value of 65 escaped', record(value=b'%00' * 65).replace(b'bytes=235', b'bytes=105')
    longest = record(key=b'%FF' * 32, value=b'%00' * 64, version=b'%d' % TOP, status=b'delete').replace(b'bytes=327', b'bytes=135')
    assert max(map(len, longest.splitlines(keepends=True))) == 349
    yield 'the longest line', longest
    yield 'a line of a hundred thousand bytes', b'op=node id=' + b'1' * 10 ** 5 + b' gc=0 from=0\nend=ok ops=1 bytes=25\n'
    yield 'a hundred thousand bytes behind the end', EXAMPLE + b'x' * 10 ** 5
    # more than 16,384 bytes of delta: every line is judged first
    yield '16384 bytes', listings.listing(listings.long_delta(16384)).encode()
    yield '16384 bytes of longest records', listings.listing(listings.odd_delta()).encode()
    yield '16387 bytes', long_listing(1818)
    yield '27025 bytes', long_listing(3000)
    yield '27025 bytes, a wrong count', long_listing(3000, b'end=ok ops=3001 bytes=27024\n')
    yield '27025 bytes, no end line', long_listing(3000, b'')
    yield '27025 bytes, a bad line', long_listing(3000).replace(b'op=max version=1\nend', b'op=max version=01\nend')
    yield 'a fault, then a bad line', b'op=max version=1\nop=max version=x\nend=ok ops=2 bytes=18\n'


def main():
    folder = os.path.join(here, 'data')
    shutil.rmtree(folder, ignore_errors=True)
    os.mkdir(folder)
    with open(os.path.join(here, 'args'), 'w') as args, open(os.path.join(here, 'stdout'), 'w') as told:
        for name, text in samples():
            name = name.replace(',', '').replace(' ', '-')
            with open(os.path.join(folder, name), 'wb') as sample:
                sample.write(text)
            args.write(name + '\n')
            outcome = listings.written(text)
            if not isinstance(outcome, str):
                assert listings.listing(outcome).encode() == text, name
                outcome = text.decode()
            told.write(name + '\n' + outcome)


if __name__ == '__main__':
    main()
