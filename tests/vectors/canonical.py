"""Both ends of every rule of the canonical form, each written in several layouts.

The answers follow from document 01's paragraph "Canonical form" by construction: a case is a value, the bytes that say it in one layout, and the canonical
bytes, put down here by the rule for that value. A map's pairs are put in rising byte order of the key's canonical form (#103) by `map_of`, which is handed that form.
None comes from the code of this repository. Both flags are on where none are said; the form is the same by all (#109).
"""
from itertools import permutations

from lines import BOTH, V4_NC, Case, big


def digits(n):
    return n.to_bytes((n.bit_length() + 7) // 8, 'little')


def integer(v):
    """97 if 0..255, else 98 if it fits, else 110 up to 255 digits, else 111, with no high zero digit."""
    if 0 <= v <= 255:
        return bytes([97, v])
    if -2**31 <= v < 2**31:
        return b'\x62' + v.to_bytes(4, 'big', signed=True)
    ds = digits(abs(v))
    sign = bytes([v < 0])
    return (b'\x6e' + big(1, len(ds)) if len(ds) <= 255 else b'\x6f' + big(4, len(ds))) + sign + ds


def integers():
    values = [0, 1, 255, 256, -1, -255, -256, 2**31 - 1, 2**31, 2**31 + 1, -2**31, -2**31 - 1, 2**32, 2**63 - 1, 2**63, -2**63, -2**63 - 1, 2**64 - 1, 2**64,
              256**254, 256**255 - 1, 256**255, 256**256 - 1, -(256**255 - 1), -256**255]
    for v in values:
        ds, sign, out = digits(abs(v)), bytes([v < 0]), integer(v)
        if 0 <= v <= 255:
            yield bytes([97, v]), out
        if -2**31 <= v < 2**31:
            yield b'\x62' + v.to_bytes(4, 'big', signed=True), out
        for zeros in (0, 1, 9):
            padded = ds + bytes(zeros)
            if len(padded) <= 255:
                yield b'\x6e' + big(1, len(padded)) + sign + padded, out
            yield b'\x6f' + big(4, len(padded)) + sign + padded, out
    yield b'\x6e\x02\x01\x00\x00', integer(0)


def atom(text):
    """119 up to 255 bytes, else 118; in UTF-8."""
    bs = text.encode()
    return (b'\x77' + big(1, len(bs)) if len(bs) <= 255 else b'\x76' + big(2, len(bs))) + bs


def atoms():
    texts = ['', 'a', '\x00', 'a' * 255, '\x7f\x80\xff', 'a' + '\xe9' * 127, '\xe9' * 128, '\xe9' * 255, '\u07ff\u0800\ud7ff\ue000\uffff\U00010000\U0010ffff',
             '\U0010ffff' * 255, 'a' * 253 + '\xe9', 'a' * 254 + '\xe9']
    for text in texts:
        out, utf8 = atom(text), text.encode()
        yield b'\x76' + big(2, len(utf8)) + utf8, out
        if len(utf8) <= 255:
            yield b'\x77' + big(1, len(utf8)) + utf8, out
        if all(ord(c) < 256 for c in text):
            latin = text.encode('latin-1')
            yield b'\x64' + big(2, len(latin)) + latin, out
            yield b'\x73' + big(1, len(latin)) + latin, out


def floats():
    for bits in (0, 2**63, 1, 0x3ff0000000000000, 0x7fefffffffffffff, 0xffefffffffffffff):
        yield b'\x46' + big(8, bits), b'\x46' + big(8, bits)


def tuples():
    """104 up to arity 255, else 105."""
    for n in (0, 1, 255, 256, 300):
        out = (b'\x68' + big(1, n) if n <= 255 else b'\x69' + big(4, n)) + b'\x6a' * n
        yield b'\x69' + big(4, n) + b'\x6a' * n, out
        if n <= 255:
            yield b'\x68' + big(1, n) + b'\x6a' * n, out


def lists():
    """106; 107 for a proper list of one or more integers 0..255, else 108, its tail 106 or no list; of at most 8,191 elements (#111)."""
    nil, empty = b'\x6a', b'\x6c' + big(4, 0)
    for tail in (nil, b'\x6b\x00\x00', empty + nil):
        yield tail, nil
        for n in (1, 255, 256, 8191):
            yield b'\x6c' + big(4, n) + b'\x61\x07' * n + tail, b'\x6b' + big(2, n) + b'\x07' * n
        yield b'\x6c' + big(4, 2) + integer(255) + integer(256) + tail, b'\x6c' + big(4, 2) + integer(255) + integer(256) + nil
        yield b'\x6c' + big(4, 2) + integer(0) + integer(-1) + tail, b'\x6c' + big(4, 2) + integer(0) + integer(-1) + nil
        yield b'\x6c' + big(4, 1) + nil + tail, b'\x6c' + big(4, 1) + nil + nil
    # 8,191 elements: by a 107, by joined 108s of one element each, by a 108 and a 107; an improper list of as many parts
    for message in (b'\x6b' + big(2, 8191) + b'\xff' * 8191, (b'\x6c' + big(4, 1) + integer(255)) * 8191 + nil,
                    b'\x6c' + big(4, 4000) + integer(255) * 4000 + b'\x6b' + big(2, 4191) + b'\xff' * 4191):
        yield message, b'\x6b' + big(2, 8191) + b'\xff' * 8191
    improper = b'\x6c' + big(4, 8190) + integer(255) * 8190 + integer(7)
    yield improper, improper
    # the meaning counts: 98, 110 and 111 for 7 are integers 0..255
    sevens = b'\x61\x07' + b'\x62\x00\x00\x00\x07' + b'\x6e\x01\x00\x07' + b'\x6f\x00\x00\x00\x02\x00\x07\x00'
    yield b'\x6c' + big(4, 4) + sevens + nil, b'\x6b\x00\x04\x07\x07\x07\x07'
    # a joined tail, and one that breaks a list of small integers
    yield b'\x6c' + big(4, 1) + integer(7) + b'\x6b\x00\x02\x08\x09', b'\x6b\x00\x03\x07\x08\x09'
    yield b'\x6c' + big(4, 1) + integer(256) + b'\x6b\x00\x02\x08\x09', b'\x6c' + big(4, 3) + integer(256) + integer(8) + integer(9) + nil
    yield b'\x6c' + big(4, 1) + integer(7) + b'\x6c' + big(4, 1) + integer(8) + integer(9), b'\x6c' + big(4, 2) + integer(7) + integer(8) + integer(9)
    # improper lists are 108 throughout
    yield b'\x6c' + big(4, 1) + integer(7) + integer(8), b'\x6c' + big(4, 1) + integer(7) + integer(8)
    yield b'\x6c' + big(4, 1) + integer(7) + empty + integer(8), b'\x6c' + big(4, 1) + integer(7) + integer(8)
    yield empty + integer(8), integer(8)


def binaries():
    """109; 77 with Bits 1..7 and zero low bits."""
    for n in (0, 1, 255, 256, 1000):
        yield b'\x6d' + big(4, n) + b'\xab' * n, b'\x6d' + big(4, n) + b'\xab' * n
        yield b'\x4d' + big(4, n) + bytes([8 if n else 0]) + b'\xab' * n, b'\x6d' + big(4, n) + b'\xab' * n
    for bits in range(1, 8):
        low = 2**(8 - bits)
        for last in (0, 1, 127, 128, 255, 0xa5):
            body = b'\xff\x01'
            yield b'\x4d' + big(4, 3) + big(1, bits) + body + big(1, last), b'\x4d' + big(4, 3) + big(1, bits) + body + big(1, last // low * low)


NIL, EMPTY = b'\x6a', b'\x6c' + big(4, 0)


def same(*forms):
    """Terms that are given in their canonical form: bytes and form."""
    return [(form, form) for form in forms]


def map_of(*pairs):
    """A map with its pairs as they come, and its canonical form: pairs in rising byte order of the key's form, where the first byte that differs decides. A
    pair is a key and a value, each its bytes and its form."""
    head = b'\x74' + big(4, len(pairs))
    ranked = sorted(pairs, key=lambda pair: pair[0][1])
    return head + b''.join(key + value for (key, _), (value, _) in pairs), head + b''.join(key + value for (_, key), (_, value) in ranked)


def numbered(keys):
    """Pairs of these keys, each with a value of its own."""
    return [(key, (integer(k % 251), integer(k % 251))) for k, key in enumerate(keys)]


def mixed(things):
    """A fixed order that is neither rising nor falling."""
    step = next(step for step in (7, 11, 13) if len(things) % step)
    return [things[step * k % len(things)] for k in range(len(things))]


# What stands before a part and after it: in a tuple, a list, a tail, as a value, as a key.
HOLDERS = ((b'\x68\1', b''), (b'\x6c' + big(4, 1), NIL), (b'\x6c' + big(4, 1) + integer(9), b''), (b'\x74' + big(4, 1) + integer(9), b''), (b'\x74' + big(4, 1), NIL))


def maps():
    # No order is refused, and the pairs of each are put in the same: none to three pairs, three in their six orders, and what was written once more.
    pairs = same(integer(1), NIL), same(integer(256), integer(1)), same(atom('k'), b'\x68\0')
    for n in (0, 1, 2):
        yield map_of(*pairs[:n])
    for order in permutations(pairs):
        yield map_of(*order)
    for order in permutations(numbered(same(atom('b'), integer(-1), b'\x68\0'))):
        yield map_of(*order)
    yield from within()
    yield from inside_out()


def within():
    """Maps in other terms are put in order, wherever they stand; tuples and lists keep theirs."""
    given, form = map_of(same(integer(2), NIL), same(integer(1), atom('v')))
    assert given != form
    for front, end in HOLDERS + ((b'\x74' + big(4, 1), integer(9)), (b'\x68\2', integer(9)), (b'\x6c' + big(4, 1), integer(9))):
        yield front + given + end, front + form + end
        for around, close in ((b'\x68\1', b''), (b'\x74' + big(4, 1), NIL), (b'\x74' + big(4, 1) + NIL, b'')):
            yield around + front + given + end + close, around + front + form + end + close
    other, other_form = map_of(same(integer(1), NIL), same(integer(0), NIL))
    assert form > other_form and given > other
    for front, end in ((b'\x68\2', b''), (b'\x6c' + big(4, 2), NIL), (b'\x6c' + big(4, 1), b'')):
        yield front + given + other + end, front + form + other_form + end
    # As values, which decide nothing: whichever of the two stands with the lesser key.
    for values in ((given, form), (other, other_form)), ((other, other_form), (given, form)):
        yield map_of(*zip(same(integer(8), integer(7)), values))


def inside_out():
    """A key that is a map is ranked by its own canonical form, and so are the keys in it."""
    # 3,1 is 1,3 before it is ranked, and stands before 2,4.
    low, high = map_of(same(integer(3), NIL), same(integer(1), NIL)), map_of(same(integer(2), NIL), same(integer(4), NIL))
    assert low[0] > high[0] and low[1] < high[1]
    for order in permutations(numbered([low, high])):
        yield map_of(*order)
    # The same in a tuple, a list and a tail of the key, as a value of the key, and as a key of the key.
    for front, end in HOLDERS:
        held = [(front + given + end, front + form + end) for given, form in (low, high)]
        for order in permutations(numbered(held)):
            yield map_of(*order)
    # Keys in keys in keys: what is put in order inside moves what stands around it.
    for key in (low, high):
        inner = map_of((key, *same(NIL)), same(integer(5), NIL))
        other = map_of((*same(integer(6)), key), same(integer(5), NIL))
        outer = map_of(*numbered([inner, other, key] + same(integer(256))))
        yield outer
        yield map_of(*numbered([outer, inner] + same(atom('z'), integer(0))))
    # The pairs of a key count for its form, values too: by their number first, then key and value in turn.
    zero, unit, two = integer(0), integer(1), integer(2)
    counted = [map_of(*[same(*pair) for pair in pairs]) for pairs in (
        [], [(unit, integer(5))], [(unit, NIL)], [(integer(255), NIL)], [(NIL, zero)], [(unit, zero), (zero, NIL)], [(unit, NIL), (zero, NIL)], [(two, zero), (zero, NIL)])]
    assert all(a[1] < b[1] for a, b in zip(counted, counted[1:]))
    yield map_of(*numbered(counted[::-1]))
    yield map_of(*numbered(mixed(counted)))
    # Turned at each of 63 levels, by keys and by values: 97,1 stands before a map, and 1 before 2.
    keyed = valued = map_of()
    for _ in range(63):
        keyed, valued = map_of((keyed, *same(NIL)), same(integer(1), NIL)), map_of((*same(integer(2)), valued), same(integer(1), NIL))
    yield keyed
    yield valued


def real(high):
    return b'\x46' + big(2, high) + bytes(6)


def bits(count, data):
    return b'\x4d' + big(4, len(data)) + big(1, count) + data


def binary(data):
    return b'\x6d' + big(4, len(data)) + data


def string(text):
    return b'\x6b' + big(2, len(text)) + text


def list_of(*parts, tail=NIL):
    return b'\x6c' + big(4, len(parts)) + b''.join(parts) + tail


def pid(node, number, serial, creation):
    return b'\x58' + node + big(4, number) + big(4, serial) + big(4, creation)


def port(node, number, creation):
    return (b'\x59' + node + big(4, number) if number < 2**28 else b'\x78' + node + big(8, number)) + big(4, creation)


def reference(node, creation, *words):
    return b'\x5a' + big(2, len(words)) + node + big(4, creation) + b''.join(big(4, word) for word in words)


def export(module, function, arity):
    return b'\x71' + atom(module) + atom(function) + integer(arity)


def ladder():
    """Canonical forms in rising byte order, by hand."""
    a, b, n, wide = atom('a'), atom('b'), atom('n'), atom('z' * 254 + '\xe9')
    rising = [
        # 70, by its bits: 0.0, 1.0, 1.5, -0.0, -1.0
        real(0), real(0x3ff0), real(0x3ff8), real(0x8000), real(0xbff0),
        # 77, by length, then Bits, then bytes
        bits(1, b'\x80'), bits(2, b'\0'), bits(7, b'\xfe'), bits(1, b'\0\0'), bits(1, b'\0\x80'),
        # 88, by node (118 before 119, then its length), ID, Serial, Creation
        pid(wide, 2, 0, 0), pid(n, 0, 5, 0), pid(n, 0, 5, 2**31), pid(n, 0, 6, 0), pid(n, 1, 0, 0), pid(n, 2**31, 0, 0), pid(atom('aa'), 0, 0, 0),
        # 89, by node, ID, Creation
        port(n, 0, 9), port(n, 256, 0), port(n, 2**28 - 1, 0), port(atom('aa'), 0, 0),
        # 90, by the number of words, then node, Creation, words
        reference(atom('zz'), 9, 9), reference(n, 0, 0, 9), reference(n, 0, 1, 0), reference(n, 1, 0, 0), reference(n, 0, 0, 0, 0),
        reference(n, 0, 0, 0, 0, 0, 0),
        # 97, then 98: 256 before the negative ones
        integer(0), integer(1), integer(10), integer(255), integer(256), integer(65536), integer(2**31 - 1), integer(-2**31), integer(-256), integer(-1),
        # 104, by arity, then its elements; 105
        b'\x68\0', b'\x68\1' + real(0), b'\x68\1' + integer(7), b'\x68\1' + a, b'\x68\2' + real(0) + integer(0), b'\x68\2' + real(0) + NIL,
        b'\x69' + big(4, 256) + NIL * 256,
        # 106, then 107, by length, then bytes
        NIL, string(b'\xff'), string(b'\0\0'), string(b'\0\1'), string(b'\1\2'), string(b'\0' * 3),
        # 108, by length, then its elements, then its tail: an improper tail by 97 or 104 stands before 106, one by 119 after it
        list_of(integer(1), tail=integer(2)), list_of(integer(256)), list_of(NIL), list_of(real(0), real(0)), list_of(integer(1), integer(2), tail=a),
        list_of(integer(256), integer(2), tail=integer(3)), list_of(integer(256), integer(2)), list_of(integer(256), integer(2), tail=a),
        list_of(a, b, tail=b'\x68\0'), list_of(a, b), list_of(a, b, tail=b),
        # 109, by length, then bytes
        binary(b''), binary(b'\xff'), binary(b'\0\0'), binary(b'\0\1'),
        # 110, by the number of digits, then the sign, then the least digit first; 111
        integer(2**31), integer(2**31 + 256), integer(2**31 + 1), integer(2**32 - 1), integer(-2**31 - 1), integer(2**32), integer(2**40), integer(-2**40),
        integer(256**255),
        # 113, by module, function, arity
        export('m', 'f', 0), export('m', 'f', 255), export('m', 'ff', 0), export('mm', 'f', 0),
        # 116, by the number of pairs, then the pairs
        b'\x74' + big(4, 0), b'\x74' + big(4, 1) + integer(1) + NIL, b'\x74' + big(4, 2) + integer(0) + NIL + integer(1) + NIL,
        # 118, an atom of 256 bytes, then 119, by length, then bytes
        wide, atom(''), atom('z'), atom('aa'), atom('ab'), atom('\xe9'), atom('aaa'), atom('a' * 255),
        # 120, a port ID of 2^28 and more
        port(n, 2**28, 0), port(n, 2**64 - 1, 0)]
    assert all(first < second for first, second in zip(rising, rising[1:]))
    return rising


def ranks():
    """Two keys of the ladder, the later first; the value beside it is the lesser one, since values decide nothing."""
    rising = ladder()
    for step in (1, 9):
        for first, second in zip(rising, rising[step:]):
            yield b'\x74' + big(4, 2) + second + NIL + first + atom('v'), b'\x74' + big(4, 2) + first + atom('v') + second + NIL
    # All of them in falling order, in a mixed one, and as they are.
    for keys in (rising[::-1], mixed(rising), rising):
        yield map_of(*numbered(same(*keys)))


def layouts():
    """Two keys, each in some layout and in its form; the first is the lesser by its form, whichever it is by its layout."""
    old, node = b'\x64\x00\x01n', atom('n')
    # 98, 110 and 111 for integers that fit less
    yield (b'\x62' + big(4, 1), integer(1)), (integer(255), integer(255))
    yield (b'\x6e\1\0\7', integer(7)), (integer(256), integer(256))
    yield (b'\x6f' + big(4, 2) + b'\0\x2c\1', integer(300)), (NIL, NIL)
    yield (b'\x6e\4\1\0\0\0\x80', integer(-2**31)), (b'\x6e\1\1\1', integer(-1))
    yield (b'\x6e\1\0\x0a', integer(10)), (b'\x6f' + big(4, 7) + b'\0' + digits(2**40) + b'\0', integer(2**40))
    # Latin-1 and 118 for short atoms: by the length in UTF-8
    yield (atom('z'), atom('z')), (b'\x73\1\xe9', atom('\xe9'))
    yield (b'\x64\0\1z', atom('z')), (b'\x64\0\1\xe9', atom('\xe9'))
    yield (b'\x68\0', b'\x68\0'), (b'\x64\0\1b', atom('b'))
    yield (atom('z' * 254 + '\xe9'), atom('z' * 254 + '\xe9')), (b'\x76\0\1a', atom('a'))
    yield (b'\x64\0\xff' + b'\xe9' * 255, atom('\xe9' * 255)), (b'\x73\0', atom(''))
    # 105 for a small tuple
    yield (b'\x69' + big(4, 1) + NIL, b'\x68\1' + NIL), (b'\x68\2' + NIL + NIL, b'\x68\2' + NIL + NIL)
    # 107 and 108 for one list, 107 of length 0, 108 of length 0, a joined tail
    yield (list_of(integer(1), integer(2)), string(b'\1\2')), (string(b'\0\0\0'), string(b'\0\0\0'))
    yield (b'\x6b\0\0', NIL), (list_of(integer(0)), string(b'\0'))
    yield (EMPTY * 2 + integer(3), integer(3)), (string(b'\3'), string(b'\3'))
    yield (list_of(b'\x62' + big(4, 9), tail=string(b'\1')), string(b'\x09\1')), (list_of(integer(256), tail=string(b'\1')), list_of(integer(256), integer(1)))
    # 77 for binaries, and its low bits
    yield (NIL, NIL), (bits(8, b'a'), binary(b'a'))
    yield (bits(1, b'\x80'), bits(1, b'\x80')), (bits(0, b''), binary(b''))
    yield (bits(3, b'\x9f'), bits(3, b'\x80')), (bits(3, b'\xbf'), bits(3, b'\xa0'))
    # older layouts of a pid, a port and a reference, and 120 for a small ID
    yield (b'\x67' + old + big(4, 1) + big(4, 2) + b'\3', pid(node, 1, 2, 3)), (integer(0), integer(0))
    yield (b'\x66' + old + big(4, 1) + b'\3', port(node, 1, 3)), (integer(0), integer(0))
    yield (b'\x78' + old + big(8, 1) + big(4, 3), port(node, 1, 3)), (integer(0), integer(0))
    yield (b'\x65' + old + big(4, 9) + b'\3', reference(node, 3, 9)), (b'\x72\0\2' + old + b'\1' + big(4, 1) * 2, reference(node, 1, 1, 1))
    yield (b'\x71' + old + old + integer(1), export('n', 'n', 1)), (b'\x71\x73\1\xe9' + old + integer(0), export('\xe9', 'n', 0))


def in_layouts():
    """A key is ranked by its canonical form, in whichever layout it comes."""
    for low, high in layouts():
        assert low[1] < high[1]
        for order in permutations(numbered([low, high])):
            yield map_of(*order)


def all_layouts():
    """Every short form of the families above as a key of one map, each time in another of its layouts."""
    known = {}
    for family in (integers, atoms, floats, tuples, lists, binaries, identifiers, newer):
        for message, out in family():
            if len(message) < 40:
                known.setdefault(out, []).append(message)
    forms = sorted(known, reverse=True)
    for turn in range(4):
        keys = [(known[form][turn % len(known[form])], form) for form in forms]
        yield map_of(*numbered(keys if turn % 2 else mixed(keys)))


def many():
    """33, 256 and 4,095 pairs in falling order, 33 and 256 in a mixed one; two long keys."""
    for n in (33, 256, 4095):
        words = [atom(chr(33 + k // 64) + chr(33 + k % 64)) for k in range(n)]
        yield map_of(*numbered(same(*words[::-1])))
    for n in (33, 256):
        # 0, 1, ... by 98 throughout: 97 up to 255, then 98, both rising
        yield map_of(*mixed(numbered([(b'\x62' + big(4, k), integer(k)) for k in range(n)])))
    # The last of 5,000 bytes decides.
    yield map_of(*numbered(same(*[binary(b'x' * 4999 + end) for end in (b'b', b'\xff', b'a')])))


def identifiers():
    """88; 89 for a port ID under 2^28, else 120; 90; 113."""
    node, old = atom('n\xe9'), b'\x64\x00\x02n\xe9'
    for creation in (0, 1, 3):
        wide = big(4, creation)
        for number, serial in ((0, 0), (2**15 - 1, 2**13 - 1)):
            out = b'\x58' + node + big(4, number) + big(4, serial) + wide
            yield b'\x67' + old + big(4, number) + big(4, serial) + big(1, creation), out
            yield b'\x58' + old + big(4, number) + big(4, serial) + wide, out
        for number in (0, 2**28 - 1):
            out = b'\x59' + node + big(4, number) + wide
            yield b'\x66' + old + big(4, number) + big(1, creation), out
            yield b'\x59' + old + big(4, number) + wide, out
            yield b'\x78' + old + big(8, number) + wide, out
        for word in (0, 2**18 - 1):
            out = b'\x5a' + big(2, 1) + node + wide + big(4, word)
            yield b'\x65' + old + big(4, word) + big(1, creation), out
            yield b'\x72' + big(2, 1) + old + big(1, creation) + big(4, word), out
            yield b'\x5a' + big(2, 1) + old + wide + big(4, word), out
    for number in (2**28, 2**32, 2**64 - 1):
        yield b'\x78' + old + big(8, number) + big(4, 2**32 - 1), b'\x78' + node + big(8, number) + big(4, 2**32 - 1)
    for count in (2, 3):
        words = big(4, 2**18 - 1) + big(4, 2**32 - 1) * (count - 1)
        yield b'\x72' + big(2, count) + old + b'\x03' + words, b'\x5a' + big(2, count) + node + big(4, 3) + words
        yield b'\x5a' + big(2, count) + node + big(4, 2**32 - 1) + big(4, 0) * count, b'\x5a' + big(2, count) + node + big(4, 2**32 - 1) + big(4, 0) * count
    for arity in (0, 255):
        yield b'\x71' + old + atom('f') + big(1, 97) + big(1, arity), b'\x71' + node + atom('f') + big(1, 97) + big(1, arity)


def newer():
    """88 with all bits of ID and Serial, 90 of 4 and 5 words: read and written with V4_NC alone."""
    node, old = atom('n\xe9'), b'\x64\x00\x02n\xe9'
    for number, serial in ((2**15, 0), (0, 2**13), (2**32 - 1, 0), (0, 2**32 - 1), (2**32 - 1, 2**32 - 1)):
        fields = big(4, number) + big(4, serial) + big(4, 2**32 - 1)
        yield b'\x58' + old + fields, b'\x58' + node + fields
    for count in (4, 5):
        for word in (0, 2**32 - 1):
            fields = big(4, 3) + big(4, word) * (count - 1) + big(4, count)
            yield b'\x5a' + big(2, count) + old + fields, b'\x5a' + big(2, count) + node + fields


def listed():
    """82: the atom at that index, in UTF-8; what is written reads with no list."""
    places = ((0, b''), (32, b'a' * 32), (2, 'é'.encode()))
    for index, (length, text) in enumerate(places):
        yield bytes([82, index]), atom(text.decode()), places
    # As a key it is ranked by its text's form: by length first, whatever the index, and after every number.
    keys = [(bytes([82, index]), atom(text.decode())) for index, (length, text) in enumerate(places)]
    for order in permutations(numbered(keys)):
        yield *map_of(*order), places
    for order in permutations(numbered([keys[2]] + same(integer(1), atom('z'), atom('zzz')))):
        yield *map_of(*order), places
    # The same in a key: in a tuple, as a node, as a key of a map.
    for front, end in ((b'\x68\1', b''), (b'\x59', big(4, 7) + big(4, 3)), (b'\x74' + big(4, 1), NIL)):
        for order in permutations(numbered([(front + given + end, front + form + end) for given, form in keys[1:]])):
            yield *map_of(*order), places


def canonical():
    for family in (integers, atoms, floats, tuples, lists, binaries, maps, identifiers):
        for message, out in family():
            yield from one(message, out, ())
    for family in (ranks, in_layouts, all_layouts, many):
        for message, out in family():
            yield exact(message, out)
    for message, out in maps():
        yield exact(out, out)
    for message, out, places in listed():
        yield from one(message, out, places)
    for flags in (0, 1, V4_NC):
        for message, out in identifiers():
            yield from one(message, out, (), flags)
    for flags in (V4_NC, BOTH):
        for message, out in newer():
            yield from one(message, out, (), flags)
            yield from again(out, flags)


def exact(message, out):
    """Standalone, with as much room as it takes."""
    return Case('s', b'\x83' + message, 'ok 83' + out.hex(), room=1 + len(out))


def again(out, flags):
    """What was written is its own form by the same flags; without V4_NC it is 4 at its tag, also where there is no room."""
    whole = b'\x83' + out
    yield Case('s', whole, 'ok ' + whole.hex(), room=len(whole), flags=flags)
    yield Case('s', whole, 'refused 4 1', flags=flags & ~V4_NC)
    yield Case('s', whole, 'refused 4 1', room=0, flags=flags & ~V4_NC)
    yield Case('p', out + out, 'refused 4 0', flags=flags & ~V4_NC)


def one(message, out, places, flags=BOTH):
    """Standalone, alone in a payload, and before and after another term; with as much room as it takes, and a byte less (11 at 0)."""
    lent = {'n': len(places), 'flags': flags, 'places': places}
    whole = b'\x83' + out
    yield Case('s', b'\x83' + message, 'ok ' + whole.hex(), room=len(whole), **lent)
    yield Case('s', b'\x83' + message, 'refused 11 0', room=len(whole) - 1, **lent)
    yield Case('p', message, 'ok ' + whole.hex(), **lent)
    if len(message) < 1000:
        yield Case('p', message + message, 'ok ' + (whole + whole).hex(), room=2 * len(whole), **lent)
        yield Case('p', message + message, 'refused 11 0', room=2 * len(whole) - 1, **lent)
