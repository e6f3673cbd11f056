"""Cases at the ends of document 01's rules, of #101's for 5's place, of #103's for keys that differ only in order and of #109's for the flags, built so that the answer
follows from how they are built; the comment beside each says by which rule. Both flags are on where none are said."""
from itertools import permutations

from lines import V4_NC, Case, big
from rows import rows_of, shown

ATOM_TAGS = (82, 100, 115, 118, 119)
TAGS = (70, 77, 82, 88, 89, 90, 97, 98, 100, 101, 102, 103, 104, 105, 106, 107, 108, 109, 110, 111, 113, 114, 115, 116, 118, 119, 120)


def small(k):
    return bytes([97, k])


def atom(text, tag=119):
    return bytes([tag]) + big(2 if tag in (100, 118) else 1, len(text)) + text


def bad_byte(text, tag=119):
    """Where in its atom a text goes wrong: 100, the 256th byte; 118 and 119, the first byte at which no UTF-8 can continue, as Python's own decoder finds it,
    or the first after 255 characters, whichever comes first. A character that the text's end cuts off goes wrong at its first byte."""
    start = 3 if tag in (100, 118) else 2
    if tag == 100:
        return start + 255
    try:
        sound, bad = text.decode(), len(text)
    except UnicodeDecodeError as error:
        sound, bad = text[:error.start].decode(), error.start
        begins = not (0x80 <= text[bad] <= 0xc1 or 0xf5 <= text[bad])
        if begins and error.end < len(text):
            bad = error.end
    if len(sound) >= 255:
        bad = len(sound[:255].encode())
    assert bad < len(text)
    return start + bad


def tuple_of(*parts):
    return bytes([104, len(parts)]) + b''.join(parts)


def list_of(*parts, tail=b'\x6a'):
    return b'\x6c' + big(4, len(parts)) + b''.join(parts) + tail


def text_list(text):
    return b'\x6b' + big(2, len(text)) + text


def binary(data):
    return b'\x6d' + big(4, len(data)) + data


def bits(count, data):
    return b'\x4d' + big(4, len(data)) + big(1, count) + data


def map_of(*parts):
    return b'\x74' + big(4, len(parts) // 2) + b''.join(parts)


def turned(*parts):
    """The same map, its last pair first."""
    return map_of(*[part for at in range(len(parts) - 2, -1, -2) for part in parts[at:at + 2]])


NIL, NODE, EMPTY = b'\x6a', atom(b'a'), b'\x6c' + big(4, 0)


class Book:
    """Collects the cases. A place is counted in the message, 131 with it."""

    def __init__(self):
        self.cases = []

    def refused(self, number, place, term, form='s', **lent):
        message = b'\x83' + term if form in 'sSt' else term
        self.cases.append(Case(form, message, 'refused %d %d' % (number, place), **lent))

    def raw(self, number, place, message, form='s', **lent):
        self.cases.append(Case(form, message, 'refused %d %d' % (number, place), **lent))

    def accepted(self, term, form='s', count=None, **lent):
        message = b'\x83' + term if form in 'sSt' else term
        answer = shown(form, message)
        assert count is None or answer.split()[2] == str(count), (term[:40], answer, count)
        self.cases.append(Case(form, message, answer, **lent))


def boundaries():
    book = Book()
    for add in (depth, row_limits, texts, tags, field_rules, identifier_fields, lists, keys, turned_keys, turned_parts, orders, atom_lists, messages, unknown_flags):
        add(book)
    return book.cases


def depth(book):
    # The outermost term has depth 1 and a part is one deeper: of k nested terms the inmost has depth k; 65 is 8 at the tag of the inmost.
    for opener in (b'\x68\x01', b'\x69\0\0\0\1'):
        for k in (63, 64):
            book.accepted(opener * (k - 1) + b'\x68\0', count=k)
        book.refused(8, 1 + 64 * len(opener), opener * 64 + b'\x68\0')
    lists_deep = lambda k: b'\x6c\0\0\0\1' * (k - 1) + NIL * k
    book.accepted(lists_deep(64), count=64)
    book.refused(8, 1 + 5 * 64, lists_deep(65))
    # A map's key comes first: of 64 nested maps with a pair each, the key of the inmost has depth 65.
    maps_deep = lambda k: b'\x74\0\0\0\1\x61\0' * (k - 1) + b'\x74\0\0\0\0'
    book.accepted(maps_deep(64), count=127)
    book.refused(8, 1 + 7 * 63 + 5, maps_deep(65))
    # Nodes, modules, functions are parts: such a term passes at depth 63, and at 64 is 8 at its first atom.
    for term, before in identifiers():
        book.accepted(b'\x68\1' * 62 + term)
        book.refused(8, 1 + 2 * 63 + before, b'\x68\1' * 63 + term)
    # 8 comes after the term's own fields: at depth 65 these answer the fields' refusals; 5 has the bad byte's place, 14 has place 0.
    at = 1 + 2 * 64
    for number_, term in ((2, b'\x61'), (3, b'\x63'), (4, b'\x46\x7f\xf0' + bytes(6)), (6, b'\x52\x01'), (8, small(1)), (8, text_list(b'')), (8, NIL)):
        book.refused(number_, at, b'\x68\1' * 64 + term, n=1, places=((1, b'a'),))
    book.refused(5, at + bad_byte(b'a\xff'), b'\x68\1' * 64 + atom(b'a\xff'))
    book.refused(14, 0, b'\x68\1' * 64 + b'\x52\0', n=1, places=((33, b'a'),))
    # Neither a 108 of length 0 nor a joined tail adds depth; an improper tail is one deeper than its list.
    book.accepted(b'\x68\1' * 63 + EMPTY * 9 + b'\x68\0', count=64)
    book.refused(8, at + 5 * 9, b'\x68\1' * 64 + EMPTY * 9 + b'\x68\0')
    book.accepted(b'\x68\1' * 62 + list_of(small(1), tail=list_of(small(2), tail=small(3))), count=66)
    book.refused(8, 1 + 2 * 63 + 5, b'\x68\1' * 63 + list_of(small(1), tail=small(2)))
    # A 107 at depth 64: its own 9 first, then 8 for its characters, both at its tag; of length 0 it has none.
    for rows in (63, 64, 65, 8192):
        book.refused(9 if rows == 63 else 8, 1 + 2 * 63, b'\x68\1' * 63 + text_list(b'a'), rows=rows)
    book.refused(8, 1 + 2 * 63 + 5, b'\x68\1' * 63 + EMPTY + text_list(b'a'))
    book.accepted(b'\x68\1' * 63 + text_list(b''), count=64)
    book.accepted(b'\x68\1' * 62 + text_list(b'ab'), count=65)
    # The second term of a payload starts at depth 1.
    book.accepted((b'\x68\1' * 63 + b'\x68\0') * 2, form='p', count=128)
    book.refused(8, 128 + 2 * 64, b'\x68\1' * 63 + b'\x68\0' + b'\x68\1' * 64 + b'\x68\0', form='p')


def identifiers():
    """A term of each tag that has an atom first, and how many bytes stand before that atom."""
    yield b'\x58' + NODE + bytes(12), 1
    yield b'\x67' + NODE + bytes(9), 1
    yield b'\x59' + NODE + bytes(8), 1
    yield b'\x66' + NODE + bytes(5), 1
    yield b'\x78' + NODE + bytes(12), 1
    yield b'\x5a\0\1' + NODE + bytes(8), 3
    yield b'\x72\0\1' + NODE + bytes(5), 3
    yield b'\x65' + NODE + bytes(5), 1
    yield b'\x71' + NODE + NODE + small(1), 1


def row_limits(book):
    # At most 8,192 rows, whatever the table holds; 9 at the tag of the term that has none, for a character at its 107's tag.
    wide = lambda k: b'\x69' + big(4, k) + small(7) * k
    for rows in (8192, 8193):
        for form, base in (('s', 1), ('p', 0)):
            book.accepted(wide(8191), form=form, rows=rows, count=8192)
            book.refused(9, base + 5 + 2 * 8191, wide(8192), form=form, rows=rows)
            book.accepted(text_list(b'x' * 8191), form=form, rows=rows, count=8192)
            book.refused(9, base, text_list(b'x' * 8192), form=form, rows=rows)
        # Two terms of a payload share them.
        book.accepted(wide(8190) + NIL, form='p', rows=rows, count=8192)
        book.refused(9, 5 + 2 * 8191, wide(8191) + NIL, form='p', rows=rows)
    book.refused(9, 1 + 5 + 2 * 8190, wide(8191), rows=8191)
    book.refused(9, 1, text_list(b'x' * 65532))
    # A term takes its row before its parts do: with k rows lent, the term of row k is refused.
    pair = tuple_of(small(1), text_list(b'ab'), list_of(small(2), tail=text_list(b'cd')), map_of(small(3), small(4)))
    row_at = [at for kind, at, whole in rows_of('s', b'\x83' + pair)[1]]
    judged = [5 if at in (8, 9) else 17 if at in (20, 21) else at for at in row_at]   # characters at their 107's tag: 5 and 17
    for rows in range(len(row_at)):
        book.refused(9, judged[rows], pair, rows=rows)
    book.accepted(pair, rows=len(row_at), count=len(row_at))
    for term, before in identifiers():
        book.refused(9, 1, term, rows=0)
        book.refused(9, 1 + before, term, rows=1)
    book.refused(9, 1, small(1), rows=0)
    book.refused(9, 1 + 7, list_of(small(1), tail=small(2)), rows=2)
    book.refused(9, 1 + 5, EMPTY + small(1), rows=0)
    # Two terms of a payload share the table.
    book.accepted(small(1) + small(2), form='p', rows=2, count=2)
    book.refused(9, 2, small(1) + small(2), form='p', rows=1)
    # Fields come before 9, and 8 before 9.
    book.refused(2, 1, b'\x61', rows=0)
    book.refused(3, 1, b'\x63', rows=0)
    book.refused(8, 1 + 2 * 64, b'\x68\1' * 64 + small(1), rows=64)


def texts(book):
    # At most 255 characters, whichever tag; a character of UTF-8 has up to 4 bytes, so 1,020 bytes may pass. 2 comes before 5.
    four = b'\xf0\x9f\x98\x80'
    for tag, text in ((100, b'\xe9'), (118, b'a'), (118, b'\xc3\xa9'), (118, b'\xe2\x82\xac'), (118, four)):
        book.accepted(atom(text * 255, tag))
        past = bad_byte(text * 256, tag)
        book.refused(5, 1 + past, atom(text * 256, tag))
        book.refused(5, 1 + past, atom(text * 300, tag))
        book.refused(2, 1, atom(text * 256, tag)[:-1])
        book.refused(5, 1 + 2 + past, tuple_of(atom(text * 256, tag)))
    for tag in (115, 119):
        book.accepted(atom(b'a' * 255, tag))
        book.refused(2, 1, atom(b'a' * 255, tag)[:-1])
    book.accepted(atom(b'\xff' * 255, 115))
    book.accepted(atom(four * 63, 119))
    book.refused(5, 1 + 3 + 255, atom(b'a' * 65532, 118))
    # Whichever comes first: a fault after 254 characters is told itself, after 255 and more the first byte past them is.
    for text in (b'a', b'\xc3\xa9', four):
        for count in (254, 255, 256):
            for fault in (b'\xff', b'\xe0\x80', b'\xc3'):
                for spoilt in (text * count + fault, text * count + fault + text):
                    book.refused(5, 1 + bad_byte(spoilt, 118), atom(spoilt, 118))
    for tag in ATOM_TAGS[1:]:
        book.accepted(atom(b'', tag))
        book.accepted(atom(b'\0', tag))
        book.accepted(atom(bytes(range(128)), tag))
    for tag in (100, 115):
        book.accepted(atom(bytes(range(128, 256)), tag))            # Latin-1: every byte is a character
    # RFC 3629, section 4: the ends of each line of the table, and one past them.
    good = ('7f', 'c280', 'dfbf', 'e0a080', 'e0bfbf', 'e18080', 'ecbfbf', 'ed8080', 'ed9fbf', 'ee8080', 'efbfbf', 'f0908080', 'f0bfbfbf', 'f1808080',
            'f3bfbfbf', 'f4808080', 'f48fbfbf')
    bad = ('80', 'bf', 'c080', 'c1bf', 'c27f', 'c2c0', 'c2', 'e09fbf', 'e0a07f', 'e0a0c0', 'e0a0', 'e0', 'e1807f', 'e180', 'eda080', 'edbfbf', 'ed80', 'ee80',
           'f08fbfbf', 'f0908f7f', 'f09080', 'f090', 'f0', 'f180807f', 'f18080c0', 'f4908080', 'f4bfbfbf', 'f4808', 'f5808080', 'f8888080', 'fe', 'ff')
    for tag in (118, 119):
        for text in good:
            book.accepted(atom(b'x' + bytes.fromhex(text) + b'y', tag))
        for text in bad:
            text = bytes.fromhex(text[:len(text) // 2 * 2])
            for spoilt in (text, b'x' + text + b'y', b'abcdefgh' + text, '\xe9\u20ac'.encode() + text):
                book.refused(5, 1 + bad_byte(spoilt, tag), atom(spoilt, tag))
    # The text's end is where its length says, whatever follows.
    for text, rest in ((b'\xc3', b'\xa9'), (b'\xe2\x82', b'\xac'), (b'\xe2', b'\x82\xac'), (four[:3], four[3:]), (four[:1], four[1:])):
        book.refused(5, 1 + 2, atom(text) + rest)
        book.refused(5, 3 + 2 + 1, b'\x68\2' + atom(b'x' + text) + rest)


def tags(book):
    # Every tag that is not in the table is 3; where an atom or an arity is wanted every other tag is 4, known or not, at that part.
    for tag in range(256):
        here = bytes([tag, 0, 0])
        if tag not in TAGS:
            book.refused(3, 1, here)
        if tag not in ATOM_TAGS:
            book.refused(4, 2, b'\x58' + here)
        if tag != 97:
            book.refused(4, 1 + 1 + 6, b'\x71' + NODE + NODE + here)
    for tag in (0, 67, 78, 80, 99, 112, 117, 131, 255):
        here = bytes([tag])
        book.refused(3, 3, b'\x68\1' + here)
        book.refused(3, 1 + 7, list_of(small(1), tail=here))
        book.refused(3, 1 + 5, map_of(here, NIL))
        book.refused(3, 1 + 5 + 2, map_of(small(1), here))
        book.refused(4, 4, b'\x5a\0\1' + here)
        book.refused(4, 1 + 1 + 3, b'\x71' + NODE + here)
    # Every term without parts, cut anywhere, is 2 at its tag.
    leaves = [small(5), b'\x62\0\0\1\0', b'\x6e\2\1\1\2', b'\x6f\0\0\0\2\0\1\2', b'\x46\x3f\xf0' + bytes(6), text_list(b'ab'), binary(b'ab'), bits(3, b'\xa0\xe0'),
              bits(0, b''), b'\x52\0'] + [atom(b'ab', tag) for tag in ATOM_TAGS[1:]]
    for leaf in leaves:
        book.accepted(leaf, n=1, places=((1, b'a'),))
        for cut in range(1, len(leaf)):
            book.refused(2, 1, leaf[:cut], n=1, places=((1, b'a'),))
            book.refused(2, 3, b'\x68\1' + leaf[:cut], n=1, places=((1, b'a'),))
    book.refused(2, 1, b'')
    # A term with an atom first: 2 at its own tag in its own fields, before the atom and after; at the atom's where that is missing or cut.
    for term, before in identifiers():
        book.accepted(term)
        if term[0] == 113:
            continue
        for cut in range(1, len(term)):
            book.refused(2, 1 + before if before <= cut < before + len(NODE) else 1, term[:cut])
    for cut in range(1, 9):
        book.refused(2, 2 if cut < 4 else 5 if cut < 7 else 8, (b'\x71' + NODE + NODE + small(1))[:cut])
    # Counts are fields, parts are not: a missing part is 2 where it would stand.
    for width in (1, 4):
        opener = bytes([104 if width == 1 else 105])
        for cut in range(width):
            book.refused(2, 1, opener + bytes(cut))
        book.refused(2, 1 + 1 + width + 2, opener + b'\xff' * width + small(1))
        book.refused(9, 1 + 1 + width + 2, opener + b'\xff' * width + small(1) * 3, rows=2)
    for cut in range(4):
        book.refused(2, 1, b'\x6c' + bytes(cut))
        book.refused(2, 1, b'\x74' + bytes(cut))
    book.refused(2, 1 + 5 + 2, b'\x6c\xff\xff\xff\xff' + small(1))
    book.refused(2, 1 + 5 + 2, list_of(small(1), tail=b''))
    book.refused(2, 1 + 5, EMPTY)
    book.refused(2, 1 + 5, b'\x74\xff\xff\xff\xff')
    book.refused(2, 1 + 5 + 2, b'\x74\xff\xff\xff\xff' + small(1))
    book.refused(2, 1 + 5 + 4, b'\x74\xff\xff\xff\xff' + small(1) * 2)


def judged(book, term, good, **lent):
    """Good, or 4 at its tag, also as a part; cut short it is 2."""
    if good:
        book.accepted(term, **lent)
    else:
        book.refused(4, 1, term, **lent)
        book.refused(4, 3, b'\x68\1' + term, **lent)
        book.refused(2, 1, term[:-1], **lent)


def limits(book, flags, opener, fields, good):
    """All later fields are there before one is judged, so the cut one is 2."""
    judged(book, opener + NODE + b''.join(big(width, value) for width, value in fields), good, flags=flags)


def identifier_fields(book):
    # V4_NC widens ID and Serial of 88 and the number of words of 90, and nothing else.
    for flags in range(4):
        newer = bool(flags & V4_NC)
        pids(book, flags, b'\x58', 4, newer)
        pids(book, flags, b'\x67', 1, False)
        ports(book, flags)
        references(book, flags, b'\x5a', 4, 5 if newer else 3)
        references(book, flags, b'\x72', 1, 3)
        for word in (0, 2 ** 18 - 1, 2 ** 18, 2 ** 32 - 1):
            for creation in (0, 3, 4, 255):
                limits(book, flags, b'\x65', ((4, word), (1, creation)), word < 2 ** 18 and creation < 4)


def pids(book, flags, tag, width, newer):
    # ID under 2^15 and Serial under 2^13, or any; Creation under 4 in one byte.
    for ident in (0, 2 ** 15 - 1, 2 ** 15, 2 ** 32 - 1):
        for serial in (0, 2 ** 13 - 1, 2 ** 13, 2 ** 32 - 1):
            for creation in (0, 3, 4, 255):
                good = (newer or ident < 2 ** 15 and serial < 2 ** 13) and (width == 4 or creation < 4)
                limits(book, flags, tag, ((4, ident), (4, serial), (width, creation)), good)


def ports(book, flags):
    # ID under 2^28, by 120 any.
    for tag, width in ((b'\x59', 4), (b'\x66', 1)):
        for ident in (0, 2 ** 28 - 1, 2 ** 28, 2 ** 32 - 1):
            for creation in (0, 3, 4, 255):
                limits(book, flags, tag, ((4, ident), (width, creation)), ident < 2 ** 28 and (width == 4 or creation < 4))
    for ident in (0, 2 ** 28, 2 ** 64 - 1):
        limits(book, flags, b'\x78', ((8, ident), (4, 2 ** 32 - 1)), True)


def references(book, flags, tag, width, most):
    # One word to the most; with a Creation of one byte the first under 2^18.
    for first in (0, 2 ** 18 - 1, 2 ** 18, 2 ** 32 - 1):
        for creation in (0, 3, 4, 255):
            for count in range(1, most + 1):
                fields = [(width, creation), (4, first)] + [(4, 2 ** 32 - 1)] * (count - 1)
                limits(book, flags, tag + big(2, count), fields, width == 4 or (first < 2 ** 18 and creation < 4))
    # The word count is a field before the node: 4 before the node is looked at, and before 8 and 9.
    for count in (0, 4, 5, 6, 255, 256, 257, 1280, 65535):
        if not 1 <= count <= most:
            book.refused(4, 1, tag + big(2, count) + NODE + bytes(40), flags=flags)
            book.refused(4, 1, tag + big(2, count), flags=flags)
            book.refused(4, 1, tag + big(2, count) + b'\x63', rows=0, flags=flags)
            book.refused(4, 1 + 2 * 64, b'\x68\1' * 64 + tag + big(2, count), flags=flags)
    # Of a count that is taken: 9 and 8 at the tag, 9 at the node; a node is 2 or 4 where it stands; a word that is missing is 2 at the tag.
    for count in range(1, most + 1):
        term = tag + big(2, count) + NODE + bytes(width + 4 * count)
        book.refused(9, 1, term, rows=0, flags=flags)
        book.refused(9, 4, term, rows=1, flags=flags)
        book.refused(8, 1 + 2 * 64, b'\x68\1' * 64 + term, flags=flags)
        book.refused(2, 4, term[:3], flags=flags)
        book.refused(4, 4, term[:3] + small(1), flags=flags)
        book.refused(2, 1, term[:-4], flags=flags)
        book.refused(10, 1 + len(term), term + bytes(4), flags=flags)


def unknown_flags(book):
    # An unknown flag is 14 at 0: after 13, before 12, 1, all that is in the message, and 11.
    for flags in (4, 128, 255):
        for form, message in (('s', b'\x83\x6a'), ('p', b'\x6a')):
            book.raw(14, 0, message, form=form, flags=flags)
            book.raw(14, 0, message, form=form, room=0, flags=flags)
            book.raw(14, 0, message, form=form, rows=0, flags=flags)
            for wrong in (b'', b'\x82', b'\x83', b'\x83\x63', b'\x83\x52\0', message + b'\0', bytes(65537)):
                book.raw(14, 0, wrong, form=form, flags=flags)
        for form in 'SPtq':
            for message in (b'', b'\x83\x6a', b'\x6a', bytes(65537)):
                book.raw(13, 0, message, form=form, flags=flags)
    # Each unknown bit alone, and beside both known ones.
    for bit in range(2, 8):
        for flags in (1 << bit, 1 << bit | 3):
            book.raw(14, 0, b'\x83\x6a', flags=flags)
            book.raw(14, 0, b'\x6a', form='p', flags=flags)
    for flags in range(4):
        book.accepted(tuple_of(NODE, small(1)), flags=flags, count=3)
        book.accepted(NODE + small(1), form='p', flags=flags, count=2)


def field_rules(book):
    # 110, 111: Sign is 0 or 1, judged after the digits are there; n = 0 and high zero digits are allowed.
    for opener in (b'\x6e', b'\x6f\0\0\0'):
        for sign in (0, 1):
            for digits in (b'', b'\0', b'\0\0', b'\1', b'\1\0', b'\xff' * 8, b'\xff' * 200):
                book.accepted(opener + big(1, len(digits)) + big(1, sign) + digits)
        for sign in (2, 255):
            book.refused(4, 1, opener + b'\1' + big(1, sign) + b'\1')
            book.refused(4, 1, opener + b'\0' + big(1, sign))
            book.refused(2, 1, opener + b'\1' + big(1, sign))
    book.accepted(b'\x6e\xff\0' + b'\1' * 255)
    book.accepted(b'\x6f' + big(4, 65529) + b'\0' + b'\1' * 65529)
    for number_ in (0, 1, 0x7fffffff, 0x80000000, 0xffffffff):
        book.accepted(b'\x62' + big(4, number_))
    # 70: an exponent of all ones is 4.
    for high, good in ((0x7fef, 1), (0x7ff0, 0), (0x7ff8, 0), (0x7fff, 0), (0x8000, 1), (0, 1), (0xffef, 1), (0xfff0, 0), (0xffff, 0), (0x3ff0, 1)):
        judged(book, b'\x46' + big(2, high) + b'\0\0\0\0\0\1', good)
    # 77: at length 0 Bits is 0, else 1..8; judged after all bytes are there.
    for count in range(10):
        if 1 <= count <= 8:
            book.accepted(bits(count, b'\xff'))
        else:
            book.refused(4, 1, bits(count, b'\xff'))
            book.refused(2, 1, bits(count, b'\xff')[:-1])
        if count:
            book.refused(4, 1, bits(count, b''))
    book.refused(4, 1, bits(255, b'\xff\xff'))
    # A 108 of length 0 where an atom or an arity is wanted is another tag: 4 there.
    book.refused(4, 2, b'\x58' + EMPTY + NODE + bytes(12))
    book.refused(4, 8, b'\x71' + NODE + NODE + EMPTY + small(1))
    # What is wrong in the atom comes first, then the later fields.
    book.refused(5, 2 + bad_byte(b'a\xff'), b'\x58' + atom(b'a\xff') + b'\xff' * 12)
    book.refused(6, 2, b'\x58\x52\0' + b'\xff' * 12)
    book.refused(2, 2, b'\x58\x52')
    book.refused(9, 2, b'\x58' + NODE + b'\xff' * 12, rows=1)


def lists(book):
    # 13,000 108s of length 0 add neither a row nor depth, around a term and as joined tails.
    book.accepted(EMPTY * 13000 + small(7), count=1)
    book.accepted(EMPTY * 13000 + text_list(b'ab'), count=3)
    book.accepted(list_of(small(7), tail=EMPTY * 13000 + NIL), count=2)
    book.accepted(list_of(small(7), tail=EMPTY * 13000 + text_list(b'ab')), count=4)
    book.accepted(list_of(small(7), tail=EMPTY * 13000 + small(8)), count=3)
    book.refused(2, 1 + 5 * 13000, EMPTY * 13000)
    book.refused(3, 1 + 5 * 13000, EMPTY * 13000 + b'\x63')
    book.refused(9, 1 + 5 * 13000, EMPTY * 13000 + small(7), rows=0)
    # Joined tails with an element each: a row for each element and one for the list.
    book.accepted(b'\x6c\0\0\0\1\x61\7' * 8191 + NIL, count=8192)
    book.accepted(b'\x6c\0\0\0\1\x61\7' * 50 + NIL, count=51)
    book.refused(9, 1 + 7 * 8191 + 5, b'\x6c\0\0\0\1\x61\7' * 8192 + NIL)
    book.accepted(b'\x6c\0\0\0\2\x61\7' + b'\x6c\0\0\0\1\x61\7' * 40 + NIL * 2, count=43)
    # A tail: 106 and a 107 close a list, anything but a list is an improper tail.
    for tail, parts in ((NIL, 0), (text_list(b''), 0), (text_list(b'abc'), 3), (EMPTY + NIL, 0), (EMPTY + text_list(b'a'), 1), (small(2), 1), (EMPTY + small(2), 1),
                        (tuple_of(), 1), (tuple_of(small(2)), 2), (map_of(), 1), (binary(b''), 1), (NODE, 1), (list_of(small(2), tail=small(3)), 2),
                        (list_of(small(2), tail=text_list(b'a')), 2), (b'\x58' + NODE + bytes(12), 2), (tuple_of(list_of(small(1))), 3)):
        book.accepted(list_of(small(1), tail=tail), count=2 + parts)
        book.accepted(list_of(NIL, NIL, tail=tail), count=3 + parts)
        book.accepted(tuple_of(EMPTY + list_of(small(1), tail=tail), small(9)), count=4 + parts)
        book.refused(10, 1 + 7 + len(tail), list_of(small(1), tail=tail) + NIL)
    # 8 and 9 in a joined tail: an element at its own tag, a character at the tag of its own 107; an improper tail at its own.
    joined = list_of(small(1), tail=list_of(small(2), tail=text_list(b'ab')))
    for rows, place in ((1, 6), (2, 13), (3, 15), (4, 15)):
        book.refused(9, place, joined, rows=rows)
    book.accepted(joined, rows=5, count=5)
    book.accepted(b'\x68\1' * 62 + joined, count=67)
    book.refused(8, 1 + 2 * 63 + 5, b'\x68\1' * 63 + joined)
    book.refused(9, 1 + 7 + 7, list_of(small(1), tail=list_of(small(2), tail=small(3))), rows=3)
    book.refused(2, 1 + 7 + 7, list_of(small(1), tail=list_of(small(2), tail=b'')))
    book.refused(2, 1 + 7, list_of(small(1), tail=b'\x6c\0\0'))
    book.refused(2, 1 + 7, list_of(small(1), tail=b'\x6b\0\2a'))
    # A 108 of length 0 has no row: the row has the offset of what stands in its place, and the whole of that place.
    book.accepted(tuple_of(EMPTY + small(1), EMPTY + EMPTY + NIL, EMPTY + tuple_of(EMPTY + small(2))), count=5)
    book.accepted(map_of(EMPTY + small(1), EMPTY + small(2)), count=3)
    book.accepted(EMPTY + small(1) + EMPTY + small(2), form='p', count=2)
    book.accepted(text_list(b'x' * 99), count=100)
    book.accepted(text_list(b'x' * 100), count=101)


def keys(book):
    # Keys that mean the same, in other encodings: 7 at the later key's first byte, which may be that of a 108 of length 0.
    lent = {'n': 3, 'places': ((1, b'a'), (2, b'\xc3\xa9'), (0, b''))}
    groups = [
        [small(1), b'\x62\0\0\0\1', b'\x6e\1\0\1', b'\x6e\3\0\1\0\0', b'\x6f\0\0\0\1\0\1', b'\x6f\0\0\0\2\0\1\0', EMPTY + small(1)],
        [small(0), b'\x62\0\0\0\0', b'\x6e\0\0', b'\x6e\0\1', b'\x6e\2\1\0\0', b'\x6f\0\0\0\0\1', b'\x6f\0\0\0\1\0\0'],
        [b'\x62\xff\xff\xff\xff', b'\x6e\1\1\1', b'\x6e\2\1\1\0', b'\x6f\0\0\0\1\1\1'],
        [b'\x62\x80\0\0\0', b'\x6e\4\1\0\0\0\x80', b'\x6f\0\0\0\5\1\0\0\0\x80\0'],
        [b'\x6e\4\0\0\0\0\x80', b'\x6e\5\0\0\0\0\x80\0', b'\x6f\0\0\0\4\0\0\0\0\x80'],
        [b'\x6e\xff\0' + b'\1' * 254 + b'\0', b'\x6e\xfe\0' + b'\1' * 254, b'\x6f\0\0\1\2\0' + b'\1' * 254 + b'\0' * 4],
        [text_list(b'\1\2'), list_of(small(1), small(2)), list_of(small(1), tail=list_of(b'\x6e\1\0\2')), list_of(b'\x62\0\0\0\1', tail=text_list(b'\2')),
         EMPTY + text_list(b'\1\2'), list_of(small(1), small(2), tail=EMPTY + text_list(b''))],
        [list_of(small(1), tail=small(2)), list_of(small(1), tail=EMPTY + b'\x62\0\0\0\2'), EMPTY + list_of(small(1), tail=small(2))],
        [list_of(NODE, small(1)), list_of(NODE, tail=text_list(b'\1')), list_of(atom(b'a', 100), tail=list_of(small(1)))],
        [NIL, text_list(b''), EMPTY + NIL, EMPTY + text_list(b''), EMPTY * 2 + NIL],
        [binary(b'a'), bits(8, b'a')],
        [binary(b''), bits(0, b'')],
        [bits(3, b'\xbf'), bits(3, b'\xa0'), bits(3, b'\xb5')],
        [bits(7, b'ab'), bits(7, b'ac')],
        [atom(b'a', 100), atom(b'a', 115), atom(b'a', 118), atom(b'a', 119), b'\x52\0'],
        [atom(b'\xe9', 100), atom(b'\xe9', 115), atom(b'\xc3\xa9', 118), atom(b'\xc3\xa9', 119), b'\x52\1'],
        [atom(b'', 100), atom(b'', 115), atom(b'', 118), atom(b'', 119), b'\x52\2'],
        [b'\x59' + NODE + big(4, 7) + big(4, 3), b'\x66\x52\0' + big(4, 7) + b'\3', b'\x78' + atom(b'a', 100) + big(8, 7) + big(4, 3)],
        [b'\x58' + NODE + big(4, 7) + big(4, 8) + big(4, 3), b'\x67\x52\0' + big(4, 7) + big(4, 8) + b'\3'],
        [b'\x5a\0\1' + NODE + big(4, 3) + big(4, 7), b'\x72\0\1' + atom(b'a', 115) + b'\3' + big(4, 7), b'\x65\x52\0' + big(4, 7) + b'\3'],
        [b'\x5a\0\3' + NODE + big(4, 3) + big(4, 7) + bytes(8), b'\x72\0\3\x52\0\3' + big(4, 7) + bytes(8)],
        [b'\x71' + NODE + atom(b'\xe9', 115) + small(2), b'\x71\x52\0\x52\1' + small(2)],
        [tuple_of(small(1), NODE), b'\x69\0\0\0\2' + b'\x6e\1\0\1' + b'\x52\0'],
        [tuple_of(), b'\x69\0\0\0\0'],
        [map_of(), map_of()],
        [map_of(small(1), NIL, small(2), NODE), map_of(b'\x62\0\0\0\1', text_list(b''), b'\x6e\1\0\2', b'\x52\0'), map_of(small(2), NODE, small(1), NIL)],
        [b'\x46\x3f\xf0' + bytes(6), b'\x46\x3f\xf0' + bytes(6)],
        # with V4_NC
        [b'\x58' + NODE + big(4, 2 ** 31 + 7) + big(4, 8) + big(4, 3), b'\x58\x52\0' + big(4, 2 ** 31 + 7) + big(4, 8) + big(4, 3)],
        [b'\x5a\0\5' + NODE + big(4, 3) + big(4, 7) + bytes(12) + big(4, 1), b'\x5a\0\5' + atom(b'a', 100) + big(4, 3) + big(4, 7) + bytes(12) + big(4, 1)],
    ]
    for group in groups:
        for i, first in enumerate(group):
            for j, second in enumerate(group):
                if i < j or len(group) <= 3:
                    book.refused(7, 1 + 5 + len(first) + 1, map_of(first, NIL, second, NIL), **lent)
                # The same beside others: nested a level deeper, and as the third key.
                if i < j and i < 2:
                    book.refused(7, 1 + 5 + 3 + len(first) + 1, map_of(small(9), NIL, first, NIL, second, NIL), **lent)
                    book.refused(7, 1 + 5 + 2 + len(first) + 1, map_of(tuple_of(first), NIL, tuple_of(second), NIL), **lent)
    # Keys that differ in meaning, all in one map; and each two of them in a map.
    different = [group[-1] for group in groups] + [
        b'\x46\x80\0' + bytes(6), b'\x46' + bytes(8), list_of(small(1)), list_of(list_of(small(1))), list_of(small(1), tail=tuple_of()), tuple_of(small(1)),
        map_of(small(2), NIL, small(1), NODE), binary(b'\xa0'), bits(4, b'\xa0'), bits(2, b'\xa0'), binary(b'\1\2'), atom(b'b'), atom(b'aa'), small(255),
        b'\x62\0\0\1\0', b'\x6e\2\1\0\1', b'\x5a\0\1' + NODE + big(4, 2) + big(4, 7), b'\x5a\0\2' + NODE + big(4, 3) + big(4, 7) + bytes(4),
        b'\x5a\0\2' + NODE + big(4, 3) + bytes(4) + big(4, 7), b'\x59' + NODE + big(4, 8) + big(4, 3), b'\x58' + NODE + big(4, 8) + big(4, 7) + big(4, 3),
        b'\x71' + NODE + NODE + small(2), b'\x71' + NODE + atom(b'\xe9', 115) + small(3), tuple_of(NIL), map_of(NIL, NIL), tuple_of(tuple_of()),
        tuple_of(text_list(b'\1'), small(2)), tuple_of(text_list(b'\1\2')), tuple_of(small(1), list_of(small(2))), list_of(tuple_of(small(1)), small(2)),
        b'\x58' + NODE + big(4, 2 ** 30 + 7) + big(4, 8) + big(4, 3), b'\x58' + NODE + big(4, 7) + big(4, 2 ** 31 + 8) + big(4, 3),
        b'\x5a\0\5' + NODE + big(4, 3) + big(4, 7) + bytes(12) + big(4, 2), b'\x5a\0\4' + NODE + big(4, 3) + big(4, 7) + bytes(12),
        b'\x5a\0\5' + NODE + big(4, 3) + big(4, 7) + bytes(16)]
    book.accepted(map_of(*[part for key in different for part in (key, NIL)]), **lent)
    for i in range(len(different)):
        first, second = different[i], different[(i + 7) % len(different)]
        book.accepted(map_of(first, NIL, second, NIL), **lent)
        book.refused(7, 1 + 5 + len(first) + 1 + len(second) + 1, map_of(first, NIL, second, NIL, first, NIL), **lent)
    # 7 is judged before the value is read; the value of a new key is 2 where it would stand.
    for value in (b'', b'\x63', b'\x61'):
        book.refused(7, 1 + 5 + 4, map_of(small(1), small(2), small(1), value), **lent)
    book.refused(2, 1 + 5 + 6, map_of(small(1), small(2), small(3), b''), **lent)
    # A key may equal a value, and a key of another map.
    book.accepted(map_of(small(1), small(1), small(2), map_of(small(1), small(2))), **lent)
    book.refused(7, 1 + 5 + 2 + 5 + 3, map_of(small(1), map_of(small(5), NIL, small(5), NIL)), **lent)
    # Many keys: the last equals the first.
    many = b''.join(small(k) + NIL for k in range(256))
    book.accepted(b'\x74' + big(4, 256) + many, count=513)
    book.refused(7, 1 + 5 + len(many), b'\x74' + big(4, 257) + many + b'\x6e\1\0\0' + NIL)
    # Many that differ in the last of five words alone, or in Serial.
    for head, end in ((b'\x5a\0\5' + NODE + big(4, 3) + big(4, 7) + bytes(12), b''), (b'\x58' + NODE + big(4, 7), big(4, 3))):
        for step in (1, 2 ** 13, 65521):
            many = b''.join(head + big(4, step * k) + end + NIL for k in range(70))
            book.accepted(b'\x74' + big(4, 70) + many, count=211)
            book.refused(7, 1 + 5 + len(many), b'\x74' + big(4, 71) + many + head + big(4, step * 69) + end + NIL)


LISTED = {'n': 1, 'places': ((1, b'a'),)}
ONE = (small(1), NIL, small(2), NODE)
# The map of these pairs in one order and in the other, its parts in other layouts too.
SAME = (
    map_of(*ONE), turned(*ONE), turned(b'\x62\0\0\0\1', text_list(b''), b'\x6e\1\0\2', atom(b'a', 115)),
    turned(b'\x6e\2\0\1\0', EMPTY + NIL, b'\x62\0\0\0\2', atom(b'a', 118)), turned(EMPTY + b'\x6f\0\0\0\1\0\1', NIL, EMPTY * 2 + small(2), b'\x52\0'))
# Maps that are not that one, nor one another: by a value, a key, the values' places, a pair more or fewer, a key that is a float.
OTHER = (
    turned(small(1), NIL, small(2), atom(b'b')), turned(small(1), small(0), small(2), NODE), turned(small(1), NIL, small(3), NODE),
    turned(small(0), NIL, small(2), NODE), turned(small(1), NODE, small(2), NIL), turned(small(1), small(2), NIL, NODE), turned(*ONE, small(3), NIL),
    turned(small(1), NIL), turned(small(2), NODE), turned(), turned(b'\x46\x3f\xf0' + bytes(6), NIL, small(2), NODE), tuple_of(*ONE), list_of(*ONE))
# What holds a part, in two layouts: tuples, proper lists, an improper list and its tail, the values and the keys of maps.
HOLDERS = (
    (lambda part: tuple_of(part), lambda part: b'\x69\0\0\0\1' + part),
    (lambda part: tuple_of(small(9), part, NIL), lambda part: tuple_of(b'\x62\0\0\0\x09', EMPTY + part, text_list(b''))),
    (lambda part: list_of(part, NODE), lambda part: list_of(EMPTY + part, tail=list_of(atom(b'a', 100)))),
    (lambda part: list_of(small(9), part), lambda part: list_of(small(9), tail=list_of(part, tail=EMPTY + text_list(b'')))),
    (lambda part: list_of(part, tail=small(9)), lambda part: list_of(part, tail=b'\x6e\1\0\x09')),
    (lambda part: list_of(small(9), tail=part), lambda part: list_of(small(9), tail=EMPTY + part)),
    (lambda part: map_of(small(9), part), lambda part: map_of(b'\x6e\1\0\x09', part)),
    (lambda part: map_of(small(9), part, NIL, NODE), lambda part: map_of(NIL, NODE, small(9), EMPTY + part)),
    (lambda part: map_of(part, small(9)), lambda part: map_of(EMPTY + part, small(9))),
    (lambda part: map_of(part, NODE, small(9), NIL), lambda part: map_of(b'\x62\0\0\0\x09', NIL, part, atom(b'a', 118))))


def equal(book, first, second):
    """As two keys of a map: 7 at the later one's first byte."""
    book.refused(7, 1 + 5 + len(first) + 1, map_of(first, NIL, second, NIL), **LISTED)


def turned_keys(book):
    # Maps mean the same when they hold the same pairs, in any order: as keys 7, whichever comes later.
    for i, first in enumerate(SAME):
        for j, second in enumerate(SAME):
            if i != j:
                equal(book, first, second)
    # The later key's first byte is that of its 108 of length 0, where one stands before it.
    for wraps in (1, 3):
        equal(book, SAME[0], EMPTY * wraps + SAME[1])
        equal(book, EMPTY * wraps + SAME[1], SAME[0])
    # The same pairs but one: another key. All of them in a map; and then one more that is the first of them turned.
    different = (SAME[0],) + OTHER
    body = b''.join(key + NIL for key in different)
    book.accepted(b'\x74' + big(4, len(different)) + body)
    for key in SAME[1:]:
        book.refused(7, 1 + 5 + len(body), b'\x74' + big(4, len(different) + 1) + body + key + NIL, **LISTED)
    for key in OTHER:
        book.accepted(map_of(key, NIL, SAME[0], NIL))
        book.accepted(map_of(SAME[1], NIL, key, NIL))
    # No pair is lost in the others: keys and values exchanged, between pairs and within one.
    exchanged = [map_of(small(a), small(b), small(c), small(d)) for a, b, c, d in ((1, 1, 2, 2), (1, 2, 2, 1), (3, 3, 4, 4), (1, 3, 2, 4), (1, 4, 2, 3), (3, 1, 4, 2), (4, 1, 3, 2))]
    book.accepted(map_of(*[part for key in exchanged for part in (key, NIL)]))
    # What else tells keys apart does in a map that is a key: the two zeros, 1 and 1.0, words 7 and 7,0.
    apart = [b'\x46' + bytes(8), b'\x46\x80' + bytes(7), small(1), b'\x46\x3f\xf0' + bytes(6), b'\x5a\0\1' + NODE + big(4, 3) + big(4, 7),
             b'\x5a\0\2' + NODE + big(4, 3) + big(4, 7) + bytes(4)]
    for first, second in zip(apart[::2], apart[1::2]):
        book.accepted(map_of(map_of(first, NIL, NODE, NIL), NIL, map_of(NODE, NIL, second, NIL), NIL))
        book.accepted(map_of(map_of(NIL, first, NODE, NIL), NIL, map_of(NODE, NIL, NIL, second), NIL))
        equal(book, map_of(first, second, second, first), map_of(second, first, first, second))
    # 7 is judged before the later key's value is read, and after all of that key: with a row fewer it is 9 at the key's last part.
    pair, place = map_of(SAME[0], NIL, SAME[1], NIL), 1 + 5 + len(SAME[0]) + 1
    for value in (b'', b'\x63', b'\x61', b'\x77\1\xff', SAME[0], map_of(SAME[0], NIL, SAME[1], NIL)):
        book.refused(7, place, map_of(SAME[0], NIL, SAME[1], value))
    book.refused(7, place, pair, rows=12)
    book.refused(9, place + len(SAME[1]) - 1, pair, rows=11)
    book.refused(2, place + len(SAME[1]) - 1, pair[:-2])
    book.refused(3, place + len(SAME[1]) - 1, pair[:-2] + b'\x63')
    # In the second term of a payload, and as a value, a part, a tail of other terms.
    book.refused(7, place, NIL + pair, form='p')
    book.refused(7, place - 1, pair + NIL, form='p')
    book.refused(7, place + 5 + 2, map_of(small(1), pair))
    book.refused(7, place + 2, tuple_of(pair, pair))
    book.refused(7, place + 7, list_of(small(1), tail=pair))
    book.accepted(SAME[0] + SAME[1], form='p', count=10)
    book.accepted(map_of(small(1), SAME[0], small(2), SAME[1]), count=13)
    book.accepted(map_of(SAME[0], SAME[1], small(2), SAME[1]), count=17)


def turned_parts(book):
    # At any depth: the maps stand in tuples, lists, tails, values and keys of the keys, one, two and three deep, in two layouts.
    for i, outer in enumerate(HOLDERS):
        for key in SAME[1:]:
            equal(book, outer[0](SAME[0]), outer[1](key))
            equal(book, outer[1](key), outer[0](SAME[0]))
        book.accepted(map_of(*[part for k, key in enumerate((SAME[0],) + OTHER) for part in (outer[k % 2](key), NIL)]))
        for j, middle in enumerate(HOLDERS):
            key, other = SAME[1 + (i + j) % 4], OTHER[(3 * i + j) % 11]
            equal(book, outer[0](middle[0](SAME[0])), outer[1](middle[1](key)))
            if (i + j) % 2:
                book.accepted(map_of(outer[0](middle[0](SAME[0])), NIL, outer[1](middle[1](other)), NIL))
            else:
                inner = HOLDERS[(3 * i + 7 * j + i // 5) % 10]
                equal(book, outer[1](middle[0](inner[0](SAME[0]))), outer[0](middle[1](inner[1](key))))
    # Lists and tuples keep their order.
    for two in (tuple_of, list_of, lambda first, second: list_of(first, tail=second)):
        book.accepted(map_of(two(SAME[0], OTHER[0]), NIL, two(OTHER[0], SAME[1]), NIL))
        equal(book, two(SAME[0], OTHER[0]), two(SAME[1], OTHER[0]))
    # Two such keys in a key are refused there, at the later of the two, before the outer keys are compared.
    pair, later = map_of(SAME[0], NIL, SAME[1], NIL), 5 + len(SAME[0]) + 1
    for before in (map_of(SAME[0], NIL), map_of(SAME[0], NIL, small(3), NIL), tuple_of(SAME[1]), small(1)):
        book.refused(7, 1 + 5 + len(before) + 1 + later, map_of(before, NIL, pair, NIL))
        book.refused(7, 1 + 5 + later, map_of(pair, NIL, before, NIL))
    for hold, layout in HOLDERS:
        front = hold(pair).index(pair)
        book.refused(7, 1 + 5 + front + later, map_of(hold(pair), NIL, hold(pair), NIL))
        book.refused(7, 1 + 5 + 3 + front + later, map_of(small(1), NIL, hold(pair), NIL))
        book.refused(7, 1 + front + later, hold(map_of(SAME[0], NIL, EMPTY + SAME[1], NIL)))
    # Turned at every level: of 61 maps that each are a key of the one before, or a value, the inmost's parts have depth 64.
    for outer in (HOLDERS[7], HOLDERS[9]):
        first, second, other = SAME[0], SAME[1], OTHER[0]
        for _ in range(61):
            first, second, other = outer[0](first), outer[1](second), outer[1](other)
        equal(book, first, second)
        equal(book, second, first)
        book.accepted(map_of(first, NIL, other, NIL))
        book.refused(8, 1 + 2 + 5 + first.index(SAME[0]) + 5, tuple_of(map_of(first, NIL, second, NIL)))


def orders(book):
    # Three pairs in each of their six orders: two keys of a map are equal; a map alone is accepted in any, its rows in the order of its bytes.
    three = [map_of(*sum(order, ())) for order in permutations(((small(1), NIL), (NODE, small(5)), (tuple_of(), NODE)))]
    for first in three:
        book.accepted(first, count=7)
        for second in three:
            equal(book, first, second)
    # Of 5 and 40 pairs, the last first, and in a mixed order; with one other value, or one other key, they are different keys.
    for count in (5, 40):
        pairs = [(small(k), small(k // 2)) for k in range(count)]
        straight, mixed = sum(pairs, ()), sum((pairs[7 * k % count] for k in range(count)), ())
        equal(book, map_of(*straight), turned(*straight))
        equal(book, turned(*straight), map_of(*mixed))
        equal(book, map_of(*mixed), map_of(*straight))
        for k in (0, count // 2, count - 1):
            for other in ((small(k), small(200)), (small(200), small(k // 2))):
                changed = turned(*sum(pairs[:k] + [other] + pairs[k + 1:], ()))
                book.accepted(map_of(map_of(*straight), NIL, changed, NIL), count=1 + 2 * (2 * count + 1) + 2)
    # Of many keys that are maps the last is one of the others, turned.
    many = [(small(k), NIL, small(k + 1), NIL) for k in range(40)]
    body = b''.join(map_of(*key) + NIL for key in many)
    book.accepted(b'\x74' + big(4, 40) + body, count=1 + 40 * 6)
    for k in (0, 20, 39):
        book.refused(7, 1 + 5 + len(body), b'\x74' + big(4, 41) + body + turned(*many[k]) + NIL)


def atom_lists(book):
    full = ((1, b'a'),) * 255
    # 82: below n is an atom, n and above is 6, also 255 where n is 255, whatever the place holds.
    for n in (1, 2, 254, 255):
        book.accepted(bytes([82, n - 1]), n=n, places=full)
        for index in (n, 255):
            book.refused(6, 1, bytes([82, index]), n=n, places=full)
            book.refused(6, 3, bytes([104, 1, 82, index]), n=n, places=full)
    book.refused(6, 1, b'\x52\0')
    book.refused(6, 1, b'\x52\0', places=full)
    book.refused(6, 0, b'\x52\3', form='p', n=3, places=full)
    book.accepted(b'\x68\xff' + b''.join(bytes([82, k]) for k in range(255)), n=255, places=full, count=256)
    # A place whose text is wanted: a length over 32 or text that is not UTF-8 is 14 at 0; one that is not wanted is not judged.
    four = b'\xf0\x9f\x98\x80'
    for place in ((0, b''), (32, b'a' * 32), (32, four * 8), (1, b'a\xff'), (0, b'\xff' * 32), (2, b'\xc3\xa9\xff'), (3, b'\0\0\0')):
        book.accepted(b'\x52\0', n=1, places=(place,))
        book.accepted(tuple_of(b'\x52\1', NODE), n=2, places=((1, b'a'), place))
    for place in ((33, b'a' * 32), (255, b'a' * 32), (256, b'a' * 32), (65535, b''), (65534, b'a'), (1, b'\xff'), (2, b'a\xc3'), (1, b'\xc3\xa9'), (31, four * 8), (32, b'a' * 31 + b'\xc3'),
                  (3, b'\xed\xa0\x80')):
        lent = {'n': 2, 'places': ((1, b'a'), place, (33, b'a'))}
        book.refused(14, 0, b'\x52\1', **lent)
        book.refused(14, 0, tuple_of(small(1), b'\x52\1'), **lent)
        book.refused(14, 0, b'\x58\x52\1' + bytes(12), **lent)
        book.refused(14, 0, b'\x52\1', form='p', **lent)
        book.refused(14, 0, b'\x52\1', rows=0, **lent)
        book.accepted(tuple_of(b'\x52\0', small(1)), **lent)
        book.refused(6, 1, b'\x52\2', **lent)
        book.refused(2, 1, b'\x52', **lent)
        book.refused(6, 3, tuple_of(b'\x52\2', b'\x52\1'), **lent)
    # Sizes: a byte or a length too few or too many is 13 at 0, before 12 and everything else.
    for form in 'SPtq':
        for message in (b'', b'\x83\x6a', b'\x6a', b'\x83\x52\0', bytes(65537)):
            book.raw(13, 0, message, form=form)
            book.raw(13, 0, message, form=form, rows=0, n=1, places=((1, b'a'),))


def messages(book):
    # A standalone term is 131, one term, end: empty or another first byte is 1 at 0; a byte left is 10 there.
    book.raw(1, 0, b'')
    for first in (0, 68, 82, 106, 130, 132, 255):
        book.raw(1, 0, bytes([first]))
        book.raw(1, 0, bytes([first]) + NIL)
    book.raw(2, 1, b'\x83')
    book.refused(3, 1, b'\x83\x6a')
    for term in (NIL, small(1), tuple_of(), list_of(small(1)), text_list(b'ab'), binary(b'a'), map_of(small(1), NIL), b'\x58' + NODE + bytes(12)):
        for more in (b'\0', NIL, b'\x83', b'\x63'):
            book.refused(10, 1 + len(term), term + more)
        # A payload is one or two terms: what follows the first is the second, and 10 is only after that.
        book.accepted(term, form='p')
        for second in (NIL, small(2), tuple_of(NIL, NIL)):
            book.accepted(term + second, form='p')
            for more in (b'\0', NIL, b'\x83'):
                book.refused(10, len(term) + len(second), term + second + more, form='p')
        book.refused(3, len(term), term + b'\0', form='p')
        book.refused(3, len(term), term + b'\x83', form='p')
        book.refused(2, len(term), term + b'\x61', form='p')
        book.refused(5, len(term) + bad_byte(b'a\xff'), term + atom(b'a\xff'), form='p')
        book.refused(2, len(term) + 2, term + b'\x68\1', form='p')
        book.refused(10, len(term) + 1, term + NIL + NIL, form='p', rows=64)
    book.refused(2, 0, b'', form='p')
    book.refused(3, 0, b'\x83\x6a', form='p')
    # At most 65,536 bytes, 131 with them; 12 comes before 1.
    book.accepted(binary(bytes(65530)), count=1)
    book.refused(12, 0, binary(bytes(65531)))
    book.accepted(binary(bytes(65531)), form='p', count=1)
    book.refused(12, 0, binary(bytes(65532)), form='p')
    book.accepted(tuple_of(binary(bytes(65525)), small(1), small(2)), form='p', count=4)
    book.refused(2, 1, binary(bytes(65531))[:65535])
    book.refused(10, 65535, binary(bytes(65529)) + b'\0')
    book.raw(12, 0, bytes(65537))
    book.raw(12, 0, bytes(65537), form='p')
    book.raw(12, 0, b'\x83' + NIL * 65536)
    book.raw(12, 0, bytes(70000), rows=0)
