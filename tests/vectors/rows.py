"""The rows of bytes that are known to be accepted."""


def number(data, at, width):
    return int.from_bytes(data[at:at + width], 'big')


def rows_of(form, data):
    """The number of terms of an accepted message, and its rows: kind, offset, row of the whole or None."""
    at, terms, rows = (1 if form in 'sSt' else 0), 0, []
    while at < len(data):
        at = walk(data, at, None, rows)
        terms += 1
    return terms, rows


def walk(data, at, whole, rows):
    """Adds the rows of the term at `at`, and answers where it ends."""
    while data[at] == 108 and number(data, at + 1, 4) == 0:
        at += 5                                                     # a 108 of length 0 means its tail
    tag, me = data[at], len(rows)
    rows.append([None, at, whole])

    def parts(start, count):
        for _ in range(count):
            start = walk(data, start, me, rows)
        return start

    def characters(start):
        count = number(data, start + 1, 2)
        for i in range(count):
            rows.append(['integer', start + 3 + i, me])
        return start + 3 + count

    def elements(start):
        start = parts(start + 5, number(data, start + 1, 4))
        while data[start] == 108:                                   # a tail that is a list is joined on
            start = parts(start + 5, number(data, start + 1, 4))
        if data[start] == 106:
            return start + 1
        if data[start] == 107:
            return characters(start)
        return parts(start, 1)                                      # an improper tail is a part

    one, two, four = number(data, at + 1, 1), number(data, at + 1, 2), number(data, at + 1, 4)
    if tag == 97:
        kind, end = 'integer', at + 2
    elif tag == 98:
        kind, end = 'integer', at + 5
    elif tag == 110:
        kind, end = 'integer', at + 3 + one
    elif tag == 111:
        kind, end = 'integer', at + 6 + four
    elif tag == 70:
        kind, end = 'float', at + 9
    elif tag in (100, 118):
        kind, end = 'atom', at + 3 + two
    elif tag in (115, 119):
        kind, end = 'atom', at + 2 + one
    elif tag == 82:
        kind, end = 'atom', at + 2
    elif tag == 104:
        kind, end = 'tuple', parts(at + 2, one)
    elif tag == 105:
        kind, end = 'tuple', parts(at + 5, four)
    elif tag == 106:
        kind, end = 'nil', at + 1
    elif tag == 107:
        kind, end = 'list' if two else 'nil', characters(at)
    elif tag == 108:
        kind, end = 'list', elements(at)
    elif tag == 109:
        kind, end = 'binary', at + 5 + four
    elif tag == 77:
        kind, end = 'binary' if four == 0 or data[at + 5] == 8 else 'bitstring', at + 6 + four
    elif tag == 116:
        kind, end = 'map', parts(at + 5, 2 * four)
    elif tag in (88, 103):
        kind, end = 'pid', parts(at + 1, 1) + (12 if tag == 88 else 9)
    elif tag in (89, 102, 120):
        kind, end = 'port', parts(at + 1, 1) + {89: 8, 102: 5, 120: 12}[tag]
    elif tag in (90, 114):
        kind, end = 'reference', parts(at + 3, 1) + (4 if tag == 90 else 1) + 4 * two
    elif tag == 101:
        kind, end = 'reference', parts(at + 1, 1) + 5
    elif tag == 113:
        kind, end = 'export', parts(at + 1, 3)
    rows[me][0] = kind
    return end


def shape(form, data):
    """The kinds of an accepted message's terms and which is part of which; equal for two messages just if the rows of one, its pairs put in another order, are
    the other's."""
    rows, terms = rows_of(form, data)[1], []
    parts = [[] for row in rows]
    for (kind, at, whole), mine in zip(reversed(rows), reversed(parts)):
        mine.reverse()                                              # they came last first
        inner = sorted(zip(mine[::2], mine[1::2])) if kind == 'map' else mine
        (terms if whole is None else parts[whole]).append((kind, tuple(inner)))
    return terms[::-1]


def rises(form, canonical):
    """Whether the keys of every map of a canonical form rise in byte order: a key's bytes end where its value's tag stands."""
    rows = rows_of(form, canonical)[1]
    offsets = [[] for row in rows]
    for kind, at, whole in rows:
        if whole is not None:
            offsets[whole].append(at)
    for (kind, at, whole), mine in zip(rows, offsets):
        keys = [canonical[start:end] for start, end in zip(mine[::2], mine[1::2])]
        if kind == 'map' and not all(a < b for a, b in zip(keys, keys[1:])):
            return False
    return True


def shown(form, data):
    """The line for an accepted message."""
    terms, rows = rows_of(form, data)
    line = 'ok %d %d' % (terms, len(rows))
    if len(rows) <= 100:
        line += ''.join(' %s,%d,%s' % (kind, at, '-' if whole is None else whole) for kind, at, whole in rows)
    return line
