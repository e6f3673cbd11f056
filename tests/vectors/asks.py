"""Questions by each of the flags and of maps in each order, for the verb `ask`.

The answers follow from #109 by construction: an unknown flag is 14 at 0 after 13 and before everything else, and the text is empty; a term that V4_NC alone lets in is
4 at its tag without it. By #103 a row's position follows from the bytes as they came. None comes from the code of this repository.
"""
from itertools import permutations

from lines import BOTH, V4_NC, Case, big

NODE = b'\x77\1n'


def refused(form, message, number, place, flags, **lent):
    """Every question is refused so; the text has no refusal of its own."""
    answer = 'refused,%d,%d' % (number, place)
    rows, offsets = 3, len(message) + 2 if len(message) < 100 else 2
    return Case(form, message, ' '.join([answer] * rows + ['empty'] * offsets + [answer] * offsets), rows=rows, room=offsets, flags=flags, **lent)


def answered(form, message, node, flags):
    """An identifier alone: no row has a number, and the node, whose tag is at `node`, is the one atom."""
    offsets = range(len(message) + 2)
    texts = ['message,%d,1' % (node + 2) if i == node else 'empty' for i in offsets]
    marks = ['utf8' if i == node else 'refused,4,%d' % i for i in offsets]
    return Case(form, message, ' '.join(['neither'] * 3 + texts + marks), rows=3, room=len(offsets), flags=flags)


def unknown():
    for flags in (4, 128, 255):
        for form, message in (('s', b'\x83\x61\5'), ('p', b'\x61\5'), ('s', b''), ('p', b''), ('s', b'\x82\x6a'), ('s', b'\x83\x63'), ('s', b'\x83\x52\0'), ('p', bytes(65537))):
            yield refused(form, message, 14, 0, flags)
        for form in 'SPtq':
            yield refused(form, b'\x83\x61\5', 13, 0, flags)
        yield refused('s', b'\x83\x52\0', 14, 0, flags, n=1, places=((1, b'a'),))


def newer():
    """The ends of what V4_NC widens, and the tags beside 88 and 90 that it does not."""
    wide = [(b'\x58' + NODE + big(4, number) + big(4, serial) + big(4, 3), 1) for number, serial in ((2**15, 0), (0, 2**13), (2**32 - 1, 2**32 - 1))]
    wide += [(b'\x5a' + big(2, count) + NODE + big(4, 3) + b'\xff' * 4 * count, 3) for count in (4, 5)]
    narrow = [(b'\x58' + NODE + big(4, 2**15 - 1) + big(4, 2**13 - 1) + big(4, 3), 1), (b'\x5a\0\3' + NODE + big(4, 3) + b'\xff' * 12, 3)]
    never = [b'\x67' + NODE + big(4, 2**15) + big(4, 0) + b'\3', b'\x67' + NODE + big(4, 0) + big(4, 2**13) + b'\3', b'\x72\0\4' + NODE + b'\3' + bytes(16),
             b'\x5a\0\6' + NODE + big(4, 3) + bytes(24), b'\x59' + NODE + big(4, 2**28) + big(4, 3)]
    for flags in range(BOTH + 1):
        for form, front in (('s', b'\x83'), ('p', b'')):
            for term, node in narrow + (wide if flags & V4_NC else []):
                yield answered(form, front + term, len(front) + node, flags)
            for term in never + ([] if flags & V4_NC else [term for term, node in wide]):
                yield refused(form, front + term, 4, len(front), flags)


def in_order(form, front, terms):
    """Terms after `front`, which has the first row and no atom: each is its bytes, its number's answer, and whether it is an atom of one character by 119."""
    message, numbers, atoms = front, ['neither'], []
    for data, number, is_atom in terms:
        atoms += [len(message)] if is_atom else []
        message, numbers = message + data, numbers + [number]
    offsets = range(len(message) + 2)
    texts = ['message,%d,1' % (i + 2) if i in atoms else 'empty' for i in offsets]
    marks = ['utf8' if i in atoms else 'refused,4,%d' % i for i in offsets]
    return Case(form, message, ' '.join(numbers + ['neither'] * 2 + texts + marks), rows=len(numbers) + 2, room=len(offsets))


def turned():
    """Rows and offsets go by the bytes, whichever pair is written first; keys that differ only in order are the message's refusal."""
    node, real = (NODE, 'neither', True), (b'\x46\x3f\xf0' + bytes(6), 'float,%d' % (0x3ff0 << 48), False)
    pairs = [((b'\x61\2', 'whole,2', False), node), (node, (b'\x61\1', 'whole,1', False)), (real, (b'\x62' + b'\xff' * 4, 'whole,-1', False))]
    for form, front in (('s', b'\x83'), ('p', b'')):
        for order in permutations(pairs):
            yield in_order(form, front + b'\x74' + big(4, 3), sum(order, ()))
        one, other = (b'\x74' + big(4, 2) + first + second for first, second in permutations((b'\x61\1\x6a', b'\x61\2' + NODE)))
        yield refused(form, front + b'\x74' + big(4, 2) + one + b'\x6a' + other + b'\x6a', 7, len(front) + 5 + len(one) + 1, BOTH)


def asks():
    yield from unknown()
    yield from newer()
    yield from turned()
