"""The words of atom lists, for the verb `word`.

The answers follow from the rules of #107 and #109, put down here as `answer`: 13 where the list is not of its size, 14 for an unknown flag, 6 for an index not below n,
14 for a length over 32 or bytes that are no UTF-8, all at place 0; else the word stands at 32 for each place before it. What is UTF-8, Python's own decoder says. None
comes from the code of this repository. Both flags are on where none are said.
"""
from lines import BOTH, Case

WRONG_SIZES = 'SPtq'


def is_utf8(data):
    try:
        data.decode('utf-8')
    except UnicodeDecodeError:
        return False
    return True


def answer(form, n, places, index, flags=BOTH):
    """What is asked of a list whose places, past those given, are zero."""
    if form in WRONG_SIZES:
        return 'refused,13,0'
    if flags > BOTH:
        return 'refused,14,0'
    if index >= n:
        return 'refused,6,0'
    length, text = places[index] if index < len(places) else (0, b'')
    if length > 32 or not is_utf8(text.ljust(32, b'\0')[:length]):
        return 'refused,14,0'
    return 'word,%d,%d' % (32 * index, length)


def case(n, places, count=None, form='s', flags=BOTH):
    """A list asked for its first `count` words: n and two more where none is said."""
    assert all(len(text) <= 32 for length, text in places)
    count = n + 2 if count is None else count
    answers = ' '.join(answer(form, n, places, i, flags) for i in range(count))
    return Case(form, b'', answers, rows=0, room=count, n=n, flags=flags, places=tuple(places))


def whole(text):
    """A place with all of this text."""
    return len(text), text


def counts():
    """n 0, 3 and 255; more places than n filled in, and fewer."""
    yield case(0, [], count=300)
    filled = [whole(b'a'), whole(b''), whole('\xe9'.encode()), whole(b'd')]
    for n in (0, 3):
        yield case(n, filled)
    yield case(3, filled[:1])
    # Of 255 places each has another text: the character of its own number.
    yield case(255, [whole(chr(i).encode()) for i in range(255)], count=256)


def lengths():
    """At the place's 32 bytes and past them; a false length says nothing of the places beside it."""
    text = bytes(range(65, 97))
    yield case(7, [(length, text) for length in (33, 0, 65535, 1, 256, 32, 288)])
    # The text is shorter than its length: zero bytes are UTF-8.
    yield case(1, [(32, b'')])


def characters():
    """Texts that fill the place with characters of two, three and four bytes; characters that the length cuts, or the place's end."""
    full = [text.encode() for text in ('\xe9' * 16, '\u20ac' * 10 + '\xe9', '\U0001f600' * 8, 'a\u07ff\u0800\ud7ff\ue000\uffff\U00010000\U0010ffff' + 'b' * 9)]
    assert all(len(text) == 32 for text in full)
    yield case(4, [whole(text) for text in full])
    mixed = 'a\xe9\u20ac\U0001f600'.encode()
    yield case(10, [(length, mixed) for length in range(1, 11)])
    # What the place's end cuts off stands at the next place's start.
    for data in ('a' * 31 + '\xe9', 'a' * 30 + '\u20ac', 'a' * 29 + '\U0001f600'):
        data = data.encode()
        yield case(2, [whole(data[:32]), whole(data[32:])])


def bad_bytes():
    """A byte that is no UTF-8 inside the length and past it; what is no character though its bytes look like one."""
    for bad in (b'\x80', b'\xff'):
        yield case(3, [(length, b'ab' + bad + b'd') for length in (2, 3, 4)])
    yield case(2, [(length, b'a' * 31 + b'\xff') for length in (31, 32)])
    yield case(9, [whole(bytes.fromhex(text)) for text in 'c1bf c27f e09fbf ed9fbf eda080 f08fbfbf f48fbfbf f4908080 f5808080'.split()])


def order():
    """6 where the place asked for would be 14; 13 before both."""
    false = [whole(b'a'), (33, b'a'), whole(b'\xff'), (65535, b''), whole(b'e')]
    for n in (1, 5):
        yield case(n, false, count=6)
    yield case(5, false, form='p')
    for form in WRONG_SIZES:
        yield case(0, [], form=form)
        yield case(4, false, count=6, form=form)


def flagged():
    """A word goes by no known flag; an unknown one comes after 13 and before 6 and the place's own 14."""
    mixed = [whole(b'a'), whole('\xe9'.encode()), (33, b'a'), whole(b'\xff'), whole(b'')]
    for flags in (0, 1, 2, 3, 4, 5, 6, 7, 8, 16, 32, 64, 128, 131, 252, 255):
        yield case(0, mixed, flags=flags)
        yield case(5, mixed, flags=flags)
    for flags in (4, 128, 255):
        for form in WRONG_SIZES:
            yield case(5, mixed, form=form, flags=flags)


def words(lists):
    """The lists given, each once, and those made here."""
    for n, places in dict.fromkeys(lists):
        yield case(n, places)
    for made in (counts, lengths, characters, bad_bytes, order, flagged):
        yield from made()
