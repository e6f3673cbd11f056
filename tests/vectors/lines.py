"""Cases as lines: a verb and hex words; the form of a line: src/lib.rt of crate vector_lines."""


def big(width, number):
    return number.to_bytes(width, 'big')


def repetition(data, at):
    """The period (up to 12 bytes) and the count of the longest repetition that starts at `at`."""
    best = (1, 1)
    for period in range(1, 13):
        count = 1
        piece = data[at:at + period]
        while len(piece) == period and data[at + count * period:at + (count + 1) * period] == piece:
            count += 1
        if count > 1 and count * period > best[0] * best[1]:
            best = (period, count)
    return best


def words(data):
    """The words that stand for the bytes: hex, and COUNT*HEX for a repetition of 40 bytes or more."""
    out, plain, at = [], b'', 0
    while at < len(data):
        period, count = repetition(data, at)
        if period * count < 40:
            plain += data[at:at + 1]
            at += 1
            continue
        if plain:
            out.append(plain.hex())
        plain = b''
        out.append('%d*%s' % (count, data[at:at + period].hex()))
        at += period * count
    if plain:
        out.append(plain.hex())
    return ' '.join(out)


# The connection's flags.
UTF8, V4_NC = 1, 2
BOTH = UTF8 | V4_NC


class Case:
    """A case; both flags are on where none are said, as in the bench."""

    def __init__(self, form, message, answer, rows=8192, room=65536, n=0, flags=BOTH, places=()):
        self.form, self.message, self.answer = form, message, answer
        self.rows, self.room, self.n, self.flags, self.places = rows, room, n, flags, places

    def line(self, verb):
        head = self.form.encode() + big(2, self.rows) + big(3, self.room) + big(1, self.n) + big(1, self.flags) + big(1, len(self.places))
        for length, text in self.places:
            head += big(2, length) + big(1, len(text)) + text
        return verb + ' ' + words(head + self.message)
