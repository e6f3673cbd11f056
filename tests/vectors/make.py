#!/usr/bin/env python3
"""Writes the stdin and the stdout of the program crate that runs the vectors.

    make.py VECTORS FOLDER

VECTORS holds standalone.jsonl, payload.jsonl and rows.jsonl. FOLDER/stdin and FOLDER/stdout are written. The same input gives the same files.

Where the answers come from (never from the code of this repository):
- The vectors have their own answers, worked out from the papers by an implementation of other hands. standalone.jsonl is the bench: both flags on.
- standalone.jsonl says of an accepted term its canonical form and not its rows. `rows_of` (rows.py) finds the rows of bytes that are known to be
  accepted: it only walks over them by the tag table. It is held to every table of payload.jsonl, and for standalone.jsonl to the
  kinds and wholes of the canonical form that the vector gives, whose pairs may stand in another order and must rise (#103).
- The cases of boundaries.py are built so that the answer follows from how they are built; the comment beside each says by which rule. A
  refusal is stated with its number and its place. Of an accepted case the rows are those of `rows_of`, and the number of rows is stated where
  it is the point.
- Questions by each of the flags: asks.py.
- Words: by the rules of #107 and #109 (words.py), for lists of payload.jsonl and rows.jsonl and for made ones. It is held to every text of rows.jsonl that stands in a list.

A line of stdin: src/lib.rt of crate vector_lines. Asking lends no rows and no output: these two fields say how many rows and how many offsets are
asked for. Nor do words, whose message is empty: the second says how many indices are asked for. A line of stdout, by the verb:
- read: `refused N P`, or `ok TERMS ROWS` and, up to 100 rows, ` KIND,OFFSET,WHOLE` for each; ` dirty` never.
- write: `refused N P` or `ok HEX`. Of boundaries.py only the refused cases: the writer refuses what the reader refuses; the ends of the
  rules of the canonical form stand in canonical.py.
- ask: the numbers, the texts and the marks, all parted by spaces, each with commas where the vector has tabs.
- word: for each index `word,START,LENGTH` or `refused,N,P`, parted by spaces; ` differs` never.
"""
import json
import os
import sys

sys.dont_write_bytecode = True
from asks import asks
from boundaries import boundaries
from canonical import canonical
from lines import BOTH, Case
from rows import rises, rows_of, shape, shown
from words import answer, words


def vectors(folder, name):
    with open(os.path.join(folder, name + '.jsonl')) as file:
        return [json.loads(line) for line in file]


def places_of(vector):
    given = vector.get('list', {'n': 0, 'texts': [], 'lengths': []})
    return given['n'], tuple((length, bytes.fromhex(text)) for text, length in zip(given['texts'], given['lengths']))


def reading(folder):
    for vector in vectors(folder, 'standalone'):
        message, out = bytes.fromhex(vector['in']), vector['out'].split('\t')
        if out[0] == 'refused':
            yield Case('s', message, ' '.join(out))
            continue
        canonical = bytes.fromhex(out[1])
        assert shape('s', message) == shape('s', canonical) and rises('s', canonical), vector
        yield Case('s', message, shown('s', message))
    for vector in vectors(folder, 'payload'):
        message, form = bytes.fromhex(vector['in']), vector['form'][0]
        n, places = places_of(vector)
        if 'read' in vector:
            answer = vector['read'].replace('\t', ' ')
        else:
            answer = shown(form, message)
            terms, rows = rows_of(form, message)
            assert (terms, len(rows), rows) == (vector['terms'], vector['rows_used'], vector.get('table', rows)), vector
        yield Case(form, message, answer, rows=vector['rows'], room=vector['out_size'], n=n, flags=vector['flags'], places=places)
    yield from boundaries()


def writing(folder):
    for vector in vectors(folder, 'standalone') + vectors(folder, 'payload'):
        form, message, out = vector.get('form', 's')[0], bytes.fromhex(vector['in']), vector['out'].replace('\t', ' ')
        n, places = places_of(vector)
        lent = {'rows': vector.get('rows', 8192), 'n': n, 'flags': vector.get('flags', BOTH), 'places': places}
        yield Case(form, message, out, room=vector.get('out_size', 65536), **lent)
        # Room is enough where it is as long as the canonical form; a byte less is 11 at 0.
        if out.startswith('ok'):
            length = len(out[3:]) // 2
            yield Case(form, message, out, room=length, **lent)
            yield Case(form, message, 'refused 11 0', room=length - 1, **lent)
    for case in boundaries():
        if case.answer.startswith('refused'):
            yield case
    yield from canonical()


def asking(folder):
    for vector in vectors(folder, 'rows'):
        n, places = places_of(vector)
        assert len(vector['texts']) == len(vector['marks'])
        answer = ' '.join(word.replace('\t', ',') for word in vector['numbers'] + vector['texts'] + vector['marks'])
        yield Case(vector['form'][0], bytes.fromhex(vector['in']), answer, rows=len(vector['numbers']), room=len(vector['texts']), n=n, flags=vector['flags'], places=places)
    yield from asks()


def wording(folder):
    for vector in vectors(folder, 'rows'):
        n, places = places_of(vector)
        for text in vector['texts']:
            source, *stretch = text.split('\t')
            assert source != 'list' or answer('s', n, places, int(stretch[0]) // 32) == ','.join(['word'] + stretch), vector
    yield from words(places_of(vector) for name in ('payload', 'rows') for vector in vectors(folder, name))


VERBS = {'read': reading, 'write': writing, 'ask': asking, 'word': wording}


def main():
    source, folder = sys.argv[1:]
    cases = [(verb, case) for verb, cases_of in VERBS.items() for case in cases_of(source)]
    for file, lines in (('stdin', [case.line(verb) for verb, case in cases]), ('stdout', [case.answer for verb, case in cases])):
        with open(os.path.join(folder, file), 'w') as out:
            out.write(''.join(line + '\n' for line in lines))


if __name__ == '__main__':
    main()
