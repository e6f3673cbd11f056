/* Messages with the answers that documents 01 and 02 give them, worked out by hand: for reading, writing and asking. */
#ifndef MESSAGES_H
#define MESSAGES_H

#include "check.h"

#define NOTHING (const uint8_t[]){0}, 0

enum form { STANDALONE, PAYLOAD };

struct message {
    const char *name;
    enum form form;
    const uint8_t *bytes;
    size_t size;
    unsigned refusal, place; /* with the list three_texts and 8,192 rows; 0: accepted */
    unsigned terms, rows;
};

static const struct message messages[] = {
    {"P1, 5 in four bytes", STANDALONE, BYTES(131, 98, 0, 0, 0, 5), 0, 0, 1, 1},
    {"P2, 5 in two digits", STANDALONE, BYTES(131, 110, 2, 0, 5, 0), 0, 0, 1, 1},
    {"P4, -2^31", STANDALONE, BYTES(131, 110, 4, 1, 0, 0, 0, 128), 0, 0, 1, 1},
    {"P6, a list of bytes", STANDALONE, BYTES(131, 108, 0, 0, 0, 2, 97, 7, 97, 8, 106), 0, 0, 1, 3},
    {"P8, three bits", STANDALONE, BYTES(131, 77, 0, 0, 0, 1, 3, 191), 0, 0, 1, 1},
    {"P9, a Latin-1 atom", STANDALONE, BYTES(131, 100, 0, 1, 233), 0, 0, 1, 1},
    {"P10 with n = 3", STANDALONE, BYTES(131, 82, 0), 0, 0, 1, 1},
    {"an empty text of the list", STANDALONE, BYTES(131, 82, 2), 0, 0, 1, 1},
    {"a pid", STANDALONE, BYTES(131, 88, 82, 1, 0, 0, 0, 1, 0, 0, 0, 2, 0, 0, 0, 3), 0, 0, 1, 2},
    {"an export", STANDALONE, BYTES(131, 113, 119, 1, 'm', 119, 1, 'f', 97, 2), 0, 0, 1, 4},
    {"a map of two", STANDALONE, BYTES(131, 116, 0, 0, 0, 2, 97, 1, 97, 5, 98, 0, 0, 0, 2, 97, 6), 0, 0, 1, 5},
    {"a payload of one", PAYLOAD, BYTES(104, 1, 97, 9), 0, 0, 1, 2},
    {"a payload of two", PAYLOAD, BYTES(104, 1, 97, 9, 82, 0), 0, 0, 2, 3},
    {"1, empty", STANDALONE, NOTHING, 1, 0, 0, 0},
    {"1, another first byte", STANDALONE, BYTES(130, 97, 5), 1, 0, 0, 0},
    {"P11, 2 where the tag would stand", STANDALONE, BYTES(131), 2, 1, 0, 0},
    {"2, an empty payload", PAYLOAD, NOTHING, 2, 0, 0, 0},
    {"2, a field cut", STANDALONE, BYTES(131, 98, 0, 0), 2, 1, 0, 0},
    {"2, a part missing", STANDALONE, BYTES(131, 104, 2, 97, 5), 2, 5, 0, 0},
    {"2, a later field missing", STANDALONE, BYTES(131, 103, 82, 0, 255, 255, 255, 255, 0, 0, 0, 0), 2, 1, 0, 0},
    {"3, no tag", STANDALONE, BYTES(131, 0), 3, 1, 0, 0},
    {"3, a fun", STANDALONE, BYTES(131, 104, 1, 112), 3, 3, 0, 0},
    {"4, an infinite float", STANDALONE, BYTES(131, 70, 127, 240, 0, 0, 0, 0, 0, 0), 4, 1, 0, 0},
    {"4, a sign", STANDALONE, BYTES(131, 110, 1, 2, 5), 4, 1, 0, 0},
    {"4, an arity's tag", STANDALONE, BYTES(131, 113, 119, 1, 'm', 119, 1, 'f', 98, 0, 0, 0, 2), 4, 8, 0, 0},
    {"4, a node's tag", STANDALONE, BYTES(131, 88, 97, 5), 4, 2, 0, 0},
    {"4, bits of nothing", STANDALONE, BYTES(131, 77, 0, 0, 0, 0, 1), 4, 1, 0, 0},
    {"5, a byte that begins nothing", STANDALONE, BYTES(131, 119, 2, 192, 128), 5, 3, 0, 0},
    {"5, a byte that continues nothing", STANDALONE, BYTES(131, 118, 0, 4, 'a', 226, 130, 'b'), 5, 7, 0, 0},
    {"5, a character cut off by the text's end", STANDALONE, BYTES(131, 104, 1, 119, 3, 'a', 226, 130, 172), 5, 6, 0, 0},
    {"5, an impossible byte before the text's end", STANDALONE, BYTES(131, 88, 119, 2, 224, 128), 5, 5, 0, 0},
    {"5 in a payload's second term", PAYLOAD, BYTES(106, 119, 2, 'a', 255), 5, 4, 0, 0},
    {"6, index 3 of three", STANDALONE, BYTES(131, 104, 1, 82, 3), 6, 3, 0, 0},
    {"P13, an equal key", STANDALONE, BYTES(131, 116, 0, 0, 0, 2, 97, 1, 97, 5, 98, 0, 0, 0, 1, 97, 6), 7, 10, 0, 0},
    {"7 before the missing value", STANDALONE, BYTES(131, 116, 0, 0, 0, 2, 82, 0, 106, 119, 2, 'o', 'k'), 7, 9, 0, 0},
    {"10", STANDALONE, BYTES(131, 97, 5, 97), 10, 3, 0, 0},
    {"10 after a payload's second term", PAYLOAD, BYTES(97, 5, 97, 6, 97), 10, 4, 0, 0},
    {"3 in a payload's second term", PAYLOAD, BYTES(97, 5, 131), 3, 2, 0, 0},
};
enum { MESSAGES = sizeof messages / sizeof *messages };

/* Whether a standalone term without its 131 is a payload with the same answer, one byte earlier. */
static inline int also_payload(const struct message *m)
{
    return m->form == STANDALONE && m->size > 0 && m->refusal != IK_NO_VERSION && m->refusal != IK_LEFT_OVER;
}

/* Hands over each message that is refused, and as a payload too where it is one. */
static inline void each_refused(void (*refused)(enum form form, const uint8_t *bytes, size_t size, unsigned refusal, unsigned place))
{
    for (int i = 0; i < MESSAGES; i++) {
        const struct message *m = &messages[i];
        if (!m->refusal)
            continue;
        refused(m->form, lend_copy(m->bytes, m->size), m->size, m->refusal, m->place);
        if (also_payload(m))
            refused(PAYLOAD, lend_copy(m->bytes + 1, m->size - 1), m->size - 1, m->refusal, m->place - 1);
    }
}

/* The refusals of reading; 1 is a standalone term's alone. */
#define READING IK_CUT, IK_TAG, IK_FIELD, IK_TEXT, IK_INDEX, IK_KEY, IK_DEPTH, IK_ROWS, IK_LEFT_OVER, IK_LONG, IK_SIZE, IK_STATE
static uint64_t met[2];

/* Every refusal of reading, and `others`, was met in both forms. */
static inline void all_met(uint64_t others)
{
    SAME(met[PAYLOAD], bits_of(BYTES(IK_ACCEPTED, READING)) | others);
    SAME(met[STANDALONE], bits_of(BYTES(IK_ACCEPTED, IK_NO_VERSION, READING)) | others);
}

/* 131, then `depth` tuples, each in the one before; the inmost is empty. */
static inline size_t nested_tuples(uint8_t *to, size_t depth)
{
    size_t at = 0;
    to[at++] = 131;
    for (size_t i = 1; i <= depth; i++) {
        to[at++] = 104;
        to[at++] = i < depth;
    }
    return at;
}

/* 131, then a tuple of so many empty lists. */
static inline size_t wide_tuple(uint8_t *to, uint32_t arity)
{
    const uint8_t head[] = {131, 105, (uint8_t)(arity >> 24), (uint8_t)(arity >> 16), (uint8_t)(arity >> 8), (uint8_t)arity};
    memcpy(to, head, sizeof head);
    memset(to + sizeof head, 106, arity);
    return sizeof head + arity;
}

#endif
