/* ik_number_*, ik_text_*, ik_mark_*. */
#include "messages.h"

static struct ik_number_reply number_of(enum form form, const uint8_t *bytes, size_t size, size_t row)
{
    struct ik_number_reply a = (form == STANDALONE ? ik_number_standalone : ik_number_payload)(BOTH, lend_copy(bytes, size), size, LIST(three_texts()), row);
    met[form] |= bit(a.refusal);
    return a;
}

static void whole(enum form form, const uint8_t *bytes, size_t size, size_t row, int64_t expected)
{
    struct ik_number_reply a = number_of(form, bytes, size, row);
    SAME(a.refusal, 0);
    SAME(a.kind, IK_NUMBER_WHOLE);
    SAME(a.integer, expected);
    CHECK(all(&a.real, 8, 0));
    CHECK(guards_stand());
}

static void bits_are(enum form form, const uint8_t *bytes, size_t size, size_t row, uint64_t expected)
{
    struct ik_number_reply a = number_of(form, bytes, size, row);
    uint64_t bits;
    memcpy(&bits, &a.real, 8);
    SAME(a.refusal, 0);
    SAME(a.kind, IK_NUMBER_FLOAT);
    SAME(a.integer, 0);
    SAME(bits, expected);
    CHECK(guards_stand());
}

static void neither(enum form form, const uint8_t *bytes, size_t size, size_t row)
{
    struct ik_number_reply a = number_of(form, bytes, size, row);
    SAME(a.refusal, 0);
    SAME(a.place, 0);
    SAME(a.kind, IK_NUMBER_NEITHER);
    SAME(a.integer, 0);
    CHECK(all(&a.real, 8, 0));
    CHECK(guards_stand());
}

static void numbers(void)
{
    whole(STANDALONE, BYTES(131, 97, 255), 0, 255);
    whole(STANDALONE, BYTES(131, 98, 255, 255, 255, 254), 0, -2);
    whole(STANDALONE, BYTES(131, 110, 8, 0, 255, 255, 255, 255, 255, 255, 255, 127), 0, INT64_MAX);
    whole(STANDALONE, BYTES(131, 110, 8, 1, 0, 0, 0, 0, 0, 0, 0, 128), 0, INT64_MIN);
    whole(STANDALONE, BYTES(131, 111, 0, 0, 0, 10, 1, 7, 0, 0, 0, 0, 0, 0, 0, 0, 0), 0, -7);
    whole(STANDALONE, BYTES(131, 107, 0, 2, 7, 200), 2, 200);
    whole(STANDALONE, BYTES(131, 113, 82, 0, 82, 1, 97, 9), 3, 9);
    whole(PAYLOAD, BYTES(97, 1, 97, 2), 1, 2);
    neither(STANDALONE, BYTES(131, 110, 8, 0, 0, 0, 0, 0, 0, 0, 0, 128), 0);
    neither(STANDALONE, BYTES(131, 110, 8, 1, 1, 0, 0, 0, 0, 0, 0, 128), 0);
    neither(STANDALONE, BYTES(131, 110, 9, 0, 0, 0, 0, 0, 0, 0, 0, 0, 1), 0);
    neither(STANDALONE, BYTES(131, 82, 0), 0);
    neither(STANDALONE, BYTES(131, 104, 1, 97, 5), 0);
    neither(STANDALONE, BYTES(131, 97, 5), 1);
    neither(STANDALONE, BYTES(131, 97, 5), SIZE_MAX);
    neither(PAYLOAD, BYTES(97, 5, 106), 1);
    bits_are(STANDALONE, BYTES(131, 70, 63, 240, 0, 0, 0, 0, 0, 0), 0, 0x3ff0000000000000);
    bits_are(STANDALONE, BYTES(131, 70, 128, 0, 0, 0, 0, 0, 0, 0), 0, 0x8000000000000000);
    bits_are(PAYLOAD, BYTES(106, 70, 0, 0, 0, 0, 0, 0, 0, 1), 1, 1);
}

static void text_is(enum form form, const uint8_t *bytes, size_t size, size_t offset, unsigned from, unsigned start, unsigned length, unsigned mark)
{
    struct ik_text_reply a = (form == STANDALONE ? ik_text_standalone : ik_text_payload)(BOTH, lend_copy(bytes, size), size, LIST(three_texts()), offset);
    SAME(a.from, from);
    SAME(a.start, start);
    SAME(a.length, length);
    CHECK(guards_stand());
    struct ik_mark_reply b = (form == STANDALONE ? ik_mark_standalone : ik_mark_payload)(BOTH, lend_copy(bytes, size), size, LIST(three_texts()), offset);
    SAME(b.refusal, 0);
    SAME(b.place, 0);
    SAME(b.mark, mark);
    CHECK(guards_stand());
}

static void texts(void)
{
    text_is(STANDALONE, BYTES(131, 100, 0, 2, 'o', 'k'), 1, IK_FROM_MESSAGE, 4, 2, IK_MARK_LATIN1);
    text_is(STANDALONE, BYTES(131, 115, 1, 233), 1, IK_FROM_MESSAGE, 3, 1, IK_MARK_LATIN1);
    text_is(STANDALONE, BYTES(131, 118, 0, 2, 195, 169), 1, IK_FROM_MESSAGE, 4, 2, IK_MARK_UTF8);
    text_is(STANDALONE, BYTES(131, 104, 2, 97, 5, 119, 1, 'x'), 5, IK_FROM_MESSAGE, 7, 1, IK_MARK_UTF8);
    text_is(STANDALONE, BYTES(131, 82, 0), 1, IK_FROM_LIST, 0, 2, IK_MARK_UTF8);
    text_is(STANDALONE, BYTES(131, 88, 82, 1, 0, 0, 0, 1, 0, 0, 0, 2, 0, 0, 0, 3), 2, IK_FROM_LIST, 32, 2, IK_MARK_UTF8);
    text_is(PAYLOAD, BYTES(97, 5, 119, 1, 'x'), 2, IK_FROM_MESSAGE, 4, 1, IK_MARK_UTF8);
}

/* An empty text: nothing to take, and the mark tells it from a refusal. */
static void empty_texts(void)
{
    struct ik_text_reply a = ik_text_standalone(BOTH, BYTES(131, 119, 0), LIST(three_texts()), 1);
    SAME(a.length, 0);
    SAME(ik_mark_standalone(BOTH, BYTES(131, 119, 0), LIST(three_texts()), 1).mark, IK_MARK_UTF8);
    a = ik_text_standalone(BOTH, BYTES(131, 82, 2), LIST(three_texts()), 1);
    SAME(a.length, 0);
    SAME(ik_mark_standalone(BOTH, BYTES(131, 82, 2), LIST(three_texts()), 1).mark, IK_MARK_UTF8);
    CHECK(guards_stand());
}

static void refused_at(enum form form, const uint8_t *bytes, size_t size, struct list l, size_t at, unsigned refusal, unsigned place)
{
    struct ik_number_reply n = (form == STANDALONE ? ik_number_standalone : ik_number_payload)(BOTH, bytes, size, LIST(l), at);
    met[form] |= bit(n.refusal);
    SAME(n.refusal, refusal);
    SAME(n.place, place);
    SAME(n.kind, 0);
    SAME(n.integer, 0);
    CHECK(all(&n.real, 8, 0));
    struct ik_text_reply t = (form == STANDALONE ? ik_text_standalone : ik_text_payload)(BOTH, bytes, size, LIST(l), at);
    SAME(t.from, IK_FROM_NOWHERE);
    SAME(t.start, 0);
    SAME(t.length, 0);
    struct ik_mark_reply m = (form == STANDALONE ? ik_mark_standalone : ik_mark_payload)(BOTH, bytes, size, LIST(l), at);
    SAME(m.refusal, refusal);
    SAME(m.place, place);
    SAME(m.mark, 0);
    CHECK(guards_stand());
}

/* An accepted message, and an offset where none of its atoms' tags stands. */
static void no_atom(enum form form, const uint8_t *bytes, size_t size, size_t offset)
{
    struct ik_text_reply t = (form == STANDALONE ? ik_text_standalone : ik_text_payload)(BOTH, lend_copy(bytes, size), size, LIST(three_texts()), offset);
    SAME(t.from, IK_FROM_NOWHERE);
    SAME(t.start, 0);
    SAME(t.length, 0);
    struct ik_mark_reply m = (form == STANDALONE ? ik_mark_standalone : ik_mark_payload)(BOTH, lend_copy(bytes, size), size, LIST(three_texts()), offset);
    SAME(m.refusal, 4);
    SAME(m.place, offset);
    SAME(m.mark, 0);
    CHECK(guards_stand());
}

static void refused_message(enum form form, const uint8_t *bytes, size_t size, unsigned refusal, unsigned place)
{
    refused_at(form, bytes, size, three_texts(), 1, refusal, place);
}

int main(void)
{
    uint8_t *bytes = malloc(70000);
    struct list l;
    numbers();
    texts();
    empty_texts();
    no_atom(STANDALONE, BYTES(131, 109, 0, 0, 0, 3, 119, 1, 'x'), 6);
    no_atom(STANDALONE, BYTES(131, 82, 0), 0);
    no_atom(STANDALONE, BYTES(131, 82, 0), 2);
    no_atom(STANDALONE, BYTES(131, 82, 0), SIZE_MAX);
    no_atom(PAYLOAD, BYTES(97, 5), 0);
    each_refused(refused_message);
    for (int i = 0; i < 4; i++) {
        refused_at(STANDALONE, BYTES(131, 97, 5), list_of_wrong_size(i), 0, 13, 0);
        refused_at(PAYLOAD, BYTES(97, 5), list_of_wrong_size(i), 0, 13, 0);
    }
    l = three_texts(), l.lengths[0] = 33;
    refused_at(STANDALONE, BYTES(131, 82, 0), l, 1, 14, 0);
    l = three_texts(), l.lengths[0] = 33;
    refused_at(PAYLOAD, BYTES(82, 0), l, 1, 14, 0);
    size_t size = nested_tuples(bytes, 65);
    refused_at(STANDALONE, lend_copy(bytes, size), size, empty_list(), 0, 8, 129);
    refused_at(PAYLOAD, lend_copy(bytes + 1, size - 1), size - 1, empty_list(), 0, 8, 128);
    size = wide_tuple(bytes, 8192);
    refused_at(STANDALONE, lend_copy(bytes, size), size, empty_list(), 0, 9, 6 + 8191);
    refused_at(PAYLOAD, lend_copy(bytes + 1, size - 1), size - 1, empty_list(), 0, 9, 5 + 8191);
    refused_at(STANDALONE, lend_copy(bytes, 65537), 65537, empty_list(), 0, 12, 0);
    refused_at(PAYLOAD, lend_copy(bytes, 65537), 65537, empty_list(), 0, 12, 0);
    free(bytes);
    all_met(0);
    return ended("asking");
}
