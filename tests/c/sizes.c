/* Reading and asking around the sizes of messages at which the library takes other memory of its own (docs/STACK.md): a message of every
 * size near them, with answers by construction. */
#include "messages.h"

static uint8_t bytes[IK_MESSAGE_MOST];
static uint64_t table[IK_ROWS_MOST];

/* A message as a standalone term, and without its 131 as a payload, which answers the same one byte earlier. */
struct asked { enum form form; const uint8_t *bytes; size_t size, earlier; };

static struct asked in_form(enum form form, size_t size)
{
    size_t earlier = form == PAYLOAD;
    return (struct asked){form, lend_copy(bytes + earlier, size - earlier), size - earlier, earlier};
}

static struct ik_read_reply read_it(struct asked a)
{
    return (a.form == STANDALONE ? ik_read_standalone : ik_read_payload)(BOTH, a.bytes, a.size, LIST(three_texts()), table, IK_ROWS_MOST);
}
static struct ik_number_reply number_it(struct asked a, size_t row)
{
    return (a.form == STANDALONE ? ik_number_standalone : ik_number_payload)(BOTH, a.bytes, a.size, LIST(three_texts()), row);
}
static struct ik_text_reply text_it(struct asked a, size_t offset)
{
    return (a.form == STANDALONE ? ik_text_standalone : ik_text_payload)(BOTH, a.bytes, a.size, LIST(three_texts()), offset - a.earlier);
}
static struct ik_mark_reply mark_it(struct asked a, size_t offset)
{
    return (a.form == STANDALONE ? ik_mark_standalone : ik_mark_payload)(BOTH, a.bytes, a.size, LIST(three_texts()), offset - a.earlier);
}

static size_t put(uint8_t *to, const uint8_t *from, size_t count) { return memcpy(to, from, count), count; }

/* A tuple of so many empty lists that it takes `size` bytes with the 200 and the atom x at its end; 8 bytes have no row of their own. */
static void tuple_of(size_t size)
{
    size_t rows = size - 8;
    wide_tuple(bytes, (uint32_t)(size - 11));
    bytes[4] = (uint8_t)((rows - 1) >> 8), bytes[5] = (uint8_t)(rows - 1);
    put(bytes + size - 5, BYTES(97, 200, 119, 1, 'x'));
    for (enum form form = STANDALONE; form <= PAYLOAD; form++) {
        struct asked a = in_form(form, size);
        SAME(read_it(a).refusal, 0);
        SAME(read_it(a).rows, rows);
        SAME(number_it(a, rows - 2).integer, 200);
        SAME(number_it(a, rows - 1).kind, IK_NUMBER_NEITHER);
        SAME(number_it(a, rows).kind, IK_NUMBER_NEITHER);
        SAME(text_it(a, size - 3).start, size - 1 - a.earlier);
        SAME(text_it(a, size - 3).length, 1);
        SAME(mark_it(a, size - 3).mark, IK_MARK_UTF8);
        SAME(mark_it(a, size - 2).refusal, IK_FIELD);
        SAME(mark_it(a, size - 2).place, size - 2 - a.earlier);
        CHECK(guards_stand());
    }
}

/* A 107 of so many characters that it takes `size` bytes: a row for each but four, and one for the list. */
static void string_of(size_t size)
{
    size_t count = size - 4;
    memset(bytes + put(bytes, BYTES(131, 107, (uint8_t)(count >> 8), (uint8_t)count)), 7, count);
    bytes[size - 1] = 9;
    for (enum form form = STANDALONE; form <= PAYLOAD; form++) {
        struct asked a = in_form(form, size);
        SAME(read_it(a).rows, count + 1);
        SAME(number_it(a, count).integer, 9);
        CHECK(guards_stand());
    }
}

/* Key i, each another, the shortest first: 256 of 2 bytes, 128 of 3, 128 of 6, then of 5. */
static size_t put_key(uint8_t *to, size_t i)
{
    if (i < 256)
        return put(to, BYTES(97, (uint8_t)i));
    if (i < 384)
        return put(to, BYTES(119, 1, (uint8_t)(i % 128)));
    if (i < 512)
        return put(to, BYTES(109, 0, 0, 0, 1, (uint8_t)i));
    return put(to, BYTES(98, 0, (uint8_t)(i >> 16), (uint8_t)(i >> 8), (uint8_t)i));
}

/* A map of as many keys as `size` bytes hold, its values empty lists: all keys differ; or the last is the first one again, which is refused there. */
static void map_of(size_t size, int again)
{
    size_t at = 6, last = 6, count = 0;
    while (at + 7 <= size && count < 4095)
        last = at, at += put_key(bytes + at, count++), bytes[at++] = 106;
    if (again)
        at = last + put_key(bytes + last, 0), bytes[at++] = 106;
    put(bytes, BYTES(131, 116, 0, 0, (uint8_t)(count >> 8), (uint8_t)count));
    for (enum form form = STANDALONE; form <= PAYLOAD; form++) {
        struct asked a = in_form(form, at);
        struct ik_read_reply r = read_it(a);
        struct ik_number_reply n = number_it(a, 1);
        SAME(r.refusal, again ? IK_KEY : 0);
        SAME(r.place, again ? last - a.earlier : 0);
        SAME(r.rows, again ? 0 : 2 * count + 1);
        SAME(n.refusal, r.refusal);
        SAME(n.place, r.place);
        SAME(mark_it(a, 1).refusal, again ? IK_KEY : IK_FIELD);
        CHECK(guards_stand());
    }
}

int main(void)
{
    static const size_t around[] = {16, 256, 1024, 2048, 8192};
    for (size_t k = 0; k < sizeof around / sizeof *around; k++)
        for (size_t size = around[k] - 4; size <= around[k] + 4; size++) {
            tuple_of(size);
            string_of(size < 8196 ? size : 8195);
            map_of(size + 2, 0);
            map_of(size + 8, 1);
        }
    map_of(IK_MESSAGE_MOST, 0);
    map_of(IK_MESSAGE_MOST, 1);
    return ended("sizes");
}
