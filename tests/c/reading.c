/* ik_read_standalone, ik_read_payload, and the accessors of a row. */
#include "answers.h"

/* A message from its byte `skip` on. */
static void reads(const struct message *m, enum form form, size_t skip)
{
    unsigned long before = failed;
    uint64_t *table = lend(8 * 100, 0xa5);
    struct ik_read_reply a = read_into(form, lend_copy(m->bytes + skip, m->size - skip), m->size - skip, three_texts(), table, 100);
    SAME(a.refusal, m->refusal);
    SAME(a.place, m->refusal ? m->place - skip : 0);
    SAME(a.terms, m->terms);
    SAME(a.rows, m->rows);
    for (unsigned k = 0; k < m->rows; k++)
        CHECK(ik_row_kind(table[k]) != IK_KIND_NONE);
    CHECK(all(table + m->rows, 8 * (100 - m->rows), 0));
    CHECK(guards_stand());
    if (failed != before)
        printf("  in: %s\n", m->name);
}

static void each_message(void)
{
    for (int i = 0; i < MESSAGES; i++) {
        reads(&messages[i], messages[i].form, 0);
        if (also_payload(&messages[i]))
            reads(&messages[i], PAYLOAD, 1);
    }
}

static void rows_of_each_kind(void)
{
    check_rows(STANDALONE, BYTES(131, 104, 2, 97, 7, 106), ROWS({IK_KIND_TUPLE, 1, 0, 2, 3}, {IK_KIND_INTEGER, 3, 1, 0, 1}, {IK_KIND_LIST, 5, 1, 0, 1}));
    check_rows(STANDALONE, BYTES(131, 107, 0, 2, 7, 8), ROWS({IK_KIND_LIST, 1, 0, 2, 3}, {IK_KIND_CHARACTER, 4, 1, 0, 1}, {IK_KIND_CHARACTER, 5, 1, 0, 1}));
    check_rows(STANDALONE, BYTES(131, 107, 0, 0), ROWS({IK_KIND_LIST, 1, 0, 0, 1}));
    check_rows(STANDALONE, BYTES(131, 108, 0, 0, 0, 1, 97, 7, 97, 8), ROWS({IK_KIND_IMPROPER, 1, 0, 2, 3}, {IK_KIND_INTEGER, 6, 1, 0, 1}, {IK_KIND_INTEGER, 8, 1, 0, 1}));
    check_rows(STANDALONE, BYTES(131, 108, 0, 0, 0, 1, 97, 7, 107, 0, 1, 9), ROWS({IK_KIND_LIST, 1, 0, 2, 3}, {IK_KIND_INTEGER, 6, 1, 0, 1}, {IK_KIND_CHARACTER, 11, 1, 0, 1}));
    check_rows(STANDALONE, BYTES(131, 108, 0, 0, 0, 0, 97, 5), ROWS({IK_KIND_INTEGER, 6, 0, 0, 1}));
    check_rows(STANDALONE, BYTES(131, 70, 63, 240, 0, 0, 0, 0, 0, 0), ROWS({IK_KIND_FLOAT, 1, 0, 0, 1}));
    check_rows(STANDALONE, BYTES(131, 109, 0, 0, 0, 2, 1, 2), ROWS({IK_KIND_BINARY, 1, 0, 0, 1}));
    check_rows(STANDALONE, BYTES(131, 77, 0, 0, 0, 1, 8, 191), ROWS({IK_KIND_BINARY, 1, 0, 0, 1}));
    check_rows(STANDALONE, BYTES(131, 77, 0, 0, 0, 1, 3, 191), ROWS({IK_KIND_BITSTRING, 1, 0, 0, 1}));
    check_rows(STANDALONE, BYTES(131, 116, 0, 0, 0, 1, 97, 1, 104, 1, 106), ROWS({IK_KIND_MAP, 1, 0, 2, 4}, {IK_KIND_INTEGER, 6, 1, 0, 1}, {IK_KIND_TUPLE, 8, 1, 1, 2}, {IK_KIND_LIST, 10, 3, 0, 1}));
    check_rows(STANDALONE, BYTES(131, 103, 82, 0, 0, 0, 0, 1, 0, 0, 0, 2, 3), ROWS({IK_KIND_PID, 1, 0, 1, 2}, {IK_KIND_ATOM, 2, 1, 0, 1}));
    check_rows(STANDALONE, BYTES(131, 120, 82, 0, 0, 0, 0, 0, 0, 0, 0, 1, 0, 0, 0, 2), ROWS({IK_KIND_PORT, 1, 0, 1, 2}, {IK_KIND_ATOM, 2, 1, 0, 1}));
    check_rows(STANDALONE, BYTES(131, 101, 82, 0, 0, 0, 0, 1, 3), ROWS({IK_KIND_REFERENCE, 1, 0, 1, 2}, {IK_KIND_ATOM, 2, 1, 0, 1}));
    check_rows(STANDALONE, BYTES(131, 113, 82, 0, 115, 1, 'f', 97, 2), ROWS({IK_KIND_EXPORT, 1, 0, 3, 4}, {IK_KIND_ATOM, 2, 1, 0, 1}, {IK_KIND_ATOM, 4, 1, 0, 1}, {IK_KIND_INTEGER, 7, 1, 0, 1}));
    check_rows(PAYLOAD, BYTES(104, 1, 106, 104, 1, 82, 0), ROWS({IK_KIND_TUPLE, 0, 0, 1, 2}, {IK_KIND_LIST, 2, 1, 0, 1}, {IK_KIND_TUPLE, 3, 0, 1, 2}, {IK_KIND_ATOM, 5, 3, 0, 1}));
}

static void limits(void)
{
    uint8_t *bytes = malloc(70000);
    uint64_t *table;
    struct ik_read_reply a;
    size_t size = nested_tuples(bytes, 64);
    table = lend(8 * 64, 0xa5);
    a = read_into(STANDALONE, lend_copy(bytes, size), size, empty_list(), table, 64);
    SAME(a.refusal, 0);
    SAME(a.rows, 64);
    CHECK(guards_stand());
    size = nested_tuples(bytes, 65);
    read_refused(STANDALONE, lend_copy(bytes, size), size, empty_list(), 8192, 8, 129);
    read_refused(PAYLOAD, lend_copy(bytes + 1, size - 1), size - 1, empty_list(), 8192, 8, 128);
    read_refused(STANDALONE, lend_copy(bytes, size), size, empty_list(), 63, 9, 127);
    read_refused(PAYLOAD, lend_copy(bytes + 1, size - 1), size - 1, empty_list(), 63, 9, 126);
    read_refused(STANDALONE, lend_copy(bytes, size), size, empty_list(), 0, 9, 1);
    size = wide_tuple(bytes, 8191);
    table = lend(8 * 9000, 0xa5);
    a = read_into(STANDALONE, lend_copy(bytes, size), size, empty_list(), table, 9000);
    SAME(a.refusal, 0);
    SAME(a.rows, 8192);
    SAME(ik_row_parts(table[0]), 8191);
    SAME(ik_row_size(table[0]), 8192);
    SAME(ik_row_offset(table[8191]), 6 + 8190);
    CHECK(all(table + 8192, 8 * (9000 - 8192), 0));
    CHECK(guards_stand());
    size = wide_tuple(bytes, 8192);
    read_refused(STANDALONE, lend_copy(bytes, size), size, empty_list(), 9000, 9, 6 + 8191);
    memset(bytes, 0, 70000);
    const uint8_t binary[] = {131, 109, 0, 0, 255, 250};
    memcpy(bytes, binary, sizeof binary);
    a = read_into(STANDALONE, lend_copy(bytes, 65536), 65536, empty_list(), lend(8, 0xa5), 1);
    SAME(a.refusal, 0);
    SAME(a.rows, 1);
    CHECK(guards_stand());
    read_refused(STANDALONE, lend_copy(bytes, 65537), 65537, empty_list(), 10, 12, 0);
    read_refused(PAYLOAD, lend_copy(bytes + 1, 65537), 65537, empty_list(), 10, 12, 0);
    bytes[0] = 130;
    read_refused(STANDALONE, lend_copy(bytes, 65537), 65537, empty_list(), 10, 12, 0);
    bytes[0] = 131, bytes[1] = 100, bytes[2] = 1, bytes[3] = 0; /* 256 characters */
    read_refused(STANDALONE, lend_copy(bytes, 260), 260, empty_list(), 10, 5, 4 + IK_CHARACTERS_MOST);
    free(bytes);
}

/* A map of `count` pairs: the keys are 0, step, 2 * step, .. as tag 98, but the last is that of the pair `as`, as tag 110; the values are []. */
static size_t map_of_integers(uint8_t *bytes, unsigned count, unsigned step, unsigned as)
{
    size_t size = 0;
    const uint8_t first[] = {131, 116, 0, 0, (uint8_t)(count >> 8), (uint8_t)count};
    memcpy(bytes, first, sizeof first), size += sizeof first;
    for (unsigned i = 0; i + 1 < count; i++) {
        unsigned k = i * step;
        const uint8_t pair[] = {98, (uint8_t)(k >> 24), (uint8_t)(k >> 16), (uint8_t)(k >> 8), (uint8_t)k, 106};
        memcpy(bytes + size, pair, sizeof pair), size += sizeof pair;
    }
    unsigned k = as * step;
    const uint8_t last[] = {110, 4, 0, (uint8_t)k, (uint8_t)(k >> 8), (uint8_t)(k >> 16), (uint8_t)(k >> 24), 106};
    memcpy(bytes + size, last, sizeof last);
    return size + sizeof last;
}

static void keys_of_map(unsigned count, unsigned step)
{
    uint8_t *bytes = malloc(70000);
    size_t size = map_of_integers(bytes, count, step, count - 1);
    uint64_t *table = lend(8 * 8192, 0xa5);
    struct ik_read_reply a = read_into(STANDALONE, lend_copy(bytes, size), size, empty_list(), table, 8192);
    SAME(a.refusal, 0);
    SAME(a.rows, 1 + 2 * count);
    SAME(ik_row_parts(table[0]), 2 * count);
    CHECK(guards_stand());
    const unsigned earlier[] = {0, (count - 1) / 2, count - 2};
    for (int i = 0; i < 3; i++) {
        size = map_of_integers(bytes, count, step, earlier[i]);
        read_refused(STANDALONE, lend_copy(bytes, size), size, empty_list(), 8192, 7, 6 * count);
    }
    free(bytes);
}

/* Both sides of 1,024 bytes, and as many keys as there is room for; 65,521 apart they have the same hash. */
static void keys(void)
{
    const unsigned counts[] = {2, 169, 170, 4095}, steps[] = {1, 257, 8192, 65521};
    for (int i = 0; i < 4; i++)
        for (int j = 0; j < 4; j++)
            keys_of_map(counts[i], steps[j]);
}

static void lists(void)
{
    struct list l;
    for (int i = 0; i < 4; i++) {
        read_refused(STANDALONE, BYTES(131, 97, 5), list_of_wrong_size(i), 10, 13, 0);
        read_refused(PAYLOAD, BYTES(97, 5), list_of_wrong_size(i), 10, 13, 0);
    }
    l = list_of_wrong_size(0);
    read_refused(STANDALONE, lend(65537, 1), 65537, l, 10, 13, 0);
    read_refused(STANDALONE, BYTES(131, 82, 0), empty_list(), 10, 6, 1);
    l = three_texts(), l.lengths[1] = 33;
    read_refused(STANDALONE, BYTES(131, 104, 1, 82, 1), l, 10, 14, 0);
    l = three_texts(), l.lengths[1] = 65535;
    read_refused(STANDALONE, BYTES(131, 82, 1), l, 10, 14, 0);
    l = three_texts(), l.lengths[1] = 1; /* half a character */
    read_refused(PAYLOAD, BYTES(82, 1), l, 10, 14, 0);
    l = three_texts(), l.lengths[1] = 33; /* a place that is not asked for */
    CHECK(read_into(STANDALONE, BYTES(131, 82, 0), l, lend(8, 1), 1).refusal == 0);
    CHECK(guards_stand());
}

int main(void)
{
    each_message();
    rows_of_each_kind();
    limits();
    keys();
    lists();
    all_met(0);
    return ended("reading");
}
