/* Reading and writing, with the answers that they are to have, on memory between guard bytes. */
#ifndef ANSWERS_H
#define ANSWERS_H

#include "messages.h"

static inline struct ik_read_reply read_into(enum form form, const uint8_t *bytes, size_t size, struct list l, uint64_t *table, size_t rows)
{
    struct ik_read_reply a = (form == STANDALONE ? ik_read_standalone : ik_read_payload)(BOTH, bytes, size, LIST(l), table, rows);
    met[form] |= bit(a.refusal);
    return a;
}

struct row { unsigned kind, offset, whole, parts, size; }; /* whole: the row plus 1, or 0 */

static inline void check_rows(enum form form, const uint8_t *bytes, size_t size, const struct row *rows, size_t count)
{
    uint64_t *table = lend(8 * 32, 0xa5);
    struct ik_read_reply a = read_into(form, lend_copy(bytes, size), size, three_texts(), table, 32);
    SAME(a.refusal, 0);
    SAME(a.rows, count);
    for (size_t i = 0; i < count; i++) {
        SAME(ik_row_kind(table[i]), rows[i].kind);
        SAME(ik_row_offset(table[i]), rows[i].offset);
        SAME(ik_row_whole(table[i]), rows[i].whole ? rows[i].whole - 1 : IK_NO_WHOLE);
        SAME(ik_row_parts(table[i]), rows[i].parts);
        SAME(ik_row_size(table[i]), rows[i].size);
        SAME(table[i] >> 61, 0);
    }
    CHECK(all(table + count, 8 * (32 - count), 0));
    CHECK(guards_stand());
}

#define ROWS(...) (const struct row[]){__VA_ARGS__}, sizeof((const struct row[]){__VA_ARGS__}) / sizeof(struct row)

static inline void read_refused(enum form form, const uint8_t *bytes, size_t size, struct list l, size_t rows, unsigned refusal, unsigned place)
{
    uint64_t *table = lend(8 * rows, 0xa5);
    struct ik_read_reply a = read_into(form, bytes, size, l, table, rows);
    SAME(a.refusal, refusal);
    SAME(a.place, place);
    SAME(a.terms, 0);
    SAME(a.rows, 0);
    CHECK(all(table, 8 * rows, 0));
    CHECK(guards_stand());
}

static inline struct ik_write_reply write_to(enum form form, const uint8_t *bytes, size_t size, struct list l, uint64_t *scratch, size_t rows, uint8_t *output, size_t room)
{
    struct ik_write_reply a = (form == STANDALONE ? ik_write_standalone : ik_write_payload)(BOTH, bytes, size, LIST(l), scratch, rows, output, room);
    met[form] |= bit(a.refusal);
    return a;
}

/* The output with exactly enough room, with more, and with one byte less. */
static inline void writes(enum form form, const uint8_t *bytes, size_t size, unsigned terms, size_t rows, const uint8_t *canonical, size_t length)
{
    for (size_t more = 0; more < 2; more++) {
        uint64_t *scratch = lend(8 * (rows + more), 0xa5);
        uint8_t *output = lend(length + 10 * more, 0x5a);
        struct ik_write_reply a = write_to(form, lend_copy(bytes, size), size, three_texts(), scratch, rows + more, output, length + 10 * more);
        SAME(a.refusal, 0);
        SAME(a.place, 0);
        SAME(a.terms, terms);
        SAME(a.length, length);
        CHECK(memcmp(output, canonical, length) == 0);
        CHECK(all(output + length, 10 * more, 0x5a));
        CHECK(all(scratch, 8 * (rows + more), 0));
        CHECK(guards_stand());
    }
    uint64_t *scratch = lend(8 * rows, 0xa5);
    uint8_t *output = lend(length - 1, 0x5a);
    struct ik_write_reply a = write_to(form, lend_copy(bytes, size), size, three_texts(), scratch, rows, output, length - 1);
    SAME(a.refusal, 11);
    SAME(a.place, 0);
    SAME(a.terms, 0);
    SAME(a.length, 0);
    CHECK(all(output, length - 1, 0x5a));
    CHECK(all(scratch, 8 * rows, 0));
    CHECK(guards_stand());
}

static inline void write_refused(enum form form, const uint8_t *bytes, size_t size, struct list l, size_t rows, unsigned refusal, unsigned place)
{
    uint64_t *scratch = lend(8 * rows, 0xa5);
    uint8_t *output = lend(1000, 0x5a);
    struct ik_write_reply a = write_to(form, bytes, size, l, scratch, rows, output, 1000);
    SAME(a.refusal, refusal);
    SAME(a.place, place);
    SAME(a.terms, 0);
    SAME(a.length, 0);
    CHECK(all(output, 1000, 0x5a));
    CHECK(all(scratch, 8 * rows, 0));
    CHECK(guards_stand());
}

#endif
