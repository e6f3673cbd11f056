/* Lists of 8,191 elements, the most that 8,192 rows hold, in every layout: read and written. */
#include "messages.h"

enum layout { STRING, ELEMENTS, JOINED, JOINED_STRING, LAYOUTS };

/* Neither two neighbours nor two that are 256 apart are alike. */
static uint8_t character(size_t i) { return (uint8_t)(i + i / 256); }

/* A tag, and a number in so many bytes after it. */
static size_t put(uint8_t *to, uint8_t tag, size_t width, size_t number)
{
    to[0] = tag;
    for (size_t i = 0; i < width; i++)
        to[1 + i] = (uint8_t)(number >> 8 * (width - 1 - i));
    return 1 + width;
}

/* The list of n characters: by a 107, by a 108, by joined 108s of one element each, by a 108 and a 107 for its tail.
 * 9 for its last element is judged at `last`. */
static size_t characters(uint8_t *to, enum layout layout, size_t n, size_t *last)
{
    size_t size = 0, strung = layout == STRING ? n : layout == JOINED_STRING ? n / 2 : 0;
    for (size_t i = 0; i < n - strung; i++) {
        if (i == 0 || layout == JOINED)
            size += put(to + size, 108, 4, layout == JOINED ? 1 : n - strung);
        *last = size;
        size += put(to + size, 97, 1, character(i));
    }
    if (strung == 0) {
        to[size] = 106;
        return size + 1;
    }
    *last = size;
    size += put(to + size, 107, 2, strung);
    for (size_t i = n - strung; i < n; i++)
        to[size++] = character(i);
    return size;
}

struct answer { unsigned refusal; size_t place; unsigned terms; size_t rows; const uint8_t *canonical; size_t length; };
enum { ROOM = 65536 };

/* Reads the message into a table, then writes it with the same words for scratch: with 8,192 of them and with more. */
static void answered(enum form form, const uint8_t *bytes, size_t size, struct answer expected)
{
    for (size_t rows = 8192; rows <= 9000; rows += 808) {
        uint64_t *table = lend(8 * rows, 0xa5);
        uint8_t *output = lend(ROOM, 0x5a);
        const uint8_t *lent = lend_copy(bytes, size);
        struct list list = empty_list();
        struct ik_read_reply r = (form == STANDALONE ? ik_read_standalone : ik_read_payload)(BOTH, lent, size, LIST(list), table, rows);
        SAME(r.refusal, expected.refusal);
        SAME(r.place, expected.place);
        SAME(r.terms, expected.terms);
        SAME(r.rows, expected.rows);
        CHECK(all(table + expected.rows, 8 * (rows - expected.rows), 0));
        struct ik_write_reply w = (form == STANDALONE ? ik_write_standalone : ik_write_payload)(BOTH, lent, size, LIST(list), table, rows, output, ROOM);
        SAME(w.refusal, expected.refusal);
        SAME(w.place, expected.place);
        SAME(w.terms, expected.terms);
        SAME(w.length, expected.length);
        CHECK(memcmp(output, expected.canonical, expected.length) == 0);
        CHECK(all(output + expected.length, ROOM - expected.length, 0x5a));
        CHECK(all(table, 8 * rows, 0));
        CHECK(guards_stand());
    }
}

static void accepted(enum form form, const uint8_t *bytes, size_t size, unsigned terms, const uint8_t *canonical, size_t length)
{
    answered(form, bytes, size, (struct answer){0, 0, terms, 8192, canonical, length});
}

static void no_row(enum form form, const uint8_t *bytes, size_t size, size_t place)
{
    answered(form, bytes, size, (struct answer){9, place, 0, 0, bytes, 0});
}

static uint8_t message[70000], canonical[70000];

/* Both begin with 131; the term stands after it, or for a payload in its place. */
static size_t front(enum form form)
{
    canonical[0] = message[0] = 131;
    return form == STANDALONE;
}

static void proper(enum form form, enum layout layout)
{
    size_t last, base = front(form), size = characters(message + base, layout, 8191, &last);
    size_t length = 1 + characters(canonical + 1, STRING, 8191, &(size_t){0});
    accepted(form, message, base + size, 1, canonical, length);
    size = characters(message + base, layout, 8192, &last);
    no_row(form, message, base + size, base + last);
}

/* In a tuple a list has one row less. */
static void in_tuple(enum form form, enum layout layout)
{
    size_t last, base = front(form);
    base += put(message + base, 104, 1, 1);
    size_t size = characters(message + base, layout, 8190, &last), length = 1 + put(canonical + 1, 104, 1, 1);
    length += characters(canonical + length, STRING, 8190, &(size_t){0});
    accepted(form, message, base + size, 1, canonical, length);
    size = characters(message + base, layout, 8191, &last);
    no_row(form, message, base + size, base + last);
}

/* Beside the other term of a payload too, before it and after it. */
static void in_payload(enum layout layout)
{
    size_t last, size = characters(message, layout, 8190, &last), length = 1 + characters(canonical + 1, STRING, 8190, &(size_t){0});
    message[size] = canonical[length + 1] = 106;
    canonical[0] = canonical[length] = 131;
    accepted(PAYLOAD, message, size + 1, 2, canonical, length + 2);
    size = characters(message, layout, 8191, &last);
    message[size] = 106;
    no_row(PAYLOAD, message, size + 1, size);
    message[0] = 106;
    size = characters(message + 1, layout, 8191, &last);
    no_row(PAYLOAD, message, 1 + size, 1 + last);
}

/* An improper tail makes it a 108, and has a row. */
static void improper(enum form form, enum layout layout)
{
    static const uint8_t tail[] = {97, 5};
    size_t last, base = front(form), size = base + characters(message + base, layout, 8190, &last) - 1;
    size_t length = characters(canonical + 1, ELEMENTS, 8190, &last);
    memcpy(message + size, tail, sizeof tail);
    memcpy(canonical + length, tail, sizeof tail);
    accepted(form, message, size + sizeof tail, 1, canonical, length + sizeof tail);
    size = base + characters(message + base, layout, 8191, &last) - 1;
    memcpy(message + size, tail, sizeof tail);
    no_row(form, message, size + sizeof tail, size);
}

/* So does one element that is no character, wherever it stands. */
static void one_wide(enum form form, size_t wide)
{
    size_t base = front(form), size = 1 + put(canonical + 1, 108, 4, 8191);
    for (size_t i = 0; i < 8191; i++)
        size += i == wide ? put(canonical + size, 98, 4, 256) : put(canonical + size, 97, 1, character(i));
    canonical[size++] = 106;
    accepted(form, canonical + 1 - base, size - 1 + base, 1, canonical, size);
}

int main(void)
{
    for (enum form form = STANDALONE; form <= PAYLOAD; form++) {
        for (enum layout layout = STRING; layout < LAYOUTS; layout++) {
            proper(form, layout);
            in_tuple(form, layout);
        }
        improper(form, ELEMENTS);
        improper(form, JOINED);
        one_wide(form, 0);
        one_wide(form, 4000);
        one_wide(form, 8190);
    }
    for (enum layout layout = STRING; layout < LAYOUTS; layout++)
        in_payload(layout);
    return ended("lists");
}
