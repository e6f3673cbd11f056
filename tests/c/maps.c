/* Maps have no order: their pairs are written in one order, however they came, and keys that differ in the order of pairs alone are equal. */
#include "made.h"

enum { MOST_KEYS = 4095 };

/* 131 and a map of n keys in an order, their values falling where they rise. */
static struct made map_in(uint8_t *memory, size_t n, size_t (*order)(size_t n, size_t i), void (*add_key)(struct made *m, size_t number))
{
    struct made m = {memory, 0};
    add(&m, BYTES(131));
    add_map(&m, n);
    for (size_t i = 0; i < n; i++) {
        size_t number = order(n, i);
        add_key(&m, number);
        add(&m, BYTES(97, (uint8_t)(255 - number)));
    }
    return m;
}

/* Keys in canonical form that rise with their numbers: written so in whatever order they come, also when written again. */
static void rise(size_t n, size_t rows, void (*add_key)(struct made *m, size_t number))
{
    static uint8_t message[ROOM], canonical[ROOM];
    struct made expected = map_in(canonical, n, rising, add_key);
    for (int i = 0; i < ORDERS; i++) {
        struct made m = map_in(message, n, orders[i], add_key);
        writes(STANDALONE, m.bytes, m.size, 1, rows, expected.bytes, expected.size);
        writes(PAYLOAD, m.bytes + 1, m.size - 1, 1, rows, expected.bytes, expected.size);
    }
}

/* One of each kind and tag, by rising bytes: not by numbers, lengths or Erlang's order. */
static const struct bytes by_bytes[] = {
    {BYTES(70, 0, 0, 0, 0, 0, 0, 0, 0)},
    {BYTES(70, 63, 240, 0, 0, 0, 0, 0, 0)},                                /* 1.0 */
    {BYTES(70, 128, 0, 0, 0, 0, 0, 0, 0)},                                 /* -0.0 */
    {BYTES(77, 0, 0, 0, 1, 1, 128)},
    {BYTES(77, 0, 0, 0, 1, 2, 64)},
    {BYTES(88, 119, 1, 'n', 0, 0, 0, 1, 0, 0, 0, 0, 0, 0, 0, 255)},
    {BYTES(88, 119, 1, 'n', 0, 0, 0, 1, 0, 0, 0, 0, 0, 0, 1, 0)},
    {BYTES(89, 119, 1, 'n', 0, 0, 0, 9, 0, 0, 0, 0)},
    {BYTES(90, 0, 1, 119, 1, 'n', 0, 0, 0, 0, 0, 0, 0, 7)},
    {BYTES(90, 0, 2, 119, 1, 'n', 0, 0, 0, 0, 0, 0, 0, 7, 0, 0, 0, 0)},
    {BYTES(97, 1)},
    {BYTES(97, 10)},
    {BYTES(97, 255)},
    {BYTES(98, 0, 0, 1, 0)},                                               /* 256 */
    {BYTES(98, 127, 255, 255, 255)},
    {BYTES(98, 128, 0, 0, 0)},
    {BYTES(98, 255, 255, 255, 255)},                                       /* -1 */
    {BYTES(104, 0)},
    {BYTES(104, 1, 119, 1, 'b')},
    {BYTES(104, 2, 97, 1, 97, 2)},
    {BYTES(104, 2, 97, 2, 97, 1)},
    {BYTES(106)},                                                          /* [] */
    {BYTES(107, 0, 1, 255)},
    {BYTES(107, 0, 2, 0, 0)},
    {BYTES(108, 0, 0, 0, 1, 97, 1, 97, 2)},
    {BYTES(108, 0, 0, 0, 1, 106, 106)},
    {BYTES(108, 0, 0, 0, 2, 106, 106, 106)},
    {BYTES(109, 0, 0, 0, 0)},
    {BYTES(109, 0, 0, 0, 1, 255)},
    {BYTES(109, 0, 0, 0, 2, 0, 0)},
    {BYTES(110, 4, 0, 0, 0, 0, 128)},
    {BYTES(110, 5, 0, 0, 0, 0, 0, 2)},                                     /* 2^33 */
    {BYTES(110, 5, 0, 1, 0, 0, 0, 1)},                                     /* 2^32 + 1 */
    {BYTES(110, 6, 0, 0, 0, 0, 0, 0, 1)},                                  /* 2^40 */
    {BYTES(113, 119, 1, 'm', 119, 1, 'f', 97, 2)},
    {BYTES(116, 0, 0, 0, 0)},
    {BYTES(116, 0, 0, 0, 1, 97, 2, 97, 1)},
    {BYTES(116, 0, 0, 0, 2, 97, 1, 97, 2, 97, 3, 97, 0)},
    {BYTES(116, 0, 0, 0, 2, 97, 1, 97, 3, 97, 2, 97, 0)},
    {BYTES(119, 0)},
    {BYTES(119, 1, 'b')},
    {BYTES(119, 2, 'a', 'a')},
    {BYTES(119, 2, 195, 169)},
    {BYTES(120, 119, 1, 'n', 0, 0, 0, 0, 16, 0, 0, 0, 0, 0, 0, 0)},
};
enum { BY_BYTES = sizeof by_bytes / sizeof *by_bytes };

static size_t chosen[2];
static void add_any(struct made *m, size_t number) { add(m, by_bytes[number].bytes, by_bytes[number].size); }
static void add_chosen(struct made *m, size_t number) { add_any(m, chosen[number]); }

/* An atom of 256 bytes (118), then one of 255 (119). */
static void add_long_atom(struct made *m, size_t number)
{
    if (number)
        add(m, BYTES(119, 255, 'a'));
    else
        add(m, BYTES(118, 1, 0, 195, 169));
    for (size_t i = 0; i < 127; i++)
        add(m, BYTES(195, 169));
}

static void order_by_bytes(void)
{
    rise(BY_BYTES, 200, add_any);
    for (chosen[0] = 0; chosen[0] < BY_BYTES; chosen[0]++)
        for (chosen[1] = chosen[0] + 1; chosen[1] < BY_BYTES; chosen[1]++)
            rise(2, 20, add_chosen);
    rise(2, 5, add_long_atom);
}

/* ---- many keys */

static void add_integer(struct made *m, size_t number) { add(m, BYTES(98, 0, 1, (uint8_t)(number >> 8), (uint8_t)number)); }
static void add_binary(struct made *m, size_t number) { add(m, BYTES(109, 0, 0, 0, 7, 'S', 'K', 'U', '-', 0, (uint8_t)(number >> 8), (uint8_t)number)); }
static void add_tuple(struct made *m, size_t number) { add(m, BYTES(104, 1, 98, 0, 1, (uint8_t)(number >> 8), (uint8_t)number)); }

/* 1,000 bytes, of which the last tells them apart. */
static void add_long_binary(struct made *m, size_t number)
{
    add(m, BYTES(109, 0, 0, 3, 232));
    memset(m->bytes + m->size, 'x', 999);
    m->size += 999;
    add(m, BYTES((uint8_t)number));
}

static void many_keys(void)
{
    rise(20, 41, add_long_binary);
    rise(MOST_KEYS, 1 + 2 * MOST_KEYS, add_integer);
    rise(MOST_KEYS, 1 + 2 * MOST_KEYS, add_binary);
    rise(2730, 1 + 3 * 2730, add_tuple); /* as many as 8,192 rows hold */
    for (size_t n = 2; n < 300; n++)
        rise(n, 1 + 2 * n, add_integer);
}

/* ---- keys that have another canonical form, hold maps, or both */

static void ranked_as_written(void)
{
    /* 9 and 200, though 98 is over 97 */
    writes(STANDALONE, BYTES(131, 116, 0, 0, 0, 2, 97, 200, 97, 1, 98, 0, 0, 0, 9, 97, 2), 1, 5, BYTES(131, 116, 0, 0, 0, 2, 97, 9, 97, 2, 97, 200, 97, 1));
    /* the texts of the list: "", ok, e acute; and an atom in Latin-1 */
    writes(STANDALONE, BYTES(131, 116, 0, 0, 0, 4, 82, 0, 97, 1, 82, 1, 97, 2, 115, 1, 'z', 97, 3, 82, 2, 97, 4), 1, 9,
           BYTES(131, 116, 0, 0, 0, 4, 119, 0, 97, 4, 119, 1, 'z', 97, 3, 119, 2, 'o', 'k', 97, 1, 119, 2, 195, 169, 97, 2));
    /* a list that is written as a string, and a list of length 0 before a key */
    writes(STANDALONE, BYTES(131, 116, 0, 0, 0, 2, 108, 0, 0, 0, 1, 97, 7, 106, 97, 1, 108, 0, 0, 0, 0, 97, 3, 97, 2), 1, 6,
           BYTES(131, 116, 0, 0, 0, 2, 97, 3, 97, 2, 107, 0, 1, 7, 97, 1));
    /* {3, 1} is ranked as {1, 3}, before {2, 2^9} */
    writes(STANDALONE, BYTES(131, 116, 0, 0, 0, 2, 116, 0, 0, 0, 2, 97, 2, 106, 98, 0, 0, 2, 0, 106, 97, 1, 116, 0, 0, 0, 2, 97, 3, 106, 97, 1, 106, 97, 2), 1, 13,
           BYTES(131, 116, 0, 0, 0, 2, 116, 0, 0, 0, 2, 97, 1, 106, 97, 3, 106, 97, 2, 116, 0, 0, 0, 2, 97, 2, 106, 98, 0, 0, 2, 0, 106, 97, 1));
    /* maps in tuples, in lists and in values are put in order too */
    writes(STANDALONE, BYTES(131, 104, 1, 108, 0, 0, 0, 1, 116, 0, 0, 0, 1, 106, 116, 0, 0, 0, 2, 97, 2, 97, 0, 97, 1, 97, 9, 106), 1, 9,
           BYTES(131, 104, 1, 108, 0, 0, 0, 1, 116, 0, 0, 0, 1, 106, 116, 0, 0, 0, 2, 97, 1, 97, 9, 97, 2, 97, 0, 106));
    /* both terms of a payload */
    writes(PAYLOAD, BYTES(116, 0, 0, 0, 2, 97, 2, 106, 97, 1, 106, 116, 0, 0, 0, 2, 97, 4, 106, 97, 3, 106), 2, 10,
           BYTES(131, 116, 0, 0, 0, 2, 97, 1, 106, 97, 2, 106, 131, 116, 0, 0, 0, 2, 97, 3, 106, 97, 4, 106));
}

/* ---- equal keys */

/* What stands before an inner term and after it; in the second of each two the pairs are turned round. */
static const struct { struct bytes before, after; } layers[][2] = {
    {{{BYTES(104, 2, 97, 9)}, {NOTHING}}, {{BYTES(105, 0, 0, 0, 2, 97, 9)}, {NOTHING}}},
    {{{BYTES(108, 0, 0, 0, 1)}, {BYTES(106)}}, {{BYTES(108, 0, 0, 0, 1)}, {BYTES(107, 0, 0)}}},
    {{{BYTES(108, 0, 0, 0, 1, 97, 9)}, {NOTHING}}, {{BYTES(108, 0, 0, 0, 1, 97, 9)}, {NOTHING}}},
    {{{BYTES(116, 0, 0, 0, 2, 97, 9, 106)}, {BYTES(106)}}, {{BYTES(116, 0, 0, 0, 2)}, {BYTES(106, 97, 9, 106)}}},
    {{{BYTES(116, 0, 0, 0, 2, 97, 9, 106, 97, 8)}, {NOTHING}}, {{BYTES(116, 0, 0, 0, 2, 97, 8)}, {BYTES(97, 9, 106)}}},
};
enum { LAYERS = sizeof layers / sizeof *layers, CHOSEN = 3, AS_KEY = 3, AS_VALUE = 4, ENOUGH_ROWS = 1000 };

static const struct bytes one = {BYTES(116, 0, 0, 0, 3, 97, 1, 97, 5, 97, 2, 97, 6, 97, 3, 97, 7)};
static const struct bytes same_pairs[] = {{BYTES(116, 0, 0, 0, 3, 97, 3, 97, 7, 97, 2, 97, 6, 97, 1, 97, 5)},
                                          {BYTES(116, 0, 0, 0, 3, 97, 2, 97, 6, 98, 0, 0, 0, 1, 97, 5, 97, 3, 110, 1, 0, 7)}};
static const struct bytes other_pairs[] = {{BYTES(116, 0, 0, 0, 3, 97, 3, 97, 7, 97, 2, 97, 6, 97, 1, 97, 4)},
                                           {BYTES(116, 0, 0, 0, 3, 97, 3, 97, 7, 97, 2, 97, 6, 97, 4, 97, 5)},
                                           {BYTES(116, 0, 0, 0, 3, 97, 3, 97, 5, 97, 2, 97, 6, 97, 1, 97, 7)},
                                           {BYTES(116, 0, 0, 0, 2, 97, 2, 97, 6, 97, 1, 97, 5)}};

/* A choice of CHOSEN layers, which take turns. */
static size_t choice_of(size_t a, size_t b, size_t c) { return a + LAYERS * (b + LAYERS * c); }

static size_t layer_at(size_t choice, size_t depth)
{
    for (size_t i = 0; i < depth % CHOSEN; i++)
        choice /= LAYERS;
    return choice % LAYERS;
}

/* The inner term in `depth` layers of a choice, their pairs as they are or turned. */
static void add_layered(struct made *m, size_t depth, size_t choice, int turned, struct bytes inner)
{
    if (depth == 0) {
        add(m, inner.bytes, inner.size);
        return;
    }
    size_t layer = layer_at(choice, depth);
    struct bytes before = layers[layer][turned].before, after = layers[layer][turned].after;
    add(m, before.bytes, before.size);
    add_layered(m, depth - 1, choice, turned, inner);
    add(m, after.bytes, after.size);
}

/* 131 and a map of two such keys; *later is where the later stands. */
static struct made two_keys(uint8_t *memory, size_t depth, size_t choice, struct bytes inner, size_t *later)
{
    struct made m = {memory, 0};
    add(&m, BYTES(131));
    add_map(&m, 2);
    add_layered(&m, depth, choice, 0, one);
    add(&m, BYTES(106));
    *later = m.size;
    add_layered(&m, depth, choice, 1, inner);
    add(&m, BYTES(106));
    return m;
}

/* By every call that reads. */
static void equal_keys(const uint8_t *bytes, size_t size, unsigned place)
{
    read_refused(STANDALONE, lend_copy(bytes, size), size, three_texts(), ENOUGH_ROWS, IK_KEY, place);
    read_refused(PAYLOAD, lend_copy(bytes + 1, size - 1), size - 1, three_texts(), ENOUGH_ROWS, IK_KEY, place - 1);
    write_refused(STANDALONE, lend_copy(bytes, size), size, three_texts(), ENOUGH_ROWS, IK_KEY, place);
    write_refused(PAYLOAD, lend_copy(bytes + 1, size - 1), size - 1, three_texts(), ENOUGH_ROWS, IK_KEY, place - 1);
    struct ik_number_reply n = ik_number_standalone(BOTH, lend_copy(bytes, size), size, LIST(three_texts()), 1);
    SAME(n.refusal, IK_KEY);
    SAME(n.place, place);
    struct ik_mark_reply m = ik_mark_standalone(BOTH, lend_copy(bytes, size), size, LIST(three_texts()), 1);
    SAME(m.refusal, IK_KEY);
    SAME(m.place, place);
    CHECK(guards_stand());
}

static void other_keys(const uint8_t *bytes, size_t size)
{
    SAME(read_into(STANDALONE, lend_copy(bytes, size), size, three_texts(), lend(8 * ENOUGH_ROWS, 0xa5), ENOUGH_ROWS).refusal, 0);
    SAME(write_to(STANDALONE, lend_copy(bytes, size), size, three_texts(), lend(8 * ENOUGH_ROWS, 0xa5), ENOUGH_ROWS, lend(size, 0x5a), size).refusal, 0);
    CHECK(guards_stand());
}

static void keys_in_layers(size_t depth, size_t choice)
{
    static uint8_t memory[ROOM];
    size_t later;
    for (size_t i = 0; i < sizeof same_pairs / sizeof *same_pairs; i++) {
        struct made m = two_keys(memory, depth, choice, same_pairs[i], &later);
        equal_keys(m.bytes, m.size, later);
        /* the key is judged before its value */
        equal_keys(m.bytes, m.size - 1, later);
    }
    for (size_t i = 0; i < sizeof other_pairs / sizeof *other_pairs; i++) {
        struct made m = two_keys(memory, depth, choice, other_pairs[i], &later);
        other_keys(m.bytes, m.size);
    }
}

static void equal_but_for_order(void)
{
    for (size_t choice = 0; choice < choice_of(0, 0, LAYERS); choice++)
        for (size_t depth = 0; depth <= CHOSEN; depth++)
            keys_in_layers(depth, choice);
    /* as deep as terms may be: 1 map, 61 layers, 1 map, its parts */
    keys_in_layers(IK_DEPTH_MOST - 3, choice_of(AS_KEY, AS_KEY, AS_KEY));
    keys_in_layers(IK_DEPTH_MOST - 3, choice_of(AS_VALUE, AS_VALUE, AS_VALUE));
    keys_in_layers(IK_DEPTH_MOST - 3, choice_of(AS_KEY, AS_VALUE, AS_KEY));
    /* the third of four keys equals the first */
    equal_keys(BYTES(131, 116, 0, 0, 0, 4, 116, 0, 0, 0, 2, 97, 1, 106, 97, 2, 106, 106, 97, 1, 106, 116, 0, 0, 0, 2, 97, 2, 106, 97, 1, 106, 106, 97, 2, 106), 21);
    /* a list of length 0 stands before the later key */
    equal_keys(BYTES(131, 116, 0, 0, 0, 2, 116, 0, 0, 0, 2, 97, 1, 106, 97, 2, 106, 106, 108, 0, 0, 0, 0, 116, 0, 0, 0, 2, 97, 2, 106, 97, 1, 106, 106), 18);
    /* equal keys in the later key come first */
    equal_keys(BYTES(131, 116, 0, 0, 0, 2, 116, 0, 0, 0, 2, 97, 1, 106, 97, 2, 106, 106, 116, 0, 0, 0, 2, 97, 1, 106, 97, 1, 106, 106), 26);
    equal_keys(BYTES(131, 116, 0, 0, 0, 2, 116, 0, 0, 0, 0, 106, 116, 0, 0, 0, 0, 106), 12);
    /* the order of tuples and lists tells keys apart, and 1 from 1.0, 0.0 from -0.0 */
    other_keys(BYTES(131, 116, 0, 0, 0, 4, 104, 2, 97, 1, 97, 2, 106, 104, 2, 97, 2, 97, 1, 106, 107, 0, 2, 1, 2, 106, 107, 0, 2, 2, 1, 106));
    other_keys(BYTES(131, 116, 0, 0, 0, 2, 116, 0, 0, 0, 2, 97, 1, 106, 97, 2, 106, 106, 116, 0, 0, 0, 2, 97, 2, 106, 70, 63, 240, 0, 0, 0, 0, 0, 0, 106, 106));
    other_keys(BYTES(131, 116, 0, 0, 0, 2, 116, 0, 0, 0, 2, 70, 0, 0, 0, 0, 0, 0, 0, 0, 106, 97, 2, 106, 106, 116, 0, 0, 0, 2, 97, 2, 106, 70, 128, 0, 0, 0, 0, 0, 0, 0, 106, 106));
}

/* ---- rows and numbers are where the bytes are */

static void number_is(const uint8_t *bytes, size_t size, size_t row, int64_t expected)
{
    struct ik_number_reply a = ik_number_standalone(BOTH, lend_copy(bytes, size), size, LIST(three_texts()), row);
    SAME(a.refusal, 0);
    SAME(a.kind, IK_NUMBER_WHOLE);
    SAME(a.integer, expected);
    CHECK(guards_stand());
}

static void rows_as_they_came(void)
{
    check_rows(STANDALONE, BYTES(131, 116, 0, 0, 0, 2, 97, 2, 104, 0, 97, 1, 97, 7),
               ROWS({IK_KIND_MAP, 1, 0, 4, 5}, {IK_KIND_INTEGER, 6, 1, 0, 1}, {IK_KIND_TUPLE, 8, 1, 0, 1}, {IK_KIND_INTEGER, 10, 1, 0, 1}, {IK_KIND_INTEGER, 12, 1, 0, 1}));
    check_rows(STANDALONE, BYTES(131, 116, 0, 0, 0, 2, 97, 1, 97, 7, 97, 2, 104, 0),
               ROWS({IK_KIND_MAP, 1, 0, 4, 5}, {IK_KIND_INTEGER, 6, 1, 0, 1}, {IK_KIND_INTEGER, 8, 1, 0, 1}, {IK_KIND_INTEGER, 10, 1, 0, 1}, {IK_KIND_TUPLE, 12, 1, 0, 1}));
    number_is(BYTES(131, 116, 0, 0, 0, 2, 97, 2, 97, 6, 97, 1, 97, 7), 1, 2);
    number_is(BYTES(131, 116, 0, 0, 0, 2, 97, 2, 97, 6, 97, 1, 97, 7), 4, 7);
    number_is(BYTES(131, 116, 0, 0, 0, 2, 97, 1, 97, 7, 97, 2, 97, 6), 1, 1);
    number_is(BYTES(131, 116, 0, 0, 0, 2, 97, 1, 97, 7, 97, 2, 97, 6), 4, 6);
    /* 9 is where the bytes are, too */
    read_refused(STANDALONE, lend_copy(BYTES(131, 116, 0, 0, 0, 2, 97, 2, 97, 6, 97, 1, 97, 7)), 14, three_texts(), 4, IK_ROWS, 12);
    write_refused(STANDALONE, lend_copy(BYTES(131, 116, 0, 0, 0, 2, 97, 2, 97, 6, 97, 1, 97, 7)), 14, three_texts(), 3, IK_ROWS, 10);
}

/* ---- memory that holds anything */

enum { JUNK = 600 };

static uint8_t junk(size_t seed, size_t i) { return (uint8_t)((seed + i) * (i + 31) >> 3); }

static uint8_t *lend_junk(size_t bytes, size_t seed)
{
    uint8_t *memory = lend(bytes, 0);
    for (size_t i = 0; i < bytes; i++)
        memory[i] = junk(seed, i);
    return memory;
}

static int is_junk(const uint8_t *memory, size_t from, size_t bytes, size_t seed)
{
    for (size_t i = from; i < bytes; i++)
        if (memory[i] != junk(seed, i))
            return 0;
    return 1;
}

/* Writes `n` keys, falling, over junk; `less` bytes of room too few where that is over 0. */
static void over_junk(size_t n, size_t seed, size_t less)
{
    static uint8_t message[ROOM], canonical[ROOM];
    struct made expected = map_in(canonical, n, rising, add_tuple), m = map_in(message, n, falling, add_tuple);
    size_t rows = 1 + 3 * n, room = less ? expected.size - less : expected.size + JUNK, written = less ? 0 : expected.size;
    uint64_t *scratch = (uint64_t *)lend_junk(8 * (rows + 5), seed + 1);
    uint8_t *output = lend_junk(room, seed);
    struct ik_write_reply a = write_to(STANDALONE, lend_copy(m.bytes, m.size), m.size, three_texts(), scratch, rows + 5, output, room);
    SAME(a.refusal, less ? IK_OUTPUT : 0);
    SAME(a.length, written);
    CHECK(memcmp(output, expected.bytes, written) == 0);
    CHECK(is_junk(output, written, room, seed));
    CHECK(all(scratch, 8 * (rows + 5), 0));
    CHECK(guards_stand());
}

static void memory_with_junk(void)
{
    static const size_t counts[] = {2, 3, 40, 84, 85, 86, 700}; /* about 256 rows the library takes other memory */
    for (size_t k = 0; k < sizeof counts / sizeof *counts; k++)
        for (size_t seed = 0; seed < 5; seed++) {
            over_junk(counts[k], seed, 0);
            over_junk(counts[k], seed, 1);
            over_junk(counts[k], seed, counts[k]);
        }
}

int main(void)
{
    order_by_bytes();
    many_keys();
    ranked_as_written();
    equal_but_for_order();
    rows_as_they_came();
    memory_with_junk();
    return ended("maps");
}
