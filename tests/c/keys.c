/* Keys that meet in their hashes, and keys that are large maps in another order: equal ones are refused at the later, others taken. */
#include "made.h"

enum { ENOUGH_ROWS = IK_ROWS_MOST };

/* A map whose later key, at an offset, equals an earlier one. */
static void equal_at(const struct made *m, size_t later)
{
    read_refused(STANDALONE, lend_copy(m->bytes, m->size), m->size, three_texts(), ENOUGH_ROWS, IK_KEY, later);
    read_refused(PAYLOAD, lend_copy(m->bytes + 1, m->size - 1), m->size - 1, three_texts(), ENOUGH_ROWS, IK_KEY, later - 1);
}

static void taken(const struct made *m)
{
    SAME(read_into(STANDALONE, lend_copy(m->bytes, m->size), m->size, three_texts(), lend(8 * ENOUGH_ROWS, 0xa5), ENOUGH_ROWS).refusal, 0);
    CHECK(guards_stand());
}

/* ---- two keys that are maps of n pairs */

/* A number in four bytes, or in digits. */
static void add_number(struct made *m, size_t number, int digits)
{
    if (digits)
        add(m, BYTES(110, 3, 0, (uint8_t)number, (uint8_t)(number >> 8), 0));
    else
        add(m, BYTES(98, 0, 0, (uint8_t)(number >> 8), (uint8_t)number));
}

/* What a map of n pairs has as pair i, and with which difference the second has it. */
enum sort { LEAVES, TUPLES, NEXT_KEYS, MAPS, SORTS };
enum difference { NONE, A_VALUE, A_KEY, VALUES_SWAPPED, TURNED_INTO, DIFFERENCES };

static size_t key_of(size_t n, size_t i, enum difference d, int second)
{
    return second && d == A_KEY && i == n / 3 ? n : i;
}

static size_t value_of(size_t n, size_t i, enum difference d, int second)
{
    if (!second)
        return (i + 1) % n;
    if (d == A_VALUE && i == n / 3)
        return n;
    if (d == VALUES_SWAPPED && i < 2)
        return (2 - i) % n;
    if (d == TURNED_INTO)
        return (i + n - 1) % n; /* each value is the key that had this key as its value */
    return (i + 1) % n;
}

static void add_value(struct made *m, size_t value, enum sort sort, int second)
{
    if (sort == TUPLES)
        for (size_t i = 0; i < value % 3; i++)
            add(m, BYTES(104, 1)); /* so that pairs have two, three or four rows */
    if (sort == MAPS) {
        add_map(m, 2);
        add(m, BYTES(97, second ? 2 : 1, 106, 97, second ? 1 : 2, 106));
        return;
    }
    add_number(m, value, second && sort == LEAVES);
}

static void add_pairs(struct made *m, size_t n, enum sort sort, enum difference d, int second, size_t (*order)(size_t n, size_t i))
{
    add_map(m, n);
    for (size_t k = 0; k < n; k++) {
        size_t i = order(n, k);
        add_number(m, key_of(n, i, d, second), second);
        add_value(m, value_of(n, i, d, second), sort, second);
    }
}

/* As keys themselves, and in a tuple beside a map of two pairs. */
static void two_maps(size_t n, enum sort sort, enum difference d, size_t (*order)(size_t n, size_t i), int inside)
{
    static uint8_t memory[ROOM];
    struct made m = {memory, 0};
    size_t later = 0;
    add(&m, BYTES(131));
    add_map(&m, 2);
    for (int second = 0; second < 2; second++) {
        later = m.size;
        if (inside)
            add(&m, BYTES(104, 2, 116, 0, 0, 0, 2, 97, second ? 2 : 1, 106, 97, second ? 1 : 2, 106));
        add_pairs(&m, n, sort, d, second, second ? order : rising);
        add(&m, BYTES(106));
    }
    if (d == NONE || (sort == MAPS && d != A_KEY) || (sort != MAPS && d == TURNED_INTO && n == 2))
        equal_at(&m, later);
    else
        taken(&m);
}

static void large_maps(void)
{
    static const size_t counts[] = {2, 3, 16, 31, 32, 33, 63, 64, 65, 66, 127, 128, 129, 191, 300, 512, 640, 800};
    for (size_t k = 0; k < sizeof counts / sizeof *counts; k++)
        for (int sort = 0; sort < SORTS; sort++)
            for (int d = 0; d < DIFFERENCES; d++)
                for (int order = 0; order < ORDERS; order++)
                    for (int inside = 0; inside < 2; inside++)
                        if (counts[k] * (sort == MAPS ? 12 : sort == TUPLES ? 6 : 4) < ENOUGH_ROWS - 20)
                            two_maps(counts[k], sort, d, orders[order], inside);
    for (int d = 0; d < DIFFERENCES; d++)
        for (int order = 0; order < ORDERS; order++)
            two_maps(2040, LEAVES, d, orders[order], 0);
}

/* ---- keys of which many meet */

/* Halves that cancel in the first hash (crate term_hash). */
static void add_cancelling(struct made *m, size_t number)
{
    uint32_t high = (uint32_t)number + 1, low = -2554875531u * high;
    add(m, BYTES(110, 8, 0, (uint8_t)low, (uint8_t)(low >> 8), (uint8_t)(low >> 16), (uint8_t)(low >> 24)));
    add(m, BYTES((uint8_t)high, (uint8_t)(high >> 8), (uint8_t)(high >> 16), (uint8_t)(high >> 24)));
}

/* 1,200 bytes that differ in their middle, which no hash looks at. */
static void add_middle(struct made *m, size_t number)
{
    add(m, BYTES(109, 0, 0, 4, 176));
    memset(m->bytes + m->size, 'x', 1200);
    m->bytes[m->size + 600] = (uint8_t)number;
    m->size += 1200;
}

/* 36 characters, the last two of which differ, as a 107 or, every third, as a list of integers. */
static void add_late(struct made *m, size_t number)
{
    int integers = number % 3 == 0;
    if (integers)
        add(m, BYTES(108, 0, 0, 0, 36));
    else
        add(m, BYTES(107, 0, 36));
    for (size_t i = 0; i < 36; i++) {
        uint8_t character = i < 34 ? 'a' : i == 34 ? (uint8_t)(number >> 4) : (uint8_t)(number & 15);
        if (integers)
            add(m, BYTES(97, character));
        else
            add(m, BYTES(character));
    }
    if (integers)
        add(m, BYTES(106));
}

/* Six pairs whose keys are turned round and whose values are moved on by the number. */
static void add_moved(struct made *m, size_t number)
{
    add_map(m, 6);
    for (size_t i = 0; i < 6; i++) {
        size_t key = (i + number) % 6;
        add(m, BYTES(97, (uint8_t)key, 97, (uint8_t)((key + number) % 6)));
    }
}

/* 40 bytes with one sum of byte i times the factor to the i, modulo 2^32, whichever odd number the factor is: they differ by multiples of
 * (x^2 - 1) * (x^4 - 1)^6 * (x^8 - 1). */
static void add_one_sum(struct made *m, size_t number)
{
    static const size_t powers[] = {2, 4, 4, 4, 4, 4, 4, 8};
    int step[35] = {1}, sum[40];
    for (size_t k = 0; k < sizeof powers / sizeof *powers; k++)
        for (size_t i = sizeof step / sizeof *step; i-- > 0;)
            step[i] = (i < powers[k] ? 0 : step[i - powers[k]]) - step[i];
    for (size_t i = 0; i < 40; i++)
        sum[i] = 128;
    for (size_t at = 0; at < 6; at++, number /= 5)
        for (size_t i = 0; i < 35; i++)
            sum[at + i] += ((int)(number % 5) - 2) * step[i];
    add(m, BYTES(109, 0, 0, 0, 40));
    for (size_t i = 0; i < 40; i++)
        add(m, BYTES((uint8_t)sum[i]));
}

/* A number in seven maps of one pair, each the key of the next: deeper than the first hashes look. */
static void add_deep(struct made *m, size_t number)
{
    for (size_t i = 0; i < 7; i++)
        add_map(m, 1);
    add_number(m, number, number % 2);
    for (size_t i = 0; i < 7; i++)
        add(m, BYTES(106));
}

/* n keys of a sort, then the one with a number again; all taken where that is n. */
static void again(size_t n, size_t number, void (*add_key)(struct made *m, size_t number))
{
    static uint8_t memory[ROOM];
    struct made m = {memory, 0};
    add(&m, BYTES(131));
    add_map(&m, n + 1);
    for (size_t i = 0; i < n; i++) {
        add_key(&m, i);
        add(&m, BYTES(106));
    }
    size_t later = m.size;
    add_key(&m, number);
    add(&m, BYTES(106));
    if (number < n)
        equal_at(&m, later);
    else
        taken(&m);
}

static void each_again(size_t n, size_t step, void (*add_key)(struct made *m, size_t number))
{
    for (size_t number = 0; number < n; number += step)
        again(n, number, add_key);
    again(n, n - 1, add_key);
    again(n, n, add_key);
}

static void many_meet(void)
{
    each_again(4000, 97, add_cancelling);
    each_again(53, 1, add_middle);
    each_again(200, 7, add_late);
    each_again(5, 1, add_moved);
    each_again(1300, 83, add_one_sum);
    each_again(480, 37, add_deep);
}

/* ---- a key again in another encoding: hashes go by the meaning */

static const struct { struct bytes one, other; } encodings[] = {
    {{BYTES(97, 7)}, {BYTES(98, 0, 0, 0, 7)}},
    {{BYTES(97, 7)}, {BYTES(110, 4, 0, 7, 0, 0, 0)}},
    {{BYTES(98, 255, 255, 255, 255)}, {BYTES(111, 0, 0, 0, 2, 1, 1, 0)}},
    {{BYTES(110, 9, 1, 1, 2, 3, 4, 5, 6, 7, 8, 9)}, {BYTES(111, 0, 0, 0, 11, 1, 1, 2, 3, 4, 5, 6, 7, 8, 9, 0, 0)}},
    {{BYTES(110, 1, 1, 0)}, {BYTES(97, 0)}},
    {{BYTES(119, 2, 195, 169)}, {BYTES(115, 1, 233)}},
    {{BYTES(118, 0, 2, 195, 169)}, {BYTES(100, 0, 1, 233)}},
    {{BYTES(82, 0)}, {BYTES(119, 2, 'o', 'k')}},
    {{BYTES(107, 0, 2, 1, 2)}, {BYTES(108, 0, 0, 0, 1, 98, 0, 0, 0, 1, 107, 0, 1, 2)}},
    {{BYTES(106)}, {BYTES(108, 0, 0, 0, 0, 107, 0, 0)}},
    {{BYTES(109, 0, 0, 0, 2, 1, 2)}, {BYTES(77, 0, 0, 0, 2, 8, 1, 2)}},
    {{BYTES(77, 0, 0, 0, 2, 3, 1, 160)}, {BYTES(77, 0, 0, 0, 2, 3, 1, 191)}},
    {{BYTES(104, 1, 97, 7)}, {BYTES(105, 0, 0, 0, 1, 110, 1, 0, 7)}},
    {{BYTES(88, 82, 0, 0, 0, 0, 1, 0, 0, 0, 2, 0, 0, 0, 3)}, {BYTES(103, 119, 2, 'o', 'k', 0, 0, 0, 1, 0, 0, 0, 2, 3)}},
    {{BYTES(89, 82, 0, 0, 0, 0, 1, 0, 0, 0, 3)}, {BYTES(120, 119, 2, 'o', 'k', 0, 0, 0, 0, 0, 0, 0, 1, 0, 0, 0, 3)}},
    {{BYTES(90, 0, 1, 82, 0, 0, 0, 0, 3, 0, 0, 0, 9)}, {BYTES(101, 119, 2, 'o', 'k', 0, 0, 0, 9, 3)}},
    {{BYTES(116, 0, 0, 0, 2, 97, 1, 97, 7, 97, 2, 82, 0)}, {BYTES(116, 0, 0, 0, 2, 98, 0, 0, 0, 2, 119, 2, 'o', 'k', 110, 1, 0, 1, 98, 0, 0, 0, 7)}},
    {{BYTES(116, 0, 0, 0, 1, 116, 0, 0, 0, 2, 97, 1, 106, 97, 2, 106, 97, 7)}, {BYTES(116, 0, 0, 0, 1, 116, 0, 0, 0, 2, 97, 2, 107, 0, 0, 98, 0, 0, 0, 1, 106, 97, 7)}},
};

/* After n other keys, in either order, by itself and in a tuple. */
static void encoded(size_t n, struct bytes one, struct bytes other, int inside)
{
    static uint8_t memory[ROOM];
    struct made m = {memory, 0};
    add(&m, BYTES(131));
    add_map(&m, n + 2);
    for (size_t i = 0; i < n; i++) {
        add_number(&m, 1000 + i, 0);
        add(&m, BYTES(106));
    }
    size_t later = 0;
    for (int second = 0; second < 2; second++) {
        later = m.size;
        if (inside)
            add(&m, BYTES(104, 2, 97, 9));
        add(&m, second ? other.bytes : one.bytes, second ? other.size : one.size);
        add(&m, BYTES(106));
    }
    equal_at(&m, later);
}

static void other_encodings(void)
{
    static const size_t counts[] = {0, 1, 20, 100, 1000, 4000};
    for (size_t i = 0; i < sizeof encodings / sizeof *encodings; i++)
        for (size_t k = 0; k < sizeof counts / sizeof *counts; k++)
            for (int inside = 0; inside < 2; inside++) {
                encoded(counts[k], encodings[i].one, encodings[i].other, inside);
                encoded(counts[k], encodings[i].other, encodings[i].one, inside);
            }
}

/* ---- the same keys in many maps: at one level, and at each level of maps in values */

static void same_keys(void)
{
    static uint8_t memory[ROOM];
    struct made m = {memory, 0};
    add(&m, BYTES(131, 108, 0, 0, 0, 60));
    for (size_t k = 0; k < 60; k++) {
        add_map(&m, 40);
        for (size_t i = 0; i < 40; i++) {
            add_number(&m, i, k % 2);
            add(&m, BYTES(106));
        }
    }
    add(&m, BYTES(106));
    taken(&m);
    m.size = 0;
    add(&m, BYTES(131));
    size_t later = 0;
    for (size_t k = 0; k < 60; k++) { /* key 0, whose value is the next map, then the others */
        add_map(&m, 20);
        add_number(&m, 0, k % 2);
    }
    add(&m, BYTES(106));
    for (size_t k = 60; k-- > 0;)
        for (size_t i = 1; i < 20; i++) {
            if (k == 0 && i == 19)
                later = m.size;
            add_number(&m, i, k % 3 == 0);
            add(&m, BYTES(106));
        }
    taken(&m);
    m.bytes[later + 3] = 18; /* the outermost map has key 18 twice */
    equal_at(&m, later);
}

/* ---- a key in the last row that there can be: it is judged before its value, for which there is none */

static void last_row(size_t number)
{
    static uint8_t memory[ROOM];
    struct made m = {memory, 0};
    size_t n = ENOUGH_ROWS / 2 - 1, later = 0;
    add(&m, BYTES(131));
    add_map(&m, n + 1);
    for (size_t i = 0; i <= n; i++) {
        later = m.size;
        add_number(&m, i < n ? i : number, 0);
        add(&m, BYTES(106));
    }
    if (number < n)
        equal_at(&m, later);
    else
        read_refused(STANDALONE, lend_copy(m.bytes, m.size), m.size, three_texts(), ENOUGH_ROWS, IK_ROWS, later + 5);
}

static void last_rows(void)
{
    for (size_t number = 0; number < ENOUGH_ROWS / 2; number += 13)
        last_row(number);
    last_row(ENOUGH_ROWS / 2 - 1);
}

int main(void)
{
    large_maps();
    many_meet();
    other_encodings();
    same_keys();
    last_rows();
    return ended("keys");
}
