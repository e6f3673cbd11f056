/* All that is lent to ik_packet, between guard bytes, and the calls that make it ready and fill it. */
#ifndef MEMORY_H
#define MEMORY_H

#include "check.h"

enum { CACHE, CACHE_LENGTHS, PLAIN_N, PLAIN_PLACES, PLAIN_LENGTHS, PENDING_N, PENDING_PLACES, PENDING_LENGTHS, RECORD, GATHER, BUFFERS };

static const size_t stated[BUFFERS] = {IK_CACHE_BYTES, IK_CACHE_PLACES, 1, IK_LIST_BYTES, IK_LIST_PLACES, 1, IK_LIST_BYTES, IK_LIST_PLACES, 3, IK_GATHER_BYTES};
static const size_t width[BUFFERS] = {1, 2, 1, 1, 2, 1, 1, 2, 8, 1};

struct memory { void *at[BUFFERS]; size_t count[BUFFERS]; };

/* The refusals that ik_packet and ik_reset have answered, as bits. */
static uint64_t packet_met, reset_met;

/* All memory, every byte `fill`. */
static inline struct memory lend_memory(uint8_t fill)
{
    struct memory m;
    for (int i = 0; i < BUFFERS; i++) {
        m.count[i] = stated[i];
        m.at[i] = lend(stated[i] * width[i], fill);
    }
    return m;
}

static inline struct ik_state_reply reset(struct memory m)
{
    struct ik_state_reply a = ik_reset(m.at[CACHE], m.count[CACHE], m.at[CACHE_LENGTHS], m.count[CACHE_LENGTHS], m.at[RECORD]);
    reset_met |= bit(a.refusal);
    return a;
}

/* All memory as after a reset; lists and gather buffer every byte 0xa5. */
static inline struct memory ready_memory(void)
{
    struct memory m = lend_memory(0xa5);
    SAME(reset(m).refusal, 0);
    return m;
}

/* Whether a call judges the size of buffer i: the two counts and the record have none. */
static inline int has_size(int i)
{
    return i != PLAIN_N && i != PENDING_N && i != RECORD;
}

/* Memory made ready, buffer i of `more` elements more than its size. */
static inline struct memory of_wrong_size(int i, int more)
{
    struct memory m = ready_memory();
    m.count[i] += more;
    m.at[i] = lend(m.count[i] * width[i], 0xa5);
    return m;
}

static inline struct memory copy_of(struct memory m)
{
    for (int i = 0; i < BUFFERS; i++)
        m.at[i] = lend_copy(m.at[i], m.count[i] * width[i]);
    return m;
}

/* Which buffers differ, as bits. */
static inline unsigned differing(struct memory a, struct memory b)
{
    unsigned bits = 0;
    for (int i = 0; i < BUFFERS; i++)
        if (memcmp(a.at[i], b.at[i], a.count[i] * width[i]) != 0)
            bits |= 1u << i;
    return bits;
}

static inline struct ik_packet_reply take(struct memory m, uint8_t flags, const uint8_t *packet, size_t size)
{
    struct ik_packet_reply a = ik_packet(flags, packet, size, m.at[CACHE], m.count[CACHE], m.at[CACHE_LENGTHS], m.count[CACHE_LENGTHS],
                                   m.at[PLAIN_N], m.at[PLAIN_PLACES], m.count[PLAIN_PLACES], m.at[PLAIN_LENGTHS], m.count[PLAIN_LENGTHS],
                                   m.at[PENDING_N], m.at[PENDING_PLACES], m.count[PENDING_PLACES], m.at[PENDING_LENGTHS], m.count[PENDING_LENGTHS],
                                   m.at[RECORD], m.at[GATHER], m.count[GATHER]);
    packet_met |= bit(a.refusal);
    return a;
}

static inline uint16_t *lengths(struct memory m, int which) { return m.at[which]; }
static inline uint8_t *bytes(struct memory m, int which) { return m.at[which]; }
static inline struct ik_pending *record(struct memory m) { return m.at[RECORD]; }

/* A place of the cache or a list: the text, then zeros. */
static inline void place_is(struct memory m, int places, size_t place, const char *text)
{
    size_t length = strlen(text);
    CHECK(memcmp(bytes(m, places) + 32 * place, text, length) == 0);
    CHECK(all(bytes(m, places) + 32 * place + length, 32 - length, 0));
    SAME(lengths(m, places + 1)[place], length);
}

/* How many texts, and the texts. */
#define TEXTS(...) sizeof((const char *[]){__VA_ARGS__}) / sizeof(char *), (const char *const[]){__VA_ARGS__}
/* The ids of a fragment. */
#define IDS(sequence, fragment) 0, 0, 0, 0, 0, 0, 0, sequence, 0, 0, 0, 0, 0, 0, 0, fragment

/* A packet that is refused so, and changes nothing. */
static inline void packet_refused(struct memory m, uint8_t flags, const uint8_t *packet, size_t size, unsigned refusal, unsigned place)
{
    struct memory before = copy_of(m);
    struct ik_packet_reply a = take(m, flags, lend_copy(packet, size), size);
    SAME(a.refusal, refusal);
    SAME(a.place, place);
    SAME(a.kind, 0);
    SAME(a.offset, 0);
    SAME(a.length, 0);
    SAME(a.due, 0);
    SAME(a.gathered, 0);
    SAME(differing(m, before), 0);
}

#endif
