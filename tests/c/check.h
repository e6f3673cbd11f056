/* Counting checks, and lent memory with guard bytes on both sides. */
#ifndef CHECK_H
#define CHECK_H

#include <stdio.h>
#include <stdlib.h>
#include <string.h>
#include "ikparumo.h"

/* The flags of the calls that choose none: all that there are. */
enum { BOTH = IK_UTF8 | IK_V4_NC };

static unsigned long passed, failed;

#define CHECK(holds) check((holds) != 0, #holds, __FILE__, __LINE__)
static inline void check(int holds, const char *what, const char *file, int line)
{
    if (holds) {
        passed++;
        return;
    }
    failed++;
    printf("FAILED %s:%d: %s\n", file, line, what);
}

/* Compares two numbers and says both where they differ. */
#define SAME(got, expected) same((uint64_t)(got), (uint64_t)(expected), #got, __FILE__, __LINE__)
static inline void same(uint64_t got, uint64_t expected, const char *what, const char *file, int line)
{
    if (got == expected) {
        passed++;
        return;
    }
    failed++;
    printf("FAILED %s:%d: %s is %llu, not %llu\n", file, line, what, (unsigned long long)got, (unsigned long long)expected);
}

enum { GUARD = 64, GUARD_BYTE = 0xc7, LENT_MOST = 256 };
static struct { uint8_t *memory; size_t bytes; } lent_now[LENT_MOST];
static int lent_count;

/* Memory for `bytes` bytes, all `fill`, between guard bytes. */
static inline void *lend(size_t bytes, uint8_t fill)
{
    uint8_t *memory = malloc(bytes + 2 * GUARD);
    if (!memory || lent_count == LENT_MOST)
        abort();
    memset(memory, GUARD_BYTE, bytes + 2 * GUARD);
    memset(memory + GUARD, fill, bytes);
    lent_now[lent_count].memory = memory;
    lent_now[lent_count++].bytes = bytes;
    return memory + GUARD;
}

/* Memory that holds these bytes, between guard bytes. */
static inline void *lend_copy(const void *from, size_t bytes)
{
    void *memory = lend(bytes, 0);
    if (bytes)
        memcpy(memory, from, bytes);
    return memory;
}

/* Whether every guard byte is as it was; gives all lent memory back. */
static inline int guards_stand(void)
{
    int stand = 1;
    while (lent_count > 0) {
        uint8_t *memory = lent_now[--lent_count].memory;
        size_t bytes = lent_now[lent_count].bytes;
        for (size_t i = 0; i < GUARD; i++)
            if (memory[i] != GUARD_BYTE || memory[GUARD + bytes + i] != GUARD_BYTE)
                stand = 0;
        free(memory);
    }
    return stand;
}

static inline int all(const void *memory, size_t bytes, uint8_t byte)
{
    const uint8_t *b = memory;
    for (size_t i = 0; i < bytes; i++)
        if (b[i] != byte)
            return 0;
    return 1;
}

#define BYTES(...) (const uint8_t[]){__VA_ARGS__}, sizeof((const uint8_t[]){__VA_ARGS__})

/* An atom list in lent memory. */
struct list { uint8_t n; uint8_t *places; size_t places_len; uint16_t *lengths; size_t lengths_len; };
#define LIST(l) (l).n, (l).places, (l).places_len, (l).lengths, (l).lengths_len

static inline struct list lend_list(size_t places_len, size_t lengths_len)
{
    struct list l = {0, lend(places_len, 0), places_len, lend(2 * lengths_len, 0), lengths_len};
    return l;
}

static inline struct list empty_list(void) { return lend_list(IK_LIST_BYTES, IK_LIST_PLACES); }

static inline void put_text(struct list *l, size_t i, const char *text, uint16_t length)
{
    memcpy(l->places + 32 * i, text, strlen(text));
    l->lengths[i] = length;
}

/* The list of three texts: ok, "\xc3\xa9" (e acute), and the empty text. */
static inline struct list three_texts(void)
{
    struct list l = empty_list();
    l.n = 3;
    put_text(&l, 0, "ok", 2);
    put_text(&l, 1, "\xc3\xa9", 2);
    return l;
}

/* The four lists that are not of their stated size. */
static inline struct list list_of_wrong_size(int which)
{
    switch (which) {
    case 0: return lend_list(IK_LIST_BYTES - 1, IK_LIST_PLACES);
    case 1: return lend_list(IK_LIST_BYTES + 1, IK_LIST_PLACES);
    case 2: return lend_list(IK_LIST_BYTES, IK_LIST_PLACES - 1);
    default: return lend_list(IK_LIST_BYTES, IK_LIST_PLACES + 1);
    }
}

/* Which refusals a call has answered, as bits; 0 is the bit of an accepted message. */
static inline uint64_t bit(uint64_t refusal) { return refusal < 64 ? (uint64_t)1 << refusal : 0; }

/* The bits of these refusals. */
static inline uint64_t bits_of(const uint8_t *refusals, size_t count)
{
    uint64_t bits = 0;
    for (size_t i = 0; i < count; i++)
        bits |= bit(refusals[i]);
    return bits;
}

static inline int ended(const char *name)
{
    printf("%s: %lu passed, %lu failed\n", name, passed, failed);
    return failed != 0;
}

#endif
