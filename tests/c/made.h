/* Messages with maps, made part by part. */
#ifndef MADE_H
#define MADE_H

#include "answers.h"

enum { ROOM = IK_MESSAGE_MOST };

struct bytes { const uint8_t *bytes; size_t size; };

/* A message that is made, in memory of ROOM bytes. */
struct made { uint8_t *bytes; size_t size; };

static inline void add(struct made *m, const uint8_t *bytes, size_t size)
{
    memcpy(m->bytes + m->size, bytes, size);
    m->size += size;
}

static inline void add_map(struct made *m, size_t pairs)
{
    add(m, BYTES(116, 0, 0, (uint8_t)(pairs >> 8), (uint8_t)pairs));
}

/* ---- the order in which pairs come */

static inline size_t rising(size_t n, size_t i) { return (void)n, i; }
static inline size_t falling(size_t n, size_t i) { return n - 1 - i; }
static inline size_t halves_turned(size_t n, size_t i) { return (i + n / 2) % n; }
static inline size_t mixed(size_t n, size_t i) { return i * 1607 % n; } /* a prime that divides no n here */
static size_t (*const orders[])(size_t n, size_t i) = {rising, falling, halves_turned, mixed};
enum { ORDERS = sizeof orders / sizeof *orders };

#endif
