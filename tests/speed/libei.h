/* libei as a reader and a writer: decodes every element of a message into buffers, and encodes a message from elements decoded before. */
#ifndef LIBEI_H
#define LIBEI_H

#include <stdint.h>
#include <stdio.h>
#include <stdlib.h>
#include <string.h>
#include <ei.h>

enum { ELEMENTS_MOST = 70000, BYTES_MOST = 65536 };

/* One element of a message, in reading order; a list's tail follows its elements. */
struct element {
    int type;
    long size;                      /* of a tuple, list or map its number of parts, of a text its bytes, of a bitstring its bits */
    union {
        long number;
        long long wide;
        unsigned long long unsigned_wide;
        double real;
        char *bytes;                /* of an atom, a string, a binary or a bitstring */
        erlang_big *big;
        erlang_pid *pid;
        erlang_port *port;
        erlang_ref *reference;
        erlang_fun *export;
    } as;
};

/* Types beside those of ei_get_type: integers of 64 bits. */
enum { WIDE = 1000, UNSIGNED_WIDE };

/* Where a decoded element goes: into one element, used again for each, or into the next of a tree. */
struct decoder {
    struct element *elements;
    size_t count;
    int keep;                       /* a tree is built: each element has memory of its own */
};

static void *memory(size_t bytes)
{
    void *m = calloc(1, bytes);
    if (!m)
        abort();
    return m;
}

/* The element to decode into, with memory for what ei writes. */
static struct element *next_element(struct decoder *d, int type, long size, size_t bytes)
{
    struct element *e = &d->elements[d->keep ? d->count : 0];
    d->count++;
    e->type = type;
    e->size = size;
    if (d->keep && bytes)
        e->as.bytes = memory(bytes);
    return e;
}

/* Memory used again by each element that is not kept. */
static union {
    char bytes[BYTES_MOST + 1];
    erlang_pid pid;
    erlang_port port;
    erlang_ref reference;
    erlang_fun export;
} once;
static unsigned short once_digits[BYTES_MOST];
static erlang_big once_big = {0, 0, once_digits}; /* its arity must be that of the number decoded */

static void *place_for(struct decoder *d, struct element *e) { return d->keep ? (void *)e->as.bytes : (void *)&once; }

static int decode_whole(struct decoder *d, const char *msg, int *at)
{
    return ei_decode_long(msg, at, &next_element(d, ERL_INTEGER_EXT, 0, 0)->as.number);
}

/* An integer of sign and digits: up to 64 bits as a number, else as digits. */
static int decode_digits(struct decoder *d, const char *msg, int *at, int size)
{
    if (size <= 8) {
        struct element *e = next_element(d, WIDE, 0, 0);
        if (ei_decode_longlong(msg, at, &e->as.wide) == 0)
            return 0;
        e->type = UNSIGNED_WIDE;
        if (ei_decode_ulonglong(msg, at, &e->as.unsigned_wide) == 0)
            return 0;
        d->count--;
    }
    struct element *e = next_element(d, ERL_LARGE_BIG_EXT, size, 0);
    once_big.arity = (unsigned)size;
    e->as.big = d->keep ? ei_alloc_big((unsigned)size) : &once_big;
    return ei_decode_big(msg, at, e->as.big);
}

static int decode_atom(struct decoder *d, const char *msg, int *at, int size)
{
    struct element *e = next_element(d, ERL_ATOM_EXT, size, MAXATOMLEN_UTF8);
    char *text = place_for(d, e);
    return ei_decode_atom_as(msg, at, text, MAXATOMLEN_UTF8, ERLANG_UTF8, NULL, NULL);
}

static int decode_string(struct decoder *d, const char *msg, int *at, int size)
{
    struct element *e = next_element(d, ERL_STRING_EXT, size, (size_t)size + 1);
    return ei_decode_string(msg, at, place_for(d, e));
}

static int decode_binary(struct decoder *d, const char *msg, int *at, int size)
{
    struct element *e = next_element(d, ERL_BINARY_EXT, size, (size_t)size + 1);
    return ei_decode_binary(msg, at, place_for(d, e), &e->size);
}

/* ei answers where the bits stand; they are copied as a binary's bytes are. */
static int decode_bitstring(struct decoder *d, const char *msg, int *at, int size)
{
    struct element *e = next_element(d, ERL_BIT_BINARY_EXT, size, (size_t)size + 1);
    const char *from;
    unsigned offset;
    size_t bits;
    if (ei_decode_bitstring(msg, at, &from, &offset, &bits) != 0 || offset != 0)
        return -1;
    memcpy(place_for(d, e), from, (bits + 7) / 8);
    e->size = (long)bits;
    return 0;
}

static int decode_export(struct decoder *d, const char *msg, int *at)
{
    struct element *e = next_element(d, ERL_EXPORT_EXT, 0, sizeof(erlang_fun));
    erlang_fun *export = place_for(d, e);
    if (ei_decode_fun(msg, at, export) != 0)
        return -1;
    if (!d->keep)
        free_fun(export);
    return 0;
}

/* The header of a tuple, a list or a map; answers how many parts follow. */
static int decode_header(struct decoder *d, const char *msg, int *at, int type, long *parts)
{
    int arity;
    int bad = type == ERL_SMALL_TUPLE_EXT ? ei_decode_tuple_header(msg, at, &arity)
            : type == ERL_MAP_EXT ? ei_decode_map_header(msg, at, &arity) : ei_decode_list_header(msg, at, &arity);
    if (bad)
        return -1;
    next_element(d, type, arity, 0);
    *parts = type == ERL_MAP_EXT ? 2L * arity : type == ERL_LIST_EXT && arity > 0 ? arity + 1L : arity;
    return 0;
}

/* One element with no parts that follow it; or the header of a whole, and then the number of its parts. */
static int decode_element(struct decoder *d, const char *msg, int *at, long *parts)
{
    int type, size;
    *parts = 0;
    if (ei_get_type(msg, at, &type, &size) != 0)
        return -1;
    switch (type) {
    case ERL_SMALL_INTEGER_EXT: case ERL_INTEGER_EXT: return decode_whole(d, msg, at);
    case ERL_SMALL_BIG_EXT: case ERL_LARGE_BIG_EXT: return decode_digits(d, msg, at, size);
    case ERL_FLOAT_EXT: case NEW_FLOAT_EXT: return ei_decode_double(msg, at, &next_element(d, NEW_FLOAT_EXT, 0, 0)->as.real);
    case ERL_ATOM_EXT: return decode_atom(d, msg, at, size);
    case ERL_STRING_EXT: return decode_string(d, msg, at, size);
    case ERL_BINARY_EXT: return decode_binary(d, msg, at, size);
    case ERL_BIT_BINARY_EXT: return decode_bitstring(d, msg, at, size);
    case ERL_PID_EXT: case ERL_NEW_PID_EXT: return ei_decode_pid(msg, at, place_for(d, next_element(d, ERL_PID_EXT, 0, sizeof(erlang_pid))));
    case ERL_PORT_EXT: case ERL_NEW_PORT_EXT: return ei_decode_port(msg, at, place_for(d, next_element(d, ERL_PORT_EXT, 0, sizeof(erlang_port))));
    case ERL_NEW_REFERENCE_EXT: case ERL_NEWER_REFERENCE_EXT: return ei_decode_ref(msg, at, place_for(d, next_element(d, ERL_NEW_REFERENCE_EXT, 0, sizeof(erlang_ref))));
    case ERL_EXPORT_EXT: case ERL_FUN_EXT: case ERL_NEW_FUN_EXT: return decode_export(d, msg, at);
    case ERL_SMALL_TUPLE_EXT: case ERL_LARGE_TUPLE_EXT: return decode_header(d, msg, at, ERL_SMALL_TUPLE_EXT, parts);
    case ERL_NIL_EXT: case ERL_LIST_EXT: return decode_header(d, msg, at, ERL_LIST_EXT, parts);
    case ERL_MAP_EXT: return decode_header(d, msg, at, ERL_MAP_EXT, parts);
    default: return -1;
    }
}

/* Every element of one term: the recursive walk that a program over libei makes. */
static int decode_term(struct decoder *d, const char *msg, int *at)
{
    long parts;
    if (decode_element(d, msg, at, &parts) != 0)
        return -1;
    for (; parts > 0; parts--)
        if (decode_term(d, msg, at) != 0)
            return -1;
    return 0;
}

/* A standalone message; answers the number of its elements, or -1. */
static long libei_decode(struct decoder *d, const uint8_t *bytes, size_t size)
{
    const char *msg = (const char *)bytes;
    int at = 0, version;
    d->count = 0;
    if (ei_decode_version(msg, &at, &version) != 0 || decode_term(d, msg, &at) != 0 || (size_t)at != size)
        return -1;
    return (long)d->count;
}

static int encode_element(char *out, int *at, const struct element *e)
{
    switch (e->type) {
    case ERL_INTEGER_EXT: return ei_encode_long(out, at, e->as.number);
    case WIDE: return ei_encode_longlong(out, at, e->as.wide);
    case UNSIGNED_WIDE: return ei_encode_ulonglong(out, at, e->as.unsigned_wide);
    case ERL_LARGE_BIG_EXT: return ei_encode_big(out, at, e->as.big);
    case NEW_FLOAT_EXT: return ei_encode_double(out, at, e->as.real);
    case ERL_ATOM_EXT: return ei_encode_atom_len_as(out, at, e->as.bytes, (int)e->size, ERLANG_UTF8, ERLANG_UTF8);
    case ERL_STRING_EXT: return ei_encode_string_len(out, at, e->as.bytes, (int)e->size);
    case ERL_BINARY_EXT: return ei_encode_binary(out, at, e->as.bytes, e->size);
    case ERL_BIT_BINARY_EXT: return ei_encode_bitstring(out, at, e->as.bytes, 0, (size_t)e->size);
    case ERL_PID_EXT: return ei_encode_pid(out, at, e->as.pid);
    case ERL_PORT_EXT: return ei_encode_port(out, at, e->as.port);
    case ERL_NEW_REFERENCE_EXT: return ei_encode_ref(out, at, e->as.reference);
    case ERL_EXPORT_EXT: return ei_encode_fun(out, at, e->as.export);
    case ERL_SMALL_TUPLE_EXT: return ei_encode_tuple_header(out, at, (int)e->size);
    case ERL_LIST_EXT: return ei_encode_list_header(out, at, (int)e->size);
    case ERL_MAP_EXT: return ei_encode_map_header(out, at, (int)e->size);
    default: return -1;
    }
}

/* A standalone message of these elements; answers its length, or -1. */
static long libei_encode(const struct element *elements, size_t count, uint8_t *output)
{
    char *out = (char *)output;
    int at = 0;
    if (ei_encode_version(out, &at) != 0)
        return -1;
    for (size_t i = 0; i < count; i++)
        if (encode_element(out, &at, &elements[i]) != 0)
            return -1;
    return at;
}

#endif
