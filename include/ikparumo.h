/* Ikparumo: Erlang's External Term Format, its atom cache and its fragments, for C99 and C++11.
 *
 * Every call takes whatever bytes and lent memory it is given, stays inside them and ends. It keeps nothing between calls and takes
 * no memory of its own but the stack. What the caller owes, and no call can see for itself:
 * - A pointer is valid for as many elements as the length behind it says, for one where no length stands behind it, and aligned for
 *   its type: 2 bytes for uint16_t, 8 for uint64_t and struct ik_pending. It is not null, even where its length is 0.
 * - Memory that a call may write overlaps no other memory lent to that call.
 * - Nobody else (a thread, an interrupt, a device) changes lent memory during the call.
 * - The stack has room: at most 136,056 bytes for one call, on x86-64; docs/STACK.md has each call.
 * - The archive is x86-64 code that uses SSE registers and the red zone (128 bytes below the stack pointer). In a kernel, or in an
 *   interrupt handler on the stack of what it interrupts, call it only where both are yours to use.
 * Calls that share no memory that either may write can run at the same time.
 *
 * Every reply is a struct by value. `refusal` 0 means accepted; else it is the number of the refusal (IK_...), `place` is where, and
 * the other fields are 0. Places are offsets from the message's first byte; in a header, the number of the reference. The place of
 * IK_TEXT is the bad byte's own offset: the first byte at which no valid text can continue, or the first after 255 characters; of a
 * character that the text's end cuts off, its first byte. In a header too it is an offset, from the packet's first byte.
 * struct ik_text_reply has no refusal: the mark call on the same input answers it. */
#ifndef IKPARUMO_H
#define IKPARUMO_H

#include <stddef.h>
#include <stdint.h>

#ifdef __cplusplus
extern "C" {
#endif

/* Sizes. */
enum {
    IK_MESSAGE_MOST = 65536,    /* bytes of a term, of a payload, or gathered */
    IK_ROWS_MOST = 8192,        /* rows of a message; a longer table counts as this */
    IK_DEPTH_MOST = 64,
    IK_CHARACTERS_MOST = 255,   /* of an atom */
    IK_PLACE_BYTES = 32,        /* of each place, in the cache and in an atom list */
    IK_LIST_PLACES = 255,
    IK_LIST_BYTES = 8160,       /* 255 places of 32 bytes */
    IK_CACHE_PLACES = 2048,
    IK_CACHE_BYTES = 65536,     /* 2,048 places of 32 bytes */
    IK_CACHE_EMPTY = 65535,     /* the length of an empty place of the cache */
    IK_GATHER_BYTES = 65536
};

/* The connection record: one byte of flags that the nodes agreed on in the handshake. Every call but ik_reset takes it first; it may
 * differ from call to call. Any other bit is IK_STATE at place 0, the first check after IK_SIZE. */
enum {
    IK_UTF8 = 1,                /* the texts of headers are in UTF-8, else in Latin-1; nothing else goes by it */
    IK_V4_NC = 2                /* tag 88 may use all 32 bits of ID and Serial, tag 90 up to 5 words */
};

/* Refusal numbers. */
enum {
    IK_ACCEPTED = 0,
    IK_NO_VERSION = 1,          /* empty, or first byte not 131 */
    IK_CUT = 2,                 /* bytes end inside, or before, what is being read */
    IK_TAG = 3,                 /* tag not in the table */
    IK_FIELD = 4,               /* a field or the tag of a part breaks its rule; no atom's tag at the offset asked for */
    IK_TEXT = 5,                /* text not UTF-8, or over 255 characters; at the bad byte */
    IK_INDEX = 6,               /* reference index not below n */
    IK_KEY = 7,                 /* key equal to an earlier key */
    IK_DEPTH = 8,               /* depth over 64 */
    IK_ROWS = 9,                /* no row left */
    IK_LEFT_OVER = 10,          /* bytes left over */
    IK_OUTPUT = 11,             /* output shorter than the canonical form */
    IK_LONG = 12,               /* term, payload or gathered bytes over 65,536 */
    IK_SIZE = 13,               /* a cache, list or gather buffer not of its stated size */
    IK_STATE = 14,              /* lent state false, or an unknown flag */
    IK_PACKET = 20,             /* second byte not 68, 69, 70 */
    IK_EMPTY_PLACE = 21,        /* cached place empty */
    IK_NAMED_AGAIN = 22,        /* place named again beside a new entry */
    IK_LONG_TEXT = 23,          /* text over 32 bytes as UTF-8 */
    IK_FRAGMENT = 24,           /* FragmentId 0, or not the one due */
    IK_SEQUENCE = 25,           /* no sequence pending, or another id */
    IK_PENDING = 26             /* a start while one is pending */
};

/* Kinds of a row. */
enum {
    IK_KIND_NONE = 0,           /* the word is no row */
    IK_KIND_INTEGER = 1,
    IK_KIND_FLOAT = 2,
    IK_KIND_ATOM = 3,
    IK_KIND_TUPLE = 4,
    IK_KIND_LIST = 5,           /* proper, the empty list too */
    IK_KIND_IMPROPER = 6,       /* a list whose last part is its tail */
    IK_KIND_BINARY = 7,
    IK_KIND_BITSTRING = 8,
    IK_KIND_MAP = 9,            /* its parts are key, value, key, value, .. */
    IK_KIND_PID = 10,
    IK_KIND_PORT = 11,
    IK_KIND_REFERENCE = 12,
    IK_KIND_EXPORT = 13,
    IK_KIND_CHARACTER = 14      /* an integer: a character of a 107 */
};

/* Kinds of a number, marks of a text, where a text stands, kinds of a packet. */
enum { IK_NUMBER_NEITHER = 0, IK_NUMBER_WHOLE = 1, IK_NUMBER_FLOAT = 2 };
enum { IK_MARK_LATIN1 = 1, IK_MARK_UTF8 = 2 };
enum { IK_FROM_NOWHERE = 0, IK_FROM_MESSAGE = 1, IK_FROM_LIST = 2 };
enum { IK_PACKET_PLAIN = 1, IK_PACKET_PENDING = 2, IK_PACKET_COMPLETE = 3 };

/* A row's word (docs/ROWS.md). */
#define IK_NO_WHOLE UINT64_MAX
static inline uint64_t ik_row_kind(uint64_t word) { return word & 15; }
static inline uint64_t ik_row_offset(uint64_t word) { return word >> 4 & 0xffff; }
static inline uint64_t ik_row_whole(uint64_t word) /* the row of its whole, or IK_NO_WHOLE */
{
    uint64_t plus_1 = word >> 20 & 0x3fff;
    return plus_1 ? plus_1 - 1 : IK_NO_WHOLE;
}
static inline uint64_t ik_row_parts(uint64_t word) { return word >> 34 & 0x1fff; }
static inline uint64_t ik_row_size(uint64_t word) { return word >> 47 & 0x3fff; } /* the next term at this level stands so many rows on */

struct ik_read_reply   { uint64_t refusal, place, terms, rows; };
struct ik_write_reply  { uint64_t refusal, place, terms, length; };
struct ik_number_reply { uint64_t refusal, place, kind; int64_t integer; double real; };
struct ik_text_reply   { uint64_t from, start, length; };
struct ik_mark_reply   { uint64_t refusal, place, mark; };
struct ik_pending      { uint64_t sequence, due, gathered; }; /* lent to the packet calls; due 0: none pending */
struct ik_packet_reply { uint64_t refusal, place, kind, offset, length, due, gathered; };
struct ik_state_reply  { uint64_t refusal, place; };
struct ik_word_reply   { uint64_t refusal, place, start, length; };

/* An atom list is lent as a count n, 8,160 bytes of places and 255 lengths. The count and memory of an accepted packet's list are
 * lent as ik_packet left them; an empty list has n = 0 and the stated sizes all the same. */

/* Reads a standalone term (131, one term, end), or a payload (one or two terms, end), into rows.
 * Lent: the message, the atom list; the table, which is written: rows, then zeros; all zeros after any refusal.
 * Answers the number of terms and of rows.
 * Refusals in order: 13 (the list), 14 (the flags), 12, 1 (standalone alone), then in byte order 2 to 9 and 14, then 10. */
struct ik_read_reply ik_read_standalone(uint8_t flags, const uint8_t *msg, size_t msg_len, uint8_t n, const uint8_t *places,
                                        size_t places_len, const uint16_t *lengths, size_t lengths_len, uint64_t *table,
                                        size_t table_len);
struct ik_read_reply ik_read_payload(uint8_t flags, const uint8_t *msg, size_t msg_len, uint8_t n, const uint8_t *places,
                                     size_t places_len, const uint16_t *lengths, size_t lengths_len, uint64_t *table,
                                     size_t table_len);

/* Writes the canonical form of a standalone term, or of each term of a payload as a standalone term, one after the other.
 * Lent: the message, the atom list; the scratch table, all zero after every call; the output, of which the first `length` bytes are
 * written and the rest stays; nothing of it changes where refused.
 * Answers the number of terms and of bytes written.
 * Refusals in order: those of reading with the scratch table as the table, then 11. */
struct ik_write_reply ik_write_standalone(uint8_t flags, const uint8_t *msg, size_t msg_len, uint8_t n, const uint8_t *places,
                                          size_t places_len, const uint16_t *lengths, size_t lengths_len, uint64_t *scratch,
                                          size_t scratch_len, uint8_t *output, size_t output_len);
struct ik_write_reply ik_write_payload(uint8_t flags, const uint8_t *msg, size_t msg_len, uint8_t n, const uint8_t *places,
                                       size_t places_len, const uint16_t *lengths, size_t lengths_len, uint64_t *scratch,
                                       size_t scratch_len, uint8_t *output, size_t output_len);

/* The number of a row (they count from 0).
 * Lent: the message, the atom list; nothing is written.
 * Answers kind IK_NUMBER_WHOLE and `integer` for an integer in -2^63 .. 2^63-1, IK_NUMBER_FLOAT and `real` for a float, else
 * IK_NUMBER_NEITHER, also where there is no such row; `integer` and `real` are 0 where not answered.
 * Refusals: those of reading with 8,192 rows. */
struct ik_number_reply ik_number_standalone(uint8_t flags, const uint8_t *msg, size_t msg_len, uint8_t n, const uint8_t *places,
                                            size_t places_len, const uint16_t *lengths, size_t lengths_len, size_t row);
struct ik_number_reply ik_number_payload(uint8_t flags, const uint8_t *msg, size_t msg_len, uint8_t n, const uint8_t *places,
                                         size_t places_len, const uint16_t *lengths, size_t lengths_len, size_t row);

/* Where the text of the atom stands whose tag is at `offset`.
 * Lent: the message, the atom list; nothing is written.
 * Answers a stretch of the message (IK_FROM_MESSAGE) or of the list's places (IK_FROM_LIST): start and length in bytes; all 0
 * (IK_FROM_NOWHERE) where the mark call would refuse. */
struct ik_text_reply ik_text_standalone(uint8_t flags, const uint8_t *msg, size_t msg_len, uint8_t n, const uint8_t *places,
                                        size_t places_len, const uint16_t *lengths, size_t lengths_len, size_t offset);
struct ik_text_reply ik_text_payload(uint8_t flags, const uint8_t *msg, size_t msg_len, uint8_t n, const uint8_t *places,
                                     size_t places_len, const uint16_t *lengths, size_t lengths_len, size_t offset);

/* How the text of the atom is coded whose tag is at `offset`.
 * Lent: the message, the atom list; nothing is written.
 * Answers IK_MARK_LATIN1 or IK_MARK_UTF8.
 * Refusals in order: those of reading with 8,192 rows, then 4 at `offset` where none of the message's atoms' tags stands. */
struct ik_mark_reply ik_mark_standalone(uint8_t flags, const uint8_t *msg, size_t msg_len, uint8_t n, const uint8_t *places,
                                        size_t places_len, const uint16_t *lengths, size_t lengths_len, size_t offset);
struct ik_mark_reply ik_mark_payload(uint8_t flags, const uint8_t *msg, size_t msg_len, uint8_t n, const uint8_t *places,
                                     size_t places_len, const uint16_t *lengths, size_t lengths_len, size_t offset);

/* Takes a packet of the link, without the link's length prefix.
 * flags: by IK_UTF8 new texts of this packet's header are in UTF-8, else in Latin-1.
 * Lent: the packet; the cache (65,536 bytes, 2,048 lengths); the atom list for plain packets, the atom list for the pending sequence
 * (a count, 8,160 bytes, 255 lengths each); the pending record; the gather buffer (65,536 bytes). Written: for a plain packet its list
 * and the cache; for a first fragment the other list, the cache, the record and the gather buffer; for a later one the record and the
 * gather buffer; where refused nothing. So the next plain packet that is accepted overwrites the plain list, and the next start that is
 * accepted the pending list and the gather buffer: read a payload, and ask for its words, before.
 * Answers IK_PACKET_PLAIN with `offset` and `length` of the payload in the packet, to be read with the plain list;
 * IK_PACKET_PENDING with the id now `due` and the bytes `gathered`; IK_PACKET_COMPLETE with the bytes `gathered`: the payload stands
 * in the gather buffer, to be read with the pending list.
 * Refusals in order: 13, 14 on the connection's flags, 14 on the record, 1, 2, 20, 2 and 24 on the ids, 26 or 25, 24 for the wrong one,
 * 2 on the header's count and flags, each reference in turn (2, 22, 5, 23, 21, 14), 12. After a refused fragment, 12 among them, the
 * sequence stays pending as it was; ik_drop or ik_reset ends it. */
struct ik_packet_reply ik_packet(uint8_t flags, const uint8_t *packet, size_t packet_len, uint8_t *cache, size_t cache_len,
                                 uint16_t *cache_lengths, size_t cache_lengths_len, uint8_t *plain_n, uint8_t *plain_places,
                                 size_t plain_places_len, uint16_t *plain_lengths, size_t plain_lengths_len, uint8_t *pending_n,
                                 uint8_t *pending_places, size_t pending_places_len, uint16_t *pending_lengths,
                                 size_t pending_lengths_len, struct ik_pending *pending, uint8_t *gather, size_t gather_len);

/* Drops the pending sequence. Lent: the record, zero afterwards where accepted. Refusals in order: 14 on the flags,
 * 14 on the record, 25. */
struct ik_state_reply ik_drop(uint8_t flags, struct ik_pending *pending);

/* Empties the cache and drops the pending sequence, if there is one. It also makes fresh memory ready.
 * Lent: the cache and the record; places and record are zero afterwards and the lengths 65,535. Refusal: 13. */
struct ik_state_reply ik_reset(uint8_t *cache, size_t cache_len, uint16_t *cache_lengths, size_t cache_lengths_len,
                               struct ik_pending *pending);

/* The word of an atom reference: the text of reference `index` of a message's header, by that message's own list: the plain list until
 * the next plain packet is accepted, the pending list from its start until the next start is accepted, whatever the cache holds by then.
 * The index of an atom with tag 82 is the byte after the tag; atoms with other tags have none (ik_text_payload answers all of them).
 * Lent: the atom list; nothing is written. Answers a stretch of the list's places: start and length in bytes, UTF-8 whatever coding was
 * agreed, with no zero byte after it. The stretch is of the lent places themselves: use or copy the text before ik_packet writes that
 * list again. An empty text is accepted, with length 0.
 * Refusals in order: 13 (the list), 14 (the flags), 6 (index not below n), 14 (a length over 32, or a text that is not UTF-8);
 * place 0. */
struct ik_word_reply ik_word(uint8_t flags, uint8_t n, const uint8_t *places, size_t places_len, const uint16_t *lengths,
                             size_t lengths_len, size_t index);

#ifdef __cplusplus
}
#endif

#endif
