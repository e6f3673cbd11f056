/* The header as C99 and as C++11: this file is built as both, without a warning. Every struct is named, in C++ without `struct`, every call
 * has the type stated here, every struct the size of its fields, and one call of each shape is made. */
#include "ikparumo.h"
#include "ikparumo.h"
#include <stdio.h>

#ifdef __cplusplus
typedef ik_read_reply read_reply;
typedef ik_write_reply write_reply;
typedef ik_number_reply number_reply;
typedef ik_text_reply text_reply;
typedef ik_mark_reply mark_reply;
typedef ik_packet_reply packet_reply;
typedef ik_state_reply state_reply;
typedef ik_word_reply word_reply;
typedef ik_pending pending_record;
#else
typedef struct ik_read_reply read_reply;
typedef struct ik_write_reply write_reply;
typedef struct ik_number_reply number_reply;
typedef struct ik_text_reply text_reply;
typedef struct ik_mark_reply mark_reply;
typedef struct ik_packet_reply packet_reply;
typedef struct ik_state_reply state_reply;
typedef struct ik_word_reply word_reply;
typedef struct ik_pending pending_record;
#endif

#define MESSAGE uint8_t, const uint8_t *, size_t, uint8_t, const uint8_t *, size_t, const uint16_t *, size_t
static read_reply (*const reads[])(MESSAGE, uint64_t *, size_t) = {ik_read_standalone, ik_read_payload};
static write_reply (*const writes[])(MESSAGE, uint64_t *, size_t, uint8_t *, size_t) = {ik_write_standalone, ik_write_payload};
static number_reply (*const numbers[])(MESSAGE, size_t) = {ik_number_standalone, ik_number_payload};
static text_reply (*const texts[])(MESSAGE, size_t) = {ik_text_standalone, ik_text_payload};
static mark_reply (*const marks[])(MESSAGE, size_t) = {ik_mark_standalone, ik_mark_payload};
static packet_reply (*const packet)(uint8_t, const uint8_t *, size_t, uint8_t *, size_t, uint16_t *, size_t, uint8_t *, uint8_t *, size_t, uint16_t *, size_t,
                                    uint8_t *, uint8_t *, size_t, uint16_t *, size_t, pending_record *, uint8_t *, size_t) = ik_packet;
static state_reply (*const reset)(uint8_t *, size_t, uint16_t *, size_t, pending_record *) = ik_reset;
static state_reply (*const drop)(uint8_t, pending_record *) = ik_drop;
static word_reply (*const word)(uint8_t, uint8_t, const uint8_t *, size_t, const uint16_t *, size_t, size_t) = ik_word;

static unsigned passed, failed;
static void check(int holds, const char *what)
{
    if (holds) {
        passed++;
        return;
    }
    failed++;
    printf("FAILED %s\n", what);
}
#define CHECK(holds) check(holds, #holds)

static uint8_t n, places[IK_LIST_BYTES], cache[IK_CACHE_BYTES], gather[IK_GATHER_BYTES], output[8];
static uint16_t lengths[IK_LIST_PLACES], cache_lengths[IK_CACHE_PLACES];
static uint64_t table[4];
static uint8_t more_n, more[IK_LIST_BYTES];
static uint16_t more_lengths[IK_LIST_PLACES];
static pending_record record;
#define BOTH (IK_UTF8 | IK_V4_NC)
#define EMPTY_LIST 0, places, sizeof places, lengths, IK_LIST_PLACES

/* The atom a, as a standalone term and, from its second byte on, as a payload. */
static const uint8_t atom[] = {131, 119, 1, 97};
static void on_the_atom(size_t i)
{
    const uint8_t *bytes = atom + i;
    size_t size = sizeof atom - i;
    CHECK(reads[i](BOTH, bytes, size, EMPTY_LIST, table, 4).rows == 1);
    CHECK(ik_row_kind(table[0]) == IK_KIND_ATOM && ik_row_offset(table[0]) == 1 - i && ik_row_whole(table[0]) == IK_NO_WHOLE);
    CHECK(writes[i](BOTH, bytes, size, EMPTY_LIST, table, 4, output, sizeof output).length == 4);
    CHECK(numbers[i](BOTH, bytes, size, EMPTY_LIST, 0).kind == IK_NUMBER_NEITHER);
    CHECK(texts[i](BOTH, bytes, size, EMPTY_LIST, 1 - i).from == IK_FROM_MESSAGE);
    CHECK(marks[i](BOTH, bytes, size, EMPTY_LIST, 1 - i).mark == IK_MARK_UTF8);
}

int main(void)
{
    static const uint8_t header[] = {131, 68, 2, 0x88, 0, 7, 1, 97, 8, 1, 98, 82, 0};
    CHECK(sizeof(read_reply) == 32 && sizeof(write_reply) == 32 && sizeof(number_reply) == 40 && sizeof(text_reply) == 24);
    CHECK(sizeof(mark_reply) == 24 && sizeof(packet_reply) == 56 && sizeof(state_reply) == 16 && sizeof(word_reply) == 32);
    CHECK(sizeof(pending_record) == 24);
    CHECK(IK_UTF8 == 1 && IK_V4_NC == 2);
    on_the_atom(0);
    on_the_atom(1);
    CHECK(reset(cache, sizeof cache, cache_lengths, IK_CACHE_PLACES, &record).refusal == IK_ACCEPTED);
    CHECK(packet(BOTH, header, sizeof header, cache, sizeof cache, cache_lengths, IK_CACHE_PLACES, &n, places, sizeof places, lengths, IK_LIST_PLACES,
                 &more_n, more, sizeof more, more_lengths, IK_LIST_PLACES, &record, gather, sizeof gather).kind == IK_PACKET_PLAIN);
    CHECK(word(BOTH, n, places, sizeof places, lengths, IK_LIST_PLACES, 1).start == IK_PLACE_BYTES);
    CHECK(drop(BOTH, &record).refusal == IK_SEQUENCE);
#ifdef __cplusplus
    printf("header as C++11: %u passed, %u failed\n", passed, failed);
#else
    printf("header as C99: %u passed, %u failed\n", passed, failed);
#endif
    return failed != 0;
}
