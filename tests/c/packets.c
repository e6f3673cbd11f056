/* ik_packet, ik_drop, ik_reset. */
#include "memory.h"

static uint64_t drop_met; /* as packet_met */

static struct ik_state_reply drop(struct memory m)
{
    struct ik_state_reply a = ik_drop(BOTH, m.at[RECORD]);
    drop_met |= bit(a.refusal);
    return a;
}

static void plain_is(struct ik_packet_reply a, unsigned offset, unsigned length)
{
    SAME(a.refusal, 0);
    SAME(a.place, 0);
    SAME(a.kind, IK_PACKET_PLAIN);
    SAME(a.offset, offset);
    SAME(a.length, length);
    SAME(a.due, 0);
    SAME(a.gathered, 0);
}

static void pending_is(struct ik_packet_reply a, unsigned due, unsigned gathered)
{
    SAME(a.refusal, 0);
    SAME(a.place, 0);
    SAME(a.kind, due ? IK_PACKET_PENDING : IK_PACKET_COMPLETE);
    SAME(a.offset, 0);
    SAME(a.length, 0);
    SAME(a.due, due);
    SAME(a.gathered, gathered);
}

static void record_is(struct memory m, uint64_t sequence, uint64_t due, uint64_t gathered)
{
    SAME(record(m)->sequence, sequence);
    SAME(record(m)->due, due);
    SAME(record(m)->gathered, gathered);
}

/* A list: these texts, and zeros from there on. */
static void list_is(struct memory m, int n, size_t count, const char *const *texts)
{
    SAME(*bytes(m, n), count);
    for (size_t i = 0; i < count; i++)
        place_is(m, n + 1, i, texts[i]);
    CHECK(all(bytes(m, n + 1) + 32 * count, IK_LIST_BYTES - 32 * count, 0));
    CHECK(all(lengths(m, n + 2) + count, 2 * (IK_LIST_PLACES - count), 0));
}

static void fresh_refused(uint8_t flags, const uint8_t *packet, size_t size, unsigned refusal, unsigned place)
{
    packet_refused(ready_memory(), flags, packet, size, refusal, place);
    CHECK(guards_stand());
}

enum { PLAIN_LIST = 1 << PLAIN_N | 1 << PLAIN_PLACES | 1 << PLAIN_LENGTHS, PENDING_LIST = 1 << PENDING_N | 1 << PENDING_PLACES | 1 << PENDING_LENGTHS,
       WHOLE_CACHE = 1 << CACHE | 1 << CACHE_LENGTHS };

static void plain_packets(void)
{
    struct memory m = ready_memory(), before = copy_of(m);
    plain_is(take(m, 1, BYTES(131, 68, 0, 97, 5)), 3, 2);
    list_is(m, PLAIN_N, 0, NULL);
    SAME(differing(m, before), PLAIN_LIST);
    CHECK(guards_stand());

    /* two new references: places 4 * 256 + 10 and 5 */
    m = ready_memory(), before = copy_of(m);
    plain_is(take(m, 1, BYTES(131, 68, 2, 0x8c, 0, 10, 2, 'o', 'k', 5, 1, 'x', 82, 0, 82, 1)), 12, 4);
    list_is(m, PLAIN_N, TEXTS("ok", "x"));
    place_is(m, CACHE, 1034, "ok");
    place_is(m, CACHE, 5, "x");
    SAME(lengths(m, CACHE_LENGTHS)[6], IK_CACHE_EMPTY);
    SAME(differing(m, before), PLAIN_LIST | WHOLE_CACHE);
    /* then cached ones, the other way round, one of them twice */
    before = copy_of(m);
    plain_is(take(m, 0, BYTES(131, 68, 3, 0x40, 0x00, 5, 10, 5)), 8, 0);
    list_is(m, PLAIN_N, TEXTS("x", "ok", "x"));
    SAME(differing(m, before), PLAIN_LIST);
    CHECK(guards_stand());

    /* Latin-1 is stored as UTF-8; long lengths, odd and even n */
    m = ready_memory();
    plain_is(take(m, 0, BYTES(131, 68, 1, 0x08, 7, 1, 233)), 7, 0);
    list_is(m, PLAIN_N, TEXTS("\xc3\xa9"));
    place_is(m, CACHE, 7, "\xc3\xa9");
    plain_is(take(m, 1, BYTES(131, 68, 1, 0x18, 7, 0, 2, 'a', 'b', 106)), 9, 1);
    place_is(m, CACHE, 7, "ab");
    plain_is(take(m, BOTH, BYTES(131, 68, 2, 0x88, 0xf1, 7, 0, 1, 'c', 8, 0, 0, 106)), 12, 1);
    list_is(m, PLAIN_N, TEXTS("c", ""));
    place_is(m, CACHE, 7, "c");
    CHECK(guards_stand());

    /* the cache's last place, and an empty text */
    m = ready_memory();
    plain_is(take(m, 1, BYTES(131, 68, 2, 0x8f, 0, 255, 2, 'o', 'k', 5, 0)), 11, 0);
    place_is(m, CACHE, 2047, "ok");
    place_is(m, CACHE, 5, "");
    plain_is(take(m, 1, BYTES(131, 68, 1, 0x07, 255)), 5, 0);
    list_is(m, PLAIN_N, TEXTS("ok"));
    CHECK(guards_stand());
}

static void longest_texts(void)
{
    uint8_t packet[64] = {131, 68, 1, 0x08, 7, 32};
    memset(packet + 6, 'a', 33);
    struct memory m = ready_memory();
    plain_is(take(m, 1, packet, 38), 38, 0);
    place_is(m, CACHE, 7, "aaaaaaaaaaaaaaaaaaaaaaaaaaaaaaaa");
    CHECK(guards_stand());
    packet[5] = 33;
    fresh_refused(1, packet, 39, 23, 0);
    packet[5] = 17; /* 17 characters of two bytes each as UTF-8 */
    memset(packet + 6, 233, 17);
    fresh_refused(0, packet, 23, 23, 0);
}

static void refused_headers(void)
{
    struct memory m;
    fresh_refused(1, NULL, 0, 1, 0);
    fresh_refused(1, BYTES(130, 68, 0), 1, 0);
    fresh_refused(1, BYTES(131), 2, 0);
    fresh_refused(1, BYTES(131, 97, 5), 20, 0);
    fresh_refused(1, BYTES(131, 68), 2, 0);
    fresh_refused(1, BYTES(131, 68, 1), 2, 0);
    fresh_refused(1, BYTES(131, 68, 1, 0x08), 2, 0);
    fresh_refused(1, BYTES(131, 68, 2, 0x88, 0, 7, 0, 8), 2, 1);
    fresh_refused(1, BYTES(131, 68, 2, 0x88, 0, 7, 1, 'a', 8, 2, 'b'), 2, 1);
    fresh_refused(1, BYTES(131, 68, 2, 0x88, 0, 7, 1, 'a', 7, 1, 'b'), 22, 1);
    fresh_refused(1, BYTES(131, 68, 2, 0x08, 0, 7, 1, 'a', 7), 22, 1);
    fresh_refused(1, BYTES(131, 68, 1, 0x08, 7, 1, 233), 5, 6);
    fresh_refused(1, BYTES(131, 68, 2, 0x88, 0, 7, 1, 'a', 8, 2, 233, 'b'), 5, 11);
    fresh_refused(1, BYTES(131, 68, 2, 0x88, 1, 7, 0, 1, 'a', 8, 0, 2, 'b', 255), 5, 13);
    fresh_refused(1, BYTES(131, 69, IDS(7, 2), 1, 0x08, 7, 2, 'a', 255), 5, 23);
    fresh_refused(1, BYTES(131, 68, 2, 0x08, 0, 7, 1, 'a', 8), 21, 1);
    m = ready_memory();
    lengths(m, CACHE_LENGTHS)[7] = 33;
    packet_refused(m, 1, BYTES(131, 68, 1, 0, 7), 14, 0);
    lengths(m, CACHE_LENGTHS)[7] = 1, bytes(m, CACHE)[32 * 7] = 128;
    packet_refused(m, 1, BYTES(131, 68, 1, 0, 7), 14, 0);
    packet_refused(m, 1, BYTES(131, 68, 2, 0x80, 0, 7, 7, 0), 14, 0);
    plain_is(take(m, 1, BYTES(131, 68, 1, 0x08, 7, 0)), 6, 0);
    CHECK(guards_stand());
}

static void long_payloads(void)
{
    uint8_t *packet = calloc(70000, 1);
    packet[0] = 131, packet[1] = 68;
    struct memory m = ready_memory();
    plain_is(take(m, 1, packet, 3 + 65536), 3, 65536);
    packet_refused(m, 1, packet, 3 + 65537, 12, 0);
    CHECK(guards_stand());
    const uint8_t start[] = {131, 69, IDS(9, 2), 0};
    memcpy(packet, start, sizeof start);
    packet[sizeof start] = 0x11;
    m = ready_memory();
    packet_refused(m, 1, packet, sizeof start + 65537, 12, 0);
    pending_is(take(m, 1, packet, sizeof start + 65536), 1, 65536);
    record_is(m, 9, 1, 65536);
    SAME(*bytes(m, GATHER), 0x11);
    CHECK(all(bytes(m, GATHER) + 1, 65535, 0));
    packet_refused(m, 1, BYTES(131, 70, IDS(9, 1), 5), 12, 0);
    pending_is(take(m, 1, BYTES(131, 70, IDS(9, 1))), 0, 65536);
    record_is(m, 0, 0, 0);
    CHECK(guards_stand());
    /* after 12 the sequence stays pending, so no other starts; a drop ends it */
    m = ready_memory();
    pending_is(take(m, 1, packet, sizeof start + 65536), 1, 65536);
    packet_refused(m, 1, BYTES(131, 70, IDS(9, 1), 5), 12, 0);
    packet_refused(m, 1, BYTES(131, 69, IDS(8, 1), 0, 106), 26, 0);
    SAME(drop(m).refusal, 0);
    pending_is(take(m, 1, BYTES(131, 69, IDS(8, 1), 0, 106)), 0, 1);
    SAME(*bytes(m, GATHER), 106);
    CHECK(guards_stand());
    free(packet);
}

static void fragments(void)
{
    struct memory m = ready_memory(), before = copy_of(m);
    packet_refused(m, 1, BYTES(131, 70, IDS(7, 2), 97), 25, 0);
    packet_refused(m, 1, BYTES(131, 70, IDS(7, 0), 97), 24, 0);
    packet_refused(m, 1, BYTES(131, 69, IDS(7, 0), 0), 24, 0);
    packet_refused(m, 1, BYTES(131, 69, 0, 0, 0), 2, 0);
    packet_refused(m, 1, BYTES(131, 69, IDS(7, 3)), 2, 0);
    pending_is(take(m, 1, BYTES(131, 69, IDS(7, 3), 1, 0x08, 5, 2, 'o', 'k', 104, 2)), 2, 2);
    record_is(m, 7, 2, 2);
    list_is(m, PENDING_N, TEXTS("ok"));
    place_is(m, CACHE, 5, "ok");
    CHECK(memcmp(m.at[GATHER], (const uint8_t[]){104, 2}, 2) == 0);
    CHECK(all(bytes(m, GATHER) + 2, 65534, 0xa5));
    SAME(differing(m, before), PENDING_LIST | WHOLE_CACHE | 1 << RECORD | 1 << GATHER);
    packet_refused(m, 1, BYTES(131, 69, IDS(8, 2), 0), 26, 0);
    packet_refused(m, 1, BYTES(131, 70, IDS(8, 2), 82, 0), 25, 0);
    packet_refused(m, 1, BYTES(131, 70, IDS(7, 1), 82, 0), 24, 0);
    packet_refused(m, 1, BYTES(131, 70, IDS(7, 3), 82, 0), 24, 0);
    /* a plain packet between takes the place over; the pending list keeps its text */
    plain_is(take(m, 1, BYTES(131, 68, 1, 0x08, 5, 2, 'n', 'o', 82, 0)), 8, 2);
    before = copy_of(m);
    pending_is(take(m, 1, BYTES(131, 70, IDS(7, 2), 82, 0)), 1, 4);
    record_is(m, 7, 1, 4);
    SAME(differing(m, before), 1 << RECORD | 1 << GATHER);
    pending_is(take(m, 0, BYTES(131, 70, IDS(7, 1), 97, 9)), 0, 6);
    record_is(m, 0, 0, 0);
    CHECK(memcmp(m.at[GATHER], (const uint8_t[]){104, 2, 82, 0, 97, 9}, 6) == 0);
    list_is(m, PENDING_N, TEXTS("ok"));
    list_is(m, PLAIN_N, TEXTS("no"));
    uint8_t output[16];
    uint64_t scratch[3];
    struct ik_write_reply w = ik_write_payload(BOTH, m.at[GATHER], 6, *bytes(m, PENDING_N), m.at[PENDING_PLACES], IK_LIST_BYTES, m.at[PENDING_LENGTHS], IK_LIST_PLACES, scratch, 3, output, 16);
    SAME(w.length, 9);
    CHECK(memcmp(output, (const uint8_t[]){131, 104, 2, 119, 2, 'o', 'k', 97, 9}, 9) == 0);
    packet_refused(m, 1, BYTES(131, 70, IDS(7, 1), 97, 9), 25, 0);
    CHECK(guards_stand());

    /* a start that is whole */
    m = ready_memory();
    record(m)->gathered = 65536, record(m)->sequence = 3;
    pending_is(take(m, 1, BYTES(131, 69, IDS(0, 1), 0, 106)), 0, 1);
    record_is(m, 0, 0, 0);
    list_is(m, PENDING_N, 0, NULL);
    CHECK(guards_stand());
}

static void wrong_sizes(void)
{
    for (int i = 0; i < BUFFERS; i++) {
        if (!has_size(i))
            continue;
        for (int more = -1; more <= 1; more += 2) {
            struct memory m = of_wrong_size(i, more);
            record(m)->gathered = 70000; /* 13 comes before 14 */
            packet_refused(m, 1, NULL, 0, 13, 0);
            struct memory before = copy_of(m);
            struct ik_state_reply a = reset(m);
            if (i == CACHE || i == CACHE_LENGTHS) {
                SAME(a.refusal, 13);
                SAME(a.place, 0);
                SAME(differing(m, before), 0);
            } else {
                SAME(a.refusal, 0);
                SAME(differing(m, before), 1 << RECORD);
            }
            CHECK(guards_stand());
        }
    }
}

static void drops_and_resets(void)
{
    struct memory m = ready_memory();
    struct ik_state_reply a = drop(m);
    SAME(a.refusal, 25);
    SAME(a.place, 0);
    record(m)->gathered = 65537, record(m)->due = 4, record(m)->sequence = 8;
    a = drop(m);
    SAME(a.refusal, 14);
    SAME(a.place, 0);
    record_is(m, 8, 4, 65537);
    packet_refused(m, 1, BYTES(130), 14, 0);
    record(m)->gathered = 65536;
    a = drop(m);
    SAME(a.refusal, 0);
    SAME(a.place, 0);
    record_is(m, 0, 0, 0);
    record(m)->gathered = 65537, record(m)->due = 0;
    SAME(drop(m).refusal, 14);
    CHECK(guards_stand());
    m = lend_memory(0x77);
    struct memory before = copy_of(m);
    a = reset(m);
    SAME(a.refusal, 0);
    SAME(a.place, 0);
    CHECK(all(m.at[CACHE], IK_CACHE_BYTES, 0));
    CHECK(all(m.at[CACHE_LENGTHS], 2 * IK_CACHE_PLACES, 0xff));
    record_is(m, 0, 0, 0);
    SAME(differing(m, before), WHOLE_CACHE | 1 << RECORD);
    CHECK(guards_stand());
}

/* The most references a header has, spare bits set, and the largest FragmentId. */
static void extremes(void)
{
    uint8_t packet[3 + 128 + 255 * 3 + 1] = {131, 68, 255};
    struct memory m = ready_memory();
    /* 127 flag bytes of two new references; in the last one the high half is spare: all its bits set but LongAtoms */
    memset(packet + 3, 0x88, 127);
    packet[130] = 0xe8;
    for (unsigned i = 0; i < 255; i++) {
        packet[131 + 3 * i] = i;
        packet[131 + 3 * i + 1] = 1;
        packet[131 + 3 * i + 2] = 'a' + i % 26;
    }
    packet[131 + 255 * 3] = 106;
    plain_is(take(m, 1, packet, sizeof packet), 896, 1);
    SAME(*bytes(m, PLAIN_N), 255);
    for (unsigned i = 0; i < 255; i++) {
        const char text[2] = {'a' + i % 26, 0};
        place_is(m, CACHE, i, text);
        place_is(m, PLAIN_PLACES, i, text);
    }
    SAME(lengths(m, CACHE_LENGTHS)[255], IK_CACHE_EMPTY);
    /* the same place named again by the last: 22 there, and nothing changes */
    packet[131 + 3 * 254] = 0;
    packet_refused(m, 1, packet, sizeof packet, 22, 254);

    /* FragmentId 2^64 - 1: then 2^64 - 2 is due; an empty fragment; a single fragment is complete at once */
    m = ready_memory();
    SAME(take(m, 1, BYTES(131, 69, 0, 0, 0, 0, 0, 0, 0, 9, 255, 255, 255, 255, 255, 255, 255, 255, 0)).due, UINT64_MAX - 1);
    record_is(m, 9, UINT64_MAX - 1, 0);
    SAME(take(m, 1, BYTES(131, 70, 0, 0, 0, 0, 0, 0, 0, 9, 255, 255, 255, 255, 255, 255, 255, 254, 7)).due, UINT64_MAX - 2);
    record_is(m, 9, UINT64_MAX - 2, 1);
    m = ready_memory();
    SAME(take(m, 1, BYTES(131, 69, IDS(9, 1), 0, 97, 5)).kind, IK_PACKET_COMPLETE);
    record_is(m, 0, 0, 0);
    CHECK(bytes(m, GATHER)[0] == 97 && bytes(m, GATHER)[1] == 5);
    CHECK(guards_stand());
}

int main(void)
{
    extremes();
    plain_packets();
    longest_texts();
    refused_headers();
    long_payloads();
    fragments();
    wrong_sizes();
    drops_and_resets();
    SAME(packet_met, bits_of(BYTES(IK_ACCEPTED, IK_NO_VERSION, IK_CUT, IK_TEXT, IK_LONG, IK_SIZE, IK_STATE, IK_PACKET, IK_EMPTY_PLACE, IK_NAMED_AGAIN, IK_LONG_TEXT, IK_FRAGMENT, IK_SEQUENCE, IK_PENDING)));
    SAME(drop_met, bits_of(BYTES(IK_ACCEPTED, IK_STATE, IK_SEQUENCE)));
    SAME(reset_met, bits_of(BYTES(IK_ACCEPTED, IK_SIZE)));
    return ended("packets");
}
