/* ik_word. */
#include "memory.h"

static uint64_t word_met;

/* The answer; the lent list stays as it is. */
static struct ik_word_reply ask(struct list l, size_t index)
{
    static uint8_t places[IK_LIST_BYTES + 1];
    static uint16_t lengths[IK_LIST_PLACES + 1];
    memcpy(places, l.places, l.places_len);
    memcpy(lengths, l.lengths, 2 * l.lengths_len);
    struct ik_word_reply a = ik_word(BOTH, LIST(l), index);
    word_met |= bit(a.refusal);
    CHECK(memcmp(places, l.places, l.places_len) == 0);
    CHECK(memcmp(lengths, l.lengths, 2 * l.lengths_len) == 0);
    return a;
}

static void answer_is(struct list l, size_t index, unsigned refusal, size_t start, size_t length)
{
    struct ik_word_reply a = ask(l, index);
    SAME(a.refusal, refusal);
    SAME(a.place, 0);
    SAME(a.start, start);
    SAME(a.length, length);
}

static void refused(struct list l, size_t index, unsigned refusal) { answer_is(l, index, refusal, 0, 0); }

/* The word of a reference is this text, and stands at its place. */
static void word_is(struct list l, size_t index, const char *text)
{
    answer_is(l, index, 0, 32 * index, strlen(text));
    CHECK(memcmp(l.places + 32 * index, text, strlen(text)) == 0);
}

/* Another text for every i, of every length from 3 to 32. */
static const char *text_of(size_t i)
{
    static char text[IK_PLACE_BYTES + 1];
    memset(text, 'a' + (int)(i % 26), IK_PLACE_BYTES);
    text[snprintf(text, sizeof text, "%03zu", i)] = '-';
    text[3 + i % 30] = 0;
    return text;
}

/* A list of 255 places that all hold text, whatever n is. */
static struct list full_list(uint8_t n)
{
    struct list l = empty_list();
    for (size_t i = 0; i < IK_LIST_PLACES; i++)
        put_text(&l, i, text_of(i), (uint16_t)strlen(text_of(i)));
    l.n = n;
    return l;
}

/* 13 where there would be a word, a 6 and a 14. */
static void wrong_sizes(void)
{
    static const struct { size_t places, lengths; } sizes[] = {
        {0, 255}, {8159, 255}, {8161, 255}, {8160, 0}, {8160, 254}, {8160, 256}, {0, 0}, {8159, 256}, {8161, 254}};
    for (size_t k = 0; k < sizeof sizes / sizeof *sizes; k++) {
        struct list l = lend_list(sizes[k].places, sizes[k].lengths);
        refused(l, 0, 13);
        refused(l, SIZE_MAX, 13);
        l.n = 255;
        refused(l, 0, 13);
        refused(l, 254, 13);
        memset(l.lengths, 0xff, 2 * l.lengths_len);
        refused(l, 0, 13);
        CHECK(guards_stand());
    }
}

/* Of every n, the indices below it and no other. */
static void every_index(void)
{
    struct list l = full_list(0);
    for (size_t n = 0; n <= 255; n++) {
        l.n = (uint8_t)n;
        for (size_t index = 0; index <= 300; index++) {
            if (index < n)
                word_is(l, index, text_of(index));
            else
                refused(l, index, 6);
        }
    }
    CHECK(guards_stand());
}

/* Indices of which some low bits are below n. */
static void wide_indices(void)
{
    static const size_t past[] = {3, 4, 254, 255, 256, 258, 65535, 65536, 65538, (size_t)1 << 32, ((size_t)1 << 32) + 2, (size_t)1 << 63, SIZE_MAX};
    struct list l = full_list(3);
    word_is(l, 2, text_of(2));
    for (size_t k = 0; k < sizeof past / sizeof *past; k++)
        refused(l, past[k], 6);
    CHECK(guards_stand());
}

/* A length at the place asked for, and at the places beside it. */
static void lengths_of_places(void)
{
    static const uint16_t tried[] = {0, 1, 31, 32, 33, 34, 64, 255, 256, 288, 32768, 65534, 65535};
    static const size_t indices[] = {0, 1, 100, 253, 254};
    for (size_t k = 0; k < sizeof tried / sizeof *tried; k++)
        for (size_t j = 0; j < sizeof indices / sizeof *indices; j++) {
            struct list l = empty_list();
            size_t index = indices[j];
            l.n = 255;
            memset(l.places, 'x', l.places_len);
            l.lengths[index] = tried[k];
            answer_is(l, index, tried[k] <= 32 ? 0 : 14, tried[k] <= 32 ? 32 * index : 0, tried[k] <= 32 ? tried[k] : 0);
            if (index > 0)
                answer_is(l, index - 1, 0, 32 * (index - 1), 0);
            if (index < 254)
                answer_is(l, index + 1, 0, 32 * (index + 1), 0);
            CHECK(guards_stand());
        }
}

/* A byte that makes no UTF-8 among the ASCII, at each position of the place: inside the length, or past it. */
static void bad_bytes(size_t index)
{
    static const uint8_t bad[] = {0x80, 0xbf, 0xc0, 0xc3, 0xe2, 0xed, 0xf0, 0xf5, 0xff};
    struct list l = full_list(255);
    uint8_t *place = l.places + 32 * index;
    memset(place, 'x', IK_PLACE_BYTES);
    for (size_t length = 0; length <= 32; length++)
        for (size_t at = 0; at < 32; at++)
            for (size_t k = 0; k < sizeof bad / sizeof *bad; k++) {
                l.lengths[index] = (uint16_t)length;
                place[at] = bad[k];
                answer_is(l, index, at < length ? 14 : 0, at < length ? 0 : 32 * index, at < length ? 0 : length);
                place[at] = 'x';
            }
    CHECK(guards_stand());
}

#define FOUR(text) text text text text

/* 32 bytes in characters of two to four bytes; then a character that the length cuts, whose rest stands after it. */
static void wide_characters(void)
{
    struct list l = full_list(255);
    put_text(&l, 0, FOUR("\xc3\xa9\xc3\xa9\xc3\xa9\xc3\xa9"), 32);
    put_text(&l, 1, FOUR("\xf0\x9f\x98\x80\xf4\x8f\xbf\xbf"), 32);
    put_text(&l, 254, FOUR("\xe2\x82\xac\xe2\x82\xac") "\xe2\x82\xac\xe2\x82\xac\xc3\xa9", 32);
    word_is(l, 0, FOUR("\xc3\xa9\xc3\xa9\xc3\xa9\xc3\xa9"));
    word_is(l, 1, FOUR("\xf0\x9f\x98\x80\xf4\x8f\xbf\xbf"));
    word_is(l, 254, FOUR("\xe2\x82\xac\xe2\x82\xac") "\xe2\x82\xac\xe2\x82\xac\xc3\xa9");
    for (uint16_t cut = 1; cut < 4; cut++) {
        l.lengths[1] = 32 - cut;
        refused(l, 1, 14);
    }
    l.lengths[1] = 28;
    answer_is(l, 1, 0, 32, 28);
    /* cut by the place's end, the rest in the next place */
    put_text(&l, 10, FOUR("\xe2\x82\xac\xe2\x82\xac") "\xe2\x82\xac\xe2\x82\xac\xe2\x82\xac", 32);
    refused(l, 10, 14);
    put_text(&l, 254, FOUR("abcdefgh"), 32);
    l.places[IK_LIST_BYTES - 1] = 0xc3;
    refused(l, 254, 14);
    CHECK(guards_stand());
}

/* 6 where 14 would be, and text past n. */
static void past_the_count(void)
{
    struct list l = full_list(3);
    l.lengths[3] = 33;
    refused(l, 3, 6);
    l.lengths[3] = 1, l.places[32 * 3] = 0xff;
    refused(l, 3, 6);
    refused(l, 4, 6);
    word_is(l, 2, text_of(2));
    l.n = 0;
    refused(l, 0, 6);
    CHECK(guards_stand());
}

static void three_words(void)
{
    struct list l = three_texts();
    word_is(l, 0, "ok");
    word_is(l, 1, "\xc3\xa9");
    word_is(l, 2, "");
    CHECK(guards_stand());
}

/* The plain or the pending list where packets write it. */
static struct list list_in(struct memory m, int n)
{
    return (struct list){*bytes(m, n), m.at[n + 1], m.count[n + 1], m.at[n + 2], m.count[n + 2]};
}

/* A copy of it: what a caller keeps of a message. */
static struct list kept(struct memory m, int n)
{
    struct list l = list_in(m, n);
    l.places = lend_copy(l.places, l.places_len);
    l.lengths = lend_copy(l.lengths, 2 * l.lengths_len);
    return l;
}

/* The words of a list's references, and no more. */
static void words_are(struct list l, size_t count, const char *const *texts)
{
    for (size_t i = 0; i < count; i++)
        word_is(l, i, texts[i]);
    refused(l, count, 6);
    refused(l, 255, 6);
}

static void takes_in(struct memory m, uint8_t flags, const uint8_t *packet, size_t size, unsigned kind)
{
    struct ik_packet_reply a = take(m, flags, lend_copy(packet, size), size);
    SAME(a.refusal, 0);
    SAME(a.kind, kind);
}
static void takes(struct memory m, const uint8_t *packet, size_t size, unsigned kind) { takes_in(m, 1, packet, size, kind); }
static void plain(struct memory m, const uint8_t *packet, size_t size) { takes(m, packet, size, IK_PACKET_PLAIN); }

static void refuses(struct memory m, const uint8_t *packet, size_t size, unsigned refusal)
{
    SAME(take(m, 1, lend_copy(packet, size), size).refusal, refusal);
}

/* What the firmware does: the payload is read with its list, then the word of each 82 asked for; the text call answers the same stretch. */
static void payload_words(struct list l, const uint8_t *payload, size_t size, size_t count, const char *const *texts)
{
    uint64_t table[16];
    struct ik_read_reply r = ik_read_payload(BOTH, payload, size, LIST(l), table, 16);
    size_t met = 0;
    SAME(r.refusal, 0);
    for (size_t row = 0; row < r.rows; row++) {
        size_t offset = ik_row_offset(table[row]);
        if (payload[offset] != 82)
            continue;
        struct ik_text_reply text = ik_text_payload(BOTH, payload, size, LIST(l), offset);
        CHECK(met < count);
        word_is(l, payload[offset + 1], texts[met++]);
        SAME(text.from, IK_FROM_LIST);
        answer_is(l, payload[offset + 1], 0, text.start, text.length);
    }
    SAME(met, count);
}

/* A packet comes between that has another text for the place: each message keeps its own word. */
static void replaced(void)
{
    struct memory m = ready_memory();
    plain(m, BYTES(131, 68, 2, 0x88, 0, 7, 4, 's', 't', 'o', 'p', 8, 1, 'x', 82, 0));
    struct list first = kept(m, PLAIN_N);
    place_is(m, CACHE, 7, "stop");
    plain(m, BYTES(131, 68, 1, 0x08, 7, 2, 'g', 'o', 82, 0));
    struct list second = kept(m, PLAIN_N);
    place_is(m, CACHE, 7, "go");
    words_are(first, TEXTS("stop", "x"));
    words_are(second, TEXTS("go"));
    words_are(list_in(m, PLAIN_N), TEXTS("go"));
    /* cached, beside one that the first packet entered */
    plain(m, BYTES(131, 68, 3, 0x00, 0x00, 8, 7, 8));
    words_are(list_in(m, PLAIN_N), TEXTS("x", "go", "x"));
    plain(m, BYTES(131, 68, 2, 0x80, 0, 8, 7, 0));
    words_are(list_in(m, PLAIN_N), TEXTS("x", ""));
    /* a refused packet leaves the list */
    SAME(take(m, 1, BYTES(131, 68, 2, 0x08, 0, 7, 1, 'z', 99)).refusal, 21);
    words_are(list_in(m, PLAIN_N), TEXTS("x", ""));
    SAME(reset(m).refusal, 0);
    words_are(list_in(m, PLAIN_N), TEXTS("x", ""));
    words_are(first, TEXTS("stop", "x"));
    words_are(second, TEXTS("go"));
    CHECK(guards_stand());
}

/* Plain packets between the fragments take over all places of the start. */
static void between_fragments(void)
{
    struct memory m = ready_memory();
    struct list pending;
    plain(m, BYTES(131, 68, 1, 0x0f, 255, 3, 'o', 'l', 'd'));
    takes(m, BYTES(131, 69, IDS(7, 3), 3, 0x8c, 0x07, 10, 4, 's', 't', 'o', 'p', 5, 2, 0xc3, 0xa9, 255, 104, 3), IK_PACKET_PENDING);
    pending = list_in(m, PENDING_N);
    words_are(pending, TEXTS("stop", "\xc3\xa9", "old"));
    words_are(list_in(m, PLAIN_N), TEXTS("old"));
    plain(m, BYTES(131, 68, 1, 0x0c, 10, 2, 'g', 'o'));
    place_is(m, CACHE, 1034, "go");
    words_are(pending, TEXTS("stop", "\xc3\xa9", "old"));
    words_are(list_in(m, PLAIN_N), TEXTS("go"));
    plain(m, BYTES(131, 68, 2, 0xf8, 0, 5, 1, 'y', 255, 3, 'n', 'e', 'w'));
    place_is(m, CACHE, 2047, "new");
    words_are(pending, TEXTS("stop", "\xc3\xa9", "old"));
    words_are(list_in(m, PLAIN_N), TEXTS("y", "new"));
    takes(m, BYTES(131, 70, IDS(7, 2), 82, 0, 82, 1), IK_PACKET_PENDING);
    words_are(pending, TEXTS("stop", "\xc3\xa9", "old"));
    plain(m, BYTES(131, 68, 4, 0x44, 0x77, 0, 10, 10, 255, 255));
    words_are(list_in(m, PLAIN_N), TEXTS("go", "go", "new", "new"));
    words_are(pending, TEXTS("stop", "\xc3\xa9", "old"));
    takes(m, BYTES(131, 70, IDS(7, 1), 82, 2), IK_PACKET_COMPLETE);
    words_are(pending, TEXTS("stop", "\xc3\xa9", "old"));
    payload_words(pending, bytes(m, GATHER), 8, TEXTS("stop", "\xc3\xa9", "old"));
    words_are(list_in(m, PLAIN_N), TEXTS("go", "go", "new", "new"));
    /* text past n in the list, and in the cache */
    put_text(&pending, 3, "past", 4);
    refused(pending, 3, 6);
    CHECK(guards_stand());
}

/* What ends a sequence and what is refused leave its words; the next start that is accepted has its own. */
static void ends_and_refusals(void)
{
    struct memory m = ready_memory();
    takes(m, BYTES(131, 69, IDS(7, 1), 1, 0x08, 7, 1, 'a', 82, 0), IK_PACKET_COMPLETE);
    words_are(list_in(m, PENDING_N), TEXTS("a"));
    takes(m, BYTES(131, 69, IDS(8, 2), 2, 0x88, 0, 7, 1, 'b', 8, 1, 'c'), IK_PACKET_PENDING);
    words_are(list_in(m, PENDING_N), TEXTS("b", "c"));
    refuses(m, BYTES(131, 69, IDS(9, 2), 1, 0x08, 7, 1, 'd'), 26);
    refuses(m, BYTES(131, 70, IDS(9, 1)), 25);
    refuses(m, BYTES(131, 70, IDS(8, 2)), 24);
    words_are(list_in(m, PENDING_N), TEXTS("b", "c"));
    SAME(ik_drop(BOTH, record(m)).refusal, 0);
    words_are(list_in(m, PENDING_N), TEXTS("b", "c"));
    takes_in(m, 0, BYTES(131, 69, IDS(9, 2), 2, 0x08, 0, 7, 1, 0xe9, 8), IK_PACKET_PENDING); /* Latin-1 */
    words_are(list_in(m, PENDING_N), TEXTS("\xc3\xa9", "c"));
    SAME(reset(m).refusal, 0);
    words_are(list_in(m, PENDING_N), TEXTS("\xc3\xa9", "c"));
    CHECK(guards_stand());
}

/* A message without references has no words, though the list had some before. */
static void no_references(void)
{
    struct memory m = ready_memory();
    plain(m, BYTES(131, 68, 1, 0x08, 7, 1, 'a', 82, 0));
    words_are(list_in(m, PLAIN_N), TEXTS("a"));
    plain(m, BYTES(131, 68, 0, 106));
    refused(list_in(m, PLAIN_N), 0, 6);
    CHECK(guards_stand());
}

/* 131, 68 and a header of 255 references: reference i is place `first` + i times `step`, new with the text of that place, or cached. */
static size_t header_of_255(uint8_t *packet, size_t first, int step, int is_new)
{
    size_t size = 131, place = first;
    packet[0] = 131, packet[1] = 68, packet[2] = 255;
    memset(packet + 3, is_new ? 0x88 : 0, 128);
    packet[130] &= 0x0f;
    for (int i = 0; i < 255; i++, place += (size_t)step) {
        const char *text = text_of(place);
        packet[size++] = (uint8_t)place;
        if (!is_new)
            continue;
        packet[size++] = (uint8_t)strlen(text);
        memcpy(packet + size, text, strlen(text));
        size += strlen(text);
    }
    return size;
}

/* All references of the longest headers: new ones, cached ones the other way round, new ones over them. */
static void longest_headers(void)
{
    static uint8_t packet[131 + 255 * 34];
    struct memory m = ready_memory();
    plain(m, packet, header_of_255(packet, 0, 1, 1));
    struct list first = kept(m, PLAIN_N);
    plain(m, packet, header_of_255(packet, 254, -1, 0));
    struct list second = kept(m, PLAIN_N);
    plain(m, packet, header_of_255(packet, 256, 1, 1)); /* the texts of other numbers, at places 0 to 254 */
    for (size_t i = 0; i < 255; i++) {
        word_is(first, i, text_of(i));
        word_is(second, i, text_of(254 - i));
        word_is(list_in(m, PLAIN_N), i, text_of(256 + i));
        place_is(m, CACHE, i, text_of(256 + i));
    }
    refused(first, 255, 6);
    CHECK(guards_stand());
}

int main(void)
{
    three_words();
    wrong_sizes();
    every_index();
    wide_indices();
    lengths_of_places();
    bad_bytes(1);
    bad_bytes(254);
    wide_characters();
    past_the_count();
    replaced();
    between_fragments();
    ends_and_refusals();
    no_references();
    longest_headers();
    SAME(word_met, bits_of(BYTES(IK_ACCEPTED, IK_INDEX, IK_SIZE, IK_STATE)));
    return ended("words");
}
