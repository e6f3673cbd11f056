/* The connection's flags: in every call an unknown one is refused and each known one is taken; by IK_V4_NC tags 88 and 90 widen and no
 * other does; by IK_UTF8 the texts of headers are read. */
#include "memory.h"
#include "messages.h"

enum { KNOWN_BYTES = 4, ROOM = 9000 };

/* What is lent to the calls on terms. */
struct lent { const uint8_t *bytes; size_t size; struct list l; size_t rows; };

/* What all calls on a message answer: a refusal and its place, or terms, rows and the canonical form. */
struct due { unsigned refusal; size_t place; unsigned terms; size_t rows; const uint8_t *canonical; size_t length; };
#define REFUSED(refusal, place) (struct due){refusal, place, 0, 0, NULL, 0}

static struct lent lend_message(const uint8_t *bytes, size_t size, struct list l, size_t rows)
{
    return (struct lent){lend_copy(bytes, size), size, l, rows};
}

static void reads_so(uint8_t flags, enum form form, struct lent m, struct due due)
{
    uint64_t *table = lend(8 * m.rows, 0xa5);
    struct ik_read_reply a = (form == STANDALONE ? ik_read_standalone : ik_read_payload)(flags, m.bytes, m.size, LIST(m.l), table, m.rows);
    SAME(a.refusal, due.refusal);
    SAME(a.place, due.place);
    SAME(a.terms, due.terms);
    SAME(a.rows, due.rows);
    for (size_t row = 0; row < due.rows; row++)
        CHECK(ik_row_kind(table[row]) != IK_KIND_NONE);
    CHECK(all(table + due.rows, 8 * (m.rows - due.rows), 0));
}

static void writes_so(uint8_t flags, enum form form, struct lent m, struct due due)
{
    uint64_t *scratch = lend(8 * m.rows, 0xa5);
    uint8_t *output = lend(ROOM, 0x5a);
    struct ik_write_reply a = (form == STANDALONE ? ik_write_standalone : ik_write_payload)(flags, m.bytes, m.size, LIST(m.l), scratch, m.rows, output, ROOM);
    SAME(a.refusal, due.refusal);
    SAME(a.place, due.place);
    SAME(a.terms, due.terms);
    SAME(a.length, due.length);
    CHECK(due.length == 0 || memcmp(output, due.canonical, due.length) == 0);
    CHECK(all(output + due.length, ROOM - due.length, 0x5a));
    CHECK(all(scratch, 8 * m.rows, 0));
}

/* The three questions, of row 0 and of offset 0, where no atom's tag stands. */
static void answers_so(uint8_t flags, enum form form, struct lent m, struct due due)
{
    struct ik_number_reply n = (form == STANDALONE ? ik_number_standalone : ik_number_payload)(flags, m.bytes, m.size, LIST(m.l), 0);
    SAME(n.refusal, due.refusal);
    SAME(n.place, due.place);
    SAME(n.kind, IK_NUMBER_NEITHER);
    SAME(n.integer, 0);
    CHECK(all(&n.real, 8, 0));
    struct ik_text_reply t = (form == STANDALONE ? ik_text_standalone : ik_text_payload)(flags, m.bytes, m.size, LIST(m.l), 0);
    SAME(t.from, IK_FROM_NOWHERE);
    SAME(t.start, 0);
    SAME(t.length, 0);
    struct ik_mark_reply k = (form == STANDALONE ? ik_mark_standalone : ik_mark_payload)(flags, m.bytes, m.size, LIST(m.l), 0);
    SAME(k.refusal, due.refusal ? due.refusal : IK_FIELD);
    SAME(k.place, due.place);
    SAME(k.mark, 0);
}

/* All calls on a message; message and list stay as they are. Numbers and marks have 8,192 rows of their own. */
static void all_calls(uint8_t flags, enum form form, struct lent m, struct due due)
{
    struct lent before = lend_message(m.bytes, m.size, m.l, m.rows);
    uint8_t *places = lend_copy(m.l.places, m.l.places_len);
    uint16_t *lengths = lend_copy(m.l.lengths, 2 * m.l.lengths_len);
    reads_so(flags, form, m, due);
    writes_so(flags, form, m, due);
    answers_so(flags, form, m, due);
    CHECK(memcmp(m.bytes, before.bytes, m.size) == 0);
    CHECK(memcmp(m.l.places, places, m.l.places_len) == 0);
    CHECK(memcmp(m.l.lengths, lengths, 2 * m.l.lengths_len) == 0);
    CHECK(guards_stand());
}

static void word_is(uint8_t flags, struct list l, size_t index, unsigned refusal, size_t start, size_t length)
{
    struct ik_word_reply a = ik_word(flags, LIST(l), index);
    SAME(a.refusal, refusal);
    SAME(a.place, 0);
    SAME(a.start, start);
    SAME(a.length, length);
}

static void drop_refused(uint8_t flags, struct ik_pending p, unsigned refusal)
{
    struct ik_pending *lent = lend_copy(&p, sizeof p);
    struct ik_state_reply a = ik_drop(flags, lent);
    SAME(a.refusal, refusal);
    SAME(a.place, 0);
    CHECK(memcmp(lent, &p, sizeof p) == 0);
    CHECK(guards_stand());
}

/* ---- unknown flags: 14 at 0 */

static const uint8_t long_message[IK_MESSAGE_MOST + 1];

/* Before every refusal of a message, in each form. */
static void unknown_on_terms(uint8_t flags)
{
    const struct { const uint8_t *bytes; size_t size; } tried[] = {
        {BYTES(131, 104, 2, 82, 0, 97, 5)}, {BYTES(104, 2, 82, 0, 97, 5)}, {NOTHING}, {BYTES(130, 97, 5)}, {BYTES(131)}, {BYTES(131, 0)}, {BYTES(131, 82, 3)}, {BYTES(131, 97, 5, 0)}};
    for (enum form form = STANDALONE; form <= PAYLOAD; form++) {
        for (size_t i = 0; i < sizeof tried / sizeof *tried; i++)
            all_calls(flags, form, lend_message(tried[i].bytes, tried[i].size, three_texts(), 4), REFUSED(14, 0));
        all_calls(flags, form, lend_message(BYTES(131, 97, 5), three_texts(), 0), REFUSED(14, 0));
        all_calls(flags, form, lend_message(long_message, sizeof long_message, three_texts(), 4), REFUSED(14, 0));
        struct list l = three_texts();
        l.lengths[0] = 33;
        all_calls(flags, form, lend_message(BYTES(131, 82, 0), l, 4), REFUSED(14, 0));
    }
}

/* 11 is later too: no room at all. */
static void unknown_before_output(uint8_t flags)
{
    SAME(ik_write_standalone(flags, BYTES(131, 97, 5), LIST(three_texts()), lend(8, 1), 1, lend(0, 0), 0).refusal, 14);
    SAME(ik_write_payload(flags, BYTES(97, 5), LIST(three_texts()), lend(8, 1), 1, lend(0, 0), 0).refusal, 14);
    CHECK(guards_stand());
}

static void unknown_on_words(uint8_t flags)
{
    struct list l = three_texts();
    word_is(flags, l, 0, 14, 0, 0);
    word_is(flags, l, 3, 14, 0, 0);
    word_is(flags, l, SIZE_MAX, 14, 0, 0);
    l.lengths[1] = 33;
    word_is(flags, l, 1, 14, 0, 0);
    CHECK(guards_stand());
}

/* Before every refusal of a packet, whether a sequence is pending or not. */
static void unknown_on_packets(uint8_t flags, struct ik_pending p)
{
    struct memory m = ready_memory();
    *record(m) = p;
    packet_refused(m, flags, NULL, 0, 14, 0);
    packet_refused(m, flags, BYTES(130), 14, 0);
    packet_refused(m, flags, BYTES(131), 14, 0);
    packet_refused(m, flags, BYTES(131, 71), 14, 0);
    packet_refused(m, flags, BYTES(131, 68, 0, 97, 5), 14, 0);
    packet_refused(m, flags, BYTES(131, 68, 1, 0x08, 7, 2, 'o', 'k', 82, 0), 14, 0);
    packet_refused(m, flags, BYTES(131, 68, 1, 0x08, 7, 2, 255, 255), 14, 0);
    packet_refused(m, flags, BYTES(131, 68, 1, 0, 7), 14, 0);
    packet_refused(m, flags, BYTES(131, 69, IDS(7, 2), 0, 104, 1), 14, 0);
    packet_refused(m, flags, BYTES(131, 69, IDS(7, 0), 0), 14, 0);
    packet_refused(m, flags, BYTES(131, 70, IDS(7, 1), 106), 14, 0);
    CHECK(guards_stand());
}

static void unknown_on_drops(uint8_t flags)
{
    drop_refused(flags, (struct ik_pending){7, 1, 3}, 14);
    drop_refused(flags, (struct ik_pending){0, 0, 0}, 14);
    drop_refused(flags, (struct ik_pending){7, 1, 65537}, 14);
}

/* The payload of a packet beyond the most is 12 by a known byte, 14 by another. */
static void unknown_before_long_payloads(uint8_t flags)
{
    static uint8_t packet[3 + IK_MESSAGE_MOST + 1] = {131, 68, 0};
    struct memory m = ready_memory();
    packet_refused(m, BOTH, packet, sizeof packet, 12, 0);
    packet_refused(m, flags, packet, sizeof packet, 14, 0);
    CHECK(guards_stand());
}

/* 13 by the same byte where a size is wrong, in every call that has a 13. */
static void sizes_before_unknown(uint8_t flags)
{
    for (int i = 0; i < 4; i++) {
        for (enum form form = STANDALONE; form <= PAYLOAD; form++)
            all_calls(flags, form, lend_message(BYTES(131, 97, 5), list_of_wrong_size(i), 4), REFUSED(13, 0));
        word_is(flags, list_of_wrong_size(i), 0, 13, 0, 0);
        CHECK(guards_stand());
    }
    for (int i = 0; i < BUFFERS; i++) {
        if (!has_size(i))
            continue;
        for (int more = -1; more <= 1; more += 2) {
            packet_refused(of_wrong_size(i, more), flags, BYTES(131, 68, 0, 97, 5), 13, 0);
            CHECK(guards_stand());
        }
    }
}

static void every_unknown_byte(void)
{
    for (unsigned flags = KNOWN_BYTES; flags < 256; flags++) {
        unknown_on_terms((uint8_t)flags);
        unknown_before_output((uint8_t)flags);
        unknown_on_words((uint8_t)flags);
        unknown_on_packets((uint8_t)flags, (struct ik_pending){0, 0, 0});
        unknown_on_packets((uint8_t)flags, (struct ik_pending){7, 1, 3});
        unknown_on_packets((uint8_t)flags, (struct ik_pending){7, 1, 65537});
        unknown_on_drops((uint8_t)flags);
    }
    for (unsigned flags = 4; flags < 256; flags = 2 * flags) {
        sizes_before_unknown((uint8_t)flags);
        sizes_before_unknown((uint8_t)(flags | BOTH));
        unknown_before_long_payloads((uint8_t)flags);
    }
}

/* ---- known flags */

static void known_on_packets(uint8_t flags)
{
    struct memory m = ready_memory();
    SAME(take(m, flags, BYTES(131, 68, 1, 0x08, 7, 2, 'o', 'k', 82, 0)).kind, IK_PACKET_PLAIN);
    place_is(m, CACHE, 7, "ok");
    SAME(take(m, flags, BYTES(131, 69, IDS(7, 3), 1, 0, 7, 104)).kind, IK_PACKET_PENDING);
    SAME(take(m, flags, BYTES(131, 70, IDS(7, 2), 1)).kind, IK_PACKET_PENDING);
    SAME(ik_drop(flags, record(m)).refusal, 0);
    CHECK(all(record(m), sizeof(struct ik_pending), 0));
    drop_refused(flags, (struct ik_pending){0, 0, 0}, 25);
    CHECK(guards_stand());
}

static void known_on_words(uint8_t flags)
{
    struct list l = three_texts();
    word_is(flags, l, 1, 0, 32, 2);
    word_is(flags, l, 2, 0, 64, 0);
    word_is(flags, l, 3, 6, 0, 0);
    l.lengths[0] = 33;
    word_is(flags, l, 0, 14, 0, 0);
    CHECK(guards_stand());
}

/* Whatever no flag is about answers the same by each: all messages of messages.h, their canonical forms those by both flags. */
static void known_on_messages(uint8_t flags)
{
    for (int i = 0; i < MESSAGES; i++) {
        const struct message *m = &messages[i];
        uint8_t output[100];
        struct ik_write_reply w = (m->form == STANDALONE ? ik_write_standalone : ik_write_payload)(BOTH, m->bytes, m->size, LIST(three_texts()), lend(800, 0), 100, output, 100);
        struct due due = {m->refusal, m->place, m->terms, m->rows, output, w.length};
        reads_so(flags, m->form, lend_message(m->bytes, m->size, three_texts(), 100), due);
        writes_so(flags, m->form, lend_message(m->bytes, m->size, three_texts(), 100), due);
        CHECK(guards_stand());
    }
}

/* Each call goes by its own byte: a sequence is begun by one and goes on by others. */
static void from_call_to_call(void)
{
    struct memory m = ready_memory();
    SAME(take(m, IK_UTF8, BYTES(131, 69, IDS(7, 3), 1, 0x08, 7, 2, 0xc3, 0xa9, 104)).refusal, 0);
    SAME(take(m, IK_V4_NC, BYTES(131, 70, IDS(7, 2), 1)).refusal, 0);
    packet_refused(m, 64, BYTES(131, 70, IDS(7, 1), 106), 14, 0);
    SAME(take(m, 0, BYTES(131, 70, IDS(7, 1), 106)).kind, IK_PACKET_COMPLETE);
    place_is(m, PENDING_PLACES, 0, "\xc3\xa9");
    CHECK(guards_stand());
}

/* ---- the texts of headers */

/* A plain packet, and a start, with this text for a new reference: refused so, or stored as `stored`. */
static void header_text(uint8_t flags, const char *text, const char *stored, unsigned bad)
{
    static const uint8_t openings[2][18] = {{131, 68}, {131, 69, IDS(7, 2)}};
    static const size_t sizes[2] = {2, 18};
    for (int i = 0; i < 2; i++) {
        uint8_t packet[64];
        size_t size = sizes[i];
        memcpy(packet, openings[i], size);
        memcpy(packet + size, (const uint8_t[]){1, 0x08, 7, (uint8_t)strlen(text)}, 4);
        memcpy(packet + size + 4, text, strlen(text));
        struct memory m = ready_memory();
        if (stored) {
            SAME(take(m, flags, packet, size + 4 + strlen(text)).refusal, 0);
            place_is(m, CACHE, 7, stored);
            place_is(m, i ? PENDING_PLACES : PLAIN_PLACES, 0, stored);
        } else {
            packet_refused(m, flags, packet, size + 4 + strlen(text), 5, size + 4 + bad);
        }
        CHECK(guards_stand());
    }
}

static void header_texts(uint8_t flags)
{
    int utf8 = (flags & IK_UTF8) != 0;
    header_text(flags, "ok", "ok", 0);
    header_text(flags, "a\xe9", utf8 ? NULL : "a\xc3\xa9", 1);
    header_text(flags, "\xc3\xa9", utf8 ? "\xc3\xa9" : "\xc3\x83\xc2\xa9", 0);
    header_text(flags, "\x80", utf8 ? NULL : "\xc2\x80", 0);
    header_text(flags, "ab\xff", utf8 ? NULL : "ab\xc3\xbf", 2);
}

/* ---- identifiers */

static const uint8_t node[] = {119, 1, 'n'};
enum { MOST = 0xffffffff };

/* A term that is being built. */
struct term { uint8_t bytes[128]; size_t size; };

static void put(struct term *t, size_t width, uint64_t number)
{
    for (size_t i = 0; i < width; i++)
        t->bytes[t->size++] = (uint8_t)(number >> 8 * (width - 1 - i));
}
static void put_node(struct term *t)
{
    memcpy(t->bytes + t->size, node, sizeof node);
    t->size += sizeof node;
}

static struct term pid(uint8_t tag, uint64_t id, uint64_t serial, uint64_t creation)
{
    struct term t = {{tag}, 1};
    put_node(&t);
    put(&t, 4, id);
    put(&t, 4, serial);
    put(&t, tag == 88 ? 4 : 1, creation);
    return t;
}

static struct term port(uint8_t tag, uint64_t id, uint64_t creation)
{
    struct term t = {{tag}, 1};
    put_node(&t);
    put(&t, tag == 120 ? 8 : 4, id);
    put(&t, tag == 102 ? 1 : 4, creation);
    return t;
}

/* A reference by 90 or 114 that says it has `count` words, and has `there`: the first, zeros, the last. */
static struct term reference(uint8_t tag, unsigned count, unsigned there, uint64_t creation, uint64_t first, uint64_t last)
{
    struct term t = {{tag}, 1};
    put(&t, 2, count);
    put_node(&t);
    put(&t, tag == 90 ? 4 : 1, creation);
    for (unsigned i = 0; i < there; i++)
        put(&t, 4, i == 0 ? first : i + 1 == there ? last : 0);
    return t;
}

static struct term old_reference(uint64_t word, uint64_t creation)
{
    struct term t = {{101}, 1};
    put_node(&t);
    put(&t, 4, word);
    put(&t, 1, creation);
    return t;
}

/* The same identifier with its node by tag 100: it is not its own canonical form. */
static struct term by_old_node(struct term t)
{
    static const uint8_t old[] = {100, 0, 1, 'n'};
    size_t at = t.bytes[0] == 90 || t.bytes[0] == 114 ? 3 : 1;
    memmove(t.bytes + at + sizeof old, t.bytes + at + sizeof node, t.size - at - sizeof node);
    memcpy(t.bytes + at, old, sizeof old);
    t.size++;
    return t;
}

/* A message: 131 where the form has it, these bytes, the term. */
static size_t message_of(uint8_t *to, enum form form, const uint8_t *before, size_t count, struct term t)
{
    size_t size = 0;
    if (form == STANDALONE)
        to[size++] = 131;
    memcpy(to + size, before, count);
    memcpy(to + size + count, t.bytes, t.size);
    return size + count + t.size;
}

/* A term through all calls, in each form: alone, as a part, as a payload's second term. Its canonical form is `canonical`; or it is
 * refused at its own byte `place`. */
static void judged(uint8_t flags, struct term t, unsigned refusal, size_t place, struct term canonical)
{
    static const struct { uint8_t bytes[3]; size_t size, rows; } before[] = {{{0}, 0, 0}, {{104, 1}, 2, 1}, {{97, 5}, 2, 1}};
    for (enum form form = STANDALONE; form <= PAYLOAD; form++)
        for (int i = 0; i < 2 + (form == PAYLOAD); i++) {
            uint8_t bytes[160], out[160] = {131};
            size_t size = message_of(bytes, form, before[i].bytes, before[i].size, t), length = 1 + before[i].size;
            struct lent m = lend_message(bytes, size, empty_list(), 4);
            memcpy(out + 1, before[i].bytes, before[i].size);
            if (i == 2)
                out[length++] = 131;
            memcpy(out + length, canonical.bytes, canonical.size);
            struct due due = {0, 0, i == 2 ? 2 : 1, 2 + before[i].rows, out, length + canonical.size};
            if (refusal)
                due = REFUSED(refusal, (form == STANDALONE) + before[i].size + place);
            reads_so(flags, form, m, due);
            writes_so(flags, form, m, due);
            if (i < 2)
                answers_so(flags, form, m, due);
            CHECK(guards_stand());
        }
}

/* A term that is taken or is 4 at its tag, by its fields; its last field cut, it is 2 there whatever they are. */
static void fields(uint8_t flags, struct term t, int good, struct term canonical)
{
    judged(flags, t, good ? 0 : 4, 0, canonical);
    judged(flags, by_old_node(t), good ? 0 : 4, 0, canonical);
    t.size--;
    judged(flags, t, 2, 0, canonical);
}

static void pids(uint8_t flags, uint64_t id, uint64_t serial)
{
    int narrow = id < 1 << 15 && serial < 1 << 13, wide = (flags & IK_V4_NC) != 0;
    fields(flags, pid(88, id, serial, 0), narrow || wide, pid(88, id, serial, 0));
    fields(flags, pid(88, id, serial, MOST), narrow || wide, pid(88, id, serial, MOST));
    fields(flags, pid(103, id, serial, 3), narrow, pid(88, id, serial, 3));
    fields(flags, pid(103, id, serial, 4), 0, pid(88, id, serial, 4));
}

static void ports(uint8_t flags, uint64_t id)
{
    int narrow = id < 1 << 28;
    struct term canonical = port(narrow ? 89 : 120, id, 3);
    if (id <= MOST) {
        fields(flags, port(89, id, 3), narrow, canonical);
        fields(flags, port(102, id, 3), narrow, canonical);
        fields(flags, port(102, id, 4), 0, canonical);
    }
    fields(flags, port(120, id, 3), 1, canonical);
}

/* A word count that is taken; its words may have all bits by 90, the first only 18 by 114. */
static void words_taken(uint8_t flags, uint8_t tag, unsigned count)
{
    uint64_t first = tag == 90 ? MOST : (1 << 18) - 1;
    uint64_t last = count == 1 ? first : MOST;
    fields(flags, reference(tag, count, count, 3, first, last), 1, reference(90, count, count, 3, first, last));
    if (tag == 114) {
        fields(flags, reference(tag, count, count, 3, 1 << 18, 0), 0, reference(90, 1, 1, 3, 0, 0));
        fields(flags, reference(tag, count, count, 4, 0, 0), 0, reference(90, 1, 1, 3, 0, 0));
    }
    /* what comes after the count is judged where it stands */
    struct term t = reference(tag, count, count, 0, 0, 0);
    t.bytes[3] = 97;
    judged(flags, t, 4, 3, t);
    t.size = 3;
    judged(flags, t, 2, 3, t);
}

/* A word count that is not: 4 at the tag, whatever comes after it, and before 8 and 9. */
static void words_refused(uint8_t flags, uint8_t tag, unsigned count)
{
    struct term t = reference(tag, count, count < 8 ? count : 8, 0, 0, 0);
    judged(flags, t, 4, 0, t);
    t.bytes[3] = 97;
    judged(flags, t, 4, 0, t);
    t.size = 3;
    judged(flags, t, 4, 0, t);
    reads_so(flags, PAYLOAD, lend_message(t.bytes, t.size, empty_list(), 0), REFUSED(4, 0));
    t.size = 2;
    judged(flags, t, 2, 0, t);
}

static void word_counts(uint8_t flags, unsigned count)
{
    unsigned most = flags & IK_V4_NC ? 5 : 3;
    (1 <= count && count <= most ? words_taken : words_refused)(flags, 90, count);
    (1 <= count && count <= 3 ? words_taken : words_refused)(flags, 114, count);
}

static void old_references(uint8_t flags)
{
    fields(flags, old_reference((1 << 18) - 1, 3), 1, reference(90, 1, 1, 3, (1 << 18) - 1, 0));
    fields(flags, old_reference(1 << 18, 3), 0, reference(90, 1, 1, 3, 0, 0));
    fields(flags, old_reference(MOST, 3), 0, reference(90, 1, 1, 3, 0, 0));
    fields(flags, old_reference(0, 4), 0, reference(90, 1, 1, 3, 0, 0));
}

static void identifiers(uint8_t flags)
{
    static const uint64_t ids[] = {0, (1 << 15) - 1, 1 << 15, 1 << 16, 1 << 28, (uint64_t)1 << 31, MOST};
    static const uint64_t serials[] = {0, (1 << 13) - 1, 1 << 13, 1 << 16, (uint64_t)1 << 31, MOST};
    static const uint64_t port_ids[] = {0, (1 << 28) - 1, 1 << 28, MOST, (uint64_t)MOST + 1, UINT64_MAX};
    static const unsigned counts[] = {0, 1, 2, 3, 4, 5, 6, 7, 8, 255, 256, 257, 260, 261, 1024, 1280, 65535};
    for (size_t i = 0; i < sizeof ids / sizeof *ids; i++)
        for (size_t k = 0; k < sizeof serials / sizeof *serials; k++)
            pids(flags, ids[i], serials[k]);
    for (size_t i = 0; i < sizeof port_ids / sizeof *port_ids; i++)
        ports(flags, port_ids[i]);
    for (size_t i = 0; i < sizeof counts / sizeof *counts; i++)
        word_counts(flags, counts[i]);
    old_references(flags);
}

/* ---- rows, and what the flag lets in later */

static void row_is(uint64_t word, unsigned kind, unsigned offset, uint64_t whole, unsigned parts, unsigned size)
{
    SAME(ik_row_kind(word), kind);
    SAME(ik_row_offset(word), offset);
    SAME(ik_row_whole(word), whole);
    SAME(ik_row_parts(word), parts);
    SAME(ik_row_size(word), size);
}

/* {Pid, Reference, 42}: rows, number, text and mark stand behind both; the same message without the flag is 4 at the first of them. */
static void rows_of_wide(uint8_t utf8)
{
    struct term p = pid(88, MOST, MOST, MOST), r = reference(90, 5, 5, MOST, MOST, MOST);
    uint8_t bytes[128] = {131, 104, 3};
    memcpy(bytes + 3, p.bytes, p.size);
    memcpy(bytes + 19, r.bytes, r.size);
    memcpy(bytes + 49, (const uint8_t[]){97, 42}, 2);
    uint64_t *table = lend(8 * 8, 0xa5);
    SAME(ik_read_standalone(utf8 | IK_V4_NC, bytes, 51, LIST(empty_list()), table, 8).rows, 6);
    row_is(table[0], IK_KIND_TUPLE, 1, IK_NO_WHOLE, 3, 6);
    row_is(table[1], IK_KIND_PID, 3, 0, 1, 2);
    row_is(table[2], IK_KIND_ATOM, 4, 1, 0, 1);
    row_is(table[3], IK_KIND_REFERENCE, 19, 0, 1, 2);
    row_is(table[4], IK_KIND_ATOM, 22, 3, 0, 1);
    row_is(table[5], IK_KIND_INTEGER, 49, 0, 0, 1);
    CHECK(all(table + 6, 8 * 2, 0));
    SAME(ik_number_standalone(utf8 | IK_V4_NC, bytes, 51, LIST(empty_list()), 5).integer, 42);
    struct ik_text_reply t = ik_text_standalone(utf8 | IK_V4_NC, bytes, 51, LIST(empty_list()), 22);
    SAME(t.from, IK_FROM_MESSAGE);
    SAME(t.start, 24);
    SAME(t.length, 1);
    SAME(ik_mark_standalone(utf8 | IK_V4_NC, bytes, 51, LIST(empty_list()), 4).mark, IK_MARK_UTF8);
    all_calls(utf8 | IK_V4_NC, STANDALONE, lend_message(bytes, 51, empty_list(), 6), (struct due){0, 0, 1, 6, bytes, 51});
    all_calls(utf8, STANDALONE, lend_message(bytes, 51, empty_list(), 6), REFUSED(4, 3));
    all_calls(utf8, PAYLOAD, lend_message(bytes + 1, 50, empty_list(), 6), REFUSED(4, 2));
}

/* Rows and depth are judged where the flag lets a count pass, its node's too; else 4 comes before both. */
static void rows_and_depth(uint8_t utf8)
{
    struct term t = reference(90, 5, 5, 0, 0, 0);
    uint8_t bytes[200];
    size_t size = nested_tuples(bytes, 65) - 2;
    memcpy(bytes + size, t.bytes, t.size);
    reads_so(utf8 | IK_V4_NC, STANDALONE, lend_message(bytes, size + t.size, empty_list(), 100), REFUSED(8, 129));
    reads_so(utf8, STANDALONE, lend_message(bytes, size + t.size, empty_list(), 100), REFUSED(4, 129));
    reads_so(utf8 | IK_V4_NC, STANDALONE, lend_message(bytes, size + t.size, empty_list(), 64), REFUSED(8, 129));
    reads_so(utf8 | IK_V4_NC, PAYLOAD, lend_message(t.bytes, t.size, empty_list(), 0), REFUSED(9, 0));
    reads_so(utf8 | IK_V4_NC, PAYLOAD, lend_message(t.bytes, t.size, empty_list(), 1), REFUSED(9, 3));
    reads_so(utf8, PAYLOAD, lend_message(t.bytes, t.size, empty_list(), 0), REFUSED(4, 0));
    CHECK(guards_stand());
}

/* ---- sizes of messages: [Binary, Pid, Reference], the binary as long as it takes */

static void of_size(uint8_t utf8, size_t size)
{
    static uint8_t bytes[ROOM];
    struct term p = pid(88, MOST, MOST, 7), r = reference(90, 5, 5, 7, MOST, MOST);
    size_t padding = size - 12 - p.size - r.size;
    const uint8_t head[] = {131, 108, 0, 0, 0, 3, 109, 0, 0, (uint8_t)(padding >> 8), (uint8_t)padding};
    memset(bytes, 0, sizeof bytes);
    memcpy(bytes, head, sizeof head);
    memcpy(bytes + 11 + padding, p.bytes, p.size);
    memcpy(bytes + size - 1 - r.size, r.bytes, r.size);
    bytes[size - 1] = 106;
    for (enum form form = STANDALONE; form <= PAYLOAD; form++) {
        size_t earlier = form == PAYLOAD;
        struct due due = {0, 0, 1, 6, bytes, size};
        all_calls(utf8 | IK_V4_NC, form, lend_message(bytes + earlier, size - earlier, empty_list(), 6), due);
        all_calls(utf8, form, lend_message(bytes + earlier, size - earlier, empty_list(), 6), REFUSED(4, 11 + padding - earlier));
        all_calls(8, form, lend_message(bytes + earlier, size - earlier, empty_list(), 6), REFUSED(14, 0));
    }
}

static void sizes(uint8_t utf8)
{
    static const size_t around[] = {64, 256, 1024, 2048, 8192};
    for (size_t i = 0; i < sizeof around / sizeof *around; i++)
        for (size_t size = around[i] - 2; size <= around[i] + 2; size++)
            of_size(utf8, size);
}

/* ---- keys */

/* 131 and a map of two keys in this order, their values a binary of so many zeros. */
static size_t put_map(uint8_t *to, const struct term *first, const struct term *second, unsigned value)
{
    const struct term *keys[] = {first, second};
    size_t size = 6;
    memcpy(to, (const uint8_t[]){131, 116, 0, 0, 0, 2}, size);
    for (int i = 0; i < 2; i++) {
        memcpy(to + size, keys[i]->bytes, keys[i]->size), size += keys[i]->size;
        memcpy(to + size, (const uint8_t[]){109, 0, 0, (uint8_t)(value >> 8), (uint8_t)value}, 5), size += 5;
        memset(to + size, 0, value), size += value;
    }
    return size;
}

/* Whether the bytes of a come before those of b, neither of which begins with the other. */
static int comes_before(const struct term *a, const struct term *b)
{
    return memcmp(a->bytes, b->bytes, a->size < b->size ? a->size : b->size) < 0;
}

/* A map of two keys; the second is refused by 7, also if its node has another tag, or it is not, and then they are written in order. */
static void two_keys(uint8_t utf8, struct term a, struct term b, unsigned value, int equal)
{
    uint8_t bytes[4096], canonical[4096];
    size_t size = put_map(bytes, &a, &b, value), later = 6 + a.size + 5 + value;
    put_map(canonical, comes_before(&a, &b) ? &a : &b, comes_before(&a, &b) ? &b : &a, value);
    struct due due = {0, 0, 1, 7, canonical, size};
    if (equal)
        due = REFUSED(7, later);
    all_calls(utf8 | IK_V4_NC, STANDALONE, lend_message(bytes, size, empty_list(), 7), due);
    all_calls(utf8, STANDALONE, lend_message(bytes, size, empty_list(), 7), REFUSED(4, 6));
}

/* Keys, each of which differs from the others in one field. */
static void keys(uint8_t utf8, unsigned value)
{
    const struct term tried[] = {
        pid(88, MOST, 1, 1), pid(88, (uint64_t)1 << 31, 1, 1), pid(88, 1 << 16 | 1, 1, 1), pid(88, 1 << 15, 1, 1), pid(88, 1 << 15, (uint64_t)1 << 31, 1),
        pid(88, 1 << 15, 1 << 16 | 1, 1), pid(88, 1 << 15, MOST, 1), pid(88, 1 << 15, MOST, 2),
        reference(90, 5, 5, 1, 7, 0), reference(90, 5, 5, 1, 7, 1), reference(90, 5, 5, 1, 7, MOST), reference(90, 5, 5, 2, 7, 0), reference(90, 5, 5, 1, 8, 0),
        reference(90, 4, 4, 1, 7, 0), reference(90, 4, 4, 1, 7, 1),
    };
    enum { TRIED = sizeof tried / sizeof *tried };
    for (int i = 0; i < TRIED; i++)
        for (int k = 0; k < TRIED; k++)
            two_keys(utf8, tried[i], i == k && value ? by_old_node(tried[k]) : tried[k], value, i == k);
}

/* Key i of many: pids that differ in ID or Serial alone, references in their last word. */
enum many { PIDS, FOUR_WORDS, FIVE_WORDS, MANY };
static struct term key_of(enum many kind, unsigned i, uint32_t step)
{
    uint32_t number = i * step;
    if (kind != PIDS)
        return kind == FOUR_WORDS ? reference(90, 4, 4, 1, MOST, number) : reference(90, 5, 5, 1, MOST, number);
    return i % 2 ? pid(88, 5, number, 1) : pid(88, number, 5, 1);
}

/* A map of many keys; the last is another one, or that of pair `as` again. */
static void many_keys(enum many kind, unsigned count, uint32_t step, unsigned as)
{
    static uint8_t bytes[70000];
    size_t size = 6, last = 0;
    memcpy(bytes, (const uint8_t[]){131, 116, 0, 0, (uint8_t)(count >> 8), (uint8_t)count}, 6);
    for (unsigned i = 0; i < count; i++) {
        struct term key = key_of(kind, i + 1 < count ? i : as, step);
        last = size;
        memcpy(bytes + size, key.bytes, key.size);
        bytes[size + key.size] = 106;
        size += key.size + 1;
    }
    struct due due = {0, 0, 1, 1 + 3 * count, NULL, 0};
    if (as + 1 != count)
        due = REFUSED(7, last);
    reads_so(IK_V4_NC, STANDALONE, lend_message(bytes, size, empty_list(), 8192), due);
    CHECK(guards_stand());
}

/* On each side of the sizes at which the set of keys grows, and as many as there is room for. */
static void many(void)
{
    static const unsigned counts[] = {3, 30, 70, 2000};
    static const uint32_t steps[] = {1, 1 << 15, 65521, 1 << 16, 1 << 20};
    for (enum many kind = PIDS; kind < MANY; kind++)
        for (size_t i = 0; i < sizeof counts / sizeof *counts; i++)
            for (size_t k = 0; k < sizeof steps / sizeof *steps; k++) {
                many_keys(kind, counts[i], steps[k], counts[i] - 1);
                many_keys(kind, counts[i], steps[k], 0);
                many_keys(kind, counts[i], steps[k], counts[i] / 2);
            }
}

int main(void)
{
    every_unknown_byte();
    for (unsigned flags = 0; flags < KNOWN_BYTES; flags++) {
        known_on_packets((uint8_t)flags);
        known_on_words((uint8_t)flags);
        known_on_messages((uint8_t)flags);
        header_texts((uint8_t)flags);
        identifiers((uint8_t)flags);
    }
    from_call_to_call();
    for (uint8_t utf8 = 0; utf8 <= IK_UTF8; utf8++) {
        rows_of_wide(utf8);
        rows_and_depth(utf8);
        sizes(utf8);
        keys(utf8, 0);
        keys(utf8, 1000);
    }
    many();
    return ended("flags");
}
