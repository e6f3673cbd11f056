/* Measures our calls and libei's in one process on the same messages, in alternating rounds, best of several.
 * Usage: speed CORPUS WRITTEN NAME..: reads each CORPUS/NAME, writes what was written of it to WRITTEN/NAME.ours and WRITTEN/NAME.libei,
 * and prints one line for each name: nanoseconds a message. Ends with 1 where a side refuses a message.
 * Memory is lent warm and is not cleared before a call; what a call itself clears is part of its time. The clock is the thread's processor
 * time, so that other programs' turns are not counted. */
#include <stdio.h>
#include <stdlib.h>
#include <string.h>
#include <time.h>
#include "ikparumo.h"
#include "libei.h"

enum { BOTH = IK_UTF8 | IK_V4_NC, MESSAGES_MOST = 1024, ROUNDS = 15, ROUNDS_SLOW = 2, WORKS_MOST = 9, OUTPUT_BYTES = 4 * BYTES_MOST };
static const double LEAST_NS = 3e5, SLOW_NS = 2e7; /* a round lasts at least the one; rounds beyond the other are few */

struct message {
    const uint8_t *bytes;
    size_t size, rows, atom;        /* the offset of its last atom, or 0 */
    uint64_t *table;                /* with exactly the rows that it needs */
    struct element *elements;       /* what libei decoded of it */
    size_t count;
};

static struct message messages[MESSAGES_MOST];
static size_t message_count, byte_count;
static uint8_t places[IK_LIST_BYTES], output[OUTPUT_BYTES];
static uint16_t lengths[IK_LIST_PLACES];
static uint64_t full_table[IK_ROWS_MOST];
static struct element passing;
static struct decoder reading = {&passing, 0, 0};
static volatile uint64_t sink;      /* keeps answers alive */

static _Noreturn void fail(const char *name, size_t i, const char *why, unsigned long long number)
{
    fprintf(stderr, "speed: %s, message %zu: %s (%llu)\n", name, i, why, number);
    exit(1);
}

/* ---- the work to be measured, one message each */

static struct ik_read_reply read_with(const struct message *m, uint64_t *table, size_t rows)
{
    return ik_read_standalone(BOTH, m->bytes, m->size, 0, places, sizeof places, lengths, IK_LIST_PLACES, table, rows);
}

static struct ik_write_reply write_with(const struct message *m, uint64_t *table, size_t rows)
{
    return ik_write_standalone(BOTH, m->bytes, m->size, 0, places, sizeof places, lengths, IK_LIST_PLACES, table, rows, output, sizeof output);
}

static void read_exact(const struct message *m) { sink = read_with(m, m->table, m->rows).rows; }
static void read_full(const struct message *m) { sink = read_with(m, full_table, IK_ROWS_MOST).rows; }
static void read_libei(const struct message *m) { sink = (uint64_t)libei_decode(&reading, m->bytes, m->size); }
static void number_last(const struct message *m)
{
    sink = ik_number_standalone(BOTH, m->bytes, m->size, 0, places, sizeof places, lengths, IK_LIST_PLACES, m->rows - 1).kind;
}
static void text_last(const struct message *m)
{
    sink = ik_text_standalone(BOTH, m->bytes, m->size, 0, places, sizeof places, lengths, IK_LIST_PLACES, m->atom).length;
}
static void mark_last(const struct message *m)
{
    sink = ik_mark_standalone(BOTH, m->bytes, m->size, 0, places, sizeof places, lengths, IK_LIST_PLACES, m->atom).mark;
}
static void write_exact(const struct message *m) { sink = write_with(m, m->table, m->rows).length; }
static void write_full(const struct message *m) { sink = write_with(m, full_table, IK_ROWS_MOST).length; }
static void write_libei(const struct message *m) { sink = (uint64_t)libei_encode(m->elements, m->count, output); }

/* ---- packets: plain ones and fragments */

static uint8_t cache[IK_CACHE_BYTES], gather[IK_GATHER_BYTES], plain_n, pending_n;
static uint8_t plain_places[IK_LIST_BYTES], pending_places[IK_LIST_BYTES];
static uint16_t cache_lengths[IK_CACHE_PLACES], plain_lengths[IK_LIST_PLACES], pending_lengths[IK_LIST_PLACES];
static struct ik_pending record;

static struct ik_packet_reply take_packet(const struct message *m)
{
    return ik_packet(BOTH, m->bytes, m->size, cache, sizeof cache, cache_lengths, IK_CACHE_PLACES, &plain_n, plain_places,
                     sizeof plain_places, plain_lengths, IK_LIST_PLACES, &pending_n, pending_places, sizeof pending_places,
                     pending_lengths, IK_LIST_PLACES, &record, gather, sizeof gather);
}

/* Takes a packet and reads the payload that it is or ends, if any. */
static struct ik_read_reply read_packet(const struct message *m, uint64_t *table, size_t rows)
{
    struct ik_packet_reply p = take_packet(m);
    if (p.kind == IK_PACKET_PLAIN)
        return ik_read_payload(BOTH, m->bytes + p.offset, p.length, plain_n, plain_places, sizeof plain_places, plain_lengths, IK_LIST_PLACES,
                               table, rows);
    if (p.kind == IK_PACKET_COMPLETE)
        return ik_read_payload(BOTH, gather, p.gathered, pending_n, pending_places, sizeof pending_places, pending_lengths, IK_LIST_PLACES,
                               table, rows);
    return (struct ik_read_reply){p.refusal, p.place, 0, 0};
}

static void packet_alone(const struct message *m) { sink = take_packet(m).length; }
static void packet_read(const struct message *m) { sink = read_packet(m, m->table, m->rows).rows; }
/* The last reference by the packet's own list, which is the same for all packets of a corpus; one without references is refused. */
static void packet_word(const struct message *m)
{
    int plain = m->bytes[1] == 68;
    uint8_t n = plain ? plain_n : pending_n;
    sink = ik_word(BOTH, n, plain ? plain_places : pending_places, IK_LIST_BYTES, plain ? plain_lengths : pending_lengths, IK_LIST_PLACES,
                   (size_t)n - 1).length;
}
static void packet_drop(const struct message *m)
{
    (void)m;
    record = (struct ik_pending){1, 2, 0};
    sink = ik_drop(BOTH, &record).refusal;
}
static void packet_reset(const struct message *m)
{
    (void)m;
    sink = ik_reset(cache, sizeof cache, cache_lengths, IK_CACHE_PLACES, &record).refusal;
}

/* ---- measuring */

struct work {
    void (*run)(const struct message *);
    size_t repeats;
    double best;
};

static double now_ns(void)
{
    struct timespec t;
    clock_gettime(CLOCK_THREAD_CPUTIME_ID, &t);
    return 1e9 * (double)t.tv_sec + (double)t.tv_nsec;
}

/* The nanoseconds a message of one round. */
static double round_ns(const struct work *w)
{
    double start = now_ns();
    for (size_t r = 0; r < w->repeats; r++)
        for (size_t i = 0; i < message_count; i++)
            w->run(&messages[i]);
    return (now_ns() - start) / (double)(w->repeats * message_count);
}

/* Finds how often a round repeats its messages; answers how many rounds there are to be. */
static int prepare(struct work *w)
{
    w->repeats = 1;
    w->best = round_ns(w);
    double once_ns = w->best * (double)message_count;
    if (once_ns < LEAST_NS)
        w->repeats = (size_t)(LEAST_NS / once_ns) + 1;
    return once_ns < SLOW_NS ? ROUNDS : ROUNDS_SLOW;
}

/* Alternating rounds: each work once in every round. */
static void measure(struct work *works, size_t count)
{
    int rounds[WORKS_MOST];
    for (size_t k = 0; k < count; k++)
        rounds[k] = prepare(&works[k]);
    for (int r = 0; r < ROUNDS; r++)
        for (size_t k = 0; k < count; k++) {
            double ns = r < rounds[k] ? round_ns(&works[k]) : works[k].best;
            if (ns < works[k].best)
                works[k].best = ns;
        }
}

static void measure_and_print(const char *name, struct work *works, size_t count)
{
    measure(works, count);
    printf("%s\t%zu\t%zu", name, byte_count, message_count);
    for (size_t k = 0; k < count; k++)
        printf("\t%.2f", works[k].best);
    printf("\n");
    fflush(stdout);
}

/* ---- messages from a file */

static uint8_t *load(const char *path, size_t *size)
{
    FILE *f = fopen(path, "rb");
    if (!f)
        fail(path, 0, "no such file", 0);
    fseek(f, 0, SEEK_END);
    *size = (size_t)ftell(f);
    rewind(f);
    uint8_t *bytes = memory(*size + 1);
    if (fread(bytes, 1, *size, f) != *size)
        fail(path, 0, "not read", 0);
    fclose(f);
    return bytes;
}

/* Each message stands in memory of its own, after its length in 4 bytes. */
static void load_messages(const char *path)
{
    size_t size;
    uint8_t *bytes = load(path, &size);
    message_count = byte_count = 0;
    for (size_t at = 0; at < size;) {
        const uint8_t *b = bytes + at;
        size_t n = (size_t)b[0] << 24 | (size_t)b[1] << 16 | (size_t)b[2] << 8 | b[3];
        if (message_count == MESSAGES_MOST || size - at < 4 + n)
            fail(path, message_count, "bad file", n);
        uint8_t *own = memory(n);
        memcpy(own, b + 4, n);
        messages[message_count++] = (struct message){own, n, 0, 0, NULL, NULL, 0};
        byte_count += n;
        at += 4 + n;
    }
    free(bytes);
}

static void decode_tree(const char *name, size_t i)
{
    static struct element many[ELEMENTS_MOST];
    struct decoder keeping = {many, 0, 1};
    struct message *m = &messages[i];
    long count = libei_decode(&keeping, m->bytes, m->size);
    if (count < 0)
        fail(name, i, "libei refuses it", 0);
    m->count = (size_t)count;
    m->elements = memory(m->count * sizeof *many);
    memcpy(m->elements, many, m->count * sizeof *many);
}

static void put_written(FILE *f, size_t length)
{
    uint8_t head[4] = {(uint8_t)(length >> 24), (uint8_t)(length >> 16), (uint8_t)(length >> 8), (uint8_t)length};
    fwrite(head, 1, sizeof head, f);
    fwrite(output, 1, length, f);
}

static FILE *open_written(const char *dir, const char *name, const char *side)
{
    char path[4096];
    snprintf(path, sizeof path, "%s/%s.%s", dir, name, side);
    FILE *f = fopen(path, "wb");
    if (!f)
        fail(path, 0, "cannot be written", 0);
    return f;
}

/* Both sides read and write every message once; a table of exactly its rows is lent from then on. */
static void settle_terms(const char *name, const char *written)
{
    FILE *ours = open_written(written, name, "ours"), *theirs = open_written(written, name, "libei");
    for (size_t i = 0; i < message_count; i++) {
        struct message *m = &messages[i];
        struct ik_read_reply r = read_with(m, full_table, IK_ROWS_MOST);
        if (r.refusal)
            fail(name, i, "ik_read_standalone refuses it", r.refusal);
        m->rows = r.rows;
        m->table = memory(m->rows * sizeof *m->table);
        for (size_t row = 0; row < m->rows; row++)
            if (ik_row_kind(full_table[row]) == IK_KIND_ATOM)
                m->atom = ik_row_offset(full_table[row]);
        struct ik_write_reply w = write_with(m, m->table, m->rows);
        if (w.refusal)
            fail(name, i, "ik_write_standalone refuses it", w.refusal);
        put_written(ours, w.length);
        decode_tree(name, i);
        long length = libei_encode(m->elements, m->count, output);
        if (length < 0)
            fail(name, i, "libei writes it not", 0);
        put_written(theirs, (size_t)length);
    }
    fclose(ours);
    fclose(theirs);
}

static void settle_packets(const char *name)
{
    ik_reset(cache, sizeof cache, cache_lengths, IK_CACHE_PLACES, &record);
    for (size_t i = 0; i < message_count; i++) {
        struct message *m = &messages[i];
        struct ik_read_reply r = read_packet(m, full_table, IK_ROWS_MOST);
        if (r.refusal)
            fail(name, i, "ik_packet or ik_read_payload refuses it", r.refusal);
        m->rows = r.rows;
        m->table = memory(m->rows * sizeof *m->table);
    }
}

static void measure_file(const char *corpus, const char *written, const char *name)
{
    char path[4096];
    snprintf(path, sizeof path, "%s/%s", corpus, name);
    load_messages(path);
    if (strncmp(name, "packet-", 7) == 0) {
        settle_packets(name);
        measure_and_print(name, (struct work[]){{packet_alone, 0, 0}, {packet_read, 0, 0}, {packet_word, 0, 0}, {packet_drop, 0, 0}}, 4);
        measure_and_print("reset", (struct work[]){{packet_reset, 0, 0}}, 1);
        return;
    }
    settle_terms(name, written);
    if (strncmp(name, "worst-", 6) == 0) {
        measure_and_print(name, (struct work[]){{read_exact, 0, 0}, {write_exact, 0, 0}}, 2);
        return;
    }
    measure_and_print(name, (struct work[]){{read_exact, 0, 0}, {read_full, 0, 0}, {read_libei, 0, 0}, {write_exact, 0, 0},
                                            {write_full, 0, 0}, {write_libei, 0, 0}, {number_last, 0, 0}, {text_last, 0, 0},
                                            {mark_last, 0, 0}}, 9);
}

int main(int argc, char **argv)
{
    if (argc < 3)
        return 2;
    ei_init();
    for (int i = 3; i < argc; i++)
        measure_file(argv[1], argv[2], argv[i]);
    return 0;
}
