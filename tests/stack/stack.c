/* Measures the stack that each call uses, over the messages that go deepest: on a stack of its own, filled before, it looks how far down
 * bytes were changed. Prints a table for docs/STACK.md; with -v also each call over each message. Built and run by tests/stack/run. */
#include <stdio.h>
#include <stdlib.h>
#include <string.h>
#include <ucontext.h>
#include "ikparumo.h"

enum { BOTH = IK_UTF8 | IK_V4_NC, STACK = 4 << 20, FILL = 0xa5 };
static uint8_t stack[STACK];
static ucontext_t back, there;
static void (*call)(void);

static uint8_t msg[70000];
static size_t size;
static uint8_t places[IK_LIST_BYTES], cache[IK_CACHE_BYTES], gather[IK_GATHER_BYTES], output[IK_MESSAGE_MOST], n;
static uint16_t lengths[IK_LIST_PLACES], cache_lengths[IK_CACHE_PLACES];
static uint64_t table[IK_ROWS_MOST];
static struct ik_pending record;
static uint64_t refusal;

static void nothing(void) {}
static void read_it(void) { refusal = ik_read_standalone(BOTH, msg, size, 0, places, sizeof places, lengths, 255, table, IK_ROWS_MOST).refusal; }
static void write_it(void) { refusal = ik_write_standalone(BOTH, msg, size, 0, places, sizeof places, lengths, 255, table, IK_ROWS_MOST, output, sizeof output).refusal; }
static void number_it(void) { refusal = ik_number_standalone(BOTH, msg, size, 0, places, sizeof places, lengths, 255, 0).refusal; }
static void text_it(void) { ik_text_standalone(BOTH, msg, size, 0, places, sizeof places, lengths, 255, 1); }
static void mark_it(void) { refusal = ik_mark_standalone(BOTH, msg, size, 0, places, sizeof places, lengths, 255, 1).refusal; }
static void packet_it(void)
{
    static uint8_t m, more[IK_LIST_BYTES];
    static uint16_t more_lengths[IK_LIST_PLACES];
    refusal = ik_packet(BOTH, msg, size, cache, sizeof cache, cache_lengths, IK_CACHE_PLACES, &n, places, sizeof places, lengths, 255,
                        &m, more, sizeof more, more_lengths, 255, &record, gather, sizeof gather).refusal;
}
static void drop_it(void) { ik_drop(BOTH, &record); }
static void reset_it(void) { ik_reset(cache, sizeof cache, cache_lengths, IK_CACHE_PLACES, &record); }
static void word_it(void) { refusal = ik_word(BOTH, n, places, sizeof places, lengths, 255, 254).refusal; }

static void run_call(void) { call(); }

static size_t used(void (*what)(void))
{
    memset(stack, FILL, STACK);
    getcontext(&there);
    there.uc_stack.ss_sp = stack;
    there.uc_stack.ss_size = STACK;
    there.uc_link = &back;
    call = what;
    makecontext(&there, run_call, 0);
    swapcontext(&back, &there);
    size_t low = 0;
    while (low < STACK && stack[low] == FILL)
        low++;
    return STACK - low;
}

static void put(const uint8_t *bytes, size_t count) { memcpy(msg + size, bytes, count), size += count; }
#define PUT(...) put((const uint8_t[]){__VA_ARGS__}, sizeof((const uint8_t[]){__VA_ARGS__}))

static int wholes; /* that stand around the inmost term: its depth less 1 */

static void tuples(int count)
{
    for (int i = 0; i < count; i++)
        PUT(104, 1);
    PUT(106);
}
static void in_tuples(void) { tuples(wholes); }
static void in_lists(void)
{
    for (int i = 0; i < wholes; i++)
        PUT(108, 0, 0, 0, 1);
    PUT(107, 0, 0);
    for (int i = 0; i < wholes; i++)
        PUT(106);
}
static void in_tails(void)
{
    for (int i = 0; i < wholes; i++)
        PUT(108, 0, 0, 0, 1, 106, 104, 1);
    PUT(106);
}
static void in_maps(void)
{
    for (int i = 0; i < wholes; i++)
        PUT(116, 0, 0, 0, 1, 106);
    PUT(106);
}
static void in_keys(void)
{
    for (int i = 0; i < wholes; i++)
        PUT(116, 0, 0, 0, 1);
    PUT(106);
    for (int i = 0; i < wholes; i++)
        PUT(106);
}
static void equal_keys(void)
{
    PUT(116, 0, 0, 0, 2);
    tuples(wholes - 1);
    PUT(106);
    tuples(wholes - 1);
    PUT(106);
}
/* Maps in one another by value or by key, each with so many pairs, these turned or not. */
static void maps_in(int count, int pairs, int by_key, int turned)
{
    if (count == 0) {
        PUT(106);
        return;
    }
    PUT(116, 0, 0, 0, (uint8_t)pairs);
    for (int i = 0; i < pairs; i++) {
        int pair = turned ? pairs - 1 - i : i;
        if (pair == 0 && by_key)
            maps_in(count - 1, pairs, by_key, turned);
        else
            PUT(97, (uint8_t)pair);
        if (pair == 0 && !by_key)
            maps_in(count - 1, pairs, by_key, turned);
        else
            PUT(106);
    }
}
static void equal_maps(int pairs, int by_key)
{
    PUT(116, 0, 0, 0, 2);
    for (int turned = 0; turned < 2; turned++) {
        maps_in(wholes - 1, pairs, by_key, turned);
        PUT(106);
    }
}
static void by_value_2(void) { equal_maps(2, 0); }
static void by_key_2(void) { equal_maps(2, 1); }
static void by_value_32(void) { equal_maps(32, 0); }
static void by_key_32(void) { equal_maps(32, 1); }
static void pid_in(int count)
{
    for (int i = 0; i < count; i++)
        PUT(104, 1);
    PUT(88, 100, 0, 1, 'n', 0, 0, 0, 1, 0, 0, 0, 2, 0, 0, 0, 3);
}
static void pids(void) { pid_in(wholes - 1); }
static void joined(void)
{
    for (int i = 0; i < 8191; i++)
        PUT(108, 0, 0, 0, 1, 106);
    PUT(106);
}
static void wrapped(void)
{
    for (int i = 0; i < 13000; i++)
        PUT(108, 0, 0, 0, 0);
    PUT(106);
}
static void wide(void)
{
    PUT(105, 0, 0, 31, 255);
    for (int i = 0; i < 8191; i++)
        PUT(106);
}

static const struct { const char *name; void (*build)(void); } builds[] = {
    {"tuples", in_tuples}, {"lists", in_lists}, {"improper tails", in_tails}, {"maps by value", in_maps}, {"maps by key", in_keys},
    {"two equal keys", equal_keys}, {"equal maps of 2 by value", by_value_2}, {"equal maps of 2 by key", by_key_2},
    {"equal maps of 32 by value", by_value_32}, {"equal maps of 32 by key", by_key_32}, {"a pid in tuples", pids}, {"8,191 joined tails", joined}, {"13,000 lists of length 0", wrapped}, {"8,191 parts", wide},
};
static const struct { const char *name; void (*run)(void); } on_terms[] = {
    {"ik_read_*", read_it}, {"ik_write_*", write_it}, {"ik_number_*", number_it}, {"ik_text_*", text_it}, {"ik_mark_*", mark_it},
}, on_packets[] = {
    {"ik_packet", packet_it}, {"ik_word", word_it}, {"ik_reset", reset_it}, {"ik_drop", drop_it},
};
#define EACH(i, array) (size_t i = 0; i < sizeof array / sizeof *array; i++)

/* Sizes of messages: at least and at most so many bytes. */
static const struct { const char *name; size_t least, most; } classes[] = {
    {"up to 256 bytes", 0, 256}, {"up to 1,024", 257, 1024}, {"longer", 4097, IK_MESSAGE_MOST},
};
enum { CLASSES = sizeof classes / sizeof *classes };

static int all;
static size_t base;

/* A message with this term and, where it is to be longer, a binary before it in a list. */
static void put_message(size_t b, size_t padding)
{
    size = 0;
    PUT(131);
    if (padding > 0)
        PUT(108, 0, 0, 0, 2, 109, 0, 0, (uint8_t)(padding >> 8), (uint8_t)padding);
    for (size_t i = 0; i < padding; i++)
        PUT(0);
    builds[b].build();
    if (padding > 0)
        PUT(106);
}

/* A message of this class with at most so many levels, as many as fit. Answers 0 where none fits. */
static int build_message(size_t b, size_t k, int levels)
{
    for (int most = levels - 1; most > 1; most--) {
        wholes = most;
        put_message(b, 0);
        if (size < classes[k].least) {
            wholes = most - 1;
            put_message(b, classes[k].least);
        }
        if (size <= classes[k].most)
            return 1;
    }
    return 0;
}

/* The most that this call takes over all messages of a class, with so many levels. */
static size_t most_of(size_t c, size_t k, int levels)
{
    size_t most = 0;
    for EACH(b, builds) {
        if (!build_message(b, k, levels))
            continue;
        size_t s = used(on_terms[c].run) - base;
        if (all)
            printf("  %s, %s, %s: %zu bytes, %zu of stack (refusal %d)\n", on_terms[c].name, classes[k].name, builds[b].name, size, s, (int)refusal);
        most = s > most ? s : most;
    }
    return most;
}

/* {ack, 1, ok} */
static size_t of_ack(size_t c)
{
    size = 0;
    PUT(131, 104, 3, 119, 3, 'a', 'c', 'k', 97, 1, 119, 2, 'o', 'k');
    return used(on_terms[c].run) - base;
}

static const char *commas(size_t number)
{
    static char text[40];
    if (number < 1000)
        sprintf(text, "%zu", number);
    else
        sprintf(text, "%zu,%03zu", number / 1000, number % 1000);
    return text;
}

static void term_line(size_t c)
{
    size_t most[CLASSES], fewer = most_of(c, CLASSES - 1, 54);
    for EACH(k, classes)
        most[k] = most_of(c, k, 64);
    printf("| `%s` | %s ", on_terms[c].name, commas(of_ack(c)));
    for EACH(k, classes)
        printf("| %s ", commas(most[k]));
    printf("| %s |\n", commas((most[CLASSES - 1] - fewer) / 10));
}

/* A header of 255 references, the last one with 32 bytes in characters of four: the word that is asked for. */
static void build_header(void)
{
    size = 0;
    PUT(131, 68, 255);
    for (int i = 0; i < 128; i++)
        PUT(i < 127 ? 0x88 : 0x08);
    for (int i = 0; i < 254; i++)
        PUT((uint8_t)i, 3, 'a', 'b', 'c');
    PUT(254, 32);
    for (int i = 0; i < 8; i++)
        PUT(0xf4, 0x8f, 0xbf, 0xbf);
}

int main(int count, char **words)
{
    all = count > 1 && strcmp(words[1], "-v") == 0;
    base = used(nothing);
    printf("| call | `{ack, 1, ok}`, 14 bytes ");
    for EACH(k, classes)
        printf("| %s ", classes[k].name);
    printf("| of these for each level |\n|---|---|---|---|---|---|\n");
    for EACH(c, on_terms)
        term_line(c);
    for EACH(i, cache_lengths)
        cache_lengths[i] = 0;
    build_header();
    printf("\n| call | bytes |\n|---|---|\n");
    for EACH(c, on_packets)
        printf("| `%s` | %s |\n", on_packets[c].name, commas(used(on_packets[c].run) - base));
    return 0;
}
