/* Drives the exported calls by lines of standard input: one command a line, one answer a line.
 * Build: gcc -O2 -Wall -Wextra -I include tests/drive/drive.c LIBRARY -o drive
 * It holds the memory that a firmware would lend; no rule of the format stands here. */
#include <stdio.h>
#include <stdlib.h>
#include <string.h>
#include "ikparumo.h"

/* The memory, in the order in which `changed` names it. */
enum { CACHE, LENGTHS, PLAIN_COUNT, PLAIN_TEXTS, PLAIN_LENGTHS, PENDING_COUNT, PENDING_TEXTS, PENDING_LENGTHS, RECORD, GATHER, TABLE, OUTPUT, PARTS };

struct part {
    const char *name;
    size_t width;  /* bytes of an element */
    size_t count;  /* elements lent */
    int fixed;     /* its size cannot be changed */
    uint8_t *memory;
    uint8_t *same; /* its form at the last `same` */
    size_t same_size;
};

static struct part parts[PARTS] = {
    {"cache", 1, IK_CACHE_BYTES, 0, 0, 0, 0},
    {"lengths", 2, IK_CACHE_PLACES, 0, 0, 0, 0},
    {"plain-count", 1, 1, 1, 0, 0, 0},
    {"plain-texts", 1, IK_LIST_BYTES, 0, 0, 0, 0},
    {"plain-lengths", 2, IK_LIST_PLACES, 0, 0, 0, 0},
    {"pending-count", 1, 1, 1, 0, 0, 0},
    {"pending-texts", 1, IK_LIST_BYTES, 0, 0, 0, 0},
    {"pending-lengths", 2, IK_LIST_PLACES, 0, 0, 0, 0},
    {"record", 8, 3, 1, 0, 0, 0},
    {"gather", 1, IK_GATHER_BYTES, 0, 0, 0, 0},
    {"table", 8, IK_ROWS_MOST, 0, 0, 0, 0},
    {"output", 1, IK_MESSAGE_MOST, 0, 0, 0, 0},
};

static const uint8_t empty_texts[IK_LIST_BYTES];
static const uint16_t empty_lengths[IK_LIST_PLACES];

/* The words of the line, and the reason why it is no command. */
struct word { const char *text; size_t length; };
static struct word words[8];
static size_t word_count;
static const char *why;

static void *room(size_t bytes)
{
    void *memory = calloc(bytes ? bytes : 8, 1);
    if (!memory) {
        fprintf(stderr, "drive: no memory\n");
        exit(1);
    }
    return memory;
}

/* Elements stand in the machine's order, forms in big-endian order. */
static uint8_t *form_of(const struct part *p)
{
    uint8_t *form = room(p->count * p->width);
    for (size_t i = 0; i < p->count; i++)
        for (size_t k = 0; k < p->width; k++)
            form[i * p->width + k] = p->memory[i * p->width + p->width - 1 - k];
    return form;
}

static void put_form(const struct part *p, const uint8_t *form)
{
    for (size_t i = 0; i < p->count; i++)
        for (size_t k = 0; k < p->width; k++)
            p->memory[i * p->width + p->width - 1 - k] = form[i * p->width + k];
}

static void keep_same(void)
{
    for (int i = 0; i < PARTS; i++) {
        free(parts[i].same);
        parts[i].same = form_of(&parts[i]);
        parts[i].same_size = parts[i].count * parts[i].width;
    }
}

static int is(struct word w, const char *text)
{
    return w.length == strlen(text) && memcmp(w.text, text, w.length) == 0;
}

static struct part *part_named(struct word w)
{
    for (int i = 0; i < PARTS; i++)
        if (is(w, parts[i].name))
            return &parts[i];
    why = "name";
    return NULL;
}

static int number_of(struct word w, uint64_t *value)
{
    uint64_t sum = 0;
    why = "number";
    if (w.length == 0)
        return 0;
    for (size_t i = 0; i < w.length; i++) {
        if (w.text[i] < '0' || w.text[i] > '9')
            return 0;
        sum = sum * 10 + (uint64_t)(w.text[i] - '0');
        if (sum > UINT32_MAX)
            return 0;
    }
    *value = sum;
    return 1;
}

static int digit_of(char c)
{
    if (c >= '0' && c <= '9')
        return c - '0';
    if (c >= 'a' && c <= 'f')
        return c - 'a' + 10;
    return -1;
}

/* The bytes of a word of hex, in memory of exactly that size. */
static uint8_t *bytes_of(struct word w, size_t *size)
{
    why = "hex";
    if (is(w, "-")) {
        *size = 0;
        return room(0);
    }
    if (w.length == 0 || w.length % 2 != 0)
        return NULL;
    for (size_t i = 0; i < w.length; i++)
        if (digit_of(w.text[i]) < 0)
            return NULL;
    *size = w.length / 2;
    uint8_t *bytes = room(*size);
    for (size_t i = 0; i < *size; i++)
        bytes[i] = (uint8_t)(digit_of(w.text[2 * i]) * 16 + digit_of(w.text[2 * i + 1]));
    return bytes;
}

static void print_hex(const uint8_t *bytes, size_t size)
{
    if (size == 0)
        putchar('-');
    for (size_t i = 0; i < size; i++) {
        putchar("0123456789abcdef"[bytes[i] >> 4]);
        putchar("0123456789abcdef"[bytes[i] & 15]);
    }
}

/* 1 standalone, 0 payload. */
static int form_named(struct word w, int *standalone)
{
    *standalone = is(w, "standalone");
    why = "form";
    return *standalone || is(w, "payload");
}

/* The connection byte, handed to every call but ik_reset. */
static uint8_t flags = IK_UTF8;

struct list { uint8_t n; const uint8_t *texts; size_t texts_len; const uint16_t *lengths; size_t lengths_len; };

static int list_named(struct word w, struct list *l)
{
    int count = is(w, "plain") ? PLAIN_COUNT : PENDING_COUNT;
    why = "list";
    if (is(w, "empty")) {
        *l = (struct list){0, empty_texts, IK_LIST_BYTES, empty_lengths, IK_LIST_PLACES};
        return 1;
    }
    if (!is(w, "plain") && !is(w, "pending"))
        return 0;
    *l = (struct list){*parts[count].memory, parts[count + 1].memory, parts[count + 1].count,
                       (const uint16_t *)(const void *)parts[count + 2].memory, parts[count + 2].count};
    return 1;
}

static uint16_t *numbers(int part) { return (uint16_t *)(void *)parts[part].memory; }
static uint64_t *rows(void) { return (uint64_t *)(void *)parts[TABLE].memory; }
static struct ik_pending *record(void) { return (struct ik_pending *)(void *)parts[RECORD].memory; }

static unsigned long long wide(uint64_t x) { return x; }

static int refused(uint64_t refusal, uint64_t place)
{
    if (refusal == 0)
        return 0;
    printf("refused %llu %llu", wide(refusal), wide(place));
    return 1;
}

/* Each command answers on standard output, or returns 0 with `why` set, having changed and printed nothing. */

static int do_set(void)
{
    struct part *p = part_named(words[1]);
    uint64_t offset;
    size_t size;
    if (!p || !number_of(words[2], &offset))
        return 0;
    uint8_t *bytes = bytes_of(words[3], &size);
    if (!bytes)
        return 0;
    size_t whole = p->count * p->width;
    int fits = offset <= whole && size <= whole - offset;
    if (fits) {
        uint8_t *form = form_of(p);
        memcpy(form + offset, bytes, size);
        put_form(p, form);
        free(form);
        printf("ok");
    }
    free(bytes);
    why = "past";
    return fits;
}

static int do_fill(void)
{
    struct part *p = part_named(words[1]);
    size_t size;
    if (!p)
        return 0;
    uint8_t *bytes = bytes_of(words[2], &size);
    int one = bytes && size == 1;
    if (one) {
        memset(p->memory, bytes[0], p->count * p->width);
        printf("ok");
    }
    free(bytes);
    return one;
}

static int do_lend(void)
{
    struct part *p = part_named(words[1]);
    uint64_t count;
    if (!p || !number_of(words[2], &count))
        return 0;
    why = "name";
    if (p->fixed)
        return 0;
    why = "count";
    if (count > 1 << 24)
        return 0;
    uint8_t *memory = room(count * p->width);
    memcpy(memory, p->memory, (count < p->count ? count : p->count) * p->width);
    free(p->memory);
    p->memory = memory;
    p->count = count;
    printf("ok");
    return 1;
}

static int do_get(void)
{
    struct part *p = part_named(words[1]);
    if (!p)
        return 0;
    uint8_t *form = form_of(p);
    print_hex(form, p->count * p->width);
    free(form);
    return 1;
}

static int do_same(void)
{
    keep_same();
    printf("ok");
    return 1;
}

static int do_changed(void)
{
    int any = 0;
    for (int i = 0; i < PARTS; i++) {
        struct part *p = &parts[i];
        size_t size = p->count * p->width;
        uint8_t *form = form_of(p);
        if (size != p->same_size || memcmp(form, p->same, size) != 0)
            printf(any++ ? " %s" : "%s", p->name);
        free(form);
    }
    if (!any)
        putchar('-');
    return 1;
}

/* What read and write take: form, list, the message; number, text and mark have a number before the message. */
struct question { int standalone; struct list l; uint64_t at; uint8_t *msg; size_t size; };

static int told(struct question *q, struct word msg)
{
    if (!form_named(words[1], &q->standalone) || !list_named(words[2], &q->l))
        return 0;
    q->msg = bytes_of(msg, &q->size);
    return q->msg != NULL;
}

static int asked(struct question *q)
{
    return number_of(words[3], &q->at) && told(q, words[4]);
}

static int do_read(void)
{
    struct question q;
    if (!told(&q, words[3]))
        return 0;
    struct ik_read_reply a = (q.standalone ? ik_read_standalone : ik_read_payload)(
        flags, q.msg, q.size, q.l.n, q.l.texts, q.l.texts_len, q.l.lengths, q.l.lengths_len, rows(), parts[TABLE].count);
    free(q.msg);
    if (!refused(a.refusal, a.place))
        printf("ok %llu %llu", wide(a.terms), wide(a.rows));
    return 1;
}

static const char *kind_name(uint64_t word)
{
    switch (ik_row_kind(word)) {
    case IK_KIND_INTEGER: case IK_KIND_CHARACTER: return "integer";
    case IK_KIND_FLOAT: return "float";
    case IK_KIND_ATOM: return "atom";
    case IK_KIND_TUPLE: return "tuple";
    case IK_KIND_LIST: case IK_KIND_IMPROPER: return "list";
    case IK_KIND_BINARY: return "binary";
    case IK_KIND_BITSTRING: return "bitstring";
    case IK_KIND_MAP: return "map";
    case IK_KIND_PID: return "pid";
    case IK_KIND_PORT: return "port";
    case IK_KIND_REFERENCE: return "reference";
    case IK_KIND_EXPORT: return "export";
    default: return NULL;
    }
}

static int do_kind(void)
{
    uint64_t row;
    if (!number_of(words[1], &row))
        return 0;
    uint64_t word = row < parts[TABLE].count ? rows()[row] : 0;
    const char *kind = kind_name(word);
    if (!kind)
        printf("- - -");
    else if (ik_row_whole(word) == IK_NO_WHOLE)
        printf("%s %llu -", kind, wide(ik_row_offset(word)));
    else
        printf("%s %llu %llu", kind, wide(ik_row_offset(word)), wide(ik_row_whole(word)));
    return 1;
}

static int do_write(void)
{
    struct question q;
    if (!told(&q, words[3]))
        return 0;
    struct ik_write_reply a = (q.standalone ? ik_write_standalone : ik_write_payload)(
        flags, q.msg, q.size, q.l.n, q.l.texts, q.l.texts_len, q.l.lengths, q.l.lengths_len, rows(), parts[TABLE].count, parts[OUTPUT].memory, parts[OUTPUT].count);
    free(q.msg);
    if (!refused(a.refusal, a.place))
        printf("ok %llu", wide(a.length));
    return 1;
}

static int do_number(void)
{
    struct question q;
    uint64_t bits;
    if (!asked(&q))
        return 0;
    struct ik_number_reply a = (q.standalone ? ik_number_standalone : ik_number_payload)(
        flags, q.msg, q.size, q.l.n, q.l.texts, q.l.texts_len, q.l.lengths, q.l.lengths_len, q.at);
    free(q.msg);
    memcpy(&bits, &a.real, sizeof bits);
    if (refused(a.refusal, a.place))
        return 1;
    if (a.kind == IK_NUMBER_WHOLE)
        printf("whole %lld", (long long)a.integer);
    else if (a.kind == IK_NUMBER_FLOAT)
        printf("float %llu", wide(bits));
    else
        printf("neither");
    return 1;
}

static int do_text(void)
{
    struct question q;
    if (!asked(&q))
        return 0;
    struct ik_text_reply a = (q.standalone ? ik_text_standalone : ik_text_payload)(
        flags, q.msg, q.size, q.l.n, q.l.texts, q.l.texts_len, q.l.lengths, q.l.lengths_len, q.at);
    free(q.msg);
    if (a.from == IK_FROM_NOWHERE || a.length == 0)
        printf("empty");
    else
        printf("%s %llu %llu", a.from == IK_FROM_MESSAGE ? "message" : "list", wide(a.start), wide(a.length));
    return 1;
}

static int do_mark(void)
{
    struct question q;
    if (!asked(&q))
        return 0;
    struct ik_mark_reply a = (q.standalone ? ik_mark_standalone : ik_mark_payload)(
        flags, q.msg, q.size, q.l.n, q.l.texts, q.l.texts_len, q.l.lengths, q.l.lengths_len, q.at);
    free(q.msg);
    if (!refused(a.refusal, a.place))
        printf(a.mark == IK_MARK_LATIN1 ? "latin1" : "utf8");
    return 1;
}

static int do_flags(void)
{
    uint64_t n;
    if (!number_of(words[1], &n))
        return 0;
    why = "flags";
    if (n > UINT8_MAX)
        return 0;
    flags = (uint8_t)n;
    printf("ok");
    return 1;
}

static int do_packet(void)
{
    size_t size;
    uint8_t *packet = bytes_of(words[1], &size);
    if (!packet)
        return 0;
    struct ik_packet_reply a = ik_packet(
        flags, packet, size, parts[CACHE].memory, parts[CACHE].count, numbers(LENGTHS), parts[LENGTHS].count,
        parts[PLAIN_COUNT].memory, parts[PLAIN_TEXTS].memory, parts[PLAIN_TEXTS].count, numbers(PLAIN_LENGTHS), parts[PLAIN_LENGTHS].count,
        parts[PENDING_COUNT].memory, parts[PENDING_TEXTS].memory, parts[PENDING_TEXTS].count, numbers(PENDING_LENGTHS), parts[PENDING_LENGTHS].count,
        record(), parts[GATHER].memory, parts[GATHER].count);
    free(packet);
    if (refused(a.refusal, a.place))
        return 1;
    if (a.kind == IK_PACKET_PLAIN)
        printf("plain %llu %llu", wide(a.offset), wide(a.length));
    else if (a.kind == IK_PACKET_PENDING)
        printf("pending %llu %llu", wide(a.due), wide(a.gathered));
    else
        printf("complete %llu", wide(a.gathered));
    return 1;
}

static int do_drop(void)
{
    struct ik_state_reply a = ik_drop(flags, record());
    if (!refused(a.refusal, a.place))
        printf("ok");
    return 1;
}

static int do_reset(void)
{
    struct ik_state_reply a = ik_reset(parts[CACHE].memory, parts[CACHE].count, numbers(LENGTHS), parts[LENGTHS].count, record());
    if (!refused(a.refusal, a.place))
        printf("ok");
    return 1;
}

static int do_word(void)
{
    struct list l;
    uint64_t index;
    if (!list_named(words[1], &l) || !number_of(words[2], &index))
        return 0;
    struct ik_word_reply a = ik_word(flags, l.n, l.texts, l.texts_len, l.lengths, l.lengths_len, index);
    if (!refused(a.refusal, a.place)) {
        printf("text ");
        print_hex(l.texts + a.start, a.length);
    }
    return 1;
}

static const struct { const char *name; size_t words; int (*call)(void); } commands[] = {
    {"set", 4, do_set}, {"fill", 3, do_fill}, {"lend", 3, do_lend}, {"get", 2, do_get}, {"same", 1, do_same}, {"changed", 1, do_changed},
    {"read", 4, do_read}, {"kind", 2, do_kind}, {"write", 4, do_write}, {"number", 5, do_number}, {"text", 5, do_text}, {"mark", 5, do_mark},
    {"flags", 2, do_flags}, {"packet", 2, do_packet}, {"drop", 1, do_drop}, {"reset", 1, do_reset}, {"word", 3, do_word},
};

/* Parts the line at single spaces; words past the eighth are counted, not kept. */
static void split(const char *line, size_t length)
{
    size_t start = 0;
    word_count = 0;
    for (size_t i = 0; i <= length; i++) {
        if (i < length && line[i] != ' ')
            continue;
        if (word_count < sizeof words / sizeof *words)
            words[word_count] = (struct word){line + start, i - start};
        word_count++;
        start = i + 1;
    }
}

static void answer(const char *line, size_t length)
{
    split(line, length);
    why = length == 0 ? "empty" : "command";
    for (size_t i = 0; i < sizeof commands / sizeof *commands; i++) {
        if (!is(words[0], commands[i].name))
            continue;
        why = "words";
        if (word_count == commands[i].words && commands[i].call())
            why = NULL;
        break;
    }
    if (why)
        printf("? %s", why);
    putchar('\n');
    fflush(stdout);
}

/* The next line without its newline; 0 at the end of input. */
static int next_line(char **line, size_t *room_for, size_t *length)
{
    int c;
    *length = 0;
    while ((c = getchar()) != EOF && c != '\n') {
        if (*length == *room_for) {
            *room_for = *room_for ? 2 * *room_for : 1 << 16;
            *line = realloc(*line, *room_for);
            if (!*line) {
                fprintf(stderr, "drive: no memory\n");
                exit(1);
            }
        }
        (*line)[(*length)++] = (char)c;
    }
    return c != EOF || *length > 0;
}

int main(void)
{
    char *line = NULL;
    size_t room_for = 0, length;
    for (int i = 0; i < PARTS; i++)
        parts[i].memory = room(parts[i].count * parts[i].width);
    for (size_t i = 0; i < IK_CACHE_PLACES; i++)
        numbers(LENGTHS)[i] = IK_CACHE_EMPTY;
    keep_same();
    while (next_line(&line, &room_for, &length))
        answer(line, length);
    return 0;
}
