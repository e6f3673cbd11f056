/* ik_write_standalone, ik_write_payload. */
#include "answers.h"

static void canonical_forms(void)
{
    writes(STANDALONE, BYTES(131, 98, 0, 0, 0, 5), 1, 1, BYTES(131, 97, 5));
    writes(STANDALONE, BYTES(131, 110, 2, 0, 5, 0), 1, 1, BYTES(131, 97, 5));
    writes(STANDALONE, BYTES(131, 110, 4, 1, 0, 0, 0, 128), 1, 1, BYTES(131, 98, 128, 0, 0, 0));
    writes(STANDALONE, BYTES(131, 108, 0, 0, 0, 2, 97, 7, 97, 8, 106), 1, 3, BYTES(131, 107, 0, 2, 7, 8));
    writes(STANDALONE, BYTES(131, 77, 0, 0, 0, 1, 3, 191), 1, 1, BYTES(131, 77, 0, 0, 0, 1, 3, 160));
    writes(STANDALONE, BYTES(131, 100, 0, 1, 233), 1, 1, BYTES(131, 119, 2, 195, 169));
    writes(STANDALONE, BYTES(131, 111, 0, 0, 0, 5, 0, 0, 0, 0, 128, 0), 1, 1, BYTES(131, 110, 4, 0, 0, 0, 0, 128));
    writes(STANDALONE, BYTES(131, 110, 3, 1, 1, 0, 0), 1, 1, BYTES(131, 98, 255, 255, 255, 255));
    writes(STANDALONE, BYTES(131, 110, 0, 1), 1, 1, BYTES(131, 97, 0));
    writes(STANDALONE, BYTES(131, 70, 128, 0, 0, 0, 0, 0, 0, 0), 1, 1, BYTES(131, 70, 128, 0, 0, 0, 0, 0, 0, 0));
    writes(STANDALONE, BYTES(131, 82, 1), 1, 1, BYTES(131, 119, 2, 195, 169));
    writes(STANDALONE, BYTES(131, 105, 0, 0, 0, 2, 106, 107, 0, 0), 1, 3, BYTES(131, 104, 2, 106, 106));
    writes(STANDALONE, BYTES(131, 107, 0, 1, 7), 1, 2, BYTES(131, 107, 0, 1, 7));
    writes(STANDALONE, BYTES(131, 108, 0, 0, 0, 1, 70, 0, 0, 0, 0, 0, 0, 0, 0, 107, 0, 1, 7), 1, 3, BYTES(131, 108, 0, 0, 0, 2, 70, 0, 0, 0, 0, 0, 0, 0, 0, 97, 7, 106));
    writes(STANDALONE, BYTES(131, 108, 0, 0, 0, 1, 97, 7, 97, 8), 1, 3, BYTES(131, 108, 0, 0, 0, 1, 97, 7, 97, 8));
    writes(STANDALONE, BYTES(131, 108, 0, 0, 0, 0, 109, 0, 0, 0, 1, 9), 1, 1, BYTES(131, 109, 0, 0, 0, 1, 9));
    writes(STANDALONE, BYTES(131, 77, 0, 0, 0, 1, 8, 191), 1, 1, BYTES(131, 109, 0, 0, 0, 1, 191));
    writes(STANDALONE, BYTES(131, 116, 0, 0, 0, 1, 82, 0, 98, 0, 0, 1, 0), 1, 3, BYTES(131, 116, 0, 0, 0, 1, 119, 2, 'o', 'k', 98, 0, 0, 1, 0));
    writes(STANDALONE, BYTES(131, 103, 82, 0, 0, 0, 127, 255, 0, 0, 31, 255, 3), 1, 2, BYTES(131, 88, 119, 2, 'o', 'k', 0, 0, 127, 255, 0, 0, 31, 255, 0, 0, 0, 3));
    writes(STANDALONE, BYTES(131, 102, 82, 0, 15, 255, 255, 255, 1), 1, 2, BYTES(131, 89, 119, 2, 'o', 'k', 15, 255, 255, 255, 0, 0, 0, 1));
    writes(STANDALONE, BYTES(131, 120, 82, 0, 0, 0, 0, 0, 0, 0, 0, 5, 0, 0, 0, 1), 1, 2, BYTES(131, 89, 119, 2, 'o', 'k', 0, 0, 0, 5, 0, 0, 0, 1));
    writes(STANDALONE, BYTES(131, 120, 82, 0, 0, 0, 0, 0, 16, 0, 0, 0, 0, 0, 0, 1), 1, 2, BYTES(131, 120, 119, 2, 'o', 'k', 0, 0, 0, 0, 16, 0, 0, 0, 0, 0, 0, 1));
    writes(STANDALONE, BYTES(131, 114, 0, 2, 82, 0, 2, 0, 3, 255, 255, 1, 2, 3, 4), 1, 2, BYTES(131, 90, 0, 2, 119, 2, 'o', 'k', 0, 0, 0, 2, 0, 3, 255, 255, 1, 2, 3, 4));
    writes(STANDALONE, BYTES(131, 101, 82, 0, 0, 0, 0, 7, 3), 1, 2, BYTES(131, 90, 0, 1, 119, 2, 'o', 'k', 0, 0, 0, 3, 0, 0, 0, 7));
    writes(STANDALONE, BYTES(131, 113, 82, 0, 100, 0, 1, 'f', 97, 2), 1, 4, BYTES(131, 113, 119, 2, 'o', 'k', 119, 1, 'f', 97, 2));
    writes(PAYLOAD, BYTES(98, 0, 0, 0, 5), 1, 1, BYTES(131, 97, 5));
    writes(PAYLOAD, BYTES(98, 0, 0, 0, 5, 104, 1, 82, 0), 2, 3, BYTES(131, 97, 5, 131, 104, 1, 119, 2, 'o', 'k'));
}

static void refused_message(enum form form, const uint8_t *bytes, size_t size, unsigned refusal, unsigned place)
{
    write_refused(form, bytes, size, three_texts(), 100, refusal, place);
}

int main(void)
{
    uint8_t *bytes = malloc(70000);
    canonical_forms();
    each_refused(refused_message);
    for (int i = 0; i < 4; i++) {
        write_refused(STANDALONE, BYTES(131, 97, 5), list_of_wrong_size(i), 10, 13, 0);
        write_refused(PAYLOAD, BYTES(97, 5), list_of_wrong_size(i), 10, 13, 0);
    }
    size_t size = nested_tuples(bytes, 65);
    write_refused(STANDALONE, lend_copy(bytes, size), size, empty_list(), 8192, 8, 129);
    write_refused(PAYLOAD, lend_copy(bytes + 1, size - 1), size - 1, empty_list(), 8192, 8, 128);
    write_refused(STANDALONE, lend_copy(bytes, size), size, empty_list(), 2, 9, 5);
    write_refused(PAYLOAD, lend_copy(bytes + 1, size - 1), size - 1, empty_list(), 2, 9, 4);
    write_refused(STANDALONE, BYTES(131, 97, 5), empty_list(), 0, 9, 1);
    struct list l = three_texts();
    l.lengths[0] = 33;
    write_refused(STANDALONE, BYTES(131, 82, 0), l, 10, 14, 0);
    l = three_texts();
    l.lengths[0] = 33;
    write_refused(PAYLOAD, BYTES(82, 0), l, 10, 14, 0);
    memset(bytes, 0, 70000);
    write_refused(STANDALONE, lend_copy(bytes, 65537), 65537, empty_list(), 10, 12, 0);
    write_refused(PAYLOAD, lend_copy(bytes, 65537), 65537, empty_list(), 10, 12, 0);
    /* 10 comes before 11 */
    struct ik_write_reply a = write_to(STANDALONE, BYTES(131, 97, 5, 0), three_texts(), lend(8, 0), 1, lend(0, 0), 0);
    SAME(a.refusal, 10);
    SAME(a.place, 3);
    CHECK(guards_stand());
    /* the largest binary has its own size */
    const uint8_t binary[] = {131, 109, 0, 0, 255, 250};
    memcpy(bytes, binary, sizeof binary);
    uint8_t *output = lend(65536, 0x5a);
    a = write_to(STANDALONE, lend_copy(bytes, 65536), 65536, three_texts(), lend(8, 0), 1, output, 65536);
    SAME(a.refusal, 0);
    SAME(a.length, 65536);
    CHECK(memcmp(output, bytes, 65536) == 0);
    CHECK(guards_stand());
    free(bytes);
    all_met(bit(IK_OUTPUT));
    return ended("writing");
}
