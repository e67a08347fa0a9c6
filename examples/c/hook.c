/*
 * A hook from record to word and back: makes a record's data, encodes them, tests the word, reads the data and the record, then spoils one
 * bit and tests again. Exits with 1 where an answer is not what the header promises.
 */
#include <stdio.h>
#include <string.h>

#include "saddlemint.h"

/* A book with n = 64, k = 32 and eight blocks: big-endian, each command on its line. */
static const uint8_t book[] = {
    0x10, 6,                                              /* length 2^6 */
    0x02, 0, 24,                                          /* 0 to 23 zero */
    0x01, 0, 8,                                           /* 24 to 31 free */
    0x02, 0, 7,                                           /* 32 to 38 zero */
    0x03, 0, 24, 0x04, 0, 31,                             /* 39 tied to 24 and 31 */
    0x01, 0, 24,                                          /* 40 to 63 free */
    0x05, 3, 0, 0, 0, 0, 0x05, 3, 0, 0, 0, 0,             /* eight blocks of 2^3, bias 0 */
    0x05, 3, 0, 0, 0, 0, 0x05, 3, 0, 0, 0, 0,
    0x05, 3, 0, 0, 0, 0, 0x05, 3, 0, 0, 0, 0,
    0x05, 3, 0, 0, 0, 0, 0x05, 3, 0, 0, 0, 0,
    0x7f                                                  /* end */
};

static int faults = 0;

static void expect(const char *what, uint32_t answer, uint32_t wanted)
{
    printf("%-28s %u\n", what, (unsigned)answer);
    if (answer != wanted) {
        printf("  expected %u\n", (unsigned)wanted);
        faults = 1;
    }
}

static void print_bits(const char *what, const uint8_t *bits, size_t count)
{
    printf("%-28s ", what);
    for (size_t i = 0; i < count; i++)
        putchar('0' + bits[i]);
    putchar('\n');
}

int main(void)
{
    const uint32_t written[4] = {17, 345678, 1, SADDLEMINT_HELD_FOR_LABORATORY};
    uint32_t shape[3], record[4];
    uint8_t data[32], again[32], word[64];

    expect("load", saddlemint_load(book, sizeof book, shape, 3), SADDLEMINT_DONE);
    printf("%-28s n %u, k %u, V %u\n", "shape", (unsigned)shape[0], (unsigned)shape[1], (unsigned)shape[2]);
    expect("load, the end cut off", saddlemint_load(book, sizeof book - 1, shape, 3), SADDLEMINT_SHORT);

    expect("make record", saddlemint_make_record(book, sizeof book, written[0], written[1], written[2], written[3], data, 32), SADDLEMINT_DONE);
    print_bits("data", data, 32);
    expect("encode", saddlemint_encode(book, sizeof book, data, 32, word, 64), SADDLEMINT_DONE);
    print_bits("word", word, 64);
    expect("test", saddlemint_test(book, sizeof book, word, 64), SADDLEMINT_DONE);

    expect("read data", saddlemint_read_data(book, sizeof book, word, 64, again, 32), SADDLEMINT_DONE);
    expect("the data differ", (uint32_t)(memcmp(data, again, 32) != 0), 0);
    expect("read record", saddlemint_read_record(book, sizeof book, again, 32, record, 4), SADDLEMINT_DONE);
    printf("%-28s plant %u, carcass %u, side %u, status %u\n", "record", (unsigned)record[0], (unsigned)record[1], (unsigned)record[2],
           (unsigned)record[3]);
    expect("the records differ", (uint32_t)(memcmp(written, record, sizeof record) != 0), 0);

    word[5] ^= 1;
    expect("test, one bit spoiled", saddlemint_test(book, sizeof book, word, 64), SADDLEMINT_NOT_IN_CODE);
    expect("make record, no such status", saddlemint_make_record(book, sizeof book, 17, 345678, 1, 5, data, 32), SADDLEMINT_BAD_VALUE);
    return faults;
}
