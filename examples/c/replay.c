/*
 * Replays recorded cases of the independent reference (reference/README.md has their format) through the C interface: reads a stream of
 * operations on standard input and prints each case as the reference printed it. Knows load, encode, test, read data and records.
 */
#include <stdio.h>
#include <stdlib.h>

#include "saddlemint.h"

static uint8_t book[65536];
static size_t book_len;
static unsigned long case_number;

static unsigned take(int bytes)
{
    unsigned x = 0;
    while (bytes-- > 0) {
        int c = getchar();
        if (c == EOF)
            exit(1);
        x = 256 * x + (unsigned)c;
    }
    return x;
}

static void take_bytes(uint8_t *to, size_t count)
{
    for (size_t i = 0; i < count; i++)
        to[i] = (uint8_t)take(1);
}

/* What a lent buffer holds before the call. */
static void soil(uint8_t *buffer, size_t count)
{
    for (size_t i = 0; i < count; i++)
        buffer[i] = (uint8_t)(37 * i + 101);
}

static unsigned long checksum(const uint8_t *buffer, size_t count)
{
    unsigned long s = 0;
    for (size_t i = 0; i < count; i++)
        s = (31 * s + buffer[i]) % 65521;
    return s;
}

static void begin(const char *call, uint32_t answer)
{
    printf("%lu %s %u", ++case_number, call, (unsigned)answer);
}

static void print_bits(uint32_t answer, const uint8_t *bits, size_t count)
{
    putchar(' ');
    if (answer != 0 || count == 0)
        putchar('-');
    else
        for (size_t i = 0; i < count; i++)
            putchar('0' + bits[i]);
}

static void load_case(void)
{
    uint32_t shape[3] = {1, 2, 3};
    size_t length = take(2);
    begin("load", saddlemint_load(book, length, shape, 3));
    printf(" %u %u %u\n", (unsigned)shape[0], (unsigned)shape[1], (unsigned)shape[2]);
}

static void encode_case(uint8_t *data, uint8_t *word)
{
    size_t word_len = take(2), data_len = take(2);
    take_bytes(data, data_len);
    soil(word, word_len);
    uint32_t answer = saddlemint_encode(book, book_len, data, data_len, word, word_len);
    begin("encode", answer);
    print_bits(answer, word, word_len);
    printf(" %lu %lu\n", checksum(data, data_len), checksum(word, word_len));
}

static void test_case(uint8_t *word)
{
    size_t word_len = take(2);
    take_bytes(word, word_len);
    uint32_t answer = saddlemint_test(book, book_len, word, word_len);
    begin("test", answer == SADDLEMINT_NOT_IN_CODE ? 0 : answer);
    printf(" %s %lu\n", answer == 0 ? "yes" : answer == SADDLEMINT_NOT_IN_CODE ? "no" : "-", checksum(word, word_len));
}

static void read_case(uint8_t *data, uint8_t *word)
{
    size_t data_len = take(2), word_len = take(2);
    take_bytes(word, word_len);
    soil(data, data_len);
    uint32_t answer = saddlemint_read_data(book, book_len, word, word_len, data, data_len);
    begin("read", answer);
    print_bits(answer, data, data_len);
    printf(" %lu %lu\n", checksum(word, word_len), checksum(data, data_len));
}

static void make_case(uint8_t *data)
{
    size_t data_len = take(2);
    uint32_t plant = take(1), carcass = take(4), side = take(1), status = take(1);
    soil(data, data_len);
    uint32_t answer = saddlemint_make_record(book, book_len, plant, carcass, side, status, data, data_len);
    begin("make", answer);
    print_bits(answer, data, data_len);
    printf(" %lu\n", checksum(data, data_len));
}

static void record_case(uint8_t *data)
{
    uint32_t record[4] = {1, 2, 3, 4};
    size_t data_len = take(2);
    take_bytes(data, data_len);
    begin("record", saddlemint_read_record(book, book_len, data, data_len, record, 4));
    printf(" %u %u %u %u %lu\n", (unsigned)record[0], (unsigned)record[1], (unsigned)record[2], (unsigned)record[3],
           checksum(data, data_len));
}

int main(void)
{
    static uint8_t data[65536], word[65536];
    for (;;) {
        size_t at;
        switch (take(1)) {
        case 0:
            return 0;
        case 1:
            book_len = take(2);
            take_bytes(book, book_len);
            break;
        case 2:
            at = take(2);
            book[at] = (uint8_t)take(1);
            break;
        case 3: load_case(); break;
        case 4: encode_case(data, word); break;
        case 5: test_case(word); break;
        case 6: read_case(data, word); break;
        case 7: make_case(data); break;
        case 8: record_case(data); break;
        default: return 1;
        }
    }
}
