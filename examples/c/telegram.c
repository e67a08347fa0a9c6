/*
 * Decodes a telegram and shows its record: the hook call as a reader's firmware would make it, with every refusal told apart. Then the same
 * telegram with a lower limit (faint), with a value out of range, with a workspace one entry short, with a limit out of range and with a book that is
 * cut; and a word of the code whose data hold no record (unreadable).
 */
#include <stdio.h>
#include <string.h>

#include "saddlemint.h"

/* A (64,32) book with k = 32 for records: docs/code-books.md takes it apart. */
static const uint8_t book[] = {
    0x10, 6,                                                       /* length 2^6 */
    0x02, 0, 15, 0x01, 0, 1, 0x02, 0, 7, 0x01, 0, 1,               /* 15 and 23 free */
    0x02, 0, 3, 0x01, 0, 1, 0x03, 0, 15, 0x04, 0, 23,              /* 27 free, 28 tied to 15 and 23 */
    0x01, 0, 3, 0x02, 0, 3, 0x01, 0, 1, 0x02, 0, 1, 0x01, 0, 3,    /* 29 to 31, 35, 37 to 39 free */
    0x03, 0, 27, 0x04, 0, 31, 0x01, 0, 7,                          /* 40 tied to 27 and 31; 41 to 47 free */
    0x03, 0, 29, 0x04, 0, 30, 0x04, 0, 39, 0x01, 0, 15,            /* 48 tied to 29, 30 and 39; 49 to 63 free */
    0x05, 5, 0xff, 0xff, 0xfd, 0xbb, 0x05, 3, 0xff, 0xff, 0xfd, 0x4e, /* blocks of 32, 8, 8, 8, 8; biases -581, -690, */
    0x05, 3, 0xff, 0xff, 0xfd, 0x3d, 0x05, 3, 0xff, 0xff, 0xfd, 0x33, /* -707, -717, */
    0x05, 3, 0xff, 0xff, 0xfd, 0x33,                               /* -717 */
    0x7f                                                           /* end */
};

/* What a reader received: a record sent through noise of 2.5 dB, four hard decisions wrong. */
static const int16_t received[64] = {
    287,  492,  295,  272,  108,  -413, -59,  -243, -79,  -289, -250, 405, -800, -128, -221, 489, -95,  -821, 118, 231,  437, 343,
    495,  -527, -273, 461,  179,  102,  -207, 675,  -521, -553, -447, 327, 524,  422,  -475, -611, -494, -30, -571, 421, 469, -753,
    -343, 704,  -182, -441, -384, -574, 488,  339,  -746, 576,  534,  -103, 29,  -259, -324, 9,   -192, -519, 235, 18};

enum { N = 64, K = 32, BLOCKS = 5, VISITS = 8, PATHS = 16, LIMIT = 1000 };

static uint8_t word[N], data[K];
static int32_t numbers[SADDLEMINT_NUMBERS(N, PATHS)], walk[3][SADDLEMINT_WALK(VISITS, BLOCKS)];
static uint8_t bytes[SADDLEMINT_BYTES(N, PATHS)];

static const char *const meaning[] = {
    "read",
    "short: the book ends in a command",
    "strange: a command that is not listed",
    "misplaced: a command where it may not stand",
    "off range: an operand of the book",
    "overtied: more than 32 ties",
    "heavy: a block with more than 8 free indices",
    "misfit: a length is wrong, or k is not 32",
    "bad setting: visits, paths or limit",
    "bad value: a soft value out of range",
    "faint: read again, nearer or longer",
    "unreadable: a word of the code, but no record: read again, and look at the book",
};

static const char *const status[] = {"passed", "held for laboratory", "held for veterinarian", "held for owner", "condemned"};

static uint32_t decode(size_t book_len, const int16_t *values, uint32_t limit, size_t numbers_len)
{
    uint32_t counts[4], record[4];
    const size_t walk_len = SADDLEMINT_WALK(VISITS, BLOCKS);
    const uint32_t answer =
        saddlemint_decode_hook(book, book_len, VISITS, PATHS, limit, values, N, word, N, data, K, numbers, numbers_len, bytes,
                               sizeof bytes, walk[0], walk_len, walk[1], walk_len, walk[2], walk_len, counts, 4, record, 4);
    printf("answer %u, %s\n", (unsigned)answer, meaning[answer]);
    printf("  extractions %u, crowded out %u, outrun %u, discrepancy %u\n", (unsigned)counts[0], (unsigned)counts[1],
           (unsigned)counts[2], (unsigned)counts[3]);
    if (answer == SADDLEMINT_DONE)
        printf("  plant %u, carcass %u, %s side, %s\n", (unsigned)record[0], (unsigned)record[1], record[2] ? "right" : "left",
               status[record[3]]);
    return answer;
}

/* The values of a word received without noise, whose data have the status 7: there is no such status. */
static void no_record(int16_t *values)
{
    uint8_t sent[N], bits[K] = {0};

    bits[27] = bits[28] = bits[29] = 1;
    saddlemint_encode(book, sizeof book, bits, K, sent, N);
    for (int i = 0; i < N; i++)
        values[i] = sent[i] ? -500 : 500;
}

int main(void)
{
    const size_t enough = SADDLEMINT_NUMBERS(N, PATHS);
    int16_t spoiled[N], unreadable[N];

    memcpy(spoiled, received, sizeof spoiled);
    spoiled[9] = 2048;
    no_record(unreadable);
    int as_wanted = decode(sizeof book, received, LIMIT, enough) == SADDLEMINT_DONE;
    as_wanted &= decode(sizeof book, received, 100, enough) == SADDLEMINT_FAINT;
    as_wanted &= decode(sizeof book, spoiled, LIMIT, enough) == SADDLEMINT_BAD_VALUE;
    as_wanted &= decode(sizeof book, received, LIMIT, enough - 1) == SADDLEMINT_MISFIT;
    as_wanted &= decode(sizeof book, received, 1048577, enough) == SADDLEMINT_BAD_SETTING;
    as_wanted &= decode(sizeof book - 1, received, LIMIT, enough) == SADDLEMINT_SHORT;
    as_wanted &= decode(sizeof book, unreadable, LIMIT, enough) == SADDLEMINT_UNREADABLE;
    return !as_wanted;
}
