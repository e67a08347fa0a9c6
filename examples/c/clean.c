/*
 * A clean hook: every soft value is non-zero and has the sign of its bit. Where no bias of the book is above the one before it, the decoding
 * call reads the word in one extraction for each block and a last one, whatever the magnitudes, visits, paths and limit. Decodes every word
 * of a small book so, then a record and a word that holds none; then shows what a bias that rises and a value of 0 can do. Exits with 1 where an
 * answer is not what it should be.
 */
#include <stdio.h>
#include <string.h>

#include "saddlemint.h"

/* The small book: n = 16, k = 8, five blocks. Its biases never rise. */
static const uint8_t small_bytes[] = {
    0x10, 4,                                              /* length 2^4 */
    0x01, 0, 1, 0x02, 0, 2, 0x01, 0, 1,                   /* 0 free, 1 and 2 zero, 3 free */
    0x02, 0, 1, 0x01, 0, 1,                               /* 4 zero, 5 free */
    0x03, 0, 3, 0x04, 0, 5, 0x01, 0, 1,                   /* 6 tied to 3 and 5, 7 free */
    0x02, 0, 3, 0x01, 0, 1,                               /* 8 to 10 zero, 11 free */
    0x03, 0, 0, 0x04, 0, 7, 0x01, 0, 3,                   /* 12 tied to 0 and 7, 13 to 15 free */
    0x05, 0, 0, 0, 0, 30, 0x05, 0, 0, 0, 0, 30,           /* blocks of 1, 1, 2, 4, 8; biases 30, 30, */
    0x05, 1, 0xff, 0xff, 0xff, 0xf4,                      /* -12, */
    0x05, 2, 0xff, 0xff, 0xff, 0xd8,                      /* -40, */
    0x05, 3, 0xff, 0xff, 0xff, 0xc8,                      /* -56 */
    0x7f                                                  /* end */
};

/* The book for records, of telegram.c: n = 64, k = 32, five blocks. Its biases never rise. */
static const uint8_t record_bytes[] = {
    0x10, 6, 0x02, 0, 15, 0x01, 0, 1, 0x02, 0, 7, 0x01, 0, 1, 0x02, 0, 3, 0x01, 0, 1, 0x03, 0, 15, 0x04, 0, 23, 0x01, 0, 3, 0x02, 0, 3,
    0x01, 0, 1, 0x02, 0, 1, 0x01, 0, 3, 0x03, 0, 27, 0x04, 0, 31, 0x01, 0, 7, 0x03, 0, 29, 0x04, 0, 30, 0x04, 0, 39, 0x01, 0, 15, 0x05,
    5, 0xff, 0xff, 0xfd, 0xbb, 0x05, 3, 0xff, 0xff, 0xfd, 0x4e, 0x05, 3, 0xff, 0xff, 0xfd, 0x3d, 0x05, 3, 0xff, 0xff, 0xfd, 0x33, 0x05,
    3, 0xff, 0xff, 0xfd, 0x33, 0x7f};

enum { BLOCKS = 5, MOST_N = 64, GUARD = 3 };

/* A book, what loading says of it, and how many of its blocks but the last hold a free index: each of these leaves one copy of the path. */
struct book {
    const uint8_t *bytes;
    size_t len;
    uint32_t n, k, copies;
    int32_t bias[BLOCKS];
};

struct setting {
    uint32_t visits, paths, limit;
};

/* A word with its data and its clean values, and what a call should answer: the record is wanted of the hook call alone. */
struct hook {
    uint8_t data[32], word[MOST_N];
    int16_t values[MOST_N];
    uint32_t answer, record[4];
};

static const struct book small_book = {small_bytes, sizeof small_bytes, 16, 8, 3, {30, 30, -12, -40, -56}};
static const struct book record_book = {record_bytes, sizeof record_bytes, 64, 32, 4, {-581, -690, -707, -717, -717}};
static const struct setting settings[] = {{1, 2, 0}, {1, 9, 1000}, {2, 2, 0}, {2, 3, 0}, {8, 4, 5}, {32, 256, 1048576}};
enum { SETTINGS = sizeof settings / sizeof settings[0] };

/* Every buffer is longer than asked; word and data are longer than what is lent, which must be exact. */
static uint8_t word[MOST_N + GUARD], data[MOST_N + GUARD], bytes[SADDLEMINT_BYTES(MOST_N, 256) + GUARD];
static int32_t numbers[SADDLEMINT_NUMBERS(MOST_N, 256) + GUARD], walk[3][SADDLEMINT_WALK(32, BLOCKS) + GUARD];
static uint32_t counts[4], record[4];
static int faults = 0;

static void expect(const char *what, long seen, long wanted)
{
    if (seen != wanted && faults++ < 20)
        printf("%s: %ld, expected %ld\n", what, seen, wanted);
}

/* What entry i of each buffer holds before a call. */
static int garbage(size_t i)
{
    return (int)(i * 7 % 101) + 50;
}

static void spoil(void)
{
    for (size_t i = 0; i < sizeof word; i++)
        word[i] = data[i] = (uint8_t)garbage(i);
    for (size_t i = 0; i < sizeof bytes; i++)
        bytes[i] = (uint8_t)garbage(i);
    for (size_t i = 0; i < sizeof numbers / sizeof numbers[0]; i++)
        numbers[i] = garbage(i);
    for (size_t i = 0; i < sizeof walk[0] / sizeof walk[0][0]; i++)
        walk[0][i] = walk[1][i] = walk[2][i] = garbage(i);
    for (size_t i = 0; i < 4; i++)
        counts[i] = record[i] = (uint32_t)garbage(0);
}

/* One call on spoiled buffers, the hook call where the book has records; all but word and data are lent to their whole length. */
static uint32_t decode(const struct book *book, struct setting at, const int16_t *values)
{
    const size_t walk_len = sizeof walk[0] / sizeof walk[0][0], numbers_len = sizeof numbers / sizeof numbers[0];

    spoil();
    if (book->k == 32)
        return saddlemint_decode_hook(book->bytes, book->len, at.visits, at.paths, at.limit, values, book->n, word, book->n, data, book->k,
                                      numbers, numbers_len, bytes, sizeof bytes, walk[0], walk_len, walk[1], walk_len, walk[2], walk_len,
                                      counts, 4, record, 4);
    return saddlemint_decode(book->bytes, book->len, at.visits, at.paths, at.limit, values, book->n, word, book->n, data, book->k, numbers,
                             numbers_len, bytes, sizeof bytes, walk[0], walk_len, walk[1], walk_len, walk[2], walk_len, counts, 4);
}

static void check_counts(const struct book *book, struct setting at)
{
    const uint32_t kept = at.paths - 1, crowded = book->copies > kept ? book->copies - kept : 0;

    expect("extractions", (long)counts[0], BLOCKS + 1);
    expect("crowded out", (long)counts[1], at.visits == 1 ? 0 : (long)crowded);
    expect("outrun", (long)counts[2], at.visits == 1 ? (long)book->copies : 0);
    expect("discrepancy", (long)counts[3], 0);
}

/* Path 0 all along, one block more each time; the score is 0, then minus the bias of the last block. */
static void check_walk(const struct book *book)
{
    for (size_t e = 0; e < sizeof walk[0] / sizeof walk[0][0]; e++) {
        const int taken = e <= BLOCKS;
        expect("walk, path", walk[0][e], taken ? 0 : garbage(e));
        expect("walk, blocks", walk[1][e], taken ? (long)e : garbage(e));
        expect("walk, score", walk[2][e], !taken ? garbage(e) : e == 0 ? 0 : -book->bias[e - 1]);
    }
}

/* The workspace is zero as far as it is asked, and as it was behind that. */
static void check_workspace(const struct book *book, struct setting at)
{
    for (size_t i = 0; i < sizeof numbers / sizeof numbers[0]; i++)
        expect("workspace, numbers", numbers[i], i < SADDLEMINT_NUMBERS(book->n, at.paths) ? 0 : garbage(i));
    for (size_t i = 0; i < sizeof bytes; i++)
        expect("workspace, bytes", bytes[i], i < SADDLEMINT_BYTES(book->n, at.paths) ? 0 : garbage(i));
}

/* Word and data are the hook's, or left as they were; what lies behind them is as it was. The plain call leaves the record alone. */
static void check_word(const struct book *book, const struct hook *hook)
{
    const int written = hook->answer == SADDLEMINT_DONE;

    for (size_t i = 0; i < sizeof word; i++) {
        expect("word", word[i], written && i < book->n ? hook->word[i] : garbage(i));
        expect("data", data[i], written && i < book->k ? hook->data[i] : garbage(i));
    }
    for (int i = 0; i < 4; i++)
        expect("record", (long)record[i], book->k == 32 ? (long)hook->record[i] : garbage(0));
}

/* Encodes the hook's data, and gives it the signs of the word with magnitudes from 1 to 2047, which start elsewhere in the list each time. */
static void encode(const struct book *book, struct hook *hook, size_t start)
{
    static const int16_t magnitude[7] = {1, 40, 7, 2047, 300, 2, 95};

    expect("encode", (long)saddlemint_encode(book->bytes, book->len, hook->data, book->k, hook->word, book->n), SADDLEMINT_DONE);
    for (size_t i = 0; i < book->n; i++)
        hook->values[i] = (int16_t)(hook->word[i] ? -magnitude[(i + start) % 7] : magnitude[(i + start) % 7]);
}

/* The clean hook of the small book whose data are this number, highest bit first. */
static struct hook small_hook(unsigned number)
{
    struct hook hook = {{0}, {0}, {0}, SADDLEMINT_DONE, {0}};

    for (unsigned i = 0; i < 8; i++)
        hook.data[i] = (uint8_t)(number >> (7 - i) & 1);
    encode(&small_book, &hook, number);
    return hook;
}

/* Decodes a clean hook at every setting, and checks all that the calls leave. */
static void hang(const struct book *book, const struct hook *hook)
{
    for (int s = 0; s < SETTINGS; s++) {
        expect("answer", (long)decode(book, settings[s], hook->values), (long)hook->answer);
        check_word(book, hook);
        check_counts(book, settings[s]);
        check_walk(book);
        check_workspace(book, settings[s]);
    }
}

static void load(const struct book *book)
{
    uint32_t shape[3];

    expect("load", (long)saddlemint_load(book->bytes, book->len, shape, 3), SADDLEMINT_DONE);
    expect("n", (long)shape[0], (long)book->n);
    expect("k", (long)shape[1], (long)book->k);
    expect("V", (long)shape[2], BLOCKS);
}

static void every_word(void)
{
    load(&small_book);
    for (unsigned number = 0; number < 256; number++) {
        const struct hook hook = small_hook(number);
        hang(&small_book, &hook);
    }
    printf("small book: 256 words at %d settings, %u extractions each\n", SETTINGS, (unsigned)counts[0]);
}

static void records(void)
{
    struct hook hook = {{0}, {0}, {0}, SADDLEMINT_DONE, {17, 345678, 1, SADDLEMINT_HELD_FOR_LABORATORY}};
    const uint32_t *of = hook.record;

    load(&record_book);
    expect("make record", (long)saddlemint_make_record(record_bytes, sizeof record_bytes, of[0], of[1], of[2], of[3], hook.data, 32),
           SADDLEMINT_DONE);
    encode(&record_book, &hook, 0);
    hang(&record_book, &hook);
    printf("record: plant %u, carcass %u, side %u, status %u; %u extractions\n", (unsigned)record[0], (unsigned)record[1],
           (unsigned)record[2], (unsigned)record[3], (unsigned)counts[0]);

    hook.data[31] = 1; /* a spare bit: no record */
    hook.answer = SADDLEMINT_UNREADABLE;
    memset(hook.record, 0, sizeof hook.record);
    encode(&record_book, &hook, 0);
    hang(&record_book, &hook);
    const uint32_t answer = decode(&record_book, settings[0], hook.values);
    printf("no record: answer %u; %u extractions\n", (unsigned)answer, (unsigned)counts[0]);
}

/* Decodes every clean hook of a small book at one setting, and says how many took longer, and how many were read as another word. */
static void rising(const struct book *book, struct setting at)
{
    uint32_t first = 0;
    int more = 0, misread = 0;

    for (unsigned number = 0; number < 256; number++) {
        const struct hook hook = small_hook(number);
        expect("answer", (long)decode(book, at, hook.values), SADDLEMINT_DONE);
        first = number == 0 ? counts[0] : first;
        more += counts[0] > BLOCKS + 1;
        misread += memcmp(word, hook.word, 16) != 0;
    }
    printf("last bias 0, visits %u, paths %u: %d words of 256 take more than %d extractions (word 0: %u), %d are read as another\n",
           (unsigned)at.visits, (unsigned)at.paths, more, BLOCKS + 1, (unsigned)first, misread);
    expect("some word takes more extractions", more > 0, 1);
}

/* The small book with its last bias 0: above -40, the one before it. */
static void rising_bias(void)
{
    static uint8_t changed[sizeof small_bytes];
    struct book book = small_book;

    memcpy(changed, small_bytes, sizeof changed);
    memset(changed + sizeof changed - 5, 0, 4);
    book.bytes = changed;
    rising(&book, (struct setting){8, 8, 1000});
    rising(&book, (struct setting){2, 2, 1000});
}

/* Sets one value of a clean hook to 0, for each word and position; prints the first that takes longer, and the first read as another word. */
static void value_zero(void)
{
    const struct setting at = {8, 8, 1000};
    int longer = 0, misread = 0;

    for (unsigned number = 0; number < 256; number++) {
        for (int i = 0; i < 16; i++) {
            struct hook hook = small_hook(number);
            hook.values[i] = 0;
            expect("answer", (long)decode(&small_book, at, hook.values), SADDLEMINT_DONE);
            const int same = memcmp(word, hook.word, 16) == 0;
            if (same && counts[0] > BLOCKS + 1 && !longer++)
                printf("word %u, value %d set to 0: %u extractions\n", number, i, (unsigned)counts[0]);
            if (!same && !misread++)
                printf("word %u, value %d set to 0: another word is read, discrepancy %u\n", number, i, (unsigned)counts[3]);
        }
    }
    expect("some value 0 makes more extractions", longer > 0, 1);
    expect("some value 0 makes another word", misread > 0, 1);
}

int main(void)
{
    every_word();
    records();
    rising_bias();
    value_zero();
    return faults > 0;
}
