/*
 * Saddlemint: decoding, and the calls on code books, words, data and hook records, for C.
 *
 * Every function is proved, for every input: what it answers, what it leaves in each buffer, and that it ends. crates/capi/src/lib.rt holds
 * the contracts; crates/numbered/specs/Answers.antt and crates/slices/specs/Slices.antt the definitions that they cite.
 *
 * A buffer is a pointer and a length in entries. All that is asked of the caller is what C asks of any: each pointer leads to that many
 * entries, never null (also where the length is 0), and a buffer that is written overlaps no other. No length and no value is taken on the
 * caller's word. Nothing is kept between calls, nothing is allocated; the calls share nothing, so that any number may run at once on buffers of their own.
 * A decoding call needs some 44 KB of stack, the others at most 11 KB, as measured.
 *
 * Words and data are bits, one to a byte, 0 or 1. A word has n entries and data k, where n and k are the book's.
 *
 * Each function answers 0 for success or the number of a refusal. A book's first faulty command decides (1 to 6); then 8, 7, 9, 10, 11.
 */
#ifndef SADDLEMINT_H
#define SADDLEMINT_H

#include <stddef.h>
#include <stdint.h>

#ifdef __cplusplus
extern "C" {
#endif

enum saddlemint_answer {
    SADDLEMINT_DONE = 0,
    SADDLEMINT_SHORT = 1,       /* the book ends in a command, or where one is due */
    SADDLEMINT_STRANGE = 2,     /* a command byte that is not listed */
    SADDLEMINT_MISPLACED = 3,   /* a listed command where it may not stand, or bytes after the end */
    SADDLEMINT_OFF_RANGE = 4,   /* an operand out of range */
    SADDLEMINT_OVERTIED = 5,    /* more than 32 ties */
    SADDLEMINT_HEAVY = 6,       /* a block with more than 8 free indices */
    SADDLEMINT_MISFIT = 7,      /* a buffer whose length is not the one asked; a record, and k is not 32 */
    SADDLEMINT_BAD_SETTING = 8, /* visits, paths or limit out of range */
    SADDLEMINT_BAD_VALUE = 9,   /* a soft value out of range; an entry of a word or of data above 1; a field of a record too large for its bits */
    SADDLEMINT_FAINT = 10,      /* the decoded word's discrepancy is above the limit */
    SADDLEMINT_UNREADABLE = 11, /* data that hold no record: status 5 to 7, or a spare bit 1 */
    SADDLEMINT_NOT_IN_CODE = 255 /* the answer "no" of saddlemint_test; no refusal */
};

enum saddlemint_status {
    SADDLEMINT_PASSED = 0,
    SADDLEMINT_HELD_FOR_LABORATORY = 1,
    SADDLEMINT_HELD_FOR_VETERINARIAN = 2,
    SADDLEMINT_HELD_FOR_OWNER = 3,
    SADDLEMINT_CONDEMNED = 4
};

/*
 * Loads a book. shape has 3 entries: the length n of a word, the length k of data, the number V of blocks.
 * Answers 0, 1 to 6, or 7 where shape_len is not 3.
 * shape is written with every answer, zeros on a refusal; where shape_len is not 3 it is left as it was.
 */
uint32_t saddlemint_load(const uint8_t *book, size_t book_len, uint32_t *shape, size_t shape_len);

/*
 * Encodes data into word: the word of the code whose data these are.
 * Answers 0; 1 to 6; 7 where data_len is not k or word_len is not n; 9 where an entry of data is above 1.
 * word is written on success alone.
 */
uint32_t saddlemint_encode(const uint8_t *book, size_t book_len, const uint8_t *data, size_t data_len, uint8_t *word, size_t word_len);

/*
 * Tests a word.
 * Answers 0 where it is in the code and 255 where it is not; 1 to 6; 7 where word_len is not n; 9 where an entry is above 1.
 */
uint32_t saddlemint_test(const uint8_t *book, size_t book_len, const uint8_t *word, size_t word_len);

/*
 * Reads the data of a word into data. A word outside the code has data too: the bits at the free indices. Test first if that matters.
 * Answers 0; 1 to 6; 7 where word_len is not n or data_len is not k; 9 where an entry of word is above 1.
 * data is written on success alone.
 */
uint32_t saddlemint_read_data(const uint8_t *book, size_t book_len, const uint8_t *word, size_t word_len, uint8_t *data, size_t data_len);

/*
 * Makes the data of a record: plant below 64, carcass below 1048576, side 0 (left) or 1 (right), a status of the list above.
 * Answers 0; 1 to 6; 7 where k or data_len is not 32; 9 where a field is larger.
 * data is written on success alone.
 */
uint32_t saddlemint_make_record(const uint8_t *book, size_t book_len, uint32_t plant, uint32_t carcass, uint32_t side, uint32_t status,
                                uint8_t *data, size_t data_len);

/*
 * Reads the record of data. record has 4 entries: plant, carcass, side, status.
 * Answers 0; 1 to 6; 7 where k or data_len is not 32, or record_len is not 4; 9 where an entry of data is above 1; 11 where the data hold
 * no record.
 * record is written with every answer, zeros on a refusal; where record_len is not 4 it is left as it was.
 */
uint32_t saddlemint_read_record(const uint8_t *book, size_t book_len, const uint8_t *data, size_t data_len, uint32_t *record,
                                size_t record_len);

/*
 * The lengths of the buffers that a decoding call is lent, for a book with word length n and V blocks (saddlemint_load gives both), and the
 * settings visits (L) and paths (D). A buffer may be longer; what lies past these lengths is never touched.
 */
#define SADDLEMINT_NUMBERS(n, paths) ((size_t)(paths) * (2 * (size_t)(n) + 32))
#define SADDLEMINT_BYTES(n, paths) ((size_t)(paths) * (2 * (size_t)(n)))
#define SADDLEMINT_WALK(visits, blocks) ((size_t)(visits) * (size_t)(blocks) + 1)

/* The most that any accepted book and setting needs: n 512, V 512, visits 32, paths 256. */
#define SADDLEMINT_MOST_N 512
#define SADDLEMINT_MOST_NUMBERS SADDLEMINT_NUMBERS(512, 256)
#define SADDLEMINT_MOST_BYTES SADDLEMINT_BYTES(512, 256)
#define SADDLEMINT_MOST_WALK SADDLEMINT_WALK(32, 512)

/*
 * Decodes soft values, each from -2047 to 2047, positive favouring 0.
 *   visits 1 to 32, paths 2 to 256, limit 0 to 1048576
 *   values and word exactly n entries, data exactly k
 *   numbers, bytes: workspace of at least SADDLEMINT_NUMBERS and SADDLEMINT_BYTES entries, whatever they hold
 *   walk_path, walk_blocks, walk_score: each at least SADDLEMINT_WALK entries
 *   counts: exactly 4 entries: extractions, paths crowded out, paths outrun, discrepancy of the final word
 * Answers 0; 1 to 6; 8 where a setting is out of range; 7 where a length is wrong; 9 where a value is out of range; 10 where the
 * discrepancy is above the limit.
 * word and data are written on success alone. After a run (0 or 10) the walk has an entry for each extraction from 0 on, the rest as it was,
 * the workspace is zero at the lengths above and as it was past them, and counts are the run's. After 1 to 9 every buffer is as it was, but
 * counts are zeros; where counts_len is not 4 the answer is 1 to 6, 8, or else 7, and counts too are as they were.
 */
uint32_t saddlemint_decode(const uint8_t *book, size_t book_len, uint32_t visits, uint32_t paths, uint32_t limit, const int16_t *values,
                           size_t values_len, uint8_t *word, size_t word_len, uint8_t *data, size_t data_len, int32_t *numbers,
                           size_t numbers_len, uint8_t *bytes, size_t bytes_len, int32_t *walk_path, size_t walk_path_len,
                           int32_t *walk_blocks, size_t walk_blocks_len, int32_t *walk_score, size_t walk_score_len, uint32_t *counts,
                           size_t counts_len);

/*
 * Decodes soft values as saddlemint_decode does, and reads the record of the word's data. The book must have k = 32, else 7.
 *   record: exactly 4 entries: plant, carcass, side, status
 * Answers as saddlemint_decode, and 11 where the data hold no record; word and data are then left as they were.
 * record is written with every answer, zeros on a refusal; where counts_len or record_len is not 4 the answer is 1 to 6, 8, or else 7, and
 * every buffer is as it was, but of counts and record the one that has its 4 entries is zeros.
 */
uint32_t saddlemint_decode_hook(const uint8_t *book, size_t book_len, uint32_t visits, uint32_t paths, uint32_t limit,
                                const int16_t *values, size_t values_len, uint8_t *word, size_t word_len, uint8_t *data, size_t data_len,
                                int32_t *numbers, size_t numbers_len, uint8_t *bytes, size_t bytes_len, int32_t *walk_path,
                                size_t walk_path_len, int32_t *walk_blocks, size_t walk_blocks_len, int32_t *walk_score,
                                size_t walk_score_len, uint32_t *counts, size_t counts_len, uint32_t *record, size_t record_len);

#ifdef __cplusplus
}
#endif

#endif
