/*
 * The stack that each C function of the library takes: it is called on a stack filled with one byte, and what has changed afterwards was used. The
 * book is one of length 512 with blocks of 8; for the records, of length 64 with k = 32.
 */
#include <stdint.h>
#include <stdio.h>
#include <string.h>
#include <ucontext.h>

#include "saddlemint.h"

enum { N = 512, K = 256, BLOCKS = 64, VISITS = 32, PATHS = 256, ROOM = 1 << 20, FILL = 0xa5 };

static uint8_t book[512], record_book[256];
static size_t book_len, record_book_len;
static int16_t values[N];
static uint8_t word[N], data[K], bits[32], bytes[SADDLEMINT_BYTES(N, PATHS)];
static int32_t numbers[SADDLEMINT_NUMBERS(N, PATHS)], walk[3][SADDLEMINT_WALK(VISITS, BLOCKS)];
static uint32_t shape[3], counts[4], record[4], answer;
static int function;

static uint8_t stack[ROOM];
static ucontext_t back, context;

/* Half of the indices zero, half free; blocks of 8, bias 0. Returns the book's length. */
static size_t half(uint8_t *to, unsigned m)
{
    const unsigned n = 1u << m;
    size_t len = 0;
    to[len++] = 0x10;
    to[len++] = (uint8_t)m;
    for (unsigned kind = 2; kind > 0; kind--) {
        to[len++] = (uint8_t)kind;
        to[len++] = (uint8_t)(n / 2 / 256);
        to[len++] = (uint8_t)(n / 2 % 256);
    }
    for (unsigned b = 0; b < n / 8; b++) {
        const uint8_t block[] = {0x05, 3, 0, 0, 0, 0};
        memcpy(to + len, block, sizeof block);
        len += sizeof block;
    }
    to[len++] = 0x7f;
    return len;
}

static void call(void)
{
    const size_t walk_len = SADDLEMINT_WALK(VISITS, BLOCKS);
    switch (function) {
    case 1: answer = saddlemint_load(book, book_len, shape, 3); break;
    case 2: answer = saddlemint_encode(book, book_len, data, K, word, N); break;
    case 3: answer = saddlemint_test(book, book_len, word, N); break;
    case 4: answer = saddlemint_read_data(book, book_len, word, N, data, K); break;
    case 5: answer = saddlemint_make_record(record_book, record_book_len, 1, 2, 1, 1, bits, 32); break;
    case 6: answer = saddlemint_read_record(record_book, record_book_len, bits, 32, record, 4); break;
    case 7:
        answer = saddlemint_decode(book, book_len, VISITS, PATHS, 1048576, values, N, word, N, data, K, numbers,
                                   SADDLEMINT_NUMBERS(N, PATHS), bytes, sizeof bytes, walk[0], walk_len, walk[1], walk_len, walk[2],
                                   walk_len, counts, 4);
        break;
    }
}

int main(void)
{
    static const char *const names[] = {"nothing", "load", "encode", "test", "read_data", "make_record", "read_record", "decode"};
    static size_t least;
    uint32_t state = 20261116;

    book_len = half(book, 9);
    record_book_len = half(record_book, 6);
    for (int i = 0; i < N; i++) {
        state = state * 1664525 + 1013904223;
        values[i] = (int16_t)(state >> 16) % 2048;
    }
    for (function = 0; function < 8; function++) {
        size_t unused = 0;
        memset(stack, FILL, ROOM);
        getcontext(&context);
        context.uc_stack.ss_sp = stack;
        context.uc_stack.ss_size = ROOM;
        context.uc_link = &back;
        makecontext(&context, call, 0);
        swapcontext(&back, &context);
        while (unused < ROOM && stack[unused] == FILL)
            unused++;
        if (function == 0)
            least = ROOM - unused;
        else
            printf("%-12s answer %2u  %5zu bytes\n", names[function], (unsigned)answer, ROOM - unused - least);
    }
    return 0;
}
