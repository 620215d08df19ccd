/* writing ROUNDS < BOOK: writes the calls of a sound book by the proved writer and by the plain one in turn, in each
   round. Prints the median time of each in nanoseconds and the number of calls. Both must write that book, in each
   round. */
#include "../include/zurmakida.h"
#include "clock.h"
#include <stdio.h>
#include <string.h>

struct book_call plain_book_begin(uint64_t state, uint8_t *book, size_t book_length);
struct book_call plain_book_add_curve(uint64_t state, uint8_t *book, size_t book_length, uint64_t rank, uint64_t period,
                                      uint64_t increment, const uint32_t *values, size_t count);
struct book_call plain_book_add_claim(uint64_t state, uint8_t *book, size_t book_length, uint64_t kind, uint64_t left,
                                      uint64_t right, uint64_t third);
struct book_call plain_book_close(uint64_t state, uint8_t *book, size_t book_length);

struct writer {
    struct book_call (*begin)(uint64_t, uint8_t *, size_t);
    struct book_call (*add_curve)(uint64_t, uint8_t *, size_t, uint64_t, uint64_t, uint64_t, const uint32_t *, size_t);
    struct book_call (*add_claim)(uint64_t, uint8_t *, size_t, uint64_t, uint64_t, uint64_t, uint64_t);
    struct book_call (*close)(uint64_t, uint8_t *, size_t);
    uint64_t times[MAX_ROUNDS];
};

struct curve {
    uint64_t rank, period, increment;
    uint32_t values[256];
};

struct claim {
    uint64_t kind, left, right, third;
};

static struct curve curves[ZURMAKIDA_MAX_CURVES];
static struct claim claims[ZURMAKIDA_MAX_CLAIMS];
static size_t curve_count, claim_count;

/* Of a sound book. */
static void take_apart(const uint8_t *book) {
    for (const uint8_t *field = book; field[0] != 0x7F; field += 3 + zurmakida_number(field + 1, 2)) {
        if (field[0] == 0x01) {
            struct curve *curve = &curves[curve_count++];
            curve->rank = zurmakida_number(field + 3, 2);
            curve->period = zurmakida_number(field + 5, 2);
            curve->increment = zurmakida_number(field + 7, 4);
            for (size_t i = 0; i < curve->rank + curve->period; i++)
                curve->values[i] = (uint32_t)zurmakida_number(field + 11 + 4 * i, 4);
        } else if (field[0] == 0x02) {
            uint64_t third = zurmakida_number(field + 6, field[3] <= 3 ? 1 : 4);
            claims[claim_count++] = (struct claim){field[3], field[4], field[5], third};
        }
    }
}

/* The refusals of all calls are added up, so that one shows. */
static uint64_t write_all(const struct writer *writer, uint8_t *book, size_t length) {
    struct book_call call = writer->begin(0, book, length);
    uint64_t refused = call.refusal;
    for (size_t i = 0; i < curve_count; i++) {
        const struct curve *f = &curves[i];
        call = writer->add_curve(call.state, book, length, f->rank, f->period, f->increment, f->values,
                                 f->rank + f->period);
        refused += call.refusal;
    }
    for (size_t i = 0; i < claim_count; i++) {
        const struct claim *claim = &claims[i];
        call = writer->add_claim(call.state, book, length, claim->kind, claim->left, claim->right, claim->third);
        refused += call.refusal;
    }
    return refused + writer->close(call.state, book, length).refusal;
}

/* Whether the book was written. */
static int take_turn(struct writer *writer, int round, const uint8_t *due, size_t length) {
    static uint8_t book[ZURMAKIDA_MAX_WRITTEN_BYTES];
    memset(book, 0xFF, sizeof book);
    uint64_t begun = nanoseconds();
    uint64_t refused = write_all(writer, book, sizeof book);
    writer->times[round] = nanoseconds() - begun;
    return refused == 0 && memcmp(book, due, length) == 0;
}

int main(int count, char **words) {
    static uint8_t book[ZURMAKIDA_MAX_WRITTEN_BYTES];
    static struct writer proved = {book_begin, book_add_curve, book_add_claim, book_close, {0}};
    static struct writer plain = {plain_book_begin, plain_book_add_curve, plain_book_add_claim, plain_book_close, {0}};
    int rounds = rounds_of(count, words);
    if (!rounds) {
        fprintf(stderr, "usage: writing ROUNDS < BOOK, 1 to %d rounds\n", MAX_ROUNDS);
        return 2;
    }
    size_t length = fread(book, 1, sizeof book, stdin);
    take_apart(book);
    for (int round = 0; round < rounds; round++) {
        if (!take_turn(&proved, round, book, length) || !take_turn(&plain, round, book, length)) {
            fprintf(stderr, "writing: the proved writer or the plain one has not written the book\n");
            return 1;
        }
    }
    printf("%llu %llu %lu\n", (unsigned long long)median(proved.times, rounds),
           (unsigned long long)median(plain.times, rounds), (unsigned long)(2 + curve_count + claim_count));
    return 0;
}
