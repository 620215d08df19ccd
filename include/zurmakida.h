/* zurmakida.h: the judge of books of min-plus curves and claims, for C99 and C++. x86-64 Linux.

   judge() reads a book, decides each of its claims and writes a record of 23 bytes for each into a buffer that the
   caller lends. curve_value() asks a book for the value of one of its curves at a tick. book_begin(), book_add_curve(),
   book_add_claim() and book_close() write a book. All are in the archive libzurmakida.a; link it after your own code.

       uint8_t verdicts[ZURMAKIDA_MAX_VERDICT_BYTES];
       uint64_t answer = judge(book, book_length, verdicts, sizeof verdicts);
       if (zurmakida_refusal(answer) != ZURMAKIDA_NOT_REFUSED) {
           printf("refused %u at %u\n", zurmakida_refusal(answer), zurmakida_place(answer));
       } else {
           for (size_t claim = 0; claim < zurmakida_claims(answer); claim++) {
               struct zurmakida_record record = zurmakida_record_at(verdicts, claim);
               printf("claim %zu: code %u, tick %lu\n", claim, (unsigned)record.code, (unsigned long)record.tick);
           }
           printf("certified %s\n", zurmakida_certified(answer) ? "yes" : "no");
       }

   What holds for all of them:
   - Every input has an answer. No call aborts, loops for ever or waits for anything. No length is too short or too long
     for an answer.
   - What is lent to be read (a book to judge() and curve_value(), the values of a curve) stays readable and unchanged
     for the length of the call. What is lent to be written (the verdicts, the room for a book) nobody else reads or
     writes during the call. Bytes may have any alignment; a curve's values are aligned as C aligns uint32_t.
   - What one call is lent must not overlap, not in one byte.
   - NULL is allowed where the length is 0, and only there.
   - The memory is lent for the call and stays the caller's: no pointer is kept, nothing is allocated, nothing is to be
     freed.
   - There is no state outside the arguments: the same input has the same answer, always. Calls may run at once in any
     number of threads, and may share a book to read; each has its own bytes to write.
   - Stack: one call of judge takes at most 29,000 bytes, one of curve_value 5,600, one of the others 64; beside that
     what memcpy and memset of the C library take, and the 128 bytes below the stack pointer that are any function's on
     x86-64 (bench/stack reads it off the machine code).

   The book, in short. Numbers stand high byte first. A field is a tag (1 byte), the length of its content (2 bytes) and
   the content. Fields stand in this order with nothing between them and nothing after:

       10 hex  version   1 byte: 1                                                                         once
       01      curve     rank T (2), period d (2), increment c (4), values f(0) to f(T+d-1) (4 each)       at most 16
       02      claim     kind, left, right (1 each), then h (1) for kinds 1 to 3 or X (4) for kinds 4 to 7 at most 256
       7F hex  end       empty                                                                             once

   For n >= T, f(n+d) = f(n)+c. d >= 1; T+d <= 256; c and each value at most 1,000,000; no value below the one before
   it, and f(T)+c not below f(T+d-1), so that no curve falls; X at most 1,000,000,000. Curves and claims are counted
   from 0 in the order of the book. With f the left curve, g the right one and h the claimed one, a claim says, of every
   tick n or s:

       1 sum               h(n) = f(n)+g(n)
       2 minimum           h(n) = the smaller of f(n), g(n)
       3 convolution       h(n) = the least f(u)+g(n-u), 0 <= u <= n
       4 delay bound X     f(s) <= g(s+X)
       5 exact delay X     4 holds for X and, if X > 0, not for X-1
       6 backlog bound X   f(s) <= g(s)+X
       7 exact backlog X   6 holds for X and, if X > 0, not for X-1

   So an exact delay is the largest, over all s, of the least wait w with f(s) <= g(s+w). */
#ifndef ZURMAKIDA_H
#define ZURMAKIDA_H

#include <stddef.h>
#include <stdint.h>

#ifdef __cplusplus
extern "C" {
#endif

#define ZURMAKIDA_MAX_BOOK_BYTES 32768 /* a longer book is refused */
#define ZURMAKIDA_MAX_CURVES 16
#define ZURMAKIDA_MAX_CLAIMS 256
#define ZURMAKIDA_RECORD_BYTES 23
#define ZURMAKIDA_MAX_VERDICT_BYTES (ZURMAKIDA_MAX_CLAIMS * ZURMAKIDA_RECORD_BYTES) /* room for any book's records */
#define ZURMAKIDA_MAX_TICK 2000000000 /* that curve_value takes */

/* Why a book that is read is refused. The place is that of the first byte of the first bad field, counted from 0,
   unless it says otherwise. Where a book is written the numbers are the same and have no place: see 'writing a book'
   below. */
enum zurmakida_refusal_number {
    ZURMAKIDA_NOT_REFUSED = 0,
    ZURMAKIDA_REFUSED_RUNS_PAST = 1,      /* fewer than 3 bytes are left, or the content runs past the book */
    ZURMAKIDA_REFUSED_UNKNOWN_TAG = 2,    /* a tag that is none of the four */
    ZURMAKIDA_REFUSED_OUT_OF_PLACE = 3,   /* a field out of its place in the order; a second version too */
    ZURMAKIDA_REFUSED_TOO_MANY = 4,       /* a 17th curve or a 257th claim */
    ZURMAKIDA_REFUSED_VERSION = 5,        /* version: the length or the number isn't 1 */
    ZURMAKIDA_REFUSED_CURVE_LENGTH = 6,   /* curve: the length is under 8, or isn't 8+4*(T+d) */
    ZURMAKIDA_REFUSED_RANK_PERIOD = 7,    /* curve: d = 0 or T+d > 256 */
    ZURMAKIDA_REFUSED_OVER_LIMIT = 8,     /* curve: c or a value is over 1,000,000 */
    ZURMAKIDA_REFUSED_VALUES_FALL = 9,    /* curve: a value is below the one before it, or f(T)+c, where the next period
                                             begins, is below f(T+d-1) */
    ZURMAKIDA_REFUSED_CLAIM = 10,         /* claim: empty, unknown kind or wrong length */
    ZURMAKIDA_REFUSED_NO_SUCH_CURVE = 11, /* claim: an id that names no curve. From curve_value also: no such curve,
                                             place 0 */
    ZURMAKIDA_REFUSED_TOO_LARGE = 12,     /* claim: X over 1,000,000,000. From curve_value also: tick over
                                             2,000,000,000, place 0 */
    ZURMAKIDA_REFUSED_END = 13,           /* end: the length isn't 0, or a byte follows */
    ZURMAKIDA_REFUSED_NO_ROOM = 14,       /* a sound book, but the lent buffer is under 23 bytes per claim; place 0.
                                             Not from curve_value */
    ZURMAKIDA_REFUSED_BOOK_TOO_LONG = 15  /* the book is over 32,768 bytes; place 0 */
};

/* What a record says of its claim. */
enum zurmakida_code {
    ZURMAKIDA_ACCEPTED = 1,          /* it holds at every tick, without end */
    ZURMAKIDA_REFUTED_AT_TICK = 2,   /* it fails at the record's tick, and at none before: the only code with a tick and
                                        two values */
    ZURMAKIDA_REFUTED_BY_RATE = 3,   /* kinds 4 to 7: the left curve grows faster than the right one, so no X will do */
    ZURMAKIDA_REFUTED_NOT_LEAST = 4, /* kinds 5 and 7: X is a bound, and X-1 is one too */
    ZURMAKIDA_NOT_JUDGED = 5         /* its horizon is above 4,096 ticks */
};

/* Judges a book. The answer is one number:

       bits  0 to  7   refusal number, 0 where the book is judged
       bits  8 to 23   place
       bits 24 to 35   claims accepted (code 1)
       bits 36 to 47   claims refuted (codes 2, 3 and 4)
       bits 48 to 63   claims not judged (code 5)

   Refused: the totals are 0 and nothing is written. Judged: number and place are 0, the totals add up to the claims of
   the book, and the first 23 bytes per claim of `verdicts` are written, the records in the order of the claims; the
   bytes after them stay as they were. */
uint64_t judge(const uint8_t *book, size_t book_length, uint8_t *verdicts, size_t verdicts_length);

/* A curve's value, or why there is none. */
struct curve_value {
    uint64_t refusal; /* 0 where there is a value, else refusal number + 2^8 * place, to be read like judge's answer */
    uint64_t value;   /* 0 where refused */
};

/* The value of a curve of a book at a tick. A bad book gives its refusal, as judge would with room enough; then a
   number that names no curve is refused with 11, then a tick above 2,000,000,000 with 12, both with place 0. */
struct curve_value curve_value(const uint8_t *book, size_t book_length, uint64_t curve, uint64_t tick);

/* ---- writing a book

   Writing goes by book_begin, book_add_curve for each curve, book_add_claim for each claim, book_close. The writer's
   state is a number: 0 before book_begin, then what the last call answered. Each call is taken or refused.

   Taken: `refusal` is 0, the field's bytes stand in `book` after those that the calls before it wrote, no other byte of
   `book` is touched, and `state` is the new state. Refused: `refusal` is the number, `book` is as it was, and `state`
   is the state that was passed.

       uint8_t book[ZURMAKIDA_MAX_WRITTEN_BYTES];
       const uint32_t a[] = {0, 4}, b[] = {0, 0, 0};
       struct book_call call = book_begin(0, book, sizeof book);
       call = book_add_curve(call.state, book, sizeof book, 1, 1, 1, a, 2);
       call = book_add_curve(call.state, book, sizeof book, 2, 1, 2, b, 3);
       call = book_add_claim(call.state, book, sizeof book, 5, 0, 1, 3);
       call = book_close(call.state, book, sizeof book);

   (with a look at call.refusal after each) leaves W8 of document 01 in the first zurmakida_written(call.state) bytes.
   What taken calls have written, from state 0 on and into the same `book`, is always the beginning of a sound book, and
   after book_close a sound book.

   The refusals, in the order in which they are tried:

        3  out of order: nothing begun, or begun already, or closed, or a curve after a claim. Also a number that is no
           state: one with a bit above bit 47, or with more than 32,768 bytes written. (Any other number is taken for
           the state that its bits say.)
        4  a 17th curve or a 257th claim
        7  curve: period 0, or rank + period over 256
        6  curve: the count of the values is not rank + period
        8  curve: the increment or a value is over 1,000,000
        9  curve: a value is below the one before it, or f(T)+c is below f(T+d-1)
       10  claim: the kind is none of 1 to 7
       11  claim: left, right or, for kinds 1 to 3, h names no curve that was added
       12  claim: X, for kinds 4 to 7, is over 1,000,000,000
       14  too few bytes remain in `book` for this field */
struct book_call {
    uint64_t refusal; /* 0 where the call is taken; a writer's refusal has no place */
    uint64_t state;
};

#define ZURMAKIDA_MAX_WRITTEN_BYTES 19127 /* room for any book: 16 curves of 256 values and 256 claims */

/* Begins a book, with state 0. */
struct book_call book_begin(uint64_t state, uint8_t *book, size_t book_length);

/* Adds a curve: rank T, period d, increment c and `count` values, f(0) to f(T+d-1). */
struct book_call book_add_curve(uint64_t state, uint8_t *book, size_t book_length, uint64_t rank, uint64_t period,
                                uint64_t increment, const uint32_t *values, size_t count);

/* Adds a claim: its kind, the numbers of its left and right curve, and `third`: for kinds 1 to 3 h, the number of the
   claimed curve, for kinds 4 to 7 X. */
struct book_call book_add_claim(uint64_t state, uint8_t *book, size_t book_length, uint64_t kind, uint64_t left,
                                uint64_t right, uint64_t third);

/* Closes the book. */
struct book_call book_close(uint64_t state, uint8_t *book, size_t book_length);

/* The parts of a state:

       bits  0 to 15   bytes written
       bits 16 to 31   claims added
       bits 32 to 39   curves added
       bits 40 to 46   version, 0 before book_begin
       bit  47         closed */
static inline unsigned zurmakida_written(uint64_t state) { return (unsigned)(state & 0xFFFF); }

/* ---- the parts of an answer of judge() */
static inline unsigned zurmakida_refusal(uint64_t answer) { return (unsigned)(answer & 0xFF); }
static inline unsigned zurmakida_place(uint64_t answer) { return (unsigned)((answer >> 8) & 0xFFFF); }
static inline unsigned zurmakida_accepted(uint64_t answer) { return (unsigned)((answer >> 24) & 0xFFF); }
static inline unsigned zurmakida_refuted(uint64_t answer) { return (unsigned)((answer >> 36) & 0xFFF); }
static inline unsigned zurmakida_not_judged(uint64_t answer) { return (unsigned)(answer >> 48); }

/* The claims of the book, which is the number of records written: 0 for a refused book. */
static inline unsigned zurmakida_claims(uint64_t answer) {
    return zurmakida_accepted(answer) + zurmakida_refuted(answer) + zurmakida_not_judged(answer);
}

/* 1 exactly when the book has at least one claim and all are accepted, else 0; 0 for a refused book. */
static inline int zurmakida_certified(uint64_t answer) {
    return zurmakida_accepted(answer) > 0 && zurmakida_accepted(answer) == zurmakida_claims(answer);
}

/* A record taken apart. In the buffer it is 23 bytes: code (1), tick (4), left (8), right (8), tried (2), high byte
   first. Tick, left and right are 0 unless the code is 2. There, for kinds 1 to 3, left is the due value and right is
   h; for 4 and 5, f(s) and g(s+X); for 6 and 7, f(s) and g(s)+X.

   `tried` is how many ticks were tried, from tick 0 on: for code 2 the tick plus 1, for code 5 none. For the other
   codes it is all that the horizon asks for: for kinds 1 to 3 the ticks 0 to the horizon, so that it is the horizon
   plus 1; for 4 to 7 the ticks below it, so that it is the horizon. The test of X-1, for kinds 5 and 7, isn't
   counted. */
struct zurmakida_record {
    uint8_t code; /* of enum zurmakida_code */
    uint32_t tick;
    uint64_t left;
    uint64_t right;
    uint16_t tried;
};

/* The number in `count` bytes, high byte first; at most 8. */
static inline uint64_t zurmakida_number(const uint8_t *bytes, size_t count) {
    uint64_t number = 0;
    size_t i;
    for (i = 0; i < count; i++)
        number = (number << 8) | bytes[i];
    return number;
}

/* The record of a claim, counted from 0, in a buffer that judge has written: claim < zurmakida_claims(answer). */
static inline struct zurmakida_record zurmakida_record_at(const uint8_t *verdicts, size_t claim) {
    const uint8_t *bytes = verdicts + claim * ZURMAKIDA_RECORD_BYTES;
    struct zurmakida_record record;
    record.code = bytes[0];
    record.tick = (uint32_t)zurmakida_number(bytes + 1, 4);
    record.left = zurmakida_number(bytes + 5, 8);
    record.right = zurmakida_number(bytes + 13, 8);
    record.tried = (uint16_t)zurmakida_number(bytes + 21, 2);
    return record;
}

#ifdef __cplusplus
}
#endif

#endif
