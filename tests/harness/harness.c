/* The laboratory's side of the judge and of the writer: reads cases from standard input and writes answers to standard
   output, both binary, each number in 8 bytes, high byte first.

       J  length, book, length, lent buffer    ->  answer, the buffer's bytes after the call; what the header says:
                                                   the parts of the answer, and each record's parts
       V  length, book, curve, tick            ->  refusal, value; what the header says: the refusal's number and place
       W  count, that many steps               ->  for each call: refusal, state, its change; what the header says: the
                                                   bytes written
       H  number, answer, count, that many     ->  what the header says: the parts of the number, taken for an answer,
          bytes, claim, the bytes of the           but for the last; whether the answer is certified; the bytes written,
          records up to this claim                 with the number for the state; and, on either side, the number in the
                                                   bytes and the record's parts
       C                                       ->  count, and each constant of the header: length, name, value

   The parts of an answer are refusal, place, accepted, refuted, not judged, claims and certified, those of a record
   code, tick, left, right and tried.

   The steps of W are calls of the writer, and what changes between two of them. State and length are 0 before the first
   step; the state that a call answers is passed to the next.

       l  length, bytes                              another buffer is lent from here on
       s  state                                      another state is passed to the next call
       b                                             book_begin
       c  rank, period, increment, count, values     book_add_curve, a value in 4 bytes
       k  kind, left, right, third                   book_add_claim
       e                                             book_close

   A call's change is the buffer from the first byte that the call has changed to the last: length, then, unless it is
   0, place and bytes.

   Every call is made twice, with the same bytes: book, buffer and values end right before inaccessible pages the first
   time, and begin right after such the second. Both must answer the same and leave the same bytes. What has length 0 is
   NULL the first time. The book and the values must be unchanged after the call. What is longer than 131,072 bytes is
   sent without the rest, which is lent as zeros that can't be written.

   Nothing here is reckoned by the header's functions or constants: what they say is only passed on.

   Exit status 0 where the input ended between two cases; 2, with a message, where it did not, where the two calls
   differ, or where anything was touched that was not lent. */
#include "zurmakida.h"
#include <signal.h>
#include <stdio.h>
#include <stdlib.h>
#include <string.h>
#include <sys/mman.h>

enum { PAGE = 4096, GUARD = 16 * PAGE, SENT = 32 * PAGE, RECORD = 23 };

static unsigned long cases;

static _Noreturn void fail(const char *why) {
    fprintf(stderr, "harness: case %lu: %s\n", cases, why);
    exit(2);
}

/* Only a call of what is tested ends here, and it holds nothing of the C library: the answers so far can be flushed. */
static void on_fault(int number) {
    (void)number;
    fail("a byte was touched that was not lent, or written that was lent to be read");
}

/* ---- bytes compared, in words */

static uint64_t word(const uint8_t *bytes) {
    uint64_t word;
    memcpy(&word, bytes, sizeof word);
    return word;
}

/* The first that differs; `count` where none does. */
static size_t first_difference(const uint8_t *a, const uint8_t *b, size_t count) {
    size_t i = 0;
    while (i + 8 <= count && word(a + i) == word(b + i))
        i += 8;
    while (i < count && a[i] == b[i])
        i++;
    return i;
}

/* The end of those that differ: one more than the last, or `first` where none from `first` on does. */
static size_t end_of_difference(const uint8_t *a, const uint8_t *b, size_t first, size_t count) {
    size_t end = count;
    while (end >= first + 8 && word(a + end - 8) == word(b + end - 8))
        end -= 8;
    while (end > first && a[end - 1] == b[end - 1])
        end--;
    return end;
}

static int same(const uint8_t *a, const uint8_t *b, size_t count) { return first_difference(a, b, count) == count; }

/* ---- lent memory */

enum { AT_END, AT_START, SIDES };

/* The same bytes on two sides of some pages with inaccessible ones before and after. */
struct lent {
    size_t length;
    size_t sent; /* of the bytes */
    size_t size; /* of the pages between the inaccessible ones */
    uint8_t *pages[SIDES];
    uint8_t *bytes[SIDES];
    size_t open[SIDES]; /* of the bytes: those that can be written, the ones sent and the rest of their last page */
    uint8_t *copy;      /* of the open ones at the end, as they were */
};

enum { SPARE_PAGES = 8, SPARES = 8 };
static uint8_t *spare[SPARE_PAGES + 1][SPARES]; /* pages to be lent again, by their number */
static size_t spares[SPARE_PAGES + 1];

static size_t whole_pages(size_t size) { return (size + PAGE - 1) / PAGE * PAGE; }

static uint8_t *map(size_t size, size_t open) {
    size_t count = size / PAGE;
    if (count <= SPARE_PAGES && spares[count] > 0)
        return spare[count][--spares[count]];
    uint8_t *all = mmap(NULL, size + 2 * GUARD, PROT_NONE, MAP_PRIVATE | MAP_ANONYMOUS | MAP_NORESERVE, -1, 0);
    if (all == MAP_FAILED)
        fail("no memory");
    uint8_t *pages = all + GUARD;
    if (open > 0 && mprotect(pages, open, PROT_READ | PROT_WRITE) != 0)
        fail("no memory");
    if (open < size && mprotect(pages + open, size - open, PROT_READ) != 0)
        fail("no memory");
    return pages;
}

static void unmap(uint8_t *pages, size_t size) {
    size_t count = size / PAGE;
    if (count <= SPARE_PAGES && spares[count] < SPARES)
        spare[count][spares[count]++] = pages;
    else if (munmap(pages - GUARD, size + 2 * GUARD) != 0)
        fail("no memory");
}

static struct lent lend(size_t length) {
    struct lent lent;
    lent.length = length;
    lent.sent = length < SENT ? length : SENT;
    lent.size = whole_pages(length);
    for (int side = 0; side < SIDES; side++) {
        size_t before = side == AT_END ? lent.size - length : 0;
        size_t open = whole_pages(before + lent.sent);
        lent.pages[side] = map(lent.size, open);
        lent.bytes[side] = lent.pages[side] + before;
        lent.open[side] = open - before < length ? open - before : length;
    }
    lent.copy = malloc(lent.open[AT_END] + 1);
    if (lent.copy == NULL)
        fail("no memory");
    return lent;
}

/* What is sent stands at the end; after this also at the start, and is remembered. */
static void spread(struct lent *lent) {
    memcpy(lent->bytes[AT_START], lent->bytes[AT_END], lent->sent);
    memcpy(lent->copy, lent->bytes[AT_END], lent->open[AT_END]);
}

/* What is passed. */
static uint8_t *address(const struct lent *lent, int side) {
    return lent->length == 0 && side == AT_END ? NULL : lent->bytes[side];
}

static void take_back(struct lent *lent) {
    for (int side = 0; side < SIDES; side++)
        unmap(lent->pages[side], lent->size);
    free(lent->copy);
}

static void take_back_unchanged(struct lent *lent) {
    for (int side = 0; side < SIDES; side++)
        if (!same(lent->bytes[side], lent->copy, lent->open[side]))
            fail("what was lent to be read was written");
    take_back(lent);
}

static void see_same_bytes(const struct lent *lent) {
    const uint8_t *bytes = lent->bytes[AT_END];
    if (!same(bytes, lent->bytes[AT_START], lent->sent))
        fail("what was written depends on where the bytes stand");
    if (!same(bytes + lent->sent, lent->copy + lent->sent, lent->open[AT_END] - lent->sent))
        fail("a byte far behind was written");
}

/* ---- numbers and bytes */

static void read_bytes(uint8_t *bytes, size_t count) {
    if (fread(bytes, 1, count, stdin) != count)
        fail("the input ends in the middle");
}

static void write_bytes(const uint8_t *bytes, size_t count) {
    if (fwrite(bytes, 1, count, stdout) != count)
        fail("the answer could not be written");
}

static uint64_t number_in(const uint8_t *bytes, int count) {
    uint64_t number = 0;
    for (int i = 0; i < count; i++)
        number = number << 8 | bytes[i];
    return number;
}

static uint64_t read_number(void) {
    uint8_t bytes[8];
    read_bytes(bytes, 8);
    return number_in(bytes, 8);
}

static void write_number(uint64_t number) {
    uint8_t bytes[8];
    for (int i = 0; i < 8; i++)
        bytes[i] = (uint8_t)(number >> (56 - 8 * i));
    write_bytes(bytes, 8);
}

static struct lent read_lent(size_t length) {
    struct lent lent = lend(length);
    read_bytes(lent.bytes[AT_END], lent.sent);
    spread(&lent);
    return lent;
}

/* What has to be the same, whichever side was lent. */
static uint64_t agreed(const uint64_t numbers[SIDES]) {
    if (numbers[AT_END] != numbers[AT_START])
        fail("the answer depends on where the bytes stand");
    return numbers[AT_END];
}

/* ---- what the header says */

/* All but whether it is certified. */
static void write_most_parts(uint64_t answer) {
    write_number(zurmakida_refusal(answer));
    write_number(zurmakida_place(answer));
    write_number(zurmakida_accepted(answer));
    write_number(zurmakida_refuted(answer));
    write_number(zurmakida_not_judged(answer));
    write_number(zurmakida_claims(answer));
}

static void write_record(struct zurmakida_record record) {
    write_number(record.code);
    write_number(record.tick);
    write_number(record.left);
    write_number(record.right);
    write_number(record.tried);
}

/* As many as the totals say, and no more than the buffer holds. */
static void write_records(uint64_t answer, const struct lent *verdicts) {
    uint64_t claims = (answer >> 24 & 0xFFF) + (answer >> 36 & 0xFFF) + (answer >> 48);
    for (size_t claim = 0; claim < claims && claim < verdicts->length / RECORD; claim++)
        write_record(zurmakida_record_at(verdicts->bytes[AT_END], claim));
}

static void header_case(void) {
    uint64_t number = read_number();
    uint64_t answer = read_number();
    struct lent bytes = read_lent(read_number());
    uint64_t claim = read_number();
    struct lent records = read_lent((claim + 1) * RECORD);
    write_most_parts(number);
    write_number((uint64_t)zurmakida_certified(answer));
    write_number(zurmakida_written(number));
    for (int side = 0; side < SIDES; side++) {
        write_number(zurmakida_number(address(&bytes, side), bytes.length));
        write_record(zurmakida_record_at(records.bytes[side], claim));
    }
    take_back_unchanged(&bytes);
    take_back_unchanged(&records);
}

#define CONSTANT(name) {#name, (uint64_t)(name)}

static const struct {
    const char *name;
    uint64_t value;
} constants[] = {
    CONSTANT(ZURMAKIDA_MAX_BOOK_BYTES),
    CONSTANT(ZURMAKIDA_MAX_CURVES),
    CONSTANT(ZURMAKIDA_MAX_CLAIMS),
    CONSTANT(ZURMAKIDA_RECORD_BYTES),
    CONSTANT(ZURMAKIDA_MAX_VERDICT_BYTES),
    CONSTANT(ZURMAKIDA_MAX_TICK),
    CONSTANT(ZURMAKIDA_MAX_WRITTEN_BYTES),
    CONSTANT(ZURMAKIDA_NOT_REFUSED),
    CONSTANT(ZURMAKIDA_REFUSED_RUNS_PAST),
    CONSTANT(ZURMAKIDA_REFUSED_UNKNOWN_TAG),
    CONSTANT(ZURMAKIDA_REFUSED_OUT_OF_PLACE),
    CONSTANT(ZURMAKIDA_REFUSED_TOO_MANY),
    CONSTANT(ZURMAKIDA_REFUSED_VERSION),
    CONSTANT(ZURMAKIDA_REFUSED_CURVE_LENGTH),
    CONSTANT(ZURMAKIDA_REFUSED_RANK_PERIOD),
    CONSTANT(ZURMAKIDA_REFUSED_OVER_LIMIT),
    CONSTANT(ZURMAKIDA_REFUSED_VALUES_FALL),
    CONSTANT(ZURMAKIDA_REFUSED_CLAIM),
    CONSTANT(ZURMAKIDA_REFUSED_NO_SUCH_CURVE),
    CONSTANT(ZURMAKIDA_REFUSED_TOO_LARGE),
    CONSTANT(ZURMAKIDA_REFUSED_END),
    CONSTANT(ZURMAKIDA_REFUSED_NO_ROOM),
    CONSTANT(ZURMAKIDA_REFUSED_BOOK_TOO_LONG),
    CONSTANT(ZURMAKIDA_ACCEPTED),
    CONSTANT(ZURMAKIDA_REFUTED_AT_TICK),
    CONSTANT(ZURMAKIDA_REFUTED_BY_RATE),
    CONSTANT(ZURMAKIDA_REFUTED_NOT_LEAST),
    CONSTANT(ZURMAKIDA_NOT_JUDGED),
};

static void constants_case(void) {
    size_t count = sizeof constants / sizeof *constants;
    write_number(count);
    for (size_t i = 0; i < count; i++) {
        size_t length = 0;
        while (constants[i].name[length] != 0)
            length++;
        write_number(length);
        write_bytes((const uint8_t *)constants[i].name, length);
        write_number(constants[i].value);
    }
}

/* ---- the judge */

static void judge_case(void) {
    struct lent book = read_lent(read_number());
    struct lent verdicts = read_lent(read_number());
    uint64_t answers[SIDES];
    for (int side = 0; side < SIDES; side++)
        answers[side] = judge(address(&book, side), book.length, address(&verdicts, side), verdicts.length);
    uint64_t answer = agreed(answers);
    see_same_bytes(&verdicts);
    write_number(answer);
    write_bytes(verdicts.bytes[AT_END], verdicts.sent);
    write_most_parts(answer);
    write_number((uint64_t)zurmakida_certified(answer));
    write_records(answer, &verdicts);
    take_back_unchanged(&book);
    take_back(&verdicts);
}

static void value_case(void) {
    struct lent book = read_lent(read_number());
    uint64_t curve = read_number();
    uint64_t tick = read_number();
    uint64_t refusals[SIDES], values[SIDES];
    for (int side = 0; side < SIDES; side++) {
        struct curve_value answer = curve_value(address(&book, side), book.length, curve, tick);
        refusals[side] = answer.refusal;
        values[side] = answer.value;
    }
    uint64_t refusal = agreed(refusals);
    write_number(refusal);
    write_number(agreed(values));
    write_number(zurmakida_refusal(refusal));
    write_number(zurmakida_place(refusal));
    take_back_unchanged(&book);
}

/* ---- the writer */

struct call {
    int letter;
    uint64_t numbers[4];
    struct lent values;
};

static struct call read_call(int letter) {
    struct call call = {.letter = letter};
    for (int i = 0; i < 4 && (letter == 'c' || letter == 'k'); i++)
        call.numbers[i] = read_number();
    call.values = lend(letter == 'c' ? 4 * call.numbers[3] : 0);
    uint8_t *bytes = call.values.bytes[AT_END];
    read_bytes(bytes, call.values.sent);
    for (size_t i = 0; i < call.values.sent / 4; i++)
        ((uint32_t *)bytes)[i] = (uint32_t)number_in(bytes + 4 * i, 4);
    spread(&call.values);
    return call;
}

static struct book_call make_call(const struct call *call, int side, uint64_t state, const struct lent *book) {
    const uint64_t *n = call->numbers;
    uint8_t *bytes = address(book, side);
    const uint32_t *values = (const uint32_t *)address(&call->values, side);
    switch (call->letter) {
    case 'b': return book_begin(state, bytes, book->length);
    case 'c': return book_add_curve(state, bytes, book->length, n[0], n[1], n[2], values, n[3]);
    case 'k': return book_add_claim(state, bytes, book->length, n[0], n[1], n[2], n[3]);
    case 'e': return book_close(state, bytes, book->length);
    default: fail("none of l, s, b, c, k and e");
    }
}

/* What differs from the copy, which then is as the buffer is. */
static void write_change(struct lent *book) {
    const uint8_t *bytes = book->bytes[AT_END];
    size_t open = book->open[AT_END];
    size_t first = first_difference(bytes, book->copy, open);
    size_t end = end_of_difference(bytes, book->copy, first, open);
    write_number(end - first);
    if (first < end) {
        write_number(first);
        write_bytes(bytes + first, end - first);
        memcpy(book->copy + first, bytes + first, end - first);
    }
    if (!same(book->bytes[AT_START], book->copy, book->open[AT_START]))
        fail("what was written depends on where the bytes stand");
}

/* Writes the answer; the state in it. */
static uint64_t call_step(int letter, uint64_t state, struct lent *book) {
    struct call call = read_call(letter);
    uint64_t refusals[SIDES], states[SIDES];
    for (int side = 0; side < SIDES; side++) {
        struct book_call answer = make_call(&call, side, state, book);
        refusals[side] = answer.refusal;
        states[side] = answer.state;
    }
    take_back_unchanged(&call.values);
    write_number(agreed(refusals));
    write_number(agreed(states));
    write_change(book);
    write_number(zurmakida_written(states[AT_END]));
    return states[AT_END];
}

static void write_case(void) {
    struct lent book = read_lent(0);
    uint64_t state = 0;
    for (uint64_t steps = read_number(); steps > 0; steps--) {
        int letter = getchar();
        if (letter == 'l') {
            take_back(&book);
            book = read_lent(read_number());
        } else if (letter == 's') {
            state = read_number();
        } else {
            state = call_step(letter, state, &book);
        }
    }
    take_back(&book);
}

int main(void) {
    signal(SIGSEGV, on_fault);
    for (int letter = getchar(); letter != EOF; letter = getchar()) {
        switch (letter) {
        case 'J': judge_case(); break;
        case 'V': value_case(); break;
        case 'W': write_case(); break;
        case 'H': header_case(); break;
        case 'C': constants_case(); break;
        default: fail("none of J, V, W, H and C");
        }
        cases++;
    }
    if (ferror(stdin) || fflush(stdout) != 0)
        fail("the input or the output broke");
    return 0;
}
