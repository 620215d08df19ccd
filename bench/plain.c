/* The judge and the writer of document 01, with document 02's request A2, in straightforward C: what the proved ones
   are timed against and compared with. The entries are those of the header, with plain_ before each name. Horizons and
   crossings are of 64 bits with a sign; tables hold 32 bits, as a value at a tick of at most 4,096 does. Kind 3 tries
   every split of every tick; a file that includes this one may name another search for it, JUDGE_CONVOLUTION. */
#ifndef judge
#define judge plain_judge
#define curve_value plain_curve_value
#define book_begin plain_book_begin
#define book_add_curve plain_book_add_curve
#define book_add_claim plain_book_add_claim
#define book_close plain_book_close
#endif
#include "../include/zurmakida.h"

enum {
    VALUES = 256,            /* of a curve */
    MAX_UNITS = 1000000,     /* of a value and of an increment */
    MAX_BOUND = 1000000000,  /* X */
    MAX_HORIZON = 4096
};

enum { TAG_CURVE = 0x01, TAG_CLAIM = 0x02, TAG_VERSION = 0x10, TAG_END = 0x7F };
enum kind { SUM = 1, MINIMUM, CONVOLUTION, DELAY, EXACT_DELAY, BACKLOG, EXACT_BACKLOG };

struct curve {
    uint32_t rank, period, increment;
    uint32_t values[VALUES];
};

struct claim {
    unsigned kind, left, right;
    uint32_t claimed; /* h or X */
};

struct book {
    unsigned curve_count, claim_count;
    struct curve curves[ZURMAKIDA_MAX_CURVES];
    struct claim claims[ZURMAKIDA_MAX_CLAIMS];
};

/* ---- reading */

static uint32_t two_bytes(const uint8_t *bytes) { return (uint32_t)bytes[0] << 8 | bytes[1]; }

static uint32_t four_bytes(const uint8_t *bytes) { return two_bytes(bytes) << 16 | two_bytes(bytes + 2); }

/* These four take the content of a field of their tag and answer a refusal number, 0 for none. */
static unsigned read_version(const uint8_t *content, uint32_t length) {
    return length == 1 && content[0] == 1 ? 0 : ZURMAKIDA_REFUSED_VERSION;
}

static unsigned read_curve(const uint8_t *content, uint32_t length, struct curve *curve) {
    if (length < 8)
        return ZURMAKIDA_REFUSED_CURVE_LENGTH;
    curve->rank = two_bytes(content);
    curve->period = two_bytes(content + 2);
    curve->increment = four_bytes(content + 4);
    uint32_t count = curve->rank + curve->period;
    if (curve->period == 0 || count > VALUES)
        return ZURMAKIDA_REFUSED_RANK_PERIOD;
    if (length != 8 + 4 * count)
        return ZURMAKIDA_REFUSED_CURVE_LENGTH;
    int over = curve->increment > MAX_UNITS;
    int falls = 0;
    for (uint32_t i = 0; i < count; i++) {
        curve->values[i] = four_bytes(content + 8 + 4 * i);
        over |= curve->values[i] > MAX_UNITS;
        falls |= i > 0 && curve->values[i] < curve->values[i - 1];
    }
    /* at the seam of two periods; a sum past 32 bits has an increment over the limit */
    falls |= curve->values[curve->rank] + curve->increment < curve->values[count - 1];
    return over ? ZURMAKIDA_REFUSED_OVER_LIMIT : falls ? ZURMAKIDA_REFUSED_VALUES_FALL : 0;
}

static unsigned read_claim(const uint8_t *content, uint32_t length, unsigned curve_count, struct claim *claim) {
    if (length == 0 || content[0] < SUM || content[0] > EXACT_BACKLOG)
        return ZURMAKIDA_REFUSED_CLAIM;
    int has_bound = content[0] >= DELAY;
    if (length != (has_bound ? 7u : 4u))
        return ZURMAKIDA_REFUSED_CLAIM;
    claim->kind = content[0];
    claim->left = content[1];
    claim->right = content[2];
    claim->claimed = has_bound ? four_bytes(content + 3) : content[3];
    if (claim->left >= curve_count || claim->right >= curve_count || (!has_bound && claim->claimed >= curve_count))
        return ZURMAKIDA_REFUSED_NO_SUCH_CURVE;
    return has_bound && claim->claimed > MAX_BOUND ? ZURMAKIDA_REFUSED_TOO_LARGE : 0;
}

static unsigned read_end(uint32_t length, size_t after) {
    return length == 0 && after == 0 ? 0 : ZURMAKIDA_REFUSED_END;
}

/* Whether a field with this tag may come after one with the tag `before`, which is 0 at the start of the book. */
static int in_order(unsigned before, unsigned tag) {
    switch (tag) {
    case TAG_VERSION: return before == 0;
    case TAG_CURVE: return before == TAG_VERSION || before == TAG_CURVE;
    default: return before != 0;
    }
}

/* The field at `place`; a refusal number, 0 for none. */
static unsigned read_field(const uint8_t *bytes, size_t length, size_t place, unsigned before, struct book *book) {
    if (length - place < 3)
        return ZURMAKIDA_REFUSED_RUNS_PAST;
    unsigned tag = bytes[place];
    const uint8_t *content = bytes + place + 3;
    uint32_t content_length = two_bytes(content - 2);
    size_t left = length - place - 3;
    if (tag != TAG_VERSION && tag != TAG_CURVE && tag != TAG_CLAIM && tag != TAG_END)
        return ZURMAKIDA_REFUSED_UNKNOWN_TAG;
    if (!in_order(before, tag))
        return ZURMAKIDA_REFUSED_OUT_OF_PLACE;
    if ((tag == TAG_CURVE && book->curve_count == ZURMAKIDA_MAX_CURVES) ||
        (tag == TAG_CLAIM && book->claim_count == ZURMAKIDA_MAX_CLAIMS))
        return ZURMAKIDA_REFUSED_TOO_MANY;
    if (content_length > left)
        return ZURMAKIDA_REFUSED_RUNS_PAST;
    switch (tag) {
    case TAG_VERSION: return read_version(content, content_length);
    case TAG_CURVE: return read_curve(content, content_length, &book->curves[book->curve_count++]);
    case TAG_CLAIM: return read_claim(content, content_length, book->curve_count, &book->claims[book->claim_count++]);
    default: return read_end(content_length, left - content_length);
    }
}

/* Refusal number + 2^8 * place, 0 for a sound book. */
static uint64_t read_book(const uint8_t *bytes, size_t length, struct book *book) {
    book->curve_count = 0;
    book->claim_count = 0;
    if (length > ZURMAKIDA_MAX_BOOK_BYTES)
        return ZURMAKIDA_REFUSED_BOOK_TOO_LONG;
    unsigned before = 0;
    size_t place = 0;
    while (before != TAG_END) {
        unsigned refused = read_field(bytes, length, place, before, book);
        if (refused)
            return refused + ((uint64_t)place << 8);
        before = bytes[place];
        place += 3 + two_bytes(bytes + place + 1);
    }
    return 0;
}

/* ---- values */

static uint64_t value_at(const struct curve *f, uint64_t n) {
    if (n < f->rank + f->period)
        return f->values[n];
    uint64_t since = n - f->rank;
    return f->values[f->rank + since % f->period] + since / f->period * f->increment;
}

/* The values at ticks 0 to `last`. */
static void fill(uint32_t *table, const struct curve *f, uint32_t last) {
    uint32_t listed = f->rank + f->period;
    for (uint32_t n = 0; n <= last; n++)
        table[n] = n < listed ? f->values[n] : table[n - f->period] + f->increment;
}

/* ---- the horizon */

static uint32_t divisor(uint32_t a, uint32_t b) { return b ? divisor(b, a % b) : a; }

static uint32_t multiple(uint32_t a, uint32_t b) { return a / divisor(a, b) * b; }

static int64_t larger(int64_t a, int64_t b) { return a > b ? a : b; }

/* d*f(t) - c*t, with the period d and the increment c of `of`. */
static int64_t over_rate(const struct curve *of, const struct curve *f, uint32_t t) {
    return (int64_t)of->period * f->values[t] - (int64_t)of->increment * t;
}

static int64_t least_over_rate(const struct curve *of, const struct curve *f, uint32_t from, uint32_t to) {
    int64_t least = over_rate(of, f, from);
    for (uint32_t t = from + 1; t < to; t++)
        if (over_rate(of, f, t) < least)
            least = over_rate(of, f, t);
    return least;
}

static int64_t greatest_over_rate(const struct curve *of, const struct curve *f, uint32_t from, uint32_t to) {
    int64_t greatest = over_rate(of, f, from);
    for (uint32_t t = from + 1; t < to; t++)
        greatest = larger(greatest, over_rate(of, f, t));
    return greatest;
}

/* c*d' - c'*d: above 0 where f is the faster. */
static int64_t rate_difference(const struct curve *f, const struct curve *g) {
    return (int64_t)f->increment * g->period - (int64_t)g->increment * f->period;
}

/* N, where f is the slower. */
static int64_t crossing(const struct curve *f, const struct curve *g, unsigned kind) {
    int64_t a = greatest_over_rate(f, f, f->rank, f->rank + f->period);
    int64_t b = least_over_rate(g, g, g->rank, g->rank + g->period);
    if (kind == CONVOLUTION) {
        if (f->rank == 0)
            return 0;
        a += over_rate(f, g, g->rank);
        b += least_over_rate(g, f, 0, f->rank);
    }
    int64_t above = g->period * a - f->period * b;
    int64_t below = rate_difference(g, f);
    return above <= 0 ? 0 : (above + below - 1) / below;
}

/* R, of kinds 1 to 3. */
static int64_t rank_of(const struct curve *f, const struct curve *g, unsigned kind) {
    int64_t rank = larger(f->rank, g->rank);
    if (kind == CONVOLUTION)
        rank = (int64_t)f->rank + g->rank + multiple(f->period, g->period);
    int64_t difference = rate_difference(f, g);
    if (kind == SUM || difference == 0)
        return rank;
    return larger(rank, difference < 0 ? crossing(f, g, kind) : crossing(g, f, kind));
}

static int64_t horizon_of(const struct book *book, const struct claim *claim) {
    const struct curve *f = &book->curves[claim->left], *g = &book->curves[claim->right];
    uint32_t common = multiple(f->period, g->period);
    if (claim->kind >= DELAY)
        return larger(f->rank, g->rank) + common;
    const struct curve *h = &book->curves[claim->claimed];
    return larger(rank_of(f, g, claim->kind), h->rank) + multiple(common, h->period);
}

/* ---- verdicts */

static struct zurmakida_record plain_code(unsigned code, uint32_t tried) {
    return (struct zurmakida_record){.code = (uint8_t)code, .tried = (uint16_t)tried};
}

static struct zurmakida_record refuted_at(uint32_t tick, uint64_t left, uint64_t right) {
    return (struct zurmakida_record){ZURMAKIDA_REFUTED_AT_TICK, tick, left, right, (uint16_t)(tick + 1)};
}

#ifdef JUDGE_CONVOLUTION
static struct zurmakida_record JUDGE_CONVOLUTION(const struct curve *f, const struct curve *g, const struct curve *h,
                                                 uint32_t horizon);
#else
static uint32_t least_split(const uint32_t *f, const uint32_t *g, uint32_t n) {
    uint32_t least = f[0] + g[n];
    for (uint32_t u = 1; u <= n; u++) {
        uint32_t split = f[u] + g[n - u];
        if (split < least)
            least = split;
    }
    return least;
}
#endif

static uint64_t due_at(unsigned kind, const uint32_t *f, const uint32_t *g, uint32_t n) {
    switch (kind) {
    case SUM: return (uint64_t)f[n] + g[n];
    case MINIMUM: return f[n] < g[n] ? f[n] : g[n];
#ifdef JUDGE_CONVOLUTION
    default: return 0; /* not asked */
#else
    default: return least_split(f, g, n);
#endif
    }
}

/* Kinds 1 to 3. */
static struct zurmakida_record judge_equal(const struct book *book, const struct claim *claim, uint32_t horizon) {
    uint32_t f[MAX_HORIZON + 1], g[MAX_HORIZON + 1], h[MAX_HORIZON + 1];
    fill(f, &book->curves[claim->left], horizon);
    fill(g, &book->curves[claim->right], horizon);
    fill(h, &book->curves[claim->claimed], horizon);
    for (uint32_t n = 0; n <= horizon; n++) {
        uint64_t due = due_at(claim->kind, f, g, n);
        if (due != h[n])
            return refuted_at(n, due, h[n]);
    }
    return plain_code(ZURMAKIDA_ACCEPTED, horizon + 1);
}

/* The first tick below the horizon at which `bound` is broken, with both sides; accepted where there is none. */
static struct zurmakida_record try_bound(const struct curve *f, const struct curve *g, int delay, uint64_t bound,
                                         uint32_t horizon) {
    for (uint32_t s = 0; s < horizon; s++) {
        uint64_t left = value_at(f, s);
        uint64_t right = delay ? value_at(g, s + bound) : value_at(g, s) + bound;
        if (left > right)
            return refuted_at(s, left, right);
    }
    return plain_code(ZURMAKIDA_ACCEPTED, horizon);
}

/* Kinds 4 to 7. */
static struct zurmakida_record judge_bound(const struct book *book, const struct claim *claim, uint32_t horizon) {
    const struct curve *f = &book->curves[claim->left], *g = &book->curves[claim->right];
    int delay = claim->kind == DELAY || claim->kind == EXACT_DELAY;
    int exact = claim->kind == EXACT_DELAY || claim->kind == EXACT_BACKLOG;
    struct zurmakida_record record = try_bound(f, g, delay, claim->claimed, horizon);
    if (record.code != ZURMAKIDA_ACCEPTED)
        return record;
    if (rate_difference(f, g) > 0)
        return plain_code(ZURMAKIDA_REFUTED_BY_RATE, horizon);
    if (exact && claim->claimed > 0 && try_bound(f, g, delay, claim->claimed - 1, horizon).code == ZURMAKIDA_ACCEPTED)
        return plain_code(ZURMAKIDA_REFUTED_NOT_LEAST, horizon);
    return record;
}

static struct zurmakida_record judge_claim(const struct book *book, const struct claim *claim) {
    int64_t horizon = horizon_of(book, claim);
    if (horizon > MAX_HORIZON)
        return plain_code(ZURMAKIDA_NOT_JUDGED, 0);
#ifdef JUDGE_CONVOLUTION
    if (claim->kind == CONVOLUTION)
        return JUDGE_CONVOLUTION(&book->curves[claim->left], &book->curves[claim->right],
                                 &book->curves[claim->claimed], (uint32_t)horizon);
#endif
    return claim->kind < DELAY ? judge_equal(book, claim, (uint32_t)horizon)
                               : judge_bound(book, claim, (uint32_t)horizon);
}

/* ---- the entries */

static void write_number(uint8_t *bytes, unsigned count, uint64_t number) {
    for (unsigned i = count; i > 0; i--) {
        bytes[i - 1] = (uint8_t)number;
        number >>= 8;
    }
}

static void write_record(uint8_t *bytes, struct zurmakida_record record) {
    bytes[0] = record.code;
    write_number(bytes + 1, 4, record.tick);
    write_number(bytes + 5, 8, record.left);
    write_number(bytes + 13, 8, record.right);
    write_number(bytes + 21, 2, record.tried);
}

uint64_t judge(const uint8_t *bytes, size_t length, uint8_t *verdicts, size_t verdicts_length) {
    struct book book;
    uint64_t refused = read_book(bytes, length, &book);
    if (refused)
        return refused;
    if (book.claim_count > verdicts_length / ZURMAKIDA_RECORD_BYTES)
        return ZURMAKIDA_REFUSED_NO_ROOM;
    uint64_t accepted = 0, refuted = 0, not_judged = 0;
    for (unsigned k = 0; k < book.claim_count; k++) {
        struct zurmakida_record record = judge_claim(&book, &book.claims[k]);
        write_record(verdicts + k * ZURMAKIDA_RECORD_BYTES, record);
        accepted += record.code == ZURMAKIDA_ACCEPTED;
        not_judged += record.code == ZURMAKIDA_NOT_JUDGED;
        refuted += record.code != ZURMAKIDA_ACCEPTED && record.code != ZURMAKIDA_NOT_JUDGED;
    }
    return accepted << 24 | refuted << 36 | not_judged << 48;
}

struct curve_value curve_value(const uint8_t *bytes, size_t length, uint64_t curve, uint64_t tick) {
    struct book book;
    uint64_t refused = read_book(bytes, length, &book);
    if (!refused && curve >= book.curve_count)
        refused = ZURMAKIDA_REFUSED_NO_SUCH_CURVE;
    if (!refused && tick > ZURMAKIDA_MAX_TICK)
        refused = ZURMAKIDA_REFUSED_TOO_LARGE;
    struct curve_value answer = {refused, refused ? 0 : value_at(&book.curves[curve], tick)};
    return answer;
}

/* ---- writing a book: a taken call adds to the state what it has written and counted */

enum { FIELD_HEAD = 3, CURVE_HEAD = 8 };

#define ADDED_CLAIM ((uint64_t)1 << 16)
#define ADDED_CURVE ((uint64_t)1 << 32)
#define BEGUN ((uint64_t)1 << 40)
#define CLOSED ((uint64_t)1 << 47)

static unsigned claims_in(uint64_t state) { return (unsigned)(state >> 16 & 0xFFFF); }

static unsigned curves_in(uint64_t state) { return (unsigned)(state >> 32 & 0xFF); }

static int is_begun(uint64_t state) { return (state >> 40 & 0x7F) != 0; }

/* Whether a call may come that needs a book that is begun, or one that is not. */
static int in_turn(uint64_t state, int begun) {
    return state >> 48 == 0 && zurmakida_written(state) <= ZURMAKIDA_MAX_BOOK_BYTES && !(state & CLOSED) &&
           is_begun(state) == begun;
}

static int has_room(uint64_t state, size_t length, size_t field) {
    size_t written = zurmakida_written(state);
    return written <= length && length - written >= field;
}

static struct book_call refused_with(uint64_t state, unsigned refusal) { return (struct book_call){refusal, state}; }

/* Tag and length; the place of the content. */
static uint8_t *write_head(uint64_t state, uint8_t *book, unsigned tag, size_t content_length) {
    uint8_t *field = book + zurmakida_written(state);
    field[0] = (uint8_t)tag;
    write_number(field + 1, 2, content_length);
    return field + FIELD_HEAD;
}

struct book_call book_begin(uint64_t state, uint8_t *book, size_t length) {
    if (!in_turn(state, 0))
        return refused_with(state, ZURMAKIDA_REFUSED_OUT_OF_PLACE);
    if (!has_room(state, length, FIELD_HEAD + 1))
        return refused_with(state, ZURMAKIDA_REFUSED_NO_ROOM);
    write_head(state, book, TAG_VERSION, 1)[0] = 1;
    return (struct book_call){0, state + FIELD_HEAD + 1 + BEGUN};
}

/* What is wrong with the numbers of a curve. */
static unsigned refuse_curve(uint64_t rank, uint64_t period, uint64_t increment, const uint32_t *values, size_t count) {
    if (period == 0 || period > VALUES || rank > VALUES - period)
        return ZURMAKIDA_REFUSED_RANK_PERIOD;
    if (count != rank + period)
        return ZURMAKIDA_REFUSED_CURVE_LENGTH;
    int over = increment > MAX_UNITS;
    int falls = 0;
    for (size_t i = 0; i < count; i++) {
        over |= values[i] > MAX_UNITS;
        falls |= i > 0 && values[i] < values[i - 1];
    }
    falls |= values[rank] + increment < values[count - 1];
    return over ? ZURMAKIDA_REFUSED_OVER_LIMIT : falls ? ZURMAKIDA_REFUSED_VALUES_FALL : 0;
}

struct book_call book_add_curve(uint64_t state, uint8_t *book, size_t length, uint64_t rank, uint64_t period,
                                uint64_t increment, const uint32_t *values, size_t count) {
    if (!in_turn(state, 1) || claims_in(state) > 0)
        return refused_with(state, ZURMAKIDA_REFUSED_OUT_OF_PLACE);
    if (curves_in(state) >= ZURMAKIDA_MAX_CURVES)
        return refused_with(state, ZURMAKIDA_REFUSED_TOO_MANY);
    unsigned refused = refuse_curve(rank, period, increment, values, count);
    if (refused)
        return refused_with(state, refused);
    size_t content_length = CURVE_HEAD + 4 * count;
    if (!has_room(state, length, FIELD_HEAD + content_length))
        return refused_with(state, ZURMAKIDA_REFUSED_NO_ROOM);
    uint8_t *content = write_head(state, book, TAG_CURVE, content_length);
    write_number(content, 2, rank);
    write_number(content + 2, 2, period);
    write_number(content + 4, 4, increment);
    for (size_t i = 0; i < count; i++)
        write_number(content + CURVE_HEAD + 4 * i, 4, values[i]);
    return (struct book_call){0, state + FIELD_HEAD + content_length + ADDED_CURVE};
}

/* What is wrong with the numbers of a claim. */
static unsigned refuse_claim(uint64_t kind, uint64_t left, uint64_t right, uint64_t third, unsigned curves) {
    if (kind < SUM || kind > EXACT_BACKLOG)
        return ZURMAKIDA_REFUSED_CLAIM;
    if (left >= curves || right >= curves || (kind < DELAY && third >= curves))
        return ZURMAKIDA_REFUSED_NO_SUCH_CURVE;
    return kind >= DELAY && third > MAX_BOUND ? ZURMAKIDA_REFUSED_TOO_LARGE : 0;
}

struct book_call book_add_claim(uint64_t state, uint8_t *book, size_t length, uint64_t kind, uint64_t left,
                                uint64_t right, uint64_t third) {
    if (!in_turn(state, 1))
        return refused_with(state, ZURMAKIDA_REFUSED_OUT_OF_PLACE);
    if (claims_in(state) >= ZURMAKIDA_MAX_CLAIMS)
        return refused_with(state, ZURMAKIDA_REFUSED_TOO_MANY);
    unsigned refused = refuse_claim(kind, left, right, third, curves_in(state));
    if (refused)
        return refused_with(state, refused);
    unsigned third_length = kind < DELAY ? 1 : 4;
    if (!has_room(state, length, FIELD_HEAD + 3 + third_length))
        return refused_with(state, ZURMAKIDA_REFUSED_NO_ROOM);
    uint8_t *content = write_head(state, book, TAG_CLAIM, 3 + third_length);
    content[0] = (uint8_t)kind;
    content[1] = (uint8_t)left;
    content[2] = (uint8_t)right;
    write_number(content + 3, third_length, third);
    return (struct book_call){0, state + FIELD_HEAD + 3 + third_length + ADDED_CLAIM};
}

struct book_call book_close(uint64_t state, uint8_t *book, size_t length) {
    if (!in_turn(state, 1))
        return refused_with(state, ZURMAKIDA_REFUSED_OUT_OF_PLACE);
    if (!has_room(state, length, FIELD_HEAD))
        return refused_with(state, ZURMAKIDA_REFUSED_NO_ROOM);
    write_head(state, book, TAG_END, 0);
    return (struct book_call){0, state + FIELD_HEAD + CLOSED};
}
