/* The judge of plain.c with a faster search for kind 3: the second thing that the proved one is timed against. The
   entries are those of the header, with fast_ before each name.

   g repeats from its rank T' on, so that only the splits at the ticks v < T'+d' which it lists are tried; a later one
   is one of these some periods of g earlier, with an increment more for each. f repeats too, so that from the tick
   T+d+T'+d'-1 on no split is tried at all: what the splits gave is what they gave a period of f earlier, and an
   increment more.

   Of a curve with itself f(n-v)+f(v) is also f(v)+f(n-v), so that only v up to n/2 is tried. One from T on then comes
   first at tick 2*T. From tick 2*T+d-1 on, a period before no split is tried, the half has each split T <= v < T+d or
   its mirror: from there on all is as before. */
#ifndef judge
#define judge fast_judge
#define curve_value fast_curve_value
#define book_begin fast_book_begin
#define book_add_curve fast_book_add_curve
#define book_add_claim fast_book_add_claim
#define book_close fast_book_close
#endif
#define JUDGE_CONVOLUTION judge_convolution
#include "plain.c"

enum { SETTLED = 2 * VALUES }; /* more than T+d+T'+d'-1 */

/* Tick by tick through a list whose last `period` places repeat: the place, and what the whole periods have added. */
struct walk {
    uint32_t at, added, end, period, increment;
};

static void step(struct walk *walk) {
    if (++walk->at == walk->end) {
        walk->at -= walk->period;
        walk->added += walk->increment;
    }
}

/* The least f(n-v)+g(v) over from <= v <= to. */
static uint32_t least_over(const uint32_t *f, const uint32_t *g, size_t n, size_t from, size_t to) {
    uint32_t least = f[n - from] + g[from];
    for (size_t v = from + 1; v <= to; v++) {
        uint32_t split = f[n - v] + g[v];
        if (split < least)
            least = split;
    }
    return least;
}

static uint32_t smaller(uint32_t a, uint32_t b) { return a < b ? a : b; }

static uint32_t place_after(uint32_t place, uint32_t count) { return place + 1 == count ? 0 : place + 1; }

/* The horizon is at least T+T'+2*D, which is above the last tick whose splits are tried. f and g are one
   place of the book where left and right are the same number, and nowhere else. */
static struct zurmakida_record judge_convolution(const struct curve *f, const struct curve *g, const struct curve *h,
                                                 uint32_t horizon) {
    uint32_t left[SETTLED];                /* f */
    uint32_t near[SETTLED], last[SETTLED]; /* the least over v < T' or v = 0, and over T' <= v < T'+d' */
    uint32_t carried[VALUES];              /* the least over v >= T', of the d' ticks before */
    int itself = f == g;
    uint32_t rank = g->rank, listed = g->rank + g->period;
    uint32_t first = itself ? 2 * rank : rank; /* tick of a split with v >= T' */
    uint32_t settled = f->rank + f->period + listed - 1;
    uint32_t place = 0, n = 0;
    struct walk claimed = {0, 0, h->rank + h->period, h->period, h->increment};
    fill(left, f, settled - 1);
    for (; n < settled; n++) {
        uint32_t reach = itself ? n / 2 : n;
        uint32_t due = near[n] = least_over(left, g->values, n, 0, smaller(reach, rank > 0 ? rank - 1 : 0));
        if (n >= first) {
            uint32_t least = last[n] = least_over(left, g->values, n, rank, smaller(reach, listed - 1));
            if (n >= first + g->period)
                least = smaller(least, carried[place] + g->increment);
            carried[place] = least;
            place = place_after(place, g->period);
            due = smaller(due, least);
        }
        uint32_t value = h->values[claimed.at] + claimed.added;
        if (due != value)
            return refuted_at(n, due, value);
        step(&claimed);
    }
    struct walk tried = {settled - f->period, f->increment, settled, f->period, f->increment};
    for (; n <= horizon; n++) {
        uint32_t least = smaller(last[tried.at] + tried.added, carried[place] + g->increment);
        carried[place] = least;
        place = place_after(place, g->period);
        uint32_t due = smaller(near[tried.at] + tried.added, least);
        uint32_t value = h->values[claimed.at] + claimed.added;
        if (due != value)
            return refuted_at(n, due, value);
        step(&tried);
        step(&claimed);
    }
    return plain_code(ZURMAKIDA_ACCEPTED, horizon + 1);
}
