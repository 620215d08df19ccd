/* books ROUNDS < BOOK: judges the book by the proved judge, by plain_judge and by fast_judge in turn, in each round.
   Prints the median time of each in nanoseconds, and the totals as the program `claimbook` does. All must give the same
   answer and the same bytes, in each round. */
#include "../include/zurmakida.h"
#include "clock.h"
#include <stdio.h>
#include <string.h>

typedef uint64_t judge_function(const uint8_t *book, size_t book_length, uint8_t *verdicts, size_t verdicts_length);

judge_function plain_judge, fast_judge;

enum { JUDGES = 3 };

struct run {
    judge_function *judge;
    uint64_t answer, times[MAX_ROUNDS];
    uint8_t verdicts[ZURMAKIDA_MAX_VERDICT_BYTES];
};

static struct run runs[JUDGES] = {{.judge = judge}, {.judge = plain_judge}, {.judge = fast_judge}};

static void take_turn(struct run *run, int round, const uint8_t *book, size_t length) {
    memset(run->verdicts, 0xFF, sizeof run->verdicts);
    uint64_t begun = nanoseconds();
    run->answer = run->judge(book, length, run->verdicts, sizeof run->verdicts);
    run->times[round] = nanoseconds() - begun;
}

static int same(const struct run *one, const struct run *other) {
    return one->answer == other->answer && memcmp(one->verdicts, other->verdicts, sizeof one->verdicts) == 0;
}

int main(int count, char **words) {
    static uint8_t book[ZURMAKIDA_MAX_BOOK_BYTES + 1];
    int rounds = rounds_of(count, words);
    if (!rounds) {
        fprintf(stderr, "usage: books ROUNDS < BOOK, 1 to %d rounds\n", MAX_ROUNDS);
        return 2;
    }
    size_t length = fread(book, 1, sizeof book, stdin);
    for (int round = 0; round < rounds; round++) {
        for (int i = 0; i < JUDGES; i++)
            take_turn(&runs[i], round, book, length);
        if (!same(&runs[0], &runs[1]) || !same(&runs[0], &runs[2])) {
            fprintf(stderr, "books: the proved judge and the two in C differ\n");
            return 1;
        }
    }
    for (int i = 0; i < JUDGES; i++)
        printf("%llu%c", (unsigned long long)median(runs[i].times, rounds), i + 1 < JUDGES ? ' ' : '\n');
    uint64_t answer = runs[0].answer;
    printf("total %u accepted %u refuted %u unjudged %u\n", zurmakida_claims(answer), zurmakida_accepted(answer),
           zurmakida_refuted(answer), zurmakida_not_judged(answer));
    return 0;
}
