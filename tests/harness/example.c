/* Judges the book on standard input and prints a line for each claim, the totals, and whether the book is certified. */
#include "zurmakida.h"
#include <stdio.h>

static void print_claim(size_t claim, struct zurmakida_record record) {
    printf("claim %zu ", claim);
    switch (record.code) {
    case ZURMAKIDA_ACCEPTED: printf("accepted\n"); break;
    case ZURMAKIDA_REFUTED_AT_TICK:
        printf("refuted at %u left %lu right %lu\n", record.tick, record.left, record.right);
        break;
    case ZURMAKIDA_REFUTED_BY_RATE: printf("refuted by rate\n"); break;
    case ZURMAKIDA_REFUTED_NOT_LEAST: printf("refuted not least\n"); break;
    default: printf("not judged\n");
    }
}

int main(void) {
    static uint8_t book[ZURMAKIDA_MAX_BOOK_BYTES + 1]; /* one more, so that a longer book is seen to be longer */
    static uint8_t verdicts[ZURMAKIDA_MAX_VERDICT_BYTES];
    size_t length = fread(book, 1, sizeof book, stdin);
    uint64_t answer = judge(book, length, verdicts, sizeof verdicts);
    if (zurmakida_refusal(answer) != ZURMAKIDA_NOT_REFUSED) {
        printf("refused %u at %u\n", zurmakida_refusal(answer), zurmakida_place(answer));
        return 0;
    }
    for (size_t claim = 0; claim < zurmakida_claims(answer); claim++)
        print_claim(claim, zurmakida_record_at(verdicts, claim));
    printf("total %u accepted %u refuted %u unjudged %u\n", zurmakida_claims(answer), zurmakida_accepted(answer),
           zurmakida_refuted(answer), zurmakida_not_judged(answer));
    printf("certified %s\n", zurmakida_certified(answer) ? "yes" : "no");
    return 0;
}
