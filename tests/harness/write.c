/* Writes W8 of document 01 to standard output: A, B, and the claim that the delay of A on B is exactly 3. */
#include "zurmakida.h"
#include <stdio.h>

int main(void) {
    uint8_t book[ZURMAKIDA_MAX_WRITTEN_BYTES];
    const uint32_t a[] = {0, 4}, b[] = {0, 0, 0};
    struct book_call call = book_begin(0, book, sizeof book);
    if (call.refusal == 0) call = book_add_curve(call.state, book, sizeof book, 1, 1, 1, a, 2);
    if (call.refusal == 0) call = book_add_curve(call.state, book, sizeof book, 2, 1, 2, b, 3);
    if (call.refusal == 0) call = book_add_claim(call.state, book, sizeof book, 5, 0, 1, 3);
    if (call.refusal == 0) call = book_close(call.state, book, sizeof book);
    if (call.refusal != 0) return (int)call.refusal;
    return fwrite(book, zurmakida_written(call.state), 1, stdout) == 1 ? 0 : 1;
}
