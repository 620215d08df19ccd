/* The example in the header's comment that judges a book, here the one on standard input. tests/harness/build takes it
   out of the header and has it compiled as C99 and as C++. */
#include "zurmakida.h"
#include <stdio.h>

int main(void) {
    static uint8_t book[40000];
    size_t book_length = fread(book, 1, sizeof book, stdin);
#include "judging.inc"
    return 0;
}
