/* The example in the header's comment that writes a book, to standard output. tests/harness/build takes it out of the
   header and has it compiled as C99 and as C++. */
#include "zurmakida.h"
#include <stdio.h>

int main(void) {
#include "writing.inc"
    return call.refusal == 0 && fwrite(book, zurmakida_written(call.state), 1, stdout) == 1 ? 0 : 1;
}
