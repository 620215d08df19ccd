/* The clock of books.c and writing.c: that of the wall, since a process's own was seen to read 0 on a virtual machine;
   and the median of what it said. */
#include <stdint.h>
#include <stdlib.h>
#include <time.h>

enum { MAX_ROUNDS = 10000 };

static uint64_t nanoseconds(void) {
    struct timespec now;
    clock_gettime(CLOCK_MONOTONIC, &now);
    return (uint64_t)now.tv_sec * 1000000000 + (uint64_t)now.tv_nsec;
}

/* Of at least one; puts them in order. */
static uint64_t median(uint64_t *times, int count) {
    for (int i = 1; i < count; i++) {
        uint64_t time = times[i];
        int place = i;
        for (; place > 0 && times[place - 1] > time; place--)
            times[place] = times[place - 1];
        times[place] = time;
    }
    return times[count / 2];
}

/* The only word of the command; 0 where it is none from 1 to MAX_ROUNDS. */
static int rounds_of(int count, char **words) {
    int rounds = count == 2 ? atoi(words[1]) : 0;
    return rounds >= 1 && rounds <= MAX_ROUNDS ? rounds : 0;
}
