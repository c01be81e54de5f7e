/* Takes pairs of `set` and `show` of three cells through a session, and prints the seconds. */
#include "gridlet.h"
#include <stdio.h>
#include <stdlib.h>
#include <time.h>

int main(int count, char **words) {
    int pairs = count > 1 ? atoi(words[1]) : 100000;
    gridlet_session session = GRIDLET_CLOSED;
    struct timespec begun, ended;
    uint8_t out[256];
    size_t written, left;
    char text[64];
    if (gridlet_open(GRIDLET_FIRST, &session) != GRIDLET_ANSWERED) return 1;
    clock_gettime(CLOCK_MONOTONIC, &begun);
    for (int i = 0; i < pairs; i++) {
        char cell = (char)('A' + i % 3);
        int length = snprintf(text, sizeof text, "set %c1 %d\nshow %c1\n", cell, i, cell);
        if (gridlet_feed(&session, (uint8_t *)text, (size_t)length) != GRIDLET_ANSWERED) return 1;
        if (gridlet_replies(&session, out, sizeof out, &written, &left) != GRIDLET_ANSWERED) return 1;
    }
    clock_gettime(CLOCK_MONOTONIC, &ended);
    gridlet_close(&session);
    printf("%.6f\n", (double)(ended.tv_sec - begun.tv_sec) + (double)(ended.tv_nsec - begun.tv_nsec) / 1e9);
    return 0;
}
