/* A budget is opened, its rent changed 10,000 times, and the total read each time. Prints the least
 * total and the greatest. */
#include "gridlet.h"
#include <stdio.h>
#include <stdlib.h>
#include <string.h>

static const char budget[] = "set A1 rent\nset B1 900\nset B2 450\nset B3 120\nset B4 =SUM(B1:B3)*12\n";

/* Feeds the text, and takes the replies as a string of less than `room` bytes. */
static uint32_t ask(gridlet_session *sheet, const char *text, char *replies, size_t room) {
    size_t written, left;
    uint32_t status = gridlet_feed(sheet, (const uint8_t *)text, strlen(text));
    if (status != GRIDLET_ANSWERED) return status;
    status = gridlet_replies(sheet, (uint8_t *)replies, room - 1, &written, &left);
    replies[written] = '\0';
    return status;
}

int main(void) {
    gridlet_session sheet = GRIDLET_CLOSED;
    char text[64], replies[64];
    long least = 0, greatest = 0;
    uint32_t status = gridlet_open(GRIDLET_FIRST, &sheet);
    if (status != GRIDLET_ANSWERED) return (int)status;
    status = ask(&sheet, budget, replies, sizeof replies);
    for (int rent = 0; rent < 10000 && status == GRIDLET_ANSWERED; rent++) {
        snprintf(text, sizeof text, "set B1 %d\nshow B4\n", rent);
        status = ask(&sheet, text, replies, sizeof replies);
        long total = strtol(replies + strlen("ok\n"), NULL, 10);
        if (rent == 0 || total < least) least = total;
        if (rent == 0 || total > greatest) greatest = total;
    }
    gridlet_close(&sheet);
    printf("%ld %ld\n", least, greatest);
    return (int)status;
}
