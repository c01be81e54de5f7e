/* Answers the script of a file, and prints the replies. */
#include "gridlet.h"
#include <stdio.h>
#include <stdlib.h>

static uint8_t *contents(const char *name, size_t *length) {
    FILE *file = fopen(name, "rb");
    if (!file || fseek(file, 0, SEEK_END) != 0) return NULL;
    *length = (size_t)ftell(file);
    rewind(file);
    uint8_t *bytes = malloc(*length + 1);
    if (bytes && fread(bytes, 1, *length, file) != *length) return NULL;
    fclose(file);
    return bytes;
}

int main(int count, char **words) {
    size_t length, room, written;
    uint8_t *script = count == 2 ? contents(words[1], &length) : NULL;
    if (!script) return GRIDLET_USAGE;
    uint32_t status = gridlet_room(script, length, GRIDLET_FIRST, &room);
    if (status == GRIDLET_USAGE || status == GRIDLET_MEMORY) return (int)status;
    uint8_t *replies = malloc(room + 1);
    if (!replies) return GRIDLET_MEMORY;
    status = gridlet_run(script, length, GRIDLET_FIRST, replies, room + 1, &written);
    fwrite(replies, 1, written, stdout);
    free(replies);
    free(script);
    return (int)status;
}
