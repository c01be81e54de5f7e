/* Checks of sessions: sessions SCRIPT REPLIES.. takes scripts with their replies, and prints each
 * check that fails. It is linked with --wrap for malloc, realloc and free, so that an allocation can
 * be made to fail and blocks are counted. */
#include "gridlet.h"
#include <pthread.h>
#include <stdio.h>
#include <stdlib.h>
#include <string.h>

void *__real_malloc(size_t size);
void *__real_realloc(void *block, size_t size);
void __real_free(void *block);

/* While it counts: the allocations so far, the one that fails (0: none), and the blocks in use. */
static int counting = 0;
static long made = 0, failing = 0, blocks = 0;

static int fails(void) {
    return counting && ++made == failing;
}

void *__wrap_malloc(size_t size) {
    void *block = fails() ? NULL : __real_malloc(size);
    if (counting && block) blocks++;
    return block;
}

void *__wrap_realloc(void *old, size_t size) {
    void *block = fails() ? NULL : __real_realloc(old, size);
    if (counting && block && !old) blocks++;
    return block;
}

void __wrap_free(void *block) {
    if (counting && block) blocks--;
    __real_free(block);
}

static int failed = 0;

static void expect(int holds, const char *name, const char *what) {
    if (holds) return;
    failed++;
    printf("%s: %s\n", name, what);
}

typedef struct Text { uint8_t *bytes; size_t length; } Text;

static Text contents(const char *name) {
    Text text = { NULL, 0 };
    FILE *file = fopen(name, "rb");
    if (!file) exit(2);
    fseek(file, 0, SEEK_END);
    text.length = (size_t)ftell(file);
    rewind(file);
    text.bytes = malloc(text.length + 1);
    if (!text.bytes || fread(text.bytes, 1, text.length, file) != text.length) exit(2);
    fclose(file);
    return text;
}

/* The replies that wait are the next ones of `want`, taken with this much room. */
static int takes(gridlet_session *session, size_t room, Text want, size_t *at) {
    uint8_t out[4096];
    size_t written, left;
    uint32_t status;
    do {
        status = gridlet_replies(session, out, room, &written, &left);
        if ((status == GRIDLET_ROOM) != (left > 0)) return 0;
        if (written > room || written > want.length - *at) return 0;
        if (memcmp(out, want.bytes + *at, written) != 0) return 0;
        *at += written;
    } while (left > 0);
    return 1;
}

/* A script in cuts of this length, each behind all replies to those before, with so much room. */
static int agrees(Text script, Text replies, size_t cut, size_t room, uint32_t order) {
    gridlet_session session = GRIDLET_CLOSED;
    size_t at = 0, taken = 0;
    uint32_t status = gridlet_open(order, &session);
    if (status != GRIDLET_ANSWERED) return 0;
    while (status == GRIDLET_ANSWERED && at < script.length) {
        size_t length = script.length - at < cut ? script.length - at : cut;
        status = gridlet_feed(&session, script.bytes + at, length);
        at += length;
        if (!takes(&session, room, replies, &taken)) status = GRIDLET_USAGE;
    }
    int well = status == GRIDLET_ANSWERED || status == GRIDLET_QUIT;
    uint32_t end = gridlet_end(&session);
    well = well && end <= GRIDLET_REFUSED && takes(&session, room, replies, &taken);
    well = well && taken == replies.length && gridlet_end(&session) == GRIDLET_USAGE;
    well = well && gridlet_feed(&session, script.bytes, script.length) == GRIDLET_USAGE;
    gridlet_close(&session);
    return well;
}

static const char sums[] = "set A1 2\nset B1 40\nset C1 =A1+B1\nshow C1\n";
static const char answers[] = "ok\nok\nok\n42\n";

static Text text_of(const char *chars) {
    Text text = { (uint8_t *)chars, strlen(chars) };
    return text;
}

static void many_at_once(void) {
    enum { COUNT = 1000 };
    static gridlet_session sessions[COUNT];
    static size_t taken[COUNT];
    Text script = text_of(sums), want = text_of(answers);
    int well = 1;
    for (int i = 0; i < COUNT; i++) well &= gridlet_open(i % 3, &sessions[i]) == GRIDLET_ANSWERED;
    for (size_t at = 0; at < script.length; at++)
        for (int i = 0; i < COUNT; i++)
            well &= gridlet_feed(&sessions[i], script.bytes + at, 1) == GRIDLET_ANSWERED;
    for (int i = 0; i < COUNT; i++) {
        well &= takes(&sessions[i], 3, want, &taken[i]) && taken[i] == want.length;
        gridlet_close(&sessions[i]);
    }
    expect(well, "1,000 sessions", "some reply differs");
}

static void ends(void) {
    gridlet_session session = GRIDLET_CLOSED;
    Text last = text_of("set A1 7\nshow A1"), cut = text_of("import A1 10\n1,2"), want;
    size_t taken = 0;
    expect(gridlet_open(9, &session) == GRIDLET_USAGE, "an order", "is not refused");
    gridlet_open(GRIDLET_FIRST, &session);
    gridlet_feed(&session, last.bytes, last.length);
    want = text_of("ok\n7\n");
    expect(takes(&session, 64, want, &taken) && taken == 3, "a last line", "is answered too early");
    expect(gridlet_end(&session) == GRIDLET_ANSWERED, "a last line", "has another status");
    expect(takes(&session, 64, want, &taken) && taken == 5, "a last line", "has another reply");
    gridlet_close(&session);
    gridlet_open(GRIDLET_LAST, &session);
    gridlet_feed(&session, cut.bytes, cut.length);
    expect(gridlet_end(&session) == GRIDLET_REFUSED, "a payload that is cut", "is not refused");
    gridlet_close(&session);
    gridlet_open(GRIDLET_TURN, &session);
    last = text_of("quit\nset A1 7\n");
    expect(gridlet_feed(&session, last.bytes, last.length) == GRIDLET_QUIT, "quit", "is not told");
    expect(gridlet_feed(&session, last.bytes, last.length) == GRIDLET_QUIT, "quit", "is not kept");
    expect(gridlet_end(&session) == GRIDLET_ANSWERED, "quit", "has another status");
    gridlet_close(&session);
}

static void limit(void) {
    enum { BLOCK = 65536, MOST = 16777216 };
    static uint8_t line[BLOCK];
    gridlet_session session = GRIDLET_CLOSED;
    memset(line, '#', BLOCK);
    gridlet_open(GRIDLET_FIRST, &session);
    int well = 1;
    for (int at = 0; at < MOST; at += BLOCK)
        well &= gridlet_feed(&session, line, BLOCK) == GRIDLET_ANSWERED;
    expect(well, "the limit", "comes too early");
    expect(gridlet_feed(&session, line, 1) == GRIDLET_LIMIT, "the limit", "is not told");
    expect(gridlet_end(&session) == GRIDLET_LIMIT, "the limit", "is not the status of the end");
    gridlet_close(&session);
}

/* Each allocation fails in turn, until a run makes fewer. */
static void no_memory(void) {
    Text script = text_of(sums);
    for (failing = 1;; failing++) {
        gridlet_session session = GRIDLET_CLOSED;
        made = blocks = 0;
        counting = 1;
        uint32_t status = gridlet_open(GRIDLET_FIRST, &session);
        if (status == GRIDLET_ANSWERED) {
            size_t taken = 0;
            status = gridlet_feed(&session, script.bytes, script.length);
            if (status == GRIDLET_ANSWERED) status = gridlet_end(&session);
            expect(takes(&session, 64, text_of(answers), &taken), "no memory", "replies differ");
            gridlet_close(&session);
        }
        counting = 0;
        expect(blocks == 0, "no memory", "a block leaks");
        if (made < failing) {
            expect(status == GRIDLET_ANSWERED, "memory", "is not enough");
            return;
        }
        expect(status == GRIDLET_MEMORY, "no memory", "is not told");
    }
}

static void *in_a_thread(void *given) {
    Text script = text_of(sums), want = text_of(answers);
    int well = 1;
    for (int i = 0; i < 200; i++) well &= agrees(script, want, 7, 5, GRIDLET_TURN);
    *(int *)given = well;
    return NULL;
}

static void two_threads(void) {
    pthread_t threads[2];
    int well[2] = { 0, 0 };
    for (int i = 0; i < 2; i++) pthread_create(&threads[i], NULL, in_a_thread, &well[i]);
    for (int i = 0; i < 2; i++) pthread_join(threads[i], NULL);
    expect(well[0] && well[1], "two threads", "some reply differs");
}

int main(int count, char **words) {
    for (int i = 1; i + 1 < count; i += 2) {
        Text script = contents(words[i]), replies = contents(words[i + 1]);
        expect(agrees(script, replies, 1, 64, GRIDLET_FIRST), words[i], "byte by byte");
        expect(agrees(script, replies, 1 << 20, 1, GRIDLET_LAST), words[i], "one byte of room");
        expect(agrees(script, replies, 1000, 4096, GRIDLET_TURN), words[i], "in cuts of 1,000");
        free(script.bytes);
        free(replies.bytes);
    }
    many_at_once();
    ends();
    limit();
    no_memory();
    two_threads();
    printf("%d failed\n", failed);
    return failed != 0;
}
