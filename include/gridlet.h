/* Gridlet: answers scripts of spreadsheet commands, whole (gridlet_run) or as they come
 * (gridlet_open and the calls behind it). The replies are those of the program over the same bytes.
 *
 * All calls allocate by malloc, and free what they took but for what an open session holds. None is
 * for a signal handler. No pointer to bytes, to a session or to a number may be null, also where the
 * length beside it is 0. Nothing checks that a caller keeps to what is said here. */
#ifndef GRIDLET_H
#define GRIDLET_H

#include <stddef.h>
#include <stdint.h>

#ifdef __cplusplus
extern "C" {
#endif

/* How keys are picked: the first idle one, the last, or each in turn. No reply depends on it. */
enum { GRIDLET_FIRST = 0, GRIDLET_LAST = 1, GRIDLET_TURN = 2 };

enum {
    GRIDLET_ANSWERED = 0, /* the script was answered, the session reads on, or no reply waits */
    GRIDLET_REFUSED = 1,  /* the script was answered, and some reply is an `error` line */
    GRIDLET_USAGE = 2,    /* no such order, no room, or the end was told before */
    GRIDLET_MEMORY = 3,   /* no memory was left: the replies so far are whole */
    GRIDLET_ROOM = 5,     /* too little room for the replies */
    GRIDLET_LIMIT = 6,    /* the script goes on behind its limit of 16,777,216 bytes */
    GRIDLET_QUIT = 7      /* the session has read `quit` */
};

/* a whole script
 *
 * Answers the script of `length` bytes, and writes its replies to the `room` bytes at `out`; `written`
 * tells how many there are. Where they don't fit, the first bytes of them are written. */
uint32_t gridlet_run(const uint8_t *script, size_t length, uint32_t order,
                     uint8_t *out, size_t room, size_t *written);

/* Tells in `room` how many bytes the replies to the script take: 0 with GRIDLET_USAGE and with
 * GRIDLET_MEMORY. */
uint32_t gridlet_room(const uint8_t *script, size_t length, uint32_t order, size_t *room);

/* a sheet that lives on between calls
 *
 * A session is a handle that the caller owns. It begins as GRIDLET_CLOSED:
 *
 *     gridlet_session session = GRIDLET_CLOSED;
 *
 * gridlet_open opens it, and each session that was opened is closed once, by gridlet_close. Between
 * these it may be given to gridlet_feed, gridlet_replies and gridlet_end, and a closed one to
 * gridlet_open alone. An open handle is not copied: two copies of it would be one session, closed
 * twice. Sessions don't touch one another, so many threads may use one each. One session is used by
 * one thread at a time; a lock, or what orders as one does, hands it to another between calls. */
typedef struct gridlet_session { void *state; } gridlet_session;
#define GRIDLET_CLOSED { 0 }

/* Opens a session of an empty sheet in a closed handle.
 *
 * GRIDLET_ANSWERED  it is open.
 * GRIDLET_USAGE     there is no such order, and the handle stays closed.
 * GRIDLET_MEMORY    no memory was left, and the handle stays closed. */
uint32_t gridlet_open(uint32_t order, gridlet_session *session);

/* Feeds `length` bytes behind those that were fed before. The bytes may be cut anywhere, also within
 * a command. Each command that has ended is answered; its reply waits in the session until it is
 * taken. The bytes are read before the call returns, and are not kept.
 *
 * GRIDLET_ANSWERED  all bytes were read, and the session reads on.
 * GRIDLET_QUIT      the session has read `quit`, now or before. Nothing behind it is read.
 * GRIDLET_LIMIT     more than 16,777,216 bytes were fed. Nothing behind so many is read.
 * GRIDLET_MEMORY    no memory was left, now or before. The replies so far are whole, and are those to
 *                   the first commands. Nothing more is read: take the replies, and close it.
 * GRIDLET_USAGE     the end was told before. Nothing is read. */
uint32_t gridlet_feed(gridlet_session *session, const uint8_t *bytes, size_t length);

/* Takes replies that wait: as many bytes as fit are written to the `room` bytes at `out`, in order,
 * and wait no more. `written` tells how many there are, and `left` how many wait on. What was taken
 * so far, with what waits, is what the program writes for the bytes that were fed.
 *
 * GRIDLET_ANSWERED  no reply waits on.
 * GRIDLET_ROOM      `left` bytes wait on, for the next call. */
uint32_t gridlet_replies(gridlet_session *session, uint8_t *out, size_t room,
                         size_t *written, size_t *left);

/* Ends the input: answers a last line without LF, and refuses a payload that is cut. Replies that
 * wait can be taken behind it. The status is that of the program over the bytes that were fed.
 *
 * GRIDLET_ANSWERED  the script was answered, to its end or to `quit`.
 * GRIDLET_REFUSED   it was answered, and some reply is an `error` line.
 * GRIDLET_LIMIT     it goes on behind its limit.
 * GRIDLET_MEMORY    no memory was left, now or before.
 * GRIDLET_USAGE     the end was told before. Nothing changes. */
uint32_t gridlet_end(gridlet_session *session);

/* Closes an open session, whatever it has come to, and frees what it holds. Replies that wait are
 * lost. The handle is closed behind it, and may be opened again. */
void gridlet_close(gridlet_session *session);

#ifdef __cplusplus
}
#endif

#endif
