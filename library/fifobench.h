/* Judges histories of concurrent FIFO queues in the caller's process: are they linearizable? docs/LIBRARY.md says how
 * to build and link the library, and docs/FORMATS.md describes the texts. C99 and C++.
 *
 * Each function judges its input, and returns a text and a status, which are those of the program `fifobench` for the
 * same bytes:
 *
 *     0   YES, or VALID of a verified verdict, or the text that was asked for
 *     1   NO, or INVALID
 *     2   REFUSED ...: the input is not a complete history
 *     3   FAULT Memory: out of memory; the input is not judged
 *
 * How each function is called:
 *
 *   - Reads: `length` bytes at `text` (or `count` structs at `events`), and nothing else. A text needs no byte 0 at
 *     its end.
 *   - Writes: always `*needed`, the number of bytes of the answer, whether they fit or not. If needed <= capacity,
 *     also the answer, from `answer` on; the buffer after it stays as it was, and no byte 0 is added. If the answer
 *     doesn't fit, nothing of the buffer is written: call again with more room.
 *   - Pointers: `answer` may be NULL if `capacity` is 0, and `text` or `events` if `length` or `count` is 0. `needed`
 *     is never NULL. Other pointers point to at least as many bytes (or structs) as the caller says. `needed` and
 *     `events` are aligned as usual.
 *   - Sharing: the buffer, `*needed` and the input don't overlap. Until the function returns, no other thread writes
 *     to the input, and none reads or writes the buffer or `*needed`. No object is larger than PTRDIFF_MAX bytes.
 *   - Memory: each function takes memory in proportion to its input by the process's malloc, realloc and free, which
 *     must be of one allocator, and frees all of it before it returns. Blocks are aligned as malloc aligns them on
 *     64-bit systems (16 bytes). A call takes under 64 KiB of stack.
 *   - Threads: no function starts a thread, waits for one, or keeps anything between calls, so several threads may
 *     call at once. Don't call from a signal handler, or in the forked child of a process with threads.
 *   - No function reads or writes a file, and none ends the process.
 *
 * The functions are proved to keep this for every input (docs/internals/PROVED.md). Nothing checks that a caller
 * keeps its part. */
#ifndef FIFOBENCH_H
#define FIFOBENCH_H

#include <stddef.h>
#include <stdint.h>

/* The number of this interface. It changes if a program that was compiled against an earlier one would no longer
 * work. */
#define FIFOBENCH_INTERFACE 1

#ifdef __cplusplus
extern "C" {
#endif

/* Returns the interface number of the linked library. Compare it with FIFOBENCH_INTERFACE if the library is loaded as
 * a shared one. */
uint32_t fifobench_interface(void);

/* `fifobench check`. The input is the text of a history, and nothing after it. The answer is its verdict. */
uint8_t fifobench_check(const uint8_t *text, size_t length, uint8_t *answer, size_t capacity, size_t *needed);

/* `fifobench shrink`. The input is the text of a history. If it isn't linearizable, the answer is a smaller history
 * that shows the violation, and its verdict; otherwise it is that of fifobench_check. */
uint8_t fifobench_shrink(const uint8_t *text, size_t length, uint8_t *answer, size_t capacity, size_t *needed);

/* `fifobench verify`. The input is the text of a history, and after it that of a verdict. The answer is VALID if the
 * verdict is evidence in the history, otherwise INVALID. */
uint8_t fifobench_verify(const uint8_t *text, size_t length, uint8_t *answer, size_t capacity, size_t *needed);

/* Conditions that are weaker than linearizability. Add them to ask for several: FIFOBENCH_LOCAL +
 * FIFOBENCH_WEAK_EMPTY asks for both. */
enum fifobench_condition {
    FIFOBENCH_LINEARIZABLE = 0, /* linearizability, as without a condition */
    FIFOBENCH_LOCAL = 1,        /* `--local`: the values of each producer are judged on their own */
    FIFOBENCH_WEAK_EMPTY = 2    /* `--weak-empty`: an empty dequeue promises nothing */
};

/* The same three under a condition, a sum of values of fifobench_condition. Its other bits are ignored. */
uint8_t fifobench_check_under(const uint8_t *text, size_t length, uint32_t condition, uint8_t *answer, size_t capacity,
                              size_t *needed);
uint8_t fifobench_shrink_under(const uint8_t *text, size_t length, uint32_t condition, uint8_t *answer, size_t capacity,
                               size_t *needed);
uint8_t fifobench_verify_under(const uint8_t *text, size_t length, uint32_t condition, uint8_t *answer, size_t capacity,
                               size_t *needed);

/* `fifobench draw`. The input is the text of a history, and that of a verdict, if one follows. The answer is the
 * picture as an SVG document, or INVALID if the verdict isn't evidence. More than 400 operations to draw, or lines of
 * the verdict, are refused (REFUSED Size). */
uint8_t fifobench_draw(const uint8_t *text, size_t length, uint8_t *answer, size_t capacity, size_t *needed);

/* `fifobench draw --text`. The answer is the same picture in lines of ASCII. */
uint8_t fifobench_draw_text(const uint8_t *text, size_t length, uint8_t *answer, size_t capacity, size_t *needed);

/* `fifobench complete`. The input is the text of a history whose calls may be pending, or a pending text. The answer
 * is the text of a completion, which is linearizable if and only if some completion is. */
uint8_t fifobench_complete(const uint8_t *text, size_t length, uint8_t *answer, size_t capacity, size_t *needed);

/* `fifobench stats`. The input is the text of a history. The answer is a line for each number. */
uint8_t fifobench_stats(const uint8_t *text, size_t length, uint8_t *answer, size_t capacity, size_t *needed);

/* The kind of an event: a call, or a return. */
enum fifobench_what {
    FIFOBENCH_CALL_ENQ = 1,  /* an enqueue of the value is called */
    FIFOBENCH_RET_ENQ = 2,   /* it returns: the value is enqueued */
    FIFOBENCH_RET_NOT = 3,   /* it returns: the enqueue failed */
    FIFOBENCH_CALL_DEQ = 4,  /* a dequeue is called */
    FIFOBENCH_RET_DEQ = 5,   /* it returns the value */
    FIFOBENCH_RET_EMPTY = 6  /* it returns: it found the queue empty */
};

/* One event. The struct has 24 bytes and no padding. */
struct fifobench_event {
    uint64_t ticket; /* at most 999999999999; tickets rise */
    uint64_t value;  /* of FIFOBENCH_CALL_ENQ and FIFOBENCH_RET_DEQ; ignored for others */
    uint32_t thread; /* 0 to 63 */
    uint32_t what;   /* a fifobench_what */
};

/* `fifobench check` of events, by ticket, in place of their text. The answer is that of fifobench_check for their
 * text. The structs may hold any numbers. What a text can't express is refused (status 2): more than 2000000 events
 * are REFUSED Limit. Otherwise a `what` that is none of the six is REFUSED BadWhat with the place of the first, from
 * 0. Otherwise a thread above 63 is REFUSED BadThread with its place, and a ticket above the greatest is REFUSED
 * TicketOrder with its place, like other faults of a history. */
uint8_t fifobench_check_events(const struct fifobench_event *events, size_t count, uint8_t *answer, size_t capacity,
                               size_t *needed);

#ifdef __cplusplus
}
#endif

#endif
