/* Wireline's commands over a plan's text, as functions.
 *
 * A plan's text goes in, and what the command of the same name writes comes out, byte for byte, with a status.
 *
 * Memory: all of it is the caller's, and nothing is kept after a call. A call puts the output at the front of the
 * buffer `out` of `out_room` bytes, without a zero byte after it, and leaves the rest of `out` as it was. It sets
 * `*needed` to the bytes that the output has. If that is more than `out_room`, the status is WIRELINE_ROOM and `out`
 * is as it was: call again with a buffer of `*needed` bytes. `out` may be null if `out_room` is 0, and `plan` if
 * `plan_length` is 0. The parts of memory of one call don't overlap. A call takes working memory by malloc, realloc
 * and free, and gives all of it back.
 *
 * Time: a call of wireline_run or wireline_traffic simulates the plan to its end. Calls in several threads at once
 * share nothing but malloc. Don't call from a signal handler.
 *
 * Units: a plan's text is UTF-8 in TOML, at most 1,048,576 bytes. Lengths are in bytes, a tick is in picoseconds.
 * In the output times are in ticks or quanta, and picoseconds and nanoseconds are named.
 *
 * Link with libwireline.a, which needs the C library alone, or with libwireline.so.
 */
#ifndef WIRELINE_H
#define WIRELINE_H

#include <stddef.h>
#include <stdint.h>

#ifdef __cplusplus
extern "C" {
#endif

/* How a call ended. 0 to 3 are the statuses of the program. Unless the status is 0, 1 or 4, `*needed` is 0. */
enum wireline_status {
    WIRELINE_DONE = 0,    /* the whole output is in `out` */
    WIRELINE_REFUSED = 1, /* the plan is refused: wireline_explain puts what is wrong and what to change into `out`, the others nothing */
    WIRELINE_ASKED = 2,   /* there is no such format or tick */
    WIRELINE_MEMORY = 3,  /* malloc refused memory */
    WIRELINE_ROOM = 4,    /* `out` is too small: `*needed` bytes are needed */
    WIRELINE_POINTER = 5, /* a pointer is null that may not be, or parts of memory overlap; a null `needed` isn't written to */
    WIRELINE_SHAPE = 6    /* a line of the output has no form in this format: a fault of Wireline, report it */
};

/* The form of the output. */
enum wireline_format { WIRELINE_TEXT = 0, WIRELINE_JSON = 1, WIRELINE_CSV = 2 };

/* What is asked for beside the plan. All zeros, or a null pointer in its place, is the program without options. */
struct wireline_asked {
    uint32_t format;   /* an enum wireline_format */
    uint32_t tick;     /* how many picoseconds a tick of the plan takes: 1 to 999 ps, ns or us; 0 is 1 ns. wireline_margin,
                          wireline_traffic, wireline_respond and wireline_judge read it */
    uint32_t all_send; /* of wireline_margin, who sends: 0 is the plan's senders, 1 all nodes that don't only listen */
};

/* Each returns an enum wireline_status. */

/* The report of the plan's simulation: for each node its counters and frames, and a verdict. */
uint32_t wireline_run(const uint8_t *plan, size_t plan_length, const struct wireline_asked *asked, uint8_t *out, size_t out_room, size_t *needed);

/* What the bit segments of each node allow, and how long a level takes from node to node. */
uint32_t wireline_check(const uint8_t *plan, size_t plan_length, const struct wireline_asked *asked, uint8_t *out, size_t out_room, size_t *needed);

/* What is doubtful of the plan, and the figures of its nodes; or what is wrong with a plan that is refused, and what to change. */
uint32_t wireline_explain(const uint8_t *plan, size_t plan_length, const struct wireline_asked *asked, uint8_t *out, size_t out_room, size_t *needed);

/* Whether the bus works at all offsets and clocks within their tolerance, and with how much to spare. */
uint32_t wireline_margin(const uint8_t *plan, size_t plan_length, const struct wireline_asked *asked, uint8_t *out, size_t out_room, size_t *needed);

/* How busy the bus was, how long the messages of each node waited, and why the run didn't work. */
uint32_t wireline_traffic(const uint8_t *plan, size_t plan_length, const struct wireline_asked *asked, uint8_t *out, size_t out_room, size_t *needed);

/* How long each message may wait, at all offsets and clocks within their tolerance, and whether that is in time. */
uint32_t wireline_respond(const uint8_t *plan, size_t plan_length, const struct wireline_asked *asked, uint8_t *out, size_t out_room, size_t *needed);

/* Whether the bus works, how sure that is, where it is weakest, which change gives most, and how long messages may wait. */
uint32_t wireline_judge(const uint8_t *plan, size_t plan_length, const struct wireline_asked *asked, uint8_t *out, size_t out_room, size_t *needed);

#ifdef __cplusplus
}
#endif

#endif
