/* The functions of wireline.h: they test the pointers, and call the proved functions of crates/wl_c, which take it for granted that each
 * pointer leads to as many bytes as its length says, and that no two parts overlap. */
#include "wireline.h"

typedef uint32_t command(const uint8_t *, size_t, const struct wireline_asked *, uint8_t *, size_t, size_t *);

command wl_c_run, wl_c_check, wl_c_explain, wl_c_margin, wl_c_traffic, wl_c_respond, wl_c_judge;

static int overlap(const void *one, size_t one_length, const void *other, size_t other_length) {
    uintptr_t a = (uintptr_t)one, b = (uintptr_t)other;
    return one_length && other_length && (a < b ? b - a < one_length : a - b < other_length);
}

static int lies_nowhere(const void *at, size_t length) { return (!at && length) || length > PTRDIFF_MAX; }

static uint32_t call(command *does, const uint8_t *plan, size_t plan_length, const struct wireline_asked *asked, uint8_t *out, size_t out_room, size_t *needed) {
    static const struct wireline_asked plain = {0, 0, 0};
    uint8_t nothing[1] = {0}, no_room[1] = {0};
    if (!needed) return WIRELINE_POINTER;
    if (!asked) asked = &plain;
    if (lies_nowhere(plan, plan_length) || lies_nowhere(out, out_room)) return *needed = 0, WIRELINE_POINTER;
    if (overlap(needed, sizeof *needed, plan, plan_length) || overlap(needed, sizeof *needed, out, out_room) || overlap(needed, sizeof *needed, asked, sizeof *asked))
        return WIRELINE_POINTER;
    *needed = 0;
    if (overlap(out, out_room, plan, plan_length) || overlap(out, out_room, asked, sizeof *asked)) return WIRELINE_POINTER;
    return does(plan_length ? plan : nothing, plan_length, asked, out_room ? out : no_room, out_room, needed);
}

#define COMMAND(name)                                                                                                                                  \
    uint32_t wireline_##name(const uint8_t *plan, size_t plan_length, const struct wireline_asked *asked, uint8_t *out, size_t out_room, size_t *needed) { \
        return call(wl_c_##name, plan, plan_length, asked, out, out_room, needed);                                                                     \
    }

COMMAND(run)
COMMAND(check)
COMMAND(explain)
COMMAND(margin)
COMMAND(traffic)
COMMAND(respond)
COMMAND(judge)
