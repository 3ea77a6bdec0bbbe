/* A harness for libFuzzer or AFL++ over plans' texts:
 *
 *     clang -g -O1 -fsanitize=fuzzer,address -I tools/c -o out/c/fuzz check/c/fuzz.c out/c/libwireline.a
 *     mkdir -p out/c/corpus && out/c/fuzz -max_total_time=600 out/c/corpus examples
 *
 * Each text goes through `check`, `explain` and `margin` in a form that the text's length picks. A run or a traffic of a plan takes as long as the plan, so
 * only plans that end early are run. What is wrong stops the process.
 */
#include <stdlib.h>
#include <string.h>
#include <wireline.h>

typedef uint32_t command(const uint8_t *, size_t, const struct wireline_asked *, uint8_t *, size_t, size_t *);

static uint32_t answer(command *says, const uint8_t *plan, size_t length, uint32_t format) {
    const struct wireline_asked asked = {format, 0, 0};
    size_t needed, again;
    uint32_t status = says(plan, length, &asked, NULL, 0, &needed);
    if (status == WIRELINE_ROOM) {
        uint8_t *out = malloc(needed);
        if (!out) return WIRELINE_MEMORY;
        status = says(plan, length, &asked, out, needed, &again);
        if (again != needed || (status != WIRELINE_DONE && status != WIRELINE_REFUSED)) abort();
        free(out);
    } else if (status != WIRELINE_REFUSED || needed) {
        abort();
    }
    return status;
}

/* True if the text has no number of more than six digits, so that its end is early. */
static int is_short(const uint8_t *text, size_t length) {
    size_t digits = 0;
    for (size_t i = 0; i < length; i++) {
        digits = (text[i] >= '0' && text[i] <= '9') || text[i] == '_' ? digits + 1 : 0;
        if (digits > 6 || text[i] == 'x') return 0;
    }
    return 1;
}

int LLVMFuzzerTestOneInput(const uint8_t *plan, size_t length);

int LLVMFuzzerTestOneInput(const uint8_t *plan, size_t length) {
    uint32_t format = (uint32_t)(length % 3);
    uint32_t checked = answer(wireline_check, plan, length, format);
    if (answer(wireline_explain, plan, length, format) != checked) abort();
    if (answer(wireline_margin, plan, length, format) != checked) abort();
    if (checked == WIRELINE_DONE && is_short(plan, length)) {
        if (answer(wireline_run, plan, length, format) != checked) abort();
        if (answer(wireline_traffic, plan, length, format) != checked) abort();
    }
    return 0;
}
