/* Calls of the library on plans that are named, for a run under AddressSanitizer or valgrind: buffers have no byte more than is said.
 *
 * usage: calls PLAN..
 */
#include <stdio.h>
#include <stdlib.h>
#include <string.h>
#include <wireline.h>

typedef uint32_t command(const uint8_t *, size_t, const struct wireline_asked *, uint8_t *, size_t, size_t *);

static command *const commands[] = {wireline_run, wireline_check, wireline_explain, wireline_margin, wireline_traffic, wireline_respond, wireline_judge};
static int failed;

static void is(int holds, const char *what) {
    if (!holds) {
        printf("differs: %s\n", what);
        failed++;
    }
}

/* A block of exactly so many bytes, at least one: what is read or written beyond it is seen. */
static uint8_t *block(const uint8_t *bytes, size_t length) {
    uint8_t *made = malloc(length ? length : 1);
    if (!made) exit(3);
    if (bytes) memcpy(made, bytes, length);
    else memset(made, 0x5a, length);
    return made;
}

static void try_format(command *says, const uint8_t *text, size_t length, uint32_t format) {
    const struct wireline_asked asked = {format, 0, 0};
    uint8_t *plan = block(text, length), *none = block(NULL, 0);
    size_t needed, again;
    uint32_t status = says(plan, length, &asked, none, 0, &needed);
    if (status == WIRELINE_ROOM) {
        uint8_t *small = block(NULL, needed - 1), *fits = block(NULL, needed);
        is(says(plan, length, &asked, small, needed - 1, &again) == WIRELINE_ROOM && again == needed, "one byte too few");
        for (size_t i = 0; i < needed - 1; i++) is(small[i] == 0x5a, "a small buffer stays");
        status = says(plan, length, &asked, fits, needed, &again);
        is((status == WIRELINE_DONE || status == WIRELINE_REFUSED) && again == needed, "the bytes that are needed");
        is(format == WIRELINE_CSV || fits[needed - 1] == '\n', "the last line ends");
        free(small);
        free(fits);
    } else {
        is((status == WIRELINE_REFUSED || status == WIRELINE_ASKED) && needed == 0, "nothing is said");
    }
    is(!memcmp(plan, text, length), "the plan stays");
    free(plan);
    free(none);
}

static void try_plan(const uint8_t *text, size_t length) {
    for (size_t i = 0; i < sizeof commands / sizeof *commands; i++)
        for (uint32_t format = 0; format < 4; format++) try_format(commands[i], text, length, format);
}

int main(int count, char **words) {
    static uint8_t text[2 << 20];
    size_t needed = 7;
    try_plan((const uint8_t *)"", 0);
    try_plan((const uint8_t *)"\xff\xfe\0", 3);
    memset(text, '#', sizeof text);
    try_plan(text, 1048576);
    try_plan(text, 1048577);
    is(wireline_run(NULL, 1, NULL, text, 1, &needed) == WIRELINE_POINTER && needed == 0, "a null plan");
    is(wireline_run(text, 1, NULL, NULL, 1, &needed) == WIRELINE_POINTER, "a null buffer");
    is(wireline_run(text, 1, NULL, text + 1, 1, NULL) == WIRELINE_POINTER, "a null count");
    is(wireline_run(text, 2, NULL, text + 1, 1, &needed) == WIRELINE_POINTER, "a plan in the buffer");
    for (int i = 1; i < count; i++) {
        FILE *file = fopen(words[i], "rb");
        if (!file) {
            perror(words[i]);
            return 3;
        }
        try_plan(text, fread(text, 1, sizeof text, file));
        fclose(file);
    }
    printf("%d plans, %d failed\n", count - 1, failed);
    return failed ? 1 : 0;
}
