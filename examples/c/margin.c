/* Writes whether the bus of a plan works, and with how much to spare; or what is wrong with a plan that is refused.
 *
 *     cc -o margin margin.c -lwireline && ./margin plan.toml
 *
 * Its status is that of the library: 0 if the margin was written, 1 if the plan is refused.
 */
#include <stdio.h>
#include <stdlib.h>
#include <wireline.h>

typedef uint32_t command(const uint8_t *, size_t, const struct wireline_asked *, uint8_t *, size_t, size_t *);

static void *or_stop(void *at) {
    if (!at) {
        perror("malloc");
        exit(WIRELINE_MEMORY);
    }
    return at;
}

/* Returns the bytes of a file. The caller frees them. */
static uint8_t *bytes_of(const char *name, size_t *length) {
    size_t room = 4096, came;
    uint8_t *text = or_stop(malloc(room));
    FILE *file = fopen(name, "rb");
    *length = 0;
    while (file && (came = fread(text + *length, 1, room - *length, file)) > 0) {
        *length += came;
        if (*length == room) text = or_stop(realloc(text, room *= 2));
    }
    if (!file || ferror(file)) {
        perror(name);
        exit(3);
    }
    fclose(file);
    return text;
}

/* Writes what a command says of a plan, and returns the status: a buffer that is too small gets the room that it needs. */
static uint32_t written(command *says, const uint8_t *plan, size_t length, FILE *to) {
    const struct wireline_asked asked = {WIRELINE_TEXT, 1000, 0}; /* a tick is 1 ns */
    size_t room = 1024, needed;
    uint8_t *out = or_stop(malloc(room));
    uint32_t status = says(plan, length, &asked, out, room, &needed);
    if (status == WIRELINE_ROOM) {
        out = or_stop(realloc(out, room = needed));
        status = says(plan, length, &asked, out, room, &needed);
    }
    fwrite(out, 1, needed, to);
    free(out);
    return status;
}

int main(int count, char **words) {
    size_t length;
    if (count != 2) {
        fprintf(stderr, "usage: margin PLAN\n");
        return WIRELINE_ASKED;
    }
    uint8_t *plan = bytes_of(words[1], &length);
    uint32_t status = written(wireline_margin, plan, length, stdout);
    if (status == WIRELINE_REFUSED) written(wireline_explain, plan, length, stderr);
    free(plan);
    return (int)status;
}
