/* Refuses one allocation: the REFUSE-th call of malloc or realloc answers NULL. With REFUSE=0 none is refused,
   and the number of calls is written to standard error at the end. With REFUSE_SYNC no file is synchronised with its disk.
   Loaded by LD_PRELOAD; see refuse.sh. */
#define _GNU_SOURCE
#include <dlfcn.h>
#include <errno.h>
#include <stdio.h>
#include <stdlib.h>
#include <sys/syscall.h>
#include <unistd.h>

static void *(*next_malloc)(size_t);
static void *(*next_realloc)(void *, size_t);
static long calls, refused = -1;

static void find_next(void) {
    if (next_malloc) return;
    next_malloc = dlsym(RTLD_NEXT, "malloc");
    next_realloc = dlsym(RTLD_NEXT, "realloc");
    const char *word = getenv("REFUSE");
    refused = word ? atol(word) : 0;
}

void *malloc(size_t size) {
    find_next();
    return __atomic_add_fetch(&calls, 1, __ATOMIC_SEQ_CST) == refused ? NULL : next_malloc(size);
}

void *realloc(void *old, size_t size) {
    find_next();
    return __atomic_add_fetch(&calls, 1, __ATOMIC_SEQ_CST) == refused ? NULL : next_realloc(old, size);
}

int fsync(int file) {
    if (!getenv("REFUSE_SYNC")) return syscall(SYS_fsync, file);
    errno = EIO;
    return -1;
}

__attribute__((destructor)) static void tell(void) {
    char text[32];
    if (refused == 0) {
        int length = snprintf(text, sizeof text, "calls %ld\n", calls);
        (void)!write(2, text, length);
    }
}

/* A program with threads ends by this call, after which nothing else would run. */
void _exit(int status) {
    tell();
    syscall(SYS_exit_group, status);
    __builtin_unreachable();
}
