/* Loaded in front of the C library (LD_PRELOAD), it refuses one growth: the call of malloc, calloc or realloc that has the number
   REFUSE_GROWTH, counted from 1; with REFUSE_ALL also all after it. It reports each on standard error. */
#include <errno.h>
#include <stdlib.h>
#include <unistd.h>

void *__libc_malloc(size_t size);
void *__libc_calloc(size_t count, size_t size);
void *__libc_realloc(void *old, size_t size);

static unsigned long refused, calls;
static int all;

__attribute__((constructor)) static void begin(void) {
    const char *number = getenv("REFUSE_GROWTH");
    refused = number ? strtoul(number, NULL, 10) : 0;
    all = getenv("REFUSE_ALL") != NULL;
    calls = 0;
}

static int is_refused(void) {
    calls++;
    if (all ? refused == 0 || calls < refused : calls != refused) {
        return 0;
    }
    ssize_t told = write(2, "growth refused\n", 15);
    (void)told;
    errno = ENOMEM;
    return 1;
}

void *malloc(size_t size) {
    return is_refused() ? NULL : __libc_malloc(size);
}

void *calloc(size_t count, size_t size) {
    return is_refused() ? NULL : __libc_calloc(count, size);
}

void *realloc(void *old, size_t size) {
    return is_refused() ? NULL : __libc_realloc(old, size);
}
