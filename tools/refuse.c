/* Refuses memory: the request with the number REFUSE, from 1, and all after it where REFUSE_ALL is set. To be put before a
   program by the system's loader:
       cc -shared -fPIC -o /tmp/refuse.so tools/refuse.c
       REFUSE=9 LD_PRELOAD=/tmp/refuse.so crates/market/out/market check < examples/one-trade.json */
#define _GNU_SOURCE
#include <dlfcn.h>
#include <errno.h>
#include <stdlib.h>

static int is_refused(void) {
    static long request;
    const char *refused = getenv("REFUSE");
    long first = refused ? atol(refused) : 0;
    request++;
    return first > 0 && (request == first || (request > first && getenv("REFUSE_ALL")));
}

void *malloc(size_t size) {
    static void *(*real)(size_t);
    if (!real) real = dlsym(RTLD_NEXT, "malloc");
    if (!is_refused()) return real(size);
    errno = ENOMEM;
    return NULL;
}

void *realloc(void *old, size_t size) {
    static void *(*real)(void *, size_t);
    if (!real) real = dlsym(RTLD_NEXT, "realloc");
    if (!is_refused()) return real(old, size);
    errno = ENOMEM;
    return NULL;
}
