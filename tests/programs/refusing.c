/* Refuses one request for memory, the one whose number is in REFUSED: loaded before the C library (LD_PRELOAD). */
#include <errno.h>
#include <stdlib.h>
void *__libc_malloc(size_t);
void *__libc_realloc(void *, size_t);
static long asked;
static int is_refused(void) {
    if (asked++ != atol(getenv("REFUSED"))) return 0;
    errno = ENOMEM;
    return 1;
}
void *malloc(size_t size) { return is_refused() ? 0 : __libc_malloc(size); }
void *realloc(void *was, size_t size) { return is_refused() ? 0 : __libc_realloc(was, size); }
