/* The three functions that the library asks for memory, over malloc, realloc and free. A pointer that goes back is never null. */
#include <stddef.h>
#include <stdint.h>
#include <stdlib.h>

struct tried {
    uint64_t ok; /* 0 or 1 */
    void *at;
};

static struct tried answer(void *at, size_t align) {
    struct tried tried = {at != NULL, at != NULL ? at : (void *)align};
    return tried;
}

struct tried rattle_alloc(size_t size, size_t align) { return answer(malloc(size ? size : align), align); }

struct tried rattle_realloc(void *at, size_t kept, size_t size, size_t align) {
    (void)kept;
    return answer(realloc(at, size ? size : align), align);
}

void rattle_dealloc(void *at) { free(at); }
