/* ../../tests/refusing.c over the C file, whose modules ask for themselves and for their memories. */
#include "../../tests/refusing.c"

void *test_malloc(size_t n) {
    struct tried t = rattle_alloc(n, 16);
    return t.ok ? t.at : NULL;
}

void *test_realloc(void *p, size_t n) {
    struct tried t = p ? rattle_realloc(p, 0, n, 16) : rattle_alloc(n, 16);
    return t.ok ? t.at : NULL;
}

void test_free(void *p) {
    if (p) rattle_dealloc(p);
}
