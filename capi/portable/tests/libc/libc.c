/* As much of a C library as capi's examples and tests use, over five functions of the host: for a module that runs them as they are. */
#include <stdarg.h>
#include <stddef.h>
#include <stdint.h>
#include <stdio.h>
#include <stdlib.h>
#include <string.h>
#include <time.h>

#define FROM(name) __attribute__((import_module("host"), import_name(#name)))
FROM(say) void host_say(const void *, size_t);
FROM(load) int64_t host_load(const char *, size_t, void *, size_t);
FROM(save) void host_save(const char *, size_t, const void *, size_t);
FROM(clock) double host_clock(void);
FROM(leave) _Noreturn void host_leave(int);

void *room(size_t);
void room_back(void *);

/* A file is opened for reading whole or for writing whole. */
struct file { const char *name; int is_out; };
FILE *const stderr = NULL;

#define ITS_OWN __attribute__((no_builtin))
ITS_OWN void *memcpy(void *to, const void *from, size_t n) { for (size_t i = 0; i < n; i++) ((uint8_t *)to)[i] = ((const uint8_t *)from)[i]; return to; }
ITS_OWN void *memmove(void *to, const void *from, size_t n) {
    if ((uintptr_t)to <= (uintptr_t)from) return memcpy(to, from, n);
    while (n--) ((uint8_t *)to)[n] = ((const uint8_t *)from)[n];
    return to;
}
ITS_OWN void *memset(void *to, int by, size_t n) { for (size_t i = 0; i < n; i++) ((uint8_t *)to)[i] = (uint8_t)by; return to; }
ITS_OWN int memcmp(const void *a, const void *b, size_t n) {
    const uint8_t *x = a, *y = b;
    for (size_t i = 0; i < n; i++) if (x[i] != y[i]) return x[i] - y[i];
    return 0;
}
ITS_OWN size_t strlen(const char *s) { size_t n = 0; while (s[n]) n++; return n; }
size_t strcspn(const char *s, const char *of) {
    size_t n = 0;
    for (; s[n]; n++) for (const char *c = of; *c; c++) if (s[n] == *c) return n;
    return n;
}
int strcmp(const char *a, const char *b) {
    while (*a && *a == *b) a++, b++;
    return (uint8_t)*a - (uint8_t)*b;
}
int strncmp(const char *a, const char *b, size_t n) {
    for (; n && *a && *a == *b; n--) a++, b++;
    return n ? (uint8_t)*a - (uint8_t)*b : 0;
}

/* The size stands before a block, for realloc. */
void *malloc(size_t n) { size_t *p = room(n + 16); return p ? (*p = n, p + 2) : NULL; }
void free(void *p) { if (p) room_back((size_t *)p - 2); }
void *realloc(void *p, size_t n) {
    void *to = malloc(n);
    if (to && p) { size_t was = ((size_t *)p)[-2]; memcpy(to, p, was < n ? was : n), free(p); }
    return to;
}
int posix_memalign(void **at, size_t align, size_t n) { (void)align; return (*at = malloc(n)) ? 0 : 12; }
long atol(const char *s) { long n = 0; for (; *s >= '0' && *s <= '9'; s++) n = n * 10 + *s - '0'; return n; }
_Noreturn void exit(int status) { host_leave(status); }
int clock_gettime(int which, struct timespec *t) {
    double now = host_clock();
    (void)which, t->tv_sec = (long)now, t->tv_nsec = (long)((now - (double)t->tv_sec) * 1e9);
    return 0;
}

static void number(uint64_t v, unsigned base, int width, int zero) {
    char text[24];
    int n = 24;
    do text[--n] = "0123456789abcdef"[v % base]; while (v /= base);
    while (24 - n < width) text[--n] = zero ? '0' : ' ';
    host_say(text + n, (size_t)(24 - n));
}

static int vprint(const char *f, va_list of) {
    for (; *f; f++) {
        if (*f != '%') { const char *to = f; while (*to && *to != '%') to++; host_say(f, (size_t)(to - f)), f = to - 1; continue; }
        int zero = 0, width = 0, most = -1, is_long = 0;
        if (*++f == '0') zero = 1, f++;
        while (*f >= '0' && *f <= '9') width = width * 10 + *f++ - '0';
        if (*f == '.') {
            if (*++f == '*') most = va_arg(of, int), f++;
            else for (most = 0; *f >= '0' && *f <= '9';) most = most * 10 + *f++ - '0';
        }
        while (*f == 'l' || *f == 'z') is_long = 1, f++;
        if (*f == 's') { const char *s = va_arg(of, const char *); size_t n = strlen(s); host_say(s, most >= 0 && n > (size_t)most ? (size_t)most : n); }
        else if (*f == 'd') { long v = is_long ? va_arg(of, long) : va_arg(of, int); if (v < 0) host_say("-", 1); number(v < 0 ? -(uint64_t)v : (uint64_t)v, 10, width, zero); }
        else if (*f == 'u' || *f == 'x') number(is_long ? va_arg(of, unsigned long) : va_arg(of, unsigned), *f == 'x' ? 16 : 10, width, zero);
        else if (*f == 'f') {
            double v = va_arg(of, double), unit = 1;
            if (most < 0) most = 6;
            for (int i = 0; i < most; i++) unit *= 10;
            uint64_t all = (uint64_t)((v < 0 ? -v : v) * unit + 0.5);
            if (v < 0) host_say("-", 1);
            number(all / (uint64_t)unit, 10, 0, 0);
            if (most) host_say(".", 1), number(all % (uint64_t)unit, 10, most, 1);
        } else host_say(f, 1);
    }
    return 0;
}

int printf(const char *f, ...) { va_list of; va_start(of, f); vprint(f, of); va_end(of); return 0; }
int fprintf(FILE *to, const char *f, ...) { va_list of; (void)to; va_start(of, f); vprint(f, of); va_end(of); return 0; }
int puts(const char *s) { return printf("%s\n", s); }
FILE *fopen(const char *name, const char *how) { FILE *f = malloc(sizeof *f); if (f) f->name = name, f->is_out = *how == 'w'; return f; }
size_t fread(void *to, size_t size, size_t n, FILE *f) {
    int64_t got = host_load(f->name, strlen(f->name), to, size * n);
    if (got < 0) exit(2);
    return (size_t)got / size;
}
size_t fwrite(const void *from, size_t size, size_t n, FILE *f) { host_save(f->name, strlen(f->name), from, size * n); return n; }
int fclose(FILE *f) { free(f); return 0; }

/* The program, with the words that the host put behind one another at `words`. */
int main(int, char **);
static char words[4096];
__attribute__((export_name("words"))) char *its_words(void) { return words; }
__attribute__((export_name("run"))) int run(int count) {
    static char *args[64];
    char *at = words;
    for (int i = 0; i < count && i < 63; i++) args[i] = at, at += strlen(at) + 1;
    return main(count, args);
}
