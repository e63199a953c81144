/* The start of a program on a Cortex-M in QEMU, whose files and words are those of the host by semihosting: tools/rust_library --cortex-m. */
#include <stddef.h>
#include <stdint.h>
#include <stdlib.h>
#include <string.h>

int main(int argc, char **argv);
void initialise_monitor_handles(void);

extern uint8_t bss_begin, bss_end, heap_begin, heap_end, stack_top;

enum { GET_COMMAND_LINE = 0x15, WORDS = 16 };

/* A request to the host, by the breakpoint that stands for it. */
static int32_t asked(int32_t what, void *with) {
    register int32_t r0 __asm__("r0") = what;
    register void *r1 __asm__("r1") = with;
    __asm__ volatile("bkpt 0xab" : "+r"(r0) : "r"(r1) : "memory");
    return r0;
}

void reset(void) {
    static char line[1024], *words[WORDS + 1];
    struct { char *at; uint32_t size; } block = {line, sizeof line};
    int count = 0;
    memset(&bss_begin, 0, (size_t)(&bss_end - &bss_begin));
    initialise_monitor_handles();
    asked(GET_COMMAND_LINE, &block);
    for (char *it = strtok(line, " "); it && count < WORDS; it = strtok(NULL, " ")) words[count++] = it;
    exit(main(count, words));
}

static void fault(void) { abort(); }

__attribute__((section(".vectors"), used)) static const void *const vectors[16] = {
    &stack_top, (void *)reset, (void *)fault, (void *)fault, (void *)fault, (void *)fault, (void *)fault,
};

/* Newlib's heap. */
void *_sbrk(ptrdiff_t more) {
    static uint8_t *end = &heap_begin;
    if (more > &heap_end - end) return (void *)-1;
    end += more;
    return end - more;
}
