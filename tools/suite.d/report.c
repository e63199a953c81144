/* The report: a sequential file with a line for each case that was played. */
#include <cbm.h>
#include <string.h>
#include "player.h"
#include "suite.h"

#define CHANNEL 2
#define WRITE_TO (0xf0 | CHANNEL)

unsigned char identity[sizeof line];
static const char letters[] = "-stx";

static void put(const char *text) {
    while (*text) cbm_k_ciout(*text++);
}

static void put_number(unsigned int number) {
    char digits[7];
    digits[5] = ' ';
    digits[6] = 0;
    put(write_number(digits + 5, number));
}

/* The difference of a case, if there was room to keep it. */
static void put_difference(unsigned int number) {
    unsigned char n;
    for (n = 0; n < difference_count; ++n) {
        const struct difference *it = differences + n;
        if (it->number != number) continue;
        put(" ");
        put_number(it->request);
        put_number(it->byte);
        put_number(it->wanted);
        put_number(it->came);
    }
}

static void put_case(unsigned int number) {
    char letter[2];
    letter[0] = letters[results[number]];
    letter[1] = 0;
    put_number(number);
    put(letter);
    put_difference(number);
    put("\n");
}

/* Writes the results of the cases below `count`. */
void write_report(unsigned char to, unsigned int count) {
    unsigned char tested = device;
    unsigned int number;
    device = to;
    send_string(WRITE_TO, "@0:report,s,w");
    cbm_k_listen(to);
    cbm_k_second(0x60 | CHANNEL);
    put("yellowadze suite " SUITE_SUM "\n");
    put((const char *)identity);
    for (number = 1; number < count; ++number) {
        if (results[number]) put_case(number);
    }
    cbm_k_unlsn();
    close_channel(CHANNEL);
    device = tested;
}
