/* The screen and the keyboard, by the KERNAL. */
#include <cbm.h>
#include "player.h"

#define RETURN 13
#define STOP 3

void say(const char *text) {
    while (*text) cbm_k_bsout(*text++);
}

/* Writes a number before `end`. Returns its first digit. */
char *write_number(char *end, unsigned int number) {
    do {
        *--end = '0' + number % 10;
        number /= 10;
    } while (number);
    return end;
}

void say_number(unsigned int number) {
    char digits[6];
    digits[5] = 0;
    say(write_number(digits + 5, number));
}

/* Shows the text of a data file. */
void say_text(void) {
    begin_text();
    while (next_value()) cbm_k_bsout(value);
}

/* Reads a line of the keyboard. Returns its first byte; `number` has its digits. */
static unsigned int number;
static unsigned char read_line(void) {
    unsigned char first = 0, key;
    number = 0;
    while ((key = cbm_k_basin()) != RETURN) {
        if (key == ' ') continue;
        if (!first) first = key;
        if (key >= '0' && key <= '9') number = number * 10 + key - '0';
    }
    say("\n");
    return first;
}

unsigned int ask_number(const char *question, unsigned int otherwise) {
    say(question);
    say(" (");
    say_number(otherwise);
    say(")\n>");
    return read_line() ? number : otherwise;
}

unsigned char ask_yes(const char *question) {
    say(question);
    say(" (y/n)\n>");
    return read_line() == 'y';
}

void wait_for_return(const char *question) {
    say(question);
    say(", then press return\n>");
    read_line();
}

/* Whether a key was pressed that ends the suite: RUN/STOP or Q. */
unsigned char is_stopped(void) {
    unsigned char key = cbm_k_getin();
    return key == STOP || key == 'q';
}
