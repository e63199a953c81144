/* The tested drive, by the KERNAL's serial calls. */
#include <cbm.h>
#include <time.h>
#include "player.h"

#define DATA 0x60
#define COMMANDS 15
#define CLOSE 0xe0
#define TIMED_OUT 0x02
#define ABSENT 0x80
/* Seconds that a drive takes to restart. */
#define RESTART_SECONDS 3

unsigned char device = 8;
unsigned char line[64];

unsigned char is_present(unsigned char number) {
    cbm_k_listen(number);
    cbm_k_second(DATA | COMMANDS);
    cbm_k_unlsn();
    return !(cbm_k_readst() & ABSENT);
}

static void listen(unsigned char second) {
    cbm_k_listen(device);
    cbm_k_second(second);
}

/* Sends the text at `place`. */
void send_text(unsigned char second) {
    listen(second);
    begin_text();
    while (next_value()) cbm_k_ciout(value);
    cbm_k_unlsn();
}

void send_string(unsigned char second, const char *text) {
    listen(second);
    while (*text) cbm_k_ciout(*text++);
    cbm_k_unlsn();
}

void send_bytes(unsigned char second, const unsigned char *bytes, unsigned int count) {
    listen(second);
    while (count--) cbm_k_ciout(*bytes++);
    cbm_k_unlsn();
}

static char *add_number(char *end, unsigned char number) {
    char digits[4];
    char *at = write_number(digits + 3, number);
    *end++ = ' ';
    while (at != digits + 3) *end++ = *at++;
    return end;
}

/* A command with four numbers: U1 2 0 18 1. */
void send_command(const char *name, unsigned char channel, unsigned char first, unsigned char second, unsigned char third) {
    char text[24];
    char *end = text;
    while (*name) *end++ = *name++;
    end = add_number(end, channel);
    end = add_number(end, first);
    end = add_number(end, second);
    end = add_number(end, third);
    *end = 0;
    send_string(DATA | COMMANDS, text);
}

void close_channel(unsigned char channel) {
    listen(CLOSE | channel);
    cbm_k_unlsn();
}

void talk(unsigned char channel) {
    cbm_k_talk(device);
    cbm_k_tksa(DATA | channel);
}

/* The next byte of the channel; the KERNAL's status has how it came. */
unsigned char take(void) {
    return cbm_k_acptr();
}

/* Reads a channel to EOI into `line`, which ends with 0. Returns how many bytes came. */
unsigned char take_line(unsigned char channel) {
    unsigned char count = 0, status, byte;
    talk(channel);
    do {
        byte = take();
        status = cbm_k_readst();
        if (!(status & TIMED_OUT) && count < sizeof line - 1) line[count++] = byte;
    } while (!status);
    cbm_k_untlk();
    line[count] = 0;
    return count;
}

/* Closes all channels, and reads the status. */
void calm(void) {
    close_channel(COMMANDS);
    send_string(DATA | COMMANDS, "i0");
    take_line(COMMANDS);
}

/* Restarts the drive, and waits until it is ready. */
void restart(void) {
    clock_t begun;
    send_string(DATA | COMMANDS, "uj");
    begun = clock();
    while (clock() - begun < RESTART_SECONDS * CLOCKS_PER_SEC) { }
}
