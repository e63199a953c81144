/* A text of a data file: parts of literal bytes, or of one repeated byte; a 0 ends it (tools/lib/suite/code.py). */
#include "player.h"

#define REPEATED 255

const unsigned char *place;
unsigned char value;
static unsigned char literals;
static unsigned int times;

unsigned int take_word(void) {
    unsigned int found = place[0] | place[1] << 8;
    place += 2;
    return found;
}

void begin_text(void) {
    literals = 0;
    times = 0;
}

/* Takes the next byte into `value`. Returns 0 at the end. */
unsigned char next_value(void) {
    if (!literals && !times) {
        literals = *place++;
        if (!literals) return 0;
        if (literals == REPEATED) {
            literals = 0;
            times = take_word();
            value = *place++;
        }
    }
    if (times) {
        --times;
        return 1;
    }
    --literals;
    value = *place++;
    return 1;
}
