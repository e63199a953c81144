/* Asks which drive is tested, loads the data files one after another, plays them, and writes the report. */
#include <cbm.h>
#include <string.h>
#include "player.h"
#include "suite.h"
#include "numbers.h"

#define COMMANDS 15

static unsigned char suite_device, is_same_drive;
static char file_name[] = "cases00";

static void swap(const char *question) {
    if (is_same_drive) wait_for_return(question);
}

/* Loads the data file of this number. Returns whether it is there. */
static unsigned char load(unsigned char number) {
    file_name[5] = '0' + number / 10;
    file_name[6] = '0' + number % 10;
    swap("put the suite's disk in");
    if (!cbm_load(file_name, suite_device, data)) return 0;
    swap("put the test's disk in");
    if (is_same_drive) calm();
    return 1;
}

static unsigned char ask_drive(void) {
    suite_device = ask_number("device of the suite's disk", 8);
    device = ask_number("device of the drive to test", 9);
    is_same_drive = device == suite_device;
    if (is_present(device)) return 1;
    say("no drive answers\n");
    return 0;
}

/* Shows what the drive is, and asks whether its disk can be lost. */
static unsigned char may_write(void) {
    swap("put the test's disk in");
    restart();
    take_line(COMMANDS);
    memcpy(identity, line, sizeof identity);
    say((const char *)identity);
    return ask_yes("everything on this disk will be lost. go on");
}

static void format(void) {
    say("formats the disk\n");
    send_string(0x6f, "n0:test,ab");
    take_line(COMMANDS);
}

static void show_sums(void) {
    unsigned int number, sums[4];
    memset(sums, 0, sizeof sums);
    for (number = 1; number <= CASES; ++number) ++sums[results[number]];
    say_number(sums[SAME]);
    say(" same, ");
    say_number(sums[WORDS]);
    say(" other words, ");
    say_number(sums[DIFFERENT]);
    say(" different\n");
}

static void keep_report(void) {
    unsigned int to = ask_number("device for the report, 0 for none", suite_device);
    if (!to) return;
    if (to == device) wait_for_return("put a disk for the report in");
    write_report(to, CASES + 1);
}

int main(void) {
    unsigned int first, last;
    unsigned char number;
    say("\ntests a drive by " SUITE_COUNT " cases\n");
    if (!ask_drive()) return 1;
    first = ask_number("first case", 1);
    last = ask_number("last case; those above need images", PLAIN_CASES);
    if (!may_write()) return 1;
    format();
    for (number = 1; number <= FILES; ++number) {
        if (last_of_file[number - 1] < first || first_of_file[number - 1] > last) continue;
        if (!load(number)) {
            say("can't load the data\n");
            return 1;
        }
        if (!play_file(first, last)) break;
    }
    show_sums();
    keep_report();
    return 0;
}
