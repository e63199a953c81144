/* The suite's player: plays transcripts on a drive by the KERNAL's serial calls, for a C64 or a VIC-20. */
#ifndef PLAYER_H
#define PLAYER_H

/* The results of a case. */
enum result { NOT_PLAYED, SAME, WORDS, DIFFERENT };

/* The first difference of a case. */
struct difference {
    unsigned int number;
    unsigned char request;
    unsigned int byte;
    unsigned char wanted, came;
};

#define MOST_DIFFERENCES 150
#define MOST_CASES 1000

extern unsigned char results[MOST_CASES];
extern struct difference differences[MOST_DIFFERENCES];
extern unsigned char difference_count;

/* player.c */
extern unsigned char data[];
unsigned char play_file(unsigned int first, unsigned int last);

/* text.c: a text of a data file, byte by byte */
extern const unsigned char *place;
extern unsigned char value;
void begin_text(void);
unsigned char next_value(void);
unsigned int take_word(void);

/* drive.c: the tested drive */
extern unsigned char device;
extern unsigned char line[64];
unsigned char is_present(unsigned char number);
void send_text(unsigned char second);
void send_string(unsigned char second, const char *text);
void send_bytes(unsigned char second, const unsigned char *bytes, unsigned int count);
void send_command(const char *name, unsigned char channel, unsigned char first, unsigned char second, unsigned char third);
void close_channel(unsigned char channel);
void talk(unsigned char channel);
unsigned char take(void);
unsigned char take_line(unsigned char channel);
void calm(void);
void restart(void);

/* console.c */
void say(const char *text);
void say_number(unsigned int number);
void say_text(void);
unsigned int ask_number(const char *question, unsigned int otherwise);
unsigned char ask_yes(const char *question);
void wait_for_return(const char *question);
unsigned char is_stopped(void);
char *write_number(char *end, unsigned int number);

/* report.c: identity is the drive's status when it was switched on */
extern unsigned char identity[64];
void write_report(unsigned char to, unsigned int count);

#endif
