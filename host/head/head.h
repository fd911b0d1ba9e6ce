/* A head as these checks have it: its model, its log, and what it does with them. */
#ifndef HEAD_H
#define HEAD_H

#include "cheukdane.h"

enum { LOG_ROOM = 1024 };

struct event {
    uint32_t kind;
    size_t count;
    uint32_t numbers[11];
};

/* A head: its model, and its log of what was done to it. */
struct head {
    uint8_t image[CHEUKDANE_IMAGE];
    uint8_t log[LOG_ROOM];
    size_t length;
};

/* How many facts didn't hold. */
extern int failures;

/* Counts a fact that doesn't hold. */
void holds(int fact, const char *what);

/* Ends the showing of one thing. */
void shown(int failures_before, const char *what);

/* Numbers as words, and how many bytes they are; whether bytes are the same. */
size_t put_words(uint8_t *bytes, const uint32_t *numbers, size_t count);
int same(const uint8_t *one, const uint8_t *other, size_t length);

/* Starts with a model that is off and an empty log. */
void start(struct head *head);

/* Does one event: the model judges it, and an accepted one is logged. Gives the answer. */
uint32_t does(struct head *head, const struct event *event, uint8_t *show);

/* The same of an event's kind and words. */
uint32_t does_words(struct head *head, uint32_t kind, const uint8_t *words, size_t length, uint8_t *show);

/* Plays a log from a place to its end. Gives the place at which it ended. */
size_t play(struct head *head, const uint8_t *log, size_t length, size_t place);

/* Whether a head's image has these bands, the first thermistor's and the second's. */
int in_bands(const struct head *head, uint32_t first, uint32_t second);

/* The paper's example log. */
extern const uint8_t EXAMPLE[28];

/* What is shown, by subject. */
void show_the_header(void);
void show_the_example(void);
void show_two_heads(void);
void show_bad_images(void);
void show_refusals(void);
void show_resistors(void);
void show_thermistors(void);
void show_editions(void);
void show_registers(void);
void show_runs(void);

#endif
