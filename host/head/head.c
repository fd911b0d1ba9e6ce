/* What a head does: it holds a model as an image, logs what it does to it, and plays logs. */
#include "head.h"

#include <stdio.h>
#include <string.h>

int failures;

void holds(int fact, const char *what) {
    if (!fact) {
        failures++;
        printf("FAILED: %s\n", what);
    }
}

void shown(int failures_before, const char *what) {
    printf("%s %s\n", failures == failures_before ? "ok    " : "FAILED", what);
}

size_t put_words(uint8_t *bytes, const uint32_t *numbers, size_t count) {
    for (size_t at = 0; at < count; at++) {
        cheukdane_put_word(bytes, at, numbers[at]);
    }
    return 4 * count;
}

int same(const uint8_t *one, const uint8_t *other, size_t length) {
    return memcmp(one, other, length) == 0;
}

void start(struct head *head) {
    memset(head, 0xEE, sizeof *head);
    head->length = 0;
    holds(cheukdane_off(head->image, sizeof head->image).number == 0, "a head starts with a model that is off");
}

uint32_t does(struct head *head, const struct event *event, uint8_t *show) {
    uint8_t words[44];
    size_t length = put_words(words, event->numbers, event->count);
    return does_words(head, event->kind, words, length, show);
}

uint32_t does_words(struct head *head, uint32_t kind, const uint8_t *words, size_t length, uint8_t *show) {
    struct cheukdane_answer answer = cheukdane_event(head->image, sizeof head->image, kind, words, length, show, CHEUKDANE_SHOWN);
    if (answer.number == 0) {
        struct cheukdane_written written =
            cheukdane_write(kind, words, length, head->log + head->length, sizeof head->log - head->length);
        holds(written.number == 0, "an accepted event is logged");
        head->length += written.count;
    }
    return answer.number;
}

size_t play(struct head *head, const uint8_t *log, size_t length, size_t place) {
    uint8_t show[CHEUKDANE_SHOWN];
    for (;;) {
        struct cheukdane_played played = cheukdane_play(head->image, sizeof head->image, log, length, place, show, sizeof show);
        if (played.kind == 0 || played.next <= place) {
            holds(played.kind == 0 && played.number == 0, "a head's log is readable to its end");
            return played.place;
        }
        place = played.next;
    }
}

int in_bands(const struct head *head, uint32_t first, uint32_t second) {
    return cheukdane_word(head->image, CHEUKDANE_BANDS) == first &&
           cheukdane_word(head->image, CHEUKDANE_BANDS + 1) == second;
}
