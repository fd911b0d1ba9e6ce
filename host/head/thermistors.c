/* Observations of two thermistors: the band of every pair, what it does, and what is refused. */
#include "head.h"

#include <string.h>

enum { BANDS = 5, MOST_TS = 100000, FIRST = 4, SECOND = 5 };
enum {
    NORMAL = CHEUKDANE_BAND_NORMAL,
    COLD = CHEUKDANE_BAND_COLD,
    HOT = CHEUKDANE_BAND_HOT,
    COOL = CHEUKDANE_BAND_COOL,
    WARM = CHEUKDANE_BAND_WARM,
    MIXED = CHEUKDANE_BAND_MIXED
};

/* A TS of each band by the registers' resets, in the order of the bands' numbers; but for normal's the nearest to it. */
static const uint32_t OF_BAND[BANDS] = {55000, 75320, 34375, 68250, 44750};

/* The band of both: a row for the first's, a column for the second's. */
static const uint32_t BOTH[BANDS][BANDS] = {{NORMAL, COLD, HOT, COOL, WARM},
                                            {COLD, COLD, COLD, COLD, COLD},
                                            {HOT, COLD, HOT, HOT, HOT},
                                            {COOL, COLD, HOT, COOL, MIXED},
                                            {WARM, COLD, HOT, MIXED, WARM}};

/* Observes two thermistors after the example; an accepted observation is logged. */
static uint32_t sees(struct head *head, uint32_t first, uint32_t second, uint8_t *show) {
    const struct event event = {CHEUKDANE_KIND_OBSERVE_TWO, 7, {1000, 12000, 7600, CHEUKDANE_IBAT(90), first, second, 0}};
    return does(head, &event, show);
}

static uint32_t ts_stat(const struct head *head) {
    struct cheukdane_byte status =
        cheukdane_register(head->image, sizeof head->image, CHEUKDANE_REGISTER_CHARGER_STATUS_2);
    holds(status.number == 0, "the status can be read");
    return status.byte;
}

/* A head after the example, its flags taken. */
static void start_after_the_example(struct head *head) {
    const struct event take = {CHEUKDANE_KIND_TAKE_FLAGS, 0, {0}};
    uint8_t show[CHEUKDANE_SHOWN];
    start(head);
    play(head, EXAMPLE, sizeof EXAMPLE, 0);
    holds(does(head, &take, show) == 0, "flags are taken");
}

static void every_pair_of_bands(void) {
    int before = failures;
    uint8_t show[CHEUKDANE_SHOWN];
    for (size_t first = 0; first < BANDS; first++) {
        for (size_t second = 0; second < BANDS; second++) {
            struct head head;
            uint32_t band = BOTH[first][second];
            start_after_the_example(&head);
            holds(sees(&head, OF_BAND[first], OF_BAND[second], show) == 0, "each pair is accepted");
            holds(in_bands(&head, (uint32_t)first, (uint32_t)second), "the image has the band of each");
            holds(ts_stat(&head) == band, "and TS_STAT that of both");
            int suspends = band == COLD || band == HOT || band == MIXED;
            holds(cheukdane_word(show, CHEUKDANE_SHOWN_PHASE) == (suspends ? 6u : 3u), "cold, hot and mixed suspend");
            int flagged = (cheukdane_word(show, CHEUKDANE_SHOWN_FLAGS) & CHEUKDANE_FLAG_BAND) != 0;
            holds(flagged == (band != NORMAL), "a band that has changed is flagged");
            holds(sees(&head, OF_BAND[second], OF_BAND[first], show) == 0, "the other way round too");
            holds(in_bands(&head, (uint32_t)second, (uint32_t)first), "each has its own band");
            holds(ts_stat(&head) == band, "the band of both is the same");
            holds(cheukdane_word(show, CHEUKDANE_SHOWN_PULSE) == 0, "and gives no pulse");
        }
    }
    shown(before, "the band of two thermistors, both ways round");
}

/* Cool beside warm suspends whatever 0x19 says of either, unless it turns one of the bands off. */
static void cool_beside_warm(void) {
    int before = failures;
    uint8_t show[CHEUKDANE_SHOWN], report[CHEUKDANE_REPORT];
    for (uint32_t byte = 0; byte < 256; byte++) {
        const struct event behaviour = {CHEUKDANE_KIND_WRITE, 2, {CHEUKDANE_REGISTER_TS_CHARGING_BEHAVIOR_CONTROL, byte}};
        struct head head;
        start_after_the_example(&head);
        holds(does(&head, &behaviour, show) == 0, "any byte of 0x19 is taken");
        holds(sees(&head, 68250, 44750, show) == 0, "cool beside warm");
        holds(cheukdane_word(show, CHEUKDANE_SHOWN_PHASE) == ((byte & 3) == 3 ? 6u : 3u), "suspends while both bands are judged");
        holds(cheukdane_word(show, CHEUKDANE_SHOWN_CURRENT) == ((byte & 3) == 3 ? 0u : 1500u), "and then reports no current");
    }
    struct head head;
    start_after_the_example(&head);
    cheukdane_put_word(head.image, CHEUKDANE_BANDS, COOL);
    cheukdane_put_word(head.image, CHEUKDANE_BANDS + 1, WARM);
    uint32_t reported = cheukdane_report(head.image, sizeof head.image, report, sizeof report).number;
    holds(reported == 0, "an image may hold both in a phase that charges");
    holds(cheukdane_word(report, CHEUKDANE_REPORT_CURRENT) == 1500 && cheukdane_word(report, CHEUKDANE_REPORT_VOLTAGE) == 8400, "which has no share and no cut");
    for (uint32_t band = 0; band <= 8; band++) {
        for (size_t which = 0; which < 2; which++) {
            uint8_t image[CHEUKDANE_IMAGE];
            memcpy(image, head.image, sizeof image);
            cheukdane_put_word(image, CHEUKDANE_BANDS + which, band);
            uint32_t number = cheukdane_report(image, sizeof image, report, sizeof report).number;
            holds(number == (band < BANDS ? 0u : 5u), "and no thermistor is in a band above 4");
        }
    }
    shown(before, "cool beside warm suspends, and is a band of its own");
}

/* Kind 5 leaves nothing of a second thermistor that was seen before it. */
static void one_after_two(void) {
    int before = failures;
    const struct event one = {CHEUKDANE_KIND_OBSERVE, 6, {1000, 12000, 7600, 0, 55000, 0}};
    struct head head;
    uint8_t show[CHEUKDANE_SHOWN];
    start_after_the_example(&head);
    holds(sees(&head, 55000, MOST_TS, show) == 0, "the second thermistor is cold");
    holds(cheukdane_word(head.image, CHEUKDANE_SAMPLE + FIRST) == 55000, "the image has the first");
    holds(cheukdane_word(head.image, CHEUKDANE_SAMPLE + SECOND) == MOST_TS, "and right after it the second");
    holds(does(&head, &one, show) == 0, "an observation of one thermistor");
    holds(cheukdane_word(head.image, CHEUKDANE_SAMPLE + SECOND) == 55000, "stands for two equal ones");
    holds(in_bands(&head, NORMAL, NORMAL), "so that the band is its own");
    shown(before, "an observation of one thermistor after one of two");
}

/* Each thermistor's range is 0 to 100,000; in an image too. */
static void ranges(void) {
    int before = failures;
    const struct event service = {CHEUKDANE_KIND_SERVICE, 0, {0}};
    struct head head;
    uint8_t show[CHEUKDANE_SHOWN], kept[CHEUKDANE_IMAGE];
    start(&head);
    holds(sees(&head, 55000, MOST_TS + 1, show) == CHEUKDANE_REFUSED_NOT_POWERED, "6 before a power-on");
    start_after_the_example(&head);
    memcpy(kept, head.image, sizeof kept);
    holds(sees(&head, MOST_TS + 1, 55000, show) == CHEUKDANE_REFUSED_OUT_OF_RANGE, "a first TS above 100,000 is 5");
    holds(sees(&head, 55000, MOST_TS + 1, show) == CHEUKDANE_REFUSED_OUT_OF_RANGE, "and so is a second");
    holds(same(head.image, kept, sizeof kept), "both leave the model");
    holds(sees(&head, 0, MOST_TS, show) == 0 && sees(&head, MOST_TS, 0, show) == 0, "the ends are taken");
    cheukdane_put_word(head.image, CHEUKDANE_SAMPLE + SECOND, MOST_TS + 1);
    holds(does(&head, &service, show) == CHEUKDANE_REFUSED_OUT_OF_RANGE, "a model may not hold more");
    shown(before, "the ranges of two thermistors");
}

/* The record that is logged: the second TS stands before the bits. */
static void the_record(void) {
    int before = failures;
    const uint8_t wanted[] = {10, 0xE8, 0x07, 0xE0, 0x5D, 0xB0, 0x3B, 0xB4, 0x01, 0xD8, 0xAD, 0x03, 0xE0, 0xD7, 0x02, 0x00};
    const uint32_t most[7] = {0xFFFFFFFFu, 0xFFFFFFFFu, 0xFFFFFFFFu, 0xFFFFFFFFu, 0xFFFFFFFFu, 0xFFFFFFFFu, 0xFFFFFFFFu};
    struct head head;
    uint8_t show[CHEUKDANE_SHOWN], words[28], out[CHEUKDANE_RECORD];
    start_after_the_example(&head);
    size_t from = head.length;
    holds(sees(&head, 55000, 44000, show) == 0 && head.length == from + sizeof wanted, "an observation is logged");
    holds(same(head.log + from, wanted, sizeof wanted), "with the second TS right after the first");
    put_words(words, most, 7);
    holds(cheukdane_write(CHEUKDANE_KIND_OBSERVE_TWO, words, sizeof words, out, sizeof out).count == 36, "the longest has 36 bytes");
    holds(cheukdane_write(CHEUKDANE_KIND_OBSERVE_TWO, words, sizeof words, out, 35).number == CHEUKDANE_REFUSED_NO_ROOM, "and doesn't fit into 35");
    holds(cheukdane_write(CHEUKDANE_KIND_OBSERVE, words, sizeof words, out, sizeof out).number == CHEUKDANE_REFUSED_OUT_OF_RANGE, "kind 5 has six words");
    shown(before, "the record of two thermistors");
}

void show_thermistors(void) {
    every_pair_of_bands();
    cool_beside_warm();
    one_after_two();
    ranges();
    the_record();
}
