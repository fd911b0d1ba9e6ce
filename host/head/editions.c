/* The pack sheet's editions: what the second holds of each thermistor's band and the first doesn't, what ends a hold,
 * and what is refused. */
#include "head.h"

#include <string.h>

enum { MIDDLE = 55000, EDITION = 10 };
enum {
    NORMAL = CHEUKDANE_BAND_NORMAL,
    COLD = CHEUKDANE_BAND_COLD,
    HOT = CHEUKDANE_BAND_HOT,
    COOL = CHEUKDANE_BAND_COOL,
    WARM = CHEUKDANE_BAND_WARM
};

/* A power-on of this edition. */
static struct event power_on(uint32_t edition) {
    const struct event event = {
        CHEUKDANE_KIND_POWER_ON_EDITION, 11, {2, 5, 4, 0, 0, 4500, 3600, 7200, 36000, 0, edition}};
    return event;
}

/* Does an event that is accepted. */
static void takes(struct head *head, uint32_t kind, size_t count, uint32_t first, uint32_t second) {
    const struct event event = {kind, count, {first, second}};
    uint8_t show[CHEUKDANE_SHOWN];
    holds(does(head, &event, show) == CHEUKDANE_ACCEPTED, "the event is accepted");
}

static void writes(struct head *head, uint32_t address, uint32_t byte) {
    takes(head, CHEUKDANE_KIND_WRITE, 2, address, byte);
}

/* Observes two thermistors of a battery that charges fast. */
static void sees(struct head *head, uint32_t first, uint32_t second) {
    const struct event event = {
        CHEUKDANE_KIND_OBSERVE_TWO, 7, {1000, 12000, 7600, CHEUKDANE_IBAT(90), first, second, 0}};
    uint8_t show[CHEUKDANE_SHOWN];
    holds(does(head, &event, show) == CHEUKDANE_ACCEPTED, "the observation is accepted");
}

/* A head that is powered on with an edition. */
static void start_with(struct head *head, uint32_t edition) {
    const struct event event = power_on(edition);
    uint8_t show[CHEUKDANE_SHOWN];
    start(head);
    holds(does(head, &event, show) == CHEUKDANE_ACCEPTED, "a power-on with an edition is accepted");
    holds(cheukdane_word(head->image, CHEUKDANE_PROFILE + EDITION) == edition, "the image has its edition");
    holds(in_bands(head, NORMAL, NORMAL), "both thermistors start in the normal band");
}

/* A TS that enters a band, the next one, and the band after it by the second edition and by the first; by the
 * registers' resets: TH1 75,320, TH2 68,250, TH3 44,750, TH5 34,375. */
static const struct {
    uint32_t entered, next, second, first;
} HOLDS[] = {
    {75320, 75319, COLD, COOL},     {75320, 74321, COLD, COOL},   {75320, 74320, COOL, COOL},
    {75320, 67251, NORMAL, NORMAL}, {75320, 44750, WARM, WARM},   {75320, 34375, HOT, HOT},
    {34375, 34376, HOT, WARM},      {34375, 35374, HOT, WARM},    {34375, 35375, WARM, WARM},
    {34375, 45749, NORMAL, NORMAL}, {34375, 68250, COOL, COOL},   {34375, 75320, COLD, COLD},
    {68250, 68249, COOL, NORMAL},   {68250, 67251, COOL, NORMAL}, {68250, 67250, NORMAL, NORMAL},
    {68250, 75319, COOL, COOL},     {68250, 75320, COLD, COLD},   {68250, 34375, HOT, HOT},
    {44750, 44751, WARM, NORMAL},   {44750, 45749, WARM, NORMAL}, {44750, 45750, NORMAL, NORMAL},
    {44750, 34376, WARM, WARM},     {44750, 34375, HOT, HOT},     {44750, 75320, COLD, COLD},
    {68249, 67500, NORMAL, NORMAL}, {44751, 45000, NORMAL, NORMAL},
};
enum { ROWS = sizeof HOLDS / sizeof HOLDS[0] };

/* Each row by either thermistor alone, beside one that is normal, and by both. */
static void holds_of_either_edition(void) {
    int before = failures;
    for (size_t row = 0; row < ROWS; row++) {
        for (uint32_t edition = 1; edition <= 2; edition++) {
            uint32_t band = edition == 2 ? HOLDS[row].second : HOLDS[row].first;
            struct head head;
            start_with(&head, edition);
            sees(&head, HOLDS[row].entered, MIDDLE);
            sees(&head, HOLDS[row].next, MIDDLE);
            holds(in_bands(&head, band, NORMAL), "the first thermistor's band, by the edition");
            sees(&head, MIDDLE, HOLDS[row].entered);
            sees(&head, MIDDLE, HOLDS[row].next);
            holds(in_bands(&head, NORMAL, band), "the second's");
            sees(&head, HOLDS[row].entered, HOLDS[row].entered);
            sees(&head, HOLDS[row].next, HOLDS[row].next);
            holds(in_bands(&head, band, band), "and both");
        }
    }
    shown(before, "what the second edition holds and the first doesn't, by either thermistor");
}

/* A TS that enters a band, the last at which it is held, the band, and what the first edition says of that TS. */
static const struct {
    uint32_t entered, last, band, fresh;
} HELD[] = {{75320, 74321, COLD, COOL},
            {34375, 35374, HOT, WARM},
            {68250, 67251, COOL, NORMAL},
            {44750, 45749, WARM, NORMAL}};
enum { BANDS = sizeof HELD / sizeof HELD[0] };

/* A head in which a hold alone keeps both thermistors' bands. */
static void start_held(struct head *head, size_t at) {
    start_with(head, 2);
    sees(head, HELD[at].entered, HELD[at].entered);
    sees(head, HELD[at].last, HELD[at].last);
    holds(in_bands(head, HELD[at].band, HELD[at].band), "both bands are held");
}

/* EN_TS 0 ends any hold, EN_JEITA 0 that of cool and warm; what has ended doesn't come back. */
static void switches_end_holds(void) {
    int before = failures;
    for (size_t at = 0; at < BANDS; at++) {
        uint32_t band = HELD[at].band, fresh = HELD[at].fresh;
        int stays = band == COLD || band == HOT;
        struct head head;
        start_held(&head, at);
        writes(&head, CHEUKDANE_REGISTER_TS_CHARGING_BEHAVIOR_CONTROL, 0xD6);
        holds(in_bands(&head, NORMAL, NORMAL), "EN_TS 0 ends any hold");
        writes(&head, CHEUKDANE_REGISTER_TS_CHARGING_BEHAVIOR_CONTROL, 0xD7);
        holds(in_bands(&head, fresh, fresh), "and it doesn't come back");
        start_held(&head, at);
        writes(&head, CHEUKDANE_REGISTER_TS_CHARGING_BEHAVIOR_CONTROL, 0xD5);
        holds(in_bands(&head, stays ? band : NORMAL, stays ? band : NORMAL), "EN_JEITA 0 ends that of cool and warm");
        writes(&head, CHEUKDANE_REGISTER_TS_CHARGING_BEHAVIOR_CONTROL, 0xD7);
        holds(in_bands(&head, stays ? band : fresh, stays ? band : fresh), "and of no other");
    }
    shown(before, "EN_TS and EN_JEITA end holds");
}

/* A hold outlasts every event that moves neither TS nor thresholds, a register reset too; a power-on ends it. */
static void holds_outlast_events(void) {
    int before = failures;
    for (size_t at = 0; at < BANDS; at++) {
        struct head head;
        start_held(&head, at);
        takes(&head, CHEUKDANE_KIND_SERVICE, 0, 0, 0);
        takes(&head, CHEUKDANE_KIND_TAKE_FLAGS, 0, 0, 0);
        takes(&head, CHEUKDANE_KIND_READ_FLAGS, 1, CHEUKDANE_REGISTER_CHARGER_FLAG, 0);
        takes(&head, CHEUKDANE_KIND_SET, 2, CHEUKDANE_SETTING_ITERM, 60);
        writes(&head, CHEUKDANE_REGISTER_CHARGER_CONTROL_4, 0);
        takes(&head, CHEUKDANE_KIND_RESET, 0, 0, 0);
        holds(in_bands(&head, HELD[at].band, HELD[at].band), "what is held outlasts them all");
        const struct event again = power_on(2);
        uint8_t show[CHEUKDANE_SHOWN];
        holds(does(&head, &again, show) == CHEUKDANE_ACCEPTED, "but not a power-on");
        holds(in_bands(&head, NORMAL, NORMAL), "which starts with normal");
    }
    shown(before, "a hold outlasts other events, and no power-on");
}

/* A TS, its band by the resets of 0x18, another byte of it, and the band once that is written: of each threshold the
 * last TS that it holds, and one further. */
static void thresholds_as_they_stand(void) {
    int before = failures;
    const struct {
        uint32_t ts, entered, byte, band;
    } moves[] = {
        {76151, COLD, 0x94, COLD}, {76150, COLD, 0x94, COOL},   {32249, HOT, 0xD5, HOT},
        {32250, HOT, 0xD5, WARM},  {69901, COOL, 0x91, COOL},   {69900, COOL, 0x91, NORMAL},
        {42199, WARM, 0xA5, WARM}, {42200, WARM, 0xA5, NORMAL},
    };
    for (size_t at = 0; at < sizeof moves / sizeof moves[0]; at++) {
        struct head head;
        start_with(&head, 2);
        sees(&head, moves[at].ts, moves[at].ts);
        holds(in_bands(&head, moves[at].entered, moves[at].entered), "each is in its band");
        writes(&head, CHEUKDANE_REGISTER_TS_CHARGING_THRESHOLD_CONTROL, moves[at].byte);
        holds(in_bands(&head, moves[at].band, moves[at].band), "a hold goes by the threshold as it stands");
        takes(&head, CHEUKDANE_KIND_RESET, 0, 0, 0);
        holds(in_bands(&head, moves[at].entered, moves[at].entered), "and a reset's counts at once");
    }
    shown(before, "a hold goes by the thresholds as they stand");
}

/* Two heads over the same events, of one edition each: the one holds, goes on suspended and has no flag 7. */
static void heads_of_two_editions(void) {
    int before = failures;
    const struct event cold = {CHEUKDANE_KIND_OBSERVE, 6, {1000, 12000, 7600, 0, 75320, 0}};
    const struct event back = {CHEUKDANE_KIND_OBSERVE, 6, {2000, 12000, 7600, 0, 74321, 0}};
    const struct event left = {CHEUKDANE_KIND_OBSERVE, 6, {3000, 12000, 7600, 0, 74320, 0}};
    struct head one, other;
    uint8_t show[CHEUKDANE_SHOWN];
    start_with(&one, 1);
    start_with(&other, 2);
    holds(does(&one, &cold, show) == 0 && cheukdane_word(show, CHEUKDANE_SHOWN_PHASE) == 6, "cold suspends the one");
    holds(does(&other, &cold, show) == 0 && cheukdane_word(show, CHEUKDANE_SHOWN_PHASE) == 6, "and the other");
    takes(&one, CHEUKDANE_KIND_TAKE_FLAGS, 0, 0, 0);
    takes(&other, CHEUKDANE_KIND_TAKE_FLAGS, 0, 0, 0);
    holds(does(&one, &back, show) == 0 && cheukdane_word(show, CHEUKDANE_SHOWN_PHASE) == 3, "the first charges");
    holds((cheukdane_word(show, CHEUKDANE_SHOWN_FLAGS) & CHEUKDANE_FLAG_BAND) != 0, "and has flag 7");
    holds(does(&other, &back, show) == 0 && cheukdane_word(show, CHEUKDANE_SHOWN_PHASE) == 6, "the second doesn't");
    holds(cheukdane_word(show, CHEUKDANE_SHOWN_FLAGS) == 0, "and has no flag");
    holds(does(&other, &left, show) == 0 && cheukdane_word(show, CHEUKDANE_SHOWN_PHASE) == 3, "until TS is 1,000 back");
    holds((cheukdane_word(show, CHEUKDANE_SHOWN_FLAGS) & CHEUKDANE_FLAG_BAND) != 0, "with flag 7");
    holds(in_bands(&one, COOL, COOL) && in_bands(&other, COOL, COOL), "both are cool then");
    shown(before, "two heads of one edition each over the same events");
}

/* The edition is 1 or 2; in an image too. */
static void editions_that_are_none(void) {
    int before = failures;
    const uint32_t none[] = {0, 3, 4, 256, 257, 258, 0x80000001u, 0x80000002u, 0xFFFFFFFFu};
    const struct event service = {CHEUKDANE_KIND_SERVICE, 0, {0}};
    const uint8_t off[CHEUKDANE_IMAGE] = {0};
    struct head head;
    uint8_t show[CHEUKDANE_SHOWN], report[CHEUKDANE_REPORT];
    for (size_t at = 0; at < sizeof none / sizeof none[0]; at++) {
        const struct event bad = power_on(none[at]);
        start(&head);
        holds(does(&head, &bad, show) == CHEUKDANE_REFUSED_OUT_OF_RANGE, "another edition is 5");
        holds(same(head.image, off, sizeof off), "and leaves a model off");
        start_with(&head, 2);
        holds(does(&head, &bad, show) == CHEUKDANE_REFUSED_OUT_OF_RANGE, "also at a later power-on");
        cheukdane_put_word(head.image, CHEUKDANE_PROFILE + EDITION, none[at]);
        holds(does(&head, &service, show) == CHEUKDANE_REFUSED_OUT_OF_RANGE, "a model may not hold another");
        uint32_t number = cheukdane_report(head.image, sizeof head.image, report, sizeof report).number;
        holds(number == CHEUKDANE_ACCEPTED, "though it is an image, and reports");
    }
    shown(before, "editions that are none");
}

/* The record that is logged: kind 1's numbers, then the edition. */
static void the_record(void) {
    int before = failures;
    const uint8_t wanted[] = {11, 2, 5, 4, 0, 0, 0x94, 0x23, 0x90, 0x1C, 0xA0, 0x38, 0xA0, 0x99, 0x02, 0, 2};
    struct head head, late;
    start_with(&head, 2);
    holds(head.length == sizeof wanted && same(head.log, wanted, sizeof wanted), "the edition stands at its end");
    sees(&head, 75320, MIDDLE);
    sees(&head, 74321, MIDDLE);
    start(&late);
    play(&late, head.log, head.length, 0);
    holds(same(head.image, late.image, sizeof head.image), "a head that plays the log holds the same");
    struct cheukdane_compared answer = cheukdane_compare(head.log, head.length, EXAMPLE, sizeof EXAMPLE);
    holds(answer.number == CHEUKDANE_REFUSED_LOGS_PART && answer.record == 1, "and it parts from a log of kind 1");
    shown(before, "the record of a power-on with an edition");
}

void show_editions(void) {
    holds_of_either_edition();
    switches_end_holds();
    holds_outlast_events();
    thresholds_as_they_stand();
    heads_of_two_editions();
    editions_that_are_none();
    the_record();
}
