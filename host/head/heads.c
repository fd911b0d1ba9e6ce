/* Two heads over one log: in step, one that has missed records, and two that part. */
#include "head.h"

/* A morning at a head: a charge from short to done, settings, registers and flags. IBAT stands as it is logged: 180 is
 * 90 mA, 1 is -1 mA. */
static const struct event MORNING[] = {
    {CHEUKDANE_KIND_POWER_ON, 10, {2, 5, 4, 6040, 0xFFFFFF00u, 4500, 3600, 7200, 36000, 160}},
    {CHEUKDANE_KIND_OBSERVE, 6, {0xFFFFFFF0u, 12000, 3000, 180, 55000, 0}},
    {CHEUKDANE_KIND_OBSERVE, 6, {1000, 12000, 5000, 220, 55000, 4}},
    {CHEUKDANE_KIND_SET, 2, {2, 1000}},
    {CHEUKDANE_KIND_OBSERVE, 6, {60000, 12000, 7600, 1800, 69000, 0}},
    {CHEUKDANE_KIND_WRITE, 2, {0x1B, 0x40}},
    {CHEUKDANE_KIND_WRITE, 2, {0x1C, 0x08}},
    {CHEUKDANE_KIND_WRITE_RUN, 10, {0x0E, 3, 0x3F0406}},
    {CHEUKDANE_KIND_READ_FLAGS, 1, {0x20}},
    {CHEUKDANE_KIND_SERVICE, 0, {0}},
    {CHEUKDANE_KIND_TAKE_FLAGS, 0, {0}},
    {CHEUKDANE_KIND_OBSERVE_TWO, 7, {90000, 12000, 7900, 1800, 69000, 44000, 0}},
    {CHEUKDANE_KIND_OBSERVE, 6, {120000, 12000, 8395, 1000, 55000, 0}},
    {CHEUKDANE_KIND_OBSERVE, 6, {180000, 12000, 8400, 1, 55000, 0}},
    {CHEUKDANE_KIND_SET, 2, {14, 4095}},
    {CHEUKDANE_KIND_OBSERVE, 6, {240000, 2000, 8380, 599, 55000, 0}},
    {CHEUKDANE_KIND_OBSERVE, 6, {300000, 5000, 8000, 2000, 0, 32}},
    {CHEUKDANE_KIND_RESET, 0, {0}},
    {CHEUKDANE_KIND_TAKE_FLAGS, 0, {0}},
};
enum { EVENTS = sizeof MORNING / sizeof MORNING[0] };

/* The morning's power-on at a head that knows the pins' resistors and not their codes. */
static const struct event BY_RESISTORS = {
    CHEUKDANE_KIND_POWER_ON_RESISTORS, 10, {5920, 13974, 10500, 6040, 0xFFFFFF00u, 4500, 3600, 7200, 36000, 160}};

/* The same at a head whose log says the edition of the pack's sheet. */
static const struct event BY_EDITION = {
    CHEUKDANE_KIND_POWER_ON_EDITION, 11, {2, 5, 4, 6040, 0xFFFFFF00u, 4500, 3600, 7200, 36000, 160, 1}};

static void two_heads_in_step(void) {
    int before = failures;
    struct head one, other;
    uint8_t show[CHEUKDANE_SHOWN], played[CHEUKDANE_SHOWN];
    start(&one);
    start(&other);
    for (size_t at = 0; at < EVENTS; at++) {
        size_t place = one.length;
        holds(does(&one, &MORNING[at], show) == 0, "each event of the morning is accepted");
        struct cheukdane_played answer = cheukdane_play(other.image, sizeof other.image, one.log, one.length, place, played, sizeof played);
        holds(answer.number == 0 && answer.kind == MORNING[at].kind && answer.next == one.length, "the other head plays what the one has logged");
        holds(same(one.image, other.image, sizeof one.image), "the heads' images are equal after each record");
        holds(same(show, played, sizeof show), "and what they show is");
    }
    start(&other);
    holds(play(&other, one.log, one.length, 0) == one.length, "the whole log is played");
    holds(same(one.image, other.image, sizeof one.image), "a head that comes late is in step after the whole log");
    shown(before, "two heads stay in step, byte for byte, after every record");
}

static void a_charge_is_seen(void) {
    int before = failures;
    const uint32_t phases[EVENTS] = {0, 1, 2, 2, 3, 3, 3, 3, 3, 3, 3, 6, 4, 5, 5, 0, 7, 7, 7};
    struct head head;
    uint8_t show[CHEUKDANE_SHOWN];
    uint32_t held = 0;
    start(&head);
    for (size_t at = 0; at < EVENTS; at++) {
        does(&head, &MORNING[at], show);
        holds(cheukdane_word(show, CHEUKDANE_SHOWN_PHASE) == phases[at], "the phase after each event");
        holds(cheukdane_word(show, CHEUKDANE_SHOWN_LIMIT) == 551, "6,040 ohms give 551 mA");
        if (MORNING[at].kind == CHEUKDANE_KIND_TAKE_FLAGS) {
            holds(cheukdane_word(show, CHEUKDANE_SHOWN_HANDED) == held && cheukdane_word(show, CHEUKDANE_SHOWN_FLAGS) == 0, "the held flags are handed back and cleared");
        }
        held = cheukdane_word(show, CHEUKDANE_SHOWN_FLAGS);
    }
    shown(before, "a charge goes from short to done, suspended once, and a fault ends the next");
}

/* The two logs are compared and the rest of the longer is played; both images are then equal. */
static void a_head_catches_up(void) {
    int before = failures;
    uint8_t show[CHEUKDANE_SHOWN];
    for (size_t missed = 0; missed <= EVENTS; missed++) {
        struct head one, other;
        start(&one);
        start(&other);
        for (size_t at = 0; at < EVENTS; at++) {
            does(&one, &MORNING[at], show);
            if (at < EVENTS - missed) {
                does(&other, &MORNING[at], show);
            }
        }
        struct cheukdane_compared answer = cheukdane_compare(other.log, other.length, one.log, one.length);
        holds(answer.number == 0 && answer.log == (missed ? 2u : 1u) && answer.place == other.length, "what the head has missed is found");
        answer = cheukdane_compare(one.log, one.length, other.log, other.length);
        holds(answer.number == 0 && answer.log == 1 && answer.place == other.length, "and the other way round");
        play(&other, one.log, one.length, answer.place);
        holds(same(one.image, other.image, sizeof one.image), "a head that has caught up is in step");
    }
    shown(before, "a head that missed records is found and catches up from the rest");
}

/* One event in the middle is another at the second head. */
static void heads_that_part(void) {
    int before = failures;
    uint8_t show[CHEUKDANE_SHOWN];
    const struct event strange = {2, 2, {4, 100}};
    for (size_t parted = 1; parted < EVENTS; parted++) {
        struct head one, other;
        uint64_t place = 0;
        start(&one);
        start(&other);
        for (size_t at = 0; at < EVENTS; at++) {
            place = at == parted ? one.length : place;
            does(&one, &MORNING[at], show);
            does(&other, at == parted ? &strange : &MORNING[at], show);
        }
        struct cheukdane_compared answer = cheukdane_compare(one.log, one.length, other.log, other.length);
        holds(answer.number == CHEUKDANE_REFUSED_LOGS_PART && answer.log == 0 && answer.record == parted + 1 && answer.place == place, "14, with the record and where it starts");
    }
    shown(before, "two logs that part: 14, with record and offset");
}

/* One head is powered on by codes and the other as said, at the morning's start and again at its end. */
static void heads_by_codes_and_otherwise(const struct event *said, const char *what) {
    int before = failures;
    struct head one, other, late;
    uint8_t show[CHEUKDANE_SHOWN], shown_otherwise[CHEUKDANE_SHOWN];
    start(&one);
    start(&other);
    for (size_t at = 0; at <= EVENTS; at++) {
        const struct event *event = &MORNING[at % EVENTS];
        int powers = event->kind == CHEUKDANE_KIND_POWER_ON;
        holds(does(&one, event, show) == 0, "the head by codes accepts each event");
        holds(does(&other, powers ? said : event, shown_otherwise) == 0, "and so does the other head");
        holds(same(one.image, other.image, sizeof one.image), "their images are equal after each event");
        holds(same(show, shown_otherwise, sizeof show), "and what they show is");
    }
    struct cheukdane_compared answer = cheukdane_compare(one.log, one.length, other.log, other.length);
    holds(answer.number == CHEUKDANE_REFUSED_LOGS_PART && answer.record == 1 && answer.place == 0,
          "their logs part all the same: records are compared as they are");
    start(&late);
    play(&late, other.log, other.length, 0);
    holds(same(one.image, late.image, sizeof one.image), "a head that plays the other's log is in step with both");
    shown(before, what);
}

/* The event of two equal thermistors that stands for a morning's event of one; any other event as it is. */
static struct event of_two(const struct event *event) {
    struct event two = *event;
    if (event->kind == CHEUKDANE_KIND_OBSERVE) {
        two.kind = CHEUKDANE_KIND_OBSERVE_TWO;
        two.count = 7;
        two.numbers[5] = event->numbers[4];
        two.numbers[6] = event->numbers[5];
    }
    return two;
}

/* One head's pack has one thermistor and the other's has two that are equal. */
static void heads_of_one_thermistor_and_of_two(void) {
    int before = failures;
    struct head one, other, late;
    uint8_t show[CHEUKDANE_SHOWN], by_two[CHEUKDANE_SHOWN];
    start(&one);
    start(&other);
    for (size_t at = 0; at < EVENTS; at++) {
        struct event two = of_two(&MORNING[at]);
        holds(does(&one, &MORNING[at], show) == 0, "the head of one thermistor accepts each event");
        holds(does(&other, &two, by_two) == 0, "and so does the head of two");
        holds(same(one.image, other.image, sizeof one.image), "their images are equal after each event");
        holds(same(show, by_two, sizeof show), "and what they show is");
    }
    struct cheukdane_compared answer = cheukdane_compare(one.log, one.length, other.log, other.length);
    holds(answer.number == CHEUKDANE_REFUSED_LOGS_PART && answer.record == 2, "their logs part at the first observation");
    start(&late);
    play(&late, other.log, other.length, 0);
    holds(same(one.image, late.image, sizeof one.image), "a head that plays the log of two is in step with both");
    shown(before, "a head of two equal thermistors is in step with one of one");
}

void show_two_heads(void) {
    two_heads_in_step();
    a_charge_is_seen();
    a_head_catches_up();
    heads_that_part();
    heads_by_codes_and_otherwise(&BY_RESISTORS, "a head powered on by resistors is in step with one by codes");
    heads_by_codes_and_otherwise(&BY_EDITION, "a head that says the first edition is in step with one that says none");
    heads_of_one_thermistor_and_of_two();
}
