/* A power-on by the pins' resistors: every end of every span at every pin, and a model that is off. */
#include "head.h"

/* The least and the most ohms of codes 1 to 7, as the header lists them. */
static const uint32_t SPANS[7][2] = {{4548, 4732},   {5920, 6160},   {8085, 8415},  {10290, 10710},
                                     {13426, 13974}, {16562, 17238}, {26852, 27948}};

enum { PINS = 3, MOST_OHMS = 100000 };

static const struct event BY_CODES = {
    CHEUKDANE_KIND_POWER_ON, 10, {2, 5, 4, 6040, 0, 4500, 3600, 7200, 36000, 160}};
static const struct event BY_RESISTORS = {
    CHEUKDANE_KIND_POWER_ON_RESISTORS, 10, {6040, 13700, 10500, 6040, 0, 4500, 3600, 7200, 36000, 160}};

/* Whether a head whose pin has these ohms is in step with one whose pin has this code. */
static int stands_for(size_t pin, uint32_t ohms, uint32_t code) {
    struct head one, other;
    struct event by_code = BY_CODES, by_resistor = BY_RESISTORS;
    uint8_t show[CHEUKDANE_SHOWN], shown_by_resistor[CHEUKDANE_SHOWN];
    by_code.numbers[pin] = code;
    by_resistor.numbers[pin] = ohms;
    start(&one);
    start(&other);
    return does(&one, &by_code, show) == 0 && does(&other, &by_resistor, shown_by_resistor) == 0 &&
           same(one.image, other.image, sizeof one.image) && same(show, shown_by_resistor, sizeof show);
}

static void spans_of_resistors(void) {
    int before = failures;
    for (size_t pin = 0; pin < PINS; pin++) {
        for (uint32_t code = 1; code <= 7; code++) {
            uint32_t least = SPANS[code - 1][0], most = SPANS[code - 1][1];
            holds(stands_for(pin, least, code) && stands_for(pin, most, code), "each end of a span is its code's");
            holds(stands_for(pin, least - 1, 0) && stands_for(pin, most + 1, 0), "beside it is a pin fault");
        }
        holds(stands_for(pin, 0, 0) && stands_for(pin, MOST_OHMS, 0), "no ohms and 100,000 are a pin fault too");
    }
    shown(before, "a resistor stands for the code in whose span it lies, or for a pin fault");
}

/* Ohms above 100,000 are 5 and leave a model off; a power-on by resistors is never 6. */
static void before_a_power_on(void) {
    int before = failures;
    const struct event service = {CHEUKDANE_KIND_SERVICE, 0, {0}};
    const uint8_t off[CHEUKDANE_IMAGE] = {0};
    struct head head;
    uint8_t show[CHEUKDANE_SHOWN];
    start(&head);
    for (size_t pin = 0; pin < PINS; pin++) {
        struct event bad = BY_RESISTORS;
        bad.numbers[pin] = MOST_OHMS + 1;
        holds(does(&head, &bad, show) == CHEUKDANE_REFUSED_OUT_OF_RANGE, "ohms above 100,000 are 5");
        holds(same(head.image, off, sizeof off), "and leave a model off");
        holds(does(&head, &service, show) == CHEUKDANE_REFUSED_NOT_POWERED, "so that other events are still 6");
    }
    holds(does(&head, &BY_RESISTORS, show) == CHEUKDANE_ACCEPTED, "a power-on by resistors is none of them");
    holds(does(&head, &service, show) == CHEUKDANE_ACCEPTED, "and other events follow it");
    shown(before, "a power-on by resistors before any other");
}

void show_resistors(void) {
    spans_of_resistors();
    before_a_power_on();
}
