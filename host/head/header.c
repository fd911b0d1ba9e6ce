/* What the header itself does: the rules' number, IBAT, words, and the image's format. */
#include "head.h"

#include <string.h>

static void rules_and_ibat(void) {
    int before = failures;
    int32_t current = 90;
    holds(cheukdane_rules() == CHEUKDANE_RULES, "header and archive have the same rules");
    holds(CHEUKDANE_IBAT(current++) == 180 && current == 91, "IBAT's argument is evaluated once");
    holds(CHEUKDANE_IBAT(0) == 0 && CHEUKDANE_IBAT(-1) == 1 && CHEUKDANE_IBAT(-300) == 599, "IBAT as it is logged");
    holds(CHEUKDANE_IBAT(INT32_MAX) == 0xFFFFFFFEu && CHEUKDANE_IBAT(INT32_MIN) == 0xFFFFFFFFu, "at its ends too");
    shown(before, "the rules' number, and IBAT");
}

static void words(void) {
    int before = failures;
    const uint8_t wanted[8] = {0xEE, 0xEE, 0xEE, 0xEE, 0x78, 0x56, 0x34, 0x92};
    uint8_t bytes[8];
    memset(bytes, 0xEE, sizeof bytes);
    cheukdane_put_word(bytes, 1, 0x92345678u);
    holds(same(bytes, wanted, sizeof bytes), "a word is stored lowest byte first, and nothing else");
    holds(cheukdane_word(bytes, 1) == 0x92345678u, "and read back");
    shown(before, "words are read and stored");
}

/* An image whose word 0 is another number than 0 and the format is 5, on or off: of an older format too. */
static void other_formats(void) {
    int before = failures;
    struct head head;
    uint8_t report[CHEUKDANE_REPORT];
    start(&head);
    for (int on = 0; on < 2; on++) {
        for (uint32_t bit = 0; bit < 32; bit++) {
            uint8_t image[CHEUKDANE_IMAGE];
            memcpy(image, head.image, sizeof image);
            cheukdane_put_word(image, 0, CHEUKDANE_FORMAT ^ 1u << bit);
            int off = cheukdane_word(image, 0) == 0 && !on;
            uint32_t wanted = off ? CHEUKDANE_REFUSED_NOT_POWERED : CHEUKDANE_REFUSED_OUT_OF_RANGE;
            holds(cheukdane_report(image, sizeof image, report, sizeof report).number == wanted, "another format is 5");
        }
        for (uint32_t older = 1; older < CHEUKDANE_FORMAT; older++) {
            uint8_t image[CHEUKDANE_IMAGE];
            memcpy(image, head.image, sizeof image);
            cheukdane_put_word(image, 0, older);
            uint32_t number = cheukdane_report(image, sizeof image, report, sizeof report).number;
            holds(number == CHEUKDANE_REFUSED_OUT_OF_RANGE, "an older format is 5");
        }
        play(&head, EXAMPLE, sizeof EXAMPLE, 0);
    }
    uint8_t zeroed[CHEUKDANE_IMAGE] = {0};
    uint32_t number = cheukdane_report(zeroed, sizeof zeroed, report, sizeof report).number;
    holds(number == CHEUKDANE_REFUSED_NOT_POWERED, "zeroed bytes are a model that is off");
    shown(before, "an image of another format is 5, zeroed bytes are off");
}

void show_the_header(void) {
    rules_and_ibat();
    words();
    other_formats();
}
