/* Bytes that aren't an image, or are of another length. */
#include "head.h"

#include <string.h>

/* Lends bytes to every call that takes an image; none may change if all are refused. Gives whether the event was. */
static int refused(uint8_t *image, size_t length, uint32_t *number) {
    uint8_t kept[2 * CHEUKDANE_IMAGE], show[CHEUKDANE_SHOWN], report[CHEUKDANE_REPORT];
    if (length) {
        memcpy(kept, image, length);
    }
    struct cheukdane_answer reported = cheukdane_report(image, length, report, sizeof report);
    struct cheukdane_byte byte = cheukdane_register(image, length, 0x16);
    holds(reported.number == byte.number, "report and register refuse alike");
    struct cheukdane_answer answer = cheukdane_event(image, length, 6, NULL, 0, show, sizeof show);
    *number = answer.number;
    holds(answer.place == 0 && reported.place == 0 && byte.place == 0, "outside a log the place is 0");
    if (answer.number != 0) {
        holds(length == 0 || same(image, kept, length), "a refusal leaves every byte");
    }
    return answer.number != 0;
}

static void bad_images(void) {
    int before = failures;
    struct head head;
    uint32_t number;
    start(&head);
    play(&head, EXAMPLE, sizeof EXAMPLE, 0);
    for (size_t at = 0; at < CHEUKDANE_IMAGE; at++) {
        for (unsigned flip = 1; flip < 256; flip++) {
            uint8_t image[CHEUKDANE_IMAGE];
            memcpy(image, head.image, sizeof image);
            image[at] ^= (uint8_t)flip;
            if (refused(image, sizeof image, &number)) {
                holds(number == 5, "an image that isn't one is 5");
            }
        }
    }
    uint8_t image[CHEUKDANE_IMAGE] = {0};
    for (size_t at = 1; at < CHEUKDANE_IMAGE; at++) {
        image[at] = 1;
        holds(refused(image, sizeof image, &number) && number == 5, "off with a word that isn't 0 is 5");
        image[at] = 0;
    }
    holds(refused(image, sizeof image, &number) && number == 6, "an image that is off is 6");
    shown(before, "every byte of an image flipped in every way");
}

static void lengths_of_images(void) {
    int before = failures;
    uint8_t image[2 * CHEUKDANE_IMAGE] = {0};
    uint32_t number;
    for (size_t length = 0; length <= sizeof image; length++) {
        uint8_t *lent = length ? image : NULL;
        uint32_t wanted = length == CHEUKDANE_IMAGE ? 0 : 5;
        holds(cheukdane_off(lent, length).number == wanted, "off takes an image's length alone");
        holds(refused(lent, length, &number) && number == (wanted ? 5u : 6u), "and so does every call");
    }
    shown(before, "images of every length, and NULL, 0");
}

void show_bad_images(void) {
    bad_images();
    lengths_of_images();
}
