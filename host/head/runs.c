/* Runs of written bytes and reads of a flag register, as bring-up people give them; and which 5 is whose. */
#include "head.h"

#include <string.h>

enum { MOST_RUN = 32 };

/* Gives a run; an accepted one is logged. */
static uint32_t writes(struct head *head, uint32_t address, const uint8_t *bytes, uint32_t length, uint8_t *show) {
    uint8_t words[CHEUKDANE_RUN];
    cheukdane_put_run(words, address, bytes, length);
    return does_words(head, CHEUKDANE_KIND_WRITE_RUN, words, sizeof words, show);
}

static uint32_t reads_flags(struct head *head, uint32_t address, uint8_t *show) {
    const struct event event = {CHEUKDANE_KIND_READ_FLAGS, 1, {address}};
    return does(head, &event, show);
}

static uint32_t byte_at(const struct head *head, uint32_t address) {
    return cheukdane_register(head->image, sizeof head->image, address).byte;
}

static uint32_t setting(const struct head *head, size_t number) {
    return cheukdane_word(head->image, CHEUKDANE_SETTINGS + number - 1);
}

/* How a run's words are laid out, and its record. */
static void words_of_a_run(void) {
    int before = failures;
    const uint8_t bytes[MOST_RUN + 1] = {0xA0, 0x19, 0x40, 0x06, 5, 6, 7, 8, 9, 10, 11, 12, 13, 14, 15, 16, 17,
                                         18, 19, 20, 21, 22, 23, 24, 25, 26, 27, 28, 29, 30, 31, 32, 33};
    const uint8_t zeros[MOST_RUN] = {0};
    uint8_t words[CHEUKDANE_RUN + 1], out[CHEUKDANE_RECORD];
    for (uint32_t length = 0; length <= MOST_RUN + 1; length++) {
        uint32_t kept = length < MOST_RUN ? length : MOST_RUN;
        memset(words, 0xEE, sizeof words);
        cheukdane_put_run(words, 0x104, bytes, length);
        holds(cheukdane_word(words, 0) == 0x104 && cheukdane_word(words, 1) == length, "address and length");
        holds(same(words + 8, bytes, kept), "then the bytes as they are");
        holds(same(words + 8 + kept, zeros, MOST_RUN - kept) && words[CHEUKDANE_RUN] == 0xEE, "zeros, and nothing else");
        struct cheukdane_written written = cheukdane_write(CHEUKDANE_KIND_WRITE_RUN, words, CHEUKDANE_RUN, out, sizeof out);
        int spelt = length >= 1 && length <= MOST_RUN;
        holds(written.number == (spelt ? 0u : 5u) && written.count == (spelt ? 4 + length : 0u), "a record for lengths 1 to 32");
        holds(!spelt || (out[0] == 8 && out[1] == 0x84 && out[2] == 0x02 && out[3] == length && same(out + 4, bytes, length)),
              "kind, address, length, bytes");
    }
    cheukdane_put_run(words, 0x04, bytes, 4);
    holds(cheukdane_write(CHEUKDANE_KIND_WRITE_RUN, words, CHEUKDANE_RUN, out, 6).number == CHEUKDANE_REFUSED_NO_ROOM, "a run that doesn't fit is 12");
    words[8 + 4] = 1;
    holds(cheukdane_write(CHEUKDANE_KIND_WRITE_RUN, words, CHEUKDANE_RUN, out, 6).number == CHEUKDANE_REFUSED_OUT_OF_RANGE, "a byte past its length is 5, before 12");
    holds(cheukdane_write(CHEUKDANE_KIND_WRITE_RUN, words, CHEUKDANE_RUN - 4, out, sizeof out).number == CHEUKDANE_REFUSED_OUT_OF_RANGE, "a run of nine words is 5");
    shown(before, "a run's words, and its record");
}

/* A head whose bring-up types bytes, and one that plays its log. */
static void bytes_are_typed(void) {
    int before = failures;
    const uint8_t limits[4] = {0xA0, 0x19, 0x40, 0x06}; /* VREG 8,200 mV, IINDPM 2,000 mA */
    const uint8_t masks[2] = {0x81, 0x20};
    const uint8_t control[3] = {0x3F, 0x1D, 0x84};
    const uint8_t reset[1] = {0xBF};
    struct head head, other;
    uint8_t show[CHEUKDANE_SHOWN];
    start(&head);
    memcpy(head.log, EXAMPLE, sizeof EXAMPLE);
    head.length = play(&head, EXAMPLE, sizeof EXAMPLE, 0);
    holds(writes(&head, CHEUKDANE_REGISTER_VREG, limits, sizeof limits, show) == CHEUKDANE_ACCEPTED, "a run of two registers");
    holds(setting(&head, CHEUKDANE_SETTING_VREG) == 8200 && setting(&head, CHEUKDANE_SETTING_IINDPM) == 2000, "sets both");
    holds(cheukdane_word(show, CHEUKDANE_SHOWN_VOLTAGE) == 8200 && cheukdane_word(show, CHEUKDANE_SHOWN_LIMIT) == 2000, "and is shown");
    holds(writes(&head, CHEUKDANE_REGISTER_CHARGER_MASK, masks, sizeof masks, show) == CHEUKDANE_ACCEPTED, "masks are written");
    uint32_t masked = CHEUKDANE_FLAG_INPUT_GOOD | CHEUKDANE_FLAG_INPUT_LOST | CHEUKDANE_FLAG_PHASE | CHEUKDANE_FLAG_LIMIT;
    holds(setting(&head, CHEUKDANE_SETTING_MASKS) == masked, "PG_MASK masks two flags");
    holds(writes(&head, CHEUKDANE_REGISTER_PRECHARGE_AND_TERMINATION_CONTROL, control, sizeof control, show) == CHEUKDANE_ACCEPTED, "a service bit");
    holds(byte_at(&head, CHEUKDANE_REGISTER_CHARGER_CONTROL_1) == 0x80, "reads 0");
    uint32_t flag = byte_at(&head, CHEUKDANE_REGISTER_CHARGER_FLAG);
    holds(flag == 0x89 && byte_at(&head, CHEUKDANE_REGISTER_CHARGER_FLAG) == flag, "a plain read clears nothing");
    holds(reads_flags(&head, CHEUKDANE_REGISTER_CHARGER_FLAG, show) == CHEUKDANE_ACCEPTED, "an event that reads the register");
    holds(cheukdane_word(show, CHEUKDANE_SHOWN_HANDED) == flag && cheukdane_word(show, CHEUKDANE_SHOWN_FLAGS) == 0, "hands back its byte and clears it");
    holds(byte_at(&head, CHEUKDANE_REGISTER_CHARGER_FLAG) == 0, "so that it reads 0");
    holds(writes(&head, CHEUKDANE_REGISTER_PRECHARGE_AND_TERMINATION_CONTROL, reset, sizeof reset, show) == CHEUKDANE_ACCEPTED, "a reset bit");
    holds(setting(&head, CHEUKDANE_SETTING_VREG) == 8400 && setting(&head, CHEUKDANE_SETTING_MASKS) == 0, "restores the start values");
    start(&other);
    holds(play(&other, head.log, head.length, 0) == head.length, "its log is played whole");
    holds(same(head.image, other.image, sizeof head.image), "and leaves the same image");
    shown(before, "bytes that are typed: settings, masks, service, reset and flags");
}

/* Runs and reads that are refused leave the model. */
static void refused_runs(void) {
    int before = failures;
    static const struct {
        uint32_t address, length;
        uint8_t bytes[4];
        uint32_t number;
    } rows[] = {
        {0x15, 0, {0}, 5},
        {0x15, 33, {0}, 5},
        {0x15, 0xFFFFFFFFu, {0}, 5},
        {0x26, 2, {0}, 10},
        {0x27, 1, {0}, 10},
        {0xFFFFFFFFu, 2, {0}, 10},
        {0x115, 1, {0}, 10},
        {0x05, 1, {0x1A}, 15},
        {0x04, 1, {0x40}, 15},
        {0x03, 3, {0x04, 0x40, 0x1A}, 15},
        {0x23, 2, {0}, 15},
        {0x25, 2, {0}, 15},
        {0x16, 1, {0xE0}, 11},
        {0x16, 1, {0xE7}, 11},
        {0x04, 2, {0, 0}, 9},
        {0x0E, 2, {0x06, 0x00}, 9},
        {0x02, 4, {0xB0, 0x04, 0xFF, 0xFF}, 9},
        {0x0F, 2, {0x00, 0xBF}, 9},
    };
    uint8_t bytes[MOST_RUN + 1] = {0}, show[CHEUKDANE_SHOWN], kept[CHEUKDANE_IMAGE];
    struct head head;
    start(&head);
    for (size_t at = 0; at < sizeof rows / sizeof rows[0]; at++) {
        memcpy(bytes, rows[at].bytes, sizeof rows[at].bytes);
        holds(writes(&head, rows[at].address, bytes, rows[at].length, show) == CHEUKDANE_REFUSED_NOT_POWERED, "6 before a power-on");
    }
    play(&head, EXAMPLE, sizeof EXAMPLE, 0);
    memcpy(kept, head.image, sizeof kept);
    for (size_t at = 0; at < sizeof rows / sizeof rows[0]; at++) {
        memcpy(bytes, rows[at].bytes, sizeof rows[at].bytes);
        holds(writes(&head, rows[at].address, bytes, rows[at].length, show) == rows[at].number, "each refusal of a run by its number");
        holds(same(head.image, kept, sizeof kept), "none of its bytes is taken");
    }
    for (uint32_t address = 0; address <= 300; address++) {
        int flags = address == CHEUKDANE_REGISTER_CHARGER_FLAG || address == CHEUKDANE_REGISTER_FAULT_FLAG;
        holds(flags || reads_flags(&head, address, show) == CHEUKDANE_REFUSED_UNKNOWN_ADDRESS, "10 where there are no flags");
    }
    holds(same(head.image, kept, sizeof kept), "and nothing is cleared");
    shown(before, "refused runs are taken not at all");
}

/* A record whose run has a length that isn't 1 to 32, behind one that can be read; one that the model refuses with 5;
 * and bytes that aren't an image. */
static void whose_5_it_is(void) {
    int before = failures;
    const uint8_t length_33[] = {CHEUKDANE_KIND_SERVICE, CHEUKDANE_KIND_WRITE_RUN, 0x90, 0x02, 33, 1, 2};
    const uint8_t of_the_model[] = {CHEUKDANE_KIND_SERVICE, CHEUKDANE_KIND_WRITE, 0x15, 0x80, 0x02};
    struct head head;
    uint8_t show[CHEUKDANE_SHOWN], none[CHEUKDANE_IMAGE];
    start(&head);
    play(&head, EXAMPLE, sizeof EXAMPLE, 0);
    memset(none, 2, sizeof none);
    struct cheukdane_played played = cheukdane_play(head.image, sizeof head.image, length_33, sizeof length_33, 1, show, sizeof show);
    holds(played.number == 5 && played.kind == 0 && played.place == 4 && played.next == 1, "the reader's: kind 0, at the length");
    played = cheukdane_play(none, sizeof none, length_33, sizeof length_33, 1, show, sizeof show);
    holds(played.number == 5 && played.kind == 0 && played.place == 1 && played.next == 1, "the image's: kind 0, at the given place");
    played = cheukdane_play(head.image, sizeof head.image, of_the_model, sizeof of_the_model, 1, show, sizeof show);
    holds(played.number == 5 && played.kind == CHEUKDANE_KIND_WRITE && played.place == 1 && played.next == 5, "the model's: the record's kind");
    struct cheukdane_replayed replayed = cheukdane_replay(head.image, sizeof head.image, length_33, sizeof length_33, 0);
    holds(replayed.number == 0 && replayed.code == 5 && replayed.records == 1 && replayed.place == 4 && replayed.next == 1, "replayed, the reader's is the code");
    replayed = cheukdane_replay(none, sizeof none, length_33, sizeof length_33, 0);
    holds(replayed.number == 5 && replayed.code == 0 && replayed.place == 0 && replayed.next == 0, "and the image's the number");
    replayed = cheukdane_replay(head.image, sizeof head.image, of_the_model, sizeof of_the_model, 0);
    holds(replayed.number == 0 && replayed.code == 0 && replayed.records == 2, "the model's stops nothing");
    struct cheukdane_compared answer = cheukdane_compare(of_the_model, sizeof of_the_model, length_33, sizeof length_33);
    holds(answer.number == 5 && answer.record == 2 && answer.place == 4, "compared, it is the reader's");
    shown(before, "which 5 is whose");
}

void show_runs(void) {
    words_of_a_run();
    bytes_are_typed();
    refused_runs();
    whose_5_it_is();
}
