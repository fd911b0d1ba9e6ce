/* The paper's example log: its lines, replayed whole and as it grows, and all that can be read of the model after it. */
#include "head.h"

#include <inttypes.h>
#include <stdio.h>
#include <string.h>

enum { LINES_ROOM = 256 };

/* The paper's example log. */
const uint8_t EXAMPLE[28] = {0x01, 0x02, 0x05, 0x04, 0x00, 0x00, 0x94, 0x23, 0x90, 0x1C, 0xA0, 0x38, 0xA0, 0x99,
                                    0x02, 0x00, 0x05, 0xE8, 0x07, 0xE0, 0x5D, 0xB0, 0x3B, 0x00, 0xD8, 0xAD, 0x03, 0x00};

/* And the lines that the paper gives for it. */
static const char EXAMPLE_LINES[] = "1 1 0 0 0 0 3300 1 32\n"
                                    "2 5 0 3 1500 8400 3300 1 97\n"
                                    "end 2 0 28\n";

static size_t line(char *lines, size_t used, unsigned number, struct cheukdane_played played, const uint8_t *show) {
    int more = snprintf(lines + used, LINES_ROOM - used, "%u %" PRIu32 " %" PRIu32 " %" PRIu32 " %" PRIu32 " %" PRIu32 " %" PRIu32 " %" PRIu32 " %" PRIu32 "\n",
                        number, played.kind, played.number, cheukdane_word(show, 0), cheukdane_word(show, 1), cheukdane_word(show, 2), cheukdane_word(show, 3), cheukdane_word(show, 4), cheukdane_word(show, 5));
    return used + (size_t)more;
}

static void the_example(void) {
    int before = failures;
    struct head head;
    uint8_t show[CHEUKDANE_SHOWN];
    char lines[LINES_ROOM];
    size_t used = 0, place = 0;
    unsigned number = 0;
    start(&head);
    for (;;) {
        struct cheukdane_played played = cheukdane_play(head.image, sizeof head.image, EXAMPLE, sizeof EXAMPLE, place, show, sizeof show);
        if (played.kind == 0 || played.next <= place) {
            snprintf(lines + used, LINES_ROOM - used, "end %u %" PRIu32 " %" PRIu64 "\n", number, played.number, played.place);
            break;
        }
        used = line(lines, used, ++number, played, show);
        place = played.next;
    }
    holds(strcmp(lines, EXAMPLE_LINES) == 0, "the example log's lines");
    shown(before, "the paper's example log gives the paper's lines");
}

/* The same log in one call. */
static void the_example_replayed(void) {
    int before = failures;
    struct head one, other;
    start(&one);
    start(&other);
    play(&one, EXAMPLE, sizeof EXAMPLE, 0);
    struct cheukdane_replayed replayed = cheukdane_replay(other.image, sizeof other.image, EXAMPLE, sizeof EXAMPLE, 0);
    holds(replayed.number == 0 && replayed.records == 2 && replayed.code == 0 && replayed.place == sizeof EXAMPLE, "the numbers of the example's last line");
    holds(replayed.next == sizeof EXAMPLE, "and where to go on is the log's end");
    holds(same(one.image, other.image, sizeof one.image), "replayed, it leaves the same image");
    replayed = cheukdane_replay(other.image, sizeof other.image - 1, EXAMPLE, sizeof EXAMPLE, 16);
    holds(replayed.number == 5 && replayed.records == 0 && replayed.place == 16 && replayed.next == 16, "bytes that aren't an image are 5");
    holds(same(one.image, other.image, sizeof one.image), "and stay");
    shown(before, "the example log replayed in one call");
}

/* The same log as it is being written: a head replays it after every byte, from where it was told to go on. */
static void the_example_as_it_grows(void) {
    int before = failures;
    struct head one, other;
    uint64_t next = 0, records = 0;
    start(&one);
    start(&other);
    play(&one, EXAMPLE, sizeof EXAMPLE, 0);
    for (size_t length = 0; length <= sizeof EXAMPLE; length++) {
        struct cheukdane_replayed replayed = cheukdane_replay(other.image, sizeof other.image, EXAMPLE, length, (size_t)next);
        size_t from = length < 16 ? 0 : length < sizeof EXAMPLE ? 16 : sizeof EXAMPLE;
        uint32_t wanted = length == from ? CHEUKDANE_ACCEPTED : CHEUKDANE_REFUSED_ENDS_INSIDE;
        holds(replayed.number == 0 && replayed.code == wanted && replayed.place == length, "it ends at a record's end, or inside one: 1 at the log's end");
        holds(replayed.next == from, "where to go on is where the record starts that isn't whole yet");
        next = replayed.next;
        records += replayed.records;
    }
    holds(records == 2 && same(one.image, other.image, sizeof one.image), "both records are played once, and the image is the same");
    shown(before, "the example log caught up with while it is being written");
}

/* What the example leaves: report, STAT and the image's words. */
static void what_is_read(void) {
    int before = failures;
    struct head head;
    uint8_t report[CHEUKDANE_REPORT];
    const uint32_t wanted[6] = {3, 1500, 8400, 3300, 97, 0};
    start(&head);
    holds(cheukdane_report(head.image, sizeof head.image, report, sizeof report).number == 6, "no report before a power-on");
    play(&head, EXAMPLE, sizeof EXAMPLE, 0);
    holds(cheukdane_report(head.image, sizeof head.image, report, sizeof report).number == 0, "a report after it");
    for (size_t at = 0; at < 6; at++) {
        holds(cheukdane_word(report, at) == wanted[at], "each of the report's numbers");
    }
    holds(cheukdane_word(head.image, 0) == CHEUKDANE_FORMAT, "the image has this format");
    holds(cheukdane_word(head.image, CHEUKDANE_PHASE) == CHEUKDANE_PHASE_FAST, "the image is in phase 3");
    holds(cheukdane_word(head.image, CHEUKDANE_SETTINGS) == 8400, "the image's VREG");
    holds(cheukdane_word(head.image, CHEUKDANE_SAMPLE) == 1000, "the image's last stamp");
    holds(in_bands(&head, CHEUKDANE_BAND_NORMAL, CHEUKDANE_BAND_NORMAL), "both thermistors are in the normal band");
    holds(cheukdane_word(head.image, CHEUKDANE_PROFILE + 10) == 1, "the image's edition is the first");
    holds(cheukdane_word(head.image, CHEUKDANE_FLAGS) == 97, "the image's flags");
    shown(before, "report, STAT and image after it");
}

void show_the_example(void) {
    the_example();
    the_example_replayed();
    the_example_as_it_grows();
    what_is_read();
}
