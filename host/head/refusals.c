/* Logs that break off, buffers that are too short, and events that are refused. */
#include "head.h"

#include <string.h>

static void logs_that_break_off(void) {
    int before = failures;
    struct head head;
    uint8_t show[CHEUKDANE_SHOWN];
    start(&head);
    for (size_t length = 0; length < sizeof EXAMPLE; length++) {
        struct cheukdane_compared answer = cheukdane_compare(EXAMPLE, length, EXAMPLE, sizeof EXAMPLE);
        int whole = length == 0 || length == 16;
        holds(answer.number == (whole ? 0u : 1u) && answer.place == length, "a log that ends inside a record is 1, at its end");
        uint64_t from = length < 16 ? 0 : 16;
        struct cheukdane_played played = cheukdane_play(head.image, sizeof head.image, EXAMPLE, length, (size_t)from, show, sizeof show);
        holds(played.kind != 0 || (played.number == (whole ? 0u : 1u) && played.place == length && played.next == from), "and so it is played, and goes on at the record's start");
    }
    holds(cheukdane_compare(NULL, 0, NULL, 0).number == 0, "two logs that are NULL, 0 are equal");
    holds(cheukdane_compare(NULL, 0, EXAMPLE, sizeof EXAMPLE).log == 2, "and one is the start of any");
    holds(cheukdane_play(head.image, sizeof head.image, NULL, 0, 0, show, sizeof show).kind == 0, "and has no record");
    shown(before, "logs that break off, and empty ones");
}

/* A record that can't be read, behind one that can: its number, and the place of what decided it. */
static const struct {
    uint8_t log[9];
    uint32_t number;
    uint64_t place;
} UNREADABLE[] = {
    {{CHEUKDANE_KIND_SERVICE, 5, 1, 2, 3, 4, 5, 0x80, 0x80}, CHEUKDANE_REFUSED_ENDS_INSIDE, 9},
    {{CHEUKDANE_KIND_SERVICE, 2, 0x80, 0x00, 0x80, 0x00, 0x00, 0x00, 0x00}, CHEUKDANE_REFUSED_ZERO_GROUP, 3},
    {{CHEUKDANE_KIND_SERVICE, 2, 9, 0x80, 0x80, 0x80, 0x80, 0x00, 0x00}, CHEUKDANE_REFUSED_ZERO_GROUP, 7},
    {{CHEUKDANE_KIND_SERVICE, 2, 9, 0x80, 0x80, 0x80, 0x80, 0x80, 0x80}, CHEUKDANE_REFUSED_TOO_LARGE, 7},
    {{CHEUKDANE_KIND_SERVICE, 2, 9, 0xFF, 0xFF, 0xFF, 0xFF, 0x10, 0x00}, CHEUKDANE_REFUSED_TOO_LARGE, 7},
    {{CHEUKDANE_KIND_SERVICE, 8, 0x80, 0x00, 0x80, 0x00, 0x00, 0x00, 0x00}, CHEUKDANE_REFUSED_ZERO_GROUP, 3},
    {{CHEUKDANE_KIND_SERVICE, 8, 0x10, 0x00, 0x3F, 0x1D, 0x80, 0x00, 0x00}, CHEUKDANE_REFUSED_OUT_OF_RANGE, 3},
    {{CHEUKDANE_KIND_SERVICE, 8, 0x90, 0x01, 0xA0, 0x01, 0x80, 0x00, 0x00}, CHEUKDANE_REFUSED_OUT_OF_RANGE, 4},
    {{CHEUKDANE_KIND_SERVICE, 8, 0x10, 0x90, 0x00, 0x1D, 0x80, 0x00, 0x00}, CHEUKDANE_REFUSED_ZERO_GROUP, 4},
    {{CHEUKDANE_KIND_SERVICE, 8, 0x10, 0x06, 0x3F, 0x1D, 0x80, 0x00, 0x00}, CHEUKDANE_REFUSED_ENDS_INSIDE, 9},
    {{CHEUKDANE_KIND_SERVICE, 14, 0xA0, 0x80, 0x80, 0x80, 0x80, 0x00, 0x00}, CHEUKDANE_REFUSED_TOO_LARGE, 6},
    {{CHEUKDANE_KIND_SERVICE, 9, 0x98, 0x2F, 0x84, 0x6B, 0x84, 0x52, 0x00}, CHEUKDANE_REFUSED_ENDS_INSIDE, 9},
    {{CHEUKDANE_KIND_SERVICE, 9, 0x98, 0x2F, 0x84, 0xEB, 0x00, 0x84, 0x52}, CHEUKDANE_REFUSED_ZERO_GROUP, 6},
    {{CHEUKDANE_KIND_SERVICE, 10, 1, 2, 3, 4, 5, 6, 0x80}, CHEUKDANE_REFUSED_ENDS_INSIDE, 9},
    {{CHEUKDANE_KIND_SERVICE, 10, 1, 2, 3, 4, 5, 0x86, 0x00}, CHEUKDANE_REFUSED_ZERO_GROUP, 8},
    {{CHEUKDANE_KIND_SERVICE, 18, 0x80, 0x00, 0x80, 0x00, 0x00, 0x00, 0x00}, CHEUKDANE_REFUSED_UNKNOWN_KIND, 1},
};

static void bytes_that_decide(void) {
    int before = failures;
    const uint8_t other[10] = {CHEUKDANE_KIND_SERVICE, CHEUKDANE_KIND_SERVICE};
    struct head head;
    uint8_t show[CHEUKDANE_SHOWN];
    start(&head);
    for (size_t at = 0; at < sizeof UNREADABLE / sizeof UNREADABLE[0]; at++) {
        const uint8_t *log = UNREADABLE[at].log;
        size_t length = sizeof UNREADABLE[at].log;
        uint32_t number = UNREADABLE[at].number;
        uint64_t place = UNREADABLE[at].place;
        struct cheukdane_played played = cheukdane_play(head.image, sizeof head.image, log, length, 1, show, sizeof show);
        holds(played.number == number && played.kind == 0 && played.place == place && played.next == 1, "played, it is refused at that byte");
        struct cheukdane_replayed replayed = cheukdane_replay(head.image, sizeof head.image, log, length, 0);
        holds(replayed.code == number && replayed.place == place && replayed.records == 1 && replayed.next == 1, "replayed too");
        struct cheukdane_compared answer = cheukdane_compare(other, sizeof other, log, length);
        holds(answer.number == number && answer.record == 2 && answer.place == place, "compared, it is an offset in its own log");
    }
    shown(before, "the byte that decided it, of a record that can't be read");
}

static void short_buffers(void) {
    int before = failures;
    struct head head;
    uint8_t kept[CHEUKDANE_IMAGE];
    start(&head);
    play(&head, EXAMPLE, sizeof EXAMPLE, 0);
    memcpy(kept, head.image, sizeof kept);
    for (size_t length = 0; length <= 2 * CHEUKDANE_SHOWN; length++) {
        uint8_t buffer[2 * CHEUKDANE_SHOWN], whole[2 * CHEUKDANE_SHOWN];
        uint8_t *lent = length ? buffer : NULL;
        memset(buffer, 0xEE, sizeof buffer);
        memset(whole, 0xEE, sizeof whole);
        struct cheukdane_answer reported = cheukdane_report(head.image, sizeof head.image, lent, length);
        size_t written = length < CHEUKDANE_REPORT ? 0 : CHEUKDANE_REPORT;
        holds(reported.number == (written ? 0u : 12u), "a report that doesn't fit is 12");
        holds(same(buffer + written, whole, sizeof whole - written), "bytes after a report stay");
        memset(buffer, 0xEE, sizeof buffer);
        struct cheukdane_answer answer = cheukdane_event(head.image, sizeof head.image, 6, NULL, 0, lent, length);
        written = length < CHEUKDANE_SHOWN ? 0 : CHEUKDANE_SHOWN;
        holds(answer.number == (written ? 0u : 12u), "what is shown and doesn't fit is 12");
        holds(same(buffer + written, whole, sizeof whole - written), "bytes after what is shown stay");
        holds(written || same(head.image, kept, sizeof kept), "and 12 leaves the image");
    }
    shown(before, "answer buffers of every length");
}

/* The longest record of a kind that has so many numbers. */
static void longest_record(uint32_t kind, size_t count) {
    uint8_t words[44], out[CHEUKDANE_RECORD + 8], whole[CHEUKDANE_RECORD + 8];
    size_t record = 1 + 5 * count;
    memset(words, 0xFF, sizeof words);
    memset(whole, 0xEE, sizeof whole);
    for (size_t length = 0; length <= sizeof out; length++) {
        memset(out, 0xEE, sizeof out);
        struct cheukdane_written written = cheukdane_write(kind, words, 4 * count, length ? out : NULL, length);
        int fits = length >= record;
        holds(written.number == (fits ? 0u : 12u) && written.count == (fits ? record : 0u),
              "the longest record fits or is 12");
        holds(!fits || out[0] == kind, "it starts with its kind");
        holds(same(out + written.count, whole, sizeof whole - written.count), "bytes after a record stay");
    }
}

static void short_records(void) {
    int before = failures;
    uint8_t words[40] = {0}, out[CHEUKDANE_RECORD];
    longest_record(CHEUKDANE_KIND_POWER_ON, 10);
    longest_record(CHEUKDANE_KIND_POWER_ON_RESISTORS, 10);
    longest_record(CHEUKDANE_KIND_POWER_ON_EDITION, 11);
    holds(1 + 5 * 11 == CHEUKDANE_RECORD, "the longest of all has eleven numbers");
    holds(cheukdane_write(0, NULL, 0, out, sizeof out).number == 4, "kind 0 is 4");
    holds(cheukdane_write(8, NULL, 0, out, sizeof out).number == 5, "a run without words is 5");
    holds(cheukdane_write(14, NULL, 0, out, sizeof out).number == 5, "and so is a read of no address");
    holds(cheukdane_write(18, NULL, 0, out, sizeof out).number == 4, "kind 18 is 4");
    holds(cheukdane_write(10, words, 24, out, sizeof out).number == 5, "an observation of two of six numbers is 5");
    holds(cheukdane_write(11, words, 40, out, sizeof out).number == 5, "a power-on of kind 11 with ten numbers is 5");
    holds(cheukdane_write(9, words, 36, out, sizeof out).number == 5, "a power-on by resistors of nine numbers is 5");
    holds(cheukdane_write(2, words, 4, out, sizeof out).number == 5, "a set of one number is 5");
    shown(before, "record buffers of every length, and events that aren't");
}

/* Refused events, in a log and outside it, leave the model and lead on to the next record. */
static void refusals(void) {
    int before = failures;
    const struct event service = {6, 0, {0}};
    const struct event bad[] = {
        {1, 10, {8, 5, 4, 0, 0, 4500, 0, 0, 0, 0}},
        {CHEUKDANE_KIND_POWER_ON_RESISTORS, 10, {100001, 13700, 10500, 0, 0, 4500, 0, 0, 0, 0}},
        {CHEUKDANE_KIND_POWER_ON_RESISTORS, 10, {6040, 100001, 10500, 0, 0, 4500, 0, 0, 0, 0}},
        {CHEUKDANE_KIND_POWER_ON_RESISTORS, 10, {6040, 13700, 0xFFFFFFFFu, 0, 0, 4500, 0, 0, 0, 0}},
        {CHEUKDANE_KIND_POWER_ON_RESISTORS, 10, {6040, 13700, 10500, 33001, 0, 4500, 0, 0, 0, 0}},
        {CHEUKDANE_KIND_POWER_ON_EDITION, 11, {2, 5, 4, 0, 0, 4500, 0, 0, 0, 0, 0}},
        {CHEUKDANE_KIND_POWER_ON_EDITION, 11, {2, 5, 4, 0, 0, 4500, 0, 0, 0, 0, 3}},
        {CHEUKDANE_KIND_POWER_ON_EDITION, 11, {2, 5, 4, 0, 0, 4500, 0, 0, 0, 172801, 2}},
        {2, 2, {15, 0}},
        {2, 2, {1, 2405}},
        {3, 2, {0x14, 0}},
        {3, 2, {0x15, 256}},
        {3, 2, {0x16, 7}},
        {5, 6, {3601001, 0, 0, 0, 0, 0}},
        {CHEUKDANE_KIND_OBSERVE_TWO, 7, {3601001, 0, 0, 0, 0, 0, 0}},
        {CHEUKDANE_KIND_OBSERVE_TWO, 7, {1000, 0, 0, 0, 55000, 100001, 0}},
    };
    const uint32_t numbers[] = {5, 5, 5, 5, 5, 5, 5, 5, 8, 9, 10, 5, 11, 7, 7, 5};
    struct head head;
    uint8_t show[CHEUKDANE_SHOWN], kept[CHEUKDANE_IMAGE], words[44], record[CHEUKDANE_RECORD];
    start(&head);
    holds(does(&head, &service, show) == 6, "an event before a power-on is 6");
    play(&head, EXAMPLE, sizeof EXAMPLE, 0);
    memcpy(kept, head.image, sizeof kept);
    for (size_t at = 0; at < sizeof bad / sizeof bad[0]; at++) {
        holds(does(&head, &bad[at], show) == numbers[at], "each refusal by its number");
        size_t length = put_words(words, bad[at].numbers, bad[at].count);
        struct cheukdane_written written = cheukdane_write(bad[at].kind, words, length, record, sizeof record);
        struct cheukdane_played played = cheukdane_play(head.image, sizeof head.image, record, written.count, 0, show, sizeof show);
        holds(played.number == numbers[at] && played.kind == bad[at].kind && played.place == 0 && played.next == written.count, "in a log too, and the log goes on");
        holds(same(head.image, kept, sizeof kept), "a refused event leaves the model");
    }
    shown(before, "refused events leave the model and the log goes on");
}

void show_refusals(void) {
    logs_that_break_off();
    bytes_that_decide();
    short_buffers();
    short_records();
    refusals();
}
