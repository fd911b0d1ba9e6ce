/* Registers: reads of every address, and the stored fields in an image. */
#include "head.h"

#include <string.h>

enum { MAP = 0x27, HIGHEST = 300 };

/* What is read after the example, 0x00 to 0x26. */
static const uint8_t READ[MAP] = {
    0x60, 0x13, 0xB0, 0x04, 0x40, 0x1A, 0x50, 0x0A, 0x10, 0x09, 0x50, 0x0A, 0xA0, 0x0F, 0x06, 0x03, 0x3F, 0x1D, 0x80, 0xA0,
    0x28, 0x00, 0xE1, 0xAA, 0x95, 0xD7, 0x40, 0x2A, 0x04, 0x83, 0x00, 0x00, 0x89, 0x00, 0x00, 0x00, 0x50, 0x0A, 0x05};

/* Addresses far outside the map; some are one of the map's in their low bits. */
static const uint32_t FAR[] = {0x100, 0x115, 0x126, 0x10000, 0x10026, 0x80000000u, 0x80000015u, 0xFFFFFFFEu, 0xFFFFFFFFu};

/* The byte of the image that has the stored fields of an address. */
static uint8_t *stored(uint8_t *image, size_t address) {
    return image + 4 * CHEUKDANE_REGISTERS + address;
}

static uint32_t byte_at(const struct head *head, uint32_t address) {
    struct cheukdane_byte byte = cheukdane_register(head->image, sizeof head->image, address);
    holds(byte.number == 0 && byte.place == 0, "a powered model answers at every address");
    return byte.byte;
}

/* Every address of bytes that have one answer for all of them. */
static void refused(const uint8_t *image, size_t length, uint32_t number) {
    for (uint32_t address = 0; address <= HIGHEST; address++) {
        struct cheukdane_byte byte = cheukdane_register(image, length, address);
        holds(byte.number == number && byte.byte == 0 && byte.place == 0, "a read is refused whatever the address");
    }
    for (size_t at = 0; at < sizeof FAR / sizeof FAR[0]; at++) {
        holds(cheukdane_register(image, length, FAR[at]).number == number, "a far one too");
    }
}

static void every_address(void) {
    int before = failures;
    struct head head;
    uint8_t kept[CHEUKDANE_IMAGE];
    start(&head);
    refused(head.image, sizeof head.image, CHEUKDANE_REFUSED_NOT_POWERED);
    play(&head, EXAMPLE, sizeof EXAMPLE, 0);
    refused(head.image, sizeof head.image - 4, CHEUKDANE_REFUSED_OUT_OF_RANGE);
    memcpy(kept, head.image, sizeof kept);
    for (uint32_t address = 0; address <= HIGHEST; address++) {
        uint32_t wanted = address < MAP ? READ[address] : 0xFF;
        holds(byte_at(&head, address) == wanted, "each register's byte, and 0xFF outside the map");
    }
    for (size_t at = 0; at < sizeof FAR / sizeof FAR[0]; at++) {
        holds(byte_at(&head, FAR[at]) == 0xFF, "0xFF far outside too");
    }
    holds(same(head.image, kept, sizeof kept), "reads leave the image, held flags too");
    shown(before, "reads of every address");
}

/* Stored fields that an image brings: they are read, and a register reset restores those that the sheet marks. */
static void stored_fields(void) {
    int before = failures;
    static const struct {
        uint32_t address;
        uint8_t byte, reset;
    } rows[] = {
        {0x08, 0xF0, 0xF0}, {0x09, 0x7F, 0x7F}, {0x0A, 0xF0, 0x50}, {0x0B, 0x0F, 0x0A}, {0x0C, 0x00, 0xA0},
        {0x0D, 0x00, 0x0F}, {0x10, 0x00, 0x01}, {0x11, 0xE2, 0x1D}, {0x12, 0x7B, 0x82}, {0x13, 0x4F, 0x80},
        {0x14, 0xD7, 0x08}, {0x15, 0x0B, 0x00}, {0x16, 0x1E, 0xE1}, {0x17, 0x55, 0xAA}, {0x18, 0x6A, 0x95},
        {0x19, 0x28, 0x57}, {0x1A, 0xAF, 0x40}, {0x1B, 0xC0, 0x00}, {0x1C, 0x08, 0x00}, {0x22, 0x04, 0x00},
        {0x23, 0x15, 0x00},
    };
    const struct event reset = {CHEUKDANE_KIND_RESET, 0, {0}};
    struct head head;
    uint8_t show[CHEUKDANE_SHOWN];
    uint32_t beside[MAP];
    start(&head);
    play(&head, EXAMPLE, sizeof EXAMPLE, 0);
    for (size_t at = 0; at < sizeof rows / sizeof rows[0]; at++) {
        uint32_t address = rows[at].address;
        beside[address] = byte_at(&head, address) & ~(uint32_t)*stored(head.image, address);
        *stored(head.image, address) = rows[at].byte;
    }
    for (size_t at = 0; at < sizeof rows / sizeof rows[0]; at++) {
        uint32_t address = rows[at].address;
        holds(byte_at(&head, address) == (beside[address] | rows[at].byte), "a stored field is read beside the settings and pins");
    }
    holds(does(&head, &reset, show) == 0, "a model may hold any stored code");
    for (size_t at = 0; at < sizeof rows / sizeof rows[0]; at++) {
        uint32_t address = rows[at].address;
        holds(*stored(head.image, address) == rows[at].reset, "a reset restores what the sheet marks, and no more");
    }
    shown(before, "stored fields of an image, and a register reset");
}

/* A bit that is no stored field's: an event is 5, and no read shows it. */
static void other_bits(void) {
    int before = failures;
    static const uint8_t rows[][2] = {{0x00, 0x10}, {0x03, 0x80}, {0x08, 0x08}, {0x09, 0x80}, {0x0B, 0x10}, {0x0E, 0x01},
                                      {0x10, 0x80}, {0x10, 0x40}, {0x12, 0x04}, {0x13, 0x20}, {0x14, 0x20}, {0x15, 0x04},
                                      {0x1A, 0x10}, {0x1B, 0x04}, {0x1C, 0x80}, {0x1D, 0x80}, {0x20, 0x01}, {0x22, 0x80},
                                      {0x23, 0x02}, {0x24, 0x10}, {0x26, 0x01}, {0x27, 0x01}, {0x27, 0x80}};
    const struct event service = {CHEUKDANE_KIND_SERVICE, 0, {0}};
    struct head head;
    uint8_t show[CHEUKDANE_SHOWN];
    start(&head);
    play(&head, EXAMPLE, sizeof EXAMPLE, 0);
    for (size_t at = 0; at < sizeof rows / sizeof rows[0]; at++) {
        uint32_t held = byte_at(&head, rows[at][0]);
        *stored(head.image, rows[at][0]) ^= rows[at][1];
        holds(byte_at(&head, rows[at][0]) == held, "it isn't read");
        holds(does(&head, &service, show) == CHEUKDANE_REFUSED_OUT_OF_RANGE, "an event is 5");
        *stored(head.image, rows[at][0]) ^= rows[at][1];
        holds(does(&head, &service, show) == 0, "and without the bit it is accepted");
    }
    shown(before, "bits that are no stored field's are 5");
}

void show_registers(void) {
    every_address();
    stored_fields();
    other_bits();
}
