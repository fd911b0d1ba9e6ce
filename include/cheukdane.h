/* Cheukdane: the one model of a pack's BQ25690 charger, for a head's firmware.
 *
 * What to link: libcheukdane.a, for x86-64 Linux; of the C library it needs memcpy at the most.
 * No call allocates, reads a clock, takes a lock, sets errno or calls back.
 *
 * A head holds the model as an image, a plain array of bytes of its own, and lends it to each call. No call keeps
 * anything between calls. So every call is reentrant: threads and signal handlers may call at the same time, if no part
 * that one of the calls may change is lent to another of them meanwhile.
 *
 * Every call answers on every input. It asks only that each pointer points to as many bytes as the length beside it
 * says (an empty part may be NULL, 0) and that bytes which a call may change are lent to it once.
 *
 * Words are 32-bit numbers, lowest byte first. A size_t has 64 bits, which is tested below. `number` is 0, or the
 * refusal's number of the paper's table. A refusal leaves every lent byte as it was.
 *
 * `place` is the refusal's place, an offset in the log, and 0 outside one. Of a record that can't be read it is what
 * decided the number: for 1 the log's end, for 2 the zero group, for 3 the fifth group, for 4 the kind's byte, which is
 * the record's start, for 5 the first byte of a run's length that isn't 1 to 32. For 2, 3 and 4 the bytes up to and
 * including that one decide, for 5 those up to the length's last: every log that starts with them is refused with the
 * same number and place, and a log that ends before the place's byte isn't refused with that number. The model's
 * refusals, 5 to 11 and 15, and 14 have the record's start. Where to read on once the log is mended or longer is told
 * apart, as `next`.
 *
 * 5 may be the reader's (such a length, which stops a log as 1 to 4 do), the model's, or the image's. They are told
 * apart so:
 *     play       the model's has the record's kind. With kind 0 the reader's has a place above the given one, since the
 *                kind's byte and the address come before a length, and the image's has the given place.
 *     replay     the image's is `number`, and then `code` is 0; the reader's is `code`, and then `number` is 0. The
 *                model's stops nothing.
 *     compare    it can only be the reader's.
 * No other call reads a log.
 *
 * In every call that is lent an image, bytes that aren't an image, or are of another length than CHEUKDANE_IMAGE, are 5
 * before all else; then an answer buffer that is too short is 12; then what the call is about is judged. Of an answer
 * buffer the first words are written and the bytes after them stay.
 *
 * Stack, in bytes along the deepest chain of calls, return addresses included, by the archive's object code. No call
 * calls itself. `make test` holds the archive to these figures, 64 bytes more or less.
 *
 *     event  2,048    play     2,032    replay 2,176
 *     report   704    register   672    compare  528
 *     write    464    off        264    rules      8
 */
#ifndef CHEUKDANE_H
#define CHEUKDANE_H

#include <stddef.h>
#include <stdint.h>

#ifdef __cplusplus
extern "C" {
#endif

/* Does not compile if a size_t has another width than the library's. */
typedef char cheukdane_size_t_has_64_bits[sizeof(size_t) == 8 ? 1 : -1];

/* The number of the rules: what a log means. Every landing that changes the state, the report or the answer that a log
 * leads to moves it. Two heads compare cheukdane_rules() before they trust each other: with one log and other rules
 * they would part. So both are brought up to new rules together, each with zeroed bytes for an image and its whole log
 * replayed. This is the number at the time of compiling; cheukdane_rules() is that of the archive linked.
 *   1  the base
 *   2  the recharge point is a share of the charge voltage, after the warm cut, and not of the voltage before it
 *   3  the place of 1, 2 and 3 is that of the byte that decided it, and not the record's start; replay tells `next`
 *   4  kind 9 is a power-on by its resistors, and not 4
 *   5  the model holds the stored fields of the whole register map, and every address can be read
 *   6  kind 8 is a run of written bytes and kind 14 a read of a flag register, and neither is 4
 *   7  kind 10 is an observation of two thermistors, and not 4
 *   8  kind 11 is a power-on that says the pack sheet's edition, and not 4; the model holds a band for each thermistor
 */
#define CHEUKDANE_RULES 8

/* ---- Images ---- */

/* The format of an image: it moves with the rules, so that no model is carried over from other rules. It is never 0. */
#define CHEUKDANE_FORMAT 8

/* Bytes of an image: 58 words. Word 0 is 0 before a power-on, and then all other words are 0 too; after it, it is the
 * format's number, CHEUKDANE_FORMAT, and the state's numbers follow, from these words on; a yes or no is 1 or 0. So
 * zeroed bytes are the image of a model that is off, in every format. Every model has exactly one image, and bytes are
 * an image only if they are a model's: another format, a yes or no above 1, or a phase, band or flags that aren't, make
 * them none. A number outside what the model may hold makes an image all the same, and so does a bit of the registers'
 * words that is no stored field's: an event on it is 5.
 *
 * An image may be stored and lent again later, also by a head of another make: it has no padding and no pointer. It has
 * no checksum: bytes that were changed in storage load if they are some model's image, so whoever stores an image keeps
 * a checksum beside it. An image of another format, an older one too, is 5: such a head starts from zeroed bytes and
 * replays the log. */
#define CHEUKDANE_IMAGE 232
#define CHEUKDANE_PROFILE 1    /* a power-on's eleven numbers, in kind 11's order; of kinds 1 and 9 the edition is 1, of
                                  kind 9 the codes, not the ohms */
#define CHEUKDANE_SETTINGS 12  /* settings 1 to 14 */
#define CHEUKDANE_REGISTERS 26 /* ten words, the stored fields of 0x00 to 0x27, four addresses to a word; CELL_PIN */
#define CHEUKDANE_LATCHES 37   /* VIN ok, VIN over, short, low, battery over */
#define CHEUKDANE_CYCLE 42     /* trickle, precharge and fast time in half milliseconds; done */
#define CHEUKDANE_WATCHDOG 46  /* milliseconds since it was zeroed, at most its period */
#define CHEUKDANE_SAMPLE 47    /* the last observation's seven numbers, in kind 10's order, of kind 5 its TS twice; its
                                  stamp is the last stamp */
#define CHEUKDANE_PHASE 54     /* 0 to 7 */
#define CHEUKDANE_BANDS 55     /* the first thermistor's band and the second's, each 0 normal, 1 cold, 2 hot, 3 cool, 4
                                  warm */
#define CHEUKDANE_FLAGS 57     /* the held flags, bits 0 to 11 */

/* ---- Names for the paper's numbers ---- */

/* Kinds of events. Of kind 9 each of the three resistors, 0 to 100,000 ohms, stands for the code in whose span it lies,
 * both ends included, and for code 0, a pin fault, outside all of them. From there on it is kind 1 with those codes.
 *     1   4,548- 4,732    2   5,920- 6,160    3   8,085- 8,415    4  10,290-10,710
 *     5  13,426-13,974    6  16,562-17,238    7  26,852-27,948 */
enum {
    CHEUKDANE_KIND_POWER_ON = 1,   /* cell, vchg, ichg codes; ILIM ohms; stamp; cell ceiling; trickle, precharge and
                                      fast limits and watchdog period in seconds */
    CHEUKDANE_KIND_SET = 2,        /* setting number, value */
    CHEUKDANE_KIND_WRITE = 3,      /* register address, byte */
    CHEUKDANE_KIND_TAKE_FLAGS = 4, /* no numbers; hands back the held flags and clears them */
    CHEUKDANE_KIND_OBSERVE = 5,    /* stamp; VIN, VBAT in mV; IBAT as CHEUKDANE_IBAT gives it; TS, which stands for both
                                      thermistors; sample bits */
    CHEUKDANE_KIND_SERVICE = 6,    /* no numbers; services the watchdog */
    CHEUKDANE_KIND_RESET = 7,      /* no numbers; resets the registers */
    CHEUKDANE_KIND_WRITE_RUN = 8,  /* a run of written bytes: first address, length 1 to 32, raw bytes; as words they
                                      are laid out by cheukdane_put_run */
    CHEUKDANE_KIND_POWER_ON_RESISTORS = 9, /* as 1, with the CELL, VCHG and ICHG resistors in ohms for the codes */
    CHEUKDANE_KIND_OBSERVE_TWO = 10, /* as 5, with the second thermistor's TS right after the first's; with two equal
                                        ones it does what 5 does */
    CHEUKDANE_KIND_POWER_ON_EDITION = 11, /* as 1, with the edition of the pack's sheet, 1 or 2, after the watchdog
                                             period; with edition 1 it does what 1 does */
    CHEUKDANE_KIND_READ_FLAGS = 14 /* address of a flag register, 0x20 or 0x21; hands back its byte and clears its own
                                      flags */
};

/* Answers: a call's `number`, and `code` of a replay. */
enum {
    CHEUKDANE_ACCEPTED = 0,
    CHEUKDANE_REFUSED_ENDS_INSIDE = 1,      /* the log ends inside a record */
    CHEUKDANE_REFUSED_ZERO_GROUP = 2,       /* a number's last group is zero and not the only one */
    CHEUKDANE_REFUSED_TOO_LARGE = 3,        /* a number above 4,294,967,295 */
    CHEUKDANE_REFUSED_UNKNOWN_KIND = 4,     /* no kind has that byte */
    CHEUKDANE_REFUSED_OUT_OF_RANGE = 5,     /* outside the kind's ranges, a run's length too; or a byte past a run's
                                               length isn't zero; or the model doesn't pass; or no image */
    CHEUKDANE_REFUSED_NOT_POWERED = 6,      /* there was no power-on yet */
    CHEUKDANE_REFUSED_STAMP_AHEAD = 7,      /* the stamp is more than 3,600,000 ms ahead */
    CHEUKDANE_REFUSED_UNKNOWN_SETTING = 8,  /* no setting has that number */
    CHEUKDANE_REFUSED_BAD_VALUE = 9,        /* outside the setting's range or off its step; by a run's bytes too */
    CHEUKDANE_REFUSED_UNKNOWN_ADDRESS = 10, /* a write at an address that isn't 0x15 to 0x1C, a run that isn't within
                                               0x00 to 0x26, or a read of flags that isn't at 0x20 or 0x21 */
    CHEUKDANE_REFUSED_BAD_FREQUENCY = 11,   /* FSW written 0 or 7 */
    CHEUKDANE_REFUSED_NO_ROOM = 12,         /* what is to be written is longer than the room */
    CHEUKDANE_REFUSED_INPUT_TOO_LONG = 13,  /* of runlog and partlog alone: an input above 65,536 bytes */
    CHEUKDANE_REFUSED_LOGS_PART = 14,       /* two logs part */
    CHEUKDANE_REFUSED_HALF_REGISTER = 15    /* a run begins with the upper half of a register of 16 bits, or ends with
                                               the lower */
};

/* Phases. In 1 to 4 current and voltage are reported, in the others they are 0. */
enum {
    CHEUKDANE_PHASE_IDLE = 0,
    CHEUKDANE_PHASE_TRICKLE = 1,
    CHEUKDANE_PHASE_PRECHARGE = 2,
    CHEUKDANE_PHASE_FAST = 3,
    CHEUKDANE_PHASE_TAPER = 4,
    CHEUKDANE_PHASE_DONE = 5,
    CHEUKDANE_PHASE_SUSPENDED = 6,
    CHEUKDANE_PHASE_FAULT = 7
};

/* Bands of the battery's temperature. Each of the two thermistors is in one of 0 to 4, judged at every accepted event
 * by the registers 0x18 and 0x19 as they stand then.
 *
 * By the first edition of the pack's sheet it is the first of these that holds: normal with EN_TS 0, cold from TH1 up,
 * hot from TH5 down and, with EN_JEITA, cool from TH2 up and warm from TH3 down; else normal. By the second a band
 * other than normal that the thermistor is in stays while its TS is less than 1,000 back from that band's threshold
 * (TH1 of cold, TH5 of hot, TH2 of cool, TH3 of warm), unless the first edition's judgement is cold or hot. EN_TS 0
 * ends any such hold and EN_JEITA 0 that of cool and warm. What doesn't stay is the first edition's judgement. A
 * register reset leaves the bands to be judged by what it restores; a power-on starts with normal.
 *
 * The band of both is cold if either is, else hot if either is; else mixed if one is cool and the other warm; else that
 * of the one that isn't normal, and normal if both are. Mixed suspends a charge, as cold and hot do, whatever 0x19 says
 * of cool and warm. CHEUKDANE_FLAG_BAND is a change of this band, and TS_STAT, 0x1E bits 2:0, its number; an image has
 * no word of it. */
enum {
    CHEUKDANE_BAND_NORMAL = 0,
    CHEUKDANE_BAND_COLD = 1,
    CHEUKDANE_BAND_HOT = 2,
    CHEUKDANE_BAND_COOL = 3,
    CHEUKDANE_BAND_WARM = 4,
    CHEUKDANE_BAND_MIXED = 7 /* one thermistor is cool and the other warm */
};

/* STAT. */
enum {
    CHEUKDANE_STAT_LOW = 0,
    CHEUKDANE_STAT_BLINKING = 1,
    CHEUKDANE_STAT_HIGH = 2
};

/* Bits of the flags, and of setting 14, which masks their pulses. */
enum {
    CHEUKDANE_FLAG_INPUT_GOOD = 1,
    CHEUKDANE_FLAG_INPUT_LOST = 2,
    CHEUKDANE_FLAG_IINDPM = 4,
    CHEUKDANE_FLAG_VINDPM = 8,
    CHEUKDANE_FLAG_THERMAL_REGULATION = 16,
    CHEUKDANE_FLAG_WATCHDOG = 32, /* expired; also set by a power-on */
    CHEUKDANE_FLAG_PHASE = 64,
    CHEUKDANE_FLAG_BAND = 128,
    CHEUKDANE_FLAG_VIN_OVER = 256,
    CHEUKDANE_FLAG_THERMAL_SHUTDOWN = 512,
    CHEUKDANE_FLAG_BATTERY_OVER = 1024,
    CHEUKDANE_FLAG_LIMIT = 2048   /* a first stage limit was reached */
};

/* Settings, by number. That of an image is its word CHEUKDANE_SETTINGS + number - 1. */
enum {
    CHEUKDANE_SETTING_VREG = 1,      /* mV */
    CHEUKDANE_SETTING_ICHG = 2,      /* mA */
    CHEUKDANE_SETTING_IPRECHG = 3,   /* mA */
    CHEUKDANE_SETTING_ITERM = 4,     /* mA */
    CHEUKDANE_SETTING_IINDPM = 5,    /* mA */
    CHEUKDANE_SETTING_VSYSMIN = 6,   /* mV */
    CHEUKDANE_SETTING_VBAT_LOWV = 7, /* 0-3: 30, 55, 66.7, 71.4% of the base voltage */
    CHEUKDANE_SETTING_VRECHG = 8,    /* 0-3: 92.7, 94.1, 95.5, 97% of the charge voltage */
    CHEUKDANE_SETTING_EN_CHG = 9,
    CHEUKDANE_SETTING_EN_TERM = 10,
    CHEUKDANE_SETTING_EN_HIZ = 11,
    CHEUKDANE_SETTING_EN_EXTILIM = 12,
    CHEUKDANE_SETTING_DIS_STAT_PIN = 13,
    CHEUKDANE_SETTING_MASKS = 14     /* flag bits that give no pulse */
};

/* Registers, by address. A register of one field has the field's name, another the data sheet's for the register. Those
 * of 16 bits have their upper byte at the next address. docs/REGISTERS.md has the fields of each. */
enum {
    CHEUKDANE_REGISTER_VSYSMIN = 0x00,                  /* 16 bits */
    CHEUKDANE_REGISTER_ICHG = 0x02,                     /* 16 bits */
    CHEUKDANE_REGISTER_VREG = 0x04,                     /* 16 bits */
    CHEUKDANE_REGISTER_IINDPM = 0x06,                   /* 16 bits */
    CHEUKDANE_REGISTER_VINDPM = 0x08,                   /* 16 bits */
    CHEUKDANE_REGISTER_IIN_REV = 0x0A,                  /* 16 bits */
    CHEUKDANE_REGISTER_VIN_REV = 0x0C,                  /* 16 bits */
    CHEUKDANE_REGISTER_IPRECHG = 0x0E,
    CHEUKDANE_REGISTER_ITERM = 0x0F,
    CHEUKDANE_REGISTER_PRECHARGE_AND_TERMINATION_CONTROL = 0x10, /* REG_RST is bit 7 */
    CHEUKDANE_REGISTER_TIMER_CONTROL = 0x11,
    CHEUKDANE_REGISTER_CHARGER_CONTROL_1 = 0x12,        /* WD_RST is bit 2 */
    CHEUKDANE_REGISTER_CHARGER_CONTROL_2 = 0x13,
    CHEUKDANE_REGISTER_CHARGER_CONTROL_3 = 0x14,
    CHEUKDANE_REGISTER_CHARGER_CONTROL_4 = 0x15,
    CHEUKDANE_REGISTER_CONVERTER_CONTROL_1 = 0x16,      /* FSW is bits 2:0 */
    CHEUKDANE_REGISTER_MPPT_CONTROL = 0x17,
    CHEUKDANE_REGISTER_TS_CHARGING_THRESHOLD_CONTROL = 0x18,
    CHEUKDANE_REGISTER_TS_CHARGING_BEHAVIOR_CONTROL = 0x19,
    CHEUKDANE_REGISTER_TS_REVERSE_MODE_THRESHOLD_CONTROL = 0x1A,
    CHEUKDANE_REGISTER_PIN_DETECTION_STATUS_1 = 0x1B,   /* CELL_PIN is bits 2:0 */
    CHEUKDANE_REGISTER_PIN_DETECTION_STATUS_2 = 0x1C,
    CHEUKDANE_REGISTER_CHARGER_STATUS_1 = 0x1D,
    CHEUKDANE_REGISTER_CHARGER_STATUS_2 = 0x1E,
    CHEUKDANE_REGISTER_FAULT_STATUS = 0x1F,
    CHEUKDANE_REGISTER_CHARGER_FLAG = 0x20,             /* flags 0 to 7 */
    CHEUKDANE_REGISTER_FAULT_FLAG = 0x21,               /* flags 8 to 11 */
    CHEUKDANE_REGISTER_CHARGER_MASK = 0x22,
    CHEUKDANE_REGISTER_FAULT_MASK = 0x23,
    CHEUKDANE_REGISTER_ICO_IINDPM = 0x24,               /* 16 bits */
    CHEUKDANE_REGISTER_PART_INFORMATION = 0x26
};

/* Bits of a sample, the last number of an observation. */
enum {
    CHEUKDANE_BIT_CE_HIGH = 1,
    CHEUKDANE_BIT_ILIM_HIZ_HIGH = 2,
    CHEUKDANE_BIT_IINDPM = 4,
    CHEUKDANE_BIT_VINDPM = 8,
    CHEUKDANE_BIT_THERMAL_REGULATION = 16,
    CHEUKDANE_BIT_THERMAL_SHUTDOWN = 32
};

/* ---- Answer buffers ---- */

/* Bytes of what an accepted event shows: phase, current, voltage, input limit, pulse, held flags, and what the event
 * handed back: kind 4 the flags, kind 14 the register's byte, others 0. */
#define CHEUKDANE_SHOWN 28

/* The words of what is shown. */
enum {
    CHEUKDANE_SHOWN_PHASE = 0,
    CHEUKDANE_SHOWN_CURRENT = 1, /* mA */
    CHEUKDANE_SHOWN_VOLTAGE = 2, /* mV */
    CHEUKDANE_SHOWN_LIMIT = 3,   /* mA */
    CHEUKDANE_SHOWN_PULSE = 4,   /* 1 if the event had an unmasked flag */
    CHEUKDANE_SHOWN_FLAGS = 5,
    CHEUKDANE_SHOWN_HANDED = 6
};

/* Bytes of a report: phase, current, voltage, input limit, held flags, and STAT (0 low, 1 blinking, 2 high). */
#define CHEUKDANE_REPORT 24

/* The words of a report. */
enum {
    CHEUKDANE_REPORT_PHASE = 0,
    CHEUKDANE_REPORT_CURRENT = 1, /* mA */
    CHEUKDANE_REPORT_VOLTAGE = 2, /* mV */
    CHEUKDANE_REPORT_LIMIT = 3,   /* mA */
    CHEUKDANE_REPORT_FLAGS = 4,
    CHEUKDANE_REPORT_STAT = 5
};

/* Bytes of the longest record. */
#define CHEUKDANE_RECORD 56

/* The word at an index of an image, of what is shown or of a report. */
static inline uint32_t cheukdane_word(const uint8_t *bytes, size_t index) {
    const uint8_t *at = bytes + 4 * index;
    return (uint32_t)at[0] | (uint32_t)at[1] << 8 | (uint32_t)at[2] << 16 | (uint32_t)at[3] << 24;
}

/* Stores a word at an index of an event's words. */
static inline void cheukdane_put_word(uint8_t *bytes, size_t index, uint32_t number) {
    uint8_t *at = bytes + 4 * index;
    at[0] = (uint8_t)(number & 255);
    at[1] = (uint8_t)(number >> 8 & 255);
    at[2] = (uint8_t)(number >> 16 & 255);
    at[3] = (uint8_t)(number >> 24);
}

/* Bytes of a run's words, kind 8. */
#define CHEUKDANE_RUN 40

/* Stores the ten words of a run: first address, length, and the bytes as they are, from byte 8 on, with zeros behind
 * them. A length above 32 is stored as 33, beside the first 32 bytes; an event of it is 5, as one of length 0 is. */
static inline void cheukdane_put_run(uint8_t *words, uint32_t address, const uint8_t *bytes, size_t length) {
    cheukdane_put_word(words, 0, address);
    cheukdane_put_word(words, 1, length > 32 ? 33 : (uint32_t)length);
    for (size_t at = 0; at < CHEUKDANE_RUN - 8; at++) {
        words[8 + at] = at < length ? bytes[at] : 0;
    }
}

/* IBAT, in mA, as an event's number: 2n for n >= 0, else -2n-1. The argument is evaluated once. */
static inline uint32_t cheukdane_ibat(int32_t ma) {
    int64_t wide = ma;
    return (uint32_t)(wide < 0 ? -2 * wide - 1 : 2 * wide);
}
#define CHEUKDANE_IBAT(ma) cheukdane_ibat(ma)

/* ---- Answers ---- */

struct cheukdane_answer {
    uint32_t number;
    uint64_t place;
};

struct cheukdane_played {
    uint32_t number;
    uint32_t kind;  /* of the record that was read; 0 if none was */
    uint64_t place; /* the given place, where the record starts; of what can't be read, 1 to 5: of what decided it */
    uint64_t next;  /* where the next record starts; the given place if none was read */
};

struct cheukdane_replayed {
    uint32_t number;
    uint32_t code;    /* 0 at the log's end, and with a refusal; else 1 to 5, of what can't be read */
    uint64_t records; /* how many were read; the count has 32 bits and wraps */
    uint64_t place;   /* the log's end; with a code, the place of what decided it */
    uint64_t next;    /* where to go on: the log's end, or where the record that can't be read starts */
};

struct cheukdane_byte {
    uint32_t number;
    uint32_t byte; /* 0 with a refusal */
    uint64_t place;
};

struct cheukdane_written {
    uint32_t number;
    uint32_t count; /* bytes of the record; 0 with a refusal */
    uint64_t place;
};

struct cheukdane_compared {
    uint32_t number;
    uint32_t log;    /* whose rest it is: 1 or 2; 0 with a refusal */
    uint64_t record; /* with a refusal, the record's number, from 1; else 0 */
    uint64_t place;  /* where the rest starts; 14: where the record does; 1 to 5: of what decided it, in its own log */
};

/* ---- Calls ---- */

/* The number of the rules by which the archive linked judges a log: see CHEUKDANE_RULES. */
uint32_t cheukdane_rules(void);

/* Makes the image of a model before its power-on. 5 if `image` is of another length. */
struct cheukdane_answer cheukdane_off(uint8_t *image, size_t image_length);

/* Plays the record at a place of a log. Accepted: the image is the model after it and `shown` shows it. Refused by the
 * model: 5 to 11 or 15, with the kind, and `next` leads on to the next record. Unreadable: 1 to 5 and kind 0; `place`
 * is of what decided it, and `next` the given place. At the log's end or past it: number 0 and kind 0, and no byte is
 * changed. With 5 for the image or 12 no record is looked for: kind 0, and `place` is the given one. */
struct cheukdane_played cheukdane_play(uint8_t *image, size_t image_length, const uint8_t *log, size_t log_length,
                                       size_t place, uint8_t *shown, size_t shown_length);

/* Plays every record of a log from a place on, to the log's end or to one that can't be read: what a head does when it
 * starts, or catches up. The image is the model after them; records that the model refuses are passed over. From the
 * log's end or past it no record is read, and `place` and `next` are as given, as they are with a refusal.
 *
 * A log to which more is being written may end inside a record: code 1. Once it is longer, a replay of it from `next`,
 * on the image as it was left, comes to what replaying the longer log whole would have: the same image, code, place and
 * next, and the records of both calls add up, in 32 bits. */
struct cheukdane_replayed cheukdane_replay(uint8_t *image, size_t image_length, const uint8_t *log, size_t log_length,
                                           size_t place);

/* One event outside a log: its kind, and the kind's numbers as words, just as many as it has. Of a run, kind 8, they
 * are ten whatever its length. An unknown kind is 4; words that aren't as many are 5. Then the model judges: 5 to 11 or
 * 15. A run of a length that isn't 1 to 32, or with a byte past its length that isn't zero, is 5, after 6.
 *
 * A run is taken whole or not at all, in the order of its addresses, and settled once. A reset bit in it (0x10 bit 7)
 * acts as kind 7 and a service bit (0x12 bit 2) as kind 6, after all its bytes. Its refusals in their order: 6, 5, 10,
 * 15, 11, 9, by the written bytes, also beside a reset bit. */
struct cheukdane_answer cheukdane_event(uint8_t *image, size_t image_length, uint32_t kind, const uint8_t *words,
                                        size_t words_length, uint8_t *shown, size_t shown_length);

/* The report, the flags and STAT of the model as it stands; 6 before a power-on. */
struct cheukdane_answer cheukdane_report(const uint8_t *image, size_t image_length, uint8_t *report,
                                         size_t report_length);

/* A register's byte, as the data sheet lays it out in its section 6.5; 6 before a power-on. Any address answers:
 * a byte of 0x00 to 0x26, and 0xFF outside. A sixteen-bit register has its lower byte at its address and its upper one
 * at the next. Nothing changes: a flag register shows the held flags and clears none; an event of kind 14 does.
 * docs/REGISTERS.md is the map. */
struct cheukdane_byte cheukdane_register(const uint8_t *image, size_t image_length, uint32_t address);

/* Writes an event's record at the start of `out`; 12 if it doesn't fit. Kind and words as for cheukdane_event; the
 * model isn't asked. A run of a length that isn't 1 to 32, or with a byte past its length that isn't zero, has no
 * record: 5, before 12. */
struct cheukdane_written cheukdane_write(uint32_t kind, const uint8_t *words, size_t words_length, uint8_t *out,
                                         size_t out_length);

/* Reads two logs side by side. If one is the other's start: the log whose rest is more, and where that rest starts
 * (equal logs: the first, at its end). Else 14, with the record's number and where it starts; or 1 to 5 for a record
 * that can't be read, the first log's before the second's, with its number and the place, in that log, of what decided
 * it. */
struct cheukdane_compared cheukdane_compare(const uint8_t *first, size_t first_length, const uint8_t *second,
                                            size_t second_length);

#ifdef __cplusplus
}
#endif

#endif
