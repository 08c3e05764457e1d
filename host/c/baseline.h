/* The gateway in plain C: no proofs, written from the requirements. It is the
 * yardstick for the proved gateway: a second reading of the rules, and a measure of speed.
 *
 * It is a receiver of frames: it does not send messages, and it has no strip readers. Its lines have the
 * numbers that the library's have, and every event tests all of them that the library tests on a line of frames;
 * but a line that sends, or that speaks with a reader, is none here, and so it is answered 42.
 *
 * Nothing is allocated and nothing is kept between calls but what the caller lends. Every call
 * is answered with its number. A refusal of 40 to 47 changes nothing, nor does one of a text
 * function. */
#ifndef PLAIN_BASELINE_H
#define PLAIN_BASELINE_H

#include <stdbool.h>
#include <stddef.h>
#include <stdint.h>

enum {
    PLAIN_LINES = 8,
    PLAIN_TEXT = 4000,    /* longest message, and a line's part of the unfinished text */
    PLAIN_FRAME = 246,    /* longest frame without STX, and a line's part of the frames */
    PLAIN_PIECE = 240,    /* longest text of one frame */
    PLAIN_DELIMITERS = 4, /* of fields, repeats, components and escapes, in this order */
    PLAIN_HEADER = 4,     /* bytes in front of a journal entry's text */
    PLAIN_SHARE = 2048,   /* journal bytes that each line is sure of */
    PLAIN_SECONDS_LIMIT = 30,

    PLAIN_JOURNAL_SIZE = 32768,
    PLAIN_UNFINISHED_SIZE = PLAIN_LINES * PLAIN_TEXT,
    PLAIN_FRAMES_SIZE = PLAIN_LINES * PLAIN_FRAME,

    PLAIN_NO_REPLY = -1
};

/* The answers, by their numbers. */
enum plain_number {
    PLAIN_NOTHING = 0,            /* ignored, collected, seconds counted; also success of the text functions */
    PLAIN_OPENED = 1,
    PLAIN_ACCEPTED = 2,
    PLAIN_REPEATED = 3,
    PLAIN_STORED = 4,
    PLAIN_ENDED = 5,
    PLAIN_ENDED_UNFINISHED = 6,
    PLAIN_TIMED_OUT = 7,
    PLAIN_TAKEN = 8,
    PLAIN_BUSY = 20,
    PLAIN_FRAME_TOO_LONG = 21,
    PLAIN_FRAME_MISSHAPEN = 22,
    PLAIN_CHECK_WRONG = 23,
    PLAIN_BYTE_NOT_ALLOWED = 24,
    PLAIN_NUMBER_NOT_ALLOWED = 25,
    PLAIN_REFUSING = 26,
    PLAIN_NUMBER_OUT_OF_TURN = 27,
    PLAIN_TEXT_TOO_LONG = 28,
    PLAIN_TEXT_NOT_ENDED = 29,
    PLAIN_NOT_A_MESSAGE = 30,     /* a complete text with a byte that is not allowed */
    PLAIN_NO_ROOM = 31,
    PLAIN_NO_SUCH_LINE = 40,
    PLAIN_MEMORY_SIZE = 41,
    PLAIN_RECORD_LIMITS = 42,
    PLAIN_JOURNAL_BROKEN = 43,
    PLAIN_NONE_WAITING = 44,
    PLAIN_BUFFER_TOO_SHORT = 45,
    PLAIN_TEXT_MALFORMED = 46,
    PLAIN_OUTPUT_TOO_SHORT = 47,
    PLAIN_NO_HEADER = 50,         /* 50 to 55: the first fault of a text's records, with the record's place */
    PLAIN_UNKNOWN_TYPE = 51,
    PLAIN_MISPLACED = 52,         /* also a last record that is no L */
    PLAIN_MISNUMBERED = 53,
    PLAIN_NO_FINAL_CR = 54,       /* not on a line: there it is 29 */
    PLAIN_BAD_DELIMITERS = 55     /* also of the four to escape or to unescape with, without a place */
};

enum plain_state { PLAIN_NEUTRAL, PLAIN_WAITING, PLAIN_INSIDE }; /* the states from 3 on send */
enum plain_kind { PLAIN_BYTE, PLAIN_SECONDS };

/* Sixteen numbers, as the library has them. */
struct plain_line {
    uint16_t state;       /* enum plain_state */
    uint16_t collected;   /* bytes of the open frame */
    uint16_t joined;      /* bytes of unfinished text */
    uint16_t seconds;
    uint16_t next;        /* frame number that is due */
    uint16_t last;        /* one more than the last accepted frame number, or 0 */
    uint16_t refusing;    /* 1: a message of this transfer was decided against; else 0 */
    uint16_t serial;      /* of the line's next entry */
    uint16_t tries;       /* of a sending; 0 here */
    uint16_t place;       /* of a sending; 0 here */
    uint16_t speaks;      /* 0: frames */
    uint16_t reply;       /* of a strip reader, as the two that follow: not looked at */
    uint16_t since;
    uint16_t kept;
    uint16_t spare[2];    /* not looked at */
};

struct plain_ledger {
    uint32_t in_use;                /* journal bytes that hold entries */
    uint32_t used[PLAIN_LINES];     /* those of each line, headers counted */
};

struct plain_gateway {
    struct plain_line lines[PLAIN_LINES];
    struct plain_ledger ledger;
};

/* The lent memories, each with the length that is really lent. They do not overlap. */
struct plain_memory {
    uint8_t *journal;
    size_t journal_length;
    uint8_t *unfinished;
    size_t unfinished_length;
    uint8_t *frames;
    size_t frames_length;
};

/* Eight bytes, so that it is handed back in one register. */
struct plain_answer {
    uint16_t number;
    uint16_t place;    /* of the record with the fault, from 1; 0 unless number is 50 to 53 or 55 */
    uint16_t length;   /* of the text taken; 0 unless number is 8 */
    uint16_t serial;   /* of the entry taken; 0 unless number is 8 */
};

/* What the check, the cutting or the reading of a text comes to: PLAIN_NOTHING, or why it is refused. */
struct plain_outcome {
    uint16_t number;
    uint16_t place;    /* of the record with the fault, from 1; 0 unless number is 50 to 55 */
};

/* One record of a message. Owner is the owning record's number from 1, or 0 for H and L. */
struct plain_record {
    uint8_t type;
    uint16_t offset;
    uint16_t length;   /* without CR */
    uint16_t owner;
};

struct plain_gateway plain_fresh(void);

/* A byte or a number of seconds on one line. A kind other than PLAIN_SECONDS is a byte. */
struct plain_answer plain_event(struct plain_gateway *gateway, const struct plain_memory *memory,
                                unsigned line, enum plain_kind kind, uint8_t value);

/* The line's oldest entry goes to the start of the buffer, and later entries close up. */
struct plain_answer plain_take(struct plain_gateway *gateway, uint8_t *journal, size_t journal_length,
                               unsigned line, uint8_t *buffer, size_t buffer_length);

/* The byte that goes back to the analyzer: 0x06, 0x15 or PLAIN_NO_REPLY. */
int plain_reply(unsigned number);

/* Whether a text is a message; if not, 46 where it is too long or has a byte that is not allowed,
 * else its first fault. */
struct plain_outcome plain_check(const uint8_t *text, size_t n);
bool plain_is_message(const uint8_t *text, size_t n);

/* The text functions give PLAIN_NOTHING when done, else a refusal with nothing written: 46 or 47,
 * or the fault of a text to cut or to read. Output does not overlap the text; what the output does
 * not need of its room keeps its bytes. Escaping and unescaping go by the delimiters that they are
 * given, and refuse those that no header may have with 55 first. */
struct plain_outcome plain_cut(const uint8_t *text, size_t n, uint8_t *out, size_t cap, size_t *length);
enum plain_number plain_escape(const uint8_t delimiters[PLAIN_DELIMITERS], const uint8_t *text, size_t n,
                               uint8_t *out, size_t cap, size_t *length);
enum plain_number plain_unescape(const uint8_t delimiters[PLAIN_DELIMITERS], const uint8_t *text, size_t n,
                                 uint8_t *out, size_t cap, size_t *length);
struct plain_outcome plain_read(const uint8_t *text, size_t n, struct plain_record *records, size_t cap,
                                size_t *count);

#endif
