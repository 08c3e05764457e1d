/* Ngachodui: a gateway between laboratory analyzers and a results dashboard, for hosts in C and C++.
 *
 * Analyzers send frames (ASTM E1381) with records (E1394) down eight serial lines. The host hands
 * each byte that comes in, and each second that passes, to the library; the library says what it
 * did, by the number of an answer, and what to send to the analyzer. Whole messages wait in one
 * journal until the host takes them. And the host sends messages of its own, work orders, down the
 * same lines: it starts a sending, and goes on handing over bytes and seconds. On lines that are set so at
 * the start it is urine strip readers (Miditron Junior II) that send: each finding of theirs is turned into a
 * message, and waits in the same journal.
 *
 * What goes to the analyzer is told by the answer's `reply`: 0 for nothing; 06, 15, 05 or 04 for that one
 * byte; and 02 for a whole frame, or on a strip reader's line for a whole block, which begins with that byte.
 * 02 is never sent alone: fetch it with ngachodui_on_outgoing before the line's next event, and send all of it.
 *
 *     uint8_t frame[NGACHODUI_FRAME_LIMIT];
 *     if (answer.reply == NGACHODUI_STX)
 *         send_bytes(line, frame, ngachodui_on_outgoing(&gateway, line, frame, sizeof frame).length);
 *     else if (answer.reply != 0)
 *         send_bytes(line, &answer.reply, 1);
 *
 * A host that starts no sending and has no strip reader never gets 02, 04 or 05.
 *
 * The library keeps nothing between calls, allocates nothing, and calls nothing but memcpy, memmove
 * and memset; a call needs at most NGACHODUI_STACK_LIMIT bytes of stack. All that a gateway is lies in
 * memory of the host's: a ngachodui_gateway, which is three memories of fixed sizes and a state. A host
 * calls ngachodui_on_fresh on it once, or ngachodui_on_start where it has strip readers; then ngachodui_on_byte,
 * ngachodui_on_seconds and ngachodui_on_take; and to send messages, or to reply to strip readers,
 * ngachodui_on_send and ngachodui_on_outgoing. These lend state and memories to the
 * library's own functions, which a host may call itself if it keeps them in other places. Only the library
 * changes them.
 *
 * What the host owes at every call, since C cannot say it:
 *   - each pointer is valid for the length beside it, or for the array in its type, and aligned for
 *     its type. It is not null, not even with length 0;
 *   - no two of the memories of one call overlap;
 *   - nobody else touches them until the call returns. Different gateways may be used by different
 *     threads at the same time.
 * Nothing else is asked: whatever the numbers and the bytes are, each call returns and does what is
 * said here, and a wrong line, size, state or text is answered by its number. That is proved, for
 * all bytes and all calls; `docs/CONTRACTS.md` says what each function promises.
 *
 * What a host with eight ports decides for itself:
 *   - Calls: one at a time for one gateway. All lines lie in one state, so eight threads need one lock
 *     around every call; one thread that waits for all ports needs none. No call waits for anything.
 *   - Time: the lines have no clock. The host tells each line the whole seconds since it last did, from
 *     a clock that nobody sets (CLOCK_MONOTONIC), and keeps the fraction for the next time. One timer
 *     of a second serves all eight. Of a byte and a timer that fall together either may come first. A
 *     line that sends must be told its seconds: nothing else ends a wait for a reply that does not come.
 *   - Replies: 06 lets the analyzer forget what it has sent, and so does our MOR a strip reader. So first what
 *     the call has left is saved, and then it is sent; docs/HOSTING.md says why that holds for everything that
 *     is sent, and not only with 4. After 4 the gateway's copy of the message is the only one.
 *   - Strip readers: which lines have one, and how long the patient numbers are that it is set up for, is
 *     said once, at the start; it never changes. The reader keeps its own time: it needs no seconds. Where there
 *     is no room (31) it gets no reply, asks again by itself a few times, and then stops: the finding stays in
 *     the reader, and is sent when somebody presses its key again. A finding can be stored twice where a reply
 *     or the reader's own block was lost or damaged on its way; its sequence number, date and time tell.
 *   - Sendings: the host keeps its message until the sending is over. Our EOT (`reply` 04) in answer to
 *     the byte 06 or 04 says that every frame was acknowledged. In answer to seconds or to another byte it
 *     says that not all were, and 61 says that none was sent [S13]. Then the host decides whether and when to
 *     start again. The analyzer may have the message even so, where only a reply was lost on its way: what
 *     is sent once more may be there twice. After 61 it may be the analyzer that wants to send, so the next
 *     start should wait a while. In the 10 seconds behind a refusal the line hears nothing: the analyzer's
 *     own ENQ is ignored then, and has to come again.
 *   - Takings: 8 takes the message out of the journal, and then the buffer's copy is the only one. It
 *     goes where it is to stay before the gateway is saved without it. A host that fails in between
 *     gets the message once more, and knows it by its line and serial.
 *   - Saving: NGACHODUI_VERSION, and behind it the whole ngachodui_gateway; all of it or nothing, as by
 *     writing a new file, flushing and renaming it. What has another number in front is not loaded. On lines
 *     of frames a host may save before the reply to 4 alone, if it tells each line, once it has loaded, that 30
 *     seconds have passed, before it hands over a byte, and sends what that gives: no transfer and no sending
 *     then goes on with bytes missing, and the messages that wait stay. A sending ends so with our EOT, but one
 *     that paused asks once more. To a strip reader every reply waits for a save, as seconds do nothing there.
 *     What may have been sent before is not sent again by itself: a second reply to one frame would be taken
 *     for the reply to the next.
 *
 * Link with libngachodui.a, which is for x86-64 Linux. An object that was compiled for another layout
 * of state and memories, or for other arguments, does not link with it: see NGACHODUI_VERSION. */
#ifndef NGACHODUI_H
#define NGACHODUI_H

#include <stdbool.h>
#include <stddef.h>
#include <stdint.h>

#ifdef __cplusplus
extern "C" {
#endif

/* ---- Version ---- */

/* The version of the layout, that is of the sizes and structs below. A library of another layout has
 * another version, and what a host saved under one version is no state of another: save the number in
 * front of it. It stands here alone, for C: the library's ngachodui_fresh and ngachodui_start have it in their
 * names, so that an object of another version does not find them. */
#define NGACHODUI_VERSION 3

#define NGACHODUI_JOINED(name, version) name##_##version
#define NGACHODUI_NAMED(name, version) NGACHODUI_JOINED(name, version)
#define ngachodui_fresh NGACHODUI_NAMED(ngachodui_fresh, NGACHODUI_VERSION)
#define ngachodui_start NGACHODUI_NAMED(ngachodui_start, NGACHODUI_VERSION)

/* These two took no delimiters once, under their names without a number: an object that still calls them
 * so does not link. Their number is their own, and not that of the layout. */
#define ngachodui_escape ngachodui_escape_2
#define ngachodui_unescape ngachodui_unescape_2

/* ---- Sizes ---- */

enum {
    NGACHODUI_LINES = 8,                         /* the lines are numbered 0 to 7 */
    NGACHODUI_BLOCK_LIMIT = 239,                 /* bytes of a strip reader's block, from STX to CR */
    NGACHODUI_NUMBERS = (16 + NGACHODUI_BLOCK_LIMIT) * NGACHODUI_LINES,   /* the numbers of all lines, of 16 bits */
    NGACHODUI_COUNTS = NGACHODUI_LINES + 1,      /* the counts: one for each line, one of them all */
    NGACHODUI_DELIMITERS = 4,                    /* the delimiters of a message */

    /* What is never exceeded: memory for so many is never too short. */
    NGACHODUI_TEXT_LIMIT = 4000,                 /* bytes of a message, for a taking */
    NGACHODUI_FRAME_LIMIT = 247,                 /* bytes of a frame, from STX to LF, for what is fetched */
    NGACHODUI_FRAME_PART = NGACHODUI_FRAME_LIMIT - 1,   /* without STX, as a line keeps it */
    NGACHODUI_RECORDS_LIMIT = 999,               /* records of a message, for reading */
    NGACHODUI_CUT_LIMIT = 10993,                 /* bytes of a message's frames: 4,000 in 999 frames */

    /* The three memories, in bytes. Lent at any other size, an event is answered 41. */
    NGACHODUI_JOURNAL_SIZE = 32768,              /* the messages that wait */
    NGACHODUI_UNFINISHED_SIZE = NGACHODUI_LINES * NGACHODUI_TEXT_LIMIT,   /* each line's unfinished text */
    NGACHODUI_FRAMES_SIZE = NGACHODUI_LINES * NGACHODUI_FRAME_PART,       /* each line's frame so far */

    /* Bytes of the journal that each line is sure of, 4 counted for each message besides its text. */
    NGACHODUI_SHARE = 2048,

    /* Bytes of stack that no call exceeds, what memcpy, memmove and memset need not counted. */
    NGACHODUI_STACK_LIMIT = 6144
};

/* ---- Answers ---- */

/* What an event, a start or a taking is answered, by number: 22 is rule A22 of docs/RULES.md. On a line of
 * frames the byte to send back is ACK (06) with 1 to 4; with 20 to 31, and with a fault that answers an event,
 * it is NAK (15); with 9 there is a frame to send (02), our EOT (04), our ENQ (05), or nothing (0); and with the
 * others nothing. On a strip reader's line a block is to be sent (02) with 4, 70, 71 and 72, and with 11 a
 * block or nothing; with the others nothing, with 31 neither. Faults are those of enum ngachodui_fault; 54
 * answers no event, and a start may get it. */
enum ngachodui_number {
    NGACHODUI_NOTHING = 0,          /* the byte was ignored or collected, or the seconds were counted */
    NGACHODUI_OPENED = 1,           /* ENQ: a transfer is open */
    NGACHODUI_ACCEPTED = 2,         /* a frame accepted; its message goes on */
    NGACHODUI_REPEATED = 3,         /* the last accepted frame once more, by its number; not kept again */
    NGACHODUI_STORED = 4,           /* the frame that ends a message, and the message is in the journal; of a
                                     * strip reader a finding, whose message is in the journal */
    NGACHODUI_ENDED = 5,            /* EOT: the transfer is over */
    NGACHODUI_DROPPED = 6,          /* EOT: the transfer is over, and unfinished text was dropped */
    NGACHODUI_TIMED_OUT = 7,        /* 30 seconds without a judged frame: the transfer is over */
    NGACHODUI_TAKEN = 8,            /* a message is in the buffer, with its length and serial */
    NGACHODUI_SENDING = 9,          /* the start or an event of a sending; `reply` says what is to be sent */
    NGACHODUI_HEARD = 11,           /* a right block of a strip reader that is not to be stored: it asks, it ends,
                                     * it tells colours, or it repeats what is stored */

    NGACHODUI_BUSY = 20,            /* ENQ while a transfer is open */
    NGACHODUI_UNENDED = 21,         /* a frame of 246 bytes, and the last is no LF */
    NGACHODUI_TORN = 22,            /* not the shape of a frame: too short, no CR before LF, no ETB or ETX */
    NGACHODUI_WRONG_CHECK = 23,     /* the check digits are not those of the frame's bytes */
    NGACHODUI_BAD_TEXT = 24,        /* a byte that may not stand in a text */
    NGACHODUI_BAD_NUMBER = 25,      /* the frame's number is not 0 to 7 */
    NGACHODUI_REFUSING = 26,        /* after 30, 31 or a fault: all else of this transfer is refused */
    NGACHODUI_OUT_OF_TURN = 27,     /* the frame's number is neither the last nor the next */
    NGACHODUI_TOO_LONG = 28,        /* with this frame the text has over 4,000 bytes */
    NGACHODUI_NO_CR = 29,           /* ETX, and the text is empty or does not end with CR */
    NGACHODUI_NO_MESSAGE = 30,      /* the text is complete and has a byte that is not allowed, which no frame
                                     * brings: only memory that the host has set can hold it */
    NGACHODUI_NO_ROOM = 31,         /* the message has no room in the journal; a strip reader gets no reply then */

    /* Refusals of the call: nothing at all has changed. */
    NGACHODUI_NO_LINE = 40,         /* the line is not 0 to 7 */
    NGACHODUI_WRONG_SIZE = 41,      /* a memory was lent at another size */
    NGACHODUI_BEYOND_LIMITS = 42,   /* the line's record holds what no record can, or a line is to speak what
                                     * is nothing */
    NGACHODUI_BROKEN = 43,          /* the journal's bytes and counts do not agree */
    NGACHODUI_NOTHING_WAITING = 44, /* the line has no message to take */
    NGACHODUI_BUFFER_SHORT = 45,    /* the buffer is shorter than the message */
    NGACHODUI_NOT_NEUTRAL = 60,     /* a start on a line that receives or sends, or on a strip reader's */

    /* No refusal: the line is neutral now. */
    NGACHODUI_GIVEN_UP = 61,        /* a sending is over and nothing is sent: our ENQ was answered by ENQ, or
                                     * refused for the sixth time */

    /* Blocks that are none of a strip reader's upload: REP is to be sent, and the reader sends again. */
    NGACHODUI_ODD_LENGTH = 70,      /* no block of this line has so many bytes */
    NGACHODUI_ODD_TEST = 71,        /* the two test bytes are not those of the block's bytes */
    NGACHODUI_ODD_BYTE = 72         /* a byte is not what such a block has there */
};

/* What `reply` may be, by name. */
enum ngachodui_control {
    NGACHODUI_STX = 0x02,           /* a frame is to be sent, or our block MOR or REP to a strip reader: fetch all
                                     * of it with ngachodui_outgoing */
    NGACHODUI_EOT = 0x04,           /* our EOT: the end of a sending */
    NGACHODUI_ENQ = 0x05,           /* our ENQ: asks whether one may begin */
    NGACHODUI_ACK = 0x06,
    NGACHODUI_NAK = 0x15
};

/* What a text function answers, by the numbers of the same table; a start gets 46 too, and what is fetched 40,
 * 41, 42 and 47. */
enum ngachodui_outcome {
    NGACHODUI_DONE = 0,             /* the output is written */
    NGACHODUI_MALFORMED = 46,       /* to cut, read or send: over 4,000 bytes, or one that is not allowed;
                                     * to unescape: a wrong escape */
    NGACHODUI_NOT_FITTING = 47      /* the output is longer than its memory */
};

/* Why a text is no message: what is wrong with a record, answered with the place of that record, counted
 * from 1. A text is walked up to its first wrong record; of the first, 50 goes before 55 and 55 before 52,
 * and of those behind it 51 before 52 and 52 before 53. An event gets these but for 54 where it completes
 * the text; cutting, reading and a start get all, and then nothing has changed and nothing is to be sent.
 * Escaping and unescaping are given the delimiters, and so 55 has no place there. */
enum ngachodui_fault {
    NGACHODUI_NO_HEADER = 50,       /* no H begins the first record, or it is too short to name four
                                     * delimiters behind it; or the text is empty */
    NGACHODUI_UNKNOWN_TYPE = 51,    /* its type is none of H P O R Q L C M */
    NGACHODUI_MISPLACED = 52,       /* its type may not stand there, or it is the last record and no L */
    NGACHODUI_MISNUMBERED = 53,     /* its sequence number is not the one that is due */
    NGACHODUI_NO_FINAL_CR = 54,     /* the text's last byte is no CR, which is looked at before the records: its
                                     * place is that of the last one */
    NGACHODUI_BAD_DELIMITERS = 55   /* two of the four delimiters are the same, or one is no byte from 21 to
                                     * 7E, or is a digit or a letter */
};

/* The answer to an event, a start or a taking. */
typedef struct ngachodui_answered {
    uint8_t number;    /* enum ngachodui_number, enum ngachodui_fault, or to a start 46 */
    uint8_t reply;     /* the first byte to send to the analyzer, enum ngachodui_control, or 0 for nothing. 02 is
                        * the first of a frame or a block, which is fetched and sent whole; the others are sent
                        * alone */
    uint16_t serial;   /* with answer 8 the message's serial, else 0 */
    uint16_t place;    /* with a fault the wrong record's place, from 1; else 0 */
    uint16_t digits;   /* 0 in this version */
    size_t length;     /* with answer 8 the message's length, else 0 */
} ngachodui_answered;

/* The answer of a text function, and of ngachodui_outgoing. */
typedef struct ngachodui_made {
    uint8_t number;    /* enum ngachodui_outcome, or enum ngachodui_fault; of ngachodui_outgoing 40 to 42 too */
    uint8_t spare;     /* 0 in this version */
    uint16_t place;    /* of a text that is cut or read and has a fault, the wrong record's place, from 1; else 0 */
    uint32_t value;    /* 0 in this version */
    size_t length;     /* when done: how much was written, from the start of the output; else 0 */
} ngachodui_made;

/* ---- State ---- */

enum ngachodui_line_state {
    NGACHODUI_NEUTRAL = 0,   /* no transfer; of a strip reader, between blocks */
    NGACHODUI_WAITING = 1,   /* a transfer is open, between frames */
    NGACHODUI_INSIDE = 2,    /* inside a frame, or inside a block */
    NGACHODUI_ASKING = 3,    /* in a sending: our ENQ awaits its reply */
    NGACHODUI_PAUSING = 4,   /* in a sending: the 10 seconds behind a refusal of our ENQ */
    NGACHODUI_OFFERING = 5   /* in a sending: a frame awaits its reply */
};

/* What a line speaks, by number: set at the start, and never changed. [B1] */
enum ngachodui_dialogue {
    NGACHODUI_FRAMES = 0,         /* frames, as E1381 has them */
    NGACHODUI_STRIPS_10 = 10,     /* blocks of a strip reader with patient numbers of 10 characters */
    NGACHODUI_STRIPS_13 = 13      /* the same with 13 */
};

/* What our last reply to a strip reader was, by number. */
enum ngachodui_replied {
    NGACHODUI_NONE_YET = 0,
    NGACHODUI_MORE = 1,           /* MOR: it may go on */
    NGACHODUI_AGAIN = 2           /* REP: it is to send the block again */
};

/* What a line is to be from the start. */
typedef struct ngachodui_settings {
    uint16_t speaks;      /* enum ngachodui_dialogue */
} ngachodui_settings;

/* One line. A host may read it at any time, and may save state and memories and load them again. A
 * record that the host sets itself is used as it is if it is within the limits here; if not, events on
 * that line are answered 42. On a line of frames `reply`, `since` and `kept` are not looked at; on a strip
 * reader's every state but inside is taken for neutral. [H3, B12] */
typedef struct ngachodui_line {
    uint16_t state;       /* enum ngachodui_line_state */
    uint16_t collected;   /* bytes of the frame so far, without its STX, up to 245; of the block so far, with its
                           * STX, up to 235 or 238 */
    uint16_t joined;      /* bytes of unfinished text, or of the text that is being sent, up to 4,000 */
    uint16_t seconds;     /* since the transfer opened or a frame was judged, or of the wait so far, up to 29 */
    uint16_t next;        /* the number of the next frame, or of the frame that is offered, up to 7 */
    uint16_t last;        /* one more than the number of the last accepted frame, up to 8; 0 for none */
    uint16_t refusing;    /* 1: a message of this transfer was refused; else 0 */
    uint16_t serial;      /* of the line's next message; after 65,535 comes 0 */
    uint16_t tries;       /* asking, pausing: how often our ENQ was refused, up to 5; offering: how often the
                           * frame was sent, up to 6; else 0 */
    uint16_t place;       /* offering: where the frame's text starts in the text, up to 4,000; else 0 */
    uint16_t speaks;      /* enum ngachodui_dialogue */
    uint16_t reply;       /* our last reply to the strip reader, enum ngachodui_replied */
    uint16_t since;       /* 1: an SPM or REP of the reader came since the last stored block; else 0 */
    uint16_t kept;        /* 1: a block was stored; else 0 */
    uint16_t spare[2];    /* 0 when fresh; in this version no call looks at them or changes them [H1] */
} ngachodui_line;

/* The numbers: those of all lines. */
typedef struct ngachodui_numbers {
    ngachodui_line lines[NGACHODUI_LINES];
    /* Each strip reader's last stored block, a byte to a number, 0 when fresh. A block of 236 bytes leaves the
     * last three as they were. They may be anything: they are only compared with what comes. [B10] */
    uint16_t blocks[NGACHODUI_LINES][NGACHODUI_BLOCK_LIMIT];
} ngachodui_numbers;

/* The counts: how much of the journal is used, in bytes. Counts that do not agree with the journal are
 * answered 43. */
typedef struct ngachodui_counts {
    uint32_t used[NGACHODUI_LINES];  /* by each line's messages, 4 counted for each besides its text */
    uint32_t in_use;                 /* by all of them together */
} ngachodui_counts;

/* A gateway, beside its three memories. */
typedef struct ngachodui_state {
    ngachodui_numbers numbers;
    ngachodui_counts counts;
} ngachodui_state;

/* A gateway with them: all that a host keeps of it. With 70,852 bytes it is large for a stack: make it
 * static. */
typedef struct ngachodui_gateway {
    uint8_t journal[NGACHODUI_JOURNAL_SIZE];
    uint8_t unfinished[NGACHODUI_UNFINISHED_SIZE];
    uint8_t frames[NGACHODUI_FRAMES_SIZE];
    ngachodui_state state;
} ngachodui_gateway;

/* The layout that a library was compiled for. */
typedef struct ngachodui_layout {
    uint32_t version;      /* NGACHODUI_VERSION */
    uint32_t numbers;      /* NGACHODUI_NUMBERS */
    uint32_t counts;       /* NGACHODUI_COUNTS */
    uint32_t journal;      /* NGACHODUI_JOURNAL_SIZE */
    uint32_t unfinished;   /* NGACHODUI_UNFINISHED_SIZE */
    uint32_t frames;       /* NGACHODUI_FRAMES_SIZE */
} ngachodui_layout;

#if defined(__cplusplus) && __cplusplus >= 201103L
#define NGACHODUI_FACT(fact) static_assert(fact, #fact)
#elif !defined(__cplusplus) && defined(__STDC_VERSION__) && __STDC_VERSION__ >= 201112L
#define NGACHODUI_FACT(fact) _Static_assert(fact, #fact)
#else
#define NGACHODUI_FACT(fact) struct ngachodui_layout
#endif
NGACHODUI_FACT(sizeof(ngachodui_numbers) == sizeof(uint16_t) * NGACHODUI_NUMBERS);
NGACHODUI_FACT(sizeof(ngachodui_line) == sizeof(uint16_t) * 16);
NGACHODUI_FACT(sizeof(ngachodui_settings) == sizeof(uint16_t));
NGACHODUI_FACT(sizeof(ngachodui_counts) == sizeof(uint32_t) * NGACHODUI_COUNTS);
NGACHODUI_FACT(sizeof(ngachodui_answered) == 16);
NGACHODUI_FACT(sizeof(ngachodui_made) == 16);
NGACHODUI_FACT(sizeof(ngachodui_layout) == 24);
#undef NGACHODUI_FACT

/* ---- The library's functions ---- */

/* The layout that the library was compiled for. */
ngachodui_layout ngachodui_sizes(void);

/* Makes every line neutral with next number 1 and serial 0, and the journal empty; the memories may
 * hold anything. Every line speaks frames. Call it once, before all else; later it forgets every message that
 * waits. [E3] */
void ngachodui_fresh(ngachodui_numbers *numbers, ngachodui_counts *counts);

/* The same where some lines have strip readers: each line speaks what its settings say. Call this or
 * ngachodui_fresh. Answers 0; or 42 where one of the eight is none of 0, 10 and 13, and then nothing is changed.
 * [B1, B12] */
uint8_t ngachodui_start(const ngachodui_settings settings[NGACHODUI_LINES],
                        ngachodui_numbers *numbers, ngachodui_counts *counts);

/* A byte has come in on a line.
 *
 * Answers 0 to 6, 9, 20 to 31, 40 to 43, 50 to 53, 55 and 61, and on a strip reader's line 0, 4, 11, 31, 40 to
 * 43 and 70 to 72, tested in this order: 40, 41, 42, then the byte's work. What `reply` says goes to the
 * analyzer, 06 or a block once what the call has left is saved.
 *
 * On a line that sends, the byte is the analyzer's reply:
 *   asking    06 sends the first frame; 05 gives the sending up (61); any other byte, 04 too, refuses our
 *             ENQ: nothing is sent and the line pauses, and the sixth refusal gives the sending up (61)
 *   pausing   it is ignored (0), the analyzer's own ENQ too
 *   offering  06 and 04 send the next frame, or behind the last one our EOT; any other byte, 05 too, sends the
 *             same frame again, and behind its sixth send our EOT
 * All of these but 0 and 61 are answered 9. [S5, S6, S7, S8, S9]
 *
 * On a strip reader's line a block is taken from its STX to the first CR, or to as many bytes as its longest
 * block has (236 with patient numbers of 10, 239 with 13); between blocks every byte but STX is ignored. Then it is
 * judged: 70 for its length, 71 for its test bytes, 72 for a byte that is out of place, each with REP to be
 * sent. The reader's SPM (may I begin?) and its D blocks (colours) get MOR, and its END gets nothing; its REP
 * gets our last reply, if there is one. An E block is a finding: it is stored as a message (4) with MOR. Where
 * it is the last stored block byte for byte, and an SPM or REP of the reader came since, it gets MOR and is not
 * stored again (11). Where it has no room (31) nothing is sent, and nothing later is refused for it.
 * [B3, B4, B5, B6, B9, B10, B11]
 *
 * Changes, by the answer, on a line of frames:
 *   0        at most this line's record, and its frame's next byte
 *   1, 5, 6, 61   this line's record: its counts 0, next number 1, no last number, not refusing
 *   9        this line's record: with our EOT as after 5; else its state, tries, place and next number, and
 *            its second count, which is 0
 *   2        the record; the frame's last byte; the text behind the line's unfinished text
 *   4        as 2, and the entry at the journal's end, the line's used count, the bytes in use, the
 *            line's serial; the line has no unfinished text any more
 *   30, 31, a fault   as 2, but the number is not advanced, the line has no unfinished text any more
 *            and refuses frames until the transfer ends
 *   3, 21 to 29   the frame's last byte; the line waits, its collected and second counts 0
 *   20, 40 to 43  nothing
 * A complete text is tested for 30, then its faults, 43 and 31. 43 leaves the line inside its frame; 30
 * seconds free it. [E5, E6, E7, O3, O4]
 * On a strip reader's line:
 *   0        nothing, or the block's next byte, the state and the collected count
 *   11, 31, 70, 71, 72   the block's last byte; the line is neutral, its three counts 0; `reply` is what was
 *            sent, but stays with 31, END and REP; `since` is 1 after SPM and REP
 *   4        the same, and the entry at the journal's end, the line's used count, the bytes in use, the line's
 *            serial; the block is kept, `kept` is 1 and `since` 0
 *   40 to 43  nothing: after 43 the block lacks its last byte
 * The unfinished text is never written there. [B7] */
ngachodui_answered ngachodui_byte(uint8_t line, uint8_t byte,
                                  ngachodui_numbers *numbers, ngachodui_counts *counts,
                                  uint8_t *journal, size_t journal_length,
                                  uint8_t *unfinished, size_t unfinished_length,
                                  uint8_t *frames, size_t frames_length);

/* So many seconds, 0 to 255, have passed on a line since the last call that said so.
 *
 * Answers 0, 7, 9, and 40, 41, 42 in this order. 0 changes the line's second count, and nothing on a
 * neutral line; 7 makes the line neutral, as after 5; 40 to 42 change nothing. On a line that sends the
 * answer is 9: at 15 seconds without a reply our EOT is sent and the line is neutral; at 10 seconds of a
 * pause our ENQ is sent again; before that nothing is sent, and the second count grows. What is over 15 or
 * 10 is not carried on. On a strip reader's line the answer is 0, and nothing is changed. The lines have no
 * clock in common: tell each one, as often as is convenient, at least every few seconds while its transfer is
 * open or while it sends. [E8, E9, E10, S8, S10, B6] */
ngachodui_answered ngachodui_seconds(uint8_t line, uint8_t seconds,
                                     ngachodui_numbers *numbers, ngachodui_counts *counts,
                                     uint8_t *journal, size_t journal_length,
                                     uint8_t *unfinished, size_t unfinished_length,
                                     uint8_t *frames, size_t frames_length);

/* Starts to send a message on a line: our ENQ is to be sent now (`reply` 05), and all that follows comes with
 * the answers to the analyzer's replies and to the seconds that pass.
 *
 * Answers 9, and tested in this order 40, 41 (of all three memories), 42, 60 (on a strip reader's line
 * always), and then the text as ngachodui_cut tests it: 46, 50 to 55 with `place`. With 9 the text is copied
 * over the start of the line's unfinished text, the host's own copy is not needed for the sending, and the line
 * asks: its counts are 0 but for `joined`, which is the text's length, next number 1, no last number, not
 * refusing. The others change nothing, and `reply` is 0: nothing goes to the analyzer, with a fault neither. The
 * journal and the frames are lent for their lengths alone. [S1, O7, L13] */
ngachodui_answered ngachodui_send(uint8_t line, const uint8_t *text, size_t text_length,
                                  ngachodui_numbers *numbers,
                                  const uint8_t *journal, size_t journal_length,
                                  uint8_t *unfinished, size_t unfinished_length,
                                  const uint8_t *frames, size_t frames_length);

/* The frame that a line offers, or on a strip reader's line our last reply, MOR or REP, written over the start
 * of the output: to be called, and all of it sent, each time that `reply` is 02. The frame is the one that
 * ngachodui_cut would make there; MOR and REP have six bytes.
 *
 * Answers 0 with the length, or with length 0 where the line offers no frame or has replied nothing yet, which
 * is never so where `reply` was 02; and 40, 41 (of the unfinished text), 42, 47 in this order. It changes nothing but the
 * output's first `length` bytes: called again before the line's next event, it gives the same. An output of
 * NGACHODUI_FRAME_LIMIT bytes is never too short. [S2, O7, B11] */
ngachodui_made ngachodui_outgoing(uint8_t line, const ngachodui_numbers *numbers,
                                  const uint8_t *unfinished, size_t unfinished_length,
                                  uint8_t *out, size_t out_length);

/* Takes a line's oldest message: its text goes to the start of the buffer, and it leaves the journal.
 *
 * Answers 8, and 40, 41 (of the journal), 43, 44, 45 in this order. With 8, `length` bytes of the
 * buffer are written and the rest keeps its bytes; later messages move up in the journal, and the
 * line's used count and the bytes in use fall. The others change nothing. Serials count a line's
 * messages, so the host can see that none is missing. A buffer of NGACHODUI_TEXT_LIMIT bytes is
 * never too short. [O5, J11, J12] */
ngachodui_answered ngachodui_take(uint8_t line,
                                  const ngachodui_numbers *numbers, ngachodui_counts *counts,
                                  uint8_t *journal, size_t journal_length,
                                  uint8_t *buffer, size_t buffer_length);

/* ---- A gateway in one piece ---- */

/* Whether the library was compiled for the layout of this header. */
static inline bool ngachodui_is_this_layout(void)
{
    const ngachodui_layout sizes = ngachodui_sizes();
    return sizes.version == NGACHODUI_VERSION && sizes.numbers == NGACHODUI_NUMBERS
        && sizes.counts == NGACHODUI_COUNTS && sizes.journal == NGACHODUI_JOURNAL_SIZE
        && sizes.unfinished == NGACHODUI_UNFINISHED_SIZE && sizes.frames == NGACHODUI_FRAMES_SIZE;
}

/* As ngachodui_fresh. False: the library is of another layout than this header, and nothing is done. */
static inline bool ngachodui_on_fresh(ngachodui_gateway *gateway)
{
    if (!ngachodui_is_this_layout())
        return false;
    ngachodui_fresh(&gateway->state.numbers, &gateway->state.counts);
    return true;
}

/* As ngachodui_start: 0, or 42 and nothing is changed. 41: the library is of another layout than this header, and
 * nothing is done. */
static inline uint8_t ngachodui_on_start(ngachodui_gateway *gateway,
                                         const ngachodui_settings settings[NGACHODUI_LINES])
{
    if (!ngachodui_is_this_layout())
        return NGACHODUI_WRONG_SIZE;
    return ngachodui_start(settings, &gateway->state.numbers, &gateway->state.counts);
}

/* As ngachodui_byte. */
static inline ngachodui_answered ngachodui_on_byte(ngachodui_gateway *gateway, uint8_t line, uint8_t byte)
{
    return ngachodui_byte(line, byte, &gateway->state.numbers, &gateway->state.counts,
                          gateway->journal, sizeof gateway->journal,
                          gateway->unfinished, sizeof gateway->unfinished,
                          gateway->frames, sizeof gateway->frames);
}

/* As ngachodui_seconds. */
static inline ngachodui_answered ngachodui_on_seconds(ngachodui_gateway *gateway, uint8_t line, uint8_t seconds)
{
    return ngachodui_seconds(line, seconds, &gateway->state.numbers, &gateway->state.counts,
                             gateway->journal, sizeof gateway->journal,
                             gateway->unfinished, sizeof gateway->unfinished,
                             gateway->frames, sizeof gateway->frames);
}

/* As ngachodui_send. */
static inline ngachodui_answered ngachodui_on_send(ngachodui_gateway *gateway, uint8_t line,
                                                   const uint8_t *text, size_t text_length)
{
    return ngachodui_send(line, text, text_length, &gateway->state.numbers,
                          gateway->journal, sizeof gateway->journal,
                          gateway->unfinished, sizeof gateway->unfinished,
                          gateway->frames, sizeof gateway->frames);
}

/* As ngachodui_outgoing. */
static inline ngachodui_made ngachodui_on_outgoing(const ngachodui_gateway *gateway, uint8_t line,
                                                   uint8_t *out, size_t out_length)
{
    return ngachodui_outgoing(line, &gateway->state.numbers,
                              gateway->unfinished, sizeof gateway->unfinished, out, out_length);
}

/* As ngachodui_take. */
static inline ngachodui_answered ngachodui_on_take(ngachodui_gateway *gateway, uint8_t line,
                                                   uint8_t *buffer, size_t buffer_length)
{
    return ngachodui_take(line, &gateway->state.numbers, &gateway->state.counts,
                          gateway->journal, sizeof gateway->journal, buffer, buffer_length);
}

/* ---- Texts ---- */

/* These need no gateway. When done, the output holds what is made, from its start, and keeps its rest;
 * refused, it keeps all its bytes. A text that is cut or read is tested for 46, then its faults, then 47;
 * escaping and unescaping test 55, then 46, then 47.
 *
 * The delimiters in force for a message are the four bytes behind its first one: the field, the repeat,
 * the component and the escape delimiter. Most analyzers name | \ ^ and & there. Who escapes or unescapes
 * for a message that it has hands over `text + 1`. Allowed are four different marks of ASCII: 21 to 7E
 * without the digits and the letters. All other bytes stand for themselves, | too where it is not named.
 * [R2, R3] */

/* Whether a text is a message: 1 to 4,000 allowed bytes, records ended by CR from H to L, in an order
 * and with sequence numbers by the rules R1 to R11 (docs/RULES.md), read with its own delimiters.
 * [R1, R11] */
bool ngachodui_is_message(const uint8_t *text, size_t text_length);

/* Cuts a message into the frames that send it: for each record pieces of 240 bytes, the last with
 * ETX, those before it with ETB, numbered from 1. A sending (ngachodui_send) sends these bytes, one frame
 * after the other, between ENQ and EOT; this is for who wants to see them all. 46, 50 to 55: the text is no
 * message. The length is the text's and 7 for each frame: at most NGACHODUI_CUT_LIMIT. [C2, C3, C4, C6] */
ngachodui_made ngachodui_cut(const uint8_t *text, size_t text_length, uint8_t *out, size_t out_length);

/* Reads a message: each record's type letter, where it starts in the text, its length without CR, and
 * its owner, by number from 1, or 0 where it has none (H and L). `length` is the number of records.
 * 46, 50 to 55: the text is no message. 47: one of the four has fewer slots than the message has
 * records; NGACHODUI_RECORDS_LIMIT are always enough. The lengths count slots, not bytes. [R13, R14] */
ngachodui_made ngachodui_read(const uint8_t *text, size_t text_length,
                              uint8_t *types, size_t types_length,
                              uint16_t *offsets, size_t offsets_length,
                              uint16_t *lengths, size_t lengths_length,
                              uint16_t *owners, size_t owners_length);

/* Writes a text so that it can stand in a field of a message with these delimiters: of each that stands in
 * the text, its letter between two escape delimiters, F for the field's, S for the component's, R for the
 * repeat's and E for the escape's. With | \ ^ & that is | as &F&, ^ as &S&, \ as &R& and & as &E&. 55: the
 * delimiters are not allowed. Never 46. At most three times the text's length. [R17, R19] */
ngachodui_made ngachodui_escape(const uint8_t delimiters[NGACHODUI_DELIMITERS],
                                const uint8_t *text, size_t text_length,
                                uint8_t *out, size_t out_length);

/* The way back, with the same delimiters. 55: they are not allowed. 46: a field, repeat or component
 * delimiter stands there, or an escape delimiter that begins none of the four escapes. [R17, R18] */
ngachodui_made ngachodui_unescape(const uint8_t delimiters[NGACHODUI_DELIMITERS],
                                  const uint8_t *component, size_t component_length,
                                  uint8_t *out, size_t out_length);

#ifdef __cplusplus
}
#endif

#endif
