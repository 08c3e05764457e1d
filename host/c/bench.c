/* One operation of the gateway, many times over, through the library or through the plain C gateway.
 * host/bench counts the instructions of its runs.
 *
 *     bench OPERATION SIDE COUNT [SIZE]
 *
 * SIDE is library, plain or none. With none all is done but the call of the gateway, so that what it
 * costs to call it again and again can be subtracted. Standard output has a checksum of all answers
 * and of all memory at the end, which both sides must share, and how many operations were done (for
 * bytes: how many bytes). An operation that reads a text is then done once with other delimiters, for
 * the checksum alone.
 *
 * Plain C sends nothing and has no strip readers: what a sending or a block costs is the library's alone.
 *
 *     bench OPERATION times ROUNDS [SIZE]
 *
 * runs the three in turn, so many rounds of short runs, and says how long the best run of each took:
 * what else the machine does hits all three alike, and the best runs least. */
#define _POSIX_C_SOURCE 200809L
#include "baseline.h"
#include "ngachodui.h"

#include <stdio.h>
#include <stdlib.h>
#include <string.h>
#include <time.h>

enum side { LIBRARY, PLAIN, NONE };

enum { STX = 0x02, ETX = 0x03, ENQ = 0x05, LF = 0x0A, CR = 0x0D, ETB = 0x17 };
enum { TEXT = NGACHODUI_TEXT_LIMIT, FRAME = NGACHODUI_FRAME_LIMIT, RECORDS = NGACHODUI_RECORDS_LIMIT, LINES = NGACHODUI_LINES };

/* Each operation is compiled once for each side, so that each calls its gateway directly. */
#define FOR_EACH_SIDE static inline __attribute__((always_inline))

static void stop(const char *why)
{
    fprintf(stderr, "bench: %s\n", why);
    exit(1);
}

/* ---- The two gateways ---- */

_Static_assert(sizeof((ngachodui_numbers){ 0 }.lines) == sizeof((struct plain_gateway){ 0 }.lines), "the lines' numbers lie alike");

/* Each has its own records; the memories, which lie alike on both sides, are the library's. */
static ngachodui_gateway library;
static struct plain_gateway plain;
static const struct plain_memory memory = {
    library.journal, sizeof library.journal, library.unfinished, sizeof library.unfinished, library.frames, sizeof library.frames
};
static uint8_t buffer[TEXT];

/* What is saved in front of an operation and put back behind it: all but the blocks of strip readers, which plain C has
 * not, and which would cost more than most operations. */
static ngachodui_line saved_lines[LINES];
static ngachodui_counts saved_counts;
static struct plain_gateway saved_plain;
static uint8_t saved_journal[NGACHODUI_JOURNAL_SIZE];

static uint64_t checksum;
static uint64_t done;

/* The compiler must take memory for read and changed here: nothing around is left out. */
#define KEEP_MEMORY() __asm__ volatile("" ::: "memory")

static inline void note(uint64_t value)
{
    checksum = checksum * 31 + value;
}

FOR_EACH_SIDE void fresh(enum side side)
{
    if (side == LIBRARY)
        ngachodui_fresh(&library.state.numbers, &library.state.counts);
    else if (side == PLAIN)
        plain = plain_fresh();
}

/* The number of an answer, and the place that it names, or 0. */
struct told {
    unsigned number;
    unsigned place;
};

/* A host looks at the answer only where there is one. With 0 nothing is noted either: the checksum lies in
 * memory, and from one byte to the next it would be waited for longer than for the gateway. */
FOR_EACH_SIDE struct told byte_in(enum side side, unsigned line, uint8_t byte)
{
    struct told told = { 0, 0 };
    if (side == LIBRARY) {
        ngachodui_answered answer = ngachodui_on_byte(&library, (uint8_t)line, byte);
        told = (struct told){ answer.number, answer.place };
        if (told.number != 0)
            note(64 * (uint64_t)answer.reply + told.number);
    } else if (side == PLAIN) {
        struct plain_answer answer = plain_event(&plain, &memory, line, PLAIN_BYTE, byte);
        told = (struct told){ answer.number, answer.place };
        if (told.number != 0) {
            int reply = plain_reply(told.number);
            note(64 * (uint64_t)(reply == PLAIN_NO_REPLY ? 0 : reply) + told.number);
        }
    } else {
        __asm__ volatile("" : "+r"(line), "+r"(byte));
    }
    return told;
}

FOR_EACH_SIDE void seconds_in(enum side side, unsigned line, uint8_t seconds)
{
    unsigned number = 0;
    if (side == LIBRARY)
        number = ngachodui_on_seconds(&library, (uint8_t)line, seconds).number;
    else if (side == PLAIN)
        number = plain_event(&plain, &memory, line, PLAIN_SECONDS, seconds).number;
    else
        __asm__ volatile("" : "+r"(line), "+r"(seconds));
    note(number);
}

FOR_EACH_SIDE void take_out(enum side side, unsigned line, size_t room)
{
    if (side == LIBRARY) {
        ngachodui_answered answer = ngachodui_on_take(&library, (uint8_t)line, buffer, room);
        note(answer.number + 64 * answer.length + 4096 * 64 * (uint64_t)answer.serial);
    } else if (side == PLAIN) {
        struct plain_answer answer = plain_take(&plain, library.journal, sizeof library.journal, line, buffer, room);
        note(answer.number + 64 * (size_t)answer.length + 4096 * 64 * (uint64_t)answer.serial);
    } else {
        __asm__ volatile("" : "+r"(line), "+r"(room));
    }
}

/* Both sides' records, whatever the side, so that it costs the same. */
static void save(void)
{
    memcpy(saved_lines, library.state.numbers.lines, sizeof saved_lines);
    saved_counts = library.state.counts;
    saved_plain = plain;
}

static inline void put_back(void)
{
    memcpy(library.state.numbers.lines, saved_lines, sizeof saved_lines);
    library.state.counts = saved_counts;
    plain = saved_plain;
    KEEP_MEMORY();
}

/* ---- Messages ---- */

static uint8_t text[TEXT];
static size_t length;

/* The delimiters of the texts that are made. */
static const uint8_t standard[NGACHODUI_DELIMITERS] = { '|', '\\', '^', '&' };
static const uint8_t others[NGACHODUI_DELIMITERS] = { '!', '~', '$', '%' };
static const uint8_t *delimiters = standard;

/* A record with its number, filled up to `size` bytes where that is more than it needs. */
static void add_record(char type, unsigned number, size_t size)
{
    const char field = (char)delimiters[0];
    size_t n = length + (size_t)sprintf((char *)text + length, "%c%c%u", type, field, number);
    const size_t end = length + size;
    if (n + 1 < end)
        text[n++] = (uint8_t)field;
    for (; n + 1 < end; n++)
        text[n] = (uint8_t)('a' + n % 26);
    text[n++] = CR;
    length = n;
}

/* A message of exactly `size` bytes, at least 20: few records of up to 900 bytes, or many of 4 and 5. */
static void make_message(size_t size, bool many)
{
    enum { END = 4, LONG = 900, LEAST = 12 };
    if (size < 20 || size > TEXT)
        stop("a message has 20 to 4,000 bytes here");
    length = (size_t)sprintf((char *)text, "H%.4s\r", (const char *)delimiters);
    if (many) {
        unsigned orders = 0;
        if (size - length >= 32)
            add_record('P', 1, 0);
        while (size - length >= 80) {
            add_record('O', ++orders, 0);
            for (unsigned results = 1; results <= 9; results++)
                add_record('R', results, 0);
        }
    }
    for (unsigned number = 1; size - length > END; number++) {
        size_t left = size - length - END;
        add_record('M', number, left > LONG + LEAST ? LONG : left);
    }
    add_record('L', 1, 0);
    if (length != size || !plain_is_message(text, length))
        stop("the message is not what it should be");
}

static uint8_t sent[NGACHODUI_CUT_LIMIT];
static size_t sent_length;

static void cut_message(void)
{
    if (plain_cut(text, length, sent, sizeof sent, &sent_length).number != PLAIN_NOTHING)
        stop("the message is not cut");
}

/* The check digits of a frame, behind its ETB or ETX. */
static void put_check(const uint8_t *frame, uint8_t *end)
{
    unsigned sum = 0;
    for (const uint8_t *at = frame + 1; at <= end; at++)
        sum += *at;
    end[1] = (uint8_t)"0123456789ABCDEF"[sum >> 4 & 15];
    end[2] = (uint8_t)"0123456789ABCDEF"[sum & 15];
}

/* A wrong number for the last record, L, which has the last frame to itself: a fault that is met at the very end. */
static void misnumber_last(void)
{
    enum { RECORD = 4 };
    uint8_t *frame = sent + sent_length - (RECORD + 7);
    frame[4] = '2';
    put_check(frame, frame + 2 + RECORD);
}

static unsigned records_of_text(void)
{
    unsigned records = 0;
    for (size_t i = 0; i < length; i++)
        records += text[i] == CR;
    return records;
}

/* ---- Bytes through the lines ---- */

/* Collected bytes, round robin over eight lines: 240 on each, then the frames begin again. */
FOR_EACH_SIDE void collected(enum side side, uint64_t count)
{
    enum { BYTES = 240 };
    fresh(side);
    for (unsigned line = 0; line < LINES; line++) {
        byte_in(side, line, ENQ);
        byte_in(side, line, STX);
    }
    save();
    for (uint64_t i = 0; i < count; i++) {
        for (unsigned at = 0; at < BYTES; at++)
            for (unsigned line = 0; line < LINES; line++)
                byte_in(side, line, (uint8_t)('A' + (at & 31)));
        put_back();
    }
    done = count * BYTES * LINES;
}

/* A trace's events, from fresh. Its bytes, seconds and takings are one operation each. */
struct event {
    uint8_t line;
    uint8_t kind;
    uint16_t value;
};

static struct event *events;
static size_t events_length;

static void read_trace(void)
{
    unsigned line, value;
    char kind, row[32];
    while (fgets(row, sizeof row, stdin)) {
        bool good = row[1] == ' ' && row[2] == 'B' ? sscanf(row, "%1u %c %2x", &line, &kind, &value) == 3
                                                   : sscanf(row, "%1u %c %4u", &line, &kind, &value) == 3;
        if (!good)
            stop("no trace on standard input");
        if ((events_length & (events_length - 1)) == 0) {
            events = realloc(events, (2 * events_length + 1) * sizeof *events);
            if (!events)
                stop("no memory");
        }
        events[events_length++] = (struct event){ (uint8_t)line, (uint8_t)kind, (uint16_t)value };
    }
}

FOR_EACH_SIDE void morning(enum side side, uint64_t count)
{
    for (uint64_t i = 0; i < count; i++) {
        fresh(side);
        for (size_t at = 0; at < events_length; at++) {
            struct event event = events[at];
            if (event.kind == 'B')
                byte_in(side, event.line, (uint8_t)event.value);
            else if (event.kind == 'S')
                seconds_in(side, event.line, (uint8_t)event.value);
            else
                take_out(side, event.line, event.value);
        }
    }
    done = count * events_length;
}

/* ---- Frames and messages ---- */

static size_t text_of_frame(size_t size)
{
    enum { MOST = FRAME - 7 };
    if (size > MOST)
        stop("a frame has up to 240 bytes of text");
    return size ? size : MOST;
}

/* A frame with so many bytes of text and ETB, right in all or with a wrong check digit; its end is where its LF stands. */
static uint8_t *make_frame(uint8_t frame[FRAME], size_t size, bool right)
{
    uint8_t *end = frame + 2 + size;
    frame[0] = STX;
    frame[1] = '1';
    for (size_t i = 0; i < size; i++)
        frame[2 + i] = (uint8_t)('!' + i % 90);
    end[0] = ETB;
    put_check(frame, end);
    if (!right)
        end[2] = '?';
    end[3] = CR;
    end[4] = LF;
    return end + 4;
}

/* The LF of a frame. */
FOR_EACH_SIDE void judged(enum side side, uint64_t count, size_t size, bool right)
{
    uint8_t frame[FRAME];
    const uint8_t *end = make_frame(frame, size, right);
    fresh(side);
    byte_in(side, 3, ENQ);
    for (const uint8_t *at = frame; at < end; at++)
        byte_in(side, 3, *at);
    save();
    for (uint64_t i = 0; i < count; i++) {
        unsigned number = byte_in(side, 3, LF).number;
        if (side != NONE && number != (right ? NGACHODUI_ACCEPTED : NGACHODUI_WRONG_CHECK))
            stop("the frame is not judged as it should be");
        put_back();
    }
    done = count;
}

/* A whole frame, from STX to LF. */
FOR_EACH_SIDE void framed(enum side side, uint64_t count, size_t size)
{
    uint8_t frame[FRAME];
    const uint8_t *end = make_frame(frame, size, true);
    fresh(side);
    byte_in(side, 3, ENQ);
    save();
    for (uint64_t i = 0; i < count; i++) {
        unsigned number = 0;
        for (const uint8_t *at = frame; at <= end; at++)
            number = byte_in(side, 3, *at).number;
        if (side != NONE && number != NGACHODUI_ACCEPTED)
            stop("the frame is not judged as it should be");
        put_back();
    }
    done = count;
}

/* The LF that completes a text, in an empty journal: the records are checked, and the text is stored, or refused for
 * the last of them. */
FOR_EACH_SIDE void decided(enum side side, uint64_t count, bool right)
{
    const unsigned last_place = records_of_text();
    fresh(side);
    byte_in(side, 3, ENQ);
    for (size_t i = 0; i < sent_length - 1; i++)
        byte_in(side, 3, sent[i]);
    save();
    for (uint64_t i = 0; i < count; i++) {
        struct told told = byte_in(side, 3, LF);
        if (side != NONE && told.number != (right ? PLAIN_STORED : PLAIN_MISNUMBERED))
            stop("the text is not decided as it should be");
        if (side != NONE && !right && told.place != last_place)
            stop("the fault is told at another place");
        put_back();
    }
    done = count;
}

/* ---- Takings ---- */

/* A journal of so many entries, each of the message, on the lines in turn. */
static void fill_journal(unsigned entries)
{
    size_t at = 0;
    for (unsigned i = 0; i < entries; i++) {
        unsigned line = i % LINES, serial = i / LINES;
        size_t size = 4 + length;
        if (at + size > sizeof library.journal)
            stop("so many entries do not fit");
        const uint8_t header[4] = { (uint8_t)(line << 5 | length >> 8), (uint8_t)length, (uint8_t)(serial >> 8), (uint8_t)serial };
        memcpy(library.journal + at, header, 4);
        memcpy(library.journal + at + 4, text, length);
        at += size;
        library.state.counts.used[line] += (uint32_t)size;
        library.state.numbers.lines[line].serial++;
        plain.ledger.used[line] += (uint32_t)size;
        plain.lines[line].serial++;
    }
    library.state.counts.in_use = plain.ledger.in_use = (uint32_t)at;
    memcpy(saved_journal, library.journal, sizeof saved_journal);
}

/* The first entry is taken, all others move up, and the journal is put back. */
FOR_EACH_SIDE void taken(enum side side, uint64_t count, unsigned entries)
{
    plain = plain_fresh();
    ngachodui_fresh(&library.state.numbers, &library.state.counts);
    fill_journal(entries);
    save();
    for (uint64_t i = 0; i < count; i++) {
        take_out(side, 0, sizeof buffer);
        memcpy(library.journal, saved_journal, sizeof saved_journal);
        put_back();
    }
    take_out(side, 0, sizeof buffer); /* so that what a taking leaves is in the checksum */
    done = count;
}

/* ---- Texts ---- */

static uint8_t out[3 * TEXT + FRAME];
static size_t out_length;

static void note_bytes(const uint8_t *bytes, size_t n)
{
    for (size_t i = 0; i < n; i++)
        note(bytes[i]);
}

enum text_function { CHECK, CUT, ESCAPE, UNESCAPE };

FOR_EACH_SIDE void over_text(enum side side, uint64_t count, enum text_function function)
{
    for (uint64_t i = 0; i < count; i++) {
        unsigned number = 0;
        if (side == LIBRARY && function == CHECK) {
            number = ngachodui_is_message(text, length) ? 0 : NGACHODUI_MALFORMED;
        } else if (side == LIBRARY) {
            ngachodui_made made = function == CUT ? ngachodui_cut(text, length, out, sizeof out)
                                : function == ESCAPE ? ngachodui_escape(delimiters, text, length, out, sizeof out)
                                : ngachodui_unescape(delimiters, text, length, out, sizeof out);
            number = made.number;
            out_length = made.length;
        } else if (side == PLAIN && function == CHECK) {
            number = plain_is_message(text, length) ? 0 : NGACHODUI_MALFORMED;
        } else if (side == PLAIN) {
            number = function == CUT ? plain_cut(text, length, out, sizeof out, &out_length).number
                   : function == ESCAPE ? plain_escape(delimiters, text, length, out, sizeof out, &out_length)
                   : plain_unescape(delimiters, text, length, out, sizeof out, &out_length);
        }
        KEEP_MEMORY();
        if (number != 0)
            stop("the text is refused");
        note(side == NONE ? 0 : 1);
    }
    note_bytes(out, out_length);
    done = count;
}

/* Reading fills four arrays in the library, and one of structs in plain C. */
static uint8_t types[RECORDS];
static uint16_t offsets[RECORDS], lengths[RECORDS], owners[RECORDS];
static struct plain_record rows[RECORDS];

FOR_EACH_SIDE void records_read(enum side side, uint64_t count)
{
    size_t n = 0;
    for (uint64_t i = 0; i < count; i++) {
        if (side == LIBRARY)
            n = ngachodui_read(text, length, types, RECORDS, offsets, RECORDS, lengths, RECORDS, owners, RECORDS).length;
        else if (side == PLAIN && plain_read(text, length, rows, RECORDS, &n).number != PLAIN_NOTHING)
            stop("the text is refused");
        KEEP_MEMORY();
        note(n);
    }
    for (size_t i = 0; i < n; i++) {
        note(side == LIBRARY ? types[i] : rows[i].type);
        note(side == LIBRARY ? offsets[i] : rows[i].offset);
        note(side == LIBRARY ? lengths[i] : rows[i].length);
        note(side == LIBRARY ? owners[i] : rows[i].owner);
    }
    done = count;
}

/* Letters, or with every fourth byte a delimiter; to unescape, the same escaped, so about so long. */
static void make_text(size_t size, bool many, bool escaped)
{
    if (size > TEXT)
        stop("a text has up to 4,000 bytes here");
    for (size_t i = 0; i < size; i++)
        text[i] = many && i % 4 == 3 ? delimiters[i / 4 % 4] : (uint8_t)('a' + i % 26);
    length = size;
    if (escaped && many) {
        length = size * 2 / 3;
        if (plain_escape(delimiters, text, length, out, sizeof out, &length) != PLAIN_NOTHING || length > TEXT)
            stop("the text is not escaped");
        memcpy(text, out, length);
        memset(out, 0, sizeof out);
    }
}

/* ---- Sendings ---- */

enum sending_call { START, REPLY, FETCH };

/* The start of a sending; an ACK to its second frame, behind which there is a third; or the second frame, fetched. */
FOR_EACH_SIDE void sending(enum side side, uint64_t count, enum sending_call call)
{
    if (side == PLAIN)
        stop("plain C sends nothing");
    fresh(LIBRARY);
    if (call != START) {
        ngachodui_on_send(&library, 3, text, length);
        ngachodui_on_byte(&library, 3, NGACHODUI_ACK);
        if (ngachodui_on_byte(&library, 3, NGACHODUI_ACK).reply != NGACHODUI_STX)
            stop("the message has no second frame");
    }
    save();
    for (uint64_t i = 0; i < count; i++) {
        if (side == LIBRARY && call == FETCH) {
            out_length = ngachodui_on_outgoing(&library, 3, out, FRAME).length;
        } else if (side == LIBRARY) {
            ngachodui_answered answer = call == START ? ngachodui_on_send(&library, 3, text, length)
                                                      : ngachodui_on_byte(&library, 3, NGACHODUI_ACK);
            if (answer.reply != (call == START ? NGACHODUI_ENQ : NGACHODUI_STX))
                stop("the sending does not go on as it should");
            note(answer.reply);
        }
        put_back();
    }
    note_bytes(out, out_length);
    done = count;
}

/* ---- Strip readers ---- */

enum block_call { BLOCK_BYTE, BLOCK_STORED, BLOCK_REPEATED, BLOCK_REFUSED, BLOCK_FETCHED };

/* A finding, with patient numbers of 10. */
static const char finding[] =
    "\x02;E 4711       00012 15.03.01 09:30 SG1.030      PH  7      LEU     500/ul ++++ NITpos pos  PRO   0.75 g/l ++++ "
    "GLU  56 mmol/l ++++ KET 0.5 mmol/l   ++ UBG  68 umol/l ++++ BIL  50 umol/l ++++ ERY      25/ul ++++ NAG                 "
    "\x03" "30\r";
enum { E_BLOCK = sizeof finding - 1 };

static const ngachodui_settings readers[LINES] = { { 10 }, { 10 }, { 10 }, { 10 }, { 10 }, { 10 }, { 10 }, { 10 } };

/* Bytes on a reader's line; the answer to the last. */
static unsigned block_in(unsigned line, const char *bytes, size_t n)
{
    unsigned number = 0;
    for (size_t i = 0; i < n; i++)
        number = byte_in(LIBRARY, line, (uint8_t)bytes[i]).number;
    return number;
}

/* Eight blocks, 200 bytes of each, byte by byte in turn; or the last byte of a finding, of a repeat, of one with wrong test
 * bytes; or our reply, fetched. */
FOR_EACH_SIDE void block(enum side side, uint64_t count, enum block_call call)
{
    enum { BYTES = 200 };
    if (side == PLAIN)
        stop("plain C has no strip readers");
    if (ngachodui_start(readers, &library.state.numbers, &library.state.counts) != 0)
        stop("the lines are not set");
    if (call == BLOCK_REPEATED && (block_in(3, finding, E_BLOCK) != NGACHODUI_STORED || block_in(3, "\x02<\x03" "3=\r", 6) != NGACHODUI_HEARD))
        stop("the finding is not stored");
    for (unsigned line = 0; line < LINES; line++)
        block_in(line, finding, call == BLOCK_BYTE ? 1 : E_BLOCK - 1);
    if (call == BLOCK_REFUSED)
        library.frames[3 * NGACHODUI_FRAME_PART + 5] ^= 1;
    if (call == BLOCK_FETCHED)
        block_in(3, "\r", 1);
    save();
    for (uint64_t i = 0; i < count; i++) {
        static const unsigned judged_as[] = { [BLOCK_STORED] = NGACHODUI_STORED, [BLOCK_REPEATED] = NGACHODUI_HEARD, [BLOCK_REFUSED] = NGACHODUI_ODD_TEST };
        if (call == BLOCK_BYTE) {
            for (unsigned at = 1; at <= BYTES; at++)
                for (unsigned line = 0; line < LINES; line++)
                    byte_in(side, line, (uint8_t)finding[at]);
        } else if (call == BLOCK_FETCHED) {
            if (side == LIBRARY)
                out_length = ngachodui_on_outgoing(&library, 3, out, FRAME).length;
        } else if (byte_in(side, 3, CR).number != judged_as[call] && side == LIBRARY) {
            stop("the block is not judged as it should be");
        }
        put_back();
    }
    note_bytes(out, out_length);
    done = call == BLOCK_BYTE ? count * BYTES * LINES : count;
}

/* ---- The command ---- */

static uint64_t nanoseconds(void)
{
    struct timespec at;
    clock_gettime(CLOCK_MONOTONIC, &at);
    return (uint64_t)at.tv_sec * 1000000000 + (uint64_t)at.tv_nsec;
}

/* Always as many digits, one by one: so it takes as many instructions whatever the number is. */
static void write_number(FILE *file, const char *words, uint64_t number)
{
    char digits[21] = "";
    for (int i = 19; i >= 0; i--, number /= 10)
        digits[i] = (char)('0' + number % 10);
    fputs(words, file);
    fputs(digits, file);
    fputs("\n", file);
}

/* An operation by its name, with its size. */
struct operation {
    const char *name;
    size_t size;
};

static bool is(struct operation o, const char *name)
{
    return strcmp(o.name, name) == 0;
}

static bool starts(struct operation o, const char *start)
{
    return strncmp(o.name, start, strlen(start)) == 0;
}

static bool takes_message(struct operation o)
{
    return starts(o, "decided-") || starts(o, "faulty-") || starts(o, "check-") || starts(o, "cut-") || starts(o, "read-") ||
           starts(o, "started-") || starts(o, "replied-") || starts(o, "fetched-");
}

static bool takes_component(struct operation o)
{
    return starts(o, "escape-") || starts(o, "unescape-");
}

/* What an operation works on, made once for its delimiters. */
static void prepare(struct operation o)
{
    const bool many = strstr(o.name, "-many") != NULL;
    if (is(o, "morning"))
        read_trace();
    else if (is(o, "taken-many"))
        length = (size_t)sprintf((char *)text, "H|\\^&|A\rL|1\r");
    else if (is(o, "taken-few"))
        make_message(TEXT, false);
    else if (takes_component(o))
        make_text(o.size ? o.size : TEXT, many, starts(o, "unescape-"));
    else if (takes_message(o))
        make_message(o.size ? o.size : TEXT, many);
    if (starts(o, "decided-") || starts(o, "faulty-"))
        cut_message();
    if (starts(o, "faulty-"))
        misnumber_last();
}

FOR_EACH_SIDE void run_side(enum side side, struct operation o, uint64_t count)
{
    if (is(o, "collected"))
        collected(side, count);
    else if (is(o, "morning"))
        morning(side, count);
    else if (is(o, "accepted") || is(o, "refused"))
        judged(side, count, text_of_frame(o.size), is(o, "accepted"));
    else if (is(o, "framed"))
        framed(side, count, text_of_frame(o.size));
    else if (starts(o, "decided-"))
        decided(side, count, true);
    else if (starts(o, "faulty-"))
        decided(side, count, false);
    else if (starts(o, "taken-"))
        taken(side, count, (unsigned)(o.size ? o.size : is(o, "taken-few") ? 8 : 2000));
    else if (starts(o, "check-"))
        over_text(side, count, CHECK);
    else if (starts(o, "cut-"))
        over_text(side, count, CUT);
    else if (starts(o, "read-"))
        records_read(side, count);
    else if (starts(o, "escape-"))
        over_text(side, count, ESCAPE);
    else if (starts(o, "unescape-"))
        over_text(side, count, UNESCAPE);
    else if (starts(o, "started-"))
        sending(side, count, START);
    else if (starts(o, "replied-"))
        sending(side, count, REPLY);
    else if (starts(o, "fetched-"))
        sending(side, count, FETCH);
    else if (is(o, "block-byte"))
        block(side, count, BLOCK_BYTE);
    else if (is(o, "block-stored"))
        block(side, count, BLOCK_STORED);
    else if (is(o, "block-repeated"))
        block(side, count, BLOCK_REPEATED);
    else if (is(o, "block-refused"))
        block(side, count, BLOCK_REFUSED);
    else if (is(o, "block-fetched"))
        block(side, count, BLOCK_FETCHED);
    else
        stop("no such operation");
}

static void run(enum side side, struct operation o, uint64_t count)
{
    if (side == LIBRARY)
        run_side(LIBRARY, o, count);
    else if (side == PLAIN)
        run_side(PLAIN, o, count);
    else
        run_side(NONE, o, count);
}

static uint64_t time_of(enum side side, struct operation o, uint64_t count)
{
    uint64_t start = nanoseconds();
    run(side, o, count);
    return nanoseconds() - start;
}

/* Runs of half a millisecond, so short that most of them are not interrupted. */
static void compare_times(struct operation o, uint64_t rounds)
{
    enum { SHORT = 500000, TRIES = 5 };
    uint64_t count = 1, best[] = { UINT64_MAX, UINT64_MAX, UINT64_MAX };
    for (unsigned tries = 0; tries < TRIES; tries++) {
        if (time_of(PLAIN, o, count) < SHORT) {
            count *= 2;
            tries = 0;
        }
    }
    for (uint64_t round = 0; round < rounds; round++) {
        for (unsigned turn = 0; turn < 3; turn++) {
            enum side side = (enum side)((round + turn) % 3);
            uint64_t took = time_of(side, o, count);
            if (took < best[side])
                best[side] = took;
        }
    }
    write_number(stdout, "runs of ", count);
    write_number(stdout, "library ", best[LIBRARY]);
    write_number(stdout, "plain ", best[PLAIN]);
    write_number(stdout, "none ", best[NONE]);
}

int main(int argc, char **argv)
{
    if (argc != 4 && argc != 5)
        stop("bench OPERATION library|plain|none COUNT [SIZE], or bench OPERATION times ROUNDS [SIZE]");
    if (!ngachodui_is_this_layout())
        stop("the library has another layout than its header");
    const struct operation o = { argv[1], argc == 5 ? strtoul(argv[4], NULL, 10) : 0 };
    const uint64_t count = strtoull(argv[3], NULL, 10);
    prepare(o);
    if (strcmp(argv[2], "times") == 0) {
        compare_times(o, count);
        return 0;
    }
    enum side side = strcmp(argv[2], "library") == 0 ? LIBRARY : strcmp(argv[2], "plain") == 0 ? PLAIN : NONE;
    if (side == NONE && strcmp(argv[2], "none") != 0)
        stop("the side is library, plain or none");
    run(side, o, count);
    const uint64_t operations = done;
    if (takes_message(o) || takes_component(o)) {
        delimiters = others;
        prepare(o);
        run(side, o, 1);
    }

    /* The lines' numbers, the counts and the memories, which lie alike on both sides. */
    const void *numbers = side == LIBRARY ? (const void *)library.state.numbers.lines : (const void *)plain.lines;
    note_bytes(numbers, sizeof plain.lines);
    for (unsigned line = 0; line < LINES; line++)
        note(side == LIBRARY ? library.state.counts.used[line] : plain.ledger.used[line]);
    note(side == LIBRARY ? library.state.counts.in_use : plain.ledger.in_use);
    note_bytes(library.journal, sizeof library.journal);
    note_bytes(library.unfinished, sizeof library.unfinished);
    note_bytes(library.frames, sizeof library.frames);
    note_bytes(buffer, sizeof buffer);
    write_number(stdout, "checksum ", checksum);
    write_number(stdout, "operations ", operations);
    return 0;
}
