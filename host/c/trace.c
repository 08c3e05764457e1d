/* Writes a trace for the replay: a morning's traffic on eight lines, byte by byte.
 *
 *     trace EVENTS SEED > TRACE
 *
 * The same two numbers give the same trace. The analyzers and the laboratories' readers are blind
 * here: they go on as if each frame were acknowledged, unless this program decided that it was not. */
#include <assert.h>
#include <inttypes.h>
#include <stdbool.h>
#include <stdio.h>
#include <stdlib.h>
#include <string.h>

enum {
    LINES = 8,
    FLOODING = LINES - 1,     /* this line sends the most and is read the least */
    TEXT_LIMIT = 3900,
    PIECE = 240,
    FRAME_LIMIT = PIECE + 7,
    SCRIPT_LIMIT = 1 << 18,   /* twelve messages, the longest, each frame sent three times */
    SECONDS = 256,            /* a step from here on is that many seconds more than 0 */
    MESSAGE_SENT = 1024,      /* a step that is no event: one more message waits for its reader */
    STX = 0x02, ETX = 0x03, EOT = 0x04, ENQ = 0x05, LF = 0x0A, CR = 0x0D, ETB = 0x17
};

/* ---- Chance ---- */

static uint64_t seed;

/* SplitMix64: small, and good enough for traffic. */
static uint64_t next_random(void)
{
    seed += UINT64_C(0x9E3779B97F4A7C15);
    uint64_t x = seed;
    x = (x ^ x >> 30) * UINT64_C(0xBF58476D1CE4E5B9);
    x = (x ^ x >> 27) * UINT64_C(0x94D049BB133111EB);
    return x ^ x >> 31;
}

static unsigned below(unsigned n)
{
    return (unsigned)((next_random() >> 32) * n >> 32);
}

static bool one_in(unsigned n)
{
    return below(n) == 0;
}

/* ---- Messages ---- */

struct message {
    unsigned length;
    char text[TEXT_LIMIT + 512];
};

static const char *const tests[] = { "GLU", "CREA", "UREA", "F-Hb", "ALT", "AST", "TSH", "CRP", "Na", "K", "HbA1c" };
static const char *const units[] = { "mmol/L", "umol/L", "ng/mL", "U/L", "mg/L", "%" };
static const char *const flags[] = { "N", "N", "N", "N", "H", "L", "HH", "" };
static const char *const families[] = { "Okafor", "Lindqvist", "Marangoni", "Devi", "Haaland", "Petrescu", "Sy" };

#define ANY(list) list[below(sizeof list / sizeof *list)]

static void add(struct message *message, const char *record)
{
    size_t n = strlen(record);
    memcpy(message->text + message->length, record, n);
    message->length += (unsigned)n;
    message->text[message->length++] = CR;
}

/* A well-formed message of exactly `length` bytes, from 100 to TEXT_LIMIT. */
static void write_message(struct message *message, unsigned length)
{
    enum { LAST = 6, COMMENT = 8 };
    /* What the records of one round below may need. With more, the comment at the end is a long one. */
    const unsigned round = one_in(10) ? 420 : 160;
    char record[512];
    unsigned patients = 0, orders = 0, results = 0, comments = 0;
    char day[32];
    snprintf(day, sizeof day, "20260%u%02u%02u%02u%02u", 1 + below(9), 1 + below(28), 6 + below(6), below(60),
             below(60));

    message->length = 0;
    snprintf(record, sizeof record, "H|\\^&|||AN%u^1.0%02u|||||||P||%s", 100 + below(900), below(100), day);
    add(message, record);
    while (message->length + round + LAST + COMMENT <= length) {
        unsigned what = below(8);
        comments = 0;
        if (patients == 0 || (what == 0 && results > 0)) {
            snprintf(record, sizeof record, "P|%u||%07u||%s^%c||19%02u%02u%02u|%c", ++patients, below(10000000),
                     ANY(families), 'A' + (char)below(26), 20 + below(80), 1 + below(12), 1 + below(28),
                     one_in(2) ? 'F' : 'M');
            orders = results = 0;
        } else if (orders == 0 || (what == 1 && results > 0)) {
            snprintf(record, sizeof record, "O|%u|%08u^%02u|%05u^%u|^^^%s|%c||%s", ++orders, below(100000000),
                     below(100), below(100000), 1 + below(5), ANY(tests), one_in(9) ? 'S' : 'R', day);
            results = 0;
        } else {
            snprintf(record, sizeof record, "R|%u|^^^%s^%u|%u.%02u|%s||%s||F||op%02u||%s", ++results, ANY(tests),
                     below(100), below(400), below(100), ANY(units), ANY(flags), below(30), day);
        }
        add(message, record);
        if (what == 7) {
            snprintf(record, sizeof record, "C|%u|I|%u^sample checked by hand|G", ++comments, below(100));
            add(message, record);
        }
    }
    unsigned n = (unsigned)snprintf(record, sizeof record, "C|%u|I|", comments + 1);
    for (unsigned rest = length - LAST - 1 - message->length; n < rest; n++)
        record[n] = "etaoin shrdlu 0123456789"[below(24)];
    record[n] = '\0';
    add(message, record);
    add(message, "L|1|N");
}

/* ---- What a line is going to do ---- */

struct script {
    unsigned at;
    unsigned length;
    unsigned waiting;               /* messages that its reader has not taken */
    uint16_t steps[SCRIPT_LIMIT];
};

static struct script scripts[LINES];

static void plan(struct script *script, unsigned step)
{
    assert(script->length < SCRIPT_LIMIT);
    script->steps[script->length++] = (uint16_t)step;
}

static void plan_frame(struct script *script, unsigned number, const char *text, unsigned n, unsigned char end)
{
    static const char hex[] = "0123456789ABCDEF";
    unsigned char frame[FRAME_LIMIT];
    unsigned size = 0, sum = 0;
    frame[size++] = STX;
    frame[size++] = (unsigned char)('0' + number);
    memcpy(frame + size, text, n);
    size += n;
    frame[size++] = end;
    for (unsigned i = 1; i < size; i++)
        sum += frame[i];
    frame[size++] = (unsigned char)hex[sum >> 4 & 15];
    frame[size++] = (unsigned char)hex[sum & 15];
    frame[size++] = CR;
    frame[size++] = LF;

    if (one_in(60)) { /* damaged on the way, so answered NAK and sent again below */
        unsigned hit = 1 + below(size - 2);
        bool lost = one_in(3);
        unsigned noise = 0x20 + below(0x5F);
        for (unsigned i = 0; i < size; i++) {
            if (i != hit)
                plan(script, frame[i]);
            else if (!lost)
                plan(script, noise);
        }
        plan(script, SECONDS + 1);
    }
    unsigned times = one_in(80) ? 2 : 1; /* twice where the ACK was lost */
    while (times-- > 0)
        for (unsigned i = 0; i < size; i++)
            plan(script, frame[i]);
    if (one_in(4))
        plan(script, SECONDS + below(3));
}

/* Even lines send a frame for each record, odd ones fill their frames: analyzers do both. */
static unsigned plan_message(struct script *script, bool by_record, unsigned number, const struct message *message)
{
    unsigned at = 0;
    while (at < message->length) {
        unsigned end = message->length;
        if (by_record)
            end = (unsigned)((const char *)memchr(message->text + at, CR, end - at) - message->text) + 1;
        while (at < end) {
            unsigned n = end - at > PIECE ? PIECE : end - at;
            plan_frame(script, number, message->text + at, n, at + n == end ? ETX : ETB);
            number = (number + 1) & 7;
            at += n;
        }
    }
    plan(script, MESSAGE_SENT);
    return number;
}

static void plan_transfer(unsigned line)
{
    struct script *script = &scripts[line];
    struct message message;
    script->at = script->length = 0;
    plan(script, ENQ);
    if (one_in(50))
        plan(script, ENQ); /* impatient: answered NAK */
    unsigned number = 1;
    unsigned messages = line == FLOODING ? 12 : 1 + below(3);
    for (unsigned i = 0; i < messages; i++) {
        write_message(&message, one_in(5) ? 100 + below(TEXT_LIMIT - 99) : 200 + below(701));
        number = plan_message(script, line % 2 == 0, number, &message);
    }
    if (one_in(40)) { /* the cable is pulled: the transfer stops somewhere and the line times out */
        script->length = 1 + below(script->length);
        plan(script, SECONDS + 14);
        plan(script, SECONDS + 16);
    } else {
        plan(script, EOT);
    }
    if (line != FLOODING)
        for (unsigned i = below(6); i > 0; i--)
            plan(script, SECONDS + 1 + below(9));
}

/* ---- The trace ---- */

static uint64_t events_left;

static void print_event(unsigned line, char kind, unsigned value)
{
    if (events_left == 0)
        return;
    events_left--;
    printf(kind == 'B' ? "%u %c %02X\n" : "%u %c %u\n", line, kind, value);
}

/* A reader takes all that waits; on the flooding line one entry. */
static void read_line(unsigned line)
{
    struct script *script = &scripts[line];
    unsigned takings = line == FLOODING && script->waiting > 1 ? 1 : script->waiting;
    if (takings == 0 && one_in(4))
        print_event(line, 'T', 4000); /* nothing waits */
    for (; takings > 0; takings--) {
        if (one_in(20))
            print_event(line, 'T', 64); /* most texts are longer */
        print_event(line, 'T', 4000);
        script->waiting--;
    }
}

static void step(unsigned line)
{
    struct script *script = &scripts[line];
    if (script->at == script->length)
        plan_transfer(line);
    unsigned step = script->steps[script->at++];
    if (step == MESSAGE_SENT)
        script->waiting++;
    else if (step >= SECONDS)
        print_event(line, 'S', step - SECONDS);
    else
        print_event(line, 'B', step);
}

static bool read_argument(const char *text, uint64_t *value)
{
    char *end;
    *value = strtoull(text, &end, 10);
    return *text >= '0' && *text <= '9' && *end == '\0';
}

int main(int argc, char **argv)
{
    if (argc != 3 || !read_argument(argv[1], &events_left) || !read_argument(argv[2], &seed)) {
        fprintf(stderr, "usage: trace EVENTS SEED\n");
        return 2;
    }
    while (events_left > 0) {
        unsigned pick = below(LINES + 2);
        step(pick < LINES ? pick : FLOODING);
        if (one_in(500)) {
            unsigned reader = below(LINES);
            if (reader != FLOODING || one_in(3))
                read_line(reader);
        }
    }
    return fflush(stdout) == 0 && !ferror(stdout) ? 0 : 1;
}
