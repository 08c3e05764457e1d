/* Replays traces through the plain gateway and writes their listings.
 *
 *     plain_replay < TRACE
 *     plain_replay TRACE...
 *
 * Each trace is a run from fresh; with more than one, a line `==> NAME` stands in front of each.
 * A bad line ends its run and is no failure. Status 1: a trace could not be read, or the listing
 * could not be written. */
#include "baseline.h"

#include <stdio.h>
#include <string.h>

enum {
    BUFFER = 65536,
    LINE_LIMIT = 4096, /* a longer line is not an event (house): only zeros in front could fill one */
    LOOKAHEAD = LINE_LIMIT + 1, /* such a line with its newline */
    ROW_ROOM = 64,     /* more than any row of the listing */
    DIGITS = 24,       /* more than a 64-bit number has */
    TAKING_LIMIT = 4000,
    NO_HEX = 16
};

/* ---- Input ---- */

/* Bytes from at to end are read and not used. Once finished, a newline ends the last line too. */
struct input {
    FILE *file;
    const uint8_t *at;
    const uint8_t *end;
    bool finished;
    bool failed;
    uint8_t bytes[BUFFER + LOOKAHEAD];
};

/* Moves what is left to the front and reads on behind it. */
static void refill(struct input *in)
{
    size_t n = (size_t)(in->end - in->at);
    memmove(in->bytes, in->at, n);
    n += fread(in->bytes + n, 1, BUFFER - n, in->file);
    if (n < BUFFER) {
        in->finished = true;
        in->failed = ferror(in->file) != 0;
        if (n > 0 && in->bytes[n - 1] != '\n')
            in->bytes[n++] = '\n';
    }
    in->at = in->bytes;
    in->end = in->bytes + n;
}

static void start_input(struct input *in, FILE *file)
{
    in->file = file;
    in->at = in->end = in->bytes;
    in->finished = in->failed = false;
    refill(in);
}

static void look_ahead(struct input *in)
{
    if (in->end - in->at < LOOKAHEAD && !in->finished)
        refill(in);
}

/* ---- Events ---- */

struct event {
    unsigned line;
    uint8_t kind;      /* B, S or T */
    unsigned value;
};

static unsigned hex_value(uint8_t digit)
{
    if (digit >= '0' && digit <= '9')
        return digit - '0';
    if (digit >= 'A' && digit <= 'F')
        return digit - 'A' + 10;
    if (digit >= 'a' && digit <= 'f')
        return digit - 'a' + 10;
    return NO_HEX;
}

/* A decimal number of at most `limit` that starts at `digits`, then the newline of a line that is not too long. */
static bool read_number(struct input *in, const uint8_t *digits, unsigned limit, unsigned *value)
{
    const uint8_t *line_end = in->at + LINE_LIMIT;
    const uint8_t *at = digits;
    unsigned n = 0;
    while (at < line_end && *at >= '0' && *at <= '9' && n <= limit)
        n = n * 10 + (*at++ - '0');
    if (*at != '\n' || n > limit || at == digits)
        return false;
    in->at = at + 1;
    *value = n;
    return true;
}

/* Reads one line. A part is looked at only when those before it are right, so that no newline is
 * passed unseen; of two hex digits the second may lie behind it, in the room of the lookahead. */
static bool read_event(struct input *in, struct event *event)
{
    const uint8_t *at = in->at;
    event->line = (unsigned)at[0] - '0';
    if (event->line > 9 || at[1] != ' ')
        return false;
    event->kind = at[2];
    if (event->kind == 'B' && at[3] == ' ') {
        unsigned high = hex_value(at[4]);
        unsigned low = hex_value(at[5]);
        event->value = high << 4 | low;
        in->at = at + 7;
        return high != NO_HEX && low != NO_HEX && at[6] == '\n';
    }
    if ((event->kind == 'S' || event->kind == 'T') && at[3] == ' ') {
        return read_number(in, at + 4, event->kind == 'S' ? 255 : TAKING_LIMIT, &event->value);
    }
    return false;
}

/* ---- Output ---- */

struct output {
    size_t used;
    bool failed;
    char bytes[BUFFER];
};

static void flush(struct output *out)
{
    if (fwrite(out->bytes, 1, out->used, stdout) != out->used)
        out->failed = true;
    out->used = 0;
}

/* Where the next row is written; at least ROW_ROOM bytes are free there. */
static char *start_row(struct output *out)
{
    if (BUFFER - out->used < ROW_ROOM)
        flush(out);
    return out->bytes + out->used;
}

static void end_row(struct output *out, char *to)
{
    *to++ = '\n';
    out->used = (size_t)(to - out->bytes);
}

static char *put_text(char *to, const char *text)
{
    size_t n = strlen(text);
    memcpy(to, text, n);
    return to + n;
}

static char *put_number(char *to, unsigned n)
{
    char digits[DIGITS];
    int first = DIGITS;
    do
        digits[--first] = (char)('0' + n % 10);
    while (n /= 10);
    while (first < DIGITS)
        *to++ = digits[first++];
    return to;
}

/* The number of events is kept as digits, since it only ever grows by one. They end in the middle
 * of the array, so that a copy of fixed size, the quickest, stays within it. */
struct counter {
    unsigned first;
    char digits[2 * DIGITS];
};

static void count_up(struct counter *counter)
{
    unsigned i = DIGITS - 1;
    while (counter->digits[i] == '9')
        counter->digits[i--] = '0';
    counter->digits[i]++;
    if (i < counter->first)
        counter->first = i;
}

static char *put_counter(char *to, const struct counter *counter)
{
    memcpy(to, counter->digits + counter->first, DIGITS);
    return to + (DIGITS - counter->first);
}

static void put_answer(struct output *out, const struct counter *events, unsigned line, struct plain_answer answer)
{
    char *to = put_counter(start_row(out), events);
    *to++ = ' ';
    *to++ = (char)('0' + line);
    *to++ = ' ';
    if (answer.number >= 10)
        *to++ = (char)('0' + answer.number / 10);
    *to++ = (char)('0' + answer.number % 10);
    *to++ = ' ';
    if (answer.number == PLAIN_TAKEN) {
        to = put_number(to, answer.length);
    } else {
        int reply = plain_reply(answer.number);
        to = put_text(to, reply == 0x06 ? "06" : reply == 0x15 ? "15" : "--");
    }
    end_row(out, to);
}

/* ---- Runs ---- */

/* One run from fresh, over an input that is started. A read that fails ends it without a last row. */
static void replay(struct input *in, struct output *out)
{
    static uint8_t journal[PLAIN_JOURNAL_SIZE];
    static uint8_t unfinished[PLAIN_UNFINISHED_SIZE];
    static uint8_t frames[PLAIN_FRAMES_SIZE];
    static uint8_t buffer[TAKING_LIMIT];
    const struct plain_memory memory = {
        journal, sizeof journal, unfinished, sizeof unfinished, frames, sizeof frames,
    };
    struct plain_gateway gateway = plain_fresh();
    struct counter events = { .first = DIGITS - 1 };
    memset(events.digits, '0', sizeof events.digits);

    end_row(out, put_text(start_row(out), "event line answer reply"));
    for (;;) {
        look_ahead(in);
        if (in->at == in->end)
            break;
        struct event event;
        bool good = read_event(in, &event);
        if (in->failed)
            return;
        count_up(&events);
        if (!good) {
            char *to = put_counter(put_text(start_row(out), "line "), &events);
            end_row(out, put_text(to, ": not an event"));
            return;
        }
        struct plain_answer answer;
        if (event.kind == 'T')
            answer = plain_take(&gateway, journal, sizeof journal, event.line, buffer, event.value);
        else
            answer = plain_event(&gateway, &memory, event.line, event.kind == 'B' ? PLAIN_BYTE : PLAIN_SECONDS,
                                 (uint8_t)event.value);
        put_answer(out, &events, event.line, answer);
    }
    if (!in->failed)
        end_row(out, put_text(put_counter(start_row(out), &events), " events"));
}

int main(int argc, char **argv)
{
    static struct input in;
    static struct output out;
    int status = 0;

    if (argc < 2) {
        start_input(&in, stdin);
        if (!in.failed)
            replay(&in, &out);
        if (in.failed) {
            fprintf(stderr, "plain_replay: cannot read standard input\n");
            status = 1;
        }
    }
    for (int i = 1; i < argc; i++) {
        FILE *file = fopen(argv[i], "rb");
        bool read = file != NULL;
        if (read) {
            start_input(&in, file);
            if (!in.failed && argc > 2) {
                flush(&out);
                printf("==> %s\n", argv[i]);
            }
            if (!in.failed)
                replay(&in, &out);
            read = !in.failed;
            fclose(file);
        }
        if (!read) {
            fprintf(stderr, "plain_replay: cannot read %s\n", argv[i]);
            status = 1;
        }
    }
    flush(&out);
    if (out.failed || fflush(stdout) != 0) {
        fprintf(stderr, "plain_replay: cannot write the listing\n");
        status = 1;
    }
    return status;
}
