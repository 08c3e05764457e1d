/* Replays a trace through the library and writes its listing.
 *
 *     replay < TRACE > LISTING
 *
 * It is also the shortest whole host: where this program reads a line of a trace, another one reads
 * a port or a clock. A bad line ends the run and is no failure. Status 1: the trace could not be
 * read, the listing not be written, or the library is of another version than this program. */
#define _POSIX_C_SOURCE 200809L /* getline */
#include "ngachodui.h"

#include <stdio.h>
#include <stdlib.h>

enum { LINE_LIMIT = 4096 }; /* a longer line of a trace is not an event (house) */

/* The buffer is for what is taken. */
static ngachodui_gateway gateway;
static uint8_t buffer[NGACHODUI_TEXT_LIMIT];

struct event {
    uint8_t line;
    char kind;        /* B for a byte, S for seconds, T for a taking */
    unsigned value;
};

static int hex_value(char digit)
{
    if (digit >= '0' && digit <= '9')
        return digit - '0';
    if (digit >= 'A' && digit <= 'F')
        return digit - 'A' + 10;
    if (digit >= 'a' && digit <= 'f')
        return digit - 'a' + 10;
    return -1;
}

/* Exactly two hex digits. */
static bool read_hex(const char *text, size_t n, unsigned *value)
{
    if (n != 2 || hex_value(text[0]) < 0 || hex_value(text[1]) < 0)
        return false;
    *value = (unsigned)(hex_value(text[0]) * 16 + hex_value(text[1]));
    return true;
}

/* Decimal digits, any number of zeros in front, up to `limit`. */
static bool read_decimal(const char *text, size_t n, unsigned limit, unsigned *value)
{
    *value = 0;
    for (size_t i = 0; i < n; i++) {
        if (text[i] < '0' || text[i] > '9')
            return false;
        *value = *value * 10 + (unsigned)(text[i] - '0');
        if (*value > limit)
            return false;
    }
    return n > 0;
}

/* A line of a trace, its newline taken off: `0 B 05`, `0 S 30` or `0 T 4000`. */
static bool read_event(const char *text, size_t n, struct event *event)
{
    if (n < 4 || n > LINE_LIMIT || text[0] < '0' || text[0] > '9' || text[1] != ' ' || text[3] != ' ')
        return false;
    event->line = (uint8_t)(text[0] - '0');
    event->kind = text[2];
    switch (event->kind) {
    case 'B':
        return read_hex(text + 4, n - 4, &event->value);
    case 'S':
        return read_decimal(text + 4, n - 4, 255, &event->value);
    case 'T':
        return read_decimal(text + 4, n - 4, sizeof buffer, &event->value);
    default:
        return false;
    }
}

static ngachodui_answered answer_to(struct event event)
{
    switch (event.kind) {
    case 'B':
        return ngachodui_on_byte(&gateway, event.line, (uint8_t)event.value);
    case 'S':
        return ngachodui_on_seconds(&gateway, event.line, (uint8_t)event.value);
    default:
        return ngachodui_on_take(&gateway, event.line, buffer, event.value);
    }
}

static void print_row(unsigned long long number, struct event event, ngachodui_answered answer)
{
    printf("%llu %u %u ", number, event.line, answer.number);
    if (answer.number == NGACHODUI_TAKEN)
        printf("%zu\n", answer.length);
    else if (answer.reply != 0)
        printf("%02X\n", answer.reply);
    else
        printf("--\n");
}

int main(void)
{
    char *text = NULL;
    size_t room = 0;
    ssize_t n;
    unsigned long long events = 0;
    bool bad = false;

    if (!ngachodui_on_fresh(&gateway)) {
        fprintf(stderr, "replay: the library has another layout than its header\n");
        return 1;
    }
    printf("event line answer reply\n");
    while (!bad && (n = getline(&text, &room, stdin)) >= 0) {
        if (text[n - 1] == '\n')
            n--;
        struct event event;
        if (read_event(text, (size_t)n, &event)) {
            events++;
            print_row(events, event, answer_to(event));
        } else {
            printf("line %llu: not an event\n", events + 1);
            bad = true;
        }
    }
    free(text);
    if (!bad && !feof(stdin)) {
        fprintf(stderr, "replay: cannot read the trace\n");
        return 1;
    }
    if (!bad)
        printf("%llu events\n", events);
    if (fflush(stdout) != 0 || ferror(stdout)) {
        fprintf(stderr, "replay: cannot write the listing\n");
        return 1;
    }
    return 0;
}
