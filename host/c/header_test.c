/* Calls every function of include/ngachodui.h once or more and compares what it answers and leaves with
 * the rules of docs/RULES.md. It says what differs, and fails if anything does. Right calls go through the functions
 * over a whole gateway, calls with a wrong size through the library's own. It is C and C++. */
#define _XOPEN_SOURCE 600 /* makecontext */
#include <stdio.h>
#include <string.h>
#include <ucontext.h>

#include "ngachodui.h"

static ngachodui_gateway gateway;
static ngachodui_numbers *const numbers = &gateway.state.numbers;
static ngachodui_line *const lines = gateway.state.numbers.lines;
static ngachodui_counts *const counts = &gateway.state.counts;
static uint8_t buffer[NGACHODUI_TEXT_LIMIT];

static unsigned checks, wrong;

static void check(bool ok, const char *what)
{
    checks++;
    if (!ok) {
        wrong++;
        printf("wrong: %s\n", what);
    }
}

static void check_number(unsigned is, unsigned must_be, const char *what)
{
    checks++;
    if (is != must_be) {
        wrong++;
        printf("wrong: %s: %u and not %u\n", what, is, must_be);
    }
}

static ngachodui_answered byte_on(uint8_t line, uint8_t byte)
{
    return ngachodui_on_byte(&gateway, line, byte);
}

static ngachodui_answered seconds_on(uint8_t line, uint8_t seconds)
{
    return ngachodui_on_seconds(&gateway, line, seconds);
}

static ngachodui_answered take_from(uint8_t line, size_t buffer_length)
{
    return ngachodui_on_take(&gateway, line, buffer, buffer_length);
}

static void start(void)
{
    check(ngachodui_on_fresh(&gateway), "the library's layout");
}

/* Sends bytes; all but the last must be answered 0. */
static ngachodui_answered send(uint8_t line, const uint8_t *bytes, size_t length, const char *what)
{
    for (size_t i = 0; i + 1 < length; i++)
        check_number(byte_on(line, bytes[i]).number, NGACHODUI_NOTHING, what);
    return byte_on(line, bytes[length - 1]);
}

#define BYTES(s) (const uint8_t *)(s), sizeof(s) - 1

static const uint8_t message[] = "H|\\^&\rL|1|N\r"; /* with the 0 of a C string behind it */
#define MESSAGE message, sizeof message - 1

static void test_dialogue(void)
{
    start();
    check_number(lines[0].next, 1, "a fresh line's next number");
    check_number(lines[7].next, 1, "the last fresh line's next number");
    check_number(counts->in_use, 0, "bytes in use at first");

    ngachodui_answered a = byte_on(0, 0x05);
    check_number(a.number, NGACHODUI_OPENED, "ENQ");
    check_number(a.reply, 0x06, "the reply to ENQ");
    check_number(lines[0].state, NGACHODUI_WAITING, "the state after ENQ");
    a = byte_on(0, 0x05);
    check_number(a.number, NGACHODUI_BUSY, "a second ENQ");
    check_number(a.reply, 0x15, "the reply to a second ENQ");

    a = send(0, BYTES("\x02" "1H|\\^&\r" "\x03" "E4\r\n"), "a frame with a wrong check");
    check_number(a.number, NGACHODUI_WRONG_CHECK, "a wrong check");
    a = send(0, BYTES("\x02" "1H|\\^&\r" "\x03" "E5\r\n"), "the first frame");
    check_number(a.number, NGACHODUI_ACCEPTED, "the first frame");
    check_number(lines[0].last, 2, "the last number, kept one higher");
    a = send(0, BYTES("\x02" "1H|\\^&\r" "\x03" "E5\r\n"), "the first frame again");
    check_number(a.number, NGACHODUI_REPEATED, "the first frame again");
    a = send(0, BYTES("\x02" "2L|1|N\r" "\x03" "05\r\n"), "the second frame");
    check_number(a.number, NGACHODUI_STORED, "the message");
    check_number(a.reply, 0x06, "the reply to the message");
    check_number(counts->in_use, 16, "a stored message of 12 bytes");
    check_number(counts->used[0], 16, "the line's used count");
    check_number(lines[0].serial, 1, "the next serial");
    a = byte_on(0, 0x04);
    check_number(a.number, NGACHODUI_ENDED, "EOT");
    check_number(a.reply, 0, "no reply to EOT");

    memset(buffer, 0xaa, sizeof buffer);
    a = take_from(0, 11);
    check_number(a.number, NGACHODUI_BUFFER_SHORT, "a buffer of 11 bytes");
    check_number(buffer[0], 0xaa, "the buffer after 45");
    a = take_from(0, sizeof buffer);
    check_number(a.number, NGACHODUI_TAKEN, "a taking");
    check_number((unsigned)a.length, 12, "the length taken");
    check_number(a.serial, 0, "the serial taken");
    check(memcmp(buffer, MESSAGE) == 0, "the text taken");
    check_number(buffer[12], 0xaa, "the buffer's rest");
    check_number(counts->in_use, 0, "bytes in use after the taking");
    a = take_from(0, sizeof buffer);
    check_number(a.number, NGACHODUI_NOTHING_WAITING, "a second taking");
}

/* Each frame that is cut, sent to a fresh line, is accepted, and the message comes back; the second of two has serial 1. */
static void test_cut_and_sent(void)
{
    uint8_t out[26 + 3];
    memset(out, 0xaa, sizeof out);
    ngachodui_made m = ngachodui_cut(MESSAGE, out, 25);
    check_number(m.number, NGACHODUI_NOT_FITTING, "25 bytes for 26");
    check_number((unsigned)m.length, 0, "the length with 47");
    check_number(out[0], 0xaa, "the output after 47");
    m = ngachodui_cut(BYTES("L|1|N\r"), out, sizeof out);
    check_number(m.number, NGACHODUI_NO_HEADER, "no message to cut");
    check_number(out[0], 0xaa, "the output after 50");
    m = ngachodui_cut(MESSAGE, out, sizeof out);
    check_number(m.number, 0, "a message cut");
    check_number((unsigned)m.length, 26, "its length");
    check(memcmp(out, "\x02" "1H|\\^&\r" "\x03" "E5\r\n" "\x02" "2L|1|N\r" "\x03" "05\r\n", 26) == 0, "its frames");
    check_number(out[26], 0xaa, "the output's rest");

    start();
    for (unsigned serial = 0; serial < 2; serial++) {
        check_number(byte_on(5, 0x05).number, NGACHODUI_OPENED, "ENQ on line 5");
        check_number(send(5, out, 13, "the first frame cut").number, NGACHODUI_ACCEPTED, "the first frame cut");
        check_number(send(5, out + 13, 13, "the second frame cut").number, NGACHODUI_STORED, "the second frame cut");
        check_number(byte_on(5, 0x04).number, NGACHODUI_ENDED, "EOT on line 5");
    }
    for (unsigned serial = 0; serial < 2; serial++) {
        ngachodui_answered a = take_from(5, sizeof buffer);
        check_number(a.number, NGACHODUI_TAKEN, "a taking from line 5");
        check_number(a.serial, serial, "its serial");
        check_number((unsigned)a.length, 12, "its length");
    }
}

/* A text as one frame of number 1 that ends with ETX; its length. */
static size_t framed(const char *text, uint8_t *frame)
{
    static const char digits[] = "0123456789ABCDEF";
    const size_t length = strlen(text);
    uint8_t *const end = frame + 2 + length;
    uint8_t sum = '1' + 0x03;
    for (size_t i = 0; i < length; i++)
        sum += (uint8_t)text[i];
    memcpy(frame, "\x02" "1", 2);
    memcpy(frame + 2, text, length);
    memcpy(end, "\x03" "xx\r\n", 5);
    end[1] = (uint8_t)digits[sum / 16];
    end[2] = (uint8_t)digits[sum % 16];
    return length + 7;
}

/* A text is neither cut nor read: the answer and its place, and nothing is written. */
static void check_refused(const char *text, unsigned number, unsigned place)
{
    uint8_t out[2] = {0xaa, 0xaa};
    uint16_t slots[3] = {0xaaaa, 0xaaaa, 0xaaaa};
    const ngachodui_made cut = ngachodui_cut((const uint8_t *)text, strlen(text), out, 1);
    const ngachodui_made read = ngachodui_read((const uint8_t *)text, strlen(text), out + 1, 1, slots, 1, slots + 1, 1, slots + 2, 1);
    check_number(cut.number, number, "what is wrong with a text to cut");
    check_number(cut.place, place, "its place");
    check_number((unsigned)cut.length, 0, "no length with it");
    check_number(read.number, number, "what is wrong with a text to read");
    check_number(read.place, place, "its place");
    check_number((unsigned)read.length, 0, "no records with it");
    check(out[0] == 0xaa && out[1] == 0xaa, "the outputs after a refusal");
    check(slots[0] == 0xaaaa && slots[1] == 0xaaaa && slots[2] == 0xaaaa, "the slots after a refusal");
}

/* A text with a fault comes on a line: it is told with the record's place, and the line refuses. So it is where the text
 * is cut or read. */
static void check_faulty(const char *text, unsigned number, unsigned place)
{
    uint8_t frame[64];
    const size_t length = framed(text, frame);
    start();
    check_number(byte_on(4, 0x05).number, NGACHODUI_OPENED, "ENQ on line 4");
    ngachodui_answered a = send(4, frame, length, "a text with a fault");
    check_number(a.number, number, "what is wrong with a text");
    check_number(a.place, place, "which record it is");
    check_number(a.reply, 0x15, "the reply to it");
    check_number(lines[4].refusing, 1, "the line refuses");
    check_number(lines[4].next, 1, "its number is not advanced");
    check_number(lines[4].joined, 0, "it has no text");
    check(memcmp(gateway.unfinished + 4 * NGACHODUI_TEXT_LIMIT, text, strlen(text)) == 0, "the text is written");
    a = send(4, frame, length, "the frame again");
    check_number(a.number, NGACHODUI_REFUSING, "the frame again");
    check_number(a.place, 0, "no place with 26");
    check_refused(text, number, place);
}

/* A byte that no frame brings, set by the host in front of a right L record, with a wrong record behind it: 30. */
static void check_not_allowed(void)
{
    static const uint8_t before[] = "H|\\^&\x7f\rX|1\r";
    uint8_t frame[64];
    start();
    check_number(byte_on(4, 0x05).number, NGACHODUI_OPENED, "ENQ on line 4");
    memcpy(gateway.unfinished + 4 * NGACHODUI_TEXT_LIMIT, before, sizeof before - 1);
    lines[4].joined = sizeof before - 1;
    const ngachodui_answered a = send(4, frame, framed("L|1\r", frame), "the rest of the text");
    check_number(a.number, NGACHODUI_NO_MESSAGE, "a byte that is not allowed");
    check_number(a.place, 0, "no place with 30");
    check_number(lines[4].refusing, 1, "the line refuses");
}

static void test_faults(void)
{
    check_not_allowed();
    check_faulty("L|1|N\r", NGACHODUI_NO_HEADER, 1);
    check_faulty("H|\\^\rL|1\r", NGACHODUI_NO_HEADER, 1);
    check_faulty("H|\\\r^&\rL|1\r", NGACHODUI_NO_HEADER, 1);
    check_faulty("H|\\||\rX|1\rL|1\r", NGACHODUI_BAD_DELIMITERS, 1);
    check_faulty("HA~$%\rLA1\r", NGACHODUI_BAD_DELIMITERS, 1);
    check_faulty("H!~$%\rP|1\rL!1\r", NGACHODUI_UNKNOWN_TYPE, 2);
    check_faulty("H|\\^&\rP|1\rX|1\rL|2\r", NGACHODUI_UNKNOWN_TYPE, 3);
    check_faulty("H|\\^&\rP|1\rL|1\rL|1\r", NGACHODUI_MISPLACED, 4);
    check_faulty("H|\\^&\rP|1\rO|2\rX|1\rL|1\r", NGACHODUI_MISNUMBERED, 3);
    check_refused("", NGACHODUI_NO_HEADER, 1);
    check_refused("H|\\^&\rP|5\r", NGACHODUI_MISPLACED, 2);
    check_refused("H|\\^&\rX|1\rL|1", NGACHODUI_NO_FINAL_CR, 3);
    check_refused("H|\\^&\rX|1\n", NGACHODUI_MALFORMED, 0);
    check_refused("H|\\^&\rL|1\r", NGACHODUI_NOT_FITTING, 0);
    check_refused("H|\\||\r", NGACHODUI_BAD_DELIMITERS, 1);
    check_refused("H!~$%\r", NGACHODUI_MISPLACED, 1);
    check_refused("H|\\||\rL|1", NGACHODUI_NO_FINAL_CR, 2);
    check_refused("H|\\||\n\rL|1\r", NGACHODUI_MALFORMED, 0);
    check_refused("H!~$%\rL!1\r", NGACHODUI_NOT_FITTING, 0);
}

/* ---- Sendings ---- */

static uint8_t out_frame[NGACHODUI_FRAME_LIMIT + 1];

static ngachodui_made fetch_from(uint8_t line, size_t out_length)
{
    memset(out_frame, 0xaa, sizeof out_frame);
    return ngachodui_on_outgoing(&gateway, line, out_frame, out_length);
}

/* An answer of a sending: 9, and what is to be sent, which is one byte, or a frame, or with length 0 nothing. */
static void check_sends(ngachodui_answered a, const char *bytes, size_t length, const char *what)
{
    check_number(a.number, NGACHODUI_SENDING, what);
    check_number(a.reply, length == 0 ? 0 : (uint8_t)bytes[0], what);
    check_number(a.place, 0, what);
    if (length > 1) {
        const ngachodui_made m = fetch_from(2, NGACHODUI_FRAME_LIMIT);
        check_number(m.number, NGACHODUI_DONE, what);
        check_number((unsigned)m.length, (unsigned)length, what);
        check(memcmp(out_frame, bytes, length) == 0, what);
        check_number(out_frame[length], 0xaa, "the output behind a frame");
    }
}

#define SENDS(answer, s, what) check_sends(answer, s, sizeof(s) - 1, what)
#define FIRST "\x02" "1H|\\^&\r" "\x03" "E5\r\n"
#define SECOND "\x02" "2L|1|N\r" "\x03" "05\r\n"

/* A fresh gateway whose line 2 has started to send the message. */
static void start_sending(void)
{
    start();
    SENDS(ngachodui_on_send(&gateway, 2, MESSAGE), "\x05", "a start");
    check_number(lines[2].state, NGACHODUI_ASKING, "the state after a start");
    check_number(lines[2].joined, 12, "the length of what is sent");
    check(memcmp(gateway.unfinished + 2 * NGACHODUI_TEXT_LIMIT, MESSAGE) == 0, "the text is copied");
}

static void check_neutral(const char *what)
{
    static const ngachodui_line neutral = {NGACHODUI_NEUTRAL, 0, 0, 0, 1, 0, 0, 0, 0, 0, NGACHODUI_FRAMES, 0, 0, 0, {0, 0}};
    check(memcmp(&lines[2], &neutral, sizeof neutral) == 0, what);
}

/* Every reply is ACK; EOT does as well, but to our ENQ. */
static void test_sent(void)
{
    start_sending();
    SENDS(byte_on(2, 0x06), FIRST, "ACK to our ENQ");
    check_number(lines[2].state, NGACHODUI_OFFERING, "the state with a frame");
    check_number(lines[2].tries, 1, "a frame sent once");
    check_number(lines[2].place, 0, "where its text starts");
    SENDS(byte_on(2, 0x06), SECOND, "ACK to the first frame");
    check_number(lines[2].place, 6, "where the second frame's text starts");
    check_number(lines[2].next, 2, "its number");
    SENDS(byte_on(2, 0x06), "\x04", "ACK to the last frame");
    check_neutral("the line after our EOT");
    check_number(byte_on(2, 0x06).number, NGACHODUI_NOTHING, "ACK on a neutral line");
    check_number(counts->in_use, 0, "the journal is not touched");

    start_sending();
    SENDS(byte_on(2, 0x04), "", "EOT to our ENQ refuses it");
    SENDS(seconds_on(2, 10), "\x05", "10 seconds later");
    SENDS(byte_on(2, 0x06), FIRST, "ACK to our second ENQ");
    SENDS(byte_on(2, 0x04), SECOND, "EOT to a frame");
    SENDS(byte_on(2, 0x04), "\x04", "EOT to the last frame");
    check_neutral("the line after these");
}

static void test_refused_sending(void)
{
    start_sending();
    for (unsigned refusals = 1; refusals < 6; refusals++) {
        SENDS(byte_on(2, 0x15), "", "NAK to our ENQ");
        check_number(lines[2].state, NGACHODUI_PAUSING, "the state after it");
        check_number(lines[2].tries, refusals, "the refusals");
        const ngachodui_answered a = byte_on(2, 0x05);
        check_number(a.number, NGACHODUI_NOTHING, "the analyzer's ENQ in the pause");
        check_number(a.reply, 0, "no reply to it");
        SENDS(seconds_on(2, 9), "", "9 seconds of the pause");
        SENDS(seconds_on(2, 255), "\x05", "all of it");
        check_number(lines[2].seconds, 0, "no second is carried on");
    }
    ngachodui_answered a = byte_on(2, 0x15);
    check_number(a.number, NGACHODUI_GIVEN_UP, "the sixth NAK to our ENQ");
    check_number(a.reply, 0, "nothing to send with 61");
    check_neutral("the line after 61");

    start_sending();
    a = byte_on(2, 0x05);
    check_number(a.number, NGACHODUI_GIVEN_UP, "ENQ to our ENQ");
    check_number(a.reply, 0, "no reply to that ENQ");
    check_neutral("the line after that");
    check_number(byte_on(2, 0x05).number, NGACHODUI_OPENED, "ENQ once more");

    start_sending();
    byte_on(2, 0x06);
    for (unsigned sends = 2; sends <= 6; sends++) {
        SENDS(byte_on(2, sends % 2 ? 0x05 : 0x11), FIRST, "a frame refused");
        check_number(lines[2].tries, sends, "how often it was sent");
    }
    SENDS(byte_on(2, 0x15), "\x04", "the sixth refusal of a frame");
    check_neutral("the line after six sends");
}

static void test_unanswered_sending(void)
{
    start_sending();
    SENDS(seconds_on(2, 0), "", "0 seconds");
    SENDS(seconds_on(2, 14), "", "14 seconds without a reply");
    SENDS(seconds_on(2, 1), "\x04", "15 seconds without a reply to our ENQ");
    check_neutral("the line after these");

    start_sending();
    byte_on(2, 0x06);
    SENDS(seconds_on(2, 14), "", "14 seconds without a reply to a frame");
    SENDS(seconds_on(2, 255), "\x04", "more without a reply to a frame");
    check_neutral("the line after these");
}

/* A start that is refused changes nothing, and nothing goes to the analyzer. */
static void check_no_start(uint8_t line, const char *text, unsigned number, unsigned place)
{
    static ngachodui_gateway before;
    before = gateway;
    const ngachodui_answered a = ngachodui_on_send(&gateway, line, (const uint8_t *)text, strlen(text));
    check_number(a.number, number, text);
    check_number(a.place, place, "the place with it");
    check_number(a.reply, 0, "nothing to send with a start that is refused");
    check(memcmp(&before, &gateway, sizeof before) == 0, "a start that is refused");
}

static void test_starts(void)
{
    static const char *const right = "H|\\^&\rL|1|N\r";
    start();
    check_no_start(8, right, NGACHODUI_NO_LINE, 0);
    for (unsigned state = NGACHODUI_WAITING; state <= NGACHODUI_OFFERING; state++) {
        lines[2].state = (uint16_t)state;
        check_no_start(2, right, NGACHODUI_NOT_NEUTRAL, 0);
        check_no_start(2, "", NGACHODUI_NOT_NEUTRAL, 0);
    }
    lines[2].state = NGACHODUI_OFFERING + 1;
    check_no_start(2, right, NGACHODUI_BEYOND_LIMITS, 0);
    lines[2].state = NGACHODUI_NEUTRAL;
    lines[2].tries = 1;
    check_no_start(2, right, NGACHODUI_BEYOND_LIMITS, 0);
    lines[2].tries = 0;
    lines[2].place = 1;
    check_no_start(2, right, NGACHODUI_BEYOND_LIMITS, 0);
    lines[2].place = 0;
    check_no_start(2, "", NGACHODUI_NO_HEADER, 1);
    check_no_start(2, "H|\\^&\rX|1\rL|1\r", NGACHODUI_UNKNOWN_TYPE, 2);
    check_no_start(2, "H|\\^&\rP|1\r", NGACHODUI_MISPLACED, 2);
    check_no_start(2, "H|\\^&\rP|1\rO|2\rL|1\r", NGACHODUI_MISNUMBERED, 3);
    check_no_start(2, "H|\\^&\rL|1", NGACHODUI_NO_FINAL_CR, 2);
    check_no_start(2, "H|\\||\rL|1\r", NGACHODUI_BAD_DELIMITERS, 1);
    check_no_start(2, "H|\\^&\nL|1\r", NGACHODUI_MALFORMED, 0);

    /* A neutral record with counts is set anew; its serial stays, what it keeps of a reader and its spare numbers too, and
     * the text's rest. */
    memset(gateway.unfinished, 0x55, sizeof gateway.unfinished);
    const ngachodui_line odd = {NGACHODUI_NEUTRAL, 245, 4000, 29, 7, 8, 1, 65535, 0, 0, NGACHODUI_FRAMES, 3, 2, 65535, {1, 65535}};
    const ngachodui_line asking = {NGACHODUI_ASKING, 0, 12, 0, 1, 0, 0, 65535, 0, 0, NGACHODUI_FRAMES, 3, 2, 65535, {1, 65535}};
    lines[2] = odd;
    SENDS(ngachodui_on_send(&gateway, 2, MESSAGE), "\x05", "a start on a neutral line with counts");
    check(memcmp(&lines[2], &asking, sizeof asking) == 0, "the record after it");
    check_number(gateway.unfinished[2 * NGACHODUI_TEXT_LIMIT + 12], 0x55, "the byte behind the text");
    check_number(gateway.unfinished[2 * NGACHODUI_TEXT_LIMIT - 1], 0x55, "the byte before it");
}

/* What is lent to the two at another size. */
static void test_sending_sizes(void)
{
    start_sending();
    byte_on(2, 0x06);
    static ngachodui_state before;
    before = gateway.state;
    for (int memory = 0; memory < 3; memory++) {
        const ngachodui_answered a = ngachodui_send(3, MESSAGE, numbers, gateway.journal, sizeof gateway.journal - (memory == 0),
                                                    gateway.unfinished, sizeof gateway.unfinished - (memory == 1),
                                                    gateway.frames, sizeof gateway.frames - (memory == 2));
        check_number(a.number, NGACHODUI_WRONG_SIZE, "a start, and a memory one byte short");
        check_number(a.reply, 0, "nothing to send with 41");
    }
    ngachodui_made m = ngachodui_outgoing(2, numbers, gateway.unfinished, sizeof gateway.unfinished - 1, out_frame, sizeof out_frame);
    check_number(m.number, NGACHODUI_WRONG_SIZE, "a frame, and the unfinished text one byte short");
    check(memcmp(&before, &gateway.state, sizeof before) == 0, "the state after 41");

    m = fetch_from(2, 12);
    check_number(m.number, NGACHODUI_NOT_FITTING, "12 bytes for a frame of 13");
    check_number((unsigned)m.length, 0, "the length with 47");
    check_number(out_frame[0], 0xaa, "the output after 47");
    m = fetch_from(2, 13);
    check_number(m.number, NGACHODUI_DONE, "13 bytes for a frame of 13");
    check_number((unsigned)m.length, 13, "its length");
    m = fetch_from(3, 0);
    check_number(m.number, NGACHODUI_DONE, "a line that offers no frame");
    check_number((unsigned)m.length, 0, "no length there");
    check_number(fetch_from(8, 0).number, NGACHODUI_NO_LINE, "a frame of line 8");
    check(memcmp(&before, &gateway.state, sizeof before) == 0, "fetching changes nothing");
    lines[2].tries = 7;
    check_number(fetch_from(2, sizeof out_frame).number, NGACHODUI_BEYOND_LIMITS, "a frame sent 7 times");
    lines[2].tries = 6;
    lines[2].place = 4001;
    check_number(fetch_from(2, sizeof out_frame).number, NGACHODUI_BEYOND_LIMITS, "a frame at 4,001");
    lines[2].tries = 1;
    lines[2].place = 4000;
    m = fetch_from(2, 0);
    check_number(m.number, NGACHODUI_DONE, "a place behind the text");
    check_number((unsigned)m.length, 0, "no frame there");
    SENDS(byte_on(2, 0x15), "\x04", "a refusal with no frame there");
}

/* A gateway saved in the middle of a sending, and loaded: 30 seconds end it, and a pause with its ENQ. */
static void test_saved_sending(void)
{
    start_sending();
    byte_on(2, 0x06);
    SENDS(seconds_on(2, 30), "\x04", "30 seconds after loading, with a frame sent");
    check_neutral("the line then");
    start_sending();
    byte_on(2, 0x15);
    SENDS(seconds_on(2, 30), "\x05", "30 seconds after loading, in a pause");
    SENDS(seconds_on(2, 30), "\x04", "and no reply");
    check_neutral("the line then");
}

static void test_sendings(void)
{
    test_sent();
    test_refused_sending();
    test_unanswered_sending();
    test_starts();
    test_sending_sizes();
}

/* ---- Strip readers ---- */

#define MOR "\x02>\x03" "3?\r"
#define REP "\x02?\x03" "3>\r"
#define SPM "\x02<\x03" "3=\r"
#define END "\x02:\x03" "3;\r"

/* A finding of patient 4711, with patient numbers of 10, and its message. */
static const uint8_t finding[] =
    "\x02;E 4711       00012 15.03.01 09:30 SG1.030      PH  7      LEU     500/ul ++++ NITpos pos  PRO   0.75 g/l ++++ "
    "GLU  56 mmol/l ++++ KET 0.5 mmol/l   ++ UBG  68 umol/l ++++ BIL  50 umol/l ++++ ERY      25/ul ++++ NAG                 "
    "\x03" "30\r";
static const uint8_t finding_message[] =
    "H|\\^&\rP|1|4711\rO|1|00012\rR|1|SG|1.030\rR|2|PH|7\rR|3|LEU|500/ul ++++\rR|4|NIT|pos pos\rR|5|PRO|0.75 g/l ++++\r"
    "R|6|GLU|56 mmol/l ++++\rR|7|KET|0.5 mmol/l   ++\rR|8|UBG|68 umol/l ++++\rR|9|BIL|50 umol/l ++++\r"
    "R|10|ERY|25/ul ++++\rR|11|NAG|\rL|1\r";
enum { E_BLOCK = sizeof finding - 1, D_BLOCK = 78 };

/* The test bytes of a block set right. */
static void mend(uint8_t *block, size_t length)
{
    uint8_t test = 0;
    for (size_t i = 0; i < length - 3; i++)
        test ^= block[i];
    block[length - 3] = (uint8_t)(0x30 | test >> 4);
    block[length - 2] = (uint8_t)(0x30 | (test & 15));
}

/* A block on line 2: its answer, and what is to be sent, MOR, REP or with "" nothing. */
static void check_block(const uint8_t *block, size_t length, unsigned number, const char *reply, const char *what)
{
    const ngachodui_answered a = send(2, block, length, what);
    check_number(a.number, number, what);
    check_number(a.reply, *reply ? NGACHODUI_STX : 0, what);
    check_number(lines[2].state, NGACHODUI_NEUTRAL, "the state behind a block");
    check_number(lines[2].collected, 0, "nothing collected behind a block");
    if (*reply) {
        const ngachodui_made m = fetch_from(2, 6);
        check_number(m.number, NGACHODUI_DONE, what);
        check_number((unsigned)m.length, 6, what);
        check(memcmp(out_frame, reply, 6) == 0, what);
        check_number(out_frame[6], 0xaa, "the output behind a reply");
    }
}

/* A fresh gateway with a reader on line 2, one of the other sort on line 5, and frames on the others. */
static void start_readers(void)
{
    static const ngachodui_settings settings[NGACHODUI_LINES] = {{0}, {0}, {NGACHODUI_STRIPS_10}, {0}, {0}, {NGACHODUI_STRIPS_13}, {0}, {0}};
    check_number(ngachodui_on_start(&gateway, settings), 0, "a start with settings");
    for (unsigned line = 0; line < NGACHODUI_LINES; line++) {
        const ngachodui_line fresh = {NGACHODUI_NEUTRAL, 0, 0, 0, 1, 0, 0, 0, 0, 0, settings[line].speaks, 0, 0, 0, {0, 0}};
        check(memcmp(&lines[line], &fresh, sizeof fresh) == 0, "a line after it");
    }
    check_number(counts->in_use, 0, "bytes in use after it");
    check_number(numbers->blocks[7][238], 0, "the last number after it");
}

static void test_upload(void)
{
    start_readers();
    check_block(BYTES(REP), NGACHODUI_HEARD, "", "REP, and nothing was replied yet");
    check_number(lines[2].since, 1, "REP is kept in mind");
    check_block(BYTES(SPM), NGACHODUI_HEARD, MOR, "SPM");
    check_number(lines[2].reply, NGACHODUI_MORE, "our last reply");
    memset(gateway.unfinished, 0x55, sizeof gateway.unfinished);
    check_block(finding, E_BLOCK, NGACHODUI_STORED, MOR, "a finding");
    check_number(lines[2].kept, 1, "it is kept");
    check_number(lines[2].since, 0, "and nothing came since");
    for (unsigned i = 0; i < E_BLOCK; i++)
        check_number(numbers->blocks[2][i], finding[i], "the block that is kept");
    check_number(numbers->blocks[2][E_BLOCK], 0, "behind it");
    check(gateway.unfinished[2 * NGACHODUI_TEXT_LIMIT] == 0x55, "no unfinished text is written");

    uint8_t colours[D_BLOCK];
    memset(colours, ' ', sizeof colours);
    memcpy(colours, "\x02;D", 3);
    memcpy(colours + D_BLOCK - 4, "\x03" "xx\r", 4);
    mend(colours, D_BLOCK);
    check_block(colours, D_BLOCK, NGACHODUI_HEARD, MOR, "colours");
    check_block(finding, E_BLOCK, NGACHODUI_STORED, MOR, "the finding again, without SPM or REP between");
    check_block(BYTES(SPM), NGACHODUI_HEARD, MOR, "SPM again");
    check_block(finding, E_BLOCK, NGACHODUI_HEARD, MOR, "the finding again, with SPM between");
    check_block(BYTES(END), NGACHODUI_HEARD, "", "END");
    check_number(lines[2].serial, 2, "two are stored");
    for (unsigned serial = 0; serial < 2; serial++) {
        const ngachodui_answered a = take_from(2, sizeof buffer);
        check_number(a.number, NGACHODUI_TAKEN, "a finding taken");
        check_number((unsigned)a.length, sizeof finding_message - 1, "its length");
        check(memcmp(buffer, finding_message, sizeof finding_message - 1) == 0, "its message");
    }
    check(ngachodui_is_message(finding_message, sizeof finding_message - 1), "it is one");
}

static void test_refused_blocks(void)
{
    uint8_t block[E_BLOCK];
    start_readers();
    check_block(BYTES("\x02<\x03" "3C\r"), NGACHODUI_ODD_TEST, REP, "the other way to test");
    check_number(lines[2].since, 0, "a refused SPM is none");
    check_block(BYTES("\x02<\r"), NGACHODUI_ODD_LENGTH, REP, "a short block");
    check_block(BYTES(MOR), NGACHODUI_ODD_BYTE, REP, "MOR of the reader");
    check_block(BYTES(REP), NGACHODUI_HEARD, REP, "REP: our last reply");
    memcpy(block, finding, sizeof block);
    block[5] = 0x7e;
    check_block(block, sizeof block, NGACHODUI_ODD_TEST, REP, "a byte altered");
    mend(block, sizeof block);
    check_block(block, sizeof block, NGACHODUI_ODD_BYTE, REP, "a byte that is no data");
    block[5] = 0x7d;
    mend(block, sizeof block);
    check_block(block, sizeof block, NGACHODUI_STORED, MOR, "the last byte that is");
    /* the other reader's length: what has come is one of no length there */
    check_number(send(5, finding, E_BLOCK, "a block on the other line").number, NGACHODUI_ODD_LENGTH, "the other reader's block");
    /* no room, made by hand: the whole journal is the message of line 7 */
    static const uint8_t header[4] = {7 << 5, 1, 0, 0};
    memset(gateway.journal, 'x', sizeof gateway.journal);
    for (unsigned at = 0; at < 32765; at += 5)
        memcpy(gateway.journal + at, header, sizeof header);
    counts->in_use = counts->used[7] = 32765;
    counts->used[2] = 0;
    check_block(finding, E_BLOCK, NGACHODUI_NO_ROOM, "", "a finding without room");
    check_number(lines[2].reply, NGACHODUI_MORE, "our last reply is the one before");
    check_number(lines[2].refusing, 0, "nothing is refused later");
    counts->in_use = 32764;
    check_number(send(2, finding, E_BLOCK, "a broken journal").number, NGACHODUI_BROKEN, "a finding and a broken journal");
    check_number(lines[2].collected, E_BLOCK - 1, "the block lacks its last byte");
    counts->in_use = 0;
    counts->used[7] = 0;
    check_number(byte_on(2, '\r').number, NGACHODUI_STORED, "its last byte");
}

static void test_reader_lines(void)
{
    start_readers();
    for (unsigned byte = 0; byte < 256; byte++)
        if (byte != NGACHODUI_STX)
            check_number(byte_on(2, (uint8_t)byte).number, NGACHODUI_NOTHING, "a byte between blocks");
    check_number(seconds_on(2, 255).number, NGACHODUI_NOTHING, "seconds on a reader's line");
    check_no_start(2, "H|\\^&\rL|1\r", NGACHODUI_NOT_NEUTRAL, 0);
    check_no_start(2, "", NGACHODUI_NOT_NEUTRAL, 0);
    ngachodui_made m = fetch_from(2, 0);
    check_number(m.number, NGACHODUI_DONE, "nothing was replied yet");
    check_number((unsigned)m.length, 0, "nothing to fetch");
    check_block(BYTES(SPM), NGACHODUI_HEARD, MOR, "SPM");
    check_number(fetch_from(2, 5).number, NGACHODUI_NOT_FITTING, "5 bytes for 6");
    check_number(byte_on(0, 0x05).number, NGACHODUI_OPENED, "ENQ on a line of frames");

    static const struct { uint16_t collected, speaks, reply, since, kept; } beyond[] = {
        {236, 10, 0, 0, 0}, {239, 13, 0, 0, 0}, {246, 0, 0, 0, 0}, {0, 11, 0, 0, 0}, {0, 10, 3, 0, 0}, {0, 10, 0, 2, 0}, {0, 10, 0, 0, 2},
        {235, 10, 2, 1, 1}, {238, 13, 2, 1, 1}, {245, 0, 9, 9, 9},
    };
    for (size_t i = 0; i < sizeof beyond / sizeof beyond[0]; i++) {
        lines[2].collected = beyond[i].collected;
        lines[2].speaks = beyond[i].speaks;
        lines[2].reply = beyond[i].reply;
        lines[2].since = beyond[i].since;
        lines[2].kept = beyond[i].kept;
        const unsigned number = i < 7 ? NGACHODUI_BEYOND_LIMITS : 0;
        check_number(seconds_on(2, 0).number, number, "numbers of a reader's line");
        check_number(fetch_from(2, 6).number, number, "fetched then");
    }
    static const uint16_t none[NGACHODUI_BLOCK_LIMIT] = {0};
    static ngachodui_gateway before;
    before = gateway;
    ngachodui_settings settings[NGACHODUI_LINES] = {{0}, {10}, {13}, {0}, {0}, {0}, {0}, {12}};
    check_number(ngachodui_on_start(&gateway, settings), NGACHODUI_BEYOND_LIMITS, "a line that speaks 12");
    check(memcmp(&before, &gateway, sizeof before) == 0, "nothing is changed then");
    settings[7].speaks = 0;
    check_number(ngachodui_start(settings, numbers, counts), 0, "a start");
    check_number(lines[1].speaks, 10, "what line 1 speaks");
    check_number(lines[2].reply, 0, "the last reply of line 2");
    start();
    check_number(lines[1].speaks, NGACHODUI_FRAMES, "fresh, every line speaks frames");
    check(memcmp(numbers->blocks[2], none, sizeof none) == 0, "and no block is kept");
}

static void test_readers(void)
{
    test_upload();
    test_refused_blocks();
    test_reader_lines();
}

/* A gateway saved when a message was stored, and loaded: the last frame again is a repeat, 30 seconds end the
 * transfer, and the message waits. */
static void test_saved(void)
{
    static ngachodui_gateway saved;
    check_number(sizeof gateway, 70852, "the size of a gateway");
    start();
    check_number(byte_on(6, 0x05).number, NGACHODUI_OPENED, "ENQ on line 6");
    check_number(send(6, BYTES("\x02" "1H|\\^&\r" "L|1|N\r" "\x03" "B5\r\n"), "a frame").number, NGACHODUI_STORED, "the message to save");
    saved = gateway;
    check_number(byte_on(6, 0x04).number, NGACHODUI_ENDED, "EOT on line 6");
    check_number(take_from(6, sizeof buffer).number, NGACHODUI_TAKEN, "a taking that is not saved");

    gateway = saved;
    check_number(send(6, BYTES("\x02" "1H|\\^&\r" "L|1|N\r" "\x03" "B5\r\n"), "a frame").number, NGACHODUI_REPEATED, "its last frame again");
    check_number(seconds_on(6, 30).number, NGACHODUI_TIMED_OUT, "30 seconds after loading");
    check_number(seconds_on(5, 30).number, NGACHODUI_NOTHING, "30 seconds on a neutral line");
    check_number(counts->in_use, 16, "bytes in use after loading");
    ngachodui_answered a = take_from(6, sizeof buffer);
    check_number(a.number, NGACHODUI_TAKEN, "the message saved");
    check_number(a.serial, 0, "its serial again");
    check(memcmp(buffer, MESSAGE) == 0, "its text again");
}

static void test_seconds(void)
{
    start();
    check_number(seconds_on(3, 255).number, NGACHODUI_NOTHING, "seconds on a neutral line");
    check_number(byte_on(3, 0x05).number, NGACHODUI_OPENED, "ENQ on line 3");
    check_number(seconds_on(3, 29).number, NGACHODUI_NOTHING, "29 seconds");
    check_number(lines[3].seconds, 29, "the second count");
    check_number(seconds_on(3, 1).number, NGACHODUI_TIMED_OUT, "30 seconds");
    check_number(lines[3].state, NGACHODUI_NEUTRAL, "the state after 30 seconds");
}

/* The layout, and each of the three memories lent one byte short: nothing is changed. */
static void test_sizes(void)
{
    start();
    const ngachodui_layout layout = ngachodui_sizes();
    check_number(layout.version, NGACHODUI_VERSION, "the version");
    check_number(layout.version, 3, "the version with the readers' blocks");
    check_number(layout.numbers, 2040, "as many numbers");
    check_number(layout.numbers, sizeof gateway.state.numbers / (sizeof(uint16_t)), "the numbers of the lines");
    check_number(layout.counts, sizeof gateway.state.counts / (sizeof(uint32_t)), "the counts");
    check_number(layout.journal, sizeof gateway.journal, "the journal's size");
    check_number(layout.unfinished, sizeof gateway.unfinished, "the size of unfinished text");
    check_number(layout.frames, sizeof gateway.frames, "the size of the frames");

    static ngachodui_state before;
    before = gateway.state;
    for (int memory = 0; memory < 3; memory++) {
        const size_t journal = sizeof gateway.journal - (memory == 0);
        const size_t unfinished = sizeof gateway.unfinished - (memory == 1);
        const size_t frames = sizeof gateway.frames - (memory == 2);
        ngachodui_answered a = ngachodui_byte(0, 0x05, numbers, counts, gateway.journal, journal, gateway.unfinished, unfinished, gateway.frames, frames);
        check_number(a.number, NGACHODUI_WRONG_SIZE, "a byte, and a memory one byte short");
        a = ngachodui_seconds(0, 1, numbers, counts, gateway.journal, journal, gateway.unfinished, unfinished, gateway.frames, frames);
        check_number(a.number, NGACHODUI_WRONG_SIZE, "seconds, and a memory one byte short");
    }
    ngachodui_answered a = ngachodui_take(0, numbers, counts, gateway.journal, 1, buffer, sizeof buffer);
    check_number(a.number, NGACHODUI_WRONG_SIZE, "a journal of 1 byte");
    check(memcmp(&before, &gateway.state, sizeof before) == 0, "the state after 41");
}

static void test_refusals(void)
{
    start();
    ngachodui_line lines_before[NGACHODUI_LINES];
    check_number(byte_on(8, 0x05).number, NGACHODUI_NO_LINE, "line 8");
    check_number(seconds_on(8, 1).number, NGACHODUI_NO_LINE, "seconds on line 8");
    check_number(take_from(255, 0).number, NGACHODUI_NO_LINE, "a taking from line 255");

    lines[1].state = 6;
    memcpy(lines_before, lines, sizeof lines_before);
    check_number(byte_on(1, 0x05).number, NGACHODUI_BEYOND_LIMITS, "a state of 6");
    check(memcmp(lines_before, lines, sizeof lines_before) == 0, "the numbers after 42");
    check_number(byte_on(0, 0x05).number, NGACHODUI_OPENED, "another line beside it");

    counts->in_use = 5;
    check_number(take_from(0, sizeof buffer).number, NGACHODUI_BROKEN, "bytes in use that are no chain");
    check_number(counts->in_use, 5, "the counts after 43");

    /* the 246th byte behind STX is not LF */
    start();
    check_number(byte_on(7, 0x05).number, NGACHODUI_OPENED, "ENQ on line 7");
    check_number(byte_on(7, 0x02).number, NGACHODUI_NOTHING, "STX");
    for (int i = 0; i < 245; i++)
        check_number(byte_on(7, 'x').number, NGACHODUI_NOTHING, "a collected byte");
    check_number(lines[7].collected, 245, "245 collected");
    check_number(gateway.frames[7 * NGACHODUI_FRAME_PART + 244], 'x', "the last byte collected");
    check_number(byte_on(7, 'x').number, NGACHODUI_UNENDED, "the 246th byte");
    check_number(lines[7].collected, 0, "none collected");
}

/* Delimiters that are not allowed: 55 first, without a place, and nothing is written. */
static void check_bad(const char *four)
{
    const uint8_t *const delimiters = (const uint8_t *)four;
    uint8_t out[2] = {0xaa, 0xaa};
    const ngachodui_made made[] = {
        ngachodui_escape(delimiters, BYTES("a"), out, sizeof out),
        ngachodui_escape(delimiters, BYTES("a||b"), out, sizeof out),    /* too long for the output */
        ngachodui_unescape(delimiters, BYTES("a"), out, sizeof out),
        ngachodui_unescape(delimiters, BYTES("abcd"), out, sizeof out),  /* too long for the output */
        ngachodui_unescape(delimiters, BYTES("|&X"), out, sizeof out),   /* a wrong escape */
    };
    for (size_t i = 0; i < sizeof made / sizeof made[0]; i++) {
        check_number(made[i].number, NGACHODUI_BAD_DELIMITERS, "delimiters that are not allowed");
        check_number(made[i].place, 0, "no place with them");
        check_number((unsigned)made[i].length, 0, "no length with them");
    }
    check(out[0] == 0xaa && out[1] == 0xaa, "the output after 55");
}

/* A message with other delimiters: it is stored, its records are those of the same message with the standard ones, and
 * what is escaped for it comes back. */
static void test_delimiters(void)
{
    static const uint8_t text[] = "H!~$%\rP!1\rO!1\rR!1!$$$GLU!5.1 | 92\rL!1!N\r";
    const size_t length = sizeof text - 1;
    uint8_t frame[64];
    start();
    check_number(byte_on(1, 0x05).number, NGACHODUI_OPENED, "ENQ on line 1");
    const ngachodui_answered a = send(1, frame, framed((const char *)text, frame), "other delimiters");
    check_number(a.number, NGACHODUI_STORED, "a message with other delimiters");
    check_number((unsigned)take_from(1, sizeof buffer).length, (unsigned)length, "its length");
    check(memcmp(buffer, text, length) == 0, "its text");
    check(ngachodui_is_message(text, length), "other delimiters are allowed");

    uint8_t types[5];
    uint16_t offsets[5], lengths[5], owners[5];
    ngachodui_made m = ngachodui_read(text, length, types, 5, offsets, 5, lengths, 5, owners, 5);
    check_number(m.number, 0, "a reading with other delimiters");
    check_number((unsigned)m.length, 5, "its records");
    static const uint16_t above[] = {0, 1, 2, 3, 0};
    check(memcmp(types, "HPORL", 5) == 0, "their types");
    check(memcmp(owners, above, sizeof above) == 0, "their owners");

    uint8_t out[16], plain[16];
    m = ngachodui_escape(text + 1, BYTES("!~$%|"), out, sizeof out);
    check_number(m.number, 0, "an escaping with a message's own delimiters");
    check_number((unsigned)m.length, 13, "its length");
    check(memcmp(out, "%F%%R%%S%%E%|", 13) == 0, "its text");
    m = ngachodui_unescape(text + 1, out, m.length, plain, sizeof plain);
    check_number(m.number, 0, "an unescaping with them");
    check_number((unsigned)m.length, 5, "its length");
    check(memcmp(plain, "!~$%|", 5) == 0, "its text");
    check_number(ngachodui_unescape(text + 1, BYTES("&F&|"), plain, sizeof plain).number, 0, "the standard ones are text there");
    check_number(ngachodui_unescape(text + 1, BYTES("a!"), plain, sizeof plain).number, NGACHODUI_MALFORMED, "one that is in force");

    check_bad("||^&");
    check_bad("|\\|&");
    check_bad("|\\^|");
    check_bad("|^^&");
    check_bad("|&^&");
    check_bad("|\\^^");
    check_bad("A\\^&");
    check_bad("|z^&");
    check_bad("|\\0&");
    check_bad("|\\^ ");
    check_bad("\x7f\\^&");
    check_bad("|\x80^&");
    check_bad("\r\\^&");
}

static void test_texts(void)
{
    check(ngachodui_is_message(MESSAGE), "a message");
    check(!ngachodui_is_message(BYTES("L|1|N\r")), "no message");
    const uint8_t *const standard = message + 1;

    uint8_t out[8];
    memset(out, 0xaa, sizeof out);
    ngachodui_made m = ngachodui_escape(standard, BYTES("a^b"), out, 4);
    check_number(m.number, NGACHODUI_NOT_FITTING, "4 bytes for 5");
    m = ngachodui_escape(standard, BYTES("a^b"), out, sizeof out);
    check_number(m.number, 0, "an escaping");
    check_number((unsigned)m.length, 5, "its length");
    check(memcmp(out, "a&S&b\xaa", 6) == 0, "its text and the output's rest");
    uint8_t plain[8];
    m = ngachodui_unescape(standard, out, 5, plain, sizeof plain);
    check_number(m.number, 0, "an unescaping");
    check_number((unsigned)m.length, 3, "its length");
    check(memcmp(plain, "a^b", 3) == 0, "its text");
    check_number(ngachodui_unescape(standard, BYTES("a&X&b"), plain, sizeof plain).number, NGACHODUI_MALFORMED, "a wrong escape");
    check_number(ngachodui_unescape(standard, out, 5, plain, 2).number, NGACHODUI_NOT_FITTING, "2 bytes for 3");

    static const uint8_t results[] = "H|\\^&\rP|1\rO|1\rR|1|^^^GLU|5.1\rC|1|x\rL|1|N\r";
    uint8_t types[7];
    uint16_t offsets[7], lengths[7], owners[7];
    memset(owners, 0xaa, sizeof owners);
    for (int memory = 0; memory < 4; memory++) {
        size_t slots[4] = {7, 7, 7, 7};
        slots[memory] = 5;
        m = ngachodui_read(results, sizeof results - 1, types, slots[0], offsets, slots[1], lengths, slots[2], owners, slots[3]);
        check_number(m.number, NGACHODUI_NOT_FITTING, "5 slots for 6");
    }
    m = ngachodui_read(results, sizeof results - 1, types, 7, offsets, 7, lengths, 6, owners, 7);
    check_number(m.number, 0, "a reading");
    check_number((unsigned)m.length, 6, "its records");
    check(memcmp(types, "HPORCL", 6) == 0, "their types");
    static const uint16_t starts[] = {0, 6, 10, 14, 29, 35}, sizes[] = {5, 3, 3, 14, 5, 5}, above[] = {0, 1, 2, 3, 4, 0};
    check(memcmp(offsets, starts, sizeof starts) == 0, "their offsets");
    check(memcmp(lengths, sizes, sizeof sizes) == 0, "their lengths");
    check(memcmp(owners, above, sizeof above) == 0, "their owners");
    check_number(owners[6], 0xaaaa, "the rest of the owners");
}

static void work(void)
{
    test_dialogue();
    test_cut_and_sent();
    test_faults();
    test_sendings();
    test_readers();
    test_delimiters();
    test_texts();
}

/* The work once more, on a stack of its own that is filled with a pattern before: what is changed of it was needed.
 * All was called before, so that the loader has nothing to do on this stack. */
static void test_stack(void)
{
    static const uint8_t pattern = 0xa5;
    static uint8_t stack[16 * NGACHODUI_STACK_LIMIT];
    static ucontext_t here, there;
    memset(stack, pattern, sizeof stack);
    check(getcontext(&there) == 0, "a context");
    there.uc_stack.ss_sp = stack;
    there.uc_stack.ss_size = sizeof stack;
    there.uc_link = &here;
    makecontext(&there, work, 0);
    check(swapcontext(&here, &there) == 0, "a stack of its own");
    size_t free_bytes = 0;
    while (free_bytes < sizeof stack && stack[free_bytes] == pattern)
        free_bytes++;
    const size_t needed = sizeof stack - free_bytes;
    check(needed > 0 && needed <= NGACHODUI_STACK_LIMIT, "the bytes of stack");
    printf("%zu bytes of stack, the test's own counted\n", needed);
}

int main(void)
{
    test_dialogue();
    test_cut_and_sent();
    test_faults();
    test_sendings();
    test_readers();
    test_saved();
    test_saved_sending();
    test_seconds();
    test_sizes();
    test_refusals();
    test_delimiters();
    test_texts();
    test_stack();
    printf("%u checks, %u wrong\n", checks, wrong);
    return wrong != 0;
}
