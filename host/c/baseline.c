#include "baseline.h"

#include <string.h>

enum { STX = 0x02, ETX = 0x03, EOT = 0x04, ENQ = 0x05, ACK = 0x06, LF = 0x0A, CR = 0x0D, NAK = 0x15, ETB = 0x17 };

/* What each byte value is in a text: the CR that ends a record, not allowed, allowed and fit for a delimiter, or just
 * allowed, which is 0. */
enum { RECORD_END = 1, NOT_ALLOWED = 2, DELIMITER = 4 };

#define N NOT_ALLOWED
#define D DELIMITER
static const uint8_t byte_class[256] = {
    N, N, N, N, N, N, N, 0, N, 0, N, 0, 0, 1, N, N, /* 07, 09, 0B, 0C; 0D is CR */
    N, N, N, N, N, N, N, N, N, N, N, N, N, N, N, N,
    0, D, D, D, D, D, D, D, D, D, D, D, D, D, D, D, /* 20 to 7E; no digit and no letter delimits */
    0, 0, 0, 0, 0, 0, 0, 0, 0, 0, D, D, D, D, D, D,
    D, 0, 0, 0, 0, 0, 0, 0, 0, 0, 0, 0, 0, 0, 0, 0,
    0, 0, 0, 0, 0, 0, 0, 0, 0, 0, 0, D, D, D, D, D,
    D, 0, 0, 0, 0, 0, 0, 0, 0, 0, 0, 0, 0, 0, 0, 0,
    0, 0, 0, 0, 0, 0, 0, 0, 0, 0, 0, D, D, D, D, N,
    0, 0, 0, 0, 0, 0, 0, 0, 0, 0, 0, 0, 0, 0, 0, 0, /* 80 to FE */
    0, 0, 0, 0, 0, 0, 0, 0, 0, 0, 0, 0, 0, 0, 0, 0,
    0, 0, 0, 0, 0, 0, 0, 0, 0, 0, 0, 0, 0, 0, 0, 0,
    0, 0, 0, 0, 0, 0, 0, 0, 0, 0, 0, 0, 0, 0, 0, 0,
    0, 0, 0, 0, 0, 0, 0, 0, 0, 0, 0, 0, 0, 0, 0, 0,
    0, 0, 0, 0, 0, 0, 0, 0, 0, 0, 0, 0, 0, 0, 0, 0,
    0, 0, 0, 0, 0, 0, 0, 0, 0, 0, 0, 0, 0, 0, 0, 0,
    0, 0, 0, 0, 0, 0, 0, 0, 0, 0, 0, 0, 0, 0, 0, N,
};
#undef D
#undef N

static const char upper_hex[16] = { '0', '1', '2', '3', '4', '5', '6', '7',
                                    '8', '9', 'A', 'B', 'C', 'D', 'E', 'F' };

/* ---- Delimiters ---- */

/* Where each of the four stands, in a header behind its H. */
enum { FIELD, REPEAT, COMPONENT, ESCAPE };

/* Whether these may be the delimiters: each byte is fit for it, and they are different. */
static inline bool may_delimit(const uint8_t four[PLAIN_DELIMITERS])
{
    const uint8_t a = four[0], b = four[1], c = four[2], d = four[3];
    return byte_class[a] & byte_class[b] & byte_class[c] & byte_class[d] & DELIMITER
        && a != b && a != c && a != d && b != c && b != d && c != d;
}

/* ---- Records ---- */

enum type { H, P, O, R, Q, L, C, M, UNKNOWN };

static enum type type_of(uint8_t letter)
{
    switch (letter) {
    case 'H': return H;
    case 'P': return P;
    case 'O': return O;
    case 'R': return R;
    case 'Q': return Q;
    case 'L': return L;
    case 'C': return C;
    case 'M': return M;
    default: return UNKNOWN;
    }
}

/* followers[t] has the bit of each type that may follow t, C and M passed over. */
#define BIT(t) (1u << (t))
#define ANY_TYPE 0xFFu /* the bits of all eight */
static const uint8_t followers[8] = {
    [H] = BIT(P) | BIT(O) | BIT(Q) | BIT(L) | BIT(C) | BIT(M),
    [P] = BIT(P) | BIT(O) | BIT(Q) | BIT(L) | BIT(C) | BIT(M),
    [O] = BIT(O) | BIT(R) | BIT(P) | BIT(Q) | BIT(L) | BIT(C) | BIT(M),
    [R] = BIT(R) | BIT(O) | BIT(P) | BIT(Q) | BIT(L) | BIT(C) | BIT(M),
    [Q] = BIT(Q) | BIT(P) | BIT(L) | BIT(C) | BIT(M),
    [L] = 0,
    [C] = 0, /* never looked up: C and M are passed over */
    [M] = 0,
};

/* Field 2 as a number, or 0 where it is none. The text has an end: a CR stands at or behind `at`. */
static unsigned sequence_number(const uint8_t *at, uint8_t field)
{
    unsigned value = 0;
    int digits = 0;
    if (*at == '0')
        return 0;
    while (*at >= '0' && *at <= '9') {
        if (++digits > 6)
            return 0;
        value = value * 10 + (unsigned)(*at++ - '0');
    }
    return *at == field || *at == CR ? value : 0;
}

static struct plain_outcome outcome(enum plain_number number)
{
    return (struct plain_outcome){ .number = (uint16_t)number };
}

static bool all_allowed(const uint8_t *text, size_t n)
{
    uint8_t classes = 0;
    for (size_t i = 0; i < n; i++)
        classes |= byte_class[text[i]];
    return !(classes & NOT_ALLOWED);
}

/* Three functions for a text that is refused. They are kept out of plain_check: a message shall not pay for a count
 * of its records, nor for the registers that it takes to tell the faults apart. */

/* A fault of the record that the byte at `at` is of, with the record's place. */
__attribute__((noinline))
static struct plain_outcome fault_at(enum plain_number number, const uint8_t *text, size_t at)
{
    const uint8_t *cr = text, *end = text + at;
    uint16_t place = 1;
    while ((cr = memchr(cr, CR, (size_t)(end - cr))) != NULL) {
        place++;
        cr++;
    }
    return (struct plain_outcome){ (uint16_t)number, place };
}

/* A text that is too long, is empty, does not end with CR, has no header or one with bad delimiters. */
__attribute__((noinline))
static struct plain_outcome text_fault(const uint8_t *text, size_t n)
{
    if (n > PLAIN_TEXT || !all_allowed(text, n))
        return outcome(PLAIN_TEXT_MALFORMED);
    if (n > 0 && text[n - 1] != CR)
        return fault_at(PLAIN_NO_FINAL_CR, text, n - 1);
    if (n < 6 || text[0] != 'H' || memchr(text, CR, 5) != NULL)
        return (struct plain_outcome){ PLAIN_NO_HEADER, 1 };
    return (struct plain_outcome){ PLAIN_BAD_DELIMITERS, 1 };
}

/* The fault of the record at `at`, where the walk has stopped. `may` has the bit of each type that may stand there: of
 * any, where its type has passed. */
__attribute__((noinline))
static struct plain_outcome record_fault(const uint8_t *text, size_t n, size_t at, unsigned may)
{
    if (!all_allowed(text + at, n - at)) /* goes before every fault, and the walk has not seen the rest */
        return outcome(PLAIN_TEXT_MALFORMED);
    enum type type = type_of(text[at]);
    if (type == UNKNOWN || (text[at + 1] != text[1] && text[at + 1] != CR))
        return fault_at(PLAIN_UNKNOWN_TYPE, text, at);
    bool last = memchr(text + at, CR, n - at) == text + n - 1;
    if (!(may & BIT(type)) || (last && type != L))
        return fault_at(PLAIN_MISPLACED, text, at);
    return fault_at(PLAIN_MISNUMBERED, text, at);
}

struct plain_outcome plain_check(const uint8_t *text, size_t n)
{
    /* With a CR at the very end every scan below stops inside the text. None is among the delimiters, so the first
     * record has its five bytes. */
    if (n < 6 || n > PLAIN_TEXT || text[n - 1] != CR || text[0] != 'H' || !may_delimit(text + 1))
        return text_fault(text, n);

    const uint8_t field = text[1 + FIELD];
    unsigned count[8] = { 0 };   /* the last sequence number of each type, where it goes on */
    enum type before = H;        /* the last record that is no C or M */
    size_t at = 5;
    for (;;) {
        while (!(byte_class[text[at]] & (RECORD_END | NOT_ALLOWED)))
            at++;
        if (text[at] != CR)
            return outcome(PLAIN_TEXT_MALFORMED);
        if (++at == n)
            return before == L ? outcome(PLAIN_NOTHING) : fault_at(PLAIN_MISPLACED, text, at - 1);

        enum type type = type_of(text[at]);
        if (type == UNKNOWN || text[at + 1] != field || !(followers[before] & BIT(type)))
            return record_fault(text, n, at, followers[before]);
        if (type != C && type != M) {
            count[C] = count[M] = 0;
            if (type == P)
                count[O] = 0;
            if (type == O)
                count[R] = 0;
            before = type;
        }
        if (sequence_number(text + at + 2, field) != ++count[type])
            return record_fault(text, n, at, ANY_TYPE);
        at += 2;
    }
}

bool plain_is_message(const uint8_t *text, size_t n)
{
    return plain_check(text, n).number == PLAIN_NOTHING;
}

struct plain_outcome plain_read(const uint8_t *text, size_t n, struct plain_record *records, size_t cap,
                                size_t *count)
{
    struct plain_outcome checked = plain_check(text, n);
    if (checked.number != PLAIN_NOTHING)
        return checked;
    size_t needed = 0;
    for (size_t i = 0; i < n; i++)
        needed += text[i] == CR;
    if (needed > cap)
        return outcome(PLAIN_OUTPUT_TOO_SHORT);

    uint16_t patient = 1;   /* who owns the next O: the last P, or H */
    uint16_t order = 0;     /* who owns the next R */
    uint16_t other = 0;     /* who owns the next C or M */
    size_t start = 0;
    for (uint16_t number = 1; number <= needed; number++) {
        const uint8_t *end = memchr(text + start, CR, n - start);
        struct plain_record *record = &records[number - 1];
        record->type = text[start];
        record->offset = (uint16_t)start;
        record->length = (uint16_t)(end - text - (ptrdiff_t)start);
        switch (text[start]) {
        case 'P':
            record->owner = 1;
            patient = number;
            break;
        case 'Q':
            record->owner = 1;
            break;
        case 'O':
            record->owner = patient;
            order = number;
            break;
        case 'R':
            record->owner = order;
            break;
        case 'C':
        case 'M':
            record->owner = other;
            break;
        default:
            record->owner = 0;
        }
        if (text[start] != 'C' && text[start] != 'M')
            other = number;
        start = (size_t)(end - text) + 1;
    }
    *count = needed;
    return checked;
}

/* ---- Escapes ---- */

/* The letter of each delimiter, in a table that has 0 for every other byte. */
static void set_letters(uint8_t letters[256], const uint8_t four[PLAIN_DELIMITERS])
{
    letters[four[FIELD]] = 'F';
    letters[four[COMPONENT]] = 'S';
    letters[four[REPEAT]] = 'R';
    letters[four[ESCAPE]] = 'E';
}

/* The delimiter that a letter stands for, or 0. */
static uint8_t escaped_byte(const uint8_t four[PLAIN_DELIMITERS], uint8_t letter)
{
    switch (letter) {
    case 'F': return four[FIELD];
    case 'S': return four[COMPONENT];
    case 'R': return four[REPEAT];
    case 'E': return four[ESCAPE];
    default: return 0;
    }
}

enum plain_number plain_escape(const uint8_t delimiters[PLAIN_DELIMITERS], const uint8_t *text, size_t n,
                               uint8_t *out, size_t cap, size_t *length)
{
    if (!may_delimit(delimiters))
        return PLAIN_BAD_DELIMITERS;
    uint8_t letters[256] = { 0 };
    set_letters(letters, delimiters);
    const uint8_t escape = delimiters[ESCAPE];

    size_t needed = 0;
    for (size_t i = 0; i < n; i++) {
        size_t more = letters[text[i]] ? 3 : 1;
        if (more > cap - needed) /* needed never passes cap, so nothing wraps */
            return PLAIN_OUTPUT_TOO_SHORT;
        needed += more;
    }
    for (size_t i = 0; i < n; i++) {
        uint8_t letter = letters[text[i]];
        if (letter) {
            *out++ = escape;
            *out++ = letter;
            *out++ = escape;
        } else {
            *out++ = text[i];
        }
    }
    *length = needed;
    return PLAIN_NOTHING;
}

enum plain_number plain_unescape(const uint8_t delimiters[PLAIN_DELIMITERS], const uint8_t *text, size_t n,
                                 uint8_t *out, size_t cap, size_t *length)
{
    if (!may_delimit(delimiters))
        return PLAIN_BAD_DELIMITERS;
    uint8_t letters[256] = { 0 };
    set_letters(letters, delimiters);
    const uint8_t escape = delimiters[ESCAPE];

    size_t needed = 0;
    for (size_t i = 0; i < n; needed++) {
        if (text[i] == escape) {
            if (n - i < 3 || !escaped_byte(delimiters, text[i + 1]) || text[i + 2] != escape)
                return PLAIN_TEXT_MALFORMED;
            i += 3;
        } else {
            if (letters[text[i]])
                return PLAIN_TEXT_MALFORMED;
            i++;
        }
    }
    if (needed > cap)
        return PLAIN_OUTPUT_TOO_SHORT;
    for (size_t i = 0; i < n;) {
        if (text[i] == escape) {
            *out++ = escaped_byte(delimiters, text[i + 1]);
            i += 3;
        } else {
            *out++ = text[i++];
        }
    }
    *length = needed;
    return PLAIN_NOTHING;
}

/* ---- Cutting ---- */

static uint8_t *write_frame(uint8_t *out, unsigned number, const uint8_t *text, size_t n, uint8_t end)
{
    *out++ = STX;
    *out = (uint8_t)('0' + number);
    uint8_t sum = (uint8_t)(*out++ + end);
    for (size_t i = 0; i < n; i++)
        sum = (uint8_t)(sum + text[i]);
    memcpy(out, text, n);
    out += n;
    *out++ = end;
    *out++ = (uint8_t)upper_hex[sum >> 4];
    *out++ = (uint8_t)upper_hex[sum & 15];
    *out++ = CR;
    *out++ = LF;
    return out;
}

struct plain_outcome plain_cut(const uint8_t *text, size_t n, uint8_t *out, size_t cap, size_t *length)
{
    struct plain_outcome checked = plain_check(text, n);
    if (checked.number != PLAIN_NOTHING)
        return checked;

    size_t needed = n;
    for (size_t start = 0; start < n;) {
        size_t size = (size_t)((const uint8_t *)memchr(text + start, CR, n - start) - text) + 1 - start;
        needed += 7 * ((size + PLAIN_PIECE - 1) / PLAIN_PIECE);
        start += size;
    }
    if (needed > cap)
        return outcome(PLAIN_OUTPUT_TOO_SHORT);

    unsigned number = 1;
    for (size_t start = 0; start < n;) {
        size_t left = (size_t)((const uint8_t *)memchr(text + start, CR, n - start) - text) + 1 - start;
        while (left > 0) {
            size_t piece = left > PLAIN_PIECE ? PLAIN_PIECE : left;
            left -= piece;
            out = write_frame(out, number, text + start, piece, left > 0 ? ETB : ETX);
            number = (number + 1) & 7;
            start += piece;
        }
    }
    *length = needed;
    return checked;
}

/* ---- Journal ---- */

enum { NO_ENTRY = PLAIN_JOURNAL_SIZE }; /* no entry can start there */

static unsigned entry_line(const uint8_t *header)
{
    return header[0] >> 5;
}

static unsigned entry_text_length(const uint8_t *header)
{
    return (unsigned)(header[0] & 0x0F) << 8 | header[1];
}

/* Whether the bytes in use are a chain of entries that agrees with the ledger. If so, *oldest is
 * where the line's first entry starts, or NO_ENTRY. */
static bool whole(const struct plain_ledger *ledger, const uint8_t *journal, unsigned line, uint32_t *oldest)
{
    uint32_t end = ledger->in_use;
    if (end > PLAIN_JOURNAL_SIZE)
        return false;
    uint32_t sums[PLAIN_LINES] = { 0 };
    *oldest = NO_ENTRY;
    for (uint32_t at = 0; at < end;) {
        const uint8_t *header = journal + at;
        if (end - at < PLAIN_HEADER || (header[0] & 0x10))
            return false;
        unsigned n = entry_text_length(header);
        if (n == 0 || n > PLAIN_TEXT || n > end - at - PLAIN_HEADER)
            return false;
        if (entry_line(header) == line && *oldest == NO_ENTRY)
            *oldest = at;
        sums[entry_line(header)] += PLAIN_HEADER + n;
        at += PLAIN_HEADER + n;
    }
    return memcmp(sums, ledger->used, sizeof sums) == 0;
}

/* In a whole journal every used count is at most the journal's size, so nothing wraps. */
static bool has_room(const struct plain_ledger *ledger, unsigned line, uint32_t entry)
{
    uint32_t sum = 0;
    for (unsigned i = 0; i < PLAIN_LINES; i++) {
        uint32_t used = ledger->used[i] + (i == line ? entry : 0);
        sum += used > PLAIN_SHARE ? used : PLAIN_SHARE;
    }
    return sum <= PLAIN_JOURNAL_SIZE;
}

static void store(struct plain_gateway *gateway, uint8_t *journal, unsigned line, const uint8_t *text, uint32_t n)
{
    struct plain_ledger *ledger = &gateway->ledger;
    uint8_t *entry = journal + ledger->in_use;
    uint16_t serial = gateway->lines[line].serial++;
    entry[0] = (uint8_t)(line << 5 | n >> 8);
    entry[1] = (uint8_t)n;
    entry[2] = (uint8_t)(serial >> 8);
    entry[3] = (uint8_t)serial;
    memcpy(entry + PLAIN_HEADER, text, n);
    ledger->in_use += PLAIN_HEADER + n;
    ledger->used[line] += PLAIN_HEADER + n;
}

static struct plain_answer just(enum plain_number number)
{
    return (struct plain_answer){ .number = (uint16_t)number };
}

struct plain_answer plain_take(struct plain_gateway *gateway, uint8_t *journal, size_t journal_length,
                               unsigned line, uint8_t *buffer, size_t buffer_length)
{
    struct plain_ledger *ledger = &gateway->ledger;
    uint32_t oldest;
    if (line >= PLAIN_LINES)
        return just(PLAIN_NO_SUCH_LINE);
    if (journal_length != PLAIN_JOURNAL_SIZE)
        return just(PLAIN_MEMORY_SIZE);
    if (!whole(ledger, journal, line, &oldest))
        return just(PLAIN_JOURNAL_BROKEN);
    if (oldest == NO_ENTRY)
        return just(PLAIN_NONE_WAITING);
    uint8_t *entry = journal + oldest;
    uint32_t n = entry_text_length(entry);
    if (buffer_length < n)
        return just(PLAIN_BUFFER_TOO_SHORT);

    uint32_t size = PLAIN_HEADER + n;
    struct plain_answer answer = {
        .number = PLAIN_TAKEN, .length = (uint16_t)n, .serial = (uint16_t)(entry[2] << 8 | entry[3])
    };
    memcpy(buffer, entry + PLAIN_HEADER, n);
    memmove(entry, entry + size, ledger->in_use - oldest - size);
    ledger->in_use -= size;
    ledger->used[line] -= size;
    return answer;
}

/* ---- Lines ---- */

struct plain_gateway plain_fresh(void)
{
    struct plain_gateway gateway = { 0 };
    for (int i = 0; i < PLAIN_LINES; i++)
        gateway.lines[i].next = 1;
    return gateway;
}

/* A transfer opened or over. Tries and place are 0 already, and the serial and the numbers behind them stay. */
static void reset(struct plain_line *line, enum plain_state state)
{
    line->state = (uint16_t)state;
    line->collected = 0;
    line->joined = 0;
    line->seconds = 0;
    line->next = 1;
    line->last = 0;
    line->refusing = 0;
}

/* A line that sends, or that speaks with a strip reader, is not within them: this gateway could not go on with it. */
static bool within_limits(const struct plain_line *line)
{
    return line->collected < PLAIN_FRAME && line->joined <= PLAIN_TEXT && line->seconds < PLAIN_SECONDS_LIMIT
        && line->next <= 7 && line->last <= 8 && line->refusing <= 1 && line->state <= PLAIN_INSIDE
        && (line->tries | line->place | line->speaks) == 0;
}

static bool right_sizes(const struct plain_memory *memory)
{
    return memory->journal_length == PLAIN_JOURNAL_SIZE && memory->unfinished_length == PLAIN_UNFINISHED_SIZE
        && memory->frames_length == PLAIN_FRAMES_SIZE;
}

/* Kept out of plain_event, as are two more below: a collected byte, by far the most frequent event, shall
 * not pay for the registers and the stack that others need. */
__attribute__((noinline))
static enum plain_number pass_seconds(struct plain_line *line, unsigned seconds)
{
    if (line->state == PLAIN_NEUTRAL)
        return PLAIN_NOTHING;
    if (line->seconds + seconds >= PLAIN_SECONDS_LIMIT) {
        reset(line, PLAIN_NEUTRAL);
        return PLAIN_TIMED_OUT;
    }
    line->seconds = (uint16_t)(line->seconds + seconds);
    return PLAIN_NOTHING;
}

/* Answers 22 to 25: the collected bytes of a frame, the LF behind them not counted. */
static enum plain_number frame_fault(const uint8_t *frame, unsigned collected)
{
    if (collected < 5 || frame[collected - 1] != CR)
        return PLAIN_FRAME_MISSHAPEN;
    unsigned end = collected - 4;
    if (frame[end] != ETB && frame[end] != ETX)
        return PLAIN_FRAME_MISSHAPEN;

    uint8_t sum = (uint8_t)(frame[0] + frame[end]);
    uint8_t classes = 0;
    for (unsigned i = 1; i < end; i++) {
        sum = (uint8_t)(sum + frame[i]);
        classes |= byte_class[frame[i]];
    }
    if (frame[end + 1] != upper_hex[sum >> 4] || frame[end + 2] != upper_hex[sum & 15])
        return PLAIN_CHECK_WRONG;
    if (classes & NOT_ALLOWED)
        return PLAIN_BYTE_NOT_ALLOWED;
    if (frame[0] < '0' || frame[0] > '7')
        return PLAIN_NUMBER_NOT_ALLOWED;
    return PLAIN_NOTHING;
}

/* Whether the last record of a text that ends with CR begins with L. */
static bool ends_with_l_record(const uint8_t *text, size_t n)
{
    size_t start = n - 1;
    while (start > 0 && text[start - 1] != CR)
        start--;
    return text[start] == 'L';
}

/* Answers 4, 30, 31, 43, 50 to 53 and 55: a complete text. A fault sets *place. */
static enum plain_number decide(struct plain_gateway *gateway, uint8_t *journal, unsigned line, const uint8_t *text,
                                unsigned n, uint16_t *place)
{
    const struct plain_ledger *ledger = &gateway->ledger;
    struct plain_outcome checked = plain_check(text, n);
    if (checked.number == PLAIN_TEXT_MALFORMED)
        return PLAIN_NOT_A_MESSAGE;
    if (checked.number != PLAIN_NOTHING) {
        *place = checked.place;
        return checked.number;
    }
    uint32_t oldest;
    if (!whole(ledger, journal, line, &oldest))
        return PLAIN_JOURNAL_BROKEN;
    if (!has_room(ledger, line, PLAIN_HEADER + n))
        return PLAIN_NO_ROOM;
    store(gateway, journal, line, text, n);
    return PLAIN_STORED;
}

/* Answer 2, or that of a complete text: a frame that is right in every way, its text to be joined. */
static enum plain_number join(struct plain_gateway *gateway, const struct plain_memory *memory, unsigned number,
                              const uint8_t *text, unsigned n, bool may_decide, uint16_t *place)
{
    struct plain_line *line = &gateway->lines[number];
    uint8_t *unfinished = memory->unfinished + number * PLAIN_TEXT;
    uint8_t *behind = unfinished + line->joined;
    unsigned joined = line->joined + n;

    uint8_t overwritten[PLAIN_PIECE];
    memcpy(overwritten, behind, n);
    memcpy(behind, text, n);
    if (!may_decide || !ends_with_l_record(unfinished, joined)) {
        line->joined = (uint16_t)joined;
        return PLAIN_ACCEPTED;
    }

    enum plain_number answer = decide(gateway, memory->journal, number, unfinished, joined, place);
    if (answer == PLAIN_JOURNAL_BROKEN) {
        memcpy(behind, overwritten, n); /* 43 changes nothing at all */
        return answer;
    }
    line->joined = 0;
    line->refusing = answer != PLAIN_STORED;
    return answer;
}

/* The answer to a frame's last byte, with what it does to the text, the numbers and the journal. */
static enum plain_number judge(struct plain_gateway *gateway, const struct plain_memory *memory, unsigned number,
                               const uint8_t *frame, uint8_t last_byte, uint16_t *place)
{
    struct plain_line *line = &gateway->lines[number];
    if (last_byte != LF)
        return PLAIN_FRAME_TOO_LONG;
    enum plain_number fault = frame_fault(frame, line->collected);
    if (fault != PLAIN_NOTHING)
        return fault;

    unsigned frame_number = frame[0] - '0';
    if (line->refusing)
        return PLAIN_REFUSING;
    if (frame_number + 1 == line->last)
        return PLAIN_REPEATED;
    if (frame_number != line->next)
        return PLAIN_NUMBER_OUT_OF_TURN;

    const uint8_t *text = frame + 1;
    unsigned n = line->collected - 5u;
    bool etx = text[n] == ETX;
    if (line->joined + n > PLAIN_TEXT)
        return PLAIN_TEXT_TOO_LONG;
    if (etx) {
        const uint8_t *unfinished = memory->unfinished + number * PLAIN_TEXT;
        bool ended = n > 0 ? text[n - 1] == CR : line->joined > 0 && unfinished[line->joined - 1] == CR;
        if (!ended)
            return PLAIN_TEXT_NOT_ENDED;
    }
    enum plain_number answer = join(gateway, memory, number, text, n, etx, place);
    if (answer == PLAIN_ACCEPTED || answer == PLAIN_STORED) {
        line->last = (uint16_t)(frame_number + 1);
        line->next = (line->next + 1) & 7;
    }
    return answer;
}

/* The last byte of a frame. */
__attribute__((noinline))
static struct plain_answer end_frame(struct plain_gateway *gateway, const struct plain_memory *memory, unsigned number,
                                     uint8_t last_byte)
{
    struct plain_line *line = &gateway->lines[number];
    uint8_t *frame = memory->frames + number * PLAIN_FRAME;
    uint16_t place = 0;
    enum plain_number answer = judge(gateway, memory, number, frame, last_byte, &place);
    if (answer != PLAIN_JOURNAL_BROKEN) {
        frame[line->collected] = last_byte;
        line->collected = 0;
        line->seconds = 0;
        line->state = PLAIN_WAITING;
    }
    return (struct plain_answer){ .number = (uint16_t)answer, .place = place };
}

/* A byte on a line that is not inside a frame. */
__attribute__((noinline))
static enum plain_number between_frames(struct plain_line *record, uint8_t value)
{
    if (record->state == PLAIN_NEUTRAL) {
        if (value != ENQ)
            return PLAIN_NOTHING;
        reset(record, PLAIN_WAITING);
        return PLAIN_OPENED;
    }
    switch (value) {
    case STX:
        record->state = PLAIN_INSIDE;
        return PLAIN_NOTHING;
    case EOT: {
        enum plain_number answer = record->joined > 0 ? PLAIN_ENDED_UNFINISHED : PLAIN_ENDED;
        reset(record, PLAIN_NEUTRAL);
        return answer;
    }
    case ENQ:
        return PLAIN_BUSY;
    default:
        return PLAIN_NOTHING;
    }
}

struct plain_answer plain_event(struct plain_gateway *gateway, const struct plain_memory *memory,
                                unsigned line, enum plain_kind kind, uint8_t value)
{
    if (line >= PLAIN_LINES)
        return just(PLAIN_NO_SUCH_LINE);
    if (!right_sizes(memory))
        return just(PLAIN_MEMORY_SIZE);
    struct plain_line *record = &gateway->lines[line];
    if (!within_limits(record))
        return just(PLAIN_RECORD_LIMITS);
    if (kind == PLAIN_SECONDS)
        return just(pass_seconds(record, value));

    if (record->state == PLAIN_INSIDE) {
        if (value == LF || record->collected == PLAIN_FRAME - 1)
            return end_frame(gateway, memory, line, value);
        memory->frames[line * PLAIN_FRAME + record->collected++] = value;
        return just(PLAIN_NOTHING);
    }
    return just(between_frames(record, value));
}

int plain_reply(unsigned number)
{
    if (number >= PLAIN_OPENED && number <= PLAIN_STORED)
        return ACK;
    if ((number >= PLAIN_BUSY && number <= PLAIN_NO_ROOM)
        || (number >= PLAIN_NO_HEADER && number <= PLAIN_BAD_DELIMITERS))
        return NAK;
    return PLAIN_NO_REPLY;
}
