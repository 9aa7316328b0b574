#include "plain.h"

#include <stdbool.h>
#include <string.h>

/* The state's bytes. Words are high byte first. */
enum {
    MODE = 0,
    CHANGES_ALLOWED = 1,
    STATUS_PC = 2,
    RECEIVED = 4,
    FAILED = 6,
    FAILED_CODE = 8,
    FAILED_NUMBER = 9,
    ABORT_CODE = 10,
    LOG = 11,
    SELECTION = 15,
    SEQUENCE = 16,
    PLACE = 17,
    LINE_LIST = 18,
    EXPOSURES = 19,
    MIRROR = 21,
    RUNNING = 23,
    ENTERING = 24,
    RASTER = 25,
    SET = 26,
    PASSES = 27,
    REPEATS = 29,
    ROUNDS = 31,
    RUN_NUMBER = 32, /* of the raster repeat, from 0 */
    SHIFT = 34       /* of its start, in two's complement */
};

enum { NONE = 255 };
enum { STANDBY = 1, MANUAL = 2, AUTO = 3, LAST_MODE = 5 };

/* The tables in memory. */
enum {
    SEQUENCES_AT = 0x070000,
    SEQUENCES_END = SEQUENCES_AT + PLAIN_SEQUENCES,
    LINE_LISTS_AT = SEQUENCES_END,
    LINE_LISTS_END = LINE_LISTS_AT + PLAIN_LINE_LISTS,
    MOST_SEQUENCES = 128,
    LINE_LIST_ENTRY = 164,
    LAST_LINE_LIST = 47
};

/* How a kind divides the sequence table. */
struct format {
    unsigned count; /* entries */
    unsigned entry; /* bytes of one, which bound its length byte and places too; no byte reaches 256 */
};

static const struct format formats[] = {[PLAIN_NEW] = {128, 128}, [PLAIN_OLD] = {64, 256}};

/* Packets. */
enum {
    GET_STATUS = 0x01,
    DUMP = 0x07,
    ALLOW_CHANGES = 0x20,
    CHANGE_MODE = 0x21,
    CLEAR = 0x23,
    SELECT = 0x83,
    UPLINK = 0xE7,
    LONGEST_PACKET = 133,
    LONGEST_UPLINK = 128,
    STATUS_HEAD = 4,
    STATUS_BLOCK = 100
};

/* Why a packet is refused. */
enum {
    OBEYED = 0,
    BAD_LENGTH = 1,
    BAD_CHANGE = 3,
    NOT_ALLOWED = 4,
    RESERVED = 5,
    UNKNOWN = 6,
    BAD_RANGE = 7,
    TOO_LONG = 8,
    BAD_MODE = 9,
    NOT_NOW = 10,
    BAD_SIZES = 16,
    BAD_STATE = 17
};

/* Why a run stops. */
enum {
    STOPPED = 1,
    BAD_SEQUENCE = 2,
    BAD_COMMAND = 3,
    BAD_CALL = 4,
    BAD_EXPOSURES = 5,
    BAD_LIST_NUMBER = 6,
    BAD_LINE_LIST = 7,
    NO_REPEATS = 10,
    NO_LOOPS = 11,
    PAST_END_STOP = 14
};

/* Sequence commands and their sizes. */
enum {
    RUN_RASTER = 0x90,
    EXPOSE = 0x91,
    LOOP_BACK = 0x92,
    CALL = 0x93,
    TERMINATE = 0x94,
    DELAY = 0x95,
    RUN_RASTER_SIZE = 23,
    EXPOSE_SIZE = 3,
    LOOP_BACK_SIZE = 2,
    DELAY_SIZE = 3
};

enum {
    SHORTEST_SEQUENCE = 6,
    SEQUENCE_REPEATS = 3,
    FIRST_COMMAND = 4,
    MOST_EXPOSURES = 8,
    END_STOP = 2400
};

/* The ASRC byte: 0 for off, else a direction and how many mirror steps. */
enum { ASRC_OFF = 0, ASRC_BACKWARD = 0x80, ASRC_STEPS = 0x7F };

/* The science flags: the XRT flare trigger, and those that need a mark. */
enum {
    XRT = 0x20,
    MARKED = PLAIN_AEC | PLAIN_EVENT | PLAIN_FLARE,
    SCIENCE_FLAGS = XRT | MARKED
};

/* A line list's windows: where they begin, and the bytes of one. */
enum { WINDOWS_AT = 14, WINDOW = 6 };

/* The summary: a card for each sequence, then one for each line list; and the bytes of both. */
enum {
    CARD = 32,
    CARD_FAULT = 0, /* 1, or 0 where the sequence passes */
    CARD_PLACE = 1,
    CARD_CODE = 2,
    CARD_CLOSING = 3,
    CARD_TARGET = 4,
    CARD_REASON = 5,
    CARD_EXPECTED = 6,
    CARD_STEPS = 8,
    CARD_EXPOSURES = 16,
    CARD_USED = 24, /* 48 bits, list 0 the most significant, and 16 that are 0 */
    LIST_CARD = 4,
    LIST_REASON = 0,
    LIST_EXPECTED = 1,
    LIST_MARKS = 2
};

/* A card's closing command. */
enum { NOT_CLOSED, ENDS, CALLS };

enum { TOTAL_BITS = 54 }; /* what the totals of a card have at most */

static unsigned word(const uint8_t *p)
{
    return (unsigned)p[0] << 8 | p[1];
}

static void put_word(uint8_t *p, unsigned value)
{
    p[0] = (uint8_t)(value >> 8);
    p[1] = (uint8_t)value;
}

static void put_long(uint8_t *p, uint32_t value)
{
    put_word(p, value >> 16);
    put_word(p + 2, value & 0xFFFF);
}

static uint64_t total(const uint8_t *p)
{
    uint64_t value = 0;
    for (int i = 0; i < 8; i++)
        value = value << 8 | p[i];
    return value;
}

static void put_total(uint8_t *p, uint64_t value)
{
    put_long(p, (uint32_t)(value >> 32));
    put_long(p + 4, (uint32_t)value);
}

static void add_one(uint8_t *p)
{
    put_word(p, word(p) + 1);
}

/* Eight bytes at a time, then what is left of them. */
static uint8_t xor_of(const uint8_t *p, unsigned length)
{
    uint64_t sum = 0, eight;
    uint8_t last;
    for (; length >= sizeof eight; length -= sizeof eight, p += sizeof eight) {
        memcpy(&eight, p, sizeof eight);
        sum ^= eight;
    }
    sum ^= sum >> 32;
    sum ^= sum >> 16;
    sum ^= sum >> 8;
    last = (uint8_t)sum;
    while (length-- > 0)
        last ^= *p++;
    return last;
}

/* ---- The kind ---- */

/* Its format, or NULL. */
static const struct format *format_of(uint32_t kind)
{
    return kind <= PLAIN_OLD ? &formats[kind] : NULL;
}

static const uint8_t *sequence_of(const struct format *format, const uint8_t *seqs, unsigned number)
{
    return seqs + format->entry * number;
}

/* ---- The state ---- */

/* None, 255, goes round to 0. */
static bool none_or_below(uint8_t value, unsigned count)
{
    return (uint8_t)(value + 1) <= count;
}

/* Every packet and step asks this first. */
static inline bool in_range(const struct format *format, const uint8_t *s)
{
    if (s[MODE] < STANDBY || s[MODE] > AUTO)
        return false;
    if (s[CHANGES_ALLOWED] > 1 || s[RUNNING] > 1 || s[ENTERING] > 1)
        return false;
    if (s[FAILED_CODE] > 15 || s[ABORT_CODE] > 15)
        return false;
    if (!none_or_below(s[SELECTION], format->count) || !none_or_below(s[SEQUENCE], format->count))
        return false;
    if (s[PLACE] >= format->entry || !none_or_below(s[RASTER], format->entry))
        return false;
    if (s[LINE_LIST] > LAST_LINE_LIST || word(s + MIRROR) > END_STOP || s[SET] > MOST_EXPOSURES)
        return false;
    if (s[RUNNING] && (s[MODE] != AUTO || s[SELECTION] == NONE || s[SEQUENCE] == NONE))
        return false;
    return true;
}

uint32_t plain_power_on(uint8_t *state, size_t state_len)
{
    if (state_len != PLAIN_STATE)
        return BAD_SIZES;
    memset(state, 0, PLAIN_STATE);
    state[MODE] = STANDBY;
    state[SELECTION] = NONE;
    state[SEQUENCE] = NONE;
    state[RASTER] = NONE;
    return 0;
}

/* ---- Packets ---- */

/* Whether a range lies wholly in a table. */
static bool in_sequences(uint32_t at, uint32_t count)
{
    return at >= SEQUENCES_AT && at < SEQUENCES_END && count <= SEQUENCES_END - at;
}

static bool in_line_lists(uint32_t at, uint32_t count)
{
    return at >= LINE_LISTS_AT && at < LINE_LISTS_END && count <= LINE_LISTS_END - at;
}

/* The table's own bytes of a range that lies wholly in one table, or NULL. */
static uint8_t *range_of(uint8_t *seqs, uint8_t *lists, const uint8_t *address, unsigned count)
{
    unsigned at = (unsigned)address[0] << 16 | word(address + 1);
    if (count == 0)
        return NULL;
    if (in_sequences(at, count))
        return seqs + (at - SEQUENCES_AT);
    if (in_line_lists(at, count))
        return lists + (at - LINE_LISTS_AT);
    return NULL;
}

static unsigned change_mode(uint8_t *s, uint8_t mode)
{
    if (!s[CHANGES_ALLOWED])
        return NOT_ALLOWED;
    if (mode < STANDBY || mode > LAST_MODE)
        return BAD_MODE;
    if (mode > AUTO)
        return UNKNOWN;

    if (s[MODE] != MANUAL) {
        /* From STANDBY and from AUTO the one way leads to MANUAL. */
        if (mode != MANUAL)
            return BAD_CHANGE;
        if (s[RUNNING]) {
            s[RUNNING] = 0;
            s[ABORT_CODE] = STOPPED;
        }
    } else if (mode == AUTO) {
        if (s[SELECTION] == NONE)
            return BAD_CHANGE;
        s[SEQUENCE] = s[SELECTION];
        s[PLACE] = 0;
        put_word(s + EXPOSURES, 0);
        s[ABORT_CODE] = 0;
        s[RASTER] = NONE;
        s[RUNNING] = 1;
        s[ENTERING] = 1;
    } else if (mode == MANUAL) {
        return BAD_CHANGE;
    }
    s[MODE] = mode;
    return OBEYED;
}

static unsigned select_sequence(const struct format *format, uint8_t *s, uint8_t number)
{
    if (s[MODE] != MANUAL)
        return NOT_NOW;
    if (number >= format->count)
        return BAD_RANGE;
    s[SELECTION] = number;
    s[SEQUENCE] = number;
    s[PLACE] = 0;
    return OBEYED;
}

static bool reserved(uint8_t number)
{
    return number == 0x00 || (number >= 0x10 && number <= 0x1F) || (number >= 0xE0 && number <= 0xE4) ||
           (number >= 0xF0 && number != 0xF5);
}

/* Obeys a packet other than a good status request; answers its code. A dump sets *answer. */
static unsigned obey(const struct format *format, uint8_t *s, uint8_t *seqs, uint8_t *lists, uint8_t *out,
                     const uint8_t *p, size_t length, unsigned *answer)
{
    uint8_t *part;
    unsigned count;

    if (length == 0)
        return BAD_LENGTH;
    if (length > LONGEST_PACKET)
        return TOO_LONG;

    switch (p[0]) {
    case GET_STATUS:
        return BAD_LENGTH;
    case DUMP:
        if (length != 7)
            return BAD_LENGTH;
        count = (unsigned)p[4] << 16 | word(p + 5);
        part = range_of(seqs, lists, p + 1, count);
        if (part == NULL)
            return BAD_RANGE;
        memcpy(out, part, count);
        *answer = count;
        return OBEYED;
    case ALLOW_CHANGES:
        if (length > 2)
            return BAD_LENGTH;
        s[CHANGES_ALLOWED] = 1;
        return OBEYED;
    case CHANGE_MODE:
        return length == 2 ? change_mode(s, p[1]) : BAD_LENGTH;
    case CLEAR:
        if (length != 1)
            return BAD_LENGTH;
        s[FAILED_CODE] = 0;
        s[FAILED_NUMBER] = 0;
        s[ABORT_CODE] = 0;
        return OBEYED;
    case SELECT:
        return length == 2 ? select_sequence(format, s, p[1]) : BAD_LENGTH;
    case UPLINK:
        if (length < 5 || length != 5u + p[4])
            return BAD_LENGTH;
        if (s[RUNNING])
            return NOT_NOW;
        part = range_of(seqs, lists, p + 1, p[4]);
        if (part == NULL)
            return BAD_RANGE;
        memcpy(part, p + 5, p[4]);
        return OBEYED;
    default:
        return reserved(p[0]) ? RESERVED : UNKNOWN;
    }
}

static unsigned answer_status(uint8_t *s, uint8_t *out, uint32_t time)
{
    uint8_t *block = out + STATUS_HEAD;

    add_one(s + STATUS_PC);
    memset(out, 0, STATUS_HEAD + STATUS_BLOCK);
    out[0] = GET_STATUS;
    out[3] = STATUS_BLOCK;

    block[0] = 0x10;
    block[1] = (uint8_t)(s[MODE] << 4 | s[FAILED_CODE]);
    memcpy(block + 2, s + STATUS_PC, 2);
    put_long(block + 4, time);
    memcpy(block + 8, s + RECEIVED, 2);
    memcpy(block + 12, s + FAILED, 2);
    block[14] = s[FAILED_NUMBER];
    block[17] = s[RUNNING] ? 0x21 : 0x22;
    block[20] = s[SEQUENCE] == NONE ? 0 : s[SEQUENCE];
    block[21] = s[PLACE];
    block[22] = s[LINE_LIST];
    memcpy(block + 24, s + EXPOSURES, 2);
    memcpy(block + 26, s + MIRROR, 2);
    memcpy(block + 64, s + LOG, 4);
    block[90] = (uint8_t)(s[ABORT_CODE] << 4);
    return STATUS_HEAD + STATUS_BLOCK;
}

uint32_t plain_packet(uint32_t kind, uint8_t *state, size_t state_len, uint8_t *seqs, size_t seqs_len,
                      uint8_t *lists, size_t lists_len, uint8_t *out, size_t out_len, uint32_t time,
                      const uint8_t *packet, size_t packet_len)
{
    const struct format *format = format_of(kind);
    unsigned code, answer = 0;

    if (format == NULL || state_len != PLAIN_STATE || seqs_len != PLAIN_SEQUENCES ||
        lists_len != PLAIN_LINE_LISTS || out_len < PLAIN_OUTPUT)
        return BAD_SIZES;
    if (!in_range(format, state))
        return BAD_STATE;
    if (packet_len == 1 && packet[0] == GET_STATUS)
        return answer_status(state, out, time) << 8;

    code = obey(format, state, seqs, lists, out, packet, packet_len, &answer);
    add_one(state + RECEIVED);
    for (unsigned i = 0; i < 3; i++)
        state[LOG + i] = i < packet_len ? packet[i] : 0;
    state[LOG + 3] = packet_len > LONGEST_PACKET ? 255 : (uint8_t)packet_len;
    if (code != OBEYED) {
        add_one(state + FAILED);
        state[FAILED_NUMBER] = packet_len > 0 ? packet[0] : 0;
        state[FAILED_CODE] = (uint8_t)code;
    }
    return code | answer << 8;
}

/* ---- Sequences and line lists ---- */

static bool length_good(const struct format *format, unsigned length)
{
    return length >= SHORTEST_SEQUENCE && length <= format->entry;
}

/* The size of the command that stands whole before the checksum at this place, or 0. */
static unsigned size_at(const struct format *format, const uint8_t *text, unsigned place)
{
    static const uint8_t sizes[] = {RUN_RASTER_SIZE, EXPOSE_SIZE, LOOP_BACK_SIZE, 2, 1, DELAY_SIZE};
    unsigned length = text[0], size;

    if (!length_good(format, length) || place < FIRST_COMMAND || place + 1 >= length)
        return 0;
    if (text[place] < RUN_RASTER || text[place] > DELAY)
        return 0;
    size = sizes[text[place] - RUN_RASTER];
    return place + size < length ? size : 0;
}

/* A run raster's words, from its first byte. */
static unsigned raster_id(const uint8_t *r) { return word(r + 1); }
static unsigned raster_initial(const uint8_t *r) { return word(r + 3); }
static unsigned raster_loops(const uint8_t *r) { return word(r + 5); }
static unsigned raster_exposures(const uint8_t *r) { return r[13] & 0x0F; }
static unsigned raster_asrc(const uint8_t *r) { return r[14]; }
static unsigned raster_repeats(const uint8_t *r) { return word(r + 15) & 0x0FFF; }
static unsigned raster_skip(const uint8_t *r) { return r[17]; }
static unsigned raster_step(const uint8_t *r) { return word(r + 19); }
static unsigned raster_list(const uint8_t *r) { return r[21]; }
static unsigned raster_flags(const uint8_t *r) { return r[22] & SCIENCE_FLAGS; }

struct plain_reason plain_line_list(const uint8_t *list)
{
    struct plain_reason reason = {PLAIN_GOOD, 0};
    unsigned windows = list[2], off;
    if (windows < 1 || windows > 25) {
        reason.number = PLAIN_WINDOWS;
    } else if (list[0] != WINDOWS_AT + WINDOW * windows) {
        reason.number = PLAIN_LENGTH;
    } else if ((off = xor_of(list, list[0])) != 0) {
        /* With a right byte 3 the whole comes to 0; else to the bits in which byte 3 is wrong. */
        reason.number = PLAIN_CHECKSUM;
        reason.expected = (uint8_t)(list[3] ^ off);
    }
    return reason;
}

/* A window begins with its header, high byte first. */
unsigned plain_marks(const uint8_t *list)
{
    unsigned marks = 0, end = list[0];
    for (unsigned low = WINDOWS_AT + 1; low < end; low += WINDOW)
        marks |= list[low];
    return marks & MARKED;
}

/* What the rules know the line lists by: their table, or their cards if there are. */
struct line_lists {
    const uint8_t *table;
    const uint8_t *cards; /* or NULL */
};

/* So that rules that are said once are compiled for each of the two. */
#define TWICE static inline __attribute__((always_inline))

/* What a line list's card says is wrong with it; a number that is no reason's stands for a checksum. */
static struct plain_reason carded_reason(const uint8_t *card)
{
    struct plain_reason reason = {card[LIST_REASON], 0};
    if (reason.number > PLAIN_LENGTH) {
        reason.number = PLAIN_CHECKSUM;
        reason.expected = card[LIST_EXPECTED];
    }
    return reason;
}

TWICE struct plain_reason reason_of(const struct line_lists *lists, unsigned number)
{
    if (lists->cards == NULL)
        return plain_line_list(lists->table + LINE_LIST_ENTRY * number);
    return carded_reason(lists->cards + LIST_CARD * number);
}

/* The marks of a good one. */
TWICE unsigned marks_of(const struct line_lists *lists, unsigned number)
{
    if (lists->cards == NULL)
        return plain_marks(lists->table + LINE_LIST_ENTRY * number);
    return lists->cards[LIST_CARD * number + LIST_MARKS] & MARKED;
}

/* One flag or none, or the XRT trigger with AEC. */
static bool flags_good(unsigned flags)
{
    return (flags & (flags - 1)) == 0 || flags == (XRT | PLAIN_AEC);
}

/* The entering of a sequence: its code, or 0; a fault sets *place. */
static unsigned entry_fault(const struct format *format, const uint8_t *text, unsigned *place)
{
    unsigned length = text[0];
    *place = 0;
    if (!length_good(format, length) || xor_of(text, length) != 0)
        return BAD_SEQUENCE;
    *place = SEQUENCE_REPEATS;
    return text[SEQUENCE_REPEATS] == 0 ? NO_REPEATS : 0;
}

/* Off, or with steps to move by and a skip. */
static bool asrc_good(const uint8_t *r)
{
    unsigned asrc = raster_asrc(r);
    return asrc == ASRC_OFF || ((asrc & ASRC_STEPS) != 0 && raster_skip(r) != 0);
}

/* How far a good ASRC moves the start of repeat k, from 0. */
static int shift_of(const uint8_t *r, unsigned k)
{
    unsigned asrc = raster_asrc(r);
    int shift;
    if (asrc == ASRC_OFF)
        return 0;
    shift = (int)((asrc & ASRC_STEPS) * (k / raster_skip(r)));
    return asrc & ASRC_BACKWARD ? -shift : shift;
}

/* Whether the mirror stays in its range in all repeats and in the one begun. Repeat 0 is not moved, and the others lie
 * between it and the furthest: those two decide. The walk over a text is faster with it left out of line. */
static __attribute__((noinline)) bool positions_good(const uint8_t *r, unsigned begun)
{
    unsigned first = raster_initial(r), last = first + (raster_loops(r) - 1) * raster_step(r);
    unsigned furthest;
    int shift;

    if (first > END_STOP || raster_step(r) > END_STOP || last > END_STOP)
        return false;
    if (raster_asrc(r) == ASRC_OFF)
        return true;
    furthest = raster_repeats(r) - 1;
    if (begun > furthest)
        furthest = begun;
    shift = shift_of(r, furthest);
    return (int)first + shift >= 0 && (int)last + shift <= END_STOP;
}

/* A run raster's tests, in the paper's order, once no other raster is open, up to its line list's number. */
static unsigned counts_fault(const uint8_t *r)
{
    if (raster_loops(r) == 0 || raster_repeats(r) == 0)
        return NO_LOOPS;
    if (raster_exposures(r) < 1 || raster_exposures(r) > MOST_EXPOSURES)
        return BAD_EXPOSURES;
    if (raster_list(r) > LAST_LINE_LIST)
        return BAD_LIST_NUMBER;
    return 0;
}

/* And from its line list on, with the repeat begun. */
TWICE unsigned list_fault(const uint8_t *r, unsigned begun, const struct line_lists *lists)
{
    unsigned list = raster_list(r), flags = raster_flags(r), needed = flags & MARKED;
    if (reason_of(lists, list).number != PLAIN_GOOD)
        return BAD_LINE_LIST;
    if (!asrc_good(r))
        return BAD_COMMAND;
    if (!positions_good(r, begun))
        return PAST_END_STOP;
    if (!flags_good(flags))
        return BAD_COMMAND;
    if (needed != 0 && (needed & ~marks_of(lists, list)) != 0)
        return BAD_LINE_LIST;
    return 0;
}

/* A set is full at its exposures; a field above 8, which no obeyed raster has, counts as 8. */
static bool set_full(const uint8_t *raster, unsigned made)
{
    unsigned exposures = raster_exposures(raster);
    return made >= (exposures < MOST_EXPOSURES ? exposures : MOST_EXPOSURES);
}

/* Whether a loop back's target is a command's start after the run raster, and at or before the
 * first exposure that follows it in the text ahead of the loop back. */
static bool target_good(const struct format *format, const uint8_t *text, unsigned raster, unsigned loop_back)
{
    unsigned target = text[loop_back + 1], size;
    bool seen = false;
    for (unsigned at = FIRST_COMMAND; at < loop_back; at += size) {
        size = size_at(format, text, at);
        if (size == 0)
            return false;
        if (at <= raster)
            continue;
        seen |= at == target;
        if (text[at] == EXPOSE)
            return seen;
    }
    return false;
}

/* ---- One interpreter step ---- */

static uint64_t event(unsigned kind, unsigned a, unsigned b, unsigned c)
{
    return kind | (uint64_t)a << 16 | (uint64_t)b << 32 | (uint64_t)c << 48;
}

static uint64_t abort_run(uint8_t *s, unsigned code, unsigned place)
{
    s[PLACE] = (uint8_t)place;
    s[ABORT_CODE] = (uint8_t)code;
    s[RUNNING] = 0;
    return event(PLAIN_ABORT, code, s[SEQUENCE], place);
}

/* The run raster of the open raster, or NULL where none is open or none stands at its place. */
static const uint8_t *open_raster(const struct format *format, const uint8_t *s, const uint8_t *text)
{
    unsigned place = s[RASTER];
    if (place == NONE || size_at(format, text, place) == 0 || text[place] != RUN_RASTER)
        return NULL;
    return text + place;
}

static uint64_t enter(const struct format *format, uint8_t *s, const uint8_t *text)
{
    unsigned place, code = entry_fault(format, text, &place);
    if (code != 0)
        return abort_run(s, code, place);
    s[ENTERING] = 0;
    s[PLACE] = FIRST_COMMAND;
    s[ROUNDS] = text[SEQUENCE_REPEATS];
    return event(PLAIN_ENTER, s[SEQUENCE], 0, 0);
}

static uint64_t run_raster(uint8_t *s, const uint8_t *text, const uint8_t *lists)
{
    unsigned place = s[PLACE], begun = s[RASTER] == NONE ? 0 : word(s + RUN_NUMBER), code, start;
    const uint8_t *raster = text + place;
    int shift;

    if (s[RASTER] != NONE && s[RASTER] != place)
        return abort_run(s, BAD_COMMAND, place);
    code = counts_fault(raster);
    if (code == 0)
        code = list_fault(raster, begun, &(struct line_lists){lists, NULL});
    if (code != 0)
        return abort_run(s, code, place);

    shift = shift_of(raster, begun);
    start = (unsigned)((int)raster_initial(raster) + shift);
    if (s[RASTER] == NONE) {
        put_word(s + REPEATS, raster_repeats(raster));
        put_word(s + RUN_NUMBER, 0);
    }
    s[RASTER] = (uint8_t)place;
    s[SET] = 0;
    put_word(s + PASSES, raster_loops(raster));
    put_word(s + SHIFT, (unsigned)shift);
    put_word(s + MIRROR, start);
    s[LINE_LIST] = (uint8_t)raster_list(raster);
    s[PLACE] = (uint8_t)(place + RUN_RASTER_SIZE);
    return event(PLAIN_RASTER, raster_id(raster), start, 0);
}

static uint64_t expose(const struct format *format, uint8_t *s, const uint8_t *text)
{
    unsigned place = s[PLACE], mirror = word(s + MIRROR);
    const uint8_t *raster = open_raster(format, s, text);

    if (raster == NULL || word(text + place + 1) == 0 || set_full(raster, s[SET]))
        return abort_run(s, BAD_COMMAND, place);
    if (set_full(raster, s[SET] + 1u) && word(s + PASSES) > 1) {
        unsigned next = mirror + raster_step(raster);
        if (next > END_STOP)
            return abort_run(s, PAST_END_STOP, place);
        put_word(s + MIRROR, next);
    }
    s[SET]++;
    add_one(s + EXPOSURES);
    s[PLACE] = (uint8_t)(place + EXPOSE_SIZE);
    return event(PLAIN_EXP, word(s + EXPOSURES), mirror, 0);
}

static uint64_t loop_back(const struct format *format, uint8_t *s, const uint8_t *text)
{
    unsigned place = s[PLACE], passes = word(s + PASSES), repeats = word(s + REPEATS);
    const uint8_t *raster = open_raster(format, s, text);

    if (raster == NULL || !set_full(raster, s[SET]) || !target_good(format, text, s[RASTER], place))
        return abort_run(s, BAD_COMMAND, place);
    if (passes > 1) {
        s[PLACE] = text[place + 1];
        s[SET] = 0;
        put_word(s + PASSES, passes - 1);
        return event(PLAIN_LOOP, s[PLACE], 0, 0);
    }
    if (repeats > 1) {
        s[PLACE] = s[RASTER];
        put_word(s + REPEATS, repeats - 1);
        add_one(s + RUN_NUMBER);
        return event(PLAIN_NEXT, 0, 0, 0);
    }
    s[RASTER] = NONE;
    s[PLACE] = (uint8_t)(place + LOOP_BACK_SIZE);
    return event(PLAIN_DONE, 0, 0, 0);
}

/* Call and terminate. */
static uint64_t close_sequence(const struct format *format, uint8_t *s, const uint8_t *text, unsigned size)
{
    unsigned place = s[PLACE];

    if (s[RASTER] != NONE || place + size + 1 != text[0])
        return abort_run(s, BAD_COMMAND, place);
    if (s[ROUNDS] > 1) {
        s[ROUNDS]--;
        s[PLACE] = FIRST_COMMAND;
        return event(PLAIN_NEXT, 0, 0, 0);
    }
    if (text[place] == TERMINATE) {
        s[RUNNING] = 0;
        return event(PLAIN_END, 0, 0, 0);
    }
    if (text[place + 1] >= format->count)
        return abort_run(s, BAD_CALL, place);
    s[SEQUENCE] = text[place + 1];
    s[PLACE] = 0;
    s[ENTERING] = 1;
    return event(PLAIN_CALL, s[SEQUENCE], 0, 0);
}

uint64_t plain_step(uint32_t kind, uint8_t *state, size_t state_len, const uint8_t *seqs, size_t seqs_len,
                    const uint8_t *lists, size_t lists_len)
{
    const struct format *format = format_of(kind);
    const uint8_t *text;
    unsigned place, size;

    if (format == NULL || state_len != PLAIN_STATE || seqs_len != PLAIN_SEQUENCES ||
        lists_len != PLAIN_LINE_LISTS)
        return event(PLAIN_REFUSED, BAD_SIZES, 0, 0);
    if (!in_range(format, state))
        return event(PLAIN_REFUSED, BAD_STATE, 0, 0);
    if (!state[RUNNING])
        return event(PLAIN_IDLE, 0, 0, 0);

    text = sequence_of(format, seqs, state[SEQUENCE]);
    if (state[ENTERING])
        return enter(format, state, text);

    place = state[PLACE];
    size = size_at(format, text, place);
    if (size == 0)
        return abort_run(state, BAD_COMMAND, place);
    switch (text[place]) {
    case RUN_RASTER:
        return run_raster(state, text, lists);
    case EXPOSE:
        return expose(format, state, text);
    case LOOP_BACK:
        return loop_back(format, state, text);
    case DELAY:
        state[PLACE] = (uint8_t)(place + DELAY_SIZE);
        return event(PLAIN_WAIT, word(text + place + 1), 0, 0);
    default:
        return close_sequence(format, state, text, size);
    }
}

/* ---- The table check ---- */

enum { CHAIN = 24 }; /* where a report's list of sequences begins */

/* What the check of one sequence finds. */
struct finding {
    unsigned place;     /* of the command looked at last; a fault's place */
    unsigned next;      /* the sequence called, or NONE */
    struct plain_reason reason;
    uint64_t used;      /* the line lists that the tests came to, list 0 the most significant bit */
    uint64_t steps;
    uint64_t exposures;
};

static uint64_t list_bit(unsigned number)
{
    return (uint64_t)1 << (63 - number);
}

/* Steps of one raster with all its passes and repeats, from its run raster to its loop back. */
static uint64_t raster_steps(const struct format *format, const uint8_t *text, unsigned raster,
                             unsigned loop_back)
{
    const uint8_t *r = text + raster;
    unsigned target = text[loop_back + 1], before = 0, looped = 0;
    for (unsigned at = raster + RUN_RASTER_SIZE; at <= loop_back; at += size_at(format, text, at)) {
        if (at < target)
            before++;
        else
            looped++;
    }
    return (uint64_t)raster_repeats(r) * (1 + before + (uint64_t)raster_loops(r) * looped);
}

static uint64_t raster_total(const uint8_t *r)
{
    return (uint64_t)raster_loops(r) * raster_exposures(r) * raster_repeats(r);
}

/* Why a run raster is refused for its line list; if that is good, a mark is missing. */
static struct plain_reason list_reason(const struct line_lists *lists, unsigned number)
{
    struct plain_reason reason = reason_of(lists, number);
    if (reason.number == PLAIN_GOOD)
        reason.number = PLAIN_MARK;
    return reason;
}

/* A run raster that opens a raster. */
TWICE unsigned check_raster(const uint8_t *raster, const struct line_lists *lists, struct finding *f)
{
    unsigned list = raster_list(raster), code = counts_fault(raster);
    if (code != 0)
        return code;
    f->used |= list_bit(list);
    code = list_fault(raster, 0, lists);
    if (code == BAD_LINE_LIST)
        f->reason = list_reason(lists, list);
    return code;
}

/* The closing command, with the totals of one round. */
static unsigned check_closing(const struct format *format, const uint8_t *text, unsigned size, uint64_t steps,
                              uint64_t exposures, struct finding *f)
{
    if (f->place + size + 1 != text[0])
        return BAD_COMMAND;
    f->next = text[f->place] == CALL ? text[f->place + 1] : NONE;
    if (text[f->place] == CALL && f->next >= format->count)
        return BAD_CALL;
    f->steps = 1 + text[SEQUENCE_REPEATS] * (steps + 1);
    f->exposures = text[SEQUENCE_REPEATS] * exposures;
    return 0;
}

/* Applies the rules to one sequence in text order: its first fault's code, or 0. */
TWICE unsigned check_sequence(const struct format *format, const uint8_t *text, const struct line_lists *lists,
                              struct finding *f)
{
    const uint8_t *raster = NULL;
    unsigned place, size, set = 0;
    uint64_t steps = 0, exposures = 0;
    unsigned code = entry_fault(format, text, &f->place);

    f->reason = (struct plain_reason){PLAIN_GOOD, 0};
    f->used = 0;
    if (code != 0)
        return code;
    for (place = FIRST_COMMAND;; place += size) {
        f->place = place;
        size = size_at(format, text, place);
        if (size == 0)
            return BAD_COMMAND;
        switch (text[place]) {
        case RUN_RASTER:
            if (raster != NULL)
                return BAD_COMMAND;
            raster = text + place;
            set = 0;
            code = check_raster(raster, lists, f);
            if (code != 0)
                return code;
            break;
        case EXPOSE:
            if (raster == NULL || word(text + place + 1) == 0 || set_full(raster, set))
                return BAD_COMMAND;
            set++;
            break;
        case LOOP_BACK:
            if (raster == NULL || !set_full(raster, set) ||
                !target_good(format, text, (unsigned)(raster - text), place))
                return BAD_COMMAND;
            steps += raster_steps(format, text, (unsigned)(raster - text), place);
            exposures += raster_total(raster);
            raster = NULL;
            break;
        case DELAY:
            if (raster == NULL)
                steps++;
            break;
        default:
            return raster != NULL ? BAD_COMMAND : check_closing(format, text, size, steps, exposures, f);
        }
    }
}

static uint32_t report_fault(uint8_t *report, unsigned code, unsigned sequence, const struct finding *f)
{
    report[0] = (uint8_t)code;
    report[1] = PLAIN_FAULT;
    report[2] = (uint8_t)sequence;
    report[3] = (uint8_t)f->place;
    report[4] = f->reason.number;
    report[5] = f->reason.expected;
    return code;
}

static uint32_t report_pass(uint8_t *report, unsigned how, uint64_t steps, uint64_t exposures)
{
    report[1] = (uint8_t)how;
    put_total(report + 8, steps);
    put_total(report + 16, exposures);
    return 0;
}

uint32_t plain_check(uint32_t kind, const uint8_t *seqs, size_t seqs_len, const uint8_t *lists, size_t lists_len,
                     uint32_t number, uint8_t *report, size_t report_len)
{
    const struct format *format = format_of(kind);
    const struct line_lists tested = {lists, NULL};
    bool listed[MOST_SEQUENCES] = {false};
    uint64_t steps = 0, exposures = 0;
    unsigned count = 0, sequence = number;

    if (report_len != PLAIN_REPORT)
        return BAD_SIZES;
    memset(report, 0, PLAIN_REPORT);
    if (format == NULL || seqs_len != PLAIN_SEQUENCES || lists_len != PLAIN_LINE_LISTS)
        return report[0] = BAD_SIZES;
    if (number >= format->count)
        return report[0] = BAD_RANGE;

    for (;;) {
        struct finding found;
        unsigned code;

        listed[sequence] = true;
        report[CHAIN + count++] = (uint8_t)sequence;
        put_word(report + 6, count);
        code = check_sequence(format, sequence_of(format, seqs, sequence), &tested, &found);
        if (code != 0)
            return report_fault(report, code, sequence, &found);
        steps += found.steps;
        exposures += found.exposures;
        if (found.next == NONE)
            return report_pass(report, PLAIN_ENDS, steps, exposures);
        if (listed[found.next])
            return report_pass(report, PLAIN_RETURNS, steps, exposures);
        sequence = found.next;
    }
}

/* ---- What was checked, and what is there now ---- */

/* The line lists that a sequence which passed names in its rasters. */
static void note_lists(const struct format *format, const uint8_t *text, bool *used)
{
    unsigned size;
    for (unsigned at = FIRST_COMMAND; (size = size_at(format, text, at)) != 0; at += size)
        if (text[at] == RUN_RASTER)
            used[raster_list(text + at)] = true;
}

/* The lowest address of a byte of a table that differs in a wanted entry, within the length that this had; or 0. */
static uint32_t first_change(uint32_t table, unsigned entry, unsigned count, const bool *wanted,
                             const uint8_t *was, const uint8_t *is)
{
    for (unsigned i = 0; i < count; i++) {
        unsigned start = entry * i, end = start + was[start];
        for (unsigned at = start; wanted[i] && at < end; at++)
            if (was[at] != is[at])
                return table + at;
    }
    return 0;
}

uint32_t plain_still(uint32_t kind, const uint8_t *seqs, size_t seqs_len, const uint8_t *lists, size_t lists_len,
                     const uint8_t *now_seqs, size_t now_seqs_len, const uint8_t *now_lists, size_t now_lists_len,
                     uint32_t number, uint8_t *report, size_t report_len)
{
    const struct format *format = format_of(kind);
    bool listed[MOST_SEQUENCES] = {false}, used[LAST_LINE_LIST + 1] = {false};
    uint32_t code, changed;
    unsigned count;

    if (report_len == PLAIN_REPORT && (now_seqs_len != PLAIN_SEQUENCES || now_lists_len != PLAIN_LINE_LISTS)) {
        memset(report, 0, PLAIN_REPORT);
        return report[0] = BAD_SIZES;
    }
    code = plain_check(kind, seqs, seqs_len, lists, lists_len, number, report, report_len);
    if (code != 0)
        return code;

    count = word(report + 6);
    for (unsigned i = 0; i < count; i++) {
        unsigned sequence = report[CHAIN + i];
        listed[sequence] = true;
        note_lists(format, sequence_of(format, seqs, sequence), used);
    }
    /* All sequences lie below all line lists. */
    changed = first_change(SEQUENCES_AT, format->entry, format->count, listed, seqs, now_seqs);
    if (changed == 0)
        changed = first_change(LINE_LISTS_AT, LINE_LIST_ENTRY, LAST_LINE_LIST + 1, used, lists, now_lists);
    return changed << 8;
}

/* ---- The cards ---- */

static size_t summary_size(const struct format *format)
{
    return CARD * format->count + LIST_CARD * (LAST_LINE_LIST + 1);
}

static uint8_t *list_cards(const struct format *format, uint8_t *summary)
{
    return summary + CARD * format->count;
}

static void put_list_card(uint8_t *card, const uint8_t *list)
{
    struct plain_reason reason = plain_line_list(list);
    card[LIST_REASON] = reason.number;
    card[LIST_EXPECTED] = reason.expected;
    card[LIST_MARKS] = (uint8_t)(reason.number == PLAIN_GOOD ? plain_marks(list) : 0);
    card[LIST_MARKS + 1] = 0;
}

/* The card of a sequence taken alone, with the line lists as their cards have them. */
static void put_card(const struct format *format, uint8_t *card, const uint8_t *text, const uint8_t *carded)
{
    struct finding f;
    unsigned code = check_sequence(format, text, &(struct line_lists){NULL, carded}, &f);

    memset(card, 0, CARD);
    put_total(card + CARD_USED, f.used);
    if (code != 0) {
        card[CARD_FAULT] = 1;
        card[CARD_PLACE] = (uint8_t)f.place;
        card[CARD_CODE] = (uint8_t)code;
        card[CARD_REASON] = f.reason.number;
        card[CARD_EXPECTED] = f.reason.expected;
        return;
    }
    card[CARD_CLOSING] = f.next == NONE ? ENDS : CALLS;
    card[CARD_TARGET] = (uint8_t)(f.next == NONE ? 0 : f.next);
    put_total(card + CARD_STEPS, f.steps);
    put_total(card + CARD_EXPOSURES, f.exposures);
}

/* The cards of line lists, from one to another. */
static void put_list_cards(const struct format *format, const uint8_t *lists, uint8_t *summary, unsigned from,
                           unsigned to)
{
    uint8_t *cards = list_cards(format, summary);
    for (unsigned i = from; i <= to; i++)
        put_list_card(cards + LIST_CARD * i, lists + LINE_LIST_ENTRY * i);
}

/* The cards of sequences, from one to another. */
static void put_cards(const struct format *format, const uint8_t *seqs, uint8_t *summary, unsigned from, unsigned to)
{
    for (unsigned i = from; i <= to; i++)
        put_card(format, summary + CARD * i, sequence_of(format, seqs, i), list_cards(format, summary));
}

/* The cards of all sequences that use a line list from one to another. */
static void put_users(const struct format *format, const uint8_t *seqs, uint8_t *summary, unsigned from, unsigned to)
{
    uint64_t touched = 0;
    for (unsigned i = from; i <= to; i++)
        touched |= list_bit(i);
    for (unsigned i = 0; i < format->count; i++)
        if ((total(summary + CARD * i + CARD_USED) & touched) != 0)
            put_cards(format, seqs, summary, i, i);
}

static bool lent_well(const struct format *format, size_t seqs_len, size_t lists_len, size_t summary_len)
{
    return format != NULL && seqs_len == PLAIN_SEQUENCES && lists_len == PLAIN_LINE_LISTS &&
           summary_len == summary_size(format);
}

uint32_t plain_cards(uint32_t kind, const uint8_t *seqs, size_t seqs_len, const uint8_t *lists, size_t lists_len,
                     uint8_t *summary, size_t summary_len)
{
    const struct format *format = format_of(kind);

    if (!lent_well(format, seqs_len, lists_len, summary_len))
        return BAD_SIZES;
    put_list_cards(format, lists, summary, 0, LAST_LINE_LIST);
    put_cards(format, seqs, summary, 0, format->count - 1);
    return 0;
}

uint32_t plain_cards_update(uint32_t kind, const uint8_t *seqs, size_t seqs_len, const uint8_t *lists,
                            size_t lists_len, uint8_t *summary, size_t summary_len, uint32_t address, uint32_t count)
{
    const struct format *format = format_of(kind);
    uint32_t last = address + count - 1;

    if (!lent_well(format, seqs_len, lists_len, summary_len))
        return BAD_SIZES;
    if (count < 1 || count > LONGEST_UPLINK)
        return BAD_RANGE;
    if (in_sequences(address, count)) {
        put_cards(format, seqs, summary, (address - SEQUENCES_AT) / format->entry,
                  (last - SEQUENCES_AT) / format->entry);
    } else if (in_line_lists(address, count)) {
        unsigned from = (address - LINE_LISTS_AT) / LINE_LIST_ENTRY, to = (last - LINE_LISTS_AT) / LINE_LIST_ENTRY;
        put_list_cards(format, lists, summary, from, to);
        put_users(format, seqs, summary, from, to);
    } else {
        return BAD_RANGE;
    }
    return 0;
}

/* Whether tables can give a card, as far as the chain check looks at it. */
static bool card_good(const struct format *format, const uint8_t *card)
{
    if (card[CARD_FAULT] == 1)
        return true;
    if (card[CARD_FAULT] != 0 || (card[CARD_CLOSING] != ENDS && card[CARD_CLOSING] != CALLS))
        return false;
    if (card[CARD_CLOSING] == CALLS && card[CARD_TARGET] >= format->count)
        return false;
    return (total(card + CARD_STEPS) | total(card + CARD_EXPOSURES)) >> TOTAL_BITS == 0;
}

/* The fault of a card; a number that is no reason's stands for a mark, and a checksum alone has a value. */
static uint32_t report_card(uint8_t *report, unsigned sequence, const uint8_t *card)
{
    struct finding f = {.place = card[CARD_PLACE], .reason = {card[CARD_REASON], 0}};
    if (f.reason.number > PLAIN_MARK)
        f.reason.number = PLAIN_MARK;
    if (f.reason.number == PLAIN_CHECKSUM)
        f.reason.expected = card[CARD_EXPECTED];
    return report_fault(report, card[CARD_CODE], sequence, &f);
}

uint32_t plain_cards_check(uint32_t kind, const uint8_t *summary, size_t summary_len, uint32_t number,
                           uint8_t *report, size_t report_len)
{
    const struct format *format = format_of(kind);
    bool listed[MOST_SEQUENCES] = {false};
    uint64_t steps = 0, exposures = 0;
    unsigned count = 0, sequence = number;

    if (report_len != PLAIN_REPORT)
        return BAD_SIZES;
    memset(report, 0, PLAIN_REPORT);
    if (format == NULL || summary_len != summary_size(format))
        return report[0] = BAD_SIZES;
    if (number >= format->count)
        return report[0] = BAD_RANGE;

    for (;;) {
        const uint8_t *card = summary + CARD * sequence;

        if (!card_good(format, card)) {
            memset(report, 0, PLAIN_REPORT);
            return report[0] = BAD_STATE;
        }
        listed[sequence] = true;
        report[CHAIN + count++] = (uint8_t)sequence;
        put_word(report + 6, count);
        if (card[CARD_FAULT])
            return report_card(report, sequence, card);
        steps += total(card + CARD_STEPS);
        exposures += total(card + CARD_EXPOSURES);
        if (card[CARD_CLOSING] == ENDS)
            return report_pass(report, PLAIN_ENDS, steps, exposures);
        if (listed[card[CARD_TARGET]])
            return report_pass(report, PLAIN_RETURNS, steps, exposures);
        sequence = card[CARD_TARGET];
    }
}
