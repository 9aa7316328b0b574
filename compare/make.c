#include "make.h"

#include <string.h>

enum { LARGEST_ENTRY = 256, LIST_ENTRY = 164, LISTS = 48, UPLINK = 128, NONE = 255, END_STOP = 2400 };

/* ---- Chance ---- */

static uint64_t source;

void make_seed(uint64_t seed)
{
    source = seed;
}

static uint64_t noise(void)
{
    uint64_t z = source += 0x9E3779B97F4A7C15u;
    z = (z ^ z >> 30) * 0xBF58476D1CE4E5B9u;
    z = (z ^ z >> 27) * 0x94D049BB133111EBu;
    return z ^ z >> 31;
}

uint32_t any(uint32_t n)
{
    return (uint32_t)((noise() >> 32) * n >> 32);
}

bool chance(unsigned percent)
{
    return any(100) < percent;
}

static unsigned between(unsigned low, unsigned high)
{
    return low + any(high - low + 1);
}

static void noise_at(uint8_t *to, size_t n)
{
    for (size_t i = 0; i < n; i++)
        to[i] = (uint8_t)any(256);
}

static void word_at(uint8_t *to, unsigned value)
{
    to[0] = (uint8_t)(value >> 8);
    to[1] = (uint8_t)value;
}

static uint8_t xor_over(const uint8_t *p, size_t n)
{
    uint8_t sum = 0;
    while (n-- > 0)
        sum ^= *p++;
    return sum;
}

/* ---- The kind, and taste ---- */

/* How a kind divides the sequence table, and how its tables are made. A long sequence has more in it that
 * can be wrong: with the damage of short ones hardly a chain of them would pass. */
static const struct format {
    unsigned count;     /* entries */
    unsigned entry;     /* bytes of one */
    unsigned longest;   /* sequence that its length byte allows */
    unsigned closed;    /* of a hundred sequences after each of their parts */
    unsigned filled;    /* of a hundred sequences, with delays up to the longest */
    unsigned unmarked;  /* of a hundred line lists, with no other damage */
    uint8_t damages[7]; /* of whole tables */
} formats[] = {
    {128, 128, 128, 20, 0, 2, {0, 0, 1, 1, 3, 10, 30}},
    {64, 256, 255, 8, 30, 1, {0, 0, 0, 0, 1, 3, 20}},
};

unsigned make_count(uint32_t kind)
{
    return formats[kind].count;
}

unsigned make_entry(uint32_t kind)
{
    return formats[kind].entry;
}

/* What the closing commands of a table do. */
enum calls { MOSTLY_END, RING, SCATTERED_RING, ANYWHERE, ITSELF, CALL_KINDS };

static struct {
    const struct format *format;
    enum calls calls;
    bool large;         /* counts up to their largest */
    unsigned sequences; /* how many of each are used */
    unsigned lists;
} taste = {.format = formats};

/* What is left of a sequence that is longer than an uplink: the next uplink has it. */
static struct {
    uint8_t bytes[LARGEST_ENTRY - UPLINK];
    unsigned address, count;
} rest;

void make_taste(uint32_t kind, unsigned sequences, unsigned lists)
{
    taste.format = &formats[kind];
    taste.calls = (enum calls)any(CALL_KINDS);
    taste.large = chance(30);
    taste.sequences = sequences;
    taste.lists = lists;
    rest.count = 0;
}

/* ---- Line lists ---- */

/* Gives one window all marks; seldom takes some of them away from every window within the count. */
static void choose_marks(uint8_t *list, unsigned windows, unsigned damage)
{
    unsigned taken = chance(taste.format->unmarked + damage) ? any(8) << 2 : 0;

    list[14 + 6 * any(windows) + 1] |= 0x1C;
    for (unsigned w = 0; w < windows; w++)
        list[14 + 6 * w + 1] &= (uint8_t)~taken;
}

size_t make_line_list(uint8_t *list, unsigned damage)
{
    unsigned windows = between(1, 25), length;

    noise_at(list, LIST_ENTRY);
    choose_marks(list, windows, damage);
    if (chance(damage))
        windows = chance(50) ? 26 : any(2) * 255;
    length = (14 + 6 * windows) & 0xFF;
    if (chance(damage))
        length = (length + (chance(50) ? 1 : 255)) & 0xFF;
    list[0] = (uint8_t)length;
    if (length > LIST_ENTRY)
        length = LIST_ENTRY;
    list[2] = (uint8_t)windows;
    list[3] = 0;
    list[3] = xor_over(list, length);
    if (chance(damage))
        list[any(LIST_ENTRY)] ^= (uint8_t)(1 << any(8));
    return length;
}

/* A list of 26 windows reaches into the next entry: makes its checksum right over both. */
static void mend_long_list(uint8_t *list)
{
    if (list[2] == 26 && list[0] == 14 + 6 * 26)
        list[3] ^= xor_over(list, list[0]);
}

/* Makes a line list's windows, length or checksum wrong, or more than one of them; what is not to be
 * wrong is made right for the rest. */
static void spoil_line_list(uint8_t *list)
{
    unsigned wrong = between(1, 7), length = list[0];

    if (wrong & 1) {
        list[2] = (uint8_t)(any(2) * between(26, 40));
        length = 14 + 6u * list[2];
    }
    if (wrong & 2)
        length ^= 1u << any(8);
    list[0] = (uint8_t)length;
    list[3] ^= xor_over(list, length < LIST_ENTRY ? length : LIST_ENTRY);
    if (wrong & 4)
        list[3] ^= (uint8_t)(1 << any(8));
}

/* ---- Sequences ---- */

/* The last place at which a closing command of two bytes fits before the checksum. */
static unsigned last_closing(void)
{
    return taste.format->longest - 3;
}

static unsigned few_or_many(unsigned few, unsigned most)
{
    return taste.large && chance(30) ? between(1, most) : between(1, few);
}

/* A run raster's ASRC byte and skip, and the lowest and the highest initial position that keep all its
 * repeats in the mirror's range. */
struct asrc {
    unsigned byte, skip, lowest, highest;
};

/* ASRC that is off; the skip may be any then. */
static struct asrc no_asrc(unsigned room)
{
    struct asrc a = {0, chance(30) ? 0 : any(256), 0, room};
    return a;
}

/* ASRC that is on, if in so many repeats at least one step at a time has room; often all the steps that have. */
static struct asrc some_asrc(unsigned repeats, unsigned room)
{
    struct asrc a = {0, chance(70) ? between(1, 3) : between(1, 255), 0, room};
    unsigned moves = (repeats - 1) / a.skip, most, steps;

    if (moves > room || chance(10)) {
        a.skip = between(200, 255);
        moves = (repeats - 1) / a.skip;
    }
    if (moves > room)
        return no_asrc(room);
    most = moves == 0 || room / moves > 127 ? 127 : room / moves;
    steps = chance(20) ? most : between(1, most);
    a.byte = steps | any(2) << 7;
    if (a.byte & 0x80)
        a.lowest = steps * moves;
    else
        a.highest = room - steps * moves;
    return a;
}

/* ASRC with no steps, with no skip, or any. */
static void spoil_asrc(struct asrc *a)
{
    switch (any(4)) {
    case 0: a->byte = 0x80; break;
    case 1: a->byte = between(1, 255); a->skip = 0; break;
    case 2: a->skip = any(3); break;
    default: a->byte = any(256); a->skip = any(256);
    }
}

/* An initial position with which a repeat leaves the range, be it the last alone. */
static unsigned bad_initial(const struct asrc *a)
{
    if (a->lowest > 0 && chance(50))
        return chance(70) ? a->lowest - 1 : any(a->lowest);
    return chance(70) ? a->highest + 1 : between(END_STOP + 1, 65535);
}

/* A run raster's 23 bytes. */
static void put_run_raster(uint8_t *r, unsigned exposures, unsigned damage)
{
    static const uint8_t flags[] = {0, 0, 0, 0x20, 0x10, 0x08, 0x04, 0x30};
    static const uint8_t two_flags[] = {0x18, 0x0C, 0x24, 0x28, 0x14, 0x38, 0x34, 0x3C};
    bool shifted = chance(50);
    unsigned loops = few_or_many(4, 65535);
    unsigned repeats = few_or_many(shifted ? 5 : 3, 4095);
    unsigned step = chance(20) ? 0 : any(END_STOP / loops + 1), room = END_STOP - (loops - 1) * step;
    struct asrc asrc = shifted ? some_asrc(repeats, room) : no_asrc(room);
    unsigned initial = chance(20) ? asrc.highest : chance(20) ? asrc.lowest : between(asrc.lowest, asrc.highest);
    unsigned list = any(taste.lists), flag = flags[any(sizeof flags)];

    if (chance(damage))
        loops = 0;
    if (chance(damage))
        repeats = 0;
    if (chance(damage))
        exposures = chance(50) ? 0 : between(9, 15);
    if (chance(damage))
        list = chance(50) ? LISTS : between(LISTS, 255);
    if (chance(damage))
        initial = bad_initial(&asrc);
    if (chance(damage))
        step = chance(50) ? END_STOP + 1 : between(END_STOP, 65535);
    if (chance(damage))
        spoil_asrc(&asrc);
    if (chance(damage))
        flag = two_flags[any(sizeof two_flags)];

    noise_at(r, 23);
    r[0] = 0x90;
    if (chance(10))
        r[1 + any(2)] = 0x90;
    word_at(r + 3, initial);
    word_at(r + 5, loops);
    r[13] = (uint8_t)((r[13] & 0xF0) | exposures);
    r[14] = (uint8_t)asrc.byte;
    word_at(r + 15, any(16) << 12 | repeats);
    r[17] = (uint8_t)asrc.skip;
    word_at(r + 19, step);
    r[21] = (uint8_t)list;
    r[22] = (uint8_t)((r[22] & 0xC3) | flag);
}

static unsigned put_delay(uint8_t *text, unsigned at)
{
    text[at] = 0x95;
    word_at(text + at + 1, any(65536));
    return at + 3;
}

static unsigned put_expose(uint8_t *text, unsigned at, unsigned damage)
{
    text[at] = 0x91;
    word_at(text + at + 1, chance(damage) ? 0 : between(1, 65535));
    if (chance(5))
        text[at + 1 + any(2)] = 0x92;
    return at + 3;
}

/* A raster from its run raster to its loop back, at most 95 bytes; returns the place after it. */
static unsigned put_raster(uint8_t *text, unsigned at, unsigned damage)
{
    unsigned exposures = chance(80) ? between(1, 3) : between(1, 8);
    unsigned made = exposures, raster = at, before = chance(50) ? 0 : between(1, 2), target, first;

    put_run_raster(text + at, exposures, damage);
    at += 23;
    if (chance(damage))
        made += chance(50) ? 1 : -1u;
    first = at + 3 * before;
    target = at + 3 * any(before + 1);
    while (before-- > 0)
        at = put_delay(text, at);
    for (unsigned i = 0; i < made; i++) {
        at = put_expose(text, at, damage);
        if (chance(15) && i < 6)
            at = put_delay(text, at);
    }
    if (chance(damage)) {
        switch (any(6)) {
        case 0: target = raster; break;
        case 1: target = first + 3; break;
        case 2: target += 1 + any(2); break;
        case 3: target = at; break;
        case 4: target = any(256); break;
        default: target = raster + any(23);
        }
    }
    if (!chance(damage)) {
        text[at++] = 0x92;
        text[at++] = (uint8_t)target;
    }
    return at;
}

static unsigned put_call(uint8_t *text, unsigned at, unsigned target)
{
    text[at] = 0x93;
    text[at + 1] = (uint8_t)target;
    return at + 2;
}

static unsigned put_closing(uint8_t *text, unsigned at, unsigned own, unsigned damage)
{
    if (chance(damage))
        return at;
    if (chance(damage))
        return put_call(text, at, chance(50) ? taste.format->count : between(taste.format->count, 255));
    switch (taste.calls) {
    case RING:
        return put_call(text, at, (own + 1) % taste.sequences);
    case SCATTERED_RING:
        return put_call(text, at, (5 * own + 3) % taste.sequences);
    case ANYWHERE:
        return put_call(text, at, any(taste.sequences));
    case ITSELF:
        if (chance(50))
            return put_call(text, at, own);
        break;
    default:
        if (chance(40))
            return put_call(text, at, any(taste.sequences));
    }
    text[at] = 0x94;
    return at + 1;
}

/* Commands in no order at all, with parameters that may fit or not. */
static unsigned put_jumble(uint8_t *text, unsigned at)
{
    unsigned end = between(6, last_closing()), n = 0;
    uint8_t starts[LARGEST_ENTRY];

    while (at < end) {
        starts[n++] = (uint8_t)at;
        switch (any(12)) {
        case 0: case 1: put_run_raster(text + at, between(1, 3), 5); at += 23; break;
        case 2: case 3: case 4: case 5: at = put_expose(text, at, 5); break;
        case 6: case 7:
            text[at++] = 0x92;
            text[at++] = chance(80) ? starts[any(n)] : (uint8_t)any(end);
            break;
        case 8: at = put_call(text, at, any(taste.format->count + 12)); break;
        case 9: text[at++] = 0x94; break;
        case 10: text[at++] = (uint8_t)any(256); break;
        default: at = put_delay(text, at);
        }
    }
    return at < taste.format->longest ? at : taste.format->longest - 1;
}

static unsigned put_commands(uint8_t *text, unsigned own, unsigned damage)
{
    const struct format *format = taste.format;
    unsigned at = 4;

    while (!chance(format->closed)) {
        unsigned next = chance(30) ? put_delay(text, at) : put_raster(text, at, damage);
        if (next > last_closing())
            break;
        at = next;
    }
    if (format->filled > 0 && chance(format->filled))
        while (at + 3 <= last_closing())
            at = put_delay(text, at);
    at = put_closing(text, at, own, damage);
    if (chance(damage) && at < format->longest - 1)
        text[at++] = (uint8_t)(chance(50) ? 0x94 : any(256));
    return at;
}

size_t make_sequence(uint8_t *entry, unsigned own, unsigned damage)
{
    uint8_t text[2 * LARGEST_ENTRY + 64];
    unsigned size = taste.format->entry, length, checked;

    noise_at(text, 2 * size + 64);
    if (chance(damage / 3)) {
        memset(entry, 0, size);
        if (chance(50))
            noise_at(entry, size);
        return size;
    }
    length = 1 + (chance(damage) ? put_jumble(text, 4) : put_commands(text, own, damage));
    text[0] = (uint8_t)length;
    text[3] = (uint8_t)(chance(damage) ? 0 : few_or_many(3, 255));
    if (chance(damage / 2))
        text[0] = (uint8_t)(chance(50) ? any(256) : length + 2 * any(2) - 1);
    if (size == 256 && chance(damage / 2))
        text[0] = 0;
    if (chance(damage))
        text[any(length)] = (uint8_t)any(256);
    /* A length of 0 is to be refused for itself, and not for a wrong checksum of 256 bytes. */
    checked = text[0] == 0 && size == 256 ? size : text[0];
    if (checked > 0 && checked <= size)
        text[checked - 1] = xor_over(text, checked - 1);
    if (chance(damage))
        text[any(length)] ^= (uint8_t)(1 << any(8));
    memcpy(entry, text, size);
    return length;
}

void make_tables(uint32_t kind, uint8_t *seqs, uint8_t *lists)
{
    unsigned damage = formats[kind].damages[any(sizeof formats->damages)];

    make_taste(kind, make_count(kind), LISTS);
    for (unsigned i = 0; i < LISTS; i++)
        make_line_list(lists + LIST_ENTRY * i, damage / 2);
    for (unsigned i = 0; i + 1 < LISTS; i++)
        mend_long_list(lists + LIST_ENTRY * i);
    for (unsigned i = 0; i < make_count(kind); i++)
        make_sequence(seqs + make_entry(kind) * i, i, damage);
    for (unsigned i = 0; i < LISTS; i++)
        if (chance(damage / 2))
            spoil_line_list(lists + LIST_ENTRY * i);
}

/* ---- Changes in the tables ---- */

/* Of either table; its size tells of which. */
struct entry {
    uint8_t *at;
    unsigned size;
};

static struct entry some_list(uint8_t *lists)
{
    struct entry e = {lists + LIST_ENTRY * any(LISTS), LIST_ENTRY};
    return e;
}

static struct entry some_entry(uint8_t *seqs, uint8_t *lists)
{
    unsigned size = taste.format->entry;
    struct entry e = {seqs + size * any(taste.format->count), size};
    return chance(60) ? e : some_list(lists);
}

/* Where its length byte says that it ends. */
static unsigned end_of(struct entry e)
{
    return e.at[0] < e.size ? e.at[0] : e.size;
}

static void alter(uint8_t *at)
{
    *at ^= (uint8_t)between(1, 255);
}

/* A byte within the length, often the first or the last. */
static void alter_within(struct entry e)
{
    unsigned end = end_of(e);
    alter(e.at + (end == 0 || chance(15) ? 0 : chance(30) ? end - 1 : any(end)));
}

/* A byte past the length, if there is one, often the first. */
static void alter_past(struct entry e)
{
    unsigned end = end_of(e);
    if (end > 0 && end < e.size)
        alter(e.at + (chance(40) ? end : between(end, e.size - 1)));
}

/* Some bytes in a row are written over, and then with their own values again. */
static void write_again(struct entry e)
{
    uint8_t own[LARGEST_ENTRY];
    unsigned from = any(e.size), count = between(1, e.size - from);

    memcpy(own, e.at + from, count);
    noise_at(e.at + from, count);
    memcpy(e.at + from, own, count);
}

/* Zeros in its place, a copy of another, or one just made. */
static void replace(uint8_t *seqs, uint8_t *lists)
{
    struct entry e = some_entry(seqs, lists), other = some_entry(seqs, lists);

    if (chance(20))
        memset(e.at, 0, e.size);
    else if (other.size == e.size && other.at != e.at)
        memcpy(e.at, other.at, e.size);
    else if (e.size == LIST_ENTRY)
        make_line_list(e.at, 1);
    else
        make_sequence(e.at, (unsigned)(e.at - seqs) / e.size, 1);
}

static void alter_anywhere(uint8_t *seqs, uint8_t *lists)
{
    unsigned sequences = taste.format->entry * taste.format->count, at = any(sequences + LIST_ENTRY * LISTS);
    alter(at < sequences ? seqs + at : lists + (at - sequences));
}

void make_change(unsigned way, uint8_t *seqs, uint8_t *lists)
{
    unsigned few = between(4, 16), many = between(50, 400);

    switch (way) {
    case 0: /* a few bytes that count */
        while (few-- > 0)
            alter_within(some_entry(seqs, lists));
        break;
    case 1: /* one byte */
        alter_anywhere(seqs, lists);
        break;
    case 2: /* one to four whole entries */
        for (few /= 4; few > 0; few--)
            replace(seqs, lists);
        break;
    case 3: /* many bytes that no check looks at */
        while (many-- > 0)
            alter_past(some_entry(seqs, lists));
        break;
    case 4: /* line lists alone */
        while (few-- > 0)
            alter_within(some_list(lists));
        break;
    case 5: /* bytes that are given their old values again */
        while (few-- > 0)
            write_again(some_entry(seqs, lists));
        break;
    case 6: /* none */
        break;
    default: /* many bytes */
        while (many-- > 0)
            alter_anywhere(seqs, lists);
    }
}

/* ---- A ring of full sequences ---- */

static uint8_t *put(uint8_t *at, const uint8_t *bytes, size_t n)
{
    memcpy(at, bytes, n);
    return at + n;
}

/* As many rasters as fit, a delay in as many of them, the last ones, as there is room for then. */
static void put_full_sequence(uint8_t *text, unsigned length, unsigned next, unsigned flags, unsigned asrc)
{
    static const uint8_t raster[] = {0x90, 0, 7, 0, 100, 0, 2, 0, 0, 0, 0, 2, 1, 1, 0, 0xF0, 2, 0, 3, 0, 10, 0, 0};
    static const uint8_t delay[] = {0x95, 0, 5}, expose[] = {0x91, 0, 100};
    unsigned room = length - 4 - 2 - 1, whole = sizeof raster + sizeof expose + 2;
    unsigned rasters = room / whole, delays = room % whole / sizeof delay;
    uint8_t *at = text + 4;

    text[0] = (uint8_t)length;
    text[3] = 1;
    for (unsigned k = rasters; k > 0; k--) {
        uint8_t *r = at;
        at = put(at, raster, sizeof raster);
        r[22] = (uint8_t)flags;
        if (asrc != 0) {
            r[14] = (uint8_t)asrc;
            r[16] = 6;
            r[17] = 2;
        }
        if (k <= delays)
            at = put(at, delay, sizeof delay);
        at = put(at, expose, sizeof expose);
        *at++ = 0x92;
        *at = (uint8_t)(at - text - 1 - (int)sizeof expose);
        at++;
    }
    *at++ = 0x93;
    *at++ = (uint8_t)next;
    *at = xor_over(text, length - 1);
}

void make_ring(uint32_t kind, uint8_t *seqs, uint8_t *lists, unsigned n, unsigned flags, unsigned asrc)
{
    memset(lists, 0, LIST_ENTRY);
    lists[0] = LIST_ENTRY;
    lists[2] = 25;
    lists[LIST_ENTRY - 5] = (uint8_t)flags;
    lists[3] = xor_over(lists, LIST_ENTRY);
    for (unsigned i = 0; i < n; i++)
        put_full_sequence(seqs + formats[kind].entry * i, formats[kind].longest, (i + 1) % n, flags, asrc);
}

void make_users(uint8_t *seqs, uint8_t *lists, unsigned list, unsigned users)
{
    make_ring(0, seqs, lists, formats[0].count, 0, 0);
    memcpy(lists + LIST_ENTRY * list, lists, LIST_ENTRY);
    for (unsigned i = 0; i < users; i++) {
        uint8_t *text = seqs + formats[0].entry * i;
        for (unsigned at = 4; at < text[0] - 3u; at += text[at] == 0x90 ? 23 : text[at] == 0x92 ? 2 : 3)
            if (text[at] == 0x90)
                text[at + 21] = (uint8_t)list;
        text[text[0] - 1] = xor_over(text, text[0] - 1u);
    }
}

/* ---- States ---- */

/* The state's bytes, as keel.h lays them out. */
enum {
    MODE = 0, ALLOWED = 1, COUNTERS = 2, FAILED_CODE = 8, ABORT_CODE = 10, SELECTION = 15, SEQUENCE = 16,
    PLACE = 17, LINE_LIST = 18, EXPOSURES = 19, MIRROR = 21, RUNNING = 23, ENTERING = 24, RASTER = 25,
    SET = 26, PASSES = 27, REPEATS = 29, ROUNDS = 31, RUN_NUMBER = 32, SHIFT = 34, STATE = 36
};

/* Anything in range. */
static void state_in_range(uint8_t *s)
{
    unsigned count = taste.format->count, entry = taste.format->entry;

    noise_at(s, STATE);
    if (chance(10))
        memset(s + COUNTERS, 0xFF, 6);
    if (chance(10))
        word_at(s + EXPOSURES, 65535);
    s[MODE] = (uint8_t)between(1, 3);
    s[ALLOWED] = (uint8_t)any(2);
    s[FAILED_CODE] &= 15;
    s[ABORT_CODE] &= 15;
    s[SELECTION] = (uint8_t)(chance(20) ? NONE : any(count));
    s[SEQUENCE] = (uint8_t)(chance(20) ? NONE : any(count));
    s[PLACE] = (uint8_t)any(entry);
    s[LINE_LIST] = (uint8_t)any(LISTS);
    word_at(s + MIRROR, any(END_STOP + 1));
    s[RUNNING] = (uint8_t)(s[MODE] == 3 && s[SELECTION] != NONE && s[SEQUENCE] != NONE && chance(70));
    s[ENTERING] = (uint8_t)any(2);
    s[RASTER] = (uint8_t)(chance(40) ? NONE : any(entry));
    s[SET] = (uint8_t)any(9);
}

static unsigned count_left(unsigned most)
{
    return chance(80) ? any(4) : any(most + 1);
}

/* The number of one of a raster's repeats, of one that it does not have, or any. */
static unsigned some_repeat(unsigned repeats)
{
    switch (any(6)) {
    case 0: return 0;
    case 1: return repeats + any(8);
    case 2: return chance(70) ? any(65536) : 65535;
    default: return any(repeats);
    }
}

/* A place where this number stands, be it a command's start or not; 4 if there is none. */
static uint8_t some_place_of(const uint8_t *text, unsigned end, uint8_t number)
{
    uint8_t places[LARGEST_ENTRY] = {4};
    unsigned n = 0;
    for (unsigned at = 0; at < end; at++)
        if (text[at] == number)
            places[n++] = (uint8_t)at;
    return places[n > 0 ? any(n) : 0];
}

/* Running at some command of a sequence, with a raster open or not. */
static void state_in_text(uint8_t *s, const uint8_t *seqs)
{
    static const uint8_t sizes[] = {23, 3, 2, 2, 1, 3};
    const uint8_t *text;
    uint8_t starts[LARGEST_ENTRY];
    unsigned count = taste.format->count, entry = taste.format->entry, n = 0, raster = NONE, chosen, end;

    state_in_range(s);
    s[MODE] = 3;
    s[RUNNING] = 1;
    s[ENTERING] = (uint8_t)chance(5);
    s[SELECTION] = (uint8_t)any(count);
    s[SEQUENCE] = (uint8_t)any(count);
    text = seqs + entry * s[SEQUENCE];
    end = text[0] >= 6 && text[0] <= entry ? text[0] : entry;
    for (unsigned at = 4; at < end; at += text[at] >= 0x90 && text[at] <= 0x95 ? sizes[text[at] - 0x90] : 1)
        starts[n++] = (uint8_t)at;
    chosen = any(n);
    s[PLACE] = starts[chosen];
    /* The raster that a run would have open here: the last one begun and not yet looped back. */
    for (unsigned i = 0; i < chosen; i++) {
        if (text[starts[i]] == 0x90)
            raster = starts[i];
        else if (text[starts[i]] == 0x92)
            raster = NONE;
    }
    if (text[s[PLACE]] == 0x90 && chance(40))
        raster = s[PLACE];
    s[RASTER] = (uint8_t)raster;
    if (chance(50))
        memset(s + RUN_NUMBER, 0, 4);
    if (raster != NONE) {
        unsigned exposures = raster + 13 < entry ? text[raster + 13] & 15 : 1, made = 0;
        unsigned repeats = raster + 16 < entry ? (text[raster + 15] & 15) << 8 | text[raster + 16] : 1;
        word_at(s + RUN_NUMBER, some_repeat(repeats));
        if (chance(50))
            word_at(s + SHIFT, any(2 * END_STOP + 1) - END_STOP);
        for (unsigned i = 0; i < chosen; i++)
            made += starts[i] > raster && text[starts[i]] == 0x91;
        s[SET] = (uint8_t)(chance(80) ? made : chance(50) ? exposures : any(9));
        if (s[SET] > 8)
            s[SET] = 8;
        if (chance(70))
            word_at(s + MIRROR, any(END_STOP + 1));
        else
            word_at(s + MIRROR, END_STOP - any(20));
    }
    word_at(s + PASSES, count_left(65535));
    word_at(s + REPEATS, count_left(65535));
    s[ROUNDS] = (uint8_t)count_left(255);
    if (chance(10))
        s[PLACE] = chance(50) ? (uint8_t)any(entry) : some_place_of(text, end, 0x92);
    if (chance(10))
        s[RASTER] = chance(50) ? (uint8_t)any(entry) : starts[any(n)];
    if (chance(10))
        s[RASTER] = some_place_of(text, end, 0x90);
    if (chance(5))
        s[RASTER] = NONE;
}

/* One field just out of its range; of the old kind a place is in range, be it above 127. */
static void put_out_of_range(uint8_t *s)
{
    unsigned count = taste.format->count;

    switch (any(13)) {
    case 0: s[MODE] = 0; break;
    case 1: s[MODE] = (uint8_t)between(4, 255); break;
    case 2: s[ALLOWED] = (uint8_t)between(2, 255); break;
    case 3: s[FAILED_CODE] = (uint8_t)between(16, 255); break;
    case 4: s[ABORT_CODE] = (uint8_t)between(16, 255); break;
    case 5: s[SELECTION] = (uint8_t)(chance(50) ? count : between(count, 255)); break;
    case 6: s[SEQUENCE] = (uint8_t)(chance(50) ? count : between(count, 255)); break;
    case 7: s[PLACE] = (uint8_t)(chance(50) ? 128 : between(128, 255)); break;
    case 8: s[LINE_LIST] = (uint8_t)(chance(50) ? 48 : between(48, 255)); break;
    case 9: word_at(s + MIRROR, chance(50) ? END_STOP + 1 : between(END_STOP, 65535)); break;
    case 10: s[chance(50) ? RUNNING : ENTERING] = (uint8_t)between(1, 255); break;
    case 11: s[RASTER] = (uint8_t)(chance(50) ? 128 : between(128, 255)); break;
    default: s[SET] = (uint8_t)(chance(50) ? 9 : between(9, 255));
    }
}

void make_state(uint8_t *state, const uint8_t *seqs)
{
    switch (any(10)) {
    case 0:
        noise_at(state, STATE);
        break;
    case 1:
    case 2:
        state_in_range(state);
        break;
    default:
        state_in_text(state, seqs);
    }
    if (chance(10))
        put_out_of_range(state);
}

/* ---- Packets ---- */

static size_t packet_2(uint8_t *p, unsigned number, unsigned value)
{
    p[0] = (uint8_t)number;
    p[1] = (uint8_t)value;
    return 2;
}

static void put_address(uint8_t *to, unsigned address)
{
    to[0] = (uint8_t)(address >> 16);
    word_at(to + 1, address & 0xFFFF);
}

/* An address near a border of the tables, at an entry, or anywhere. */
static unsigned some_address(void)
{
    static const unsigned borders[] = {0x070000, 0x073F80, 0x074000, 0x075E1C, 0x075EC0};
    if (chance(40))
        return borders[any(5)] + any(6) - 3;
    if (chance(50))
        return 0x070000 + taste.format->entry * any(taste.format->count + 2);
    return chance(80) ? 0x070000 + any(0x5F00) : any(0x1000000);
}

/* A count that fits before a border, just does not, or is any. */
static unsigned some_count(unsigned address, unsigned most)
{
    unsigned end = address < 0x074000 ? 0x074000 : 0x075EC0;
    if (chance(30) && end > address && end - address <= most)
        return end - address + any(3) - 1;
    return chance(80) ? between(1, most) : any(2) * (most + any(2));
}

static size_t dump_packet(uint8_t *p)
{
    unsigned address = some_address();
    p[0] = 0x07;
    put_address(p + 1, address);
    put_address(p + 4, chance(3) ? any(0x1000000) : some_count(address, chance(10) ? 16384 : 300));
    return 7;
}

static size_t uplink_packet(uint8_t *p)
{
    uint8_t entry[LARGEST_ENTRY];
    unsigned address, count;

    p[0] = 0xE7;
    noise_at(p + 5, UPLINK);
    if (rest.count > 0) {
        address = rest.address;
        count = rest.count;
        memcpy(p + 5, rest.bytes, count);
        rest.count = 0;
    } else if (chance(60)) {
        unsigned own = any(taste.sequences);
        address = 0x070000 + taste.format->entry * own;
        count = (unsigned)make_sequence(entry, own, 3);
        if (count > UPLINK) {
            rest.address = address + UPLINK;
            rest.count = count - UPLINK;
            memcpy(rest.bytes, entry + UPLINK, rest.count);
            count = UPLINK;
        }
        memcpy(p + 5, entry, count);
    } else if (chance(50)) {
        address = 0x074000 + LIST_ENTRY * any(taste.lists);
        do
            count = (unsigned)make_line_list(entry, 3);
        while (count > UPLINK);
        memcpy(p + 5, entry, count);
    } else {
        address = some_address();
        count = some_count(address, UPLINK);
        count = count <= UPLINK ? count : UPLINK;
    }
    put_address(p + 1, address);
    p[4] = (uint8_t)count;
    return 5 + count;
}

/* ---- Uplinks into tables ---- */

enum { TABLES_AT = 0x070000, LISTS_AT = 16384, TABLES_END = LISTS_AT + LIST_ENTRY * LISTS };

/* Both tables in a row, as an uplink leaves them, and its range in them. */
static struct {
    uint8_t bytes[TABLES_END];
    unsigned from, end;
} after;

static unsigned entry_size(unsigned at)
{
    return at < LISTS_AT ? taste.format->entry : LIST_ENTRY;
}

/* Where the entry begins that has this byte. */
static unsigned entry_start(unsigned at)
{
    return at < LISTS_AT ? at - at % taste.format->entry : at - (at - LISTS_AT) % LIST_ENTRY;
}

static bool in_range(unsigned at)
{
    return at >= after.from && at < after.end;
}

/* A range of up to 128 bytes in one table: in an entry of which a few are taken often, across two, or at an end. */
static void choose_range(void)
{
    bool lists = chance(50);
    unsigned start = lists ? LISTS_AT : 0, end = lists ? TABLES_END : LISTS_AT, size = entry_size(start);
    unsigned entries = (end - start) / size, count = chance(20) ? 1 : between(1, UPLINK), at, before;

    at = start + size * any(chance(50) ? 4 : entries);
    switch (any(5)) {
    case 0: /* from its first byte, or at the table's very end */
        at = chance(70) ? at : end - count;
        break;
    case 1: /* all of it, or as much as goes; of the old kind often the other half */
        count = size < UPLINK ? size : UPLINK;
        at += chance(50) ? size - count : 0;
        break;
    case 2: /* across its end, be it by one byte */
        count = count < 2 ? 2 : count;
        before = chance(30) ? 1 : chance(30) ? count - 1 : between(1, count - 1);
        at = at + size < end ? at + size - before : end - count;
        break;
    default: /* anywhere in it, and on from there */
        at += any(size);
    }
    after.from = at;
    after.end = at + count < end ? at + count : end;
}

/* The part that lies in the range of an entry made new. */
static void make_part(unsigned start)
{
    uint8_t entry[LARGEST_ENTRY];

    if (start < LISTS_AT)
        make_sequence(entry, start / taste.format->entry, 2);
    else
        make_line_list(entry, 2);
    for (unsigned i = 0; i < entry_size(start); i++)
        if (in_range(start + i))
            after.bytes[start + i] = entry[i];
}

/* Makes an entry's checksum right, if it lies in the range. */
static void mend_part(unsigned start)
{
    uint8_t *entry = after.bytes + start;
    unsigned length = entry[0], sum = start < LISTS_AT ? length - 1 : 3;

    if (length > 5 && length <= entry_size(start) && in_range(start + sum))
        entry[sum] ^= xor_over(entry, length);
}

/* The bytes of the range: as they are, one of them another, of entries made new, or noise; often with checksums
 * mended. */
static void choose_bytes(void)
{
    unsigned first = entry_start(after.from), last = entry_start(after.end - 1), way = any(10);

    if (way == 0)
        noise_at(after.bytes + after.from, after.end - after.from);
    else if (way < 6)
        alter(after.bytes + between(after.from, after.end - 1));
    else if (way < 9)
        for (unsigned start = first; start <= last; start += entry_size(start))
            make_part(start);
    if (way > 0 && chance(70))
        for (unsigned start = first; start <= last; start += entry_size(start))
            mend_part(start);
}

size_t make_uplink(uint8_t *p, const uint8_t *seqs, const uint8_t *lists)
{
    unsigned count;

    if (chance(35))
        return uplink_packet(p);
    memcpy(after.bytes, seqs, LISTS_AT);
    memcpy(after.bytes + LISTS_AT, lists, TABLES_END - LISTS_AT);
    choose_range();
    choose_bytes();
    count = after.end - after.from;
    p[0] = 0xE7;
    put_address(p + 1, TABLES_AT + after.from);
    p[4] = (uint8_t)count;
    memcpy(p + 5, after.bytes + after.from, count);
    return 5 + count;
}

/* ---- Summaries that no tables give ---- */

/* A number about the few that mean something, or any. */
static uint8_t about(unsigned few)
{
    return (uint8_t)(chance(70) ? any(few + 1) : any(256));
}

/* A total about the least that no card has. */
static void put_large_total(uint8_t *at)
{
    static const uint64_t totals[] = {0, 1, (1ull << 54) - 1, 1ull << 54, (1ull << 54) + 1, 1ull << 63, ~0ull};
    uint64_t total = totals[any(sizeof totals / sizeof *totals)];
    for (int i = 7; i >= 0; i--, total >>= 8)
        at[i] = (uint8_t)total;
}

static void spoil_card(uint8_t *card)
{
    unsigned last = taste.format->count - 1;

    switch (any(8)) {
    case 0: card[0] = about(2); break;
    case 1: card[3] = about(3); break;
    case 2: card[3] = (uint8_t)between(1, 2); card[4] = (uint8_t)(chance(70) ? last + any(3) - 1 : any(256)); break;
    case 3: put_large_total(card + 8); break;
    case 4: put_large_total(card + 16); break;
    case 5: noise_at(card + 1, 7); card[0] = 1; card[5] = about(5); break;
    case 6: card[24 + any(6)] ^= (uint8_t)(1 << any(8)); break;
    default: card[any(32)] = (uint8_t)any(256);
    }
}

static void spoil_list_card(uint8_t *card)
{
    switch (any(4)) {
    case 0: card[0] = about(5); break;
    case 1: card[1] = (uint8_t)any(256); break;
    case 2: card[2] ^= (uint8_t)(1 << any(8)); break;
    default: noise_at(card, 4); card[0] = about(5);
    }
}

unsigned make_spoil(uint8_t *summary)
{
    unsigned count = taste.format->count, sequence = any(chance(50) ? 4 : count);

    if (chance(70))
        spoil_card(summary + 32 * sequence);
    else
        spoil_list_card(summary + 32 * count + 4 * any(LISTS));
    return sequence;
}

/* ---- Packets of all kinds ---- */

static unsigned some_mode(void)
{
    return chance(85) ? between(0, 6) : any(256);
}

static size_t good_packet(uint8_t *p)
{
    switch (any(12)) {
    case 0: p[0] = 0x01; return 1;
    case 1: case 2: return dump_packet(p);
    case 3: return packet_2(p, 0x20, any(256)) - any(2);
    case 4: case 5: case 6: return packet_2(p, 0x21, some_mode());
    case 7: p[0] = 0x23; return 1;
    case 8: case 9: return packet_2(p, 0x83, any(chance(80) ? taste.format->count + 2 : 256));
    default: return uplink_packet(p);
    }
}

size_t make_packet(uint8_t *p)
{
    static const uint8_t known[] = {0x01, 0x07, 0x20, 0x21, 0x23, 0x83, 0xE7};
    size_t length;

    noise_at(p, MAKE_LONGEST);
    switch (any(10)) {
    case 0: /* any number, a few bytes */
        return any(9);
    case 1: /* a known number, any length */
        p[0] = known[any(sizeof known)];
        return chance(70) ? any(10) : between(128, 140);
    case 2: /* about the longest */
        if (chance(50))
            p[0] = known[any(sizeof known)];
        length = chance(80) ? between(131, 141) : between(134, MAKE_LONGEST);
        if (chance(50))
            p[4] = (uint8_t)(length - 5);
        return length;
    case 3: /* a good one, a byte more or less */
        length = good_packet(p);
        return length + 2 * any(2) - 1;
    default:
        return good_packet(p);
    }
}

size_t make_turn(const uint8_t *state, uint8_t *p, unsigned *steps)
{
    *steps = 0;
    if (chance(8))
        return make_packet(p);
    if (chance(8)) {
        p[0] = 0x01;
        return 1;
    }
    if (state[RUNNING] && chance(97)) {
        *steps = chance(90) ? between(1, 12) : between(1, 300);
        return 0;
    }
    if (!state[RUNNING] && rest.count > 0)
        return uplink_packet(p);
    if (!state[ALLOWED])
        return packet_2(p, 0x20, 0) - 1;
    switch (state[MODE]) {
    case 1:
        return chance(70) ? packet_2(p, 0x21, 2) : uplink_packet(p);
    case 2:
        if (chance(40))
            return uplink_packet(p);
        if (chance(40))
            return packet_2(p, 0x83, any(taste.sequences));
        return packet_2(p, 0x21, chance(90) ? 3 : 1);
    default:
        *steps = chance(30);
        return packet_2(p, 0x21, 2);
    }
}
