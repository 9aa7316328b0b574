/*
 * driver SEED ROUNDS: the proved library beside the plain one. Both are given the same bytes, call by
 * call, and every answer, state, table, output, report and summary must be the same to the byte, also past
 * the end of what was lent. After each uplink the summary must also be what one made afresh is, and the check
 * from its cards what the table check is. The first disagreement is shown and ends the run with status 1. A round
 * is of tables of one kind or the other; a few of its calls are of the other kind, or of a number that is none.
 */
#include "keel.h"
#include "make.h"
#include "plain.h"

#include <stdio.h>
#include <stdlib.h>
#include <string.h>

enum { MARGIN = 64 }; /* bytes past each lent part, which no call may touch */

/* What one of the two libraries is lent. */
struct side {
    uint8_t state[PLAIN_STATE + MARGIN];
    uint8_t seqs[PLAIN_SEQUENCES + MARGIN];
    uint8_t lists[PLAIN_LINE_LISTS + MARGIN];
    uint8_t out[PLAIN_OUTPUT + MARGIN];
    uint8_t report[PLAIN_REPORT + MARGIN];
    uint8_t summary[PLAIN_CARDS + MARGIN];
};
static struct side keel, plain;

/* The kind that a round's tables, states and packets are made for. */
static uint32_t round_kind;

/* The call under way, for showing it. */
static struct {
    const char *call;
    unsigned long seed, round;
    uint32_t kind;
    size_t state_len, seqs_len, lists_len, out_len, report_len, summary_len, packet_len;
    uint32_t time, number, address, count;
    uint8_t before[PLAIN_STATE];
    uint8_t wanted[PLAIN_CARDS]; /* what the summary, or at its start the report, is held against */
    uint8_t packet[MAKE_LONGEST];
    uint64_t keel_answer, plain_answer;
} now;

/* What has been seen of checks from cards. */
struct card_checks {
    unsigned long all, ends[4], reasons[5], refused[18];
};

/* What has been seen: of calls with a kind, by their kind, and last those with none. */
enum { NO_KIND = PLAIN_OLD + 1, KINDS };
static struct {
    unsigned long packets, steps, far, checks;
    unsigned long codes[18], events[12], aborts[16], passes[3], faults[16], reasons[5], refused[17];
    unsigned long shifts[3], asrc_aborts[16], begun, asrc_passes, asrc_faults[16];
    unsigned longest_chain;
    unsigned long makes[18], updates[18], ranges[4], changed[3], spoilt_updates, spoilt_changed;
    struct card_checks kept, spoilt;
} seen[KINDS];
static struct {
    unsigned long power_on, runs, turns;
} seen_in_all;

/* ---- Showing a disagreement ---- */

static void show(const char *name, const uint8_t *bytes, size_t n)
{
    printf("%-14s", name);
    for (size_t i = 0; i < n; i++)
        printf("%02X", bytes[i]);
    printf("\n");
}

static void show_difference(const char *name, const uint8_t *k, const uint8_t *p, size_t n)
{
    for (size_t i = 0; i < n; i++) {
        if (k[i] != p[i]) {
            printf("%s: first at %zu: keel %02X, plain %02X\n", name, i, k[i], p[i]);
            return;
        }
    }
}

static void disagree(void)
{
    printf("DISAGREE at %s, kind %lu, seed %lu, round %lu of kind %lu\n", now.call, (unsigned long)now.kind,
           now.seed, now.round, (unsigned long)round_kind);
    printf("sizes         state %zu, sequences %zu, line lists %zu, output %zu, report %zu, summary %zu\n",
           now.state_len, now.seqs_len, now.lists_len, now.out_len, now.report_len, now.summary_len);
    show("state before", now.before, PLAIN_STATE);
    show("keel state", keel.state, PLAIN_STATE);
    show("plain state", plain.state, PLAIN_STATE);
    if (now.kind < NO_KIND && now.before[16] < make_count(now.kind)) {
        size_t entry = make_entry(now.kind);
        show("its sequence", plain.seqs + entry * now.before[16], entry);
    }
    printf("time %lu, number %lu, address %06lX, count %lu\n", (unsigned long)now.time, (unsigned long)now.number,
           (unsigned long)now.address, (unsigned long)now.count);
    show("packet", now.packet, now.packet_len);
    show("keel report", keel.report, PLAIN_REPORT);
    show("plain report", plain.report, PLAIN_REPORT);
    printf("keel answer   %016llX\nplain answer  %016llX\n", (unsigned long long)now.keel_answer,
           (unsigned long long)now.plain_answer);
    show_difference("state", keel.state, plain.state, sizeof keel.state);
    show_difference("sequence table", keel.seqs, plain.seqs, sizeof keel.seqs);
    show_difference("line lists", keel.lists, plain.lists, sizeof keel.lists);
    show_difference("output", keel.out, plain.out, sizeof keel.out);
    show_difference("report", keel.report, plain.report, sizeof keel.report);
    show_difference("summary", keel.summary, plain.summary, sizeof keel.summary);
    exit(1);
}

static void compare_answers(uint64_t k, uint64_t p)
{
    now.keel_answer = k;
    now.plain_answer = p;
    if (k != p || memcmp(keel.state, plain.state, sizeof keel.state) != 0)
        disagree();
}

static void compare_all(void)
{
    if (memcmp(&keel, &plain, sizeof keel) != 0)
        disagree();
}

/* ---- The four calls ---- */

static size_t summary_size(uint32_t kind)
{
    return kind == PLAIN_OLD ? PLAIN_OLD_CARDS : PLAIN_CARDS;
}

static void good_sizes(void)
{
    now.kind = round_kind;
    now.state_len = PLAIN_STATE;
    now.seqs_len = PLAIN_SEQUENCES;
    now.lists_len = PLAIN_LINE_LISTS;
    now.out_len = PLAIN_OUTPUT + (chance(10) ? any(MARGIN) : 0);
    now.report_len = PLAIN_REPORT;
    now.summary_len = summary_size(round_kind);
}

static size_t wrong_size(size_t good)
{
    switch (any(4)) {
    case 0: return good - 1;
    case 1: return good + 1;
    case 2: return any((uint32_t)good);
    default: return 0;
    }
}

/* The kind that the round is not of, or a number that is none. */
static uint32_t another_kind(void)
{
    static const uint32_t none[] = {2, 3, 127, 128, 255, 256, 257, 65536, 65537, 0x80000000, 0xFFFFFFFF};
    if (chance(50))
        return PLAIN_OLD - round_kind;
    return chance(80) ? none[any(sizeof none / sizeof *none)] : NO_KIND + any(0xFFFFFFFF - PLAIN_OLD);
}

/* Good sizes and the round's kind, but for a few. */
static void some_sizes(unsigned percent_wrong)
{
    good_sizes();
    if (chance(6))
        now.kind = another_kind();
    while (chance(percent_wrong)) {
        switch (any(5)) {
        case 0: now.state_len = wrong_size(PLAIN_STATE); break;
        case 1: now.seqs_len = wrong_size(PLAIN_SEQUENCES); break;
        case 2: now.lists_len = wrong_size(PLAIN_LINE_LISTS); break;
        case 3: now.out_len = any(PLAIN_OUTPUT); break;
        default: now.report_len = wrong_size(PLAIN_REPORT);
        }
    }
}

static void begin(const char *call)
{
    now.call = call;
    now.packet_len = 0;
    memcpy(now.before, plain.state, PLAIN_STATE);
}

/* Where the call under way is counted. */
static unsigned counted(void)
{
    return now.kind < NO_KIND ? now.kind : NO_KIND;
}

static void power_on(void)
{
    begin("power on");
    compare_answers(keel_power_on(keel.state, now.state_len), plain_power_on(plain.state, now.state_len));
    seen_in_all.power_on++;
}

static void packet(size_t length)
{
    uint32_t k, p;

    begin("packet");
    now.packet_len = length;
    now.time = chance(50) ? any(0xFFFFFFFF) : 0xFFFFFFFF;
    k = keel_packet(now.kind, keel.state, now.state_len, keel.seqs, now.seqs_len, keel.lists, now.lists_len,
                    keel.out, now.out_len, now.time, now.packet, length);
    p = plain_packet(now.kind, plain.state, now.state_len, plain.seqs, now.seqs_len, plain.lists, now.lists_len,
                     plain.out, now.out_len, now.time, now.packet, length);
    compare_answers(k, p);
    compare_all();
    seen[counted()].packets++;
    seen[counted()].codes[p & 0xFF]++;
}

/* The ASRC byte of the run raster that stands at this place; NULL if none does, or if it is off. */
static uint8_t *asrc_at(unsigned sequence, unsigned place)
{
    uint8_t *text = plain.seqs + make_entry(now.kind) * sequence;
    return place + 23 < text[0] && text[place] == 0x90 && text[place + 14] != 0 ? text + place + 14 : NULL;
}

/* What the plain step under way answers from another state. */
static uint64_t step_from(uint8_t *state)
{
    return plain_step(now.kind, state, PLAIN_STATE, plain.seqs, PLAIN_SEQUENCES, plain.lists, PLAIN_LINE_LISTS);
}

/* An abort is for ASRC if it is another step with that off; for the repeat begun, if so with repeat 0. */
static void count_abort(unsigned of, uint64_t answer)
{
    unsigned code = answer >> 16 & 0xFFFF;
    uint8_t state[PLAIN_STATE], *asrc = asrc_at(now.before[16], now.before[17]), kept;

    seen[of].aborts[code]++;
    if ((code != 3 && code != 14) || asrc == NULL)
        return;
    kept = *asrc;
    *asrc = 0;
    memcpy(state, now.before, PLAIN_STATE);
    seen[of].asrc_aborts[code] += step_from(state) != answer;
    *asrc = kept;
    memcpy(state, now.before, PLAIN_STATE);
    memset(state + 32, 0, 2);
    seen[of].begun += step_from(state) != answer;
}

/* A raster begun, by its shift: none, forward, backward. */
static void count_raster(unsigned of)
{
    const uint8_t *shift = plain.state + 34;
    seen[of].shifts[shift[0] > 127 ? 2 : shift[0] + shift[1] > 0]++;
}

/* Answers whether the unit goes on. */
static bool step(void)
{
    unsigned of = counted();
    uint64_t k, p;

    begin("step");
    k = keel_step(now.kind, keel.state, now.state_len, keel.seqs, now.seqs_len, keel.lists, now.lists_len);
    p = plain_step(now.kind, plain.state, now.state_len, plain.seqs, now.seqs_len, plain.lists, now.lists_len);
    compare_answers(k, p);
    seen[of].steps++;
    seen[of].events[p & 0xFF]++;
    if (p != PLAIN_IDLE && (p & 0xFF) < PLAIN_ABORT && now.before[17] > 127)
        seen[of].far++;
    if ((p & 0xFF) == PLAIN_ABORT)
        count_abort(of, p);
    if ((p & 0xFF) == PLAIN_RASTER)
        count_raster(of);
    return p != PLAIN_IDLE && (p & 0xFF) != PLAIN_REFUSED;
}

/* A fault is for ASRC if the check of its sequence, with that off and the XOR made good, has another or none. */
static void count_fault(unsigned of)
{
    uint8_t report[PLAIN_REPORT], kept, *asrc = asrc_at(plain.report[2], plain.report[3]), *last;
    unsigned code = plain.report[0];

    seen[of].faults[code]++;
    seen[of].reasons[plain.report[4]]++;
    if ((code != 3 && code != 14) || asrc == NULL)
        return;
    last = plain.seqs + make_entry(now.kind) * plain.report[2];
    last += *last - 1;
    kept = *asrc;
    *asrc = 0;
    *last ^= kept;
    plain_check(now.kind, plain.seqs, PLAIN_SEQUENCES, plain.lists, PLAIN_LINE_LISTS, plain.report[2], report,
                PLAIN_REPORT);
    seen[of].asrc_faults[code] += memcmp(report, plain.report, 4) != 0;
    *asrc = kept;
    *last ^= kept;
}

/* Whether a sequence that passes has a raster with ASRC on. */
static bool has_asrc(const uint8_t *text)
{
    static const uint8_t sizes[] = {23, 3, 2, 2, 1, 3};
    for (unsigned at = 4; at + 1u < text[0]; at += sizes[text[at] - 0x90])
        if (text[at] == 0x90 && text[at + 14] != 0)
            return true;
    return false;
}

static void count_pass(unsigned of)
{
    unsigned count = plain.report[6] * 256u + plain.report[7], i = 0;

    seen[of].passes[plain.report[1]]++;
    if (count > seen[of].longest_chain)
        seen[of].longest_chain = count;
    while (i < count && !has_asrc(plain.seqs + make_entry(now.kind) * plain.report[24 + i]))
        i++;
    seen[of].asrc_passes += i < count;
}

static void check(uint32_t number)
{
    unsigned of = counted();
    uint32_t k, p;

    begin("check");
    now.number = number;
    k = keel_check(now.kind, keel.seqs, now.seqs_len, keel.lists, now.lists_len, number, keel.report,
                   now.report_len);
    p = plain_check(now.kind, plain.seqs, now.seqs_len, plain.lists, now.lists_len, number, plain.report,
                    now.report_len);
    compare_answers(k, p);
    compare_all();
    seen[of].checks++;
    if (now.report_len != PLAIN_REPORT || plain.report[1] == PLAIN_NOTHING) {
        seen[of].refused[p]++;
        return;
    }
    if (plain.report[1] == PLAIN_FAULT)
        count_fault(of);
    else
        count_pass(of);
}

/* ---- The calls of the cards ---- */

/* Some sizes, and a summary of the kind's size, of the round's kind's, or seldom of another. */
static void some_card_sizes(unsigned percent_wrong)
{
    some_sizes(percent_wrong);
    now.summary_len = summary_size(chance(50) ? now.kind : round_kind);
    if (chance(percent_wrong))
        now.summary_len = wrong_size(now.summary_len);
}

/* What a call left must be what was wanted of it. */
static void hold_against(const char *what, const uint8_t *left, size_t n)
{
    if (memcmp(left, now.wanted, n) == 0)
        return;
    now.call = what;
    disagree();
}

static void make_cards(void)
{
    uint32_t k, p;

    begin("cards");
    k = keel_cards(now.kind, keel.seqs, now.seqs_len, keel.lists, now.lists_len, keel.summary, now.summary_len);
    p = plain_cards(now.kind, plain.seqs, now.seqs_len, plain.lists, now.lists_len, plain.summary, now.summary_len);
    compare_answers(k, p);
    compare_all();
    seen[counted()].makes[p]++;
}

static uint32_t update_cards(uint32_t address, uint32_t count)
{
    uint32_t k, p;

    begin("update of cards");
    now.address = address;
    now.count = count;
    memcpy(now.wanted, plain.summary, sizeof now.wanted);
    k = keel_cards_update(now.kind, keel.seqs, now.seqs_len, keel.lists, now.lists_len, keel.summary,
                          now.summary_len, address, count);
    p = plain_cards_update(now.kind, plain.seqs, now.seqs_len, plain.lists, now.lists_len, plain.summary,
                           now.summary_len, address, count);
    compare_answers(k, p);
    compare_all();
    seen[counted()].updates[p]++;
    if (p != 0)
        hold_against("update of cards, refused", plain.summary, sizeof now.wanted);
    return p;
}

static void count_card_check(struct card_checks *counts, uint32_t code)
{
    counts->all++;
    if (now.report_len != PLAIN_REPORT || plain.report[1] == PLAIN_NOTHING) {
        counts->refused[code]++;
        return;
    }
    counts->ends[plain.report[1]]++;
    if (plain.report[1] == PLAIN_FAULT)
        counts->reasons[plain.report[4]]++;
}

static void check_cards(uint32_t number, bool spoilt)
{
    uint32_t k, p;

    begin("check from cards");
    now.number = number;
    k = keel_cards_check(now.kind, keel.summary, now.summary_len, number, keel.report, now.report_len);
    p = plain_cards_check(now.kind, plain.summary, now.summary_len, number, plain.report, now.report_len);
    compare_answers(k, p);
    compare_all();
    count_card_check(spoilt ? &seen[counted()].spoilt : &seen[counted()].kept, p);
}

/* Cards that the update under way has changed: of touched sequences, of users of touched line lists, of line lists. */
static void count_changed(unsigned of)
{
    unsigned entry = now.address < 0x074000 ? make_entry(now.kind) : 164, sequences = make_count(now.kind);
    uint32_t at = (now.address - 0x070000) % 0x4000;
    bool lists = now.address >= 0x074000;

    seen[of].ranges[2 * lists + ((at + now.count - 1) / entry > at / entry)]++;
    for (unsigned i = 0; i < sequences; i++)
        seen[of].changed[lists] += memcmp(now.wanted + 32 * i, plain.summary + 32 * i, 32) != 0;
    for (unsigned i = 32 * sequences; i < now.summary_len; i += 4)
        seen[of].changed[2] += memcmp(now.wanted + i, plain.summary + i, 4) != 0;
}

/* An uplink as a packet, and the update for it: afterwards the summary is one made afresh. */
static void uplink_and_update(void)
{
    size_t length = make_uplink(now.packet, plain.seqs, plain.lists);
    uint32_t address = (uint32_t)now.packet[1] << 16 | (uint32_t)now.packet[2] << 8 | now.packet[3];
    uint32_t count = now.packet[4], code;

    good_sizes();
    packet(length);
    code = update_cards(address, count);
    if (code != plain.state[8]) {
        now.call = "update of cards, beside its uplink";
        disagree();
    }
    plain.state[8] = keel.state[8] = 0;
    if (code == 0)
        count_changed(round_kind);
    plain_cards(round_kind, plain.seqs, PLAIN_SEQUENCES, plain.lists, PLAIN_LINE_LISTS, now.wanted,
                now.summary_len);
    hold_against("update of cards, beside cards made afresh", plain.summary, now.summary_len);
}

/* The check from cards is the check of the tables. */
static void check_both(uint32_t number)
{
    good_sizes();
    check(number);
    memcpy(now.wanted, plain.report, PLAIN_REPORT);
    check_cards(number, false);
    hold_against("check from cards, beside the table check", plain.report, PLAIN_REPORT);
}

/* ---- Rounds ---- */

static void both_get(uint8_t *keel_part, const uint8_t *plain_part, size_t n)
{
    memcpy(keel_part, plain_part, n);
}

/* Tables full of sequences, or empty ones with a few in use. */
static void new_tables(bool full)
{
    memset(plain.seqs, 0, PLAIN_SEQUENCES);
    memset(plain.lists, 0, PLAIN_LINE_LISTS);
    if (full)
        make_tables(round_kind, plain.seqs, plain.lists);
    else
        make_taste(round_kind, 8, 3);
    both_get(keel.seqs, plain.seqs, PLAIN_SEQUENCES);
    both_get(keel.lists, plain.lists, PLAIN_LINE_LISTS);
}

static void new_state(void)
{
    make_state(plain.state, plain.seqs);
    both_get(keel.state, plain.state, PLAIN_STATE);
}

static void power_ons(void)
{
    for (size_t size = 0; size < PLAIN_STATE + MARGIN; size += 1 + any(8)) {
        new_state();
        good_sizes();
        now.state_len = chance(30) ? PLAIN_STATE : size;
        power_on();
    }
}

static void lone_packets(void)
{
    for (int i = 0; i < 200; i++) {
        new_state();
        some_sizes(5);
        packet(make_packet(now.packet));
    }
}

static void lone_steps(void)
{
    for (int i = 0; i < 600; i++) {
        new_state();
        some_sizes(2);
        for (unsigned n = 1 + any(8); n > 0 && step(); n--)
            ;
    }
    compare_all();
}

static uint32_t some_number(void)
{
    uint32_t count = make_count(round_kind);
    return chance(95) ? any(count) : chance(50) ? count + any(2) : any(0xFFFFFFFF);
}

static void checks(void)
{
    for (int i = 0; i < 50; i++) {
        some_sizes(3);
        check(some_number());
    }
}

/* An address and a count that belong to no uplink, or only just to one. */
static void odd_update(void)
{
    static const uint32_t ends[] = {0x070000, 0x074000, 0x075EC0, 0xFFFFFFFF, 0x01070000, 0x80074000, 0};
    static const uint32_t counts[] = {0, 1, 2, 127, 128, 129, 164, 256, 257, 65536, 0x80000000, 0xFFFFFFFF};
    uint32_t count = chance(50) ? counts[any(sizeof counts / sizeof *counts)] : any(130);
    uint32_t address = ends[any(sizeof ends / sizeof *ends)] + any(4) - 2;

    if (chance(40))
        address = (chance(50) ? 0x074000 : 0x075EC0) - count + any(3) - 1;
    else if (chance(30))
        address = 0x070000 + any(0x5EC0);
    update_cards(address, count);
}

/* The summary kept up to date through uplinks, and refused calls between them, which leave it as it is. */
static void kept_cards(void)
{
    good_sizes();
    power_on();
    make_cards();
    for (int i = 0; i < 6; i++)
        check_both(some_number());
    for (int i = 0; i < 24; i++) {
        uplink_and_update();
        check_both(some_number());
        good_sizes();
        odd_update();
        if (chance(20)) {
            some_card_sizes(10);
            check_cards(some_number(), false);
        }
    }
}

/* A summary spoilt more and more. The uplinks' bytes are not written: an update works from the tables as they are. */
static void spoilt_cards(void)
{
    for (int i = 0; i < 24; i++) {
        unsigned number;
        if (i % 8 == 0) {
            some_card_sizes(4);
            make_cards();
        }
        number = make_spoil(plain.summary);
        both_get(keel.summary, plain.summary, PLAIN_CARDS);
        some_card_sizes(2);
        check_cards(chance(70) ? number : some_number(), true);
        some_card_sizes(2);
        make_uplink(now.packet, plain.seqs, plain.lists);
        update_cards((uint32_t)now.packet[1] << 16 | (uint32_t)now.packet[2] << 8 | now.packet[3], now.packet[4]);
        seen[counted()].spoilt_updates++;
        seen[counted()].spoilt_changed += memcmp(now.wanted, plain.summary, sizeof now.wanted) != 0;
    }
}

/* A unit from power-on in an operator's hands, on these tables or on empty ones that he fills. */
static void long_run(void)
{
    good_sizes();
    if (chance(40))
        new_tables(false);
    power_on();
    for (int turn = 0; turn < 400; turn++) {
        unsigned steps;
        size_t length = make_turn(plain.state, now.packet, &steps);
        now.kind = chance(1) ? another_kind() : round_kind;
        if (steps == 0)
            packet(length);
        while (steps-- > 0)
            step();
        seen_in_all.turns++;
    }
    compare_all();
    seen_in_all.runs++;
}

/* ---- What was seen ---- */

/* The counts that are not 0, by name or else by number. */
static void row(const char *name, const char *const *names, const unsigned long *counts, size_t n)
{
    printf("  %s", name);
    for (size_t i = 0; i < n; i++) {
        if (counts[i] > 0 && names != NULL)
            printf("  %s: %lu", names[i], counts[i]);
        else if (counts[i] > 0)
            printf("  %zu: %lu", i, counts[i]);
    }
    printf("\n");
}

static void show_card_checks(const char *name, const struct card_checks *counts)
{
    static const char *const ends[] = {"nothing", "ends", "returns", "fault"};

    printf("  checks from %s  %lu\n", name, counts->all);
    row("  by end", ends, counts->ends, 4);
    row("  faults by reason", NULL, counts->reasons, 5);
    row("  refused by code", NULL, counts->refused, 18);
}

/* Calls of the cards. */
static void show_cards(unsigned of)
{
    static const char *const ranges[] = {"a sequence", "two sequences", "a line list", "two line lists"};
    static const char *const changed[] = {"of touched sequences", "of users of touched line lists", "of line lists"};
    unsigned long updates = 0;

    for (unsigned code = 0; code < 18; code++)
        updates += seen[of].updates[code];
    printf("updates    %10lu of summaries, %lu of them spoilt, with cards changed in %lu of these\n", updates,
           seen[of].spoilt_updates, seen[of].spoilt_changed);
    row("by code", NULL, seen[of].updates, 18);
    row("after uplinks into", ranges, seen[of].ranges, 4);
    row("cards changed then", changed, seen[of].changed, 3);
    row("summaries made, by code", NULL, seen[of].makes, 18);
    show_card_checks("cards, most beside the table check", &seen[of].kept);
    show_card_checks("spoilt cards", &seen[of].spoilt);
}

/* Calls of one kind. */
static void show_kind(unsigned of)
{
    static const char *const events[] = {"IDLE", "ENTER", "RASTER", "EXP", "LOOP",  "NEXT",
                                         "DONE", "WAIT",  "CALL",   "END", "ABORT", "refused"};
    static const char *const ends[] = {"nothing", "ends", "returns"};
    static const char *const shifts[] = {"none", "forward", "backward"};

    printf("kind %u\n", of);
    printf("packets    %10lu\n", seen[of].packets);
    row("by code", NULL, seen[of].codes, 18);
    printf("steps      %10lu, %lu of them obeyed at a place above 127\n", seen[of].steps, seen[of].far);
    row("by event", events, seen[of].events, 12);
    row("rasters by shift", shifts, seen[of].shifts, 3);
    row("aborts by code", NULL, seen[of].aborts, 16);
    row("aborts for ASRC", NULL, seen[of].asrc_aborts, 16);
    printf("  aborts for the repeat begun alone  %lu\n", seen[of].begun);
    printf("checks     %10lu, the longest chain that passes has %u\n", seen[of].checks, seen[of].longest_chain);
    row("passes", ends, seen[of].passes, 3);
    printf("  passes with ASRC in the chain  %lu\n", seen[of].asrc_passes);
    row("faults by code", NULL, seen[of].faults, 16);
    row("faults for ASRC", NULL, seen[of].asrc_faults, 16);
    row("faults by reason", NULL, seen[of].reasons, 5);
    row("refused by code", NULL, seen[of].refused, 17);
    show_cards(of);
}

static void show_counts(void)
{
    show_kind(PLAIN_NEW);
    show_kind(PLAIN_OLD);
    printf("no kind\n");
    printf("packets    %10lu, %lu of them with code 16\n", seen[NO_KIND].packets, seen[NO_KIND].codes[16]);
    printf("steps      %10lu, %lu of them refused\n", seen[NO_KIND].steps, seen[NO_KIND].events[PLAIN_REFUSED]);
    printf("checks     %10lu, %lu of them with code 16\n", seen[NO_KIND].checks, seen[NO_KIND].refused[16]);
    row("summaries made, by code", NULL, seen[NO_KIND].makes, 18);
    row("updates by code", NULL, seen[NO_KIND].updates, 18);
    row("checks from cards by code", NULL, seen[NO_KIND].spoilt.refused, 18);
    printf("power on   %10lu\n", seen_in_all.power_on);
    printf("long runs  %10lu, of %lu turns in all\n", seen_in_all.runs, seen_in_all.turns);
}

int main(int argc, char **argv)
{
    unsigned long rounds;

    if (argc != 3) {
        fputs("usage: driver SEED ROUNDS\n", stderr);
        return 2;
    }
    now.seed = strtoul(argv[1], NULL, 10);
    rounds = strtoul(argv[2], NULL, 10);
    make_seed(now.seed);
    for (now.round = 1; now.round <= rounds; now.round++) {
        round_kind = any(2);
        new_tables(chance(95));
        power_ons();
        checks();
        lone_steps();
        lone_packets();
        long_run();
        new_tables(chance(90));
        kept_cards();
        spoilt_cards();
    }
    show_counts();
    printf("seed %lu, %lu rounds: all agree\n", now.seed, rounds);
    return 0;
}
