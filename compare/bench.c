/*
 * The time of each call in both libraries, side by side. For each row the two take turns in batches of
 * part of a millisecond, and the least of all batches is shown: the machine's other work can only add.
 * A row's time has in it the copy of 36 bytes that puts the state back before each call. Each row is
 * printed as its name, proved and plain nanoseconds, with tabs between.
 *
 * bench ROW SIDE TIMES makes the calls of one row, from 0, that often in one library (SIDE k or p), and prints
 * its name and how many things a call does: for a count of the instructions.
 */
#include "keel.h"
#include "make.h"
#include "plain.h"

#include <stdbool.h>
#include <stdio.h>
#include <stdlib.h>
#include <string.h>
#include <time.h>

enum { BATCHES = 101, BATCH_NS = 400000, RUN = 1000, UPLINK = 128, USED_LIST = 7 };

static uint8_t state[PLAIN_STATE];
static uint8_t seqs[PLAIN_SEQUENCES];
static uint8_t lists[PLAIN_LINE_LISTS];
static uint8_t out[PLAIN_OUTPUT];
static uint8_t report[PLAIN_REPORT];
static uint8_t summary[PLAIN_CARDS];

/* The call to measure, the kind of its tables, the state that it starts from, and an uplink's address. */
static struct {
    uint32_t kind;
    uint32_t address;
    uint8_t start[PLAIN_STATE];
    uint8_t packet[133];
    size_t packet_len;
} now;

/* ---- The calls, in both libraries ---- */

static void keel_one_packet(void)
{
    memcpy(state, now.start, sizeof state);
    keel_packet(now.kind, state, sizeof state, seqs, sizeof seqs, lists, sizeof lists, out, sizeof out, 0,
                now.packet, now.packet_len);
}

static void plain_one_packet(void)
{
    memcpy(state, now.start, sizeof state);
    plain_packet(now.kind, state, sizeof state, seqs, sizeof seqs, lists, sizeof lists, out, sizeof out, 0,
                 now.packet, now.packet_len);
}

static void keel_one_step(void)
{
    memcpy(state, now.start, sizeof state);
    keel_step(now.kind, state, sizeof state, seqs, sizeof seqs, lists, sizeof lists);
}

static void plain_one_step(void)
{
    memcpy(state, now.start, sizeof state);
    plain_step(now.kind, state, sizeof state, seqs, sizeof seqs, lists, sizeof lists);
}

static void keel_one_check(void)
{
    keel_check(now.kind, seqs, sizeof seqs, lists, sizeof lists, 0, report, sizeof report);
}

static void plain_one_check(void)
{
    plain_check(now.kind, seqs, sizeof seqs, lists, sizeof lists, 0, report, sizeof report);
}

static void keel_one_cards(void)
{
    keel_cards(now.kind, seqs, sizeof seqs, lists, sizeof lists, summary, sizeof summary);
}

static void plain_one_cards(void)
{
    plain_cards(now.kind, seqs, sizeof seqs, lists, sizeof lists, summary, sizeof summary);
}

static void keel_one_update(void)
{
    keel_cards_update(now.kind, seqs, sizeof seqs, lists, sizeof lists, summary, sizeof summary, now.address, UPLINK);
}

static void plain_one_update(void)
{
    plain_cards_update(now.kind, seqs, sizeof seqs, lists, sizeof lists, summary, sizeof summary, now.address, UPLINK);
}

static void keel_one_card_check(void)
{
    keel_cards_check(now.kind, summary, sizeof summary, 0, report, sizeof report);
}

static void plain_one_card_check(void)
{
    plain_cards_check(now.kind, summary, sizeof summary, 0, report, sizeof report);
}

static void keel_run(void)
{
    memcpy(state, now.start, sizeof state);
    for (int i = 0; i < RUN; i++)
        keel_step(now.kind, state, sizeof state, seqs, sizeof seqs, lists, sizeof lists);
}

static void plain_run(void)
{
    memcpy(state, now.start, sizeof state);
    for (int i = 0; i < RUN; i++)
        plain_step(now.kind, state, sizeof state, seqs, sizeof seqs, lists, sizeof lists);
}

/* ---- Measuring ---- */

typedef void (*call)(void);

static double nanoseconds(void)
{
    struct timespec t;
    clock_gettime(CLOCK_MONOTONIC, &t);
    return 1e9 * (double)t.tv_sec + (double)t.tv_nsec;
}

static double batch(call f, unsigned long n)
{
    double start = nanoseconds();
    for (unsigned long i = 0; i < n; i++)
        f();
    return (nanoseconds() - start) / (double)n;
}

/* The one row to count, if any. */
static struct {
    bool wanted;
    unsigned long row;
    bool keel;
    unsigned long times;
} count;

static void counted_row(const char *name, call f, unsigned things)
{
    if (count.row-- != 0)
        return;
    printf("%s\t%u\n", name, things);
    for (unsigned long i = 0; i < count.times; i++)
        f();
    exit(0);
}

/* A row of calls that do so many things each; its times are those of one. */
static void row_of_many(const char *name, call keel, call plain, unsigned things)
{
    double k = 1e18, p = 1e18;
    unsigned long n = 1;

    if (count.wanted) {
        counted_row(name, count.keel ? keel : plain, things);
        return;
    }
    while (batch(plain, n) * (double)n < BATCH_NS)
        n *= 2;
    for (int i = 0; i < BATCHES; i++) {
        double keel_time = batch(keel, n), plain_time = batch(plain, n);
        if (keel_time < k)
            k = keel_time;
        if (plain_time < p)
            p = plain_time;
    }
    printf("%s\t%.2f\t%.2f\n", name, k / things, p / things);
    fflush(stdout);
}

static void row(const char *name, call keel, call plain)
{
    row_of_many(name, keel, plain, 1);
}

static void packet_row(const char *name, const uint8_t *packet, size_t length)
{
    memcpy(now.packet, packet, length);
    now.packet_len = length;
    row(name, keel_one_packet, plain_one_packet);
}

/* ---- States ---- */

static void obey(const uint8_t *packet, size_t length)
{
    plain_packet(now.kind, state, sizeof state, seqs, sizeof seqs, lists, sizeof lists, out, sizeof out, 0, packet,
                 length);
}

/* Puts the unit in MANUAL, or with sequence 0 just started. */
static void start(bool running)
{
    plain_power_on(state, sizeof state);
    obey((const uint8_t[]){0x20}, 1);
    obey((const uint8_t[]){0x21, 2}, 2);
    obey((const uint8_t[]){0x83, 0}, 2);
    if (running)
        obey((const uint8_t[]){0x21, 3}, 2);
    memcpy(now.start, state, sizeof state);
}

/* The check of a chain of n sequences: the time of one of them. */
static void chain_row(unsigned n)
{
    char name[40];
    make_ring(PLAIN_NEW, seqs, lists, n, 0, 0);
    snprintf(name, sizeof name, "check, a sequence of a chain of %u", n);
    row_of_many(name, keel_one_check, plain_one_check, n);
}

/* A step with this event: the nth one after the start. */
static void step_row(const char *name, unsigned event, unsigned nth)
{
    start(true);
    while (nth > 0) {
        memcpy(now.start, state, sizeof state);
        nth -= (plain_step(now.kind, state, sizeof state, seqs, sizeof seqs, lists, sizeof lists) & 0xFF) == event;
    }
    row(name, keel_one_step, plain_one_step);
}

/* The summary of the ring: made, brought up to date after an uplink, and checked. */
static void card_rows(void)
{
    make_ring(PLAIN_NEW, seqs, lists, 128, 0, 0);
    row("cards: make, 128 full sequences", keel_one_cards, plain_one_cards);
    plain_one_cards();
    now.address = 0x070000 + 128 * 64;
    row("cards: update, one sequence", keel_one_update, plain_one_update);
    make_users(seqs, lists, USED_LIST, 100);
    plain_one_cards();
    now.address = 0x074000 + 164 * USED_LIST;
    row("cards: update, a line list that 100 sequences use", keel_one_update, plain_one_update);
    make_ring(PLAIN_NEW, seqs, lists, 128, 0, 0);
    plain_one_cards();
    row("cards: check of a chain of 128", keel_one_card_check, plain_one_card_check);
}

int main(int argc, char **argv)
{
    static const uint8_t status[] = {0x01};
    static const uint8_t dump[] = {0x07, 0x07, 0x00, 0x00, 0x00, 0x40, 0x00};
    static const uint8_t refused[] = {0xE5, 0x06, 0x00, 0x00, 0x01, 0x00};
    uint8_t uplink[133] = {0xE7, 0x07, 0x00, 0x00, 0x80};

    if (argc == 4) {
        count.wanted = true;
        count.row = strtoul(argv[1], NULL, 10);
        count.keel = argv[2][0] == 'k';
        count.times = strtoul(argv[3], NULL, 10);
    }
    make_ring(PLAIN_NEW, seqs, lists, 128, 0, 0);
    memcpy(uplink + 5, seqs, 128);
    start(false);
    packet_row("status", status, sizeof status);
    packet_row("dump of 16,384", dump, sizeof dump);
    packet_row("uplink of 128", uplink, sizeof uplink);
    packet_row("refusal", refused, sizeof refused);
    row("step: idle", keel_one_step, plain_one_step);
    /* A round of a sequence has 8 run rasters and loops, 16 exposes; the last are those of the last raster. */
    step_row("step: enter 128 bytes", PLAIN_ENTER, 1);
    step_row("step: run raster, 25 windows", PLAIN_RASTER, 8);
    step_row("step: expose", PLAIN_EXP, 16);
    step_row("step: delay", PLAIN_WAIT, 1);
    step_row("step: loop back at the text's end", PLAIN_LOOP, 8);
    step_row("step: call", PLAIN_CALL, 1);
    start(true);
    row("1,000 steps of a run", keel_run, plain_run);
    row("check of 128 full sequences", keel_one_check, plain_one_check);
    chain_row(1);
    chain_row(16);
    chain_row(64);
    chain_row(128);
    make_ring(PLAIN_NEW, seqs, lists, 128, PLAIN_AEC, 0);
    step_row("step: run raster with a flag", PLAIN_RASTER, 8);
    row("check of 128, a flag in each raster", keel_one_check, plain_one_check);
    now.kind = PLAIN_OLD;
    make_ring(PLAIN_OLD, seqs, lists, 64, 0, 0);
    start(true);
    row("1,000 steps of a run, old kind", keel_run, plain_run);
    row("check of 64 full sequences, old kind", keel_one_check, plain_one_check);
    now.kind = PLAIN_NEW;
    make_ring(PLAIN_NEW, seqs, lists, 128, 0, 0x05);
    /* Here a round has 24 run rasters: the last repeat of the last raster begins with a shift. */
    step_row("step: run raster with ASRC", PLAIN_RASTER, 24);
    row("check of 128, ASRC in each raster", keel_one_check, plain_one_check);
    card_rows();
    return 0;
}
