/*
 * The table check at the desk, over plain.h. Standard input is the two dumps put together: the
 * sequence table, then the line lists. With `old` as the first argument the tables are of the old kind.
 * The other arguments are sequence numbers; none means all of them. The argument `lists` stands for the
 * test of all line lists.
 *
 * With `same` as the first argument, or right after that `old`, standard input is both dumps of noon and then
 * both of now, and every sequence that noon's check passes is said to be the same, or to be changed and where.
 * All arguments after it are sequence numbers.
 */
#include "plain.h"

#include <stdbool.h>
#include <stdio.h>
#include <stdlib.h>
#include <string.h>

enum {
    TABLES = PLAIN_SEQUENCES + PLAIN_LINE_LISTS,
    SEQUENCES = 128,
    OLD_SEQUENCES = 64,
    LISTS = 48,
    LIST_ENTRY = 164,
    NO_NUMBER = 65535
};

/* A number in decimal with no sign and no leading zero, at most 65535; NO_NUMBER, which the check
 * refuses like any number above the last sequence's, for other words. */
static uint32_t number_of(const char *word)
{
    size_t n = strlen(word);
    if (n < 1 || n > 5 || strspn(word, "0123456789") != n || (word[0] == '0' && n > 1))
        return NO_NUMBER;
    return (uint32_t)strtoul(word, NULL, 10);
}

static unsigned long long total(const uint8_t *at)
{
    unsigned long long value = 0;
    for (int i = 0; i < 8; i++)
        value = value << 8 | at[i];
    return value;
}

/* The end of a line about a bad line list, or a raster that misses a mark; nothing, if it is good. */
static void print_reason(unsigned number, unsigned expected)
{
    static const char *const names[] = {"", " REASON count", " REASON length", " REASON checksum", " REASON mark"};
    printf("%s", names[number]);
    if (number == PLAIN_CHECKSUM)
        printf(" %02X", expected);
    putchar('\n');
}

/* The header bits that are marked, or a dash. */
static void print_marks(unsigned marks)
{
    static const uint8_t bits[] = {PLAIN_AEC, PLAIN_EVENT, PLAIN_FLARE};
    const char *before = " ";
    if (marks == 0)
        printf(" -");
    for (int i = 0; i < 3; i++) {
        if (marks & bits[i]) {
            printf("%s%d", before, 11 + i);
            before = ",";
        }
    }
}

static void survey_lists(const uint8_t *lists)
{
    for (int i = 0; i < LISTS; i++) {
        const uint8_t *list = lists + LIST_ENTRY * i;
        struct plain_reason reason = plain_line_list(list);
        printf("LIST %d %s", i, reason.number == PLAIN_GOOD ? "GOOD" : "BAD");
        if (reason.number == PLAIN_GOOD)
            print_marks(plain_marks(list));
        print_reason(reason.number, reason.expected);
    }
}

static void print_report(const uint8_t *report, const char *word)
{
    unsigned count;

    switch (report[1]) {
    case PLAIN_ENDS:
        printf("PASS %s ENDS %llu %llu", word, total(report + 8), total(report + 16));
        break;
    case PLAIN_RETURNS:
        printf("PASS %s RETURNS %llu %llu", word, total(report + 8), total(report + 16));
        break;
    case PLAIN_FAULT:
        printf("FAULT %s %d %d %d", word, report[0], report[2], report[3]);
        break;
    default:
        printf("REFUSED %s %d", word, report[0]);
    }
    count = (unsigned)report[6] << 8 | report[7];
    for (unsigned i = 0; i < count; i++)
        printf(" %d", report[24 + i]);
    print_reason(report[4], report[5]);
}

static void survey(uint32_t kind, const uint8_t *tables, const char *word)
{
    uint8_t report[PLAIN_REPORT];

    plain_check(kind, tables, PLAIN_SEQUENCES, tables + PLAIN_SEQUENCES, PLAIN_LINE_LISTS, number_of(word),
                report, sizeof report);
    print_report(report, word);
}

/* The tables are noon's, and now's stand right behind them. */
static void survey_same(uint32_t kind, const uint8_t *tables, const char *word)
{
    const uint8_t *now = tables + TABLES;
    uint8_t report[PLAIN_REPORT];
    uint32_t answer = plain_still(kind, tables, PLAIN_SEQUENCES, tables + PLAIN_SEQUENCES, PLAIN_LINE_LISTS, now,
                                  PLAIN_SEQUENCES, now + PLAIN_SEQUENCES, PLAIN_LINE_LISTS, number_of(word),
                                  report, sizeof report);

    if ((answer & 0xFF) != 0)
        print_report(report, word);
    else if (answer != 0)
        printf("CHANGED %s %06X\n", word, answer >> 8);
    else
        printf("SAME %s\n", word);
}

int main(int argc, char **argv)
{
    static uint8_t tables[2 * TABLES + 1]; /* one more, to see an input that is too long */
    bool old = argc > 1 && strcmp(argv[1], "old") == 0;
    bool same = argc > 1 + old && strcmp(argv[1 + old], "same") == 0;
    void (*ask)(uint32_t, const uint8_t *, const char *) = same ? survey_same : survey;
    uint32_t kind = old ? PLAIN_OLD : PLAIN_NEW;
    int first = 1 + old + same;

    if (fread(tables, 1, sizeof tables, stdin) != (same ? 2 * TABLES : TABLES)) {
        puts("REFUSED TABLES 16");
    } else if (argc > first) {
        for (int i = first; i < argc; i++) {
            if (!same && strcmp(argv[i], "lists") == 0)
                survey_lists(tables + PLAIN_SEQUENCES);
            else
                ask(kind, tables, argv[i]);
        }
    } else {
        for (int i = 0; i < (old ? OLD_SEQUENCES : SEQUENCES); i++) {
            char word[12];
            snprintf(word, sizeof word, "%d", i);
            ask(kind, tables, word);
        }
    }
    return 0;
}
