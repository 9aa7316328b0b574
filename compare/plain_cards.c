/*
 * The summary at the desk, over plain.h: a line for each card. Standard input is the two dumps put together: the
 * sequence table, then the line lists. With `old` as the first argument the tables are of the old kind; no other
 * word means anything.
 *
 * CARD, a sequence's number, PASS, END and a dash or CALL and the target, or FAULT, place, code, NONE and a dash;
 * then steps, exposures, and the line lists used, or a dash. LIST, a line list's number, GOOD and its marks or a
 * dash, or BAD and the reason.
 */
#include "plain.h"

#include <stdbool.h>
#include <stdio.h>
#include <string.h>

enum {
    TABLES = PLAIN_SEQUENCES + PLAIN_LINE_LISTS,
    SEQUENCES = 128,
    OLD_SEQUENCES = 64,
    LISTS = 48,
    CARD = 32,
    LIST_CARD = 4
};

static unsigned long long total(const uint8_t *at)
{
    unsigned long long value = 0;
    for (int i = 0; i < 8; i++)
        value = value << 8 | at[i];
    return value;
}

/* Those numbers, from first on, whose bits are set, the most significant bit first, with commas between; or a dash. */
static void print_bits(const uint8_t *bits, int count, int first)
{
    const char *before = " ";
    for (int i = 0; i < count; i++) {
        if (bits[i / 8] & 0x80 >> i % 8) {
            printf("%s%d", before, first + i);
            before = ",";
        }
    }
    puts(before[0] == ' ' ? " -" : "");
}

static void print_card(int number, const uint8_t *card)
{
    printf("CARD %d ", number);
    if (card[0] != 0)
        printf("FAULT %d %d NONE -", card[1], card[2]);
    else if (card[3] == 1)
        printf("PASS END -");
    else
        printf("PASS CALL %d", card[4]);
    printf(" %llu %llu", total(card + 8), total(card + 16));
    print_bits(card + 24, LISTS, 0);
}

/* The marks are a window header's bits 11, 12 and 13. */
static void print_list_card(int number, const uint8_t *card)
{
    static const char *const reasons[] = {"", "count", "length", "checksum"};
    uint8_t marks = (uint8_t)(card[2] << 3);

    printf("LIST %d ", number);
    if (card[0] == PLAIN_GOOD) {
        printf("GOOD");
        print_bits(&marks, 3, 11);
    } else {
        printf("BAD %s", reasons[card[0]]);
        if (card[0] == PLAIN_CHECKSUM)
            printf(" %02X", card[1]);
        putchar('\n');
    }
}

int main(int argc, char **argv)
{
    static uint8_t tables[TABLES + 1]; /* one more, to see an input that is too long */
    static uint8_t summary[PLAIN_CARDS];
    bool old = argc > 1 && strcmp(argv[1], "old") == 0;
    int sequences = old ? OLD_SEQUENCES : SEQUENCES;

    if (fread(tables, 1, sizeof tables, stdin) != TABLES) {
        puts("REFUSED TABLES 16");
        return 0;
    }
    plain_cards(old ? PLAIN_OLD : PLAIN_NEW, tables, PLAIN_SEQUENCES, tables + PLAIN_SEQUENCES, PLAIN_LINE_LISTS,
                summary, old ? PLAIN_OLD_CARDS : PLAIN_CARDS);
    for (int i = 0; i < sequences; i++)
        print_card(i, summary + CARD * i);
    for (int i = 0; i < LISTS; i++)
        print_list_card(i, summary + CARD * sequences + LIST_CARD * i);
    return 0;
}
