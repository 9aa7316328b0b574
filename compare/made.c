/*
 * made script SEED LINES [old]: a script for the desk program, as an operator in a hurry types it.
 * made tables SEED [old]: both tables, 24,256 raw bytes, for the table check at the desk.
 * made twice SEED [old]: the same tables, and then these again with changes, in one of eight ways that the seed
 * takes in turn: 48,512 raw bytes, for that check's `same`.
 * With `old` they are of the old kind, and for the programs' argument of that name.
 */
#include "make.h"
#include "plain.h"

#include <stdio.h>
#include <stdlib.h>
#include <string.h>

static uint8_t state[PLAIN_STATE];
static uint8_t seqs[PLAIN_SEQUENCES];
static uint8_t lists[PLAIN_LINE_LISTS];
static uint8_t out[PLAIN_OUTPUT];

static void print_packet(const uint8_t *packet, size_t length)
{
    const char *byte = chance(80) ? "%02X" : "%02x";
    for (size_t i = 0; i < length; i++)
        printf(byte, packet[i]);
    printf("\n");
}

static void print_bad(void)
{
    static const char *const lines[] = {"STEP", "STEP 0", "STEP 01", "STEP 65536", "STEP +1", "step 1", "STEP 1 ",
                                        " 01", "01 ", "0", "0x01", "2 1", "G0", "01\t", "01\r", "STEP  1"};
    puts(lines[any(sizeof lines / sizeof *lines)]);
}

/* The unit itself is run along, so that what comes next suits it. */
static void print_script(uint32_t kind, unsigned long lines)
{
    uint8_t packet[MAKE_LONGEST];

    make_taste(kind, 8, 3);
    plain_power_on(state, sizeof state);
    while (lines-- > 0) {
        unsigned steps;
        size_t length = make_turn(state, packet, &steps);
        if (chance(1)) {
            print_bad();
        } else if (steps > 0) {
            printf("STEP %u\n", steps);
            while (steps-- > 0)
                plain_step(kind, state, sizeof state, seqs, sizeof seqs, lists, sizeof lists);
        } else {
            print_packet(packet, length);
            plain_packet(kind, state, sizeof state, seqs, sizeof seqs, lists, sizeof lists, out, sizeof out, 0,
                         packet, length);
        }
    }
}

static void write_tables(void)
{
    fwrite(seqs, 1, sizeof seqs, stdout);
    fwrite(lists, 1, sizeof lists, stdout);
}

int main(int argc, char **argv)
{
    uint32_t kind = PLAIN_NEW;
    unsigned long seed;

    if (argc > 1 && strcmp(argv[argc - 1], "old") == 0) {
        kind = PLAIN_OLD;
        argc--;
    }
    seed = argc > 2 ? strtoul(argv[2], NULL, 10) : 0;
    make_seed(seed);
    if (argc == 4 && strcmp(argv[1], "script") == 0) {
        print_script(kind, strtoul(argv[3], NULL, 10));
    } else if (argc == 3 && strcmp(argv[1], "tables") == 0) {
        make_tables(kind, seqs, lists);
        write_tables();
    } else if (argc == 3 && strcmp(argv[1], "twice") == 0) {
        make_tables(kind, seqs, lists);
        write_tables();
        make_change(seed % MAKE_WAYS, seqs, lists);
        write_tables();
    } else {
        fputs("usage: made script SEED LINES [old] | made tables SEED [old] | made twice SEED [old]\n", stderr);
        return 2;
    }
    return 0;
}
