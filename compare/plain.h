/*
 * The control unit in plain C, written from document 01 alone, P4's reasons, P1's marks, P10's kinds,
 * P5's shift, P14's comparison and P13's cards added: it shares no text with the proved library, and stands
 * beside it to be compared. The four calls, those of the cards, the lent bytes and the answers are those of
 * keel.h, under other names; the comparison, the test of a line list and its marks are for the desk's table check.
 */
#ifndef PLAIN_H
#define PLAIN_H

#include <stddef.h>
#include <stdint.h>

/* Sizes of what the caller lends. The output may be longer. */
enum {
    PLAIN_STATE = 36,
    PLAIN_SEQUENCES = 16384,
    PLAIN_LINE_LISTS = 7872,
    PLAIN_OUTPUT = 16384,
    PLAIN_REPORT = 152,
    PLAIN_CARDS = 4288,    /* the summary of tables of the new kind: 128 cards of 32 bytes and 48 of 4 */
    PLAIN_OLD_CARDS = 2240 /* and of the old kind: 64 and 48 */
};

/* The kinds of sequence table, all of one size: 128 entries of 128 bytes, or the old unit's 64 of 256.
 * Any other number is answered as a table of wrong size. A state is not converted from kind to kind. */
enum { PLAIN_NEW, PLAIN_OLD };

/* What a step did: the low 8 bits of its answer. Its values stand at bits 16, 32 and 48. */
enum {
    PLAIN_IDLE,
    PLAIN_ENTER,   /* sequence */
    PLAIN_RASTER,  /* id, position */
    PLAIN_EXP,     /* number, position */
    PLAIN_LOOP,    /* place */
    PLAIN_NEXT,
    PLAIN_DONE,
    PLAIN_WAIT,    /* time */
    PLAIN_CALL,    /* sequence */
    PLAIN_END,
    PLAIN_ABORT,   /* code, sequence, place */
    PLAIN_REFUSED  /* code: 16 or 17 */
};

/* How a check ended: byte 1 of its report. */
enum { PLAIN_NOTHING, PLAIN_ENDS, PLAIN_RETURNS, PLAIN_FAULT };

/* What is wrong with a line list: byte 4 of a report. The last is the raster's, over a list that is good. */
enum { PLAIN_GOOD, PLAIN_WINDOWS, PLAIN_LENGTH, PLAIN_CHECKSUM, PLAIN_MARK };

/* The flags that need a marked window; their marks are the same bits of a window header's low byte. */
enum { PLAIN_AEC = 0x10, PLAIN_EVENT = 0x08, PLAIN_FLARE = 0x04 };

/* Why a line list is bad; the checksum expected where that is wrong, else 0. */
struct plain_reason {
    uint8_t number;
    uint8_t expected;
};

/* Sets the state at power-on. Answers 0, or 16. */
uint32_t plain_power_on(uint8_t *state, size_t state_len);

/* Obeys or refuses one packet. Answers the code + 256 x the length of the answer in out. */
uint32_t plain_packet(uint32_t kind,
                      uint8_t *state, size_t state_len,
                      uint8_t *seqs, size_t seqs_len,
                      uint8_t *lists, size_t lists_len,
                      uint8_t *out, size_t out_len,
                      uint32_t time,
                      const uint8_t *packet, size_t packet_len);

/* Takes one interpreter step. */
uint64_t plain_step(uint32_t kind,
                    uint8_t *state, size_t state_len,
                    const uint8_t *seqs, size_t seqs_len,
                    const uint8_t *lists, size_t lists_len);

/* Checks a sequence and the chain that it calls. Answers the code and fills the report. */
uint32_t plain_check(uint32_t kind,
                     const uint8_t *seqs, size_t seqs_len,
                     const uint8_t *lists, size_t lists_len,
                     uint32_t number,
                     uint8_t *report, size_t report_len);

/* Checks a sequence as plain_check does, report and all, and if it passes compares the tables with those of
 * now: each listed sequence and each line list that one of them uses, within their lengths, and no other
 * byte. Answers the code + 256 x the lowest address of a byte that differs, or 0 for that if none does. The
 * code is 16 also for tables of now of wrong size, before any other. */
uint32_t plain_still(uint32_t kind,
                     const uint8_t *seqs, size_t seqs_len,
                     const uint8_t *lists, size_t lists_len,
                     const uint8_t *now_seqs, size_t now_seqs_len,
                     const uint8_t *now_lists, size_t now_lists_len,
                     uint32_t number,
                     uint8_t *report, size_t report_len);

/* Makes the summary: the cards of all sequences, each taken alone, and of all line lists. Answers 0, or 16.
 * A sequence's card: 0: 0 it passes, 1 fault; 1 the fault's place; 2 its code; 3 the closing command (0 of a
 * fault, 1 terminate, 2 call); 4 its target; 5-6 the reason as in bytes 4-5 of a report; 8-15 steps; 16-23
 * exposures; 24-29 the line lists that its rasters were tested with, one at fault too, list 0 the most significant
 * bit; else 0. A line list's: 0-1 the reason; 2 its marks if it is good; else 0. */
uint32_t plain_cards(uint32_t kind,
                     const uint8_t *seqs, size_t seqs_len,
                     const uint8_t *lists, size_t lists_len,
                     uint8_t *summary, size_t summary_len);

/* Works out again, after an obeyed uplink of this range, the cards of the entries that have a byte in it and of
 * the sequences that, by their own cards, use such a line list; no other byte of the summary is written. Answers 0,
 * 16, or 7 for a range that no uplink can have. */
uint32_t plain_cards_update(uint32_t kind,
                            const uint8_t *seqs, size_t seqs_len,
                            const uint8_t *lists, size_t lists_len,
                            uint8_t *summary, size_t summary_len,
                            uint32_t address, uint32_t count);

/* What plain_check answers and reports of the tables that the summary is of, told from the cards alone; 17, with
 * nothing listed, where the chain comes to a card that no tables give. */
uint32_t plain_cards_check(uint32_t kind,
                           const uint8_t *summary, size_t summary_len,
                           uint32_t number,
                           uint8_t *report, size_t report_len);

/* Tests a line list, in its entry of 164 bytes. */
struct plain_reason plain_line_list(const uint8_t *list);

/* The marks that the windows of a good line list have among them. */
unsigned plain_marks(const uint8_t *list);

#endif
