/* Keelteasel: the control unit's packets and steps, and the table check, for C.

   Every slice is a pointer and a length. Nothing is kept between calls but the bytes that are lent.

   The slices lent to one call must not overlap, not even those that it only reads: what is promised of each is promised of slices that
   lie apart. A pointer needs no alignment. Through the pointer of an empty slice (length 0) nothing is read or written, so it may be
   any, NULL too: the empty packet may be given as NULL, 0.

   state, 36 bytes, words high byte first: 0 mode; 1 mode changes allowed (0 or 1); 2-3 STATUS_PC; 4-5 received; 6-7 failed;
   8 failed code; 9 failed number; 10 abort code; 11-14 log; 15 selection, 255 none; 16 status sequence, 255 none; 17 place;
   18 line list; 19-20 exposures; 21-22 mirror; 23 running (0 or 1); 24 entering (0 or 1); 25 open raster's place, 255 none;
   26 exposures in the set; 27-28 passes left; 29-30 raster repeats left; 31 rounds left; 32-33 run number of the
   raster repeat, from 0; 34-35 the shift of its start, signed, in two's complement.

   kind, of the sequence table: KEEL_FLIGHT, 128 entries of 128 bytes, or KEEL_BENCH, the old unit's 64 of 256. It is given with each call
   and kept nowhere: one run, and the check before it, are under one kind.

   A state not of 36 bytes, tables not of 16,384 and 7,872 bytes, an output below 16,384 bytes or another kind: code 16. A state out of
   range, or a flag byte above 1: code 17. Both leave every lent byte as it was, but that the report of a check says 16 itself. A
   sequence, selected or in the status, is out of range above the kind's last, 127 or 63; a place above 127, on the bench none. */
#ifndef KEEL_H
#define KEEL_H

#include <stdint.h>

#ifdef __cplusplus
extern "C" {
#endif

#define KEEL_FLIGHT 0
#define KEEL_BENCH 1

#define KEEL_STATE_SIZE 36
#define KEEL_SEQUENCE_TABLE 16384
#define KEEL_LINE_LIST_TABLE 7872
#define KEEL_OUTPUT_SIZE 16384
#define KEEL_REPORT_SIZE 152
#define KEEL_CARDS_SIZE 4288
#define KEEL_CARDS_SIZE_BENCH 2240

/* The state at power-on. Answers 0, or 16. */
uint32_t keel_power_on(uint8_t *state, uintptr_t state_len);

/* One packet. Answers its code + 256 x the length of what was written to the output. */
uint32_t keel_packet(uint32_t kind, uint8_t *state, uintptr_t state_len, uint8_t *seqs, uintptr_t seqs_len, uint8_t *lists,
                     uintptr_t lists_len, uint8_t *out, uintptr_t out_len, uint32_t time, const uint8_t *packet,
                     uintptr_t packet_len);

/* One step. Answers the event in the low 8 bits (0 IDLE, 1 ENTER s, 2 RASTER id pos, 3 EXP no pos, 4 LOOP place, 5 NEXT, 6 DONE,
   7 WAIT t, 8 CALL s, 9 END, 10 ABORT code seq place, 11 refused code), its values in 16 bits each at bits 16, 32 and 48. */
uint64_t keel_step(uint32_t kind, uint8_t *state, uintptr_t state_len, const uint8_t *seqs, uintptr_t seqs_len, const uint8_t *lists,
                   uintptr_t lists_len);

/* The table check of a sequence. Answers its code and fills a report of 152 bytes (another size: 16, untouched): 0 code; 1: 0 nothing
   listed, 1 ends, 2 returns, 3 fault; 2 the fault's sequence; 3 its place; 4 why, of a fault with code 7: 1 the line list's window count,
   2 its length, 3 its checksum, 4 a mark that a flag of the raster needs and no window of the list has (0: any other fault, or none); 5 the
   checksum expected, 0 unless 4 is 3; 6-7 how many are listed; 8-15 steps; 16-23 exposures, high byte first; 24-151 the chain, zeros
   after it. */
uint32_t keel_check(uint32_t kind, const uint8_t *seqs, uintptr_t seqs_len, const uint8_t *lists, uintptr_t lists_len, uint32_t number,
                    uint8_t *report, uintptr_t report_len);

/* The summary of both tables, made whole: 4,288 bytes of kind 0, 2,240 of kind 1. Answers 0, or 16 with nothing written (also for a summary
   of another size). For each sequence a card of 32 bytes: 0: 0 passes, 1 fault; 1 the fault's place; 2 its code; 3: 0 none, 1 terminates,
   2 calls; 4 the sequence called; 5 and 6 a fault's reason, as 4 and 5 of a report; 7 zero; 8-15 steps; 16-23 exposures, high byte first;
   24-29 the line lists used, list 0 the most significant bit; 30-31 zero. Then for each of the 48 line lists a card of 4 bytes: 0 good, else
   what is wrong, as 4 of a report; the checksum expected; marks, 10 AEC, 08 event, 04 flare; zero. */
uint32_t keel_cards(uint32_t kind, const uint8_t *seqs, uintptr_t seqs_len, const uint8_t *lists, uintptr_t lists_len, uint8_t *summary,
                    uintptr_t summary_len);

/* The summary brought up to date after an obeyed uplink of count bytes at an address: a summary that was as keel_cards makes it is so again.
   Answers 0, or 16, or 7 for a range that no uplink can have, with nothing written. */
uint32_t keel_cards_update(uint32_t kind, const uint8_t *seqs, uintptr_t seqs_len, const uint8_t *lists, uintptr_t lists_len,
                           uint8_t *summary, uintptr_t summary_len, uint32_t address, uint32_t count);

/* The table check of a sequence from the summary alone, with keel_check's report; 17, with nothing listed, for a card on the way that no
   tables give. */
uint32_t keel_cards_check(uint32_t kind, const uint8_t *summary, uintptr_t summary_len, uint32_t number, uint8_t *report,
                          uintptr_t report_len);

#ifdef __cplusplus
}
#endif

#endif
