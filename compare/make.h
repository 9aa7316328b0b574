/*
 * Random tables, states and packets for the driver and the desk scripts. Most are meaningful:
 * sequences with rasters, delays, loops and calls that run to their end; the rest are damaged in
 * small ways or are plain noise. Everything follows from the seed, and is for one kind of tables: 0, 128
 * sequences in 128 bytes each, or 1, the old one, 64 in 256.
 */
#ifndef MAKE_H
#define MAKE_H

#include <stdbool.h>
#include <stddef.h>
#include <stdint.h>

enum { MAKE_LONGEST = 300 }; /* the longest packet that is made */

void make_seed(uint64_t seed);

/* A number below n. */
uint32_t any(uint32_t n);

/* True in so many cases of a hundred. */
bool chance(unsigned percent);

/* The entries of a kind's sequence table, and the bytes of one. */
unsigned make_count(uint32_t kind);
unsigned make_entry(uint32_t kind);

/* Chooses how sequences call one another. What is made from here on is for this kind, and for tables that
 * have so many of their entries in use. */
void make_taste(uint32_t kind, unsigned sequences, unsigned lists);

/* Both tables whole, to a taste of their own. */
void make_tables(uint32_t kind, uint8_t *seqs, uint8_t *lists);

/* Changes both tables, in one of so many ways; some of them leave every byte as it was that a check looks at. */
enum { MAKE_WAYS = 8 };
void make_change(unsigned way, uint8_t *seqs, uint8_t *lists);

/* A ring of full sequences, 0 to n - 1, each 128 bytes with four rasters, or of the old kind 255 bytes with
 * eight: 2 repeats of 2 loops of an exposure each, and delays; and line list 0, full with 25 windows. All
 * rasters have these science flags, and the last window alone has the marks for them. They also have this
 * ASRC byte; if it is not 0, skip is 2 and there are 6 repeats. Nothing in it is random. */
void make_ring(uint32_t kind, uint8_t *seqs, uint8_t *lists, unsigned n, unsigned flags, unsigned asrc);

/* The ring of 128 of kind 0, but the rasters of its first users use this line list, which is as line list 0 is. */
void make_users(uint8_t *seqs, uint8_t *lists, unsigned list, unsigned users);

/* One line list in an entry of 164 bytes, one sequence in an entry of its kind; both return its length. */
size_t make_line_list(uint8_t *list, unsigned damage);
size_t make_sequence(uint8_t *text, unsigned own, unsigned damage);

/* The 36 bytes of a state: reached ones, ones that stand somewhere in these tables' sequences, ones
 * in range that no call makes, ones out of range. */
void make_state(uint8_t *state, const uint8_t *seqs);

/* A packet of any kind; returns its length. */
size_t make_packet(uint8_t *packet);

/* An uplink into tables as these are: of any number of bytes, into an entry, across two or at a table's end, with
 * bytes that suit the entries or do not, and with a range that is refused now and then; returns its length. */
size_t make_uplink(uint8_t *packet, const uint8_t *seqs, const uint8_t *lists);

/* Spoils one card of a summary, in a way that an update or a check from cards sees, or in any other; returns the
 * number of the sequence whose card it is, if it is one's. */
unsigned make_spoil(uint8_t *summary);

/* What a busy operator does next with a unit in this state: steps, if *steps is not 0, else a packet
 * of the length returned. */
size_t make_turn(const uint8_t *state, uint8_t *packet, unsigned *steps);

#endif
