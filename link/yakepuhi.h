/* Yakepuhi for C: the blast of a fuel-air cloud at one receptor, as intervals that hold the exact values of the guidance.

   What the functions below do between being called and returning is proved, for all bytes. Nothing is proved of a caller. A caller owes:
   - each pointer reaches as many bytes as the length beside it says, or one whole uint64_t, and is not null, even where the length is 0;
   - no two of a call's pointers reach the same byte, and no other thread writes what they reach during the call.

   Every function gives 0 for what it accepts, else the number of the first refusal that applies, in this order:
   1 length, 2 digit, for an old line 15 tag, 16 double, then 3 substance, 12 state, 13 placement, 14 surroundings, 5 quantity, 6 heat;
   then for an answer and its rules 7 beyond, 8 space, for a ring 9 threshold, 10 weak, 11 strong, for the way to the old form 19 air, 8 space,
   for the way in from it, for a frame from its fields and for a spelling 8 space, for a case that is added to a sheet 7 beyond, 8 space, 17 full.
   A place of a sheet is refused by 8 space and 18 vacant alone, closing, totals and storing by 8 alone, stored columns by 20 columns, 8 space.
   4, which stood for all of 12 to 14, is retired: no function gives it.
   After a refusal everything that was lent for writing has the bytes that it had.

   A frame has 22 bytes or 24, a line 44 characters or 48; every other length is refused by 1. The two bytes more are the air pressure in units of
   10 Pa, 5,000 to 11,000, else 5; a frame without them has 10,130. It is the P0 of every formula and comparison. Both lengths are taken wherever
   a frame or a line is. Where one is written, it has the shorter length if its air pressure is 10,130, and else the longer: frames from fields and
   from a sheet have 22 bytes or 24, spellings 44 or 48. 8 comes where the area is shorter than what is written of that very case. A caller who
   does not know the length beforehand lends 24 zeros, or 48 for a spelling: the longer one was written exactly where byte 22, or character 44,
   counted from 0, is no longer 0. No permitted air pressure has a high byte of 0.

   The width rule, for overpressures in Pa and impulses in Pa s: 100,000 * (upper - lower) is at most 200,000 + lower, so that the two ends lie
   at most 2 and a hundred-thousandth of the lower one apart. The two ends of a probit lie at most 2 thousandths apart.

   They use no heap, no file and no global state, so any number of threads can call them at once. */
#ifndef YAKEPUHI_H
#define YAKEPUHI_H

#include <stddef.h>
#include <stdint.h>

#ifdef __cplusplus
extern "C" {
#endif

/* The bytes of a case frame and the characters of its line, without and with an air pressure of its own, and the bytes of an answer frame. */
#define YAKEPUHI_FRAME 22
#define YAKEPUHI_LINE 44
#define YAKEPUHI_LONG_FRAME 24
#define YAKEPUHI_LONG_LINE 48
#define YAKEPUHI_ANSWER 77

/* Air pressures in units of 10 Pa: that of a frame without its own, the least and the greatest. */
#define YAKEPUHI_STANDARD_AIR 10130
#define YAKEPUHI_LEAST_AIR 5000
#define YAKEPUHI_GREATEST_AIR 11000

/* A case given as the bytes of a frame. Accepted, it writes the answer frame into the first 77 bytes of the area and no others.
   The answer: the speed range; overpressure in Pa and impulse in Pa s, each a lower and an upper end; five probits in thousandths,
   signed, lower and upper; five damages in tenths of a percent, lower and upper. High byte first throughout.
   Each interval meets every bracket of its exact value and is no wider than its rule above has it; each damage is the reading of the damage
   table at its probit's end. A frame has no test 2. */
uint64_t yakepuhi_from_frame(const uint8_t *frame, size_t frame_length, uint8_t *area, size_t area_length);

/* The same for a case given as a line of 44 or 48 hexadecimal digits of either letter case, without its LF. */
uint64_t yakepuhi_from_line(const uint8_t *line, size_t line_length, uint8_t *area, size_t area_length);

/* The overpressure alone of a case given as the bytes of a frame, several times faster: accepted, it sets *lower and *upper to whole
   pascals that hold the exact value within the width rule. They need not be the ends that yakepuhi_from_frame writes, but both hold the
   same value. It never gives 2 or 8. */
uint64_t yakepuhi_overpressure(const uint8_t *frame, size_t frame_length, uint64_t *lower, uint64_t *upper);

/* The same for the impulse alone, in whole Pa s. */
uint64_t yakepuhi_impulse(const uint8_t *frame, size_t frame_length, uint64_t *lower, uint64_t *upper);

/* The numbers of the rules that give a figure. */
#define YAKEPUHI_UNDECIDED 0
#define YAKEPUHI_NEAR_FIELD 1
#define YAKEPUHI_DETONATION 2
#define YAKEPUHI_DEFLAGRATION 3
#define YAKEPUHI_DEFLAGRATION_034 4

/* The rules of a case given as the bytes of a frame: accepted, it sets *pressure to the number of the rule that gave the overpressure and
   *impulse to that of the rule that gave the impulse.
   Range 1 has the near-field value where Rx is below 0.2 (gas) or 0.25 (heterogeneous), else the detonation formula. In ranges 2 to 6 one of
   these two, told apart in the same way, stands against the deflagration formula, which is taken at 0.34 where Rx is below 0.34. The named one
   is the smaller, in Pa or in Pa s: for no N does its bracket lie wholly above the other's. Undecided is said in these ranges alone, and only
   if two whole numbers that hold the one figure and two that hold the other, each pair within the width rule, overlap. Where both a name and
   undecided fit, the answer is open. It never gives 2 or 8. */
uint64_t yakepuhi_rules(const uint8_t *frame, size_t frame_length, uint64_t *pressure, uint64_t *impulse);

/* The greatest threshold of a ring in Pa, 18 times the air pressure of the case: of an air pressure in units of 10 Pa, and of the standard one. */
#define YAKEPUHI_THRESHOLD_IN(air) (180 * (air))
#define YAKEPUHI_THRESHOLD YAKEPUHI_THRESHOLD_IN(YAKEPUHI_STANDARD_AIR)

/* The ring of a threshold in whole pascals, from 1 to 18 times the air pressure of the case, for a case given as the bytes of a frame; the frame's
   own distance must be valid and is not used otherwise. Given, *inner and *outer are distances in cm, 1 <= *inner < *outer, both where the case is
   accepted: at *inner the lower end of the overpressure reaches the threshold and one cm farther it does not; at *outer the upper end is below the
   threshold and one cm nearer it is not. The ends are whole pascals that hold the exact value within the width rule; where other such ends
   would give another ring, or 10 or 11, what is given is right for one choice of them, the same at all four distances.
   9: the threshold is outside its limits. 10, weak: the lower end at 1 cm is below the threshold. 11, strong: the upper end at the farthest
   accepted distance is not below it. It never gives 2, 7 or 8. */
uint64_t yakepuhi_ring_from_frame(const uint8_t *frame, size_t frame_length, uint64_t threshold, uint64_t *inner, uint64_t *outer);

/* The same for a case given as a line; it also gives 2. */
uint64_t yakepuhi_ring_from_line(const uint8_t *line, size_t line_length, uint64_t threshold, uint64_t *inner, uint64_t *outer);

/* The characters of an old line. */
#define YAKEPUHI_OLD 116

/* The frame of an old line: 58 bytes in hexadecimal digits of either letter case, without LF: substance, state, placement, surroundings,
   then six fields of a tag byte, 1 to 6 in order, and a double, high byte first: mass in kg, mean and stoichiometric concentration in g/m3,
   heat in MJ/kg, distance in m, body mass in kg. Accepted, it writes the frame's 22 bytes at the start of the area and no others. Each number
   is the double's exact value times 1000, 10, 10, 1000, 100 or 1, rounded to a whole number, halves upward; minus zero is taken for zero.
   The old form has no air pressure: the frame's is 10,130.
   15, tag: one of the six is not its field's. 16, double: one of the six is no finite number, is negative or exceeds 1,000,000,000.
   3, 12 to 14, 5 and 6 look at the whole numbers, whatever their size; a positive heat that becomes 0 is a 5 too.
   8: the area has fewer than 22 bytes. It never gives 7: the case may be beyond. */
uint64_t yakepuhi_frame_from_old(const uint8_t *line, size_t line_length, uint8_t *area, size_t area_length);

/* The old line of a case given as the bytes of a frame: accepted, it writes 116 upper-case digits at the start of the area and no other
   bytes, each double the nearest to its fraction. Taken in again they give the frame that was given, in 22 bytes even where it had 24.
   19, air: the air pressure is not 10,130. 8: the area has fewer than 116 bytes. It never gives 2, 7, 15 or 16. */
uint64_t yakepuhi_old_from_frame(const uint8_t *frame, size_t frame_length, uint8_t *area, size_t area_length);

/* The frame of eleven numbers, in the order and the units of a frame: substance by its number, state, placement, surroundings, mass in g, mean and
   stoichiometric concentration in tenths of g/m3, heat in J/g or 0 for the table's, distance in cm, body mass in kg, air pressure in units of
   10 Pa. Accepted, it writes the frame at the start of the area and no other bytes, 22 where the air pressure is 10,130 and else 24; read from them,
   the fields are the numbers that were given. 3, 12 to 14, 5 and 6 look at the numbers as they are given: one that is too large for its field's
   bytes is outside its values, and is never cut.
   8: the area is shorter than the frame. It never gives 1, 2 or 7: the case may be beyond. */
uint64_t yakepuhi_frame_from_fields(uint64_t substance, uint64_t state, uint64_t placement, uint64_t surroundings, uint64_t mass, uint64_t mean,
                                    uint64_t stoichiometric, uint64_t heat, uint64_t distance, uint64_t body, uint64_t air, uint8_t *area,
                                    size_t area_length);

/* The one spelling of a case given as the bytes of a frame: accepted, it writes upper-case digits at the start of the area and no other bytes, 44
   where the air pressure is 10,130 and else 48: the frame's digits, with heat 0 in the place of the table's own heat, and without an air pressure of
   10,130. Spelled again they give themselves. Two cases have one spelling exactly where all their numbers are equal but the given heats, and the
   effective heats are: texts can be compared in the place of cases. 22 bytes and 24 with 10,130 have equal numbers.
   8: the area is shorter than the spelling. It never gives 2 or 7: the case may be beyond. */
uint64_t yakepuhi_spell_frame(const uint8_t *frame, size_t frame_length, uint8_t *area, size_t area_length);

/* The same for a case given as a line of 44 or 48 hexadecimal digits of either letter case, without its LF; it also gives 2. */
uint64_t yakepuhi_spell_line(const uint8_t *line, size_t line_length, uint8_t *area, size_t area_length);

/* The bytes of a study sheet, and how many places it has; they are counted from 1. */
#define YAKEPUHI_SHEET 2048
#define YAKEPUHI_PLACES 64

/* A study sheet holds up to 64 cases in the order in which they were added, each at its place and with the upper end of its overpressure in whole
   pascals, found when it was added. It is the first 2,048 bytes of what is lent, all zero when empty. They can be copied whole, and kept for the
   same library; what they hold now is in docs/sheets.md, but a later library may keep more in them: let these six functions alone read and write
   them. A sheet written by a library without yakepuhi_sheet_totals has no upper ends in it: they read as 0. One written by a library without the
   air pressure reads as it did: its cases have 10,130. A case's upper end is that in its own air.
   From 2,048 zeros on, any sequence of calls does, and tells, what it would on a plain list with holes. Bytes come by otherwise may be anything:
   each call ends, and does as on the list that docs/sheets.md reads from them.
   In all six, 8 comes where fewer than 2,048 bytes are lent for the sheet. Where adding, withdrawing or closing is accepted, all 2,048 are
   written; those behind them stay. */

/* Adds a case given as the bytes of a frame behind all others: at place 1 of an empty sheet, else at the place after the last case, and into
   no gap. Accepted, it writes the sheet and sets *place to the case's place, 1 to 64.
   After 1, 3, 12 to 14, 5, 6 and 7 comes 8, then 17, full: the last place that holds a case is the 64th, whatever gaps there are before it.
   It never gives 2 or 18. */
uint64_t yakepuhi_sheet_add(uint8_t *sheet, size_t sheet_length, const uint8_t *frame, size_t frame_length, uint64_t *place);

/* Withdraws the case at a place: a gap is left, and no other case moves. Past the last place that still holds a case there is no gap: the next
   case that is added comes right after it. 8, then 18, vacant: the place holds no case; 0 and places above 64 never do. No other refusal
   comes. */
uint64_t yakepuhi_sheet_withdraw(uint8_t *sheet, size_t sheet_length, uint64_t place);

/* Closes the gaps: the cases, in the order that they had, are at places 1, 2 and so on, and the room that the gaps took is behind them. Without
   a gap, or without a case, it gives 0 too. 8 is its only refusal. */
uint64_t yakepuhi_sheet_close(uint8_t *sheet, size_t sheet_length);

/* Reads the case at a place: accepted, it writes the frame at the start of the area and no other bytes, 22 where the air pressure is 10,130 and
   else 24. From 2,048 zeros on they are the bytes that were added, but 22 where 24 with 10,130 were; of bytes come by otherwise, any air pressure may
   be read, and byte 22 of 24 may be 0. 8 for the sheet, then 18, vacant: the place holds no case, then 8 for an area that is shorter than the
   frame. No other refusal comes, and the sheet is not written. */
uint64_t yakepuhi_sheet_case(const uint8_t *sheet, size_t sheet_length, uint64_t place, uint8_t *area, size_t area_length);

/* The totals: accepted, it sets *count to the number of cases on the sheet, *greatest to the greatest upper end that is kept, in Pa, and *place to
   the first place that has it; without a case all three are 0, and 0 is no place. From 2,048 zeros on they are those of the plain list, and each
   upper end is the upper of two whole pascals that hold its case's exact overpressure within the width rule. Where several would do, which of
   them is kept is open; this library keeps the *upper of yakepuhi_overpressure.
   8 is its only refusal, and the sheet is not written. */
uint64_t yakepuhi_sheet_totals(const uint8_t *sheet, size_t sheet_length, uint64_t *count, uint64_t *greatest, uint64_t *place);

/* The bytes of so many frames stored by column, and of 64, the most that there are. */
#define YAKEPUHI_COLUMNS_OF(frames) (1 + YAKEPUHI_LONG_FRAME * (frames))
#define YAKEPUHI_COLUMNS YAKEPUHI_COLUMNS_OF(YAKEPUHI_PLACES)

/* Stores a sheet's cases by column, for an archive that packs them: their frames in order, without the gaps, each in 24 bytes, a frame of 22 with
   10,130 behind it. Accepted, it writes at the start of the area and no other bytes: in one byte how many frames there are, 0 to 64, then all their
   first bytes, then all their second bytes, and so on to the 24th: 1 + 24 * that byte in all. The upper ends and the places are not stored.
   8 for the sheet, then 8 for an area that is shorter than what is written. No other refusal comes, and the sheet is not written. */
uint64_t yakepuhi_columns_from_sheet(const uint8_t *sheet, size_t sheet_length, uint8_t *area, size_t area_length);

/* Turns stored columns back: accepted, it writes the frames one after the other at the start of the area and no other bytes, 24 each and as many as
   the first stored byte says; of what yakepuhi_columns_from_sheet wrote they are the very frames that it took. Nothing looks at what the frames
   hold: of bytes come by otherwise they may be such as every other function refuses.
   20, columns: the stored bytes are none, the first is above 64, or they are not 1 + 24 times the first. Then 8 for an area that is shorter than the
   frames. No other refusal comes. */
uint64_t yakepuhi_frames_from_columns(const uint8_t *stored, size_t stored_length, uint8_t *area, size_t area_length);

#ifdef __cplusplus
}
#endif
#endif
