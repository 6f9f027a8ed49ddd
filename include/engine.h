/* The freeway study engine, for C.
 *
 * Every function answers a number: 0 where the call is accepted, else the number of the first refusal that applies;
 * docs/REFUSALS.md says each in words. A refused call leaves every lent array exactly as it came.
 * 24 comes after all other refusals: the room lent for an answer is too short. These have it: network_curve,
 * network_place, survey_read, survey_write, study_run, study_report, study_report_segment, study_drain, study_run_count
 * and study_write. In study_write and for the lent list or bytes of survey_read and survey_write it is a refusal of the
 * papers, in the others it is this interface's own.
 * network_place answers 0 of a refused file too, and puts the file's number into place[0].
 *
 * A list is lent as a pointer and its length in elements; a length of 0 may come with any pointer that is not null.
 * Arrays lent to one call must not overlap. The functions keep nothing: several threads can call them at once as long
 * as no two calls share a lent array that one of them writes.
 */
#ifndef ENGINE_H
#define ENGINE_H

#include <stddef.h>
#include <stdint.h>

#ifdef __cplusplus
extern "C" {
#endif

/* ---- A network file
 *
 * Version 1 is a chain of segments. In version 2 each record also names the first and the second segment that follow its
 * own, 0 for none, and the share to the first: freeways that part and meet. All functions take both. */

/* The number that refuses a file, 1 to 8, 27 or 28, or 0 where it is accepted. */
uint64_t network_check(const uint8_t *file, size_t file_len);

/* Curve number curve, from 0: the file's number, then 10 where there is no such curve, or 0. */
uint64_t network_curve_number(const uint8_t *file, size_t file_len, uint64_t curve);

/* The file's own bytes of a curve: place[0] becomes their byte offset, place[1] how many they are, 804; later words
 * stay. The answer is that of network_curve_number, then 24 where place_len is below 2. */
uint64_t network_curve(const uint8_t *file, size_t file_len, uint64_t curve, uint64_t *place, size_t place_len);

/* Where a file is wrong: place[0] becomes its number, or 0 where it is accepted; place[1] the curve (6) or the record
 * (7, 8, 27, 28), place[2] the entry (6) or the broken rule of the row (4, 7, 27; docs/REFUSALS.md lists them), both
 * from 0; place[3] the byte offset; later words stay. The answer is 24 where place_len is below 4, or 0. */
uint64_t network_place(const uint8_t *file, size_t file_len, uint64_t *place, size_t place_len);

/* ---- A survey file: a day of arrivals
 *
 * Big-endian: "FWD", version 1 in two bytes, n in one, the row count in two, then the rows, each of n arrivals of four
 * bytes. The arrivals are judged by study_run, not here. */

/* The file for n segments: its arrivals row by row from arrivals[0] on, figures[0] becomes the row count; later places
 * stay. 25 under 8 bytes, mark or version; 26 n outside 1 to 40 or not the file's, more than 20,000 rows, or length;
 * 24 where arrivals_len is below rows * n or figures_len is 0. */
uint64_t survey_read(const uint8_t *file, size_t file_len, uint64_t n, uint32_t *arrivals, size_t arrivals_len,
                     uint64_t *figures, size_t figures_len);

/* The file of whole rows of n arrivals, 8 + 4 * arrivals_len bytes from out[0] on; later bytes stay. 26 n outside 1 to
 * 40, or a list that is not 0 to 20,000 whole rows; 24. */
uint64_t survey_write(uint64_t n, const uint32_t *arrivals, size_t arrivals_len, uint8_t *out, size_t out_len);

/* ---- A study
 *
 * The caller lends two arrays, words and speeds, and lends the same two to every later call: for n segments at least
 * 2,576 + 7 * (16 n + 8) words and 7 n speeds. What stands in them is docs/ARRANGEMENT.md's; words and speeds past
 * these lengths are never changed. Segments count from 1. Case 0 is the live case, 1 to 6 are the slots. Every call
 * but study_start first answers 12 where the arrays do not hold a sound study; one of another arrangement is not sound.
 *
 * Signs, settings, R, what ALINEA averages and the count of steps belong to the case, so that study_hold and
 * study_recall carry them. To be able to come back to the start case, hold it before the first variant: study_hold
 * right after study_start. */

/* 12 where the arrays do not hold a sound study, or 0. */
uint64_t study_sound(const uint64_t *words, size_t words_len, const double *speeds, size_t speeds_len);

/* Begins a study on a network file: for each segment initial mv, speed in whole m/h and queue in mv. All ramps are
 * open, signs dark, slots empty. The number of network_check; 11 arrays too short; 13 a list's length; 14 a value out of
 * range. */
uint64_t study_start(uint64_t *words, size_t words_len, double *speeds, size_t speeds_len, const uint8_t *file,
                     size_t file_len, const uint32_t *mvs, size_t mvs_len, const uint32_t *initial_speeds,
                     size_t initial_speeds_len, const uint32_t *queues, size_t queues_len);

/* The sign of a segment of the live case: limit in km/h, 0 is dark; drivers go at limit * (1000 + compliance) m/h, so
 * that 0 is the limit itself and 100 is 10 % faster. 12, 17, 18. */
uint64_t study_sign(uint64_t *words, size_t words_len, const double *speeds, size_t speeds_len, uint64_t segment,
                    uint64_t limit, int64_t compliance);

/* The setting of a segment's ramp in the live case: open; fixed at a rate in mv a step; ALINEA with target in
 * veh/km/lane, gain in mv a step for each veh/km/lane by which the mean density since the rate last moved misses the
 * target, least in mv a step, interval in steps. ALINEA's rate begins at Q. It moves in each step before which the
 * number of steps on the line is a multiple of interval, but not in the first step after the setting. 19 where no
 * segment goes on to this one, as at segment 1, or it has no origin. 12, 17, 19, 20. */
uint64_t study_meter_open(uint64_t *words, size_t words_len, const double *speeds, size_t speeds_len, uint64_t segment);
uint64_t study_meter_fixed(uint64_t *words, size_t words_len, const double *speeds, size_t speeds_len, uint64_t segment,
                           uint64_t rate);
uint64_t study_meter_alinea(uint64_t *words, size_t words_len, const double *speeds, size_t speeds_len,
                            uint64_t segment, uint64_t target, uint64_t gain, uint64_t least, uint64_t interval);

/* One step of the live case with the arrivals of each segment in mv. 12, 13, 15, 16. */
uint64_t study_step(uint64_t *words, size_t words_len, double *speeds, size_t speeds_len, const uint32_t *arrivals,
                    size_t arrivals_len);

/* The rows of a survey file as steps of the live case, up to the first row that a step refuses: figures[0] becomes how
 * many rows were taken, figures[1] the number that refused the next, 12, 15 or 16, or 0 where all were taken; later
 * words stay. The answer is 0 where the first row is refused too. 12; 25 and 26 as in survey_read, with the study's n;
 * 24 where figures_len is below 2, before any row is taken. */
uint64_t study_run(uint64_t *words, size_t words_len, double *speeds, size_t speeds_len, const uint8_t *file,
                   size_t file_len, uint64_t *figures, size_t figures_len);

/* Copies the live case into a slot, 1 to 6: 12, 21, 22. Copies a slot's case over the live one: 12, 21, 23. Empties a
 * slot: 12, 21, 23. */
uint64_t study_hold(uint64_t *words, size_t words_len, double *speeds, size_t speeds_len, uint64_t slot);
uint64_t study_recall(uint64_t *words, size_t words_len, double *speeds, size_t speeds_len, uint64_t slot);
uint64_t study_drop(uint64_t *words, size_t words_len, const double *speeds, size_t speeds_len, uint64_t slot);

/* Reports write their figures from figures[0] on; later words stay. Of a case, 6 figures: steps, mv in segments, mv in
 * queues, arrivals, exits, time in mv*s. 12, 21, 23, 24. Of a segment of a case, 7: N, whole part of v, bits of v,
 * queue, last outflow, last release, R. 12, 21, 23, 17, 24. */
uint64_t study_report(const uint64_t *words, size_t words_len, const double *speeds, size_t speeds_len,
                      uint64_t study_case, uint64_t *figures, size_t figures_len);
uint64_t study_report_segment(const uint64_t *words, size_t words_len, const double *speeds, size_t speeds_len,
                              uint64_t study_case, uint64_t segment, uint64_t *figures, size_t figures_len);

/* How long the queue at a segment of a case takes to drain if nothing more arrives and each step releases R, as in the
 * segment's report, or all that is left. figures[0] becomes 1 where it never drains, which is where R is 0 and there is
 * a queue, else 0; figures[1] becomes a number of steps after which the queue is empty, 0 where there is none or where it
 * never drains; later words stay. The number is at most the whole part of queue / R, plus 1: rest on no more, since
 * another version of this engine may give another number within that. 12, 21, 23, 17, 19 as in study_meter_open, 24. */
uint64_t study_drain(const uint64_t *words, size_t words_len, const double *speeds, size_t speeds_len,
                     uint64_t study_case, uint64_t segment, uint64_t *figures, size_t figures_len);

/* The run count, 1 figure: steps accepted since the start. 12, 24. */
uint64_t study_run_count(const uint64_t *words, size_t words_len, const double *speeds, size_t speeds_len,
                         uint64_t *figures, size_t figures_len);

/* The study's network as a file of its own version, from out[0] on; later bytes stay. 12, 24. The length of the file is
 * 16 + 804 * out[7] + 16 * out[6] in version 1, where out[4] is 1, and 16 + 804 * out[7] + 20 * out[6] in version 2. */
uint64_t study_write(const uint64_t *words, size_t words_len, const double *speeds, size_t speeds_len, uint8_t *out,
                     size_t out_len);

#ifdef __cplusplus
}
#endif

#endif
