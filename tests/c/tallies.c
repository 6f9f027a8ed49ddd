/* The listing of document 01 through the C interface: its network file is built in memory, a study is started on it, and
 * both steps are made. Then come the slots, refusals, Write, the same two steps as a run of a survey file, and a step on a
 * network where freeways meet and part. Every difference is a line on standard error; the exit status is 0 where there is
 * none. The arrays are exactly as long as the segments need; the speed of an empty slot is a NaN whose bits no call may
 * change. */
#include "engine.h"

#include <inttypes.h>
#include <stdio.h>
#include <stdlib.h>
#include <string.h>

#define FILE_BYTES (16 + 804 + 16)
#define WORDS (2576 + 7 * (16 + 8))
#define SPEEDS 7
#define DAY_BYTES (8 + 4 * 2)   /* a survey file of two rows of one arrival */
#define ARRANGEMENT 4           /* the number of this arrangement */
#define ARRANGEMENT_AT 2575     /* its word */
#define START 2                 /* the slot of the start case */
#define EMPTY 3                 /* a slot that stays empty */

/* The network of the junction: five segments in a file of version 2, with records of 20 bytes. */
#define JUNCTION_SEGMENTS 5
#define JUNCTION_BYTES (16 + 804 + 20 * JUNCTION_SEGMENTS)
#define JUNCTION_WORDS (2576 + 7 * (16 * JUNCTION_SEGMENTS + 8))
#define JUNCTION_SPEEDS (7 * JUNCTION_SEGMENTS)
#define RECORD_AT(segment) (16 + 804 + 20 * ((segment) - 1))

typedef struct {
    uint64_t *words;
    double *speeds;
    uint8_t *file;
} Study;

static int differences = 0;

static void expect(const char *what, uint64_t found, uint64_t expected)
{
    if (found == expected)
        return;
    fprintf(stderr, "%s: expected %" PRIu64 ", found %" PRIu64 "\n", what, expected, found);
    differences++;
}

static void *lend(size_t bytes)
{
    void *room = malloc(bytes);
    if (room == NULL)
        exit(2);
    memset(room, 0xa5, bytes);
    return room;
}

static void put32(uint8_t *bytes, uint32_t number)
{
    for (int i = 0; i < 4; i++)
        bytes[i] = (uint8_t)(number >> (24 - 8 * i));
}

/* T 10, tau 20, nu 0, kappa 40, delta 0, one curve all 100,000; one segment, L 500, H 2, C 30, J 180, X 0, Q 6,000. */
static void build_file(uint8_t *file)
{
    static const uint8_t head[16] = {'F', 'W', 'N', 0, 1, 10, 1, 1, 20, 0, 40};
    static const uint8_t record[16] = {500 >> 8, 500 & 255, 2, 0, 30, 180, 1};
    memcpy(file, head, 16);
    for (int entry = 0; entry < 201; entry++)
        put32(file + 16 + 4 * entry, 100000);
    memcpy(file + 16 + 804, record, 16);
    put32(file + 16 + 804 + 10, 6000);
}

static uint64_t start(Study study, size_t words_len, uint32_t speed)
{
    const uint32_t mvs[1] = {20000}, initial_speeds[1] = {speed}, queues[1] = {5000};
    return study_start(study.words, words_len, study.speeds, SPEEDS, study.file, FILE_BYTES, mvs, 1, initial_speeds, 1,
                       queues, 1);
}

static uint64_t step(Study study, uint32_t arrival)
{
    return study_step(study.words, WORDS, study.speeds, SPEEDS, &arrival, 1);
}

static uint64_t hold(Study study, uint64_t slot)
{
    return study_hold(study.words, WORDS, study.speeds, SPEEDS, slot);
}

static uint64_t recall(Study study, uint64_t slot)
{
    return study_recall(study.words, WORDS, study.speeds, SPEEDS, slot);
}

static uint64_t drop(Study study, uint64_t slot)
{
    return study_drop(study.words, WORDS, study.speeds, SPEEDS, slot);
}

/* step, segments, queues, arrivals, exits, time: a line of the listing */
static void expect_case(Study study, uint64_t number, const uint64_t listed[6])
{
    static const char *const names[6] = {"steps", "segments", "queues", "arrivals", "exits", "time"};
    uint64_t figures[7] = {0, 0, 0, 0, 0, 0, 77};
    uint64_t refused = study_report(study.words, WORDS, study.speeds, SPEEDS, number, figures, 7);
    expect("report", refused, 0);
    for (int i = 0; i < 6; i++)
        expect(names[i], figures[i], listed[i]);
    expect("word after the report", figures[6], 77);
}

/* v, last outflow and last release of the live case's segment */
static void expect_segment(Study study, double speed, uint64_t outflow, uint64_t release)
{
    uint64_t figures[7], bits;
    uint64_t refused = study_report_segment(study.words, WORDS, study.speeds, SPEEDS, 0, 1, figures, 7);
    memcpy(&bits, &speed, sizeof bits);
    expect("segment report", refused, 0);
    expect("whole speed", figures[1], (uint64_t)speed);
    expect("bits of v", figures[2], bits);
    expect("last outflow", figures[4], outflow);
    expect("last release", figures[5], release);
    expect("R", figures[6], 6000);
}

static void expect_runs(Study study, uint64_t runs)
{
    uint64_t figure = 0;
    expect("run count refused", study_run_count(study.words, WORDS, study.speeds, SPEEDS, &figure, 1), 0);
    expect("run count", figure, runs);
}

static const uint64_t listing[3][6] = {
    {0, 20000, 5000, 0, 0, 0},
    {1, 16000, 3000, 4000, 10000, 250000},
    {2, 10556, 0, 4000, 18444, 440000},
};

static void tallies(Study study)
{
    expect("start", start(study, WORDS, 90000), 0);
    expect("sound", study_sound(study.words, WORDS, study.speeds, SPEEDS), 0);
    expect("arrangement number", study.words[ARRANGEMENT_AT], ARRANGEMENT);
    expect_case(study, 0, listing[0]);
    expect("hold the start case", hold(study, START), 0);
    expect("step 1", step(study, 4000), 0);
    expect_case(study, 0, listing[1]);
    expect_segment(study, 95000.0, 10000, 6000);
    expect("hold", hold(study, 6), 0);
    expect("step 2", step(study, 0), 0);
    expect_case(study, 0, listing[2]);
    expect_segment(study, 97500.0, 8444, 3000);
    expect_runs(study, 2);
}

/* The case held after step 1 stays, comes back and goes on as before; the run count is never lowered. */
static void slots(Study study)
{
    expect_case(study, 6, listing[1]);
    expect("hold into a filled slot", hold(study, 6), 22);
    expect("recall", recall(study, 6), 0);
    expect_case(study, 0, listing[1]);
    expect("step 2 again", step(study, 0), 0);
    expect_case(study, 0, listing[2]);
    expect_case(study, 6, listing[1]);
    expect_runs(study, 3);
    expect("drop", drop(study, 6), 0);
    expect("recall of an empty slot", recall(study, 6), 23);
    expect("drop of an empty slot", drop(study, 6), 23);
    expect("hold again", hold(study, 6), 0);
    expect_case(study, 6, listing[2]);
}

/* Each number by one call; none of them changes a word or a speed. */
static void refusals(Study study)
{
    uint64_t *words = study.words, figures[7];
    double *speeds = study.speeds;
    const uint32_t two[2] = {0, 0};
    uint64_t *words_before = lend(WORDS * sizeof *words);
    double *speeds_before = lend(SPEEDS * sizeof *speeds);
    memcpy(words_before, words, WORDS * sizeof *words);
    memcpy(speeds_before, speeds, SPEEDS * sizeof *speeds);
    study.file[0] = 'f';
    expect("start, mark", start(study, WORDS, 90000), 2);
    study.file[0] = 'F';
    expect("start, a word too few", start(study, WORDS - 1, 90000), 11);
    expect("start, speed", start(study, WORDS, 100001), 14);
    expect("sound, a word too few", study_sound(words, WORDS - 1, speeds, SPEEDS), 12);
    expect("step, two arrivals", study_step(words, WORDS, speeds, SPEEDS, two, 2), 13);
    expect("step, arrival", step(study, 1000001), 15);
    expect("sign, segment", study_sign(words, WORDS, speeds, SPEEDS, 2, 80, 0), 17);
    expect("sign, limit", study_sign(words, WORDS, speeds, SPEEDS, 1, 19, 0), 18);
    expect("sign, compliance", study_sign(words, WORDS, speeds, SPEEDS, 1, 80, -501), 18);
    expect("open at segment 1", study_meter_open(words, WORDS, speeds, SPEEDS, 1), 19);
    expect("fixed at segment 1", study_meter_fixed(words, WORDS, speeds, SPEEDS, 1, 0), 19);
    expect("ALINEA at segment 1", study_meter_alinea(words, WORDS, speeds, SPEEDS, 1, 30, 100, 0, 1), 19);
    expect("hold, slot 0", hold(study, 0), 21);
    expect("report, slot 7", study_report(words, WORDS, speeds, SPEEDS, 7, figures, 7), 21);
    expect("report, empty slot", study_report(words, WORDS, speeds, SPEEDS, 1, figures, 7), 23);
    expect("report, room", study_report(words, WORDS, speeds, SPEEDS, 0, figures, 5), 24);
    expect("drain, slot 7", study_drain(words, WORDS, speeds, SPEEDS, 7, 2, figures, 2), 21);
    expect("drain, empty slot", study_drain(words, WORDS, speeds, SPEEDS, 1, 2, figures, 2), 23);
    expect("drain, segment", study_drain(words, WORDS, speeds, SPEEDS, 0, 2, figures, 2), 17);
    expect("drain at segment 1", study_drain(words, WORDS, speeds, SPEEDS, 0, 1, figures, 1), 19);
    expect("words stay", (uint64_t)memcmp(words, words_before, WORDS * sizeof *words), 0);
    expect("speeds stay", (uint64_t)memcmp(speeds, speeds_before, SPEEDS * sizeof *speeds), 0);
    free(words_before);
    free(speeds_before);
}

/* A sign is accepted: V becomes the lesser of the curve's 100,000 and 70 x (1000 - 100). */
static void signs(Study study)
{
    expect("sign", study_sign(study.words, WORDS, study.speeds, SPEEDS, 1, 70, -100), 0);
    expect("step under a sign", step(study, 0), 0);
    expect_segment(study, 97500.0 + 0.5 * (63000.0 - 97500.0), 5718, 0);
}

/* The start case, held right after Start, comes back with its dark sign and its count of steps. */
static void start_case(Study study)
{
    expect("recall of the start case", recall(study, START), 0);
    expect_case(study, 0, listing[0]);
    expect("step 1 once more", step(study, 4000), 0);
    expect_case(study, 0, listing[1]);
    expect_segment(study, 95000.0, 10000, 6000);
}

/* A study of another arrangement is none of this engine's. */
static void arrangement(Study study)
{
    study.words[ARRANGEMENT_AT] = ARRANGEMENT + 1;
    expect("sound, another arrangement", study_sound(study.words, WORDS, study.speeds, SPEEDS), 12);
    expect("step, another arrangement", step(study, 0), 12);
    study.words[ARRANGEMENT_AT] = ARRANGEMENT;
    expect("sound again", study_sound(study.words, WORDS, study.speeds, SPEEDS), 0);
}

/* The network comes back as the file it came from; a byte too few is 24. */
static void writing(Study study)
{
    uint8_t *out = lend(FILE_BYTES);
    uint64_t refused = study_write(study.words, WORDS, study.speeds, SPEEDS, out, FILE_BYTES - 1);
    expect("write, room", refused, 24);
    expect("bytes stay", out[0], 0xa5);
    expect("write", study_write(study.words, WORDS, study.speeds, SPEEDS, out, FILE_BYTES), 0);
    expect("file", (uint64_t)memcmp(out, study.file, FILE_BYTES), 0);
    free(out);
}

/* Two rows are written as a survey file, and read back; the file is lent exactly, and a place past the list stays. */
static void survey(uint8_t *day)
{
    static const uint8_t expected[DAY_BYTES] = {'F', 'W', 'D', 0, 1, 1, 0, 2, 0, 0, 4000 >> 8, 4000 & 255};
    const uint32_t rows[2] = {4000, 0};
    uint32_t back[3] = {7, 7, 7};
    uint64_t count[2] = {7, 7};
    expect("survey write, room", survey_write(1, rows, 2, day, DAY_BYTES - 1), 24);
    expect("survey write, n 0", survey_write(0, rows, 2, day, DAY_BYTES), 26);
    expect("survey bytes stay", day[0], 0xa5);
    expect("survey write", survey_write(1, rows, 2, day, DAY_BYTES), 0);
    expect("survey file", (uint64_t)memcmp(day, expected, DAY_BYTES), 0);
    expect("survey read, mark", survey_read(day + 1, DAY_BYTES - 1, 1, back, 3, count, 2), 25);
    expect("survey read, n", survey_read(day, DAY_BYTES, 2, back, 3, count, 2), 26);
    expect("survey read, list", survey_read(day, DAY_BYTES, 1, back, 1, count, 2), 24);
    expect("survey read, figure", survey_read(day, DAY_BYTES, 1, back, 3, count, 0), 24);
    expect("list stays", back[0], 7);
    expect("survey read", survey_read(day, DAY_BYTES, 1, back, 3, count, 2), 0);
    expect("rows", count[0], 2);
    expect("word after the rows", count[1], 7);
    expect("row 1", back[0], 4000);
    expect("row 2", back[1], 0);
    expect("place after the list", back[2], 7);
}

static void expect_run(Study study, const uint8_t *day, uint64_t taken, uint64_t stopped)
{
    uint64_t figures[3] = {7, 7, 7};
    expect("run", study_run(study.words, WORDS, study.speeds, SPEEDS, day, DAY_BYTES, figures, 3), 0);
    expect("rows taken", figures[0], taken);
    expect("stopped by", figures[1], stopped);
    expect("word after the run", figures[2], 7);
}

/* The listing as a run of two rows, then one whose second row is refused: it ends after the first. */
static void runs(Study study, uint8_t *day)
{
    uint64_t figures[2];
    uint64_t *words = study.words;
    expect("recall before the run", recall(study, START), 0);
    expect("run, room", study_run(words, WORDS, study.speeds, SPEEDS, day, DAY_BYTES, figures, 1), 24);
    expect("run, length", study_run(words, WORDS, study.speeds, SPEEDS, day, DAY_BYTES - 1, figures, 2), 26);
    expect("run, mark", study_run(words, WORDS, study.speeds, SPEEDS, study.file, FILE_BYTES, figures, 2), 25);
    expect_case(study, 0, listing[0]);
    expect_run(study, day, 2, 0);
    expect_case(study, 0, listing[2]);
    expect_segment(study, 97500.0, 8444, 3000);
    expect("recall before the second run", recall(study, START), 0);
    put32(day + 12, 1000001);
    expect_run(study, day, 1, 15);
    expect_case(study, 0, listing[1]);
}

/* T 10, tau 20, nu 60, kappa 40, delta 122, one curve all 100,000. Segments 1 and 2 enter 3, which parts into 4 and 5: 333
 * thousandths of what its off-ramp leaves go to 4. All are L 500, H 2, C 30, J 180. It is tests/junction.fwn. */
static void build_junction(uint8_t *file)
{
    static const uint8_t head[16] = {'F', 'W', 'N', 0, 2, 10, JUNCTION_SEGMENTS, 1, 20, 60, 40, 0, 0, 122};
    static const uint16_t most[JUNCTION_SEGMENTS] = {6000, 4000, 2000, 0, 0};
    static const uint8_t followers[JUNCTION_SEGMENTS][2] = {{3, 0}, {3, 0}, {4, 5}, {0, 0}, {0, 0}};
    memcpy(file, head, 16);
    for (int entry = 0; entry < 201; entry++)
        put32(file + 16 + 4 * entry, 100000);
    for (int i = 0; i < JUNCTION_SEGMENTS; i++) {
        uint8_t *bytes = file + RECORD_AT(i + 1);
        const uint8_t record[16] = {500 >> 8, 500 & 255, 2, 0, 30, 180, most[i] != 0, 0, 0, i == 2 ? 77 : 0};
        const uint16_t share = i == 2 ? 333 : 1000;
        memcpy(bytes, record, 16);
        put32(bytes + 10, most[i]);
        memcpy(bytes + 16, followers[i], 2);
        bytes[18] = (uint8_t)(share >> 8);
        bytes[19] = (uint8_t)share;
    }
}

/* A follower that is not higher, and a segment that nothing enters, are told with their places. */
static void junction_places(uint8_t *file)
{
    uint64_t place[4];
    expect("junction, check", network_check(file, JUNCTION_BYTES), 0);
    file[RECORD_AT(3) + 17] = 3;
    expect("junction, follower", network_check(file, JUNCTION_BYTES), 27);
    expect("place of 27", network_place(file, JUNCTION_BYTES, place, 4), 0);
    expect("number of 27", place[0], 27);
    expect("record of 27", place[1], 2);
    expect("condition of 27", place[2], 0);
    expect("byte of 27", place[3], RECORD_AT(3) + 17);
    file[RECORD_AT(3) + 17] = 5;
    file[RECORD_AT(2) + 6] = 0;
    put32(file + RECORD_AT(2) + 10, 0);
    expect("place of 28", network_place(file, JUNCTION_BYTES, place, 4), 0);
    expect("number of 28", place[0], 28);
    expect("segment of 28", place[1], 1);
    expect("byte of 28", place[3], RECORD_AT(2) + 6);
    build_junction(file);
}

/* The queue at segment 3 never drains, or has gone after a number of steps from the least up to the most permitted. */
static void expect_drain(uint64_t *words, double *speeds, uint64_t never, uint64_t least, uint64_t most)
{
    uint64_t figures[3] = {7, 7, 7};
    uint64_t refused = study_drain(words, JUNCTION_WORDS, speeds, JUNCTION_SPEEDS, 0, 3, figures, 1);
    expect("drain, room", refused, 24);
    expect("figures stay", figures[0], 7);
    expect("drain", study_drain(words, JUNCTION_WORDS, speeds, JUNCTION_SPEEDS, 0, 3, figures, 3), 0);
    expect("never drains", figures[0], never);
    expect("steps to drain", least <= figures[1] && figures[1] <= most, 1);
    expect("word after the drain", figures[2], 7);
}

/* 1,000 mv wait: the ramp is open with Q 2,000, then fixed at 300, 250 and 0, then open again. */
static void junction_drains(uint64_t *words, double *speeds)
{
    const size_t w = JUNCTION_WORDS, v = JUNCTION_SPEEDS;
    expect_drain(words, speeds, 0, 1, 1);
    expect("fixed at 300", study_meter_fixed(words, w, speeds, v, 3, 300), 0);
    expect_drain(words, speeds, 0, 4, 4);
    expect("fixed at 250", study_meter_fixed(words, w, speeds, v, 3, 250), 0);
    expect_drain(words, speeds, 0, 4, 5);
    expect("fixed at 0", study_meter_fixed(words, w, speeds, v, 3, 0), 0);
    expect_drain(words, speeds, 1, 0, 0);
    expect("open again", study_meter_open(words, w, speeds, v, 3), 0);
}

/* One step on the junction, worked out by hand: what enters 3 is what leaves 1 and 2, what leaves 3 parts. */
static void junction_step(uint64_t *words, double *speeds)
{
    static const uint32_t arrivals[JUNCTION_SEGMENTS] = {3000, 5000, 500, 0, 0};
    static const uint64_t counts[JUNCTION_SEGMENTS] = {33000, 34000, 61500, 8629, 24157};
    static const uint64_t listed[6] = {1, 161286, 1000, 8500, 770 + 4444 + 12000, 1710000};
    uint64_t figures[7];
    expect("junction, step", study_step(words, JUNCTION_WORDS, speeds, JUNCTION_SPEEDS, arrivals, 5), 0);
    expect("junction, report", study_report(words, JUNCTION_WORDS, speeds, JUNCTION_SPEEDS, 0, figures, 6), 0);
    for (int i = 0; i < 6; i++)
        expect("junction, figure", figures[i], listed[i]);
    for (uint64_t i = 0; i < JUNCTION_SEGMENTS; i++) {
        uint64_t refused = study_report_segment(words, JUNCTION_WORDS, speeds, JUNCTION_SPEEDS, 0, i + 1, figures, 7);
        expect("junction, segment report", refused, 0);
        expect("junction, N", figures[0], counts[i]);
    }
}

/* Freeways that meet and part: a study on the network, a step, its meters, and the file in its own version. */
static void junction(void)
{
    static const uint32_t mvs[JUNCTION_SEGMENTS] = {60000, 40000, 30000, 10000, 30000};
    static const uint32_t initial[JUNCTION_SEGMENTS] = {90000, 45000, 60000, 80000, 72000};
    static const uint32_t queues[JUNCTION_SEGMENTS] = {0, 0, 1000, 0, 0};
    const size_t w = JUNCTION_WORDS, v = JUNCTION_SPEEDS;
    uint64_t *words = lend(w * sizeof *words);
    double *speeds = lend(v * sizeof *speeds);
    uint8_t *file = lend(JUNCTION_BYTES), *out = lend(JUNCTION_BYTES);
    build_junction(file);
    junction_places(file);
    expect("junction, start", study_start(words, w, speeds, v, file, JUNCTION_BYTES, mvs, 5, initial, 5, queues, 5), 0);
    expect("version", words[7], 2);
    junction_drains(words, speeds);
    junction_step(words, speeds);
    expect("meter with none before", study_meter_open(words, w, speeds, v, 2), 19);
    expect("meter where two enter", study_meter_fixed(words, w, speeds, v, 3, 500), 0);
    expect("junction, write, room", study_write(words, w, speeds, v, out, JUNCTION_BYTES - 1), 24);
    expect("junction, bytes stay", out[0], 0xa5);
    expect("junction, write", study_write(words, w, speeds, v, out, JUNCTION_BYTES), 0);
    expect("junction, file", (uint64_t)memcmp(out, file, JUNCTION_BYTES), 0);
    free(words);
    free(speeds);
    free(file);
    free(out);
}

int main(void)
{
    Study study = {lend(WORDS * sizeof(uint64_t)), lend(SPEEDS * sizeof(double)), lend(FILE_BYTES)};
    uint8_t *day = lend(DAY_BYTES);
    const uint64_t no_number = 0x7ff0deadfeedbeef;
    memcpy(study.speeds + EMPTY, &no_number, sizeof no_number);
    build_file(study.file);
    expect("check", network_check(study.file, FILE_BYTES), 0);
    expect("step before start", step(study, 0), 12);
    tallies(study);
    slots(study);
    refusals(study);
    signs(study);
    start_case(study);
    arrangement(study);
    writing(study);
    survey(day);
    runs(study, day);
    junction();
    expect("NaN in an empty slot", (uint64_t)memcmp(study.speeds + EMPTY, &no_number, sizeof no_number), 0);
    free(study.words);
    free(study.speeds);
    free(study.file);
    free(day);
    if (differences == 0)
        puts("tallies: every figure as in document 01");
    return differences == 0 ? 0 : 1;
}
