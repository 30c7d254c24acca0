/* Times cfdp_typed.h beside the bare functions of cfdp.h, by turns, and prints rows in Markdown as bench/src/timing.rs does: medians of
   501 samples of at least half a millisecond, their ratio, and that of the least times. */
#define _POSIX_C_SOURCE 199309L
#include <stdio.h>
#include <stdlib.h>
#include <time.h>

#include "cfdp_typed.h"

enum { SAMPLES = 501, SAMPLE_NS = 500000, MOST = 100 };

static uint8_t bytes[16 + 8 * MOST];
static size_t length, count;
static cfdp_normal_pair pairs[MOST];
static cfdp_header header;
static const cfdp_pair scope = {0, 9000000};
static volatile uint64_t sink;

static void read_raw(void) {
    uint64_t answer[CFDP_ANSWER_LEN], pair[2], asked = 0;
    cfdp_nak_read(bytes, length, answer);
    if (answer[CFDP_ANSWER_NUMBER] != CFDP_ACCEPTED)
        exit(1);
    const uint8_t *area = bytes + answer[CFDP_ANSWER_NAK_AREA];
    size_t area_len = answer[CFDP_ANSWER_NAK_STOP] - answer[CFDP_ANSWER_NAK_AREA];
    for (size_t i = 0; cfdp_nak_pair(area, area_len, answer[CFDP_ANSWER_LARGE] != 0, i, pair); i++)
        asked += pair[1] - pair[0];
    sink = asked;
}

static void read_typed(void) {
    cfdp_nak nak;
    cfdp_pair pair;
    uint64_t asked = 0;
    if (cfdp_nak_get(bytes, length, &nak).number != CFDP_ACCEPTED)
        exit(1);
    for (size_t i = 0; cfdp_nak_at(&nak, i, &pair); i++)
        asked += pair.end - pair.start;
    sink = asked;
}

static void write_raw(void) {
    static const uint8_t shape[CFDP_SHAPE_LEN] = {0, 0, 0, 0, 0, 0, 0, 1, 1, 1};
    static const uint64_t ids[CFDP_IDS_LEN] = {1, 2, 3};
    uint64_t answer[CFDP_ANSWER_LEN];
    cfdp_nak_write_normal(shape, ids, scope.start, scope.end, &pairs->start, 2 * count, bytes, sizeof bytes, answer);
    if (answer[CFDP_ANSWER_NUMBER] != CFDP_ACCEPTED)
        exit(1);
    sink = answer[CFDP_ANSWER_WRITTEN];
}

static void write_typed(void) {
    cfdp_written written;
    if (cfdp_nak_put_normal(&header, scope, pairs, count, bytes, sizeof bytes, &written).number != CFDP_ACCEPTED)
        exit(1);
    sink = written.length;
}

static double per_call(void (*call)(void), unsigned turns) {
    struct timespec from, to;
    clock_gettime(CLOCK_MONOTONIC, &from);
    for (unsigned i = 0; i < turns; i++)
        call();
    clock_gettime(CLOCK_MONOTONIC, &to);
    return (1e9 * (double)(to.tv_sec - from.tv_sec) + (double)(to.tv_nsec - from.tv_nsec)) / turns;
}

static int rising(const void *one, const void *other) {
    double a = *(const double *)one, b = *(const double *)other;
    return (a > b) - (a < b);
}

static void row(const char *what, void (*raw)(void), void (*typed)(void)) {
    static double of_raw[SAMPLES], of_typed[SAMPLES];
    unsigned turns = 1;
    while (per_call(raw, turns) * turns < SAMPLE_NS)
        turns *= 2;
    for (int k = 0; k < SAMPLES; k++) {
        if (k % 2 == 0)
            of_raw[k] = per_call(raw, turns);
        of_typed[k] = per_call(typed, turns);
        if (k % 2 != 0)
            of_raw[k] = per_call(raw, turns);
    }
    qsort(of_raw, SAMPLES, sizeof(double), rising);
    qsort(of_typed, SAMPLES, sizeof(double), rising);
    double a = of_raw[SAMPLES / 2], b = of_typed[SAMPLES / 2];
    printf("| C: %s %zu pair%s | %.1f | %.1f | %.2f | %.2f |\n", what, count, count == 1 ? "" : "s", a, b, b / a,
           of_typed[0] / of_raw[0]);
}

int main(void) {
    header = cfdp_header_new(1, 1, 3, 1, 2);
    for (uint32_t k = 0; k < MOST; k++) {
        pairs[k].start = 1000 * k;
        pairs[k].end = 1000 * k + 500;
    }
    for (count = 1; count <= MOST; count += MOST - 1) {
        row("write", write_raw, write_typed);
        length = (size_t)sink;
        row("read and walk", read_raw, read_typed);
    }
    return 0;
}
