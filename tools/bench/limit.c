/* How near reading can come to memcpy's speed: plain C loops that judge records and then take their values out, for N and for C with
   eight words only, with none of the letters, stages and counts of a whole file. tools/bench/limit.sh runs it. */
#include <stdint.h>
#include <stdio.h>
#include <stdlib.h>
#include <string.h>
#include <time.h>

enum { RECORD = 32, RECORDS = 32768, RUNS = 300 };

static double now(void) {
    struct timespec t;
    clock_gettime(CLOCK_MONOTONIC, &t);
    return t.tv_sec * 1e9 + t.tv_nsec;
}

static uint64_t eight(const uint8_t *p) {
    uint64_t v;
    memcpy(&v, p, 8);
    return v;
}

/* Every record is a right N. */
__attribute__((noinline)) static int judge_nodes(const uint8_t *b) {
    for (size_t i = 0; i < RECORDS; i++)
        if (eight(b + RECORD * i) != 'N') return 0;
    return 1;
}

/* Coordinates, a NaN's pattern as the one NaN. */
__attribute__((noinline)) static void fill_nodes(const uint8_t *b, uint64_t *coords) {
    for (size_t i = 0; i < RECORDS; i++)
        for (size_t k = 0; k < 3; k++) {
            uint64_t v = eight(b + RECORD * i + 8 + 8 * k);
            if ((v & 0x7fffffffffffffff) > 0x7ff0000000000000) v = 0x7ff8000000000000;
            coords[3 * i + k] = v;
        }
}

/* Every record is a right C with eight words. */
__attribute__((noinline)) static int judge_cells(const uint8_t *b) {
    for (size_t i = 0; i < RECORDS; i++) {
        const uint8_t *r = b + RECORD * i;
        uint64_t head = eight(r);
        if ((head & 0xffff00ff) != ('C' | 8 << 16)) return 0;
        if (eight(r + 16) >> 32 | eight(r + 24)) return 0;
    }
    return 1;
}

/* Kinds, ends and words, 65,535 as the separator. */
__attribute__((noinline)) static void fill_cells(const uint8_t *restrict b, uint8_t *restrict kinds, uint32_t *restrict ends,
                                                 uint32_t *restrict words) {
    for (size_t i = 0; i < RECORDS; i++) {
        const uint8_t *r = b + RECORD * i;
        kinds[i] = r[1];
        for (size_t j = 0; j < 8; j++) {
            uint16_t w;
            memcpy(&w, r + 4 + 2 * j, 2);
            words[8 * i + j] = w == 65535 ? UINT32_MAX : w;
        }
        ends[i] = 8 * (uint32_t)(i + 1);
    }
}

int main(void) {
    uint8_t *nodes = calloc(RECORDS, RECORD), *cells = calloc(RECORDS, RECORD), *copy = calloc(RECORDS, RECORD);
    uint64_t *coords = calloc(RECORDS, 24);
    uint8_t *kinds = calloc(RECORDS, 1);
    uint32_t *ends = calloc(RECORDS, 4), *words = calloc(RECORDS, 32);
    double best[3] = {1e18, 1e18, 1e18};
    int right = 1;
    if (!nodes || !cells || !copy || !coords || !kinds || !ends || !words) return 2;
    for (size_t i = 0; i < RECORDS; i++) {
        double x = 0.5 * (double)i;
        nodes[RECORD * i] = 'N';
        for (size_t k = 1; k < 4; k++) memcpy(nodes + RECORD * i + 8 * k, &x, 8);
        memcpy(cells + RECORD * i, "C\2\10", 3);
        for (size_t j = 4; j < 20; j++) cells[RECORD * i + j] = (uint8_t)(i + j);
    }
    for (int run = 0; run < RUNS; run++) {
        double t0 = now();
        memcpy(copy, nodes, RECORDS * RECORD);
        double t1 = now();
        right &= judge_nodes(nodes);
        fill_nodes(nodes, coords);
        double t2 = now();
        right &= judge_cells(cells);
        fill_cells(cells, kinds, ends, words);
        double t3 = now(), took[3] = {t1 - t0, t2 - t1, t3 - t2};
        for (int k = 0; k < 3; k++)
            if (took[k] < best[k]) best[k] = took[k];
    }
    if (!right || copy[0] != 'N' || coords[3] == 0 || ends[1] != 16 || words[0] == 0 || kinds[0] != 2) return 1;
    printf("nanoseconds a record: memcpy %.2f, nodes %.2f, cells of eight words %.2f\n", best[0] / RECORDS, best[1] / RECORDS,
           best[2] / RECORDS);
    printf("of memcpy's speed: nodes %.2f, cells of eight words %.2f\n", best[0] / best[1], best[0] / best[2]);
    return 0;
}
