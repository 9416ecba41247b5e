/* Times the check of two libraries in turn in one process, on the largest models: what the machine does from second to second then
 * meets both alike. See pair.sh, which names the two functions.
 *
 *   pair [MODEL]  a line for each model, or for that one, and tolerance: the ratio of the times, after to before, in each of PAIRS
 *                 pairs of calls: median and quartiles; and the median times in milliseconds
 *
 * The lent work is filled with 170 before each call, and that is not timed. Totals that differ are told. */
#include "lenoshale.h"
#include "models.h"

#include <stdint.h>
#include <stdio.h>
#include <stdlib.h>
#include <string.h>
#include <time.h>

enum { RECORDS = 65535, RECORD = 64, PAIRS = 121, UNTIMED = 3, FILL = 170 };

typedef uint32_t Check(const double *, size_t, const uint8_t *, size_t, const uint32_t *, size_t, const uint32_t *, size_t, double, uint8_t,
                       uint16_t, uint8_t *, size_t, uint32_t *, size_t, uint64_t *, uint64_t *);
Check check_before, check_after;

static const struct {
    const char *name;
    void (*build)(void);
} cases[] = {
    {"hexahedra", hexahedra}, {"tetrahedra", tetrahedra}, {"wedges", wedges}, {"hub_pyramids", hub_pyramids}, {"hub_tetrahedra", hub_tetrahedra},
    {"hub_rings", hub_rings}, {"one_cell", one_cell},     {"soup", soup},     {"tank", tank},                 {"loose", loose},
};

static double milliseconds(void) {
    struct timespec t;
    clock_gettime(CLOCK_MONOTONIC, &t);
    return 1e3 * (double)t.tv_sec + 1e-6 * (double)t.tv_nsec;
}

static int by_size(const void *a, const void *b) {
    double x = *(const double *)a, y = *(const double *)b;
    return (x > y) - (x < y);
}

static double times[2][PAIRS], ratios[PAIRS];

/* One call, after the work is filled; its milliseconds. */
static double call(Check *check, double tolerance, uint8_t *findings, uint32_t *work, size_t need, uint64_t *total) {
    uint64_t kept;
    memset(work, FILL, 4 * need);
    double start = milliseconds();
    uint32_t answer = check(coords, 3 * nodes, kinds, cells, ends, cells, words, count, tolerance, 3, RECORDS, findings, RECORD * RECORDS, work,
                            need, total, &kept);
    double took = milliseconds() - start;
    if (answer != 0) {
        fprintf(stderr, "refused %u\n", answer);
        exit(1);
    }
    return took;
}

static void measure(const char *name, double tolerance, uint8_t *findings) {
    uint64_t wanted, ring_words, faces, totals[2] = {0, 0};
    if (lenoshale_work_needed(coords, 3 * nodes, kinds, cells, ends, cells, words, count, tolerance, 3, &wanted, &ring_words, &faces) != 0) exit(1);
    uint32_t *work = malloc(4 * wanted);
    if (work == NULL) exit(1);
    for (int i = -UNTIMED; i < PAIRS; i++) {
        double took[2];
        for (int j = 0; j < 2; j++) {
            int after = (i + j) & 1;
            took[after] = call(after ? check_after : check_before, tolerance, findings, work, wanted, &totals[after]);
        }
        if (i < 0) continue;
        for (int j = 0; j < 2; j++) times[j][i] = took[j];
        ratios[i] = took[1] / took[0];
    }
    free(work);
    qsort(ratios, PAIRS, sizeof *ratios, by_size);
    for (int j = 0; j < 2; j++) qsort(times[j], PAIRS, sizeof *times[j], by_size);
    printf("%-15s %9g  ratio %.3f (%.3f to %.3f)  %8.2f then %8.2f ms%s\n", name, tolerance, ratios[PAIRS / 2], ratios[PAIRS / 4],
           ratios[3 * PAIRS / 4], times[0][PAIRS / 2], times[1][PAIRS / 2], totals[0] == totals[1] ? "" : "  TOTALS DIFFER");
    fflush(stdout);
}

int main(int argc, char **argv) {
    static const double tolerances[] = {0, 1e-6};
    uint8_t *findings = malloc(RECORD * RECORDS);
    if (findings == NULL) return 1;
    for (size_t i = 0; i < sizeof cases / sizeof *cases; i++) {
        if (argc > 1 && strcmp(argv[1], cases[i].name) != 0) continue;
        nodes = cells = count = 0;
        cases[i].build();
        for (size_t t = 0; t < 2; t++) measure(cases[i].name, tolerances[t], findings);
    }
    free(findings);
    return 0;
}
