/* Times the check on the largest models of document 01.
 *
 *   bench [MODEL]      a line for each model, or for that one, tolerance and cap: best of five calls, in milliseconds
 *   bench --write DIR  writes the models as files into DIR, to time another checker on the same ones
 *   bench --file FILE  reads the file and writes it again, once, and compares: to count instructions
 *
 * Before each call the lent work and findings are filled with 170, and that is not timed. After it the answer, the total and the lent
 * memory are compared with what is promised; the driver ends with 1 where something differs. */
#include "lenoshale.h"
#include "models.h"

#include <math.h>
#include <stddef.h>
#include <stdint.h>
#include <stdio.h>
#include <stdlib.h>
#include <string.h>
#include <time.h>

enum { RECORDS = 65535, RECORD = 64, FILE_RECORD = 32, FILE_RECORDS = 131072, RUNS = 5, FILL = 170 };

/* ---- what is counted of a model */

static size_t faces, ring_words;

static void count_run(size_t run) {
    if (run < 3) return;
    faces++;
    ring_words += run;
}

static void count_faces(void) {
    static const size_t f[] = {0, 4, 6, 5}, r[] = {0, 12, 24, 18};
    size_t start = 0;
    faces = ring_words = 0;
    for (size_t c = 0; c < cells; start = ends[c++]) {
        if (kinds[c] != LENOSHALE_PHED) {
            faces += f[kinds[c]];
            ring_words += r[kinds[c]];
            continue;
        }
        size_t run = 0;
        for (size_t i = start; i < ends[c]; i++)
            if (words[i] != LENOSHALE_SEPARATOR) run++;
            else count_run(run), run = 0;
        count_run(run);
    }
}

static size_t work_needed(void) { return 8 * ring_words + 4 * faces + 8 * cells + 4 * nodes + 4 * count + 16; }

/* ---- the models; totals are those of the Rust reference */

typedef struct {
    const char *name;
    void (*build)(void);
    uint64_t total;
} Case;

static const Case cases[] = {
    {"hexahedra", hexahedra, 0},           {"tetrahedra", tetrahedra, 0}, {"wedges", wedges, 0},  {"hub_pyramids", hub_pyramids, 1590},
    {"hub_tetrahedra", hub_tetrahedra, 0}, {"hub_rings", hub_rings, 0},   {"one_cell", one_cell, 0}, {"soup", soup, 10252},
    {"tank", tank, 4064},                  {"loose", loose, 0},
};

static const double tolerances[] = {0, 1e-6};
static const uint32_t caps[] = {0, RECORDS};

static void build(const Case *c) {
    nodes = cells = count = 0;
    c->build();
    count_faces();
}

/* ---- timing */

static double milliseconds(void) {
    struct timespec t;
    clock_gettime(CLOCK_MONOTONIC, &t);
    return (double)t.tv_sec * 1e3 + (double)t.tv_nsec / 1e6;
}

/* Bytes from p on that are v. */
static int all(const uint8_t *p, size_t n, uint8_t v) {
    for (size_t i = 0; i < n; i++)
        if (p[i] != v) return 0;
    return 1;
}

/* What is wrong with an answer; 0 for nothing. */
static const char *wrong(const Case *c, uint32_t answer, uint64_t total, uint64_t kept, uint32_t cap, const uint8_t *lent, const uint32_t *work) {
    size_t need = 4 * work_needed();
    if (answer != 0) return "refused";
    if (total != c->total) return "another total";
    if (kept != (total < cap ? total : cap)) return "another number kept";
    if (!all((const uint8_t *)work, need, 0)) return "work not zero";
    if (!all(lent + RECORD * kept, RECORD * (RECORDS - kept), FILL)) return "findings changed behind those kept";
    return NULL;
}

static int measure(const Case *c, double tolerance, uint32_t cap, uint8_t *lent) {
    size_t need = work_needed();
    uint32_t *work = malloc(4 * need), answer = 0;
    uint64_t total = 0, kept = 0;
    double best = INFINITY;
    if (work == NULL) over("words of work");
    for (int run = 0; run < RUNS; run++) {
        memset(work, FILL, 4 * need);
        memset(lent, FILL, RECORD * RECORDS);
        double start = milliseconds();
        answer = lenoshale_check(coords, 3 * nodes, kinds, cells, ends, cells, words, count, tolerance, 3, cap, lent, RECORD * RECORDS, work,
                                 need, &total, &kept);
        double took = milliseconds() - start;
        if (took < best) best = took;
    }
    const char *fault = wrong(c, answer, total, kept, cap, lent, work);
    printf("%-15s %6zu %7zu %9g %6u", c->name, cells, faces, tolerance, cap);
    if (answer == 0) printf(" %8llu %6llu", (unsigned long long)total, (unsigned long long)kept);
    else printf("        refused %u", answer);
    printf(" %10.2f%s%s\n", best, fault ? "  WRONG: " : "", fault ? fault : "");
    fflush(stdout);
    free(work);
    return fault != NULL;
}

/* All models, or the one of that name. */
static int measure_all(const char *only) {
    uint8_t *lent = malloc(RECORD * RECORDS);
    int faults = 0;
    if (lent == NULL) over("findings");
    printf("%-15s %6s %7s %9s %6s %8s %6s %10s\n", "model", "cells", "faces", "tolerance", "cap", "total", "kept", "ms");
    for (size_t i = 0; i < sizeof cases / sizeof *cases; i++) {
        if (only != NULL && strcmp(only, cases[i].name) != 0) continue;
        build(&cases[i]);
        for (size_t t = 0; t < 2; t++)
            for (size_t k = 0; k < 2; k++) faults += measure(&cases[i], tolerances[t], caps[k], lent);
    }
    free(lent);
    return faults != 0;
}

/* ---- model files (docs/FORMAT.md), on a little-endian machine */

static void write_cell(FILE *f, size_t from, size_t to, uint8_t kind) {
    for (size_t i = from; i == from || i < to; i += 14) {
        uint8_t r[32] = {i == from ? 67 : 75, i == from ? kind : 0, (uint8_t)(to - i < 14 ? to - i : 14)};
        for (size_t j = 0; j < r[2]; j++) {
            r[4 + 2 * j] = (uint8_t)words[i + j];
            r[5 + 2 * j] = (uint8_t)(words[i + j] >> 8);
        }
        fwrite(r, 32, 1, f);
    }
}

static void write_model(FILE *f, double tolerance) {
    for (size_t i = 0; i < nodes; i++) {
        uint8_t r[32] = {78};
        memcpy(r + 8, coords + 3 * i, 24);
        fwrite(r, 32, 1, f);
    }
    for (size_t c = 0; c < cells; c++) write_cell(f, c == 0 ? 0 : ends[c - 1], ends[c], kinds[c]);
    uint8_t last[32] = {84, 3, 255, 255};
    memcpy(last + 8, &tolerance, 8);
    fwrite(last, 32, 1, f);
}

static int write_all(const char *dir) {
    for (size_t i = 0; i < sizeof cases / sizeof *cases; i++) {
        build(&cases[i]);
        for (size_t t = 0; t < 2; t++) {
            char path[4096];
            snprintf(path, sizeof path, "%s/%s-%g.bin", dir, cases[i].name, tolerances[t]);
            FILE *f = fopen(path, "wb");
            if (f == NULL) return perror(path), 2;
            write_model(f, tolerances[t]);
            if (fclose(f) != 0) return perror(path), 2;
        }
    }
    return 0;
}

static int read_and_write(const char *path) {
    static uint8_t bytes[FILE_RECORD * FILE_RECORDS], again[sizeof bytes];
    uint64_t n = 0, c = 0, w = 0, size = 0;
    double tolerance = 0;
    uint8_t flags = 0;
    uint16_t cap = 0;
    FILE *f = fopen(path, "rb");
    if (f == NULL) return perror(path), 2;
    size_t length = fread(bytes, 1, sizeof bytes, f);
    fclose(f);
    uint32_t answer = lenoshale_read(bytes, length, coords, 3 * NODES, kinds, CELLS, ends, CELLS, words, WORDS, &n, &c, &w, &tolerance, &flags, &cap);
    if (answer == 0) answer = lenoshale_write(coords, 3 * n, kinds, c, ends, c, words, w, tolerance, flags, cap, again, sizeof again, &size);
    if (answer != 0) return printf("refused %u\n", answer), 1;
    if (size != length || memcmp(bytes, again, length) != 0) return printf("WRONG: other bytes\n"), 1;
    printf("%zu records read and written\n", length / FILE_RECORD);
    return 0;
}

int main(int argc, char **argv) {
    if (argc == 1) return measure_all(NULL);
    if (argc == 2 && argv[1][0] != '-') return measure_all(argv[1]);
    if (argc == 3 && strcmp(argv[1], "--write") == 0) return write_all(argv[2]);
    if (argc == 3 && strcmp(argv[1], "--file") == 0) return read_and_write(argv[2]);
    fprintf(stderr, "usage: bench [MODEL | --write DIR | --file FILE]\n");
    return 2;
}
