/* Checks a model file and prints its report as the program does: a line a finding and `total T kept K`, or `CONFORM`, or `refused R`.
 *
 *   check_file FILE                a file of any size, with all the memory that its model needs and its cap asks for
 *   check_file --as-program FILE   the same operations, with no more memory than the program has
 *   check_file --run FILE          the program's whole run, by lenoshale_run
 *
 * The first way differs from the program only where the program's own limits apply: input over 32,768 bytes, more than 16,384 words of
 * work, more than 512 findings kept.
 *
 *   (cd crates/capi && rt lib) && gcc -std=c11 -Wall -Wextra -Iinclude -o check_file examples/check_file.c crates/capi/out/libcapi.a */
#include "lenoshale.h"

#include <stdio.h>
#include <stdlib.h>
#include <string.h>

/* A model in lent lists, and what its file says besides them. */
struct model {
    double *coords;
    uint8_t *kinds;
    uint32_t *ends, *words;
    uint64_t node_count, cell_count, word_count;
    double tolerance;
    uint8_t flags;
    uint16_t cap;
};

static void fail(const char *what) {
    fprintf(stderr, "check_file: %s\n", what);
    exit(2);
}

/* Memory for `count` elements, never null. */
static void *lend(uint64_t count, size_t size) {
    void *p = calloc(count ? count : 1, size);
    if (!p) fail("out of memory");
    return p;
}

/* All bytes of a file. */
static uint8_t *load(const char *name, size_t *len) {
    FILE *f = fopen(name, "rb");
    if (!f) fail("the file cannot be opened");
    size_t room = 65536, got;
    uint8_t *bytes = lend(room, 1);
    *len = 0;
    while ((got = fread(bytes + *len, 1, room - *len, f)) > 0) {
        *len += got;
        if (*len < room) continue;
        room *= 2;
        bytes = realloc(bytes, room);
        if (!bytes) fail("out of memory");
    }
    if (ferror(f)) fail("the file cannot be read");
    fclose(f);
    return bytes;
}

static void print_bytes(const uint8_t *text, uint64_t size) {
    if (fwrite(text, 1, size, stdout) != size) fail("the report cannot be written");
}

/* Reads a file into lists that are long enough for any file of its length. */
static uint32_t read_model(const uint8_t *bytes, size_t len, struct model *m) {
    size_t n = len / LENOSHALE_RECORD_BYTES;
    if (n > LENOSHALE_RECORDS) n = LENOSHALE_RECORDS;
    m->coords = lend(3 * n, sizeof *m->coords);
    m->kinds = lend(n, sizeof *m->kinds);
    m->ends = lend(n, sizeof *m->ends);
    m->words = lend(LENOSHALE_RECORD_WORDS * n, sizeof *m->words);
    return lenoshale_read(bytes, len, m->coords, 3 * n, m->kinds, n, m->ends, n, m->words, LENOSHALE_RECORD_WORDS * n, &m->node_count,
                          &m->cell_count, &m->word_count, &m->tolerance, &m->flags, &m->cap);
}

static void free_model(struct model *m) {
    free(m->coords);
    free(m->kinds);
    free(m->ends);
    free(m->words);
}

/* Checks a model with room for `records` findings and `need` words of work, and prints the report. */
static uint32_t check_model(const struct model *m, uint64_t records, uint64_t need) {
    uint64_t total = 0, kept = 0, size = 0;
    uint8_t *findings = lend(records, LENOSHALE_FINDING_BYTES);
    uint32_t *work = lend(need, sizeof *work);
    uint32_t answer =
        lenoshale_check(m->coords, 3 * m->node_count, m->kinds, m->cell_count, m->ends, m->cell_count, m->words, m->word_count,
                        m->tolerance, m->flags, m->cap, findings, records * LENOSHALE_FINDING_BYTES, work, need, &total, &kept);
    if (answer == 0) {
        uint64_t room = kept * LENOSHALE_LINE_BYTES + LENOSHALE_TOTALS_BYTES;
        uint8_t *text = lend(room, 1);
        answer = lenoshale_report(findings, records * LENOSHALE_FINDING_BYTES, total, kept, text, room, &size);
        if (answer == 0) print_bytes(text, size);
        free(text);
    }
    free(work);
    free(findings);
    return answer;
}

/* A file's report, with what its model needs or, as the program, with what the program has. */
static uint32_t check_bytes(const uint8_t *bytes, size_t len, int as_program) {
    struct model m;
    uint64_t need = 0, ring_words = 0, faces = 0;
    if (as_program && len > LENOSHALE_RUN_INPUT) return LENOSHALE_REFUSED_LENGTH;
    uint32_t answer = read_model(bytes, len, &m);
    if (answer == 0 && as_program) {
        answer = check_model(&m, LENOSHALE_RUN_FINDINGS, LENOSHALE_RUN_WORK);
    } else if (answer == 0) {
        answer = lenoshale_work_needed(m.coords, 3 * m.node_count, m.kinds, m.cell_count, m.ends, m.cell_count, m.words, m.word_count,
                                       m.tolerance, m.flags, &need, &ring_words, &faces);
        if (answer == 0) answer = check_model(&m, m.cap, need);
    }
    free_model(&m);
    return answer;
}

/* The program's whole run. */
static uint32_t run_bytes(const uint8_t *bytes, size_t len) {
    uint64_t size = 0;
    uint8_t *out = lend(LENOSHALE_RUN_OUTPUT, 1);
    uint32_t answer = lenoshale_run(bytes, len, out, LENOSHALE_RUN_OUTPUT, &size);
    if (answer == 0) print_bytes(out, size);
    free(out);
    return answer;
}

int main(int argc, char **argv) {
    int as_program = argc == 3 && strcmp(argv[1], "--as-program") == 0;
    int run = argc == 3 && strcmp(argv[1], "--run") == 0;
    if (argc != 2 && !as_program && !run) fail("usage: check_file [--as-program | --run] FILE");
    size_t len;
    uint8_t *bytes = load(argv[argc - 1], &len);
    uint32_t answer = run ? run_bytes(bytes, len) : check_bytes(bytes, len, as_program);
    if (answer) printf("refused %u\n", (unsigned)answer);
    free(bytes);
    return fflush(stdout) ? 2 : 0;
}
