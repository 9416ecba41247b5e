/* How deep the stack goes in each function of the library: each runs in a thread whose stack was painted before. docs: include/lenoshale.h.
 *   stack FILE...   for each function the most bytes over these model files */
#include <pthread.h>
#include <stdio.h>
#include <stdlib.h>
#include <string.h>
#include <sys/mman.h>

#include "lenoshale.h"

#define STACK (8u << 20)
#define PAINT 0xA5
#define FILE_BYTES 4194304
#define FINDINGS 65535
#define NAMES 13

static const char *const names[NAMES] = {"nothing", "check", "read", "write", "work_needed", "fill_ring_lists", "ring_lookup",
                                         "face_owners", "weld", "area_test", "root", "report", "run"};
static double coords[3 * LENOSHALE_NODES];
static uint8_t kinds[LENOSHALE_CELLS], file[FILE_BYTES], findings[64 * FINDINGS], out[LENOSHALE_RUN_OUTPUT];
static uint32_t ends[LENOSHALE_CELLS], words[LENOSHALE_WORDS];
static uint32_t *work, *raw, *welded, *map, *scratch;
static uint64_t nodes, cells, n, need, rings, faces;
static size_t file_len;
static unsigned char *stack;

#define MESH coords, 3 * nodes, kinds, cells, ends, cells, words, n, 1e-6
#define MODEL MESH, 3

static void *call(void *which) {
    uint64_t a, b, c;
    uint32_t k;
    double t;
    uint8_t flags;
    uint16_t cap;
    uint32_t three[3] = {0, 1, 2};
    switch (*(int *)which) {
    case 1: lenoshale_check(MODEL, FINDINGS, findings, sizeof findings, work, need, &a, &b); break;
    case 2: lenoshale_read(file, file_len, coords, 3 * LENOSHALE_NODES, kinds, LENOSHALE_CELLS, ends, LENOSHALE_CELLS, words,
                           LENOSHALE_WORDS, &a, &b, &c, &t, &flags, &cap); break;
    case 3: lenoshale_write(MODEL, 9, file, FILE_BYTES, &a); break;
    case 4: lenoshale_work_needed(MODEL, &a, &b, &c); break;
    case 5: lenoshale_fill_ring_lists(MODEL, raw, rings, welded, rings, work, need, &k); break;
    case 6: lenoshale_ring_lookup(MODEL, raw, rings, welded, rings, faces - 1, &a, &b); break;
    case 7: lenoshale_face_owners(MODEL, 0, raw, rings, &k); break;
    case 8: lenoshale_weld(MESH, map, nodes, scratch, 3 * nodes); break;
    case 9: lenoshale_area_test(coords, 3 * nodes, three, 3, 1e-6, &k); break;
    case 10: lenoshale_root(2.0, &t); break;
    case 11: lenoshale_report(findings, sizeof findings, 100, 100, out, sizeof out, &a); break;
    case 12: lenoshale_run(file, file_len < 32768 ? file_len : 32768, out, sizeof out, &a); break;
    }
    return NULL;
}

/* bytes of the painted stack that a call of function `which` has touched */
static size_t touched(int which) {
    memset(stack, PAINT, STACK);
    pthread_attr_t attributes;
    pthread_t thread;
    pthread_attr_init(&attributes);
    pthread_attr_setstack(&attributes, stack, STACK);
    pthread_create(&thread, &attributes, call, &which);
    pthread_join(thread, NULL);
    size_t i = 0;
    while (i < STACK && stack[i] == PAINT) i++;
    return STACK - i;
}

/* reads a model file and lends what it needs; 0 where it is refused */
static int take(const char *path) {
    uint64_t a, b, c;
    double t;
    uint8_t flags;
    uint16_t cap;
    FILE *f = fopen(path, "rb");
    if (!f) return 0;
    file_len = fread(file, 1, FILE_BYTES, f);
    fclose(f);
    if (lenoshale_read(file, file_len, coords, 3 * LENOSHALE_NODES, kinds, LENOSHALE_CELLS, ends, LENOSHALE_CELLS, words,
                       LENOSHALE_WORDS, &a, &b, &c, &t, &flags, &cap)) return 0;
    nodes = a, cells = b, n = c;
    if (lenoshale_work_needed(MODEL, &need, &rings, &faces)) return 0;
    work = calloc(need, 4), raw = calloc(rings, 4), welded = calloc(rings, 4), map = calloc(nodes, 4), scratch = calloc(3 * nodes, 4);
    return work && raw && welded && map && scratch;
}

int main(int argc, char **argv) {
    size_t most[NAMES] = {0};
    stack = mmap(NULL, STACK, PROT_READ | PROT_WRITE, MAP_PRIVATE | MAP_ANONYMOUS, -1, 0);
    for (int i = 1; i < argc; i++) {
        if (!take(argv[i])) {
            fprintf(stderr, "%s: not taken\n", argv[i]);
            return 1;
        }
        size_t none = touched(0);
        for (int which = 1; which < NAMES; which++) {
            size_t bytes = touched(which) - none;
            if (most[which] < bytes) most[which] = bytes;
        }
        free(work), free(raw), free(welded), free(map), free(scratch);
    }
    for (int which = 1; which < NAMES; which++) printf("%-16s %zu\n", names[which], most[which]);
    return 0;
}
