/* Lenoshale for C and C++: every operation of document 01, from the static library of crate capi (`rt lib` in crates/capi).
 *
 * Each function answers 0, or the number of a refusal. At a refusal nothing that was lent has changed. Where it answers 0, nothing
 * has changed beyond the parts named here. No function allocates, keeps a pointer, or reads or writes anything else.
 *
 * A list is a pointer and its length in elements. What a caller owes: no pointer is null, not even that of an empty list; each is
 * aligned for its type and has that many elements; what is written overlaps no other argument; no other thread writes to what is lent.
 *
 * A model is coords (three a node), kinds and ends (one a cell; an end is the place after the cell's last word), words, tolerance and
 * flags. Nodes, cells and faces are numbered from 0. docs/MANUAL.md says what findings and refusals mean.
 *
 * A float that is read from a file or lent may be a NaN of any pattern: every NaN is taken for the one NaN. No accepted model has one.
 *
 * Stack, in bytes, the most that was measured on the largest models (tools/bench/stack.sh, rattle-kit-13f): run 189,656; check
 * 6,392; fill_ring_lists 1,632; weld 1,424; face_owners 1,512; area_test 1,160; root 920; each other function under 500. */
#ifndef LENOSHALE_H
#define LENOSHALE_H

#include <stddef.h>
#include <stdint.h>

#ifdef __cplusplus
extern "C" {
#endif

/* The interface that this header declares: another number where the arguments or the meaning of a function change. A program can hold
 * it against what lenoshale_version() answers of the library that it is linked with. Of 2: lenoshale_weld takes the cells. */
#define LENOSHALE_VERSION 2

/* kinds of cells, in the order in which they must stand, and the word that separates the rings of a PHED */
#define LENOSHALE_TET4 1
#define LENOSHALE_HEX8 2
#define LENOSHALE_WEDGE6 3
#define LENOSHALE_PHED 4
#define LENOSHALE_SEPARATOR UINT32_C(4294967295)

/* check flags: findings of kinds 2, 3 and 4; of kind 1 */
#define LENOSHALE_TOPOLOGY 1
#define LENOSHALE_BUTTERFLY 2

/* kinds of findings: byte 0 of a record */
#define LENOSHALE_BOW_TIE 1
#define LENOSHALE_OVERFULL 2
#define LENOSHALE_PARTLY_SHARED 3
#define LENOSHALE_REPEATED 4

/* what the area test says */
#define LENOSHALE_AREA_TOO_FEW 0
#define LENOSHALE_AREA_TOGETHER 1
#define LENOSHALE_AREA_NO_DIRECTION 2
#define LENOSHALE_AREA_THIN 3
#define LENOSHALE_AREA_SPANS 4

/* refusals */
#define LENOSHALE_REFUSED_LENGTH 1       /* a file's length */
#define LENOSHALE_REFUSED_LETTER 2       /* a record's letter or place, or no T last */
#define LENOSHALE_REFUSED_RECORD 3       /* a record's count or zero bytes */
#define LENOSHALE_REFUSED_ROOM 4         /* a lent list is too short; ring lookup: not R words */
#define LENOSHALE_REFUSED_SHAPE 5        /* a limit, or lists that do not fit together */
#define LENOSHALE_REFUSED_TOLERANCE 6    /* not finite, or below zero */
#define LENOSHALE_REFUSED_COORDINATE 7   /* not finite, or beyond 1,000,000 */
#define LENOSHALE_REFUSED_NO_CELLS 8     /* no cells */
#define LENOSHALE_REFUSED_CELL 9         /* a cell's kind, kind order, words, nodes or ring length */
#define LENOSHALE_REFUSED_FLAGS 10       /* flags over 3 */
#define LENOSHALE_REFUSED_WORK 11        /* work too short */
#define LENOSHALE_REFUSED_FACE 12        /* no such face; area test: the nodes */
#define LENOSHALE_REFUSED_ROOT 13        /* a NaN, or below zero */

/* limits of a model and of its file, and sizes */
#define LENOSHALE_NODES 65535
#define LENOSHALE_CELLS 16384
#define LENOSHALE_WORDS 262144
#define LENOSHALE_RING 64                /* nodes in a ring, and in the list of an area test */
#define LENOSHALE_RECORDS 131072         /* records of a file */
#define LENOSHALE_RECORD_BYTES 32        /* bytes of a file's record */
#define LENOSHALE_RECORD_WORDS 14        /* words that a file's record holds at most */
#define LENOSHALE_FINDING_BYTES 64       /* bytes of a finding's record */
#define LENOSHALE_LINE_BYTES 128         /* bytes lent for a finding's line, and for the totals: */
#define LENOSHALE_TOTALS_BYTES 64
#define LENOSHALE_RUN_INPUT 32768        /* the program: bytes of input, records, words of work, bytes of output */
#define LENOSHALE_RUN_FINDINGS 512
#define LENOSHALE_RUN_WORK 16384
#define LENOSHALE_RUN_OUTPUT 65600

/* The version of the library. */
uint32_t lenoshale_version(void);

/* Reads a model file into the first parts of the lists: 3 * nodes coordinates, a kind and an end for each of `cells`, and `words`.
 * A file of n records needs no more than 3n coordinates, n kinds, n ends and 14n words.
 * Refuses with 1 to 3, then 4 if a list is too short. */
uint32_t lenoshale_read(const uint8_t *bytes, size_t bytes_len, double *coords, size_t coords_len, uint8_t *kinds, size_t kinds_len,
                        uint32_t *ends, size_t ends_len, uint32_t *words, size_t words_len, uint64_t *node_count,
                        uint64_t *cell_count, uint64_t *word_count, double *tolerance, uint8_t *flags, uint16_t *cap);

/* Writes a model's file into the first bytes of out, and its length to size: 32 bytes a node, 32 for each cell and for each further
 * 14 words that it has begun, and 32 more. Refuses with 5 to 10, then 4 if out is too short. */
uint32_t lenoshale_write(const double *coords, size_t coords_len, const uint8_t *kinds, size_t kinds_len, const uint32_t *ends,
                         size_t ends_len, const uint32_t *words, size_t words_len, double tolerance, uint8_t flags, uint16_t cap,
                         uint8_t *out, size_t out_len, uint64_t *size);

/* Counts what has to be lent for a model: need, the words of work for a check and for ring lists; ring_words, R, the length of each
 * ring list; faces, how many faces there are. Refuses with 5 to 10. */
uint32_t lenoshale_work_needed(const double *coords, size_t coords_len, const uint8_t *kinds, size_t kinds_len, const uint32_t *ends,
                               size_t ends_len, const uint32_t *words, size_t words_len, double tolerance, uint8_t flags,
                               uint64_t *need, uint64_t *ring_words, uint64_t *faces);

/* Checks a model: the first records of the full list into findings, 64 bytes each; the length of that list to total; how many records
 * to kept, which is the least of cap, total and the whole records that findings holds. The words of work that the check needs
 * (lenoshale_work_needed) end zero. Refuses with 5 to 10, then 11 if work is too short. */
uint32_t lenoshale_check(const double *coords, size_t coords_len, const uint8_t *kinds, size_t kinds_len, const uint32_t *ends,
                         size_t ends_len, const uint32_t *words, size_t words_len, double tolerance, uint8_t flags, uint16_t cap,
                         uint8_t *findings, size_t findings_len, uint32_t *work, size_t work_len, uint64_t *total, uint64_t *kept);

/* Fills the first R words of raw and welded with all rings in face order, in raw and in welded node numbers, and writes R to count.
 * The words of work that a check needs end zero. Refuses with 5 to 11, then 4 if a list is under R words. */
uint32_t lenoshale_fill_ring_lists(const double *coords, size_t coords_len, const uint8_t *kinds, size_t kinds_len,
                                   const uint32_t *ends, size_t ends_len, const uint32_t *words, size_t words_len, double tolerance,
                                   uint8_t flags, uint32_t *raw, size_t raw_len, uint32_t *welded, size_t welded_len, uint32_t *work,
                                   size_t work_len, uint32_t *count);

/* Finds a face's ring in the two lists, which must have exactly R words: it is the part of raw, and of welded, that begins at start and
 * is size words long. The answer is that of the lookup's companion: refuses with 5 to 10, 4 if a list isn't R words, 12. */
uint32_t lenoshale_ring_lookup(const double *coords, size_t coords_len, const uint8_t *kinds, size_t kinds_len, const uint32_t *ends,
                               size_t ends_len, const uint32_t *words, size_t words_len, double tolerance, uint8_t flags,
                               const uint32_t *raw, size_t raw_len, const uint32_t *welded, size_t welded_len, size_t face,
                               uint64_t *start, uint64_t *size);

/* Lists the cells that hold the face's sorted ring, in face order, a cell as often as it holds it: as many as fit into owners, and the
 * whole count to count. Refuses with 5 to 10, then 12. */
uint32_t lenoshale_face_owners(const double *coords, size_t coords_len, const uint8_t *kinds, size_t kinds_len, const uint32_t *ends,
                               size_t ends_len, const uint32_t *words, size_t words_len, double tolerance, uint8_t flags, size_t face,
                               uint32_t *owners, size_t owners_len, uint32_t *count);

/* Welds the nodes that some cell names, in a ring or in a run too short for one: writes the welded number of each node into the first
 * words of map, a word a node. A loose node, which no cell names, keeps its own number and draws no others together. The first three
 * words a node of scratch end zero. Refuses with 5 to 9, then 4 if map is under one word a node or scratch under three. */
uint32_t lenoshale_weld(const double *coords, size_t coords_len, const uint8_t *kinds, size_t kinds_len, const uint32_t *ends,
                        size_t ends_len, const uint32_t *words, size_t words_len, double tolerance, uint32_t *map, size_t map_len,
                        uint32_t *scratch, size_t scratch_len);

/* The area test on strictly ascending nodes, at most 64: its answer (LENOSHALE_AREA_..) to says. Refuses with 5, 6, 7, then 12. */
uint32_t lenoshale_area_test(const double *coords, size_t coords_len, const uint32_t *nodes, size_t nodes_len, double tolerance,
                             uint32_t *says);

/* IEEE 754's square root of x, to root. Refuses with 13. */
uint32_t lenoshale_root(double x, double *root);

/* The text of a check's report, as the program prints it, into the first bytes of out, and its length to size: a line for each of the
 * first kept records and `total T kept K`, or `CONFORM` where total is 0.
 * Refuses with 4 if findings is under 64 * kept bytes or out under 128 * kept + 64. */
uint32_t lenoshale_report(const uint8_t *findings, size_t findings_len, uint64_t total, uint64_t kept, uint8_t *out, size_t out_len,
                          uint64_t *size);

/* The program's whole run: its output from its input, with the program's own limits (LENOSHALE_RUN_..), into the first bytes of out, and
 * its length to size. It takes 190 kB of stack. A file that is refused gives the text `refused R`, and the answer is 0.
 * Refuses with 4 if out is under 65,600 bytes. */
uint32_t lenoshale_run(const uint8_t *input, size_t input_len, uint8_t *out, size_t out_len, uint64_t *size);

#ifdef __cplusplus
}
#endif

#endif
