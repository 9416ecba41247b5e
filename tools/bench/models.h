/* The models that the driver checks, built one at a time into coords, kinds, ends and words. */
#ifndef MODELS_H
#define MODELS_H

#include "lenoshale.h"

#include <math.h>
#include <stddef.h>
#include <stdint.h>
#include <stdio.h>
#include <stdlib.h>

enum { NODES = 65535, CELLS = 16384, WORDS = 262144, RING = 64 };

/* ---- the model being built */

static double coords[3 * NODES];
static uint8_t kinds[CELLS];
static uint32_t ends[CELLS];
static uint32_t words[WORDS];
static size_t nodes, cells, count;

static void over(const char *what) {
    fprintf(stderr, "bench: a model has too many %s\n", what);
    exit(2);
}

static uint32_t put_node(double x, double y, double z) {
    if (nodes == NODES) over("nodes");
    coords[3 * nodes] = x;
    coords[3 * nodes + 1] = y;
    coords[3 * nodes + 2] = z;
    return (uint32_t)nodes++;
}

static void put_word(uint32_t w) {
    if (count == WORDS) over("words");
    words[count++] = w;
}

/* The words put since the last cell become a cell. */
static void end_cell(uint8_t kind) {
    if (cells == CELLS) over("cells");
    kinds[cells] = kind;
    ends[cells++] = (uint32_t)count;
}

static void put_cell(uint8_t kind, const uint32_t *w, size_t n) {
    for (size_t i = 0; i < n; i++) put_word(w[i]);
    end_cell(kind);
}

/* A ring of the polyhedron whose words start at `from`. */
static void put_ring(size_t from, const uint32_t *w, size_t n) {
    if (count > from) put_word(LENOSHALE_SEPARATOR);
    for (size_t i = 0; i < n; i++) put_word(w[i]);
}

/* ---- grids: whole coordinates */

/* The node at a place of a grid of so many cells. */
static uint32_t at(const size_t *n, size_t x, size_t y, size_t z) { return (uint32_t)((z * (n[1] + 1) + y) * (n[0] + 1) + x); }

static void put_grid_nodes(const size_t *n) {
    for (size_t z = 0; z <= n[2]; z++)
        for (size_t y = 0; y <= n[1]; y++)
            for (size_t x = 0; x <= n[0]; x++) put_node((double)x, (double)y, (double)z);
}

/* The corners of one box of a grid, in a hexahedron's order. */
static void corners(const size_t *n, size_t x, size_t y, size_t z, uint32_t *h) {
    static const size_t step[4][2] = {{0, 0}, {1, 0}, {1, 1}, {0, 1}};
    for (size_t i = 0; i < 8; i++) h[i] = at(n, x + step[i % 4][0], y + step[i % 4][1], z + i / 4);
}

static void cut_none(const uint32_t *h) { put_cell(LENOSHALE_HEX8, h, 8); }

/* Six tetrahedra around the diagonal from corner 0 to corner 6. */
static void cut_tets(const uint32_t *h) {
    static const uint8_t cut[6][4] = {{0, 1, 2, 6}, {0, 1, 5, 6}, {0, 3, 2, 6}, {0, 3, 7, 6}, {0, 4, 5, 6}, {0, 4, 7, 6}};
    for (size_t i = 0; i < 6; i++) {
        uint32_t t[4] = {h[cut[i][0]], h[cut[i][1]], h[cut[i][2]], h[cut[i][3]]};
        put_cell(LENOSHALE_TET4, t, 4);
    }
}

/* Two wedges, cut along the diagonal from corner 1 to corner 3. */
static void cut_wedges(const uint32_t *h) {
    uint32_t a[6] = {h[0], h[1], h[3], h[4], h[5], h[7]}, b[6] = {h[1], h[2], h[3], h[5], h[6], h[7]};
    put_cell(LENOSHALE_WEDGE6, a, 6);
    put_cell(LENOSHALE_WEDGE6, b, 6);
}

static void grid(size_t nx, size_t ny, size_t nz, void (*cut)(const uint32_t *)) {
    size_t n[3] = {nx, ny, nz};
    uint32_t h[8];
    put_grid_nodes(n);
    for (size_t z = 0; z < nz; z++)
        for (size_t y = 0; y < ny; y++)
            for (size_t x = 0; x < nx; x++) {
                corners(n, x, y, z, h);
                cut(h);
            }
}

static void hexahedra(void) { grid(32, 32, 16, cut_none); }
static void tetrahedra(void) { grid(13, 14, 15, cut_tets); }
static void wedges(void) { grid(16, 16, 32, cut_wedges); }

/* ---- hubs: one node in nearly every face */

/* A pyramid from node 0 over the square q; where `more`, one edge of it has a node that the neighbour's does not. */
static void put_pyramid(const uint32_t *q, int more) {
    size_t from = count;
    uint32_t m = 0;
    if (more) {
        const double *a = coords + 3 * q[1], *b = coords + 3 * q[2];
        m = put_node((a[0] + b[0]) / 2, (a[1] + b[1]) / 2, (a[2] + b[2]) / 2);
    }
    uint32_t base[5] = {q[0], q[1], m, q[2], q[3]};
    put_ring(from, more ? base : q, more ? 5 : 4);
    for (size_t s = 0; s < 4; s++) {
        uint32_t a = q[s], b = q[(s + 1) % 4];
        uint32_t side[3] = {0, b, a}, longer[4] = {0, b, m, a};
        if (more && s == 1) put_ring(from, longer, 4);
        else put_ring(from, side, 3);
    }
    end_cell(LENOSHALE_PHED);
}

/* 12,945 pyramids over squares of a sphere, around its centre; every eighth has one node more. */
static void hub_pyramids(void) {
    const size_t n = 12945, across = 114, down = (n + across - 1) / across, wide[3] = {across, down, 0};
    put_node(0, 0, 0);
    for (size_t j = 0; j <= down; j++)
        for (size_t i = 0; i <= across; i++) {
            double u = (double)i * 5 / (double)across, v = (double)j * 2 / (double)across - 1;
            put_node(cos(v) * cos(u), cos(v) * sin(u), sin(v));
        }
    for (size_t c = 0; c < n; c++) {
        size_t x = c % across, y = c / across;
        uint32_t q[4] = {1 + at(wide, x, y, 0), 1 + at(wide, x + 1, y, 0), 1 + at(wide, x + 1, y + 1, 0), 1 + at(wide, x, y + 1, 0)};
        put_pyramid(q, c % 8 == 7);
    }
}

/* 16,384 tetrahedra, each with node 0 and three nodes of its own. */
static void hub_tetrahedra(void) {
    put_node(0, 0, 0);
    for (size_t c = 0; c < CELLS; c++) {
        double x = (double)(2 * (c % 128)) + 1, y = (double)(2 * (c / 128)) + 1;
        uint32_t t[4] = {0, put_node(x, y, 1), put_node(x + 1, y, 1), put_node(x, y + 1, 1)};
        put_cell(LENOSHALE_TET4, t, 4);
    }
}

/* 16,384 cells of three triangles, each with node 0: neighbours share one, and every face has the node. */
static void hub_rings(void) {
    put_node(0, 0, 0);
    for (size_t i = 0; i < CELLS + 2; i++) put_node(cos((double)i / 100), sin((double)i / 100), 1 + (double)i);
    for (uint32_t c = 1; c <= CELLS; c++) {
        size_t from = count;
        uint32_t a[3] = {0, c, c + 1}, b[3] = {0, c + 1, c + 2}, d[3] = {0, c + 2, c};
        put_ring(from, a, 3);
        put_ring(from, b, 3);
        put_ring(from, d, 3);
        end_cell(LENOSHALE_PHED);
    }
}

/* ---- one polyhedron of all words: 4,033 rings of 64 nodes */

/* Layers of 64 nodes on a circle; half a ring's nodes are of one layer, the others of the same or one of the next three, so that no
 * two rings have the same nodes. */
static void one_cell(void) {
    const size_t layers = NODES / RING, rings = (WORDS + 1) / (RING + 1);
    for (size_t i = 0; i < layers * RING; i++) {
        double turn = (double)(i % RING) / RING * 2 * acos(-1);
        put_node(10 * cos(turn), 10 * sin(turn), (double)(i / RING));
    }
    for (size_t r = 0; r < rings; r++) {
        uint32_t ring[RING];
        for (size_t i = 0; i < RING; i++) {
            size_t layer = (r + (i < RING / 2 ? 0 : r / layers)) % layers;
            ring[i] = (uint32_t)(layer * RING + i);
        }
        put_ring(0, ring, RING);
    }
    end_cell(LENOSHALE_PHED);
}

/* ---- random cells over 60 nodes */

static uint64_t seed;

static uint32_t below(uint32_t n) {
    seed = seed * 6364136223846793005u + 1442695040888963407u;
    return (uint32_t)((seed >> 33) % n);
}

/* n unlike numbers below 60 */
static void draw(uint32_t *w, size_t n) {
    for (size_t i = 0; i < n;) {
        size_t j = 0;
        w[i] = below(60);
        while (j < i && w[j] != w[i]) j++;
        if (j == i) i++;
    }
}

static void soup(void) {
    const size_t n[3] = {4, 3, 2};
    seed = 1;
    put_grid_nodes(n);
    for (size_t c = 0; c < CELLS; c++) {
        uint32_t t[4];
        draw(t, 4);
        put_cell(LENOSHALE_TET4, t, 4);
    }
}

/* ---- a tank under 16,256 hexahedra */

/* The tank has a ring for each square below a hexahedron; of every eight squares two are one ring of six nodes, partly shared. */
static void tank(void) {
    const size_t n[3] = {128, 127, 1};
    grid(n[0], n[1], n[2], cut_none);
    size_t from = count;
    for (size_t y = 0; y < n[1]; y++)
        for (size_t x = 0; x < n[0]; x++) {
            uint32_t q[4] = {at(n, x, y, 0), at(n, x + 1, y, 0), at(n, x + 1, y + 1, 0), at(n, x, y + 1, 0)};
            uint32_t two[6] = {q[0], q[1], at(n, x + 2, y, 0), at(n, x + 2, y + 1, 0), q[2], q[3]};
            int joined = x % 8 == 0;
            put_ring(from, joined ? two : q, joined ? 6 : 4);
            if (joined) x++;
        }
    end_cell(LENOSHALE_PHED);
}

/* ---- 25 tetrahedra behind 65,435 loose nodes */

/* No two loose nodes are within the tolerance, but every two are by their x: welding them too would compare each with each. */
static void loose(void) {
    const size_t used = 100;
    for (size_t i = 0; i < NODES - used; i++) put_node(0, (double)(i % 256), (double)(i / 256));
    for (size_t c = 0; c < used / 4; c++) {
        double x = 2 * (double)c;
        uint32_t t[4] = {put_node(x, 0, 0), put_node(x + 1, 0, 0), put_node(x, 1, 0), put_node(x, 0, 1)};
        put_cell(LENOSHALE_TET4, t, 4);
    }
}

#endif
