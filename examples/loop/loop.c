/* A solver's loop: solve, mark, step, lay out, carry values over, archive. It makes samples/plate.mesh: loop OUT.mesh
 *
 * The plate of 240 x 120 x 30 mm is heated by a spot that moves along its upper side. The "solver" is a formula for the temperature; what is carried
 * from mesh to mesh is the highest temperature that each corner has met. loop.py and loop.f90 do the same and print the same.
 * From the repository: gcc -Iinclude examples/loop/loop.c target/staticlib/libyuccadice.a -lm -o target/loop && target/loop target/plate.mesh */
#include <math.h>
#include <stdio.h>
#include <stdlib.h>
#include <string.h>

#include "yuccadice.h"

enum { CORNERS = 30, CELLS = 48, STEPS = 4 };

/* Where the spot is in each step, in tenths of a millimetre. */
static const double spots[STEPS][3] = {{300, 600, 300}, {400, 600, 300}, {800, 600, 300}, {1100, 600, 300}};

/* A mesh of the loop: its status table, its layout, the place of each corner. */
typedef struct {
    uint8_t status[YD_STATUS_LENGTH];
    uint16_t table[YD_TABLE_LENGTH], ends[YD_ENDS_LENGTH];
    int32_t sums[YD_SUMS_LENGTH];
    double points[YD_MOST_CORNERS][3];
    size_t cells, corners, levels;
} mesh;

static int32_t positions[3 * CORNERS];
static uint16_t cells[4 * CELLS];
static mesh meshes[2]; /* the old one and the new one, in turn */
static double peak[YD_MOST_CORNERS], next_peak[YD_MOST_CORNERS];
static int was[YD_MOST_CORNERS];
static uint16_t marked[YD_MARKED_LENGTH], step_ends[STEPS];
static uint8_t marks[YD_MARKS_LENGTH], bytes[YD_BYTES_LENGTH];

static void accepted(uint8_t answer) {
    if (answer != YD_ACCEPTED) {
        fprintf(stderr, "loop: refused %d: %s\n", answer, yd_says(answer));
        exit(1);
    }
}

/* Corners 60 or 30 mm apart, x growing first, then y, then z; eight blocks of six cells, each cell a way from a block's first corner to its last. */
static void make_plate(void) {
    static const uint16_t ways[6][2] = {{1, 5}, {1, 15}, {5, 1}, {5, 15}, {15, 1}, {15, 5}};
    for (int k = 0; k < CORNERS; k++) {
        positions[3 * k] = 600 * (k % 5);
        positions[3 * k + 1] = 600 * (k / 5 % 3);
        positions[3 * k + 2] = 300 * (k / 15);
    }
    for (int k = 0; k < CELLS; k++) {
        const uint16_t *way = ways[k % 6];
        int first = k / 6 % 4 + 5 * (k / 24);
        cells[4 * k] = first;
        cells[4 * k + 1] = first + way[0];
        cells[4 * k + 2] = first + way[0] + way[1];
        cells[4 * k + 3] = first + 21;
    }
}

static void lay_out(mesh *m) {
    accepted(yd_lay_out(positions, 3 * CORNERS, cells, 4 * CELLS, m->status, m->cells, m->table, YD_TABLE_LENGTH, m->ends, YD_ENDS_LENGTH,
                        m->sums, YD_SUMS_LENGTH, &m->cells, &m->corners, &m->levels));
    for (size_t k = 0; k < m->corners; k++)
        accepted(yd_position(m->sums, YD_SUMS_LENGTH, m->corners, k, &m->points[k][0], &m->points[k][1], &m->points[k][2]));
}

/* 1,000 degrees at the spot, and less with the distance. */
static double temperature(const double point[3], const double spot[3]) {
    double square = 0;
    for (int axis = 0; axis < 3; axis++)
        square += (point[axis] - spot[axis]) * (point[axis] - spot[axis]);
    return 1000 * exp(-square / (250 * 250));
}

/* Leaves that are hot in their middle are refined; families of a red cell that are all leaves and all cold are deleted. */
static void mark(const mesh *m, const double spot[3], uint8_t *mark_of) {
    static uint8_t cold[YD_MOST_CELLS]; /* how many cold leaves each cell has for children */
    memset(cold, 0, sizeof cold);
    for (size_t k = 0; k < m->cells; k++) {
        const uint16_t *cell = m->table + 8 * k; /* level, parent, child, regular, four corners */
        double middle[3];
        for (int axis = 0; axis < 3; axis++)
            middle[axis] = (m->points[cell[4]][axis] + m->points[cell[5]][axis] + m->points[cell[6]][axis] + m->points[cell[7]][axis]) / 4;
        double heat = temperature(middle, spot);
        mark_of[k] = m->status[k] == YD_LEAF && heat > (cell[0] == 0 ? 200 : 425) ? YD_REFINE : 0;
        if (m->status[k] == YD_LEAF && heat < 140 && cell[1] != YD_NO_PARENT)
            cold[cell[1]]++;
    }
    for (size_t k = 0; k < m->cells; k++) {
        uint16_t parent = m->table[8 * k + 1];
        if (parent != YD_NO_PARENT && m->status[parent] == YD_RED && cold[parent] == 8)
            mark_of[k] = YD_DELETE;
    }
}

/* For each corner of the new mesh the number that it had in the old one, or -1. A corner lies in the middle of the same two corners in every mesh, and they
 * come before it: so it is the old corner whose ends are its own ends' old numbers. A coarse corner keeps its number. */
static void match_corners(const mesh *old, const mesh *new) {
    for (size_t k = 0; k < new->corners; k++) {
        int a = was[new->ends[2 * k]], b = was[new->ends[2 * k + 1]];
        was[k] = new->ends[2 * k] == new->ends[2 * k + 1] ? (int)k : -1;
        for (size_t j = CORNERS; was[k] < 0 && a >= 0 && b >= 0 && j < old->corners; j++) {
            int c = old->ends[2 * j], d = old->ends[2 * j + 1];
            if ((c == a && d == b) || (c == b && d == a))
                was[k] = (int)j;
        }
    }
}

int main(int count, char **words) {
    if (count != 2) {
        fprintf(stderr, "usage: loop OUT.mesh\n");
        return 2;
    }
    make_plate();
    mesh *old = &meshes[0], *new = &meshes[1];
    old->cells = CELLS; /* all of them leaves */
    lay_out(old);
    size_t mark_count = 0, byte_count;
    for (int step = 0; step < STEPS; step++) {
        static uint8_t mark_of[YD_MOST_CELLS];
        for (size_t k = 0; k < old->corners; k++) /* solve */
            peak[k] = fmax(peak[k], temperature(old->points[k], spots[step]));
        mark(old, spots[step], mark_of);
        accepted(yd_step(positions, 3 * CORNERS, cells, 4 * CELLS, old->status, old->cells, mark_of, old->cells,
                         new->status, YD_STATUS_LENGTH, &new->cells));
        for (size_t k = 0; k < old->cells; k++)
            if (mark_of[k]) {
                if (mark_count == YD_MARKED_LENGTH)
                    accepted(YD_REFUSED_FORM); /* more marks than an archive has room for */
                marked[mark_count] = k;
                marks[mark_count++] = mark_of[k];
            }
        step_ends[step] = mark_count;
        lay_out(new);
        match_corners(old, new);
        size_t kept = 0, renumbered = 0;
        double sum = 0;
        for (size_t k = 0; k < new->corners; k++) { /* a corner that stays keeps its value, a new one has the mean of its ends */
            next_peak[k] = was[k] >= 0 ? peak[was[k]] : (next_peak[new->ends[2 * k]] + next_peak[new->ends[2 * k + 1]]) / 2;
            kept += was[k] >= 0;
            renumbered += was[k] >= 0 && was[k] != (int)k;
            sum += next_peak[k];
        }
        memcpy(peak, next_peak, sizeof peak);
        printf("%zu cells, %zu corners, %zu of them kept, %zu with another number, mean peak %.3f\n", new->cells, new->corners, kept, renumbered,
               sum / new->corners);
        mesh *swap = old;
        old = new;
        new = swap;
    }
    accepted(yd_write(positions, 3 * CORNERS, cells, 4 * CELLS, marked, mark_count, marks, mark_count, step_ends, STEPS, bytes, YD_BYTES_LENGTH,
                      &byte_count));
    FILE *file = fopen(words[1], "wb");
    if (!file || fwrite(bytes, 1, byte_count, file) != byte_count || fclose(file)) {
        perror(words[1]);
        return 1;
    }
    return 0;
}
