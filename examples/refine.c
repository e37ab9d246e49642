/* Refines mesh A of document 01 twice, to its case C, and prints the corners.
 * From the repository: tools/build library && gcc -Iinclude examples/refine.c target/staticlib/libyuccadice.a -o target/refine && target/refine */
#include <stdio.h>
#include <stdlib.h>

#include "yuccadice.h"

static const int32_t positions[] = {0, 0, 0, 16, 0, 0, 0, 16, 0, 0, 0, 16};
static const uint16_t cells[] = {0, 1, 2, 3};
static uint8_t status[YD_STATUS_LENGTH], next[YD_STATUS_LENGTH];
static uint16_t table[YD_TABLE_LENGTH], ends[YD_ENDS_LENGTH];
static int32_t sums[YD_SUMS_LENGTH];

static void accepted(uint8_t answer) {
    if (answer != YD_ACCEPTED) {
        fprintf(stderr, "refused %d\n", answer);
        exit(1);
    }
}

int main(void) {
    size_t count = 1, corners, levels;
    for (size_t cell = 0; cell < 2; cell++) { /* mark cell 0, then cell 1 */
        uint8_t marks[YD_MOST_CELLS] = {0};
        marks[cell] = YD_REFINE;
        accepted(yd_step(positions, 12, cells, 4, status, count, marks, count, next, YD_STATUS_LENGTH, &count));
        for (size_t k = 0; k < count; k++)
            status[k] = next[k];
    }
    accepted(yd_lay_out(positions, 12, cells, 4, status, count, table, YD_TABLE_LENGTH, ends, YD_ENDS_LENGTH, sums, YD_SUMS_LENGTH,
                        &count, &corners, &levels));
    printf("%zu cells, %zu corners, %zu levels\n", count, corners, levels);
    for (size_t k = 0; k < corners; k++) {
        double x, y, z;
        accepted(yd_position(sums, YD_SUMS_LENGTH, corners, k, &x, &y, &z));
        printf("%zu: %g %g %g\n", k, x, y, z);
    }
    return 0;
}
