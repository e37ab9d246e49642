/* Tests of the header from C and, with the same text, from C++: bindings/c/test.sh */
#include <stdio.h>
#include <stdlib.h>
#include <string.h>

#include "yuccadice.h"

#define CHECK(fact) ((fact) ? (void)0 : (printf("%s:%d: %s\n", __FILE__, __LINE__, #fact), exit(1)))

static const int32_t positions[] = {0, 0, 0, 16, 0, 0, 0, 16, 0, 0, 0, 16}; /* mesh A of document 01 */
static const uint16_t cells[] = {0, 1, 2, 3};
static uint16_t table[YD_TABLE_LENGTH], ends[YD_ENDS_LENGTH], counts[YD_COUNTS_LENGTH], coarse_cells[YD_COARSE_CELLS_LENGTH];
static uint16_t marked[YD_MARKED_LENGTH], step_ends[YD_STEP_ENDS_LENGTH];
static int32_t sums[YD_SUMS_LENGTH], coarse[YD_POSITIONS_LENGTH];
static uint16_t stores[YD_STORES_LENGTH], rows[YD_HELD_LENGTH];
static uint8_t status[YD_STATUS_LENGTH], bytes[YD_BYTES_LENGTH], mark[YD_MARKS_LENGTH], digits[YD_DIGITS_LENGTH];

/* B on two parts, the coarse cell with part 1 and its family with part 2, all eight marked 2: part 2 is left empty. */
static void split_job(void) {
    const uint8_t table[] = {YD_RED, 0, 0, 0, 0, 0, 0, 0, 0}, owners[] = {1, 2, 2, 2, 2, 2, 2, 2, 2};
    const uint8_t none[] = {0}, deleted[] = {2, 2, 2, 2, 2, 2, 2, 2};
    uint16_t *store[] = {stores, stores + YD_STORE_LENGTH};
    uint8_t message[YD_MESSAGE_LENGTH];
    size_t count = 77, stage = 0, round = 77, result = 77, taken = 0;
    int turn, part;

    CHECK(yd_split(positions, 12, cells, 4, table, 9, 0, owners, 9, stores, YD_STORES_LENGTH) == YD_REFUSED_PARTS);
    CHECK(yd_split(positions, 12, cells, 4, table, 9, 2, owners, 8, stores, YD_STORES_LENGTH) == YD_REFUSED_OWNERS);
    CHECK(yd_split(positions, 12, cells, 4, table, 9, 2, owners, 9, stores, YD_STORES_LENGTH - 1) == YD_REFUSED_SHORT);
    CHECK(yd_split(positions, 12, cells, 4, table, 9, 2, owners, 9, stores, YD_STORES_LENGTH) == YD_ACCEPTED);
    CHECK(yd_stage(store[0], YD_STORE_LENGTH, &stage, &round, &result) == YD_REFUSED_STORE && round == 77);
    CHECK(yd_start(store[0], YD_STORE_LENGTH, none, 0) == YD_REFUSED_MARKS);
    CHECK(yd_start(store[0], YD_STORE_LENGTH, none, 1) == YD_ACCEPTED);
    CHECK(yd_start(store[0], YD_STORE_LENGTH, none, 1) == YD_REFUSED_STORE);
    CHECK(yd_start(store[1], YD_STORE_LENGTH, deleted, 8) == YD_ACCEPTED);
    CHECK(yd_part_step(store[0], YD_STORE_LENGTH) == YD_REFUSED_STORE);
    CHECK(yd_stage(store[0], YD_STORE_LENGTH, &stage, &round, &result) == YD_ACCEPTED && stage == YD_RUNNING && round == 0 && result == 0);
    CHECK(yd_held(store[0], YD_STORE_LENGTH, rows, YD_HELD_LENGTH, &count) == YD_REFUSED_STORE && count == 77);
    for (turn = 0; stage == YD_RUNNING && turn < 10; turn++) {
        for (part = 0; part < 2; part++)
            while (yd_fetch(store[part], YD_STORE_LENGTH, message, YD_MESSAGE_LENGTH, &count) == YD_ACCEPTED && count > 0) {
                CHECK(message[1] == part + 1 && message[2] == 2 - part);
                CHECK(yd_hand_over(store[part], YD_STORE_LENGTH, message, count) == YD_REFUSED_MESSAGE);
                CHECK(yd_hand_over(store[1 - part], YD_STORE_LENGTH, message, count) == YD_ACCEPTED);
                CHECK(yd_hand_over(store[1 - part], YD_STORE_LENGTH, message, count) == YD_REFUSED_TAKEN);
                message[3]++, message[3]++; /* a count that is not the next */
                CHECK(yd_hand_over(store[1 - part], YD_STORE_LENGTH, message, count) == YD_REFUSED_EARLY);
                taken++;
            }
        CHECK(count == 0);
        for (part = 0; part < 2; part++) CHECK(yd_part_step(store[part], YD_STORE_LENGTH) == YD_ACCEPTED);
        CHECK(yd_stage(store[0], YD_STORE_LENGTH, &stage, &round, &result) == YD_ACCEPTED);
    }
    CHECK(stage == YD_DONE && turn == 5 && taken >= 10 && round == 0 && result == 0);
    CHECK(yd_held(store[0], YD_STORE_LENGTH, rows, YD_HELD_LENGTH, &count) == YD_ACCEPTED && count == 1 && rows[0] == 0 && rows[1] == YD_LEAF);
    CHECK(yd_held(store[1], YD_STORE_LENGTH, rows, YD_HELD_LENGTH, &count) == YD_ACCEPTED && count == 0);
    CHECK(yd_merge(stores, YD_STORES_LENGTH - 1, status, YD_STATUS_LENGTH, &count) == YD_REFUSED_SHORT);
    CHECK(yd_merge(stores, YD_STORES_LENGTH, status, YD_STATUS_LENGTH, &count) == YD_ACCEPTED && count == 1 && status[0] == YD_LEAF);
}

int main(void) {
    const uint8_t leaf = YD_LEAF, refine = YD_REFINE, red = YD_RED;
    const uint16_t one_mark[] = {0}, one_step[] = {1};
    size_t count = 77, corners, levels, ancestor, level, marks, steps;
    double x, y, z;

    CHECK(YD_VERSION_NUMBER == 10300 && !strcmp(YD_VERSION, "1.3.0"));
    CHECK(yd_cut(1, digits, YD_DIGITS_LENGTH, &count) == YD_ACCEPTED && count == 2 && digits[4] == 1);
    CHECK(yd_cut(64, digits, YD_DIGITS_LENGTH, &count) == YD_REFUSED_STATUS && count == 2);
    CHECK(yd_cut(1, digits, YD_DIGITS_LENGTH - 1, &count) == YD_REFUSED_SHORT);
    CHECK(yd_examine_mesh(positions, 12, cells, 4) == YD_ACCEPTED);
    CHECK(yd_examine_mesh(positions, 12, cells, 3) == YD_REFUSED_COUNTS);
    CHECK(yd_examine_table(positions, 12, cells, 4, &leaf, 1) == YD_ACCEPTED);
    CHECK(yd_examine_table(positions, 12, cells, 4, &red, 1) == YD_REFUSED_STATUS);
    CHECK(yd_step(positions, 12, cells, 4, &leaf, 1, &refine, 1, status, YD_STATUS_LENGTH, &count) == YD_ACCEPTED);
    CHECK(count == 9 && status[0] == YD_RED && status[8] == YD_LEAF);
    CHECK(yd_lay_out(positions, 12, cells, 4, status, count, table, YD_TABLE_LENGTH, ends, YD_ENDS_LENGTH, sums, YD_SUMS_LENGTH,
                     &count, &corners, &levels) == YD_ACCEPTED);
    CHECK(count == 9 && corners == 10 && levels == 2 && table[1] == YD_NO_PARENT && ends[8] == 0 && ends[9] == 1);
    CHECK(yd_position(sums, YD_SUMS_LENGTH, corners, 4, &x, &y, &z) == YD_ACCEPTED && x == 8 && y == 0 && z == 0);
    CHECK(yd_position(sums, YD_SUMS_LENGTH, corners, 10, &x, &y, &z) == YD_REFUSED_MARKS);
    CHECK(yd_ancestor(positions, 12, cells, 4, status, count, 8, &ancestor, &level) == YD_ACCEPTED && ancestor == 0 && level == 1);
    CHECK(yd_counts(positions, 12, cells, 4, status, count, counts, YD_COUNTS_LENGTH, &levels) == YD_ACCEPTED && counts[7] == 8);
    CHECK(yd_write(positions, 12, cells, 4, one_mark, 1, &refine, 1, one_step, 1, bytes, YD_BYTES_LENGTH, &count) == YD_ACCEPTED);
    CHECK(count == 4 * 13 + 9 + 4 + 1 + 1);
    CHECK(yd_read(bytes, count, coarse, YD_POSITIONS_LENGTH, coarse_cells, YD_COARSE_CELLS_LENGTH, marked, YD_MARKED_LENGTH,
                  mark, YD_MARKS_LENGTH, step_ends, YD_STEP_ENDS_LENGTH, &corners, &levels, &marks, &steps) == YD_ACCEPTED);
    CHECK(corners == 4 && levels == 1 && marks == 1 && steps == 1 && !memcmp(coarse, positions, sizeof positions));
    CHECK(yd_replay(bytes, count, status, YD_STATUS_LENGTH, counts, YD_COUNTS_LENGTH, &count, &levels) == YD_ACCEPTED);
    CHECK(count == 9 && levels == 2);
    CHECK(!strcmp(yd_says(YD_REFUSED_FLAT), "a flat cell") && !strcmp(yd_says(18), "no answer of this library"));
    split_job();
    puts("ok");
    return 0;
}
