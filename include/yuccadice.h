/* Yuccadice: red/green refinement of tetrahedral meshes, every promise proved. The library is libyuccadice.a, or libyuccadice.so
 * (docs/LIBRARY.md).
 *
 * Each function answers YD_ACCEPTED, or the number of a refusal: that of the first condition in its list that holds. It answers on any input.
 *   - A table is a pointer and then its length, counted in its own numbers and not in bytes.
 *   - A table that is lent to be written may be longer than its full length (YD_..._LENGTH); where it is shorter the answer is 15. A function
 *     writes the used part in front, and behind it the table keeps what it held.
 *   - Beside a refusal every lent table and every lent number is as it was.
 *   - The caller sees to this: no pointer is null, not even that of an empty table; each points to so many numbers, all of them set; nothing that a
 *     function writes overlaps anything else that it is lent; nobody writes any of it before the function returns; the stack has YD_STACK bytes.
 *   - The functions keep nothing between calls, so several threads may call them at a time.
 *   - An empty table's pointer must not be null, but is not read. Where the language's own empty one is null, as data() of an empty std::vector may be,
 *     lend any other pointer to such numbers with the length 0: in C++ YD_DATA, at the end, does so. A job without marks has two such tables.
 *   - Work tables are on the stack. Where it is too small a call does not answer: it meets the guard page below the stack and the program ends by a
 *     signal (SIGSEGV). A stack without a guard page is overrun without a word. The main thread has 8 MiB as a rule; a thread that you start should
 *     have YD_STACK bytes beside what it needs itself (pthread_attr_setstacksize).
 *   - A step may renumber cells, and corners that stay. A corner's name is its weights on the coarse corners, which yd_lay_out's ends give: go by them to
 *     carry values over (docs/LIBRARY.md).
 */
#ifndef YUCCADICE_H
#define YUCCADICE_H

#include <stddef.h>
#include <stdint.h>

#ifdef __cplusplus
#include <type_traits>
extern "C" {
#endif

/* The version of this header and its library: 10,000 times the first number, 100 times the second, the third. */
#define YD_VERSION "1.3.0"
#define YD_VERSION_NUMBER 10300

/* The limits. */
#define YD_MOST_COARSE_CORNERS 512 /* 4 to 512 corners of a coarse mesh */
#define YD_MOST_COARSE_CELLS 256   /* 1 to 256 cells of a coarse mesh */
#define YD_MOST_COORDINATE 500000  /* a coordinate is from -500,000 to 500,000 tenths of a millimetre */
#define YD_MOST_CELLS 4096         /* cells over all levels */
#define YD_MOST_CORNERS 16384      /* corners of a table */
#define YD_MOST_LEVELS 11          /* levels 0 to 10 */
#define YD_MOST_BYTES 65536        /* bytes of an archive */
#define YD_MOST_PARTS 16           /* 1 to 16 parts of a split job */
#define YD_STACK 1048576           /* bytes of stack: more than any call needs */

/* The full lengths of lent tables. */
#define YD_DIGITS_LENGTH 32         /* uint8_t: four digits a child */
#define YD_TABLE_LENGTH 32768       /* uint16_t: eight numbers a cell */
#define YD_ENDS_LENGTH 32768        /* uint16_t: two numbers a corner */
#define YD_SUMS_LENGTH 49152        /* int32_t: three numbers a corner */
#define YD_COUNTS_LENGTH 44         /* uint16_t: four numbers a level */
#define YD_STATUS_LENGTH 4096       /* uint8_t: a status a cell */
#define YD_POSITIONS_LENGTH 1536    /* int32_t: three numbers a coarse corner */
#define YD_COARSE_CELLS_LENGTH 1024 /* uint16_t: four numbers a coarse cell */
#define YD_MARKED_LENGTH 16384      /* uint16_t: a cell number a mark */
#define YD_MARKS_LENGTH 16384       /* uint8_t: 1 or 2 a mark */
#define YD_STEP_ENDS_LENGTH 65536   /* uint16_t: a number a step */
#define YD_BYTES_LENGTH 65536       /* uint8_t: the bytes of an archive */
#define YD_STORE_LENGTH 226488      /* uint16_t: the store of a part */
#define YD_STORES_LENGTH 3623808    /* uint16_t: sixteen stores, whatever the number of parts */
#define YD_MESSAGE_LENGTH 9         /* uint8_t: the longest message */
#define YD_HELD_LENGTH 57344        /* uint16_t: fourteen numbers a master or ghost */

/* Answers. */
#define YD_ACCEPTED 0
#define YD_REFUSED_COUNTS 1   /* too few or too many corners or cells, or a list's length no multiple of 3 or 4 */
#define YD_REFUSED_RANGE 2    /* a coordinate out of its range */
#define YD_REFUSED_NUMBERS 3  /* a cell's corner numbers do not ascend strictly, or are not below the count */
#define YD_REFUSED_FLAT 4     /* a flat cell */
#define YD_REFUSED_FACES 5    /* two cells with the same corners, or a face in three cells */
#define YD_REFUSED_STATUS 6   /* a status table that is not sound, or a pattern above 63 */
#define YD_REFUSED_MARKS 7    /* marks of wrong length, above 2 or not 0 on a refined cell, or a cell or corner number not below the count */
#define YD_REFUSED_LEVEL 8    /* a level above 10 would arise */
#define YD_REFUSED_CELLS 9    /* more than 4,096 cells would arise */
#define YD_REFUSED_PARTS 10   /* a number of parts that is not 1 to 16 */
#define YD_REFUSED_OWNERS 11  /* owners of wrong length or out of range, or two in a family */
#define YD_REFUSED_MESSAGE 12 /* a message of no known form, for another part, of what the part does not hold, or with a value out of range */
#define YD_REFUSED_TAKEN 13   /* a message that was taken before */
#define YD_REFUSED_EARLY 14   /* a message that comes too early, or to a part that is done */
#define YD_REFUSED_SHORT 15   /* a lent table is shorter than its full length */
#define YD_REFUSED_STORE 16   /* a store out of range, or at a stage that the call does not fit, or stores that do not make one table */
#define YD_REFUSED_FORM 17    /* an archive's bytes are not in the form, or would be more than 65,536 */

/* A status, a mark, and the parent of a coarse cell. */
#define YD_LEAF 0
#define YD_RED 64 /* 1 to 63: green, closed with that pattern */
#define YD_REFINE 1
#define YD_DELETE 2
#define YD_NO_PARENT 65535

/* The stage of a part. */
#define YD_RUNNING 1
#define YD_DONE 2

/* A coarse mesh is `positions`, three coordinates a corner, and `cells`, four corner numbers a cell, strictly ascending. A status table is `status`, a
 * byte a cell; cells are numbered level by level from 0, in each level by parent and then child. */

/* The children of a cell with this pattern of split edges (1, 2, 4, 8, 16, 32 for 12, 13, 14, 23, 24, 34).
 * After: digits has four digits a child, and zeros up to 32 numbers; *count is the number of children, 1 to 8. The digits of the corners are 0, 4, 7, 9,
 * those of the midpoints of 12, 13, 14, 23, 24, 34 are 1, 2, 3, 5, 6, 8.
 * Refusals: 15, 6. */
uint8_t yd_cut(uint8_t pattern, uint8_t *digits, size_t digits_length, size_t *count);

/* Whether a coarse mesh is accepted.
 * Refusals: 1 to 5. */
uint8_t yd_examine_mesh(const int32_t *positions, size_t positions_length, const uint16_t *cells, size_t cells_length);

/* Whether a status table over a coarse mesh is accepted.
 * Refusals: 1 to 6. */
uint8_t yd_examine_table(const int32_t *positions, size_t positions_length, const uint16_t *cells, size_t cells_length,
                         const uint8_t *status, size_t status_length);

/* Lays the cells and corners of a status table out.
 * After: table has eight numbers a cell: level, parent (65,535 for a coarse cell), place in the parent's family from 0 (0 for a coarse cell), 1 where
 * the cell is regular and 0 where not, four corner numbers in local order. ends has two numbers a corner: the corners in whose middle it lies, the
 * lower first; a coarse corner has its own number twice. sums has three numbers a corner: 1,024 times its coordinates. *cell_count is the
 * number of cells, *corner_count that of corners, *level_count that of levels.
 * Refusals: 15, 1 to 6. */
uint8_t yd_lay_out(const int32_t *positions, size_t positions_length, const uint16_t *cells, size_t cells_length,
                   const uint8_t *status, size_t status_length, uint16_t *table, size_t table_length, uint16_t *ends, size_t ends_length,
                   int32_t *sums, size_t sums_length, size_t *cell_count, size_t *corner_count, size_t *level_count);

/* The position of a corner of a layout of so many corners, in tenths of a millimetre, exact. sums is lent to be read, at its full length.
 * After: *x, *y, *z are its coordinates.
 * Refusals: 15; 7 where corner is not below corners or not below 16,384. */
uint8_t yd_position(const int32_t *sums, size_t sums_length, size_t corners, size_t corner, double *x, double *y, double *z);

/* The coarse cell that a cell lies in: from parent to parent until a cell has none.
 * After: *coarse is its number, *level the number of turns, which is the cell's level.
 * Refusals: 1 to 6; 7 where cell is not below the number of cells. */
uint8_t yd_ancestor(const int32_t *positions, size_t positions_length, const uint16_t *cells, size_t cells_length,
                    const uint8_t *status, size_t status_length, size_t cell, size_t *coarse, size_t *level);

/* The counts of each level of a status table.
 * After: counts has four numbers a level: cells, red, green, leaves. *level_count is the number of levels.
 * Refusals: 15, 1 to 6. */
uint8_t yd_counts(const int32_t *positions, size_t positions_length, const uint16_t *cells, size_t cells_length,
                  const uint8_t *status, size_t status_length, uint16_t *counts, size_t counts_length, size_t *level_count);

/* One step. marks has a byte a cell: 0 none, 1 refine, 2 delete.
 * After: table has the statuses of the new cells, *cell_count their number. Corners that stay may have other numbers in the new layout.
 * Refusals: 15, 1 to 9. */
uint8_t yd_step(const int32_t *positions, size_t positions_length, const uint16_t *cells, size_t cells_length,
                const uint8_t *status, size_t status_length, const uint8_t *marks, size_t marks_length,
                uint8_t *table, size_t table_length, size_t *cell_count);

/* The job of an archive. Its marks stand one after the other, those of the first step first; a step's marks are those up to its end from the end
 * of the step before.
 * After: positions and cells have the coarse mesh; marked has the cell and marks the mark of each mark; step_ends has, for each step, how many
 * marks stand up to its end. *corner_count is the number of coarse corners, *cell_count that of coarse cells, *mark_count that of marks, *step_count that
 * of steps.
 * Refusals: 15, 17, 1 to 5, then for the steps in turn 7 to 9. */
uint8_t yd_read(const uint8_t *bytes, size_t bytes_length, int32_t *positions, size_t positions_length,
                uint16_t *cells, size_t cells_length, uint16_t *marked, size_t marked_length, uint8_t *marks, size_t marks_length,
                uint16_t *step_ends, size_t step_ends_length,
                size_t *corner_count, size_t *cell_count, size_t *mark_count, size_t *step_count);

/* The archive of a job, whose tables are those of yd_read at the lengths used.
 * After: bytes has the archive, *byte_count is the number of its bytes.
 * Refusals: 15; 1 to 5; 7 where marked and marks differ in length; then for the steps in turn 7 (also where a step ends before it begins or behind the last
 * mark, or its cells do not ascend strictly, or a mark is not 1 or 2), 8, 9; 7 where marks are left behind the last step; 17. */
uint8_t yd_write(const int32_t *positions, size_t positions_length, const uint16_t *cells, size_t cells_length,
                 const uint16_t *marked, size_t marked_length, const uint8_t *marks, size_t marks_length,
                 const uint16_t *step_ends, size_t step_ends_length, uint8_t *bytes, size_t bytes_length, size_t *byte_count);

/* Does an archive's steps again.
 * After: table has the statuses of the last cells, counts the counts of each level as in yd_counts. *cell_count is the number of cells, *level_count
 * that of levels.
 * Refusals: 15, 17, 1 to 5, then for the steps in turn 7 to 9. */
uint8_t yd_replay(const uint8_t *bytes, size_t bytes_length, uint8_t *table, size_t table_length, uint16_t *counts, size_t counts_length,
                  size_t *cell_count, size_t *level_count);

/* Split jobs: one step of a table over 1 to 16 parts, which may run apart and in any order. A part is a store, a table of numbers that the caller keeps
 * as it is: it may be copied and sent, and docs/PARTS.md says what stands where. A cell is master with its owner, and ghost with the owner of its
 * children where that is another. Every part is started with the marks of its masters; then messages are fetched from the parts and handed over, and
 * parts are stepped, whichever call is accepted next, until every part is done. A message is for the part that its third byte names, from 1; it is kept
 * until that part has taken it. The parts then merge to the table of yd_step, in whatever order all this went; where yd_step refuses with 8 or 9, every
 * part ends with that number and they merge to the old table. The next step needs a new split. */

/* Splits a status table over so many parts. owners has a byte for each cell, the part that it is with, from 1; the children of a cell are with one part.
 * After: stores has the stores of the parts, from part 1, one behind the other, YD_STORE_LENGTH numbers each. In each store the entries and places (from CODE
 * on, docs/PARTS.md), and behind the last store the whole table, are as they were.
 * Refusals: 15, 1 to 6, 10, 11. */
uint8_t yd_split(const int32_t *positions, size_t positions_length, const uint16_t *cells, size_t cells_length,
                 const uint8_t *status, size_t status_length, size_t parts, const uint8_t *owners, size_t owners_length,
                 uint16_t *stores, size_t stores_length);

/* Starts a part. marks has a byte for each of its masters, in the order of cells: 0 none, 1 refine, 2 delete.
 * After: store is that of the running part, with messages to fetch.
 * Refusals: 15; 16 where the part was started before; 7. */
uint8_t yd_start(uint16_t *store, size_t store_length, const uint8_t *marks, size_t marks_length);

/* Leads a part to its next round, and at last to its end.
 * After: store is that of the part in the next round, with messages to fetch, or of the part that is done.
 * Refusals: 15; 16 also where the part is not started or is done, or another part's end of the round is not handed over yet. */
uint8_t yd_part_step(uint16_t *store, size_t store_length);

/* The next message that a part has written.
 * After: bytes has the message, and *byte_count is its length, 5 to 9; store is that of the part that has given it. Where there is none to send, *byte_count
 * is 0, and nothing else is changed.
 * Refusals: 15; 16 also where the part is not started. */
uint8_t yd_fetch(uint16_t *store, size_t store_length, uint8_t *bytes, size_t bytes_length, size_t *byte_count);

/* Hands a message over to a part, at its own length.
 * After: store is that of the part that has taken it.
 * Refusals: 15; 16 also where the part is not started; 12 to 14. A message that is refused with 14 is offered again later. */
uint8_t yd_hand_over(uint16_t *store, size_t store_length, const uint8_t *bytes, size_t bytes_length);

/* How far a part is.
 * After: *stage is YD_RUNNING or YD_DONE; *round is the round of a running part, from 0, and 0 where it is done; *result is the number 8 or 9 that a done
 * part's step ended with, else 0.
 * Refusals: 15; 16 also where the part is not started. */
uint8_t yd_stage(const uint16_t *store, size_t store_length, size_t *stage, size_t *round, size_t *result);

/* The masters and ghosts of a part that is done.
 * After: rows has fourteen numbers for each: 1 for a ghost and 0 for a master, status, level, coarse cell, and its child numbers from the coarse cell down, ten
 * with the zeros behind them. *row_count is how many masters and ghosts there are.
 * Refusals: 15; 16 also where the part is not done. */
uint8_t yd_held(const uint16_t *store, size_t store_length, uint16_t *rows, size_t rows_length, size_t *row_count);

/* The table that all parts make. stores has them one behind the other, YD_STORE_LENGTH numbers each, in any order; the first says how many they are.
 * After: table has the statuses of the cells, *cell_count their number.
 * Refusals: 15; 16 also where they are not every part once, not all done, end differently or make no sound table. */
uint8_t yd_merge(const uint16_t *stores, size_t stores_length, uint8_t *table, size_t table_length, size_t *cell_count);

/* An answer in words; what is no answer of this library is told as such. Not proved. */
static inline const char *yd_says(uint8_t answer) {
    switch (answer) {
    case YD_ACCEPTED: return "accepted";
    case YD_REFUSED_COUNTS: return "too few or too many corners or cells, or a list's length no multiple of 3 or 4";
    case YD_REFUSED_RANGE: return "a coordinate out of its range";
    case YD_REFUSED_NUMBERS: return "a cell's corner numbers do not ascend strictly, or are not below the count";
    case YD_REFUSED_FLAT: return "a flat cell";
    case YD_REFUSED_FACES: return "two cells with the same corners, or a face in three cells";
    case YD_REFUSED_STATUS: return "a status table that is not sound, or a pattern above 63";
    case YD_REFUSED_MARKS:
        return "marks of wrong length, above 2 or not 0 on a refined cell, or a cell or corner number not below the count";
    case YD_REFUSED_LEVEL: return "a level above 10 would arise";
    case YD_REFUSED_CELLS: return "more than 4,096 cells would arise";
    case YD_REFUSED_PARTS: return "a number of parts that is not 1 to 16";
    case YD_REFUSED_OWNERS: return "owners of wrong length or out of range, or two in a family";
    case YD_REFUSED_MESSAGE:
        return "a message of no known form, for another part, of what the part does not hold, or with a value out of range";
    case YD_REFUSED_TAKEN: return "a message that was taken before";
    case YD_REFUSED_EARLY: return "a message that comes too early, or to a part that is done";
    case YD_REFUSED_SHORT: return "a lent table is shorter than its full length";
    case YD_REFUSED_STORE: return "a store out of range, or at a stage that the call does not fit, or stores that do not make one table";
    case YD_REFUSED_FORM: return "an archive's bytes are not in the form, or would be more than 65,536";
    default: return "no answer of this library";
    }
}

#ifdef __cplusplus
}

/* A vector, or any container with data() and size(), as a pointer that is not null and a length:
 *     yd_examine_mesh(YD_DATA(positions), YD_DATA(cells)) */
template <typename Container> inline auto yd_data(Container &table) -> decltype(table.data()) {
    static typename std::remove_const<typename std::remove_pointer<decltype(table.data())>::type>::type nothing;
    return table.size() == 0 ? &nothing : table.data();
}
#define YD_DATA(table) yd_data(table), (table).size()
#endif

#endif
