// Vectors as tables, empty ones too: a job without marks, from C++ (bindings/c/test.sh).
#include <cstdio>
#include <cstdlib>
#include <vector>

#include "yuccadice.h"

static void check(bool fact, const char *what) {
    if (!fact) {
        std::printf("vectors.cpp: %s\n", what);
        std::exit(1);
    }
}

int main() {
    const std::vector<int32_t> positions{0, 0, 0, 16, 0, 0, 0, 16, 0, 0, 0, 16}; // mesh A of document 01
    const std::vector<uint16_t> cells{0, 1, 2, 3};
    std::vector<uint16_t> marked, step_ends; // empty: data() may be null
    std::vector<uint8_t> marks, bytes(YD_BYTES_LENGTH);
    size_t count = 0;
    check(yd_data(marked) != nullptr && yd_data(marks) != nullptr, "an empty vector's pointer is null");
    check(yd_data(positions) == positions.data(), "a vector's pointer is another");
    check(yd_examine_mesh(YD_DATA(positions), YD_DATA(cells)) == YD_ACCEPTED, "mesh A");
    uint8_t answer = yd_write(YD_DATA(positions), YD_DATA(cells), YD_DATA(marked), YD_DATA(marks), YD_DATA(step_ends), YD_DATA(bytes), &count);
    check(answer == YD_ACCEPTED && count == 4 * 13 + 9 + 1, "a job without steps");
    step_ends.push_back(0);
    answer = yd_write(YD_DATA(positions), YD_DATA(cells), YD_DATA(marked), YD_DATA(marks), YD_DATA(step_ends), YD_DATA(bytes), &count);
    check(answer == YD_ACCEPTED && count == 4 * 13 + 9 + 1 + 1, "a step without marks");
    const std::vector<uint8_t> none;
    check(yd_examine_table(YD_DATA(positions), YD_DATA(cells), YD_DATA(none)) == YD_REFUSED_STATUS, "a table without cells");
    std::puts("ok");
}
