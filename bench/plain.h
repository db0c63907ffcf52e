// The calls of documents 01 and 02 in plain C, which bench/run counts beside the proved ones.
#ifndef PLAIN_H
#define PLAIN_H

#include <stdbool.h>
#include <stddef.h>
#include <stdint.h>

struct plain_errors {
    int64_t low, high;
    uint64_t worst;
    uint32_t side;
};

static inline struct plain_errors plain_errors_of(uint64_t unit, uint64_t i, uint64_t j) {
    struct plain_errors e;
    e.low = (int64_t)unit - (int64_t)((i + 1) * j);
    e.high = (int64_t)unit - (int64_t)(i * j);
    uint64_t left = e.high < 0 ? -e.high : e.high;
    uint64_t right = e.low < 0 ? -e.low : e.low;
    e.worst = left > right ? left : right;
    e.side = left > right ? 0 : 1;
    return e;
}

// `one` says whether the table is one with one. Answers document 01's number. The others put that and the rest of their answer into `out`.
uint32_t plain_build(uint32_t k, uint32_t m, bool one, uint16_t *table, size_t lent);
// number, yes, n, worst, least
void plain_check(uint32_t k, uint32_t m, bool one, const uint16_t *table, size_t lent, uint64_t out[5]);
// number, worst, n, side
void plain_survey(uint32_t k, uint32_t m, bool one, const uint16_t *table, size_t lent, uint64_t out[4]);
// number, s, n, j
void plain_look_up(uint32_t k, uint32_t m, bool one, uint32_t x, const uint16_t *table, size_t lent, uint64_t out[4]);
// number, length, n
void plain_write_memory(uint32_t k, uint32_t m, bool one, const uint16_t *table, size_t lent, uint8_t *text, size_t room, uint64_t out[3]);
// number, offset, n
void plain_read_memory(uint32_t k, uint32_t m, bool one, const uint8_t *text, size_t length, uint16_t *table, size_t lent, uint64_t out[3]);

#endif
