// The calls of documents 01 and 02 as a good engineer would write them at first: each does what its
// sentence says, with the same tests in the same order and the same answers as the proved ones.
#include <string.h>

#include "plain.h"

static uint32_t refusal(uint32_t k, uint32_t m, size_t lent) {
    if (k < 1 || k > 15) return 1;
    if (m < 1 || m > 15) return 2;
    if (lent < (size_t)1 << k) return 3;
    return 0;
}

static uint64_t unit_of(uint32_t k, uint32_t m) {
    return (uint64_t)1 << (k + m + 1);
}

// The first number that is no field.
static uint32_t fields_end(uint32_t m, bool one) {
    return (1u << m) + one;
}

// The whole number nearest to 2^(k+m+2)/(2i+1), at most 2^(m+1) - 1, or 2^(m+1) in a table with one.
static uint64_t best(uint32_t m, bool one, uint64_t unit, uint64_t i) {
    uint64_t most = ((uint64_t)1 << m) + fields_end(m, one) - 1;
    uint64_t j = (2 * unit + i) / (2 * i + 1);
    return j < most ? j : most;
}

uint32_t plain_build(uint32_t k, uint32_t m, bool one, uint16_t *table, size_t lent) {
    uint32_t number = refusal(k, m, lent);
    if (number != 0) return number;
    uint64_t unit = unit_of(k, m);
    uint32_t size = 1u << k;
    for (uint32_t n = 0; n < size; n++) {
        table[n] = best(m, one, unit, size + n) - (1u << m);
    }
    return 0;
}

static void check_answer(uint64_t out[5], uint64_t number, uint64_t yes, uint64_t n, uint64_t worst, uint64_t least) {
    out[0] = number;
    out[1] = yes;
    out[2] = n;
    out[3] = worst;
    out[4] = least;
}

void plain_check(uint32_t k, uint32_t m, bool one, const uint16_t *table, size_t lent, uint64_t out[5]) {
    uint32_t number = refusal(k, m, lent);
    if (number != 0) return check_answer(out, number, 0, 0, 0, 0);
    uint64_t unit = unit_of(k, m);
    uint32_t size = 1u << k;
    for (uint32_t n = 0; n < size; n++) {
        if (table[n] >= fields_end(m, one)) return check_answer(out, 5, 0, n, 0, 0);
    }
    for (uint32_t n = 0; n < size; n++) {
        uint64_t i = size + n;
        uint64_t worst = plain_errors_of(unit, i, (1u << m) + table[n]).worst;
        uint64_t least = plain_errors_of(unit, i, best(m, one, unit, i)).worst;
        if (worst != least) return check_answer(out, 0, 0, n, worst, least);
    }
    check_answer(out, 0, 1, 0, 0, 0);
}

static void survey_answer(uint64_t out[4], uint64_t number, uint64_t worst, uint64_t n, uint64_t side) {
    out[0] = number;
    out[1] = worst;
    out[2] = n;
    out[3] = side;
}

void plain_survey(uint32_t k, uint32_t m, bool one, const uint16_t *table, size_t lent, uint64_t out[4]) {
    uint32_t number = refusal(k, m, lent);
    if (number != 0) return survey_answer(out, number, 0, 0, 0);
    uint64_t unit = unit_of(k, m);
    uint32_t size = 1u << k;
    uint64_t worst = 0;
    uint32_t worst_n = 0, side = 0;
    for (uint32_t n = 0; n < size; n++) {
        if (table[n] >= fields_end(m, one)) return survey_answer(out, 5, 0, n, 0);
        uint64_t i = size + n, j = (1u << m) + table[n];
        uint64_t entry_worst = plain_errors_of(unit, i, j).worst;
        if (entry_worst > worst) {
            worst = entry_worst;
            worst_n = n;
            side = plain_errors_of(unit, i, j).side;
        }
    }
    survey_answer(out, 0, worst, worst_n, side);
}

static void look_up_answer(uint64_t out[4], uint64_t number, uint64_t s, uint64_t n, uint64_t j) {
    out[0] = number;
    out[1] = s;
    out[2] = n;
    out[3] = j;
}

void plain_look_up(uint32_t k, uint32_t m, bool one, uint32_t x, const uint16_t *table, size_t lent, uint64_t out[4]) {
    uint32_t number = refusal(k, m, lent);
    if (number != 0) return look_up_answer(out, number, 0, 0, 0);
    if (x == 0 || x > 65535) return look_up_answer(out, 6, 0, 0, 0);
    uint32_t s = __builtin_clz(x) - 16;
    uint32_t n = (x << s >> (15 - k)) - (1u << k);
    uint32_t f = table[n];
    if (f >= fields_end(m, one)) return look_up_answer(out, 5, 0, n, 0);
    look_up_answer(out, 0, s, n, (1u << m) + f);
}

static void memory_answer(uint64_t out[3], uint64_t number, uint64_t place, uint64_t n) {
    out[0] = number;
    out[1] = place;
    out[2] = n;
}

void plain_write_memory(uint32_t k, uint32_t m, bool one, const uint16_t *table, size_t lent, uint8_t *text, size_t room, uint64_t out[3]) {
    uint32_t number = refusal(k, m, lent);
    if (number != 0) return memory_answer(out, number, 0, 0);
    uint32_t size = 1u << k;
    for (uint32_t n = 0; n < size; n++) {
        if (table[n] >= fields_end(m, one)) return memory_answer(out, 5, 0, n);
    }
    uint32_t digits = (m + one + 3) / 4;
    size_t length = size * (digits + 1);
    if (room < length) return memory_answer(out, 17, 0, 0);
    for (uint32_t n = 0; n < size; n++) {
        for (uint32_t place = digits; place-- > 0;) *text++ = "0123456789abcdef"[table[n] >> 4 * place & 15];
        *text++ = '\n';
    }
    memory_answer(out, 0, length, 0);
}

// Every cell of a memory text is below this, so it marks a cell that was not given.
static const uint16_t MISSING = 65535;

static int is_white(uint8_t c) {
    return c == ' ' || c == '\t' || c == '\n' || c == '\f';
}

static int digit_of(uint8_t c) {
    if (c >= '0' && c <= '9') return c - '0';
    if (c >= 'a' && c <= 'f') return c - 'a' + 10;
    if (c >= 'A' && c <= 'F') return c - 'A' + 10;
    return -1;
}

static int begins_comment(const uint8_t *at, const uint8_t *end) {
    return *at == '/' && end - at > 1 && (at[1] == '/' || at[1] == '*');
}

// After the comment that begins here, or NULL where it has no end.
static const uint8_t *after_comment(const uint8_t *at, const uint8_t *end) {
    int line = at[1] == '/';
    for (at += 2; at < end; at++) {
        if (line ? *at == '\n' : *at == '*' && end - at > 1 && at[1] == '/') return at + (line ? 1 : 2);
    }
    return line ? end : NULL;
}

void plain_read_memory(uint32_t k, uint32_t m, bool one, const uint8_t *text, size_t length, uint16_t *table, size_t lent, uint64_t out[3]) {
    uint32_t number = refusal(k, m, lent);
    if (number != 0) return memory_answer(out, number, 0, 0);
    uint16_t cells[32768];
    uint32_t size = 1u << k, address = 0, given = 0;
    memset(cells, 255, size * sizeof cells[0]);
    const uint8_t *at = text, *end = text + length;
    while (at < end) {
        if (is_white(*at)) {
            at++;
            continue;
        }
        const uint8_t *from = at;
        if (begins_comment(at, end)) {
            at = after_comment(at, end);
            if (at == NULL) return memory_answer(out, 8, from - text, 0);
            continue;
        }
        int is_address = *at == '@';
        if (is_address) at++;
        int digit = at < end ? digit_of(*at) : -1;
        if (digit < 0) return memory_answer(out, 8, from - text, 0);
        uint32_t value = digit;
        for (at++; at < end; at++) {
            digit = digit_of(*at);
            // What has five digits or more is past every table and every field.
            if (digit >= 0) value = value < 65536 ? 16 * value + digit : value;
            else if (*at != '_') break;
        }
        if (at < end && !is_white(*at) && !begins_comment(at, end)) return memory_answer(out, 8, from - text, 0);
        if ((is_address ? value : address) >= size) return memory_answer(out, 9, from - text, 0);
        if (is_address) {
            address = value;
            continue;
        }
        if (value >= fields_end(m, one)) return memory_answer(out, 5, from - text, 0);
        if (cells[address] != MISSING) return memory_answer(out, 10, from - text, 0);
        cells[address++] = value;
        given++;
    }
    if (given < size) {
        uint32_t n = 0;
        while (cells[n] != MISSING) n++;
        return memory_answer(out, 11, 0, n);
    }
    memcpy(table, cells, size * sizeof cells[0]);
    memory_answer(out, 0, 0, 0);
}
