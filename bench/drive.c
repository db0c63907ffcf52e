// Calls the proved calls and the plain ones, one after the other, with a call of `mark` before and
// after each. bench/run counts the instructions between two marks. Standard output names what stands
// between them: the call, the widths, the kind of the table ("one" or "-"), by how many of what the
// count is divided, and whose it is.
#include <stdio.h>
#include <stdlib.h>
#include <string.h>

#include "plain.h"

// What libbench_calls.a has. A slice comes as a pointer and a length.
uint32_t quirelinnet_build(uint32_t k, uint32_t m, bool one, uint16_t *table, size_t lent);
void quirelinnet_check(uint32_t k, uint32_t m, bool one, const uint16_t *table, size_t lent, uint64_t out[5]);
void quirelinnet_survey(uint32_t k, uint32_t m, bool one, const uint16_t *table, size_t lent, uint64_t out[4]);
void quirelinnet_look_up(uint32_t k, uint32_t m, bool one, uint32_t x, const uint16_t *table, size_t lent, uint64_t out[4]);
void quirelinnet_write_memory(uint32_t k, uint32_t m, bool one, const uint16_t *table, size_t lent, uint8_t *text, size_t room, uint64_t out[3]);
void quirelinnet_read_memory(uint32_t k, uint32_t m, bool one, const uint8_t *text, size_t length, uint16_t *table, size_t lent, uint64_t out[3]);

static uint32_t no_build(uint32_t k, uint32_t m, bool one, uint16_t *table, size_t lent) {
    (void)k, (void)m, (void)one, (void)table, (void)lent;
    return 0;
}

static void no_read(uint32_t k, uint32_t m, bool one, const uint16_t *table, size_t lent, uint64_t *out) {
    (void)k, (void)m, (void)one, (void)table, (void)lent, (void)out;
}

static void no_look_up(uint32_t k, uint32_t m, bool one, uint32_t x, const uint16_t *table, size_t lent, uint64_t *out) {
    (void)k, (void)m, (void)one, (void)x, (void)table, (void)lent, (void)out;
}

static void no_write_memory(uint32_t k, uint32_t m, bool one, const uint16_t *table, size_t lent, uint8_t *text, size_t room, uint64_t *out) {
    (void)k, (void)m, (void)one, (void)table, (void)lent, (void)text, (void)room, (void)out;
}

static void no_read_memory(uint32_t k, uint32_t m, bool one, const uint8_t *text, size_t length, uint16_t *table, size_t lent, uint64_t *out) {
    (void)k, (void)m, (void)one, (void)text, (void)length, (void)table, (void)lent, (void)out;
}

// Each kind of call as it is made to nothing, to the proved code and to the plain code.
enum { NOTHING, PROVED, PLAIN, WHO };
static const char *const who[WHO] = {"nothing", "proved", "plain"};
static uint32_t (*volatile build[WHO])(uint32_t, uint32_t, bool, uint16_t *, size_t) = {no_build, quirelinnet_build, plain_build};
typedef void read_call(uint32_t k, uint32_t m, bool one, const uint16_t *table, size_t lent, uint64_t *out);
static read_call *volatile check[WHO] = {no_read, quirelinnet_check, plain_check};
static read_call *volatile survey[WHO] = {no_read, quirelinnet_survey, plain_survey};
static void (*volatile look_up[WHO])(uint32_t, uint32_t, bool, uint32_t, const uint16_t *, size_t, uint64_t *) = {no_look_up, quirelinnet_look_up, plain_look_up};
static void (*volatile write_memory[WHO])(uint32_t, uint32_t, bool, const uint16_t *, size_t, uint8_t *, size_t, uint64_t *) = {no_write_memory, quirelinnet_write_memory, plain_write_memory};
static void (*volatile read_memory[WHO])(uint32_t, uint32_t, bool, const uint8_t *, size_t, uint16_t *, size_t, uint64_t *) = {no_read_memory, quirelinnet_read_memory, plain_read_memory};

__attribute__((noinline)) void mark(void) {
    __asm__ volatile("");
}

// The longest memory text has four digits and a newline for each cell.
enum { CELLS = 32768, DIVISORS = 65535, BYTES = 5 * CELLS };
static uint16_t table[WHO][CELLS], read_back[WHO][CELLS];
static uint8_t text[WHO][BYTES];
static uint64_t answer[WHO][5];

static void same(const char *call, const void *a, const void *b, size_t size) {
    if (memcmp(a, b, size) == 0) return;
    fprintf(stderr, "bench: %s: the proved answer and the plain one differ\n", call);
    exit(1);
}

// Says what is counted, and counts a call of each side. It takes k, m and one from where it stands, and
// the call has w for the side.
#define COUNT(name, many, each, call)                                                            \
    for (int w = 0; w < WHO; w++) {                                                              \
        printf("%s %u %u %s %u %s %s\n", name, k, m, one ? "one" : "-", many, each, who[w]);     \
        mark();                                                                                  \
        call;                                                                                    \
        mark();                                                                                  \
    }

// A call that reads the table, and answers so many values.
static void reads(const char *name, read_call *volatile *call, uint32_t k, uint32_t m, bool one, size_t values) {
    COUNT(name, 1u << k, "entry", call[w](k, m, one, table[PLAIN], CELLS, answer[w]));
    same(name, answer[PROVED], answer[PLAIN], values * sizeof(uint64_t));
}

static void widths(uint32_t k, uint32_t m, bool one) {
    uint32_t number[WHO];
    COUNT("build", 1u << k, "entry", number[w] = build[w](k, m, one, table[w], CELLS));
    same("build", &number[PROVED], &number[PLAIN], sizeof number[PLAIN]);
    same("build", table[PROVED], table[PLAIN], sizeof table[PLAIN]);
    reads("check", check, k, m, one, 5);
    reads("survey", survey, k, m, one, 4);
}

// Every divisor once.
static void look_ups(uint32_t k, uint32_t m, bool one) {
    COUNT("look_up", DIVISORS, "call", for (uint32_t x = 1; x <= DIVISORS; x++) look_up[w](k, m, one, x, table[PLAIN], CELLS, answer[w]));
    for (uint32_t x = 1; x <= DIVISORS; x++) {
        look_up[PROVED](k, m, one, x, table[PLAIN], CELLS, answer[PROVED]);
        look_up[PLAIN](k, m, one, x, table[PLAIN], CELLS, answer[PLAIN]);
        same("look_up", answer[PROVED], answer[PLAIN], 4 * sizeof(uint64_t));
    }
}

// The memory text of the table, and the table from that text.
static void memory(uint32_t k, uint32_t m, bool one) {
    COUNT("write", 1u << k, "cell", write_memory[w](k, m, one, table[PLAIN], CELLS, text[w], BYTES, answer[w]));
    same("write", answer[PROVED], answer[PLAIN], 3 * sizeof(uint64_t));
    same("write", text[PROVED], text[PLAIN], sizeof text[PLAIN]);
    size_t length = answer[PLAIN][1];
    COUNT("read", 1u << k, "cell", read_memory[w](k, m, one, text[PLAIN], length, read_back[w], CELLS, answer[w]));
    same("read", answer[PROVED], answer[PLAIN], 3 * sizeof(uint64_t));
    same("read", read_back[PROVED], read_back[PLAIN], sizeof read_back[PLAIN]);
}

static void all(bool one) {
    widths(5, 5, one);
    memory(5, 5, one);
    widths(12, 3, one);
    widths(10, 12, one);
    widths(15, 15, one);
    look_ups(15, 15, one);
    memory(15, 15, one);
}

int main(void) {
    all(false);
    all(true);
    return 0;
}
