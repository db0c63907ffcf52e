// A memory text read by the proved call, or a best table built by it, for tests/verilog to compare.
//
//     read_memory K M KIND         the cells of the best table; KIND is plain or one
//     read_memory K M KIND FILE    what the call answers for the text in FILE, and then the cells
//
// The answer is a line: `read`; or `refused`, the number and, where it gives one, the place. Before the
// call every cell is 43981, abcd in hex, which is no field. Each cell is a line of as many hex digits
// as M bits need, or in a table with one as M+1 bits need, which is how a simulator shows such a word.
#include <stdbool.h>
#include <stdint.h>
#include <stdio.h>
#include <stdlib.h>
#include <string.h>

// What libbench_calls.a has. A slice comes as a pointer and a length.
uint32_t quirelinnet_build(uint32_t k, uint32_t m, bool one, uint16_t *table, size_t lent);
void quirelinnet_read_memory(uint32_t k, uint32_t m, bool one, const uint8_t *text, size_t length, uint16_t *table, size_t lent, uint64_t out[3]);

enum { CELLS = 32768, BYTES = 1048576, BEFORE = 43981 };
static uint16_t table[CELLS];
// One byte more, to see that a file is too long.
static uint8_t text[BYTES + 1];

static void fail(const char *why) {
    fprintf(stderr, "read_memory: %s\n", why);
    exit(2);
}

static size_t read_file(const char *name) {
    FILE *file = fopen(name, "rb");
    if (file == NULL) fail("the file cannot be opened");
    size_t length = fread(text, 1, sizeof text, file);
    if (ferror(file)) fail("the file cannot be read");
    if (length > BYTES) fail("the file is too long");
    fclose(file);
    return length;
}

static void show_answer(const uint64_t out[3]) {
    unsigned long number = out[0], place = number == 11 ? out[2] : out[1];
    if (number == 0) printf("read\n");
    else if (number <= 3) printf("refused %lu\n", number);
    else printf("refused %lu %lu\n", number, place);
}

int main(int count, char **words) {
    if (count != 4 && count != 5) fail("usage: read_memory K M KIND [FILE]");
    uint32_t k = strtoul(words[1], NULL, 10), m = strtoul(words[2], NULL, 10);
    bool one = strcmp(words[3], "one") == 0;
    for (size_t n = 0; n < CELLS; n++) table[n] = BEFORE;
    if (count == 4) {
        if (quirelinnet_build(k, m, one, table, CELLS) != 0) fail("no table has these widths");
    } else {
        uint64_t out[3];
        quirelinnet_read_memory(k, m, one, text, read_file(words[4]), table, CELLS, out);
        show_answer(out);
    }
    for (size_t n = 0; k <= 15 && n < (size_t)1 << k; n++) printf("%0*x\n", (int)(m + one + 3) / 4, table[n]);
    return 0;
}
