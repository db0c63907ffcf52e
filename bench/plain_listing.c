// The listing of document 01 as a good engineer would write it at first: one buffer, a decimal
// conversion of its own, and the plain calls.
#include <stdlib.h>
#include <string.h>
#include <unistd.h>

#include "plain.h"

static uint16_t table[32768];
static char page[131072];
// More than any line has.
enum { LINE = 134 };

static const char *const sides[] = {" left\n", " right\n"};

static char *put_text(char *to, const char *text) {
    while (*text != 0) *to++ = *text++;
    return to;
}

static char *put_number(char *to, uint64_t n) {
    char digits[20];
    int count = 0;
    do {
        digits[count++] = '0' + n % 10;
        n /= 10;
    } while (n != 0);
    while (count > 0) *to++ = digits[--count];
    return to;
}

static char *put_field(char *to, const char *label, uint64_t n) {
    return put_number(put_text(to, label), n);
}

// A number after a space.
static char *put_next(char *to, uint64_t n) {
    *to++ = ' ';
    return put_number(to, n);
}

static char *put_error(char *to, int64_t e) {
    *to++ = ' ';
    if (e < 0) {
        *to++ = '-';
        e = -e;
    }
    return put_number(to, e);
}

static void write_all(const char *text, size_t size) {
    while (size > 0) {
        ssize_t done = write(1, text, size);
        if (done <= 0) exit(1);
        text += done;
        size -= done;
    }
}

static int refuse(uint32_t number) {
    char *end = put_text(put_field(page, "refused ", number), "\n");
    write_all(page, end - page);
    return 0;
}

// One or two digits.
static const char *read_width(const char *at, uint32_t *width) {
    if (*at < '0' || *at > '9') return NULL;
    *width = *at++ - '0';
    if (*at >= '0' && *at <= '9') *width = 10 * *width + (*at++ - '0');
    return at;
}

static int list(uint32_t k, uint32_t m, bool one) {
    uint32_t number = plain_build(k, m, one, table, 32768);
    if (number != 0) return refuse(number);
    uint64_t survey[4];
    plain_survey(k, m, one, table, 32768, survey);

    uint64_t unit = (uint64_t)1 << (k + m + 1);
    char *to = put_field(page, "k=", k);
    to = put_field(to, " m=", m);
    to = put_field(to, " unit=", unit);
    to = put_text(to, "\n");
    for (uint32_t n = 0; n < 1u << k; n++) {
        if (page + sizeof page - to < LINE) {
            write_all(page, to - page);
            to = page;
        }
        uint64_t i = (1u << k) + n;
        uint64_t j = (1u << m) + table[n];
        struct plain_errors e = plain_errors_of(unit, i, j);
        to = put_number(to, n);
        to = put_next(to, i);
        to = put_next(to, j);
        to = put_error(to, e.low);
        to = put_error(to, e.high);
        to = put_next(to, e.worst);
        to = put_text(to, sides[e.side]);
    }
    if (page + sizeof page - to < LINE) {
        write_all(page, to - page);
        to = page;
    }
    to = put_field(to, "worst ", survey[1]);
    to = put_next(to, survey[2]);
    to = put_text(to, sides[survey[3]]);
    write_all(page, to - page);
    return 0;
}

int main(void) {
    char line[12] = {0};
    size_t size = 0;
    ssize_t got;
    while (size < 11 && (got = read(0, line + size, 11 - size)) > 0) size += got;

    uint32_t k, m;
    const char *at = read_width(line, &k);
    if (at == NULL || *at++ != ' ') return refuse(7);
    at = read_width(at, &m);
    if (at == NULL) return refuse(7);
    bool one = strncmp(at, " one", 4) == 0;
    if (one) at += 4;
    if (*at++ != '\n' || at != line + size) return refuse(7);
    return list(k, m, one);
}
