/* Runs every measurement; who is measured, what, the size and the steps go to the output, a line each, in the order of the marks. */
#include "bench.h"

#include "winchclover.h"

enum { CELLS = WINCH_MOST_CELLS, VERSIONS = 4 };

/* ---- output */

void bench_write(const char *text, size_t length);

static size_t length_of(const char *s) {
    size_t n = 0;
    while (s[n]) n++;
    return n;
}

static void write_number(uint32_t x) {
    char digits[10];
    int at = 10;
    do digits[--at] = (char)('0' + x % 10);
    while (x /= 10);
    bench_write(digits + at, (size_t)(10 - at));
}

void bench_tell(const char *who, const char *what, uint32_t size, uint32_t steps) {
    bench_write(who, length_of(who));
    bench_write("\t", 1);
    bench_write(what, length_of(what));
    bench_write("\t", 1);
    write_number(size);
    bench_write("\t", 1);
    write_number(steps);
    bench_write("\n", 1);
}

/* ---- the baselines at the same work */

static uint32_t words[VERSIONS * CELLS], out[CELLS];
static volatile uint32_t sink;

void work_array(uint32_t n) {
    MEASURE(array_set(words, n - 1, 9));
    bench_tell("array", "set", n, 0);
    MEASURE(sink = array_get(words, 0));
    bench_tell("array", "get newest", n, 0);
    MEASURE(array_page(words, 0, n, out));
    bench_tell("array", "page newest", n, 0);
}

void work_tables(uint32_t n) {
    struct tables s = {n, 1, words};
    uint32_t newest;
    MEASURE(newest = tables_set(&s, 0, n - 1, 9));
    bench_tell("tables", "set", n, 0);
    MEASURE(sink = tables_get(&s, newest, 0));
    bench_tell("tables", "get newest", n, 0);
    MEASURE(sink = tables_get(&s, 0, 0));
    bench_tell("tables", "get old", n, 0);
    MEASURE(tables_page(&s, newest, 0, n, out));
    bench_tell("tables", "page newest", n, 0);
    MEASURE(tables_page(&s, 0, 0, n, out));
    bench_tell("tables", "page old", n, 0);
    MEASURE(newest = tables_set(&s, 0, 1, 5));
    bench_tell("tables", "copy", n, 0);
}

static void work(uint32_t n) {
    work_array(n);
    work_tables(n);
    work_plain(n);
    work_winch(n);
}

void bench_main(void) {
    work(16);
    work(256);
    work(4096);
    steps_plain(16, 4, 2, 4);
    steps_plain(4096, 256, 16, 256);
    steps_winch(16, 4, 2, 4);
    steps_winch(4096, 256, 16, 256);
}
