/* The benchmark: a program of its own, without a C library, so that only the code that is measured runs between two marks and every machine counts
 * the same instructions. Who runs it counts what lies behind bench_mark in the program's text: the linker is given the measured files after it. */
#ifndef WINCH_BENCH_H
#define WINCH_BENCH_H

#include <stddef.h>
#include <stdint.h>

/* one instruction; every second call ends a measurement */
void bench_mark(void);

/* says of the measurement that has just ended whose it was, what it did, at which size, and in how many steps */
void bench_tell(const char *who, const char *what, uint32_t size, uint32_t steps);

#define MEASURE(work)  \
    do {               \
        bench_mark();  \
        work;          \
        bench_mark();  \
    } while (0)

/* ---- who is measured: each does the same work on tables of n cells */

void work_winch(uint32_t n);
void work_plain(uint32_t n);
void work_array(uint32_t n);
void work_tables(uint32_t n);

/* every step alone, on a store of these sizes */
void steps_winch(uint32_t n, uint32_t h, uint32_t t, uint32_t b);
void steps_plain(uint32_t n, uint32_t h, uint32_t t, uint32_t b);

/* ---- the baselines without versions, and with a whole table for each version */

uint32_t array_get(const uint32_t *table, uint32_t cell);
void array_set(uint32_t *table, uint32_t cell, uint32_t value);
void array_page(const uint32_t *restrict table, uint32_t from, uint32_t count, uint32_t *restrict out);

struct tables {
    uint32_t n, count;
    uint32_t *words; /* version k from k * n on */
};

uint32_t tables_get(const struct tables *s, uint32_t version, uint32_t cell);
uint32_t tables_set(struct tables *s, uint32_t version, uint32_t cell, uint32_t value);
void tables_page(const struct tables *s, uint32_t version, uint32_t from, uint32_t count, uint32_t *out);

#endif
