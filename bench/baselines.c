/* Baseline (a): a plain array of N words, which has no older version. Baseline (b): a whole table copied for each version. */
#include "bench.h"

uint32_t array_get(const uint32_t *table, uint32_t cell) { return table[cell]; }

void array_set(uint32_t *table, uint32_t cell, uint32_t value) { table[cell] = value; }

void array_page(const uint32_t *restrict table, uint32_t from, uint32_t count, uint32_t *restrict out) {
    for (uint32_t i = 0; i < count; i++) out[i] = table[from + i];
}

static uint32_t *table_of(const struct tables *s, uint32_t version) { return s->words + (size_t)version * s->n; }

uint32_t tables_get(const struct tables *s, uint32_t version, uint32_t cell) { return table_of(s, version)[cell]; }

uint32_t tables_set(struct tables *s, uint32_t version, uint32_t cell, uint32_t value) {
    uint32_t *to = table_of(s, s->count);
    array_page(table_of(s, version), 0, s->n, to);
    to[cell] = value;
    return s->count++;
}

void tables_page(const struct tables *s, uint32_t version, uint32_t from, uint32_t count, uint32_t *out) {
    array_page(table_of(s, version), from, count, out);
}
