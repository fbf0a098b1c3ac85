/* docs/LAYOUT.md in C, for plain.c and plain_check.c: where the words of a pool lie, and the codes in them. */
#ifndef WINCH_LAYOUT_H
#define WINCH_LAYOUT_H

#include "winchclover.h"

enum { MARK = 0x00494B56, FORM = 1, HEAD_WORDS = 16, WIDTH = 13, LAST_SERIAL = 16777215 };

enum { FREE, RESERVED, LIVE };

/* 12 times the operation, and the stage */
enum {
    IDLE = 0,
    NEW_TAKE = 13,
    NEW_FILL = 14,
    GET_GUESS = 27,
    GET_VERSION,
    GET_LENGTH,
    GET_PROBE,
    COPY_TAKE = 37,
    COPY_FILL,
    COPY_GUESS,
    COPY_VERSION,
    COPY_LENGTH,
    COPY_PROBE,
    SET_EXCHANGE,
    SET_READ,
    SET_APPEND,
    SET_WRITE,
    COPY_PUT,
    PAGE_GUESS = 51,
    PAGE_VERSION,
    PAGE_LENGTH,
    PAGE_PROBE
};

struct head {
    uint32_t mark, n, h, t, words, form, spare[10];
};

struct handle {
    uint32_t serial, status, block, number;
};

struct task {
    uint32_t code, slot, block, number, cell, value, until, fresh, target;
    uint32_t hand, guess, lo, hi, found, candidate, version; /* the get in hand */
    uint32_t steps, spare[15];
};

struct entry {
    uint32_t version, old;
};

/* ---- where things lie */

static inline const struct head *head_of(const uint32_t *pool) { return (const struct head *)pool; }

static inline uint32_t cells_of(const uint32_t *pool) { return head_of(pool)->n; }

static inline struct handle *handles_of(const uint32_t *pool) { return (struct handle *)(pool + HEAD_WORDS); }

static inline struct task *tasks_of(const uint32_t *pool) { return (struct task *)(pool + HEAD_WORDS + 4 * (size_t)head_of(pool)->h); }

static inline uint32_t *block_at(const uint32_t *pool, uint32_t k) {
    const struct head *d = head_of(pool);
    return (uint32_t *)pool + WINCH_CONTROL_WORDS(d->h, d->t) + k * WINCH_BLOCK_WORDS(d->n);
}

static inline uint32_t *cell_at(uint32_t *block, uint32_t i) { return block + 16 + i; }

static inline uint32_t *length_at(uint32_t *block, uint32_t n, uint32_t i) { return block + 16 + n + i; }

/* chunk c of a log has the entries j with 2^c <= j + 1 < 2^(c + 1) */
static inline uint32_t chunk_of(uint32_t j) { return 31 - (uint32_t)__builtin_clz(j + 1); }

static inline uint32_t *base_at(uint32_t *block, uint32_t n, uint32_t i, uint32_t c) { return block + 16 + 2 * n + WIDTH * i + c; }

static inline struct entry *place_at(uint32_t *block, uint32_t n, uint32_t place) { return (struct entry *)(block + 16 + 15 * n) + place; }

static inline struct entry *entry_at(uint32_t *block, uint32_t n, uint32_t i, uint32_t j) {
    uint32_t c = chunk_of(j);
    return place_at(block, n, *base_at(block, n, i, c) + (j + 1 - (1u << c)));
}

/* ---- refusal 1 */

static inline int within(uint32_t x, uint32_t most) { return x - 1 < most; }

static inline int fits(size_t words, uint32_t n, uint32_t h, uint32_t t) {
    return within(n, WINCH_MOST_CELLS) && within(h, WINCH_MOST_HANDLES) && within(t, WINCH_MOST_TASKS) &&
           words >= WINCH_POOL_WORDS(n, h, t, 1);
}

static inline int describes(const uint32_t *pool, size_t words) {
    const struct head *d = head_of(pool);
    return words >= HEAD_WORDS && d->mark == MARK && d->form == FORM && d->words == words && fits(words, d->n, d->h, d->t);
}

static inline uint32_t blocks_in(size_t words, uint32_t n, uint32_t h, uint32_t t) {
    size_t b = (words - WINCH_CONTROL_WORDS(h, t)) / WINCH_BLOCK_WORDS(n);
    return b < WINCH_MOST_BLOCKS ? (uint32_t)b : WINCH_MOST_BLOCKS;
}

static inline uint32_t blocks_of(const uint32_t *pool) {
    const struct head *d = head_of(pool);
    return blocks_in(d->words, d->n, d->h, d->t);
}

/* ---- what a task at a stage does: it names a handle, has reserved a slot, fills a block */

static inline int names(uint32_t code) { return code >= GET_GUESS; }

static inline int reserves(uint32_t code) { return code == NEW_TAKE || code == NEW_FILL || (code >= COPY_TAKE && code <= COPY_PUT); }

static inline int fills(uint32_t code) { return code == NEW_FILL || (code >= COPY_FILL && code <= COPY_PROBE) || code == COPY_PUT; }

#endif
