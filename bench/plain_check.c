/* The whole-store check by hand, with no proof: the second opinion for the tests. Document 01 has rules 1 to 6, docs/LAYOUT.md rule 7.
 * It trusts no word of the pool. */
#include "plain.h"

#include "layout.h"
#include "winchclover.h"

#include <string.h>

/* ---- the rows */

/* the code that a task's word 0 is read as; another one than the word where the word is no code */
static uint32_t code_of(const struct task *k) {
    uint32_t stage = k->code % 12;
    int reading = stage >= 3 && stage <= 6;
    switch (k->code / 12) {
    case 1: return stage == 1 ? NEW_TAKE : NEW_FILL;
    case 2: return reading ? k->code : GET_PROBE;
    case 3: return stage ? k->code : COPY_PROBE;
    case 4: return reading ? k->code : PAGE_PROBE;
    default: return IDLE;
    }
}

static int writes(uint32_t code) { return code >= SET_READ && code <= SET_WRITE; }

static int is_live(const uint32_t *pool, uint32_t slot) { return slot < head_of(pool)->h && handles_of(pool)[slot].status == LIVE; }

static int stood(const uint32_t *pool, uint32_t block) {
    for (uint32_t j = 0; j < head_of(pool)->h; j++)
        if (is_live(pool, j) && handles_of(pool)[j].block == block) return 1;
    return 0;
}

/* ---- rule 2 */

static int stands_well(const uint32_t *pool, const struct handle *x) {
    uint32_t n = cells_of(pool);
    if (x->block >= blocks_of(pool)) return 0;
    uint32_t v = block_at(pool, x->block)[0];
    return x->number <= v && x->number <= n && v <= n + 1;
}

static int rule_2(const uint32_t *pool) {
    for (uint32_t j = 0; j < head_of(pool)->h; j++)
        if (is_live(pool, j) && !stands_well(pool, handles_of(pool) + j)) return 0;
    return 1;
}

/* ---- rules 3 and 4, of a block with a live handle */

static uint64_t place_of(uint32_t *block, uint32_t n, uint32_t i, uint32_t j) {
    uint32_t c = chunk_of(j);
    return (uint64_t)*base_at(block, n, i, c) + (j + 1 - (1u << c));
}

static uint32_t version_of(uint32_t *block, uint32_t n, uint32_t i, uint32_t j) { return entry_at(block, n, i, j)->version; }

static int log_sound(uint32_t *block, uint32_t n, uint32_t i, uint8_t *seen) {
    uint32_t m = *length_at(block, n, i);
    if (m > block[0]) return 0; /* more than there are versions below V */
    for (uint32_t j = 0; j < m; j++) {
        if (place_of(block, n, i, j) >= 2 * n) return 0;
        uint32_t v = version_of(block, n, i, j);
        if (v >= block[0] || seen[v] || (j && v <= version_of(block, n, i, j - 1))) return 0;
        seen[v] = 1;
    }
    return 1;
}

static int rule_3(uint32_t *block, uint32_t n) {
    uint8_t seen[WINCH_MOST_CELLS + 1] = {0};
    for (uint32_t i = 0; i < n; i++)
        if (!log_sound(block, n, i, seen)) return 0;
    return 1;
}

static uint32_t entries_of(uint32_t *block, uint32_t n) {
    uint32_t entries = 0;
    for (uint32_t i = 0; i < n; i++) entries += *length_at(block, n, i);
    return entries;
}

static int rule_4(uint32_t *block, uint32_t n) { return entries_of(block, n) <= block[0] && entries_of(block, n) <= n; }

static int every_block(const uint32_t *pool, int (*rule)(uint32_t *, uint32_t)) {
    for (uint32_t b = 0; b < blocks_of(pool); b++)
        if (stood(pool, b) && !rule(block_at(pool, b), cells_of(pool))) return 0;
    return 1;
}

/* ---- rule 5 */

static int rule_5(const uint32_t *pool) {
    const struct handle *x = handles_of(pool);
    for (uint32_t j = 0; j < head_of(pool)->h; j++)
        for (uint32_t i = 0; i < j; i++)
            if (is_live(pool, i) && is_live(pool, j) && x[i].block == x[j].block && x[i].number == x[j].number) return 0;
    return 1;
}

/* ---- rule 6 */

static int name_holds(const uint32_t *pool, const struct task *k) {
    if (!is_live(pool, k->slot)) return 0;
    const struct handle *x = handles_of(pool) + k->slot;
    return x->block == k->block && x->number == k->number;
}

static uint32_t owners(const uint32_t *pool, uint32_t slot) {
    uint32_t count = 0;
    for (const struct task *k = tasks_of(pool); k < tasks_of(pool) + head_of(pool)->t; k++) count += reserves(code_of(k)) && k->fresh == slot;
    return count;
}

static uint32_t fillers(const uint32_t *pool, uint32_t block) {
    uint32_t count = 0;
    for (const struct task *k = tasks_of(pool); k < tasks_of(pool) + head_of(pool)->t; k++) count += fills(code_of(k)) && k->target == block;
    return count;
}

static int holds_well(const uint32_t *pool, const struct task *k) {
    uint32_t code = code_of(k);
    if (names(code) && !name_holds(pool, k)) return 0;
    if (reserves(code) && (k->fresh >= head_of(pool)->h || handles_of(pool)[k->fresh].status != RESERVED || owners(pool, k->fresh) != 1)) return 0;
    return !fills(code) || (fillers(pool, k->target) == 1 && !stood(pool, k->target));
}

static int rule_6(const uint32_t *pool) {
    for (uint32_t t = 0; t < head_of(pool)->t; t++)
        if (!holds_well(pool, tasks_of(pool) + t)) return 0;
    for (uint32_t j = 0; j < head_of(pool)->h; j++)
        if (handles_of(pool)[j].status == RESERVED && owners(pool, j) == 0) return 0;
    return 1;
}

/* ---- rule 7: the rows */

static int slot_sound(const struct handle *x) {
    if (x->status > LIVE || x->serial > LAST_SERIAL) return 0;
    return x->status == LIVE ? x->serial >= 1 : x->block == 0 && x->number == 0;
}

static int in_range(const uint32_t *pool, const struct task *k) {
    uint32_t n = cells_of(pool), h = head_of(pool)->h, b = blocks_of(pool);
    return k->slot < h && k->block < b && k->number <= n && k->cell < n && k->until <= n && k->fresh < h && k->target < b && k->hand < n;
}

static uint32_t digits(uint32_t x) { return x ? 32 - (uint32_t)__builtin_clz(x) : 0; }

/* the steps that the get in hand may still take */
static uint32_t left(uint32_t n, uint32_t code, const struct task *k) {
    switch (code % 12) {
    case 3: return 3 + digits(n);
    case 4: return 2 + digits(n);
    case 5: return 1 + digits(n);
    default: return k->hi > k->lo ? digits(k->hi - k->lo) : 0;
    }
}

static int all_zero(const struct task *k) {
    const uint32_t *word = &k->code;
    for (int j = 0; j < 17; j++)
        if (word[j]) return 0;
    return 1;
}

static int paced(uint32_t n, const struct task *k) {
    uint64_t get = 3 + digits(n), copied = 2 + (uint64_t)k->hand * (4 + digits(n)), steps = k->steps;
    switch (k->code) {
    case IDLE: return all_zero(k);
    case NEW_TAKE:
    case SET_EXCHANGE: return steps == 0;
    case NEW_FILL: return steps == (uint64_t)k->hand + 1;
    case SET_READ:
    case COPY_TAKE: return steps == 1;
    case SET_APPEND: return steps == 2;
    case SET_WRITE: return steps == 3;
    case COPY_FILL: return steps <= copied + get;
    case COPY_PUT: return steps <= 2 + (uint64_t)n * (4 + digits(n));
    case GET_GUESS:
    case GET_VERSION:
    case GET_LENGTH:
    case GET_PROBE: return steps + left(n, k->code, k) <= get;
    case COPY_GUESS:
    case COPY_VERSION:
    case COPY_LENGTH:
    case COPY_PROBE: return steps + left(n, k->code, k) <= copied + get;
    default: return k->cell <= k->hand && steps + left(n, k->code, k) <= ((uint64_t)k->hand - k->cell + 1) * get;
    }
}

static int rows_sound(const uint32_t *pool) {
    const struct task *k = tasks_of(pool);
    for (uint32_t j = 0; j < head_of(pool)->h; j++)
        if (!slot_sound(handles_of(pool) + j)) return 0;
    for (uint32_t t = 0; t < head_of(pool)->t; t++)
        if (code_of(k + t) != k[t].code || !in_range(pool, k + t) || !paced(cells_of(pool), k + t)) return 0;
    return 1;
}

/* ---- rule 7: what a task has done; its rows are in range and its handle is live */

/* a set in place, past its exchange: alone on its block, V one above its number, no live handle above that */
static int writes_alone(const uint32_t *pool, const struct task *k) {
    const struct handle *x = handles_of(pool);
    if (block_at(pool, k->block)[0] != k->number + 1) return 0;
    for (const struct task *u = tasks_of(pool); u < tasks_of(pool) + head_of(pool)->t; u++)
        if (u != k && writes(u->code) && u->block == k->block) return 0;
    for (uint32_t j = 0; j < head_of(pool)->h; j++)
        if (is_live(pool, j) && x[j].block == k->block && x[j].number > k->number) return 0;
    return 1;
}

/* every entry is below the task's number; but for the log of one cell, where except is below N */
static int all_older(uint32_t *block, uint32_t n, uint32_t number, uint32_t except) {
    for (uint32_t i = 0; i < n; i++)
        for (uint32_t j = 0; i != except && j < *length_at(block, n, i); j++)
            if (version_of(block, n, i, j) >= number) return 0;
    return 1;
}

static int some_newer(uint32_t *block, uint32_t n, uint32_t i, uint32_t number) {
    for (uint32_t j = 0; j < *length_at(block, n, i); j++)
        if (version_of(block, n, i, j) >= number) return 1;
    return 0;
}

static int write_done(uint32_t *block, uint32_t n, const struct task *k) {
    if (k->number >= n) return 0;
    if (k->code == SET_WRITE) return all_older(block, n, k->number, k->cell) && some_newer(block, n, k->cell, k->number);
    return all_older(block, n, k->number, n) && entries_of(block, n) <= k->number;
}

static int get_done(uint32_t *block, uint32_t n, const struct task *k) {
    uint32_t stage = k->code % 12, m = *length_at(block, n, k->hand);
    if (stage == 3) return 1;
    if (stage < 6) return !k->found;
    if (k->lo >= k->hi || k->hi > m) return 0;
    for (uint32_t j = 0; j < k->lo; j++)
        if (version_of(block, n, k->hand, j) >= k->number) return 0;
    if (!k->found) return 1;
    return k->hi < m && version_of(block, n, k->hand, k->hi) == k->version && k->version >= k->number;
}

/* V and bump 0, and an empty log of each cell that is filled */
static int fill_done(uint32_t *block, uint32_t n, const struct task *k) {
    uint32_t filled = k->code == COPY_PUT ? n : k->hand;
    if (block[0] || block[1]) return 0;
    for (uint32_t i = 0; i < filled; i++)
        if (*length_at(block, n, i)) return 0;
    return 1;
}

static int gets(uint32_t code) { return code % 12 >= 3 && code % 12 <= 6; }

static int interior(const uint32_t *pool, const struct task *k) { return k->number < block_at(pool, k->block)[0]; }

static int task_done(const uint32_t *pool, const struct task *k) {
    uint32_t n = cells_of(pool), code = k->code;
    if (reserves(code) && handles_of(pool)[k->fresh].serial >= LAST_SERIAL) return 0;
    if (writes(code) && !(writes_alone(pool, k) && write_done(block_at(pool, k->block), n, k))) return 0;
    if (code >= COPY_TAKE && code <= COPY_PROBE && !interior(pool, k)) return 0;
    if (fills(code) && !fill_done(block_at(pool, k->target), n, k)) return 0;
    if (gets(code) && !get_done(block_at(pool, k->block), n, k)) return 0;
    return code < PAGE_GUESS || k->hand < k->until;
}

/* ---- rule 7: the words of a block with a live handle */

/* every place that is held lies below the bump, none is held twice, and the bump is their number */
static int laid(uint32_t *block, uint32_t n) {
    uint8_t seen[2 * WINCH_MOST_CELLS] = {0};
    uint32_t held = 0;
    if (block[1] > 2 * n) return 0;
    for (uint32_t i = 0; i < n; i++) {
        uint32_t m = *length_at(block, n, i), places = m ? (2u << chunk_of(m - 1)) - 1 : 0;
        for (uint32_t j = 0; j < places; j++) {
            uint64_t place = place_of(block, n, i, j);
            if (place >= block[1] || seen[place]) return 0;
            seen[place] = 1;
        }
        held += places;
    }
    return held == block[1];
}

static int rule_7(const uint32_t *pool) {
    if (!rows_sound(pool)) return 0;
    for (uint32_t t = 0; t < head_of(pool)->t; t++)
        if (!task_done(pool, tasks_of(pool) + t)) return 0;
    return every_block(pool, laid);
}

/* ---- all of them */

static uint32_t first_broken(const uint32_t *pool, size_t words) {
    if (!describes(pool, words)) return 1;
    if (!rule_2(pool)) return 2;
    if (!every_block(pool, rule_3)) return 3;
    if (!every_block(pool, rule_4)) return 4;
    if (!rule_5(pool)) return 5;
    if (!rule_6(pool)) return 6;
    return rule_7(pool) ? 0 : 7;
}

uint32_t winch_check(const uint32_t *pool, size_t words, uint32_t *answer, size_t answer_words) {
    if (answer_words < WINCH_ANSWER_WORDS) return WINCH_SHORT_ANSWER;
    memset(answer, 0, WINCH_ANSWER_WORDS * sizeof *answer);
    answer[0] = first_broken(pool, words);
    return WINCH_ACCEPTED;
}
