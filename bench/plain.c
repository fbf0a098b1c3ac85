/* The rule book written by hand in C, for speed, with no proof: the third baseline of the benchmark, and a second opinion for the tests.
 * It trusts the pool's content: refusal 1 is tested, refusal 2 is never given, and a damaged pool may do anything. */
#include "plain.h"

#include "layout.h"
#include "winchclover.h"

#include <string.h>

/* ---- what every call begins with */

static void clear(uint32_t *answer) { memset(answer, 0, WINCH_ANSWER_WORDS * sizeof *answer); }

/* refusals 15 and 1, and 16 zeros to answer with */
static uint32_t begin(const uint32_t *pool, size_t words, uint32_t *answer, size_t answer_words) {
    if (answer_words < WINCH_ANSWER_WORDS) return WINCH_SHORT_ANSWER;
    clear(answer);
    return describes(pool, words) ? WINCH_ACCEPTED : WINCH_NO_STORE;
}

/* ---- handles and blocks that are live, held, in use */

static struct handle *live(const uint32_t *pool, uint32_t handle) {
    uint32_t j = handle % 256;
    struct handle *x = handles_of(pool) + j;
    return j < head_of(pool)->h && x->status == LIVE && x->serial == handle / 256 ? x : NULL;
}

/* the lowest slot that is neither live, reserved nor spent; H where there is none */
static uint32_t free_slot(const uint32_t *pool) {
    uint32_t j, h = head_of(pool)->h;
    const struct handle *x = handles_of(pool);
    for (j = 0; j < h; j++)
        if (x[j].status == FREE && x[j].serial < LAST_SERIAL) break;
    return j;
}

static int in_use(const uint32_t *pool, uint32_t slot) {
    const struct task *k = tasks_of(pool);
    for (uint32_t t = 0; t < head_of(pool)->t; t++)
        if (names(k[t].code) && k[t].slot == slot) return 1;
    return 0;
}

struct marks {
    uint8_t at[WINCH_MOST_BLOCKS];
};

static void mark_stood(const uint32_t *pool, struct marks *m) {
    const struct handle *x = handles_of(pool);
    memset(m, 0, sizeof *m);
    for (uint32_t j = 0; j < head_of(pool)->h; j++)
        if (x[j].status == LIVE) m->at[x[j].block] = 1;
}

static int stood(const uint32_t *pool, uint32_t block) {
    const struct handle *x = handles_of(pool);
    for (uint32_t j = 0; j < head_of(pool)->h; j++)
        if (x[j].status == LIVE && x[j].block == block) return 1;
    return 0;
}

/* the lowest block that is not held; B where there is none */
static uint32_t free_block(const uint32_t *pool) {
    struct marks m;
    const struct task *k = tasks_of(pool);
    uint32_t b = blocks_of(pool), i;
    mark_stood(pool, &m);
    for (uint32_t t = 0; t < head_of(pool)->t; t++)
        if (fills(k[t].code)) m.at[k[t].target] = 1;
    for (i = 0; i < b; i++)
        if (!m.at[i]) break;
    return i;
}

/* ---- open */

uint32_t winch_open(uint32_t *pool, size_t words, uint32_t n, uint32_t h, uint32_t t, uint32_t *answer, size_t answer_words) {
    if (answer_words < WINCH_ANSWER_WORDS) return WINCH_SHORT_ANSWER;
    clear(answer);
    if (words > UINT32_MAX || !fits(words, n, h, t)) return WINCH_BAD_SIZES;
    memset(pool, 0, WINCH_CONTROL_WORDS(h, t) * sizeof *pool);
    pool[0] = MARK;
    pool[1] = n;
    pool[2] = h;
    pool[3] = t;
    pool[4] = (uint32_t)words;
    pool[5] = FORM;
    answer[0] = blocks_in(words, n, h, t);
    return WINCH_ACCEPTED;
}

/* ---- starts */

static uint32_t startable(const uint32_t *pool, size_t words, uint32_t t, uint32_t *answer, size_t answer_words) {
    uint32_t refusal = begin(pool, words, answer, answer_words);
    if (refusal) return refusal;
    if (t >= head_of(pool)->t) return WINCH_NO_TASK;
    return tasks_of(pool)[t].code == IDLE ? WINCH_ACCEPTED : WINCH_TASK_BUSY;
}

/* an idle row is all 0, so a start writes only what is not */
static struct task *name_handle(uint32_t *pool, uint32_t t, uint32_t handle, const struct handle *x, uint32_t code, uint32_t cell) {
    struct task *k = tasks_of(pool) + t;
    k->code = code;
    k->slot = handle % 256;
    k->block = x->block;
    k->number = x->number;
    k->cell = cell;
    k->hand = cell;
    return k;
}

uint32_t winch_start_new(uint32_t *pool, size_t words, uint32_t t, uint32_t value, uint32_t *answer, size_t answer_words) {
    uint32_t refusal = startable(pool, words, t, answer, answer_words);
    if (refusal) return refusal;
    uint32_t fresh = free_slot(pool);
    if (fresh >= head_of(pool)->h) return WINCH_NO_SLOT;
    struct task *k = tasks_of(pool) + t;
    handles_of(pool)[fresh].status = RESERVED;
    k->code = NEW_TAKE;
    k->value = value;
    k->fresh = fresh;
    return WINCH_ACCEPTED;
}

uint32_t winch_start_get(uint32_t *pool, size_t words, uint32_t t, uint32_t handle, uint32_t cell, uint32_t *answer, size_t answer_words) {
    uint32_t refusal = startable(pool, words, t, answer, answer_words);
    if (refusal) return refusal;
    struct handle *x = live(pool, handle);
    if (!x) return WINCH_NO_HANDLE;
    if (cell >= cells_of(pool)) return WINCH_NO_CELL;
    name_handle(pool, t, handle, x, GET_GUESS, cell);
    return WINCH_ACCEPTED;
}

uint32_t winch_start_set(uint32_t *pool, size_t words, uint32_t t, uint32_t handle, uint32_t cell, uint32_t value, uint32_t *answer,
                         size_t answer_words) {
    uint32_t refusal = startable(pool, words, t, answer, answer_words);
    if (refusal) return refusal;
    struct handle *x = live(pool, handle);
    if (!x) return WINCH_NO_HANDLE;
    if (cell >= cells_of(pool)) return WINCH_NO_CELL;
    uint32_t fresh = free_slot(pool);
    if (fresh >= head_of(pool)->h) return WINCH_NO_SLOT;
    handles_of(pool)[fresh].status = RESERVED;
    struct task *k = name_handle(pool, t, handle, x, SET_EXCHANGE, cell);
    k->value = value;
    k->fresh = fresh;
    return WINCH_ACCEPTED;
}

uint32_t winch_start_page(uint32_t *pool, size_t words, uint32_t t, uint32_t handle, uint32_t from, uint32_t count, uint32_t *answer,
                          size_t answer_words) {
    uint32_t refusal = startable(pool, words, t, answer, answer_words);
    if (refusal) return refusal;
    struct handle *x = live(pool, handle);
    if (!x) return WINCH_NO_HANDLE;
    if (count == 0 || (uint64_t)from + count > cells_of(pool)) return WINCH_NO_CELL;
    name_handle(pool, t, handle, x, PAGE_GUESS, from)->until = from + count;
    return WINCH_ACCEPTED;
}

/* ---- steps */

static void end_task(struct task *k) { memset(k, 0, 17 * sizeof(uint32_t)); }

static uint32_t made(uint32_t *pool, struct task *k, uint32_t block, uint32_t number, uint32_t *answer) {
    struct handle *x = handles_of(pool) + k->fresh;
    x->serial++;
    x->status = LIVE;
    x->block = block;
    x->number = number;
    answer[WINCH_STEP_SAID] = WINCH_SAID_END;
    answer[WINCH_STEP_STEPS] = k->steps;
    answer[WINCH_STEP_HANDLE] = k->fresh + 256 * x->serial;
    end_task(k);
    return WINCH_ACCEPTED;
}

static void next_hand(struct task *k, uint32_t code, uint32_t cell) {
    k->code = code;
    k->hand = cell;
    k->guess = k->lo = k->hi = k->found = k->candidate = k->version = 0;
}

static uint32_t take(uint32_t *pool, struct task *k, uint32_t code, uint32_t *answer) {
    uint32_t b = free_block(pool);
    if (b >= blocks_of(pool)) {
        handles_of(pool)[k->fresh].status = FREE;
        answer[WINCH_STEP_SAID] = WINCH_SAID_END;
        answer[WINCH_STEP_STEPS] = k->steps;
        end_task(k);
        return WINCH_NO_BLOCK;
    }
    uint32_t *block = block_at(pool, b);
    block[0] = 0;
    block[1] = 0;
    k->target = b;
    next_hand(k, code, 0);
    return WINCH_ACCEPTED;
}

/* writing a cell while filling also empties its log */
static void fill(uint32_t *pool, const struct task *k, uint32_t i, uint32_t value) {
    uint32_t *block = block_at(pool, k->target);
    *cell_at(block, i) = value;
    *length_at(block, cells_of(pool), i) = 0;
}

static uint32_t fill_new(uint32_t *pool, struct task *k, uint32_t *answer) {
    fill(pool, k, k->hand, k->value);
    if (k->hand + 1 == cells_of(pool)) return made(pool, k, k->target, 0, answer);
    k->hand++;
    return WINCH_ACCEPTED;
}

/* the four readings of a get; each says whether it has the answer */

static uint32_t settled_value(const struct task *k) { return k->found ? k->candidate : k->guess; }

static void read_guess(uint32_t *pool, struct task *k) {
    k->guess = *cell_at(block_at(pool, k->block), k->hand);
    k->code++;
}

static int read_version(uint32_t *pool, struct task *k) {
    if (block_at(pool, k->block)[0] == k->number) return 1;
    k->code++;
    return 0;
}

static int read_length(uint32_t *pool, struct task *k) {
    uint32_t m = *length_at(block_at(pool, k->block), cells_of(pool), k->hand);
    if (m == 0) return 1;
    k->hi = m;
    k->code++;
    return 0;
}

static int probe(uint32_t *pool, struct task *k) {
    uint32_t mid = k->lo + (k->hi - k->lo) / 2;
    const struct entry *e = entry_at(block_at(pool, k->block), cells_of(pool), k->hand, mid);
    if (e->version >= k->number) {
        k->found = 1;
        k->candidate = e->old;
        k->version = e->version;
        k->hi = mid;
    } else {
        k->lo = mid + 1;
    }
    return k->lo == k->hi;
}

static void give(const struct task *k, uint32_t said, uint32_t *answer) {
    answer[WINCH_STEP_SAID] = said;
    answer[WINCH_STEP_CELL] = k->hand;
    answer[WINCH_STEP_VALUE] = settled_value(k);
}

static uint32_t settle_get(struct task *k, uint32_t *answer) {
    give(k, WINCH_SAID_END, answer);
    answer[WINCH_STEP_STEPS] = k->steps;
    end_task(k);
    return WINCH_ACCEPTED;
}

static uint32_t settle_page(struct task *k, uint32_t *answer) {
    if (k->hand + 1 == k->until) {
        give(k, WINCH_SAID_CELL_AND_END, answer);
        answer[WINCH_STEP_STEPS] = k->steps;
        end_task(k);
    } else {
        give(k, WINCH_SAID_CELL, answer);
        next_hand(k, PAGE_GUESS, k->hand + 1);
    }
    return WINCH_ACCEPTED;
}

static uint32_t settle_copy(struct task *k) {
    k->code = COPY_FILL;
    return WINCH_ACCEPTED;
}

static uint32_t fill_copy(uint32_t *pool, struct task *k) {
    fill(pool, k, k->hand, settled_value(k));
    if (k->hand + 1 == cells_of(pool))
        next_hand(k, COPY_PUT, k->cell);
    else
        next_hand(k, COPY_GUESS, k->hand + 1);
    return WINCH_ACCEPTED;
}

static uint32_t exchange(uint32_t *pool, struct task *k) {
    uint32_t *block = block_at(pool, k->block);
    int first = block[0] == k->number;
    if (first) block[0] = k->number + 1;
    if (first && k->number < cells_of(pool))
        k->code = SET_READ;
    else
        next_hand(k, COPY_TAKE, 0);
    return WINCH_ACCEPTED;
}

static void append(uint32_t *block, uint32_t n, uint32_t i, uint32_t version, uint32_t old) {
    uint32_t m = (*length_at(block, n, i))++;
    if ((m & (m + 1)) == 0) { /* m + 1 is a power of two: a new chunk of m + 1 places */
        *base_at(block, n, i, chunk_of(m)) = block[1];
        block[1] += m + 1;
    }
    struct entry *e = entry_at(block, n, i, m);
    e->version = version;
    e->old = old;
}

static uint32_t write_cell(uint32_t *pool, struct task *k, uint32_t *answer) {
    *cell_at(block_at(pool, k->block), k->cell) = k->value;
    return made(pool, k, k->block, k->number + 1, answer);
}

static uint32_t put(uint32_t *pool, struct task *k, uint32_t *answer) {
    fill(pool, k, k->cell, k->value);
    return made(pool, k, k->target, 0, answer);
}

uint32_t winch_step(uint32_t *pool, size_t words, uint32_t t, uint32_t *answer, size_t answer_words) {
    uint32_t refusal = begin(pool, words, answer, answer_words);
    if (refusal) return refusal;
    if (t >= head_of(pool)->t) return WINCH_NO_TASK;
    struct task *k = tasks_of(pool) + t;
    if (k->code == IDLE) return WINCH_TASK_IDLE;
    k->steps++;
    switch (k->code) {
    case NEW_TAKE: return take(pool, k, NEW_FILL, answer);
    case NEW_FILL: return fill_new(pool, k, answer);
    case COPY_TAKE: return take(pool, k, COPY_GUESS, answer);
    case COPY_FILL: return fill_copy(pool, k);
    case COPY_PUT: return put(pool, k, answer);
    case SET_EXCHANGE: return exchange(pool, k);
    case SET_READ: read_guess(pool, k); break;
    case SET_APPEND:
        append(block_at(pool, k->block), cells_of(pool), k->cell, k->number, k->guess);
        k->code++;
        break;
    case SET_WRITE: return write_cell(pool, k, answer);
    case GET_GUESS:
    case COPY_GUESS:
    case PAGE_GUESS: read_guess(pool, k); break;
    case GET_VERSION: return read_version(pool, k) ? settle_get(k, answer) : WINCH_ACCEPTED;
    case COPY_VERSION: return read_version(pool, k) ? settle_copy(k) : WINCH_ACCEPTED;
    case PAGE_VERSION: return read_version(pool, k) ? settle_page(k, answer) : WINCH_ACCEPTED;
    case GET_LENGTH: return read_length(pool, k) ? settle_get(k, answer) : WINCH_ACCEPTED;
    case COPY_LENGTH: return read_length(pool, k) ? settle_copy(k) : WINCH_ACCEPTED;
    case PAGE_LENGTH: return read_length(pool, k) ? settle_page(k, answer) : WINCH_ACCEPTED;
    case GET_PROBE: return probe(pool, k) ? settle_get(k, answer) : WINCH_ACCEPTED;
    case COPY_PROBE: return probe(pool, k) ? settle_copy(k) : WINCH_ACCEPTED;
    case PAGE_PROBE: return probe(pool, k) ? settle_page(k, answer) : WINCH_ACCEPTED;
    }
    return WINCH_ACCEPTED;
}

/* ---- release */

uint32_t winch_release(uint32_t *pool, size_t words, uint32_t handle, uint32_t *answer, size_t answer_words) {
    uint32_t refusal = begin(pool, words, answer, answer_words);
    if (refusal) return refusal;
    struct handle *x = live(pool, handle);
    if (!x) return WINCH_NO_HANDLE;
    if (in_use(pool, handle % 256)) return WINCH_IN_USE;
    x->status = FREE;
    x->block = 0;
    x->number = 0;
    return WINCH_ACCEPTED;
}

/* ---- looks */

static uint32_t show(const uint32_t *pool, size_t words, uint32_t block, uint32_t cell, uint32_t *answer, size_t answer_words) {
    uint32_t refusal = begin(pool, words, answer, answer_words);
    if (refusal) return refusal;
    return stood(pool, block) && cell < cells_of(pool) ? WINCH_ACCEPTED : WINCH_NOT_SHOWN;
}

uint32_t winch_look_version(const uint32_t *pool, size_t words, uint32_t block, uint32_t *answer, size_t answer_words) {
    uint32_t refusal = show(pool, words, block, 0, answer, answer_words);
    if (!refusal) answer[0] = block_at(pool, block)[0];
    return refusal;
}

uint32_t winch_look_cell(const uint32_t *pool, size_t words, uint32_t block, uint32_t cell, uint32_t *answer, size_t answer_words) {
    uint32_t refusal = show(pool, words, block, cell, answer, answer_words);
    if (!refusal) answer[0] = *cell_at(block_at(pool, block), cell);
    return refusal;
}

uint32_t winch_look_log(const uint32_t *pool, size_t words, uint32_t block, uint32_t cell, uint32_t *answer, size_t answer_words) {
    uint32_t refusal = show(pool, words, block, cell, answer, answer_words);
    if (!refusal) answer[0] = *length_at(block_at(pool, block), cells_of(pool), cell);
    return refusal;
}

uint32_t winch_look_entry(const uint32_t *pool, size_t words, uint32_t block, uint32_t cell, uint32_t index, uint32_t *answer,
                          size_t answer_words) {
    uint32_t refusal = show(pool, words, block, cell, answer, answer_words);
    if (refusal) return refusal;
    uint32_t *b = block_at(pool, block), n = cells_of(pool);
    if (index >= *length_at(b, n, cell)) return WINCH_NOT_SHOWN;
    answer[0] = entry_at(b, n, cell, index)->version;
    answer[1] = entry_at(b, n, cell, index)->old;
    return WINCH_ACCEPTED;
}

uint32_t winch_look_task(const uint32_t *pool, size_t words, uint32_t t, uint32_t *answer, size_t answer_words) {
    uint32_t refusal = begin(pool, words, answer, answer_words);
    if (refusal) return refusal;
    if (t >= head_of(pool)->t) return WINCH_NO_TASK;
    const struct task *k = tasks_of(pool) + t;
    answer[0] = k->code / 12;
    answer[1] = k->code % 12;
    answer[2] = k->hand;
    answer[3] = k->lo;
    answer[4] = k->hi;
    answer[5] = k->guess;
    answer[6] = k->candidate;
    answer[7] = k->found;
    return WINCH_ACCEPTED;
}

uint32_t winch_report(const uint32_t *pool, size_t words, uint32_t *answer, size_t answer_words) {
    uint32_t refusal = begin(pool, words, answer, answer_words);
    if (refusal) return refusal;
    struct marks m;
    const struct handle *x = handles_of(pool);
    mark_stood(pool, &m);
    for (uint32_t j = 0; j < head_of(pool)->h; j++) answer[0] += x[j].status == LIVE;
    for (uint32_t b = 0; b < WINCH_MOST_BLOCKS; b++) answer[1] += m.at[b];
    return WINCH_ACCEPTED;
}
