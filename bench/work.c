/* The work that is measured, on the functions of the header. It is compiled twice: for the archive, and with bench/plain.h before it for plain.c. */
#include "winchclover.h"

#include "bench.h"

#ifdef WINCH_IS_PLAIN
#define WHO "plain"
#define WORK work_plain
#define STEPS steps_plain
#else
#define WHO "winch"
#define WORK work_winch
#define STEPS steps_winch
#endif

enum { CELLS = WINCH_MOST_CELLS, HANDLES = WINCH_MOST_HANDLES, TASKS = WINCH_MOST_TASKS, BLOCKS = WINCH_MOST_BLOCKS };

static uint32_t pool[WINCH_POOL_WORDS(CELLS, HANDLES, TASKS, BLOCKS)], answer[WINCH_ANSWER_WORDS], out[CELLS];
static size_t words;

/* a refusal would make the figures wrong: it stops the program */
static void must(uint32_t refusal) {
    if (refusal) __builtin_trap();
}

static void open_store(uint32_t n, uint32_t h, uint32_t t, uint32_t b) {
    words = WINCH_POOL_WORDS(n, h, t, b);
    must(winch_open(pool, words, n, h, t, answer, WINCH_ANSWER_WORDS));
}

static void step(uint32_t task) { must(winch_step(pool, words, task, answer, WINCH_ANSWER_WORDS)); }

static void finish(uint32_t task) {
    do step(task);
    while (answer[WINCH_STEP_SAID] < WINCH_SAID_END);
}

static void start_new(uint32_t value) { must(winch_start_new(pool, words, 0, value, answer, WINCH_ANSWER_WORDS)); }

static void start_get(uint32_t handle, uint32_t cell) { must(winch_start_get(pool, words, 0, handle, cell, answer, WINCH_ANSWER_WORDS)); }

static void start_set(uint32_t handle, uint32_t cell, uint32_t value) {
    must(winch_start_set(pool, words, 0, handle, cell, value, answer, WINCH_ANSWER_WORDS));
}

static void start_page(uint32_t handle, uint32_t count) { must(winch_start_page(pool, words, 0, handle, 0, count, answer, WINCH_ANSWER_WORDS)); }

static void release(uint32_t handle) { must(winch_release(pool, words, handle, answer, WINCH_ANSWER_WORDS)); }

/* ---- whole operations: the start and every step */

static void new_table(uint32_t value) {
    start_new(value);
    finish(0);
}

static void get(uint32_t handle, uint32_t cell) {
    start_get(handle, cell);
    finish(0);
}

static void set(uint32_t handle, uint32_t cell, uint32_t value) {
    start_set(handle, cell, value);
    finish(0);
}

static void page(uint32_t handle, uint32_t count) {
    start_page(handle, count);
    do {
        step(0);
        if (answer[WINCH_STEP_SAID] & WINCH_SAID_CELL) out[answer[WINCH_STEP_CELL]] = answer[WINCH_STEP_VALUE];
    } while (answer[WINCH_STEP_SAID] < WINCH_SAID_END);
}

/* every second set is at cell 0, so that its log grows to half of the block's entries */
static uint32_t cell_of(uint32_t j) { return j % 2 ? j : 0; }

/* a set of the newest version, which is then the only one but `first` */
static uint32_t renew(uint32_t newest, uint32_t first, uint32_t j) {
    set(newest, cell_of(j), j);
    uint32_t made = answer[WINCH_STEP_HANDLE];
    if (newest != first) release(newest);
    return made;
}

static void tell(const char *what, uint32_t n) { bench_tell(WHO, what, n, answer[WINCH_STEP_STEPS]); }

/* first has N newer versions on its block */
static void reads(uint32_t first, uint32_t newest, uint32_t n) {
    MEASURE(get(newest, 0));
    tell("get newest", n);
    MEASURE(get(first, 0));
    tell("get old", n);
    MEASURE(page(newest, n));
    tell("page newest", n);
    MEASURE(page(first, n));
    tell("page old", n);
}

void WORK(uint32_t n) {
    open_store(n, 8, 4, 4);
    new_table(7);
    uint32_t first = answer[WINCH_STEP_HANDLE], newest = first;
    for (uint32_t j = 0; j < n - 1; j++) newest = renew(newest, first, j);
    MEASURE(set(newest, cell_of(n - 1), 9));
    tell("set", n);
    newest = answer[WINCH_STEP_HANDLE];
    reads(first, newest, n);
    MEASURE(set(first, 1, 5));
    tell("copy", n);
}

/* ---- every step alone */

static void one_step(const char *what, uint32_t n) {
    MEASURE(step(0));
    bench_tell(WHO, what, n, 1);
}

/* to the last of the steps that a stage repeats */
static void skip(uint32_t count) {
    while (count--) step(0);
}

static uint32_t steps_of_new(uint32_t n) {
    start_new(7);
    one_step("new: take a block", n);
    one_step("new: fill a cell", n);
    skip(n - 2);
    one_step("new: fill the last cell", n);
    return answer[WINCH_STEP_HANDLE];
}

static uint32_t steps_of_set(uint32_t handle, uint32_t n) {
    start_set(handle, 0, 9);
    one_step("set: exchange", n);
    one_step("set: read the old value", n);
    one_step("set: append", n);
    one_step("set: write", n);
    return answer[WINCH_STEP_HANDLE];
}

static void steps_of_get(uint32_t handle, uint32_t n) {
    start_get(handle, 0);
    one_step("get: read the guess", n);
    one_step("get: read V", n);
    one_step("get: read the log's length", n);
    one_step("get: probe", n);
    finish(0);
}

static void steps_of_page(uint32_t handle, uint32_t n) {
    start_page(handle, n);
    step(0);
    one_step("page: read V, hand out", n);
    finish(0);
}

static void steps_of_copy(uint32_t handle, uint32_t n) {
    start_set(handle, 1, 5);
    step(0);
    one_step("copy: take a block", n);
    do step(0);
    while (winch_look_task(pool, words, 0, answer, WINCH_ANSWER_WORDS) == 0 && answer[1] != WINCH_STAGE_FILL);
    one_step("copy: fill a cell", n);
    do step(0);
    while (winch_look_task(pool, words, 0, answer, WINCH_ANSWER_WORDS) == 0 && answer[1] != WINCH_STAGE_PUT);
    one_step("copy: write v at i", n);
}

void STEPS(uint32_t n, uint32_t h, uint32_t t, uint32_t b) {
    open_store(n, h, t, b);
    uint32_t first = steps_of_new(n), newest = first;
    for (uint32_t j = 0; j < n - 1; j++) newest = renew(newest, first, j);
    newest = steps_of_set(newest, n);
    steps_of_get(first, n);
    steps_of_page(newest, n);
    steps_of_copy(first, n);
}
