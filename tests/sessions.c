/* Document 01's ten sessions, every figure of them, and its edges, through the header. */
#include "harness.h"

enum { WORDS = 208, ROOM = 16 };

static uint32_t pool[WORDS], answer[ROOM];

static uint32_t call(enum kind kind, uint32_t a, uint32_t b, uint32_t c, uint32_t d) {
    struct call k = {kind, a, b, c, d};
    return make_call(k, pool, WORDS, answer, ROOM);
}

/* steps a task to its end; the last step's refusal */
static uint32_t finish(uint32_t task) {
    uint32_t refusal;
    do refusal = call(STEP, task, 0, 0, 0);
    while (!refusal && answer[0] != WINCH_SAID_END && answer[0] != WINCH_SAID_CELL_AND_END);
    return refusal;
}

static int ended(uint32_t steps, uint32_t handle, uint32_t cell, uint32_t value) {
    return answer[0] == WINCH_SAID_END && answer[1] == steps && answer[2] == handle && answer[3] == cell && answer[4] == value;
}

static uint32_t set_steps, first_sets, later_sets;

static void new_table(uint32_t value, uint32_t handle, uint32_t steps) {
    EXPECT(call(START_NEW, 0, value, 0, 0) == 0);
    EXPECT(finish(0) == 0 && ended(steps, handle, 0, 0));
}

static void get(uint32_t handle, uint32_t cell, uint32_t value, uint32_t steps) {
    EXPECT(call(START_GET, 0, handle, cell, 0) == 0);
    EXPECT(finish(0) == 0 && ended(steps, 0, cell, value));
}

static void set(uint32_t task, uint32_t handle, uint32_t cell, uint32_t value, uint32_t made, uint32_t steps) {
    EXPECT(call(START_SET, task, handle, cell, value) == 0);
    EXPECT(finish(task) == 0 && ended(steps, made, 0, 0));
    set_steps += steps;
}

static uint32_t version(uint32_t block) { return call(LOOK_VERSION, block, 0, 0, 0) ? UINT32_MAX : answer[0]; }

static int holds(uint32_t block, uint32_t x, uint32_t y) {
    uint32_t a = call(LOOK_CELL, block, 0, 0, 0) ? UINT32_MAX : answer[0];
    uint32_t b = call(LOOK_CELL, block, 1, 0, 0) ? UINT32_MAX : answer[0];
    return a == x && b == y;
}

static int log_of(uint32_t block, uint32_t cell, uint32_t length) { return call(LOOK_LOG, block, cell, 0, 0) == 0 && answer[0] == length; }

static int entry(uint32_t block, uint32_t cell, uint32_t index, uint32_t version, uint32_t old) {
    return call(LOOK_ENTRY, block, cell, index, 0) == 0 && answer[0] == version && answer[1] == old;
}

static int reports(uint32_t handles, uint32_t blocks) { return call(REPORT, 0, 0, 0, 0) == 0 && answer[0] == handles && answer[1] == blocks; }

static int kept(void) { return call(CHECK, 0, 0, 0, 0) == 0 && answer[0] == 0; }

/* open leaves the blocks as they lie: old numbers there must not matter */
static void open_store(void) {
    memset(pool, 0x5A, sizeof pool);
    EXPECT(call(OPEN, 2, 4, 2, 0) == 0 && answer[0] == 2);
    EXPECT(kept());
}

static void one_to_four(void) {
    begin_case("session 1");
    open_store();
    new_table(7, 256, 3);
    EXPECT(holds(0, 7, 7) && reports(1, 1));
    end_case();
    begin_case("session 2");
    get(256, 1, 7, 2);
    end_case();
    begin_case("session 3");
    set(0, 256, 0, 9, 257, 4);
    first_sets++;
    EXPECT(version(0) == 1 && log_of(0, 0, 1) && entry(0, 0, 0, 0, 7));
    end_case();
    begin_case("session 4");
    get(256, 0, 7, 4);
    get(256, 1, 7, 3);
    get(257, 0, 9, 2);
    end_case();
}

static void five_to_seven(void) {
    begin_case("session 5");
    set(0, 256, 1, 5, 258, 12);
    later_sets++;
    EXPECT(holds(1, 7, 5));
    end_case();
    begin_case("session 6");
    set(0, 257, 0, 4, 259, 4);
    first_sets++;
    EXPECT(version(0) == 2 && call(START_SET, 0, 259, 0, 1) == 9);
    end_case();
    begin_case("session 7");
    get(256, 0, 7, 5);
    get(257, 0, 9, 5);
    end_case();
}

static void eight_and_nine(void) {
    begin_case("session 8");
    EXPECT(call(RELEASE, 258, 0, 0, 0) == 0);
    set(0, 259, 1, 6, 514, 12);
    first_sets++;
    EXPECT(version(0) == 3 && holds(1, 4, 6));
    end_case();
    begin_case("session 9");
    EXPECT(call(RELEASE, 256, 0, 0, 0) == 0);
    EXPECT(call(START_SET, 0, 259, 0, 1) == 0);
    EXPECT(finish(0) == 10 && ended(2, 0, 0, 0));
    set_steps += 2;
    later_sets++;
    get(259, 0, 4, 4);
    EXPECT(kept() && reports(3, 2));
    end_case();
    begin_case("after session 9");
    EXPECT(first_sets == 3 && later_sets == 2 && set_steps == 34);
    EXPECT(12 * first_sets + (5 * 2 + 3) * later_sets == 62);
    end_case();
}

static void ten(void) {
    begin_case("session 10");
    open_store();
    new_table(7, 256, 3);
    EXPECT(call(START_GET, 0, 256, 0, 0) == 0 && call(STEP, 0, 0, 0, 0) == 0 && answer[0] == 0);
    set(1, 256, 0, 9, 257, 4);
    EXPECT(finish(0) == 0 && ended(4, 0, 0, 7));
    end_case();
}

/* a get of the older version between a set's append and its write: the slip 'write before append' shows here alone */
static void between(void) {
    begin_case("between append and write");
    open_store();
    new_table(7, 256, 3);
    EXPECT(call(START_SET, 1, 256, 0, 9) == 0);
    for (int i = 0; i < 3; i++) EXPECT(call(STEP, 1, 0, 0, 0) == 0 && answer[0] == 0);
    get(256, 0, 7, 4);
    EXPECT(holds(0, 7, 7) && kept());
    EXPECT(call(STEP, 1, 0, 0, 0) == 0 && ended(4, 257, 0, 0) && holds(0, 9, 7));
    get(257, 0, 9, 2);
    end_case();
}

/* ---- edges */

static uint32_t open_in(size_t words, uint32_t cells, uint32_t handles, uint32_t tasks) {
    uint32_t *p = calloc(words ? words : 1, sizeof *p);
    uint32_t refusal = winch_open(p, words, cells, handles, tasks, answer, ROOM);
    free(p);
    return refusal;
}

static void edges_of_open(void) {
    begin_case("edges of open");
    EXPECT(open_in(151, 2, 4, 2) == 3);
    EXPECT(open_in(152, 2, 4, 2) == 0 && answer[0] == 1);
    EXPECT(open_in(208, 2, 4, 2) == 0 && answer[0] == 2);
    EXPECT(open_in(WINCH_POOL_WORDS(1, 4, 2, 1), 1, 4, 2) == 0 && answer[0] == 1);
    EXPECT(open_in(WINCH_POOL_WORDS(4096, 4, 2, 1), 4096, 4, 2) == 0 && answer[0] == 1);
    EXPECT(open_in(WINCH_POOL_WORDS(4096, 4, 2, 1) - 1, 4096, 4, 2) == 3);
    EXPECT(open_in(100000, 0, 4, 2) == 3 && open_in(100000, 4097, 4, 2) == 3);
    EXPECT(open_in(100000, 2, 0, 2) == 3 && open_in(100000, 2, 257, 2) == 3 && open_in(100000, 2, 256, 2) == 0);
    EXPECT(open_in(100000, 2, 4, 0) == 3 && open_in(100000, 2, 4, 17) == 3 && open_in(100000, 2, 4, 16) == 0);
    EXPECT(open_in(100000, 1, 1, 1) == 0 && answer[0] == 256);
    EXPECT(open_in(WINCH_POOL_WORDS(1, 1, 1, 256) - 1, 1, 1, 1) == 0 && answer[0] == 255);
    EXPECT(open_in(0, 2, 4, 2) == 3 && open_in(15, 2, 4, 2) == 3);
    EXPECT(open_in(100000, UINT32_MAX, UINT32_MAX, UINT32_MAX) == 3);
    end_case();
}

static void edges_of_cells(void) {
    begin_case("edges of cells");
    open_store();
    new_table(7, 256, 3);
    EXPECT(call(START_GET, 0, 256, 2, 0) == 8 && call(START_GET, 0, 255, 0, 0) == 7);
    get(256, 1, 7, 2);
    EXPECT(call(START_PAGE, 0, 256, 1, 2) == 8 && call(START_PAGE, 0, 256, 1, 0) == 8 && call(START_PAGE, 0, 256, UINT32_MAX, 2) == 8);
    EXPECT(call(START_PAGE, 0, 256, 2, 1) == 8 && call(START_PAGE, 0, 256, 1, UINT32_MAX) == 8);
    EXPECT(call(START_PAGE, 0, 256, 1, 1) == 0);
    EXPECT(call(STEP, 0, 0, 0, 0) == 0 && answer[0] == 0);
    EXPECT(call(STEP, 0, 0, 0, 0) == 0 && answer[0] == 3 && answer[1] == 2 && answer[2] == 0 && answer[3] == 1 && answer[4] == 7);
    end_case();
}

/* words after the last block are never written */
static void after_the_last_block(void) {
    uint32_t p[WORDS + 55];
    struct call open = {OPEN, 2, 4, 2, 0}, start = {START_NEW, 0, 7, 0, 0}, step = {STEP, 0, 0, 0, 0};
    begin_case("words after the last block");
    memset(p, 0x5A, sizeof p);
    EXPECT(make_call(open, p, WORDS + 55, answer, ROOM) == 0 && answer[0] == 2);
    EXPECT(make_call(start, p, WORDS + 55, answer, ROOM) == 0);
    for (int i = 0; i < 3; i++) EXPECT(make_call(step, p, WORDS + 55, answer, ROOM) == 0);
    for (int i = WORDS; i < WORDS + 55; i++) EXPECT(p[i] == 0x5A5A5A5A);
    end_case();
}

/* a slot carries handles up to serial 16,777,215; after that it is spent. The row is word 16 on: serial, status, block, number */
static void spent_slot(void) {
    begin_case("a spent slot");
    open_store();
    pool[16] = 16777214;
    new_table(7, 256u * 16777215u, 3);
    EXPECT(call(RELEASE, 256u * 16777215u, 0, 0, 0) == 0);
    new_table(8, 257, 3);
    for (int j = 2; j < 4; j++) EXPECT(call(START_NEW, (uint32_t)j - 2, 1, 0, 0) == 0);
    EXPECT(finish(0) == 0 && answer[2] == 258);
    EXPECT(finish(1) == 10);
    EXPECT(kept());
    end_case();
}

int main(void) {
    one_to_four();
    five_to_seven();
    eight_and_nine();
    ten();
    between();
    edges_of_open();
    edges_of_cells();
    after_the_last_block();
    spent_slot();
    return summary();
}
