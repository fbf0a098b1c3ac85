/* Random orders of many tasks against a model that keeps a whole table for each handle. It foresees every refusal, every new handle's number,
 * every value, and every step count but those of searches, which it bounds; it knows no log. */
#include "harness.h"

enum { ROOM = 18 };

struct slot {
    uint32_t serial, block, number;
    enum { FREE, RESERVED, LIVE } status;
    uint32_t *table;
};

struct task {
    int operation;                                /* 0 where idle */
    uint32_t slot, block, number, cell, value;    /* what it was started with */
    uint32_t next, until;                         /* a page's cells still to come */
    uint32_t fresh, target, steps;
    int filling, first;
};

struct model {
    uint32_t n, h, t, b;
    struct slot slots[WINCH_MOST_HANDLES];
    struct task tasks[WINCH_MOST_TASKS];
    uint32_t version[WINCH_MOST_BLOCKS];
    uint64_t set_steps, first_sets, later_sets; /* demand 3 */
};

static struct model m;
static uint32_t *pool, answer[ROOM];
static size_t words;
static uint64_t calls, met[16], values, news, sets, copies;

/* ---- what the model knows */

static int live(uint32_t handle) {
    uint32_t j = handle % 256;
    return j < m.h && m.slots[j].status == LIVE && m.slots[j].serial == handle / 256;
}

static uint32_t free_slot(void) {
    uint32_t j = 0;
    while (j < m.h && m.slots[j].status != FREE) j++;
    return j;
}

static int stood(uint32_t block) {
    for (uint32_t j = 0; j < m.h; j++)
        if (m.slots[j].status == LIVE && m.slots[j].block == block) return 1;
    return 0;
}

static int held(uint32_t block) {
    for (uint32_t t = 0; t < m.t; t++)
        if (m.tasks[t].operation && m.tasks[t].filling && m.tasks[t].target == block) return 1;
    return stood(block);
}

static uint32_t free_block(void) {
    uint32_t b = 0;
    while (b < m.b && held(b)) b++;
    return b;
}

static int in_use(uint32_t slot) {
    for (uint32_t t = 0; t < m.t; t++)
        if (m.tasks[t].operation > WINCH_OPERATION_NEW && m.tasks[t].slot == slot) return 1;
    return 0;
}

static uint32_t digits(uint32_t x) { return x ? 1 + digits(x / 2) : 0; }

/* ---- one call: its refusal, zeros where they belong, nothing after 16 words */

static uint32_t ask(enum kind kind, uint32_t a, uint32_t b, uint32_t c, uint32_t d) {
    struct call k = {kind, a, b, c, d};
    answer[16] = answer[17] = 77;
    uint32_t refusal = make_call(k, pool, words, answer, ROOM);
    calls++;
    if (refusal < 16) met[refusal]++;
    EXPECT(answer[16] == 77 && answer[17] == 77);
    for (int j = 8; j < 16; j++) EXPECT(answer[j] == 0);
    return refusal;
}

static int says(uint32_t said, uint32_t steps, uint32_t handle, uint32_t cell, uint32_t value) {
    return answer[0] == said && answer[1] == steps && answer[2] == handle && answer[3] == cell && answer[4] == value && answer[5] == 0;
}

static int quiet(void) { return says(0, 0, 0, 0, 0); }

/* ---- starts */

static uint32_t due(uint32_t t, int names, uint32_t handle, int cells_fit, int makes) {
    if (t >= m.t) return 4;
    if (m.tasks[t].operation) return 5;
    if (names && !live(handle)) return 7;
    if (!cells_fit) return 8;
    return makes && free_slot() == m.h ? 9 : 0;
}

static void begin(uint32_t t, int operation, uint32_t handle, uint32_t cell, uint32_t value) {
    struct task *k = &m.tasks[t];
    memset(k, 0, sizeof *k);
    k->operation = operation;
    k->cell = k->next = cell;
    k->value = value;
    if (operation != WINCH_OPERATION_NEW) {
        k->slot = handle % 256;
        k->block = m.slots[k->slot].block;
        k->number = m.slots[k->slot].number;
    }
    if (operation == WINCH_OPERATION_NEW || operation == WINCH_OPERATION_SET) {
        k->fresh = free_slot();
        m.slots[k->fresh].status = RESERVED;
    }
}

static void start_new(uint32_t t, uint32_t value) {
    uint32_t refusal = due(t, 0, 0, 1, 1);
    EXPECT(ask(START_NEW, t, value, 0, 0) == refusal && quiet());
    if (!refusal) begin(t, WINCH_OPERATION_NEW, 0, 0, value);
}

static void start_get(uint32_t t, uint32_t handle, uint32_t cell) {
    uint32_t refusal = due(t, 1, handle, cell < m.n, 0);
    EXPECT(ask(START_GET, t, handle, cell, 0) == refusal && quiet());
    if (!refusal) begin(t, WINCH_OPERATION_GET, handle, cell, 0);
}

static void start_set(uint32_t t, uint32_t handle, uint32_t cell, uint32_t value) {
    uint32_t refusal = due(t, 1, handle, cell < m.n, 1);
    EXPECT(ask(START_SET, t, handle, cell, value) == refusal && quiet());
    if (!refusal) begin(t, WINCH_OPERATION_SET, handle, cell, value);
}

static void start_page(uint32_t t, uint32_t handle, uint32_t from, uint32_t count) {
    uint32_t refusal = due(t, 1, handle, count && (uint64_t)from + count <= m.n, 0);
    EXPECT(ask(START_PAGE, t, handle, from, count) == refusal && quiet());
    if (refusal) return;
    begin(t, WINCH_OPERATION_PAGE, handle, from, 0);
    m.tasks[t].until = from + count;
}

/* ---- steps */

/* the task's slot carries a table: a fresh one, or the old handle's with one cell changed */
static void made(struct task *k, uint32_t block, uint32_t number) {
    struct slot *x = &m.slots[k->fresh];
    const struct slot *old = &m.slots[k->slot];
    x->status = LIVE;
    x->serial++;
    x->block = block;
    x->number = number;
    for (uint32_t i = 0; i < m.n; i++) x->table[i] = k->operation == WINCH_OPERATION_NEW ? k->value : old->table[i];
    x->table[k->cell] = k->value;
    EXPECT(says(2, k->steps, k->fresh + 256 * x->serial, 0, 0));
    news += k->operation == WINCH_OPERATION_NEW;
    sets += k->operation == WINCH_OPERATION_SET && !k->filling;
    copies += k->operation == WINCH_OPERATION_SET && k->filling;
    k->operation = 0;
}

/* whether there was a block; else 10 is due */
static int took(struct task *k) {
    uint32_t b = free_block();
    if (b == m.b) {
        m.slots[k->fresh].status = FREE;
        return 0;
    }
    k->target = b;
    k->filling = 1;
    m.version[b] = 0;
    return 1;
}

static void refused_ten(struct task *k, uint32_t got) {
    EXPECT(got == 10 && says(2, k->steps, 0, 0, 0));
    k->operation = 0;
}

static void step_new(struct task *k, uint32_t got) {
    if (k->steps == 1 && !took(k)) {
        refused_ten(k, got);
        return;
    }
    EXPECT(got == 0);
    if (k->steps == m.n + 1)
        made(k, k->target, 0);
    else
        EXPECT(quiet());
}

static void exchange(struct task *k) {
    k->first = m.version[k->block] == k->number;
    if (k->first) m.version[k->block]++;
    m.first_sets += (uint64_t)k->first;
    m.later_sets += (uint64_t)!k->first;
}

static void step_copy(struct task *k, uint32_t got) {
    if (k->steps == 2 && !took(k)) {
        refused_ten(k, got);
        return;
    }
    EXPECT(got == 0);
    if (answer[0] == 0) {
        EXPECT(quiet() && k->steps < 5 * m.n + 3);
        return;
    }
    EXPECT(3 + 4 * m.n <= k->steps && k->steps <= 5 * m.n + 3);
    made(k, k->target, 0);
}

static void step_set(struct task *k, uint32_t got) {
    m.set_steps++;
    if (k->steps == 1) {
        exchange(k);
        EXPECT(got == 0 && quiet());
    } else if (!k->first || k->number == m.n) {
        step_copy(k, got);
    } else if (k->steps == 4) {
        EXPECT(got == 0);
        made(k, k->block, k->number + 1);
    } else {
        EXPECT(got == 0 && quiet());
    }
    EXPECT(m.set_steps <= 12 * m.first_sets + (5 * (uint64_t)m.n + 3) * m.later_sets);
}

static uint32_t most_of_a_get(void) { return 3 + digits(m.n); }

static void step_get(struct task *k, uint32_t got) {
    EXPECT(got == 0);
    if (answer[0] == 0) {
        EXPECT(quiet() && k->steps < most_of_a_get());
        return;
    }
    EXPECT(k->steps >= 2 && says(2, k->steps, 0, k->cell, m.slots[k->slot].table[k->cell]));
    values++;
    k->operation = 0;
}

static void step_page(struct task *k, uint32_t got) {
    int last = k->next + 1 == k->until;
    EXPECT(got == 0);
    if (answer[0] == 0) {
        EXPECT(quiet() && k->steps < most_of_a_get() * (k->next + 1 - k->cell));
        return;
    }
    EXPECT(says(last ? 3 : 1, last ? k->steps : 0, 0, k->next, m.slots[k->slot].table[k->next]));
    values++;
    k->next++;
    if (last) k->operation = 0;
}

static void step(uint32_t t) {
    uint32_t got = ask(STEP, t, 0, 0, 0);
    if (t >= m.t || !m.tasks[t].operation) {
        EXPECT(got == (t >= m.t ? 4u : 6u) && quiet());
        return;
    }
    struct task *k = &m.tasks[t];
    k->steps++;
    switch (k->operation) {
    case WINCH_OPERATION_NEW: step_new(k, got); break;
    case WINCH_OPERATION_GET: step_get(k, got); break;
    case WINCH_OPERATION_SET: step_set(k, got); break;
    default: step_page(k, got); break;
    }
}

/* ---- release, looks, report, check */

static void release(uint32_t handle) {
    uint32_t refusal = !live(handle) ? 7 : in_use(handle % 256) ? 11 : 0;
    EXPECT(ask(RELEASE, handle, 0, 0, 0) == refusal && quiet());
    if (!refusal) m.slots[handle % 256].status = FREE;
}

static void look_block(uint32_t block) {
    int shown = block < m.b && stood(block);
    uint32_t got = ask(LOOK_VERSION, block, 0, 0, 0);
    EXPECT(shown ? got == 0 && says(m.version[block], 0, 0, 0, 0) : got == 12 && quiet());
}

/* a leaf's table is what the block's cells are */
static void look_cells(uint32_t j, uint32_t cell) {
    const struct slot *x = &m.slots[j];
    if (x->status != LIVE) return;
    uint32_t got = ask(LOOK_CELL, x->block, cell, 0, 0);
    if (cell >= m.n)
        EXPECT(got == 12 && quiet());
    else if (x->number == m.version[x->block])
        EXPECT(got == 0 && says(x->table[cell], 0, 0, 0, 0));
    else
        EXPECT(got == 0);
    got = ask(LOOK_LOG, x->block, cell, 0, 0);
    EXPECT(got == (cell < m.n ? 0u : 12u) && answer[0] <= m.n && answer[0] <= m.version[x->block]);
    uint32_t length = answer[0];
    EXPECT(ask(LOOK_ENTRY, x->block, cell, length, 0) == 12 && quiet());
    if (length) EXPECT(ask(LOOK_ENTRY, x->block, cell, length - 1, 0) == 0 && answer[0] < m.version[x->block]);
}

static void look_task(uint32_t t) {
    uint32_t got = ask(LOOK_TASK, t, 0, 0, 0);
    EXPECT(got == (t < m.t ? 0u : 4u));
    if (got) return;
    EXPECT(answer[0] == (uint32_t)m.tasks[t].operation);
    EXPECT((answer[1] == 0) == (answer[0] == 0) && answer[1] <= WINCH_STAGE_PUT && answer[2] < m.n && answer[3] <= answer[4] && answer[7] <= 1);
    if (answer[0] == WINCH_OPERATION_PAGE) EXPECT(answer[2] == m.tasks[t].next);
}

static void report(void) {
    uint32_t handles = 0, blocks = 0;
    for (uint32_t j = 0; j < m.h; j++) handles += m.slots[j].status == LIVE;
    for (uint32_t b = 0; b < m.b; b++) blocks += (uint32_t)stood(b);
    EXPECT(ask(REPORT, 0, 0, 0, 0) == 0 && says(handles, blocks, 0, 0, 0));
}

static void check(void) { EXPECT(ask(CHECK, 0, 0, 0, 0) == 0 && quiet()); }

/* ---- random arguments, mostly good ones */

static uint32_t some_task(void) { return one_in(50) ? m.t + below(3) : below(m.t); }

static uint32_t some_handle(void) {
    uint32_t j = below(m.h);
    if (one_in(40)) return draw();
    for (uint32_t i = 0; i < m.h && m.slots[j].status != LIVE; i++) j = (j + 1) % m.h;
    return j + 256 * m.slots[j].serial;
}

static uint32_t some_cell(void) { return one_in(60) ? m.n + below(2) : below(m.n); }

static void some_page(uint32_t t, uint32_t handle) {
    uint32_t from = below(m.n), count = one_in(40) ? below(m.n + 2) : 1 + below(m.n - from);
    start_page(t, handle, from, count);
}

/* drawn one after another: C leaves the order of a call's arguments open */
static void some_start(void) {
    uint32_t t = some_task(), way = below(8), handle = some_handle(), cell = some_cell();
    switch (way) {
    case 0: start_new(t, draw()); break;
    case 1:
    case 2:
    case 3: start_set(t, handle, cell, draw()); break;
    case 4:
    case 5:
    case 6: start_get(t, handle, cell); break;
    default: some_page(t, handle); break;
    }
}

static void some_look(void) {
    uint32_t way = below(4), slot = below(m.h);
    switch (way) {
    case 0: look_block(below(m.b + 1)); break;
    case 1: look_cells(slot, some_cell()); break;
    case 2: look_task(some_task()); break;
    default: report(); break;
    }
}

static uint32_t busy_task(void) {
    uint32_t t = below(m.t);
    for (uint32_t i = 0; i < m.t && !m.tasks[t].operation; i++) t = (t + 1) % m.t;
    return t;
}

/* a step of any task, or a run of steps of one until it ends */
static void some_steps(void) {
    uint32_t t = one_in(20) ? some_task() : busy_task(), count = one_in(8) ? 1 + below(2 * m.n + 8) : 1;
    do step(t);
    while (--count && t < m.t && m.tasks[t].operation && !case_failed());
}

static void some_call(void) {
    uint32_t x = below(100);
    if (x < 62)
        some_steps();
    else if (x < 88)
        some_start();
    else if (x < 94)
        release(some_handle());
    else
        some_look();
}

/* ---- a run */

static void open_store(uint32_t n, uint32_t h, uint32_t t, uint32_t b) {
    memset(&m, 0, sizeof m);
    m.n = n;
    m.h = h;
    m.t = t;
    m.b = b;
    words = WINCH_POOL_WORDS(n, h, t, b);
    pool = malloc(words * sizeof *pool);
    for (size_t i = 0; i < words; i++) pool[i] = draw();
    for (uint32_t j = 0; j < h; j++) m.slots[j].table = malloc(n * sizeof(uint32_t));
    EXPECT(ask(OPEN, n, h, t, 0) == 0 && says(b, 0, 0, 0, 0));
}

static void close_store(void) {
    for (uint32_t j = 0; j < m.h; j++) free(m.slots[j].table);
    free(pool);
}

/* every live table, cell by cell, whatever has happened */
static void read_all(void) {
    for (uint32_t t = 0; t < m.t && !case_failed(); t++)
        while (m.tasks[t].operation && !case_failed()) step(t);
    for (uint32_t j = 0; j < m.h && !case_failed(); j++) {
        if (m.slots[j].status != LIVE) continue;
        start_page(0, j + 256 * m.slots[j].serial, 0, m.n);
        while (m.tasks[0].operation && !case_failed()) step(0);
    }
}

static void run(uint32_t n, uint32_t h, uint32_t t, uint32_t b, uint64_t count, uint64_t check_every) {
    static char name[80];
    static uint64_t runs;
    snprintf(name, sizeof name, "run %u: N = %u, H = %u, T = %u, B = %u", (unsigned)runs, n, h, t, b);
    plant(runs++);
    begin_case(name);
    open_store(n, h, t, b);
    uint64_t end = calls + count, next_check = calls;
    while (calls < end && !case_failed()) {
        some_call();
        if (calls < next_check) continue;
        check();
        next_check = calls + check_every;
    }
    read_all();
    check();
    report();
    close_store();
    end_case();
}

static void many_runs(void) {
    static const uint32_t cells[] = {1, 2, 3, 5, 8, 16, 33, 100}, handles[] = {1, 2, 5, 20, 256}, tasks[] = {1, 2, 4, 16}, blocks[] = {1, 2, 3, 8, 40};
    for (int i = 0; i < 80; i++) {
        plant(1000 + (uint64_t)i);
        uint32_t n = cells[i % 8], h = handles[below(5)], t = tasks[below(4)], b = blocks[below(5)];
        run(n, h, t, b, 15000, 200);
    }
}

int main(void) {
    many_runs();
    run(4096, 12, 6, 3, 120000, 20000);
    run(1, 256, 16, 256, 20000, 1000);
    begin_case("a million calls, and every refusal that a kept store can give");
    static const int expected[] = {0, 4, 5, 6, 7, 8, 9, 10, 11, 12};
    for (size_t j = 0; j < sizeof expected / sizeof expected[0]; j++) EXPECT(met[expected[j]] > 100);
    EXPECT(met[1] == 0 && met[2] == 0 && met[3] == 0 && met[15] == 0);
    EXPECT(calls >= 1000000 && news > 1000 && sets > 1000 && copies > 1000);
    end_case();
    printf("%lu calls; ended: %lu news, %lu sets in place, %lu copies; %lu values compared; refused", (unsigned long)calls, (unsigned long)news,
           (unsigned long)sets, (unsigned long)copies, (unsigned long)values);
    for (int r = 1; r < 16; r++)
        if (met[r]) printf(" %d: %lu", r, (unsigned long)met[r]);
    printf("\n");
    return summary();
}
