#include "harness.h"

/* ---- cases */

static long passed, failed, lines;
static int broken;
static const char *current = "";

void begin_case(const char *name) {
    current = name;
    broken = 0;
}

void end_case(void) {
    if (broken)
        failed++;
    else
        passed++;
}

int case_failed(void) { return broken; }

int expect(int ok, const char *what, const char *file, int line) {
    if (ok) return 1;
    broken = 1;
    if (lines++ < 40) printf("failed: %s: %s:%d: %s\n", current, file, line, what);
    return 0;
}

int summary(void) {
    printf("%ld passed, %ld failed\n", passed, failed);
    return failed != 0;
}

/* ---- calls */

const char *kind_name(enum kind kind) {
    static const char *const names[KINDS] = {"open",    "start_new",    "start_get", "start_set", "start_page", "step",      "release",
                                             "look_version", "look_cell", "look_log",  "look_entry", "look_task", "report", "check"};
    return names[kind];
}

/* ---- numbers: splitmix64 */

static uint64_t state;

void plant(uint64_t seed) { state = seed; }

uint32_t draw(void) {
    uint64_t z = (state += 0x9E3779B97F4A7C15u);
    z = (z ^ (z >> 30)) * 0xBF58476D1CE4E5B9u;
    z = (z ^ (z >> 27)) * 0x94D049BB133111EBu;
    return (uint32_t)(z ^ (z >> 31));
}

uint32_t below(uint32_t most) { return draw() % most; }

int one_in(uint32_t n) { return below(n) == 0; }

/* ---- damage */

static size_t some_place(struct sizes d) {
    uint32_t control = 16 + 4 * d.h + 32 * d.t, block = 20 * d.n + 16;
    uint32_t way = below(8), task = below(d.t), taken = below(d.b); /* one after another: C leaves the order within a sum open */
    switch (way) {
    case 0: return one_in(4) ? below(6) : below(16);
    case 1:
    case 2: return 16 + below(4 * d.h);
    case 3:
    case 4: return 16 + 4 * d.h + 32 * task + below(17);
    case 5: return control + taken * block + below(2);
    default: return control + below(d.b * block);
    }
}

static uint32_t some_word(struct sizes d, uint32_t old) {
    uint32_t edges[] = {0, 1, 2, 3, d.n - 1, d.n, d.n + 1, d.n + 2, 2 * d.n, d.h, d.t, d.b, d.b - 1, UINT32_MAX, 0x80000000u};
    switch (below(4)) {
    case 0: return draw();
    case 1: return below(64);
    case 2: return old ^ (1u << below(32));
    default: return edges[below(sizeof edges / sizeof edges[0])];
    }
}

void damage(uint32_t *pool, struct sizes d, uint32_t most) {
    for (uint32_t count = most ? 1 + below(most) : 0; count; count--) {
        size_t at = some_place(d);
        pool[at] = some_word(d, pool[at]);
    }
}
