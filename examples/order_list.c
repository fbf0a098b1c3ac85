/* An order list read page by page while the press reports.
 *
 * A row of the list is a form and its four inks, in grams; 0 where the form does not take the ink. An estimator reads one version of the list in
 * pages. Step by step beside him the press moves amounts from one form to another, and a colleague copies the list to try something out. The
 * estimator's pages join to exactly the version that he asked for. A plain cursor, which reads the table as it moves, skips what was moved from
 * before it to behind it. */
#include "winchclover.h"

#include <stdio.h>
#include <stdlib.h>

enum { FORMS = 6, INKS = 4, CELLS = FORMS * INKS, PAGE = 2 * INKS };
enum { READER, PRESS, COLLEAGUE, TASKS };
enum { HANDLES = 8, BLOCKS = 3, FIRST_FORM = 1201 };

static const char *const ink_name[INKS] = {"cyan", "magenta", "yellow", "black"};

static const uint32_t orders[FORMS][INKS] = {
    {120, 80, 60, 40}, {0, 95, 110, 35}, {75, 0, 0, 210}, {140, 65, 0, 55}, {0, 130, 85, 0}, {90, 45, 70, 160},
};

static uint32_t pool[WINCH_POOL_WORDS(CELLS, HANDLES, TASKS, BLOCKS)], answer[WINCH_ANSWER_WORDS];

enum { POOL_WORDS = sizeof pool / sizeof pool[0] };

static void must(uint32_t refusal) {
    if (!refusal) return;
    printf("refused %u\n", (unsigned)refusal);
    exit(1);
}

/* one step of a task; whether it has ended */
static int step(uint32_t task) {
    must(winch_step(pool, POOL_WORDS, task, answer, WINCH_ANSWER_WORDS));
    return answer[WINCH_STEP_SAID] >= WINCH_SAID_END;
}

static void release(uint32_t handle) { must(winch_release(pool, POOL_WORDS, handle, answer, WINCH_ANSWER_WORDS)); }

static void start_set(uint32_t task, uint32_t handle, uint32_t cell, uint32_t value) {
    must(winch_start_set(pool, POOL_WORDS, task, handle, cell, value, answer, WINCH_ANSWER_WORDS));
}

/* runs a task to its end; the new handle, if it makes one */
static uint32_t finish(uint32_t task) {
    while (!step(task)) continue;
    return answer[WINCH_STEP_HANDLE];
}

/* the newest version, and the one table that the engine before had: it was changed where it stood */
static uint32_t newest;
static uint32_t engine_before[CELLS];

/* what is told beside the list, and when it happened */
static char moment[40];

static void tell(const char *who) { printf("        %-22s %s: ", moment, who); }

/* ---- entering the orders */

static void enter_orders(void) {
    must(winch_open(pool, POOL_WORDS, CELLS, HANDLES, TASKS, answer, WINCH_ANSWER_WORDS));
    must(winch_start_new(pool, POOL_WORDS, READER, 0, answer, WINCH_ANSWER_WORDS));
    newest = finish(READER);
    for (uint32_t cell = 0; cell < CELLS; cell++) {
        uint32_t amount = orders[cell / INKS][cell % INKS], old = newest;
        if (!amount) continue;
        start_set(READER, old, cell, amount);
        newest = finish(READER);
        release(old);
        engine_before[cell] = amount;
    }
}

/* ---- the press: it moves an amount from one form to another by two sets, a step at a time */

struct move {
    int ink, from, to;
};

static const struct move moves[] = {{1, 4, 0}, {3, 5, 0}, {0, 3, 0}, {2, 4, 1}, {0, 5, 2}, {2, 5, 0}};

enum { MOVES = sizeof moves / sizeof moves[0] };

static unsigned press_sets; /* sets that have ended; two make a move */
static int press_busy;
static uint32_t press_cell, press_value;

static void press_start(void) {
    const struct move *x = &moves[press_sets / 2];
    uint32_t from = (uint32_t)(x->from * INKS + x->ink), to = (uint32_t)(x->to * INKS + x->ink);
    uint32_t amount = orders[x->from][x->ink];
    press_cell = press_sets % 2 ? from : to;
    press_value = press_sets % 2 ? 0 : engine_before[to] + amount;
    start_set(PRESS, newest, press_cell, press_value);
    press_busy = 1;
}

static void tell_move(const struct move *x) {
    tell("press");
    printf("%u g of %s go from form %d to form %d; newest version %u\n", (unsigned)orders[x->from][x->ink], ink_name[x->ink],
           FIRST_FORM + x->from, FIRST_FORM + x->to, (unsigned)newest);
}

/* the version before is released as soon as there is a newer one, but for the list that is being read */
static void press_ends(uint32_t list) {
    uint32_t old = newest;
    newest = answer[WINCH_STEP_HANDLE];
    if (old != list) release(old);
    engine_before[press_cell] = press_value;
    press_busy = 0;
    if (++press_sets % 2 == 0) tell_move(&moves[press_sets / 2 - 1]);
}

static void press_step(uint32_t list) {
    if (!press_busy && press_sets / 2 < MOVES) press_start();
    if (press_busy && step(PRESS)) press_ends(list);
}

/* ---- a colleague: he tries the list with one amount changed, in a copy, and lets it go */

static unsigned copies;
static int colleague_busy;

static void colleague_step(uint32_t list) {
    if (!colleague_busy && copies < 2) {
        start_set(COLLEAGUE, list, copies, 500);
        colleague_busy = 1;
    }
    if (!colleague_busy || !step(COLLEAGUE)) return;
    uint32_t copy = answer[WINCH_STEP_HANDLE], steps = answer[WINCH_STEP_STEPS];
    release(copy);
    tell("colleague");
    printf("a copy of the list, version %u, made in %u steps, tried and released\n", (unsigned)copy, (unsigned)steps);
    copies++;
    colleague_busy = 0;
}

/* ---- reading */

struct reading {
    uint32_t list;
    uint32_t given[CELLS];  /* by the pages */
    uint32_t cursor[CELLS]; /* what the plain cursor finds where it stands at that moment */
    uint32_t count;         /* cells handed out, each once and in order */
    int in_order;
};

static void hand_out(struct reading *r) {
    uint32_t cell = answer[WINCH_STEP_CELL];
    r->in_order = r->in_order && cell == r->count;
    r->given[cell] = answer[WINCH_STEP_VALUE];
    r->cursor[cell] = engine_before[cell];
    r->count++;
}

/* a version cannot be released while a task names it */
static void try_release(uint32_t list) {
    uint32_t refusal = winch_release(pool, POOL_WORDS, list, answer, WINCH_ANSWER_WORDS);
    tell("store");
    printf("a release of version %u is refused %u, in use\n", (unsigned)list, (unsigned)refusal);
}

/* one page; after each of its steps the press and the colleague make some of theirs */
static void read_page(struct reading *r, uint32_t from) {
    int ended = 0;
    snprintf(moment, sizeof moment, "while page %u is read,", (unsigned)(from / PAGE + 1));
    must(winch_start_page(pool, POOL_WORDS, READER, r->list, from, PAGE, answer, WINCH_ANSWER_WORDS));
    if (from == 0) try_release(r->list);
    while (!ended) {
        ended = step(READER);
        if (answer[WINCH_STEP_SAID] & WINCH_SAID_CELL) hand_out(r);
        if (r->count <= INKS) continue; /* the press begins when the first form has been read */
        for (int i = 0; i < 3; i++) press_step(r->list);
        for (int i = 0; i < 5; i++) colleague_step(r->list);
    }
}

static void print_form(const struct reading *r, uint32_t form) {
    printf("  %u", (unsigned)(FIRST_FORM + form));
    for (uint32_t ink = 0; ink < INKS; ink++) {
        uint32_t amount = r->given[form * INKS + ink];
        if (amount)
            printf("%10u", (unsigned)amount);
        else
            printf("%10s", "-");
    }
    printf("\n");
}

static void read_list(struct reading *r) {
    for (uint32_t from = 0; from < CELLS; from += PAGE) {
        printf("page %u of %u\n", (unsigned)(from / PAGE + 1), (unsigned)(CELLS / PAGE));
        read_page(r, from);
        printf("  form");
        for (uint32_t ink = 0; ink < INKS; ink++) printf("%10s", ink_name[ink]);
        printf("\n");
        for (uint32_t form = from / INKS; form < (from + PAGE) / INKS; form++) print_form(r, form);
        snprintf(moment, sizeof moment, "after page %u,", (unsigned)(from / PAGE + 1));
        for (int i = 0; i < 16; i++) press_step(r->list);
        printf("\n");
    }
}

/* ---- what was read */

static uint32_t total(const uint32_t *amounts) {
    uint32_t sum = 0;
    for (int cell = 0; cell < CELLS; cell++) sum += amounts[cell];
    return sum;
}

static int complete(const struct reading *r) {
    int same = r->in_order && r->count == CELLS;
    for (int cell = 0; cell < CELLS; cell++) same = same && r->given[cell] == orders[cell / INKS][cell % INKS];
    return same;
}

static void print_skipped(const struct reading *r) {
    printf("A plain cursor over one table, reading at the same moments, would have listed %u g and skipped:\n", (unsigned)total(r->cursor));
    for (uint32_t cell = 0; cell < CELLS; cell++)
        if (r->given[cell] && !r->cursor[cell])
            printf("  form %u %s, %u g\n", (unsigned)(FIRST_FORM + cell / INKS), ink_name[cell % INKS], (unsigned)r->given[cell]);
}

static void finish_all(uint32_t list) {
    while (press_busy || press_sets / 2 < MOVES) press_step(list);
    while (colleague_busy) colleague_step(list);
}

int main(void) {
    struct reading r = {0, {0}, {0}, 0, 1};
    enter_orders();
    r.list = newest;
    printf("The order list is version %u. It is read in pages of %d cells; grams of ink.\n\n", (unsigned)r.list, PAGE);
    read_list(&r);
    finish_all(r.list);
    int whole = complete(&r);
    printf("%s: %u of %u cells, each once and in order, %u g in all, as version %u has them.\n", whole ? "Complete" : "NOT COMPLETE",
           (unsigned)r.count, (unsigned)CELLS, (unsigned)total(r.given), (unsigned)r.list);
    print_skipped(&r);
    must(winch_report(pool, POOL_WORDS, answer, WINCH_ANSWER_WORDS));
    printf("\nThe store now has %u live versions on %u blocks.\n", (unsigned)answer[0], (unsigned)answer[1]);
    must(winch_check(pool, POOL_WORDS, answer, WINCH_ANSWER_WORDS));
    printf("The whole-store check says %u, which is %s.\n", (unsigned)answer[0], answer[0] ? "no" : "yes");
    return whole && answer[0] == 0 ? 0 : 1;
}
