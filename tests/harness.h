/* What the test programs share: cases that are counted, every call as one struct, and numbers from a fixed seed. */
#ifndef WINCH_TESTS_HARNESS_H
#define WINCH_TESTS_HARNESS_H

#include "winchclover.h"

#include <stdio.h>
#include <stdlib.h>
#include <string.h>

/* ---- cases: one passes where none of its expectations failed */

void begin_case(const char *name);
void end_case(void);
int case_failed(void);
int expect(int ok, const char *what, const char *file, int line);

#define EXPECT(x) expect((x) != 0, #x, __FILE__, __LINE__)

/* prints 'N passed, M failed'; a program's exit status */
int summary(void);

/* ---- calls */

enum kind {
    OPEN,
    START_NEW,
    START_GET,
    START_SET,
    START_PAGE,
    STEP,
    RELEASE,
    LOOK_VERSION,
    LOOK_CELL,
    LOOK_LOG,
    LOOK_ENTRY,
    LOOK_TASK,
    REPORT,
    CHECK,
    KINDS
};

/* a function of the header with its arguments in order */
struct call {
    enum kind kind;
    uint32_t a, b, c, d;
};

uint32_t make_call(struct call k, uint32_t *pool, size_t words, uint32_t *answer, size_t room);
const char *kind_name(enum kind kind);

/* ---- numbers */

void plant(uint64_t seed);
uint32_t draw(void);
uint32_t below(uint32_t most);
int one_in(uint32_t n);

/* ---- damage */

struct sizes {
    uint32_t n, h, t, b;
};

/* overwrites up to so many words of a store, mostly where they matter */
void damage(uint32_t *pool, struct sizes d, uint32_t most);

#endif
