/* The same calls on bench/plain.c and bench/plain_check.c, for a program that has both. */
#include "plain.h"
#define make_call make_plain_call
#include "calls.c"
