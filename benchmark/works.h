/* The works of a text and how they are played: what the C programs share. docs/RULES.md has the terms. */
#ifndef WORKS_H
#define WORKS_H

#include <stddef.h>
#include <stdint.h>

enum { MOST_ROWS = 32, HORIZON = 1 << 24, FINEST = 64 };

/* A row of a table: docs/RULES.md, Rows. */
struct row {
    uint32_t work;
    uint32_t deadline;
    uint32_t period;
    uint32_t jitter;
};

/* What is found about a row: its first rest, 0 where it misses, and the points tested. */
struct finding {
    uint32_t rest;
    uint32_t points;
};

/* The kinds of bounds: docs/RULES.md, Bounds. */
enum kind { EXACT_STEPS, LINEAR_TAIL, STAIRCASE };

/* A bound: its kind, and its accuracy, 1 to 64, which is of no account in exact steps. */
struct bound {
    enum kind kind;
    uint32_t accuracy;
};

/* Puts the findings of the rows from the place `from` on, each below the rows before it, into the list.
   Each program has its own. */
void recount(uint32_t frame, struct bound bound, const struct row *rows, size_t count, size_t from,
             struct finding *list);

#endif
