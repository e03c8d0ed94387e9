/* The count by merged corners: from test point to test point by the least of the next corners that are kept for
   the rows above, with the demand kept up by additions. docs/RULES.md has the terms. */
#ifndef MERGING_H
#define MERGING_H

#include "works.h"

/* All is written out for each number of players, so that the way up through the nodes has a fixed length. */
#define ALWAYS_INLINE static inline __attribute__((always_inline))

enum { PLACE_BITS = 5 };

/* No corner is left. Corners stay below 2^26, and their keys below 2^31. */
#define NO_KEY UINT32_MAX

/* The rows above one, as players of a tournament: a key is the next corner of a row, and then its place in the
   last five bits. The winner is the least key; at each node stands the key that lost there. The players are as
   many as there are rows above, made a power of two by some who never win. */
struct tournament {
    uint32_t winner;
    uint32_t lost[MOST_ROWS];
};

/* Every row begins with its first corner, or with none where the bound has none. */
ALWAYS_INLINE void begin(struct tournament *match, const struct row *rows, uint32_t above, int have_corners,
                         const uint32_t players)
{
    uint32_t keys[2 * MOST_ROWS];
    for (uint32_t i = 0; i < players; i++)
        keys[players + i] = i < above && have_corners ? (rows[i].period - rows[i].jitter) << PLACE_BITS | i : NO_KEY;
    for (uint32_t node = players - 1; node > 0; node--) {
        uint32_t one = keys[2 * node], other = keys[2 * node + 1];
        keys[node] = one < other ? one : other;
        match->lost[node] = one < other ? other : one;
    }
    match->winner = keys[1];
}

/* The row that won goes on with another key. */
ALWAYS_INLINE void replay(struct tournament *match, uint32_t place, uint32_t key, const uint32_t players)
{
    for (uint32_t node = (players + place) / 2, left = players / 2; left > 0; node /= 2, left /= 2) {
        uint32_t other = match->lost[node];
        match->lost[node] = key < other ? other : key;
        key = key < other ? key : other;
    }
    match->winner = key;
}

/* The finding in exact steps. Amounts are whole work. The demand is the same from just after a test point to
   the next, so at the first at which the row rests the first rest is the demand itself. */
ALWAYS_INLINE struct finding merge_exact(const struct row *rows, uint32_t above, const uint32_t players)
{
    struct tournament match;
    begin(&match, rows, above, 1, players);
    uint32_t demand = rows[above].work, last = rows[above].deadline - rows[above].jitter;
    for (uint32_t i = 0; i < above; i++)
        demand += rows[i].work;
    struct finding found = {0, 1};
    for (;; found.points++) {
        uint32_t nearest = match.winner >> PLACE_BITS, point = nearest < last ? nearest : last;
        if (demand <= point) {
            found.rest = demand;
            return found;
        }
        if (point == last)
            return found;
        do {
            uint32_t place = match.winner % MOST_ROWS;
            demand += rows[place].work;
            replay(&match, place, match.winner + (rows[place].period << PLACE_BITS), players);
        } while (match.winner >> PLACE_BITS == point);
    }
}

/* A row above under a linear tail: its work in parts, its corners that are left, and the line of its tail. */
struct tail {
    uint64_t each;
    uint64_t constant;
    uint64_t slope;
    uint32_t left;
};

/* The finding by a linear tail. From just after a test point to the next the demand is a straight line,
   constant + slope x t, in parts; the first rest in a gap is one division. */
ALWAYS_INLINE struct finding merge_linear(uint64_t frame, uint32_t accuracy, const struct row *rows, uint32_t above,
                                          const uint32_t players)
{
    struct tail tails[MOST_ROWS];
    struct tournament match;
    begin(&match, rows, above, accuracy > 1, players);
    uint64_t constant = frame * rows[above].work, slope = 0;
    uint32_t last = rows[above].deadline - rows[above].jitter, before = 0;
    for (uint32_t i = 0; i < above; i++) {
        struct tail *tail = &tails[i];
        tail->each = frame * rows[i].work;
        tail->slope = rows[i].work * (uint64_t)((uint32_t)frame / rows[i].period);
        tail->left = accuracy - 1;
        tail->constant = tail->each + rows[i].jitter * tail->slope;
        constant += accuracy > 1 ? tail->each : tail->constant;
        slope += accuracy > 1 ? 0 : tail->slope;
    }
    struct finding found = {0, 1};
    for (;; found.points++) {
        uint32_t nearest = match.winner >> PLACE_BITS, point = nearest < last ? nearest : last;
        if (constant + slope * point <= frame * point) {
            uint64_t rest = (constant + (frame - slope) - 1) / (frame - slope);
            found.rest = rest > before ? (uint32_t)rest : before + 1;
            return found;
        }
        if (point == last)
            return found;
        before = point;
        do {
            uint32_t place = match.winner % MOST_ROWS, key = match.winner + (rows[place].period << PLACE_BITS);
            struct tail *tail = &tails[place];
            constant += tail->each;
            if (--tail->left == 0) {
                key = NO_KEY;
                constant += tail->constant - accuracy * tail->each;
                slope += tail->slope;
            }
            replay(&match, place, key, players);
        } while (match.winner >> PLACE_BITS == point);
    }
}

/* A row above under a staircase: what is added to its key and to the demand from one stair to the next, and how
   many stairs are left until both double. */
struct stairs {
    uint32_t further;
    uint32_t work;
    uint32_t left;
};

/* The finding by a staircase. From a stair the next number of jobs that rounds to itself is a grain further, so the
   demand rises at corners alone, as in exact steps. The grain is 1 up to 2 x accuracy jobs, and doubles there and
   after each `accuracy` stairs more. */
ALWAYS_INLINE struct finding merge_stairs(uint32_t accuracy, const struct row *rows, uint32_t above,
                                          const uint32_t players)
{
    struct stairs stairs[MOST_ROWS];
    struct tournament match;
    begin(&match, rows, above, 1, players);
    uint32_t demand = rows[above].work, last = rows[above].deadline - rows[above].jitter;
    for (uint32_t i = 0; i < above; i++) {
        stairs[i] = (struct stairs){rows[i].period << PLACE_BITS, rows[i].work, 2 * accuracy - 1};
        demand += rows[i].work;
    }
    struct finding found = {0, 1};
    for (;; found.points++) {
        uint32_t nearest = match.winner >> PLACE_BITS, point = nearest < last ? nearest : last;
        if (demand <= point) {
            found.rest = demand;
            return found;
        }
        if (point == last)
            return found;
        do {
            struct stairs *row = &stairs[match.winner % MOST_ROWS];
            if (row->left == 0) {
                row->further *= 2;
                row->work *= 2;
                row->left = accuracy;
            }
            row->left--;
            demand += row->work;
            replay(&match, match.winner % MOST_ROWS, match.winner + row->further, players);
        } while (match.winner >> PLACE_BITS == point);
    }
}

ALWAYS_INLINE struct finding merge_among(uint32_t frame, struct bound bound, const struct row *rows, uint32_t above,
                                         const uint32_t players)
{
    if (bound.kind == EXACT_STEPS)
        return merge_exact(rows, above, players);
    if (bound.kind == LINEAR_TAIL)
        return merge_linear(frame, bound.accuracy, rows, above, players);
    return merge_stairs(bound.accuracy, rows, above, players);
}

/* The finding of the row at a place, below the rows before it. */
static struct finding merge(uint32_t frame, struct bound bound, const struct row *rows, uint32_t above)
{
    if (above <= 1)
        return merge_among(frame, bound, rows, above, 1);
    if (above <= 2)
        return merge_among(frame, bound, rows, above, 2);
    if (above <= 4)
        return merge_among(frame, bound, rows, above, 4);
    if (above <= 8)
        return merge_among(frame, bound, rows, above, 8);
    if (above <= 16)
        return merge_among(frame, bound, rows, above, 16);
    return merge_among(frame, bound, rows, above, 32);
}

#endif
