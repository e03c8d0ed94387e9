/* Counts without walking the corners: the first rest by leaps of the demand, and the test points apart from it,
   by flags in bits. docs/RULES.md has the terms.

   - No instant before a demand G(t) > t can rest, since demand never falls: so the search leaps from t to the
     demand at t. It starts where the straight line through the lower ends of all steps is served, which no
     demand lies below; where that line never is, the row misses.
   - The test points up to the first rest are as many as there are distinct corners before it, and one more.
     They are flagged in one array of bits for all rows of a table, from which each row below goes on; where
     that is dear, in blocks that stay in the nearest cache, or for one common period of the rows alone; where
     there are few in a long time, they are put into a hash table.
   - Where so few corners lie in the whole window that neither pays, they are merged after all. */
#include "merging.h"

#include <string.h>

/* -DFOLD=0 leaves common periods out, to see what they are worth. */
#ifndef FOLD
#define FOLD 1
#endif

enum { LANES = 4, NEVER = INT32_MAX };

/* The rows of a table as the search wants them: in fractions, whose whole values below 2^53 are exact. Places
   past the last row change nothing. The sums over the rows before a place stand at that place. */
struct plan {
    double work[MOST_ROWS];
    double offset[MOST_ROWS]; /* jitter - 1/2 */
    double inverse[MOST_ROWS]; /* 1 / period */
    double rate[MOST_ROWS + 1]; /* sum of 1 / period */
    uint64_t first[MOST_ROWS + 1]; /* sum of work */
    uint64_t slope[MOST_ROWS + 1]; /* sum of work x frame / period */
    uint64_t height[MOST_ROWS + 1]; /* sum of jitter x work x frame / period */
    int32_t past[MOST_ROWS]; /* no corner lies from here on */
    uint64_t frame;
    struct bound bound;
    const struct row *rows;
};

/* From here on no corner of a row lies: where the tail of a linear tail begins, else past the horizon. */
static int32_t past_corners(struct bound bound, const struct row *row)
{
    if (bound.kind != LINEAR_TAIL)
        return NEVER;
    int64_t past = (bound.accuracy - 1) * (int64_t)row->period - row->jitter + 1;
    return past > NEVER ? NEVER : (int32_t)past;
}

static void make_plan(struct plan *plan, uint32_t frame, struct bound bound, const struct row *rows, size_t count)
{
    size_t places = (count + LANES - 1) / LANES * LANES;
    plan->frame = frame;
    plan->bound = bound;
    plan->rows = rows;
    plan->rate[0] = 0;
    plan->first[0] = plan->slope[0] = plan->height[0] = 0;
    for (size_t i = 0; i < count; i++) {
        const struct row *row = &rows[i];
        double inverse = 1.0 / row->period;
        uint64_t slope = row->work * (uint64_t)(frame * inverse + 0.5);
        plan->work[i] = row->work;
        plan->offset[i] = row->jitter - 0.5;
        plan->inverse[i] = inverse;
        plan->rate[i + 1] = plan->rate[i] + inverse;
        plan->first[i + 1] = plan->first[i] + row->work;
        plan->slope[i + 1] = plan->slope[i] + slope;
        plan->height[i + 1] = plan->height[i] + row->jitter * slope;
        plan->past[i] = past_corners(bound, row);
    }
    for (size_t i = count; i < places; i++)
        plan->work[i] = plan->offset[i] = plan->inverse[i] = 0;
}

/* --- First rests ---------------------------------------------------------------------------------------- */

/* The exact demand at an instant from 1 on: ceiling(x / T) is floor((x - 1/2) / T) + 1, and half a tick is far
   more than a fraction is ever off. Places past the rows above have to add nothing, so the last few are added
   one by one. */
static int32_t exact_demand(const struct plan *plan, size_t above, int32_t instant)
{
    double sums[LANES] = {0, 0, 0, 0};
    size_t i = 0;
    for (; i + LANES <= above; i += LANES)
        for (size_t lane = 0; lane < LANES; lane++) {
            double ended = (instant + plan->offset[i + lane]) * plan->inverse[i + lane];
            sums[lane] += plan->work[i + lane] * (int32_t)ended;
        }
    for (; i < above; i++)
        sums[0] += plan->work[i] * (int32_t)((instant + plan->offset[i]) * plan->inverse[i]);
    return (int32_t)(sums[0] + sums[1] + sums[2] + sums[3]) + (int32_t)plan->first[above + 1];
}

/* How many jobs are counted for some number of them, at least 1, by the staircase of an accuracy: the same up to the
   accuracy, and else rounded up on the greatest grain, a power of two, that they hold so many times. */
static inline uint32_t rounded(uint32_t accuracy, uint32_t jobs)
{
    if (jobs <= accuracy)
        return jobs;
    uint32_t power = (uint32_t)(__builtin_clz(accuracy) - __builtin_clz(jobs));
    power -= accuracy << power > jobs;
    uint32_t grain = UINT32_C(1) << power;
    return (jobs + grain - 1) & ~(grain - 1);
}

/* The demand by the staircase at an instant from 1 on. */
static int32_t stair_demand(const struct plan *plan, size_t above, int32_t instant)
{
    uint32_t accuracy = plan->bound.accuracy, demand = plan->rows[above].work;
    for (size_t i = 0; i < above; i++) {
        uint32_t jobs = (uint32_t)(int32_t)((instant + plan->offset[i]) * plan->inverse[i]) + 1;
        demand += plan->rows[i].work * rounded(accuracy, jobs);
    }
    return demand < NEVER ? (int32_t)demand : NEVER;
}

/* In a window of so many ticks it is cheaper to leap a little more often than to divide first. */
enum { SHORT = 4096 };

/* The first rest in exact steps or by a staircase, from 1 to `last`, or 0; none lies before `from`. The lower ends of
   the stairs are those of exact steps, so the line through them is the same. */
static int32_t stepped_rest(const struct plan *plan, size_t above, int32_t from, int32_t last)
{
    uint64_t slope = plan->slope[above];
    if (slope >= plan->frame)
        return 0;
    double parts = (double)(int64_t)(plan->frame * plan->rows[above].work + plan->height[above]);
    double free = (double)(int64_t)(plan->frame - slope);
    if (parts > last * free)
        return 0;
    int32_t instant = from;
    if (last > SHORT) {
        int32_t start = (int32_t)(parts / free);
        instant = start > from ? start : from;
    }
    while (instant <= last) {
        int32_t demand = plan->bound.kind == EXACT_STEPS ? exact_demand(plan, above, instant)
                                                         : stair_demand(plan, above, instant);
        if (demand <= instant)
            return instant;
        instant = demand;
    }
    return 0;
}

/* The same by a linear tail. From an instant on the demand lies on or above a straight line: the tails as they
   are, and the steps as they stand at the instant. The search leaps to where the line is served. */
static int32_t linear_rest(const struct plan *plan, size_t above, int32_t from, int32_t last)
{
    uint64_t instant = (uint64_t)from;
    while (instant <= (uint64_t)last) {
        uint64_t steps = plan->rows[above].work, constant = 0, slope = 0;
        for (size_t i = 0; i < above; i++) {
            uint64_t each = plan->slope[i + 1] - plan->slope[i];
            if ((int32_t)instant < plan->past[i]) {
                steps += plan->rows[i].work
                         * (1 + (uint64_t)(int32_t)(((int32_t)instant + plan->offset[i]) * plan->inverse[i]));
            } else {
                steps += plan->rows[i].work;
                constant += plan->rows[i].jitter * each;
                slope += each;
            }
        }
        if (slope >= plan->frame)
            return 0;
        uint64_t free = plan->frame - slope;
        uint64_t served = (plan->frame * steps + constant + free - 1) / free;
        if (served <= instant)
            return (int32_t)instant;
        instant = served;
    }
    return 0;
}

static int32_t first_rest(const struct plan *plan, size_t above, int32_t from, int32_t last)
{
    if (plan->bound.kind == LINEAR_TAIL)
        return linear_rest(plan, above, from, last);
    return stepped_rest(plan, above, from, last);
}

/* --- Flags ---------------------------------------------------------------------------------------------- */

/* How many of the first bits of an array are set. */
#ifdef __POPCNT__
static uint32_t bits_set(const uint64_t *flags, uint32_t length)
{
    uint32_t words = length / 64;
    uint64_t total = 0;
    for (uint32_t i = 0; i < words; i++)
        total += (uint64_t)__builtin_popcountll(flags[i]);
    if (length % 64)
        total += (uint64_t)__builtin_popcountll(flags[words] & ((UINT64_C(1) << length % 64) - 1));
    return (uint32_t)total;
}
#else
static uint32_t bits_set(const uint64_t *flags, uint32_t length)
{
    const uint64_t pairs = 0x5555555555555555, fours = 0x3333333333333333, eights = 0x0F0F0F0F0F0F0F0F;
    const uint64_t sixteens = 0x00FF00FF00FF00FF;
    uint32_t words = length / 64, total = 0;
    for (uint32_t start = 0; start < words; start += 24) {
        uint32_t end = start + 24 < words ? start + 24 : words;
        uint64_t sums = 0;
        for (uint32_t i = start; i < end; i++) {
            uint64_t word = flags[i];
            word -= (word >> 1) & pairs;
            word = (word & fours) + ((word >> 2) & fours);
            sums += (word + (word >> 4)) & eights;
        }
        sums = (sums & sixteens) + ((sums >> 8) & sixteens);
        total += (uint32_t)((sums * 0x0001000100010001) >> 48);
    }
    if (length % 64 == 0)
        return total;
    uint64_t word = flags[words] & ((UINT64_C(1) << length % 64) - 1);
    word -= (word >> 1) & pairs;
    word = (word & fours) + ((word >> 2) & fours);
    return total + (uint32_t)((((word + (word >> 4)) & eights) * 0x0101010101010101) >> 56);
}
#endif

static inline void set(uint64_t *flags, uint32_t place)
{
    flags[place / 64] |= UINT64_C(1) << place % 64;
}

static inline int is_set(const uint64_t *flags, uint32_t place)
{
    return flags[place / 64] >> place % 64 & 1;
}

static int32_t first_corner(const struct row *row)
{
    return (int32_t)(row->period - row->jitter);
}

/* A walk through the corners of a row: the next one, how far apart they are there, and the corner from which on they
   are twice as far apart, that of 2 x accuracy jobs of a staircase, then of twice as many. */
struct walk {
    int32_t next;
    int32_t apart;
    int32_t turn;
};

static struct walk begin_walk(struct bound bound, const struct row *row)
{
    int64_t turn = 2 * bound.accuracy * (int64_t)row->period - row->jitter;
    int32_t never = bound.kind != STAIRCASE || turn > NEVER;
    return (struct walk){first_corner(row), (int32_t)row->period, never ? NEVER : (int32_t)turn};
}

/* The corners from here on are twice as far apart as those before. */
static void turn_walk(struct walk *walk, const struct row *row)
{
    walk->apart *= 2;
    walk->turn = 2 * walk->turn + (int32_t)row->jitter;
}

/* --- Flags for all rows of a table ---------------------------------------------------------------------- */

/* The corners of some rows that lie before an instant, flagged, with their number. */
struct shared {
    int32_t end;
    uint32_t words; /* so many are in use; the others are of no account */
    uint32_t count;
    size_t rows;
    struct walk walks[MOST_ROWS]; /* each stands at the first corner from the end on */
};

static uint64_t shared_flags[HORIZON / 64 + 1];

static uint32_t least_of(int32_t one, int32_t other)
{
    return (uint32_t)(one < other ? one : other);
}

/* Flags the corners of a row before an instant, from the next one of its walk on; answers how many are new. */
static uint32_t flag_row(struct walk *walk, const struct row *row, int32_t end)
{
    uint32_t added = 0;
    while (walk->next < end) {
        if (walk->next == walk->turn)
            turn_walk(walk, row);
        int32_t corner = walk->next, apart = walk->apart, stop = (int32_t)least_of(end, walk->turn);
        for (; corner < stop; corner += apart) {
            uint64_t *word = &shared_flags[corner / 64], old = *word;
            added += ~old >> corner % 64 & 1;
            *word = old | UINT64_C(1) << corner % 64;
        }
        walk->next = corner;
    }
    return added;
}

/* How many distinct corners of the rows above lie before an instant, by the flags of the table. */
static uint32_t count_shared(struct shared *shared, const struct plan *plan, size_t above, int32_t end)
{
    if (end > shared->end) {
        uint32_t words = (uint32_t)end / 64 + 1;
        if (words > shared->words) {
            memset(shared_flags + shared->words, 0, (words - shared->words) * sizeof *shared_flags);
            shared->words = words;
        }
        for (size_t i = 0; i < shared->rows; i++)
            shared->count += flag_row(&shared->walks[i], &plan->rows[i], (int32_t)least_of(end, plan->past[i]));
        shared->end = end;
    }
    for (; shared->rows < above; shared->rows++) {
        const struct row *row = &plan->rows[shared->rows];
        struct walk *walk = &shared->walks[shared->rows];
        *walk = begin_walk(plan->bound, row);
        shared->count += flag_row(walk, row, (int32_t)least_of(shared->end, plan->past[shared->rows]));
    }
    return end == shared->end ? shared->count : bits_set(shared_flags, (uint32_t)end);
}

/* --- Few corners in a long time ------------------------------------------------------------------------- */

/* The corners of a table by a staircase are fewer than 2^16, 26 x 64 of a row, and go into a greater one. */
enum { MOST_HASHED = 4096, MOST_STAIRS = 1 << 16 };

struct hash {
    uint32_t mask;
    uint32_t shift;
    uint32_t count;
};

static int32_t hashed[2 * MOST_STAIRS];

static void make_hash(struct hash *hash, uint32_t most)
{
    uint32_t bits = 4;
    while (UINT32_C(1) << bits < 2 * most)
        bits++;
    hash->mask = (UINT32_C(1) << bits) - 1;
    hash->shift = 32 - bits;
    hash->count = 0;
    memset(hashed, 0, (hash->mask + 1) * sizeof *hashed);
}

static inline void put(struct hash *hash, int32_t corner)
{
    uint32_t place = ((uint32_t)corner * UINT32_C(2654435769)) >> hash->shift;
    while (hashed[place] != 0) {
        if (hashed[place] == corner)
            return;
        place = (place + 1) & hash->mask;
    }
    hashed[place] = corner;
    hash->count++;
}

static uint32_t count_hashed(const struct plan *plan, size_t above, int32_t end, uint32_t most)
{
    struct hash hash;
    make_hash(&hash, most);
    for (size_t i = 0; i < above; i++) {
        struct walk walk = begin_walk(plan->bound, &plan->rows[i]);
        for (int32_t stop = (int32_t)least_of(end, plan->past[i]); walk.next < stop; walk.next += walk.apart) {
            if (walk.next == walk.turn)
                turn_walk(&walk, &plan->rows[i]);
            put(&hash, walk.next);
        }
    }
    return hash.count;
}

/* --- Blocks --------------------------------------------------------------------------------------------- */

enum { BLOCK = 1 << 17 };

/* The same in exact steps, by flags for one block after the other. */
static uint32_t count_blocks(const struct plan *plan, size_t above, int32_t end)
{
    static uint64_t flags[BLOCK / 64];
    uint32_t next[MOST_ROWS], total = 0;
    for (size_t i = 0; i < above; i++)
        next[i] = (uint32_t)first_corner(&plan->rows[i]);
    for (int32_t start = 0; start < end; start += BLOCK) {
        uint32_t length = least_of(end - start, BLOCK);
        memset(flags, 0, (length + 63) / 64 * sizeof *flags);
        for (size_t i = 0; i < above; i++) {
            uint32_t place = next[i], period = plan->rows[i].period;
            for (; place < length; place += period)
                set(flags, place);
            next[i] = place - length;
        }
        total += bits_set(flags, length);
    }
    return total;
}

/* --- Common periods ------------------------------------------------------------------------------------- */

static uint64_t pattern[HORIZON / 64 + 1];

/* Rows by period, and how many of them are folded: their corners return with a common period. */
struct fold {
    size_t order[MOST_ROWS];
    size_t rows;
    uint32_t period;
    double left; /* about so many corners of the others */
    double cost;
};

static uint32_t common_divisor(uint32_t one, uint32_t other)
{
    while (other != 0) {
        uint32_t left = one % other;
        one = other;
        other = left;
    }
    return one;
}

static void order_rows(const struct plan *plan, size_t above, size_t *order)
{
    for (size_t i = 0; i < above; i++) {
        size_t place = i;
        for (; place > 0 && plan->rows[order[place - 1]].period > plan->rows[i].period; place--)
            order[place] = order[place - 1];
        order[place] = i;
    }
}

/* The cheapest fold of rows of short periods that leaves few corners of the others; no row where there is none. */
static struct fold best_fold(const struct plan *plan, size_t above, int32_t end)
{
    struct fold fold = {.rows = 0};
    order_rows(plan, above, fold.order);
    uint64_t period = 1;
    double rate = 0, all = plan->rate[above];
    for (size_t i = 0; i < above; i++) {
        uint32_t next = plan->rows[fold.order[i]].period;
        if (period % next != 0)
            period = period / common_divisor((uint32_t)period, next) * next;
        if (period > (uint64_t)end)
            break;
        rate += plan->inverse[fold.order[i]];
        double left = end * (all - rate) + (double)(above - i - 1);
        double cost = (double)period * (0.03 + (period > BLOCK ? 3 : 1.5) * rate) + 8 * left;
        if (left < MOST_HASHED && (fold.rows == 0 || cost < fold.cost)) {
            fold.rows = i + 1;
            fold.period = (uint32_t)period;
            fold.left = left;
            fold.cost = cost;
        }
    }
    return fold;
}

static uint32_t count_folded(const struct plan *plan, size_t above, int32_t end, const struct fold *fold)
{
    uint32_t length = fold->period, whole = (uint32_t)end / length, part = (uint32_t)end % length;
    memset(pattern, 0, (length / 64 + 1) * sizeof *pattern);
    for (size_t i = 0; i < fold->rows; i++) {
        const struct row *row = &plan->rows[fold->order[i]];
        for (uint32_t place = row->jitter ? row->period - row->jitter : 0; place < length; place += row->period)
            set(pattern, place);
    }
    uint32_t total = bits_set(pattern, part) - (uint32_t)is_set(pattern, 0);
    if (whole)
        total += whole * bits_set(pattern, length);
    struct hash hash;
    make_hash(&hash, (uint32_t)fold->left + 1);
    for (size_t i = fold->rows; i < above; i++) {
        const struct row *row = &plan->rows[fold->order[i]];
        uint32_t place = (row->period - row->jitter) % length, step = row->period % length;
        for (int32_t corner = first_corner(row); corner < end; corner += (int32_t)row->period) {
            if (!is_set(pattern, place))
                put(&hash, corner);
            place += step;
            place -= place >= length ? length : 0;
        }
    }
    return total + hash.count;
}

/* --- Findings ------------------------------------------------------------------------------------------- */

/* So few corners in a window are merged. */
#ifndef FEW
#define FEW 32
#endif

/* Costs below are rough numbers of processor cycles. */
enum { CHEAP = 4000 };

static double shared_cost(const struct shared *shared, const struct plan *plan, size_t above, int32_t end)
{
    double longer = end > shared->end ? end - shared->end : 0;
    double again = end < shared->end ? end / 20.0 : 0;
    double marks = longer * plan->rate[shared->rows]
                   + (shared->end + longer) * (plan->rate[above] - plan->rate[shared->rows]);
    return 3 * marks + longer / 100 + again;
}

/* The rows above have no more stairs before an instant: as often as the jobs of a row can be halved until they are at
   most twice the accuracy it has `accuracy` of them, and then one for each job that is left. */
static double most_stairs(const struct plan *plan, size_t above, int32_t end)
{
    double accuracy = plan->bound.accuracy, most = 0;
    for (size_t i = 0; i < above; i++) {
        double jobs = (end + plan->offset[i]) * plan->inverse[i] + 1;
        for (; jobs > 2 * accuracy; jobs /= 2)
            most += accuracy;
        most += jobs;
    }
    return most;
}

/* The rows above have no more corners before an instant, counted one by one. */
static double most_corners(const struct plan *plan, size_t above, int32_t end)
{
    double rises = end * plan->rate[above] + (double)above, most = rises;
    if (plan->bound.kind == LINEAR_TAIL)
        most = (double)above * (plan->bound.accuracy - 1.0);
    if (plan->bound.kind == STAIRCASE)
        most = most_stairs(plan, above, end);
    return most < rises ? most : rises;
}

/* How many distinct corners of the rows above lie before an instant, in the way that looks cheapest. */
static uint32_t count_corners(struct shared *shared, const struct plan *plan, size_t above, int32_t end)
{
    double cost = above < shared->rows ? 1e30 : shared_cost(shared, plan, above, end);
    if (cost < CHEAP)
        return count_shared(shared, plan, above, end);
    double marks = most_corners(plan, above, end), room = plan->bound.kind == STAIRCASE ? MOST_STAIRS : MOST_HASHED;
    if (marks < room && 8 * marks < cost)
        return count_hashed(plan, above, end, (uint32_t)marks + 1);
    if (plan->bound.kind != EXACT_STEPS)
        return count_shared(shared, plan, above, end);
    double blocks = 0.04 * end + 1.5 * marks;
    if (FOLD) {
        struct fold fold = best_fold(plan, above, end);
        if (fold.rows && fold.cost < cost && fold.cost < blocks)
            return count_folded(plan, above, end, &fold);
    }
    return cost < blocks ? count_shared(shared, plan, above, end) : count_blocks(plan, above, end);
}

void recount(uint32_t frame, struct bound bound, const struct row *rows, size_t count, size_t from,
             struct finding *list)
{
    struct plan plan;
    struct shared shared = {.end = 1};
    int32_t before = 0;
    int planned = 0;
    double rate = 0; /* about so many corners of the rows above lie in a tick */
    for (size_t i = 0; i < from; i++)
        rate += 1.0 / rows[i].period;
    for (size_t i = from; i < count; rate += 1.0 / rows[i].period, i++) {
        int32_t last = (int32_t)(rows[i].deadline - rows[i].jitter), start = before + (int32_t)rows[i].work;
        if (last * rate < FEW) {
            list[i] = merge(frame, bound, rows, (uint32_t)i);
        } else {
            if (!planned)
                make_plan(&plan, frame, bound, rows, count);
            planned = 1;
            int32_t rest = first_rest(&plan, i, start, last);
            list[i].rest = (uint32_t)rest;
            list[i].points = count_corners(&shared, &plan, i, rest ? rest : last) + 1;
        }
        before = list[i].rest ? (int32_t)list[i].rest : before;
    }
}
