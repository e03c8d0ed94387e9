/* Reads the works of a text from standard input, plays each, and prints what was found to standard output
   and the nanoseconds that it took to standard error. benchmark/README.md has the form of the text. */
#define _POSIX_C_SOURCE 199309L
#include "works.h"

#include <stdio.h>
#include <stdlib.h>
#include <string.h>
#include <time.h>

/* A table: its rows stand one after the other in those of its work, from `first` on. */
struct table {
    uint32_t frame;
    uint32_t count;
    size_t first;
};

/* A rank of 0 stands for a survey; any other for a swap at that rank. */
struct work {
    char name[64];
    size_t rank;
    struct bound bound;
    unsigned rounds;
    struct table *tables;
    size_t count;
    size_t room;
    struct row *rows;
    size_t row_count;
    size_t row_room;
};

/* Rows on a frame with the finding of each, all of which meet. */
struct bench {
    uint32_t frame;
    size_t count;
    struct row rows[MOST_ROWS];
    struct finding findings[MOST_ROWS];
};

static void fail(const char *what)
{
    fprintf(stderr, "%s\n", what);
    exit(1);
}

/* --- Reading -------------------------------------------------------------------------------------------- */

static char *read_all(void)
{
    size_t room = 1 << 16, length = 0, got;
    char *text = malloc(room);
    while (text && (got = fread(text + length, 1, room - length - 1, stdin)) > 0) {
        length += got;
        if (room - length < 2) {
            room *= 2;
            text = realloc(text, room);
        }
    }
    if (!text || ferror(stdin))
        fail("the works cannot be read");
    text[length] = '\0';
    return text;
}

/* The next word before the end of the line, or NULL. */
static char *next_word(char **text)
{
    char *start = *text;
    while (*start == ' ')
        start++;
    char *end = start;
    while (*end != ' ' && *end != '\n' && *end != '\0')
        end++;
    if (end == start)
        return NULL;
    *text = *end == ' ' ? end + 1 : end;
    if (*end == ' ')
        *end = '\0';
    return start;
}

static uint32_t next_number(char **text)
{
    char *end;
    unsigned long number = strtoul(*text, &end, 10);
    if (end == *text || number > UINT32_MAX)
        fail("a number is missing");
    *text = end;
    return (uint32_t)number;
}

/* The bound that a word and an accuracy name. */
static struct bound named(const char *word, uint32_t accuracy)
{
    static const char *const words[] = {[EXACT_STEPS] = "exact", [LINEAR_TAIL] = "linear", [STAIRCASE] = "staircase"};
    enum kind kind = EXACT_STEPS;
    while (kind <= STAIRCASE && strcmp(word, words[kind]) != 0)
        kind++;
    if (kind > STAIRCASE)
        fail("a bound is exact or linear or staircase");
    if (kind != EXACT_STEPS && (accuracy < 1 || accuracy > FINEST))
        fail("an accuracy is 1 to 64");
    return (struct bound){kind, accuracy};
}

static void read_work(char **text, struct work *work)
{
    char *name = next_word(text), *action = next_word(text), *bound = next_word(text);
    if (!name || !action || !bound || strlen(name) >= sizeof work->name)
        fail("a work has a name, an action, a bound, an accuracy and rounds");
    memset(work, 0, sizeof *work);
    strcpy(work->name, name);
    if (strncmp(action, "swap-", 5) == 0)
        work->rank = strtoul(action + 5, NULL, 10);
    else if (strcmp(action, "survey") != 0)
        fail("an action is survey or swap-RANK");
    work->bound = named(bound, next_number(text));
    work->rounds = next_number(text);
}

/* The same list with room for one more. */
static void *with_room(void *list, size_t count, size_t *room, size_t size)
{
    if (count < *room)
        return list;
    *room = *room ? 2 * *room : 64;
    list = realloc(list, *room * size);
    if (!list)
        fail("out of memory");
    return list;
}

static void read_table(char **text, struct work *work)
{
    work->tables = with_room(work->tables, work->count, &work->room, sizeof *work->tables);
    struct table *table = &work->tables[work->count++];
    table->frame = next_number(text);
    table->count = 0;
    table->first = work->row_count;
    if (table->frame < 1 || table->frame > HORIZON)
        fail("a frame is 1 to the horizon");
}

static void read_row(char **text, struct work *work)
{
    struct table *table = &work->tables[work->count - 1];
    if (table->count++ == MOST_ROWS)
        fail("a table has at most 32 rows");
    work->rows = with_room(work->rows, work->row_count, &work->row_room, sizeof *work->rows);
    struct row *row = &work->rows[work->row_count++];
    row->work = next_number(text);
    row->deadline = next_number(text);
    row->period = next_number(text);
    row->jitter = next_number(text);
    if (row->work < 1 || (uint64_t)row->work + row->jitter > row->deadline || row->deadline > row->period
        || row->period > HORIZON || table->frame % row->period != 0)
        fail("four numbers are no row on the frame");
}

/* Reads one work with its tables; answers whether there was one. */
static int read_tables(char **text, struct work *work)
{
    int begun = 0;
    for (;;) {
        char *line = *text, *word = next_word(text);
        if (!word || (begun && strcmp(word, "work") == 0)) {
            if (word)
                line[4] = ' ';
            *text = line;
            return begun;
        }
        if (strcmp(word, "work") == 0) {
            read_work(text, work);
            begun = 1;
        } else if (begun && strcmp(word, "table") == 0) {
            read_table(text, work);
        } else if (work->count && strcmp(word, "row") == 0) {
            read_row(text, work);
        } else {
            fail("a line begins with work, table or row");
        }
        if (**text == '\n')
            ++*text;
    }
}

/* --- Playing -------------------------------------------------------------------------------------------- */

static uint64_t digested(uint64_t digest, const struct finding *list, size_t count)
{
    for (size_t i = 0; i < count; i++) {
        digest = digest * 6364136223846793005u + list[i].rest;
        digest = digest * 6364136223846793005u + list[i].points;
    }
    return digest;
}

static size_t met(const struct finding *list, size_t count)
{
    size_t meet = 0;
    for (size_t i = 0; i < count; i++)
        meet += list[i].rest != 0;
    return meet;
}

/* The digest after the findings of a round, and how many of the rows meet. */
static uint64_t survey_round(const struct work *work, uint64_t digest, size_t *meet)
{
    struct finding list[MOST_ROWS];
    *meet = 0;
    for (size_t i = 0; i < work->count; i++) {
        const struct table *table = &work->tables[i];
        recount(table->frame, work->bound, work->rows + table->first, table->count, 0, list);
        digest = digested(digest, list, table->count);
        *meet += met(list, table->count);
    }
    return digest;
}

/* Takes the row at a rank out: the rows below it are recounted in a copy, which then replaces the bench. */
static void dismiss(struct bench *bench, struct bound bound, size_t rank)
{
    struct bench changed = *bench;
    size_t place = rank - 1, below = bench->count - rank;
    changed.count--;
    memmove(&changed.rows[place], &changed.rows[place + 1], below * sizeof(struct row));
    recount(changed.frame, bound, changed.rows, changed.count, place, changed.findings);
    *bench = changed;
}

/* Puts a row in at a rank, and answers whether all meet; where some miss the bench stays as it was. */
static int admit(struct bench *bench, struct bound bound, size_t rank, struct row row)
{
    struct bench changed = *bench;
    size_t place = rank - 1, below = bench->count - place;
    memmove(&changed.rows[place + 1], &changed.rows[place], below * sizeof(struct row));
    changed.rows[place] = row;
    changed.count++;
    recount(changed.frame, bound, changed.rows, changed.count, place, changed.findings);
    if (met(changed.findings + place, changed.count - place) < changed.count - place)
        return 0;
    *bench = changed;
    return 1;
}

static uint64_t now(void)
{
    struct timespec time;
    clock_gettime(CLOCK_MONOTONIC, &time);
    return (uint64_t)time.tv_sec * 1000000000u + (uint64_t)time.tv_nsec;
}

static void print(const struct work *work, size_t rows, size_t meet, uint64_t digest, uint64_t nanoseconds)
{
    printf("%s tables %zu rows %zu met %zu digest %llu\n", work->name, work->count, rows, meet,
           (unsigned long long)digest);
    fprintf(stderr, "%s %llu\n", work->name, (unsigned long long)nanoseconds);
}

static void play_survey(const struct work *work)
{
    size_t meet = 0;
    uint64_t digest = 0, start = now();
    for (unsigned round = 0; round < work->rounds; round++)
        digest = survey_round(work, digest, &meet);
    uint64_t end = now();
    print(work, work->row_count, meet, digest, end - start);
}

/* The digest is of the findings after a dismissal, then of those after the admission, and then of those after
   the rounds that are timed. */
static void play_swap(const struct work *work)
{
    struct bench bench;
    size_t count = work->row_count;
    if (work->count != 1)
        fail("a bench has one table");
    bench.frame = work->tables[0].frame;
    bench.count = count;
    memcpy(bench.rows, work->rows, count * sizeof *bench.rows);
    recount(bench.frame, work->bound, bench.rows, count, 0, bench.findings);
    if ( work->rank > count || met(bench.findings, count) < count)
        fail("each row of a bench meets");
    struct row row = bench.rows[work->rank - 1];
    dismiss(&bench, work->bound, work->rank);
    uint64_t digest = digested(0, bench.findings, count - 1);
    int done = admit(&bench, work->bound, work->rank, row);
    digest = digested(digest, bench.findings, count);
    uint64_t start = now();
    for (unsigned round = 0; round < work->rounds; round++) {
        dismiss(&bench, work->bound, work->rank);
        done &= admit(&bench, work->bound, work->rank, row);
    }
    uint64_t end = now();
    if (!done)
        fail("a row that stood is not admitted again");
    digest = digested(digest, bench.findings, count);
    print(work, count, met(bench.findings, count), digest, end - start);
}

int main(void)
{
    char *text = read_all();
    struct work work;
    memset(&work, 0, sizeof work);
    while (read_tables(&text, &work)) {
        if (work.rank)
            play_swap(&work);
        else
            play_survey(&work);
        free(work.tables);
        free(work.rows);
        memset(&work, 0, sizeof work);
    }
    return 0;
}
