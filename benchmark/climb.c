/* climb --seconds N --seed S --runs R FOLDER: looks for single facts, in tasks of R runs, that the library is slow to
 * solve, and writes the hardest as task files into FOLDER. Prints a line for each, the slowest first: file, outcome,
 * nanoseconds; then how much was tried.
 *
 * A climb starts at a random task of one fact, makes a few changes at a time to its cells and steps, and goes on from
 * the changed task unless that is solved clearly faster than the slowest of this climb, so that it can cross a small
 * valley. It ends when many changes in a row have set no record. Every other climb starts at a new random task; the
 * others start at a task that is kept, shaken, and can replace only that one. So the tasks that are kept come from
 * different random starts.
 *
 * climb-S-N.task, with runsR- before it for several runs, comes from start N of seed S, and that is always the same
 * random task. What is made of it depends on
 * which of two times is the longer: the same seed gives the same tasks as far as the times allow.
 *
 * A task's time is the least of a few solves, in processor time, since other work may run beside.
 *
 * Status: 1 wrong use, 2 a file cannot be written, 3 the library refuses a task that is made here. */
#define _POSIX_C_SOURCE 200809L
#include <stdio.h>
#include <stdlib.h>
#include <string.h>
#include <time.h>

#include "../c/zernoplysk.h"

/* How many tasks are kept; the limit L of all; after how many tries without a record a climb ends; how many solves a
 * time is the least of; how many changes a try makes at most, and a shaking. */
enum { KEPT = 8, LIMIT = 6, PATIENCE = 800, SOLVES = 3, CHANGES = 3, SHAKES = 12 };

/* What part of the climb's record a task must take to be gone on from, and by what part a record must be beaten. */
static const double slack = 0.9, gain = 1.005;

struct found {
    uint64_t task[ZP_TASK_WORDS], outcome[ZP_REPLY_WORDS], start; /* the number of its random start */
    double time;                                                 /* nanoseconds; 0 in a place that keeps nothing */
};

static struct found kept[KEPT];
static uint64_t seed, state, tries, climbs, runs;
static double end;

static double now(clockid_t clock) {
    struct timespec t;
    clock_gettime(clock, &t);
    return 1e9 * (double)t.tv_sec + (double)t.tv_nsec;
}

static int time_is_up(void) { return now(CLOCK_MONOTONIC) > end; }

/* A random number below the bound, by xorshift64*; the state is never 0. */
static size_t below(size_t bound) {
    state ^= state >> 12;
    state ^= state << 25;
    state ^= state >> 27;
    return (size_t)((state * UINT64_C(0x2545F4914F6CDD1D) >> 32) % bound);
}

/* The same numbers for the same seed and start, whatever was drawn before. */
static void seed_for(uint64_t start) {
    state = (seed * UINT64_C(0x9E3779B97F4A7C15) ^ start * UINT64_C(0xBF58476D1CE4E5B9)) | 1;
    for (int i = 0; i < 8; i++)
        below(1);
}

/* The fact in each action with the same chance of so many sixteenths, for one of the three sets. */
static void random_cells(uint64_t *set, size_t sixteenths) {
    for (size_t a = 0; a < ZP_ACTIONS; a++)
        set[a] = below(16) < sixteenths;
}

/* A run whose start, goal, length and number of actions are drawn first. */
static void random_run(uint64_t *task, size_t run) {
    task[ZP_AT_STARTS + run] = below(2);
    task[ZP_AT_GOALS + run] = below(2);
    task[ZP_AT_COUNTS + run] = 1 + below(ZP_STEPS);
    size_t running = 1 + below(ZP_ACTIONS);
    for (size_t i = 0; i < task[ZP_AT_COUNTS + run]; i++)
        task[ZP_AT_STEPS + ZP_STEPS * run + i] = below(running);
}

/* One fact; how dense its cells are is drawn first. */
static void random_task(uint64_t *task) {
    memset(task, 0, ZP_TASK_WORDS * sizeof *task);
    task[ZP_AT_FACTS] = 1;
    task[ZP_AT_ACTIONS] = ZP_ACTIONS;
    task[ZP_AT_LIMIT] = LIMIT;
    random_cells(task + ZP_AT_NEEDS, below(12));
    random_cells(task + ZP_AT_ADDS, below(12));
    random_cells(task + ZP_AT_DELETES, below(12));
    task[ZP_AT_MANY] = runs;
    for (size_t run = 0; run < runs; run++)
        random_run(task, run);
}

static void insert_step(uint64_t *task, size_t run, size_t place, uint64_t action) {
    uint64_t *count = task + ZP_AT_COUNTS + run, *step = task + ZP_AT_STEPS + ZP_STEPS * run + place;
    memmove(step + 1, step, (*count - place) * sizeof *step);
    *step = action;
    ++*count;
}

static uint64_t drop_step(uint64_t *task, size_t run, size_t place) {
    uint64_t *count = task + ZP_AT_COUNTS + run, *step = task + ZP_AT_STEPS + ZP_STEPS * run + place, action = *step;
    --*count;
    memmove(step, step + 1, (*count - place) * sizeof *step);
    task[ZP_AT_STEPS + ZP_STEPS * run + *count] = 0;
    return action;
}

static void change_cell(uint64_t *task) {
    switch (below(8)) {
    case 0: task[(below(2) ? ZP_AT_STARTS : ZP_AT_GOALS) + below(runs)] ^= 1; break;
    case 1: task[ZP_AT_ADDS + below(ZP_ACTIONS)] ^= 1; break;
    case 2: case 3: case 4: task[ZP_AT_NEEDS + below(ZP_ACTIONS)] ^= 1; break;
    default: task[ZP_AT_DELETES + below(ZP_ACTIONS)] ^= 1; break;
    }
}

/* In some run a step more, one less, another action in a step, or a step moved; nothing where there is no room or no
 * step. */
static void change_step(uint64_t *task) {
    size_t run = below(runs), count = task[ZP_AT_COUNTS + run], sort = below(8);
    if (sort < 2 && count < ZP_STEPS)
        insert_step(task, run, below(count + 1), below(ZP_ACTIONS));
    if (sort < 2 || count == 0)
        return;
    if (sort < 3)
        drop_step(task, run, below(count));
    else if (sort < 6)
        task[ZP_AT_STEPS + ZP_STEPS * run + below(count)] = below(ZP_ACTIONS);
    else {
        uint64_t action = drop_step(task, run, below(count));
        insert_step(task, run, below(count), action);
    }
}

/* One to `most` changes; the task stays well formed. */
static void change(uint64_t *task, size_t most) {
    for (size_t left = 1 + below(most); left > 0; left--)
        (below(2) ? change_cell : change_step)(task);
}

/* Sets the task's time and outcome; solves once more only while the time is not below what is asked for. */
static void measure(struct found *f, double asked) {
    uint16_t room[ZP_LIST_NUMBERS];
    f->time = 1e18;
    for (int i = 0; i < SOLVES && f->time >= asked; i++) {
        double begun = now(CLOCK_THREAD_CPUTIME_ID), taken;
        zp_solve(f->task, ZP_TASK_WORDS, room, ZP_LIST_NUMBERS, f->outcome, ZP_REPLY_WORDS);
        taken = now(CLOCK_THREAD_CPUTIME_ID) - begun;
        if (taken < f->time)
            f->time = taken;
    }
    tries++;
    if (f->outcome[0] != 0 && f->outcome[0] != 9 && f->outcome[0] != 10)
        exit(3);
}

/* The record of a climb from a task. */
static struct found climb(struct found from) {
    struct found record = from;
    for (int idle = 0; idle < PATIENCE && !time_is_up(); idle++) {
        struct found next = from;
        change(next.task, CHANGES);
        measure(&next, slack * record.time);
        if (next.time >= slack * record.time)
            from = next;
        if (next.time > gain * record.time) {
            record = next;
            idle = 0;
        }
    }
    climbs++;
    return record;
}

/* Puts a record into the place of its own start, or else of the fastest, if it is slower than what is there. */
static void keep(const struct found *f) {
    struct found *place = &kept[0];
    for (struct found *k = kept; k < kept + KEPT; k++) {
        if (k->time > 0 && k->start == f->start) {
            place = k;
            break;
        }
        if (k->time < place->time)
            place = k;
    }
    if (f->time > place->time)
        *place = *f;
}

static void climb_afresh(uint64_t start) {
    struct found f = {.start = start};
    seed_for(start);
    random_task(f.task);
    measure(&f, 0);
    f = climb(f);
    keep(&f);
}

/* The slower of two kept tasks, shaken. */
static void climb_on(void) {
    const struct found *one = &kept[below(KEPT)], *other = &kept[below(KEPT)];
    struct found f = one->time > other->time ? *one : *other;
    if (f.time == 0)
        return;
    change(f.task, SHAKES);
    measure(&f, 0);
    f = climb(f);
    keep(&f);
}

static int slower(const void *a, const void *b) {
    double x = ((const struct found *)a)->time, y = ((const struct found *)b)->time;
    return (x < y) - (x > y);
}

static void write_task(const char *folder, const struct found *f) {
    static uint8_t file[ZP_FILE_BYTES];
    uint64_t answer[ZP_REPLY_WORDS];
    unsigned long long from = seed, start = f->start, number = f->outcome[f->outcome[0] == 0 ? 2 : 0];
    char path[4096], sort[32] = "";
    if (runs > 1)
        snprintf(sort, sizeof sort, "runs%llu-", (unsigned long long)runs);
    if (zp_write(f->task, ZP_TASK_WORDS, file, ZP_FILE_BYTES, answer, ZP_REPLY_WORDS) != 0)
        exit(3);
    snprintf(path, sizeof path, "%s/%sclimb-%llu-%llu.task", folder, sort, from, start);
    FILE *out = fopen(path, "wb");
    if (out == NULL || fwrite(file, 1, answer[2], out) != answer[2] || fclose(out) != 0)
        exit(2);
    printf("%s %s-%llu %.0f\n", path, f->outcome[0] == 0 ? "set" : "refused", number, f->time);
}

int main(int count, char **word) {
    if (count != 8 || strcmp(word[1], "--seconds") != 0 || strcmp(word[3], "--seed") != 0 ||
        strcmp(word[5], "--runs") != 0 || strtoull(word[6], NULL, 10) - 1 >= ZP_RUNS) {
        fprintf(stderr, "climb --seconds N --seed S --runs R FOLDER\n");
        return 1;
    }
    seed = strtoull(word[4], NULL, 10);
    runs = strtoull(word[6], NULL, 10);
    end = now(CLOCK_MONOTONIC) + 1e9 * strtod(word[2], NULL);
    for (uint64_t start = 0; !time_is_up(); start++) {
        climb_afresh(start);
        climb_on();
    }
    qsort(kept, KEPT, sizeof *kept, slower);
    for (struct found *k = kept; k < kept + KEPT && k->time > 0; k++)
        write_task(word[7], k);
    printf("%llu tasks solved in %llu climbs\n", (unsigned long long)tries, (unsigned long long)climbs);
    return 0;
}
