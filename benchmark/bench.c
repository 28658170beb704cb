/* bench FILE..: times the calls of the proved library on task files, through its C header. One line a file: what
 * solving gave, then nanoseconds a call, `minimum median` for each call, by the monotonic clock.
 *
 * A sample is so many calls in a row that the clock's own cost does not show; the minimum and the median are over the
 * samples. The run that is checked is the last one. An edit is one present cell set to absent, or set back: each present
 * cell of the task but a locked need, which no edit clears, is done in turn (if edits are slow, evenly spaced ones of them),
 * the least time over the rounds is kept for each, and the line has the mean and the worst over the cells; `edit/open` is the
 * mean against opening. The last two numbers are how many facts the task has, and how many of them are wrong: their rows are
 * not empty.
 *
 * Status: 2 a file cannot be opened, 3 it is refused, 4 an edit and its undoing do not give the task, 5 no cell. */
#define _POSIX_C_SOURCE 200809L
#include <stdio.h>
#include <stdlib.h>
#include <string.h>
#include <time.h>

#include "../c/zernoplysk.h"

enum { FACTS = 64, MOST_CELLS = 3 * ZP_ACTIONS * FACTS + 2 * ZP_RUNS * FACTS };

/* How many samples (rounds, for edits) at most and at least; a sample's least time; about how long all samples of one
 * call take; how long the fewest rounds of edits may take, in nanoseconds. */
enum { SAMPLES = 101, FEWEST = 3 };
static const double sample_time = 2e4, call_time = 2e8, edits_time = 5e9;

/* The longest file, and a byte more, by which a longer one is refused. */
static uint8_t file[ZP_FILE_BYTES + 1];
static size_t file_len;
static uint64_t read_answer[ZP_TASK_ANSWER_WORDS], answer[ZP_CHECKED_WORDS], changed[ZP_TASK_WORDS];
static const uint64_t *const task = read_answer + 2;
static uint16_t table[ZP_TABLE_NUMBERS], room[ZP_LIST_NUMBERS];

static void reading(void) { zp_read(file, file_len, read_answer, ZP_TASK_ANSWER_WORDS); }
static void checking(void) { zp_check(task, ZP_TASK_WORDS, task[ZP_AT_MANY] - 1, answer, ZP_CHECKED_WORDS); }
static void solving(void) { zp_solve(task, ZP_TASK_WORDS, room, ZP_LIST_NUMBERS, answer, ZP_REPLY_WORDS); }
static void opening(void) { zp_open(task, ZP_TASK_WORDS, table, ZP_TABLE_NUMBERS, answer, ZP_REPLY_WORDS); }
static void listing(void) {
    zp_list(task, ZP_TASK_WORDS, table, ZP_TABLE_NUMBERS, room, ZP_LIST_NUMBERS, answer, ZP_REPLY_WORDS);
}

static double now(void) {
    struct timespec t;
    clock_gettime(CLOCK_MONOTONIC, &t);
    return 1e9 * (double)t.tv_sec + (double)t.tv_nsec;
}

static double timed(void (*call)(void), size_t times) {
    double begun = now();
    for (size_t i = 0; i < times; i++)
        call();
    return now() - begun;
}

static int by_size(const void *a, const void *b) {
    double x = *(const double *)a, y = *(const double *)b;
    return (x > y) - (x < y);
}

/* Prints the minimum and the median of the call's samples; gives the minimum. */
static double measured(void (*call)(void)) {
    double sample[SAMPLES], begun;
    size_t times = 1, n = 0;
    while (timed(call, times) < sample_time)
        times *= 2;
    begun = now();
    while (n < FEWEST || (n < SAMPLES && now() - begun < call_time))
        sample[n++] = timed(call, times) / (double)times;
    qsort(sample, n, sizeof *sample, by_size);
    printf(" %.0f %.0f", sample[0], sample[n / 2]);
    return sample[0];
}

struct cell {
    size_t kind, where, fact; /* where: an action, or the run of a start or goal */
    double least;
};

static struct cell cell[MOST_CELLS];
static size_t cells;

static void take_cells(size_t kind, size_t where, uint64_t facts) {
    for (size_t fact = 0; fact < FACTS; fact++)
        if (facts >> fact & 1)
            cell[cells++] = (struct cell){kind, where, fact, 1e18};
}

/* The present cells of the task: of a need and its lock, the lock. */
static void all_cells(void) {
    cells = 0;
    for (size_t a = 0; a < ZP_ACTIONS; a++) {
        take_cells(ZP_NEED, a, task[ZP_AT_NEEDS + a] & ~task[ZP_AT_LOCKS + a]);
        take_cells(ZP_LOCK, a, task[ZP_AT_LOCKS + a]);
        take_cells(ZP_ADD, a, task[ZP_AT_ADDS + a]);
        take_cells(ZP_DELETE, a, task[ZP_AT_DELETES + a]);
    }
    for (size_t run = 0; run < task[ZP_AT_MANY]; run++) {
        take_cells(ZP_START, run, task[ZP_AT_STARTS + run]);
        take_cells(ZP_GOAL, run, task[ZP_AT_GOALS + run]);
    }
}

/* One cell to absent and back, in a copy of the task. Gives the time of one edit. */
static double edited(const struct cell *c) {
    memcpy(changed, task, sizeof changed);
    double begun = now();
    zp_edit(changed, ZP_TASK_WORDS, c->kind, c->where, c->fact, 0, table, ZP_TABLE_NUMBERS, answer, ZP_CHANGED_WORDS);
    zp_edit(changed, ZP_TASK_WORDS, c->kind, c->where, c->fact, 1, table, ZP_TABLE_NUMBERS, answer, ZP_CHANGED_WORDS);
    double taken = (now() - begun) / 2;
    if (memcmp(changed, task, sizeof changed) != 0)
        exit(4);
    return taken;
}

/* Leaves evenly spaced cells, as many as the time allows. */
static void thin_cells(double one) {
    size_t stride = 1 + (size_t)(2 * FEWEST * one * (double)cells / edits_time), left = 0;
    for (size_t i = 0; i < cells; i += stride)
        cell[left++] = cell[i];
    cells = left;
}

/* How many facts are wrong, by the table that was opened. */
static size_t wrong_facts(void) {
    size_t wrong = 0;
    for (size_t fact = 0; fact < FACTS; fact++)
        wrong += table[fact * (ZP_TABLE_NUMBERS / FACTS)] != 0;
    return wrong;
}

/* Prints the mean and the worst edit over the cells; gives the mean. */
static double measured_edits(void) {
    double begun, sum = 0, worst = 0;
    all_cells();
    if (cells == 0)
        exit(5);
    thin_cells(edited(&cell[0]));
    begun = now();
    for (size_t round = 0; round < FEWEST || (round < SAMPLES && now() - begun < call_time); round++)
        for (size_t i = 0; i < cells; i++) {
            double taken = edited(&cell[i]);
            if (taken < cell[i].least)
                cell[i].least = taken;
        }
    for (size_t i = 0; i < cells; i++) {
        sum += cell[i].least;
        if (cell[i].least > worst)
            worst = cell[i].least;
    }
    printf(" %.0f %.0f", sum / (double)cells, worst);
    return sum / (double)cells;
}

int main(int count, char **path) {
    printf("file outcome read . check . solve . open . edit-mean edit-worst list . edit/open facts wrong\n");
    for (int i = 1; i < count; i++) {
        FILE *in = fopen(path[i], "rb");
        if (in == NULL)
            return 2;
        file_len = fread(file, 1, sizeof file, in);
        fclose(in);
        reading();
        if (read_answer[0] != 0)
            return 3;
        solving();
        printf("%s %s-%llu", path[i], answer[0] == 0 ? "set" : "refused",
               (unsigned long long)(answer[0] == 0 ? answer[2] : answer[0]));
        measured(reading);
        measured(checking);
        measured(solving);
        double open = measured(opening), edit = measured_edits();
        measured(listing);
        printf(" %.4f %zu %zu\n", edit / open, (size_t)task[ZP_AT_FACTS], wrong_facts());
        fflush(stdout);
    }
    return 0;
}
