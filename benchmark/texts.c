/* texts FILE..: times the PDDL texts of task files (docs/PDDL.md) through the C header. One line a file: the bytes of its domain text and of the
 * problem text of its first run, then the least and the median nanoseconds of writing and reading each, over so many samples of some calls.
 *
 *     cc -std=c11 -O2 -o texts benchmark/texts.c target/staticlib/libboundary.a
 *
 * Status: 2 a file cannot be opened, 3 a call is refused. */
#define _POSIX_C_SOURCE 200809L
#include <stdio.h>
#include <stdlib.h>
#include <time.h>

#include "../c/zernoplysk.h"

enum { SAMPLES = 51, CALLS = 8 };

static uint8_t file[ZP_FILE_BYTES + 1], domain[ZP_DOMAIN_BYTES], problem[ZP_PROBLEM_BYTES];
static uint64_t read_answer[ZP_TASK_ANSWER_WORDS], back[ZP_TASK_ANSWER_WORDS], answer[ZP_PROBLEM_WORDS];
static size_t domain_len, problem_len;
static const uint64_t *const task = read_answer + 2;

static size_t writing_domain(void) {
    return zp_write_domain(task, ZP_TASK_WORDS, domain, sizeof domain, answer, ZP_REPLY_WORDS);
}
static size_t reading_domain(void) { return zp_read_domain(domain, domain_len, task[ZP_AT_LIMIT], back, ZP_TASK_ANSWER_WORDS); }
static size_t writing_problem(void) {
    return zp_write_problem(task, ZP_TASK_WORDS, 0, problem, sizeof problem, answer, ZP_REPLY_WORDS);
}
static size_t reading_problem(void) { return zp_read_problem(problem, problem_len, task[ZP_AT_FACTS], answer, ZP_PROBLEM_WORDS); }

static double now(void) {
    struct timespec t;
    clock_gettime(CLOCK_MONOTONIC, &t);
    return 1e9 * (double)t.tv_sec + (double)t.tv_nsec;
}

static int by_size(const void *a, const void *b) {
    double x = *(const double *)a, y = *(const double *)b;
    return (x > y) - (x < y);
}

static void measured(size_t (*call)(void)) {
    double sample[SAMPLES];
    for (size_t n = 0; n < SAMPLES; n++) {
        double begun = now();
        for (size_t i = 0; i < CALLS; i++)
            if (call() != 0)
                exit(3);
        sample[n] = (now() - begun) / CALLS;
    }
    qsort(sample, SAMPLES, sizeof *sample, by_size);
    printf(" %.0f %.0f", sample[0], sample[SAMPLES / 2]);
}

int main(int count, char **path) {
    printf("file domain-bytes problem-bytes write-domain . read-domain . write-problem . read-problem .\n");
    for (int i = 1; i < count; i++) {
        FILE *in = fopen(path[i], "rb");
        if (in == NULL)
            return 2;
        size_t length = fread(file, 1, sizeof file, in);
        fclose(in);
        if (zp_read(file, length, read_answer, ZP_TASK_ANSWER_WORDS) != 0 || writing_domain() != 0)
            return 3;
        domain_len = answer[2];
        if (writing_problem() != 0)
            return 3;
        problem_len = answer[2];
        printf("%s %zu %zu", path[i], domain_len, problem_len);
        measured(writing_domain);
        measured(reading_domain);
        measured(writing_problem);
        measured(reading_problem);
        printf("\n");
    }
    return 0;
}
