/* stack FILE..: how deep the stack is that the calls of the proved library touch, through its C header. One line a file:
 * its name, what solving gave, then bytes below the caller's own frame for solving, opening, editing, listing a session,
 * reading, and the listing text; and a last line with the deepest of each.
 *
 * A call runs on a stack of its own that is painted first, and the deepest byte that is no longer paint is looked up. A
 * call may write a byte that is the paint's: so each is made with two paints. The return address counts, and so do the
 * arguments that are on the stack. An edit is one present cell set to absent, or set back: the deepest over all cells
 * counts.
 *
 * Built with PROGRAM, it has the listing program in place of the library (its `main` under the name zp_program), runs it
 * on each file as standard input, and prints the bytes that it touches, its buffers with them.
 *
 * Status: 2 a file cannot be read, 3 it is refused, 4 an edit is refused or it and its undoing do not give the task, 5 the
 * painted stack is too small. */
#define _GNU_SOURCE
#include <fcntl.h>
#include <stdio.h>
#include <stdlib.h>
#include <string.h>
#include <ucontext.h>
#include <unistd.h>

#include "../c/zernoplysk.h"

enum { FACTS = 64, STACK_BYTES = 1 << 17, PAINTS = 2 };

static const int paints[PAINTS] = {0xa5, 0x5a};
static unsigned char stack[STACK_BYTES] __attribute__((aligned(64)));
static const unsigned char *frame; /* the lowest byte of the caller's own frame */
static ucontext_t caller, called;

static void stop(int status, const char *what, const char *why) {
    fprintf(stderr, "stack: %s: %s\n", what, why);
    exit(status);
}

/* How many bytes from the deepest on are still paint. */
static size_t untouched(int paint) {
    size_t at = 0;
    while (at < STACK_BYTES && stack[at] == paint)
        at++;
    if (at == 0)
        stop(5, "the painted stack", "too small");
    return at;
}

/* The bytes below the caller's own frame, down to the deepest that the call touched. */
static size_t painted(void (*call)(void), int paint) {
    memset(stack, paint, STACK_BYTES);
    getcontext(&called);
    called.uc_stack.ss_sp = stack;
    called.uc_stack.ss_size = STACK_BYTES;
    called.uc_link = &caller; /* where the call returns to: behind swapcontext */
    makecontext(&called, call, 0);
    swapcontext(&caller, &called);
    return (size_t)(frame - stack) - untouched(paint);
}

static size_t deeper(size_t a, size_t b) { return a < b ? b : a; }

static size_t depth(void (*call)(void)) { return deeper(painted(call, paints[0]), painted(call, paints[1])); }

/* The first call on the painted stack: it sees where the stack pointer was before it. */
static void marking(void) { frame = __builtin_dwarf_cfa(); }

static const char *name_of(const char *path) {
    const char *slash = strrchr(path, '/');
    return slash ? slash + 1 : path;
}

#ifdef PROGRAM

int zp_program(void);

/* Each run reads the file from its beginning. Its status is not looked at: to be tested here, it would have to come back
 * to a frame that then counts. */
static void running(void) {
    lseek(0, 0, SEEK_SET);
    zp_program();
}

/* The program reads descriptor 0 and writes descriptor 1; our own lines go to a copy of the latter. */
int main(int count, char **path) {
    FILE *say = fdopen(dup(1), "w");
    size_t deepest = 0;
    if (!say || dup2(open("/dev/null", O_WRONLY), 1) < 0)
        stop(2, "/dev/null", "cannot be written in place of standard output");
    depth(marking);
    for (int i = 1; i < count; i++) {
        int file = open(path[i], O_RDONLY);
        if (file < 0 || lseek(file, 0, SEEK_SET) != 0 || dup2(file, 0) < 0)
            stop(2, path[i], "cannot be read twice");
        size_t bytes = depth(running);
        close(file);
        fprintf(say, "%s program %zu\n", name_of(path[i]), bytes);
        deepest = deeper(deepest, bytes);
    }
    fprintf(say, "deepest program %zu\n", deepest);
    return 0;
}

#else

/* The longest file, and a byte more, by which a longer one is refused. */
static uint8_t file[ZP_FILE_BYTES + 1], text[ZP_LISTING_BYTES];
static size_t file_len;
static uint64_t read_answer[ZP_TASK_ANSWER_WORDS], answer[ZP_REPLY_WORDS], changed[ZP_TASK_WORDS];
static const uint64_t *const task = read_answer + 2;
static uint16_t table[ZP_TABLE_NUMBERS], room[ZP_LIST_NUMBERS];
static size_t edit_kind, edit_whose, edit_fact, edit_present;

static void reading(void) { zp_read(file, file_len, read_answer, ZP_TASK_ANSWER_WORDS); }
static void solving(void) { zp_solve(task, ZP_TASK_WORDS, room, ZP_LIST_NUMBERS, answer, ZP_REPLY_WORDS); }
static void opening(void) { zp_open(task, ZP_TASK_WORDS, table, ZP_TABLE_NUMBERS, answer, ZP_REPLY_WORDS); }
static void telling(void) { zp_listing(file, file_len, text, ZP_LISTING_BYTES, answer, ZP_REPLY_WORDS); }
static void listing(void) {
    zp_list(task, ZP_TASK_WORDS, table, ZP_TABLE_NUMBERS, room, ZP_LIST_NUMBERS, answer, ZP_REPLY_WORDS);
}
static void editing(void) {
    zp_edit(changed, ZP_TASK_WORDS, edit_kind, edit_whose, edit_fact, edit_present, table, ZP_TABLE_NUMBERS, answer,
            ZP_CHANGED_WORDS);
}

/* The deepest of clearing each of these cells and setting it again: both with one paint, then both with the other, so
 * that every edit changes its cell. */
static size_t edits_of(size_t kind, size_t whose, uint64_t facts) {
    size_t deepest = 0;
    edit_kind = kind;
    edit_whose = whose;
    for (edit_fact = 0; edit_fact < FACTS; edit_fact++) {
        if (!(facts >> edit_fact & 1))
            continue;
        for (size_t paint = 0; paint < PAINTS; paint++)
            for (edit_present = 0; edit_present < 2; edit_present++) {
                deepest = deeper(deepest, painted(editing, paints[paint]));
                if (answer[0] != 0)
                    stop(4, "an edit", "refused");
            }
        if (memcmp(changed, task, sizeof changed) != 0)
            stop(4, "an edit and its undoing", "another task");
    }
    return deepest;
}

/* The deepest edit over the present cells of the task, of the table that was opened last; of a need and its lock, over the lock:
 * under it no edit clears the need (02, request 6). */
static size_t all_edits(void) {
    size_t deepest = 0;
    memcpy(changed, task, sizeof changed);
    for (size_t a = 0; a < ZP_ACTIONS; a++) {
        deepest = deeper(deepest, edits_of(ZP_NEED, a, task[ZP_AT_NEEDS + a] & ~task[ZP_AT_LOCKS + a]));
        deepest = deeper(deepest, edits_of(ZP_LOCK, a, task[ZP_AT_LOCKS + a]));
        deepest = deeper(deepest, edits_of(ZP_ADD, a, task[ZP_AT_ADDS + a]));
        deepest = deeper(deepest, edits_of(ZP_DELETE, a, task[ZP_AT_DELETES + a]));
    }
    for (size_t run = 0; run < task[ZP_AT_MANY]; run++) {
        deepest = deeper(deepest, edits_of(ZP_START, run, task[ZP_AT_STARTS + run]));
        deepest = deeper(deepest, edits_of(ZP_GOAL, run, task[ZP_AT_GOALS + run]));
    }
    return deepest;
}

enum { SOLVE, OPEN, EDIT, LIST, READ, LISTING, CALLS };
static const char *const call_name[CALLS] = {"solve", "open", "edit", "list", "read", "listing"};

/* In this order, as edits and the list of a session need its table. */
static void all_depths(size_t bytes[CALLS]) {
    bytes[SOLVE] = depth(solving);
    bytes[OPEN] = depth(opening);
    bytes[EDIT] = all_edits();
    bytes[LIST] = depth(listing);
    bytes[READ] = depth(reading);
    bytes[LISTING] = depth(telling);
}

static void print_depths(const size_t bytes[CALLS]) {
    for (size_t c = 0; c < CALLS; c++)
        printf(" %s %zu", call_name[c], bytes[c]);
    printf("\n");
    fflush(stdout);
}

static void take_file(const char *path) {
    FILE *in = fopen(path, "rb");
    if (!in)
        stop(2, path, "cannot be read");
    file_len = fread(file, 1, sizeof file, in);
    fclose(in);
    reading();
    if (read_answer[0] != 0)
        stop(3, path, "refused");
}

int main(int count, char **path) {
    size_t bytes[CALLS], deepest[CALLS] = {0};
    depth(marking);
    for (int i = 1; i < count; i++) {
        take_file(path[i]);
        solving();
        printf("%s %s-%llu", name_of(path[i]), answer[0] == 0 ? "set" : "refused",
               (unsigned long long)(answer[0] == 0 ? answer[2] : answer[0]));
        all_depths(bytes);
        print_depths(bytes);
        for (size_t c = 0; c < CALLS; c++)
            deepest[c] = deeper(deepest[c], bytes[c]);
    }
    printf("deepest");
    print_depths(deepest);
    return 0;
}

#endif
