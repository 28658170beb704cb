/* The driver: requests on standard input, answers on standard output, until the input ends (docs/BOUNDARY.md, "The
 * driver"). It only unpacks a request, makes one call of the library and packs what came back. */
#include <stdlib.h>
#include <string.h>
#include <unistd.h>

#include "zernoplysk.h"

enum { IN = 0, OUT = 1, CHUNK = 1 << 16 };

enum { RECORD = 1, READ, WRITE, CHECK, APPLY, SOLVE, OPEN, EDIT, LIST, LISTING };
enum { WRITE_DOMAIN = LISTING + 1, WRITE_PROBLEM, READ_DOMAIN, READ_PROBLEM, ADD_RUN };

/* Grown memory: how many bytes are in it and how many it can hold. */
struct bytes {
    uint8_t *at;
    size_t length, space;
};

static struct bytes input, output;
static size_t taken;

static uint8_t *grow(struct bytes *b, size_t more) {
    if (b->space - b->length < more) {
        size_t space = 2 * b->space + more;
        uint8_t *at = realloc(b->at, space);
        if (at == NULL)
            exit(2);
        b->at = at;
        b->space = space;
    }
    return b->at + b->length;
}

static void flush(void) {
    size_t done = 0;
    while (done < output.length) {
        ssize_t n = write(OUT, output.at + done, output.length - done);
        if (n <= 0)
            exit(2);
        done += (size_t)n;
    }
    output.length = 0;
}

/* Makes n bytes of the input stand from `taken` on; 0 if it ends before. What was answered is written before waiting. */
static int have(size_t n) {
    while (input.length - taken < n) {
        flush();
        input.length -= taken;
        if (taken > 0)
            memmove(input.at, input.at + taken, input.length);
        taken = 0;
        grow(&input, CHUNK);
        ssize_t got = read(IN, input.at + input.length, input.space - input.length);
        if (got < 0)
            exit(2);
        if (got == 0)
            return 0;
        input.length += (size_t)got;
    }
    return 1;
}

static uint64_t number(const uint8_t *at, size_t bytes) {
    uint64_t n = 0;
    for (size_t i = bytes; i > 0; i--)
        n = 256 * n + at[i - 1];
    return n;
}

static void put(uint64_t n, size_t bytes) {
    uint8_t *at = grow(&output, bytes);
    for (size_t i = 0; i < bytes; i++, n /= 256)
        at[i] = (uint8_t)n;
    output.length += bytes;
}

static void put_words(const uint64_t *words, size_t count) {
    for (size_t i = 0; i < count; i++)
        put(words[i], 8);
}

static void put_bytes(const uint8_t *bytes, size_t length) {
    put(length, 4);
    if (length > 0)
        memcpy(grow(&output, length), bytes, length);
    output.length += length;
}

static void answer(const uint64_t *words, size_t count, const uint8_t *bytes, size_t length) {
    put(count, 4);
    put_words(words, count);
    put_bytes(bytes, length);
}

/* One request taken apart. The bytes are also read as numbers of 16 bits, and written back from them. */
struct request {
    int op;
    size_t words, bytes, halves;
    uint64_t *word;
    uint8_t *byte;
    uint16_t *half;
};

static const uint8_t *halves_as_bytes(const struct request *q, size_t from, size_t until) {
    for (size_t i = from; i < until; i++) {
        q->byte[2 * i] = (uint8_t)q->half[i];
        q->byte[2 * i + 1] = (uint8_t)(q->half[i] / 256);
    }
    return q->byte + 2 * from;
}

static void answer_halves(const uint64_t *words, size_t count, const struct request *q, size_t from, size_t until) {
    answer(words, count, halves_as_bytes(q, from, until), 2 * (until - from));
}

/* The two words of the answer, then the task's words as the call left them, as many as were lent. */
static void answer_changed(const uint64_t *words, const struct request *q, size_t task, size_t halves) {
    put(ZP_CHANGED_WORDS + task, 4);
    put_words(words, ZP_CHANGED_WORDS);
    put_words(q->word, task);
    put_bytes(halves_as_bytes(q, 0, halves), 2 * halves);
}

static uint64_t word_at(const struct request *q, size_t i) { return i < q->words ? q->word[i] : 0; }

/* How many words of the request are the task's, and not what stands behind them. */
static size_t task_words(const struct request *q) {
    int one = q->op == CHECK || q->op == LIST || q->op == WRITE_PROBLEM;
    size_t more = q->op == EDIT ? 4 : q->op == ADD_RUN ? 2 : one ? 1 : 0;
    return q->words < more ? 0 : q->words - more;
}

/* The calls of 02, request 4. */
static void make_texts(struct request *q, uint64_t *a, size_t task) {
    switch (q->op) {
    case WRITE_DOMAIN:
        zp_write_domain(q->word, task, q->byte, q->bytes, a, ZP_REPLY_WORDS);
        answer(a, ZP_REPLY_WORDS, q->byte, q->bytes);
        break;
    case WRITE_PROBLEM:
        zp_write_problem(q->word, task, word_at(q, task), q->byte, q->bytes, a, ZP_REPLY_WORDS);
        answer(a, ZP_REPLY_WORDS, q->byte, q->bytes);
        break;
    case READ_DOMAIN:
        zp_read_domain(q->byte, q->bytes, word_at(q, 0), a, ZP_TASK_ANSWER_WORDS);
        answer(a, ZP_TASK_ANSWER_WORDS, NULL, 0);
        break;
    case READ_PROBLEM:
        zp_read_problem(q->byte, q->bytes, word_at(q, 0), a, ZP_PROBLEM_WORDS);
        answer(a, ZP_PROBLEM_WORDS, NULL, 0);
        break;
    case ADD_RUN:
        zp_add_run(q->word, task, word_at(q, task), word_at(q, task + 1), q->byte, q->bytes, a, ZP_CHANGED_WORDS);
        answer_changed(a, q, task, 0);
        break;
    default:
        exit(3);
    }
}

static void make(struct request *q) {
    uint64_t a[ZP_TASK_ANSWER_WORDS];
    static uint8_t text[ZP_LISTING_BYTES];
    size_t task = task_words(q);
    memset(a, 0, sizeof a);
    switch (q->op) {
    case RECORD:
        zp_record(q->byte, q->bytes, word_at(q, 0), a, ZP_RECORD_WORDS);
        answer(a, ZP_RECORD_WORDS, q->byte + a[3], a[4]);
        break;
    case READ:
        zp_read(q->byte, q->bytes, a, ZP_TASK_ANSWER_WORDS);
        answer(a, ZP_TASK_ANSWER_WORDS, NULL, 0);
        break;
    case WRITE:
        zp_write(q->word, task, q->byte, q->bytes, a, ZP_REPLY_WORDS);
        answer(a, ZP_REPLY_WORDS, q->byte, q->bytes);
        break;
    case CHECK:
        zp_check(q->word, task, word_at(q, task), a, ZP_CHECKED_WORDS);
        answer(a, ZP_CHECKED_WORDS, NULL, 0);
        break;
    case APPLY:
        zp_apply(q->word, task, q->half, q->halves, a, ZP_CHANGED_WORDS);
        answer_changed(a, q, task, 0);
        break;
    case SOLVE:
        zp_solve(q->word, task, q->half, q->halves, a, ZP_REPLY_WORDS);
        answer_halves(a, ZP_REPLY_WORDS, q, 0, q->halves);
        break;
    case OPEN:
        zp_open(q->word, task, q->half, q->halves, a, ZP_REPLY_WORDS);
        answer_halves(a, ZP_REPLY_WORDS, q, 0, q->halves);
        break;
    case EDIT:
        zp_edit(q->word, task, word_at(q, task), word_at(q, task + 1), word_at(q, task + 2), word_at(q, task + 3), q->half,
                q->halves, a, ZP_CHANGED_WORDS);
        answer_changed(a, q, task, q->halves);
        break;
    case LIST: {
        uint64_t table = word_at(q, task);
        if (table > q->halves)
            table = q->halves;
        zp_list(q->word, task, q->half, table, q->half + table, q->halves - table, a, ZP_REPLY_WORDS);
        answer_halves(a, ZP_REPLY_WORDS, q, table, q->halves);
        break;
    }
    case LISTING:
        zp_listing(q->byte, q->bytes, text, sizeof text, a, ZP_REPLY_WORDS);
        answer(NULL, 0, text, a[2]);
        break;
    default:
        make_texts(q, a, task);
    }
}

int main(void) {
    struct bytes words = {NULL, 0, 0}, halves = {NULL, 0, 0};
    while (have(1)) {
        struct request q;
        q.op = input.at[taken];
        if (!have(5))
            return 3;
        q.words = number(input.at + taken + 1, 4);
        if (!have(9 + 8 * q.words))
            return 3;
        q.bytes = number(input.at + taken + 5 + 8 * q.words, 4);
        if (!have(9 + 8 * q.words + q.bytes))
            return 3;
        q.word = (uint64_t *)(void *)grow(&words, 8 * q.words);
        for (size_t i = 0; i < q.words; i++)
            q.word[i] = number(input.at + taken + 5 + 8 * i, 8);
        q.byte = input.at + taken + 9 + 8 * q.words;
        q.halves = q.bytes / 2;
        q.half = (uint16_t *)(void *)grow(&halves, q.bytes);
        for (size_t i = 0; i < q.halves; i++)
            q.half[i] = (uint16_t)number(q.byte + 2 * i, 2);
        make(&q);
        taken += 9 + 8 * q.words + q.bytes;
    }
    flush();
    return 0;
}
