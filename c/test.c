/* A small test of each function of the header: 01's 36-byte file through every call, which byte is wrong, the order of the
 * parameters, lists in two sittings, several runs, steps that can't run, locks, the PDDL texts there and back, short rooms and
 * short answers, empty slices and wrong lengths. It prints what fails and ends with status 1 if anything did. */
#include <stdio.h>
#include <string.h>

#include "zernoplysk.h"

static int failures;

static void expect(int holds, const char *what) {
    if (!holds) {
        failures++;
        printf("failed: %s\n", what);
    }
}

static const uint8_t file[36] = {1, 4, 3, 3, 2, 0, 3, 3, 4, 0, 0, 4, 1, 1, 4, 2, 1, 4,
                                 2, 2, 5, 0, 1, 5, 2, 3, 6, 1, 1, 7, 0, 7, 1, 7, 2, 8};

static uint64_t answer[ZP_TASK_ANSWER_WORDS + 1];
/* The task of the file, as read; and what is lent to be changed, with a word behind it. */
static uint64_t task[ZP_TASK_WORDS];
static uint64_t lent[ZP_TASK_WORDS + 1];

enum { UNTOUCHED = 7, HALF_UNTOUCHED = 0x0707 };
enum { WORD_LESS = ZP_TASK_WORDS - 1, WORD_MORE = ZP_TASK_WORDS + 1 };

/* The words of the answer, before the next call, all set to a value that no call gives there. */
static uint64_t *fresh(void) {
    for (size_t i = 0; i < sizeof answer / sizeof *answer; i++)
        answer[i] = UNTOUCHED;
    return answer;
}

static int kept(size_t from) {
    for (size_t i = from; i < sizeof answer / sizeof *answer; i++)
        if (answer[i] != UNTOUCHED)
            return 0;
    return 1;
}

static int is_reply(size_t number, size_t place, size_t length) {
    return answer[0] == number && answer[1] == place && answer[2] == length && kept(ZP_REPLY_WORDS);
}

static int is_changed(size_t number, size_t place) {
    return answer[0] == number && answer[1] == place && kept(ZP_CHANGED_WORDS);
}

static int is_checked(size_t number, size_t total, size_t step, size_t fact) {
    return answer[0] == number && answer[1] == 0 && answer[2] == total && answer[3] == step && answer[4] == fact &&
           kept(ZP_CHECKED_WORDS);
}

/* The task's words anew, to be changed. */
static uint64_t *lend(void) {
    memcpy(lent, task, sizeof task);
    lent[ZP_TASK_WORDS] = UNTOUCHED;
    return lent;
}

/* The words lent are the task's but for one, which holds this. */
static int differs_at(size_t place, uint64_t word) {
    for (size_t i = 0; i < ZP_TASK_WORDS; i++)
        if (lent[i] != (i == place ? word : task[i]))
            return 0;
    return lent[ZP_TASK_WORDS] == UNTOUCHED;
}

static int as_lent(void) { return differs_at(0, task[0]); }

static int bytes_kept(const uint8_t *room, size_t length) {
    for (size_t i = 0; i < length; i++)
        if (room[i] != UNTOUCHED)
            return 0;
    return 1;
}

static int halves_kept(const uint16_t *room, size_t length) {
    for (size_t i = 0; i < length; i++)
        if (room[i] != HALF_UNTOUCHED)
            return 0;
    return 1;
}

static void read_and_records(void) {
    expect(zp_read(file, sizeof file, fresh(), ZP_TASK_ANSWER_WORDS) == 0, "read: accepted");
    expect(answer[0] == 0 && answer[1] == 0 && kept(ZP_TASK_ANSWER_WORDS), "read: 0, 0 and the task's words");
    memcpy(task, answer + 2, sizeof task);
    expect(task[ZP_AT_FACTS] == 4 && task[ZP_AT_ACTIONS] == 3 && task[ZP_AT_LIMIT] == 3, "read: sizes");
    expect(task[ZP_AT_NEEDS] == 1 && task[ZP_AT_NEEDS + 1] == 2 && task[ZP_AT_NEEDS + 2] == 6, "read: needs");
    expect(task[ZP_AT_ADDS] == 2 && task[ZP_AT_ADDS + 2] == 8 && task[ZP_AT_DELETES + 1] == 2, "read: effects");
    expect(task[ZP_AT_MANY] == 1 && task[ZP_AT_STARTS] == 1 && task[ZP_AT_GOALS] == 8 && task[ZP_AT_COUNTS] == 3,
           "read: run");
    expect(task[ZP_AT_STEPS + 1] == 1 && task[ZP_AT_STEPS + 2] == 2 && task[ZP_AT_STEPS + 3] == 0, "read: steps");
    expect(zp_read(file, 35, fresh(), ZP_TASK_ANSWER_WORDS) == 1 && answer[1] == 35 && answer[2] == 0, "read: 1 at 35");
    expect(zp_read(NULL, 0, fresh(), ZP_TASK_ANSWER_WORDS) == 1 && answer[1] == 0, "read: nothing is 1 at 0");
    expect(zp_record(file, sizeof file, 36, fresh(), ZP_RECORD_WORDS) == 1 && answer[1] == 36, "record: past the end");
    expect(zp_record(NULL, 0, (size_t)-1, fresh(), ZP_RECORD_WORDS) == 1, "record: any place");
}

/* The file with one byte changed is refused with this number at this place (02, request 2). */
static int is_marked(size_t changed, uint8_t value, size_t number, size_t place) {
    uint8_t wrong[sizeof file];
    memcpy(wrong, file, sizeof file);
    wrong[changed] = value;
    return zp_read(wrong, sizeof wrong, fresh(), ZP_TASK_ANSWER_WORDS) == number && answer[1] == place && answer[2] == 0;
}

static void wrong_bytes(void) {
    expect(is_marked(34, 3, 5, 34), "place: 5 of a step");
    expect(is_marked(5, 4, 5, 5), "place: 5 of a start");
    expect(is_marked(12, 3, 5, 12), "place: 5 of a need's action");
    expect(is_marked(13, 4, 5, 13), "place: 5 of a need's fact");
    expect(is_marked(17, 2, 6, 17), "place: 6 of a kind that goes down");
    expect(is_marked(19, 1, 6, 18), "place: 6 of a body that is the last one's");
    expect(is_marked(0, 2, 3, 0) && is_marked(1, 65, 4, 0), "place: 3 and 4 at the record's start");
}

/* One call of each function whose arguments are such that, were any two of its parameters exchanged, it would give
 * something else. Where two are of one type (the task and the answer, the table and the room, the file and the room,
 * the four numbers of an edit) nothing but this test pins their order. */
static void order_of_reading_and_writing(void) {
    uint8_t room[40];
    expect(zp_record(file, sizeof file, 8, fresh(), ZP_RECORD_WORDS) == 0, "order: record");
    expect(answer[0] == 0 && answer[1] == 0 && answer[2] == 4 && answer[3] == 9 && answer[4] == 2 && answer[5] == 11 &&
               kept(ZP_RECORD_WORDS),
           "order: record, file before place before answer");
    expect(zp_read(file, sizeof file, fresh(), ZP_TASK_ANSWER_WORDS) == 0, "order: read");
    expect(memcmp(answer + 2, task, sizeof task) == 0, "order: read, file before answer");
    memset(room, UNTOUCHED, sizeof room);
    expect(zp_write(task, ZP_TASK_WORDS, room, sizeof room, fresh(), ZP_REPLY_WORDS) == 0, "order: write");
    expect(is_reply(0, 0, 36) && memcmp(room, file, sizeof file) == 0 && bytes_kept(room + 36, 4),
           "order: write, task before room before answer");
    expect(zp_check(lend(), ZP_TASK_WORDS, 0, fresh(), ZP_CHECKED_WORDS) == 0, "order: check");
    expect(is_checked(0, 3, 3, 1) && as_lent(), "order: check, task before run before answer");
}

static void order_of_changing(void) {
    static const uint16_t list[1] = {224};
    uint16_t table[ZP_TABLE_NUMBERS];
    expect(zp_apply(lend(), ZP_TASK_WORDS, list, 1, fresh(), ZP_CHANGED_WORDS) == 0, "order: apply");
    expect(is_changed(0, 0) && differs_at(ZP_AT_ADDS, 6), "order: apply, task before list before answer");
    expect(zp_open(lend(), ZP_TASK_WORDS, table, ZP_TABLE_NUMBERS, fresh(), ZP_REPLY_WORDS) == 0, "order: open");
    expect(is_reply(0, 0, ZP_TABLE_NUMBERS) && table[7] == 1 && table[8] == 97 && as_lent(),
           "order: open, task before table before answer");
    /* Need 3 of action 2 to present: in any other order the numbers 0, 2, 3 and 1 name another cell or another value. */
    expect(zp_edit(lend(), ZP_TASK_WORDS, ZP_NEED, 2, 3, 1, table, ZP_TABLE_NUMBERS, fresh(), ZP_CHANGED_WORDS) == 0,
           "order: edit");
    expect(is_changed(0, 0) && differs_at(ZP_AT_NEEDS + 2, 14),
           "order: edit, kind before whose before fact before present");
    expect(table[21] == 1 && table[22] == 288 + 32 && table[8] == 97, "order: edit, the row of the fact");
}

static void order_of_solving(void) {
    static const char text[] = "task 4 3 3 3\nopen 3 3 1\nset 2\ndrop-delete 1 1\nadd-effect 0 2\nend\n";
    uint16_t room[8], table[ZP_TABLE_NUMBERS];
    uint8_t letters[ZP_LISTING_BYTES];
    memset(room, UNTOUCHED, sizeof room);
    expect(zp_solve(task, ZP_TASK_WORDS, room, 8, fresh(), ZP_REPLY_WORDS) == 0, "order: solve");
    expect(is_reply(0, 0, 2) && room[0] == 97 && room[1] == 224 && halves_kept(room + 2, 6),
           "order: solve, task before room before answer");
    zp_open(task, ZP_TASK_WORDS, table, ZP_TABLE_NUMBERS, fresh(), ZP_REPLY_WORDS);
    memset(room, UNTOUCHED, sizeof room);
    expect(zp_list(task, ZP_TASK_WORDS, table, ZP_TABLE_NUMBERS, room, 8, fresh(), ZP_REPLY_WORDS) == 0, "order: list");
    expect(is_reply(0, 0, 2) && room[0] == 97 && room[1] == 224 && halves_kept(room + 2, 6),
           "order: list, task before table before room before answer");
    memset(letters, UNTOUCHED, sizeof letters);
    expect(zp_listing(file, sizeof file, letters, sizeof letters, fresh(), ZP_REPLY_WORDS) == 0, "order: listing");
    expect(is_reply(0, 0, sizeof text - 1) && memcmp(letters, text, sizeof text - 1) == 0 &&
               bytes_kept(letters + sizeof text - 1, sizeof letters - sizeof text + 1),
           "order: listing, input before room before answer");
}

static size_t less(size_t words, size_t missing) { return missing > words ? 0 : words - missing; }

static int too_short(size_t number) { return number == ZP_ANSWER_TOO_SHORT; }

/* An answer that lacks so many words: 255, and nothing lent is touched, whatever the call itself would give. */
static void short_answers(size_t missing) {
    uint8_t bytes[40];
    uint16_t room[8], table[ZP_TABLE_NUMBERS];
    size_t changed = less(ZP_CHANGED_WORDS, missing), reply = less(ZP_REPLY_WORDS, missing);
    memset(bytes, UNTOUCHED, sizeof bytes);
    memset(room, UNTOUCHED, sizeof room);
    memset(table, UNTOUCHED, sizeof table);
    fresh();
    lend();
    expect(too_short(zp_record(file, 36, 8, answer, less(ZP_RECORD_WORDS, missing))), "short answer: record");
    expect(too_short(zp_read(file, 36, answer, less(ZP_TASK_ANSWER_WORDS, missing))), "short answer: read");
    expect(too_short(zp_write(lent, ZP_TASK_WORDS, bytes, 40, answer, reply)), "short answer: write");
    expect(too_short(zp_check(lent, ZP_TASK_WORDS, 0, answer, less(ZP_CHECKED_WORDS, missing))), "short answer: check");
    expect(too_short(zp_apply(lent, ZP_TASK_WORDS, table, 0, answer, changed)), "short answer: apply");
    expect(too_short(zp_solve(lent, ZP_TASK_WORDS, room, 8, answer, reply)), "short answer: solve");
    expect(too_short(zp_open(lent, ZP_TASK_WORDS, table, 448, answer, reply)), "short answer: open");
    expect(too_short(zp_edit(lent, ZP_TASK_WORDS, ZP_NEED, 2, 3, 1, table, 448, answer, changed)), "short answer: edit");
    expect(too_short(zp_list(lent, ZP_TASK_WORDS, table, 448, room, 8, answer, reply)), "short answer: list");
    expect(too_short(zp_listing(file, 36, bytes, 40, answer, reply)), "short answer: listing");
    expect(too_short(zp_write_domain(lent, ZP_TASK_WORDS, bytes, 40, answer, reply)), "short answer: write_domain");
    expect(too_short(zp_write_problem(lent, ZP_TASK_WORDS, 0, bytes, 40, answer, reply)), "short answer: write_problem");
    expect(too_short(zp_read_domain(file, 36, 3, answer, less(ZP_TASK_ANSWER_WORDS, missing))), "short answer: read_domain");
    expect(too_short(zp_read_problem(file, 36, 4, answer, less(ZP_PROBLEM_WORDS, missing))), "short answer: read_problem");
    expect(too_short(zp_add_run(lent, ZP_TASK_WORDS, 1, 8, file + 30, 1, answer, changed)), "short answer: add_run");
    expect(too_short(zp_solve(lent, WORD_LESS, room, 0, answer, reply)), "short answer: before 12");
    expect(too_short(zp_edit(lent, WORD_LESS, 9, 9, 9, 9, table, 3, answer, changed)), "short answer: before 12, 13 and 14");
    expect(bytes_kept(bytes, 40) && halves_kept(room, 8) && halves_kept(table, 448) && as_lent() && kept(0),
           "short answer: nothing lent is touched");
}

static void write_and_check(void) {
    uint8_t room[40];
    memset(room, UNTOUCHED, sizeof room);
    expect(zp_write(task, ZP_TASK_WORDS, room, 35, fresh(), ZP_REPLY_WORDS) == 11 && is_reply(11, 0, 0), "write: short room");
    expect(zp_write(task, WORD_LESS, room, 35, fresh(), ZP_REPLY_WORDS) == 12 && is_reply(12, 0, 0), "write: a word less");
    expect(zp_write(task, WORD_LESS, NULL, 0, fresh(), ZP_REPLY_WORDS) == 12, "write: 12 before 11");
    expect(zp_write(task, ZP_TASK_WORDS, NULL, 0, fresh(), ZP_REPLY_WORDS) == 11, "write: no room");
    expect(bytes_kept(room, sizeof room), "write: a refusal writes nothing");
    expect(zp_check(NULL, 0, 0, fresh(), ZP_CHECKED_WORDS) == 12 && answer[1] == 0 && answer[2] == 0, "check: no task");
    expect(zp_check(NULL, 0, 0, NULL, 0) == ZP_ANSWER_TOO_SHORT, "check: nothing lent");
    lend()[ZP_AT_STEPS] = 256;
    expect(zp_check(lent, ZP_TASK_WORDS, 0, fresh(), ZP_CHECKED_WORDS) == 12, "check: step 256 is no action");
}

static void solve_and_apply(void) {
    uint16_t room[8];
    memset(room, UNTOUCHED, sizeof room);
    expect(zp_solve(task, ZP_TASK_WORDS, room, 1, fresh(), ZP_REPLY_WORDS) == 11 && is_reply(11, 0, 0), "solve: short room");
    lend()[ZP_AT_LIMIT] = 1;
    expect(zp_solve(lent, ZP_TASK_WORDS, room, 8, fresh(), ZP_REPLY_WORDS) == 10 && is_reply(10, 0, 0), "solve: 10");
    expect(zp_solve(lent, ZP_TASK_WORDS, NULL, 0, fresh(), ZP_REPLY_WORDS) == 10, "solve: 10 before 11");
    expect(halves_kept(room, 8), "solve: a refusal writes nothing");
    zp_solve(task, ZP_TASK_WORDS, room, 8, fresh(), ZP_REPLY_WORDS);
    expect(zp_apply(lend(), ZP_TASK_WORDS, room, 2, fresh(), ZP_CHANGED_WORDS) == 0 && is_changed(0, 0), "apply: accepted");
    expect(lent[ZP_AT_DELETES + 1] == 0 && lent[ZP_AT_ADDS] == 6, "apply: both cells");
    expect(zp_check(lent, ZP_TASK_WORDS, 0, fresh(), ZP_CHECKED_WORDS) == 0 && answer[2] == 0, "apply: the run is valid");
    expect(zp_apply(lend(), ZP_TASK_WORDS, NULL, 0, fresh(), ZP_CHANGED_WORDS) == 0 && as_lent(), "apply: no repairs");
    expect(zp_apply(lend(), ZP_TASK_WORDS, room + 1, 2, fresh(), ZP_CHANGED_WORDS) == 15 && is_changed(15, 1),
           "apply: 15 at 1");
    expect(as_lent(), "apply: 15 leaves the task's words");
    expect(zp_apply(lend(), WORD_LESS, room, 2, fresh(), ZP_CHANGED_WORDS) == 12 && is_changed(12, 0), "apply: a word less");
    expect(as_lent(), "apply: a word less is left as it was");
    expect(zp_apply(lend(), WORD_MORE, room, 2, fresh(), ZP_CHANGED_WORDS) == 12 && as_lent(), "apply: so is a word more");
    lend()[ZP_AT_STEPS] = 300;
    expect(zp_apply(lent, ZP_TASK_WORDS, room, 2, fresh(), ZP_CHANGED_WORDS) == 12 && is_changed(12, 0), "apply: step 300");
    expect(differs_at(ZP_AT_STEPS, 300), "apply: step 300 is left as it was");
    expect(zp_apply(NULL, 0, NULL, 0, fresh(), ZP_CHANGED_WORDS) == 12, "apply: no words");
}

/* ---- lists in two sittings (02, request 7), on the task of the file */

/* The words of the task after a sitting. */
static uint64_t left[ZP_TASK_WORDS];

static void remember(void) { memcpy(left, lent, sizeof left); }

static int is_left(void) { return memcmp(lent, left, sizeof left) == 0 && lent[ZP_TASK_WORDS] == UNTOUCHED; }

/* A list for the words lent as they then stand: accepted. */
static int accepted(const uint16_t *list, size_t length) {
    return zp_apply(lent, ZP_TASK_WORDS, list, length, fresh(), ZP_CHANGED_WORDS) == 0 && is_changed(0, 0);
}

/* Refused: 15 at this place of the list, and the words are those that the sitting before left. */
static int refused(const uint16_t *list, size_t length, size_t place) {
    remember();
    return zp_apply(lent, ZP_TASK_WORDS, list, length, fresh(), ZP_CHANGED_WORDS) == 15 && is_changed(15, place) && is_left();
}

/* The answer is accepted by parts: this repair in the morning, with which the word at this place holds this, and the rest later. */
static void morning_and_afternoon(uint16_t part, size_t place, uint64_t word, uint16_t rest) {
    uint16_t room[ZP_LIST_NUMBERS];
    memset(room, UNTOUCHED, sizeof room);
    lend();
    expect(accepted(&part, 1) && differs_at(place, word), "sittings: a part in the morning");
    expect(accepted(NULL, 0) && differs_at(place, word), "sittings: the empty list changes no word of the morning's");
    expect(zp_solve(lent, ZP_TASK_WORDS, room, 0, fresh(), ZP_REPLY_WORDS) == 11 && is_reply(11, 0, 0), "sittings: 11 in between");
    expect(halves_kept(room, ZP_LIST_NUMBERS), "sittings: 11 in between writes nothing");
    expect(zp_solve(lent, ZP_TASK_WORDS, room, ZP_LIST_NUMBERS, fresh(), ZP_REPLY_WORDS) == 0 && is_reply(0, 0, 1),
           "sittings: in between the rest is answered");
    expect(room[0] == rest && halves_kept(room + 1, ZP_LIST_NUMBERS - 1), "sittings: the rest and nothing beside");
    expect(accepted(&rest, 1) && is_left(), "sittings: the rest in the afternoon gives the whole list's words");
    expect(zp_check(lent, ZP_TASK_WORDS, 0, fresh(), ZP_CHECKED_WORDS) == 0 && is_checked(0, 0, 0, 0), "sittings: a valid run");
    expect(zp_solve(lent, ZP_TASK_WORDS, NULL, 0, fresh(), ZP_REPLY_WORDS) == 0 && is_reply(0, 0, 0), "sittings: nothing is left");
}

/* The answer at once, then by parts in either order. */
static void sittings_of_the_answer(void) {
    uint16_t whole[2];
    expect(zp_solve(task, ZP_TASK_WORDS, whole, 2, fresh(), ZP_REPLY_WORDS) == 0 && is_reply(0, 0, 2) && whole[0] == 97 &&
               whole[1] == 224,
           "sittings: the answer");
    lend();
    expect(accepted(NULL, 0) && as_lent(), "sittings: the empty list changes no word");
    expect(accepted(whole, 2) && lent[ZP_AT_DELETES + 1] == 0 && lent[ZP_AT_ADDS] == 6, "sittings: the whole list at once");
    remember();
    morning_and_afternoon(97, ZP_AT_DELETES + 1, 0, 224);
    morning_and_afternoon(224, ZP_AT_ADDS, 6, 97);
}

/* Two lists that are no answer, whose numbers stand among each other's: 97, 129 and 161 are the three kinds of one action and
 * one fact. */
static void sittings_of_any_lists(void) {
    static const uint16_t some[3] = {64, 129, 224}, others[4] = {33, 97, 161, 320};
    static const uint16_t merged[7] = {33, 64, 97, 129, 161, 224, 320};
    lend();
    expect(accepted(merged, 7) && !as_lent(), "sittings: the merged list at once");
    remember();
    lend();
    expect(accepted(some, 3) && !is_left(), "sittings: some");
    expect(accepted(others, 4) && is_left(), "sittings: some, then the others, give the merged list's words");
    lend();
    expect(accepted(others, 4) && !is_left(), "sittings: the others");
    expect(accepted(some, 3) && is_left(), "sittings: the others, then some, give the merged list's words");
    expect(accepted(NULL, 0) && is_left(), "sittings: the empty list changes no word of the merged list's");
}

/* Numbers shared: 15's place is that of the first one in the second list, which in the first list, but for the same list again,
 * stands at another. */
static void sittings_that_share(void) {
    static const uint16_t whole[2] = {97, 224}, some[3] = {64, 129, 224}, sharing[6] = {33, 34, 97, 129, 161, 224};
    lend();
    expect(accepted(whole + 1, 1) && refused(whole, 2, 1), "sittings: 224 again is 15 at 1, and the morning's words stay");
    expect(differs_at(ZP_AT_ADDS, 6), "sittings: 97 before it is not applied");
    expect(accepted(whole, 1), "sittings: 97 without it is");
    lend();
    expect(accepted(sharing, 6), "sittings: a list that is permitted by itself");
    lend();
    expect(accepted(some, 3) && refused(sharing, 6, 3), "sittings: 129 and 224 again are 15 at 3");
    lend();
    expect(accepted(sharing, 6) && refused(some, 3, 1), "sittings: in the other order, 15 at 1");
    expect(refused(sharing, 6, 0), "sittings: the same list again is 15 at 0");
}

/* A cell that is absent, set to a number but 0: it is present, and the same number sets it once more. */
static void numbers_of_present(uint16_t *table) {
    static const size_t present[4] = {1, 2, 256, (size_t)-1};
    for (size_t i = 0; i < 4; i++) {
        expect(zp_edit(lend(), ZP_TASK_WORDS, ZP_DELETE, 1, 1, 0, table, 448, fresh(), ZP_CHANGED_WORDS) == 0, "edit: 0");
        expect(differs_at(ZP_AT_DELETES + 1, 0), "edit: 0 is absent");
        for (int again = 0; again < 2; again++) {
            zp_edit(lent, ZP_TASK_WORDS, ZP_DELETE, 1, 1, present[i], table, 448, fresh(), ZP_CHANGED_WORDS);
            expect(is_changed(0, 0) && as_lent() && table[7] == 1 && table[8] == 97, "edit: every number but 0 is present");
        }
    }
}

static void session(void) {
    uint16_t table[ZP_TABLE_NUMBERS + 1], room[6];
    memset(table, 0, sizeof table);
    expect(zp_open(task, ZP_TASK_WORDS, table, 447, fresh(), ZP_REPLY_WORDS) == 13 && is_reply(13, 0, 0), "open: 447 numbers");
    expect(zp_open(task, ZP_TASK_WORDS, table, 449, fresh(), ZP_REPLY_WORDS) == 13 && table[0] == 0, "open: 449 numbers");
    expect(zp_open(task, ZP_TASK_WORDS, table, 448, fresh(), ZP_REPLY_WORDS) == 0 && is_reply(0, 0, 448), "open: accepted");
    expect(table[7] == 1 && table[8] == 97 && table[14] == 1 && table[15] == 224 && table[448] == 0, "open: the rows");
    expect(zp_list(task, ZP_TASK_WORDS, table, 447, room, 6, fresh(), ZP_REPLY_WORDS) == 13, "list: 447 numbers");
    expect(zp_list(task, ZP_TASK_WORDS, NULL, 0, NULL, 0, fresh(), ZP_REPLY_WORDS) == 13, "list: no table, before 11");
    expect(zp_list(task, ZP_TASK_WORDS, table, 448, room, 1, fresh(), ZP_REPLY_WORDS) == 11, "list: short room");
    lend();
    expect(zp_edit(lent, ZP_TASK_WORDS, ZP_DELETE, 1, 1, 0, table, 448, fresh(), ZP_CHANGED_WORDS) == 0, "edit: accepted");
    expect(is_changed(0, 0) && differs_at(ZP_AT_DELETES + 1, 0), "edit: the cell and no other");
    expect(table[7] == 0 && table[8] == 65535 && table[14] == 1 && table[15] == 224 && table[448] == 0,
           "edit: its row and no other");
    expect(zp_list(lent, ZP_TASK_WORDS, table, 448, room, 6, fresh(), ZP_REPLY_WORDS) == 0 && is_reply(0, 0, 1), "list: one");
    expect(room[0] == 224, "list: 224");
    numbers_of_present(table);
}

static void refused_edits(void) {
    uint16_t table[ZP_TABLE_NUMBERS];
    memset(table, UNTOUCHED, sizeof table);
    expect(zp_edit(lend(), ZP_TASK_WORDS, ZP_DELETE, 3, 1, 0, table, 448, fresh(), ZP_CHANGED_WORDS) == 14, "edit: 14");
    expect(is_changed(14, 0) && as_lent(), "edit: 14 leaves the task's words");
    expect(zp_edit(lend(), ZP_TASK_WORDS, 6, 0, 0, 0, table, 448, fresh(), ZP_CHANGED_WORDS) == 14, "edit: no such kind");
    expect(as_lent(), "edit: no such kind leaves the task's words");
    expect(zp_edit(lend(), ZP_TASK_WORDS, ZP_DELETE, 3, 1, 0, table, 447, fresh(), ZP_CHANGED_WORDS) == 13,
           "edit: 447 numbers, before 14");
    expect(is_changed(13, 0) && as_lent(), "edit: 13 leaves the task's words");
    expect(zp_edit(lend(), WORD_LESS, ZP_DELETE, 3, 1, 0, table, 447, fresh(), ZP_CHANGED_WORDS) == 12,
           "edit: a word less, before 13 and 14");
    expect(is_changed(12, 0) && as_lent(), "edit: a word less is left as it was");
    lend()[ZP_AT_STEPS + 1] = 300;
    expect(zp_edit(lent, ZP_TASK_WORDS, ZP_DELETE, 1, 1, 0, table, 448, fresh(), ZP_CHANGED_WORDS) == 12, "edit: step 300");
    expect(is_changed(12, 0) && differs_at(ZP_AT_STEPS + 1, 300), "edit: step 300 is left as it was");
    expect(halves_kept(table, 448), "edit: a refusal leaves the table");
}

/* The file with a further run: action 2 from facts 1 and 2 to fact 3. */
static const uint8_t two_runs[46] = {1, 4, 3, 3, 2, 0, 3, 3, 4, 0, 0, 4, 1, 1, 4, 2, 1, 4, 2, 2, 5, 0, 1,
                                     5, 2, 3, 6, 1, 1, 7, 0, 7, 1, 7, 2, 9, 2, 1, 2, 2, 3, 3, 7, 2, 8, 0};

static void reading_runs(void) {
    uint8_t room[50], ninth[13] = {1, 1, 1, 0, 9, 9, 9, 9, 9, 9, 9, 9, 8};
    memset(room, UNTOUCHED, sizeof room);
    expect(zp_read(two_runs, 45, fresh(), ZP_TASK_ANSWER_WORDS) == 0, "runs: read");
    memcpy(task, answer + 2, sizeof task);
    expect(task[ZP_AT_MANY] == 2 && task[ZP_AT_STARTS + 1] == 6 && task[ZP_AT_GOALS + 1] == 8, "runs: start and goal");
    expect(task[ZP_AT_COUNTS + 1] == 1 && task[ZP_AT_STEPS + ZP_STEPS] == 2 && task[ZP_AT_STEPS + 2] == 2, "runs: steps");
    expect(zp_write(task, ZP_TASK_WORDS, room, 45, fresh(), ZP_REPLY_WORDS) == 0 && is_reply(0, 0, 45), "runs: written");
    expect(memcmp(room, two_runs, 45) == 0 && bytes_kept(room + 45, 5), "runs: the file again");
    expect(zp_read(two_runs, 46, fresh(), ZP_TASK_ANSWER_WORDS) == 8 && answer[1] == 45, "runs: a byte after the end");
    expect(zp_record(two_runs, 45, 35, fresh(), ZP_RECORD_WORDS) == 0 && answer[2] == 9 && answer[4] == 0 &&
               answer[5] == 36,
           "runs: the record of kind 9");
    expect(zp_read(ninth, sizeof ninth, fresh(), ZP_TASK_ANSWER_WORDS) == 16 && answer[1] == 11 &&
               answer[2 + ZP_AT_MANY] == 0,
           "runs: a ninth is 16 at its kind byte");
    ninth[4] = 8;
    expect(zp_read(ninth, 5, fresh(), ZP_TASK_ANSWER_WORDS) == 0 && answer[2 + ZP_AT_MANY] == 1, "runs: one needs no kind 9");
}

static void checking_runs(void) {
    expect(zp_check(task, ZP_TASK_WORDS, 0, fresh(), ZP_CHECKED_WORDS) == 0 && is_checked(0, 3, 3, 1), "runs: check of run 0");
    expect(zp_check(task, ZP_TASK_WORDS, 1, fresh(), ZP_CHECKED_WORDS) == 0 && is_checked(0, 0, 0, 0), "runs: check of run 1");
    lend()[ZP_AT_STARTS + 1] = 2;
    expect(zp_check(lent, ZP_TASK_WORDS, 1, fresh(), ZP_CHECKED_WORDS) == 0 && is_checked(0, 2, 1, 2), "runs: its own start");
    expect(zp_check(task, ZP_TASK_WORDS, 2, fresh(), ZP_CHECKED_WORDS) == 14 && is_checked(14, 0, 0, 0), "runs: no run 2");
    expect(zp_check(task, ZP_TASK_WORDS, (size_t)-1, fresh(), ZP_CHECKED_WORDS) == 14, "runs: any number of a run");
    expect(zp_check(task, WORD_LESS, 2, fresh(), ZP_CHECKED_WORDS) == 12, "runs: 12 before 14");
    lend()[ZP_AT_MANY] = 1;
    expect(zp_check(lent, ZP_TASK_WORDS, 0, fresh(), ZP_CHECKED_WORDS) == 12, "runs: an unused run with numbers");
    lend()[ZP_AT_MANY] = 9;
    expect(zp_check(lent, ZP_TASK_WORDS, 0, fresh(), ZP_CHECKED_WORDS) == 12, "runs: nine");
}

/* Fact 2 of run 1's start: run 0 does not have it, and it keeps what it has. */
static void editing_runs(void) {
    uint16_t table[ZP_TABLE_NUMBERS], room[6];
    zp_open(task, ZP_TASK_WORDS, table, ZP_TABLE_NUMBERS, fresh(), ZP_REPLY_WORDS);
    expect(table[14] == 1 && table[15] == 224, "runs: the row of fact 2");
    expect(zp_edit(lend(), ZP_TASK_WORDS, ZP_START, 1, 2, 0, table, ZP_TABLE_NUMBERS, fresh(), ZP_CHANGED_WORDS) == 0,
           "runs: edit");
    expect(is_changed(0, 0) && differs_at(ZP_AT_STARTS + 1, 2), "runs: the start of run 1 and of no other");
    expect(table[14] == 1 && table[15] == 258, "runs: a row is over all runs");
    expect(zp_list(lent, ZP_TASK_WORDS, table, ZP_TABLE_NUMBERS, room, 6, fresh(), ZP_REPLY_WORDS) == 0 &&
               is_reply(0, 0, 2) && room[0] == 97 && room[1] == 258,
           "runs: the list");
    expect(zp_solve(lent, ZP_TASK_WORDS, room, 6, fresh(), ZP_REPLY_WORDS) == 0 && is_reply(0, 0, 2) && room[1] == 258,
           "runs: solved over both");
    expect(zp_edit(lend(), ZP_TASK_WORDS, ZP_GOAL, 0, 2, 1, table, ZP_TABLE_NUMBERS, fresh(), ZP_CHANGED_WORDS) == 0 &&
               differs_at(ZP_AT_GOALS, 12),
           "runs: the goal of run 0 and of no other");
    expect(zp_edit(lend(), ZP_TASK_WORDS, ZP_START, 2, 2, 0, table, ZP_TABLE_NUMBERS, fresh(), ZP_CHANGED_WORDS) == 14 &&
               is_changed(14, 0) && as_lent(),
           "runs: no start of run 2");
    expect(zp_edit(lend(), ZP_TASK_WORDS, ZP_NEED, 2, 2, 1, table, ZP_TABLE_NUMBERS, fresh(), ZP_CHANGED_WORDS) == 0 &&
               as_lent(),
           "runs: a need names an action");
}

/* Action 0 needs fact 0, makes 2 true and ends 1 and 4; action 1 needs 1 and makes 3 true. Both are run, 0 first, from facts
 * 1 and 4 to facts 1 to 4. */
static const uint8_t no_fact_0[] = {1, 5, 2, 0, 2, 1, 2, 4, 3, 1, 3, 2, 3, 3, 3, 4, 4, 0, 0, 4,
                                    1, 1, 5, 0, 2, 5, 1, 3, 6, 0, 1, 6, 0, 4, 7, 0, 7, 1, 8};

/* A step that can't run does nothing, and the next is tried (02, request 3). Here action 0 can't, so that at the end facts 1,
 * 3 and 4 are there: open are its need and the goal 2. If it took all its effects, only its adds or only its deletes, if the
 * goals were looked at as though it had run, or the run ended with it, the total would be 4, 1, 6, 3 and 3. */
static void rejected_steps(void) {
    expect(zp_read(no_fact_0, sizeof no_fact_0, fresh(), ZP_TASK_ANSWER_WORDS) == 0, "rejected: read");
    memcpy(task, answer + 2, sizeof task);
    expect(zp_check(task, ZP_TASK_WORDS, 0, fresh(), ZP_CHECKED_WORDS) == 0 && is_checked(0, 2, 1, 0),
           "rejected: the step does nothing, and the next one runs");
    lend()[ZP_AT_STARTS] |= 1;
    expect(zp_check(lent, ZP_TASK_WORDS, 0, fresh(), ZP_CHECKED_WORDS) == 0 && is_checked(0, 4, 2, 1),
           "rejected: with its need there it runs, and the next one can't");
}

/* Action 2 needs fact 1 under a lock, and each of the two runs has another action before it (02, request 6). */
static const uint8_t locked[] = {1, 2, 3, 2, 4, 2, 1, 10, 2, 1, 7, 0, 7, 2, 9, 7, 1, 7, 2, 8};

/* The file with one byte changed is refused with this number at this place. */
static int is_refused_lock(size_t changed, uint8_t value, size_t number, size_t place) {
    uint8_t wrong[sizeof locked];
    memcpy(wrong, locked, sizeof locked);
    wrong[changed] = value;
    return zp_read(wrong, sizeof wrong, fresh(), ZP_TASK_ANSWER_WORDS) == number && answer[1] == place &&
           answer[2 + ZP_AT_LOCKS + 2] == 0;
}

static void reading_locks(void) {
    static const uint8_t late[] = {1, 1, 1, 0, 4, 0, 0, 9, 10, 0, 0, 8};
    uint8_t room[24];
    memset(room, UNTOUCHED, sizeof room);
    expect(zp_read(locked, sizeof locked, fresh(), ZP_TASK_ANSWER_WORDS) == 0, "locks: read");
    memcpy(task, answer + 2, sizeof task);
    expect(task[ZP_AT_NEEDS + 2] == 2 && task[ZP_AT_LOCKS + 2] == 2 && task[ZP_AT_DELETES + 2] == 0, "locks: the need's lock");
    expect(task[ZP_AT_LOCKS] == 0 && task[ZP_AT_LOCKS + 1] == 0 && task[ZP_AT_MANY] == 2, "locks: no other");
    expect(zp_write(task, ZP_TASK_WORDS, room, sizeof room, fresh(), ZP_REPLY_WORDS) == 0 && is_reply(0, 0, sizeof locked) &&
               memcmp(room, locked, sizeof locked) == 0 && bytes_kept(room + sizeof locked, 4),
           "locks: the file again");
    expect(zp_record(locked, sizeof locked, 7, fresh(), ZP_RECORD_WORDS) == 0 && answer[2] == 10 && answer[4] == 2 &&
               answer[5] == 10,
           "locks: the record of kind 10");
    expect(is_refused_lock(9, 0, 18, 7) && is_refused_lock(8, 0, 18, 7), "locks: on no need, 18 at the record's start");
    expect(is_refused_lock(9, 2, 5, 9) && is_refused_lock(8, 3, 5, 8), "locks: 5 before 18");
    expect(zp_read(late, sizeof late, fresh(), ZP_TASK_ANSWER_WORDS) == 6 && answer[1] == 8, "locks: after kind 9");
    lend()[ZP_AT_LOCKS] = 1;
    expect(zp_check(lent, ZP_TASK_WORDS, 0, fresh(), ZP_CHECKED_WORDS) == 12, "locks: on no need, not well formed");
}

/* Without the lock the shortest list drops the need, 162; with it each of the other actions has to add the fact. */
static void solving_under_locks(void) {
    static const uint16_t drop[1] = {162};
    uint16_t room[6], table[ZP_TABLE_NUMBERS];
    lend()[ZP_AT_LOCKS + 2] = 0;
    expect(zp_solve(lent, ZP_TASK_WORDS, room, 6, fresh(), ZP_REPLY_WORDS) == 0 && is_reply(0, 0, 1) && room[0] == 162,
           "locks: without one the need is dropped");
    expect(zp_apply(lent, ZP_TASK_WORDS, drop, 1, fresh(), ZP_CHANGED_WORDS) == 0 && lent[ZP_AT_NEEDS + 2] == 0,
           "locks: and the drop applied");
    expect(zp_solve(task, ZP_TASK_WORDS, room, 6, fresh(), ZP_REPLY_WORDS) == 0 && is_reply(0, 0, 2) && room[0] == 128 &&
               room[1] == 129,
           "locks: another list");
    expect(zp_apply(lend(), ZP_TASK_WORDS, drop, 1, fresh(), ZP_CHANGED_WORDS) == 15 && is_changed(15, 0) && as_lent(),
           "locks: a drop under one is 15, and the task's words are left");
    expect(zp_apply(lend(), ZP_TASK_WORDS, room, 2, fresh(), ZP_CHANGED_WORDS) == 0 && lent[ZP_AT_NEEDS + 2] == 2 &&
               lent[ZP_AT_LOCKS + 2] == 2,
           "locks: the list applied leaves the need and its lock");
    lend()[ZP_AT_STEPS] = 2;
    expect(zp_solve(lent, ZP_TASK_WORDS, room, 6, fresh(), ZP_REPLY_WORDS) == 9 && is_reply(9, 0, 0),
           "locks: at a run's first step, 9");
    expect(zp_open(lent, ZP_TASK_WORDS, table, 448, fresh(), ZP_REPLY_WORDS) == 0 && table[7] == 8 && table[0] == 0,
           "locks: and 8 in the fact's row");
}

/* The lock taken off and set again, with the row of fact 1. */
static void editing_locks(void) {
    uint16_t table[ZP_TABLE_NUMBERS];
    memset(table, UNTOUCHED, sizeof table);
    expect(zp_edit(lend(), ZP_TASK_WORDS, ZP_LOCK, 2, 1, 0, table, 448, fresh(), ZP_CHANGED_WORDS) == 0 && is_changed(0, 0) &&
               differs_at(ZP_AT_LOCKS + 2, 0),
           "locks: one cleared");
    expect(table[7] == 1 && table[8] == 162 && halves_kept(table, 7) && halves_kept(table + 14, 434), "locks: its row");
    expect(zp_edit(lent, ZP_TASK_WORDS, ZP_LOCK, 0, 1, 0, table, 448, fresh(), ZP_CHANGED_WORDS) == 0 &&
               differs_at(ZP_AT_LOCKS + 2, 0),
           "locks: none there cleared");
    expect(zp_edit(lent, ZP_TASK_WORDS, ZP_LOCK, 2, 1, 1, table, 448, fresh(), ZP_CHANGED_WORDS) == 0 && as_lent(),
           "locks: set again");
    expect(table[7] == 2 && table[8] == 128 && table[9] == 129, "locks: its row again");
    memset(table, UNTOUCHED, sizeof table);
    expect(zp_edit(lent, ZP_TASK_WORDS, ZP_NEED, 2, 1, 0, table, 448, fresh(), ZP_CHANGED_WORDS) == 18 && is_changed(18, 0) &&
               as_lent(),
           "locks: a need under one is not cleared");
    expect(zp_edit(lent, ZP_TASK_WORDS, ZP_LOCK, 0, 1, 1, table, 448, fresh(), ZP_CHANGED_WORDS) == 18 && is_changed(18, 0) &&
               as_lent(),
           "locks: none on a cell that isn't a need");
    expect(zp_edit(lent, ZP_TASK_WORDS, ZP_LOCK, 3, 1, 1, table, 448, fresh(), ZP_CHANGED_WORDS) == 14 &&
               zp_edit(lent, ZP_TASK_WORDS, ZP_LOCK, 0, 1, 1, table, 447, fresh(), ZP_CHANGED_WORDS) == 13,
           "locks: 13 and 14 before 18");
    expect(halves_kept(table, 448), "locks: 18 leaves the table");
    expect(zp_edit(lent, ZP_TASK_WORDS, ZP_LOCK, 2, 1, 0, table, 448, fresh(), ZP_CHANGED_WORDS) == 0 &&
               zp_edit(lent, ZP_TASK_WORDS, ZP_NEED, 2, 1, 0, table, 448, fresh(), ZP_CHANGED_WORDS) == 0 && table[7] == 0,
           "locks: first the lock, then the need");
}

static void listing_runs(void) {
    static const char text[] =
        "task 4 3 3 4\nopen 3 3 1\nopen 0 0 0\nset 2\ndrop-delete 1 1\nadd-effect 0 2\nend\n";
    uint8_t letters[ZP_LISTING_BYTES];
    expect(zp_listing(two_runs, 45, letters, sizeof letters, fresh(), ZP_REPLY_WORDS) == 0 &&
               is_reply(0, 0, sizeof text - 1) && memcmp(letters, text, sizeof text - 1) == 0,
           "runs: one open line each");
}

static void listing(void) {
    uint8_t room[1000];
    memset(room, UNTOUCHED, sizeof room);
    expect(zp_listing(file, sizeof file, room, 3, fresh(), ZP_REPLY_WORDS) == 11 && is_reply(11, 0, 0), "listing: short room");
    expect(bytes_kept(room, sizeof room), "listing: a refusal writes nothing");
    expect(zp_listing(NULL, 0, room, sizeof room, fresh(), ZP_REPLY_WORDS) == 0 && memcmp(room, "refused 1 0\n", 12) == 0,
           "listing: nothing is refused 1 0");
    expect(sizeof room > ZP_LISTING_BYTES && zp_listing(file, 36, room, ZP_LISTING_BYTES, fresh(), ZP_REPLY_WORDS) == 0,
           "listing: the named room is enough");
    expect(bytes_kept(room + ZP_LISTING_BYTES, sizeof room - ZP_LISTING_BYTES), "listing: nothing after the room");
}

/* ---- the table as PDDL (02, request 4; docs/PDDL.md) */

#define OPENING "(define (problem run)\n  (:domain stage)\n  (:init\n"

/* What the texts of the story have, once its table is mended. */
static const char domain[] =
    "(define (domain stage)\n  (:requirements :strips)\n  (:predicates\n    (f0)\n    (f1)\n    (f2)\n    (f3)\n  )\n"
    "  (:action a0\n   :parameters ()\n   :precondition (and\n    (f0)\n   )\n   :effect (and\n    (f1)\n    (f2)\n   )\n  )\n"
    "  (:action a1\n   :parameters ()\n   :precondition (and\n    (f1)\n   )\n   :effect (and\n   )\n  )\n"
    "  (:action a2\n   :parameters ()\n   :precondition (and\n    (f1)\n    (f2)\n   )\n   :effect (and\n    (f3)\n   )\n  )\n"
    ")\n";
static const char problem[] = OPENING "    (f0)\n  )\n  (:goal (and\n    (f3)\n  ))\n)\n";
static const char second_problem[] = OPENING "    (f1)\n    (f2)\n  )\n  (:goal (and\n    (f3)\n  ))\n)\n";

enum { DOMAIN = sizeof domain - 1, PROBLEM = sizeof problem - 1, SECOND_PROBLEM = sizeof second_problem - 1 };

static uint8_t text[ZP_DOMAIN_BYTES + 1];

static int is_problem(size_t number, size_t place, uint64_t start, uint64_t goal) {
    return answer[0] == number && answer[1] == place && answer[2] == start && answer[3] == goal && kept(ZP_PROBLEM_WORDS);
}

/* Room that nothing was written in yet. */
static uint8_t *blank(void) {
    memset(text, UNTOUCHED, sizeof text);
    return text;
}

/* The room holds this text from its first place on, and nothing beside. */
static int holds(const char *bytes, size_t length) {
    return is_reply(0, 0, length) && memcmp(text, bytes, length) == 0 && bytes_kept(text + length, sizeof text - length);
}

/* The run's problem text is read back, and the run put to the task `built` with the steps that it has in `task`. */
static void put_together(uint64_t *built, size_t run) {
    size_t count = task[ZP_AT_COUNTS + run];
    uint8_t steps[ZP_STEPS];
    for (size_t i = 0; i < count; i++)
        steps[i] = (uint8_t)task[ZP_AT_STEPS + ZP_STEPS * run + i];
    expect(zp_write_problem(task, ZP_TASK_WORDS, run, blank(), sizeof text, fresh(), ZP_REPLY_WORDS) == 0 &&
               (run == 0 ? holds(problem, PROBLEM) : holds(second_problem, SECOND_PROBLEM)),
           "pddl: the problem text, task before run before room before answer");
    size_t length = answer[2];
    expect(zp_read_problem(text, length, built[ZP_AT_FACTS], fresh(), ZP_PROBLEM_WORDS) == 0 &&
               is_problem(0, 0, run == 0 ? 1 : 6, 8),
           "pddl: a problem read, text before facts before answer, start before goal");
    uint64_t start = answer[2], goal = answer[3];
    expect(zp_add_run(built, ZP_TASK_WORDS, start, goal, steps, count, fresh(), ZP_CHANGED_WORDS) == 0 && is_changed(0, 0),
           "pddl: the run put to the task");
}

/* A task file through a whole morning: solved, mended, written as PDDL, read back and put together again. Every run is valid. */
static void morning(const uint8_t *bytes, size_t length) {
    static uint64_t built[ZP_TASK_WORDS];
    uint16_t list[ZP_LIST_NUMBERS];
    zp_read(bytes, length, fresh(), ZP_TASK_ANSWER_WORDS);
    memcpy(task, answer + 2, sizeof task);
    expect(zp_solve(task, ZP_TASK_WORDS, list, ZP_LIST_NUMBERS, fresh(), ZP_REPLY_WORDS) == 0, "pddl: solved");
    size_t repairs = answer[2];
    expect(zp_apply(task, ZP_TASK_WORDS, list, repairs, fresh(), ZP_CHANGED_WORDS) == 0, "pddl: mended");
    expect(zp_write_domain(task, ZP_TASK_WORDS, blank(), sizeof text, fresh(), ZP_REPLY_WORDS) == 0 && holds(domain, DOMAIN),
           "pddl: the domain text, task before room before answer");
    expect(zp_read_domain(text, DOMAIN, task[ZP_AT_LIMIT], fresh(), ZP_TASK_ANSWER_WORDS) == 0 && answer[1] == 0 &&
               kept(ZP_TASK_ANSWER_WORDS),
           "pddl: a domain read, text before limit before answer");
    memcpy(built, answer + 2, sizeof built);
    expect(memcmp(built, task, ZP_AT_MANY * sizeof *task) == 0, "pddl: the table again");
    for (size_t i = ZP_AT_MANY; i < ZP_TASK_WORDS; i++)
        expect(built[i] == 0, "pddl: a domain has no runs");
    expect(zp_check(built, ZP_TASK_WORDS, 0, fresh(), ZP_CHECKED_WORDS) == 12, "pddl: without a run it is no task");
    for (size_t run = 0; run < task[ZP_AT_MANY]; run++)
        put_together(built, run);
    expect(memcmp(built, task, sizeof task) == 0, "pddl: the mended task again, to the word");
    for (size_t run = 0; run < task[ZP_AT_MANY]; run++)
        expect(zp_check(built, ZP_TASK_WORDS, run, fresh(), ZP_CHECKED_WORDS) == 0 && is_checked(0, 0, 0, 0),
               "pddl: every run is valid");
}

/* Of the mended task with two runs: 12, then 14, then 11, and nothing written. */
static void refused_writing(void) {
    blank();
    expect(zp_write_domain(task, WORD_LESS, text, sizeof text, fresh(), ZP_REPLY_WORDS) == 12 && is_reply(12, 0, 0),
           "write_domain: a word less");
    expect(zp_write_domain(lend(), WORD_MORE, NULL, 0, fresh(), ZP_REPLY_WORDS) == 12, "write_domain: 12 before 11");
    lend()[ZP_AT_MANY] = 0;
    expect(zp_write_domain(lent, ZP_TASK_WORDS, text, sizeof text, fresh(), ZP_REPLY_WORDS) == 12, "write_domain: no run");
    expect(zp_write_domain(task, ZP_TASK_WORDS, text, DOMAIN - 1, fresh(), ZP_REPLY_WORDS) == 11 && is_reply(11, 0, 0),
           "write_domain: a byte too short");
    expect(zp_write_domain(task, ZP_TASK_WORDS, NULL, 0, fresh(), ZP_REPLY_WORDS) == 11, "write_domain: no room");
    expect(zp_write_problem(task, WORD_LESS, 2, NULL, 0, fresh(), ZP_REPLY_WORDS) == 12 && is_reply(12, 0, 0),
           "write_problem: 12 before 14 and 11");
    expect(zp_write_problem(task, ZP_TASK_WORDS, 2, text, sizeof text, fresh(), ZP_REPLY_WORDS) == 14 && is_reply(14, 0, 0),
           "write_problem: no such run");
    expect(zp_write_problem(task, ZP_TASK_WORDS, (size_t)-1, NULL, 0, fresh(), ZP_REPLY_WORDS) == 14,
           "write_problem: 14 before 11");
    expect(zp_write_problem(task, ZP_TASK_WORDS, 0, text, PROBLEM - 1, fresh(), ZP_REPLY_WORDS) == 11 && is_reply(11, 0, 0),
           "write_problem: a byte too short");
    expect(bytes_kept(text, sizeof text), "write_domain, write_problem: a refusal writes nothing");
    expect(zp_write_domain(task, ZP_TASK_WORDS, text, DOMAIN, fresh(), ZP_REPLY_WORDS) == 0 && holds(domain, DOMAIN),
           "write_domain: just enough");
    blank();
    expect(zp_write_problem(task, ZP_TASK_WORDS, 0, text, PROBLEM, fresh(), ZP_REPLY_WORDS) == 0 && holds(problem, PROBLEM),
           "write_problem: just enough");
}

/* The text is outside the layout from this place on: 17 there, and zeros. */
static int no_domain(const uint8_t *bytes, size_t length, size_t place) {
    int zeros = zp_read_domain(bytes, length, 3, fresh(), ZP_TASK_ANSWER_WORDS) == 17;
    for (size_t i = 2; i < ZP_TASK_ANSWER_WORDS; i++)
        zeros = zeros && answer[i] == 0;
    return zeros && answer[0] == 17 && answer[1] == place && kept(ZP_TASK_ANSWER_WORDS);
}

static int no_problem(const void *bytes, size_t length, size_t facts, size_t place) {
    return zp_read_problem(bytes, length, facts, fresh(), ZP_PROBLEM_WORDS) == 17 && is_problem(17, place, 0, 0);
}

/* Every text with one byte changed, every text that is cut, and one with a byte more. */
static void wrong_domains(void) {
    int changed = 1, cut = 1;
    memcpy(text, domain, DOMAIN);
    for (size_t i = 0; i < DOMAIN; i++) {
        text[i] = '~';
        changed = changed && no_domain(text, DOMAIN, i);
        text[i] = (uint8_t)domain[i];
        cut = cut && no_domain(text, i, i);
    }
    expect(changed, "read_domain: 17 at the byte that is changed");
    expect(cut, "read_domain: 17 at the end of what is cut");
    text[DOMAIN] = '\n';
    expect(no_domain(text, DOMAIN + 1, DOMAIN), "read_domain: 17 at a byte more");
    expect(no_domain(NULL, 0, 0), "read_domain: nothing is 17 at 0");
}

static void wrong_problems(void) {
    int changed = 1, cut = 1;
    memcpy(text, problem, PROBLEM);
    for (size_t i = 0; i < PROBLEM; i++) {
        text[i] = '~';
        changed = changed && no_problem(text, PROBLEM, 4, i);
        text[i] = (uint8_t)problem[i];
        cut = cut && no_problem(text, i, 4, i);
    }
    expect(changed, "read_problem: 17 at the byte that is changed");
    expect(cut, "read_problem: 17 at the end of what is cut");
    text[PROBLEM] = '\n';
    expect(no_problem(text, PROBLEM + 1, 4, PROBLEM), "read_problem: 17 at a byte more");
    expect(no_problem(domain, DOMAIN, 4, 9), "read_problem: a domain is no problem");
    expect(zp_read_problem(text, PROBLEM, 0, fresh(), ZP_PROBLEM_WORDS) == 4 && is_problem(4, 0, 0, 0), "read_problem: no facts");
    expect(zp_read_problem(text, PROBLEM, 65, fresh(), ZP_PROBLEM_WORDS) == 4 && is_problem(4, 0, 0, 0), "read_problem: 65 facts");
    expect(zp_read_problem(NULL, 0, (size_t)-1, fresh(), ZP_PROBLEM_WORDS) == 4, "read_problem: 4 before 17");
}

/* One name begins another: f1 and f10. The facts of the start stand from byte 49 on, those of the domain from 64. */
static void names_that_begin_alike(void) {
    static const char ten[] = OPENING "    (f10)\n  )\n  (:goal (and\n    (f1)\n  ))\n)\n";
    static const char back[] = OPENING "    (f10)\n    (f1)\n  )\n  (:goal (and\n  ))\n)\n";
    static const char both[] = OPENING "    (f1)\n    (f10)\n  )\n  (:goal (and\n  ))\n)\n";
    static const char zero[] = OPENING "    (f01)\n  )\n  (:goal (and\n  ))\n)\n";
    expect(zp_read_problem((const uint8_t *)ten, sizeof ten - 1, 11, fresh(), ZP_PROBLEM_WORDS) == 0 &&
               is_problem(0, 0, 1 << 10, 1 << 1),
           "names: f10 of 11 facts");
    expect(zp_read_problem((const uint8_t *)both, sizeof both - 1, 64, fresh(), ZP_PROBLEM_WORDS) == 0 &&
               is_problem(0, 0, (1 << 1) + (1 << 10), 0),
           "names: f1 and f10");
    expect(no_problem(ten, sizeof ten - 1, 10, 49 + 7), "names: f10 of 10 facts is 17 at its 0");
    expect(no_problem(back, sizeof back - 1, 11, 49 + 10 + 2), "names: after f10 of 11 facts there is none");
    expect(no_problem(back, sizeof back - 1, 12, 49 + 10 + 7), "names: f1 after f10 begins as f11 does");
    expect(no_problem(zero, sizeof zero - 1, 64, 49 + 7), "names: no leading zero");
    memcpy(text, domain, DOMAIN);
    text[64 + 9 + 7] = '0';
    expect(no_domain(text, DOMAIN, 64 + 9 + 7), "names: the second fact is not f10");
}

/* The greatest task: each text fills the room that has its name. An add that is deleted too is written in both places. */
static void greatest_texts(void) {
    static uint64_t greatest[ZP_TASK_WORDS];
    uint64_t all = ~(uint64_t)0;
    greatest[ZP_AT_FACTS] = 64;
    greatest[ZP_AT_ACTIONS] = ZP_ACTIONS;
    for (size_t i = 0; i < 3 * ZP_ACTIONS; i++)
        greatest[ZP_AT_NEEDS + i] = all;
    expect(zp_add_run(greatest, ZP_TASK_WORDS, all, all, NULL, 0, fresh(), ZP_CHANGED_WORDS) == 0, "greatest: a run without steps");
    expect(zp_write_domain(greatest, ZP_TASK_WORDS, text, ZP_DOMAIN_BYTES - 1, fresh(), ZP_REPLY_WORDS) == 11, "greatest: 11");
    expect(zp_write_domain(greatest, ZP_TASK_WORDS, blank(), ZP_DOMAIN_BYTES, fresh(), ZP_REPLY_WORDS) == 0 &&
               is_reply(0, 0, ZP_DOMAIN_BYTES) && text[ZP_DOMAIN_BYTES] == UNTOUCHED,
           "greatest: the domain text fills its room");
    expect(zp_read_domain(text, ZP_DOMAIN_BYTES, 0, fresh(), ZP_TASK_ANSWER_WORDS) == 0 &&
               memcmp(answer + 2, greatest, ZP_AT_MANY * sizeof *greatest) == 0,
           "greatest: the table again");
    expect(zp_write_problem(greatest, ZP_TASK_WORDS, 0, blank(), ZP_PROBLEM_BYTES, fresh(), ZP_REPLY_WORDS) == 0 &&
               is_reply(0, 0, ZP_PROBLEM_BYTES) && bytes_kept(text + ZP_PROBLEM_BYTES, sizeof text - ZP_PROBLEM_BYTES),
           "greatest: the problem text fills its room");
    expect(zp_read_problem(text, ZP_PROBLEM_BYTES, 64, fresh(), ZP_PROBLEM_WORDS) == 0 && is_problem(0, 0, all, all),
           "greatest: start and goal again");
}

/* With locks and eight runs of 64 steps its file fills the room that has its name; the domain text carries no locks (02,
 * request 6). */
static void greatest_file(void) {
    static uint8_t bytes[ZP_FILE_BYTES + 1], steps[ZP_STEPS];
    uint64_t all = ~(uint64_t)0;
    memset(task, 0, sizeof task);
    task[ZP_AT_FACTS] = 64;
    task[ZP_AT_ACTIONS] = ZP_ACTIONS;
    for (size_t i = ZP_AT_NEEDS; i < ZP_AT_MANY; i++)
        task[i] = all;
    for (size_t run = 0; run < ZP_RUNS; run++)
        expect(zp_add_run(task, ZP_TASK_WORDS, all, all, steps, ZP_STEPS, fresh(), ZP_CHANGED_WORDS) == 0, "greatest: a run");
    bytes[ZP_FILE_BYTES] = UNTOUCHED;
    expect(zp_write(task, ZP_TASK_WORDS, bytes, sizeof bytes, fresh(), ZP_REPLY_WORDS) == 0 && is_reply(0, 0, ZP_FILE_BYTES) &&
               bytes[ZP_FILE_BYTES] == UNTOUCHED,
           "greatest: the file fills its room");
    expect(zp_read(bytes, ZP_FILE_BYTES, fresh(), ZP_TASK_ANSWER_WORDS) == 0 && memcmp(answer + 2, task, sizeof task) == 0,
           "greatest: the task again");
    expect(zp_write_domain(task, ZP_TASK_WORDS, text, ZP_DOMAIN_BYTES, fresh(), ZP_REPLY_WORDS) == 0, "greatest: its text");
    expect(zp_read_domain(text, ZP_DOMAIN_BYTES, 0, fresh(), ZP_TASK_ANSWER_WORDS) == 0 &&
               memcmp(answer + 2, task, ZP_AT_LOCKS * sizeof *task) == 0,
           "greatest: needs, adds and deletes again");
    for (size_t i = ZP_AT_LOCKS; i < ZP_TASK_WORDS; i++)
        expect(answer[2 + i] == 0, "greatest: no locks and no runs");
}

/* A run is put to the task lent: 12 at 0, and every word as it was. */
static int no_run(size_t words, uint64_t start, uint64_t goal, size_t count, uint8_t step) {
    uint8_t steps[ZP_STEPS + 1];
    memset(steps, step, sizeof steps);
    return zp_add_run(lend(), words, start, goal, steps, count, fresh(), ZP_CHANGED_WORDS) == 12 && is_changed(12, 0) && as_lent();
}

static void adding_runs(void) {
    static const uint8_t steps[2] = {2, 1};
    expect(zp_add_run(lend(), ZP_TASK_WORDS, 6, 8, steps, 2, fresh(), ZP_CHANGED_WORDS) == 0 && is_changed(0, 0), "add_run: added");
    expect(lent[ZP_AT_MANY] == 3 && lent[ZP_AT_STARTS + 2] == 6 && lent[ZP_AT_GOALS + 2] == 8 && lent[ZP_AT_COUNTS + 2] == 2,
           "add_run: task before start before goal before steps before answer");
    expect(lent[ZP_AT_STEPS + 2 * ZP_STEPS] == 2 && lent[ZP_AT_STEPS + 2 * ZP_STEPS + 1] == 1, "add_run: its steps");
    expect(lent[ZP_TASK_WORDS] == UNTOUCHED, "add_run: nothing behind the task's words");
    expect(no_run(WORD_LESS, 6, 8, 1, 2) && no_run(WORD_MORE, 6, 8, 1, 2), "add_run: a word less and a word more");
    expect(no_run(ZP_TASK_WORDS, 16, 8, 1, 2), "add_run: a start outside");
    expect(no_run(ZP_TASK_WORDS, 6, 16, 1, 2), "add_run: a goal outside");
    expect(no_run(ZP_TASK_WORDS, 6, 8, 1, 3), "add_run: a step that is no action");
    expect(no_run(ZP_TASK_WORDS, 6, 8, ZP_STEPS + 1, 2), "add_run: 65 steps");
    expect(!no_run(ZP_TASK_WORDS, 6, 8, ZP_STEPS, 2), "add_run: 64 steps are a run");
    expect(zp_add_run(NULL, 0, 0, 0, NULL, 0, fresh(), ZP_CHANGED_WORDS) == 12, "add_run: no words");
    lend()[ZP_AT_LIMIT] = 7;
    expect(zp_add_run(lent, ZP_TASK_WORDS, 6, 8, steps, 2, fresh(), ZP_CHANGED_WORDS) == 12 && differs_at(ZP_AT_LIMIT, 7),
           "add_run: a limit out of range");
    lend()[ZP_AT_STEPS + 9] = 300;
    expect(zp_add_run(lent, ZP_TASK_WORDS, 6, 8, steps, 2, fresh(), ZP_CHANGED_WORDS) == 12 && differs_at(ZP_AT_STEPS + 9, 300),
           "add_run: step 300 is left as it was");
    lend();
    for (size_t run = task[ZP_AT_MANY]; run < ZP_RUNS; run++)
        expect(zp_add_run(lent, ZP_TASK_WORDS, 0, 0, NULL, 0, fresh(), ZP_CHANGED_WORDS) == 0, "add_run: up to eight");
    memcpy(task, lent, sizeof task);
    expect(no_run(ZP_TASK_WORDS, 0, 0, 0, 0), "add_run: no ninth");
}

int main(void) {
    read_and_records();
    wrong_bytes();
    order_of_reading_and_writing();
    order_of_changing();
    order_of_solving();
    short_answers(1);
    short_answers(ZP_TASK_ANSWER_WORDS);
    write_and_check();
    solve_and_apply();
    sittings_of_the_answer();
    sittings_of_any_lists();
    sittings_that_share();
    session();
    refused_edits();
    listing();
    reading_runs();
    checking_runs();
    editing_runs();
    listing_runs();
    rejected_steps();
    morning(file, sizeof file);
    morning(two_runs, 45);
    refused_writing();
    wrong_domains();
    wrong_problems();
    names_that_begin_alike();
    greatest_texts();
    adding_runs();
    reading_locks();
    solving_under_locks();
    editing_locks();
    greatest_file();
    printf(failures == 0 ? "c: every expectation holds\n" : "c: %d expectations failed\n", failures);
    return failures != 0;
}
