//! A small test of the Rust side (zernoplysk.rs): 01's 36-byte file through every function, linked with the library and run.
//! It prints what fails and ends with status 1 if anything did. It stands on `core` alone, and is compiled with
//! optimization, so that it needs nothing of Rust's own library where it is linked.
#![no_std]

#[path = "zernoplysk.rs"]
pub mod zernoplysk;

use zernoplysk::*;

extern "C" {
    fn write(to: i32, bytes: *const u8, length: usize) -> isize;
    fn abort() -> !;
}

#[panic_handler]
fn on_panic(_: &core::panic::PanicInfo) -> ! {
    // SAFETY: it ends the program.
    unsafe { abort() }
}

/// Rust's code names it, and nothing here unwinds.
#[no_mangle]
pub extern "C" fn rust_eh_personality() {}

fn say(what: &str) {
    // SAFETY: the pointer is good for the length.
    unsafe { write(1, what.as_ptr(), what.len()) };
}

fn expect(holds: bool, what: &str) -> i32 {
    if !holds {
        say("failed: ");
        say(what);
        say("\n");
    }
    i32::from(!holds)
}

const FILE: [u8; 36] = [
    1, 4, 3, 3, 2, 0, 3, 3, 4, 0, 0, 4, 1, 1, 4, 2, 1, 4, 2, 2, 5, 0, 1, 5, 2, 3, 6, 1, 1, 7, 0, 7, 1, 7, 2, 8,
];
/// The same with its last step 3, where there are three actions.
const STRAY: [u8; 36] = [
    1, 4, 3, 3, 2, 0, 3, 3, 4, 0, 0, 4, 1, 1, 4, 2, 1, 4, 2, 2, 5, 0, 1, 5, 2, 3, 6, 1, 1, 7, 0, 7, 1, 7, 3, 8,
];
const TEXT: &str = "task 4 3 3 3\nopen 3 3 1\nset 2\ndrop-delete 1 1\nadd-effect 0 2\nend\n";

/// Where the needs of action 2 stand among a task's words.
const NEEDS_OF_2: usize = 5;

/// Whether the first elements are these.
fn opens<T: PartialEq>(all: &[T], first: &[T]) -> bool {
    all.iter().zip(first).filter(|(a, b)| a == b).count() == first.len()
}

fn files(task: &mut [u64; TASK_WORDS]) -> i32 {
    let mut answer = [7; TASK_ANSWER_WORDS];
    let mut room = [7; FILE_BYTES];
    let mut failed = expect(read(&FILE, &mut answer) == 0 && opens(&answer, &[0, 0, 4, 3, 3]), "read");
    for (word, read) in task.iter_mut().zip(answer.iter().skip(2)) {
        *word = *read;
    }
    failed += expect(record(&FILE, 8, &mut answer) == 0 && opens(&answer, &[0, 0, 4, 9, 2, 11]), "record");
    failed += expect(write_file(task, &mut room, &mut answer) && opens(&room, &FILE), "write");
    failed += expect(check(task, 0, &mut answer) == 0 && opens(&answer, &[0, 0, 3, 3, 1]), "check");
    failed += expect(check(task, 1, &mut answer) == 14 && opens(&answer, &[14, 0, 0, 0, 0]), "check: no such run");
    failed += expect(read(&STRAY, &mut answer) == 5 && opens(&answer, &[5, 34, 0]), "read: the byte that is wrong");
    failed + expect(read(&FILE, &mut []) == ANSWER_TOO_SHORT, "an answer without room")
}

fn write_file(task: &[u64], room: &mut [u8], answer: &mut [u64]) -> bool {
    zernoplysk::write(task, room, answer) == 0 && opens(answer, &[0, 0, FILE.len() as u64])
}

fn lists(task: &[u64; TASK_WORDS]) -> i32 {
    let (mut answer, mut room, mut text) = ([7; REPLY_WORDS], [7; LIST_NUMBERS], [7; LISTING_BYTES]);
    let mut mended = *task;
    let mut failed = expect(solve(task, &mut room, &mut answer) == 0 && answer == [0, 0, 2], "solve");
    failed += expect(opens(&room, &[97, 224, 7, 7, 7, 7]), "solve: the list and nothing beside");
    failed += expect(apply(&mut mended, &[97, 224], &mut answer) == 0 && mended != *task, "apply");
    failed += expect(solve(&mended, &mut room, &mut answer) == 0 && answer == [0, 0, 0], "apply: nothing is left to repair");
    failed += expect(listing(&FILE, &mut text, &mut answer) == 0 && opens(&text, TEXT.as_bytes()), "listing");
    failed + expect(answer == [0, 0, TEXT.len() as u64], "listing: its length")
}

/// The answer by parts (02, request 7): this repair in the morning, which stands at this place of the whole list, and the rest in
/// the afternoon, on the words that the morning left.
fn sittings(task: &[u64; TASK_WORDS], part: u16, place: u64, rest: u16) -> i32 {
    let (mut answer, mut room) = ([7; CHECKED_WORDS], [7; LIST_NUMBERS]);
    let mut words = *task;
    let mut failed = expect(apply(&mut words, &[part], &mut answer) == 0 && words != *task, "sittings: a part in the morning");
    let morning = words;
    failed += expect(apply(&mut words, &[], &mut answer) == 0 && words == morning, "sittings: the empty list changes no word");
    failed += expect(solve(&words, &mut room[..0], &mut answer) == 11 && room == [7; LIST_NUMBERS], "sittings: 11 in between");
    failed += expect(solve(&words, &mut room, &mut answer) == 0 && opens(&answer, &[0, 0, 1]), "sittings: answered in between");
    failed += expect(room == [rest, 7, 7, 7, 7, 7], "sittings: the rest and nothing beside");
    failed += expect(apply(&mut words, &[97, 224], &mut answer) == 15, "sittings: a number shared");
    failed += expect(opens(&answer, &[15, place]) && words == morning, "sittings: at its place, and the morning's words stay");
    failed += expect(apply(&mut words, &[rest], &mut answer) == 0 && words == mended(task), "sittings: the whole list's words");
    failed + expect(check(&words, 0, &mut answer) == 0 && opens(&answer, &[0, 0, 0, 0, 0]), "sittings: the run is valid")
}

fn session(task: &mut [u64; TASK_WORDS]) -> i32 {
    let (mut answer, mut room, mut table) = ([7; REPLY_WORDS], [7; LIST_NUMBERS], [7; TABLE_NUMBERS]);
    let as_read = *task;
    let mut failed = expect(open(task, &mut table, &mut answer) == 0 && answer == [0, 0, 448], "open");
    failed += expect(edit(task, DELETE, 1, 1, 0, &mut table, &mut answer) == 0 && *task != as_read, "edit: 0 is absent");
    failed += expect(list(task, &table, &mut room, &mut answer) == 0 && answer == [0, 0, 1], "list");
    failed += expect(opens(&room, &[224, 7]), "list: what is left");
    failed += expect(edit(task, DELETE, 1, 1, 2, &mut table, &mut answer) == 0 && *task == as_read, "edit: 2 is present");
    failed += expect(edit(task, 6, 1, 1, 1, &mut table, &mut answer) == 14 && *task == as_read, "edit: no such kind");
    failed += expect(list(task, &table, &mut room, &mut answer) == 0 && opens(&room, &[97, 224]), "list: as it was");
    // In any other order the numbers 0, 2, 3 and 1 name another cell or another value.
    failed += expect(edit(task, NEED, 2, 3, 1, &mut table, &mut answer) == 0, "edit: in its order");
    failed + expect(task.iter().zip(&as_read).filter(|(a, b)| a != b).count() == 1 && task[NEEDS_OF_2] == 14, "edit: the cell")
}

/// The file with a further run: action 2 from facts 1 and 2 to fact 3.
const TWO_RUNS: [u8; 45] = [
    1, 4, 3, 3, 2, 0, 3, 3, 4, 0, 0, 4, 1, 1, 4, 2, 1, 4, 2, 2, 5, 0, 1, 5, 2, 3, 6, 1, 1, 7, 0, 7, 1, 7, 2, 9, 2, 1, 2, 2,
    3, 3, 7, 2, 8,
];

/// Where the start of run 1 stands among a task's words.
const START_OF_1: usize = 133;

fn runs() -> i32 {
    let (mut answer, mut table) = ([7; TASK_ANSWER_WORDS], [7; TABLE_NUMBERS]);
    let mut task = [0; TASK_WORDS];
    let mut failed = expect(read(&TWO_RUNS, &mut answer) == 0, "runs: read");
    for (word, read) in task.iter_mut().zip(answer.iter().skip(2)) {
        *word = *read;
    }
    let as_read = task;
    failed += expect(check(&task, 0, &mut answer) == 0 && opens(&answer, &[0, 0, 3, 3, 1]), "runs: check of run 0");
    failed += expect(check(&task, 1, &mut answer) == 0 && opens(&answer, &[0, 0, 0, 0, 0]), "runs: check of run 1");
    failed += expect(check(&task, 2, &mut answer) == 14, "runs: no run 2");
    failed += expect(open(&task, &mut table, &mut answer) == 0, "runs: open");
    failed += expect(edit(&mut task, START, 1, 2, 0, &mut table, &mut answer) == 0, "runs: edit");
    failed += expect(task.iter().zip(&as_read).filter(|(a, b)| a != b).count() == 1 && task[START_OF_1] == 2, "runs: the start");
    failed + expect(edit(&mut task, GOAL, 2, 2, 0, &mut table, &mut answer) == 14, "runs: no goal of run 2")
}

/// Action 0 needs fact 0, makes 2 true and ends 1 and 4; action 1 needs 1 and makes 3 true. Both are run, 0 first, from facts 1
/// and 4 to facts 1 to 4.
const NO_FACT_0: [u8; 39] = [
    1, 5, 2, 0, 2, 1, 2, 4, 3, 1, 3, 2, 3, 3, 3, 4, 4, 0, 0, 4, 1, 1, 5, 0, 2, 5, 1, 3, 6, 0, 1, 6, 0, 4, 7, 0, 7, 1, 8,
];

/// A step that can't run does nothing, and the next is tried (02, request 3): open are the need of action 0 and the goal 2. With
/// its need there the step runs, and the next one can't.
fn rejected_steps() -> i32 {
    let (mut answer, mut table) = ([7; TASK_ANSWER_WORDS], [7; TABLE_NUMBERS]);
    let mut task = [0; TASK_WORDS];
    let mut failed = expect(read(&NO_FACT_0, &mut answer) == 0, "rejected: read");
    for (word, read) in task.iter_mut().zip(answer.iter().skip(2)) {
        *word = *read;
    }
    failed += expect(check(&task, 0, &mut answer) == 0 && opens(&answer, &[0, 0, 2, 1, 0]), "rejected: it does nothing");
    failed += expect(edit(&mut task, START, 0, 0, 1, &mut table, &mut answer) == 0, "rejected: edit");
    failed + expect(check(&task, 0, &mut answer) == 0 && opens(&answer, &[0, 0, 4, 2, 1]), "rejected: it runs")
}

/// Action 2 needs fact 1 under a lock, and each of the two runs has another action before it (02, request 6).
const LOCKED: [u8; 20] = [1, 2, 3, 2, 4, 2, 1, 10, 2, 1, 7, 0, 7, 2, 9, 7, 1, 7, 2, 8];
/// The same with its lock on fact 0, which action 2 doesn't need.
const LOCK_ASTRAY: [u8; 20] = [1, 2, 3, 2, 4, 2, 1, 10, 2, 0, 7, 0, 7, 2, 9, 7, 1, 7, 2, 8];

/// Where the locks of action 2 stand among a task's words.
const LOCKS_OF_2: usize = 101;

/// Without the lock the shortest list drops the need, 162; with it each of the other actions has to add the fact.
fn locks() -> i32 {
    let (mut answer, mut table, mut room) = ([7; TASK_ANSWER_WORDS], [7; TABLE_NUMBERS], [7; LIST_NUMBERS]);
    let (mut task, mut bytes) = ([0; TASK_WORDS], [7; LOCKED.len()]);
    let mut failed = expect(read(&LOCKED, &mut answer) == 0, "locks: read");
    for (word, read) in task.iter_mut().zip(answer.iter().skip(2)) {
        *word = *read;
    }
    let as_read = task;
    failed += expect(zernoplysk::write(&task, &mut bytes, &mut answer) == 0 && bytes == LOCKED, "locks: the file again");
    failed += expect(read(&LOCK_ASTRAY, &mut answer) == 18 && opens(&answer, &[18, 7, 0]), "locks: a read's 18");
    failed += expect(solve(&task, &mut room, &mut answer) == 0 && opens(&room, &[128, 129, 7]), "locks: no need is dropped");
    failed += expect(apply(&mut task, &[162], &mut answer) == 15 && task == as_read, "locks: a drop is 15");
    failed += expect(edit(&mut task, NEED, 2, 1, 0, &mut table, &mut answer) == 18 && task == as_read, "locks: a need stays");
    failed += expect(edit(&mut task, LOCK, 0, 1, 1, &mut table, &mut answer) == 18 && task == as_read, "locks: none on no need");
    failed += expect(edit(&mut task, LOCK, 2, 1, 0, &mut table, &mut answer) == 0 && task[LOCKS_OF_2] == 0, "locks: cleared");
    failed += expect(opens(&table[7..], &[1, 162]), "locks: the row without it");
    failed + expect(edit(&mut task, LOCK, 2, 1, 1, &mut table, &mut answer) == 0 && task == as_read, "locks: set again")
}

/// The story's texts, once its table is mended (02, request 4; docs/PDDL.md).
const DOMAIN: &str = "(define (domain stage)\n  (:requirements :strips)\n  (:predicates\n    (f0)\n    (f1)\n    (f2)\n    (f3)\n  )\n  \
(:action a0\n   :parameters ()\n   :precondition (and\n    (f0)\n   )\n   :effect (and\n    (f1)\n    (f2)\n   )\n  )\n  \
(:action a1\n   :parameters ()\n   :precondition (and\n    (f1)\n   )\n   :effect (and\n   )\n  )\n  \
(:action a2\n   :parameters ()\n   :precondition (and\n    (f1)\n    (f2)\n   )\n   :effect (and\n    (f3)\n   )\n  )\n)\n";
const PROBLEM: &str = "(define (problem run)\n  (:domain stage)\n  (:init\n    (f0)\n  )\n  (:goal (and\n    (f3)\n  ))\n)\n";

/// The room holds this text from its first place on, and nothing beside.
fn holds(room: &[u8], text: &str, answer: &[u64]) -> bool {
    opens(answer, &[0, 0, text.len() as u64])
        && opens(room, text.as_bytes())
        && room.iter().skip(text.len()).all(|byte| *byte == 7)
}

/// The mended task through its texts and back: read, put together again, and its run valid.
fn texts(mended: &[u64; TASK_WORDS]) -> i32 {
    let (mut answer, mut domain, mut problem) = ([7; TASK_ANSWER_WORDS], [7; DOMAIN_BYTES], [7; PROBLEM_BYTES]);
    let mut built = [0; TASK_WORDS];
    let mut failed = expect(write_domain(mended, &mut domain, &mut answer) == 0, "texts: write_domain");
    failed += expect(holds(&domain, DOMAIN, &answer), "texts: the domain text");
    failed += expect(write_problem(mended, 0, &mut problem, &mut answer) == 0, "texts: write_problem");
    failed += expect(holds(&problem, PROBLEM, &answer), "texts: the problem text");
    failed += expect(read_problem(PROBLEM.as_bytes(), 4, &mut answer) == 0, "texts: read_problem");
    failed += expect(opens(&answer, &[0, 0, 1, 8]), "texts: start and goal");
    failed += expect(read_domain(DOMAIN.as_bytes(), 3, &mut answer) == 0, "texts: read_domain");
    for (word, read) in built.iter_mut().zip(answer.iter().skip(2)) {
        *word = *read;
    }
    failed += expect(add_run(&mut built, 1, 8, &[0, 1, 2], &mut answer) == 0, "texts: add_run");
    failed += expect(built == *mended, "texts: the mended task again");
    failed + expect(check(&built, 0, &mut answer) == 0 && opens(&answer, &[0, 0, 0, 0, 0]), "texts: its run is valid")
}

fn refused_texts(mended: &[u64; TASK_WORDS]) -> i32 {
    let (mut answer, mut room) = ([7; TASK_ANSWER_WORDS], [7; PROBLEM_BYTES]);
    let mut built = *mended;
    let mut failed = expect(write_domain(&[0; TASK_WORDS - 1], &mut [], &mut answer) == 12, "texts: 12 before 11");
    failed += expect(write_domain(mended, &mut [7; DOMAIN.len() - 1], &mut answer) == 11, "texts: a domain's room too short");
    failed += expect(write_problem(mended, 1, &mut room, &mut answer) == 14, "texts: no such run");
    failed += expect(write_problem(mended, 0, &mut [], &mut answer) == 11, "texts: a problem's room too short");
    failed += expect(room == [7; PROBLEM_BYTES], "texts: a refusal writes nothing");
    failed += expect(read_domain(PROBLEM.as_bytes(), 3, &mut answer) == 17 && opens(&answer, &[17, 9, 0]), "texts: no domain");
    failed += expect(read_problem(DOMAIN.as_bytes(), 4, &mut answer) == 17 && opens(&answer, &[17, 9, 0, 0]), "texts: no problem");
    failed += expect(read_problem(PROBLEM.as_bytes(), 65, &mut answer) == 4 && opens(&answer, &[4, 0, 0, 0]), "texts: 65 facts");
    failed += expect(add_run(&mut built, 16, 8, &[0], &mut answer) == 12 && built == *mended, "texts: a start outside");
    failed += expect(add_run(&mut built, 1, 8, &[], &mut [7]) == ANSWER_TOO_SHORT && built == *mended, "texts: one answer word");
    failed + expect(read_problem(PROBLEM.as_bytes(), 4, &mut [7; 3]) == ANSWER_TOO_SHORT, "texts: three answer words")
}

/// The task with its repairs.
fn mended(task: &[u64; TASK_WORDS]) -> [u64; TASK_WORDS] {
    let mut mended = *task;
    apply(&mut mended, &[97, 224], &mut [7; CHANGED_WORDS]);
    mended
}

#[no_mangle]
pub extern "C" fn main() -> i32 {
    let mut task = [0; TASK_WORDS];
    let failed = files(&mut task) + lists(&task) + texts(&mended(&task)) + refused_texts(&mended(&task));
    let failed = failed + sittings(&task, 97, 0, 224) + sittings(&task, 224, 1, 97);
    let failed = failed + session(&mut task) + runs() + rejected_steps() + locks();
    say(if failed == 0 { "rust: every expectation holds\n" } else { "rust: expectations failed\n" });
    i32::from(failed != 0)
}
