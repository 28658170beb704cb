//! Tests of the reference: the bench sheet of document 01, row by row, several runs (02, request 1), which byte is
//! wrong (02, request 2), a step that can't run (02, request 3), locks in files (02, request 6; the rest of it is in
//! lock_sheet.rs), and what 01 and 02 say of all tasks.

use std::cmp::Ordering;

use crate::algorithm1;
use crate::answer::{answer, Budget};
use crate::compare::tasks::{full_task, random_task};
use crate::file::{file_of, read, record_at, write};
use crate::listing::listing;
use crate::random::Random;
use crate::refusal::{at, plain, Ground, Refusal, Stop};
use crate::repair::{apply, Repair};
use crate::run::{absent, all_valid, check, open_needs, open_needs_by_old_rule, valid, Open};
use crate::session::{edit, in_form, joined_answer, list, open, row, Cell, Edit, ROW, TABLE};
use crate::task::{only, Action, Facts, Run, Task, MOST_FACTS, MOST_RUNS};

/// The file of 01's listing, case 2.
const CASE_2: [u8; 36] =
    [1, 4, 3, 3, 2, 0, 3, 3, 4, 0, 0, 4, 1, 1, 4, 2, 1, 4, 2, 2, 5, 0, 1, 5, 2, 3, 6, 1, 1, 7, 0, 7, 1, 7, 2, 8];

const ENOUGH: u64 = 10_000_000;

fn solved(task: &Task) -> Result<Vec<u16>, Stop> {
    answer(task, Budget::of(ENOUGH))
}

fn refused(refusal: Refusal) -> Result<Vec<u16>, Stop> {
    Err(Stop::Refused(refusal))
}

fn case_2() -> Task {
    read(&CASE_2).expect("case 2 is a good file")
}

fn opened(task: &Task) -> Vec<u16> {
    let mut table = vec![1; TABLE];
    assert_eq!(open(task, &mut table, Budget::of(ENOUGH)), Ok(TABLE));
    table
}

#[test]
fn row_1_empty_input() {
    assert_eq!(read(&[]), Err(at(Ground::NoEnd, 0)));
    assert_eq!(listing(&[], Budget::of(ENOUGH)).unwrap(), "refused 1 0\n");
}

#[test]
fn row_2_the_file_of_the_listing() {
    assert_eq!(solved(&case_2()), Ok(vec![97, 224]));
    assert_eq!(file_of(&case_2()), CASE_2);
    let text = "task 4 3 3 3\nopen 3 3 1\nset 2\ndrop-delete 1 1\nadd-effect 0 2\nend\n";
    assert_eq!(listing(&CASE_2, Budget::of(ENOUGH)).unwrap(), text);
}

#[test]
fn row_3_the_limit() {
    assert_eq!(solved(&Task { limit: 1, ..case_2() }), refused(plain(Ground::NoListWithinLimit)));
    assert_eq!(solved(&Task { limit: 2, ..case_2() }), Ok(vec![97, 224]));
}

#[test]
fn rows_4_and_5_no_steps() {
    let mut task = Task::sized(2, 1, 3);
    (task.runs[0].start, task.runs[0].goal) = (0b11, 0b01);
    assert_eq!(solved(&task), Ok(vec![]));
    task.runs[0].start = 0;
    assert_eq!(solved(&task), refused(plain(Ground::NoListAtAll)));
}

#[test]
fn rows_6_and_7_add_wins_and_the_first_in_order() {
    let mut task = Task::sized(1, 1, 1);
    (task.runs[0].goal, task.table[0].adds, task.table[0].deletes) = (1, 1, 1);
    task.last_run().push_step(0);
    assert_eq!(solved(&task), Ok(vec![]));
    (task.runs[0].start, task.table[0].adds) = (1, 0);
    assert_eq!(solved(&task), Ok(vec![0]));
    assert!(all_valid(&apply(&task, &[32]).unwrap()));
}

#[test]
fn row_8_fact_63() {
    let mut task = Task::sized(MOST_FACTS, 1, 1);
    task.table[0].needs = only(63);
    task.last_run().push_step(0);
    assert_eq!(solved(&task), Ok(vec![6112]));
}

#[test]
fn row_9_an_edit_writes_its_row_and_no_other() {
    let mut table = opened(&case_2());
    table[2 * ROW + 3] = 4242;
    let absent = Edit { cell: Cell::Delete { action: 1 }, fact: 1, present: false };
    let edited = edit(&case_2(), &absent, &mut table, Budget::of(ENOUGH)).unwrap();
    assert_eq!(table[2 * ROW + 3], 4242);
    assert_eq!(list(&edited, &table), Err(plain(Ground::Table)));
    table[2 * ROW + 3] = 65535;
    assert_eq!(list(&edited, &table), Ok(vec![224]));
}

#[test]
fn rows_10_and_11_damaged_files() {
    assert_eq!(read(&CASE_2[..35]), Err(at(Ground::NoEnd, 35)));
    assert_eq!(read(&[&CASE_2[..], &[0]].concat()), Err(at(Ground::AfterEnd, 36)));
    let mut outside = CASE_2;
    outside[34] = 3;
    assert_eq!(read(&outside), Err(at(Ground::Outside, 34)));
    assert_eq!(listing(&outside, Budget::of(ENOUGH)).unwrap(), "refused 5 34\n");
}

/// Actions that delete fact 0, as many that need it, run in turn.
fn pairs(count: usize) -> Task {
    let mut task = Task::sized(1, 2 * count, 6);
    task.last_run().start = 1;
    for index in 0..count {
        task.table[index].deletes = 1;
        task.table[count + index].needs = 1;
        task.last_run().push_step(index);
        task.last_run().push_step(count + index);
    }
    task
}

#[test]
fn row_12_six_pairs_and_seven() {
    assert_eq!(solved(&pairs(6)), Ok(vec![0, 1, 2, 3, 4, 5]));
    assert_eq!(row(&pairs(7), 0, Budget::of(ENOUGH)).unwrap()[0], 7);
    assert_eq!(solved(&pairs(7)), refused(plain(Ground::NoListWithinLimit)));
}

#[test]
fn numbers_of_repairs_and_back() {
    for number in 0..=6143 {
        assert_eq!(Repair::of_number(number).number(), number);
        assert!(Repair::of_number(number).fact < MOST_FACTS);
    }
    assert_eq!(Repair::of_number(6144).fact, MOST_FACTS);
}

#[test]
fn the_largest_file_has_27660_bytes_and_is_read_back() {
    let file = file_of(&full_task());
    assert_eq!(file.len(), 18_821 + 7 * 385 + 3 * 2048);
    assert_eq!(file.len(), 27_660);
    assert_eq!(read(&file), Ok(full_task()));
}

/// The refusal of a file with these records after the size record of four facts and three actions.
fn refusal_after_sizes(records: &[&[u8]]) -> Refusal {
    read(&[&[1, 4, 3, 3], records.concat().as_slice()].concat()).unwrap_err()
}

#[test]
fn within_a_record_the_earlier_refusal_is_given() {
    assert_eq!(read(&[11, 4]), Err(at(Ground::UnknownKind, 0)));
    assert_eq!(read(&[10, 4]), Err(at(Ground::SizeRecord, 0)), "3 before the short body");
    assert_eq!(read(&[4, 0]), Err(at(Ground::SizeRecord, 0)), "3 before the short body");
    assert_eq!(read(&[1, 65]), Err(at(Ground::NoEnd, 0)), "the short body before 4");
    assert_eq!(refusal_after_sizes(&[&[1]]), at(Ground::SizeRecord, 4), "3 before the short body");
    assert_eq!(refusal_after_sizes(&[&[3, 0, 2]]), at(Ground::NoEnd, 6), "the short body before 6");
    assert_eq!(refusal_after_sizes(&[&[7, 0].repeat(64), &[7, 3]]), at(Ground::Outside, 4 + 129), "5 before 7");
}

/// In a record with both, 5 is given, and at its number.
#[test]
fn refusal_5_comes_before_6() {
    assert_eq!(refusal_after_sizes(&[&[3, 0], &[2, 4]]), at(Ground::Outside, 7), "a kind that goes down");
    assert_eq!(refusal_after_sizes(&[&[5, 0, 0], &[4, 0, 4]]), at(Ground::Outside, 9));
    assert_eq!(refusal_after_sizes(&[&[5, 0, 0], &[4, 3, 4]]), at(Ground::Outside, 8));
    assert_eq!(refusal_after_sizes(&[&[4, 1, 1], &[4, 0, 4]]), at(Ground::Outside, 9), "a body that goes down");
    assert_eq!(refusal_after_sizes(&[&[9], &[4, 0, 4]]), at(Ground::Outside, 7), "a table kind in a further run");
    assert_eq!(refusal_after_sizes(&[&[9], &[4, 3, 0]]), at(Ground::Outside, 6));
}

/// "The place of 5 becomes the offset of the first number that is outside" (02, request 2).
#[test]
fn refusal_5_is_at_the_first_number_outside() {
    assert_eq!(refusal_after_sizes(&[&[2, 3], &[2, 4]]), at(Ground::Outside, 7), "a start fact");
    assert_eq!(refusal_after_sizes(&[&[3, 255]]), at(Ground::Outside, 5), "a goal fact");
    assert_eq!(refusal_after_sizes(&[&[7, 2], &[7, 3]]), at(Ground::Outside, 7), "a step");
    for kind in [4, 5, 6, 10] {
        assert_eq!(refusal_after_sizes(&[&[kind, 3, 3]]), at(Ground::Outside, 5), "the action");
        assert_eq!(refusal_after_sizes(&[&[kind, 2, 4]]), at(Ground::Outside, 6), "the fact");
        assert_eq!(refusal_after_sizes(&[&[kind, 3, 4]]), at(Ground::Outside, 5), "both: the action's");
        assert_eq!(refusal_after_sizes(&[&[4, 2, 3], &[kind, 2, 4]]), at(Ground::Outside, 9), "5 before 6 and 18");
    }
    for kind in 4..=6 {
        assert_eq!(refusal_after_sizes(&[&[kind, 2, 3]]), at(Ground::NoEnd, 7), "neither");
    }
}

/// "Of 6 the kind byte if the kind is out of order and the first body byte otherwise" (02, request 2).
#[test]
fn refusal_6_is_at_the_kind_byte_or_the_first_body_byte() {
    assert_eq!(refusal_after_sizes(&[&[3, 0], &[2, 1]]), at(Ground::Order, 6), "a kind that goes down");
    assert_eq!(refusal_after_sizes(&[&[7, 0], &[6, 0, 0]]), at(Ground::Order, 6));
    assert_eq!(refusal_after_sizes(&[&[9], &[4, 0, 0]]), at(Ground::Order, 5), "a table kind after kind 9");
    assert_eq!(refusal_after_sizes(&[&[2, 1], &[2, 1]]), at(Ground::Order, 7), "an equal body");
    assert_eq!(refusal_after_sizes(&[&[3, 1], &[3, 0]]), at(Ground::Order, 7));
    for kind in 4..=6 {
        assert_eq!(refusal_after_sizes(&[&[kind, 1, 2], &[kind, 1, 2]]), at(Ground::Order, 8), "an equal body");
        assert_eq!(refusal_after_sizes(&[&[kind, 1, 2], &[kind, 1, 1]]), at(Ground::Order, 8), "the second goes down");
        assert_eq!(refusal_after_sizes(&[&[kind, 1, 2], &[kind, 0, 3]]), at(Ground::Order, 8), "the first goes down");
        assert_eq!(refusal_after_sizes(&[&[kind, 1, 2], &[kind, 2, 0]]), at(Ground::NoEnd, 10), "ascending");
    }
}

/// Needs (1, 2) and (2, 0), and then these records.
fn refusal_after_needs(records: &[&[u8]]) -> Refusal {
    refusal_after_sizes(&[&[4, 1, 2, 4, 2, 0], records.concat().as_slice()])
}

/// "It stands after kind 6 and before kind 7, strictly ascending. After a kind 9 it gets 6."
#[test]
fn a_lock_stands_after_kind_6_and_before_kind_7() {
    assert_eq!(
        refusal_after_needs(&[&[5, 0, 0], &[6, 0, 0], &[10, 1, 2], &[10, 2, 0], &[7, 0]]),
        at(Ground::NoEnd, 24)
    );
    for table_kind in [4, 5, 6] {
        let late = refusal_after_needs(&[&[10, 1, 2], &[table_kind, 2, 3]]);
        assert_eq!(late, at(Ground::Order, 13), "kind {table_kind} after a lock");
    }
    assert_eq!(refusal_after_needs(&[&[7, 0], &[10, 1, 2]]), at(Ground::Order, 12), "a lock after a step");
    assert_eq!(refusal_after_needs(&[&[10, 1, 2], &[10, 1, 2]]), at(Ground::Order, 14), "an equal body");
    assert_eq!(refusal_after_needs(&[&[10, 2, 0], &[10, 1, 2]]), at(Ground::Order, 14), "the first goes down");
    assert_eq!(refusal_after_needs(&[&[9], &[10, 1, 2]]), at(Ground::Order, 11));
    assert_eq!(refusal_after_needs(&[&[10, 1, 2], &[9], &[7, 0], &[10, 2, 0]]), at(Ground::Order, 16));
}

/// "At the record's start after 6 and 16." A lock whose need would only follow it lacks it.
#[test]
fn refusal_18_is_at_the_start_of_a_lock_without_its_need() {
    assert_eq!(refusal_after_needs(&[&[10, 2, 2]]), at(Ground::LockWithoutNeed, 10));
    assert_eq!(refusal_after_needs(&[&[10, 1, 2], &[10, 2, 2]]), at(Ground::LockWithoutNeed, 13));
    assert_eq!(refusal_after_needs(&[&[5, 0, 3], &[6, 0, 3], &[10, 0, 3]]), at(Ground::LockWithoutNeed, 16));
    assert_eq!(refusal_after_sizes(&[&[10, 1, 2], &[4, 1, 2]]), at(Ground::LockWithoutNeed, 4));
    assert_eq!(refusal_after_needs(&[&[10, 1, 2], &[10, 0, 0]]), at(Ground::Order, 14), "6 before 18");
    assert_eq!(refusal_after_needs(&[&[7, 0], &[10, 0, 0]]), at(Ground::Order, 12), "6 before 18");
    assert_eq!(refusal_after_needs(&[&[9], &[10, 0, 0]]), at(Ground::Order, 11), "6 before 18");
    assert_eq!(refusal_after_needs(&[&[10, 0, 4]]), at(Ground::Outside, 12), "5 before 18");
    assert_eq!(refusal_after_needs(&[&[10, 0]]), at(Ground::NoEnd, 10), "the short body before 18");
}

/// 5 and 6 alone moved with request 2.
#[test]
fn the_other_refusals_stay_at_the_start_of_the_record() {
    assert_eq!(refusal_after_sizes(&[&[4, 0]]), at(Ground::NoEnd, 4));
    assert_eq!(refusal_after_sizes(&[&[2, 0], &[11, 0]]), at(Ground::UnknownKind, 6));
    assert_eq!(refusal_after_sizes(&[&[2, 0], &[1, 4, 3, 3]]), at(Ground::SizeRecord, 6));
    for sizes in [[0, 1, 0], [65, 1, 0], [1, 0, 0], [1, 33, 0], [1, 1, 7]] {
        assert_eq!(read(&[&[1], &sizes[..], &[8]].concat()), Err(at(Ground::SizeRange, 0)));
    }
    assert_eq!(refusal_after_sizes(&[&[7, 0].repeat(65)]), at(Ground::TooManySteps, 4 + 128));
    assert_eq!(refusal_after_sizes(&[&[9; 7], &[2, 0], &[9]]), at(Ground::TooManyRuns, 4 + 9));
}

#[test]
fn kind_9_opens_a_run_at_its_place() {
    assert_eq!(read(&[9]), Err(at(Ground::SizeRecord, 0)), "the size record comes first");
    assert_eq!(refusal_after_sizes(&[&[9]]), at(Ground::NoEnd, 5), "the end stays kind 8");
    assert_eq!(refusal_after_sizes(&[&[9, 1, 4, 3, 3]]), at(Ground::SizeRecord, 5));
    for table_kind in [4, 5, 6, 10] {
        assert_eq!(refusal_after_sizes(&[&[9, table_kind, 0, 0]]), at(Ground::Order, 5));
        assert_eq!(refusal_after_sizes(&[&[9, table_kind, 0, 4]]), at(Ground::Outside, 7), "5 before 6");
        assert_eq!(refusal_after_sizes(&[&[9, table_kind, 0]]), at(Ground::NoEnd, 5), "the short body before 6");
        assert_eq!(refusal_after_sizes(&[&[9, 2, 0, 3, 0, table_kind, 0, 0]]), at(Ground::Order, 9));
    }
    assert_eq!(refusal_after_sizes(&[&[9, 7, 0, 3, 0]]), at(Ground::Order, 7), "kinds go up within a run");
    assert_eq!(refusal_after_sizes(&[&[9, 2, 1, 2, 1]]), at(Ground::Order, 8), "bodies ascend within a run");
}

#[test]
fn the_order_begins_anew_in_each_run() {
    let file = [&[1, 4, 3, 3, 2, 3, 3, 3, 7, 2][..], &[9, 2, 0, 2, 1, 3, 0, 7, 1, 7, 0], &[9], &[9, 7, 2, 8]].concat();
    let task = read(&file).unwrap();
    assert_eq!(task.many, 4);
    assert_eq!(task.runs.map(|run| run.start), [0b1000, 0b11, 0, 0, 0, 0, 0, 0]);
    assert_eq!(task.runs.map(|run| run.goal), [0b1000, 0b01, 0, 0, 0, 0, 0, 0]);
    assert_eq!(task.known_runs().iter().map(Run::steps).collect::<Vec<_>>(), [&[2][..], &[1, 0], &[], &[2]]);
    assert_eq!(file_of(&task), file);
}

#[test]
fn a_ninth_run_is_refused_and_each_run_has_64_steps() {
    let full = [&[9], [7, 0].repeat(64).as_slice()].concat();
    let eight = [&[1, 4, 3, 3], &full[1..], &full.repeat(7), &[8]].concat();
    assert_eq!(read(&eight).unwrap().known_runs().iter().map(|run| run.count).collect::<Vec<_>>(), [64; 8]);
    assert_eq!(refusal_after_sizes(&[&[9; 8], &[8]]), at(Ground::TooManyRuns, 4 + 7));
    assert_eq!(refusal_after_sizes(&[&[9; 8]]), at(Ground::TooManyRuns, 4 + 7), "16 before what follows");
    assert_eq!(refusal_after_sizes(&[&[9; 7], &[7, 0].repeat(65)]), at(Ground::TooManySteps, 4 + 7 + 128));
    assert_eq!(refusal_after_sizes(&[&full, &full, &[7, 0]]), at(Ground::TooManySteps, 4 + 2 * 129));
}

/// Case 2 with a further run, of the last action alone, from facts 1 and 2 to fact 3.
fn two_runs() -> Task {
    let mut task = case_2();
    task.open_run();
    (task.last_run().start, task.last_run().goal) = (0b0110, 0b1000);
    task.last_run().push_step(2);
    task
}

#[test]
fn a_run_check_names_its_run() {
    let mut task = two_runs();
    assert_eq!(check(&task, 0), Ok(Open { total: 3, step: 3, fact: 1 }));
    assert_eq!(check(&task, 1), Ok(Open::default()));
    task.last_run().start = 0b0010;
    assert_eq!(check(&task, 1), Ok(Open { total: 2, step: 1, fact: 2 }));
    for beyond in [2, 8, u64::MAX] {
        assert_eq!(check(&task, beyond), Err(plain(Ground::NotThere)));
        assert_eq!(check(&Task { facts: 0, ..task }, beyond), Err(plain(Ground::NotWellFormed)), "12 before 14");
    }
}

/// The run from this start to this goal by these steps.
fn run_of(start: Facts, goal: Facts, steps: &[usize]) -> Run {
    let mut run = Run { start, goal, ..Run::empty() };
    steps.iter().for_each(|&action| run.push_step(action));
    run
}

/// The totals by the new rule and by the old.
fn totals(run: &Run, table: &[Action]) -> [u64; 2] {
    [open_needs(run, table).total, open_needs_by_old_rule(run, table).total]
}

/// One action that lacks fact 0: what it would have added stays absent, what it would have deleted stays present.
#[test]
fn the_new_total_is_greater_or_smaller_than_the_old() {
    assert_eq!(totals(&case_2().runs[0], &case_2().table), [3, 2], "the row store no longer gives its goal");
    let gives = Action { needs: 0b001, adds: 0b010, deletes: 0, locks: 0 };
    assert_eq!(totals(&run_of(0, 0b010, &[0]), &[gives]), [2, 1], "goal 1 is no longer given");
    let takes = Action { needs: 0b001, adds: 0, deletes: 0b100, locks: 0 };
    assert_eq!(totals(&run_of(0b100, 0b100, &[0]), &[takes]), [1, 2], "goal 2 is no longer taken away");
    let swaps = Action { needs: 0b001, adds: 0b010, deletes: 0b100, locks: 0 };
    assert_eq!(totals(&run_of(0b100, 0b110, &[0]), &[swaps]), [2, 2], "goal 1 is open instead of goal 2");
}

/// "The controller rejects the step, keeps the state and tries the next."
#[test]
fn the_step_after_a_rejected_one_is_tried() {
    let lacking = Action { needs: 0b001, adds: 0b010, deletes: 0, locks: 0 };
    let free = Action { needs: 0, adds: 0b101, deletes: 0, locks: 0 };
    let both = Action { needs: 0b110, adds: 0, deletes: 0, locks: 0 };
    let table = [lacking, free, both];
    assert_eq!(totals(&run_of(0, 0, &[0, 1, 2]), &table), [2, 1], "step 3 has fact 2 of step 2, and lacks fact 1");
    assert_eq!(totals(&run_of(0, 0, &[0, 0, 2]), &table), [4, 3], "each step's own needs are counted");
    assert_eq!(totals(&run_of(0, 0b010, &[0, 1, 0]), &table), [1, 1], "an action rejected once may run later");
}

#[test]
fn the_answer_makes_all_runs_valid() {
    let mut task = two_runs();
    assert_eq!(solved(&task), Ok(vec![97, 224]));
    task.last_run().start = 0b0010;
    assert_eq!(solved(&task), Ok(vec![97, 258]), "a need dropped serves both, an effect of action 0 only the first");
    let text = "task 4 3 3 4\nopen 3 3 1\nopen 2 1 2\nset 2\ndrop-delete 1 1\ndrop-need 2 2\nend\n";
    assert_eq!(listing(&file_of(&task), Budget::of(ENOUGH)).unwrap(), text);
}

#[test]
fn one_run_without_steps_that_lacks_a_goal_makes_it_hopeless() {
    let mut task = two_runs();
    task.open_run();
    assert_eq!(solved(&task), Ok(vec![97, 224]));
    task.last_run().goal = 0b0100;
    assert_eq!(solved(&task), refused(plain(Ground::NoListAtAll)));
    let text = "task 4 3 3 4\nopen 3 3 1\nopen 0 0 0\nopen 1 1 2\nrefused 9 0\n";
    assert_eq!(listing(&file_of(&task), Budget::of(ENOUGH)).unwrap(), text);
    task.last_run().start = 0b0100;
    assert_eq!(solved(&task), Ok(vec![97, 224]));
}

#[test]
fn a_start_or_goal_edit_names_its_run() {
    let task = two_runs();
    let mut table = opened(&task);
    let absent = |run| Edit { cell: Cell::Start { run }, fact: 2, present: false };
    let edited = edit(&task, &absent(1), &mut table, Budget::of(ENOUGH)).unwrap();
    assert_eq!(edited.runs.map(|run| run.start)[..3], [0b0001, 0b0010, 0]);
    assert_eq!(list(&edited, &table), Ok(vec![97, 258]));
    let refused = edit(&task, &absent(2), &mut table, Budget::of(ENOUGH));
    assert_eq!(refused, Err(Stop::Refused(plain(Ground::NotThere))));
}

#[test]
fn everything_for_unused_runs_is_zero() {
    assert!(!Task { many: 0, ..case_2() }.well_formed());
    assert!(!Task { many: MOST_RUNS + 1, ..case_2() }.well_formed());
    let mut last_step = Run::empty();
    last_step.steps[63] = 1;
    let empty = Run::empty();
    for run in [Run { start: 1, ..empty }, Run { goal: 1, ..empty }, Run { count: 1, ..empty }, last_step] {
        let mut task = case_2();
        task.runs[MOST_RUNS - 1] = run;
        assert!(!task.well_formed());
    }
    assert!(!Task { many: 1, ..two_runs() }.well_formed());
    assert!(Task { many: MOST_RUNS, ..two_runs() }.well_formed());
}

#[test]
fn the_record_reader_keeps_the_place_it_was_asked() {
    assert_eq!(record_at(&CASE_2, 36), Err(at(Ground::NoEnd, 36)));
    assert_eq!(record_at(&CASE_2, usize::MAX), Err(at(Ground::NoEnd, usize::MAX)));
    let record = record_at(&CASE_2, 8).unwrap();
    assert_eq!((record.kind, record.body, record.next), (4, &[0, 0][..], 11));
}

#[test]
fn short_room_is_refused_and_kept() {
    let mut room = [9; 35];
    assert_eq!(write(&case_2(), &mut room), Err(plain(Ground::ShortRoom)));
    assert_eq!(room, [9; 35]);
}

/// Random tasks of all families; the same ones in every test.
fn random_tasks(count: usize) -> impl Iterator<Item = Task> {
    let mut random = Random::new(2026);
    (0..count).map(move |_| random_task(&mut random))
}

#[test]
fn every_random_task_is_well_formed_and_its_file_is_read_back() {
    for task in random_tasks(2000) {
        assert!(task.well_formed());
        assert_eq!(read(&file_of(&task)), Ok(task));
        assert_eq!(Task::from_words(&task.words()), task);
    }
}

/// What 02, request 3 has of both rules: the total is zero exactly if the run is valid, the first step and its lowest
/// fact are the same. Gives how the new total compares with the old one.
fn both_rules_judge_alike(run: &Run, table: &[Action]) -> Ordering {
    let (new, old) = (open_needs(run, table), open_needs_by_old_rule(run, table));
    assert_eq!(new.total == 0, valid(run, table), "the new rule: {run:?} {table:?}");
    assert_eq!(old.total == 0, valid(run, table), "the old rule: {run:?} {table:?}");
    assert_eq!((new.step, new.fact), (old.step, old.fact), "{run:?} {table:?}");
    new.total.cmp(&old.total)
}

/// The total does move, both ways.
fn assert_all_orders(met: &[Ordering]) {
    for order in [Ordering::Less, Ordering::Equal, Ordering::Greater] {
        assert!(met.contains(&order), "no new total is {order:?}");
    }
}

#[test]
fn both_rules_judge_alike_on_random_runs() {
    let [mut of_first_runs, mut of_further_runs] = [Vec::new(), Vec::new()];
    for task in random_tasks(2000) {
        for (index, run) in task.known_runs().iter().enumerate() {
            let met = if index == 0 { &mut of_first_runs } else { &mut of_further_runs };
            met.push(both_rules_judge_alike(run, &task.table));
            assert_eq!(check(&task, index as u64), Ok(open_needs(run, &task.table)));
        }
        let none_open = |rule: fn(&Run, &[Action]) -> Open| {
            task.known_runs().iter().all(|run| rule(run, &task.table) == Open::default())
        };
        assert_eq!(none_open(open_needs), all_valid(&task));
        assert_eq!(none_open(open_needs_by_old_rule), all_valid(&task));
    }
    assert_all_orders(&of_first_runs);
    assert_all_orders(&of_further_runs);
}

/// All lists of up to three steps by two actions.
fn short_step_lists() -> Vec<Vec<usize>> {
    let of_length = |count: usize| (0..1 << count).map(move |code| (0..count).map(|step| code >> step & 1).collect());
    (0..=3).flat_map(of_length).collect()
}

/// Every table of two actions over two facts, with every start, goal and list of up to three steps.
#[test]
fn both_rules_judge_alike_on_all_small_runs() {
    let step_lists = short_step_lists();
    let mut met = Vec::new();
    for code in 0..1 << 16 {
        let set = |place: usize| code >> (2 * place) & 0b11;
        let table =
            [0, 3].map(|place| Action { needs: set(place), adds: set(place + 1), deletes: set(place + 2), locks: 0 });
        let judge = |steps: &Vec<usize>| both_rules_judge_alike(&run_of(set(6), set(7), steps), &table);
        met.extend(step_lists.iter().map(judge));
    }
    assert_eq!(met.len(), 65536 * 15);
    assert_all_orders(&met);
}

#[test]
fn the_answer_is_the_join_of_the_rows_and_leaves_nothing_open() {
    let mut compared = 0;
    for task in random_tasks(2000) {
        let found = answer(&task, Budget::of(20_000));
        let joined = joined_answer(&task, Budget::of(20_000));
        if found == Err(Stop::TooDear) || joined == Err(Stop::TooDear) {
            continue;
        }
        compared += 1;
        assert_eq!(found, joined);
        if let Ok(list) = found {
            assert!(all_valid(&apply(&task, &list).unwrap()));
        }
    }
    assert!(compared > 1500, "only {compared} were affordable");
}

/// 9 is given exactly when a run without steps lacks a goal at its start, or a run's first step has a locked need that its
/// start lacks.
#[test]
fn no_list_works_exactly_with_a_goal_or_a_locked_need_absent_before_any_step() {
    let lacks = |run: &Run, table: &[Action]| match run.actions(table).next() {
        None => absent(run.goal, run.start) != 0,
        Some(first) => absent(first.locks, run.start) != 0,
    };
    for task in random_tasks(2000) {
        let lacking = task.known_runs().iter().any(|run| lacks(run, &task.table));
        let hopeless = answer(&task, Budget::of(100)) == refused(plain(Ground::NoListAtAll));
        assert_eq!(hopeless, lacking);
    }
}

#[test]
fn an_opened_table_is_in_form() {
    for task in random_tasks(300) {
        let mut table = vec![0; TABLE];
        if open(&task, &mut table, Budget::of(20_000)).is_ok() {
            assert!(in_form(&task, &table));
        }
    }
}

#[test]
fn algorithm_1_gives_the_answer() {
    let mut compared = 0;
    for task in random_tasks(2000) {
        let found = answer(&task, Budget::of(20_000));
        if found != Err(Stop::TooDear) {
            compared += 1;
            assert_eq!(algorithm1::solve(&task).map_err(Stop::Refused), found);
        }
    }
    assert!(compared > 1500, "only {compared} were affordable");
}
