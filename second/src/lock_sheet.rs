//! Tests of locks (02, request 6): worked cases, edits, and what 02 says of all tasks.

use crate::algorithm1;
use crate::answer::{answer, Budget};
use crate::compare::tasks::random_task;
use crate::listing::listing;
use crate::random::Random;
use crate::refusal::{at, plain, Ground, Refusal, Stop};
use crate::repair::{apply, Kind, Repair};
use crate::session::{edit, in_form, list, open, row_of, rows, Cell, Edit, ROW, TABLE};
use crate::task::{has, Action, Run, Task, MOST_ACTIONS};

const ENOUGH: Budget = Budget::of(10_000_000);

/// The answer or refusal, which Algorithm 1 and the joined rows give too.
fn solved(task: &Task) -> Result<Vec<u16>, Refusal> {
    let found = answer(task, ENOUGH);
    assert_eq!(algorithm1::solve(task).map_err(Stop::Refused), found);
    assert_eq!(list(task, &rows(task, ENOUGH).unwrap()).map_err(Stop::Refused), found);
    found.map_err(|stop| match stop {
        Stop::Refused(refusal) => refusal,
        Stop::TooDear => panic!("too dear: {task:?}"),
    })
}

/// One fact, with these actions, and one run of these steps from this start.
fn one_fact(actions: &[Action], start: u64, steps: &[usize]) -> Task {
    let mut task = Task::sized(1, actions.len(), 1);
    task.table[..actions.len()].copy_from_slice(actions);
    task.runs[0] = Run { start, ..Run::empty() };
    steps.iter().for_each(|&action| task.last_run().push_step(action));
    task
}

const LOCKED: Action = Action { needs: 1, adds: 0, deletes: 0, locks: 1 };
const NEEDING: Action = Action { locks: 0, ..LOCKED };
const IDLE: Action = Action { needs: 0, ..NEEDING };
const DELETING: Action = Action { deletes: 1, ..IDLE };

#[test]
fn a_locked_need_that_the_first_step_lacks_is_hopeless() {
    let hopeless = Err(plain(Ground::NoListAtAll));
    assert_eq!(solved(&one_fact(&[NEEDING], 0, &[0])), Ok(vec![64]));
    assert_eq!(solved(&one_fact(&[LOCKED], 0, &[0])), hopeless);
    assert_eq!(solved(&one_fact(&[LOCKED], 0, &[0, 0])), hopeless);
    assert_eq!(solved(&one_fact(&[LOCKED], 1, &[0])), Ok(vec![]));
    assert_eq!(solved(&one_fact(&[IDLE, LOCKED], 0, &[0, 1])), Ok(vec![32]), "the first step can add it");
    assert_eq!(solved(&one_fact(&[IDLE, LOCKED], 0, &[1, 0])), hopeless);
    let mut further = one_fact(&[IDLE, LOCKED], 0, &[0, 1]);
    further.open_run();
    further.last_run().push_step(1);
    assert_eq!(solved(&further), hopeless, "one run suffices");
    let file = [1, 1, 1, 1, 4, 0, 0, 10, 0, 0, 7, 0, 8];
    assert_eq!(listing(&file, ENOUGH).unwrap(), "task 1 1 1 1\nopen 1 1 0\nrefused 9 0\n");
}

/// A guard run three times, each time after another action has deleted its fact.
#[test]
fn with_the_need_locked_each_delete_is_mended() {
    let steps = [1, 0, 2, 0, 3, 0];
    let mut task = one_fact(&[NEEDING, DELETING, DELETING, DELETING], 1, &steps);
    assert_eq!(solved(&task), Ok(vec![64]));
    task.table[0] = LOCKED;
    assert_eq!(solved(&task), Err(plain(Ground::NoListWithinLimit)));
    task.limit = 3;
    assert_eq!(solved(&task), Ok(vec![1, 2, 3]));
}

/// Seven deletes before one locked need: a row of 7 where there was a row of 1.
#[test]
fn a_lock_can_make_a_row_too_long() {
    let steps: Vec<usize> = (1..=7).flat_map(|action| [action, 0]).collect();
    let mut actions = [DELETING; 8];
    actions[0] = NEEDING;
    assert_eq!(rows(&one_fact(&actions, 1, &steps), ENOUGH).unwrap()[..2], [1, 64]);
    actions[0] = LOCKED;
    assert_eq!(rows(&one_fact(&actions, 1, &steps), ENOUGH).unwrap()[..ROW], row_of(7, &[]));
}

#[test]
fn a_conflict_leaves_locked_needs_out() {
    let task = one_fact(&[IDLE, LOCKED], 0, &[0, 1]);
    assert_eq!(algorithm1::conflict_of(&task, &[]), Some(vec![32]));
    assert_eq!(algorithm1::conflict_of(&task.unlocked(), &[]), Some(vec![32, 65]));
    assert_eq!(algorithm1::conflict_of(&one_fact(&[LOCKED], 0, &[0]), &[]), Some(vec![]), "and may be empty");
}

#[test]
fn no_list_may_drop_a_locked_need() {
    let task = one_fact(&[IDLE, LOCKED], 0, &[0, 1]);
    assert_eq!(apply(&task, &[65]), Err(at(Ground::RepairList, 0)));
    assert_eq!(apply(&task, &[32, 65]), Err(at(Ground::RepairList, 1)));
    assert_eq!(apply(&task, &[32, 33]).unwrap().table[1], Action { adds: 1, ..LOCKED }, "the lock stays");
    let mut table = rows(&task, ENOUGH).unwrap();
    assert!(in_form(&task, &table));
    table[..ROW].copy_from_slice(&row_of(1, &[65]));
    assert_eq!(list(&task, &table), Err(plain(Ground::Table)));
    assert_eq!(list(&task.unlocked(), &table), Ok(vec![65]));
}

#[test]
fn a_lock_without_its_need_is_not_well_formed() {
    assert!(!one_fact(&[Action { locks: 1, ..IDLE }], 0, &[]).well_formed());
    assert!(!one_fact(&[Action { locks: 2, ..NEEDING }], 0, &[]).well_formed());
    let mut task = one_fact(&[LOCKED], 0, &[]);
    assert!(task.well_formed());
    task.table[MOST_ACTIONS - 1] = LOCKED;
    assert!(!task.well_formed(), "an unused action");
    task.table[MOST_ACTIONS - 1] = Action { needs: 0, ..LOCKED };
    assert!(!task.well_formed());
}

fn lock(action: u64, present: bool) -> Edit {
    Edit { cell: Cell::Lock { action }, fact: 0, present }
}

fn need(action: u64, present: bool) -> Edit {
    Edit { cell: Cell::Need { action }, fact: 0, present }
}

/// The edited task and its row, written into a table of numbers that no row has.
fn edited(task: &Task, change: &Edit) -> Result<(Task, Vec<u16>), Stop> {
    let mut table = vec![4242; TABLE];
    let edited = edit(task, change, &mut table, ENOUGH)?;
    assert!(table[ROW..].iter().all(|&number| number == 4242), "and no other row");
    Ok((edited, table[..ROW].to_vec()))
}

#[test]
fn edits_set_and_clear_a_lock() {
    let task = one_fact(&[IDLE, NEEDING], 0, &[1, 0]);
    let (locked, row) = edited(&task, &lock(1, true)).unwrap();
    assert_eq!((locked.table[1], row), (LOCKED, row_of(8, &[]).to_vec()));
    let (again, row) = edited(&locked, &lock(1, true)).unwrap();
    assert_eq!((again, row), (locked, row_of(8, &[]).to_vec()), "what stands is accepted, and the row written");
    assert_eq!(edited(&locked, &need(1, true)).unwrap().0, locked, "so is a need that is locked");
    let (unlocked, row) = edited(&locked, &lock(1, false)).unwrap();
    assert_eq!((unlocked, row), (task, row_of(1, &[65]).to_vec()));
    let (same, row) = edited(&task, &lock(0, false)).unwrap();
    assert_eq!((same, row), (task, row_of(1, &[65]).to_vec()), "clearing a lock that isn't there, need or not");
    assert_eq!(edited(&unlocked, &need(1, false)).unwrap().0.table[1], IDLE);
}

#[test]
fn refusal_18_of_an_edit_comes_after_14() {
    let without_need = Err(Stop::Refused(plain(Ground::LockWithoutNeed)));
    let not_there = Err(Stop::Refused(plain(Ground::NotThere)));
    let task = one_fact(&[IDLE, LOCKED], 1, &[1]);
    assert_eq!(edited(&task, &lock(0, true)), without_need);
    assert_eq!(edited(&task, &need(1, false)), without_need);
    assert_eq!(edited(&task, &need(0, false)).unwrap().0, task, "a need that isn't there");
    for outside in [2, 32, u64::MAX] {
        assert_eq!(edited(&task, &lock(outside, true)), not_there);
        assert_eq!(edited(&task, &lock(outside, false)), not_there);
    }
    assert_eq!(edited(&task, &Edit { fact: 1, ..lock(1, true) }), not_there);
    assert_eq!(edited(&task, &Edit { cell: Cell::Unknown, ..lock(1, true) }), not_there);
    let short = edit(&task, &lock(0, true), &mut [0; 7], ENOUGH);
    assert_eq!(short, Err(Stop::Refused(plain(Ground::Table))), "13 before 18");
}

/// Random tasks of all families; the same ones in every test.
fn random_tasks(count: usize) -> impl Iterator<Item = Task> {
    let mut random = Random::new(6);
    (0..count).map(move |_| random_task(&mut random))
}

/// An edit is refused with 18 exactly where it would leave a task that is not well formed.
#[test]
fn refusal_18_keeps_the_task_well_formed() {
    for task in random_tasks(200) {
        for (action, present) in (0..task.actions as u64).flat_map(|action| [(action, true), (action, false)]) {
            for change in [lock(action, present), need(action, present)] {
                let cells = &mut { task }.table[action as usize];
                let set = if matches!(change.cell, Cell::Need { .. }) { &mut cells.needs } else { &mut cells.locks };
                *set = *set & !1 | present as u64;
                let good = cells.locks & !cells.needs == 0;
                match edit(&task, &change, &mut [0; TABLE], Budget::of(20_000)) {
                    Ok(edited) => assert!(good && edited.well_formed() && edited.table[action as usize] == *cells),
                    Err(Stop::Refused(refusal)) => assert!(!good && refusal == plain(Ground::LockWithoutNeed)),
                    Err(Stop::TooDear) => assert!(good),
                }
            }
        }
    }
}

/// No list that is answered drops a locked need, and none is shorter, or earlier, than the one without locks.
#[test]
fn locks_hold_in_every_answer_and_never_shorten_it() {
    let [mut longer, mut hopeless] = [0, 0];
    for task in random_tasks(3000).filter(|task| *task != task.unlocked()) {
        let [found, free] = [task, task.unlocked()].map(|task| answer(&task, Budget::of(20_000)));
        match (found, free) {
            (Ok(list), Ok(free)) => {
                let drops = |&number: &u16| {
                    let repair = Repair::of_number(number);
                    repair.kind == Kind::DropNeed && has(task.table[repair.action].locks, repair.fact)
                };
                assert!(!list.iter().any(drops));
                assert!((list.len(), &list) >= (free.len(), &free));
                longer += (list.len() > free.len()) as usize;
                let repaired = apply(&task, &list).unwrap();
                assert!(repaired.table.iter().zip(&task.table).all(|(after, before)| after.locks == before.locks));
                assert!(repaired.well_formed(), "each locked need still stands");
            }
            (Ok(_), Err(Stop::Refused(_))) => panic!("locks have given a list: {task:?}"),
            (Err(Stop::Refused(refusal)), Ok(_)) => hopeless += (refusal.ground == Ground::NoListAtAll) as usize,
            _ => {}
        }
    }
    assert!(longer > 20 && hopeless > 20, "{longer} were longer, {hopeless} hopeless");
}

#[test]
fn an_opened_table_has_8_exactly_where_locks_or_goals_say_so() {
    for task in random_tasks(500) {
        let mut table = vec![0; TABLE];
        if open(&task, &mut table, Budget::of(20_000)).is_ok() {
            let [goals, needs] = crate::compare::hopeless_facts(&task);
            let says = |fact: usize| table[fact * ROW] == 8;
            assert!((0..task.facts).all(|fact| says(fact) == has(goals | needs, fact)), "{task:?}");
        }
    }
}
