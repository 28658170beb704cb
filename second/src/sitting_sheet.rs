//! Tests of lists in two sittings (02, request 7): worked cases, all pairs of lists on small tables, and what 02 says of all
//! tasks.

use crate::answer::{answer, Budget};
use crate::compare::tasks::{permitted_lists, random_task};
use crate::random::Random;
use crate::refusal::{at, Ground};
use crate::repair::{all_permitted, apply, Repair};
use crate::run::all_valid;
use crate::sittings::{without, AsWritten, Reading, Second};
use crate::task::{Action, Task};

/// One list after the other, each by a call of its own.
fn in_turn(task: &Task, first: &[u16], second: &[u16]) -> Second {
    let between = apply(task, first).expect("the first list is permitted");
    apply(&between, second).map_err(|refusal| (refusal, between))
}

/// In both orders calls made in turn give what 02 says of the two lists, and the merged list gives it at once. Gives whether
/// they share a number.
fn sittings_are_as_written(task: &Task, first: &[u16], second: &[u16]) -> bool {
    let merged = AsWritten.merged(first, second);
    let at_once = apply(task, &merged).expect("the merged list is permitted");
    let [there, back] = [[first, second], [second, first]].map(|[first, second]| {
        let end = in_turn(task, first, second);
        assert_eq!(end, AsWritten.second_call(task, first, second), "{first:?}, then {second:?}, on {task:?}");
        assert_eq!(in_turn(task, first, &without(second, first)), Ok(at_once), "{first:?} {second:?} {task:?}");
        end
    });
    assert!(there.is_err() == back.is_err() && [there, back].into_iter().flatten().all(|end| end == at_once));
    there.is_err()
}

/// One fact and three actions: the first two delete it, all three lack it as an effect, and the last needs it.
fn small_task() -> Task {
    let mut task = Task::sized(1, 3, 6);
    let deleting = Action { deletes: 1, ..Action::default() };
    task.table[..3].copy_from_slice(&[deleting, deleting, Action { needs: 1, ..Action::default() }]);
    task
}

#[test]
fn the_merged_list_has_each_number_once() {
    assert_eq!(AsWritten.merged(&[0, 33], &[1, 66]), [0, 1, 33, 66]);
    assert_eq!(AsWritten.merged(&[1, 66], &[0, 33]), [0, 1, 33, 66]);
    assert_eq!(AsWritten.merged(&[0, 33, 66], &[1, 33, 66]), [0, 1, 33, 66], "shared ones once");
    assert_eq!(AsWritten.merged(&[], &[5]), [5]);
    assert_eq!(AsWritten.merged(&[], &[]), [0; 0]);
}

#[test]
fn two_lists_that_share_nothing() {
    let task = small_task();
    let mut both = task;
    (both.table[0].deletes, both.table[1].deletes, both.table[1].adds, both.table[2].needs) = (0, 0, 1, 0);
    assert_eq!(in_turn(&task, &[0, 33], &[1, 66]), Ok(both));
    assert_eq!(in_turn(&task, &[1, 66], &[0, 33]), Ok(both), "in either order");
    assert_eq!(in_turn(&task, &[33, 66], &[0, 1]), Ok(both), "the second may be below the first");
    assert_eq!(apply(&task, &[0, 1, 33, 66]), Ok(both), "at once");
    assert!(!sittings_are_as_written(&task, &[0, 33], &[1, 66]));
}

#[test]
fn the_second_call_is_refused_at_the_first_one_shared() {
    let task = small_task();
    let refused = |first: &[u16], second: &[u16]| {
        let (refusal, back) = in_turn(&task, first, second).unwrap_err();
        assert_eq!(Ok(back), apply(&task, first), "what the first call made is given back");
        assert!(sittings_are_as_written(&task, first, second));
        refusal
    };
    assert_eq!(refused(&[33], &[0, 1, 33]), at(Ground::RepairList, 2), "0 in the first list");
    assert_eq!(refused(&[0, 1, 33], &[33]), at(Ground::RepairList, 0), "2 in the first list");
    assert_eq!(refused(&[0, 33, 66], &[1, 33, 66]), at(Ground::RepairList, 1), "the first of two");
    assert_eq!(refused(&[0], &[0]), at(Ground::RepairList, 0));
}

#[test]
fn the_empty_list_changes_nothing() {
    let task = small_task();
    assert_eq!(apply(&task, &[]), Ok(task));
    for list in [&[][..], &[0, 33], &[66]] {
        assert_eq!(in_turn(&task, &[], list).ok(), apply(&task, list).ok());
        assert_eq!(in_turn(&task, list, &[]).ok(), apply(&task, list).ok());
    }
}

/// Every list of these numbers, ascending as they do.
fn all_lists(numbers: &[u16]) -> Vec<Vec<u16>> {
    let list =
        |code: usize| (0..numbers.len()).filter(|index| code >> index & 1 == 1).map(|index| numbers[index]).collect();
    (0..1 << numbers.len()).map(list).collect()
}

/// Every table of two actions over one fact, locked or not, with every pair of lists permitted on it. A number is in one
/// of the lists, in both or in none: over all its cells an action has 6 * 5 * 5 pairs, 5 * 4 * 4 of them sharing nothing.
#[test]
fn all_pairs_of_lists_on_small_tables() {
    let mut met = [0, 0];
    for code in 0..1 << 8 {
        let set = |place: usize| code >> place & 1;
        let mut task = Task::sized(1, 2, 6);
        for action in 0..2 {
            let [needs, adds, deletes, locks] = [0, 1, 2, 3].map(|place| set(4 * action + place));
            task.table[action] = Action { needs, adds, deletes, locks };
        }
        if !task.well_formed() {
            continue;
        }
        let lists = all_lists(&all_permitted(&task).iter().map(Repair::number).collect::<Vec<_>>());
        for (first, second) in lists.iter().flat_map(|first| lists.iter().map(move |second| (first, second))) {
            met[sittings_are_as_written(&task, first, second) as usize] += 1;
        }
    }
    assert_eq!(met, [80 * 80, 150 * 150 - 80 * 80]);
}

/// Random tasks of all families; the same ones in every test.
fn random_tasks(count: usize) -> impl Iterator<Item = Task> {
    let mut random = Random::new(7);
    (0..count).map(move |_| random_task(&mut random))
}

#[test]
fn random_pairs_of_lists() {
    let mut random = Random::new(70);
    let mut met = [0, 0];
    for task in random_tasks(2000) {
        let [first, second] = permitted_lists(&task, &mut random);
        met[sittings_are_as_written(&task, &first, &second) as usize] += 1;
    }
    assert!(met.into_iter().all(|count| count > 500), "{met:?}");
}

/// Every split of an answer: between the sittings the rest is the answer, and after both every run is valid.
#[test]
fn an_answer_in_two_sittings() {
    const ENOUGH: Budget = Budget::of(20_000);
    let mut splits = 0;
    for task in random_tasks(1000) {
        let Ok(whole) = answer(&task, ENOUGH) else { continue };
        for first in all_lists(&whole) {
            let rest = AsWritten.between(&whole, &first);
            let between = apply(&task, &first).expect("a part of the answer is permitted");
            assert_eq!(answer(&between, ENOUGH).as_ref(), Ok(&rest), "{whole:?} after {first:?} on {task:?}");
            let end = apply(&between, &rest).expect("and so is the rest");
            assert!(all_valid(&end) && Ok(end) == apply(&task, &whole));
            splits += 1;
        }
    }
    assert!(splits > 1000, "only {splits} splits");
}

#[test]
fn a_worked_answer_in_two_sittings() {
    let mut task = small_task();
    task.table[2].locks = 1;
    task.last_run().start = 1;
    [0, 2, 1, 2].into_iter().for_each(|action| task.last_run().push_step(action));
    let solved = |task: &Task| answer(task, Budget::of(1000)).unwrap();
    assert_eq!(solved(&task), [0, 1]);
    let [after_0, after_1] = [[0], [1]].map(|list| apply(&task, &list).unwrap());
    assert_eq!([solved(&after_0), solved(&after_1)], [[1], [0]]);
    assert_eq!(apply(&after_0, &[1]), apply(&after_1, &[0]));
    assert_eq!(apply(&after_1, &[0, 1]), Err(at(Ground::RepairList, 1)), "the whole list again");
}
