//! Deliberately wrong readings of lists in two sittings (02, request 7). No call merges two lists or looks at both; so these
//! take the place of the comparison's own reading, and must be found in a right driver.

use crate::repair::made;
use crate::sittings::{without, AsWritten, Reading, Second};
use crate::task::Task;

/// The wrong readings by name.
pub const READINGS: &[(&str, &dyn Reading)] = &[
    ("merged-with-the-shared-twice", &SharedTwice),
    ("merged-without-the-shared", &SharedDropped),
    ("merged-one-behind-the-other", &OneBehindTheOther),
    ("shared-at-its-index-in-the-first", &IndexInTheFirst),
    ("shared-at-the-last", &LastShared),
    ("second-judged-on-the-first-table", &JudgedOnTheFirstTable),
    ("second-refused-gives-the-first-table", &RefusedGivesTheFirstTable),
    ("second-forgets-the-morning", &ForgetsTheMorning),
    ("between-the-whole-list", &WholeListBetween),
];

/// The merged list keeps a shared number twice.
struct SharedTwice;

impl Reading for SharedTwice {
    fn merged(&self, first: &[u16], second: &[u16]) -> Vec<u16> {
        let mut merged = [first, second].concat();
        merged.sort();
        merged
    }
}

/// The merged list drops a shared number.
struct SharedDropped;

impl Reading for SharedDropped {
    fn merged(&self, first: &[u16], second: &[u16]) -> Vec<u16> {
        AsWritten.merged(&without(first, second), &without(second, first))
    }
}

/// The merged list has the second behind the first, and does not ascend.
struct OneBehindTheOther;

impl Reading for OneBehindTheOther {
    fn merged(&self, first: &[u16], second: &[u16]) -> Vec<u16> {
        [first, &without(second, first)].concat()
    }
}

/// 15 is at the shared number's index in the first list.
struct IndexInTheFirst;

impl Reading for IndexInTheFirst {
    fn first_shared(&self, first: &[u16], second: &[u16]) -> Option<usize> {
        AsWritten.first_shared(second, first)
    }
}

/// 15 is at the last number shared.
struct LastShared;

impl Reading for LastShared {
    fn first_shared(&self, first: &[u16], second: &[u16]) -> Option<usize> {
        second.iter().rposition(|number| first.contains(number))
    }
}

/// The second list is judged on the table as first given, and so it is never refused.
struct JudgedOnTheFirstTable;

impl Reading for JudgedOnTheFirstTable {
    fn second_call(&self, task: &Task, first: &[u16], second: &[u16]) -> Second {
        Ok(made(task, &self.merged(first, second)))
    }
}

/// A refused second call gives back the table first given.
struct RefusedGivesTheFirstTable;

impl Reading for RefusedGivesTheFirstTable {
    fn second_call(&self, task: &Task, first: &[u16], second: &[u16]) -> Second {
        AsWritten.second_call(task, first, second).map_err(|(refusal, _)| (refusal, *task))
    }
}

/// The second list is made on the table as first given.
struct ForgetsTheMorning;

impl Reading for ForgetsTheMorning {
    fn second_call(&self, task: &Task, first: &[u16], second: &[u16]) -> Second {
        AsWritten.second_call(task, first, second).map(|_| made(task, second))
    }
}

/// Between the sittings the whole list is answered again.
struct WholeListBetween;

impl Reading for WholeListBetween {
    fn between(&self, answer: &[u16], _: &[u16]) -> Vec<u16> {
        answer.to_vec()
    }
}
