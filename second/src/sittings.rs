//! Lists in two sittings (02, request 7): "Curators accept part of a list in the morning and the rest later."
//!
//! The second call gets the table that the first one gave. Here nothing is applied to that table: all is said of the two
//! lists and the table first given, as 02 has it, so that calls made one after the other can be held to it.

use std::collections::BTreeSet;

use crate::refusal::{at, Ground, Refusal};
use crate::repair::made;
use crate::task::Task;

/// What a second call gives: the table, or its refusal with the table that it gives back.
pub type Second = Result<Task, (Refusal, Task)>;

/// The numbers of a list that the other lacks, in their order.
pub fn without(list: &[u16], other: &[u16]) -> Vec<u16> {
    list.iter().copied().filter(|number| !other.contains(number)).collect()
}

/// What 02 says of two lists that are permitted on one table. The comparison can be given a wrong reading, which has
/// another in place of one of these (faults/readings.rs).
pub trait Reading {
    /// The merged list: the numbers of both, ascending, a shared one once.
    fn merged(&self, first: &[u16], second: &[u16]) -> Vec<u16> {
        let numbers: BTreeSet<u16> = first.iter().chain(second).copied().collect();
        numbers.into_iter().collect()
    }

    /// "The first one shared": its index in the second list, which is the one that is refused.
    fn first_shared(&self, first: &[u16], second: &[u16]) -> Option<usize> {
        second.iter().position(|number| first.contains(number))
    }

    /// "Applying them in either order gives the merged list's table." "If they share a number, the second call gives 15
    /// at the first one shared", and gives back what the first one made.
    fn second_call(&self, task: &Task, first: &[u16], second: &[u16]) -> Second {
        match self.first_shared(first, second) {
            None => Ok(made(task, &self.merged(first, second))),
            Some(index) => Err((at(Ground::RepairList, index), made(task, first))),
        }
    }

    /// What a solve answers once part of the task's answer is made: the rest of it.
    fn between(&self, answer: &[u16], first: &[u16]) -> Vec<u16> {
        without(answer, first)
    }
}

/// 02 as it is written.
pub struct AsWritten;

impl Reading for AsWritten {}
