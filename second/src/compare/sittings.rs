//! The cases of lists in two sittings (02, request 7): an answer split at random, and two lists permitted on one task, each
//! pair in both orders. Every call's response is compared as always; beside that it has to be what 02 says of the two
//! lists.

use super::cases::{answered, request, room_lengths};
use super::tasks::{permitted_lists, random_task};
use super::{Comparison, Outcome};
use crate::answer::lend;
use crate::protocol::{bytes_of, numbers_of, Call, Request, Response};
use crate::random::Random;
use crate::reference::{accepted, length_response, refused};
use crate::refusal::Stop;
use crate::repair::made;
use crate::sittings::without;
use crate::task::{Task, HIGHEST_LIMIT};

/// One random task: its answer, if it has one that is not empty, and two lists that are permitted on it.
pub fn sittings(comparison: &mut Comparison, mut random: Random) -> Outcome<()> {
    let random = &mut random;
    comparison.counts.sittings.tasks += 1;
    let task = random_task(random);
    if let Some(answer) = solved(comparison, &task, random)?.filter(|answer| !answer.is_empty()) {
        split_answer(comparison, &task, &answer, random)?;
    }
    two_lists(comparison, &task, random)
}

/// The task's answer; none if it is refused or too dear.
fn solved(comparison: &mut Comparison, task: &Task, random: &mut Random) -> Outcome<Option<Vec<u16>>> {
    let room = bytes_of(&random.numbers(HIGHEST_LIMIT));
    let response = comparison.ask(request(Call::Solve, &task.words(), room))?.filter(answered);
    Ok(response.map(|response| numbers_of(&response.bytes)[..response.words[2] as usize].to_vec()))
}

/// Two lists in one order, and what the merged list gives at once.
struct Sittings<'a> {
    task: &'a Task,
    first: &'a [u16],
    second: &'a [u16],
    at_once: &'a Response,
}

impl<'a> Sittings<'a> {
    /// Both orders of two lists.
    fn orders(task: &'a Task, lists: &'a [Vec<u16>; 2], at_once: &'a Response) -> [Sittings<'a>; 2] {
        [[0, 1], [1, 0]].map(|[first, second]| Sittings { task, first: &lists[first], second: &lists[second], at_once })
    }
}

/// Each number of the answer goes to the morning or to the afternoon. Between the two a solve answers what is left, and
/// after both every run is valid.
fn split_answer(comparison: &mut Comparison, task: &Task, answer: &[u16], random: &mut Random) -> Outcome<()> {
    let (morning, afternoon) = answer.iter().partition(|_| random.chance(8));
    let parts = [morning, afternoon];
    comparison.counts.sittings.take_answer(&parts);
    let at_once = apply_merged(comparison, task, &parts)?;
    for sittings in Sittings::orders(task, &parts, &at_once) {
        let words = first_call(comparison, &sittings)?;
        solve_between(comparison, &words, answer, sittings.first, random)?;
        second_call(comparison, &sittings, &words)?;
    }
    check_every_run(comparison, task, &at_once.words[2..])
}

/// Two lists permitted on the task, often with numbers in common.
fn two_lists(comparison: &mut Comparison, task: &Task, random: &mut Random) -> Outcome<()> {
    let lists = permitted_lists(task, random);
    comparison.counts.sittings.take_pair(&lists);
    let at_once = apply_merged(comparison, task, &lists)?;
    for sittings in Sittings::orders(task, &lists, &at_once) {
        let words = first_call(comparison, &sittings)?;
        second_call(comparison, &sittings, &words)?;
    }
    Ok(())
}

fn applying(words: &[u64], list: &[u16]) -> Request {
    request(Call::Apply, words, bytes_of(list))
}

/// The merged list at once: it is permitted on the task first given. Gives the response that it has to have.
fn apply_merged(comparison: &mut Comparison, task: &Task, lists: &[Vec<u16>; 2]) -> Outcome<Response> {
    let merged = comparison.reading.merged(&lists[0], &lists[1]);
    let at_once = accepted(&made(task, &merged).words(), vec![]);
    comparison.ask_as_read(applying(&task.words(), &merged), &at_once)?;
    Ok(at_once)
}

/// The first sitting, and then an empty list, which changes nothing. Gives the words between the sittings.
fn first_call(comparison: &mut Comparison, sittings: &Sittings) -> Outcome<Vec<u64>> {
    let between = accepted(&made(sittings.task, sittings.first).words(), vec![]);
    let words = between.words[2..].to_vec();
    comparison.ask_as_read(applying(&sittings.task.words(), sittings.first), &between)?;
    comparison.ask_as_read(applying(&words, &[]), &between)?;
    comparison.counts.sittings.empty += 1;
    Ok(words)
}

/// The second sitting. Where the lists share a number it is refused, and what they don't share can still be made: then
/// the table is the merged list's, as it is right away where they share none.
fn second_call(comparison: &mut Comparison, sittings: &Sittings, words: &[u64]) -> Outcome<()> {
    let Sittings { task, first, second, at_once } = sittings;
    match comparison.reading.second_call(task, first, second) {
        Ok(end) => comparison.ask_as_read(applying(words, second), &accepted(&end.words(), vec![])),
        Err((refusal, back)) => {
            comparison.counts.sittings.take_refused(first, second, refusal.place as usize);
            comparison.ask_as_read(applying(words, second), &refused(&refusal, &back.words(), vec![]))?;
            comparison.ask_as_read(applying(words, &without(second, first)), at_once)
        }
    }
}

/// Solves the table as it stands between the sittings, into rooms of several lengths: the rest of the answer, or 11.
fn solve_between(
    comparison: &mut Comparison,
    words: &[u64],
    answer: &[u16],
    first: &[u16],
    random: &mut Random,
) -> Outcome<()> {
    let left = comparison.reading.between(answer, first);
    for length in room_lengths(left.len(), random) {
        comparison.counts.sittings.take_between(left.len(), length);
        let before = random.numbers(length);
        let mut room = before.clone();
        let lent = lend(&left, &mut room).map_err(Stop::from);
        let read = length_response(lent, bytes_of(&room)).expect("nothing is enumerated here");
        comparison.ask_as_read(request(Call::Solve, words, bytes_of(&before)), &read)?;
    }
    Ok(())
}

/// Every run of the task with these words is valid: the run check gives three zeros.
fn check_every_run(comparison: &mut Comparison, task: &Task, words: &[u64]) -> Outcome<()> {
    comparison.counts.sittings.ends += 1;
    for run in 0..task.many as u64 {
        let check = request(Call::Check, &[words, &[run]].concat(), vec![]);
        comparison.ask_as_read(check, &accepted(&[0; 3], vec![]))?;
    }
    Ok(())
}
