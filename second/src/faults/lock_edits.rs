//! Deliberate faults of edits that meet locks (02, request 6).

use super::{before_length, refused_with, task_of, with_words_of};
use crate::answer::Budget;
use crate::drive::Broken;
use crate::protocol::{bytes_of, numbers_of, Call, Request, Response};
use crate::session::{row, ROW};
use crate::task::{has, with, Action, Task};

/// The kinds of cell that an edit names.
const NEED: u64 = 0;
const LOCK: u64 = 5;

/// What an edit is about: the kind of cell, the action, the fact and whether it is set.
#[derive(Clone, Copy)]
struct Named {
    kind: u64,
    action: u64,
    fact: u64,
    present: bool,
}

impl Named {
    /// What the request names, if it is an edit that was answered with this number.
    fn answered(request: &Request, right: &Response, number: u64) -> Option<Named> {
        match request.more_words() {
            &[kind, action, fact, present] if request.call == Call::Edit && refused_with(right, number) => {
                Some(Named { kind, action, fact, present: present != 0 })
            }
            _ => None,
        }
    }

    /// The same, if it names a cell of this kind.
    fn of_kind(request: &Request, right: &Response, number: u64, kind: u64) -> Option<Named> {
        Named::answered(request, right, number).filter(|named| named.kind == kind)
    }

    /// True if the task has a lock there.
    fn locked(&self, request: &Request) -> bool {
        task_of(request).is_some_and(|task| has(task.table[self.action as usize].locks, self.fact as usize))
    }
}

/// The edit refused with this number: what was lent is given back.
fn refused_edit(request: &Request, number: u64) -> Response {
    let words = [&[number, 0], request.task_words().unwrap_or(&[])].concat();
    Response { words, bytes: request.bytes.clone() }
}

/// The edit that changes the named action so, with the row of this task after it.
fn made(request: &Request, named: Named, change: impl FnOnce(&mut Action, usize)) -> Response {
    let mut edited = Task::from_words(request.task_words().unwrap_or(&[]));
    change(&mut edited.table[named.action as usize], named.fact as usize);
    with_row_of(&edited, request, named.fact as usize, Response { words: edit_words(&edited), ..Response::default() })
}

fn edit_words(edited: &Task) -> Vec<u64> {
    [&[0, 0][..], &edited.words()].concat()
}

/// The response with the table that was lent, and in it the row that the fact has in this task.
fn with_row_of(task: &Task, request: &Request, fact: usize, mut response: Response) -> Response {
    let mut table = numbers_of(&request.bytes);
    if let Ok(row) = row(task, fact, Budget::of(1_000_000)) {
        table[fact * ROW..][..ROW].copy_from_slice(&row);
    }
    response.bytes = bytes_of(&table);
    response
}

/// 18 is given before 14: outside, no cell is a need.
pub fn before_outside(_: &mut Broken, request: &Request, right: Response) -> Response {
    match Named::of_kind(request, &right, 14, LOCK) {
        Some(named) if named.present => refused_edit(request, 18),
        _ => right,
    }
}

/// 18 is given even where the table has a wrong length.
pub fn before_the_length(broken: &mut Broken, request: &Request, right: Response) -> Response {
    before_length(broken, request, right, 18)
}

/// A need is cleared under a lock, and the lock is kept.
pub fn need_cleared_under(_: &mut Broken, request: &Request, right: Response) -> Response {
    match Named::of_kind(request, &right, 18, NEED) {
        Some(named) => made(request, named, |action, fact| action.needs = with(action.needs, fact, false)),
        None => right,
    }
}

/// A need that is cleared takes its lock with it.
pub fn goes_with_its_need(_: &mut Broken, request: &Request, right: Response) -> Response {
    match Named::of_kind(request, &right, 18, NEED) {
        Some(named) => made(request, named, |action, fact| {
            action.needs = with(action.needs, fact, false);
            action.locks = with(action.locks, fact, false);
        }),
        None => right,
    }
}

/// A lock is set on a cell that isn't a need.
pub fn set_on_no_need(_: &mut Broken, request: &Request, right: Response) -> Response {
    match Named::of_kind(request, &right, 18, LOCK) {
        Some(named) => made(request, named, |action, fact| action.locks = with(action.locks, fact, true)),
        None => right,
    }
}

/// A lock that is set brings its need with it.
pub fn brings_its_need(_: &mut Broken, request: &Request, right: Response) -> Response {
    match Named::of_kind(request, &right, 18, LOCK) {
        Some(named) => made(request, named, |action, fact| {
            action.needs = with(action.needs, fact, true);
            action.locks = with(action.locks, fact, true);
        }),
        None => right,
    }
}

/// A lock edit leaves the row as it was.
pub fn leaves_the_row(_: &mut Broken, request: &Request, mut right: Response) -> Response {
    if Named::of_kind(request, &right, 0, LOCK).is_some() {
        right.bytes = request.bytes.clone();
    }
    right
}

/// The row of any edit drops locked needs.
pub fn not_in_the_row(_: &mut Broken, request: &Request, right: Response) -> Response {
    match Named::answered(request, &right, 0) {
        Some(named) => {
            let edited = Task::from_words(&right.words[2..]).unlocked();
            with_row_of(&edited, request, named.fact as usize, right)
        }
        None => right,
    }
}

/// Clearing a lock that isn't there is refused.
pub fn nothing_to_clear(_: &mut Broken, request: &Request, right: Response) -> Response {
    match Named::of_kind(request, &right, 0, LOCK) {
        Some(named) if !named.present && !named.locked(request) => refused_edit(request, 18),
        _ => right,
    }
}

/// Setting a need that is locked is refused, though it stands.
pub fn need_set_under(_: &mut Broken, request: &Request, right: Response) -> Response {
    match Named::of_kind(request, &right, 0, NEED) {
        Some(named) if named.locked(request) => refused_edit(request, 18),
        _ => right,
    }
}

/// Clearing a lock is accepted and writes its row, and the lock is kept: its need, cleared next, would leave it alone.
pub fn kept_when_cleared(_: &mut Broken, request: &Request, right: Response) -> Response {
    match (Named::of_kind(request, &right, 0, LOCK), task_of(request)) {
        (Some(named), Some(task)) if !named.present => with_words_of(&task, right),
        _ => right,
    }
}

/// A lock is no kind of cell.
pub fn no_such_kind(_: &mut Broken, request: &Request, right: Response) -> Response {
    match Named::of_kind(request, &right, 0, LOCK) {
        Some(_) => refused_edit(request, 14),
        None => right,
    }
}

/// Every kind from the lock's on is a lock.
pub fn any_further_kind(broken: &mut Broken, request: &Request, right: Response) -> Response {
    match Named::answered(request, &right, 14) {
        Some(named) if named.kind > LOCK => {
            let words = [request.task_words().unwrap_or(&[]), &[LOCK], &request.more_words()[1..]].concat();
            broken.right(&Request { words, ..request.clone() })
        }
        _ => right,
    }
}
