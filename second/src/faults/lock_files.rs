//! Deliberate faults of locks in a task file (02, request 6).

use super::files::{in_further_run, read_without, refused_read, refused_record};
use super::{refused_with, task_of, with_words_of};
use crate::drive::Broken;
use crate::file::{records, Record, END, LOCK, NEED, RUN, STEP};
use crate::protocol::{Call, Request, Response};
use crate::task::{with, Task};

/// The lock that a read is refused for with this number, and before it the record that it follows.
fn refused_lock<'a>(request: &'a Request, right: &Response, number: u64) -> Option<[Record<'a>; 2]> {
    refused_record(request, right, number).filter(|[_, record]| record.kind == LOCK)
}

/// A read that takes this lock, for which it should have refused the file.
fn taken(broken: &mut Broken, request: &Request, lock: &Record) -> Response {
    let response = read_without(broken, request, lock);
    if !refused_with(&response, 0) {
        return response;
    }
    let mut task = Task::from_words(&response.words[2..]);
    let action = &mut task.table[lock.body[0] as usize];
    action.locks = with(action.locks, lock.body[1] as usize, true);
    with_words_of(&task, response)
}

/// Kind 10 is unknown, to the record reader too.
pub fn unknown_kind(_: &mut Broken, request: &Request, right: Response) -> Response {
    match request.call {
        Call::Record if refused_with(&right, 0) && right.words[2] == LOCK as u64 => {
            Response { words: vec![2, request.words[0], 0, 0, 0, 0], bytes: vec![] }
        }
        Call::Read if refused_with(&right, 0) => {
            let first = records(&request.bytes).into_iter().find(|record| record.kind == LOCK);
            first.map_or(right, |record| refused_read(2, record.place()))
        }
        _ => right,
    }
}

/// A lock may stand in a further run.
pub fn in_further_runs(broken: &mut Broken, request: &Request, right: Response) -> Response {
    match refused_lock(request, &right, 6) {
        Some([_, lock]) if in_further_run(&request.bytes, lock.place()) => taken(broken, request, &lock),
        _ => right,
    }
}

/// A lock may follow a step, since 10 is above 7.
pub fn after_steps(broken: &mut Broken, request: &Request, right: Response) -> Response {
    match refused_lock(request, &right, 6) {
        Some([last, lock]) if last.kind == STEP && !in_further_run(&request.bytes, lock.place()) => {
            taken(broken, request, &lock)
        }
        _ => right,
    }
}

/// A step may not follow a lock, since 7 is below 10.
pub fn kinds_by_number(_: &mut Broken, request: &Request, right: Response) -> Response {
    if request.call != Call::Read || !refused_with(&right, 0) {
        return right;
    }
    let records = records(&request.bytes);
    match records.windows(2).find(|pair| (pair[0].kind, pair[1].kind) == (LOCK, STEP)) {
        Some(pair) => refused_read(6, pair[1].place()),
        None => right,
    }
}

/// Locks need not ascend.
pub fn not_ascending(broken: &mut Broken, request: &Request, right: Response) -> Response {
    match refused_lock(request, &right, 6) {
        Some([last, lock]) if last.kind == LOCK => taken(broken, request, &lock),
        _ => right,
    }
}

/// A lock on a cell that isn't a need is read into the task.
pub fn on_no_need(broken: &mut Broken, request: &Request, right: Response) -> Response {
    match refused_lock(request, &right, 18) {
        Some([_, lock]) => taken(broken, request, &lock),
        None => right,
    }
}

/// A lock on a cell that isn't a need is passed over.
pub fn on_no_need_passed_over(broken: &mut Broken, request: &Request, right: Response) -> Response {
    match refused_lock(request, &right, 18) {
        Some([_, lock]) => read_without(broken, request, &lock),
        None => right,
    }
}

/// 18 is given before 6.
pub fn before_order(_: &mut Broken, request: &Request, right: Response) -> Response {
    let Some([_, lock]) = refused_lock(request, &right, 6) else { return right };
    let is_its_need = |record: &Record| (record.kind, record.body) == (NEED, lock.body);
    if records(&request.bytes[..lock.place()]).iter().any(is_its_need) {
        right
    } else {
        refused_read(18, lock.place())
    }
}

/// 18 is at the first byte of its body.
pub fn at_the_number(_: &mut Broken, request: &Request, right: Response) -> Response {
    match refused_lock(request, &right, 18) {
        Some([_, lock]) => refused_read(18, lock.start),
        None => right,
    }
}

/// Locks are not written.
pub fn unwritten(broken: &mut Broken, request: &Request, right: Response) -> Response {
    match task_of(request) {
        Some(task) if request.call == Call::Write && task.well_formed() => broken.with_task(request, &task.unlocked()),
        _ => right,
    }
}

/// Locks are written behind the first run's steps, since 10 is above 7.
pub fn written_by_number(_: &mut Broken, request: &Request, mut right: Response) -> Response {
    if request.call != Call::Write || !refused_with(&right, 0) {
        return right;
    }
    let length = right.words[2] as usize;
    let file = right.bytes[..length].to_vec();
    let mut records = records(&file);
    let first_run = records.iter().position(|record| [RUN, END].contains(&record.kind)).unwrap_or(0);
    records[..first_run].sort_by_key(|record| record.kind);
    let written: Vec<u8> = records.iter().flat_map(|record| file[record.place()..record.next].to_vec()).collect();
    right.bytes[..length].copy_from_slice(&written);
    right
}
