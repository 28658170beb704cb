//! Answers every request of the protocol from this program's own reading of documents 01 and 02.

use crate::answer::{answer, lend, Budget};
use crate::file::{read, record_at, write};
use crate::listing::listing_by;
use crate::pddl::{add_run, read_domain, read_problem, write_domain, write_problem};
use crate::protocol::{bytes_of, numbers_of, Call, Request, Response};
use crate::refusal::{Refusal, Stop};
use crate::repair::apply;
use crate::run::check;
use crate::session::{edit, joined_answer, list, open, Cell, Edit};
use crate::task::Task;

/// How many lists one solve, and one row, may simulate.
#[derive(Clone, Copy)]
pub struct Budgets {
    pub solve: Budget,
    pub row: Budget,
}

impl Budgets {
    /// What keeps 100,000 random tasks within minutes.
    pub fn modest() -> Budgets {
        Budgets { solve: Budget::of(60_000), row: Budget::of(200_000) }
    }
}

/// How the answer of a solve was found.
#[derive(Clone, Copy, PartialEq, Eq, Debug)]
pub enum Means {
    /// No solve was asked for, or its task was refused.
    None,
    Enumeration,
    /// Enumerating the lists of the whole table was too dear; the rows were enumerated and joined.
    Join,
}

/// The reference, which remembers its last solve: one task is solved into several rooms.
pub struct Reference {
    budgets: Budgets,
    last: Option<(Task, Means, Result<Vec<u16>, Stop>)>,
    /// How the last request's solve was found.
    pub means: Means,
}

impl Reference {
    pub fn new(budgets: Budgets) -> Reference {
        Reference { budgets, last: None, means: Means::None }
    }

    /// The response that documents 01 and 02 demand; none if it is too dear to enumerate.
    pub fn respond(&mut self, request: &Request) -> Option<Response> {
        self.means = Means::None;
        let words = request.task_words().unwrap_or(&[]);
        let task = Task::from_words(words);
        let bytes = &request.bytes;
        match request.call {
            Call::Record => Some(record_response(bytes, request.words[0])),
            Call::Read => Some(read_response(read(bytes))),
            Call::Write => written_response(bytes, |room| write(&task, room)),
            Call::Check => Some(check_response(&task, request.more_words()[0])),
            Call::Apply => task_response(words, apply(&task, &numbers_of(bytes)).map_err(Stop::from), vec![]),
            Call::Solve => self.solve_response(&task, bytes),
            Call::Open => self.open_response(&task, bytes),
            Call::Edit => {
                let mut table = numbers_of(bytes);
                let edited = edit(&task, &edit_of(request.more_words()), &mut table, self.budgets.row);
                task_response(words, edited, bytes_of(&table))
            }
            Call::List => list_response(&task, request.more_words()[0] as usize, bytes),
            Call::Listing => {
                let text = listing_by(bytes, |task| self.solve(task)).ok()?;
                Some(Response { words: vec![], bytes: text.into_bytes() })
            }
            Call::WriteDomain => written_response(bytes, |room| write_domain(&task, room)),
            Call::WriteProblem => written_response(bytes, |room| write_problem(&task, request.more_words()[0], room)),
            Call::ReadDomain => Some(read_response(read_domain(bytes, request.words[0] as usize))),
            Call::ReadProblem => Some(problem_response(bytes, request.words[0])),
            Call::AddRun => {
                let [start, goal] = [0, 1].map(|place| request.more_words()[place]);
                task_response(words, add_run(&task, start, goal, bytes).map_err(Stop::from), vec![])
            }
        }
    }

    fn solve_response(&mut self, task: &Task, bytes: &[u8]) -> Option<Response> {
        let mut room = numbers_of(bytes);
        let found = self.solve(task);
        let length = found.and_then(|list| Ok(lend(&list, &mut room)?));
        length_response(length, bytes_of(&room))
    }

    fn open_response(&self, task: &Task, bytes: &[u8]) -> Option<Response> {
        let mut table = numbers_of(bytes);
        let length = open(task, &mut table, self.budgets.row);
        length_response(length, bytes_of(&table))
    }

    /// The answer by its definition, or by the join of rows where that is too dear.
    fn solve(&mut self, task: &Task) -> Result<Vec<u16>, Stop> {
        if !self.last.as_ref().is_some_and(|(last, _, _)| last == task) {
            let (means, found) = match answer(task, self.budgets.solve) {
                Err(Stop::TooDear) => (Means::Join, joined_answer(task, self.budgets.row)),
                found => (Means::Enumeration, found),
            };
            self.last = Some((*task, means, found));
        }
        let (_, means, found) = self.last.clone().expect("the solve was just remembered");
        self.means = means;
        found
    }
}

/// The edit that four words name. The second is the action of a cell of the table, or the run of a start or goal; every
/// fourth word but 0 is present.
fn edit_of(words: &[u64]) -> Edit {
    let (action, run) = (words[1], words[1]);
    let cell = match words[0] {
        0 => Cell::Need { action },
        1 => Cell::Add { action },
        2 => Cell::Delete { action },
        3 => Cell::Start { run },
        4 => Cell::Goal { run },
        5 => Cell::Lock { action },
        _ => Cell::Unknown,
    };
    Edit { cell, fact: words[2], present: words[3] != 0 }
}

fn record_response(file: &[u8], place: u64) -> Response {
    match record_at(file, place as usize) {
        Ok(record) => Response {
            words: [0, 0, record.kind as usize, record.start, record.body.len(), record.next]
                .map(|n| n as u64)
                .to_vec(),
            bytes: record.body.to_vec(),
        },
        Err(refusal) => refused(&refusal, &[0; 4], vec![]),
    }
}

/// A refused read gives a task of zeros, of a file as of a domain text.
fn read_response(read: Result<Task, Refusal>) -> Response {
    match read {
        Ok(task) => accepted(&task.words(), vec![]),
        Err(refusal) => refused(&refusal, &Task::zeros().words(), vec![]),
    }
}

fn problem_response(text: &[u8], facts: u64) -> Response {
    match read_problem(text, facts) {
        Ok((start, goal)) => accepted(&[start, goal], vec![]),
        Err(refusal) => refused(&refusal, &[0; 2], vec![]),
    }
}

fn check_response(task: &Task, run: u64) -> Response {
    match check(task, run) {
        Ok(open) => accepted(&[open.total, open.step, open.fact], vec![]),
        Err(refusal) => refused(&refusal, &[0; 3], vec![]),
    }
}

/// So many of the numbers are the table; the others are the room.
fn list_response(task: &Task, length: usize, bytes: &[u8]) -> Option<Response> {
    let numbers = numbers_of(bytes);
    let (table, room) = numbers.split_at(length);
    let mut room = room.to_vec();
    let joined = list(task, table);
    let length = joined.and_then(|list| lend(&list, &mut room));
    length_response(length.map_err(Stop::from), bytes_of(&room))
}

/// What is written into room that is lent as these bytes.
fn written_response(room: &[u8], write: impl FnOnce(&mut [u8]) -> Result<usize, Refusal>) -> Option<Response> {
    let mut room = room.to_vec();
    let length = write(&mut room);
    length_response(length.map_err(Stop::from), room)
}

/// Number, place, length, and what was lent.
pub fn length_response(length: Result<usize, Stop>, lent: Vec<u8>) -> Option<Response> {
    match length {
        Ok(length) => Some(accepted(&[length as u64], lent)),
        Err(Stop::Refused(refusal)) => Some(refused(&refusal, &[0], lent)),
        Err(Stop::TooDear) => None,
    }
}

/// Number, place, the new task's words or, refused, "the task it was given": its words as they were, whatever they
/// were and however many; and what was lent besides.
fn task_response(given: &[u64], result: Result<Task, Stop>, lent: Vec<u8>) -> Option<Response> {
    match result {
        Ok(task) => Some(accepted(&task.words(), lent)),
        Err(Stop::Refused(refusal)) => Some(refused(&refusal, given, lent)),
        Err(Stop::TooDear) => None,
    }
}

/// "Success has number 0 and place 0."
pub fn accepted(values: &[u64], bytes: Vec<u8>) -> Response {
    Response { words: [&[0, 0], values].concat(), bytes }
}

pub fn refused(refusal: &Refusal, values: &[u64], bytes: Vec<u8>) -> Response {
    Response { words: [&[refusal.number(), refusal.place], values].concat(), bytes }
}
