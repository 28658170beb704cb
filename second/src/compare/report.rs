//! What a comparison prints: a difference, and at the end the counts.

use std::cmp::Ordering;
use std::fmt;

use super::lock_counts::LockCounts;
use super::sitting_counts::SittingCounts;
use crate::file::{file_of, record_around};
use crate::pddl::{read_domain, read_problem};
use crate::protocol::{Call, Request, Response, CALLS};
use crate::reference::Means;
use crate::refusal::Ground;
use crate::run::open_needs_by_old_rule;
use crate::session::ROW;
use crate::task::Task;

/// Which case a request belongs to.
#[derive(Clone, Copy, PartialEq, Eq, Debug)]
pub enum Case {
    Task(usize),
    File(usize),
    Session(usize),
    /// A task as PDDL texts.
    Texts(usize),
    /// Lists that are applied to a task in two sittings.
    Sittings(usize),
}

/// A driver's response that is not what documents 01 and 02 demand.
#[derive(Debug)]
pub struct Difference {
    pub seed: u64,
    pub case: Case,
    pub request: Request,
    pub expected: Response,
    /// What came instead, or why nothing came.
    pub got: Result<Response, String>,
}

impl fmt::Display for Difference {
    fn fmt(&self, out: &mut fmt::Formatter) -> fmt::Result {
        writeln!(out, "different: seed {}, case {:?}, call {:?}", self.seed, self.case, self.request.call)?;
        writeln!(out, "file: {}", hex(&self.file()))?;
        writeln!(out, "request words: {:?}", self.other_words())?;
        writeln!(out, "request bytes: {}", self.shown(&self.request.bytes))?;
        writeln!(out, "expected words: {:?}", self.expected.words)?;
        writeln!(out, "expected bytes: {}", self.shown(&self.expected.bytes))?;
        match &self.got {
            Ok(got) => write!(out, "got words: {:?}\ngot bytes: {}", got.words, self.shown(&got.bytes)),
            Err(why) => write!(out, "got nothing: {why}"),
        }
    }
}

impl Difference {
    fn task(&self) -> Option<Task> {
        self.request.task_words().map(Task::from_words)
    }

    /// The file that the request speaks of: its task's, or the bytes it lends. A malformed task and a text have none.
    fn file(&self) -> Vec<u8> {
        match self.task() {
            Some(task) if task.well_formed() => file_of(&task),
            None if !self.request.call.lends_text() => self.request.bytes.clone(),
            _ => vec![],
        }
    }

    /// The bytes of a text as a reader has them, others as numbers.
    fn shown(&self, bytes: &[u8]) -> String {
        if self.request.call.lends_text() {
            bytes.escape_ascii().to_string()
        } else {
            hex(bytes)
        }
    }

    /// The words that the file does not say: those after a well-formed task, or all.
    fn other_words(&self) -> &[u64] {
        match self.task() {
            Some(task) if task.well_formed() => self.request.more_words(),
            _ => &self.request.words,
        }
    }
}

fn hex(bytes: &[u8]) -> String {
    bytes.iter().map(|byte| format!("{byte:02x}")).collect::<Vec<_>>().join(" ")
}

const NUMBERS: usize = 19;
const FIRST_NUMBERS: usize = 9;

/// The refusals whose place may be within the record (02, request 2).
const WITHIN: [Ground; 2] = [Ground::Outside, Ground::Order];

/// How much was compared, and what was met on the way.
#[derive(Default)]
pub struct Counts {
    pub tasks: usize,
    pub files: usize,
    pub edits: usize,
    /// Tasks that were written and read as texts.
    pub texts: usize,
    /// Responses compared, each in every word and byte.
    pub answers: usize,
    /// Fresh solves by the definition that equalled a session's listing.
    pub agreements: usize,
    /// Tasks put together again from their texts.
    pub rebuilt: usize,
    /// Solves and listings whose solve was compared with the join of the rows.
    joined: usize,
    /// Requests not sent, because their answer was too dear to enumerate, per call.
    skipped: [usize; CALLS.len()],
    /// Responses per call and refusal number.
    numbers: [[usize; NUMBERS]; CALLS.len()],
    /// Reads with each of these refusals, by its place: the kind byte, the first number, the second number.
    within: [[usize; 3]; WITHIN.len()],
    /// Runs checked, by their total beside the one that the old rule would have given: equal, greater, smaller (02,
    /// request 3).
    totals: [usize; 3],
    /// Texts refused with 17, by the place: their end, behind a good text, behind a digit, elsewhere (02, request 4).
    outside_layout: [usize; 4],
    /// First numbers of the rows of opened tables.
    rows: [usize; FIRST_NUMBERS],
    pub locks: LockCounts,
    pub sittings: SittingCounts,
}

fn index(call: Call) -> usize {
    call as usize - 1
}

/// A response's number: its first word. A listing has no words; there it stands in the last line, if that is a refusal.
fn number_of(response: &Response) -> usize {
    match response.words.first() {
        Some(&number) => number as usize,
        None => {
            let text = String::from_utf8_lossy(&response.bytes);
            let refused = text.lines().last().and_then(|line| line.strip_prefix("refused "));
            refused.and_then(|rest| rest.split(' ').next()?.parse().ok()).unwrap_or(0)
        }
    }
}

impl Counts {
    pub fn skip(&mut self, call: Call) {
        self.skipped[index(call)] += 1;
    }

    pub fn take(&mut self, request: &Request, expected: &Response, means: Means) {
        self.answers += 1;
        self.joined += (means == Means::Join) as usize;
        let number = number_of(expected);
        self.numbers[index(request.call)][number] += 1;
        self.locks.take(request, expected);
        if number == Ground::OutsideLayout as usize {
            self.take_layout(request, expected.words[1] as usize);
        }
        if request.call == Call::Read {
            self.take_place(&request.bytes, number, expected.words[1] as usize);
        }
        if request.call == Call::Check && number == 0 {
            self.take_total(request, expected.words[2]);
        }
        if request.call == Call::Open && number == 0 {
            let numbers = crate::protocol::numbers_of(&expected.bytes);
            numbers.chunks(ROW).for_each(|row| self.rows[row[0] as usize] += 1);
        }
    }

    /// Counts a refused read by how far into its record the place is.
    fn take_place(&mut self, file: &[u8], number: usize, place: usize) {
        if let Some(which) = WITHIN.iter().position(|&ground| ground as usize == number) {
            let [_, record] = record_around(file, place).expect("5 and 6 are in a record after the first");
            self.within[which][place - record.place()] += 1;
        }
    }

    /// Counts a text outside the layout by where it leaves it.
    fn take_layout(&mut self, request: &Request, place: usize) {
        let text = &request.bytes;
        let good = |beginning: &[u8]| match request.call {
            Call::ReadProblem => read_problem(beginning, request.words[0]).is_ok(),
            _ => read_domain(beginning, 0).is_ok(),
        };
        let which = if place == text.len() {
            0
        } else if text[..place].ends_with(b"\n)\n") && good(&text[..place]) {
            1
        } else if place > 0 && text[place - 1].is_ascii_digit() {
            2
        } else {
            3
        };
        self.outside_layout[which] += 1;
    }

    /// Counts a checked run by its total beside the old rule's.
    fn take_total(&mut self, request: &Request, total: u64) {
        let task = Task::from_words(request.task_words().unwrap_or(&[]));
        let run = &task.runs[request.more_words()[0] as usize];
        let which = match total.cmp(&open_needs_by_old_rule(run, &task.table).total) {
            Ordering::Equal => 0,
            Ordering::Greater => 1,
            Ordering::Less => 2,
        };
        self.totals[which] += 1;
    }
}

impl fmt::Display for Counts {
    fn fmt(&self, out: &mut fmt::Formatter) -> fmt::Result {
        for call in CALLS {
            write!(out, "{call:?}:")?;
            for (number, count) in self.numbers[index(call)].iter().enumerate().filter(|(_, &count)| count > 0) {
                match number {
                    0 => write!(out, " answered {count}")?,
                    _ => write!(out, ", refused {number}: {count}")?,
                }
            }
            writeln!(out, ", skipped as too dear {}", self.skipped[index(call)])?;
        }
        for (ground, counts) in WITHIN.iter().zip(&self.within) {
            let number = *ground as usize;
            writeln!(out, "reads refused {number}, at the kind byte, the first number, the second: {counts:?}")?;
        }
        writeln!(out, "runs checked, total equal to the old rule's, greater, smaller: {:?}", self.totals)?;
        let places = self.outside_layout;
        writeln!(out, "texts refused 17, at their end, behind a good text, behind a digit, elsewhere: {places:?}")?;
        writeln!(out, "tasks put together again from their texts: {}", self.rebuilt)?;
        writeln!(out, "rows opened, by first number 0 to 8: {:?}", self.rows)?;
        write!(out, "{}{}", self.locks, self.sittings)?;
        writeln!(out, "solves compared with joined rows only: {}", self.joined)?;
        writeln!(out, "fresh solves that equalled a session's list: {}", self.agreements)?;
        let Counts { tasks, files, edits, texts, answers, .. } = self;
        write!(out, "compared {tasks} tasks, {files} files, {edits} edits, {texts} tasks as texts, ")?;
        write!(out, "{} tasks in two sittings: ", self.sittings.tasks)?;
        let skipped: usize = self.skipped.iter().sum();
        write!(out, "{answers} answers, none different, {skipped} skipped as too dear")
    }
}
