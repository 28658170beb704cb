//! The task file ("The task file"; 02, requests 1, 2 and 6): the record reader, the reader of a whole file, the writer.

use crate::answer::lend;
use crate::refusal::{at, Ground, Refusal};
use crate::task::{facts_in, has, sizes_in_range, with, Action, Facts, Run, Task, MOST_RUNS, MOST_STEPS};

pub const SIZES: u8 = 1;
pub const START: u8 = 2;
pub const GOAL: u8 = 3;
pub const NEED: u8 = 4;
pub const ADD: u8 = 5;
pub const DELETE: u8 = 6;
pub const STEP: u8 = 7;
pub const END: u8 = 8;
/// Opens a further run.
pub const RUN: u8 = 9;
/// "Kind 10 with action and fact marks a need as locked."
pub const LOCK: u8 = 10;

/// The kinds of the table's cells; only the first run has them.
pub const TABLE_KINDS: [u8; 4] = [NEED, ADD, DELETE, LOCK];

/// The known kinds in the order in which they "never go down": kind 10 "stands after kind 6 and before kind 7".
const IN_ORDER: [u8; 10] = [SIZES, START, GOAL, NEED, ADD, DELETE, LOCK, STEP, RUN, END];

/// How many bytes a kind's body has; none if there is no such kind.
pub fn body_length(kind: u8) -> Option<usize> {
    match kind {
        SIZES => Some(3),
        START | GOAL | STEP => Some(1),
        NEED | ADD | DELETE | LOCK => Some(2),
        END | RUN => Some(0),
        _ => None,
    }
}

/// What each number of a kind's body must be below: A for an action, F for a fact. Nothing for a kind that names none.
pub fn bounds(kind: u8, facts: usize, actions: usize) -> Vec<usize> {
    match kind {
        START | GOAL => vec![facts],
        NEED | ADD | DELETE | LOCK => vec![actions, facts],
        STEP => vec![actions],
        _ => vec![],
    }
}

/// A record of a file; its body is that part of the file.
#[derive(Clone, Copy, PartialEq, Eq, Debug)]
pub struct Record<'a> {
    pub kind: u8,
    pub body: &'a [u8],
    /// Where the body starts, and where the next record starts.
    pub start: usize,
    pub next: usize,
}

impl Record<'_> {
    /// Where the record starts, which is the place of its kind byte.
    pub fn place(&self) -> usize {
        self.start - 1
    }
}

/// The known kind at a place: 1 at or past the end, 2 for an unknown one.
fn kind_at(file: &[u8], place: usize) -> Result<u8, Refusal> {
    let kind = *file.get(place).ok_or(at(Ground::NoEnd, place))?;
    match body_length(kind) {
        Some(_) => Ok(kind),
        None => Err(at(Ground::UnknownKind, place)),
    }
}

/// The record at any place of a file: 1 or 2 at that place if there is none.
pub fn record_at(file: &[u8], place: usize) -> Result<Record<'_>, Refusal> {
    let kind = kind_at(file, place)?;
    let start = place + 1;
    let next = start + body_length(kind).unwrap_or(0);
    let body = file.get(start..next).ok_or(at(Ground::NoEnd, place))?;
    Ok(Record { kind, body, start, next })
}

/// The records from the start of a file on, up to its end record or the first place without a record.
pub fn records(file: &[u8]) -> Vec<Record<'_>> {
    let mut found: Vec<Record> = Vec::new();
    while !found.last().is_some_and(|last| last.kind == END) {
        let place = found.last().map_or(0, |last| last.next);
        match record_at(file, place) {
            Ok(record) => found.push(record),
            Err(_) => break,
        }
    }
    found
}

/// The record that this place of a file stands in, and before it the record that it follows; none for the first.
pub fn record_around(file: &[u8], place: usize) -> Option<[Record<'_>; 2]> {
    let found = records(file);
    let pair = found.windows(2).find(|pair| (pair[1].place()..pair[1].next).contains(&place))?;
    Some([pair[0], pair[1]])
}

/// Reads a whole file. The first faulty record decides; within it 1 (no kind byte), 2, 3, 1 (short body), 4, 5, 6, 16,
/// 18, 7; then 8 after a good end, at the first such byte. The others are at the record's start, but 5 and 6 at the byte
/// that is wrong (02, request 2).
pub fn read(file: &[u8]) -> Result<Task, Refusal> {
    let mut reading = Reading { task: Task::zeros(), last: None };
    let mut place = 0;
    loop {
        let kind = kind_at(file, place)?;
        reading.size_record_comes_first_and_once(kind, place)?;
        let record = record_at(file, place)?;
        sizes_fit(&record)?;
        reading.numbers_fit(&record)?;
        reading.order_holds(&record)?;
        reading.take(&record)?;
        place = record.next;
        if record.kind == END {
            break;
        }
        reading.last = Some(record);
    }
    if place < file.len() {
        return Err(at(Ground::AfterEnd, place));
    }
    Ok(reading.task)
}

/// Refusal 4.
fn sizes_fit(record: &Record) -> Result<(), Refusal> {
    match (record.kind, record.body) {
        (SIZES, &[facts, actions, limit]) if !sizes_in_range(facts as usize, actions as usize, limit as usize) => {
            Err(at(Ground::SizeRange, record.place()))
        }
        _ => Ok(()),
    }
}

/// Where a record breaks the order, if it does. "Kinds never go down. Within each of kinds 2 to 6 the bodies strictly
/// ascend, first number first", and those of kind 10 too. In a further run the order begins anew, and it holds no table
/// kind; kind 9 and the end are never too early. The place is "the kind byte if the kind is out of order and the first
/// body byte otherwise" (02, request 2).
pub fn order_breaks_at(last: &Record, record: &Record, further: bool) -> Option<usize> {
    let table_kind = TABLE_KINDS.contains(&record.kind);
    let down = last.kind != RUN && turn(record.kind) < turn(last.kind);
    if down || (further && table_kind) {
        return Some(record.place());
    }
    let ascending = table_kind || [START, GOAL].contains(&record.kind);
    (ascending && record.kind == last.kind && record.body <= last.body).then_some(record.start)
}

/// Which turn a known kind has in the order.
fn turn(kind: u8) -> Option<usize> {
    IN_ORDER.iter().position(|&known| known == kind)
}

/// What has been read so far, and the last record.
struct Reading<'a> {
    task: Task,
    last: Option<Record<'a>>,
}

impl<'a> Reading<'a> {
    fn size_record_comes_first_and_once(&self, kind: u8, place: usize) -> Result<(), Refusal> {
        let first = self.last.is_none();
        if first != (kind == SIZES) {
            return Err(at(Ground::SizeRecord, place));
        }
        Ok(())
    }

    /// Refusal 5, at "the offset of the first number that is outside" (02, request 2).
    fn numbers_fit(&self, record: &Record) -> Result<(), Refusal> {
        let bounds = bounds(record.kind, self.task.facts, self.task.actions);
        let outside = record.body.iter().zip(bounds).position(|(&number, bound)| number as usize >= bound);
        outside.map_or(Ok(()), |index| Err(at(Ground::Outside, record.start + index)))
    }

    /// Refusal 6.
    fn order_holds(&self, record: &Record) -> Result<(), Refusal> {
        let further = self.task.many > 1;
        let place = self.last.and_then(|last| order_breaks_at(&last, record, further));
        place.map_or(Ok(()), |place| Err(at(Ground::Order, place)))
    }

    /// Takes a record that fits into the task; a ninth run, a lock on a cell that isn't a need and a run's 65th step are
    /// refused.
    fn take(&mut self, record: &Record) -> Result<(), Refusal> {
        let task = &mut self.task;
        let place = record.place();
        let set = |facts: &mut Facts, fact: u8| *facts = with(*facts, fact as usize, true);
        match (record.kind, record.body) {
            (SIZES, &[facts, actions, limit]) => *task = Task::sized(facts as usize, actions as usize, limit as usize),
            (START, &[fact]) => set(&mut task.last_run().start, fact),
            (GOAL, &[fact]) => set(&mut task.last_run().goal, fact),
            (NEED, &[action, fact]) => set(&mut task.table[action as usize].needs, fact),
            (ADD, &[action, fact]) => set(&mut task.table[action as usize].adds, fact),
            (DELETE, &[action, fact]) => set(&mut task.table[action as usize].deletes, fact),
            (RUN, _) if task.many == MOST_RUNS => return Err(at(Ground::TooManyRuns, place)),
            (RUN, _) => task.open_run(),
            (LOCK, &[action, fact]) if !has(task.table[action as usize].needs, fact as usize) => {
                return Err(at(Ground::LockWithoutNeed, place));
            }
            (LOCK, &[action, fact]) => set(&mut task.table[action as usize].locks, fact),
            (STEP, _) if task.last_run().count == MOST_STEPS => return Err(at(Ground::TooManySteps, place)),
            (STEP, &[action]) => task.last_run().push_step(action as usize),
            _ => {}
        }
        Ok(())
    }
}

/// The file of a well-formed task: the table stands between the first run's goals and its steps.
pub fn file_of(task: &Task) -> Vec<u8> {
    let mut file = vec![SIZES, task.facts as u8, task.actions as u8, task.limit as u8];
    for (index, run) in task.known_runs().iter().enumerate() {
        if index > 0 {
            file.push(RUN);
        }
        file.extend(ends_of(run));
        if index == 0 {
            file.extend(table_of(task));
        }
        file.extend(run.steps().iter().flat_map(|&step| [STEP, step]));
    }
    file.push(END);
    file
}

/// The records of a run's starts and goals.
fn ends_of(run: &Run) -> Vec<u8> {
    let of_kind = |(kind, set)| facts_in(set).flat_map(move |fact| [kind, fact as u8]);
    [(START, run.start), (GOAL, run.goal)].into_iter().flat_map(of_kind).collect()
}

/// The records of the needs, adds, deletes and locks.
fn table_of(task: &Task) -> Vec<u8> {
    let mut records = Vec::new();
    for kind in TABLE_KINDS {
        for (index, action) in task.table[..task.actions].iter().enumerate() {
            records.extend(facts_in(cells(action, kind)).flat_map(|fact| [kind, index as u8, fact as u8]));
        }
    }
    records
}

/// The set of an action that the records of this kind list.
fn cells(action: &Action, kind: u8) -> Facts {
    match kind {
        NEED => action.needs,
        ADD => action.adds,
        DELETE => action.deletes,
        _ => action.locks,
    }
}

/// Writes a task's file into lent room: 12, then 11. Gives its length.
pub fn write(task: &Task, room: &mut [u8]) -> Result<usize, Refusal> {
    task.must_be_well_formed()?;
    lend(&file_of(task), room)
}
