//! What a comparison met of locks (02, request 6).

use std::fmt;

use crate::file::{record_around, LOCK};
use crate::protocol::{numbers_of, Call, Request, Response};
use crate::refusal::Ground;
use crate::repair::{Kind, Repair};
use crate::run::absent;
use crate::session::{in_form, NO_LIST, ROW};
use crate::task::{has, Facts, Task};

/// How often each was met.
#[derive(Default)]
pub struct LockCounts {
    /// Solves refused with 9: for a goal absent in a run without steps; for locked needs alone.
    hopeless: [usize; 2],
    /// Rows opened that say 8, by the same.
    hopeless_rows: [usize; 2],
    /// Solves of tasks with locks beside those without: no other answer, another list, 10, 9.
    beside: [usize; 4],
    /// Calls refused for locks alone: 12 of any call, 13 of a listing, 15 of an applying.
    alone: [usize; 3],
    /// Edits refused with 18: a lock set, a need cleared.
    edits: [usize; 2],
    /// Edits of locks that were made.
    edited: usize,
    /// Reads refused at a lock: 5, 6 for its kind, 6 for no ascent, 18.
    reads: [usize; 4],
}

/// The facts that no list of any length gets right: goals absent where there is no step, and locked needs absent at a
/// first step. With every repair made each step makes every fact true, so that only what is looked at before it counts.
pub fn hopeless_facts(task: &Task) -> [Facts; 2] {
    let mut hopeless = [0, 0];
    for run in task.known_runs() {
        match run.actions(&task.table).next() {
            None => hopeless[0] |= absent(run.goal, run.start),
            Some(action) => hopeless[1] |= absent(action.locks, run.start),
        }
    }
    hopeless
}

impl LockCounts {
    pub fn take(&mut self, request: &Request, expected: &Response) {
        let number = expected.words.first().copied().unwrap_or(0);
        if request.call == Call::Read {
            self.take_read(&request.bytes, number, expected.words[1] as usize);
        }
        let Some(task) = request.task_words().map(Task::from_words) else { return };
        match (request.call, number) {
            (_, 12) => self.alone[0] += task.unlocked().well_formed() as usize,
            (Call::Solve, 9) => self.hopeless[(hopeless_facts(&task)[0] == 0) as usize] += 1,
            (Call::Open, 0) => self.take_rows(&task, &numbers_of(&expected.bytes)),
            (Call::Edit, _) => self.take_edit(&task, request.more_words(), number),
            (Call::List, 13) => {
                let table = &numbers_of(&request.bytes)[..request.more_words()[0] as usize];
                self.alone[1] += in_form(&task.unlocked(), table) as usize;
            }
            (Call::Apply, 15) => self.take_list(&task, &numbers_of(&request.bytes), expected.words[1] as usize),
            _ => {}
        }
    }

    fn take_read(&mut self, file: &[u8], number: u64, place: usize) {
        let Some([_, lock]) = record_around(file, place).filter(|[_, record]| record.kind == LOCK) else { return };
        let which = match number {
            5 => 0,
            6 if place == lock.place() => 1,
            6 => 2,
            18 => 3,
            _ => return,
        };
        self.reads[which] += 1;
    }

    fn take_rows(&mut self, task: &Task, table: &[u16]) {
        let [goals, _] = hopeless_facts(task);
        for fact in (0..task.facts).filter(|fact| table[fact * ROW] == NO_LIST) {
            self.hopeless_rows[!has(goals, fact) as usize] += 1;
        }
    }

    fn take_edit(&mut self, task: &Task, edit: &[u64], number: u64) {
        if number == Ground::LockWithoutNeed as u64 {
            self.edits[(edit[0] == 0) as usize] += 1;
        }
        let changed = || has(task.table[edit[1] as usize].locks, edit[2] as usize) != (edit[3] != 0);
        self.edited += (number == 0 && edit[0] == 5 && changed()) as usize;
    }

    /// Counts a list that is refused at a locked need which stands in its right place.
    fn take_list(&mut self, task: &Task, list: &[u16], place: usize) {
        let ascends = place == 0 || list[place - 1] < list[place];
        let repair = Repair::of_number(list[place]);
        self.alone[2] += (ascends && repair.kind == Kind::DropNeed && repair.permitted(&task.unlocked())) as usize;
    }

    /// Counts the solve of a task with locks by what it gives where the task without them gives something else.
    pub fn take_beside(&mut self, locked: &Response, unlocked: &Response) {
        let which = match locked.words[0] {
            _ if locked == unlocked => 0,
            0 => 1,
            10 => 2,
            _ => 3,
        };
        self.beside[which] += 1;
    }
}

impl fmt::Display for LockCounts {
    fn fmt(&self, out: &mut fmt::Formatter) -> fmt::Result {
        writeln!(out, "solves refused 9, for a goal without steps, for locked needs alone: {:?}", self.hopeless)?;
        writeln!(out, "rows that say 8, for a goal without steps, for locked needs alone: {:?}", self.hopeless_rows)?;
        writeln!(out, "solves with locks, as without them, another list, 10, 9: {:?}", self.beside)?;
        writeln!(out, "calls refused for locks alone, with 12, 13, 15: {:?}", self.alone)?;
        writeln!(out, "edits refused 18, a lock set, a need cleared: {:?}", self.edits)?;
        writeln!(out, "edits that set or cleared a lock: {}", self.edited)?;
        writeln!(out, "reads refused at a lock, with 5, 6 for its kind, 6 for no ascent, 18: {:?}", self.reads)
    }
}
