//! The edit session ("The session table"; 02, request 6): a row per fact, opening, editing, the test of form, and listing.

use crate::answer::{first_of_shortest, Budget, Found};
use crate::refusal::{plain, Ground, Refusal, Stop};
use crate::repair::{permitted_of, Repair};
use crate::task::{has, only, with, Facts, Task, MOST_FACTS};

pub const ROW: usize = 7;
pub const TABLE: usize = MOST_FACTS * ROW;
/// What stands in a place that is not used.
pub const UNUSED: u16 = 65535;
/// First numbers of rows without a list: the shortest has more than six; there is none of any length.
pub const MORE_THAN_SIX: u16 = 7;
pub const NO_LIST: u16 = 8;

const ROW_LONGEST: usize = 6;

type Row = [u16; ROW];

/// The task with the cells, starts and goals of this one fact only. All its runs are valid exactly if the fact is
/// "present wherever it is needed, and at the end if it is a goal", in each of them.
fn alone(task: &Task, fact: usize) -> Task {
    let mut column = *task;
    for action in &mut column.table {
        action.needs &= only(fact);
        action.adds &= only(fact);
        action.deletes &= only(fact);
        action.locks &= only(fact);
    }
    for run in &mut column.runs {
        run.start &= only(fact);
        run.goal &= only(fact);
    }
    column
}

/// The row of a fact: "the first of the shortest that keep this one fact right".
pub fn row(task: &Task, fact: usize, budget: Budget) -> Result<Row, Stop> {
    let repairs = permitted_of(task, fact);
    let found = first_of_shortest(&alone(task, fact), &repairs, ROW_LONGEST, budget)?;
    Ok(match found {
        Found::List(list) => row_of(list.len() as u16, &list),
        Found::NoneSoShort => row_of(MORE_THAN_SIX, &[]),
        Found::NoneAtAll => row_of(NO_LIST, &[]),
    })
}

/// The row with this first number and these repairs.
pub fn row_of(first: u16, list: &[u16]) -> Row {
    let mut row = [UNUSED; ROW];
    row[0] = first;
    row[1..=list.len()].copy_from_slice(list);
    row
}

/// The row of a fact at or above F.
fn empty_row() -> Row {
    row_of(0, &[])
}

fn must_have_length(table: &[u16]) -> Result<(), Refusal> {
    if table.len() == TABLE {
        Ok(())
    } else {
        Err(plain(Ground::Table))
    }
}

/// Opening fills all rows: 12, 13. Gives the table's length.
pub fn open(task: &Task, table: &mut [u16], budget: Budget) -> Result<usize, Stop> {
    task.must_be_well_formed()?;
    must_have_length(table)?;
    table.copy_from_slice(&rows(task, budget)?);
    Ok(TABLE)
}

/// All 64 rows of a well-formed task.
pub fn rows(task: &Task, budget: Budget) -> Result<Vec<u16>, Stop> {
    let mut rows = Vec::with_capacity(TABLE);
    for fact in 0..MOST_FACTS {
        rows.extend(if fact < task.facts { row(task, fact, budget)? } else { empty_row() });
    }
    Ok(rows)
}

/// "An edit names a kind of cell with its action and fact, or a start or goal fact." 02: "A start or goal edit [..]
/// name[s its] run", and "edits can set and clear a lock". A kind of cell that isn't there is unknown.
#[derive(Clone, Copy, PartialEq, Eq, Debug)]
pub enum Cell {
    Need { action: u64 },
    Add { action: u64 },
    Delete { action: u64 },
    Start { run: u64 },
    Goal { run: u64 },
    Lock { action: u64 },
    Unknown,
}

#[derive(Clone, Copy, PartialEq, Eq, Debug)]
pub struct Edit {
    pub cell: Cell,
    pub fact: u64,
    pub present: bool,
}

impl Edit {
    /// The set that the edit changes: none if the kind, the fact, the action of a cell, or the run of a start or goal, is
    /// not there.
    fn set_of<'a>(&self, task: &'a mut Task) -> Option<&'a mut Facts> {
        if self.fact >= task.facts as u64 {
            return None;
        }
        let (table, runs) = (&mut task.table[..task.actions], &mut task.runs[..task.many]);
        match self.cell {
            Cell::Need { action } => Some(&mut at_mut(table, action)?.needs),
            Cell::Add { action } => Some(&mut at_mut(table, action)?.adds),
            Cell::Delete { action } => Some(&mut at_mut(table, action)?.deletes),
            Cell::Start { run } => Some(&mut at_mut(runs, run)?.start),
            Cell::Goal { run } => Some(&mut at_mut(runs, run)?.goal),
            Cell::Lock { action } => Some(&mut at_mut(table, action)?.locks),
            Cell::Unknown => None,
        }
    }

    /// "18 for a lock set on a cell that isn't a need, or a need cleared under a lock." Only for an edit of a cell that is
    /// there.
    fn must_leave_locks_on_needs(&self, task: &Task) -> Result<(), Refusal> {
        let cell_of = |action: u64| &task.table[action as usize];
        let fact = self.fact as usize;
        let without_need = match self.cell {
            Cell::Lock { action } => self.present && !has(cell_of(action).needs, fact),
            Cell::Need { action } => !self.present && has(cell_of(action).locks, fact),
            _ => false,
        };
        if without_need {
            Err(plain(Ground::LockWithoutNeed))
        } else {
            Ok(())
        }
    }
}

/// The item with this number, if it is there.
fn at_mut<T>(items: &mut [T], index: u64) -> Option<&mut T> {
    items.get_mut(usize::try_from(index).ok()?)
}

/// An edit: 12, 13, 14, 18. Gives the edited task and writes the fact's row afresh; "other rows are kept as found".
pub fn edit(task: &Task, edit: &Edit, table: &mut [u16], budget: Budget) -> Result<Task, Stop> {
    task.must_be_well_formed()?;
    must_have_length(table)?;
    let fact = edit.fact as usize;
    let mut edited = *task;
    let set = edit.set_of(&mut edited).ok_or(plain(Ground::NotThere))?;
    edit.must_leave_locks_on_needs(task)?;
    *set = with(*set, fact, edit.present);
    table[fact * ROW..][..ROW].copy_from_slice(&row(&edited, fact, budget)?);
    Ok(edited)
}

/// "A table is in form for a task if it has 448 numbers and each row has a first number 0 to 8, that many permitted,
/// ascending repairs of its own fact (none for 7 and 8), and 65535 elsewhere; rows from F up are empty."
pub fn in_form(task: &Task, table: &[u16]) -> bool {
    table.len() == TABLE && table.chunks(ROW).enumerate().all(|(fact, row)| row_in_form(task, fact, row))
}

fn row_in_form(task: &Task, fact: usize, row: &[u16]) -> bool {
    if fact >= task.facts {
        return row == empty_row();
    }
    if row[0] > NO_LIST {
        return false;
    }
    let (list, rest) = row[1..].split_at(list_length(row));
    let own = |&number: &u16| {
        let repair = Repair::of_number(number);
        repair.fact == fact && repair.permitted(task)
    };
    list.iter().all(own) && list.windows(2).all(|pair| pair[0] < pair[1]) && rest.iter().all(|&number| number == UNUSED)
}

/// How many repairs a row holds.
fn list_length(row: &[u16]) -> usize {
    match row[0] {
        MORE_THAN_SIX | NO_LIST => 0,
        length => length as usize,
    }
}

/// Listing: 12, 13, then 9 and 10 read off the rows. Gives the joined list, which the caller lends room for.
pub fn list(task: &Task, table: &[u16]) -> Result<Vec<u16>, Refusal> {
    task.must_be_well_formed()?;
    if !in_form(task, table) {
        return Err(plain(Ground::Table));
    }
    join(table, task.limit)
}

/// Joins rows in form, in order of fact.
fn join(table: &[u16], limit: usize) -> Result<Vec<u16>, Refusal> {
    let some_row_says = |first: u16| table.chunks(ROW).any(|row| row[0] == first);
    if some_row_says(NO_LIST) {
        return Err(plain(Ground::NoListAtAll));
    }
    let joined: Vec<u16> = table.chunks(ROW).flat_map(|row| row[1..][..list_length(row)].to_vec()).collect();
    if some_row_says(MORE_THAN_SIX) || joined.len() > limit {
        return Err(plain(Ground::NoListWithinLimit));
    }
    Ok(joined)
}

/// The answer as the join of the rows (003: each fact can be diagnosed by itself). Not the definition: it stands in
/// where enumerating lists of the whole table is too dear, and is compared with the definition wherever both are had.
pub fn joined_answer(task: &Task, budget: Budget) -> Result<Vec<u16>, Stop> {
    task.must_be_well_formed()?;
    Ok(join(&rows(task, budget)?, task.limit)?)
}
