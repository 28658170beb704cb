//! The answer by its definition: permitted lists are enumerated by length and then in order, and each is simulated.
//!
//! This is hopeless for large tasks and meant for small ones; a budget ends an enumeration that grows too dear.

use crate::refusal::{plain, Ground, Refusal, Stop};
use crate::repair::{all_permitted, repaired, Repair};
use crate::run::all_valid;
use crate::task::Task;

/// How many lists may still be simulated.
#[derive(Clone, Copy)]
pub struct Budget {
    left: u64,
}

impl Budget {
    pub const fn of(lists: u64) -> Budget {
        Budget { left: lists }
    }

    fn spend_one(&mut self) -> Result<(), Stop> {
        self.left = self.left.checked_sub(1).ok_or(Stop::TooDear)?;
        Ok(())
    }
}

/// What an enumeration finds.
#[derive(Clone, PartialEq, Eq, Debug)]
pub enum Found {
    /// The first of the shortest lists that work.
    List(Vec<u16>),
    /// Some list works, but none as short as asked.
    NoneSoShort,
    /// No permitted list of any length works.
    NoneAtAll,
}

/// The first of the shortest lists of these repairs (ascending) that make all the task's runs valid, with at most
/// `longest`.
///
/// That no list of any length works is decided by making all the repairs: each repair only enlarges the later states
/// or drops a need, so runs that some list makes valid stay valid with all the others made beside it. A locked need is
/// dropped by none of them.
pub fn first_of_shortest(task: &Task, repairs: &[Repair], longest: usize, budget: Budget) -> Result<Found, Stop> {
    if !all_valid(&repaired(task, repairs)) {
        return Ok(Found::NoneAtAll);
    }
    let mut search = Enumeration { task: *task, repairs, chosen: Vec::new(), budget };
    for length in 0..=longest.min(repairs.len()) {
        if search.some_list_works(0, length)? {
            return Ok(Found::List(search.chosen.iter().map(Repair::number).collect()));
        }
    }
    Ok(Found::NoneSoShort)
}

/// An enumeration under way: `task` is the given task with the chosen repairs made.
struct Enumeration<'a> {
    task: Task,
    repairs: &'a [Repair],
    chosen: Vec<Repair>,
    budget: Budget,
}

impl Enumeration<'_> {
    /// Tries in order all lists that extend the chosen one by `more` of the repairs from `from` on. If one works it
    /// is left chosen. Repairs ascend, so lists of one length come in 01's order.
    fn some_list_works(&mut self, from: usize, more: usize) -> Result<bool, Stop> {
        if more == 0 {
            self.budget.spend_one()?;
            return Ok(all_valid(&self.task));
        }
        for index in from..=self.repairs.len() - more {
            let repair = self.repairs[index];
            let before = self.task.table[repair.action];
            repair.change(&mut self.task.table[repair.action]);
            self.chosen.push(repair);
            if self.some_list_works(index + 1, more - 1)? {
                return Ok(true);
            }
            self.chosen.pop();
            self.task.table[repair.action] = before;
        }
        Ok(false)
    }
}

/// The answer of a task within its limit: refusals 12, 9 and 10.
pub fn answer(task: &Task, budget: Budget) -> Result<Vec<u16>, Stop> {
    task.must_be_well_formed()?;
    match first_of_shortest(task, &all_permitted(task), task.limit, budget)? {
        Found::List(list) => Ok(list),
        Found::NoneSoShort => Err(plain(Ground::NoListWithinLimit).into()),
        Found::NoneAtAll => Err(plain(Ground::NoListAtAll).into()),
    }
}

/// Puts a result into lent room from its first place on, or refuses with 11 and writes nothing. Gives its length.
pub fn lend<T: Copy>(result: &[T], room: &mut [T]) -> Result<usize, Refusal> {
    if room.len() < result.len() {
        return Err(plain(Ground::ShortRoom));
    }
    room[..result.len()].copy_from_slice(result);
    Ok(result.len())
}
