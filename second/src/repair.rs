//! Repairs, their numbers, which are permitted, and applying a list of them.

use crate::refusal::{at, Ground, Refusal};
use crate::task::{has, with, Action, Task};

/// "Three kinds of repair": the value of each is 01's kind.
#[derive(Clone, Copy, PartialEq, Eq, Debug)]
pub enum Kind {
    DropDelete = 0,
    AddEffect = 1,
    DropNeed = 2,
}

pub const KINDS: [Kind; 3] = [Kind::DropDelete, Kind::AddEffect, Kind::DropNeed];

const PER_KIND: u16 = 32;
const PER_FACT: u16 = 96;

#[derive(Clone, Copy, PartialEq, Eq, Debug)]
pub struct Repair {
    pub kind: Kind,
    pub action: usize,
    pub fact: usize,
}

impl Repair {
    /// "The number of a repair is 96f + 32k + a."
    pub fn number(&self) -> u16 {
        self.fact as u16 * PER_FACT + self.kind as u16 * PER_KIND + self.action as u16
    }

    /// The repair with this number; its action is always below 32, its fact may be of no task.
    pub fn of_number(number: u16) -> Repair {
        let within = number % PER_FACT;
        Repair {
            kind: KINDS[(within / PER_KIND) as usize],
            action: (within % PER_KIND) as usize,
            fact: (number / PER_FACT) as usize,
        }
    }

    /// 01's rule for the kind. 02: "Permitted now also means 'not a locked need'."
    pub fn permitted(&self, task: &Task) -> bool {
        if self.action >= task.actions || self.fact >= task.facts {
            return false;
        }
        let cells = &task.table[self.action];
        match self.kind {
            Kind::DropDelete => has(cells.deletes, self.fact),
            Kind::AddEffect => !has(cells.adds, self.fact),
            Kind::DropNeed => has(cells.needs, self.fact) && !has(cells.locks, self.fact),
        }
    }

    /// Changes the repair's one cell of its action.
    pub fn change(&self, cells: &mut Action) {
        match self.kind {
            Kind::DropDelete => cells.deletes = with(cells.deletes, self.fact, false),
            Kind::AddEffect => cells.adds = with(cells.adds, self.fact, true),
            Kind::DropNeed => cells.needs = with(cells.needs, self.fact, false),
        }
    }
}

/// The permitted repairs of one fact, ascending.
pub fn permitted_of(task: &Task, fact: usize) -> Vec<Repair> {
    let mut repairs = Vec::new();
    for kind in KINDS {
        for action in 0..task.actions {
            let repair = Repair { kind, action, fact };
            if repair.permitted(task) {
                repairs.push(repair);
            }
        }
    }
    repairs
}

/// All permitted repairs of a task, ascending.
pub fn all_permitted(task: &Task) -> Vec<Repair> {
    (0..task.facts).flat_map(|fact| permitted_of(task, fact)).collect()
}

/// The task with these repairs made. The cells are different ones, so that "all at once" and "in turn" are the same.
pub fn repaired(task: &Task, repairs: &[Repair]) -> Task {
    let mut result = *task;
    for repair in repairs {
        repair.change(&mut result.table[repair.action]);
    }
    result
}

/// The task with the repairs of these numbers made, permitted or not.
pub fn made(task: &Task, list: &[u16]) -> Task {
    let repairs: Vec<Repair> = list.iter().map(|&number| Repair::of_number(number)).collect();
    repaired(task, &repairs)
}

/// Applying a list: 12, then 15 at the first number that is not above the one before it or names no permitted repair.
pub fn apply(task: &Task, list: &[u16]) -> Result<Task, Refusal> {
    task.must_be_well_formed()?;
    for (index, &number) in list.iter().enumerate() {
        let ascends = index == 0 || list[index - 1] < number;
        if !ascends || !Repair::of_number(number).permitted(task) {
            return Err(at(Ground::RepairList, index));
        }
    }
    Ok(made(task, list))
}
