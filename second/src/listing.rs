//! The text that the program prints for its input ("The listing"; 02, requests 1, 3 and 6).

use crate::answer::Budget;
use crate::file::read;
use crate::refusal::{Refusal, Stop};
use crate::repair::{Kind, Repair};
use crate::run::{open_needs, Open};
use crate::task::Task;

/// "The program's buffer becomes 28,000 bytes."
pub const MOST_INPUT: usize = 28_000;

/// The listing of an input, solved by this function (by the definition, or otherwise).
pub fn listing_by<S>(input: &[u8], solve: S) -> Result<String, Stop>
where
    S: FnOnce(&Task) -> Result<Vec<u16>, Stop>,
{
    let seen = &input[..input.len().min(MOST_INPUT)];
    let task = match read(seen) {
        Ok(task) => task,
        Err(refusal) => return Ok(refused_line(&refusal)),
    };
    let rest = match solve(&task) {
        Ok(list) => solved_lines(&list),
        Err(Stop::Refused(refusal)) => refused_line(&refusal),
        Err(Stop::TooDear) => return Err(Stop::TooDear),
    };
    Ok(task_line(&task) + &open_lines(&task) + &rest)
}

/// "The task line's steps are the sum over the runs."
fn task_line(task: &Task) -> String {
    let steps: usize = task.known_runs().iter().map(|run| run.count).sum();
    format!("task {} {} {} {steps}\n", task.facts, task.actions, task.limit)
}

/// "One open line per run, in order."
fn open_lines(task: &Task) -> String {
    task.known_runs().iter().map(|run| open_line(&open_needs(run, &task.table))).collect()
}

pub fn open_line(open: &Open) -> String {
    format!("open {} {} {}\n", open.total, open.step, open.fact)
}

/// The listing of an input, solved by the definition of the answer.
pub fn listing(input: &[u8], budget: Budget) -> Result<String, Stop> {
    listing_by(input, |task| crate::answer::answer(task, budget))
}

fn refused_line(refusal: &Refusal) -> String {
    format!("refused {} {}\n", refusal.number(), refusal.place)
}

fn solved_lines(list: &[u16]) -> String {
    let mut text = format!("set {}\n", list.len());
    for &number in list {
        let repair = Repair::of_number(number);
        let name = match repair.kind {
            Kind::DropDelete => "drop-delete",
            Kind::AddEffect => "add-effect",
            Kind::DropNeed => "drop-need",
        };
        text += &format!("{name} {} {}\n", repair.action, repair.fact);
    }
    text + "end\n"
}
