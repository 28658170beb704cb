//! A table and its runs as PDDL texts (02, request 4; the layout is docs/PDDL.md): written, read, and the task put
//! together again, without its locks: "the PDDL texts don't carry locks" (02, request 6).

mod layout;
mod reader;
#[cfg(test)]
mod tests;

use crate::answer::lend;
use crate::refusal::{plain, Ground, Refusal};
use crate::task::{Facts, Run, Task, MOST_RUNS, MOST_STEPS};

pub use layout::{domain_text, problem_text};
pub use reader::{read_domain, read_problem};

/// Writes the task's domain text into lent room: 12, then 11. Gives its length.
pub fn write_domain(task: &Task, room: &mut [u8]) -> Result<usize, Refusal> {
    task.must_be_well_formed()?;
    lend(&domain_text(task), room)
}

/// Writes the problem text of the run with this number, counted from 0: 12, 14, then 11. Gives its length.
pub fn write_problem(task: &Task, run: u64, room: &mut [u8]) -> Result<usize, Refusal> {
    lend(&problem_text(task.run(run)?), room)
}

/// The task with one run more: "Steps and L are passed beside" the texts, and so a task that was read from a domain has
/// no run yet. 12 if what comes of it is not well formed: numbers that stood in the run's later step places stay there, and
/// then it is not.
pub fn add_run(task: &Task, start: Facts, goal: Facts, steps: &[u8]) -> Result<Task, Refusal> {
    if task.many >= MOST_RUNS || steps.len() > MOST_STEPS {
        return Err(plain(Ground::NotWellFormed));
    }
    let mut run = Run { start, goal, count: 0, ..task.runs[task.many] };
    steps.iter().for_each(|&step| run.push_step(step as usize));
    let mut more = *task;
    more.open_run();
    *more.last_run() = run;
    more.must_be_well_formed()?;
    Ok(more)
}
