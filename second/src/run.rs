//! The runs of a task: what a step does, whether a run is valid, and the run check ("The run check"; 02, request 3).

use crate::refusal::Refusal;
use crate::task::{Action, Facts, Run, Task};

/// "Afterwards the state is (state without deletes) joined with adds": add wins.
pub fn after(state: Facts, action: &Action) -> Facts {
    (state & !action.deletes) | action.adds
}

/// The facts of `wanted` that the state lacks.
pub fn absent(wanted: Facts, state: Facts) -> Facts {
    wanted & !state
}

/// "A run is valid if each step may run and all goals hold at the end."
pub fn valid(run: &Run, table: &[Action]) -> bool {
    let mut state = run.start;
    for action in run.actions(table) {
        if absent(action.needs, state) != 0 {
            return false;
        }
        state = after(state, action);
    }
    absent(run.goal, state) == 0
}

/// 02: the answer "makes all runs valid".
pub fn all_valid(task: &Task) -> bool {
    task.known_runs().iter().all(|run| valid(run, &task.table))
}

/// What the run check gives.
#[derive(Clone, Copy, PartialEq, Eq, Debug, Default)]
pub struct Open {
    pub total: u64,
    /// The first step with an open need, counted from 1, and its lowest absent fact; 0 and 0 if there is none.
    pub step: u64,
    pub fact: u64,
}

/// The run check of the run with this number, counted from 0: 12, then 14 for a run that isn't there.
pub fn check(task: &Task, run: u64) -> Result<Open, Refusal> {
    Ok(open_needs(task.run(run)?, &task.table))
}

/// The open needs of a run of a well-formed task, in the states that the controller has.
pub fn open_needs(run: &Run, table: &[Action]) -> Open {
    Open::of(&absences(run, table, controlled))
}

/// The same by the old rule, which is 01's: a step that can't run has "its effects [..] applied all the same". 02 asks
/// for both, to show that they tell the same runs valid.
pub fn open_needs_by_old_rule(run: &Run, table: &[Action]) -> Open {
    Open::of(&absences(run, table, after))
}

/// "The controller rejects the step, keeps the state and tries the next": a step that can't run does nothing.
pub fn controlled(state: Facts, action: &Action) -> Facts {
    if absent(action.needs, state) == 0 {
        after(state, action)
    } else {
        state
    }
}

/// The needs absent at each step of a run of a well-formed task, and last the goals absent at the end, if `step` is what
/// a step makes of the state that it meets.
pub fn absences(run: &Run, table: &[Action], mut step: impl FnMut(Facts, &Action) -> Facts) -> Vec<Facts> {
    let mut state = run.start;
    let mut absences = Vec::with_capacity(run.count + 1);
    for action in run.actions(table) {
        absences.push(absent(action.needs, state));
        state = step(state, action);
    }
    absences.push(absent(run.goal, state));
    absences
}

/// "The sum over the steps of the number of absent facts."
pub fn total(absences: &[Facts]) -> u64 {
    absences.iter().map(|absent| absent.count_ones() as u64).sum()
}

impl Open {
    /// "The total [..] with the first step that has one and its lowest fact. With none, all three are 0."
    fn of(absences: &[Facts]) -> Open {
        match absences.iter().position(|&absent| absent != 0) {
            Some(index) => {
                Open { total: total(absences), step: index as u64 + 1, fact: absences[index].trailing_zeros() as u64 }
            }
            None => Open::default(),
        }
    }
}
