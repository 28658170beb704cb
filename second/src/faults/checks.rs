//! Deliberate faults of the run check: what it refuses, what it counts, and what a step that can't run does (02, request
//! 3).

use super::{refused_with, task_of};
use crate::drive::Broken;
use crate::protocol::{Call, Request, Response};
use crate::run::{absences, absent, after, controlled, open_needs_by_old_rule, total};
use crate::task::{has, Action, Facts, Run, MOST_FACTS};

/// With 64 facts the last one counts as outside (a shift by 64).
pub fn no_fact_63(_: &mut Broken, request: &Request, right: Response) -> Response {
    match task_of(request) {
        Some(task) if request.call == Call::Check && task.facts == MOST_FACTS && has(task.runs[0].start, 63) => {
            Response { words: vec![12, 0, 0, 0, 0], bytes: vec![] }
        }
        _ => right,
    }
}

/// What stands for unused actions is not looked at.
pub fn unused_actions(broken: &mut Broken, request: &Request, right: Response) -> Response {
    match task_of(request) {
        Some(mut task) if request.call == Call::Check && refused_with(&right, 12) => {
            task.table.iter_mut().skip(task.actions).for_each(|action| *action = Action::default());
            broken.with_task(request, &task)
        }
        _ => right,
    }
}

/// What stands for unused runs is not looked at.
pub fn unused_runs(broken: &mut Broken, request: &Request, right: Response) -> Response {
    match task_of(request) {
        Some(mut task) if request.call == Call::Check && refused_with(&right, 12) => {
            task.runs.iter_mut().skip(task.many).for_each(|run| *run = Run::empty());
            broken.with_task(request, &task)
        }
        _ => right,
    }
}

/// A run that isn't there has no open needs.
pub fn check_beyond_is_empty(_: &mut Broken, request: &Request, right: Response) -> Response {
    if request.call == Call::Check && refused_with(&right, 14) {
        return Response { words: vec![0; 5], bytes: vec![] };
    }
    right
}

/// Delete wins where an action both adds and deletes a fact.
pub fn delete_wins(broken: &mut Broken, request: &Request, right: Response) -> Response {
    match task_of(request) {
        Some(mut task) if request.call == Call::Check => {
            task.table.iter_mut().for_each(|action| action.adds &= !action.deletes);
            broken.with_task(request, &task)
        }
        _ => right,
    }
}

/// An answered run check with another total. The first step and its lowest fact stay: up to there no step has failed,
/// and the faults below are right.
fn with_total(request: &Request, mut right: Response, wrong: impl Fn(&Run, &[Action]) -> u64) -> Response {
    if let Some(task) = task_of(request).filter(|_| request.call == Call::Check && refused_with(&right, 0)) {
        right.words[2] = wrong(&task.runs[request.more_words()[0] as usize], &task.table);
    }
    right
}

/// The total counts steps with an open need instead of absent facts.
pub fn steps_for_facts(_: &mut Broken, request: &Request, right: Response) -> Response {
    with_total(request, right, |run, table| {
        absences(run, table, controlled).iter().filter(|&&absent| absent != 0).count() as u64
    })
}

/// After a step that can't run the state is kept to the end, also by steps that may run.
pub fn kept_though_it_may_run(_: &mut Broken, request: &Request, right: Response) -> Response {
    with_total(request, right, |run, table| {
        let mut failed = false;
        let step = |state: Facts, action: &Action| {
            failed |= absent(action.needs, state) != 0;
            if failed {
                state
            } else {
                after(state, action)
            }
        };
        total(&absences(run, table, step))
    })
}

/// A step that can't run takes its effects all the same, as 01 had it.
pub fn effects_all_the_same(_: &mut Broken, request: &Request, right: Response) -> Response {
    with_total(request, right, |run, table| open_needs_by_old_rule(run, table).total)
}

/// A step that can't run adds nothing, but still deletes.
pub fn only_adds_held_back(_: &mut Broken, request: &Request, right: Response) -> Response {
    with_total(request, right, |run, table| {
        let step = |state: Facts, action: &Action| match absent(action.needs, state) {
            0 => after(state, action),
            _ => state & !action.deletes,
        };
        total(&absences(run, table, step))
    })
}

/// Needs are looked at in the controller's states, goals in the old rule's.
pub fn goals_by_the_old_rule(_: &mut Broken, request: &Request, right: Response) -> Response {
    with_total(request, right, |run, table| {
        let mut mixed = absences(run, table, controlled);
        mixed[run.count] = absences(run, table, after)[run.count];
        total(&mixed)
    })
}

/// The step after one that can't run is not tried: its needs are not counted, and it does nothing.
pub fn step_after_is_skipped(_: &mut Broken, request: &Request, right: Response) -> Response {
    with_total(request, right, |run, table| {
        let mut tried = Run { start: run.start, goal: run.goal, ..Run::empty() };
        let mut state = run.start;
        let mut failed = false;
        for &step in run.steps() {
            let action = &table[step as usize];
            if failed {
                failed = false;
                continue;
            }
            tried.push_step(step as usize);
            failed = absent(action.needs, state) != 0;
            state = controlled(state, action);
        }
        total(&absences(&tried, table, controlled))
    })
}
