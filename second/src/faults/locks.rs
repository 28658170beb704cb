//! Deliberate faults of locks (02, request 6) in solving, in rows, in applying, in listing, and where a task is looked at.

use super::{refused_with, task_of, with_words_of};
use crate::compare::hopeless_facts;
use crate::drive::Broken;
use crate::file::{file_of, read};
use crate::protocol::{bytes_of, numbers_of, Call, Request, Response};
use crate::repair::{Kind, Repair};
use crate::run::{absences, after};
use crate::session::{row_of, MORE_THAN_SIX, NO_LIST, ROW};
use crate::task::{has, Action, Task};

/// The right response of this call to the task without its locks. What it gives back of a task has them again.
fn without_looking(broken: &mut Broken, request: &Request, right: Response, call: Call) -> Response {
    let Some(task) = task_of(request).filter(|_| request.call == call && !refused_with(&right, 12)) else {
        return right;
    };
    let response = broken.with_task(request, &task.unlocked());
    if call != Call::Apply {
        return response;
    }
    let mut given = Task::from_words(&response.words[2..]);
    given.table.iter_mut().zip(&task.table).for_each(|(action, locked)| action.locks = locked.locks);
    with_words_of(&given, response)
}

/// Applying drops locked needs, which a solve would not.
pub fn not_in_applying(broken: &mut Broken, request: &Request, right: Response) -> Response {
    without_looking(broken, request, right, Call::Apply)
}

/// A row that drops a locked need is in form.
pub fn not_in_form(broken: &mut Broken, request: &Request, right: Response) -> Response {
    without_looking(broken, request, right, Call::List)
}

/// A solve drops locked needs.
pub fn not_in_solving(broken: &mut Broken, request: &Request, right: Response) -> Response {
    without_looking(broken, request, right, Call::Solve)
}

/// Opened rows drop locked needs.
pub fn not_in_rows(broken: &mut Broken, request: &Request, right: Response) -> Response {
    without_looking(broken, request, right, Call::Open)
}

/// A conflict still offers a locked need. What no list helps is told rightly.
pub fn offered_by_conflicts(broken: &mut Broken, request: &Request, right: Response) -> Response {
    if refused_with(&right, 9) {
        return right;
    }
    not_in_solving(broken, request, right)
}

/// The fullest candidate has locked needs dropped: no lock makes a task hopeless, and 10 is given.
pub fn dropped_by_the_fullest(_: &mut Broken, request: &Request, mut right: Response) -> Response {
    match task_of(request) {
        Some(task) if request.call == Call::Solve && refused_with(&right, 9) && hopeless_facts(&task)[0] == 0 => {
            right.words[0] = 10;
            right
        }
        _ => right,
    }
}

/// A row says 8 only for a goal in a run without steps, and otherwise 7.
pub fn eight_only_without_steps(_: &mut Broken, request: &Request, mut right: Response) -> Response {
    let Some(task) = task_of(request).filter(|_| request.call == Call::Open && refused_with(&right, 0)) else {
        return right;
    };
    let [goals, _] = hopeless_facts(&task);
    let mut table = numbers_of(&right.bytes);
    for (fact, row) in table.chunks_mut(ROW).enumerate() {
        if row[0] == NO_LIST && !has(goals, fact) {
            row.copy_from_slice(&row_of(MORE_THAN_SIX, &[]));
        }
    }
    right.bytes = bytes_of(&table);
    right
}

/// A locked need that is absent at any step, and not only at a first one, makes the task hopeless.
pub fn hopeless_at_any_step(_: &mut Broken, request: &Request, right: Response) -> Response {
    let Some(task) = task_of(request).filter(|_| request.call == Call::Solve && refused_with(&right, 0)) else {
        return right;
    };
    let lacks_locked = task.known_runs().iter().any(|run| {
        let absences = absences(run, &task.table, after);
        run.actions(&task.table).zip(absences).any(|(action, absent)| action.locks & absent != 0)
    });
    if lacks_locked {
        return Response { words: vec![9, 0, 0], bytes: request.bytes.clone() };
    }
    right
}

/// A listing's solve drops locked needs.
pub fn not_in_the_listing(broken: &mut Broken, request: &Request, right: Response) -> Response {
    match read(&request.bytes) {
        Ok(task) if request.call == Call::Listing => {
            broken.right(&Request { bytes: file_of(&task.unlocked()), ..request.clone() })
        }
        _ => right,
    }
}

/// An accepted list is refused at the first repair that this rule bars.
fn barred(request: &Request, mut right: Response, bars: impl Fn(&Task, &Repair) -> bool) -> Response {
    let Some(task) = task_of(request).filter(|_| request.call == Call::Apply && refused_with(&right, 0)) else {
        return right;
    };
    let list = numbers_of(&request.bytes);
    if let Some(index) = list.iter().position(|&number| bars(&task, &Repair::of_number(number))) {
        [right.words[0], right.words[1]] = [15, index as u64];
        return with_words_of(&task, right);
    }
    right
}

/// A lock bars the delete and the add of its action and fact too.
pub fn bars_the_whole_cell(_: &mut Broken, request: &Request, right: Response) -> Response {
    barred(request, right, |task, repair| has(task.table[repair.action].locks, repair.fact))
}

/// A lock bars dropping the same need of other actions.
pub fn bars_the_fact(_: &mut Broken, request: &Request, right: Response) -> Response {
    barred(request, right, |task, repair| {
        repair.kind == Kind::DropNeed && task.table.iter().any(|action| has(action.locks, repair.fact))
    })
}

/// Applying a list takes the locks off.
pub fn taken_off_by_applying(_: &mut Broken, request: &Request, right: Response) -> Response {
    if request.call != Call::Apply || !refused_with(&right, 0) {
        return right;
    }
    with_words_of(&Task::from_words(&right.words[2..]).unlocked(), right)
}

/// The response of this call to the task with the cells of its actions changed.
fn with_cells(
    broken: &mut Broken,
    request: &Request,
    right: Response,
    call: Call,
    change: fn(&mut Action),
) -> Response {
    match task_of(request) {
        Some(mut task) if request.call == call => {
            task.table.iter_mut().for_each(change);
            broken.with_task(request, &task)
        }
        _ => right,
    }
}

/// Locks on cells that are no needs are passed over, where the task should be refused.
fn pass_over(action: &mut Action) {
    action.locks &= action.needs;
}

/// Locked needs count as none.
fn forget_locked_needs(action: &mut Action) {
    *action = Action { needs: action.needs & !action.locks, locks: 0, ..*action };
}

/// A lock on a cell that isn't a need is well formed.
pub fn well_formed_anywhere(broken: &mut Broken, request: &Request, right: Response) -> Response {
    with_cells(broken, request, right, Call::Check, pass_over)
}

/// Locked needs are not looked at in the run check.
pub fn unchecked(broken: &mut Broken, request: &Request, right: Response) -> Response {
    if !refused_with(&right, 0) {
        return right;
    }
    with_cells(broken, request, right, Call::Check, forget_locked_needs)
}

/// A domain leaves locked needs out.
pub fn left_out_of_the_domain(broken: &mut Broken, request: &Request, right: Response) -> Response {
    if !refused_with(&right, 0) {
        return right;
    }
    with_cells(broken, request, right, Call::WriteDomain, forget_locked_needs)
}

/// A task with a lock on a cell that isn't a need is written as a domain, since that carries no locks.
pub fn written_though_malformed(broken: &mut Broken, request: &Request, right: Response) -> Response {
    with_cells(broken, request, right, Call::WriteDomain, pass_over)
}

/// The needs of a domain come back locked.
pub fn read_from_a_domain(_: &mut Broken, request: &Request, right: Response) -> Response {
    if request.call != Call::ReadDomain || !refused_with(&right, 0) {
        return right;
    }
    let mut task = Task::from_words(&right.words[2..]);
    task.table.iter_mut().for_each(|action| action.locks = action.needs);
    with_words_of(&task, right)
}

/// A run more takes the locks off.
pub fn taken_off_by_a_run(_: &mut Broken, request: &Request, right: Response) -> Response {
    if request.call != Call::AddRun || !refused_with(&right, 0) {
        return right;
    }
    with_words_of(&Task::from_words(&right.words[2..]).unlocked(), right)
}
