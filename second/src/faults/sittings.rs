//! Deliberate faults of lists in two sittings (02, request 7). Applying a list knows nothing of another one; so these stand
//! in for a library that remembers the morning, and misuses it.

use super::{refused_with, task_of, with_words_of};
use crate::drive::Broken;
use crate::protocol::{numbers_of, Call, Request, Response};
use crate::repair::{apply, made};
use crate::sittings::{without, AsWritten, Reading};
use crate::task::Task;

/// A list that was applied: to which task, and what it made of it.
#[derive(Clone)]
pub struct Morning {
    given: Task,
    list: Vec<u16>,
    made: Task,
}

/// The morning that made the request's task. A list that is applied to any other task is a morning itself.
fn morning_of(broken: &mut Broken, request: &Request, right: &Response) -> Option<Morning> {
    let task = task_of(request)?;
    if let Some(morning) = broken.morning.as_ref().filter(|morning| morning.made == task) {
        return Some(morning.clone());
    }
    if request.call == Call::Apply && refused_with(right, 0) {
        let made = Task::from_words(&right.words[2..]);
        broken.morning = Some(Morning { given: task, list: numbers_of(&request.bytes), made });
    }
    None
}

/// The morning of a second list, and that list, if the right response has this number.
fn second(broken: &mut Broken, request: &Request, right: &Response, number: u64) -> Option<(Morning, Vec<u16>)> {
    let morning = morning_of(broken, request, right)?;
    (request.call == Call::Apply && refused_with(right, number)).then(|| (morning, numbers_of(&request.bytes)))
}

/// The same of a second list that is refused for a number which the morning has made.
fn sharing(broken: &mut Broken, request: &Request, right: &Response) -> Option<(Morning, Vec<u16>)> {
    let shared = |(morning, list): &(Morning, Vec<u16>)| morning.list.contains(&list[right.words[1] as usize]);
    second(broken, request, right, 15).filter(shared)
}

/// An accepted list, with this task made.
fn accepted_with(task: &Task, right: Response) -> Response {
    with_words_of(task, Response { words: vec![0, 0], ..right })
}

/// The response with another place, if there is one.
fn at_place(place: Option<usize>, mut right: Response) -> Response {
    if let Some(place) = place {
        right.words[1] = place as u64;
    }
    right
}

/// The second list is judged on the table as first given, where a shared number is still permitted.
pub fn judged_on_the_first_table(broken: &mut Broken, request: &Request, right: Response) -> Response {
    match second(broken, request, &right, 15) {
        Some((morning, list)) if apply(&morning.given, &list).is_ok() => {
            accepted_with(&made(&morning.made, &list), right)
        }
        _ => right,
    }
}

/// 15 is at the index that the shared number has in the first list.
pub fn index_in_the_first_list(broken: &mut Broken, request: &Request, right: Response) -> Response {
    let Some((morning, list)) = sharing(broken, request, &right) else { return right };
    at_place(AsWritten.first_shared(&list, &morning.list), right)
}

/// 15 is at the index that the shared number has in the merged list.
pub fn index_in_the_merged_list(broken: &mut Broken, request: &Request, right: Response) -> Response {
    let Some((morning, list)) = sharing(broken, request, &right) else { return right };
    let shared = list[right.words[1] as usize];
    let merged = AsWritten.merged(&morning.list, &list);
    at_place(merged.iter().position(|&number| number == shared), right)
}

/// 15 is at the last number shared.
pub fn at_the_last_shared(broken: &mut Broken, request: &Request, right: Response) -> Response {
    let Some((morning, list)) = sharing(broken, request, &right) else { return right };
    at_place(list.iter().rposition(|number| morning.list.contains(number)), right)
}

/// A refused second call gives back the table first given.
pub fn refused_gives_the_first_table(broken: &mut Broken, request: &Request, right: Response) -> Response {
    match second(broken, request, &right, 15) {
        Some((morning, _)) => with_words_of(&morning.given, right),
        None => right,
    }
}

/// The second list is made on the table as first given: what the morning made is lost, unless the list is empty.
pub fn forget_the_morning(broken: &mut Broken, request: &Request, right: Response) -> Response {
    match second(broken, request, &right, 0) {
        Some((morning, list)) if !list.is_empty() => with_words_of(&made(&morning.given, &list), right),
        _ => right,
    }
}

/// A repair that is made again is taken back.
pub fn shared_taken_back(broken: &mut Broken, request: &Request, right: Response) -> Response {
    match sharing(broken, request, &right) {
        Some((morning, list)) => {
            let kept = made(&morning.given, &without(&morning.list, &list));
            accepted_with(&made(&kept, &without(&list, &morning.list)), right)
        }
        None => right,
    }
}

/// The second list has to go on above the first one's last number, as if they were one.
pub fn second_goes_on_above(broken: &mut Broken, request: &Request, mut right: Response) -> Response {
    match second(broken, request, &right, 0) {
        Some((morning, list)) if list.first().is_some_and(|number| Some(number) < morning.list.last()) => {
            right.words[0] = 15;
            with_words_of(&morning.made, right)
        }
        _ => right,
    }
}

/// A solve between the sittings answers the whole list again.
pub fn whole_list_again(broken: &mut Broken, request: &Request, right: Response) -> Response {
    match morning_of(broken, request, &right) {
        Some(morning) if request.call == Call::Solve => broken.with_task(request, &morning.given),
        _ => right,
    }
}

/// A solve between the sittings wants room for the whole list, though only the rest is written.
pub fn room_for_the_whole_list(broken: &mut Broken, request: &Request, right: Response) -> Response {
    let whole = whole_list_again(broken, request, right.clone());
    if refused_with(&right, 0) && refused_with(&whole, 11) {
        return whole;
    }
    right
}

/// The empty list is refused.
pub fn empty_list_refused(_: &mut Broken, request: &Request, mut right: Response) -> Response {
    if request.call == Call::Apply && request.bytes.is_empty() && refused_with(&right, 0) {
        right.words[0] = 15;
    }
    right
}
