//! Deliberate faults of the PDDL texts (02, request 4): what is written, where 17 is, which sizes are looked at, and a
//! run more.

use super::{refused_with, task_of, with_words_of};
use crate::drive::Broken;
use crate::pddl::domain_text;
use crate::protocol::{Call, Request, Response};
use crate::task::{Task, HIGHEST_LIMIT, MOST_ACTIONS, MOST_FACTS, MOST_RUNS, MOST_STEPS, WORDS};

const FACT_LINE: &[u8] = b"    (";
const DELETE_LINE: &[u8] = b"    (not";

/// The text with every block of lines of facts, from so many blocks on, put in another order.
fn reordered(text: &[u8], from: usize, order: fn(&mut [&[u8]])) -> Vec<u8> {
    let mut lines: Vec<&[u8]> = text.split_inclusive(|&byte| byte == b'\n').collect();
    let blocks = lines.split_mut(|line| !line.starts_with(FACT_LINE)).filter(|block| !block.is_empty());
    blocks.skip(from).for_each(order);
    lines.concat()
}

/// The written text with its blocks put in another order.
fn written_otherwise(mut right: Response, from: usize, order: fn(&mut [&[u8]])) -> Response {
    let length = right.words[2] as usize;
    let text = reordered(&right.bytes[..length], from, order);
    right.bytes[..length].copy_from_slice(&text);
    right
}

fn is_write(request: &Request) -> bool {
    [Call::WriteDomain, Call::WriteProblem].contains(&request.call)
}

fn is_read(request: &Request) -> bool {
    [Call::ReadDomain, Call::ReadProblem].contains(&request.call)
}

/// A delete that is also an add is left out.
pub fn delete_of_an_add(broken: &mut Broken, request: &Request, right: Response) -> Response {
    match task_of(request) {
        Some(mut task) if request.call == Call::WriteDomain && task.well_formed() => {
            task.table.iter_mut().for_each(|action| action.deletes &= !action.adds);
            broken.with_task(request, &task)
        }
        _ => right,
    }
}

/// Deletes are written before adds.
pub fn deletes_before_adds(_: &mut Broken, request: &Request, right: Response) -> Response {
    match request.call {
        Call::WriteDomain => {
            written_otherwise(right, 0, |block| block.sort_by_key(|line| !line.starts_with(DELETE_LINE)))
        }
        _ => right,
    }
}

/// Facts are written in descending order: needs, adds, deletes, starts and goals, each among themselves.
pub fn descending(_: &mut Broken, request: &Request, right: Response) -> Response {
    let descend = |block: &mut [&[u8]]| {
        block.reverse();
        block.sort_by_key(|line| line.starts_with(DELETE_LINE));
    };
    match request.call {
        Call::WriteDomain => written_otherwise(right, 1, descend),
        Call::WriteProblem => written_otherwise(right, 0, descend),
        _ => right,
    }
}

/// A run that isn't there is refused before a task that is not well formed.
pub fn run_before_form(_: &mut Broken, request: &Request, mut right: Response) -> Response {
    let Some(task) = task_of(request) else { return right };
    if request.call == Call::WriteProblem && refused_with(&right, 12) && !task.has_run(request.more_words()[0]) {
        right.words[0] = 14;
    }
    right
}

/// Whichever run is named, the first one's problem is written.
pub fn first_problem(broken: &mut Broken, request: &Request, right: Response) -> Response {
    if request.call != Call::WriteProblem || !refused_with(&right, 0) {
        return right;
    }
    let words = [request.task_words().unwrap_or(&[]), &[0]].concat();
    broken.right(&Request { words, ..request.clone() })
}

/// Room that is too short is filled as far as it goes.
pub fn short_room_filled(_: &mut Broken, request: &Request, mut right: Response) -> Response {
    match task_of(request) {
        Some(task) if request.call == Call::WriteDomain && refused_with(&right, 11) => {
            right.bytes.iter_mut().zip(domain_text(&task)).for_each(|(byte, written)| *byte = written);
            right
        }
        _ => right,
    }
}

/// What is left of the room is cleared.
pub fn rest_of_room_cleared(_: &mut Broken, request: &Request, mut right: Response) -> Response {
    if is_write(request) && refused_with(&right, 0) {
        let length = right.words[2] as usize;
        right.bytes[length..].fill(0);
    }
    right
}

/// A text that was refused with 17, and the place.
fn outside_layout<'a>(request: &'a Request, right: &Response) -> Option<(&'a [u8], usize)> {
    let refused = is_read(request) && refused_with(right, 17);
    refused.then(|| (request.bytes.as_slice(), right.words[1] as usize))
}

/// The refusal at another place, if this finds one for the text and its right place.
fn placed(request: &Request, mut right: Response, other: impl FnOnce(&[u8], usize) -> Option<usize>) -> Response {
    if let Some(place) = outside_layout(request, &right).and_then(|(text, place)| other(text, place)) {
        right.words[1] = place as u64;
    }
    right
}

/// Where the line starts that this place is in.
fn line_start(text: &[u8], place: usize) -> usize {
    text[..place].iter().rposition(|&byte| byte == b'\n').map_or(0, |end| end + 1)
}

/// 17 is at the start of the line.
pub fn at_the_line(_: &mut Broken, request: &Request, right: Response) -> Response {
    placed(request, right, |text, place| Some(line_start(text, place)))
}

/// 17 of a good text with a tail is at the length of both.
pub fn tail_at_the_length(broken: &mut Broken, request: &Request, right: Response) -> Response {
    let Some((text, place)) = outside_layout(request, &right) else { return right };
    let good = broken.right(&Request { bytes: text[..place].to_vec(), ..request.clone() });
    if refused_with(&good, 0) {
        return placed(request, right, |text, _| Some(text.len()));
    }
    right
}

fn is_digit(text: &[u8], place: usize) -> bool {
    text.get(place).is_some_and(u8::is_ascii_digit)
}

/// 17 is one too far where a number goes on with a digit, though no number of the layout goes on with that one: f1 and
/// f10 are there, and f12 isn't.
pub fn a_digit_too_far(_: &mut Broken, request: &Request, right: Response) -> Response {
    placed(request, right, |text, place| {
        (place > 0 && is_digit(text, place - 1) && is_digit(text, place)).then_some(place + 1)
    })
}

/// 17 in or behind a number is at its first digit, as if numbers were compared as wholes.
pub fn at_the_number(_: &mut Broken, request: &Request, right: Response) -> Response {
    placed(request, right, |text, place| (0..place).rev().take_while(|&before| is_digit(text, before)).last())
}

/// A 65th predicate counts as the layout's up to its number. Of a line of a fact the first two spaces may close the
/// predicates, and no more.
pub fn a_65th_predicate(_: &mut Broken, request: &Request, right: Response) -> Response {
    let line = format!("    (f{MOST_FACTS}");
    placed(request, right, |text, place| {
        let start = place.checked_sub("  ".len())?;
        let of_domain = request.call == Call::ReadDomain;
        (of_domain && text[start..].starts_with(line.as_bytes())).then_some(start + line.len())
    })
}

/// A 33rd action counts as the layout's up to its number.
pub fn a_33rd_action(_: &mut Broken, request: &Request, right: Response) -> Response {
    let head = format!("  (:action a{MOST_ACTIONS}");
    placed(request, right, |text, place| text[place..].starts_with(head.as_bytes()).then_some(place + head.len()))
}

/// The read of another text, if it is a good one.
fn read_instead(broken: &mut Broken, request: &Request, right: Response, bytes: Vec<u8>) -> Response {
    let other = broken.right(&Request { bytes, ..request.clone() });
    if refused_with(&other, 0) {
        other
    } else {
        right
    }
}

/// A conjunction is read in any order.
pub fn any_order(broken: &mut Broken, request: &Request, right: Response) -> Response {
    let Some((text, _)) = outside_layout(request, &right) else { return right };
    let ascend = |block: &mut [&[u8]]| block.sort_by_key(|line| (line.starts_with(DELETE_LINE), line.len(), *line));
    read_instead(broken, request, right, reordered(text, 0, ascend))
}

/// White space after a text is passed over.
pub fn white_space_after(broken: &mut Broken, request: &Request, right: Response) -> Response {
    let Some((text, place)) = outside_layout(request, &right) else { return right };
    let white = text[place..].iter().all(u8::is_ascii_whitespace);
    let text = if white { &text[..place] } else { text };
    read_instead(broken, request, right, text.to_vec())
}

/// Leading zeros of numbers are passed over.
pub fn leading_zeros(broken: &mut Broken, request: &Request, right: Response) -> Response {
    let Some((text, _)) = outside_layout(request, &right) else { return right };
    let leads =
        |place: usize| text[place] == b'0' && is_digit(text, place + 1) && !(place > 0 && is_digit(text, place - 1));
    let kept = (0..text.len()).filter(|&place| !leads(place)).map(|place| text[place]).collect();
    read_instead(broken, request, right, kept)
}

/// The F that is given to the problem reader may be out of range.
pub fn any_number_of_facts(broken: &mut Broken, request: &Request, right: Response) -> Response {
    if request.call == Call::ReadProblem && refused_with(&right, 4) {
        return broken.right(&Request { words: vec![MOST_FACTS as u64], ..request.clone() });
    }
    right
}

/// 4 is given only to a text that is a problem over some facts.
pub fn facts_after_the_text(broken: &mut Broken, request: &Request, right: Response) -> Response {
    if request.call != Call::ReadProblem || !refused_with(&right, 4) {
        return right;
    }
    let read = broken.right(&Request { words: vec![MOST_FACTS as u64], ..request.clone() });
    if refused_with(&read, 0) {
        right
    } else {
        read
    }
}

/// A problem may speak of any of 64 facts, whatever F was given.
pub fn facts_above(broken: &mut Broken, request: &Request, right: Response) -> Response {
    if request.call == Call::ReadProblem && refused_with(&right, 17) {
        return broken.right(&Request { words: vec![MOST_FACTS as u64], ..request.clone() });
    }
    right
}

/// Where the limit stands in the response to a read domain.
const LIMIT_WORD: usize = 4;

/// A refused domain still gives the limit back.
pub fn refused_keeps_the_limit(_: &mut Broken, request: &Request, mut right: Response) -> Response {
    if request.call == Call::ReadDomain && !refused_with(&right, 0) {
        right.words[LIMIT_WORD] = request.words[0];
    }
    right
}

/// A limit above six is given back as six.
pub fn limit_at_most_six(_: &mut Broken, request: &Request, mut right: Response) -> Response {
    if request.call == Call::ReadDomain {
        right.words[LIMIT_WORD] = right.words[LIMIT_WORD].min(HIGHEST_LIMIT as u64);
    }
    right
}

/// The task that a run was added to.
fn added(request: &Request, right: &Response) -> Option<Task> {
    let answered = request.call == Call::AddRun && refused_with(right, 0);
    answered.then(|| Task::from_words(&right.words[2..]))
}

/// The task that a run was not added to, if it is one.
fn not_added(request: &Request, right: &Response) -> Option<Task> {
    let refused = request.call == Call::AddRun && refused_with(right, 12) && right.words.len() == 2 + WORDS;
    refused.then(|| Task::from_words(&right.words[2..]))
}

/// The new run comes first.
pub fn new_run_first(_: &mut Broken, request: &Request, right: Response) -> Response {
    let Some(mut task) = added(request, &right) else { return right };
    task.runs[..task.many].rotate_right(1);
    with_words_of(&task, right)
}

/// A run that is refused is counted all the same.
pub fn refused_run_counted(_: &mut Broken, request: &Request, right: Response) -> Response {
    match not_added(request, &right) {
        Some(mut task) if task.many < MOST_RUNS => {
            task.open_run();
            with_words_of(&task, right)
        }
        _ => right,
    }
}

/// A ninth run takes the place of the eighth.
pub fn ninth_for_the_eighth(broken: &mut Broken, request: &Request, right: Response) -> Response {
    match not_added(request, &right) {
        Some(mut task) if task.many == MOST_RUNS => {
            task.many -= 1;
            broken.with_task(request, &task)
        }
        _ => right,
    }
}

/// Of too many steps the first 64 are taken.
pub fn steps_cut(broken: &mut Broken, request: &Request, right: Response) -> Response {
    if not_added(request, &right).is_none() || request.bytes.len() <= MOST_STEPS {
        return right;
    }
    broken.right(&Request { bytes: request.bytes[..MOST_STEPS].to_vec(), ..request.clone() })
}

/// Facts outside of the new run's start and goal are dropped.
pub fn facts_outside_dropped(broken: &mut Broken, request: &Request, right: Response) -> Response {
    let Some(task) = not_added(request, &right) else { return right };
    let below = 1u64.checked_shl(task.facts as u32).unwrap_or(0).wrapping_sub(1);
    let ends: Vec<u64> = request.more_words().iter().map(|set| set & below).collect();
    let words = [request.task_words().unwrap_or(&[]), &ends].concat();
    broken.right(&Request { words, ..request.clone() })
}
