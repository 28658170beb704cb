//! Deliberate faults for the self-driver, among them 01's "errors that look right", those of several runs, of the places
//! of 5 and 6, of a step that can't run, of PDDL texts, of locks and of lists in two sittings (02, requests 1 to 4, 6 and
//! 7); and wrong readings for the comparison itself. The comparison must find each.

mod checks;
mod files;
mod lock_edits;
mod lock_files;
mod locks;
mod readings;
mod sittings;
mod texts;

use crate::answer::Budget;
use crate::drive::Broken;
use crate::listing::open_line;
use crate::protocol::{bytes_of, numbers_of, Call, Request, Response};
use crate::repair::{all_permitted, repaired, Repair};
use crate::run::{all_valid, open_needs_by_old_rule};
use crate::session::{in_form, row_of, ROW, TABLE, UNUSED};
use crate::task::{Run, Task, MOST_RUNS, WORDS};

pub use readings::READINGS;
pub use sittings::Morning;

/// A fault makes a wrong response of a request and the right response.
pub type Fault = fn(&mut Broken, &Request, Response) -> Response;

/// The faults by name. Those of PDDL texts are called pddl-.., those of edits that meet locks lock-edit-.., those of lists in
/// two sittings sittings-..: each of these is found in such cases alone.
pub const FAULTS: &[(&str, Fault)] = &[
    ("limit-below", limit_below),
    ("equal-neighbours", files::equal_neighbours),
    ("range-after-order", files::range_after_order),
    ("short-body-at-end", files::short_body_at_end),
    ("past-end-at-length", files::past_end_at_length),
    ("bytes-after-end", files::bytes_after_end),
    ("no-64th-step", files::no_64th_step),
    ("no-fact-63", checks::no_fact_63),
    ("unused-actions", checks::unused_actions),
    ("delete-wins", checks::delete_wins),
    ("steps-for-facts", checks::steps_for_facts),
    ("last-of-shortest", last_of_shortest),
    ("shortest-for-inclusion", shortest_for_inclusion),
    ("goals-dropped", goals_dropped),
    ("refused-solve-writes", refused_solve_writes),
    ("refused-gives-zeros", refused_gives_zeros),
    ("refused-gives-its-reading", refused_gives_its_reading),
    ("refused-gives-668-words", refused_gives_668_words),
    ("row-six-is-seven", row_six_is_seven),
    ("longer-table", longer_table),
    ("stale-row", stale_row),
    ("all-rows-afresh", all_rows_afresh),
    ("later-edits-echo", later_edits_echo),
    ("outside-before-length", outside_before_length),
    ("form-of-used-places-only", form_of_used_places_only),
    ("table-kinds-in-further-runs", files::table_kinds_in_further_runs),
    ("order-not-begun-anew", files::order_not_begun_anew),
    ("no-eighth-run", files::no_eighth_run),
    ("ninth-run-out-of-order", files::ninth_run_out_of_order),
    ("steps-counted-over-all-runs", files::steps_counted_over_all_runs),
    ("unused-runs", checks::unused_runs),
    ("check-beyond-is-empty", checks::check_beyond_is_empty),
    ("first-run-solved", first_run_solved),
    ("rows-of-the-first-run", rows_of_the_first_run),
    ("edits-of-the-first-run", edits_of_the_first_run),
    ("edit-opens-a-run", edit_opens_a_run),
    ("one-open-line", one_open_line),
    ("steps-of-the-first-run", steps_of_the_first_run),
    ("outside-at-its-record", files::outside_at_its_record),
    ("outside-at-the-first-number", files::outside_at_the_first_number),
    ("outside-at-the-last-number", files::outside_at_the_last_number),
    ("kind-at-its-body", files::kind_at_its_body),
    ("table-kind-at-its-body", files::table_kind_at_its_body),
    ("ascent-at-the-kind", files::ascent_at_the_kind),
    ("ascent-at-the-number", files::ascent_at_the_number),
    ("steps-at-the-number", files::steps_at_the_number),
    ("kept-though-it-may-run", checks::kept_though_it_may_run),
    ("effects-all-the-same", checks::effects_all_the_same),
    ("only-adds-held-back", checks::only_adds_held_back),
    ("goals-by-the-old-rule", checks::goals_by_the_old_rule),
    ("step-after-is-skipped", checks::step_after_is_skipped),
    ("listing-by-the-old-rule", listing_by_the_old_rule),
    ("first-24000-bytes", first_24000_bytes),
    ("locks-not-in-applying", locks::not_in_applying),
    ("locks-not-in-form", locks::not_in_form),
    ("locks-not-in-solving", locks::not_in_solving),
    ("locks-not-in-rows", locks::not_in_rows),
    ("locks-offered-by-conflicts", locks::offered_by_conflicts),
    ("locks-dropped-by-the-fullest", locks::dropped_by_the_fullest),
    ("locks-eight-only-without-steps", locks::eight_only_without_steps),
    ("locks-hopeless-at-any-step", locks::hopeless_at_any_step),
    ("locks-not-in-the-listing", locks::not_in_the_listing),
    ("locks-bar-the-whole-cell", locks::bars_the_whole_cell),
    ("locks-bar-the-fact", locks::bars_the_fact),
    ("locks-taken-off-by-applying", locks::taken_off_by_applying),
    ("locks-well-formed-anywhere", locks::well_formed_anywhere),
    ("locks-unchecked", locks::unchecked),
    ("lock-edit-before-outside", lock_edits::before_outside),
    ("lock-edit-before-the-length", lock_edits::before_the_length),
    ("lock-edit-need-cleared-under", lock_edits::need_cleared_under),
    ("lock-edit-goes-with-its-need", lock_edits::goes_with_its_need),
    ("lock-edit-set-on-no-need", lock_edits::set_on_no_need),
    ("lock-edit-brings-its-need", lock_edits::brings_its_need),
    ("lock-edit-leaves-the-row", lock_edits::leaves_the_row),
    ("lock-edit-not-in-the-row", lock_edits::not_in_the_row),
    ("lock-edit-nothing-to-clear", lock_edits::nothing_to_clear),
    ("lock-edit-need-set-under", lock_edits::need_set_under),
    ("lock-edit-kept-when-cleared", lock_edits::kept_when_cleared),
    ("lock-edit-no-such-kind", lock_edits::no_such_kind),
    ("lock-edit-any-further-kind", lock_edits::any_further_kind),
    ("lock-file-unknown-kind", lock_files::unknown_kind),
    ("lock-file-in-further-runs", lock_files::in_further_runs),
    ("lock-file-after-steps", lock_files::after_steps),
    ("lock-file-kinds-by-number", lock_files::kinds_by_number),
    ("lock-file-not-ascending", lock_files::not_ascending),
    ("lock-file-on-no-need", lock_files::on_no_need),
    ("lock-file-on-no-need-passed-over", lock_files::on_no_need_passed_over),
    ("lock-file-before-order", lock_files::before_order),
    ("lock-file-at-the-number", lock_files::at_the_number),
    ("lock-file-unwritten", lock_files::unwritten),
    ("lock-file-written-by-number", lock_files::written_by_number),
    ("pddl-delete-of-an-add", texts::delete_of_an_add),
    ("pddl-deletes-before-adds", texts::deletes_before_adds),
    ("pddl-descending", texts::descending),
    ("pddl-run-before-form", texts::run_before_form),
    ("pddl-first-problem", texts::first_problem),
    ("pddl-short-room-filled", texts::short_room_filled),
    ("pddl-rest-of-room-cleared", texts::rest_of_room_cleared),
    ("pddl-at-the-line", texts::at_the_line),
    ("pddl-tail-at-the-length", texts::tail_at_the_length),
    ("pddl-a-digit-too-far", texts::a_digit_too_far),
    ("pddl-at-the-number", texts::at_the_number),
    ("pddl-a-65th-predicate", texts::a_65th_predicate),
    ("pddl-a-33rd-action", texts::a_33rd_action),
    ("pddl-any-order", texts::any_order),
    ("pddl-white-space-after", texts::white_space_after),
    ("pddl-leading-zeros", texts::leading_zeros),
    ("pddl-any-number-of-facts", texts::any_number_of_facts),
    ("pddl-facts-after-the-text", texts::facts_after_the_text),
    ("pddl-facts-above", texts::facts_above),
    ("pddl-refused-keeps-the-limit", texts::refused_keeps_the_limit),
    ("pddl-limit-at-most-six", texts::limit_at_most_six),
    ("pddl-new-run-first", texts::new_run_first),
    ("pddl-refused-run-counted", texts::refused_run_counted),
    ("pddl-ninth-for-the-eighth", texts::ninth_for_the_eighth),
    ("pddl-steps-cut", texts::steps_cut),
    ("pddl-facts-outside-dropped", texts::facts_outside_dropped),
    ("pddl-without-locked-needs", locks::left_out_of_the_domain),
    ("pddl-written-though-malformed", locks::written_though_malformed),
    ("pddl-needs-read-as-locked", locks::read_from_a_domain),
    ("pddl-run-takes-locks-off", locks::taken_off_by_a_run),
    ("sittings-judged-on-the-first-table", sittings::judged_on_the_first_table),
    ("sittings-index-in-the-first-list", sittings::index_in_the_first_list),
    ("sittings-index-in-the-merged-list", sittings::index_in_the_merged_list),
    ("sittings-at-the-last-shared", sittings::at_the_last_shared),
    ("sittings-refused-gives-the-first-table", sittings::refused_gives_the_first_table),
    ("sittings-forget-the-morning", sittings::forget_the_morning),
    ("sittings-shared-taken-back", sittings::shared_taken_back),
    ("sittings-second-goes-on-above", sittings::second_goes_on_above),
    ("sittings-whole-list-again", sittings::whole_list_again),
    ("sittings-room-for-the-whole-list", sittings::room_for_the_whole_list),
    ("sittings-empty-list-refused", sittings::empty_list_refused),
];

fn task_of(request: &Request) -> Option<Task> {
    request.task_words().map(Task::from_words)
}

fn refused_with(response: &Response, number: u64) -> bool {
    response.words.first() == Some(&number)
}

/// The response with this task in place of the one that it gives back.
fn with_words_of(task: &Task, mut right: Response) -> Response {
    right.words.truncate(2);
    right.words.extend(task.words());
    right
}

/// The limit compared with < instead of <=.
fn limit_below(_: &mut Broken, request: &Request, right: Response) -> Response {
    let limit = task_of(request).map_or(0, |task| task.limit as u64);
    if request.call == Call::Solve && refused_with(&right, 0) && right.words[2] == limit {
        return Response { words: vec![10, 0, 0], bytes: request.bytes.clone() };
    }
    right
}

/// Of the lists of one repair the last that works is given.
fn last_of_shortest(_: &mut Broken, request: &Request, mut right: Response) -> Response {
    if request.call == Call::Solve && refused_with(&right, 0) && right.words[2] == 1 {
        let task = Task::from_words(&request.words);
        let permitted = all_permitted(&task);
        if let Some(last) = permitted.iter().rev().find(|&&repair| all_valid(&repaired(&task, &[repair]))) {
            right.bytes[..2].copy_from_slice(&last.number().to_le_bytes());
        }
    }
    right
}

/// A list from which no repair can be left out is taken for a shortest one.
fn shortest_for_inclusion(_: &mut Broken, request: &Request, right: Response) -> Response {
    if request.call != Call::Solve || !refused_with(&right, 0) {
        return right;
    }
    let task = Task::from_words(&request.words);
    let mut list = all_permitted(&task);
    for repair in all_permitted(&task) {
        let rest: Vec<Repair> = list.iter().copied().filter(|&other| other != repair).collect();
        if all_valid(&repaired(&task, &rest)) {
            list = rest;
        }
    }
    let mut numbers = numbers_of(&request.bytes);
    if list.len() > task.limit || list.len() > numbers.len() {
        return right;
    }
    numbers.iter_mut().zip(&list).for_each(|(number, repair)| *number = repair.number());
    Response { words: vec![0, 0, list.len() as u64], bytes: bytes_of(&numbers) }
}

/// Goals are dropped where they are not met.
fn goals_dropped(broken: &mut Broken, request: &Request, right: Response) -> Response {
    match task_of(request) {
        Some(mut task) if request.call == Call::Solve && task.well_formed() => {
            task.runs.iter_mut().for_each(|run| run.goal = 0);
            broken.with_task(request, &task)
        }
        _ => right,
    }
}

/// A refused solve writes one number into the room.
fn refused_solve_writes(_: &mut Broken, request: &Request, mut right: Response) -> Response {
    if request.call == Call::Solve && refused_with(&right, 10) && right.bytes.len() >= 2 {
        right.bytes[..2].copy_from_slice(&UNUSED.to_le_bytes());
    }
    right
}

/// A refused edit or applying gives a task of zeros instead of the task it was given.
fn refused_gives_zeros(_: &mut Broken, request: &Request, mut right: Response) -> Response {
    if [Call::Edit, Call::Apply].contains(&request.call) && !refused_with(&right, 0) {
        right.words[2..].fill(0);
    }
    right
}

/// A refused edit or applying gives the task as it read it: a step above 255 comes back as 255.
fn refused_gives_its_reading(_: &mut Broken, request: &Request, mut right: Response) -> Response {
    if [Call::Edit, Call::Apply].contains(&request.call) && right.words.len() == 2 + WORDS {
        let read = Task::from_words(&right.words[2..]).words();
        right.words[2..].copy_from_slice(&read);
    }
    right
}

/// A refused edit or applying of another number of words gives the 668 words of the task of zeros.
fn refused_gives_668_words(_: &mut Broken, request: &Request, mut right: Response) -> Response {
    if [Call::Edit, Call::Apply].contains(&request.call) && right.words.len() != 2 + WORDS {
        right.words.truncate(2);
        right.words.extend(Task::zeros().words());
    }
    right
}

/// A list of six counts as more than six.
fn row_six_is_seven(_: &mut Broken, request: &Request, mut right: Response) -> Response {
    if request.call == Call::Open && refused_with(&right, 0) {
        let mut table = numbers_of(&right.bytes);
        for row in table.chunks_mut(ROW).filter(|row| row[0] == 6) {
            row.copy_from_slice(&row_of(7, &[]));
        }
        right.bytes = bytes_of(&table);
    }
    right
}

/// A table longer than 448 is opened all the same.
fn longer_table(broken: &mut Broken, request: &Request, right: Response) -> Response {
    let length = 2 * TABLE;
    if request.call != Call::Open || !refused_with(&right, 13) || request.bytes.len() <= length {
        return right;
    }
    let (table, rest) = request.bytes.split_at(length);
    let mut response = broken.right(&Request { bytes: table.to_vec(), ..request.clone() });
    response.bytes.extend(rest);
    response
}

/// An edit leaves its row as it was.
fn stale_row(_: &mut Broken, request: &Request, mut right: Response) -> Response {
    if request.call == Call::Edit {
        right.bytes = request.bytes.clone();
    }
    right
}

/// An edit writes all rows afresh, and not only its own.
fn all_rows_afresh(_: &mut Broken, request: &Request, mut right: Response) -> Response {
    if request.call == Call::Edit && refused_with(&right, 0) {
        let edited = Task::from_words(&right.words[2..]);
        if let Ok(rows) = crate::session::rows(&edited, Budget::of(1_000_000)) {
            right.bytes = bytes_of(&rows);
        }
    }
    right
}

/// The first thousand edits are made, later ones only echo what they were given.
fn later_edits_echo(broken: &mut Broken, request: &Request, right: Response) -> Response {
    if request.call != Call::Edit || !refused_with(&right, 0) {
        return right;
    }
    broken.edits += 1;
    if broken.edits <= 1000 {
        return right;
    }
    let words = [&[0, 0], request.task_words().unwrap_or(&[])].concat();
    Response { words, bytes: request.bytes.clone() }
}

/// An edit outside is refused with 14 even where its table has a wrong length.
fn outside_before_length(broken: &mut Broken, request: &Request, right: Response) -> Response {
    before_length(broken, request, right, 14)
}

/// An edit that this number refuses is refused with it even where its table has a wrong length.
fn before_length(broken: &mut Broken, request: &Request, right: Response, number: u64) -> Response {
    if request.call != Call::Edit || !refused_with(&right, 13) {
        return right;
    }
    let bytes = vec![0; 2 * TABLE];
    let mut response = broken.right(&Request { bytes, ..request.clone() });
    if !refused_with(&response, number) {
        return right;
    }
    response.bytes = request.bytes.clone();
    response
}

/// Listing does not ask that unused places of a row hold 65535.
fn form_of_used_places_only(broken: &mut Broken, request: &Request, right: Response) -> Response {
    if request.call != Call::List || !refused_with(&right, 13) {
        return right;
    }
    let task = Task::from_words(request.task_words().unwrap_or(&[]));
    let mut numbers = numbers_of(&request.bytes);
    if request.more_words()[0] as usize != TABLE {
        return right;
    }
    for row in numbers[..TABLE].chunks_mut(ROW).filter(|row| row[0] < ROW as u16) {
        let used = row[0] as usize;
        row[1 + used..].fill(UNUSED);
    }
    if !in_form(&task, &numbers[..TABLE]) {
        return right;
    }
    broken.right(&Request { bytes: bytes_of(&numbers), ..request.clone() })
}

/// The task with its first run alone.
fn with_first_run(task: &Task) -> Task {
    let mut first = Task { many: 1, ..*task };
    first.runs[1..].fill(Run::empty());
    first
}

/// The answer mends the first run only.
fn first_run_solved(broken: &mut Broken, request: &Request, right: Response) -> Response {
    match task_of(request) {
        Some(task) if request.call == Call::Solve && task.well_formed() => {
            broken.with_task(request, &with_first_run(&task))
        }
        _ => right,
    }
}

/// Opening looks at the first run only.
fn rows_of_the_first_run(broken: &mut Broken, request: &Request, right: Response) -> Response {
    match task_of(request) {
        Some(task) if request.call == Call::Open && task.well_formed() => {
            broken.with_task(request, &with_first_run(&task))
        }
        _ => right,
    }
}

/// True if the request is an edit of a start or a goal.
fn edits_a_run(request: &Request) -> bool {
    request.call == Call::Edit && [3, 4].contains(&request.more_words()[0])
}

/// A start or goal edit changes the first run, whichever it names.
fn edits_of_the_first_run(broken: &mut Broken, request: &Request, right: Response) -> Response {
    if !edits_a_run(request) || !refused_with(&right, 0) {
        return right;
    }
    let mut words = request.words.clone();
    let run = words.len() - 3;
    words[run] = 0;
    broken.right(&Request { words, ..request.clone() })
}

/// A start or goal edit of the next run opens it.
fn edit_opens_a_run(broken: &mut Broken, request: &Request, right: Response) -> Response {
    let Some(mut task) = task_of(request) else { return right };
    let next = task.many as u64;
    let names_next = edits_a_run(request) && request.more_words()[1] == next;
    if !names_next || !refused_with(&right, 14) || task.many == MOST_RUNS {
        return right;
    }
    task.open_run();
    broken.with_task(request, &task)
}

/// A listing without some of its lines.
fn without_lines(right: &Response, keep: impl FnMut(&(usize, &str)) -> bool) -> Response {
    let text = String::from_utf8_lossy(&right.bytes);
    let kept = text.lines().enumerate().filter(keep);
    Response { words: vec![], bytes: kept.flat_map(|(_, line)| format!("{line}\n").into_bytes()).collect() }
}

/// The listing has the open line of the first run only.
fn one_open_line(_: &mut Broken, request: &Request, right: Response) -> Response {
    if request.call != Call::Listing {
        return right;
    }
    without_lines(&right, |(index, line)| *index < 2 || !line.starts_with("open"))
}

/// The listing's task line has the steps of the first run only.
fn steps_of_the_first_run(_: &mut Broken, request: &Request, right: Response) -> Response {
    let Ok(task) = crate::file::read(&request.bytes) else { return right };
    if request.call != Call::Listing {
        return right;
    }
    let first = format!("task {} {} {} {}\n", task.facts, task.actions, task.limit, task.runs[0].count);
    let rest = without_lines(&right, |(index, _)| *index > 0);
    Response { words: vec![], bytes: [first.into_bytes(), rest.bytes].concat() }
}

/// The program's buffer is still the one that it had before there were locks.
fn first_24000_bytes(broken: &mut Broken, request: &Request, right: Response) -> Response {
    if request.call != Call::Listing || request.bytes.len() <= 24_000 {
        return right;
    }
    broken.right(&Request { bytes: request.bytes[..24_000].to_vec(), ..request.clone() })
}

/// The listing's open lines still follow the old rule.
fn listing_by_the_old_rule(_: &mut Broken, request: &Request, right: Response) -> Response {
    let Ok(task) = crate::file::read(&request.bytes) else { return right };
    if request.call != Call::Listing {
        return right;
    }
    let first = without_lines(&right, |(index, _)| *index == 0);
    let opens = task.known_runs().iter().map(|run| open_line(&open_needs_by_old_rule(run, &task.table)));
    let rest = without_lines(&right, |(index, line)| *index > 0 && !line.starts_with("open"));
    Response { words: vec![], bytes: [first.bytes, opens.collect::<String>().into_bytes(), rest.bytes].concat() }
}
