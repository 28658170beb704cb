//! The cases: what is asked of both sides about one random task, one file, one session.

use super::files::{damaged, places};
use super::tasks::{busy_fact, cell_in, full_task, locked_drop, malformed, random_task, repair_list, run_action};
use super::{Comparison, End, Outcome};
use crate::file::file_of;
use crate::listing::MOST_INPUT;
use crate::protocol::{bytes_of, numbers_of, Call, Request, Response};
use crate::random::Random;
use crate::repair::{Repair, KINDS};
use crate::session::{row_of, MORE_THAN_SIX, NO_LIST, ROW, TABLE, UNUSED};
use crate::task::{Task, HIGHEST_LIMIT, MOST_FACTS, MOST_RUNS};

pub fn request(call: Call, words: &[u64], bytes: Vec<u8>) -> Request {
    Request { call, words: words.to_vec(), bytes }
}

/// True if the call was answered, and not refused.
pub fn answered(response: &Response) -> bool {
    response.words[0] == 0
}

/// Lengths of room for a result of this length: exact, one short, longer, none.
pub fn room_lengths(exact: usize, random: &mut Random) -> Vec<usize> {
    let mut lengths = vec![exact, exact + random.between(1, 9)];
    if exact > 0 {
        lengths.push(exact - 1);
        lengths.push(0);
    }
    lengths
}

/// One random task: every call on it, and on a malformed neighbour.
pub fn task(comparison: &mut Comparison, mut random: Random) -> Outcome<()> {
    let random = &mut random;
    comparison.counts.tasks += 1;
    let task = random_task(random);
    let words = task.words();
    let file = file_of(&task);
    for length in room_lengths(file.len(), random) {
        comparison.ask(request(Call::Write, &words, random.bytes(length)))?;
    }
    comparison.ask(request(Call::Read, &[], file))?;
    check_runs(comparison, &words, random)?;
    for _ in 0..2 {
        comparison.ask(request(Call::Apply, &words, bytes_of(&repair_list(&task, random))))?;
    }
    solve_and_apply(comparison, &task, random)?;
    solve_without_locks(comparison, &task)?;
    open_and_list(comparison, &task, random)?;
    if random.chance(4) {
        malformed_task(comparison, &malformed(&task, random), random)?;
    }
    Ok(())
}

/// Checks each run of the task that is read from these words, and one that isn't there.
fn check_runs(comparison: &mut Comparison, words: &[u64], random: &mut Random) -> Outcome<()> {
    let many = Task::from_words(words).many.min(MOST_RUNS) as u64;
    let beyond = random.pick(&[many, MOST_RUNS as u64, 255, 256, 1 << 32, 1 << 63, u64::MAX]);
    for run in (0..many).chain([beyond]) {
        comparison.ask(request(Call::Check, &[words, &[run]].concat(), vec![]))?;
    }
    Ok(())
}

/// Solves into rooms of several lengths, applies the answer and checks the runs that it leaves.
fn solve_and_apply(comparison: &mut Comparison, task: &Task, random: &mut Random) -> Outcome<()> {
    let words = task.words();
    let generous = comparison.ask(request(Call::Solve, &words, bytes_of(&random.numbers(8))))?;
    let Some(response) = generous.filter(answered) else { return Ok(()) };
    let length = response.words[2] as usize;
    for length in room_lengths(length, random) {
        comparison.ask(request(Call::Solve, &words, bytes_of(&random.numbers(length))))?;
    }
    let list = numbers_of(&response.bytes)[..length].to_vec();
    if let Some(applied) = comparison.ask(request(Call::Apply, &words, bytes_of(&list)))? {
        check_runs(comparison, &applied.words[2..], random)?;
    }
    Ok(())
}

/// Solves a task that has locks with them and without, to count what they change.
fn solve_without_locks(comparison: &mut Comparison, task: &Task) -> Outcome<()> {
    if *task == task.unlocked() {
        return Ok(());
    }
    let room = bytes_of(&[UNUSED; HIGHEST_LIMIT]);
    let locked = comparison.ask(request(Call::Solve, &task.words(), room.clone()))?;
    let unlocked = comparison.ask(request(Call::Solve, &task.unlocked().words(), room))?;
    if let (Some(locked), Some(unlocked)) = (locked, unlocked) {
        comparison.counts.locks.take_beside(&locked, &unlocked);
    }
    Ok(())
}

/// Opens tables of the right and of wrong lengths, and lists into rooms of several lengths.
fn open_and_list(comparison: &mut Comparison, task: &Task, random: &mut Random) -> Outcome<()> {
    let words = task.words();
    let length = random.pick(&[0, ROW, TABLE - 1, TABLE + 1, 2 * TABLE]);
    comparison.ask(request(Call::Open, &words, bytes_of(&random.numbers(length))))?;
    let opened = comparison.ask(request(Call::Open, &words, bytes_of(&random.numbers(TABLE))))?;
    let Some(opened) = opened else { return Ok(()) };
    let table = numbers_of(&opened.bytes);
    if let Some(listed) = list(comparison, &words, &table, &random.numbers(8))? {
        for length in room_lengths(listed.words[2] as usize, random) {
            list(comparison, &words, &table, &random.numbers(length))?;
        }
    }
    Ok(())
}

fn list(comparison: &mut Comparison, words: &[u64], table: &[u16], room: &[u16]) -> Outcome<Option<Response>> {
    let words = [words, &[table.len() as u64]].concat();
    comparison.ask(request(Call::List, &words, bytes_of(&[table, room].concat())))
}

/// Every call on a task that is not well formed, with what is lent of good and bad lengths.
fn malformed_task(comparison: &mut Comparison, words: &[u64], random: &mut Random) -> Outcome<()> {
    let length = random.pick(&[0, 10, TABLE, TABLE + 1]);
    let numbers = bytes_of(&random.numbers(length));
    for call in [Call::Write, Call::Apply, Call::Solve, Call::Open] {
        comparison.ask(request(call, words, numbers.clone()))?;
    }
    check_runs(comparison, words, random)?;
    let edit = [words, &[random.below(CELL_KINDS) as u64, 0, 0, 1]].concat();
    comparison.ask(request(Call::Edit, &edit, numbers))?;
    list(comparison, words, &random.numbers(length), &random.numbers(3))?;
    Ok(())
}

/// One in so many files is the largest, half of them undamaged, and one in so many inputs is longer than the program
/// reads.
const SELDOM: usize = 250;

/// One file, good or damaged: read, listed, and its records asked for at several places.
pub fn file(comparison: &mut Comparison, mut random: Random) -> Outcome<()> {
    let random = &mut random;
    comparison.counts.files += 1;
    let full = random.below(SELDOM) == 0;
    let good = file_of(&if full { full_task() } else { random_task(random) });
    let mut file = if full && random.chance(8) { good } else { damaged(&good, random) };
    if random.below(SELDOM) == 0 {
        file.resize(random.between(MOST_INPUT - 10, MOST_INPUT + 10), random.pick(&[0, 7, 8, 9, 10]));
    }
    comparison.ask(request(Call::Read, &[], file.clone()))?;
    comparison.ask(request(Call::Listing, &[], file.clone()))?;
    for place in places(&file, random) {
        comparison.ask(request(Call::Record, &[place], file.clone()))?;
    }
    Ok(())
}

/// A session under way: the task and the table as the last accepted call left them.
struct Session {
    words: Vec<u64>,
    table: Vec<u16>,
    /// False once the table was tampered with: its list may then differ from a fresh solve.
    honest: bool,
}

const MOST_EDITS: usize = 30;

/// One session: opened, edited many times and listed after each edit, now and then tampered with.
pub fn session(comparison: &mut Comparison, mut random: Random, wanted: usize) -> Outcome<()> {
    let random = &mut random;
    let words = random_task(random).words();
    let opened = comparison.ask(request(Call::Open, &words, bytes_of(&random.numbers(TABLE))))?;
    let Some(opened) = opened else { return Ok(()) };
    let mut session = Session { words, table: numbers_of(&opened.bytes), honest: true };
    let tampering = random.chance(4);
    for _ in 0..random.between(1, MOST_EDITS) {
        if comparison.counts.edits == wanted {
            break;
        }
        edit(comparison, &mut session, random)?;
        if tampering && random.chance(4) {
            tamper(&mut session, random);
        }
        list_and_solve(comparison, &session, random)?;
    }
    Ok(())
}

/// How many kinds of cell an edit may name: 0 need, 1 add, 2 delete, 3 start, 4 goal, 5 lock.
const CELL_KINDS: usize = 6;

/// The four numbers of an edit, mostly of a good one. A start or goal names a run where the others name an action.
fn random_edit(task: &Task, random: &mut Random) -> [u64; 4] {
    let far = random.pick(&[1 << 8, 1 << 32, 1 << 63, u64::MAX]);
    let mut kind = random.below(CELL_KINDS) as u64;
    let (mut place, mut fact) = cell_of_kind(task, kind, random);
    let many = if [3, 4].contains(&kind) { task.many } else { task.actions };
    match random.below(32) {
        0 | 1 => place = random.pick(&[many, many, MOST_RUNS.max(many), far as usize]),
        2 | 3 => fact = random.pick(&[task.facts as u64, far]),
        4 => kind = random.pick(&[CELL_KINDS as u64, 255, far]),
        _ => {}
    }
    [kind, place as u64, fact, random.pick(&[0, 0, 0, 1, 1, 2, far])]
}

/// An action, or of kinds 3 and 4 a run, and a fact. Of a lock often those of a need, and of a need often those of a lock.
fn cell_of_kind(task: &Task, kind: u64, random: &mut Random) -> (usize, u64) {
    let wanted = match kind {
        0 if random.chance(4) => cell_in(task, |action| action.locks, random),
        5 if random.chance(12) => cell_in(task, |action| action.needs, random),
        _ => None,
    };
    if let Some((action, fact)) = wanted {
        return (action, fact as u64);
    }
    let place = if [3, 4].contains(&kind) { random.below(task.many) } else { run_action(task, random) };
    let fact = if random.chance(8) { random.below(task.facts) } else { busy_fact(task, random) };
    (place, fact as u64)
}

/// One edit, mostly good, sometimes outside, sometimes with a table of a wrong length, sometimes both.
fn edit(comparison: &mut Comparison, session: &mut Session, random: &mut Random) -> Outcome<()> {
    let edit = random_edit(&Task::from_words(&session.words), random);
    let mut table = session.table.clone();
    match random.below(16) {
        0 => table.truncate(random.pick(&[0, TABLE - 1])),
        1 => table.push(UNUSED),
        _ => {}
    }
    let words = [session.words.as_slice(), &edit].concat();
    let Some(response) = comparison.ask(request(Call::Edit, &words, bytes_of(&table)))? else { return Ok(()) };
    comparison.counts.edits += 1;
    if answered(&response) {
        session.words = response.words[2..].to_vec();
        session.table = numbers_of(&response.bytes);
    }
    Ok(())
}

/// Lists the session into random room, and solves afresh into equal room: an honest session's list is the answer.
fn list_and_solve(comparison: &mut Comparison, session: &Session, random: &mut Random) -> Outcome<()> {
    let length = random.below(8);
    let room = random.numbers(length);
    let listed = list(comparison, &session.words, &session.table, &room)?;
    if !session.honest || !random.chance(8) {
        return Ok(());
    }
    let solve = request(Call::Solve, &session.words, bytes_of(&room));
    let solved = comparison.ask(solve.clone())?;
    if !comparison.by_definition() {
        return Ok(());
    }
    match (listed, solved) {
        (Some(listed), Some(solved)) if listed != solved => {
            let why = format!("the reference's own session lists {listed:?}");
            Err(End::Reference(Box::new(comparison.difference(solve, solved, &why))))
        }
        _ => {
            comparison.counts.agreements += 1;
            Ok(())
        }
    }
}

/// Changes the table behind the session's back: some of the rows stay in form, and are wrong.
fn tamper(session: &mut Session, random: &mut Random) {
    session.honest = false;
    let task = Task::from_words(&session.words);
    if let Some(locked) = locked_drop(&task, random).filter(|_| random.chance(6)) {
        let fact = Repair::of_number(locked).fact;
        session.table[fact * ROW..][..ROW].copy_from_slice(&row_of(1, &[locked]));
        return;
    }
    let fact = if random.chance(12) { random.below(task.facts) } else { random.below(MOST_FACTS) };
    let own = |code: usize| Repair { kind: KINDS[code / 32], action: code % 32, fact }.number();
    let code = random.below(95);
    let row = &mut session.table[fact * ROW..][..ROW];
    match random.below(9) {
        0 => row[0] = random.pick(&[0, 1, 2, 6, 7, 8, 9, UNUSED]),
        1 => row[random.between(1, ROW - 1)] = random.pick(&[0, own(code), own(code), UNUSED]),
        2 => row.copy_from_slice(&row_of(NO_LIST, &[])),
        3 => row.copy_from_slice(&row_of(MORE_THAN_SIX, &[])),
        4 => row.copy_from_slice(&row_of(1, &[own(code)])),
        5 => row.copy_from_slice(&row_of(2, &[own(code), own(code + 1)])),
        6 => row.swap(1, 2),
        7 => row[ROW - 1] = random.pick(&[0, own(code), UNUSED - 1]),
        _ => row.copy_from_slice(&row_of(0, &[])),
    }
}
