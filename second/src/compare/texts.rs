//! Tasks for PDDL texts, and damage to the texts: bytes, numbers, lines, blocks, cuts and tails.

use super::tasks::{put_locks, some_facts};
use crate::random::Random;
use crate::task::{
    only, with, Action, Facts, Run, Task, HIGHEST_LIMIT, MOST_ACTIONS, MOST_FACTS, MOST_RUNS, MOST_STEPS,
};

/// Sizes at their ends, and where numbers get a second digit.
const FACTS: [usize; 9] = [1, 2, 9, 10, 11, 12, 33, MOST_FACTS - 1, MOST_FACTS];
const ACTIONS: [usize; 9] = [1, 1, 2, 9, 10, 11, 12, MOST_ACTIONS - 1, MOST_ACTIONS];

/// A well-formed task for texts. Its answer may be dear: it is never solved.
pub fn text_task(random: &mut Random) -> Task {
    let (facts, actions) = (random.pick(&FACTS), random.pick(&ACTIONS));
    let many = if random.chance(1) { MOST_RUNS } else { random.between(1, 3) };
    task_of(random, Task { many, ..Task::sized(facts, actions, 0) }, some_set)
}

/// One whose texts are short enough to be tried at every place.
pub fn short_task(random: &mut Random) -> Task {
    let (facts, actions) = (random.pick(&[1, 2, 3, 11]), random.pick(&[1, 1, 2]));
    task_of(random, Task::sized(facts, actions, 0), |random, facts| some_facts(random, facts, (16 / facts).min(8)))
}

/// The task with its sets filled by this function, with steps, and half of them with locks.
fn task_of(random: &mut Random, sized: Task, set: fn(&mut Random, usize) -> Facts) -> Task {
    let facts = sized.facts;
    let mut task = Task { limit: random.between(0, HIGHEST_LIMIT), ..sized };
    for action in &mut task.table[..sized.actions] {
        let [needs, adds, deletes] = [(); 3].map(|_| set(random, facts));
        let both = if random.chance(6) { adds & random.next() } else { 0 };
        *action = Action { needs, adds, deletes: deletes | both, locks: 0 };
    }
    for run in &mut task.runs[..sized.many] {
        *run = Run { start: set(random, facts), goal: set(random, facts), ..Run::empty() };
        let count = random.pick(&[0, 1, 5, MOST_STEPS - 1, MOST_STEPS]);
        (0..count).for_each(|_| run.push_step(random.below(sized.actions)));
    }
    if random.chance(8) {
        put_locks(&mut task, random);
    }
    task
}

/// A set of facts: empty, full, of one or two facts, or of about three.
fn some_set(random: &mut Random, facts: usize) -> Facts {
    let one = random.pick(&[0, facts / 2, facts - 1]);
    match random.below(16) {
        0..=4 => 0,
        5 => (0..facts).fold(0, |set, fact| with(set, fact, true)),
        6..=8 => only(one),
        9..=11 => only(one) | only(random.below(facts)),
        _ => some_facts(random, facts, (48 / facts).clamp(1, 8)),
    }
}

/// The text with some damage, or with the other one in its place.
pub fn damaged_text(text: &[u8], other: &[u8], random: &mut Random) -> Vec<u8> {
    let mut text = text.to_vec();
    for _ in 0..random.pick(&[1, 1, 1, 2]) {
        text = match random.below(8) {
            0 => damage_ends(text, other, random),
            1 | 2 => damage_bytes(text, random),
            3 | 4 => damage_number(&text, random),
            5 | 6 => damage_lines(&text, random),
            _ => damage_blocks(&text, random),
        };
    }
    text
}

/// A cut, a tail, another text behind or instead of it.
fn damage_ends(mut text: Vec<u8>, other: &[u8], random: &mut Random) -> Vec<u8> {
    match random.below(6) {
        0 => text.truncate(random.below(text.len() + 1)),
        1 => drop(text.pop()),
        2 => text.push(edge_byte(random)),
        3 => text.extend(text.clone()),
        4 => text.extend(other),
        _ => text = other.to_vec(),
    }
    text
}

/// Bytes that might stand somewhere in such a text, and some that never do.
const EDGES: [u8; 22] = *b"0123456789 ()fan:;-\n\r\t";

fn edge_byte(random: &mut Random) -> u8 {
    if random.chance(2) {
        random.pick(&[0, 127, 128, 255])
    } else {
        random.pick(&EDGES)
    }
}

/// A byte put in, taken out or replaced, or a letter in the other case.
fn damage_bytes(mut text: Vec<u8>, random: &mut Random) -> Vec<u8> {
    if text.is_empty() {
        return vec![edge_byte(random)];
    }
    let place = random.below(text.len());
    match random.below(4) {
        0 => text.insert(place, edge_byte(random)),
        1 => drop(text.remove(place)),
        2 => text[place] = edge_byte(random),
        _ => text[place] ^= 0x20,
    }
    text
}

/// What a byte is changed to where every place is tried: a neighbouring digit or letter, and what may stand elsewhere.
pub fn changes(byte: u8) -> Vec<u8> {
    let all = [byte.wrapping_add(1), byte.wrapping_sub(1), b' ', b')', b'f', b'0', b'\n', 0, 255];
    all.into_iter().filter(|&other| other != byte).collect()
}

/// One number replaced: by a neighbour, by one that shares a digit with it, by one with a leading zero, by an end of
/// the sizes, or by nothing.
fn damage_number(text: &[u8], random: &mut Random) -> Vec<u8> {
    let is_digit = |place: &usize| text[*place].is_ascii_digit();
    let begins: Vec<usize> = (1..text.len()).filter(|place| is_digit(place) && !is_digit(&(place - 1))).collect();
    if begins.is_empty() {
        return text.to_vec();
    }
    let begin = random.pick(&begins);
    let end = (begin..text.len()).find(|place| !is_digit(place)).unwrap_or(text.len());
    let old = String::from_utf8_lossy(&text[begin..end]).into_owned();
    let number: u64 = old.parse().unwrap_or(0);
    let new = match random.below(8) {
        0 => format!("{}", number.wrapping_add(1)),
        1 => format!("{}", number.saturating_sub(1)),
        2 => format!("{old}{}", random.below(10)),
        3 => old[..old.len() - 1].to_string(),
        4 => format!("0{old}"),
        5 => format!("{}", random.pick(&[31, 32, 33, 63, 64, 65, 255, 256])),
        6 => format!("{}", random.below(13)),
        _ => format!("1{old}"),
    };
    [&text[..begin], new.as_bytes(), &text[end..]].concat()
}

type Lines = Vec<Vec<u8>>;

fn lines_of(text: &[u8]) -> Lines {
    text.split_inclusive(|&byte| byte == b'\n').map(<[u8]>::to_vec).collect()
}

/// Lines repeated, taken out, swapped, put in or replaced.
fn damage_lines(text: &[u8], random: &mut Random) -> Vec<u8> {
    let mut lines = lines_of(text);
    if lines.is_empty() {
        return some_line(random);
    }
    let index = random.below(lines.len());
    let other = random.below(lines.len());
    match random.below(7) {
        0 => lines.insert(index, lines[index].clone()),
        1 => drop(lines.remove(index)),
        2 | 3 if index > 0 => lines.swap(index - 1, index),
        4 => lines.swap(index, other),
        5 => lines[index] = some_line(random),
        _ => lines.insert(index, some_line(random)),
    }
    lines.concat()
}

/// A line that might stand somewhere in such a text, or nearly.
fn some_line(random: &mut Random) -> Vec<u8> {
    let number = random.pick(&[0, 1, 2, 5, 9, 10, 11, 12, 32, 62, 63, 64, 65]);
    let line = match random.below(12) {
        0..=3 => format!("    (f{number})"),
        4 | 5 => format!("    (not (f{number}))"),
        6 => format!("  (:action a{number}"),
        7 => random.pick(&["   )", "  )", ")", "  ))", "))"]).to_string(),
        8 => {
            random.pick(&["   :effect (and", "   :effect (and)", "   :precondition ()", "; a comment", ""]).to_string()
        }
        9 => format!("    (f{number} ?x)"),
        10 => format!("\t(f{number})\r"),
        _ => format!("    (f{number}) "),
    };
    (line + "\n").into_bytes()
}

fn is_fact_line(line: &[u8]) -> bool {
    line.starts_with(b"    (")
}

fn is_head(line: &[u8]) -> bool {
    line.starts_with(b"  (:action a")
}

/// A whole block put in or taken out, or its lines turned about.
fn damage_blocks(text: &[u8], random: &mut Random) -> Vec<u8> {
    let lines = lines_of(text);
    match random.below(5) {
        0 => one_fact_more(text),
        1 => one_action_more(text),
        2 => without_an_action(lines, random),
        3 => change_block(lines, random, |_| vec![]),
        _ => change_block(lines, random, |block| block.iter().rev().cloned().collect()),
    }
}

/// The text with the next fact at the end of its first block of facts: of a domain one predicate more.
pub fn one_fact_more(text: &[u8]) -> Vec<u8> {
    let mut lines = lines_of(text);
    let begin = lines.iter().position(|line| is_fact_line(line)).unwrap_or(lines.len());
    let count = lines[begin..].iter().take_while(|line| is_fact_line(line)).count();
    lines.insert(begin + count, format!("    (f{count})\n").into_bytes());
    lines.concat()
}

/// The text with one action more before its last line.
pub fn one_action_more(text: &[u8]) -> Vec<u8> {
    let mut lines = lines_of(text);
    let number = lines.iter().filter(|line| is_head(line)).count();
    let head = format!("  (:action a{number}\n   :parameters ()\n   :precondition (and\n");
    let action = head + "    (f0)\n   )\n   :effect (and\n    (not (f0))\n   )\n  )\n";
    lines.insert(lines.len().saturating_sub(1), action.into_bytes());
    lines.concat()
}

/// The lines without some action's.
fn without_an_action(lines: Lines, random: &mut Random) -> Vec<u8> {
    let heads: Vec<usize> = (0..lines.len()).filter(|&index| is_head(&lines[index])).collect();
    if heads.is_empty() {
        return lines.concat();
    }
    let begin = random.pick(&heads);
    let end = heads.into_iter().find(|&head| head > begin).unwrap_or(lines.len() - 1);
    [&lines[..begin], &lines[end.max(begin)..]].concat().concat()
}

/// The lines with the block of fact lines near a random place changed.
fn change_block(lines: Lines, random: &mut Random, change: fn(&[Vec<u8>]) -> Lines) -> Vec<u8> {
    let from = random.below(lines.len() + 1);
    let in_block = |index: &usize| is_fact_line(&lines[*index]);
    let Some(some) = (from..lines.len()).chain(0..from).find(in_block) else { return lines.concat() };
    let begin = (0..some).rev().take_while(in_block).last().unwrap_or(some);
    let end = (some..lines.len()).find(|index| !in_block(index)).unwrap_or(lines.len());
    [&lines[..begin], &change(&lines[begin..end]), &lines[end..]].concat().concat()
}
