//! The cases of PDDL texts (02, request 4): what is asked of both sides about one task's texts.

use super::cases::{request, room_lengths};
use super::tasks::{full_task, malformed, stray};
use super::texts::{changes, damaged_text, one_action_more, one_fact_more, short_task, text_task};
use super::{Comparison, End, Outcome};
use crate::pddl::{domain_text, problem_text};
use crate::protocol::{Call, Response};
use crate::random::Random;
use crate::task::{Run, Task, MOST_FACTS, MOST_RUNS, MOST_STEPS};

/// A well-formed task and its texts.
struct Texts {
    task: Task,
    domain: Vec<u8>,
    problems: Vec<Vec<u8>>,
}

impl Texts {
    fn of(task: Task) -> Texts {
        Texts { task, domain: domain_text(&task), problems: task.known_runs().iter().map(problem_text).collect() }
    }
}

/// One in so many tasks is the largest, and one in so many is short and tried at every place.
const SELDOM: usize = 400;
const EVERY_PLACE: usize = 40;

/// One task as texts: written, read, put together again; and its texts damaged.
pub fn texts(comparison: &mut Comparison, mut random: Random) -> Outcome<()> {
    let random = &mut random;
    comparison.counts.texts += 1;
    if random.below(EVERY_PLACE) == 0 {
        let texts = Texts::of(short_task(random));
        return every_place(comparison, &texts, random);
    }
    let texts = Texts::of(if random.below(SELDOM) == 0 { full_task() } else { text_task(random) });
    write_texts(comparison, &texts, random)?;
    put_together(comparison, &texts, random)?;
    read_damaged(comparison, &texts, random)?;
    read_over_other_facts(comparison, &texts, random)?;
    if random.chance(4) {
        malformed_task(comparison, &texts.task, random)?;
    }
    Ok(())
}

/// Puts a call about texts to both sides. None of them is ever too dear.
fn ask(comparison: &mut Comparison, call: Call, words: &[u64], bytes: Vec<u8>) -> Outcome<Response> {
    Ok(comparison.ask(request(call, words, bytes))?.expect("nothing is enumerated for a text"))
}

/// A run that isn't there.
fn beyond(task: &Task, random: &mut Random) -> u64 {
    random.pick(&[task.many as u64, MOST_RUNS as u64, 255, 256, 1 << 32, 1 << 63, u64::MAX])
}

/// Writes the domain and each problem, and one of a run that isn't there, into rooms of several lengths.
fn write_texts(comparison: &mut Comparison, texts: &Texts, random: &mut Random) -> Outcome<()> {
    let words = texts.task.words();
    for length in room_lengths(texts.domain.len(), random) {
        ask(comparison, Call::WriteDomain, &words, random.bytes(length))?;
    }
    for (run, problem) in texts.problems.iter().enumerate() {
        for length in room_lengths(problem.len(), random) {
            ask(comparison, Call::WriteProblem, &[&words[..], &[run as u64]].concat(), random.bytes(length))?;
        }
    }
    let beyond = beyond(&texts.task, random);
    for length in [0, texts.problems[0].len()] {
        ask(comparison, Call::WriteProblem, &[&words[..], &[beyond]].concat(), random.bytes(length))?;
    }
    Ok(())
}

/// Reads the texts and adds run to run, with a spoilt one between now and then: it must give the task again, without its
/// locks. A run added to the task with its locks leaves them.
fn put_together(comparison: &mut Comparison, texts: &Texts, random: &mut Random) -> Outcome<()> {
    let task = &texts.task;
    let facts = task.facts as u64;
    let mut words = read_domain(comparison, task.limit as u64, texts.domain.clone())?.words[2..].to_vec();
    for (run, problem) in task.known_runs().iter().zip(&texts.problems) {
        if random.chance(6) {
            add_spoilt(comparison, &words, run, random)?;
        }
        let ends = read_problem(comparison, facts, problem.clone())?.words[2..].to_vec();
        words = ask(comparison, Call::AddRun, &[words, ends].concat(), run.steps().to_vec())?.words[2..].to_vec();
    }
    let wanted = task.unlocked().words();
    if words != wanted {
        let again = request(Call::AddRun, &words, vec![]);
        let expected = Response { words: wanted, bytes: vec![] };
        let why = "the reference's own texts give another task";
        return Err(End::Reference(Box::new(comparison.difference(again, expected, why))));
    }
    comparison.counts.rebuilt += 1;
    add_spoilt(comparison, &words, &task.runs[0], random)?;
    add(comparison, &task.words(), &task.runs[0])?;
    limit_beside(comparison, texts, random)
}

fn read_domain(comparison: &mut Comparison, limit: u64, text: Vec<u8>) -> Outcome<Response> {
    ask(comparison, Call::ReadDomain, &[limit], text)
}

fn read_problem(comparison: &mut Comparison, facts: u64, text: Vec<u8>) -> Outcome<Response> {
    ask(comparison, Call::ReadProblem, &[facts], text)
}

/// The domain with another limit beside it, of any size, and a run added to that.
fn limit_beside(comparison: &mut Comparison, texts: &Texts, random: &mut Random) -> Outcome<()> {
    let limit = random.pick(&[0, 6, 7, 255, 256, 1 << 32, u64::MAX]);
    let read = read_domain(comparison, limit, texts.domain.clone())?;
    add(comparison, &read.words[2..], &texts.task.runs[0])
}

fn add(comparison: &mut Comparison, words: &[u64], run: &Run) -> Outcome<()> {
    ask(comparison, Call::AddRun, &[words, &[run.start, run.goal]].concat(), run.steps().to_vec())?;
    Ok(())
}

/// Adds a run with something wrong in it: a fact outside, a step that is no action, too many steps.
fn add_spoilt(comparison: &mut Comparison, words: &[u64], run: &Run, random: &mut Random) -> Outcome<()> {
    let task = Task::from_words(words);
    let (mut start, mut goal, mut steps) = (run.start, run.goal, run.steps().to_vec());
    match random.below(5) {
        0 => start |= stray(&task, random),
        1 => goal |= stray(&task, random),
        2 => steps.push(random.pick(&[task.actions as u8, 32, 255])),
        3 => steps.resize(random.pick(&[MOST_STEPS, MOST_STEPS + 1, 300]), 0),
        _ => steps.insert(0, random.pick(&[task.actions as u8, 255])),
    }
    ask(comparison, Call::AddRun, &[words, &[start, goal]].concat(), steps)?;
    Ok(())
}

/// How many bytes of damaged text are read of a domain, and how many texts at least and at most.
const DAMAGED_BYTES: usize = 10_000;
const FEWEST: usize = 2;
const MOST: usize = 12;

/// Reads damaged texts, and a domain with one fact and one action more.
fn read_damaged(comparison: &mut Comparison, texts: &Texts, random: &mut Random) -> Outcome<()> {
    let (domain, problem) = (&texts.domain, &texts.problems[0]);
    let (limit, facts) = (texts.task.limit as u64, texts.task.facts as u64);
    for text in [one_fact_more(domain), one_action_more(domain)] {
        read_domain(comparison, limit, text)?;
    }
    for _ in 0..(DAMAGED_BYTES / domain.len()).clamp(FEWEST, MOST) {
        read_domain(comparison, limit, damaged_text(domain, problem, random))?;
    }
    for _ in 0..MOST {
        read_problem(comparison, facts, damaged_text(problem, domain, random))?;
    }
    Ok(())
}

/// Reads a problem over other sizes than its own, also over such as no task has.
fn read_over_other_facts(comparison: &mut Comparison, texts: &Texts, random: &mut Random) -> Outcome<()> {
    let facts = texts.task.facts as u64;
    let most = MOST_FACTS as u64;
    let huge = random.pick(&[128, 255, 256, 1 << 32, 1 << 63, u64::MAX]);
    for other in [0, 1, facts - 1, facts + 1, facts / 2, most, most + 1, huge] {
        read_problem(comparison, other, texts.problems[0].clone())?;
    }
    let damaged = damaged_text(&texts.problems[0], &texts.domain, random);
    read_problem(comparison, random.pick(&[0, most + 1, huge]), damaged)?;
    Ok(())
}

/// Every call on a task that is not well formed. A run may still be added to one, if it lacks no more than that.
fn malformed_task(comparison: &mut Comparison, task: &Task, random: &mut Random) -> Outcome<()> {
    let words = malformed(task, random);
    let length = random.pick(&[0, 10, 1000]);
    ask(comparison, Call::WriteDomain, &words, random.bytes(length))?;
    for run in [0, beyond(task, random)] {
        ask(comparison, Call::WriteProblem, &[&words[..], &[run]].concat(), random.bytes(length))?;
    }
    add(comparison, &words, &task.runs[0])
}

/// Cuts both texts of a short task at every place, and changes every byte; at a few places to all others.
fn every_place(comparison: &mut Comparison, texts: &Texts, random: &mut Random) -> Outcome<()> {
    let (limit, facts) = (texts.task.limit as u64, texts.task.facts as u64);
    for text in changed_everywhere(&texts.domain, 3, random) {
        read_domain(comparison, limit, text)?;
    }
    for text in changed_everywhere(&texts.problems[0], usize::MAX, random) {
        read_problem(comparison, facts, text)?;
    }
    Ok(())
}

/// The text cut at every place, with up to so many changes of each byte, and with every change of one byte.
fn changed_everywhere(text: &[u8], most: usize, random: &mut Random) -> Vec<Vec<u8>> {
    let with = |place: usize, byte: u8| [&text[..place], &[byte], &text[place + 1..]].concat();
    let mut all: Vec<Vec<u8>> = (0..=text.len()).map(|place| text[..place].to_vec()).collect();
    for place in 0..text.len() {
        let mut bytes = changes(text[place]);
        while bytes.len() > most {
            bytes.swap_remove(random.below(bytes.len()));
        }
        all.extend(bytes.into_iter().map(|byte| with(place, byte)));
    }
    let place = random.below(text.len());
    all.extend((0..=255).map(|byte| with(place, byte)));
    all
}
