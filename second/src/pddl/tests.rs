//! Tests of the PDDL texts (02, request 4): the page's own examples, the reader against all texts of small layouts, and
//! the refusals.

use super::*;
use crate::compare::tasks::full_task;
use crate::compare::texts::{short_task, text_task};
use crate::random::Random;
use crate::refusal::at;
use crate::task::{Action, MOST_ACTIONS, MOST_FACTS};

const PAGE: &str = include_str!("../../../docs/PDDL.md");

/// The page's texts: of its lines that are indented by four, without that indent, those that stand together from a
/// definition on.
fn texts_of_the_page() -> Vec<String> {
    let lines: Vec<Option<&str>> = PAGE.lines().map(|line| line.strip_prefix("    ")).collect();
    let blocks = lines.split(Option::is_none).map(|lines| lines.iter().flatten());
    let texts = blocks.map(|lines| lines.map(|line| format!("{line}\n")).collect::<String>());
    texts.filter(|text| text.starts_with("(define")).collect()
}

#[test]
fn the_page_shows_what_is_written() {
    let mut task = Task::sized(3, 1, 0);
    task.table[0] = Action { needs: 0b101, adds: 0b010, deletes: 0b001, locks: 0b100 };
    (task.runs[0].start, task.runs[0].goal) = (0b001, 0b110);
    let written = [domain_text(&task), problem_text(&task.runs[0])];
    assert_eq!(written.map(|text| String::from_utf8(text).unwrap()).to_vec(), texts_of_the_page());
}

/// Bytes that stand somewhere in the layout, or nowhere.
const BYTES: [u8; 14] = *b"0129 ()fna:\n\0\xff";

/// The text with one small damage, in every way.
fn damaged(text: &[u8]) -> Vec<Vec<u8>> {
    let mut all: Vec<Vec<u8>> = (0..=text.len()).map(|place| text[..place].to_vec()).collect();
    for place in 0..=text.len() {
        let (before, behind) = text.split_at(place);
        let rest = behind.get(1..).unwrap_or(&[]);
        all.push([before, rest].concat());
        all.extend(BYTES.map(|byte| [before, &[byte], rest].concat()));
        all.extend(BYTES.map(|byte| [before, &[byte], behind].concat()));
    }
    let lines: Vec<&[u8]> = text.split_inclusive(|&byte| byte == b'\n').collect();
    for index in 1..lines.len() {
        let (before, behind) = lines.split_at(index);
        all.push([before, &before[index - 1..], behind].concat().concat());
        all.push([before, &behind[1..]].concat().concat());
        all.push([&before[..index - 1], &behind[..1], &before[index - 1..], &behind[1..]].concat().concat());
    }
    all
}

/// How many bytes the two have in common from their first on.
fn shared(one: &[u8], other: &[u8]) -> usize {
    one.iter().zip(other).take_while(|(byte, same)| byte == same).count()
}

/// The longest beginning that the bytes share with one of the texts, all of them tried.
fn longest_of_all(texts: &[Vec<u8>], bytes: &[u8]) -> usize {
    texts.iter().map(|text| shared(text, bytes)).max().unwrap()
}

/// The same in sorted texts: the one that shares most stands next to where the bytes would.
fn longest_of_sorted(texts: &[Vec<u8>], bytes: &[u8]) -> usize {
    let place = texts.partition_point(|text| text.as_slice() < bytes);
    longest_of_all(&texts[place.saturating_sub(1)..texts.len().min(place + 1)], bytes)
}

/// Every damaged text is read if it is one of the texts, and otherwise refused at the longest shared beginning.
fn assert_read<T: PartialEq + std::fmt::Debug>(
    text: &[u8],
    texts: &[Vec<u8>],
    longest: fn(&[Vec<u8>], &[u8]) -> usize,
    read: impl Fn(&[u8]) -> Result<T, Refusal>,
) {
    for bytes in damaged(text) {
        let shown = bytes.escape_ascii();
        if texts.binary_search(&bytes).is_ok() {
            assert!(read(&bytes).is_ok(), "{shown}");
        } else {
            assert_eq!(read(&bytes), Err(at(Ground::OutsideLayout, longest(texts, &bytes))), "{shown}");
        }
    }
}

fn sorted(mut texts: Vec<Vec<u8>>) -> Vec<Vec<u8>> {
    texts.sort();
    texts
}

fn problem_of(start: Facts, goal: Facts) -> Vec<u8> {
    problem_text(&Run { start, goal, ..Run::empty() })
}

/// All problem texts with these sets for start and goal.
fn problems_of(sets: &[Facts]) -> Vec<Vec<u8>> {
    sorted(sets.iter().flat_map(|&start| sets.iter().map(move |&goal| problem_of(start, goal))).collect())
}

#[test]
fn problems_over_few_facts_are_read_as_the_list_of_all_texts_says() {
    for facts in 1..=3 {
        let sets: Vec<Facts> = (0..1 << facts).collect();
        let texts = problems_of(&sets);
        assert_eq!(texts.len(), 1 << (2 * facts));
        for text in &texts {
            assert_read(text, &texts, longest_of_all, |bytes| read_problem(bytes, facts));
        }
    }
}

/// Over twelve facts numbers share digits. Two facts of a damaged text and one begun share with sets of three.
#[test]
fn problems_over_twelve_facts_are_read_as_the_list_of_all_texts_says() {
    let sets: Vec<Facts> = (0..1 << 12).filter(|set: &Facts| set.count_ones() <= 3).collect();
    let texts = problems_of(&sets);
    for start in [0, 1 << 1, 1 << 10, 1 << 1 | 1 << 10, 1 << 1 | 1 << 11, 1 << 5 | 1 << 9] {
        for goal in [0, 1 << 11, 1 << 1 | 1 << 2] {
            assert_read(&problem_of(start, goal), &texts, longest_of_sorted, |bytes| read_problem(bytes, 12));
        }
    }
}

/// The domain text over so many facts with an action for each of these codes: its needs, adds and deletes, lowest bits
/// first.
fn domain_of(facts: usize, codes: &[u64]) -> Vec<u8> {
    let mut task = Task::sized(facts, codes.len(), 0);
    let mask = (1 << facts) - 1;
    for (action, code) in task.table.iter_mut().zip(codes) {
        let [needs, adds, deletes] = [0, 1, 2].map(|set| code >> (set * facts) & mask);
        *action = Action { needs, adds, deletes, locks: 0 };
    }
    domain_text(&task)
}

/// All lists of so many codes of actions over so many facts.
fn codes_of(facts: usize, actions: usize) -> Vec<Vec<u64>> {
    let count = 1 << (3 * facts);
    (0..actions).fold(vec![vec![]], |lists, _| {
        lists.iter().flat_map(|list| (0..count).map(|code| [list.as_slice(), &[code]].concat())).collect()
    })
}

/// What one damage can make of up to two facts and two actions shares with a third fact or action no more than how they
/// begin, and so they are listed with one each, and empty.
#[test]
fn small_domains_are_read_as_the_list_of_all_texts_says() {
    let all = |facts, actions| codes_of(facts, actions).into_iter().map(move |codes| domain_of(facts, &codes));
    let third = |codes: Vec<u64>| domain_of(2, &[codes.as_slice(), &[0]].concat());
    let listed = [(1, 1), (1, 2), (1, 3), (2, 1), (2, 2), (3, 1)].map(|(facts, actions)| all(facts, actions));
    let texts = listed.into_iter().flatten().chain(codes_of(2, 2).into_iter().map(third));
    let texts = sorted(texts.collect());
    let bases = [(1, &[][..]), (1, &[0b101]), (2, &[]), (2, &[0b110110]), (2, &[0b01_10_11])];
    for (facts, first) in bases {
        for last in [0, 0b111, 0b010, 0b101, 0b11_01_10 & ((1 << (3 * facts)) - 1)] {
            let text = domain_of(facts, &[first, &[last]].concat());
            assert_read(&text, &texts, longest_of_sorted, |bytes| read_domain(bytes, 0));
        }
    }
}

/// The text with its first such part replaced, and where that part stands in it.
fn replaced(text: &[u8], part: &str, other: &str) -> (Vec<u8>, usize) {
    let text = String::from_utf8(text.to_vec()).unwrap();
    (text.replacen(part, other, 1).into_bytes(), text.find(part).expect(part))
}

fn refused_at(place: usize) -> Refusal {
    at(Ground::OutsideLayout, place)
}

#[test]
fn numbers_that_share_a_digit() {
    let text = problem_of(1 << 5, 0);
    let (outside, line) = replaced(&text, "    (f5)", "    (f12)");
    assert_eq!(read_problem(&outside, 13), Ok((1 << 12, 0)));
    assert_eq!(read_problem(&outside, 12), Err(refused_at(line + "    (f1".len())));
    assert_eq!(read_problem(&outside, 2), Err(refused_at(line + "    (f1".len())));
    assert_eq!(read_problem(&outside, 1), Err(refused_at(line + "    (f".len())));
    let (down, line) = replaced(&text, "    (f5)\n", "    (f5)\n    (f1)\n");
    let second = line + "    (f5)\n".len();
    assert_eq!(read_problem(&down, 11), Err(refused_at(second + "    (f1".len())));
    assert_eq!(read_problem(&down, 10), Err(refused_at(second + "    (f".len())));
}

#[test]
fn a_65th_fact_and_a_33rd_action() {
    let full = domain_text(&full_task());
    let (fact, line) = replaced(&full, "    (f63)\n", "    (f63)\n    (f64)\n");
    assert_eq!(read_domain(&fact, 0), Err(refused_at(line + "    (f63)\n  ".len())));
    let (action, line) = replaced(&full, "\n)\n", "\n  (:action a32\n   :parameters ()\n");
    assert_eq!(read_domain(&action, 0), Err(refused_at(line + "\n".len())));
    let (need, line) = replaced(&domain_of(1, &[0b111]), "and\n    (f0)", "and\n    (f1)");
    assert_eq!(read_domain(&need, 0), Err(refused_at(line + "and\n    (f".len())));
}

#[test]
fn no_fact_and_no_action() {
    let text = domain_of(1, &[0]);
    let (no_fact, line) = replaced(&text, "    (f0)\n", "");
    assert_eq!(read_domain(&no_fact, 0), Err(refused_at(line + "  ".len())));
    let head = String::from_utf8(text.clone()).unwrap().find("  (:action").unwrap();
    let no_action = [&text[..head], b")\n"].concat();
    assert_eq!(read_domain(&no_action, 0), Err(refused_at(head)));
}

#[test]
fn the_facts_given_to_the_problem_reader_are_looked_at_first() {
    for facts in [0, 65, 1 << 32, u64::MAX] {
        assert_eq!(read_problem(&problem_of(1, 1), facts), Err(plain(Ground::SizeRange)));
        assert_eq!(read_problem(b"no text", facts), Err(plain(Ground::SizeRange)));
    }
    assert_eq!(read_problem(&problem_of(1 << 63, 1), 64), Ok((1 << 63, 1)));
    assert!(read_problem(&problem_of(1 << 62, 1 << 63), 63).is_err());
}

#[test]
fn refusals_of_the_writers() {
    let task = Task::sized(2, 1, 0);
    let domain = domain_text(&task);
    let mut room = vec![7; domain.len() + 2];
    assert_eq!(write_domain(&task, &mut room[..domain.len() - 1]), Err(plain(Ground::ShortRoom)));
    assert!(room.iter().all(|&byte| byte == 7));
    assert_eq!(write_domain(&task, &mut room), Ok(domain.len()));
    assert_eq!(room, [domain.as_slice(), &[7, 7]].concat());
    assert_eq!(write_problem(&task, 0, &mut []), Err(plain(Ground::ShortRoom)));
    assert_eq!(write_problem(&task, 1, &mut []), Err(plain(Ground::NotThere)));
    let bad = Task { limit: 7, ..task };
    assert_eq!(write_problem(&bad, 1, &mut []), Err(plain(Ground::NotWellFormed)));
    assert_eq!(write_domain(&bad, &mut []), Err(plain(Ground::NotWellFormed)));
}

/// What `add_run` makes of a task with one run is refused with 12.
fn assert_not_added(task: Task, start: Facts, goal: Facts, steps: &[u8]) {
    assert_eq!(add_run(&task, start, goal, steps), Err(plain(Ground::NotWellFormed)), "{task:?}");
}

#[test]
fn refusals_of_a_run_more() {
    let task = Task::sized(3, 2, 6);
    assert_eq!(add_run(&task, 7, 0, &[1; MOST_STEPS]).map(|more| more.many), Ok(2));
    assert_not_added(task, 8, 0, &[]);
    assert_not_added(task, 0, 8, &[]);
    assert_not_added(task, 0, 0, &[0, 2]);
    assert_not_added(task, 0, 0, &[0; MOST_STEPS + 1]);
    assert_not_added(Task { many: MOST_RUNS, ..task }, 0, 0, &[]);
    assert_not_added(Task { many: usize::MAX, ..task }, 0, 0, &[]);
    assert_not_added(Task { limit: 7, ..task }, 0, 0, &[]);
    assert_not_added(Task { facts: MOST_FACTS + 1, ..task }, 0, 0, &[]);
    assert_not_added(Task { actions: MOST_ACTIONS + 1, ..task }, 0, 0, &[]);
    let mut unused = task;
    unused.runs[2].goal = 1;
    assert_not_added(unused, 0, 0, &[]);
    let mut locked = task;
    locked.table[1].locks = 1;
    assert_not_added(locked, 0, 0, &[]);
    locked.table[1].needs = 1;
    assert_eq!(add_run(&locked, 0, 0, &[]).map(|more| more.table), Ok(locked.table), "a run more leaves the locks");
}

#[test]
fn every_task_comes_back_from_its_texts_without_its_locks() {
    let mut random = Random::new(2026);
    let mut tasks = vec![full_task()];
    for _ in 0..300 {
        tasks.extend([short_task(&mut random), text_task(&mut random)]);
    }
    for task in tasks {
        let mut again = read_domain(&domain_text(&task), task.limit).unwrap();
        assert_eq!((again.many, again.runs), (0, Task::zeros().runs));
        for run in task.known_runs() {
            let (start, goal) = read_problem(&problem_text(run), task.facts as u64).unwrap();
            again = add_run(&again, start, goal, run.steps()).unwrap();
        }
        assert_eq!(again, task.unlocked());
    }
}

/// A cut text is refused at its length, a good text with a tail at its own.
#[test]
fn cuts_and_tails() {
    let mut random = Random::new(4);
    for _ in 0..50 {
        let text = domain_text(&text_task(&mut random));
        let cut = random.below(text.len());
        assert_eq!(read_domain(&text[..cut], 0), Err(refused_at(cut)));
        for tail in [&b"\n"[..], b" ", b")", &text] {
            assert_eq!(read_domain(&[&text, tail].concat(), 0), Err(refused_at(text.len())));
        }
    }
}
