//! The reader, by trying: at each point of a text every piece that the layout has there is compared with the bytes.
//!
//! A text outside the layout is refused "at the length of the longest beginning that it shares with some text of the
//! layout". Every piece that may follow begins some text of the layout, so that this is the farthest place that any
//! piece tried has reached.

use super::layout::Piece;
use crate::refusal::{at, plain, Ground, Refusal};
use crate::task::{with, Facts, Task, MOST_ACTIONS, MOST_FACTS};

/// The beginning of a text of the layout.
#[derive(Clone, Copy)]
struct Beginning {
    last: Option<Piece>,
    length: usize,
    /// What its pieces say: the sizes and actions of a domain, or the start and goal of a problem as those of the first
    /// run. A problem's F is given beside it.
    said: Task,
}

impl Beginning {
    fn empty(facts: usize) -> Beginning {
        Beginning { last: None, length: 0, said: Task { facts, ..Task::zeros() } }
    }

    fn and(&self, piece: Piece) -> Beginning {
        let mut said = self.said;
        let action = &mut said.table[self.said.actions.saturating_sub(1)];
        match piece {
            Piece::Predicate(_) => said.facts += 1,
            Piece::Head(_) => said.actions += 1,
            Piece::Need(fact) => put(&mut action.needs, fact),
            Piece::Add(fact) => put(&mut action.adds, fact),
            Piece::Delete(fact) => put(&mut action.deletes, fact),
            Piece::Start(fact) => put(&mut said.runs[0].start, fact),
            Piece::Goal(fact) => put(&mut said.runs[0].goal, fact),
            _ => {}
        }
        Beginning { last: Some(piece), length: self.length + piece.bytes().count(), said }
    }

    /// The rest of a conjunction: a line of any fact from this one on, or what closes it.
    fn facts_from(&self, from: usize, line: fn(usize) -> Piece, end: Piece) -> Vec<Piece> {
        (from..self.said.facts).map(line).chain([end]).collect()
    }
}

fn put(set: &mut Facts, fact: usize) {
    *set = with(*set, fact, true);
}

/// Which pieces may follow a beginning; none if it is a whole text.
type Next = fn(&Beginning) -> Vec<Piece>;

/// The tables of docs/PDDL.md, "The domain text": F is 1 to 64, A is 1 to 32.
fn next_in_domain(begun: &Beginning) -> Vec<Piece> {
    let needs = |from| begun.facts_from(from, Piece::Need, Piece::NeedsEnd);
    let deletes = |from| begun.facts_from(from, Piece::Delete, Piece::ActionEnd);
    let adds = |from| (from..begun.said.facts).map(Piece::Add).chain(deletes(0)).collect();
    match begun.last {
        None => vec![Piece::DomainOpening],
        Some(Piece::DomainOpening) => vec![Piece::Predicate(0)],
        Some(Piece::Predicate(_)) if begun.said.facts == MOST_FACTS => vec![Piece::PredicatesEnd],
        Some(Piece::Predicate(_)) => vec![Piece::Predicate(begun.said.facts), Piece::PredicatesEnd],
        Some(Piece::PredicatesEnd) => vec![Piece::Head(0)],
        Some(Piece::Head(_)) => needs(0),
        Some(Piece::Need(fact)) => needs(fact + 1),
        Some(Piece::NeedsEnd) => adds(0),
        Some(Piece::Add(fact)) => adds(fact + 1),
        Some(Piece::Delete(fact)) => deletes(fact + 1),
        Some(Piece::ActionEnd) if begun.said.actions == MOST_ACTIONS => vec![Piece::DomainClosing],
        Some(Piece::ActionEnd) => vec![Piece::Head(begun.said.actions), Piece::DomainClosing],
        Some(_) => vec![],
    }
}

/// The table of docs/PDDL.md, "The problem text of a run": "the facts are those below the domain's F".
fn next_in_problem(begun: &Beginning) -> Vec<Piece> {
    let starts = |from| begun.facts_from(from, Piece::Start, Piece::StartEnd);
    let goals = |from| begun.facts_from(from, Piece::Goal, Piece::ProblemClosing);
    match begun.last {
        None => vec![Piece::ProblemOpening],
        Some(Piece::ProblemOpening) => starts(0),
        Some(Piece::Start(fact)) => starts(fact + 1),
        Some(Piece::StartEnd) => goals(0),
        Some(Piece::Goal(fact)) => goals(fact + 1),
        Some(_) => vec![],
    }
}

/// How many of the piece's bytes the text begins with, and whether these are all.
fn tried(piece: Piece, text: &[u8]) -> (usize, bool) {
    let mut common = 0;
    for byte in piece.bytes() {
        if text.get(common) != Some(&byte) {
            return (common, false);
        }
        common += 1;
    }
    (common, true)
}

/// What a text of the layout says. Anything else: 17.
fn said_in(text: &[u8], facts: usize, next: Next) -> Result<Task, Refusal> {
    let mut farthest = 0;
    let mut open = vec![Beginning::empty(facts)];
    while let Some(begun) = open.pop() {
        let pieces = next(&begun);
        if pieces.is_empty() && begun.length == text.len() {
            return Ok(begun.said);
        }
        for piece in pieces {
            let (common, whole) = tried(piece, &text[begun.length..]);
            farthest = farthest.max(begun.length + common);
            if whole {
                open.push(begun.and(piece));
            }
        }
    }
    Err(at(Ground::OutsideLayout, farthest))
}

/// Reads a domain text: its sizes and actions, with the limit that is passed beside it, and no run. Otherwise 17.
pub fn read_domain(text: &[u8], limit: usize) -> Result<Task, Refusal> {
    let said = said_in(text, 0, next_in_domain)?;
    Ok(Task { limit, ..said })
}

/// Reads a problem text over so many facts: its start and goal. "17 for a text outside the layout, after 4 at 0 if the
/// F given to the problem reader is out of range."
pub fn read_problem(text: &[u8], facts: u64) -> Result<(Facts, Facts), Refusal> {
    if !(1..=MOST_FACTS as u64).contains(&facts) {
        return Err(plain(Ground::SizeRange));
    }
    let [run, ..] = said_in(text, facts as usize, next_in_problem)?.runs;
    Ok((run.start, run.goal))
}
