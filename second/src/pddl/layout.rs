//! The layout byte by byte: its pieces, and the writer, which says of which pieces a text is made.

use crate::task::{facts_in, Run, Task};

/// What the layout writes in one go: the line of a fact, the head of an action, or fixed lines that stand together.
#[derive(Clone, Copy, PartialEq, Eq, Debug)]
pub enum Piece {
    DomainOpening,
    Predicate(usize),
    PredicatesEnd,
    Head(usize),
    Need(usize),
    NeedsEnd,
    Add(usize),
    Delete(usize),
    ActionEnd,
    DomainClosing,
    ProblemOpening,
    Start(usize),
    StartEnd,
    Goal(usize),
    ProblemClosing,
}

impl Piece {
    /// What stands before its number, the number if it has one, and what stands behind it.
    fn parts(self) -> (&'static str, Option<usize>, &'static str) {
        match self {
            Piece::DomainOpening => ("(define (domain stage)\n  (:requirements :strips)\n  (:predicates\n", None, ""),
            Piece::PredicatesEnd => ("  )\n", None, ""),
            Piece::Head(action) => ("  (:action a", Some(action), "\n   :parameters ()\n   :precondition (and\n"),
            Piece::NeedsEnd => ("   )\n   :effect (and\n", None, ""),
            Piece::Delete(fact) => ("    (not (f", Some(fact), "))\n"),
            Piece::ActionEnd => ("   )\n  )\n", None, ""),
            Piece::DomainClosing => (")\n", None, ""),
            Piece::ProblemOpening => ("(define (problem run)\n  (:domain stage)\n  (:init\n", None, ""),
            Piece::StartEnd => ("  )\n  (:goal (and\n", None, ""),
            Piece::ProblemClosing => ("  ))\n)\n", None, ""),
            Piece::Predicate(fact) | Piece::Need(fact) | Piece::Add(fact) | Piece::Start(fact) | Piece::Goal(fact) => {
                ("    (f", Some(fact), ")\n")
            }
        }
    }

    pub fn bytes(self) -> impl Iterator<Item = u8> {
        let (before, number, behind) = self.parts();
        before.bytes().chain(number.into_iter().flat_map(digits)).chain(behind.bytes())
    }
}

/// "Numbers are decimal, with no leading zero." None has a third digit.
fn digits(number: usize) -> impl Iterator<Item = u8> {
    let tens = (number >= 10).then_some(number / 10);
    tens.into_iter().chain([number % 10]).map(|digit| b'0' + digit as u8)
}

fn text_of(pieces: &[Piece]) -> Vec<u8> {
    pieces.iter().flat_map(|piece| piece.bytes()).collect()
}

/// The domain text of a well-formed task. "A delete that is also an add is written."
pub fn domain_text(task: &Task) -> Vec<u8> {
    let mut pieces = vec![Piece::DomainOpening];
    pieces.extend((0..task.facts).map(Piece::Predicate));
    pieces.push(Piece::PredicatesEnd);
    for (index, action) in task.table[..task.actions].iter().enumerate() {
        pieces.push(Piece::Head(index));
        pieces.extend(facts_in(action.needs).map(Piece::Need));
        pieces.push(Piece::NeedsEnd);
        pieces.extend(facts_in(action.adds).map(Piece::Add));
        pieces.extend(facts_in(action.deletes).map(Piece::Delete));
        pieces.push(Piece::ActionEnd);
    }
    pieces.push(Piece::DomainClosing);
    text_of(&pieces)
}

/// The problem text of a run: its start and its goal.
pub fn problem_text(run: &Run) -> Vec<u8> {
    let mut pieces = vec![Piece::ProblemOpening];
    pieces.extend(facts_in(run.start).map(Piece::Start));
    pieces.push(Piece::StartEnd);
    pieces.extend(facts_in(run.goal).map(Piece::Goal));
    pieces.push(Piece::ProblemClosing);
    text_of(&pieces)
}
