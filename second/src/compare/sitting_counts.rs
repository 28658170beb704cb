//! What a comparison met of lists in two sittings (02, request 7).

use std::fmt;

/// How often each was met.
#[derive(Default)]
pub struct SittingCounts {
    /// Tasks whose lists were taken in two sittings.
    pub tasks: usize,
    /// Answers that were split: with nothing for one of the sittings, with something for both.
    answers: [usize; 2],
    /// Solves between the sittings of an answer: nothing left, the rest, 11.
    between: [usize; 3],
    /// Tables after both sittings of an answer, whose runs were all checked.
    pub ends: usize,
    /// Pairs of permitted lists: sharing nothing, one of them empty; sharing nothing; sharing a number.
    pairs: [usize; 3],
    /// Second lists refused with 15: at the index that the number has in the first list too, at another.
    indices: [usize; 2],
    /// The same by the index alone: 0, a later one.
    places: [usize; 2],
    /// Empty lists that were applied after a first sitting.
    pub empty: usize,
}

impl SittingCounts {
    pub fn take_answer(&mut self, parts: &[Vec<u16>; 2]) {
        self.answers[parts.iter().all(|part| !part.is_empty()) as usize] += 1;
    }

    /// Counts a solve between the sittings, into room for so many numbers, where so many are left.
    pub fn take_between(&mut self, left: usize, room: usize) {
        let which = match left {
            0 => 0,
            _ if room >= left => 1,
            _ => 2,
        };
        self.between[which] += 1;
    }

    pub fn take_pair(&mut self, lists: &[Vec<u16>; 2]) {
        let which = if lists[1].iter().any(|number| lists[0].contains(number)) {
            2
        } else {
            lists.iter().all(|list| !list.is_empty()) as usize
        };
        self.pairs[which] += 1;
    }

    /// Counts a second list that is refused at this index.
    pub fn take_refused(&mut self, first: &[u16], second: &[u16], index: usize) {
        self.indices[(first.get(index) != second.get(index)) as usize] += 1;
        self.places[(index > 0) as usize] += 1;
    }
}

impl fmt::Display for SittingCounts {
    fn fmt(&self, out: &mut fmt::Formatter) -> fmt::Result {
        writeln!(out, "answers in two sittings, one of them empty, none empty: {:?}", self.answers)?;
        writeln!(out, "solves between the sittings, nothing left, the rest, 11: {:?}", self.between)?;
        writeln!(out, "tables after both sittings, every run checked: {}", self.ends)?;
        writeln!(out, "pairs of lists, one empty, sharing nothing, sharing a number: {:?}", self.pairs)?;
        writeln!(out, "second lists refused 15, at the index in the first list, at another: {:?}", self.indices)?;
        writeln!(out, "second lists refused 15, at 0, at a later index: {:?}", self.places)?;
        writeln!(out, "empty lists applied between the sittings: {}", self.empty)
    }
}
