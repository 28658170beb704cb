//! Why a call gives no answer: a refusal of document 01 ("Refusal numbers") or of 02, or an enumeration that grew too
//! dear.

/// The grounds of refusal; the value of each is its number in 01, or in 02.
#[derive(Clone, Copy, PartialEq, Eq, Debug)]
pub enum Ground {
    NoEnd = 1,
    UnknownKind = 2,
    SizeRecord = 3,
    SizeRange = 4,
    Outside = 5,
    Order = 6,
    TooManySteps = 7,
    AfterEnd = 8,
    NoListAtAll = 9,
    NoListWithinLimit = 10,
    ShortRoom = 11,
    NotWellFormed = 12,
    Table = 13,
    NotThere = 14,
    RepairList = 15,
    TooManyRuns = 16,
    /// Of a PDDL text (02, request 4).
    OutsideLayout = 17,
    /// In a file, or at 0 in an edit (02, request 6).
    LockWithoutNeed = 18,
}

/// A refusal: its ground and its place.
#[derive(Clone, Copy, PartialEq, Eq, Debug)]
pub struct Refusal {
    pub ground: Ground,
    pub place: u64,
}

impl Refusal {
    pub fn number(&self) -> u64 {
        self.ground as u64
    }
}

/// What ends a call without an answer.
#[derive(Clone, Copy, PartialEq, Eq, Debug)]
pub enum Stop {
    /// The documents refuse the call.
    Refused(Refusal),
    /// This program would have to enumerate more lists than it was allowed; the documents have an answer all the
    /// same.
    TooDear,
}

impl From<Refusal> for Stop {
    fn from(refusal: Refusal) -> Stop {
        Stop::Refused(refusal)
    }
}

/// A refusal at a place.
pub fn at(ground: Ground, place: usize) -> Refusal {
    Refusal { ground, place: place as u64 }
}

/// A refusal whose place is 0, as of every ground from 9 to 14, and of 18 in an edit.
pub fn plain(ground: Ground) -> Refusal {
    at(ground, 0)
}
