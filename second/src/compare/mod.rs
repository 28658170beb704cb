//! The comparison: random cases are put to a driver of the proved library and to the reference, and every word and
//! byte of every answer must be the same.

mod cases;
mod driver;
mod files;
mod lock_counts;
mod report;
mod sitting_counts;
mod sittings;
pub mod tasks;
mod text_cases;
pub mod texts;

use std::time::{SystemTime, UNIX_EPOCH};

use crate::faults::READINGS;
use crate::options::Options;
use crate::protocol::{Request, Response};
use crate::random::Random;
use crate::reference::{Budgets, Means, Reference};
use crate::sittings::{AsWritten, Reading};
use driver::{Batch, Driver};
use report::{Case, Counts, Difference};

pub use lock_counts::hopeless_facts;

/// Bytes of requests that are gathered before they are sent.
const BATCH: usize = 1 << 20;

/// A comparison under way.
struct Comparison {
    seed: u64,
    case: Case,
    driver: Driver,
    reference: Reference,
    /// What two sittings are held to (02, request 7).
    reading: &'static dyn Reading,
    /// Requests gathered and not yet sent.
    batch: Batch,
    counts: Counts,
}

/// Why the cases end early.
enum End {
    /// The driver's judge has met a difference, and holds it.
    Judged,
    /// The reference contradicts itself.
    Reference(Box<Difference>),
}

type Outcome<T> = Result<T, End>;

impl Comparison {
    /// Puts a request to both sides, and gives the reference's response; none if it is too dear and was skipped. The
    /// driver's response is judged when it comes back.
    fn ask(&mut self, request: Request) -> Outcome<Option<Response>> {
        let Some(expected) = self.reference.respond(&request) else {
            self.counts.skip(request.call);
            return Ok(None);
        };
        self.counts.take(&request, &expected, self.reference.means);
        request.encode(&mut self.batch.requests);
        let awaited = self.difference(request, expected.clone(), "no response yet");
        self.batch.expected.push(awaited);
        if self.batch.requests.len() >= BATCH {
            self.send_batch()?;
        }
        Ok(Some(expected))
    }

    /// Puts a request to both sides, where the reading of two sittings has said what the reference has to respond.
    fn ask_as_read(&mut self, request: Request, read: &Response) -> Outcome<()> {
        match self.ask(request.clone())? {
            Some(expected) if expected != *read => {
                let why = format!("the reading of two sittings has {read:?}");
                Err(End::Reference(Box::new(self.difference(request, expected, &why))))
            }
            _ => Ok(()),
        }
    }

    fn difference(&self, request: Request, expected: Response, why: &str) -> Difference {
        Difference { seed: self.seed, case: self.case, request, expected, got: Err(why.to_string()) }
    }

    /// True if the last answer asked for was a solve by the definition.
    fn by_definition(&self) -> bool {
        self.reference.means == Means::Enumeration
    }

    fn send_batch(&mut self) -> Outcome<()> {
        let sent = self.driver.send(std::mem::take(&mut self.batch));
        if sent {
            Ok(())
        } else {
            Err(End::Judged)
        }
    }

    /// The random numbers of a case: they depend on the seed and the case alone.
    fn begin(&mut self, case: Case) -> Random {
        self.case = case;
        let (kind, index) = match case {
            Case::Task(index) => (1, index),
            Case::File(index) => (2, index),
            Case::Session(index) => (3, index),
            Case::Texts(index) => (4, index),
            Case::Sittings(index) => (5, index),
        };
        let mut mixed = Random::new(self.seed ^ (kind << 60));
        Random::new(mixed.next().wrapping_add(index as u64).wrapping_mul(0x9E37_79B9_7F4A_7C15))
    }

    fn all_cases(&mut self, wanted: &Wanted) -> Outcome<()> {
        for index in 0..wanted.tasks {
            let random = self.begin(Case::Task(index));
            cases::task(self, random)?;
        }
        for index in 0..wanted.files {
            let random = self.begin(Case::File(index));
            cases::file(self, random)?;
        }
        let mut index = 0;
        while self.counts.edits < wanted.edits {
            let random = self.begin(Case::Session(index));
            cases::session(self, random, wanted.edits)?;
            index += 1;
        }
        for index in 0..wanted.texts {
            let random = self.begin(Case::Texts(index));
            text_cases::texts(self, random)?;
        }
        for index in 0..wanted.sittings {
            let random = self.begin(Case::Sittings(index));
            sittings::sittings(self, random)?;
        }
        self.send_batch()
    }
}

/// How many cases of each sort are wanted.
struct Wanted {
    tasks: usize,
    files: usize,
    edits: usize,
    texts: usize,
    sittings: usize,
}

/// How many tasks in two sittings are usual: of these only about a third have an answer to split.
const SITTINGS: u64 = 1500;

impl Wanted {
    fn of(options: &Options) -> Result<Wanted, String> {
        let count = |name, usual| Ok::<usize, String>(options.number(name)?.unwrap_or(usual) as usize);
        let [tasks, files, edits, texts] = ["tasks", "files", "edits", "texts"].map(|name| count(name, 1000));
        let sittings = count("sittings", SITTINGS)?;
        Ok(Wanted { tasks: tasks?, files: files?, edits: edits?, texts: texts?, sittings })
    }
}

/// The reading of two sittings that is wanted: 02's own if no wrong one is named.
fn reading_of(options: &Options) -> Result<&'static dyn Reading, String> {
    let Some(name) = options.word("reading") else { return Ok(&AsWritten) };
    let found = READINGS.iter().find(|(known, _)| *known == name);
    found.map(|(_, reading)| *reading).ok_or(format!("no such reading: {name}"))
}

/// `second compare --driver CMD.. -- [--seed N] [--tasks N] [--files N] [--edits N] [--texts N] [--sittings N]
/// [--reading NAME]`, or `second compare readings` to name the wrong readings. True if nothing differs.
pub fn command(options: &Options) -> Result<bool, String> {
    if options.plain.iter().any(|word| word == "readings") {
        READINGS.iter().for_each(|(name, _)| println!("{name}"));
        return Ok(true);
    }
    let seed = options.number("seed")?.unwrap_or_else(seed_of_the_clock);
    println!("seed {seed}");
    let wanted = Wanted::of(options)?;
    let reading = reading_of(options)?;
    let words = options.words("driver").ok_or("compare needs --driver CMD.. --")?;
    let driver = Driver::start(words).map_err(|error| format!("cannot start the driver: {error}"))?;
    let mut comparison = Comparison {
        seed,
        case: Case::Task(0),
        driver,
        reference: Reference::new(Budgets::modest()),
        reading,
        batch: Batch::default(),
        counts: Counts::default(),
    };
    let outcome = comparison.all_cases(&wanted);
    let judgement = comparison.driver.finish()?;
    let difference = match (outcome, judgement) {
        (Err(End::Reference(difference)), _) | (_, Err(difference)) => difference,
        (Err(End::Judged), Ok(())) => return Err("the judge ended without a judgement".to_string()),
        (Ok(()), Ok(())) => {
            println!("{}", comparison.counts);
            return Ok(true);
        }
    };
    println!("{difference}");
    Ok(false)
}

fn seed_of_the_clock() -> u64 {
    SystemTime::now().duration_since(UNIX_EPOCH).map_or(0, |since| since.as_nanos() as u64)
}
