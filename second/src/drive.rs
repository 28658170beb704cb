//! A driver that answers from the reference itself, so that the comparison can be tried without the proved library,
//! with a deliberate fault if one is named.

use std::io::{self, BufReader, Write};

use crate::faults::{Fault, Morning, FAULTS};
use crate::options::Options;
use crate::protocol::{Request, Response};
use crate::reference::{Budgets, Reference};
use crate::task::Task;

/// The reference with at most one fault, and how many edits it has made.
pub struct Broken {
    reference: Reference,
    fault: Option<Fault>,
    pub edits: usize,
    /// What a fault of two sittings remembers.
    pub morning: Option<Morning>,
}

/// `second drive [--break NAME]`, or `second drive faults` to name them all.
pub fn command(options: &Options) -> Result<bool, String> {
    if options.plain.iter().any(|word| word == "faults") {
        FAULTS.iter().for_each(|(name, _)| println!("{name}"));
        return Ok(true);
    }
    let find = |name: &str| {
        let found = FAULTS.iter().find(|(known, _)| *known == name);
        found.map(|(_, fault)| *fault).ok_or(format!("no such fault: {name}"))
    };
    let fault = options.word("break").map(find).transpose()?;
    let broken = Broken { reference: Reference::new(Budgets::modest()), fault, edits: 0, morning: None };
    drive(broken).map_err(|error| error.to_string())?;
    Ok(true)
}

fn drive(mut broken: Broken) -> io::Result<()> {
    let mut input = BufReader::with_capacity(1 << 20, io::stdin().lock());
    let mut output = io::BufWriter::with_capacity(1 << 20, io::stdout().lock());
    let mut encoded = Vec::new();
    while let Some(request) = Request::decode(&mut input)? {
        encoded.clear();
        broken.respond(&request).encode(&mut encoded);
        output.write_all(&encoded)?;
    }
    output.flush()
}

impl Broken {
    fn respond(&mut self, request: &Request) -> Response {
        let right = self.right(request);
        match self.fault {
            Some(fault) => fault(self, request, right),
            None => right,
        }
    }

    /// What documents 01 and 02 demand.
    pub fn right(&mut self, request: &Request) -> Response {
        self.reference.respond(request).expect("the comparison asks only what the reference can afford")
    }

    /// The right response to the request with another task.
    pub fn with_task(&mut self, request: &Request, task: &Task) -> Response {
        let words = [&task.words(), request.more_words()].concat();
        self.right(&Request { words, ..request.clone() })
    }
}
