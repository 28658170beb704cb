//! # The second program
//!
//! An independent program for the rules of documents 01 and 02, written from those alone and not from the Rattle code.
//! It is slow and plain on purpose: it enumerates permitted repair lists by length and then in order, makes the
//! repairs and simulates the runs, and reads a PDDL text by trying all that may follow, so that a reader can see that
//! its answers are right. Its main use is `second compare`, which puts many random tasks, files, edits, PDDL texts and
//! lists in two sittings to a driver of the proved library and to itself, and compares every word and byte of every
//! answer. Beside that it holds the published Algorithm 1 of source document 000 and a maker of hard tasks, both for the
//! benchmark. Standard library only; `cargo build --offline --release`.
//!
//! ```text
//! second compare --driver CMD.. -- [--seed N] [--tasks N] [--files N] [--edits N] [--texts N] [--sittings N]
//!                        compare a driver with this program; seed from the clock if none is given; 1 if any differs
//!     [--reading NAME]   with a deliberately wrong reading of two sittings
//! second compare readings
//!                        name the wrong readings
//! second drive [--break NAME]
//!                        answer the driver's protocol from this program, with a deliberate fault if one is named
//! second drive faults    name the faults
//! second listing         print the listing of the standard input, solved by enumeration
//! second algorithm1 [--repeat N] FILE..
//!                        solve files by the published Algorithm 1; with N, print the mean time of N solves
//! second hard [--seed N] [--count N] FOLDER
//!                        write hard tasks as files into a folder
//! ```

mod algorithm1;
mod answer;
#[cfg(test)]
mod bench_sheet;
mod compare;
mod drive;
mod faults;
mod file;
mod hard;
mod listing;
#[cfg(test)]
mod lock_sheet;
mod options;
mod pddl;
mod protocol;
mod random;
mod reference;
mod refusal;
mod repair;
mod run;
mod session;
#[cfg(test)]
mod sitting_sheet;
mod sittings;
mod task;

use std::io::{self, Read};
use std::process::ExitCode;

use options::Options;

fn main() -> ExitCode {
    match command() {
        Ok(true) => ExitCode::SUCCESS,
        Ok(false) => ExitCode::FAILURE,
        Err(why) => {
            eprintln!("second: {why}");
            ExitCode::from(2)
        }
    }
}

/// Runs the command that the words name. False if a comparison found a difference.
fn command() -> Result<bool, String> {
    let mut words = std::env::args().skip(1);
    let name = words.next().unwrap_or_default();
    let options = Options::of(words)?;
    match name.as_str() {
        "compare" => {
            options.only(&["driver", "seed", "tasks", "files", "edits", "texts", "sittings", "reading"])?;
            compare::command(&options)
        }
        "drive" => {
            options.only(&["break"])?;
            drive::command(&options)
        }
        "listing" => {
            options.only(&[])?;
            print_listing()
        }
        "algorithm1" => {
            options.only(&["repeat"])?;
            algorithm1::command(&options)
        }
        "hard" => {
            options.only(&["seed", "count"])?;
            hard::command(&options)
        }
        _ => Err("say compare, drive, listing, algorithm1 or hard; see the head of src/main.rs".to_string()),
    }
}

fn print_listing() -> Result<bool, String> {
    let mut input = Vec::new();
    io::stdin().take(listing::MOST_INPUT as u64).read_to_end(&mut input).map_err(|error| error.to_string())?;
    let unbounded = answer::Budget::of(u64::MAX);
    let text = listing::listing(&input, unbounded).map_err(|stop| format!("{stop:?}"))?;
    print!("{text}");
    Ok(true)
}
