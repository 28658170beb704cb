//! The comparison finds nothing in a right driver, and finds each deliberate fault.

use std::process::{Command, Output};

const SECOND: &str = env!("CARGO_BIN_EXE_second");

/// The sorts of cases, and how many of each are compared.
const SORTS: [&str; 5] = ["--tasks", "--files", "--edits", "--texts", "--sittings"];
const ALL: [usize; 5] = [1500, 1500, 1500, 400, 400];
const BASE: [usize; 5] = [1500, 1500, 1500, 0, 0];
const ONLY_EDITS: [usize; 5] = [0, 0, 1500, 0, 0];
const ONLY_TEXTS: [usize; 5] = [0, 0, 0, 400, 0];
const ONLY_SITTINGS: [usize; 5] = [0, 0, 0, 0, 400];

fn compare(driver: &[&str], cases: [usize; 5]) -> Output {
    compare_with(driver, cases, &[])
}

fn compare_with(driver: &[&str], cases: [usize; 5], more: &[&str]) -> Output {
    let mut command = Command::new(SECOND);
    command.args(["compare", "--driver"]).args(driver).args(["--", "--seed", "7"]).args(more);
    for (sort, count) in SORTS.iter().zip(cases) {
        command.arg(sort).arg(count.to_string());
    }
    command.output().expect("the second program runs")
}

fn text(output: &Output) -> String {
    String::from_utf8_lossy(&output.stdout).into_owned()
}

/// The names that the second program prints for these words.
fn names(words: [&str; 2]) -> Vec<String> {
    let named = Command::new(SECOND).args(words).output().expect("the second program runs");
    text(&named).lines().map(str::to_string).collect()
}

/// The counts that the report gives under this name.
fn counts(printed: &str, name: &str) -> Vec<usize> {
    let counts = printed.lines().find_map(|line| line.strip_prefix(name)?.strip_prefix(": ")).expect(name);
    counts.trim_matches(['[', ']']).split(", ").map(|count| count.parse().expect("a count")).collect()
}

/// Which of them were met.
fn met(printed: &str, name: &str) -> Vec<bool> {
    counts(printed, name).into_iter().map(|count| count > 0).collect()
}

/// Whether reads were refused with this number at the kind byte, the first number, the second number of a record.
fn places_met(printed: &str, number: u64) -> Vec<bool> {
    met(printed, &format!("reads refused {number}, at the kind byte, the first number, the second"))
}

#[test]
fn a_right_driver_passes() {
    let output = compare(&[SECOND, "drive"], ALL);
    assert!(output.status.success(), "{}", text(&output));
    assert!(text(&output).starts_with("seed 7\n"));
    let compared = "compared 1500 tasks, 1500 files, 1500 edits, 400 tasks as texts, 400 tasks in two sittings: ";
    assert!(text(&output).contains(compared));
    assert_eq!(places_met(&text(&output), 5), [false, true, true]);
    assert_eq!(places_met(&text(&output), 6), [true, true, false]);
    let totals = met(&text(&output), "runs checked, total equal to the old rule's, greater, smaller");
    assert_eq!(totals, [true, true, true], "a total that only one of the two rules gives");
    let places = "texts refused 17, at their end, behind a good text, behind a digit, elsewhere";
    assert_eq!(met(&text(&output), places), [true; 4]);
}

/// What the comparison has to meet of locks, each at least once.
#[test]
fn locks_are_met_everywhere() {
    let printed = text(&compare(&[SECOND, "drive"], ALL));
    for name in [
        "solves refused 9, for a goal without steps, for locked needs alone",
        "rows that say 8, for a goal without steps, for locked needs alone",
        "solves with locks, as without them, another list, 10, 9",
        "calls refused for locks alone, with 12, 13, 15",
        "edits refused 18, a lock set, a need cleared",
        "edits that set or cleared a lock",
        "reads refused at a lock, with 5, 6 for its kind, 6 for no ascent, 18",
    ] {
        assert!(met(&printed, name).into_iter().all(|met| met), "{name}:\n{printed}");
    }
}

/// What the comparison has to meet of two sittings, each often.
#[test]
fn two_sittings_are_met_often() {
    let printed = text(&compare(&[SECOND, "drive"], ONLY_SITTINGS));
    for name in [
        "answers in two sittings, one of them empty, none empty",
        "solves between the sittings, nothing left, the rest, 11",
        "tables after both sittings, every run checked",
        "pairs of lists, one empty, sharing nothing, sharing a number",
        "second lists refused 15, at the index in the first list, at another",
        "second lists refused 15, at 0, at a later index",
        "empty lists applied between the sittings",
    ] {
        assert!(counts(&printed, name).into_iter().all(|count| count >= 40), "{name}:\n{printed}");
    }
}

/// The cases that a fault is to be found in.
fn cases_for(fault: &str) -> [usize; 5] {
    let sorts = [("pddl-", ONLY_TEXTS), ("lock-edit-", ONLY_EDITS), ("sittings-", ONLY_SITTINGS)];
    sorts.into_iter().find(|(name, _)| fault.starts_with(name)).map_or(BASE, |(_, cases)| cases)
}

#[test]
fn each_fault_is_found_and_shown() {
    let faults = names(["drive", "faults"]);
    assert!(faults.len() >= 100, "the faults are named");
    for fault in faults {
        let output = compare(&[SECOND, "drive", "--break", &fault], cases_for(&fault));
        assert_eq!(output.status.code(), Some(1), "{fault} passed:\n{}", text(&output));
        assert!(text(&output).contains("different: seed 7, case"), "{fault}");
        assert!(text(&output).contains("\nfile: "), "{fault}");
        assert!(text(&output).contains("\ngot words: "), "{fault}: the driver died of it, and did not answer wrongly");
    }
}

/// Each wrong reading of two sittings is found in a right driver.
#[test]
fn each_wrong_reading_is_found_and_shown() {
    let readings = names(["compare", "readings"]);
    assert!(readings.len() >= 9, "the readings are named");
    for reading in readings {
        let output = compare_with(&[SECOND, "drive"], ONLY_SITTINGS, &["--reading", &reading]);
        assert_eq!(output.status.code(), Some(1), "{reading} passed:\n{}", text(&output));
        assert!(text(&output).contains("different: seed 7, case Sittings("), "{reading}");
        assert!(text(&output).contains("\ngot nothing: the reading of two sittings has "), "{reading}");
    }
}

#[test]
fn a_driver_that_says_nothing_is_found() {
    let output = compare(&["true"], BASE);
    assert_eq!(output.status.code(), Some(1));
    assert!(text(&output).contains("got nothing"));
}

#[test]
fn a_driver_that_is_not_there_is_told() {
    let output = compare(&["./no-such-driver"], BASE);
    assert_eq!(output.status.code(), Some(2));
}
