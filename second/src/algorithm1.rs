//! The published Algorithm 1 of source document 000, written plainly, for the benchmark: collect conflicts, take the
//! first shortest list that hits all of them, test it, and add the conflict of the first run and step that still fails.

use std::time::Instant;

use crate::listing::listing_by;
use crate::options::Options;
use crate::refusal::{plain, Ground, Refusal, Stop};
use crate::repair::{repaired, Kind, Repair};
use crate::run::{absent, after};
use crate::task::{has, Action, Run, Task};

/// Repairs by number, ascending, of which every working list has one.
type Conflict = Vec<u16>;

/// Solves a task: refusals 12, 9 and 10.
pub fn solve(task: &Task) -> Result<Vec<u16>, Refusal> {
    task.must_be_well_formed()?;
    let mut conflicts: Vec<Conflict> = Vec::new();
    loop {
        let candidate = first_shortest_hitting(&conflicts);
        let Some(conflict) = conflict_of(task, &candidate) else {
            return within_limit(candidate, task.limit);
        };
        if conflict.is_empty() {
            return Err(plain(Ground::NoListAtAll));
        }
        conflicts.push(conflict);
    }
}

fn within_limit(list: Vec<u16>, limit: usize) -> Result<Vec<u16>, Refusal> {
    if list.len() <= limit {
        Ok(list)
    } else {
        Err(plain(Ground::NoListWithinLimit))
    }
}

/// The conflict of the first run that fails with the candidate applied; none if all runs are valid.
pub fn conflict_of(task: &Task, candidate: &[u16]) -> Option<Conflict> {
    let repairs: Vec<Repair> = candidate.iter().map(|&number| Repair::of_number(number)).collect();
    let task = repaired(task, &repairs);
    task.known_runs().iter().find_map(|run| conflict_in(run, &task.table))
}

/// Algorithm 2: the conflict of the first step of a run (the goal last), and its lowest fact, that fails; none if the
/// run is valid. Every step before it ran, so that a step that can't run (02, request 3) is of no matter here.
fn conflict_in(run: &Run, table: &[Action]) -> Option<Conflict> {
    let mut state = run.start;
    for (step, action) in run.actions(table).enumerate() {
        let missing = absent(action.needs, state);
        if missing != 0 {
            return Some(conflict_at(run, table, step, missing.trailing_zeros() as usize));
        }
        state = after(state, action);
    }
    let missing = absent(run.goal, state);
    (missing != 0).then(|| conflict_at(run, table, run.count, missing.trailing_zeros() as usize))
}

/// Drop the need at this step (not for a goal, nor if it is locked), drop the last delete before it, add the fact at any
/// step from that delete up to here. At a locked need of a first step nothing is left.
fn conflict_at(run: &Run, table: &[Action], step: usize, fact: usize) -> Conflict {
    let mut conflict = Conflict::new();
    let mut put = |kind, action| conflict.push(Repair { kind, action, fact }.number());
    let needing = run.steps().get(step).map(|&action| action as usize);
    if let Some(action) = needing.filter(|&action| !has(table[action].locks, fact)) {
        put(Kind::DropNeed, action);
    }
    for &before in run.steps[..step].iter().rev() {
        let action = before as usize;
        put(Kind::AddEffect, action);
        if has(table[action].deletes, fact) {
            put(Kind::DropDelete, action);
            break;
        }
    }
    conflict.sort_unstable();
    conflict.dedup();
    conflict
}

/// The first of the shortest lists that have a repair of each conflict. None of the conflicts is empty.
fn first_shortest_hitting(conflicts: &[Conflict]) -> Vec<u16> {
    let mut unhit: Vec<&Conflict> = conflicts.iter().collect();
    let mut length = 0;
    while !can_hit(&unhit, length, 0) {
        length += 1;
    }
    let mut list = Vec::new();
    for left in (0..length).rev() {
        let from = list.last().map_or(0, |&last: &u16| last + 1);
        let next = first_that_leaves_hittable(&unhit, left, from);
        unhit.retain(|conflict| !conflict.contains(&next));
        list.push(next);
    }
    list
}

/// The first repair, from a number on, after which the rest can be hit by `left` later ones.
fn first_that_leaves_hittable(unhit: &[&Conflict], left: usize, from: u16) -> u16 {
    let mut repairs: Vec<u16> = unhit.iter().flat_map(|conflict| conflict.iter().copied()).collect();
    repairs.sort_unstable();
    repairs.dedup();
    let leaves_hittable = |&repair: &u16| repair >= from && can_hit(&without(unhit, repair), left, repair + 1);
    repairs.into_iter().find(leaves_hittable).expect("a list of this length hits all conflicts")
}

/// The conflicts that this repair does not hit.
fn without<'a>(unhit: &[&'a Conflict], repair: u16) -> Vec<&'a Conflict> {
    unhit.iter().copied().filter(|conflict| !conflict.contains(&repair)).collect()
}

/// True if `left` repairs, all numbered `from` or above, can hit all these conflicts.
fn can_hit(unhit: &[&Conflict], left: usize, from: u16) -> bool {
    let Some(smallest) = unhit.iter().min_by_key(|conflict| conflict.len()) else { return true };
    if disjoint(unhit) > left {
        return false;
    }
    smallest.iter().any(|&repair| repair >= from && can_hit(&without(unhit, repair), left - 1, from))
}

/// How many conflicts a greedy choice of disjoint ones has: each of them needs a repair of its own.
fn disjoint(conflicts: &[&Conflict]) -> usize {
    let mut chosen: Vec<&Conflict> = Vec::new();
    for conflict in conflicts {
        if chosen.iter().all(|other| other.iter().all(|repair| !conflict.contains(repair))) {
            chosen.push(conflict);
        }
    }
    chosen.len()
}

/// `second algorithm1 [--repeat N] FILE..`: each file's listing, or with N the mean time of N solves.
pub fn command(options: &Options) -> Result<bool, String> {
    let repeat = options.number("repeat")?;
    for path in &options.plain {
        let file = std::fs::read(path).map_err(|error| format!("{path}: {error}"))?;
        match repeat {
            None => print!("{}", listing_by(&file, |task| Ok(solve(task)?)).map_err(|stop: Stop| format!("{stop:?}"))?),
            Some(times) => print_mean_time(path, &file, times.max(1))?,
        }
    }
    Ok(true)
}

fn print_mean_time(path: &str, file: &[u8], times: u64) -> Result<(), String> {
    let task = crate::file::read(file).map_err(|refusal| format!("{path}: {refusal:?}"))?;
    let begun = Instant::now();
    for _ in 0..times {
        let _ = std::hint::black_box(solve(std::hint::black_box(&task)));
    }
    let mean = begun.elapsed() / times as u32;
    let outcome = match solve(&task) {
        Ok(list) => format!("set {}", list.len()),
        Err(refusal) => format!("refused {}", refusal.number()),
    };
    println!("{path} {} ns {outcome}", mean.as_nanos());
    Ok(())
}
