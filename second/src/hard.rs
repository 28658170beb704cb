//! Hard tasks for the benchmark, written as task files into a folder. None has a lock, so that figures stay comparable.
//!
//! - `slips-NN`: 64 facts, 32 actions, 64 steps and an answer of three repairs;
//! - `deep-..`: the hardest single facts that 64 steps allow, with no list within six;
//! - `steps-NN`, `facts-NN`, `length-N`, `runs-N`: how the time grows with the steps, the facts, the answer's length and
//!   the runs;
//! - `eight-N`: one fact in eight runs of 64 steps that share their actions, with several lists as short as the shortest.

use std::fs;
use std::path::Path;

use crate::algorithm1::{conflict_of, solve};
use crate::compare::tasks::{slipped_runs, Shape};
use crate::file::file_of;
use crate::options::Options;
use crate::random::Random;
use crate::task::{Run, Task, HIGHEST_LIMIT, MOST_ACTIONS, MOST_FACTS, MOST_RUNS, MOST_STEPS};

const SLIPS: usize = 3;

/// `second hard [--seed N] [--count N] FOLDER`: `count` tasks of each sort that is random.
pub fn command(options: &Options) -> Result<bool, String> {
    let [folder] = options.plain.as_slice() else { return Err("hard needs one folder".to_string()) };
    let mut random = Random::new(options.number("seed")?.unwrap_or(1));
    let count = options.number("count")?.unwrap_or(3);
    fs::create_dir_all(folder).map_err(|error| format!("{folder}: {error}"))?;
    let write = |name: String, task: &Task| {
        println!("{name}");
        let path = Path::new(folder).join(name + ".task");
        fs::write(&path, file_of(task)).map_err(|error| format!("{}: {error}", path.display()))
    };
    for index in 0..count {
        write(format!("slips-{index:02}"), &three_slips(&mut random, MOST_FACTS, 1, MOST_STEPS))?;
    }
    for (name, task) in deep_facts(&mut random, count) {
        write(name, &task)?;
    }
    for eighths in 1..=8 {
        let (steps, facts) = (eighths * MOST_STEPS / 8, eighths * MOST_FACTS / 8);
        write(format!("steps-{steps:02}"), &three_slips(&mut random, MOST_FACTS, 1, steps))?;
        write(format!("facts-{facts:02}"), &three_slips(&mut random, facts, 1, MOST_STEPS))?;
    }
    for length in 1..=HIGHEST_LIMIT + 1 {
        write(format!("length-{length}"), &segments_apart(&mut random, length))?;
    }
    for runs in 1..=MOST_RUNS {
        write(format!("runs-{runs}"), &three_slips(&mut random, MOST_FACTS, runs, MOST_STEPS))?;
    }
    for index in 0..count {
        write(format!("eight-{index}"), &eight_runs(&mut random))?;
    }
    Ok(true)
}

/// A random task with 32 actions and slips, drawn until its answer has three repairs.
fn three_slips(random: &mut Random, facts: usize, runs: usize, steps: usize) -> Task {
    let shape = Shape { facts, actions: MOST_ACTIONS, runs, steps, slips: SLIPS };
    loop {
        let mut task = slipped_runs(random, &shape);
        task.limit = HIGHEST_LIMIT;
        if solve(&task).is_ok_and(|list| list.len() == SLIPS) {
            return task;
        }
    }
}

/// Single facts without a list within six, each named by its shape and by how many candidates 01's tree of conflicts
/// holds with six repairs.
fn deep_facts(random: &mut Random, count: u64) -> Vec<(String, Task)> {
    let mut found = vec![("apart".to_string(), segments_apart(random, HIGHEST_LIMIT + 1))];
    for index in 0..count {
        found.push((format!("tailed-{index}"), segments_with_tail(random)));
        found.push((format!("shared-{index}"), segments_shared(random, MOST_STEPS / 4)));
    }
    let measured = found.into_iter().filter_map(|(shape, task)| {
        let candidates = candidates(&task, &mut Vec::new(), HIGHEST_LIMIT)?;
        Some((format!("deep-{shape}-tree-{candidates}"), task))
    });
    measured.collect()
}

/// How many candidates the tree of conflicts holds above this one, with so many repairs left; none if one works.
fn candidates(task: &Task, candidate: &mut Vec<u16>, left: usize) -> Option<u64> {
    let conflict = conflict_of(task, candidate)?;
    let mut total = 1;
    for repair in conflict.into_iter().filter(|_| left > 0) {
        candidate.push(repair);
        total += candidates(task, candidate, left - 1)?;
        candidate.pop();
    }
    Some(total)
}

/// All actions in a random order.
fn shuffled(random: &mut Random) -> Vec<usize> {
    let mut actions: Vec<usize> = (0..MOST_ACTIONS).collect();
    for index in (1..actions.len()).rev() {
        actions.swap(index, random.below(index + 1));
    }
    actions
}

/// One fact in one run, deleted at the first step of each segment and needed at the first step of the next; the last
/// segment's conflict is with the goal.
fn of_segments(segments: &[Vec<usize>]) -> Task {
    let mut task = Task::sized(1, MOST_ACTIONS, HIGHEST_LIMIT);
    for (index, segment) in segments.iter().enumerate() {
        task.table[segment[0]].deletes = 1;
        if index > 0 {
            task.table[segment[0]].needs = 1;
        }
    }
    *task.last_run() = from_start_to_goal(segments.concat());
    task
}

/// The run of these steps that starts with the fact and has it as its goal.
fn from_start_to_goal(steps: Vec<usize>) -> Run {
    let mut run = Run { start: 1, goal: 1, ..Run::empty() };
    steps.into_iter().for_each(|action| run.push_step(action));
    run
}

/// Segments with no action in common, each as long as 32 actions and 64 steps allow: every segment needs a repair of
/// its own, and each conflict is as large as can be.
fn segments_apart(random: &mut Random, count: usize) -> Task {
    let actions = shuffled(random);
    let own = |index: usize| actions.iter().copied().skip(index).step_by(count).collect::<Vec<_>>();
    let twice = |segment: Vec<usize>| [&segment[..], &segment[1..]].concat();
    of_segments(&(0..count).map(|index| twice(own(index))).collect::<Vec<_>>())
}

/// Segments of one round through all actions, and of a second round in another order: an action is in two segments, so
/// that one repair can serve both, and more segments are needed before six repairs are too few.
fn segments_shared(random: &mut Random, count: usize) -> Task {
    let steps = [shuffled(random), shuffled(random)].concat();
    let bound = |index: usize| index * MOST_STEPS / count;
    of_segments(&(0..count).map(|index| steps[bound(index)..bound(index + 1)].to_vec()).collect::<Vec<_>>())
}

/// How many shapes are drawn for one hard fact.
const DRAWS: usize = 60;

/// The hardest of many facts drawn at random: long segments that share many of their actions, so that their conflicts
/// are as large as 64 steps allow, and then short ones that share none, so that six repairs are too few. A search in
/// the order of the run meets the long ones first.
fn segments_with_tail(random: &mut Random) -> Task {
    let drawn = (0..DRAWS).map(|_| {
        let (long, tail) = (random.between(5, 7), random.between(2, 6));
        long_and_short_segments(random, long, tail)
    });
    let measured = drawn.map(|task| (candidates(&task, &mut Vec::new(), HIGHEST_LIMIT), task));
    measured.max_by_key(|(candidates, _)| *candidates).expect("some are drawn").1
}

/// The fact is absent at the start, so that dropping the first delete opens a further conflict.
fn long_and_short_segments(random: &mut Random, long: usize, short: usize) -> Task {
    let actions = shuffled(random);
    let (first, rest) = actions.split_at(long);
    let (tail, shared) = rest.split_at(short);
    let mut segments: Vec<Vec<usize>> = first.iter().map(|&action| vec![action]).collect();
    for &action in shared.iter().cycle().take(MOST_STEPS - long - short) {
        let chosen = random.below(long);
        let place = (0..long).map(|turn| (chosen + turn) % long).find(|&index| !segments[index].contains(&action));
        segments[place.expect("an action is shared by few segments")].push(action);
    }
    segments.extend(tail.iter().map(|&action| vec![action]));
    let mut task = of_segments(&segments);
    task.last_run().start = 0;
    task
}

/// How many are drawn for one hard fact in eight runs.
const EIGHT_DRAWS: usize = 16;

/// The hardest of many facts in eight runs drawn at random: its tree of conflicts holds the most candidates that are
/// shorter than its answer.
fn eight_runs(random: &mut Random) -> Task {
    let drawn = (0..EIGHT_DRAWS).map(|_| {
        let (ending, span) = (random.between(5, 7), random.between(7, 14));
        runs_shared(random, ending, span)
    });
    let measured = drawn.map(|task| (shorter_candidates(&task), task));
    measured.max_by_key(|(candidates, _)| *candidates).expect("some are drawn").1
}

/// How many candidates the tree of conflicts holds with one repair fewer than the answer has; none without an answer.
fn shorter_candidates(task: &Task) -> Option<u64> {
    let shorter = solve(task).ok()?.len().checked_sub(1)?;
    candidates(task, &mut Vec::new(), shorter)
}

/// One fact in eight runs of 64 steps. So many actions end the fact and need it, and one of them stands at every
/// `span`-th step; what stands between is drawn from the others. So there are many conflicts, each of one run, and all
/// runs share their repairs.
fn runs_shared(random: &mut Random, ending: usize, span: usize) -> Task {
    let actions = shuffled(random);
    let (ending, between) = actions.split_at(ending);
    let mut task = Task::sized(1, MOST_ACTIONS, HIGHEST_LIMIT);
    for &action in ending {
        (task.table[action].needs, task.table[action].deletes) = (1, 1);
    }
    task.many = MOST_RUNS;
    for run in &mut task.runs {
        let of_place = |place: usize| random.pick(if place % span == 0 { ending } else { between });
        *run = from_start_to_goal((0..MOST_STEPS).map(of_place).collect());
    }
    task
}
