//! Random tasks of several families, whose answers stay cheap to enumerate; malformed ones; and lists to apply.

use crate::random::Random;
use crate::repair::{all_permitted, Kind, Repair};
use crate::task::{facts_in, has, with, Action, Facts, Run, Task};
use crate::task::{HIGHEST_LIMIT, MOST_ACTIONS, MOST_FACTS, MOST_RUNS, MOST_STEPS, WORDS};

/// A well-formed task of a random family, about half of them with locks.
pub fn random_task(random: &mut Random) -> Task {
    let mut task = match random.below(32) {
        0..=14 => small(random),
        15..=17 => guarded(random),
        18..=20 => chain(random),
        21..=23 => long(random),
        24..=27 => slips(random),
        28..=29 => one_fact_at_the_edge(random),
        _ => without_steps(random),
    };
    if random.chance(9) {
        put_locks(&mut task, random);
    }
    task
}

/// Locks some of the needs, few or all. A locked need that a run's first step lacks makes the task hopeless, and so most
/// tasks get none there: their locks change the list.
pub fn put_locks(task: &mut Task, random: &mut Random) {
    let density = random.pick(&[1, 4, 8, 14, 16]);
    for action in &mut task.table[..task.actions] {
        action.locks |= action.needs & some_facts(random, task.facts, density);
    }
    if random.chance(11) {
        for run in &task.runs[..task.many] {
            if let Some(&first) = run.steps().first() {
                task.table[first as usize].locks &= run.start;
            }
        }
    }
}

/// Some cell, as action and fact, of those that this set of each action lists; none if there is none.
pub fn cell_in(task: &Task, set: fn(&Action) -> Facts, random: &mut Random) -> Option<(usize, usize)> {
    let facts_of = |action: usize| facts_in(set(&task.table[action])).map(move |fact| (action, fact));
    let cells: Vec<(usize, usize)> = (0..task.actions).flat_map(facts_of).collect();
    (!cells.is_empty()).then(|| random.pick(&cells))
}

/// The number that drops some locked need; none if there is no lock.
pub fn locked_drop(task: &Task, random: &mut Random) -> Option<u16> {
    let (action, fact) = cell_in(task, |action| action.locks, random)?;
    Some(Repair { kind: Kind::DropNeed, action, fact }.number())
}

/// How dense a set is, in sixteenths.
const DENSITIES: [usize; 6] = [1, 2, 4, 8, 14, 0];

pub fn some_facts(random: &mut Random, facts: usize, density: usize) -> Facts {
    (0..facts).fold(0, |set, fact| with(set, fact, random.chance(density)))
}

/// Fills the table with random facts, each kind of set with a density of its own.
fn fill(task: &mut Task, random: &mut Random) {
    let facts = task.facts;
    let density = [(); 3].map(|_| random.pick(&DENSITIES));
    for action in &mut task.table[..task.actions] {
        action.needs = some_facts(random, facts, density[0]);
        action.adds = some_facts(random, facts, density[1]);
        action.deletes = some_facts(random, facts, density[2]);
    }
}

/// A run of so many random steps, with random start and goal.
fn some_run(task: &Task, random: &mut Random, count: usize) -> Run {
    let density = [(); 2].map(|_| random.pick(&DENSITIES));
    let start = some_facts(random, task.facts, density[0]);
    let goal = some_facts(random, task.facts, density[1]);
    let mut run = Run { start, goal, ..Run::empty() };
    random_steps(&mut run, task.actions, random, count);
    run
}

fn random_steps(run: &mut Run, actions: usize, random: &mut Random, count: usize) {
    for _ in 0..count {
        run.push_step(random.below(actions));
    }
}

fn random_limit(random: &mut Random) -> usize {
    random.between(0, HIGHEST_LIMIT)
}

/// Half the tasks have one run, many two or three, some more, up to eight.
fn how_many_runs(random: &mut Random) -> usize {
    match random.below(16) {
        0..=7 => 1,
        8..=12 => random.between(2, 3),
        13..=14 => random.between(4, MOST_RUNS - 1),
        _ => MOST_RUNS,
    }
}

/// Gives the task random runs of one sort. Of several, now and then one is empty, or takes the steps of an earlier one.
fn put_runs(task: &mut Task, random: &mut Random, make: impl Fn(&Task, &mut Random) -> Run) {
    task.many = how_many_runs(random);
    for index in 0..task.many {
        let run = make(task, random);
        task.runs[index] = match random.below(16) {
            0 if task.many > 1 => Run::empty(),
            1 if index > 0 => with_steps_of(&task.runs[random.below(index)], run),
            _ => run,
        };
    }
    if task.many > 1 && random.chance(13) {
        let without_steps = task.runs.iter_mut().filter(|run| run.count == 0);
        without_steps.for_each(|run| run.goal &= run.start);
    }
}

/// The run from its own start to its own goal by the steps of the other.
fn with_steps_of(other: &Run, run: Run) -> Run {
    Run { start: run.start, goal: run.goal, ..*other }
}

fn small(random: &mut Random) -> Task {
    let facts = random.between(1, 6);
    let mut task = Task::sized(facts, random.between(1, 4), random_limit(random));
    fill(&mut task, random);
    put_runs(&mut task, random, |task, random| {
        let count = random.between(0, 8);
        some_run(task, random, count)
    });
    task
}

/// One fact (sometimes two) that nearly every action needs and deletes: rows of five, six and more than six.
fn chain(random: &mut Random) -> Task {
    let facts = random.between(1, 2);
    let actions = random.between(5, 8);
    let mut task = Task::sized(facts, actions, random.between(4, HIGHEST_LIMIT));
    let fact = random.below(facts);
    let rarely_not = random.pick(&[13, 15, 16]);
    for action in &mut task.table[..actions] {
        action.needs = with(0, fact, random.chance(rarely_not));
        action.deletes = with(0, fact, random.chance(rarely_not));
        action.adds = with(0, fact, random.chance(16 - rarely_not));
    }
    put_runs(&mut task, random, |task, random| {
        let start = with(0, fact, random.chance(rarely_not));
        let goal = with(0, fact, random.chance(rarely_not));
        let mut run = Run { start, goal, ..Run::empty() };
        let first = random.below(actions);
        let length = if task.many == 1 { actions } else { random.between(2, actions) };
        (0..length).for_each(|index| run.push_step((first + index) % actions));
        let more = random.below(4);
        random_steps(&mut run, actions, random, more);
        run
    });
    task
}

/// One fact that a guard or two need again and again, and that another action deletes before each: dropping one need is
/// shortest, and with the need locked, as in half of these, each delete has to be mended by itself.
fn guarded(random: &mut Random) -> Task {
    let guards = random.pick(&[1, 1, 1, 2]);
    let actions = guards + random.between(2, 6);
    let mut task = Task::sized(random.between(1, 2), actions, random.between(1, HIGHEST_LIMIT));
    let locked = random.chance(8);
    for (index, action) in task.table[..actions].iter_mut().enumerate() {
        let (needing, deleting) = if index < guards { (15, 1) } else { (1, 14) };
        action.needs = with(0, 0, random.chance(needing));
        action.deletes = with(0, 0, random.chance(deleting));
        action.locks = if locked { action.needs } else { 0 };
    }
    put_runs(&mut task, random, |_, random| {
        let mut run = Run { start: random.chance(14) as Facts, goal: random.chance(2) as Facts, ..Run::empty() };
        for _ in 0..random.between(2, 8) {
            run.push_step(random.between(guards, actions - 1));
            run.push_step(random.below(guards));
        }
        run
    });
    task
}

/// Few actions run up to 64 times.
fn long(random: &mut Random) -> Task {
    let facts = random.between(1, 3);
    let mut task = Task::sized(facts, random.between(1, 3), random_limit(random));
    fill(&mut task, random);
    put_runs(&mut task, random, |task, random| {
        let count = random.pick(&[MOST_STEPS, MOST_STEPS - 1, 40]);
        some_run(task, random, count)
    });
    task
}

/// Runs that work, over a table up to the largest, with up to three slips in the table.
fn slips(random: &mut Random) -> Task {
    let shape = Shape {
        facts: random.pick(&[7, 16, MOST_FACTS - 1, MOST_FACTS]),
        actions: random.pick(&[4, 8, MOST_ACTIONS - 1, MOST_ACTIONS]),
        runs: how_many_runs(random),
        steps: random.pick(&[6, 20, MOST_STEPS]),
        slips: random.below(4),
    };
    slipped_runs(random, &shape)
}

/// What a task with slips is like: how many steps each of its runs has, and how many slips its table.
pub struct Shape {
    pub facts: usize,
    pub actions: usize,
    pub runs: usize,
    pub steps: usize,
    pub slips: usize,
}

/// A task of this shape whose runs work but for the slips.
pub fn slipped_runs(random: &mut Random, shape: &Shape) -> Task {
    let facts = shape.facts;
    let mut task = Task::sized(facts, shape.actions, random_limit(random));
    for action in &mut task.table[..shape.actions] {
        action.needs = some_facts(random, facts, 2);
        action.adds = some_facts(random, facts, 2);
        action.deletes = some_facts(random, facts, 1);
    }
    task.many = shape.runs;
    for run in &mut task.runs[..shape.runs] {
        run.start = some_facts(random, facts, 6);
        random_steps(run, shape.actions, random, shape.steps);
    }
    make_valid(&mut task, random);
    for _ in 0..shape.slips {
        slip(&mut task, random);
    }
    task
}

/// Takes away the needs that fail in some run, and makes goals of some facts that hold at its end.
fn make_valid(task: &mut Task, random: &mut Random) {
    for run in &mut task.runs[..task.many] {
        let mut state = run.start;
        for &step in run.steps() {
            let action = &mut task.table[step as usize];
            action.needs &= state;
            state = crate::run::after(state, action);
        }
        run.goal = state & some_facts(random, task.facts, 4);
    }
}

/// One slip: an effect forgotten, or a delete or a need too many, in an action of a run.
fn slip(task: &mut Task, random: &mut Random) {
    let step = run_action(task, random);
    let fact = random.below(task.facts);
    let action = &mut task.table[step];
    match random.below(3) {
        0 => action.adds &= !some_facts(random, task.facts, 4),
        1 => action.deletes = with(action.deletes, fact, true),
        _ => action.needs = with(action.needs, fact, true),
    }
}

/// Largest sizes, where every action adds all facts but one, so that few repairs are permitted. Several runs share the
/// last six actions.
fn one_fact_at_the_edge(random: &mut Random) -> Task {
    let facts = random.pick(&[MOST_FACTS - 1, MOST_FACTS]);
    let actions = random.pick(&[6, MOST_ACTIONS - 1, MOST_ACTIONS]);
    let mut task = Task::sized(facts, actions, random.between(0, 3));
    let edge = random.pick(&[0, facts - 2, facts - 1]);
    let others = (0..facts).filter(|&fact| fact != edge).fold(0, |set, fact| with(set, fact, true));
    for action in &mut task.table[..actions] {
        action.adds = with(others, edge, random.chance(1));
        action.needs = with(0, edge, random.chance(4));
        action.deletes = with(0, edge, random.chance(3));
    }
    put_runs(&mut task, random, |task, random| {
        let start = with(others, edge, random.chance(8));
        let goal = with(0, edge, random.chance(8));
        let mut run = Run { start, goal, ..Run::empty() };
        let count = random.pick(&[1, 3, 12, MOST_STEPS]);
        let running = if task.many == 1 { actions } else { 6 };
        (0..count).for_each(|_| run.push_step(actions - running + random.below(running)));
        run
    });
    task
}

/// Runs without steps, where the goals hold at the start or no list works, and in small tables a few with steps beside
/// them. Sometimes the table is empty, so that a kind 9 may follow the size record.
fn without_steps(random: &mut Random) -> Task {
    let facts = random.pick(&[1, 2, 5, MOST_FACTS]);
    let mut task = Task::sized(facts, random.pick(&[1, 3, MOST_ACTIONS]), random_limit(random));
    if random.chance(12) {
        fill(&mut task, random);
    }
    let reached = random.chance(8);
    put_runs(&mut task, random, |task, random| {
        let count = if task.actions < 4 && random.chance(4) { random.between(1, 3) } else { 0 };
        let run = some_run(task, random, count);
        Run { goal: if reached { run.goal & run.start } else { run.goal }, ..run }
    });
    task
}

/// The largest task there is: every cell, every lock, eight runs of 64 steps.
pub fn full_task() -> Task {
    let mut task = Task::sized(MOST_FACTS, MOST_ACTIONS, HIGHEST_LIMIT);
    for action in &mut task.table {
        *action = Action { needs: Facts::MAX, adds: Facts::MAX, deletes: Facts::MAX, locks: Facts::MAX };
    }
    task.many = MOST_RUNS;
    for run in &mut task.runs {
        (run.start, run.goal) = (Facts::MAX, Facts::MAX);
        (0..MOST_STEPS).for_each(|step| run.push_step(step % MOST_ACTIONS));
    }
    task
}

/// Where in a task's words a thing stands.
const LIMIT_WORD: usize = 2;
const CELL_WORDS: usize = 3;
const LOCK_WORDS: usize = CELL_WORDS + 3 * MOST_ACTIONS;
const MANY_WORD: usize = LOCK_WORDS + MOST_ACTIONS;
const START_WORDS: usize = MANY_WORD + 1;
const GOAL_WORDS: usize = START_WORDS + MOST_RUNS;
const COUNT_WORDS: usize = GOAL_WORDS + MOST_RUNS;
const STEP_WORDS: usize = COUNT_WORDS + MOST_RUNS;

/// The words of a task that is not well formed for one reason; sometimes several, sometimes random words altogether,
/// sometimes another number of words.
pub fn malformed(task: &Task, random: &mut Random) -> Vec<u64> {
    if random.chance(1) {
        return (0..WORDS).map(|_| random.next()).collect();
    }
    let mut words = task.words();
    if random.chance(3) {
        words.resize(random.pick(&[0, 1, WORDS - 1, WORDS + 1, 2 * WORDS]), random.next());
        return words;
    }
    while Task::from_words(&words).well_formed() || random.chance(2) {
        match random.below(16) {
            0..=7 => spoil_table(&mut words, task, random),
            8..=10 => spoil_locks(&mut words, random),
            _ => spoil_runs(&mut words, task, random),
        }
    }
    words
}

/// A number that is too large for every size.
fn huge(random: &mut Random) -> u64 {
    random.pick(&[255, 256, 1 << 32, 1 << 63, u64::MAX])
}

/// A fact at or above F, as a set; no fact where F is 64.
pub fn stray(task: &Task, random: &mut Random) -> Facts {
    1u64.checked_shl(random.between(task.facts, MOST_FACTS) as u32).unwrap_or(0)
}

fn spoil_table(words: &mut [u64], task: &Task, random: &mut Random) {
    let huge = huge(random);
    match random.below(5) {
        0 => words[0] = random.pick(&[0, MOST_FACTS as u64 + 1, 128, huge]),
        1 => words[1] = random.pick(&[0, MOST_ACTIONS as u64 + 1, 64, huge]),
        2 => words[LIMIT_WORD] = random.pick(&[HIGHEST_LIMIT as u64 + 1, huge]),
        3 => words[CELL_WORDS + random.below(4 * MOST_ACTIONS)] |= stray(task, random),
        _ => words[CELL_WORDS + random.below(4) * MOST_ACTIONS + random.below(MOST_ACTIONS)] |= 1,
    }
}

/// A lock on some cell, need or not, or some of an action's needs taken away, locked or not.
fn spoil_locks(words: &mut [u64], random: &mut Random) {
    let actions = random.pick(&[1, 4, MOST_ACTIONS]);
    let action = random.below(actions);
    let facts = words[0].clamp(1, MOST_FACTS as u64) as usize;
    match random.below(2) {
        0 => words[LOCK_WORDS + action] |= 1 << random.below(facts),
        _ => words[CELL_WORDS + action] &= random.next(),
    }
}

/// Where some step of a run stands.
fn step_word(run: usize, random: &mut Random) -> usize {
    STEP_WORDS + run * MOST_STEPS + random.below(MOST_STEPS)
}

/// How many runs there are, a run that is there, or one that is not and yet holds a number.
fn spoil_runs(words: &mut [u64], task: &Task, random: &mut Random) {
    let huge = huge(random);
    let run = random.below(task.many);
    let unused = random.between(task.many, MOST_RUNS);
    match random.below(8) {
        0 => words[MANY_WORD] = random.pick(&[0, MOST_RUNS as u64 + 1, huge]),
        1 => words[MANY_WORD] = random.below(task.many) as u64,
        2 => words[START_WORDS + run] |= stray(task, random),
        3 => words[GOAL_WORDS + run] |= stray(task, random),
        4 => words[COUNT_WORDS + run] = random.pick(&[MOST_STEPS as u64 + 1, huge, 0]),
        5 => words[step_word(run, random)] = random.pick(&[task.actions as u64, 1, huge]),
        6 if unused < MOST_RUNS => words[random.pick(&[START_WORDS, GOAL_WORDS, COUNT_WORDS]) + unused] = 1,
        _ if unused < MOST_RUNS => words[step_word(unused, random)] = 1,
        _ => {}
    }
}

/// A repair list for applying: mostly good, sometimes with a locked need dropped in its place, sometimes spoilt.
pub fn repair_list(task: &Task, random: &mut Random) -> Vec<u16> {
    let permitted = all_permitted(task);
    let density = random.pick(&[1, 2, 8, 16]);
    let mut list: Vec<u16> = permitted.iter().filter(|_| random.chance(density)).map(Repair::number).collect();
    if let Some(locked) = locked_drop(task, random).filter(|_| random.chance(6)) {
        list.insert(list.partition_point(|&number| number < locked), locked);
    }
    for _ in 0..random.pick(&[0, 0, 1, 1, 2]) {
        spoil_list(&mut list, random);
    }
    list
}

fn spoil_list(list: &mut Vec<u16>, random: &mut Random) {
    let place = random.below(list.len() + 1);
    match random.below(4) {
        0 if place < list.len() => list.insert(place, list[place]),
        1 if place + 1 < list.len() => list.swap(place, place + 1),
        2 => list.insert(place, random.pick(&[6143, 6144, 6145, 65535, 32, 96])),
        _ => list.insert(place, random.below(6200) as u16),
    }
}

/// Two lists that are permitted on the task, each number of them in the one, in the other or in both. A list may be empty,
/// or a part of the other.
pub fn permitted_lists(task: &Task, random: &mut Random) -> [Vec<u16>; 2] {
    let permitted = all_permitted(task);
    let wanted = random.pick(&[2, 6, 10, 20, 40]);
    let in_both = random.pick(&[0, 0, 1, 2, 3, 5]);
    let in_second = random.pick(&[0, 4, 6, 8, 8, 10, 12, 16]);
    let mut lists = [vec![], vec![]];
    for number in permitted.iter().map(Repair::number) {
        if random.below(permitted.len()) >= wanted {
            continue;
        }
        if random.chance(in_both) {
            lists.iter_mut().for_each(|list| list.push(number));
        } else {
            lists[random.chance(in_second) as usize].push(number);
        }
    }
    lists
}

/// An action that a run takes, if the run has steps; an edit there matters more than elsewhere.
pub fn run_action(task: &Task, random: &mut Random) -> usize {
    let index = if task.many == 1 { 0 } else { random.below(task.many) };
    let run = task.runs[index];
    match run.count {
        0 => random.below(task.actions),
        count => run.steps[random.below(count)] as usize,
    }
}

/// A fact that something speaks of, if there is one near a random place.
pub fn busy_fact(task: &Task, random: &mut Random) -> usize {
    let goals = task.known_runs().iter().fold(0, |set, run| set | run.goal);
    let used = task.table.iter().fold(goals, |set, action| set | action.needs);
    let first = random.below(task.facts);
    (first..task.facts).find(|&fact| has(used, fact)).unwrap_or(first)
}
