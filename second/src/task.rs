//! A task: sizes, action table and runs ("The model and its run", "Sizes"; 02, requests 1 and 6), well formed or not, and
//! its 668 words.

use crate::refusal::{plain, Ground, Refusal};

pub const MOST_FACTS: usize = 64;
pub const MOST_ACTIONS: usize = 32;
pub const MOST_STEPS: usize = 64;
pub const MOST_RUNS: usize = 8;
pub const HIGHEST_LIMIT: usize = 6;

/// How many words a task crosses as: three sizes, four sets an action, the number of runs, and of each run its start,
/// its goal, its number of steps and its steps.
pub const WORDS: usize = 3 + 4 * MOST_ACTIONS + 1 + MOST_RUNS * (3 + MOST_STEPS);

/// A set of facts: fact f is in it if bit f is set.
pub type Facts = u64;

pub fn has(set: Facts, fact: usize) -> bool {
    set >> fact & 1 == 1
}

/// The facts of a set, ascending.
pub fn facts_in(set: Facts) -> impl Iterator<Item = usize> {
    (0..MOST_FACTS).filter(move |&fact| has(set, fact))
}

/// The set that holds this one fact.
pub fn only(fact: usize) -> Facts {
    1 << fact
}

/// The set with this fact set to present or absent.
pub fn with(set: Facts, fact: usize, present: bool) -> Facts {
    if present {
        set | only(fact)
    } else {
        set & !only(fact)
    }
}

#[derive(Clone, Copy, PartialEq, Eq, Debug, Default)]
pub struct Action {
    pub needs: Facts,
    pub adds: Facts,
    pub deletes: Facts,
    /// The needs that no list may drop (02, request 6).
    pub locks: Facts,
}

impl Action {
    /// No fact at or above F, and no lock "on a cell that isn't a need". So locks have no fact at or above F either.
    fn well_formed(&self, facts: usize) -> bool {
        within(self.needs | self.adds | self.deletes, facts) && self.locks & !self.needs == 0
    }
}

/// One known run: where it starts, what must hold at its end, and its steps.
#[derive(Clone, Copy, PartialEq, Eq, Debug)]
pub struct Run {
    pub start: Facts,
    pub goal: Facts,
    /// n, the number of steps.
    pub count: usize,
    pub steps: [u8; MOST_STEPS],
}

impl Run {
    /// The run without start, goal and steps.
    pub fn empty() -> Run {
        Run { start: 0, goal: 0, count: 0, steps: [0; MOST_STEPS] }
    }

    pub fn push_step(&mut self, action: usize) {
        self.steps[self.count] = action as u8;
        self.count += 1;
    }

    /// The actions of the steps, by number. Only for a run of at most 64 steps.
    pub fn steps(&self) -> &[u8] {
        &self.steps[..self.count]
    }

    /// The actions of the steps, in order. Only for a run of a well-formed task with this table.
    pub fn actions<'a>(&'a self, table: &'a [Action]) -> impl Iterator<Item = &'a Action> {
        self.steps().iter().map(|&step| &table[step as usize])
    }

    /// At most 64 steps, all below A, zeros behind them, and no fact at or above F.
    fn well_formed(&self, facts: usize, actions: usize) -> bool {
        self.count <= MOST_STEPS
            && self.steps().iter().all(|&step| (step as usize) < actions)
            && self.steps[self.count..].iter().all(|&step| step == 0)
            && within(self.start, facts)
            && within(self.goal, facts)
    }
}

#[derive(Clone, Copy, PartialEq, Eq, Debug)]
pub struct Task {
    /// F, A and L.
    pub facts: usize,
    pub actions: usize,
    pub limit: usize,
    pub table: [Action; MOST_ACTIONS],
    /// How many runs there are.
    pub many: usize,
    pub runs: [Run; MOST_RUNS],
}

impl Task {
    /// The task of zeros. It is not well formed: it has no fact and no run.
    pub fn zeros() -> Task {
        Task {
            facts: 0,
            actions: 0,
            limit: 0,
            table: [Action::default(); MOST_ACTIONS],
            many: 0,
            runs: [Run::empty(); MOST_RUNS],
        }
    }

    /// The task with these sizes, an empty table and one empty run.
    pub fn sized(facts: usize, actions: usize, limit: usize) -> Task {
        Task { facts, actions, limit, many: 1, ..Task::zeros() }
    }

    /// The runs that there are, in order. Only for a well-formed task.
    pub fn known_runs(&self) -> &[Run] {
        &self.runs[..self.many]
    }

    /// The task without its locks.
    pub fn unlocked(&self) -> Task {
        let mut task = *self;
        task.table.iter_mut().for_each(|action| action.locks = 0);
        task
    }

    /// Opens a further run, an empty one.
    pub fn open_run(&mut self) {
        self.many += 1;
    }

    /// The run that was opened last.
    pub fn last_run(&mut self) -> &mut Run {
        &mut self.runs[self.many - 1]
    }

    /// "A task is well formed if its sizes are in range, no set has a fact at or above F, steps are below A, and
    /// everything for unused actions and steps is zero." 02: "Everything for unused runs is zero", and locks stand on
    /// needs alone.
    pub fn well_formed(&self) -> bool {
        sizes_in_range(self.facts, self.actions, self.limit)
            && (1..=MOST_RUNS).contains(&self.many)
            && self.table.iter().all(|action| action.well_formed(self.facts))
            && self.table[self.actions..].iter().all(|action| *action == Action::default())
            && self.known_runs().iter().all(|run| run.well_formed(self.facts, self.actions))
            && self.runs[self.many..].iter().all(|run| *run == Run::empty())
    }

    /// Refusal 12 if the task is not well formed.
    pub fn must_be_well_formed(&self) -> Result<(), Refusal> {
        if self.well_formed() {
            Ok(())
        } else {
            Err(plain(Ground::NotWellFormed))
        }
    }

    /// True if there is a run with this number, counted from 0.
    pub fn has_run(&self, run: u64) -> bool {
        run < self.many as u64
    }

    /// The run with this number, counted from 0: 12, then 14 for a run that isn't there.
    pub fn run(&self, run: u64) -> Result<&Run, Refusal> {
        self.must_be_well_formed()?;
        if !self.has_run(run) {
            return Err(plain(Ground::NotThere));
        }
        Ok(&self.runs[run as usize])
    }

    /// The task's words: facts, actions, limit, needs, adds, deletes, locks, how many runs, their starts, goals and
    /// counts, and the steps, 64 a run.
    pub fn words(&self) -> Vec<u64> {
        let mut words = vec![self.facts as u64, self.actions as u64, self.limit as u64];
        words.extend(self.table.iter().map(|action| action.needs));
        words.extend(self.table.iter().map(|action| action.adds));
        words.extend(self.table.iter().map(|action| action.deletes));
        words.extend(self.table.iter().map(|action| action.locks));
        words.push(self.many as u64);
        words.extend(self.runs.iter().map(|run| run.start));
        words.extend(self.runs.iter().map(|run| run.goal));
        words.extend(self.runs.iter().map(|run| run.count as u64));
        words.extend(self.runs.iter().flat_map(|run| run.steps).map(u64::from));
        words
    }

    /// The task that these words are; a step above 255 counts as 255. Another number of words is the task of zeros.
    pub fn from_words(words: &[u64]) -> Task {
        if words.len() != WORDS {
            return Task::zeros();
        }
        let (sizes, rest) = words.split_at(3);
        let (table, rest) = rest.split_at(4 * MOST_ACTIONS);
        let (many, runs) = rest.split_at(1);
        let mut task = Task::sized(sizes[0] as usize, sizes[1] as usize, sizes[2] as usize);
        for (index, action) in task.table.iter_mut().enumerate() {
            let [needs, adds, deletes, locks] = [0, 1, 2, 3].map(|set| table[set * MOST_ACTIONS + index]);
            *action = Action { needs, adds, deletes, locks };
        }
        task.many = many[0] as usize;
        for (index, run) in task.runs.iter_mut().enumerate() {
            *run = run_of_words(runs, index);
        }
        task
    }
}

/// The run with this number out of the words of all eight: the starts, the goals, the counts, the steps.
fn run_of_words(words: &[u64], index: usize) -> Run {
    let [start, goal, count] = [0, 1, 2].map(|part| words[part * MOST_RUNS + index]);
    let mut run = Run { start, goal, count: count as usize, ..Run::empty() };
    let steps = &words[3 * MOST_RUNS + index * MOST_STEPS..][..MOST_STEPS];
    for (step, &word) in run.steps.iter_mut().zip(steps) {
        *step = word.min(255) as u8;
    }
    run
}

/// True if the set has no fact at or above F.
fn within(set: Facts, facts: usize) -> bool {
    (facts..MOST_FACTS).all(|fact| !has(set, fact))
}

/// "F 1 to 64, A 1 to 32, limit L 0 to 6."
pub fn sizes_in_range(facts: usize, actions: usize, limit: usize) -> bool {
    (1..=MOST_FACTS).contains(&facts) && (1..=MOST_ACTIONS).contains(&actions) && limit <= HIGHEST_LIMIT
}
