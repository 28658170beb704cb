//! Zernoplysk for Rust: the functions of zernoplysk.h declared once, each with a safe function over slices, which is all
//! that a caller needs (docs/BOUNDARY.md). Link target/staticlib/libboundary.a (x86-64). `answer` is lent for the words
//! of the answer: number and place first; where it is too short, nothing is called or touched, and `ANSWER_TOO_SHORT` is
//! returned. `apply`, `edit` and `add_run` change the task in the words that it is lent in; a refused call leaves them as they
//! were.

pub const ANSWER_TOO_SHORT: usize = 255;

pub const TASK_WORDS: usize = 668;
pub const CHANGED_WORDS: usize = 2;
pub const REPLY_WORDS: usize = 3;
pub const PROBLEM_WORDS: usize = 4;
pub const CHECKED_WORDS: usize = 5;
pub const RECORD_WORDS: usize = 6;
pub const TASK_ANSWER_WORDS: usize = 2 + TASK_WORDS;

// A session table, the longest file and list, and room for every listing.
pub const TABLE_NUMBERS: usize = 448;
pub const FILE_BYTES: usize = 27660;
pub const LIST_NUMBERS: usize = 6;
pub const LISTING_BYTES: usize = 986;

// Room for every domain text, and for every problem text.
pub const DOMAIN_BYTES: usize = 76178;
pub const PROBLEM_BYTES: usize = 1334;

// The kinds of cell that an edit names; any other kind is refused with 14.
pub const NEED: usize = 0;
pub const ADD: usize = 1;
pub const DELETE: usize = 2;
pub const START: usize = 3;
pub const GOAL: usize = 4;
pub const LOCK: usize = 5;

extern "C" {
    fn zp_record(
        file: *const u8,
        file_len: usize,
        at: usize,
        answer: *mut u64,
        answer_len: usize,
    ) -> usize;
    fn zp_read(file: *const u8, file_len: usize, answer: *mut u64, answer_len: usize) -> usize;
    fn zp_write(
        task: *const u64,
        task_len: usize,
        room: *mut u8,
        room_len: usize,
        answer: *mut u64,
        answer_len: usize,
    ) -> usize;
    fn zp_check(
        task: *const u64,
        task_len: usize,
        run: usize,
        answer: *mut u64,
        answer_len: usize,
    ) -> usize;
    fn zp_apply(
        task: *mut u64,
        task_len: usize,
        list: *const u16,
        list_len: usize,
        answer: *mut u64,
        answer_len: usize,
    ) -> usize;
    fn zp_solve(
        task: *const u64,
        task_len: usize,
        room: *mut u16,
        room_len: usize,
        answer: *mut u64,
        answer_len: usize,
    ) -> usize;
    fn zp_open(
        task: *const u64,
        task_len: usize,
        table: *mut u16,
        table_len: usize,
        answer: *mut u64,
        answer_len: usize,
    ) -> usize;
    fn zp_edit(
        task: *mut u64,
        task_len: usize,
        kind: usize,
        whose: usize,
        fact: usize,
        present: usize,
        table: *mut u16,
        table_len: usize,
        answer: *mut u64,
        answer_len: usize,
    ) -> usize;
    fn zp_list(
        task: *const u64,
        task_len: usize,
        table: *const u16,
        table_len: usize,
        room: *mut u16,
        room_len: usize,
        answer: *mut u64,
        answer_len: usize,
    ) -> usize;
    fn zp_listing(
        input: *const u8,
        input_len: usize,
        room: *mut u8,
        room_len: usize,
        answer: *mut u64,
        answer_len: usize,
    ) -> usize;
    fn zp_write_domain(
        task: *const u64,
        task_len: usize,
        room: *mut u8,
        room_len: usize,
        answer: *mut u64,
        answer_len: usize,
    ) -> usize;
    fn zp_write_problem(
        task: *const u64,
        task_len: usize,
        run: usize,
        room: *mut u8,
        room_len: usize,
        answer: *mut u64,
        answer_len: usize,
    ) -> usize;
    fn zp_read_domain(
        text: *const u8,
        text_len: usize,
        limit: usize,
        answer: *mut u64,
        answer_len: usize,
    ) -> usize;
    fn zp_read_problem(
        text: *const u8,
        text_len: usize,
        facts: usize,
        answer: *mut u64,
        answer_len: usize,
    ) -> usize;
    fn zp_add_run(
        task: *mut u64,
        task_len: usize,
        start: u64,
        goal: u64,
        steps: *const u8,
        steps_len: usize,
        answer: *mut u64,
        answer_len: usize,
    ) -> usize;
}

/// The record at a place of the file; its body is `length` bytes of the file from `start` on. Answer: `RECORD_WORDS`.
pub fn record(file: &[u8], at: usize, answer: &mut [u64]) -> usize {
    // SAFETY: each pointer is good for its length, and what may be written is lent to this call alone.
    unsafe {
        zp_record(
            file.as_ptr(),
            file.len(),
            at,
            answer.as_mut_ptr(),
            answer.len(),
        )
    }
}

/// The task of a file; the place of a refusal is the byte that is wrong (02, request 2), or the file's length where its end
/// is missing; of 18, a lock on a cell that isn't a need (02, request 6), the record's first. Answer: `TASK_ANSWER_WORDS`.
pub fn read(file: &[u8], answer: &mut [u64]) -> usize {
    // SAFETY: each pointer is good for its length, and what may be written is lent to this call alone.
    unsafe { zp_read(file.as_ptr(), file.len(), answer.as_mut_ptr(), answer.len()) }
}

/// The task's file into `room`; `FILE_BYTES` are always enough. Answer: `REPLY_WORDS`.
pub fn write(task: &[u64], room: &mut [u8], answer: &mut [u64]) -> usize {
    // SAFETY: each pointer is good for its length, and what may be written is lent to this call alone.
    unsafe {
        zp_write(
            task.as_ptr(),
            task.len(),
            room.as_mut_ptr(),
            room.len(),
            answer.as_mut_ptr(),
            answer.len(),
        )
    }
}

/// The run check of the run with this number, counted from 0; 14 if the task has no such run. It follows the controller (02,
/// request 3): a step that can't run does nothing, and the next is tried. Answer: `CHECKED_WORDS`.
pub fn check(task: &[u64], run: usize, answer: &mut [u64]) -> usize {
    // SAFETY: each pointer is good for its length, and what may be written is lent to this call alone.
    unsafe {
        zp_check(
            task.as_ptr(),
            task.len(),
            run,
            answer.as_mut_ptr(),
            answer.len(),
        )
    }
}

/// A list of repair numbers applied at once to the task, in its words; 15 also where it drops a locked need. Answer:
/// `CHANGED_WORDS`.
pub fn apply(task: &mut [u64], list: &[u16], answer: &mut [u64]) -> usize {
    // SAFETY: each pointer is good for its length, and what may be written is lent to this call alone.
    unsafe {
        zp_apply(
            task.as_mut_ptr(),
            task.len(),
            list.as_ptr(),
            list.len(),
            answer.as_mut_ptr(),
            answer.len(),
        )
    }
}

/// The least repair list into `room`; `LIST_NUMBERS` are always enough. Answer: `REPLY_WORDS`.
pub fn solve(task: &[u64], room: &mut [u16], answer: &mut [u64]) -> usize {
    // SAFETY: each pointer is good for its length, and what may be written is lent to this call alone.
    unsafe {
        zp_solve(
            task.as_ptr(),
            task.len(),
            room.as_mut_ptr(),
            room.len(),
            answer.as_mut_ptr(),
            answer.len(),
        )
    }
}

/// A session table opened for the task: `TABLE_NUMBERS` numbers. Answer: `REPLY_WORDS`.
pub fn open(task: &[u64], table: &mut [u16], answer: &mut [u64]) -> usize {
    // SAFETY: each pointer is good for its length, and what may be written is lent to this call alone.
    unsafe {
        zp_open(
            task.as_ptr(),
            task.len(),
            table.as_mut_ptr(),
            table.len(),
            answer.as_mut_ptr(),
            answer.len(),
        )
    }
}

/// One cell set to absent (0) or present (any other number) in the task's words, its fact's row written afresh. `whose` is
/// the action of a need, an add, a delete or a lock, and the run of a start or a goal; 14 if the task has no such action, run
/// or fact; then 18 for a lock set on a cell that isn't a need, or a need cleared under a lock (02, request 6). Answer:
/// `CHANGED_WORDS`.
pub fn edit(
    task: &mut [u64],
    kind: usize,
    whose: usize,
    fact: usize,
    present: usize,
    table: &mut [u16],
    answer: &mut [u64],
) -> usize {
    // SAFETY: each pointer is good for its length, and what may be written is lent to this call alone.
    unsafe {
        zp_edit(
            task.as_mut_ptr(),
            task.len(),
            kind,
            whose,
            fact,
            present,
            table.as_mut_ptr(),
            table.len(),
            answer.as_mut_ptr(),
            answer.len(),
        )
    }
}

/// The list of a session table into `room`; `LIST_NUMBERS` are always enough. Answer: `REPLY_WORDS`.
pub fn list(task: &[u64], table: &[u16], room: &mut [u16], answer: &mut [u64]) -> usize {
    // SAFETY: each pointer is good for its length, and what may be written is lent to this call alone.
    unsafe {
        zp_list(
            task.as_ptr(),
            task.len(),
            table.as_ptr(),
            table.len(),
            room.as_mut_ptr(),
            room.len(),
            answer.as_mut_ptr(),
            answer.len(),
        )
    }
}

/// The listing text of an input into `room`; `LISTING_BYTES` are always enough. Answer: `REPLY_WORDS`.
pub fn listing(input: &[u8], room: &mut [u8], answer: &mut [u64]) -> usize {
    // SAFETY: each pointer is good for its length, and what may be written is lent to this call alone.
    unsafe {
        zp_listing(
            input.as_ptr(),
            input.len(),
            room.as_mut_ptr(),
            room.len(),
            answer.as_mut_ptr(),
            answer.len(),
        )
    }
}

/// The task's domain text into `room` (02, request 4; docs/PDDL.md); `DOMAIN_BYTES` are always enough. Answer: `REPLY_WORDS`.
pub fn write_domain(task: &[u64], room: &mut [u8], answer: &mut [u64]) -> usize {
    // SAFETY: each pointer is good for its length, and what may be written is lent to this call alone.
    unsafe {
        zp_write_domain(
            task.as_ptr(),
            task.len(),
            room.as_mut_ptr(),
            room.len(),
            answer.as_mut_ptr(),
            answer.len(),
        )
    }
}

/// The problem text of the run with this number into `room`; 14 if the task has no such run. `PROBLEM_BYTES` are always enough.
/// Answer: `REPLY_WORDS`.
pub fn write_problem(task: &[u64], run: usize, room: &mut [u8], answer: &mut [u64]) -> usize {
    // SAFETY: each pointer is good for its length, and what may be written is lent to this call alone.
    unsafe {
        zp_write_problem(
            task.as_ptr(),
            task.len(),
            run,
            room.as_mut_ptr(),
            room.len(),
            answer.as_mut_ptr(),
            answer.len(),
        )
    }
}

/// The table of a domain text, without locks and with this limit, as a task that has no run yet: `add_run` puts the runs to it, and until there
/// is one every other call refuses it with 12. Any text outside the layout gets 17; its place is how many bytes at the
/// beginning still are the beginning of some domain text. Answer: `TASK_ANSWER_WORDS`.
pub fn read_domain(text: &[u8], limit: usize, answer: &mut [u64]) -> usize {
    // SAFETY: each pointer is good for its length, and what may be written is lent to this call alone.
    unsafe {
        zp_read_domain(
            text.as_ptr(),
            text.len(),
            limit,
            answer.as_mut_ptr(),
            answer.len(),
        )
    }
}

/// The start and the goal of a problem text over so many facts, those of the domain; 4 if they are not 1 to 64, and 17 as
/// above, of the problem texts over so many facts. Answer: `PROBLEM_WORDS`.
pub fn read_problem(text: &[u8], facts: usize, answer: &mut [u64]) -> usize {
    // SAFETY: each pointer is good for its length, and what may be written is lent to this call alone.
    unsafe {
        zp_read_problem(
            text.as_ptr(),
            text.len(),
            facts,
            answer.as_mut_ptr(),
            answer.len(),
        )
    }
}

/// One run more, after those that the task has, in the task's words: its start and its goal as masks of facts, and an action for
/// each of its steps. 12 unless the task is then well formed. Answer: `CHANGED_WORDS`.
pub fn add_run(
    task: &mut [u64],
    start: u64,
    goal: u64,
    steps: &[u8],
    answer: &mut [u64],
) -> usize {
    // SAFETY: each pointer is good for its length, and what may be written is lent to this call alone.
    unsafe {
        zp_add_run(
            task.as_mut_ptr(),
            task.len(),
            start,
            goal,
            steps.as_ptr(),
            steps.len(),
            answer.as_mut_ptr(),
            answer.len(),
        )
    }
}
