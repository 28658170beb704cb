//! A driver of the library under comparison: a process that answers requests over its pipes.
//!
//! Requests are written by one thread and responses judged by another, so that neither side ever waits for the other
//! with both pipes full, and a driver may hold its responses back until its buffer is full or its input ends.

use std::io::{self, BufReader, Read, Write};
use std::process::{Child, ChildStdin, ChildStdout, Command, Stdio};
use std::sync::mpsc::{channel, sync_channel, Receiver, Sender, SyncSender};
use std::thread::{self, JoinHandle};

use super::report::Difference;
use crate::protocol::Response;

/// Encoded requests, and for each what must come back: a difference still without its `got`.
#[derive(Default)]
pub struct Batch {
    pub requests: Vec<u8>,
    pub expected: Vec<Difference>,
}

type Judgement = Result<(), Box<Difference>>;

pub struct Driver {
    child: Child,
    to_write: SyncSender<Vec<u8>>,
    to_judge: Sender<Vec<Difference>>,
    judge: JoinHandle<Judgement>,
}

const BUFFER: usize = 1 << 20;

impl Driver {
    pub fn start(command: &[String]) -> io::Result<Driver> {
        let (program, arguments) = command.split_first().expect("options give at least one word");
        let mut child = Command::new(program).args(arguments).stdin(Stdio::piped()).stdout(Stdio::piped()).spawn()?;
        let input = child.stdin.take().expect("the driver's input is a pipe");
        let output = child.stdout.take().expect("the driver's output is a pipe");
        let (to_write, batches) = sync_channel(1);
        let (to_judge, expected) = channel();
        thread::spawn(move || write_all(batches, input));
        let judge = thread::spawn(move || judge_all(expected, output));
        Ok(Driver { child, to_write, to_judge, judge })
    }

    /// Hands a batch over. False if the judge has already met a difference.
    pub fn send(&self, batch: Batch) -> bool {
        // If the writing thread is gone the driver is, which the judge will notice.
        self.to_judge.send(batch.expected).is_ok() && {
            let _ = self.to_write.send(batch.requests);
            true
        }
    }

    /// Ends the input, waits for the judgement of all that was sent, and sees that the driver ends well.
    pub fn finish(self) -> Result<Judgement, String> {
        let Driver { mut child, to_write, to_judge, judge } = self;
        drop(to_write);
        drop(to_judge);
        let judgement = judge.join().map_err(|_| "the judge panicked")?;
        if judgement.is_err() {
            // It may be waiting on its pipes for ever.
            child.kill().map_err(|error| error.to_string())?;
        }
        let status = child.wait().map_err(|error| error.to_string())?;
        match (&judgement, status.success()) {
            (Ok(()), false) => Err(format!("the driver ended with {status}")),
            _ => Ok(judgement),
        }
    }
}

fn write_all(batches: Receiver<Vec<u8>>, mut input: ChildStdin) {
    // A driver that ended early is noticed where its response is missing.
    while let Ok(batch) = batches.recv() {
        if input.write_all(&batch).is_err() {
            break;
        }
    }
}

/// Compares every response with what is expected, until one differs.
fn judge_all(expected: Receiver<Vec<Difference>>, output: ChildStdout) -> Judgement {
    let mut output = BufReader::with_capacity(BUFFER, output);
    let mut last = None;
    while let Ok(batch) = expected.recv() {
        for mut difference in batch {
            let got = Response::decode(&mut output).map_err(|error| error.to_string());
            if got.as_ref() != Ok(&difference.expected) {
                difference.got = got;
                return Err(Box::new(difference));
            }
            last = Some(difference);
        }
    }
    nothing_more(output, last)
}

/// After the last response the driver must say nothing.
fn nothing_more(mut output: impl Read, last: Option<Difference>) -> Judgement {
    let more = output.read(&mut [0]);
    match (more, last) {
        (Ok(0), _) | (_, None) => Ok(()),
        (_, Some(mut difference)) => {
            difference.got = Err("bytes after the response to the last request".to_string());
            Err(Box::new(difference))
        }
    }
}
