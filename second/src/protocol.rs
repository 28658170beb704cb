//! The messages between the comparison and a driver of the proved library. All numbers are little endian.
//!
//! request: op (1 byte), a count of words (u32), the words (u64), a count of bytes (u32), the bytes; a response is
//! the same without the op.

use std::io::{self, Read};

/// The calls; the value of each is its op.
#[derive(Clone, Copy, PartialEq, Eq, Debug)]
pub enum Call {
    Record = 1,
    Read = 2,
    Write = 3,
    Check = 4,
    Apply = 5,
    Solve = 6,
    Open = 7,
    Edit = 8,
    List = 9,
    Listing = 10,
    WriteDomain = 11,
    WriteProblem = 12,
    ReadDomain = 13,
    ReadProblem = 14,
    AddRun = 15,
}

pub const CALLS: [Call; 15] = [
    Call::Record,
    Call::Read,
    Call::Write,
    Call::Check,
    Call::Apply,
    Call::Solve,
    Call::Open,
    Call::Edit,
    Call::List,
    Call::Listing,
    Call::WriteDomain,
    Call::WriteProblem,
    Call::ReadDomain,
    Call::ReadProblem,
    Call::AddRun,
];

impl Call {
    /// True if what is lent as bytes is a PDDL text, or room for one.
    pub fn lends_text(self) -> bool {
        [Call::WriteDomain, Call::WriteProblem, Call::ReadDomain, Call::ReadProblem].contains(&self)
    }

    fn of_op(op: u8) -> Option<Call> {
        CALLS.into_iter().find(|&call| call as u8 == op)
    }
}

#[derive(Clone, PartialEq, Eq, Debug)]
pub struct Request {
    pub call: Call,
    pub words: Vec<u64>,
    pub bytes: Vec<u8>,
}

#[derive(Clone, PartialEq, Eq, Debug, Default)]
pub struct Response {
    pub words: Vec<u64>,
    pub bytes: Vec<u8>,
}

impl Request {
    /// The words that the request lends as a task, however many they are; none for a call on a file or a text.
    pub fn task_words(&self) -> Option<&[u64]> {
        match self.call {
            Call::Record | Call::Read | Call::Listing | Call::ReadDomain | Call::ReadProblem => None,
            _ => Some(self.parted().0),
        }
    }

    /// The words that stand behind the task: a run, an edit, how many numbers are the table, or a start and a goal.
    pub fn more_words(&self) -> &[u64] {
        self.parted().1
    }

    fn parted(&self) -> (&[u64], &[u64]) {
        let more = match self.call {
            Call::Edit => 4,
            Call::AddRun => 2,
            Call::Check | Call::List | Call::WriteProblem => 1,
            _ => 0,
        };
        self.words.split_at(self.words.len() - more)
    }

    pub fn encode(&self, out: &mut Vec<u8>) {
        out.push(self.call as u8);
        encode_body(&self.words, &self.bytes, out);
    }

    /// The next request, or none at the end of the input.
    pub fn decode(input: &mut impl Read) -> io::Result<Option<Request>> {
        let mut op = [0];
        if input.read(&mut op)? == 0 {
            return Ok(None);
        }
        let call = Call::of_op(op[0]).ok_or(io::Error::new(io::ErrorKind::InvalidData, "unknown op"))?;
        let (words, bytes) = decode_body(input)?;
        Ok(Some(Request { call, words, bytes }))
    }
}

impl Response {
    pub fn encode(&self, out: &mut Vec<u8>) {
        encode_body(&self.words, &self.bytes, out);
    }

    pub fn decode(input: &mut impl Read) -> io::Result<Response> {
        let (words, bytes) = decode_body(input)?;
        Ok(Response { words, bytes })
    }
}

fn encode_body(words: &[u64], bytes: &[u8], out: &mut Vec<u8>) {
    out.extend((words.len() as u32).to_le_bytes());
    for word in words {
        out.extend(word.to_le_bytes());
    }
    out.extend((bytes.len() as u32).to_le_bytes());
    out.extend(bytes);
}

fn decode_body(input: &mut impl Read) -> io::Result<(Vec<u64>, Vec<u8>)> {
    let words = read_counted(input, 8)?;
    let bytes = read_counted(input, 1)?;
    let words = words.chunks(8).map(|word| u64::from_le_bytes(word.try_into().unwrap())).collect();
    Ok((words, bytes))
}

/// A count, and then that many items of so many bytes. A driver gone astray must not make this ask for gigabytes, so
/// the bytes are taken as they come.
fn read_counted(input: &mut impl Read, size: u64) -> io::Result<Vec<u8>> {
    let mut count = [0; 4];
    input.read_exact(&mut count)?;
    let wanted = u32::from_le_bytes(count) as u64 * size;
    let mut bytes = Vec::new();
    input.take(wanted).read_to_end(&mut bytes)?;
    if (bytes.len() as u64) < wanted {
        return Err(io::ErrorKind::UnexpectedEof.into());
    }
    Ok(bytes)
}

/// Numbers of 16 bits as bytes, and back.
pub fn bytes_of(numbers: &[u16]) -> Vec<u8> {
    numbers.iter().flat_map(|number| number.to_le_bytes()).collect()
}

pub fn numbers_of(bytes: &[u8]) -> Vec<u16> {
    bytes.chunks_exact(2).map(|pair| u16::from_le_bytes([pair[0], pair[1]])).collect()
}
