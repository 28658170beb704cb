//! Deliberate faults of reading a file: its order, its bounds, its runs, and the places of 5 and 6 (02, requests 1 and 2).

use super::refused_with;
use crate::drive::Broken;
use crate::file::{bounds, order_breaks_at, record_around, records, Record, RUN, STEP, TABLE_KINDS};
use crate::protocol::{Call, Request, Response};
use crate::task::{Task, MOST_RUNS, MOST_STEPS};

/// The record that a read is refused for with this number, and before it the record that it follows.
pub fn refused_record<'a>(request: &'a Request, right: &Response, number: u64) -> Option<[Record<'a>; 2]> {
    let refused = request.call == Call::Read && refused_with(right, number);
    refused.then(|| record_around(&request.bytes, right.words[1] as usize)).flatten()
}

/// A read that passes this record over.
pub fn read_without(broken: &mut Broken, request: &Request, record: &Record) -> Response {
    let bytes = [&request.bytes[..record.place()], &request.bytes[record.next..]].concat();
    let mut response = broken.right(&Request { bytes, ..request.clone() });
    if !refused_with(&response, 0) {
        response.words[1] += (record.next - record.place()) as u64;
    }
    response
}

/// True if the place is in a further run.
pub fn in_further_run(file: &[u8], place: usize) -> bool {
    records(file).iter().any(|record| record.kind == RUN && record.place() < place)
}

fn table_kind_in_further_run(request: &Request, record: &Record) -> bool {
    TABLE_KINDS.contains(&record.kind) && in_further_run(&request.bytes, record.place())
}

/// Bodies that are equal count as ascending.
pub fn equal_neighbours(broken: &mut Broken, request: &Request, right: Response) -> Response {
    match refused_record(request, &right, 6) {
        Some([last, again]) if (last.kind, last.body) == (again.kind, again.body) => {
            read_without(broken, request, &again)
        }
        _ => right,
    }
}

/// Order is judged before the range of numbers.
pub fn range_after_order(_: &mut Broken, request: &Request, right: Response) -> Response {
    let Some([last, record]) = refused_record(request, &right, 5) else { return right };
    let further = in_further_run(&request.bytes, record.place());
    match order_breaks_at(&last, &record, further) {
        Some(place) => refused_read(6, place),
        None => right,
    }
}

/// A body that passes the end is placed at the end of the file.
pub fn short_body_at_end(_: &mut Broken, request: &Request, mut right: Response) -> Response {
    if request.call == Call::Read && refused_with(&right, 1) {
        right.words[1] = request.bytes.len() as u64;
    }
    right
}

/// Asked past the end, the record reader gives the file's length as the place.
pub fn past_end_at_length(_: &mut Broken, request: &Request, mut right: Response) -> Response {
    if request.call == Call::Record && refused_with(&right, 1) {
        right.words[1] = right.words[1].min(request.bytes.len() as u64);
    }
    right
}

/// Bytes after the end are passed over.
pub fn bytes_after_end(broken: &mut Broken, request: &Request, right: Response) -> Response {
    if request.call == Call::Read && refused_with(&right, 8) {
        let bytes = request.bytes[..right.words[1] as usize].to_vec();
        return broken.right(&Request { bytes, ..request.clone() });
    }
    right
}

/// The 64th step is one too many.
pub fn no_64th_step(_: &mut Broken, request: &Request, right: Response) -> Response {
    if request.call != Call::Read || !refused_with(&right, 0) {
        return right;
    }
    let records = records(&request.bytes);
    let mut runs = records.split(|record| record.kind == RUN);
    match runs.find_map(|run| nth_of_kind(run, STEP, MOST_STEPS)) {
        Some(place) => refused_read(7, place),
        None => right,
    }
}

/// The place of the n-th of these records, counted from 1, that has this kind.
fn nth_of_kind(records: &[Record], kind: u8, n: usize) -> Option<usize> {
    records.iter().filter(|record| record.kind == kind).map(Record::place).nth(n - 1)
}

/// A refused read.
pub fn refused_read(number: u64, place: usize) -> Response {
    let words = [&[number, place as u64][..], &Task::zeros().words()].concat();
    Response { words, bytes: vec![] }
}

/// A table kind in a further run is passed over.
pub fn table_kinds_in_further_runs(broken: &mut Broken, request: &Request, right: Response) -> Response {
    match refused_record(request, &right, 6) {
        Some([_, record]) if table_kind_in_further_run(request, &record) => read_without(broken, request, &record),
        _ => right,
    }
}

/// The kinds of a further run may not go down from those of the run before it.
pub fn order_not_begun_anew(_: &mut Broken, request: &Request, right: Response) -> Response {
    if request.call != Call::Read || !refused_with(&right, 0) {
        return right;
    }
    let mut records = records(&request.bytes);
    records.retain(|record| record.kind != RUN);
    let goes_down = |pair: &&[Record]| order_breaks_at(&pair[0], &pair[1], false) == Some(pair[1].place());
    match records.windows(2).find(goes_down) {
        Some(pair) => refused_read(6, pair[1].place()),
        None => right,
    }
}

/// The eighth run is one too many.
pub fn no_eighth_run(_: &mut Broken, request: &Request, right: Response) -> Response {
    if request.call != Call::Read || !refused_with(&right, 0) {
        return right;
    }
    match nth_of_kind(&records(&request.bytes), RUN, MOST_RUNS - 1) {
        Some(place) => refused_read(16, place),
        None => right,
    }
}

/// A ninth run counts as a record out of order.
pub fn ninth_run_out_of_order(_: &mut Broken, request: &Request, mut right: Response) -> Response {
    if request.call == Call::Read && refused_with(&right, 16) {
        right.words[0] = 6;
    }
    right
}

/// The 65th step of all runs together is refused.
pub fn steps_counted_over_all_runs(_: &mut Broken, request: &Request, right: Response) -> Response {
    if request.call != Call::Read || !refused_with(&right, 0) {
        return right;
    }
    match nth_of_kind(&records(&request.bytes), STEP, MOST_STEPS + 1) {
        Some(place) => refused_read(7, place),
        None => right,
    }
}

/// 5 is at the start of its record, as 01 had it.
pub fn outside_at_its_record(_: &mut Broken, request: &Request, right: Response) -> Response {
    match refused_record(request, &right, 5) {
        Some([_, record]) => refused_read(5, record.place()),
        None => right,
    }
}

/// 5 is at the first number of its record, also where only the second is outside.
pub fn outside_at_the_first_number(_: &mut Broken, request: &Request, right: Response) -> Response {
    match refused_record(request, &right, 5) {
        Some([_, record]) => refused_read(5, record.start),
        None => right,
    }
}

/// 5 is at the last number that is outside: at the fact where the action is outside too.
pub fn outside_at_the_last_number(_: &mut Broken, request: &Request, right: Response) -> Response {
    let Some([_, record]) = refused_record(request, &right, 5) else { return right };
    let [facts, actions] = [1, 2].map(|place| request.bytes[place] as usize);
    let mut numbers = record.body.iter().zip(bounds(record.kind, facts, actions));
    match numbers.rposition(|(&number, bound)| number as usize >= bound) {
        Some(index) => refused_read(5, record.start + index),
        None => right,
    }
}

/// 6 of a kind that goes down is at the first byte of its body.
pub fn kind_at_its_body(_: &mut Broken, request: &Request, right: Response) -> Response {
    match refused_record(request, &right, 6) {
        Some([last, record]) if order_breaks_at(&last, &record, false) == Some(record.place()) => {
            refused_read(6, record.start)
        }
        _ => right,
    }
}

/// 6 of a table kind in a further run is at the first byte of its body.
pub fn table_kind_at_its_body(_: &mut Broken, request: &Request, right: Response) -> Response {
    match refused_record(request, &right, 6) {
        Some([_, record]) if table_kind_in_further_run(request, &record) => refused_read(6, record.start),
        _ => right,
    }
}

/// 6 of a body that does not ascend is at the kind byte.
pub fn ascent_at_the_kind(_: &mut Broken, request: &Request, right: Response) -> Response {
    match refused_record(request, &right, 6) {
        Some([_, record]) => refused_read(6, record.place()),
        _ => right,
    }
}

/// 6 of a body that does not ascend is at its second number where the first numbers are equal.
pub fn ascent_at_the_number(_: &mut Broken, request: &Request, right: Response) -> Response {
    match refused_record(request, &right, 6) {
        Some([last, record]) if last.kind == record.kind && last.body[0] == record.body[0] => {
            refused_read(6, record.next - 1)
        }
        _ => right,
    }
}

/// 7 has moved to the step's number too.
pub fn steps_at_the_number(_: &mut Broken, request: &Request, right: Response) -> Response {
    match refused_record(request, &right, 7) {
        Some([_, record]) => refused_read(7, record.start),
        None => right,
    }
}
