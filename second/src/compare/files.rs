//! Damage to task files: bits, bytes, records, runs, locks, numbers, sizes, cuts, and bytes that never were a file.

use crate::file::{body_length, bounds, records, END, GOAL, LOCK, NEED, RUN, SIZES, START, STEP, TABLE_KINDS};
use crate::random::Random;
use crate::task::MOST_RUNS;

/// The file with some damage, or none.
pub fn damaged(good: &[u8], random: &mut Random) -> Vec<u8> {
    let mut file = good.to_vec();
    for _ in 0..random.pick(&[0, 1, 1, 1, 1, 2, 3]) {
        file = match random.below(8) {
            0 | 1 => damage_records(&file, random),
            2 => damage_bytes(file, random),
            3 => damage_runs(&file, random),
            4 => damage_numbers(&file, random),
            5 | 6 => damage_locks(&file, random),
            _ => damage_ends(file, random),
        };
    }
    file
}

/// Whole records repeated, taken out, swapped, put in, or given another kind or number.
fn damage_records(file: &[u8], random: &mut Random) -> Vec<u8> {
    let mut parts: Vec<Vec<u8>> = split(file);
    if parts.is_empty() {
        return random_bytes(random);
    }
    let index = random.below(parts.len());
    let other = random.below(parts.len());
    match random.below(8) {
        0 => parts.insert(index, parts[index].clone()),
        1 => drop(parts.remove(index)),
        2 => parts.swap(index, other),
        3 if index > 0 => parts.swap(index - 1, index),
        4 => parts.insert(index, parts[other].clone()),
        5 => parts.insert(index, random_record(random)),
        6 => parts[index][0] = random.between(0, LOCK as usize + 1) as u8,
        _ => {
            let place = random.below(parts[index].len());
            parts[index][place] = edge_byte(random);
        }
    }
    parts.concat()
}

/// A record of a known kind with numbers that may or may not fit.
fn random_record(random: &mut Random) -> Vec<u8> {
    record_of_kind(some_kind(random), random)
}

fn some_kind(random: &mut Random) -> u8 {
    random.between(SIZES as usize, LOCK as usize) as u8
}

fn record_of_kind(kind: u8, random: &mut Random) -> Vec<u8> {
    let length = body_length(kind).unwrap_or(0);
    let mut record = vec![kind];
    record.extend((0..length).map(|_| random.below(5) as u8));
    record
}

/// A byte that stands at the edge of some range.
fn edge_byte(random: &mut Random) -> u8 {
    random.pick(&[0, 1, 2, 3, 6, 7, 8, 9, 10, 11, 31, 32, 33, 62, 63, 64, 65, 127, 128, 255])
}

/// Kind 9 at any place, further runs up to ten in all, any record in a further run, or a cut right behind a kind 9.
fn damage_runs(file: &[u8], random: &mut Random) -> Vec<u8> {
    let mut parts = split(file);
    match random.below(5) {
        0 => parts.insert(random.below(parts.len() + 1), vec![RUN]),
        1 => parts.insert(random.below(parts.len().min(2) + 1), vec![RUN]),
        2 => put_runs(&mut parts, random),
        3 => put_in_further_run(&mut parts, random),
        _ => cut_behind_run(&mut parts, random),
    }
    parts.concat()
}

/// Where the parts of the kind stand.
fn places_of(parts: &[Vec<u8>], kind: u8) -> Vec<usize> {
    (0..parts.len()).filter(|&index| parts[index][0] == kind).collect()
}

/// Where the file ends: before its end record, if it has one.
fn place_of_end(parts: &[Vec<u8>]) -> usize {
    parts.iter().position(|part| part[0] == END).unwrap_or(parts.len())
}

/// Further runs at the end, up to seven, eight, nine or ten in all; the last of them with a few records.
fn put_runs(parts: &mut Vec<Vec<u8>>, random: &mut Random) {
    let wanted = random.between(MOST_RUNS - 1, MOST_RUNS + 2);
    let have = 1 + places_of(parts, RUN).len();
    let place = place_of_end(parts);
    for _ in 0..random.below(3) {
        parts.insert(place, random_record(random));
    }
    for _ in have..wanted {
        parts.insert(place, vec![RUN]);
    }
}

/// A record, often of a table kind, behind some kind 9 of the file, or in a run put in for it.
fn put_in_further_run(parts: &mut Vec<Vec<u8>>, random: &mut Random) {
    if places_of(parts, RUN).is_empty() {
        parts.insert(place_of_end(parts), vec![RUN]);
    }
    let first = places_of(parts, RUN)[0];
    let record =
        if random.chance(8) { record_of_kind(random.pick(&TABLE_KINDS), random) } else { random_record(random) };
    parts.insert(random.between(first + 1, parts.len()), record);
}

/// The file up to a kind 9, and sometimes a kind byte behind it.
fn cut_behind_run(parts: &mut Vec<Vec<u8>>, random: &mut Random) {
    let places = places_of(parts, RUN);
    if !places.is_empty() {
        parts.truncate(random.pick(&places) + 1);
        parts.extend(random.chance(8).then(|| vec![some_kind(random)]));
    }
}

/// Locks taken out, repeated, put in or moved, and needs taken out from under them: mostly where a lock may stand, so that
/// it lacks its need or does not ascend, and else where it may not.
fn damage_locks(file: &[u8], random: &mut Random) -> Vec<u8> {
    let mut parts = split(file);
    let (needs, locks) = (places_of(&parts, NEED), places_of(&parts, LOCK));
    let place = place_for_lock(&parts, random);
    match random.below(6) {
        0 if !needs.is_empty() => drop(parts.remove(random.pick(&needs))),
        1 if !locks.is_empty() => parts.insert(place, parts[random.pick(&locks)].clone()),
        2 if !locks.is_empty() => {
            let moved = parts.remove(random.pick(&locks));
            parts.insert(place.min(parts.len()), moved);
        }
        3 if !needs.is_empty() => {
            let need = parts[random.pick(&needs)].clone();
            parts.insert(place, [&[LOCK], &need[1..]].concat());
        }
        4 if !locks.is_empty() => parts[random.pick(&locks)][0] = random.pick(&TABLE_KINDS),
        _ => parts.insert(place, record_of_kind(LOCK, random)),
    }
    parts.concat()
}

/// Where a lock is put: often right before the first run's steps, behind the locks that stand there; or behind the first
/// kind 9; or anywhere.
fn place_for_lock(parts: &[Vec<u8>], random: &mut Random) -> usize {
    let behind = parts.iter().position(|part| [STEP, RUN, END].contains(&part[0])).unwrap_or(parts.len());
    match (random.below(16), places_of(parts, RUN).first()) {
        (0..=8, _) => behind,
        (9..=11, Some(further)) => random.between(further + 1, parts.len()),
        _ => random.below(parts.len() + 1),
    }
}

/// A number outside in a record of a kind whose bodies ascend, or such a record that does not ascend from the one before
/// it; now and then both in one record.
fn damage_numbers(file: &[u8], random: &mut Random) -> Vec<u8> {
    let mut parts = split(file);
    let kinds = [START, GOAL].into_iter().chain(TABLE_KINDS);
    let places: Vec<usize> = kinds.flat_map(|kind| places_of(&parts, kind)).collect();
    let &[SIZES, facts, actions, _] = parts.first().map_or(&[][..], Vec::as_slice) else { return file.to_vec() };
    if places.is_empty() {
        return file.to_vec();
    }
    let mut index = random.pick(&places);
    let behind = random.chance(8);
    if behind {
        parts.insert(index + 1, no_higher(&parts[index], random));
        index += 1;
    }
    if !behind || random.chance(6) {
        put_outside(&mut parts[index], [facts, actions], random);
    }
    parts.concat()
}

/// The record again, with each number the same or, if it is not 0, lower.
fn no_higher(record: &[u8], random: &mut Random) -> Vec<u8> {
    let mut lower = record.to_vec();
    for number in &mut lower[1..] {
        if random.chance(8) {
            *number = random.below((*number).max(1) as usize) as u8;
        }
    }
    lower
}

/// Puts the first number of a record outside, or the second, or both.
fn put_outside(record: &mut [u8], [facts, actions]: [u8; 2], random: &mut Random) {
    let which = random.pick(&[[true, false], [false, true], [true, true]]);
    let bounds = bounds(record[0], facts as usize, actions as usize);
    for ((number, bound), outside) in record[1..].iter_mut().zip(bounds).zip(which) {
        if outside {
            *number = random.pick(&[bound, bound + 1, 255]).min(255) as u8;
        }
    }
}

/// Bits turned, bytes put in, taken out or replaced.
fn damage_bytes(mut file: Vec<u8>, random: &mut Random) -> Vec<u8> {
    if file.is_empty() {
        return random_bytes(random);
    }
    let place = random.below(file.len());
    match random.below(4) {
        0 => file[place] ^= 1 << random.below(8),
        1 => file.insert(place, edge_byte(random)),
        2 => drop(file.remove(place)),
        _ => file[place] = edge_byte(random),
    }
    file
}

/// A wrong size, a cut, bytes after the end, too many steps, or random bytes in place of the file.
fn damage_ends(mut file: Vec<u8>, random: &mut Random) -> Vec<u8> {
    match random.below(6) {
        0 if file.len() > 4 => file[random.between(1, 3)] = edge_byte(random),
        1 => file.truncate(random.below(file.len() + 1)),
        2 => drop(file.pop()),
        3 => file.extend((0..random.between(1, 3)).map(|_| edge_byte(random))),
        4 => file = with_many_steps(&file, random),
        _ => file = random_bytes(random),
    }
    file
}

/// The file with the steps of some run repeated up to 63, 64, 65 or 66.
fn with_many_steps(file: &[u8], random: &mut Random) -> Vec<u8> {
    let mut parts = split(file);
    let wanted = random.between(63, 66);
    let begins = [vec![0], places_of(&parts, RUN)].concat();
    let begin = random.pick(&begins);
    let of_run = |part: &Vec<u8>| ![END, RUN].contains(&part[0]);
    let own = parts.iter().skip(begin + 1).take_while(|part| of_run(part));
    let have = own.clone().filter(|part| part[0] == STEP).count();
    let place = (begin + 1 + own.count() - have).min(parts.len());
    for _ in have..wanted {
        parts.insert(place, vec![STEP, 0]);
    }
    parts.concat()
}

/// Bytes that never were a file, mostly small numbers, sometimes with a good size record first.
fn random_bytes(random: &mut Random) -> Vec<u8> {
    let mut bytes = if random.chance(8) { vec![1, 4, 3, 2] } else { vec![] };
    let highest = random.pick(&[4, 10, 256]);
    bytes.extend((0..random.below(24)).map(|_| random.below(highest) as u8));
    bytes
}

/// The records of a file as parts, as far as there are records; what follows is one part more.
fn split(file: &[u8]) -> Vec<Vec<u8>> {
    let mut place = 0;
    let mut parts = Vec::new();
    for record in records(file) {
        parts.push(file[place..record.next].to_vec());
        place = record.next;
    }
    if place < file.len() {
        parts.push(file[place..].to_vec());
    }
    parts
}

/// Places to ask the record reader at: records' starts, any other, the end and beyond.
pub fn places(file: &[u8], random: &mut Random) -> Vec<u64> {
    let length = file.len() as u64;
    let mut places = vec![0, length, random.pick(&[length + 1, length + 1000, 1 << 32, u64::MAX])];
    if !file.is_empty() {
        places.extend((0..3).map(|_| random.below(file.len()) as u64));
    }
    places.extend(records(file).iter().map(|record| record.next as u64).take(random.below(6)));
    places
}
