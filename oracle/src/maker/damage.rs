//! Journals with something wrong in them.

use std::borrow::Cow;

use super::anything::version;
use super::cuts::one_of_each;
use super::draft::Draft;
use super::mixes::mix;
use crate::journal::{self, Record, Version, HEADER, LARGEST};
use crate::keeper::LONGEST;
use crate::random::Random;

/// The bytes at which the records of a good journal begin, and its end.
fn bounds(version: Version, journal: &[u8]) -> Vec<usize> {
    let mut records = journal::Records::new(version, &journal[HEADER..]);
    let mut bounds = vec![HEADER];
    while records.next().is_some() {
        bounds.push(journal.len() - records.rest().len());
    }
    bounds
}

/// A good journal with one fault, each sort of fault in turn.
pub fn damaged(random: &mut Random, turn: u64) -> Vec<u8> {
    let version = version(random);
    let draft = match random.below(3) {
        0 => one_of_each(random, version, 171),
        _ => mix(random, version),
    };
    let Draft {
        bytes: mut journal, ..
    } = draft;
    match turn % 8 {
        0 => {
            let cut = random.below(journal.len() as u64) as usize;
            journal.truncate(cut);
        }
        1 | 2 => {
            // Half of the time in the first record's bytes or the header,
            // where a turned bit changes most.
            let most = match random.below(2) {
                0 => journal.len(),
                _ => journal.len().min(HEADER + 30),
            };
            let at = random.below(most as u64) as usize;
            journal[at] ^= 1 << random.below(8);
        }
        3 => {
            let at = random.pick(&bounds(version, &journal));
            let other = random.between(7, 255) as u8;
            let kind = random.pick(&[0, 7, 8, 255, other]);
            if at < journal.len() && random.one_in(2) {
                journal[at] = kind;
            } else {
                journal.insert(at, kind);
            }
        }
        4 => {
            // With the other version's number, events begin or end elsewhere.
            let any = random.below(65_536) as u16;
            let number = random.pick(&[0, 3, 255, 256, 257, 258, 513, 65_535, any]);
            let number = random.pick(&[number, number, version.other().number()]);
            journal[3..5].copy_from_slice(&number.to_le_bytes());
        }
        5 => {
            let at = random.below(3) as usize;
            journal[at] = random.pick(&[0, b'N', b'K', b'J', b'n', 255, journal[at] ^ 32]);
        }
        6 => long_record(random, version, &mut journal),
        _ => match turn / 8 % 4 {
            0 => largest(random, version, &mut journal),
            1 => too_large(random, version, &mut journal),
            _ => long_record(random, version, &mut journal),
        },
    }
    journal
}

/// Puts in a write or seed that names too great a length, with all of its
/// bytes, some or none, or with its fields cut.
fn long_record(random: &mut Random, version: Version, journal: &mut Vec<u8>) {
    let bounds = bounds(version, journal);
    let at = random.pick(&bounds);
    let length: u16 = random.pick(&[4_096, 4_097, 4_097, 4_098, 8_192, 65_535]);
    let kind = random.pick(&[3, 4]);
    let mut record = vec![kind];
    record.extend(random.u32().to_le_bytes());
    record.extend(length.to_le_bytes());
    if kind == 4 {
        let credit: u32 = random.pick(&[0, 8, u32::MAX]);
        record.extend(credit.to_le_bytes());
    }
    let follow = random.pick(&[0, 0, 0, 1, 20, 20]);
    record.extend(random.bytes(follow));
    if random.one_in(12) {
        let all = random.pick(&[4_096, 4_097]);
        record.extend(random.bytes(all));
    }
    if random.one_in(3) {
        // Mostly after the length, where a credit may be missing.
        let least = random.pick(&[1, 7, 7]);
        record.truncate(random.between(least, 11) as usize);
    }
    if random.one_in(2) {
        journal.truncate(at);
        journal.extend(record);
    } else {
        journal.splice(at..at, record);
    }
}

/// Fills a journal up to the largest size.
fn largest(random: &mut Random, version: Version, journal: &mut Vec<u8>) {
    while journal.len() < LARGEST {
        let left = LARGEST - journal.len();
        if left < 7 {
            // Too little for a record: what is left is one cut short.
            journal.resize(LARGEST, 1);
            break;
        }
        let length = match left - 7 {
            room if room <= LONGEST => room,
            room => LONGEST.min(room - 7),
        };
        let bytes = Cow::Owned(random.bytes(length));
        Record::Write { now: 0, bytes }.write(version, journal);
    }
}

/// Fills a journal up to one byte more than that.
fn too_large(random: &mut Random, version: Version, journal: &mut Vec<u8>) {
    largest(random, version, journal);
    journal.push(5);
    if !random.one_in(3) {
        // The size counts before anything else that is wrong.
        let at = random.pick(&[0, 2, 3]);
        journal[at] = 0;
    }
}
