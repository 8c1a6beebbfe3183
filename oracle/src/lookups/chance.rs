//! Calls in any order on a journal that grows.

use std::io;

use super::cases::{telling, wrong};
use super::{Field, Trace};
use crate::index::MOST_NUMBERS;
use crate::journal::{Version, LARGEST};
use crate::maker::sized::{self, Fault};
use crate::random::Random;

/// The journals of sequences are of the two versions in turn.
pub fn sequence(trace: &mut Trace, random: &mut Random, version: Version) -> io::Result<()> {
    let journal = any_journal(random, version);
    trace.room(random, &journal)?;
    trace.fresh()?;
    for _ in 0..random.between(10, 25) {
        match random.below(12) {
            0..=3 => any_look(trace, random)?,
            4..=7 => any_appending(trace, random, version)?,
            8 => trace.fresh()?,
            9 => shorter(trace, random)?,
            _ => wrong_index(trace, random, version)?,
        }
    }
    Ok(())
}

/// Mostly of some hundred records; one of ten is large, and one is bad.
fn any_journal(random: &mut Random, version: Version) -> Vec<u8> {
    let count = random.between(0, 200) as usize;
    let mut journal = sized::of_records(random, version, count);
    match random.below(10) {
        0 => {
            let fills = [sized::fill_with_tiny, sized::fill_with_large];
            let size = random.between(LARGEST as u64 - 3_000, LARGEST as u64) as usize;
            random.pick(&fills)(random, &mut journal, size);
        }
        1 => {
            let fault = random.pick(&Fault::ALL);
            if fault != Fault::Large {
                fault.put(random, &mut journal);
            }
        }
        _ => {}
    }
    journal
}

fn any_numbers(random: &mut Random, records: u32) -> Vec<u32> {
    let telling = telling(records as usize);
    let most = MOST_NUMBERS as u64;
    let count = random.between(0, most);
    let count = random.pick(&[1, count, count, most, most + 1]);
    (0..count)
        .map(|_| match random.below(4) {
            0 => random.pick(&telling),
            _ => random.below(u64::from(records) + 1) as u32,
        })
        .collect()
}

fn any_look(trace: &mut Trace, random: &mut Random) -> io::Result<()> {
    // As many as an index that may be wrong says.
    let sum = trace.lent.index.kinds.iter();
    let records = sum.fold(0, |sum: u32, kind| sum.wrapping_add(*kind)) % 10_000;
    trace.look(&any_numbers(random, records))
}

/// Whole records, one time in three with a fault at their end.
fn any_appending(trace: &mut Trace, random: &mut Random, version: Version) -> io::Result<()> {
    let count = random.pick(&[0, 1, 1, 2, 5, 30, 63, 64, 65]);
    let mut more = sized::part(random, version, count);
    if random.one_in(3) {
        let fault = random.pick(&[Fault::Cut, Fault::Kind, Fault::Long]);
        fault.put_last(random, version, &mut more);
    }
    trace.append(&more)
}

/// Calls on a shorter journal in the same room, with the index of the longer one
/// or its own.
fn shorter(trace: &mut Trace, random: &mut Random) -> io::Result<()> {
    let length = trace.lent.length;
    trace.length(random.below(length + 1))?;
    any_look(trace, random)?;
    trace.fresh()?;
    any_look(trace, random)?;
    trace.length(length)?;
    trace.fresh()
}

/// Calls with one number of the index changed.
fn wrong_index(trace: &mut Trace, random: &mut Random, version: Version) -> io::Result<()> {
    // Half of the time one that is likely to be used.
    let field = match random.below(6) {
        0..=2 => random.pick(&Field::all()),
        3 => Field::Place(random.below(4) as usize),
        4 => Field::Kind(random.below(6) as usize),
        _ => Field::Reads,
    };
    let right = trace.get(field);
    trace.put(field, wrong(random, right))?;
    any_look(trace, random)?;
    any_appending(trace, random, version)?;
    trace.put(field, right)
}
