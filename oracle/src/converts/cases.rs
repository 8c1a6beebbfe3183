//! What every trace goes through, and journals of chance.

use std::io;

use super::Trace;
use crate::journal::{Version, HEADER, LARGEST};
use crate::maker::convertible::{self, Events, Reasons};
use crate::maker::sized;
use crate::random::Random;

type Case = fn(&mut Trace, &mut Random) -> io::Result<()>;

const CASES: [Case; 7] = [small, devices, every_room, cuts, sizes, orders, versions];

pub fn all(trace: &mut Trace, random: &mut Random) -> io::Result<()> {
    CASES.iter().try_for_each(|case| case(trace, random))
}

/// Rooms that are longer than any outcome.
const LONG: [usize; 3] = [LARGEST + 1, 65_536, 100_000];

/// A journal with rooms that are too short for what would come of it, just long
/// enough, and longer.
fn rooms(trace: &mut Trace, random: &mut Random, journal: &[u8]) -> io::Result<()> {
    trace.journal(journal)?;
    let wanted = trace.wanted();
    let long = random.pick(&LONG);
    let lengths = [
        0,
        wanted.saturating_sub(1),
        wanted,
        wanted + 1,
        LARGEST,
        long,
    ];
    for length in lengths {
        trace.convert(random, length)?;
    }
    Ok(())
}

fn small(trace: &mut Trace, random: &mut Random) -> io::Result<()> {
    rooms(trace, random, b"")?;
    for count in [0, 1, 2, 5, 20, 63, 64, 65, 130] {
        let journal = convertible::of_records(random, count);
        rooms(trace, random, &journal)?;
        let journal = convertible::without_events(random, count);
        rooms(trace, random, &journal)?;
    }
    let journal = convertible::one_of_each(random);
    rooms(trace, random, &journal)
}

/// All 256 devices that version 1 can name.
fn devices(trace: &mut Trace, random: &mut Random) -> io::Result<()> {
    for device in 0..=255 {
        let journal = convertible::with_event_of(random, Version::One, device);
        trace.journal(&journal)?;
        trace.convert(random, LARGEST)?;
        trace.convert(random, 0)?;
    }
    for device in [15, 16, 255] {
        let mut journal = convertible::one_of_each(random);
        journal[HEADER + 5] = device;
        rooms(trace, random, &journal)?;
    }
    Ok(())
}

/// Each room from none to a few bytes more than are wanted.
fn every_room(trace: &mut Trace, random: &mut Random) -> io::Result<()> {
    trace.journal(&convertible::one_of_each(random))?;
    for length in 0..trace.wanted() + 4 {
        trace.convert(random, length)?;
    }
    Ok(())
}

/// Journals of both versions cut at each of their bytes.
fn cuts(trace: &mut Trace, random: &mut Random) -> io::Result<()> {
    let one = convertible::one_of_each(random);
    let mut two = sized::of_records(random, Version::Two, 0);
    two.extend(sized::one_of_each(random, Version::Two));
    for journal in [one, two] {
        for cut in 0..=journal.len() {
            trace.journal(&journal[..cut])?;
            trace.convert(random, 0)?;
            trace.convert(random, LARGEST)?;
        }
    }
    Ok(())
}

/// Outcomes around the largest size, with as many events as go in there, two and
/// none, and then a record more.
fn sizes(trace: &mut Trace, random: &mut Random) -> io::Result<()> {
    for events in [Events::Two, Events::Most, Events::None] {
        for size in [LARGEST - 1, LARGEST, LARGEST + 1] {
            let journal = convertible::of_outcome(random, events, size);
            rooms(trace, random, &journal)?;
        }
        let mut journal = convertible::of_outcome(random, events, LARGEST - 3);
        sized::tiny(random).write(Version::One, &mut journal);
        rooms(trace, random, &journal)?;
    }
    Ok(())
}

/// Every reason with all of the others, and with a room too short.
fn orders(trace: &mut Trace, random: &mut Random) -> io::Result<()> {
    for reasons in Reasons::all() {
        trace.journal(&reasons.journal(random))?;
        let long = random.pick(&LONG);
        for length in [0, trace.wanted().saturating_sub(1), LARGEST, long] {
            trace.convert(random, length)?;
        }
    }
    Ok(())
}

/// Versions that are neither, and the other one.
fn versions(trace: &mut Trace, random: &mut Random) -> io::Result<()> {
    for version in [
        0, 2, 3, 4, 254, 255, 256, 257, 258, 512, 513, 514, 65_535u16,
    ] {
        let mut journal = convertible::without_events(random, 4);
        journal[3..5].copy_from_slice(&version.to_le_bytes());
        rooms(trace, random, &journal)?;
    }
    Ok(())
}

/// Any journal, with rooms of any length.
pub fn chance(trace: &mut Trace, random: &mut Random) -> io::Result<()> {
    let journal = convertible::any_journal(random);
    trace.journal(&journal)?;
    let wanted = trace.wanted() as u64;
    for _ in 0..3 {
        let less = random.below(wanted + 1);
        let more = wanted + random.below(3);
        let any = random.below(LARGEST as u64 + 1);
        let lengths = [less, wanted, more, any, wanted.saturating_sub(1)];
        let length = random.pick(&lengths) as usize;
        trace.convert(random, length)?;
    }
    Ok(())
}
