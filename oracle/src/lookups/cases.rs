//! What every trace goes through, however few sequences of chance it has. Journals
//! are of the two versions in turn, and small ones of both.

use std::io;

use super::{Field, Trace};
use crate::convert::convert;
use crate::index::{KINDS, MOST_NUMBERS, PLACES};
use crate::journal::{Version, HEADER, LARGEST};
use crate::maker::sized::{self, Fault};
use crate::random::Random;
use crate::situations::{BORDER_DEVICES, BORDER_REFUSALS};

type Case = fn(&mut Trace, &mut Random) -> io::Result<()>;

const CASES: [Case; 18] = [
    every_count,
    one_by_one,
    many_at_once,
    each_number_changed,
    several_numbers_changed,
    one_record_behind,
    torn,
    cut_parts,
    every_length,
    lengths_past_the_room,
    full,
    up_to_the_last_byte,
    the_last_place,
    every_record_of_a_full_journal,
    orders,
    how_many_numbers,
    devices,
    the_other_version,
];

/// A sequence for each.
pub fn all(trace: &mut Trace, random: &mut Random) -> io::Result<()> {
    for case in CASES {
        trace.sequence()?;
        case(trace, random)?;
    }
    Ok(())
}

/// Record numbers around each turn of a journal, and some past its last record
/// that are easily taken for one: past all places, and at the end of 32 bits.
pub fn telling(records: usize) -> Vec<u32> {
    let records = records as u32;
    let last = records.saturating_sub(1);
    let own = [0, last, records, last / 2, records + 1, records + 64];
    let turns = [1, 62, 63, 64, 65, 66, 126, 127, 128, 129, 130];
    let places = [8_767, 8_768, 8_769, 8_831, 8_832, 8_833, 61_440];
    let (half, most) = (1 << 31, u32::MAX);
    let far = [1 << 16, 1 << 26, half - 1, half, half + 64, most - 63, most];
    [&own[..], &turns, &places, &far].concat()
}

/// Lends a good journal with its index.
fn lend(trace: &mut Trace, random: &mut Random, journal: &[u8]) -> io::Result<()> {
    trace.room(random, journal)?;
    trace.fresh()
}

fn lend_records(
    trace: &mut Trace,
    random: &mut Random,
    version: Version,
    count: usize,
) -> io::Result<()> {
    let journal = sized::of_records(random, version, count);
    lend(trace, random, &journal)
}

/// Journals of 0 to 130 records.
fn every_count(trace: &mut Trace, random: &mut Random) -> io::Result<()> {
    for (count, version) in (0..=130).zip(Version::in_turn()) {
        lend_records(trace, random, version, count)?;
        trace.look(&telling(count))?;
    }
    Ok(())
}

/// From no record to 130, one at a time. The index of each appending is the one
/// worked out afresh.
fn one_by_one(trace: &mut Trace, random: &mut Random) -> io::Result<()> {
    for version in Version::ALL {
        lend_records(trace, random, version, 0)?;
        for last in 0..130 {
            trace.append(&sized::part(random, version, 1))?;
            trace.fresh()?;
            trace.look(&[last, last + 1, 0, last / 2])?;
        }
    }
    Ok(())
}

/// Several records at once, or none.
fn many_at_once(trace: &mut Trace, random: &mut Random) -> io::Result<()> {
    // An odd number of parts: the next round has them in the other versions.
    let mut version = Version::One;
    for from in [0, 1, 62, 63, 64, 65, 127, 128] {
        for records in [0, 1, 2, 63, 64, 66, 129] {
            version = version.other();
            lend_records(trace, random, version, from)?;
            trace.append(&sized::part(random, version, records))?;
            trace.fresh()?;
            trace.look(&telling(from + records))?;
        }
    }
    Ok(())
}

/// A journal of the most records that there can be.
fn most_records(random: &mut Random, version: Version) -> Vec<u8> {
    let mut journal = sized::of_records(random, version, 0);
    sized::fill_with_tiny(random, &mut journal, LARGEST);
    journal
}

/// Changes each number of the index in turn, beside journals that use none of
/// the places, two of them, and all.
fn each_number_changed(trace: &mut Trace, random: &mut Random) -> io::Result<()> {
    let journals = [
        sized::of_records(random, Version::One, 0),
        sized::of_records(random, Version::Two, 70),
        most_records(random, Version::One),
    ];
    for journal in journals {
        lend(trace, random, &journal)?;
        trace.look(&[0])?;
        for field in Field::all() {
            let right = trace.get(field);
            let wrongs = [right.wrapping_add(1), wrong(random, right)];
            for wrong in wrongs {
                trace.put(field, wrong)?;
                refused_both_ways(trace, random)?;
            }
            trace.put(field, right)?;
        }
        trace.look(&[0])?;
    }
    Ok(())
}

/// Any other number.
pub fn wrong(random: &mut Random, right: u32) -> u32 {
    let numbers = [
        0,
        1,
        53,
        u32::MAX,
        right.wrapping_sub(1),
        right ^ 1 << random.below(32),
        right.swap_bytes(),
    ];
    let other: Vec<u32> = numbers.into_iter().filter(|n| *n != right).collect();
    random.pick(&other)
}

/// A look-up and an appending that would be fine but for what is lent.
fn refused_both_ways(trace: &mut Trace, random: &mut Random) -> io::Result<()> {
    trace.look(&[0, 64])?;
    // No event, so it is whole in either version.
    let more = sized::write(random, 2).to_bytes(Version::Two);
    trace.append(&more)
}

/// Changes that leave sums as they were, and numbers that stand elsewhere.
fn several_numbers_changed(trace: &mut Trace, random: &mut Random) -> io::Result<()> {
    lend_records(trace, random, Version::Two, 200)?;
    let right = trace.lent.index.clone();
    for at in 0..KINDS {
        let mut wrong = right.clone();
        let next = (at + 1) % KINDS;
        wrong.kinds[at] = wrong.kinds[at].wrapping_add(1);
        wrong.kinds[next] = wrong.kinds[next].wrapping_sub(1);
        trace.put_all(&wrong)?;
        refused_both_ways(trace, random)?;
    }
    let mut changed = vec![right.clone(); 5];
    changed[0].places.swap(1, 2);
    changed[1].places.rotate_right(1);
    changed[2].places[4] = right.places[3];
    changed[3].places[3] = 0;
    changed[4].places.copy_within(1..PLACES, 0);
    for wrong in changed {
        trace.put_all(&wrong)?;
        refused_both_ways(trace, random)?;
    }
    trace.put_all(&right)?;
    // The right index, but of another journal.
    let journal = sized::of_records(random, Version::Two, 200);
    trace.room(random, &journal)?;
    refused_both_ways(trace, random)
}

/// An index beside a journal that is a record longer or shorter than the one that
/// it was worked out from.
fn one_record_behind(trace: &mut Trace, random: &mut Random) -> io::Result<()> {
    let counts = [1, 2, 63, 64, 65, 128].into_iter();
    for (count, version) in counts.zip(Version::in_turn()) {
        lend_records(trace, random, version, count - 1)?;
        let (shorter, before) = (trace.lent.length, trace.lent.index.clone());
        trace.append(&sized::part(random, version, 1))?;
        let (longer, after) = (trace.lent.length, trace.lent.index.clone());
        trace.put_all(&before)?;
        refused_both_ways(trace, random)?;
        trace.length(shorter)?;
        trace.put_all(&after)?;
        refused_both_ways(trace, random)?;
        trace.length(longer)?;
        trace.look(&telling(count))?;
    }
    Ok(())
}

/// A journal torn at each of its bytes, and the rest of it appended. It is refused
/// though it would be whole again; between records the index alone decides.
fn torn(trace: &mut Trace, random: &mut Random) -> io::Result<()> {
    for version in Version::ALL {
        let mut journal = sized::of_records(random, version, 0);
        journal.extend(sized::one_of_each(random, version));
        for torn in 0..journal.len() {
            let (front, rest) = journal.split_at(torn);
            lend(trace, random, &journal)?;
            trace.room(random, front)?;
            trace.append(rest)?;
            trace.fresh()?;
            trace.append(rest)?;
        }
    }
    Ok(())
}

/// One record of each kind, cut at each byte, appended where the second of them
/// gets an entry.
fn cut_parts(trace: &mut Trace, random: &mut Random) -> io::Result<()> {
    for version in Version::ALL {
        let journal = sized::of_records(random, version, 63);
        let part = sized::one_of_each(random, version);
        lend(trace, random, &journal)?;
        for cut in 0..=part.len() {
            let before = trace.lent.length;
            trace.append(&part[..cut])?;
            if trace.lent.length != before {
                trace.fresh()?;
                lend(trace, random, &journal)?;
            }
        }
    }
    Ok(())
}

/// Each length within a journal: what lies past it is no part of it.
fn every_length(trace: &mut Trace, random: &mut Random) -> io::Result<()> {
    for version in Version::ALL {
        let mut journal = sized::of_records(random, version, 0);
        journal.extend(sized::one_of_each(random, version));
        trace.room(random, &journal)?;
        for length in 0..=journal.len() {
            trace.length(length as u64)?;
            trace.fresh()?;
            trace.look(&[0, 1, 2, 3, 4, 5, 6])?;
            trace.append(&[9])?;
        }
    }
    Ok(())
}

/// Lengths that no room has, also such as look small in 32 bits or run over when
/// something is added.
fn lengths_past_the_room(trace: &mut Trace, random: &mut Random) -> io::Result<()> {
    let version = Version::Two;
    let part = sized::part(random, version, 1);
    lend_records(trace, random, version, 70)?;
    let length = trace.lent.length;
    let right = trace.lent.index.clone();
    let room = LARGEST as u64;
    let lengths = [
        room + 1,
        room + 2,
        1 << 16,
        1 << 32,
        (1 << 32) + length,
        (1 << 32) + room,
        1 << 63,
        u64::MAX - 6,
        u64::MAX - 1,
        u64::MAX,
    ];
    for past in lengths {
        trace.length(past)?;
        trace.look(&[0])?;
        trace.look(&[0; MOST_NUMBERS + 1])?;
        trace.append(&part)?;
        trace.append(&[])?;
        trace.append(&[9])?;
        trace.fresh()?;
        // All 0 is not what is right either.
        trace.look(&[0])?;
        trace.append(&part)?;
        trace.put_all(&right)?;
    }
    // The same room is good again with its own length.
    trace.length(length)?;
    trace.append(&part)?;
    trace.look(&telling(71))
}

/// Journals that have not a byte to spare.
fn full(trace: &mut Trace, random: &mut Random) -> io::Result<()> {
    let mut large = sized::of_records(random, Version::One, 100);
    sized::fill_with_large(random, &mut large, LARGEST);
    for journal in [most_records(random, Version::Two), large] {
        lend(trace, random, &journal)?;
        let records: u32 = trace.lent.index.kinds.iter().sum();
        trace.look(&telling(records as usize))?;
        trace.append(&[])?;
        trace.append(&[5])?;
        trace.append(&sized::part(random, Version::One, 1))?;
        trace.append(&journal)?;
        let field = Field::Place(1);
        let right = trace.get(field);
        trace.put(field, right + 1)?;
        refused_both_ways(trace, random)?;
        trace.put(field, right)?;
        trace.look(&[records - 1, records])?;
    }
    Ok(())
}

/// Appends up to the largest size, and to one byte more.
fn up_to_the_last_byte(trace: &mut Trace, random: &mut Random) -> io::Result<()> {
    for fill in [sized::fill_with_tiny, sized::fill_with_large] {
        let sizes = [HEADER, 30_000, LARGEST - 11, LARGEST - 7].into_iter();
        for (from, version) in sizes.zip(Version::in_turn()) {
            let mut journal = sized::of_records(random, version, 0);
            fill(random, &mut journal, from);
            lend(trace, random, &journal)?;
            for size in [LARGEST + 1, LARGEST + 2, LARGEST] {
                let mut more = Vec::new();
                fill(random, &mut more, size - from);
                trace.append(&more)?;
            }
            trace.fresh()?;
            trace.look(&[0, 1, 14, 15, 16, 8_768])?;
        }
    }
    Ok(())
}

/// Record 8,768 takes the last place. Four bytes are left after it, and no record
/// fits in there.
fn the_last_place(trace: &mut Trace, random: &mut Random) -> io::Result<()> {
    let version = Version::Two;
    let mut journal = sized::of_records(random, version, 0);
    sized::fill_with_tiny(random, &mut journal, HEADER + 8_767 * 7);
    lend(trace, random, &journal)?;
    for last in [8_767, 8_768] {
        let record = sized::tiny(random).to_bytes(version);
        trace.append(&record)?;
        trace.fresh()?;
        trace.look(&[last - 1, last, last + 1, 8_832])?;
    }
    let record = sized::tiny(random).to_bytes(version);
    for length in 0..=record.len() {
        trace.append(&record[..length])?;
    }
    trace.append(&[0])
}

/// Each record of a full journal, and the numbers past it up to a place that no
/// index has.
fn every_record_of_a_full_journal(trace: &mut Trace, random: &mut Random) -> io::Result<()> {
    let journal = most_records(random, Version::Two);
    lend(trace, random, &journal)?;
    let numbers: Vec<u32> = (0..=8_832).collect();
    for some in numbers.chunks(MOST_NUMBERS) {
        trace.look(some)?;
    }
    Ok(())
}

/// Every fault of the journal, of the index, and of what is appended or looked
/// up, with each of the others.
fn orders(trace: &mut Trace, random: &mut Random) -> io::Result<()> {
    let faults = Fault::ALL.map(Some);
    let faults = [None].into_iter().chain(faults);
    for (fault, version) in faults.zip(Version::in_turn()) {
        let count = random.between(1, 70) as usize;
        let mut journal = sized::of_records(random, version, count);
        lend(trace, random, &journal)?;
        match fault {
            None => {}
            Some(Fault::Large) => trace.length(LARGEST as u64 + 1)?,
            Some(fault) => {
                fault.put(random, &mut journal);
                trace.room(random, &journal)?;
            }
        }
        ask_everything(trace, random, version)?;
        let field = random.pick(&Field::all());
        let right = trace.get(field);
        trace.put(field, wrong(random, right))?;
        ask_everything(trace, random, version)?;
        if fault.is_some() {
            // The index that goes with the number is no more right than others.
            trace.fresh()?;
            ask_everything(trace, random, version)?;
        }
    }
    Ok(())
}

/// Appendings and look-ups with nothing wrong and with each thing that may be.
/// The good appending comes last, as it changes what is lent.
fn ask_everything(trace: &mut Trace, random: &mut Random, version: Version) -> io::Result<()> {
    for count in [0, 1, MOST_NUMBERS, MOST_NUMBERS + 1] {
        let numbers: Vec<u32> = (0..count as u32).collect();
        trace.look(&numbers)?;
    }
    for fault in Fault::OF_PARTS {
        let mut more = sized::part(random, version, 2);
        fault.put_last(random, version, &mut more);
        trace.append(&more)?;
    }
    trace.append(&vec![0; LARGEST])?;
    trace.append(&[])?;
    trace.append(&sized::part(random, version, 2))
}

/// None to as many as may be, and more.
fn how_many_numbers(trace: &mut Trace, random: &mut Random) -> io::Result<()> {
    for (records, version) in [0, 65, 130].into_iter().zip(Version::in_turn()) {
        lend_records(trace, random, version, records)?;
        for count in (0..=66).chain([127, 128, 129, 1_000]) {
            let numbers: Vec<u32> = (0..count)
                .map(|_| random.below(records as u64 + 3) as u32)
                .collect();
            trace.look(&numbers)?;
        }
    }
    Ok(())
}

/// Events of all numbers that version 1 can name, and of those at the borders of
/// version 2: a device that a replay refuses is a record like others.
fn devices(trace: &mut Trace, random: &mut Random) -> io::Result<()> {
    let of_one: Vec<u32> = (0..=255).collect();
    let of_two = [&BORDER_DEVICES[..], &BORDER_REFUSALS].concat();
    for (version, devices) in [(Version::One, of_one), (Version::Two, of_two)] {
        lend_records(trace, random, version, 0)?;
        for some in devices.chunks(50) {
            let events = some.iter().map(|device| sized::event_of(random, *device));
            let events: Vec<Vec<u8>> = events.map(|event| event.to_bytes(version)).collect();
            trace.append(&events.concat())?;
        }
        trace.fresh()?;
        trace.look(&telling(devices.len()))?;
    }
    Ok(())
}

/// Events of the other version appended, and the index of the same records in the
/// other version.
fn the_other_version(trace: &mut Trace, random: &mut Random) -> io::Result<()> {
    for version in Version::ALL {
        lend_records(trace, random, version, 3)?;
        // Behind the bytes of version 1, the last one of version 2 is a kind.
        for last_byte in 0..=8 {
            let mut more = sized::event_of(random, 2).to_bytes(version.other());
            more.pop();
            more.push(last_byte);
            trace.append(&more)?;
        }
    }
    let mut one = sized::of_records(random, Version::One, 0);
    for _ in 0..70 {
        sized::event_of(random, 15).write(Version::One, &mut one);
    }
    let two = convert(&one, LARGEST).expect("the journal is small and good");
    for (journal, other) in [(&one, &two), (&two, &one)] {
        lend(trace, random, other)?;
        trace.room(random, journal)?;
        refused_both_ways(trace, random)?;
        trace.fresh()?;
        trace.look(&telling(70))?;
    }
    Ok(())
}
