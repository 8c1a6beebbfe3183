//! Journals with as many records or bytes as are wanted, parts to append to
//! them, and one fault of each sort to put into either.

use std::borrow::Cow;

use super::anything::{any_device, any_record, start};
use crate::journal::{self, Record, Version, HEADER, LARGEST};
use crate::keeper::{Keeper, LONGEST, START};
use crate::random::Random;

/// The bytes of the shortest record.
pub const SHORTEST: usize = 7;

/// Whole records of any kind.
pub fn part(random: &mut Random, version: Version, count: usize) -> Vec<u8> {
    let keeper = Keeper::make(&[0; START]).expect("the start has its length");
    let mut part = Vec::new();
    for _ in 0..count {
        let now = random.u32();
        any_record(random, version, &keeper, now, false).write(version, &mut part);
    }
    part
}

/// An event of a device that the version has.
pub fn event(random: &mut Random, version: Version) -> Record<'static> {
    let device = any_device(random, version);
    event_of(random, device)
}

/// An event of a device, or of a number that none has.
pub fn event_of(random: &mut Random, device: u32) -> Record<'static> {
    Record::Device {
        now: random.u32(),
        device,
        stamp: random.u64(),
        value: random.u32(),
    }
}

/// One whole record of each kind, the ones with bytes short.
pub fn one_of_each(random: &mut Random, version: Version) -> Vec<u8> {
    let mut part = Vec::new();
    let now = random.u32();
    let length = random.u32() as u16;
    let records = [
        event(random, version),
        Record::Interrupt {
            now,
            number: random.u32(),
            stamp: random.u64(),
            address: random.u64(),
        },
        write(random, 3),
        Record::Seed {
            now,
            credit: random.u32(),
            bytes: Cow::Owned(random.bytes(2)),
        },
        Record::Generator { now, length },
        Record::Blocking { now, length },
    ];
    for record in records {
        record.write(version, &mut part);
    }
    part
}

/// A journal with a good header and so many records of any kind.
pub fn of_records(random: &mut Random, version: Version, count: usize) -> Vec<u8> {
    let mut journal = journal::header(version, &start(random));
    journal.extend(part(random, version, count));
    journal
}

/// The layout of all records that are the same in both versions.
const EITHER: Version = Version::Two;

/// A record of 7 bytes.
pub fn tiny(random: &mut Random) -> Record<'static> {
    let now = random.u32();
    let length = random.u32() as u16;
    match random.below(3) {
        0 => write(random, 0),
        1 => Record::Generator { now, length },
        _ => Record::Blocking { now, length },
    }
}

/// A write of so many bytes.
pub fn write(random: &mut Random, length: usize) -> Record<'static> {
    Record::Write {
        now: random.u32(),
        bytes: Cow::Owned(random.bytes(length)),
    }
}

/// Appends records of 7 bytes, no events, and at last one that may be longer, until
/// there are `size` bytes. Fewer than 7 cannot be made up by a record.
pub fn fill_with_tiny(random: &mut Random, bytes: &mut Vec<u8>, size: usize) {
    while bytes.len() + 2 * SHORTEST <= size {
        tiny(random).write(EITHER, bytes);
    }
    last(random, bytes, size);
}

/// The same with writes as long as they may be.
pub fn fill_with_large(random: &mut Random, bytes: &mut Vec<u8>, size: usize) {
    while bytes.len() + SHORTEST + LONGEST < size {
        let left = size - bytes.len() - SHORTEST;
        let length = LONGEST.min(left - SHORTEST);
        write(random, length).write(EITHER, bytes);
    }
    last(random, bytes, size);
}

fn last(random: &mut Random, bytes: &mut Vec<u8>, size: usize) {
    if bytes.len() < size {
        let length = size - bytes.len() - SHORTEST;
        write(random, length).write(EITHER, bytes);
    }
}

/// What may be wrong in a journal.
#[derive(Clone, Copy, Debug, PartialEq)]
pub enum Fault {
    Mark,
    Version,
    Header,
    Cut,
    Kind,
    Long,
    Large,
}

impl Fault {
    pub const ALL: [Fault; 7] = [
        Fault::Cut,
        Fault::Mark,
        Fault::Large,
        Fault::Kind,
        Fault::Version,
        Fault::Long,
        Fault::Header,
    ];

    /// Those that whole records can be given as well.
    pub const OF_PARTS: [Fault; 4] = [Fault::Cut, Fault::Kind, Fault::Long, Fault::Large];

    /// Puts the fault into a good journal.
    pub fn put(self, random: &mut Random, journal: &mut Vec<u8>) {
        let version = Version::of(journal).expect("the journal is good");
        match self {
            Fault::Mark if random.one_in(3) => journal.truncate(random.below(3) as usize),
            Fault::Mark => journal[random.below(3) as usize] ^= random.pick(&[1, 32, 255]),
            Fault::Version => journal[random.between(3, 4) as usize] ^= random.pick(&[1, 2, 255]),
            Fault::Header => journal.truncate(random.between(3, HEADER as u64 - 1) as usize),
            Fault::Cut | Fault::Kind | Fault::Long | Fault::Large => {
                self.put_last(random, version, journal);
            }
        }
    }

    /// Puts the fault at the end of whole records.
    pub fn put_last(self, random: &mut Random, version: Version, bytes: &mut Vec<u8>) {
        match self {
            Fault::Cut => {
                let record = part(random, version, 1);
                let cut = random.between(1, record.len() as u64 - 1) as usize;
                bytes.extend(&record[..cut]);
            }
            Fault::Kind => {
                let mut record = part(random, version, 1);
                record[0] = random.pick(&[0, 7, 78, 255]);
                record.truncate(random.between(1, record.len() as u64) as usize);
                bytes.extend(record);
                bytes.extend(rest(random, version));
            }
            Fault::Long => {
                let length: u16 = random.pick(&[4_097, 8_192, 65_535]);
                let kind = random.pick(&[3, 4]);
                bytes.push(kind);
                bytes.extend(random.u32().to_le_bytes());
                bytes.extend(length.to_le_bytes());
                let credit = if kind == 4 { 4 } else { 0 };
                let follow = random.pick(&[0, 0, 30]);
                bytes.extend(random.bytes(credit + follow));
                bytes.extend(rest(random, version));
            }
            Fault::Large => {
                let over = random.pick(&[1, 2, 7, 4_096, 65_536]);
                let size = LARGEST + over;
                if size - bytes.len() >= SHORTEST {
                    fill_with_large(random, bytes, size);
                } else {
                    bytes.resize(size, 5);
                }
            }
            Fault::Mark | Fault::Version | Fault::Header => {
                unreachable!("whole records have no header")
            }
        }
    }
}

/// What comes after a record that ends the replay: now and then good ones.
fn rest(random: &mut Random, version: Version) -> Vec<u8> {
    let count = random.pick(&[0, 0, 2]);
    part(random, version, count)
}

#[cfg(test)]
mod tests {
    use super::*;
    use crate::index::{fresh, records};
    use crate::journal::{CUT_SHORT, TOO_LARGE, UNKNOWN_KIND, WRONG_MARK, WRONG_VERSION};
    use crate::keeper::TOO_LONG;

    #[test]
    fn journals_have_the_records_that_are_asked_for() {
        let random = &mut Random::new(1, 0);
        for (count, version) in [0, 1, 63, 64, 65, 200].into_iter().zip(Version::in_turn()) {
            let journal = of_records(random, version, count);
            assert_eq!(records(&journal).unwrap().len(), count);
            assert_eq!(Version::of(&journal), Some(version));
        }
    }

    #[test]
    fn journals_are_filled_to_the_byte() {
        let random = &mut Random::new(1, 1);
        for size in [53, 60, 67, 73, 74, 4_156, 4_157, 4_163, 61_433, 61_440] {
            for (fill, version) in [fill_with_tiny, fill_with_large]
                .into_iter()
                .zip(Version::in_turn())
            {
                let mut journal = of_records(random, version, 0);
                fill(random, &mut journal, size);
                assert_eq!(journal.len(), size);
                assert!(fresh(&journal).is_ok(), "{size}");
            }
        }
        for version in Version::ALL {
            let mut journal = of_records(random, version, 0);
            fill_with_tiny(random, &mut journal, LARGEST);
            assert_eq!(records(&journal).unwrap().len(), 8_769);
        }
    }

    #[test]
    fn a_part_with_one_of_each_is_small() {
        for (number, version) in (0..20).zip(Version::in_turn()) {
            let random = &mut Random::new(2, number);
            let each = one_of_each(random, version);
            let journal = [of_records(random, version, 0), each].concat();
            let kinds = fresh(&journal).unwrap().kinds;
            assert_eq!(kinds, [1; 6]);
            assert_eq!(journal.len(), HEADER + 79 + version.device_bytes());
        }
    }

    /// The number that a journal with this fault ends with.
    fn number(fault: Fault) -> u8 {
        match fault {
            Fault::Mark => WRONG_MARK,
            Fault::Version => WRONG_VERSION,
            Fault::Header | Fault::Cut => CUT_SHORT,
            Fault::Kind => UNKNOWN_KIND,
            Fault::Long => TOO_LONG,
            Fault::Large => TOO_LARGE,
        }
    }

    #[test]
    fn each_fault_ends_with_its_number() {
        let random = &mut Random::new(1, 2);
        for turn in 0..700 {
            let fault = Fault::ALL[turn % Fault::ALL.len()];
            let version = Version::ALL[turn / 7 % 2];
            let mut journal = of_records(random, version, turn % 5);
            fault.put(random, &mut journal);
            assert_eq!(fresh(&journal), Err(number(fault)), "{fault:?}");
        }
        for turn in 0..400 {
            let fault = Fault::OF_PARTS[turn % Fault::OF_PARTS.len()];
            let version = Version::ALL[turn / 4 % 2];
            let journal = of_records(random, version, turn % 5);
            let mut more = part(random, version, turn % 3);
            fault.put_last(random, version, &mut more);
            let longer = [journal, more].concat();
            assert_eq!(fresh(&longer), Err(number(fault)), "{fault:?}");
        }
    }
}
