//! Journals for a converter: such as it takes, of any size, and such as it has
//! one or several reasons to refuse.

use super::anything::{any_record, start};
use super::sized::{event_of, fill_with_large, part, write, Fault, SHORTEST};
use crate::journal::{self, Record, Version, HEADER, LARGEST};
use crate::keeper::{Keeper, START};
use crate::random::Random;

/// How many devices version 1 has.
const DEVICES: u32 = Version::One.devices();

/// The bytes of an event, before and after.
const EVENT: usize = 18;
const WIDER: usize = EVENT + 1;

/// Bytes that are left free in a journal which is large, so that a fault fits in.
const SPARE: usize = 300;

/// Records of any kind, with devices that version 1 has.
fn records(random: &mut Random, count: usize) -> Vec<Record<'static>> {
    let keeper = Keeper::make(&[0; START]).expect("the start has its length");
    let mut one = || {
        let now = random.u32();
        let mut record = any_record(random, Version::One, &keeper, now, false);
        if let Record::Device { device, .. } = &mut record {
            *device %= DEVICES;
        }
        record
    };
    (0..count).map(|_| one()).collect()
}

fn any_event(random: &mut Random) -> Record<'static> {
    let device = random.below(DEVICES.into()) as u32;
    event_of(random, device)
}

fn journal(random: &mut Random, version: Version, records: &[Record]) -> Vec<u8> {
    let mut journal = journal::header(version, &start(random));
    for record in records {
        record.write(version, &mut journal);
    }
    journal
}

/// A journal of version 1 that is converted, with so many records of any kind.
pub fn of_records(random: &mut Random, count: usize) -> Vec<u8> {
    let records = records(random, count);
    journal(random, Version::One, &records)
}

/// One without any event: only its version is changed.
pub fn without_events(random: &mut Random, count: usize) -> Vec<u8> {
    let mut records = records(random, count);
    records.retain(|record| !matches!(record, Record::Device { .. }));
    journal(random, Version::One, &records)
}

/// One with a record of each kind, the ones with bytes short.
pub fn one_of_each(random: &mut Random) -> Vec<u8> {
    let records = [
        any_event(random),
        Record::Interrupt {
            now: random.u32(),
            number: random.u32(),
            stamp: random.u64(),
            address: random.u64(),
        },
        write(random, 3),
        Record::Seed {
            now: random.u32(),
            credit: 9,
            bytes: random.bytes(2).into(),
        },
        Record::Generator {
            now: random.u32(),
            length: 5,
        },
        Record::Blocking {
            now: random.u32(),
            length: 6,
        },
    ];
    journal(random, Version::One, &records)
}

/// A few records of any kind around an event of this number, device or not.
pub fn with_event_of(random: &mut Random, version: Version, device: u32) -> Vec<u8> {
    let before = random.below(4) as usize;
    let mut records = records(random, before + 2);
    records.insert(before, event_of(random, device));
    journal(random, version, &records)
}

/// How many events a journal has.
#[derive(Clone, Copy, Debug, PartialEq)]
pub enum Events {
    None,
    /// One at its front and one at its end.
    Two,
    /// As many as go in there.
    Most,
}

/// A journal of version 1 whose outcome would have so many bytes, also where these
/// are too many.
pub fn of_outcome(random: &mut Random, events: Events, size: usize) -> Vec<u8> {
    let mut journal = journal(random, Version::One, &[]);
    let count = match events {
        Events::None => 0,
        Events::Two => 2,
        Events::Most => (size - HEADER - SHORTEST) / WIDER,
    };
    let last = usize::from(events == Events::Two);
    for _ in 0..count - last {
        any_event(random).write(Version::One, &mut journal);
    }
    fill_with_large(random, &mut journal, size - count - last * EVENT);
    for _ in 0..last {
        any_event(random).write(Version::One, &mut journal);
    }
    journal
}

/// What may be wrong with a journal, in the order in which it counts.
#[derive(Clone, Copy, Debug, PartialEq)]
pub struct Reasons {
    /// It does not replay to its end.
    pub fault: Option<Fault>,
    /// It is of version 2.
    pub version: bool,
    /// It has an event of a device that version 1 has not.
    pub device: bool,
    /// Its outcome is too large.
    pub large: bool,
}

impl Reasons {
    pub const NONE: Reasons = Reasons {
        fault: None,
        version: false,
        device: false,
        large: false,
    };

    /// Each with all of the others.
    pub fn all() -> Vec<Reasons> {
        let mut all = Vec::new();
        for fault in [None].into_iter().chain(Fault::ALL.map(Some)) {
            for version in [false, true] {
                for device in [false, true] {
                    for large in [false, true] {
                        all.push(Reasons {
                            fault,
                            version,
                            device,
                            large,
                        });
                    }
                }
            }
        }
        all
    }

    /// A journal with all of these and nothing else against it.
    pub fn journal(self, random: &mut Random) -> Vec<u8> {
        let version = match self.version {
            false => Version::One,
            true => Version::Two,
        };
        let mut records = match self.large {
            false => {
                let count = random.below(20) as usize;
                records(random, count)
            }
            true => {
                let event = EVENT - 1 + version.device_bytes();
                let count = (LARGEST - SPARE - HEADER) / event;
                (0..count).map(|_| any_event(random)).collect()
            }
        };
        if self.device {
            let device = foreign(random, version);
            let event = event_of(random, device);
            match records.len() as u64 {
                0 => records.push(event),
                count => records[random.below(count) as usize] = event,
            }
        }
        let mut journal = journal(random, version, &records);
        if let Some(fault) = self.fault {
            fault.put(random, &mut journal);
        }
        journal
    }
}

/// A number from 16 on that a field of this version holds.
fn foreign(random: &mut Random, version: Version) -> u32 {
    let last = version.last_number();
    let any = random.between(DEVICES.into(), last.into()) as u32;
    random.pick(&[16, 17, 255, last, any])
}

/// Any journal that a converter may meet, good or bad.
pub fn any_journal(random: &mut Random) -> Vec<u8> {
    let count = random.below(120) as usize;
    match random.below(8) {
        0 => {
            let reasons = random.pick(&Reasons::all());
            reasons.journal(random)
        }
        1 => {
            let size = random.between(HEADER as u64 + 60, LARGEST as u64 + 40) as usize;
            let events = random.pick(&[Events::None, Events::Two, Events::Most]);
            of_outcome(random, events, size)
        }
        2 => {
            let device = random.below(256) as u32;
            with_event_of(random, Version::One, device)
        }
        3 => {
            // Behind records of version 1 such of version 2 make no sense.
            let mut journal = of_records(random, count);
            journal.extend(part(random, Version::Two, 3));
            journal
        }
        4 => without_events(random, count),
        _ => of_records(random, count),
    }
}

#[cfg(test)]
mod tests {
    use super::*;
    use crate::convert::{convert, ROOM_TOO_SHORT};
    use crate::index;
    use crate::journal::{CUT_SHORT, TOO_LARGE, UNKNOWN_KIND, WRONG_MARK, WRONG_VERSION};
    use crate::keeper::{NO_DEVICE, TOO_LONG};

    #[test]
    fn journals_that_are_converted() {
        let random = &mut Random::new(1, 0);
        for count in [0, 1, 5, 64, 200] {
            let journal = of_records(random, count);
            assert_eq!(index::records(&journal).unwrap().len(), count);
            assert!(convert(&journal, LARGEST).is_ok());
            let without = without_events(random, count);
            let outcome = convert(&without, LARGEST).unwrap();
            assert_eq!(outcome.len(), without.len());
        }
        let each = one_of_each(random);
        assert_eq!(index::fresh(&each).unwrap().kinds, [1; 6]);
        assert_eq!(convert(&each, LARGEST).unwrap().len(), each.len() + 1);
    }

    #[test]
    fn outcomes_have_the_bytes_that_are_asked_for() {
        let random = &mut Random::new(1, 1);
        for events in [Events::None, Events::Two, Events::Most] {
            for size in [130, 5_000, LARGEST - 1, LARGEST] {
                let journal = of_outcome(random, events, size);
                let outcome = convert(&journal, usize::MAX).unwrap();
                assert_eq!(outcome.len(), size, "{events:?}");
            }
            if events == Events::None {
                continue;
            }
            for size in [LARGEST + 1, LARGEST + 2] {
                let journal = of_outcome(random, events, size);
                assert!(journal.len() <= LARGEST);
                assert_eq!(convert(&journal, usize::MAX), Err(TOO_LARGE));
            }
        }
        let most = of_outcome(random, Events::Most, LARGEST);
        assert_eq!(index::fresh(&most).unwrap().kinds[0], 3_230);
    }

    #[test]
    fn the_first_reason_counts() {
        let random = &mut Random::new(1, 2);
        for reasons in Reasons::all() {
            let expected = match reasons {
                Reasons {
                    fault: Some(fault), ..
                } => match fault {
                    Fault::Mark => WRONG_MARK,
                    Fault::Version => WRONG_VERSION,
                    Fault::Header | Fault::Cut => CUT_SHORT,
                    Fault::Kind => UNKNOWN_KIND,
                    Fault::Long => TOO_LONG,
                    Fault::Large => TOO_LARGE,
                },
                Reasons { version: true, .. } => WRONG_VERSION,
                Reasons { device: true, .. } => NO_DEVICE,
                Reasons { large: true, .. } => TOO_LARGE,
                _ => ROOM_TOO_SHORT,
            };
            let journal = reasons.journal(random);
            assert_eq!(convert(&journal, 0), Err(expected), "{reasons:?}");
            if reasons != Reasons::NONE {
                assert_eq!(convert(&journal, LARGEST), Err(expected), "{reasons:?}");
            }
        }
    }

    #[test]
    fn any_journals_are_converted_and_refused() {
        let random = &mut Random::new(1, 3);
        let mut numbers = std::collections::BTreeSet::new();
        for _ in 0..300 {
            let journal = any_journal(random);
            numbers.insert(convert(&journal, LARGEST).err().unwrap_or(0));
        }
        for number in [0, NO_DEVICE, WRONG_VERSION, TOO_LARGE, CUT_SHORT] {
            assert!(numbers.contains(&number), "{number}");
        }
    }
}
