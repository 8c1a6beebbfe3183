//! The ledger of a run of calls from a fresh keeper: the bits that were awarded,
//! by the calls alone, the bytes that blocking reads delivered for them, and what
//! each pool was given and gave in between.

mod awards;
#[cfg(test)]
mod search;
#[cfg(test)]
mod wrong_rules;

use std::fmt;

use self::awards::Awards;
use crate::balance::{self, Account, Counts};
use crate::journal::Record;
use crate::keeper::Answer;

/// So many times the bytes delivered are never more than so many times the bits
/// awarded. Each pool keeps three quarters of what it is credited at the most:
/// eight times the bytes are nine sixteenths of the bits.
const PER_BYTE: u64 = 128;
const PER_BIT: u64 = 9;

/// What the calls of a run came to.
#[derive(Clone, Copy, Debug, Default, PartialEq)]
pub struct Sums {
    /// In bits.
    pub awarded: u64,
    pub input: Account,
    pub blocking: Account,
}

impl Sums {
    /// The bytes that blocking reads delivered. No others come out of their pool.
    pub fn delivered(&self) -> u64 {
        self.blocking.taken
    }

    /// The two sides of the bound: the first may be as much as the second.
    pub fn sides(&self) -> [u64; 2] {
        [PER_BYTE * self.delivered(), PER_BIT * self.awarded]
    }
}

/// The sums of a run so far, and what is needed to go on with them.
#[derive(Clone, Debug)]
pub struct Ledger {
    calls: u64,
    awards: Awards,
    pub sums: Sums,
}

impl Ledger {
    /// That of a fresh keeper, whose events may name so many devices.
    pub fn new(devices: u32) -> Ledger {
        Ledger {
            calls: 0,
            awards: Awards::new(devices),
            sums: Sums::default(),
        }
    }

    /// Enters a call. Panics where something does not hold after it.
    pub fn hold(&mut self, record: &Record, answer: &Answer, after: Counts) {
        if let Some(fault) = self.enter(record, answer, after).first() {
            panic!("record {}, {record}: {fault}", self.calls);
        }
    }

    /// Enters a call, and tells what does not hold after it.
    fn enter(&mut self, record: &Record, answer: &Answer, after: Counts) -> Vec<Fault> {
        let award = self.awards.award(record).unwrap_or(0);
        let [to_input, to_blocking] = balance::moved(record, answer);
        self.calls += 1;
        self.sums.awarded += u64::from(award);
        self.sums.input.enter(to_input);
        self.sums.blocking.enter(to_blocking);
        let faults = [
            award_fault(award, answer.bits),
            pool_fault("input", self.sums.input, after.input),
            pool_fault("blocking", self.sums.blocking, after.blocking),
            bound_fault(self.sums),
        ];
        faults.into_iter().flatten().collect()
    }
}

fn award_fault(award: u32, credited: u32) -> Option<Fault> {
    (award != credited).then_some(Fault::Award { award, credited })
}

fn pool_fault(pool: &'static str, account: Account, count: u32) -> Option<Fault> {
    (!account.adds_up(count)).then_some(Fault::Pool {
        pool,
        account,
        count,
    })
}

fn bound_fault(sums: Sums) -> Option<Fault> {
    let [delivered, awarded] = sums.sides();
    (delivered > awarded).then_some(Fault::Bound(sums))
}

/// What does not hold.
#[derive(Clone, Debug, PartialEq)]
enum Fault {
    /// The keeper credited other bits than the calls award.
    Award { award: u32, credited: u32 },
    /// The units added since the keeper was fresh are not the count and what the
    /// bytes taken cost.
    Pool {
        pool: &'static str,
        account: Account,
        count: u32,
    },
    /// More was delivered than the bits awarded allow.
    Bound(Sums),
}

impl fmt::Display for Fault {
    fn fmt(&self, f: &mut fmt::Formatter<'_>) -> fmt::Result {
        match self {
            Fault::Award { award, credited } => write!(
                f,
                "the calls award {award} bits, but the keeper credited {credited}"
            ),
            Fault::Pool {
                pool,
                account: Account { added, taken, .. },
                count,
            } => write!(
                f,
                "{added} units were added to the {pool} pool, \
                 but it has {count} and gave {taken} bytes"
            ),
            Fault::Bound(sums) => write!(
                f,
                "{PER_BYTE} x {} bytes delivered are more than {PER_BIT} x {} bits awarded",
                sums.delivered(),
                sums.awarded
            ),
        }
    }
}

#[cfg(test)]
mod tests {
    use super::*;
    use crate::keeper::{least_bytes, Keeper, DEVICES, START};
    use crate::transcript::call;
    use std::panic::catch_unwind;

    /// A keeper and the ledger of its calls, whatever rules the keeper goes by.
    #[derive(Clone)]
    pub(super) struct Run {
        pub(super) keeper: Keeper,
        pub(super) ledger: Ledger,
    }

    impl Run {
        pub(super) fn fresh() -> Run {
            Run {
                keeper: Keeper::make(&[0; START]).unwrap(),
                ledger: Ledger::new(DEVICES as u32),
            }
        }

        /// Makes a call. Gives what does not hold after it.
        pub(super) fn call(&mut self, record: &Record) -> Vec<Fault> {
            let answer = call(&mut self.keeper, record, &mut vec![0; record.wanted()]);
            self.ledger.enter(record, &answer, Counts::of(&self.keeper))
        }
    }

    /// A seed of so many bits, with no more bytes than it needs.
    pub(super) fn seed(bits: u32) -> Record<'static> {
        Record::Seed {
            now: 0,
            credit: bits,
            bytes: vec![7; least_bytes(bits)].into(),
        }
    }

    /// A blocking read of so many bytes.
    pub(super) fn read(length: u16) -> Record<'static> {
        Record::Blocking { now: 0, length }
    }

    pub(super) fn event(device: u32, now: u32) -> Record<'static> {
        Record::Device {
            now,
            device,
            stamp: 1,
            value: now,
        }
    }

    pub(super) fn interrupt(now: u32) -> Record<'static> {
        Record::Interrupt {
            now,
            number: 1,
            stamp: 2,
            address: 3,
        }
    }

    /// The sums after calls that must leave nothing wrong.
    fn sums(calls: &[Record]) -> Sums {
        let mut run = Run::fresh();
        for record in calls {
            assert_eq!(run.call(record), []);
        }
        run.ledger.sums
    }

    #[test]
    fn the_bound_is_reached_by_a_seed_of_128_bits_and_a_read_of_12() {
        for times in [1, 2, 10, 100] {
            let sums = sums(&vec![[seed(128), read(12)]; times].concat());
            let times = times as u64;
            assert_eq!((sums.awarded, sums.delivered()), (128 * times, 9 * times));
            assert_eq!(sums.sides(), [1_152 * times; 2]);
            assert_eq!(
                (sums.input.added, sums.input.taken),
                (768 * times, 12 * times)
            );
            assert_eq!(sums.blocking.added, 576 * times);
        }
    }

    #[test]
    fn a_little_less_or_more_misses_it() {
        for (calls, awarded, delivered, missed_by) in [
            (&[seed(129), read(12)][..], 129, 9, 9),
            (&[seed(127), read(12)], 127, 8, 119),
            (&[seed(128), read(11)], 128, 8, 128),
            (&[seed(128), read(10)], 128, 7, 256),
            (&[seed(128), read(9)], 128, 6, 384),
            (&[seed(64), seed(64), read(12)], 128, 8, 128),
            // The first seeding takes 16 bytes for the key.
            (&[seed(171), seed(128), read(12)], 299, 9, 1_539),
        ] {
            let sums = sums(calls);
            assert_eq!((sums.awarded, sums.delivered()), (awarded, delivered));
            let [delivered, awarded] = sums.sides();
            assert_eq!(awarded - delivered, missed_by);
        }
    }

    #[test]
    fn every_source_is_awarded_and_what_is_refused_is_not() {
        let refused = Record::Seed {
            now: 0,
            credit: 9,
            bytes: vec![7].into(),
        };
        let calls = [
            seed(100),
            refused,
            interrupt(1_000),
            interrupt(1_001),
            event(1_024, 7),
            event(5, 100),
            event(5, 9_100),
            event(5, 100),
            event(5, 1_130),
            read(1),
        ];
        let mut run = Run::fresh();
        let awarded: Vec<u64> = calls
            .iter()
            .map(|record| {
                assert_eq!(run.call(record), []);
                run.ledger.sums.awarded
            })
            .collect();
        assert_eq!(awarded, [100, 100, 100, 101, 101, 101, 101, 101, 111, 111]);
        assert_eq!(run.ledger.sums.delivered(), 1);
    }

    /// What the ledger says to an answer and the counts after it.
    fn said(answer: Answer, after: Counts) -> String {
        let mut ledger = Ledger::new(16);
        let said = catch_unwind(move || ledger.hold(&seed(100), &answer, after));
        match said {
            Ok(()) => String::new(),
            Err(said) => said.downcast_ref::<String>().unwrap().clone(),
        }
    }

    #[test]
    fn what_does_not_hold_is_told_in_one_line() {
        let answer = Answer {
            added: 600,
            bits: 100,
            ..Answer::default()
        };
        let after = Counts {
            input: 600,
            blocking: 0,
        };
        assert_eq!(said(answer, after), "");
        let seed = "record 1, seed            now 0 length 13 credit 100 \
                    bytes 07070707070707070707070707";
        let other_bits = Answer { bits: 99, ..answer };
        let text = "the calls award 100 bits, but the keeper credited 99";
        assert_eq!(said(other_bits, after), format!("{seed}: {text}"));
        let other_count = Counts {
            input: 599,
            ..after
        };
        let text = "600 units were added to the input pool, but it has 599 and gave 0 bytes";
        assert_eq!(said(answer, other_count), format!("{seed}: {text}"));
        let other_count = Counts {
            blocking: 1,
            ..after
        };
        let text = "0 units were added to the blocking pool, but it has 1 and gave 0 bytes";
        assert_eq!(said(answer, other_count), format!("{seed}: {text}"));
    }

    #[test]
    fn a_byte_too_many_is_told() {
        let mut run = Run::fresh();
        run.call(&seed(128));
        run.ledger.sums.blocking.taken = 1;
        let text = "128 x 10 bytes delivered are more than 9 x 128 bits awarded";
        let faults = run.call(&read(12));
        assert_eq!(faults.last().unwrap().to_string(), text);
    }
}
