//! The bits that calls are awarded, by the calls that came before them and nothing
//! else: no keeper is asked, and none of its code is used. Where a keeper has
//! timers and a tally, here are the calls themselves.

use std::collections::BTreeMap;

use crate::journal::Record;

/// The most that an event is awarded.
const MOST: u32 = 11;
/// The interrupts that go into the pool together, and the ticks since the last
/// that did after which fewer do.
const TOGETHER: usize = 64;
const LATE: u32 = 1_001;
/// Clocks further apart than this are read as running back.
const HALF: i64 = 1 << 31;
/// The most bytes of a call.
const LONGEST: usize = 4_096;

#[derive(Clone, Debug)]
struct Event {
    clock: u32,
    value: u32,
}

/// The calls of a run so far, as far as an award may hang on them.
#[derive(Clone, Debug)]
pub struct Awards {
    /// How many devices there are.
    devices: u32,
    /// The events of each device that were kept.
    kept: BTreeMap<u32, Vec<Event>>,
    /// The clocks of all interrupts.
    interrupts: Vec<u32>,
    /// How many of these have gone into the pool, the last of them at a spill.
    spilled: usize,
}

impl Awards {
    pub fn new(devices: u32) -> Awards {
        Awards {
            devices,
            kept: BTreeMap::new(),
            interrupts: Vec::new(),
            spilled: 0,
        }
    }

    /// The bits that a call is awarded; none at all where it is refused, or is one
    /// that never is awarded any.
    pub fn award(&mut self, record: &Record) -> Option<u32> {
        match record {
            Record::Device {
                now, device, value, ..
            } => self.event(*device, *now, *value),
            Record::Interrupt { now, .. } => Some(self.interrupt(*now)),
            Record::Seed { credit, bytes, .. } => seed(*credit, bytes.len()),
            Record::Write { .. } | Record::Generator { .. } | Record::Blocking { .. } => None,
        }
    }

    fn event(&mut self, device: u32, clock: u32, value: u32) -> Option<u32> {
        if device >= self.devices {
            return None;
        }
        let kept = self.kept.entry(device).or_default();
        let last_value = kept.last().map_or(0, |event| event.value);
        if device == 0 && value == last_value {
            return None;
        }
        kept.push(Event { clock, value });
        Some(match kept.as_slice() {
            [.., a, b, c, d] => worth([a.clock, b.clock, c.clock, d.clock]),
            _ => 0,
        })
    }

    fn interrupt(&mut self, clock: u32) -> u32 {
        let last_spill = match self.spilled {
            0 => 0,
            spilled => self.interrupts[spilled - 1],
        };
        self.interrupts.push(clock);
        let enough = self.interrupts.len() - self.spilled == TOGETHER;
        let late = gap(last_spill, clock) >= i64::from(LATE);
        if enough || late {
            self.spilled = self.interrupts.len();
        }
        u32::from(enough || late)
    }
}

fn seed(credit: u32, length: usize) -> Option<u32> {
    let good = length <= LONGEST && u64::from(credit) <= 8 * length as u64;
    good.then_some(credit)
}

/// How many ticks one clock is past another; fewer than none where it ran back.
fn gap(from: u32, to: u32) -> i64 {
    (i64::from(to) - i64::from(from) + HALF).rem_euclid(2 * HALF) - HALF
}

/// What the last of four clocks is worth: by the last gap, by how much this is
/// wider than the one before, and by how much more so than that one was.
fn worth([a, b, c, d]: [u32; 4]) -> u32 {
    let gaps = [gap(a, b), gap(b, c), gap(c, d)];
    let wider = [gaps[1] - gaps[0], gaps[2] - gaps[1]];
    let least = [gaps[2], wider[1], wider[1] - wider[0]]
        .map(i64::abs)
        .into_iter()
        .fold(i64::MAX, i64::min);
    // A bit for each doubling from 1 on that the amount reaches.
    (1..=MOST).take_while(|bits| least >> bits > 0).count() as u32
}

#[cfg(test)]
mod tests {
    use super::*;
    use crate::keeper::DONE;
    use crate::ledger::tests::{event, interrupt, read, seed};
    use crate::maker;
    use crate::transcript::replay;

    fn awards(calls: &[Record]) -> Vec<Option<u32>> {
        let mut awards = Awards::new(1_024);
        calls.iter().map(|record| awards.award(record)).collect()
    }

    fn events(clocks: &[u32]) -> Vec<u32> {
        let events: Vec<Record> = clocks.iter().map(|now| event(7, *now)).collect();
        awards(&events).into_iter().flatten().collect()
    }

    #[test]
    fn the_first_three_events_of_a_device_are_awarded_nothing() {
        let clocks = [1_024, 1_100, 9_000, 9_500, 70_000];
        // By 500, and by 53,100.
        assert_eq!(events(&clocks), [0, 0, 0, 8, 11]);
        let two: Vec<Record> = clocks
            .iter()
            .flat_map(|now| [event(7, *now), event(8, *now)])
            .collect();
        let each = [0, 0, 0, 0, 0, 0, 8, 8, 11, 11].map(Some);
        assert_eq!(awards(&two), each);
    }

    #[test]
    fn p1_and_p2_by_each_of_the_differences() {
        for (least, bits) in [
            (0, 0),
            (1, 0),
            (2, 1),
            (3, 1),
            (4, 2),
            (2_047, 10),
            (2_048, 11),
            (4_096, 11),
        ] {
            // The last gap is the least of the three, then the second difference,
            // and then the third.
            for clocks in [
                [0, 100_000, 0, least],
                [0, 900_000, 1_000_000, 1_100_000 + least],
                [0, 1_000_000, 2_100_000, 3_300_000 + least],
            ] {
                assert_eq!(worth(clocks), bits, "{clocks:?}");
                assert_eq!(worth(clocks.map(|clock| 5u32.wrapping_sub(clock))), bits);
            }
        }
    }

    #[test]
    fn p3_and_p4_gaps() {
        assert_eq!(gap(0xffff_ffff, 4), 5);
        assert_eq!(gap(4, 0xffff_ffff), -5);
        assert_eq!(gap(0, 0x8000_0000), -2_147_483_648);
        assert_eq!(gap(0, 0x7fff_ffff), 2_147_483_647);
    }

    #[test]
    fn an_event_that_is_refused_leaves_no_mark() {
        let of = |device, now, value| Record::Device {
            now,
            device,
            stamp: 1,
            value,
        };
        let calls = [
            of(0, 9, 0),
            of(0, 0, 1),
            of(0, 100_000, 2),
            of(0, 7, 2),
            of(1_024, 7, 3),
            of(0, 0, 3),
            of(0, 1, 3),
            of(0, 4, 1),
        ];
        let expected = [None, Some(0), Some(0), None, None, Some(0), None, Some(2)];
        assert_eq!(awards(&calls), expected);
        // Another device may tell the same again and again.
        let calls = [of(1, 0, 0), of(1, 100_000, 0), of(1, 0, 0), of(1, 4, 0)];
        assert_eq!(awards(&calls).last(), Some(&Some(2)));
    }

    #[test]
    fn a_version_has_its_own_devices() {
        let mut awards = Awards::new(16);
        assert_eq!(awards.award(&event(15, 1)), Some(0));
        assert_eq!(awards.award(&event(16, 1)), None);
    }

    fn interrupts(clocks: &[u32]) -> Vec<usize> {
        let calls: Vec<Record> = clocks.iter().map(|now| interrupt(*now)).collect();
        let awards = (1..).zip(awards(&calls));
        let spills = awards.filter(|(_, award)| *award == Some(1));
        spills.map(|(at, _)| at).collect()
    }

    #[test]
    fn interrupts_are_awarded_a_bit_where_they_spill() {
        assert_eq!(interrupts(&[0; 200]), [64, 128, 192]);
        assert_eq!(interrupts(&[1_000, 1_001, 1_001, 2_001, 2_002]), [2, 5]);
        // Those after a spill by time count from there.
        let clocks = [&[1_000; 9][..], &[5_000; 70]].concat();
        assert_eq!(interrupts(&clocks), [10, 74]);
        // A clock that ran back is not late, and half the clock is running back.
        assert_eq!(interrupts(&[5_000, 4_000, 0, 5_000]), [1]);
        assert_eq!(interrupts(&[1 << 31, (1 << 31) - 1, 1_000]), [2]);
    }

    #[test]
    fn seeds_are_awarded_their_credit_or_are_refused() {
        let of = |credit, length| Record::Seed {
            now: 0,
            credit,
            bytes: vec![7; length].into(),
        };
        let calls = [
            seed(128),
            of(0, 0),
            of(1, 0),
            of(32_768, 4_096),
            of(32_769, 4_096),
            of(5, 4_097),
            of(u32::MAX, 512),
        ];
        let expected = [Some(128), Some(0), None, Some(32_768), None, None, None];
        assert_eq!(awards(&calls), expected);
    }

    #[test]
    fn other_calls_are_awarded_nothing() {
        let write = Record::Write {
            now: 0,
            bytes: vec![7].into(),
        };
        let generator = Record::Generator { now: 0, length: 1 };
        assert_eq!(awards(&[write, generator, read(1)]), [None; 3]);
    }

    /// Which of the calls that may be awarded bits are refused is told by the calls
    /// too.
    #[test]
    fn no_award_stands_for_a_refusal() {
        let mut refused = 0;
        for number in 1..=300 {
            let mut awards = None;
            replay(&maker::journal(4, number), &mut |step| {
                let awards = awards.get_or_insert_with(|| Awards::new(step.version.devices()));
                let award = awards.award(step.record);
                if let Record::Device { .. } | Record::Seed { .. } = step.record {
                    assert_eq!(award.is_some(), step.answer.number == DONE);
                    refused += u32::from(award.is_none());
                }
                assert_eq!(award.unwrap_or(0), step.answer.bits);
            });
        }
        assert!(refused > 100, "{refused}");
    }
}
