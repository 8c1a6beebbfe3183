//! Sees how near a journal comes to the ledger's bound, and after which calls.

use std::collections::BTreeSet;

use super::Fields;
use crate::journal::Record;
use crate::keeper::{DONE, NO_DEVICE, REPEATED, TOO_MUCH_CREDIT};
use crate::situations::{Creditor, NotAwarded, Situation, Situation::*};
use crate::transcript::Step;

/// What came before the next delivery of a replay.
#[derive(Default)]
pub struct Ledgers {
    awarded: BTreeSet<Creditor>,
    not_awarded: BTreeSet<NotAwarded>,
    /// The bytes that the first seeding took.
    key: Option<u32>,
    /// How many deliveries reached the bound.
    reached: u32,
}

impl Ledgers {
    /// What a record shows.
    pub fn step(&mut self, step: &Step, before: &Fields, after: &Fields) -> Vec<(Situation, u32)> {
        if step.answer.bits > 0 {
            self.awarded.extend(creditor(step.record));
        } else {
            self.not_awarded.extend(not_awarded(step, before));
        }
        if after.seeded && !before.seeded {
            self.key = Some(step.answer.taken as u32);
        }
        match step.record {
            Record::Blocking { length, .. } if step.answer.delivered > 0 => {
                self.delivery(step, u32::from(*length))
            }
            _ => Vec::new(),
        }
    }

    fn delivery(&mut self, step: &Step, length: u32) -> Vec<(Situation, u32)> {
        let [delivered, awarded] = step.sums.sides();
        let mut shown: Vec<(Situation, u32)> = Vec::new();
        match awarded - delivered {
            0 => {
                self.reached += 1;
                shown.push((BoundReached, self.reached));
                shown.push((BoundReachedAsking, length));
                let after = self.not_awarded.iter();
                shown.extend(after.map(|call| (BoundReachedAfter(*call), 0)));
            }
            missed_by => shown.push((BoundMissedBy, missed_by as u32)),
        }
        let after = self.awarded.iter();
        shown.extend(after.map(|creditor| (DeliveredAfter(*creditor), 0)));
        shown.extend(self.key.map(|bytes| (DeliveredAfterKey, bytes)));
        shown
    }
}

fn creditor(record: &Record) -> Option<Creditor> {
    match record {
        Record::Device { .. } => Some(Creditor::Event),
        Record::Interrupt { .. } => Some(Creditor::Interrupt),
        Record::Seed { .. } => Some(Creditor::Seed),
        _ => None,
    }
}

/// A call that was awarded nothing, if it looks as if it might have been.
fn not_awarded(step: &Step, before: &Fields) -> Option<NotAwarded> {
    match (step.record, step.answer.number) {
        (Record::Seed { .. }, TOO_MUCH_CREDIT) => Some(NotAwarded::RefusedSeed),
        (Record::Device { now, .. }, REPEATED) => {
            (before.timer.earned(*now) > 0).then_some(NotAwarded::RepeatedEvent)
        }
        (Record::Device { now, device, .. }, NO_DEVICE) => {
            // The timers are as they were before it.
            let like = device % step.version.devices();
            let earned = step.keeper.timers[like as usize].earned(*now);
            (earned > 0).then_some(NotAwarded::NoDevice)
        }
        (Record::Device { now, .. }, DONE) => {
            (before.timer.worth(*now) > 0).then_some(NotAwarded::NewDevice)
        }
        (Record::Interrupt { .. }, DONE) => Some(NotAwarded::NoSpill),
        _ => None,
    }
}

#[cfg(test)]
mod tests {
    use crate::journal::{Record, Version};
    use crate::situations::{Creditor, NotAwarded, Situation, Situation::*};
    use crate::watch::tests::{event, interrupt, seed, shown_in};

    fn bits(credit: u32) -> Record<'static> {
        seed(0, credit, 4_096)
    }

    fn read(length: u16) -> Record<'static> {
        Record::Blocking { now: 0, length }
    }

    /// The values at which a situation comes up, the same in both versions.
    fn values(records: &[Record], situation: Situation) -> Vec<u32> {
        let [one, two] = Version::ALL.map(|version| {
            let shown = shown_in(version, records);
            let came_up = |value: &u32| shown.times(situation, *value) > 0;
            let values: Vec<u32> = (0..=4_096).filter(came_up).collect();
            assert_eq!(shown.least(situation), values.first().copied());
            values
        });
        assert_eq!(one, two);
        one
    }

    /// The same seed and read so many times over.
    fn rounds(credit: u32, length: u16, times: usize) -> Vec<Record<'static>> {
        vec![[bits(credit), read(length)]; times].concat()
    }

    #[test]
    fn the_bound_is_reached() {
        for times in 1..=3 {
            let records = rounds(128, 13, times);
            let each: Vec<u32> = (1..=times as u32).collect();
            assert_eq!(values(&records, BoundReached), each);
            assert_eq!(values(&records, BoundReachedAsking), [13]);
            assert_eq!(values(&records, BoundMissedBy), []);
        }
        // With nothing delivered it is not.
        for records in [&[][..], &[read(12)], &[bits(0), read(12)], &[bits(128)]] {
            assert_eq!(values(records, BoundReached), []);
            assert_eq!(values(records, BoundMissedBy), []);
        }
    }

    #[test]
    fn the_bound_is_missed() {
        for (credit, length, missed_by) in [
            (129, 12, 9),
            (127, 12, 119),
            (128, 11, 128),
            (128, 10, 256),
            (128, 9, 384),
            (86, 6, 6),
        ] {
            let records = rounds(credit, length, 1);
            assert_eq!(values(&records, BoundMissedBy), [missed_by]);
            assert_eq!(values(&records, BoundReached), []);
            // Reached before, it is missed by as much.
            let after = [rounds(128, 12, 2), records].concat();
            assert_eq!(values(&after, BoundMissedBy), [missed_by]);
            assert_eq!(values(&after, BoundReached), [1, 2]);
        }
    }

    /// Three events, which earn nothing, and a fourth, which does.
    fn four(device: u32) -> [Record<'static>; 4] {
        [16, 80, 300, 800].map(|now| event(device, now))
    }

    #[test]
    fn bytes_delivered_after_awards() {
        let after = |first: &[Record<'static>]| -> Vec<Creditor> {
            let records = [first, &rounds(100, 8, 1)].concat();
            let delivered =
                |creditor: &Creditor| values(&records, DeliveredAfter(*creditor)) == [0];
            Creditor::AWARDED.into_iter().filter(delivered).collect()
        };
        assert_eq!(after(&[]), [Creditor::Seed]);
        assert_eq!(after(&[interrupt(1_000)]), [Creditor::Seed]);
        let both = [Creditor::Interrupt, Creditor::Seed];
        assert_eq!(after(&[interrupt(1_001)]), both);
        assert_eq!(after(&four(3)[..3]), [Creditor::Seed]);
        assert_eq!(after(&four(3)), [Creditor::Event, Creditor::Seed]);
        // Nothing is delivered, or it is before.
        let seed = DeliveredAfter(Creditor::Seed);
        assert_eq!(values(&[bits(20), read(8)], seed), []);
        let late = [rounds(100, 8, 1), vec![interrupt(1_001)]].concat();
        assert_eq!(values(&late, DeliveredAfter(Creditor::Interrupt)), []);
    }

    #[test]
    fn bytes_delivered_after_a_key() {
        for (credit, taken) in [
            (170, vec![]),
            (171, vec![16]),
            (256, vec![24]),
            (400, vec![32]),
        ] {
            let records = [vec![bits(credit)], rounds(128, 12, 1)].concat();
            assert_eq!(values(&records, DeliveredAfterKey), taken);
            assert_eq!(values(&records, BoundReached), []);
        }
        assert_eq!(values(&[bits(400)], DeliveredAfterKey), []);
    }

    /// What was not awarded before the bound is reached.
    fn reached_after(version: Version, first: &[Record<'static>]) -> Vec<NotAwarded> {
        let records = [first, &rounds(128, 12, 1)].concat();
        let shown = shown_in(version, &records);
        assert_eq!(shown.times(BoundReached, 1), 1);
        let after = |call: &NotAwarded| shown.times(BoundReachedAfter(*call), 0) > 0;
        NotAwarded::ALL.into_iter().filter(after).collect()
    }

    /// An event of device 0 whose value is its clock.
    fn of_device_0(now: u32) -> Record<'static> {
        value_of_device_0(now, now)
    }

    fn value_of_device_0(now: u32, value: u32) -> Record<'static> {
        Record::Device {
            now,
            device: 0,
            stamp: 1,
            value,
        }
    }

    #[test]
    fn the_bound_is_reached_after_calls_that_are_awarded_nothing() {
        for version in Version::ALL {
            let after = |first: &[Record<'static>]| reached_after(version, first);
            assert_eq!(after(&[]), []);
            assert_eq!(after(&[interrupt(1_000)]), [NotAwarded::NoSpill]);
            assert_eq!(after(&[seed(0, 9, 1)]), [NotAwarded::RefusedSeed]);
            assert_eq!(after(&[seed(0, 0, 1)]), []);
            assert_eq!(after(&[event(3, 1)]), []);
            assert_eq!(after(&[event(3, 2)]), [NotAwarded::NewDevice]);
        }
    }

    #[test]
    fn the_bound_is_reached_after_events_that_are_refused() {
        for version in Version::ALL {
            let after = |first: &[Record<'static>]| reached_after(version, first);
            let three = [16, 80, 300].map(of_device_0);
            let repeated = [value_of_device_0(800, 300)];
            let new = NotAwarded::NewDevice;
            let both = [NotAwarded::RepeatedEvent, new];
            assert_eq!(after(&[&three[..], &repeated].concat()), both);
            // Too early to have earned, or worth nothing.
            assert_eq!(after(&[&three[..2], &repeated].concat()), [new]);
            let worthless = value_of_device_0(300, 300);
            assert_eq!(after(&[&three[..], &[worthless]].concat()), [new]);

            let three = &four(3)[..3];
            let like = [event(3 + version.devices(), 800)];
            let both = [NotAwarded::NoDevice, new];
            assert_eq!(after(&[three, &like].concat()), both);
            assert_eq!(after(&[&three[..2], &like].concat()), [new]);
            let unlike = event(4 + version.devices(), 800);
            assert_eq!(after(&[three, &[unlike]].concat()), [new]);
        }
    }
}
