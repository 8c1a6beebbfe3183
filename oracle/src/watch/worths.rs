//! Sees what credits were worth, by the units that the answers carry. Which bits
//! were credited it works out itself.

use super::{seeder, Fields};
use crate::credits::turns;
use crate::journal::Record;
use crate::keeper::DONE;
use crate::pools::{BLOCKING, INPUT};
use crate::situations::{Creditor, Situation, Situation::*, Worth};
use crate::transcript::Step;

/// What the calls of one replay were worth so far.
#[derive(Default)]
pub struct Worths {
    /// Whether the last call added units.
    added: bool,
}

impl Worths {
    /// What a record shows.
    pub fn step(&mut self, step: &Step, before: &Fields, after: &Fields) -> Vec<(Situation, u32)> {
        let mut shown = Vec::new();
        if step.answer.number == DONE {
            let crediting = Crediting::by(step, before, after);
            shown.extend(crediting.map_or(Vec::new(), |it| it.shown(step.answer.added)));
            shown.extend(no_transfer(step));
            shown.extend(first_seeding(step, before, after));
        }
        if self.added {
            shown.extend(right_after_adding(step));
        }
        self.added = step.answer.added > 0;
        shown
    }
}

/// What a call had to credit, and to which pool.
struct Crediting {
    creditor: Creditor,
    bits: u32,
    /// The pool's count before.
    count: u32,
    size: u32,
}

impl Crediting {
    /// That of a call which was done.
    fn by(step: &Step, before: &Fields, after: &Fields) -> Option<Crediting> {
        let input = |creditor, bits| Crediting {
            creditor,
            bits,
            count: before.count,
            size: INPUT.size,
        };
        match step.record {
            Record::Device { now, .. } => Some(input(Creditor::Event, before.timer.earned(*now))),
            Record::Interrupt { .. } => {
                let spilled = after.tally == 0;
                Some(input(Creditor::Interrupt, u32::from(spilled)))
            }
            Record::Seed { credit, .. } => Some(input(Creditor::Seed, *credit)),
            Record::Blocking { .. } if after.count < before.count => Some(Crediting {
                creditor: Creditor::BlockingRead,
                // Eight for each byte that the input pool paid 64 units for.
                bits: (before.count - after.count) / 8,
                count: before.blocking_count,
                size: BLOCKING.size,
            }),
            _ => None,
        }
    }

    /// What it shows, having added so many units.
    fn shown(&self, added: u32) -> Vec<(Situation, u32)> {
        let turns = turns(self.count, self.size, self.bits).len() as u32;
        let (worth, value) = match (self.bits, added, turns) {
            (0, _, _) => (Worth::NoBits, 0),
            (_, 0, _) => (Worth::NoUnits, 0),
            (_, _, 1) => (Worth::OneTurn, 0),
            _ => (Worth::SeveralTurns, turns),
        };
        let mut shown = vec![(Credit(self.creditor, worth), value)];
        let used_up = u64::from(turns) * u64::from(self.size / 2);
        if used_up < 8 * u64::from(self.bits) {
            shown.push((FullBeforeTheRest, 0));
        }
        shown
    }
}

/// A blocking read that delivers and leaves the input pool alone.
fn no_transfer(step: &Step) -> Option<(Situation, u32)> {
    match step.record {
        Record::Blocking { length, .. } if step.answer.delivered > 0 && step.answer.added == 0 => {
            let enough = step.answer.delivered == usize::from(*length);
            Some((NoTransfer(enough), 0))
        }
        _ => None,
    }
}

fn first_seeding(step: &Step, before: &Fields, after: &Fields) -> Option<(Situation, u32)> {
    let first = after.seeded && !before.seeded;
    if first && step.answer.added > after.count {
        seeder(step.record).map(|seeder| (FirstSeedingAdds(seeder), 0))
    } else {
        None
    }
}

/// A call that cannot add anything, right after one that did.
fn right_after_adding(step: &Step) -> Option<(Situation, u32)> {
    match (step.answer.number, step.record) {
        (DONE, Record::Write { .. } | Record::Generator { .. }) => {
            Some((OtherAfterAdding, u32::from(step.record.kind())))
        }
        (DONE, _) => None,
        (number, _) => Some((RefusedAfterAdding, u32::from(number))),
    }
}

#[cfg(test)]
mod tests {
    use crate::journal::Record;
    use crate::situations::{Creditor, Seeder, Situation, Situation::*, Worth};
    use crate::watch::tests::{self, interrupt, shown};
    use std::borrow::Cow;

    fn event(now: u32) -> Record<'static> {
        tests::event(3, now)
    }

    fn seed(credit: u32) -> Record<'static> {
        tests::seed(0, credit, 4_096)
    }

    fn write() -> Record<'static> {
        Record::Write {
            now: 0,
            bytes: Cow::Borrowed(&[1]),
        }
    }

    fn read(length: u16) -> Record<'static> {
        Record::Generator { now: 0, length }
    }

    fn blocking(length: u16) -> Record<'static> {
        Record::Blocking { now: 0, length }
    }

    /// Three events that earn nothing and two that do.
    fn five() -> [Record<'static>; 5] {
        [16, 80, 300, 800, 3_000].map(event)
    }

    /// How often a call was worth nothing, no units, and units in one turn.
    fn worths(records: &[Record], creditor: Creditor) -> [u64; 3] {
        let shown = shown(records);
        [Worth::NoBits, Worth::NoUnits, Worth::OneTurn]
            .map(|worth| shown.times(Credit(creditor, worth), 0))
    }

    /// The values at which a situation comes up.
    fn values(records: &[Record], situation: Situation) -> Vec<u32> {
        let shown = shown(records);
        let came_up = |value: &u32| shown.times(situation, *value) > 0;
        (0..=20).filter(came_up).collect()
    }

    /// A keeper whose input pool has all but a few units.
    fn full() -> Vec<Record<'static>> {
        vec![seed(256), seed(32_768), seed(32_768)]
    }

    #[test]
    fn events() {
        assert_eq!(worths(&five(), Creditor::Event), [3, 0, 2]);
        let full = [full(), five().to_vec()].concat();
        assert_eq!(worths(&full, Creditor::Event), [3, 2, 0]);
        // Worth nothing by its differences, though three came before it.
        let same = [&five()[..4], &[event(800)]].concat();
        assert_eq!(worths(&same, Creditor::Event), [4, 0, 1]);
    }

    #[test]
    fn interrupts() {
        let both = vec![interrupt(1_000), interrupt(1_001), interrupt(1_001)];
        assert_eq!(worths(&both, Creditor::Interrupt), [2, 0, 1]);
        let full = [full(), both].concat();
        assert_eq!(worths(&full, Creditor::Interrupt), [2, 1, 0]);
    }

    #[test]
    fn seeds() {
        let seeds = [seed(0), seed(1), seed(2_048)];
        assert_eq!(worths(&seeds, Creditor::Seed), [1, 0, 2]);
        let full = [full(), vec![seed(0), seed(1)]].concat();
        assert_eq!(worths(&full, Creditor::Seed), [1, 1, 1]);
        // A refused one was not worth anything.
        assert_eq!(worths(&[seed(32_769)], Creditor::Seed), [0, 0, 0]);
    }

    #[test]
    fn turns_of_seeds() {
        let several = Credit(Creditor::Seed, Worth::SeveralTurns);
        for (bits, turns) in [
            (2_048, vec![]),
            (2_049, vec![2]),
            (4_096, vec![2]),
            (4_097, vec![3]),
            (32_768, vec![16]),
        ] {
            assert_eq!(values(&[seed(bits)], several), turns);
            assert_eq!(values(&[seed(bits)], FullBeforeTheRest), []);
        }
        // The last units are gone before the seed is.
        assert_eq!(values(&full(), FullBeforeTheRest), [0]);
        assert_eq!(values(&full(), several), [6, 16]);
    }

    #[test]
    fn blocking_reads() {
        let several = Credit(Creditor::BlockingRead, Worth::SeveralTurns);
        for (length, one, two) in [(1, 1, vec![]), (64, 1, vec![]), (65, 0, vec![2])] {
            let records = [seed(4_096), blocking(length)];
            assert_eq!(worths(&records, Creditor::BlockingRead), [0, 0, one]);
            assert_eq!(values(&records, several), two);
            for enough in [false, true] {
                assert_eq!(values(&records, NoTransfer(enough)), []);
            }
        }
    }

    #[test]
    fn blocking_reads_that_leave_the_input_pool_alone() {
        // 600 units, of which 88 are left after eight bytes; 320 in the other.
        let none = |read: Record<'static>| {
            let records = [seed(100), blocking(1), read];
            assert_eq!(worths(&records, Creditor::BlockingRead), [0, 0, 1]);
            [false, true].map(|enough| values(&records, NoTransfer(enough)).len())
        };
        assert_eq!(none(blocking(5)), [0, 1]);
        assert_eq!(none(blocking(6)), [1, 0]);
        assert_eq!(none(blocking(0)), [0, 0]);
        assert_eq!(none(blocking(4_097)), [0, 0]);
        // Nothing to deliver.
        for enough in [false, true] {
            assert_eq!(values(&[blocking(1)], NoTransfer(enough)), []);
        }
    }

    #[test]
    fn first_seedings() {
        let fourth = &five()[..4];
        for (records, seeder) in [
            (vec![seed(4_096)], Seeder::Seed),
            (vec![seed(170), seed(1)], Seeder::Seed),
            (vec![seed(170), interrupt(1_001)], Seeder::Interrupt),
            ([&[seed(170)], fourth].concat(), Seeder::Event),
        ] {
            for other in [Seeder::Event, Seeder::Interrupt, Seeder::Seed] {
                let times = u64::from(other == seeder);
                assert_eq!(shown(&records).times(FirstSeedingAdds(other), 0), times);
                // It is the first one only.
                let more = [&records[..], &[seed(4_096), seed(1)]].concat();
                assert_eq!(shown(&more).times(FirstSeedingAdds(other), 0), times);
            }
        }
        let unseeded = [seed(170), interrupt(1_000)];
        for seeder in [Seeder::Event, Seeder::Interrupt, Seeder::Seed] {
            assert_eq!(values(&unseeded, FirstSeedingAdds(seeder)), []);
        }
    }

    #[test]
    fn calls_right_after_one_that_adds() {
        for (record, number) in [(blocking(1), 1), (read(1), 2), (read(4_097), 3)] {
            let after = [seed(1), record.clone()];
            assert_eq!(values(&after, RefusedAfterAdding), [number]);
            assert_eq!(values(&after, OtherAfterAdding), []);
            // Another in between, or one that added nothing.
            let between = [seed(1), write(), record.clone()];
            assert_eq!(values(&between, RefusedAfterAdding), []);
            assert_eq!(values(&[seed(0), record], RefusedAfterAdding), []);
        }
        let written = [seed(1), write()];
        assert_eq!(values(&written, OtherAfterAdding), [3]);
        let read = [seed(300), read(1), write()];
        assert_eq!(values(&read, OtherAfterAdding), [5]);
        assert_eq!(values(&[seed(1), seed(0)], OtherAfterAdding), []);
        assert_eq!(values(&[seed(1), interrupt(0)], RefusedAfterAdding), []);
    }
}
