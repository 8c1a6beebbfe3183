//! Reads off a journal, and off what its replay does, which situations it
//! shows, whatever its maker had in mind.

mod ledgers;
mod new_devices;
mod worths;

use std::collections::BTreeMap;

use self::ledgers::Ledgers;
use self::new_devices::NewDevices;
use self::worths::Worths;

use crate::credits::clock_difference;
use crate::journal::{Record, Version, CUT_SHORT, HEADER, MARK, UNKNOWN_KIND};
use crate::keeper::{Keeper, Timer, DONE, NO_DEVICE, REPEATED};
use crate::situations::{Next, Seeder, Situation, Situation::*, Wait};
use crate::transcript::{replay, Ending, Step};

/// How often situations came up.
#[derive(Clone, Debug, Default, PartialEq)]
pub struct Shown(BTreeMap<(Situation, u32), u64>);

impl Shown {
    /// What one journal shows.
    pub fn by(journal: &[u8]) -> Shown {
        let mut watch = Watch::default();
        let ending = replay(journal, &mut |step| watch.step(&step));
        watch.ending(&ending);
        watch.header(journal);
        watch.shown
    }

    pub fn times(&self, situation: Situation, value: u32) -> u64 {
        self.0.get(&(situation, value)).copied().unwrap_or(0)
    }

    /// The least value at which a situation came up, required or not.
    pub fn least(&self, situation: Situation) -> Option<u32> {
        let from = self.0.range((situation, 0)..=(situation, u32::MAX));
        from.map(|((_, value), _)| *value).next()
    }

    pub fn add(&mut self, other: &Shown) {
        for (key, times) in &other.0 {
            *self.0.entry(*key).or_default() += times;
        }
    }

    fn see(&mut self, situation: Situation, value: u32) {
        *self.0.entry((situation, value)).or_default() += 1;
    }
}

/// What of a keeper the situations turn on. A fresh one has zero everywhere.
#[derive(Clone, Copy, Default)]
pub struct Fields {
    seeded: bool,
    seeding_clock: u32,
    count: u32,
    blocking_count: u32,
    tally: u32,
    last_spill: u32,
    last_value: u32,
    /// Of the device that the record tells of.
    timer: Timer,
}

impl Fields {
    fn of(keeper: &Keeper, record: &Record) -> Fields {
        Fields {
            seeded: keeper.seeded,
            seeding_clock: keeper.seeding_clock,
            count: keeper.input.count,
            blocking_count: keeper.blocking.count,
            tally: keeper.tally,
            last_spill: keeper.last_spill,
            last_value: keeper.last_value,
            timer: timer(keeper, record),
        }
    }
}

fn timer(keeper: &Keeper, record: &Record) -> Timer {
    let device = device(record);
    let timer = device.and_then(|device| keeper.timers.get(device as usize));
    timer.copied().unwrap_or_default()
}

/// The device of an event.
fn device(record: &Record) -> Option<u32> {
    match record {
        Record::Device { device, .. } => Some(*device),
        _ => None,
    }
}

/// A spill by time, and what came after it.
struct TimedSpill {
    tally: u32,
    interrupts: u32,
    ran_back: bool,
}

/// Follows one replay.
#[derive(Default)]
struct Watch {
    shown: Shown,
    /// The keeper before the record that is looked at.
    before: Fields,
    /// The timers of the devices that came so far, which are few of them all.
    timers: BTreeMap<u32, Timer>,
    /// What seeded the keeper, for as long as no reseed has followed.
    seeder: Option<Seeder>,
    /// Whether a seed of 0 bits came that had bytes and met a count of 1,024
    /// or more.
    nothing_credited: bool,
    /// The last spill, where it was one by time.
    timed: Option<TimedSpill>,
    new_devices: NewDevices,
    worths: Worths,
    ledgers: Ledgers,
}

/// What a record is that may seed a keeper for the first time.
fn seeder(record: &Record) -> Option<Seeder> {
    match record {
        Record::Device { .. } => Some(Seeder::Event),
        Record::Interrupt { .. } => Some(Seeder::Interrupt),
        Record::Seed { .. } => Some(Seeder::Seed),
        _ => None,
    }
}

/// Whether a clock went through zero on its way over so many ticks.
fn past_zero(now: u32, then: u32, ticks: i64) -> bool {
    (ticks > 0) == (now < then)
}

impl Watch {
    fn step(&mut self, step: &Step) {
        let after = Fields::of(step.keeper, step.record);
        let version = step.version;
        let device = device(step.record);
        let timer = device.and_then(|device| self.timers.get(&device));
        self.before.timer = timer.copied().unwrap_or_default();
        self.shown.see(Answer(step.answer.number), 0);
        self.shown
            .see(AnswerIn(version), u32::from(step.answer.number));
        self.shown
            .see(KindWhole(version), u32::from(step.record.kind()));
        match step.record {
            Record::Device {
                now, device, value, ..
            } => match step.answer.number {
                DONE => self.event(version, *device, *now, *value, &after),
                NO_DEVICE => {
                    self.shown.see(DeviceRefused(version), *device);
                    self.new_devices.refused(version, *device);
                }
                REPEATED => self.new_devices.repeated(),
                _ => {}
            },
            Record::Interrupt { now, .. } => self.interrupt(*now, after.tally == 0),
            Record::Seed {
                credit: 0, bytes, ..
            } => {
                let nothing = after.count == self.before.count && step.answer.compressions == 0;
                self.nothing_credited |= nothing && after.count >= 1_024 && !bytes.is_empty();
            }
            Record::Generator { now, .. } if step.answer.delivered > 0 => {
                self.generator_read(*now, step.answer.compressions > 0);
            }
            Record::Blocking { .. } if after.count < self.before.count => {
                self.after_nothing(Next::BlockingRead);
            }
            _ => {}
        }
        if after.seeded && !self.before.seeded {
            self.seeder = seeder(step.record);
        }
        let worths = self.worths.step(step, &self.before, &after);
        let ledgers = self.ledgers.step(step, &self.before, &after);
        for (situation, value) in worths.into_iter().chain(ledgers) {
            self.shown.see(situation, value);
        }
        if let Some(device) = device {
            self.timers.insert(device, after.timer);
        }
        self.before = after;
    }

    fn event(&mut self, version: Version, device: u32, now: u32, value: u32, after: &Fields) {
        self.shown.see(DeviceDone(version), device);
        if device != 0 && value == self.before.last_value {
            self.shown.see(LastValueOfDevice0Kept, device);
        }
        let shown = self
            .new_devices
            .kept(version, device, now, &self.before, after);
        for (situation, value) in shown {
            self.shown.see(situation, value);
        }
    }

    fn generator_read(&mut self, now: u32, reseeded: bool) {
        self.after_nothing(if reseeded { Next::Reseed } else { Next::Read });
        let then = self.before.seeding_clock;
        let ticks = clock_difference(now, then);
        let wait = match (ticks, reseeded) {
            (300_000, false) => Some(Wait::NotDue),
            (300_001, true) => Some(Wait::Due),
            (i64::MIN..=-1, false) => Some(Wait::RanBack),
            _ => None,
        };
        if let (Some(seeder), Some(wait), true) = (self.seeder, wait, self.before.count >= 1_024) {
            let past_zero = past_zero(now, then, ticks);
            self.shown.see(FirstSeeded(seeder, wait, past_zero), 0);
        }
        if reseeded {
            self.seeder = None;
        }
    }

    fn after_nothing(&mut self, next: Next) {
        if self.nothing_credited {
            self.shown.see(NothingCredited(next), 0);
        }
    }

    fn interrupt(&mut self, now: u32, spilled: bool) {
        let then = self.before.last_spill;
        let ticks = clock_difference(now, then);
        let tally = self.before.tally + 1;
        if !spilled {
            if ticks == 1_000 {
                self.shown.see(NoSpillAt1000, 0);
            }
            if let Some(timed) = &mut self.timed {
                timed.interrupts += 1;
                timed.ran_back |= ticks < 0;
            }
        } else if tally < 64 {
            self.shown.see(SpillByTime, tally);
            if ticks == 1_001 {
                self.shown.see(SpillAt1001, 0);
            }
            if past_zero(now, then, ticks) {
                self.shown.see(SpillByTimePastZero, 0);
            }
            self.timed = Some(TimedSpill {
                tally,
                interrupts: 0,
                ran_back: false,
            });
        } else if let Some(timed) = self.timed.take() {
            if timed.interrupts == 63 {
                self.shown.see(SpillByNumberAfterTime, timed.tally);
                if timed.ran_back {
                    self.shown.see(SpillByNumberAfterRunningBack, 0);
                }
            }
        }
    }

    fn ending(&mut self, ending: &Ending) {
        self.shown.see(End(ending.number), 0);
        let version = match &ending.left {
            Some((version, _)) => *version,
            None => return,
        };
        self.shown.see(EndIn(version), u32::from(ending.number));
        if ending.number == CUT_SHORT {
            let there = ending.rest.len() as u32;
            self.shown.see(CutIn(version, ending.rest[0]), there);
        }
        if ending.number == UNKNOWN_KIND {
            let alone = ending.rest.len() == 1;
            let situation = match alone {
                true => UnknownKindAlone,
                false => UnknownKindFollowed,
            };
            self.shown.see(situation, u32::from(ending.rest[0]));
        }
    }

    /// Looks at a journal that has nothing after its header, or not all of it.
    fn header(&mut self, journal: &[u8]) {
        if journal.len() > HEADER {
            return;
        }
        let length = journal.len() as u32;
        let (letters, rest) = journal.split_at(journal.len().min(MARK.len()));
        let version = &rest[..rest.len().min(2)];
        let right_letters = MARK.starts_with(letters);
        let right: Vec<Version> = Version::ALL
            .into_iter()
            .filter(|right| right.field().starts_with(version))
            .collect();
        let right_version = !right.is_empty();
        match (right_letters, right_version) {
            (true, true) => right
                .into_iter()
                .for_each(|version| self.shown.see(HeaderRight(version), length)),
            (true, false) => self.shown.see(HeaderVersion, length),
            (false, _) => self.shown.see(HeaderLetters, length),
        }
        if !right_letters && letters.len() == MARK.len() {
            self.letters(letters);
        }
        if version.len() < 2 {
            return;
        }
        if !right_letters {
            self.shown.see(LettersBeforeVersion(right_version), 0);
        } else if !right_version {
            let version = u16::from_le_bytes([version[0], version[1]]);
            self.shown.see(VersionWrong, u32::from(version));
        }
    }

    /// Three letters that are not the right ones.
    fn letters(&mut self, letters: &[u8]) {
        let lower = MARK.to_ascii_lowercase();
        if letters == lower {
            self.shown.see(AllLettersLower, 0);
        }
        let wrong: Vec<usize> = (0..MARK.len())
            .filter(|at| letters[*at] != MARK[*at])
            .collect();
        if let [at] = wrong[..] {
            let situation = match letters[at] == lower[at] {
                true => OneLetterLower,
                false => OneLetterWrong,
            };
            self.shown.see(situation, at as u32 + 1);
        }
    }
}

#[cfg(test)]
mod tests {
    use super::*;
    use crate::journal;
    use std::borrow::Cow;

    fn journal(version: Version, records: &[Record]) -> Vec<u8> {
        let mut out = journal::header(version, &[7; 48]);
        for record in records {
            record.write(version, &mut out);
        }
        out
    }

    /// What a journal of version 1 shows.
    pub(super) fn shown(records: &[Record]) -> Shown {
        shown_in(Version::One, records)
    }

    pub(super) fn shown_in(version: Version, records: &[Record]) -> Shown {
        Shown::by(&journal(version, records))
    }

    pub(super) fn event(device: u32, now: u32) -> Record<'static> {
        Record::Device {
            now,
            device,
            stamp: 1,
            value: 2,
        }
    }

    pub(super) fn interrupt(now: u32) -> Record<'static> {
        Record::Interrupt {
            now,
            number: 1,
            stamp: 2,
            address: 3,
        }
    }

    pub(super) fn seed(now: u32, credit: u32, length: usize) -> Record<'static> {
        Record::Seed {
            now,
            credit,
            bytes: Cow::Owned(vec![9; length]),
        }
    }

    fn read(now: u32) -> Record<'static> {
        Record::Generator { now, length: 1 }
    }

    fn blocking() -> Record<'static> {
        Record::Blocking { now: 0, length: 8 }
    }

    const WAITS: [Wait; 3] = [Wait::NotDue, Wait::Due, Wait::RanBack];

    /// The first seeding at `clock`: 170 bits, and then the last that it takes.
    fn seeding(seeder: Seeder, clock: u32) -> Vec<Record<'static>> {
        let last = match seeder {
            // The fourth is the first that earns.
            Seeder::Event => [100, 90, 50, 0].map(|ago| event(4, clock - ago)).to_vec(),
            Seeder::Interrupt => vec![interrupt(clock)],
            Seeder::Seed => vec![seed(clock, 1, 1)],
        };
        [vec![seed(0, 170, 22)], last].concat()
    }

    #[test]
    fn reads_after_each_first_seeding() {
        let seeders = [Seeder::Event, Seeder::Interrupt, Seeder::Seed];
        for seeder in seeders {
            for (clock, now, wait, past_zero) in [
                (5_000, 305_000, Wait::NotDue, false),
                (5_000, 305_001, Wait::Due, false),
                (5_000, 4_999, Wait::RanBack, false),
                (5_000, u32::MAX, Wait::RanBack, true),
                (2_147_400_000, 2_147_700_000, Wait::NotDue, false),
            ] {
                let mut records = seeding(seeder, clock);
                records.push(seed(77, 200, 25));
                records.push(read(now));
                let shown = shown(&records);
                for other in seeders {
                    for other_wait in WAITS {
                        let same = other == seeder && other_wait == wait;
                        for zero in [false, true] {
                            let situation = FirstSeeded(other, other_wait, zero);
                            let times = u64::from(same && zero == past_zero);
                            assert_eq!(shown.times(situation, 0), times, "{situation}");
                        }
                    }
                }
            }
        }
    }

    #[test]
    fn reads_past_zero() {
        let first = u32::MAX - 9;
        for (ticks, wait) in [(300_000, Wait::NotDue), (300_001, Wait::Due)] {
            let now = first.wrapping_add(ticks);
            let records = [seed(first, 400, 50), seed(0, 400, 50), read(now)];
            let situation = |past_zero| FirstSeeded(Seeder::Seed, wait, past_zero);
            assert_eq!(shown(&records).times(situation(true), 0), 1);
            assert_eq!(shown(&records).times(situation(false), 0), 0);
        }
    }

    #[test]
    fn reads_that_show_nothing_of_a_first_seeding() {
        let none = |records: &[Record]| {
            let shown = shown(records);
            WAITS.iter().all(|wait| {
                let times = |zero| shown.times(FirstSeeded(Seeder::Seed, *wait, zero), 0);
                times(false) + times(true) == 0
            })
        };
        let seeds = [seed(1_000, 400, 50), seed(0, 400, 50)];
        let with = |record: Record<'static>| [&seeds[..], &[record]].concat();
        assert!(!none(&with(read(301_001))));
        // A tick beside the threshold.
        assert!(none(&with(read(300_999))));
        assert!(none(&with(read(301_002))));
        assert!(none(&with(read(1_000))));
        // Nothing delivered.
        assert!(none(&with(Record::Generator {
            now: 301_000,
            length: 0
        })));
        // Too little for a reseed, at all three clocks.
        for now in [301_000, 301_001, 999] {
            assert!(none(&[seed(1_000, 171, 22), read(now)]));
        }
        // The key is that of a reseed by then.
        let records = [
            seed(1_000, 900, 113),
            seed(0, 900, 113),
            read(401_000),
            read(701_000),
        ];
        assert!(none(&records));
    }

    #[test]
    fn seeds_of_no_bits() {
        let times = |records: &[Record]| {
            let shown = shown(records);
            [Next::Read, Next::Reseed, Next::BlockingRead]
                .map(|next| shown.times(NothingCredited(next), 0))
        };
        let seeds = [seed(0, 400, 50), seed(0, 171, 22)];
        let with = |records: &[Record<'static>]| times(&[&seeds[..], records].concat());
        assert_eq!(with(&[seed(0, 0, 3)]), [0, 0, 0]);
        assert_eq!(with(&[seed(0, 0, 3), read(0)]), [1, 0, 0]);
        assert_eq!(with(&[seed(0, 0, 3), read(300_001)]), [0, 1, 0]);
        assert_eq!(with(&[seed(0, 0, 3), blocking()]), [0, 0, 1]);
        // No bytes, a bit, a refusal, or the read first.
        assert_eq!(with(&[seed(0, 0, 0), read(0)]), [0, 0, 0]);
        assert_eq!(with(&[seed(0, 1, 3), read(0)]), [0, 0, 0]);
        assert_eq!(with(&[seed(0, 25, 3), read(0)]), [0, 0, 0]);
        assert_eq!(with(&[read(0), seed(0, 0, 3)]), [0, 0, 0]);
        // A blocking read that takes nothing from the input pool.
        let nothing = Record::Blocking { now: 0, length: 0 };
        assert_eq!(with(&[seed(0, 0, 3), nothing]), [0, 0, 0]);
        // A count too low.
        let low = [seed(0, 171, 22), seed(0, 0, 3), read(0)];
        assert_eq!(times(&low), [0, 0, 0]);
    }

    /// So many interrupts at one clock.
    fn interrupts(count: usize, now: u32) -> Vec<Record<'static>> {
        vec![interrupt(now); count]
    }

    #[test]
    fn spills_by_time_and_by_number() {
        for tally in [1, 2, 40, 63] {
            let mut records = interrupts(tally - 1, 1_000);
            records.push(interrupt(1_001));
            records.extend(interrupts(63, 1_001));
            let before = shown(&records);
            let tally = tally as u32;
            assert_eq!(before.times(SpillByTime, tally), 1);
            assert_eq!(before.times(SpillAt1001, 0), 1);
            assert_eq!(before.times(SpillByTimePastZero, 0), 0);
            assert_eq!(before.times(NoSpillAt1000, 0), u64::from(tally - 1));
            assert_eq!(before.times(SpillByNumberAfterTime, tally), 0);
            records.push(interrupt(1_001));
            let after = shown(&records);
            assert_eq!(after.times(SpillByNumberAfterTime, tally), 1);
            assert_eq!(after.times(SpillByNumberAfterRunningBack, 0), 0);
            // A second one by number does not come after one by time.
            records.extend(interrupts(64, 1_001));
            let shown = shown(&records);
            assert_eq!(shown.times(SpillByNumberAfterTime, tally), 1);
        }
    }

    #[test]
    fn a_later_spill_by_time_is_not_one_at_1_001() {
        let shown = shown(&[interrupt(1_002)]);
        assert_eq!(shown.times(SpillByTime, 1), 1);
        assert_eq!(shown.times(SpillAt1001, 0), 0);
    }

    #[test]
    fn the_sixty_fourth_interrupt_is_no_spill_by_time() {
        let mut records = interrupts(63, 0);
        records.push(interrupt(1_001));
        let shown = shown(&records);
        assert_eq!(shown.times(SpillAt1001, 0), 0);
        assert!((1..=64).all(|tally| shown.times(SpillByTime, tally) == 0));
    }

    #[test]
    fn a_clock_that_runs_back_or_past_zero_between_spills() {
        let mut records = vec![interrupt(2_000_000_000), interrupt(4_000_000_000)];
        records.push(interrupt(1_000_000_000));
        records.push(interrupt(999_999_999));
        records.extend(interrupts(62, 1_000_000_000));
        let before = shown(&records);
        assert_eq!(before.times(SpillByTimePastZero, 0), 1);
        assert_eq!(before.times(SpillByNumberAfterRunningBack, 0), 0);
        records.push(interrupt(1_000_000_000));
        assert_eq!(shown(&records).times(SpillByNumberAfterRunningBack, 0), 1);
    }

    #[test]
    fn kinds() {
        let records = [interrupt(0), blocking(), blocking()];
        for version in Version::ALL {
            let mut bytes = journal(version, &records);
            bytes.push(200);
            let alone = Shown::by(&bytes);
            assert_eq!(alone.times(KindWhole(version), 2), 1);
            assert_eq!(alone.times(KindWhole(version), 6), 2);
            assert_eq!(alone.times(KindWhole(version.other()), 6), 0);
            assert_eq!(alone.times(UnknownKindAlone, 200), 1);
            assert_eq!(alone.times(UnknownKindFollowed, 200), 0);
            assert_eq!(alone.times(EndIn(version), 11), 1);
            bytes.push(6);
            let followed = Shown::by(&bytes);
            assert_eq!(followed.times(UnknownKindAlone, 200), 0);
            assert_eq!(followed.times(UnknownKindFollowed, 200), 1);
        }
        // A known kind that is cut is not read whole, and not unknown.
        let mut bytes = journal(Version::One, &records);
        bytes.push(1);
        let cut = Shown::by(&bytes);
        assert_eq!(cut.times(KindWhole(Version::One), 1), 0);
        assert_eq!(cut.times(UnknownKindAlone, 1), 0);
        assert_eq!(cut.times(CutIn(Version::One, 1), 1), 1);
    }

    #[test]
    fn cuts_of_an_event() {
        for version in Version::ALL {
            let whole = journal(version, &[event(3, 9)]);
            let last = whole.len() - HEADER;
            for there in 0..=last {
                let shown = Shown::by(&whole[..HEADER + there]);
                let cut = (1..last).contains(&there);
                let times = u64::from(cut);
                assert_eq!(shown.times(CutIn(version, 1), there as u32), times);
                assert_eq!(shown.times(CutIn(version.other(), 1), there as u32), 0);
                assert_eq!(shown.times(EndIn(version), 10), times);
                assert_eq!(shown.times(EndIn(version), 0), 1 - times);
            }
            let values = CutIn(version, 1).values();
            assert_eq!(values, (1..last as u32).collect::<Vec<u32>>());
        }
    }

    #[test]
    fn devices_done_and_refused() {
        let records = [event(15, 0), event(16, 0), event(0, 0), event(0, 9)];
        let one = shown(&records);
        let [done, refused] = [DeviceDone(Version::One), DeviceRefused(Version::One)];
        assert_eq!(one.times(done, 15), 1);
        assert_eq!(one.times(refused, 15), 0);
        assert_eq!(one.times(refused, 16), 1);
        // The repeated event counts neither way.
        assert_eq!(one.times(done, 0), 1);
        assert_eq!(one.times(refused, 0), 0);
        assert_eq!(one.times(Answer(7), 0), 1);
        assert_eq!(one.times(AnswerIn(Version::One), 7), 1);

        let records = [event(16, 0), event(1_023, 0), event(1_024, 0)];
        let two = shown_in(Version::Two, &records);
        let [done, refused] = [DeviceDone(Version::Two), DeviceRefused(Version::Two)];
        assert_eq!(two.times(done, 16), 1);
        assert_eq!(two.times(done, 1_023), 1);
        assert_eq!(two.times(refused, 1_024), 1);
        assert_eq!(two.times(DeviceDone(Version::One), 16), 0);
        assert_eq!(two.times(AnswerIn(Version::Two), 4), 1);
        assert_eq!(two.times(AnswerIn(Version::One), 4), 0);
    }

    #[test]
    fn the_last_value_of_device_0_on_another() {
        // Every event here has the same value.
        let records = [event(256, 1), event(0, 2), event(256, 3), event(0, 4)];
        let shown = shown_in(Version::Two, &records);
        assert_eq!(shown.times(LastValueOfDevice0Kept, 256), 1);
        assert_eq!(shown.times(LastValueOfDevice0Kept, 0), 0);
        assert_eq!(shown.times(Answer(7), 0), 1);
    }

    #[test]
    fn headers() {
        let (one, two) = (HeaderRight(Version::One), HeaderRight(Version::Two));
        for (bytes, situations, number) in [
            (&b""[..], &[one, two][..], 8),
            (b"NK", &[one, two], 8),
            (b"NKJ", &[one, two], 10),
            (b"NKJ\x01", &[one], 10),
            (b"NKJ\x01\0", &[one], 10),
            (b"NKJ\x02", &[two], 10),
            (b"NKJ\x02\0", &[two], 10),
            (b"n", &[HeaderLetters], 8),
            (b"NKX\x01\0", &[HeaderLetters], 8),
            (b"NKJ\x03", &[HeaderVersion], 10),
            (b"NKJ\x01\x01", &[HeaderVersion], 9),
            (b"NKJ\x02\x01", &[HeaderVersion], 9),
        ] {
            let shown = Shown::by(bytes);
            for other in [one, two, HeaderLetters, HeaderVersion] {
                let times = u64::from(situations.contains(&other));
                assert_eq!(shown.times(other, bytes.len() as u32), times, "{bytes:?}");
            }
            assert_eq!(shown.times(End(number), 0), 1);
        }
        let whole = shown(&[]);
        assert_eq!(whole.times(one, 53), 1);
        assert_eq!(whole.times(two, 53), 0);
        assert_eq!(whole.times(End(0), 0), 1);
        // A record behind it makes it more than a header.
        assert_eq!(shown(&[read(0)]).times(one, 53), 0);
        assert_eq!(shown(&[read(0)]).times(one, 60), 0);
    }

    #[test]
    fn letters_and_versions() {
        let letters = [OneLetterWrong, OneLetterLower];
        for (bytes, situation, place) in [
            (b"XKJ\x01\0", OneLetterWrong, 1),
            (b"NXJ\x01\0", OneLetterWrong, 2),
            (b"NKj\x01\0", OneLetterLower, 3),
        ] {
            let shown = Shown::by(bytes);
            for other in letters {
                let times = u64::from(other == situation);
                assert_eq!(shown.times(other, place), times);
            }
            assert_eq!(shown.times(LettersBeforeVersion(true), 0), 1);
            assert_eq!(shown.times(VersionWrong, 1), 0);
        }
        let lower = Shown::by(b"nkj\0\x01");
        assert_eq!(lower.times(AllLettersLower, 0), 1);
        assert_eq!(lower.times(LettersBeforeVersion(false), 0), 1);
        // Behind wrong letters no version counts.
        assert_eq!(lower.times(VersionWrong, 256), 0);
        for (version, bytes) in [(256, b"NKJ\0\x01"), (257, b"NKJ\x01\x01")] {
            assert_eq!(Shown::by(bytes).times(VersionWrong, version), 1);
        }
        assert_eq!(Shown::by(b"NKJ\x01\0").times(VersionWrong, 1), 0);
        assert_eq!(Shown::by(b"NKJ\x02\0").times(VersionWrong, 2), 0);
        assert_eq!(Shown::by(b"NKJ\0").times(VersionWrong, 0), 0);
    }
}
