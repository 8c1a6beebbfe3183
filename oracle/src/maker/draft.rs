//! A journal while it is being made.

use std::borrow::Cow;

use super::anything::{any_device, first_clock, start, version};
use super::HALF;
use crate::credits::{clock_difference, credited};
use crate::journal::{self, Record, Version};
use crate::keeper::{least_bytes, Keeper, LONGEST, START};
use crate::ledger::Ledger;
use crate::pools::INPUT;
use crate::random::Random;
use crate::transcript::perform;

/// Ticks so many that the next ones, if they are fewer than half of them, are
/// the least of an event's differences.
const FAR: u32 = 1 << 20;

/// A journal being made, with a keeper that follows it: what to try next
/// often depends on the counts so far.
pub struct Draft {
    pub version: Version,
    pub bytes: Vec<u8>,
    pub keeper: Keeper,
    ledger: Ledger,
    pub now: u32,
}

impl Draft {
    pub fn new(version: Version, start: [u8; START], now: u32) -> Draft {
        Draft {
            version,
            bytes: journal::header(version, &start),
            keeper: Keeper::make(&start).expect("the start has its length"),
            ledger: Ledger::new(version.devices()),
            now,
        }
    }

    /// Of either version, with any start and any clock.
    pub fn any(random: &mut Random) -> Draft {
        let version = version(random);
        Draft::of(random, version)
    }

    /// Of this version, with any start and any clock.
    pub fn of(random: &mut Random, version: Version) -> Draft {
        Draft::new(version, start(random), first_clock(random))
    }

    pub fn add(&mut self, record: Record) {
        record.write(self.version, &mut self.bytes);
        perform(self.version, &mut self.keeper, &mut self.ledger, &record);
    }

    /// A device that the journal's version has.
    pub fn any_device(&self, random: &mut Random) -> u32 {
        any_device(random, self.version)
    }

    /// As many devices as version 1 has, one after the other; of version 2 they may
    /// lie across a border.
    pub fn sixteen_devices(&self, random: &mut Random) -> std::ops::Range<u32> {
        let first = match self.version {
            Version::One => 0,
            Version::Two => random.pick(&[0, 8, 120, 248, 504, 1_008]),
        };
        first..first + Version::One.devices()
    }

    pub fn device(&mut self, random: &mut Random, device: u32, now: u32) {
        let value = random.u32();
        self.add(Record::Device {
            now,
            device,
            stamp: random.u64(),
            value,
        });
    }

    /// Three events of a new device, which earn nothing, the last at this clock.
    /// The next one earns what its ticks from there are worth.
    pub fn introduce(&mut self, random: &mut Random, device: u32, last: u32) {
        let far = random.pick(&[FAR, FAR.wrapping_neg()]);
        for now in [last, last.wrapping_add(far), last] {
            self.device(random, device, now);
        }
    }

    /// A new device's fourth event, so many ticks after its third. They alone
    /// decide what it earns.
    pub fn fourth_event(&mut self, random: &mut Random, device: u32, ticks: u32) {
        self.introduce(random, device, self.now);
        self.device(random, device, self.now.wrapping_add(ticks));
    }

    /// An event that is worth something by its differences, so that it tells
    /// whether its device earns.
    pub fn worthy_event(&mut self, random: &mut Random, device: u32) {
        let now = self.worthy_clock(random, device);
        self.device(random, device, now);
    }

    /// An event of device 0 with its last value, which would be worth something
    /// if it were kept.
    pub fn repeated(&mut self, random: &mut Random) {
        self.value_of_device_0(random, 0);
    }

    /// An event that has the value which device 0 told last.
    pub fn value_of_device_0(&mut self, random: &mut Random, device: u32) {
        self.add(Record::Device {
            now: self.worthy_clock(random, device),
            device,
            stamp: random.u64(),
            value: self.keeper.last_value,
        });
    }

    /// An event of a number that no device has, but for its high bits that of this
    /// one, at a clock where this one's would be worth something.
    pub fn no_device_like(&mut self, random: &mut Random, device: u32) {
        let now = self.worthy_clock(random, device);
        let devices = self.version.devices();
        let most = self.version.last_number() / devices;
        let high = random.between(1, most.into()) as u32;
        self.device(random, high * devices + device, now);
    }

    fn worthy_clock(&self, random: &mut Random, device: u32) -> u32 {
        let timer = &self.keeper.timers[device as usize];
        loop {
            let ticks = random.between(2, 100_000) as u32;
            let ticks = random.pick(&[ticks, ticks.wrapping_neg()]);
            let now = timer.clock.wrapping_add(ticks);
            if timer.worth(now) > 0 {
                return now;
            }
        }
    }

    /// An event within one tick of the last, which is worth nothing.
    pub fn worthless_event(&mut self, random: &mut Random, device: u32) {
        let clock = self.keeper.timers[device as usize].clock;
        let ticks = random.pick(&[0, 1, u32::MAX]);
        self.device(random, device, clock.wrapping_add(ticks));
    }

    pub fn interrupt(&mut self, random: &mut Random, now: u32) {
        self.add(Record::Interrupt {
            now,
            number: random.below(256) as u32,
            stamp: random.u64(),
            address: random.u64(),
        });
    }

    /// An interrupt that spills by time.
    pub fn spill(&mut self, random: &mut Random) {
        let late = self.keeper.last_spill.wrapping_add(1_001);
        self.interrupt(random, late);
    }

    pub fn generator(&mut self, now: u32, length: u16) {
        self.add(Record::Generator { now, length });
    }

    pub fn blocking(&mut self, length: u16) {
        let now = self.now;
        self.add(Record::Blocking { now, length });
    }

    pub fn seed(&mut self, random: &mut Random, bits: u32, length: usize) {
        let now = self.now;
        self.add(Record::Seed {
            now,
            credit: bits,
            bytes: Cow::Owned(random.bytes(length)),
        });
    }

    /// A seed with just enough bytes for its credit, or a few more.
    pub fn credit(&mut self, random: &mut Random, bits: u32) {
        let length = least_bytes(bits) + random.below(3) as usize;
        self.seed(random, bits, length.min(LONGEST));
    }

    /// The most bits that add nothing to the input pool.
    pub fn bits_for_nothing(&self) -> u32 {
        let count = self.keeper.input.count;
        most_bits(count, count)
    }

    /// Credits until the input count is the target, or just below it.
    pub fn steer(&mut self, random: &mut Random, target: u32) {
        for _ in 0..8 {
            let count = self.keeper.input.count;
            if count >= target {
                return;
            }
            let most = most_bits(count, target);
            if credited(count, INPUT.size, most).count == target {
                return self.credit(random, most);
            }
            // Where no one credit fits, a bit before it rounds off otherwise.
            let far = most == 8 * LONGEST as u32;
            self.credit(random, if far { most } else { 1 });
        }
        let most = most_bits(self.keeper.input.count, target);
        self.credit(random, most);
    }

    /// The same, and where it falls short of `least`, a bit at a time until it
    /// does not.
    pub fn steer_above(&mut self, random: &mut Random, least: u32, target: u32) {
        self.steer(random, target);
        while self.keeper.input.count < least {
            self.credit(random, 1);
        }
    }

    /// Brings the count to where one bit more seeds the keeper.
    pub fn just_unseeded(&mut self, random: &mut Random) {
        let count = random.between(1_019, 1_023) as u32;
        self.steer_above(random, 1_019, count);
    }

    /// Spills by time, until an interrupt at `now` will spill by time too. A
    /// quarter of the clock at a step always comes by such a place.
    pub fn wait_for_a_spill(&mut self, random: &mut Random, now: u32) {
        while clock_difference(now, self.keeper.last_spill) <= 1_000 {
            let later = self.keeper.last_spill.wrapping_add(HALF / 2);
            self.interrupt(random, later);
        }
    }

    /// Seeds the keeper if need be, and reads: what was mixed into the input
    /// pool shows in no other way.
    pub fn reveal(&mut self, random: &mut Random) {
        if !self.keeper.seeded {
            self.credit(random, 200);
        }
        self.generator(self.now, 4);
    }

    /// A few calls that show what the keeper has become.
    pub fn probe(&mut self, random: &mut Random) {
        for _ in 0..random.between(1, 4) {
            let near = 64 * random.between(1, 3);
            let length = [
                random.between(1, 40),
                random.between(near - 1, near + 1),
                random.between(near + 31, near + 33),
            ];
            let length = random.pick(&length) as u16;
            match random.below(3) {
                0 => self.blocking(length),
                _ => self.generator(self.now, length),
            }
        }
    }
}

/// The most bits that can be credited without passing the target.
fn most_bits(count: u32, target: u32) -> u32 {
    let (mut low, mut high) = (0, 8 * LONGEST as u32);
    while low < high {
        let middle = (low + high + 1) / 2;
        if credited(count, INPUT.size, middle).count <= target {
            low = middle;
        } else {
            high = middle - 1;
        }
    }
    low
}

#[cfg(test)]
mod tests {
    use super::*;

    #[test]
    fn steering_reaches_its_target() {
        let mut random = Random::new(0, 0);
        for target in [63, 64, 65, 511, 512, 513, 1_019, 1_023] {
            let mut draft = Draft::new(Version::Two, [0; START], 0);
            draft.steer(&mut random, target);
            assert_eq!(draft.keeper.input.count, target);
        }
    }

    #[test]
    fn after_three_events_the_ticks_of_the_next_decide() {
        let mut random = Random::new(0, 1);
        for last in [0, 77, 1 << 31, u32::MAX] {
            for (ticks, units) in [(0, 0), (1, 0), (2, 6), (4, 12), (2_047, 60), (4_096, 66)] {
                for now in [last.wrapping_add(ticks), last.wrapping_sub(ticks)] {
                    let mut draft = Draft::new(Version::Two, [0; START], 0);
                    draft.introduce(&mut random, 1_023, last);
                    assert_eq!(draft.keeper.input.count, 0);
                    draft.device(&mut random, 1_023, now);
                    assert_eq!(draft.keeper.input.count, units);
                }
            }
        }
    }
}
