//! The keeper record and the calls on it.

use crate::cipher;
use crate::credits::{clock_difference, credited, debited, estimate, Credited};
use crate::pools::{Pool, BLOCKING, INPUT};
use crate::rules::rules;

// The numbers a call gives back.
pub const DONE: u8 = 0;
pub const WOULD_BLOCK: u8 = 1;
pub const UNSEEDED: u8 = 2;
pub const TOO_LONG: u8 = 3;
pub const NO_DEVICE: u8 = 4;
pub const TOO_MUCH_CREDIT: u8 = 5;
pub const BAD_START: u8 = 6;
pub const REPEATED: u8 = 7;
pub const OUT_OF_RANGE: u8 = 17;

/// The start bytes of a keeper.
pub const START: usize = 48;
/// The longest write, seed or read.
pub const LONGEST: usize = 4_096;
pub const DEVICES: usize = 1_024;

/// Interrupts that make the fast pool spill, and the ticks after which it
/// spills anyway.
const SPILL_TALLY: u32 = 64;
const SPILL_TICKS: i64 = 1_000;
/// The ticks after which a generator read asks for a new key first.
const RESEED_TICKS: i64 = 300_000;
/// The input count at which an unseeded keeper seeds itself.
const SEED_COUNT: u32 = 1_024;

const D1_LEAST: i64 = -(1 << 31);
const D1_MOST: i64 = (1 << 31) - 1;
const D2_MOST: i64 = (1 << 32) - 1;
/// The kept events of a device that have to come before one earns; no more
/// than these are counted.
pub const CAME_MOST: u32 = 3;

/// What a device left behind at its last event.
#[derive(Clone, Copy, Debug, Default, PartialEq)]
pub struct Timer {
    pub clock: u32,
    pub d1: i64,
    pub d2: i64,
    /// How many kept events came so far, up to three.
    pub came: u32,
}

impl Timer {
    fn in_range(&self) -> bool {
        (D1_LEAST..=D1_MOST).contains(&self.d1)
            && (-D2_MOST..=D2_MOST).contains(&self.d2)
            && self.came <= CAME_MOST
    }

    /// The timer once an event at `now` is kept.
    fn after(&self, now: u32) -> Timer {
        let d1 = clock_difference(now, self.clock);
        Timer {
            clock: now,
            d1,
            d2: d1 - self.d1,
            came: CAME_MOST.min(self.came + 1),
        }
    }

    /// The bits that an event at `now` is worth by its three differences,
    /// whether it earns them or not.
    pub fn worth(&self, now: u32) -> u32 {
        let after = self.after(now);
        estimate(after.d1, after.d2, after.d2 - self.d2)
    }

    /// The bits that an event at `now` earns. Until the fourth, a difference
    /// still goes back to the clock of zero that no event had.
    pub fn earned(&self, now: u32) -> u32 {
        if self.came < rules().new_events {
            0
        } else {
            self.worth(now)
        }
    }
}

#[derive(Clone, Debug, PartialEq)]
pub struct Keeper {
    pub input: Pool,
    pub blocking: Pool,
    /// One for each device.
    pub timers: Vec<Timer>,
    /// The value of device 0's last event.
    pub last_value: u32,
    pub fast: [u32; 4],
    pub tally: u32,
    pub last_spill: u32,
    pub generator: [u32; 16],
    pub seeded: bool,
    pub seeding_clock: u32,
}

/// What a call answers, with the work it did.
#[derive(Clone, Copy, Debug, Default, PartialEq)]
pub struct Answer {
    pub number: u8,
    pub delivered: usize,
    pub blocks: u64,
    pub compressions: u64,
    /// The units that crediting added, over both pools. A debit in the same
    /// call, for a first seeding or for what is delivered, does not lower it.
    pub added: u32,
    /// The bytes taken out of the input pool. Nobody is told: it is here to hold
    /// the counts against.
    pub taken: usize,
    /// The bits that the input pool was credited, before it dampened them. Nobody
    /// is told of these either: the ledger is held against them.
    pub bits: u32,
}

impl Answer {
    pub fn refusal(number: u8) -> Answer {
        Answer {
            number,
            ..Answer::default()
        }
    }
}

impl Keeper {
    /// A fresh keeper, or number 6 where the start has the wrong length.
    pub fn make(start: &[u8]) -> Result<Keeper, u8> {
        if start.len() != START {
            return Err(BAD_START);
        }
        let mut generator = [0; 16];
        generator[..4].copy_from_slice(&cipher::CONSTANTS);
        for (word, part) in generator[4..].iter_mut().zip(start.chunks_exact(4)) {
            *word = u32::from_le_bytes([part[0], part[1], part[2], part[3]]);
        }
        Ok(Keeper {
            input: Pool::fresh(&INPUT),
            blocking: Pool::fresh(&BLOCKING),
            timers: vec![Timer::default(); DEVICES],
            last_value: 0,
            fast: [0; 4],
            tally: 0,
            last_spill: 0,
            generator,
            seeded: false,
            seeding_clock: 0,
        })
    }

    /// Whether a lent record is one that a keeper could work with.
    pub fn in_range(&self) -> bool {
        self.input.in_range()
            && self.blocking.in_range()
            && self.tally < SPILL_TALLY
            && self.timers.iter().all(Timer::in_range)
            && self.generator[..4] == cipher::CONSTANTS
    }

    pub fn device_event(&mut self, device: u32, now: u32, stamp: u64, value: u32) -> Answer {
        if !self.in_range() {
            return Answer::refusal(OUT_OF_RANGE);
        }
        if device as usize >= DEVICES {
            return Answer::refusal(NO_DEVICE);
        }
        if device == 0 {
            if value == self.last_value {
                return Answer::refusal(REPEATED);
            }
            self.last_value = value;
        }
        self.input.mix(&stamp.to_le_bytes());
        self.input.mix(&now.to_le_bytes());
        self.input.mix(&value.to_le_bytes());

        let timer = &mut self.timers[device as usize];
        let earned = timer.earned(now);
        *timer = timer.after(now);
        self.credit_input(earned, now)
    }

    pub fn interrupt(&mut self, now: u32, number: u32, stamp: u64, address: u64) -> Answer {
        if !self.in_range() {
            return Answer::refusal(OUT_OF_RANGE);
        }
        let [a, b, c, d] = self.fast;
        self.fast = stir([
            a ^ low(stamp) ^ number,
            b ^ now ^ high(stamp),
            c ^ low(address),
            d ^ high(address),
        ]);
        self.tally += 1;
        // A clock that ran back is a short wait, not a long one.
        let waited = clock_difference(now, self.last_spill);
        if self.tally < SPILL_TALLY && waited <= SPILL_TICKS {
            return Answer::default();
        }
        for word in self.fast {
            self.input.mix(&word.to_le_bytes());
        }
        self.tally = 0;
        self.last_spill = now;
        self.credit_input(1, now)
    }

    pub fn write(&mut self, bytes: &[u8]) -> Answer {
        if !self.in_range() {
            return Answer::refusal(OUT_OF_RANGE);
        }
        if bytes.len() > LONGEST {
            return Answer::refusal(TOO_LONG);
        }
        self.input.mix(bytes);
        Answer::default()
    }

    pub fn seed(&mut self, now: u32, bytes: &[u8], bits: u32) -> Answer {
        if !self.in_range() {
            return Answer::refusal(OUT_OF_RANGE);
        }
        if bytes.len() > LONGEST {
            return Answer::refusal(TOO_LONG);
        }
        if bits as usize > 8 * bytes.len() {
            return Answer::refusal(TOO_MUCH_CREDIT);
        }
        self.input.mix(bytes);
        self.credit_input(bits, now)
    }

    /// Fills the whole room, or leaves all of it alone.
    pub fn generator_read(&mut self, now: u32, room: &mut [u8]) -> Answer {
        if !self.in_range() {
            return Answer::refusal(OUT_OF_RANGE);
        }
        if room.len() > LONGEST {
            return Answer::refusal(TOO_LONG);
        }
        if room.is_empty() {
            return Answer::default();
        }
        if !self.seeded {
            return Answer::refusal(UNSEEDED);
        }
        let mut answer = Answer {
            delivered: room.len(),
            ..Answer::default()
        };
        if clock_difference(now, self.seeding_clock) > RESEED_TICKS {
            self.reseed(now, &mut answer);
        }
        let mut block = [0; 16];
        let mut used = 0;
        for part in room.chunks_mut(64) {
            block = self.next_block();
            answer.blocks += 1;
            part.copy_from_slice(&cipher::bytes(&block)[..part.len()]);
            used = (part.len() + 3) / 4;
        }
        // The key changes after every read, by words nobody was given: those
        // left in the last block, or a whole new block's where too few are.
        if used + 8 > 16 {
            block = self.next_block();
            answer.blocks += 1;
            used = 0;
        }
        for (key, word) in self.generator[4..12].iter_mut().zip(&block[used..]) {
            *key ^= word;
        }
        answer
    }

    /// Fills the beginning of the room as far as the blocking pool is good for.
    pub fn blocking_read(&mut self, room: &mut [u8]) -> Answer {
        if !self.in_range() {
            return Answer::refusal(OUT_OF_RANGE);
        }
        let wanted = room.len();
        if wanted > LONGEST {
            return Answer::refusal(TOO_LONG);
        }
        if wanted == 0 {
            return Answer::default();
        }
        if self.blocking.count < 64 && self.input.count < 512 {
            return Answer::refusal(WOULD_BLOCK);
        }
        let mut answer = Answer::default();
        if (self.blocking.count as usize) < 64 * wanted {
            self.refill_blocking(wanted, &mut answer);
        }
        let (taken, left) = debited(self.blocking.count, wanted, 0);
        if rules().delivery_paid {
            self.blocking.count = left;
        }
        let (bytes, compressions) = self.blocking.extract(taken);
        answer.compressions += compressions;
        answer.delivered = taken;
        room[..taken].copy_from_slice(&bytes);
        answer
    }

    /// Moves bytes from the input pool to the blocking pool.
    fn refill_blocking(&mut self, wanted: usize, answer: &mut Answer) {
        let unpaid = self.input.count;
        let bytes = self.take_input(wanted.clamp(8, 128), 8, answer);
        if !rules().transfer_paid {
            self.input.count = unpaid;
        }
        self.blocking.mix(&bytes);
        let bits = rules().transferred * bytes.len() as u32;
        let Credited { count, added } = credited(self.blocking.count, BLOCKING.size, bits);
        self.blocking.count = count;
        answer.added += added;
    }

    /// Credits the input pool, which may seed the keeper for the first time.
    fn credit_input(&mut self, bits: u32, now: u32) -> Answer {
        let Credited { count, added } = credited(self.input.count, INPUT.size, bits);
        self.input.count = count;
        let mut answer = Answer {
            added,
            bits,
            ..Answer::default()
        };
        if bits > 0 && !self.seeded && count >= SEED_COUNT {
            self.reseed(now, &mut answer);
        }
        answer
    }

    /// Brings bytes of the input pool into the key, if there are enough.
    fn reseed(&mut self, now: u32, answer: &mut Answer) {
        let bytes = self.take_input(32, 16, answer);
        if bytes.is_empty() {
            return;
        }
        for (i, byte) in bytes.into_iter().enumerate() {
            self.generator[4 + i / 4] ^= u32::from(byte) << (8 * (i % 4));
        }
        self.seeding_clock = now;
        self.seeded = true;
    }

    /// Takes bytes out of the input pool, and none where there are fewer than
    /// the least.
    fn take_input(&mut self, wanted: usize, least: usize, answer: &mut Answer) -> Vec<u8> {
        let (taken, left) = debited(self.input.count, wanted, least);
        self.input.count = left;
        let (bytes, compressions) = self.input.extract(taken);
        answer.compressions += compressions;
        // By the bytes themselves, and not by what the debit says.
        answer.taken += bytes.len();
        bytes
    }

    fn next_block(&mut self) -> [u32; 16] {
        let block = cipher::block(&self.generator);
        self.generator[12] = self.generator[12].wrapping_add(1);
        if self.generator[12] == 0 {
            self.generator[13] = self.generator[13].wrapping_add(1);
        }
        block
    }
}

/// The fewest bytes that a seed of this many bits may have.
pub fn least_bytes(bits: u32) -> usize {
    (bits as usize + 7) / 8
}

fn low(number: u64) -> u32 {
    number as u32
}

fn high(number: u64) -> u32 {
    (number >> 32) as u32
}

/// The stirring of the fast pool after an interrupt came in.
fn stir([mut a, mut b, mut c, mut d]: [u32; 4]) -> [u32; 4] {
    for (turn_b, turn_d) in [(6, 27), (16, 14), (6, 27), (16, 14)] {
        a = a.wrapping_add(b);
        c = c.wrapping_add(d);
        b = b.rotate_left(turn_b);
        d = d.rotate_left(turn_d);
        d ^= a;
        b ^= c;
    }
    [a, b, c, d]
}

#[cfg(test)]
mod tests {
    use super::*;

    fn fresh() -> Keeper {
        Keeper::make(&[0; START]).unwrap()
    }

    /// A keeper after one seed call that names this many bits.
    fn after_credit(bits: u32) -> (Keeper, Answer) {
        let mut keeper = fresh();
        let bytes = vec![0x5a; least_bytes(bits)];
        let answer = keeper.seed(7, &bytes, bits);
        (keeper, answer)
    }

    fn counter(keeper: &Keeper) -> u64 {
        u64::from(keeper.generator[13]) << 32 | u64::from(keeper.generator[12])
    }

    #[test]
    fn a_start_must_have_its_length() {
        assert_eq!(Keeper::make(&[0; 47]), Err(BAD_START));
        assert_eq!(Keeper::make(&[0; 49]), Err(BAD_START));
        let start: Vec<u8> = (0..48).collect();
        let keeper = Keeper::make(&start).unwrap();
        assert_eq!(keeper.generator[4], 0x0302_0100);
        assert_eq!(keeper.generator[15], 0x2f2e_2d2c);
    }

    #[test]
    fn p3_and_p4_in_a_timer() {
        let mut keeper = fresh();
        keeper.device_event(3, 0xffff_ffff, 0, 0);
        keeper.device_event(3, 4, 0, 0);
        assert_eq!(keeper.timers[3].d1, 5);
        keeper.device_event(4, 0x8000_0000, 0, 0);
        assert_eq!(keeper.timers[4].d1, -2_147_483_648);
        assert_eq!(keeper.timers[4].d2, -2_147_483_648);
    }

    /// Was 60 units, before new devices earned nothing.
    #[test]
    fn device_one_at_1_024() {
        let mut keeper = fresh();
        assert_eq!(keeper.timers[1].worth(1_024), 10);
        assert_eq!(keeper.device_event(1, 1_024, 9, 9), Answer::default());
        assert_eq!(keeper.input.count, 0);
        assert_eq!(keeper.input.position, 112);
        let expected = Timer {
            clock: 1_024,
            d1: 1_024,
            d2: 1_024,
            came: 1,
        };
        assert_eq!(keeper.timers[1], expected);
    }

    /// Clocks at which each of five events is worth something.
    const FIVE: [u32; 5] = [1_024, 1_100, 9_000, 9_500, 70_000];

    /// Numbers past the last device, such as a narrow field would take for one
    /// among them.
    const NO_DEVICES: [u32; 9] = [
        1_024,
        1_025,
        1_280,
        2_047,
        65_535,
        65_536,
        65_536 + 3,
        1 << 31,
        u32::MAX,
    ];

    /// What the input count rises by at each of these events: a device, its
    /// clock and its value. The answers say the same.
    fn rises(keeper: &mut Keeper, events: &[(u32, u32, u32)]) -> Vec<u32> {
        let one = |(device, now, value): &(u32, u32, u32)| {
            let before = keeper.input.count;
            let answer = keeper.device_event(*device, *now, 9, *value);
            assert_eq!(answer.added, keeper.input.count - before);
            answer.added
        };
        events.iter().map(one).collect()
    }

    #[test]
    fn the_first_three_events_of_a_device_earn_nothing_and_the_next_two_do() {
        for device in 0..DEVICES {
            let mut keeper = fresh();
            for (now, came) in FIVE.into_iter().zip([0, 1, 2, 3, 3]) {
                let timer = keeper.timers[device];
                assert_eq!(timer.came, came);
                assert!(timer.worth(now) > 0);
                let expected = if came < 3 { 0 } else { timer.worth(now) };
                let expected = credited(keeper.input.count, INPUT.size, expected);
                let answer = keeper.device_event(device as u32, now, 9, now);
                assert_eq!(keeper.input.count, expected.count);
                assert_eq!(answer.added, expected.added);
            }
            assert_eq!(keeper.timers[device].came, 3);
            assert!(keeper.input.count > 0);
            let others = (0..DEVICES).filter(|other| *other != device);
            for other in others {
                assert_eq!(keeper.timers[other], Timer::default());
            }
        }
    }

    #[test]
    fn a_timer_is_kept_from_the_first_event_on() {
        let mut keeper = fresh();
        let mut kept = Vec::new();
        for now in FIVE {
            keeper.device_event(6, now, 9, 9);
            let Timer {
                clock,
                d1,
                d2,
                came,
            } = keeper.timers[6];
            kept.push((clock, d1, d2, came));
        }
        let expected = [
            (1_024, 1_024, 1_024, 1),
            (1_100, 76, -948, 2),
            (9_000, 7_900, 7_824, 3),
            (9_500, 500, -7_400, 3),
            (70_000, 60_500, 60_000, 3),
        ];
        assert_eq!(kept, expected);
        // The fourth is worth 8 bits by its first difference, the fifth 11.
        assert_eq!(keeper.input.count, 48 + 65);
    }

    #[test]
    fn a_repeated_event_does_not_count() {
        let [first, second, third, fourth, fifth] = FIVE;
        let mut keeper = fresh();
        let events = [
            (0, first, 0),
            (0, first, 5),
            (0, second, 5),
            (0, second, 6),
            (0, third, 6),
            (0, third, 7),
            (0, fourth, 7),
        ];
        assert_eq!(rises(&mut keeper, &events), [0; 7]);
        assert_eq!(keeper.timers[0].came, 3);
        assert_eq!(rises(&mut keeper, &[(0, fourth, 8)]), [48]);
        assert_eq!(rises(&mut keeper, &[(0, fifth, 8), (0, fifth, 9)]), [0, 65]);
    }

    #[test]
    fn a_value_like_the_last_counts_on_other_devices() {
        let mut keeper = fresh();
        let events = FIVE.map(|now| (1, now, 0));
        assert_eq!(rises(&mut keeper, &events), [0, 0, 0, 48, 65]);
    }

    #[test]
    fn refused_devices_and_records_out_of_range_do_not_count() {
        let mut keeper = fresh();
        let events = NO_DEVICES.map(|device| (device, 5_000, 1));
        assert_eq!(rises(&mut keeper, &events), [0; 9]);
        for device in NO_DEVICES {
            let answer = keeper.device_event(device, 5_000, 1, 1);
            assert_eq!(answer, Answer::refusal(NO_DEVICE));
        }
        keeper.tally = 64;
        assert_eq!(keeper.device_event(3, 5_000, 1, 1).number, OUT_OF_RANGE);
        keeper.tally = 0;
        assert_eq!(keeper, fresh());
    }

    #[test]
    fn each_device_has_a_count_of_its_own() {
        let mut keeper = fresh();
        let events: Vec<(u32, u32, u32)> = FIVE
            .iter()
            .flat_map(|now| [(2, *now, 1), (9, *now, 1)])
            .collect();
        let expected = [0, 0, 0, 0, 0, 0, 48, 47, 65, 65];
        assert_eq!(rises(&mut keeper, &events), expected);
    }

    #[test]
    fn numbers_that_look_alike_have_timers_of_their_own() {
        for (one, other) in [(0, 256), (3, 19), (255, 511), (511, 1_023), (1, 513)] {
            let mut keeper = fresh();
            let events = [one, one, other, one, one].into_iter().zip(FIVE);
            let events: Vec<(u32, u32, u32)> = events.map(|(d, now)| (d, now, now)).collect();
            let rises = rises(&mut keeper, &events);
            assert_eq!(rises[..4], [0; 4]);
            assert!(rises[4] > 0);
            assert_eq!(keeper.timers[other as usize].came, 1);
        }
    }

    #[test]
    fn only_device_0_refuses_a_value_that_it_told_before() {
        let mut keeper = fresh();
        keeper.device_event(0, 1, 1, 77);
        for device in [1, 16, 255, 256, 512, 768, 1_023] {
            assert_eq!(keeper.device_event(device, 1, 1, 77).number, DONE);
            assert_eq!(keeper.device_event(device, 1, 1, 77).number, DONE);
        }
        assert_eq!(keeper.device_event(0, 1, 1, 77).number, REPEATED);
    }

    #[test]
    fn events_worth_nothing_count() {
        let mut keeper = fresh();
        let events = [0, 1, 1, 4].map(|now| (7, now, 1));
        assert_eq!(rises(&mut keeper, &events), [0, 0, 0, 6]);
    }

    #[test]
    fn a_new_device_does_not_seed() {
        for (came, seeded) in [(0, false), (1, false), (2, false), (3, true)] {
            for count in [1_023, 1_024, 32_768] {
                let mut keeper = fresh();
                keeper.input.count = count;
                keeper.timers[5].came = came;
                let answer = keeper.device_event(5, 1_024, 9, 9);
                assert_eq!(keeper.seeded, seeded);
                assert_eq!(answer.compressions > 0, seeded);
                assert_eq!(keeper.input.count == count, !seeded);
            }
        }
    }

    /// The answer to a call that credits the input pool and takes nothing.
    fn adding(bits: u32, added: u32) -> Answer {
        Answer {
            added,
            bits,
            ..Answer::default()
        }
    }

    #[test]
    fn p5_and_p6_the_units_of_one_bit() {
        let (keeper, answer) = after_credit(1);
        assert_eq!((keeper.input.count, answer), (6, adding(1, 6)));
        let (mut keeper, _) = after_credit(4_096);
        keeper.input.count = 32_762;
        assert_eq!(keeper.seed(7, &[1], 1), adding(1, 0));
        assert_eq!(keeper.input.count, 32_762);
    }

    #[test]
    fn p7_credit_170_leaves_a_keeper_unseeded() {
        let (keeper, answer) = after_credit(170);
        assert_eq!((keeper.input.count, keeper.seeded), (1_020, false));
        assert_eq!(answer, adding(170, 1_020));
    }

    #[test]
    fn p8_to_p10_credits_that_seed() {
        for (bits, added, taken, left, compressions) in [
            (171, 1_026, 16, 2, 16),
            (256, 1_536, 24, 0, 24),
            (4_096, 19_968, 32, 17_920, 32),
        ] {
            let (keeper, answer) = after_credit(bits);
            assert_eq!((keeper.input.count, keeper.seeded), (left, true));
            let expected = Answer {
                compressions,
                added,
                taken,
                bits,
                ..Answer::default()
            };
            assert_eq!(answer, expected);
            assert_eq!(keeper.seeding_clock, 7);
            let touched = |words: &[u32]| words.iter().filter(|w| **w != 0).count();
            let key_words = match bits {
                171 => 4,
                256 => 6,
                _ => 8,
            };
            assert_eq!(touched(&keeper.generator[4..12]), key_words);
            assert_eq!(keeper.generator[12..], [0; 4]);
        }
    }

    #[test]
    fn p11_a_blocking_read_after_p10() {
        let (mut keeper, _) = after_credit(4_096);
        let mut room = [0xee; 16];
        let expected = Answer {
            number: DONE,
            delivered: 12,
            blocks: 0,
            compressions: 20,
            added: 768,
            taken: 16,
            bits: 0,
        };
        assert_eq!(keeper.blocking_read(&mut room), expected);
        assert_eq!((keeper.input.count, keeper.blocking.count), (16_896, 0));
        assert_eq!(room[12..], [0xee; 4]);
    }

    /// The units that a blocking read adds, and what it delivers and leaves, of
    /// a keeper with these counts of the input and the blocking pool.
    fn blocking_read(counts: (u32, u32), length: usize) -> (u32, usize, (u32, u32)) {
        let (mut keeper, _) = after_credit(4_096);
        (keeper.input.count, keeper.blocking.count) = counts;
        let answer = keeper.blocking_read(&mut vec![0; length]);
        let counts = (keeper.input.count, keeper.blocking.count);
        (answer.added, answer.delivered, counts)
    }

    #[test]
    fn a_blocking_read_adds_what_its_transfer_is_worth_before_it_delivers() {
        // Eight bytes for one, and what is left.
        assert_eq!(blocking_read((600, 0), 1), (384, 1, (88, 320)));
        assert_eq!(blocking_read((600, 63), 1), (381, 1, (88, 380)));
        // 128 bytes, which is two turns: 3,072 and 1,920.
        assert_eq!(blocking_read((9_000, 0), 200), (4_992, 78, (808, 0)));
        // A transfer to a full pool, or one so full that it adds nothing.
        assert_eq!(blocking_read((9_000, 8_192), 200), (0, 128, (808, 0)));
        assert_eq!(blocking_read((9_000, 8_190), 128), (0, 127, (808, 62)));
        assert_eq!(blocking_read((9_000, 8_191), 128), (0, 127, (808, 63)));
    }

    #[test]
    fn a_blocking_read_without_a_transfer_adds_nothing() {
        // Its pool has enough, or the input pool too little.
        assert_eq!(blocking_read((9_000, 320), 5), (0, 5, (9_000, 0)));
        assert_eq!(blocking_read((511, 320), 6), (0, 5, (511, 0)));
        assert_eq!(blocking_read((9_000, 0), 0), (0, 0, (9_000, 0)));
        assert_eq!(blocking_read((511, 63), 1), (0, 0, (511, 63)));
    }

    #[test]
    fn a_seed_of_no_bits_adds_nothing() {
        for count in [0, 1_023, 17_920, 32_768] {
            let (mut keeper, _) = after_credit(4_096);
            keeper.input.count = count;
            assert_eq!(keeper.seed(7, &[1, 2, 3], 0), Answer::default());
            assert_eq!(keeper.seed(7, &[], 0), Answer::default());
            assert_eq!(keeper.input.count, count);
        }
    }

    /// A full pool may seed a keeper too, and adds nothing then.
    #[test]
    fn a_first_seeding_tells_what_was_added_before_it() {
        for (before, added, taken, left) in [
            (1_018, 5, 0, 1_023),
            (1_019, 5, 16, 0),
            (1_023, 5, 16, 4),
            (2_048, 5, 32, 5),
            (32_768, 0, 32, 30_720),
        ] {
            let mut keeper = fresh();
            keeper.input.count = before;
            let answer = keeper.seed(7, &[1], 1);
            assert_eq!((answer.added, answer.taken), (added, taken));
            assert_eq!((keeper.input.count, keeper.seeded), (left, taken > 0));
        }
    }

    #[test]
    fn a_call_that_credits_nothing_adds_nothing() {
        let (mut keeper, _) = after_credit(4_096);
        assert_eq!(keeper.write(&[1, 2, 3]), Answer::default());
        assert_eq!(keeper.generator_read(7, &mut [0; 4]).added, 0);
        // A reseed takes, and does not add.
        let answer = keeper.generator_read(300_008, &mut [0; 4]);
        assert_eq!((answer.added, answer.taken), (0, 32));
        assert_eq!(keeper.input.count, 17_920 - 64 * 32);
    }

    #[test]
    fn p12_blocks_of_a_generator_read() {
        for (length, blocks) in [(32, 1), (33, 2), (64, 2), (65, 2), (97, 3)] {
            let (mut keeper, _) = after_credit(4_096);
            let before = keeper.clone();
            let answer = keeper.generator_read(7, &mut vec![0; length]);
            assert_eq!(answer.blocks, blocks, "length {length}");
            assert_eq!(answer.compressions, 0);
            assert_eq!(counter(&keeper) - counter(&before), blocks);
            assert_ne!(keeper.generator[4..12], before.generator[4..12]);
        }
    }

    #[test]
    fn the_key_change_takes_the_words_after_the_used_ones() {
        for (length, from) in [(1, 1), (4, 1), (5, 2), (29, 8), (32, 8)] {
            let (mut keeper, _) = after_credit(4_096);
            let before = keeper.clone();
            let block = cipher::block(&before.generator);
            let mut room = vec![0; length];
            keeper.generator_read(7, &mut room);
            assert_eq!(room[..], cipher::bytes(&block)[..length]);
            for i in 0..8 {
                let changed = before.generator[4 + i] ^ block[from + i];
                assert_eq!(keeper.generator[4 + i], changed);
            }
        }
    }

    #[test]
    fn the_counter_carries_into_word_13_and_wraps() {
        let (mut keeper, _) = after_credit(4_096);
        keeper.generator[12] = u32::MAX;
        keeper.generator[13] = u32::MAX;
        let answer = keeper.generator_read(7, &mut [0; 33]);
        assert_eq!(answer.blocks, 2);
        assert_eq!(keeper.generator[12..14], [1, 0]);
    }

    #[test]
    fn a_read_reseeds_only_after_more_than_300_000_ticks() {
        let (seeded, _) = after_credit(4_096);
        for (now, compressions) in [
            (7 + 300_000, 0),
            (7 + 300_001, 32),
            (6, 0),
            (7 + 0x7fff_ffff, 32),
            (7 + 0x8000_0000, 0),
        ] {
            let mut keeper = seeded.clone();
            let answer = keeper.generator_read(now, &mut [0; 1]);
            assert_eq!(answer.compressions, compressions, "now {now}");
        }
    }

    #[test]
    fn a_due_reseed_without_enough_input_leaves_the_seeding_clock() {
        let (mut keeper, _) = after_credit(171);
        let answer = keeper.generator_read(400_000, &mut [0; 4]);
        assert_eq!((answer.delivered, answer.compressions), (4, 0));
        assert_eq!(keeper.seeding_clock, 7);
    }

    #[test]
    fn interrupts_spill_at_the_sixty_fourth_or_after_a_thousand_ticks() {
        let mut keeper = fresh();
        for _ in 0..63 {
            assert_eq!(keeper.interrupt(1_000, 1, 2, 3), adding(0, 0));
        }
        assert_eq!((keeper.tally, keeper.input.count), (63, 0));
        assert_eq!(keeper.interrupt(1_000, 1, 2, 3), adding(1, 6));
        assert_eq!((keeper.tally, keeper.input.count), (0, 6));
        assert_eq!((keeper.last_spill, keeper.input.position), (1_000, 112));

        let mut keeper = fresh();
        assert_eq!(keeper.interrupt(1_001, 1, 2, 3), adding(1, 6));
        assert_eq!((keeper.tally, keeper.last_spill), (0, 1_001));
        assert_eq!(keeper.interrupt(0, 1, 2, 3), adding(0, 0));
        assert_eq!((keeper.tally, keeper.last_spill), (1, 1_001));
    }

    #[test]
    fn a_spill_into_a_nearly_full_pool_adds_nothing() {
        for (count, added) in [(27_306, 1), (27_307, 0), (32_768, 0)] {
            let (mut keeper, _) = after_credit(4_096);
            keeper.input.count = count;
            assert_eq!(keeper.interrupt(1_001, 1, 2, 3), adding(1, added));
            assert_eq!((keeper.tally, keeper.input.count), (0, count + added));
        }
    }

    #[test]
    fn a_seed_may_have_no_fewer_bytes_than_its_bits_need() {
        for (bits, bytes) in [(0, 0), (1, 1), (8, 1), (9, 2), (171, 22)] {
            assert_eq!(least_bytes(bits), bytes);
            assert_eq!(fresh().seed(0, &vec![0; bytes], bits).number, DONE);
            if bytes > 0 {
                let fewer = vec![0; bytes - 1];
                assert_eq!(fresh().seed(0, &fewer, bits).number, TOO_MUCH_CREDIT);
            }
        }
    }

    #[test]
    fn refusals_change_nothing() {
        let (base, _) = after_credit(100);
        let mut keeper = base.clone();
        let long = vec![1; LONGEST + 1];
        let mut room = vec![9; LONGEST + 1];
        let refused = Answer::refusal;
        assert_eq!(keeper.device_event(1_024, 1, 1, 1), refused(NO_DEVICE));
        assert_eq!(keeper.device_event(0, 1, 1, 0), refused(REPEATED));
        assert_eq!(keeper.write(&long), refused(TOO_LONG));
        assert_eq!(keeper.seed(1, &long, u32::MAX), refused(TOO_LONG));
        assert_eq!(keeper.seed(1, &[1, 2], 17), refused(TOO_MUCH_CREDIT));
        assert_eq!(keeper.generator_read(1, &mut room), refused(TOO_LONG));
        assert_eq!(keeper.generator_read(1, &mut room[..1]), refused(UNSEEDED));
        assert_eq!(keeper.blocking_read(&mut room), refused(TOO_LONG));
        keeper.input.count = 511;
        assert_eq!(keeper.blocking_read(&mut room[..1]), refused(WOULD_BLOCK));
        keeper.input.count = base.input.count;
        assert_eq!(keeper.generator_read(1, &mut []), Answer::default());
        assert_eq!(keeper.blocking_read(&mut []), Answer::default());
        assert_eq!(keeper, base);
        assert!(room.iter().all(|b| *b == 9));
    }

    #[test]
    fn every_call_refuses_a_record_out_of_range() {
        type Damage = fn(&mut Keeper);
        let ways: [Damage; 26] = [
            |k| k.input.count = 32_769,
            |k| k.input.position = 128,
            |k| k.input.rotation = 32,
            |k| k.blocking.count = 8_193,
            |k| k.blocking.position = 32,
            |k| k.blocking.rotation = 32,
            |k| k.tally = 64,
            |k| k.timers[0].d1 = D1_MOST + 1,
            |k| k.timers[15].d1 = D1_LEAST - 1,
            |k| k.timers[15].d2 = D2_MOST + 1,
            |k| k.timers[0].d2 = -D2_MOST - 1,
            |k| k.timers[0].came = 4,
            |k| k.timers[8].came = 128,
            |k| k.timers[15].came = 255,
            |k| k.timers[16].d1 = D1_MOST + 1,
            |k| k.timers[255].d2 = -D2_MOST - 1,
            |k| k.timers[256].came = 4,
            |k| k.timers[1_023].d1 = D1_LEAST - 1,
            |k| k.timers[1_023].d1 = i64::MAX,
            |k| k.timers[1_023].d2 = D2_MOST + 1,
            |k| k.timers[1_023].came = 4,
            |k| k.generator[0] ^= 1,
            |k| k.generator[1] ^= 1 << 31,
            |k| k.generator[2] = 0,
            |k| k.generator[3] ^= 2,
            |k| k.generator.swap(0, 1),
        ];
        for way in ways {
            let (mut keeper, _) = after_credit(4_096);
            way(&mut keeper);
            let before = keeper.clone();
            let mut room = [3; LONGEST + 1];
            let answers = [
                keeper.device_event(1_024, 1, 1, 1),
                keeper.device_event(0, 1, 1, 0),
                keeper.interrupt(1, 1, 1, 1),
                keeper.write(&room),
                keeper.write(&[]),
                keeper.seed(1, &[], 1),
                keeper.generator_read(1, &mut []),
                keeper.generator_read(1, &mut room),
                keeper.blocking_read(&mut room[..1]),
                keeper.blocking_read(&mut []),
            ];
            for answer in answers {
                assert_eq!(answer, Answer::refusal(OUT_OF_RANGE));
            }
            assert_eq!(keeper, before);
            assert_eq!(room, [3; LONGEST + 1]);
        }
    }

    #[test]
    fn blocking_thresholds() {
        let (base, _) = after_credit(4_096);
        for (blocking, input, number) in [
            (63, 511, WOULD_BLOCK),
            (64, 511, DONE),
            (63, 512, DONE),
            (0, 512, DONE),
            (64, 0, DONE),
        ] {
            for length in [1, 8, 4_096] {
                let mut keeper = base.clone();
                keeper.blocking.count = blocking;
                keeper.input.count = input;
                let answer = keeper.blocking_read(&mut vec![0; length]);
                assert_eq!(answer.number, number);
                assert_eq!(answer.delivered > 0, number == DONE);
            }
        }
    }
}
