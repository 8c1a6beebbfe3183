//! Versions, start bytes, clocks, lengths, devices and records of any sort.

use std::borrow::Cow;

use super::HALF;
use crate::journal::{Record, Version};
use crate::keeper::{Keeper, START};
use crate::random::Random;
use crate::situations::{BORDER_DEVICES, BORDER_REFUSALS};

/// Either version, and a good half of the time the newer one.
pub fn version(random: &mut Random) -> Version {
    random.pick(&[
        Version::Two,
        Version::One,
        Version::Two,
        Version::One,
        Version::Two,
    ])
}

/// Start bytes; the counter in them is close to a carry now and then.
pub fn start(random: &mut Random) -> [u8; START] {
    let mut start = [0; START];
    if !random.one_in(8) {
        start.copy_from_slice(&random.bytes(START));
    }
    if random.one_in(4) {
        let word_12 = u32::MAX - random.below(3) as u32;
        let word_13 = random.pick(&[0, 1, u32::MAX - 1, u32::MAX]);
        start[32..36].copy_from_slice(&word_12.to_le_bytes());
        start[36..40].copy_from_slice(&word_13.to_le_bytes());
    }
    start
}

/// How the clock goes in one journal.
#[derive(Clone, Copy)]
pub enum Pace {
    On,
    Steady(u32),
    Jumping,
    Back,
    Wild,
    Changing,
}

impl Pace {
    pub fn any(random: &mut Random) -> Pace {
        let step = random.pick(&[0, 1, 2, 10, 1_000, 5_000]);
        random.pick(&[
            Pace::On,
            Pace::Steady(step),
            Pace::Jumping,
            Pace::Back,
            Pace::Wild,
            Pace::Changing,
        ])
    }

    pub fn next(self, random: &mut Random, now: u32) -> u32 {
        match self {
            Pace::On => now.wrapping_add(random.below(50) as u32),
            Pace::Steady(step) => now.wrapping_add(step),
            Pace::Jumping => now.wrapping_add(random.pick(&[
                1,
                7,
                100,
                999,
                1_000,
                1_001,
                4_097,
                299_999,
                300_000,
                300_001,
                1_000_000,
                HALF - 1,
                HALF,
                HALF + 1,
            ])),
            Pace::Back if random.one_in(3) => now.wrapping_sub(random.below(400_000) as u32),
            Pace::Back => now.wrapping_add(random.below(3_000) as u32),
            Pace::Wild => random.u32(),
            Pace::Changing => {
                let pace = random.pick(&[Pace::On, Pace::Jumping, Pace::Back, Pace::Wild]);
                pace.next(random, now)
            }
        }
    }
}

/// A clock to begin with: zero, anything, or soon to wrap.
pub fn first_clock(random: &mut Random) -> u32 {
    let any = random.u32();
    let soon = u32::MAX - random.below(200) as u32;
    random.pick(&[0, any, soon, HALF - 50])
}

/// The length of a read, now and then at the edges of what is allowed.
fn read_length(random: &mut Random) -> u16 {
    if random.one_in(12) {
        random.pick(&[4_095, 4_096, 4_097, 65_535])
    } else {
        let small = random.between(2, 140) as u16;
        random.pick(&[0, 1, small, small, small, small])
    }
}

/// The length of a write or seed; the largest only where asked for, as they
/// make large journals, and one too long ends the replay.
fn byte_length(random: &mut Random, large: bool) -> usize {
    if large && random.one_in(4) {
        random.pick(&[4_095, 4_096])
    } else {
        let small = random.between(2, 100) as usize;
        random.pick(&[0, 1, small, small, small])
    }
}

/// A credit for this many bytes: none, close to the most, or below it.
fn any_credit(random: &mut Random, length: usize) -> u32 {
    let most = 8 * length as u32;
    let below = random.below(u64::from(most) + 1) as u32;
    let over = most.saturating_add(random.pick(&[1, 1, 2, 1_000, u32::MAX]));
    random.pick(&[0, most, most, most.saturating_sub(1), below, below, over])
}

/// A device that a version has; of version 2 half of the time one where another
/// reading of the field would show.
pub fn any_device(random: &mut Random, version: Version) -> u32 {
    let any = random.below(version.devices().into()) as u32;
    match version {
        Version::One => any,
        Version::Two => {
            let border = random.pick(&BORDER_DEVICES);
            random.pick(&[any, border])
        }
    }
}

/// A number that a version's field holds and no device of it has.
pub fn no_device(random: &mut Random, version: Version) -> u32 {
    let (first, last) = (version.devices(), version.last_number());
    let any = random.between(first.into(), last.into()) as u32;
    match version {
        Version::One => any,
        Version::Two => {
            let border = random.pick(&BORDER_REFUSALS);
            random.pick(&[any, border])
        }
    }
}

/// Any device, and some that are none. Mostly it is one that came before: few
/// of the others come often enough to earn.
fn likely_device(random: &mut Random, version: Version, keeper: &Keeper) -> u32 {
    let last = u64::from(version.devices()) - 1;
    match random.below(10) {
        0 | 1 => 0,
        2..=6 => one_that_came(random, version, keeper),
        7 => any_device(random, version),
        8 => random.between(last, last + 5) as u32,
        _ => random.pick(&[14, 15, 16, 17, 254, 255, version.last_number()]),
    }
}

/// A device of which an event came, or any where none did.
fn one_that_came(random: &mut Random, version: Version, keeper: &Keeper) -> u32 {
    let came = keeper.timers.iter().enumerate();
    let came = came.filter(|(_, timer)| timer.came > 0);
    let devices: Vec<u32> = came.map(|(device, _)| device as u32).collect();
    match devices[..] {
        [] => any_device(random, version),
        _ => random.pick(&devices),
    }
}

/// Any record at all that a journal of this version may hold. `large` allows bytes
/// up to the longest.
pub fn any_record(
    random: &mut Random,
    version: Version,
    keeper: &Keeper,
    now: u32,
    large: bool,
) -> Record<'static> {
    match random.below(12) {
        0..=3 => {
            let device = likely_device(random, version, keeper);
            // Repeated values matter on device 0 and must not on others.
            let other = random.u32();
            let value = random.pick(&[keeper.last_value, 0, 1, other, other]);
            Record::Device {
                now,
                device,
                stamp: random.u64(),
                value,
            }
        }
        4 | 5 => Record::Interrupt {
            now,
            number: random.u32(),
            stamp: random.u64(),
            address: random.u64(),
        },
        6 => {
            let length = byte_length(random, large);
            Record::Write {
                now,
                bytes: Cow::Owned(random.bytes(length)),
            }
        }
        7 | 8 => {
            let length = byte_length(random, large);
            Record::Seed {
                now,
                credit: any_credit(random, length),
                bytes: Cow::Owned(random.bytes(length)),
            }
        }
        9 | 10 => Record::Generator {
            now,
            length: read_length(random),
        },
        _ => Record::Blocking {
            now,
            length: read_length(random),
        },
    }
}
