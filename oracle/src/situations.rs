//! The situations that a run of journals has to show.

use std::fmt;

use self::Situation::*;
use crate::journal::Version;

/// What seeded a keeper for the first time.
#[derive(Clone, Copy, Debug, PartialEq, Eq, PartialOrd, Ord)]
pub enum Seeder {
    Event,
    Interrupt,
    Seed,
}

impl Seeder {
    pub fn name(self) -> &'static str {
        match self {
            Seeder::Event => "a device event",
            Seeder::Interrupt => "an interrupt",
            Seeder::Seed => "a seed",
        }
    }
}

/// How far a generator read lies from the seeding clock.
#[derive(Clone, Copy, Debug, PartialEq, Eq, PartialOrd, Ord)]
pub enum Wait {
    NotDue,
    Due,
    RanBack,
}

/// What comes after a seed of 0 bits.
#[derive(Clone, Copy, Debug, PartialEq, Eq, PartialOrd, Ord)]
pub enum Next {
    Read,
    Reseed,
    BlockingRead,
}

/// A call that may credit a pool.
#[derive(Clone, Copy, Debug, PartialEq, Eq, PartialOrd, Ord)]
pub enum Creditor {
    Event,
    Interrupt,
    Seed,
    BlockingRead,
}

impl Creditor {
    /// Those that bits are awarded for.
    pub const AWARDED: [Creditor; 3] = [Creditor::Event, Creditor::Interrupt, Creditor::Seed];

    fn name(self) -> &'static str {
        match self {
            Creditor::Event => "a device event",
            Creditor::Interrupt => "an interrupt",
            Creditor::Seed => "a seed",
            Creditor::BlockingRead => "a blocking read",
        }
    }
}

/// A call that is awarded nothing, where another like it would have earned.
#[derive(Clone, Copy, Debug, PartialEq, Eq, PartialOrd, Ord)]
pub enum NotAwarded {
    /// It names too many bits.
    RefusedSeed,
    /// With another value it would have earned.
    RepeatedEvent,
    /// The device that has its low bits would have earned.
    NoDevice,
    /// It is worth something, and comes too early.
    NewDevice,
    /// It is not late enough, nor are there enough of them.
    NoSpill,
}

impl NotAwarded {
    pub const ALL: [NotAwarded; 5] = [
        NotAwarded::RefusedSeed,
        NotAwarded::RepeatedEvent,
        NotAwarded::NoDevice,
        NotAwarded::NewDevice,
        NotAwarded::NoSpill,
    ];

    fn name(self) -> &'static str {
        match self {
            NotAwarded::RefusedSeed => "a refused seed",
            NotAwarded::RepeatedEvent => "a repeated event",
            NotAwarded::NoDevice => "an event of no device",
            NotAwarded::NewDevice => "an event of a new device",
            NotAwarded::NoSpill => "an interrupt that only stirs",
        }
    }
}

/// What came of it, by the units that its answer carries.
#[derive(Clone, Copy, Debug, PartialEq, Eq, PartialOrd, Ord)]
pub enum Worth {
    /// Nothing was credited.
    NoBits,
    /// Bits were, and the pool is so full that they add nothing.
    NoUnits,
    OneTurn,
    /// By how many turns.
    SeveralTurns,
}

/// Some are looked for at each of many values: all tallies, all kinds, all
/// lengths. The others have the one value 0.
#[derive(Clone, Copy, Debug, PartialEq, Eq, PartialOrd, Ord)]
pub enum Situation {
    Answer(u8),
    End(u8),
    /// By the answer, and by the number that ends the replay behind a good
    /// header.
    AnswerIn(Version),
    EndIn(Version),
    /// A generator read while the key is still that of the first seeding, with
    /// input enough for another, and whether the clock went through zero.
    FirstSeeded(Seeder, Wait, bool),
    /// A seed of 0 bits, with bytes, on a count that would seed a keeper.
    NothingCredited(Next),
    NoSpillAt1000,
    SpillAt1001,
    /// By the tally that the interrupt itself made.
    SpillByTime,
    SpillByTimePastZero,
    /// By the tally of the spill by time before it.
    SpillByNumberAfterTime,
    SpillByNumberAfterRunningBack,
    KindWhole(Version),
    /// A record of a kind, by how many of its bytes are there.
    CutIn(Version, u8),
    UnknownKindAlone,
    UnknownKindFollowed,
    /// By the device; so is the next.
    DeviceDone(Version),
    DeviceRefused(Version),
    /// By which of its device's events it is. It is worth something.
    NewDeviceEarnsNothing,
    /// By the bits that the difference with a clock of zero is worth.
    FirstClockEarnsNothing,
    /// By which of its device's events it is.
    KnownDeviceEarns,
    /// By the device: its third event, worth something, earned nothing.
    EarnsFromTheFourthOn(Version),
    /// By how far its number lies from that of another device, of which an event
    /// had been kept. The third, worth something, earns nothing all the same.
    OtherDeviceDoesNotCount,
    /// By the device, which is another than 0.
    LastValueOfDevice0Kept,
    /// By how many of device 0's events had come before the repeated one. The
    /// third, worth something, earns nothing all the same.
    RepeatedDoesNotCount,
    /// The same, after a number past the last device was refused that has its low
    /// bits in common with the device: as many bits as devices need.
    RefusedDoesNotCount(Version),
    /// By which of the first three is worth nothing. The fourth earns.
    WorthNothingCounts,
    /// Up to the fourth event of each.
    TwoDevicesInTurn,
    /// By which of its device's events it is; so is the next. What it is worth
    /// would have seeded the keeper.
    NewDeviceDoesNotSeed,
    KnownDeviceSeeds,
    Credit(Creditor, Worth),
    /// A seed of which a part is left over, as the pool is full before it.
    FullBeforeTheRest,
    /// A blocking read that delivers what its own pool has, and whether that is
    /// all it wants.
    NoTransfer(bool),
    /// More units than the count has once the bytes of the key are taken.
    FirstSeedingAdds(Seeder),
    /// By the number. The call before it added units.
    RefusedAfterAdding,
    /// By the kind, of those that never credit. The call before it added units.
    OtherAfterAdding,
    /// By how many deliveries of the journal have: 128 times the bytes delivered
    /// are nine times the bits awarded.
    BoundReached,
    /// By the length of the read.
    BoundReachedAsking,
    BoundReachedAfter(NotAwarded),
    /// By how much the bits are more than that after a delivery.
    BoundMissedBy,
    DeliveredAfter(Creditor),
    /// By the bytes that the first seeding took for the key.
    DeliveredAfterKey,
    /// By the length; so are the next two. One that is cut before it tells its
    /// version is right for either.
    HeaderRight(Version),
    HeaderLetters,
    HeaderVersion,
    /// By the letter's place, from 1.
    OneLetterWrong,
    OneLetterLower,
    AllLettersLower,
    /// Whether the version behind wrong letters is the right one.
    LettersBeforeVersion(bool),
    /// By the version.
    VersionWrong,
}

/// What may come of each call. An event or a spill is worth less than a turn,
/// and no journal fills the blocking pool.
const CREDITS: [(Creditor, Worth); 12] = [
    (Creditor::Event, Worth::NoBits),
    (Creditor::Event, Worth::NoUnits),
    (Creditor::Event, Worth::OneTurn),
    (Creditor::Interrupt, Worth::NoBits),
    (Creditor::Interrupt, Worth::NoUnits),
    (Creditor::Interrupt, Worth::OneTurn),
    (Creditor::Seed, Worth::NoBits),
    (Creditor::Seed, Worth::NoUnits),
    (Creditor::Seed, Worth::OneTurn),
    (Creditor::Seed, Worth::SeveralTurns),
    (Creditor::BlockingRead, Worth::OneTurn),
    (Creditor::BlockingRead, Worth::SeveralTurns),
];

/// Devices of version 2 whose events come in every run, in pairs that lie 1, 16,
/// 256 and 512 apart.
pub const BORDER_DEVICES: [u32; 12] = [0, 1, 15, 16, 17, 255, 256, 257, 511, 512, 1_022, 1_023];

/// Numbers of version 2 that no device has and that come in every run. Cut to ten
/// bits or to eight, most of them are one of those above.
pub const BORDER_REFUSALS: [u32; 12] = [
    1_024, 1_025, 1_039, 1_040, 1_279, 1_280, 2_047, 2_048, 32_767, 32_768, 65_280, 65_535,
];

/// The bytes that are there of a record which is cut in its fields, or behind them
/// where it has bytes of its own.
fn cuts(version: Version, kind: u8) -> Vec<u32> {
    let last = match kind {
        1 => 16 + version.device_bytes() as u32,
        2 => 24,
        3 => 7,
        4 => 11,
        _ => 6,
    };
    (1..=last).collect()
}

impl Situation {
    /// All of them, in the order in which they are told.
    pub fn all() -> Vec<Situation> {
        let mut all = Vec::new();
        all.extend([0, 1, 2, 3, 4, 5, 7].map(Answer));
        all.extend([0, 3, 8, 9, 10, 11, 12].map(End));
        all.extend(Version::ALL.map(AnswerIn));
        all.extend(Version::ALL.map(EndIn));
        for seeder in [Seeder::Event, Seeder::Interrupt, Seeder::Seed] {
            for wait in [Wait::NotDue, Wait::Due, Wait::RanBack] {
                all.extend([false, true].map(|past_zero| FirstSeeded(seeder, wait, past_zero)));
            }
        }
        all.extend([Next::Read, Next::Reseed, Next::BlockingRead].map(NothingCredited));
        all.extend([
            NoSpillAt1000,
            SpillAt1001,
            SpillByTime,
            SpillByTimePastZero,
            SpillByNumberAfterTime,
            SpillByNumberAfterRunningBack,
        ]);
        all.extend(Version::ALL.map(KindWhole));
        // All records of version 2, and the one that is another in version 1.
        all.push(CutIn(Version::One, 1));
        all.extend((1..=6).map(|kind| CutIn(Version::Two, kind)));
        all.extend([UnknownKindAlone, UnknownKindFollowed]);
        all.extend(Version::ALL.map(DeviceDone));
        all.extend(Version::ALL.map(DeviceRefused));
        all.extend([
            NewDeviceEarnsNothing,
            FirstClockEarnsNothing,
            KnownDeviceEarns,
        ]);
        all.extend(Version::ALL.map(EarnsFromTheFourthOn));
        all.extend([
            OtherDeviceDoesNotCount,
            LastValueOfDevice0Kept,
            RepeatedDoesNotCount,
        ]);
        all.extend(Version::ALL.map(RefusedDoesNotCount));
        all.extend([
            WorthNothingCounts,
            TwoDevicesInTurn,
            NewDeviceDoesNotSeed,
            KnownDeviceSeeds,
        ]);
        all.extend(CREDITS.map(|(creditor, worth)| Credit(creditor, worth)));
        all.extend([FullBeforeTheRest, NoTransfer(true), NoTransfer(false)]);
        all.extend([Seeder::Event, Seeder::Interrupt, Seeder::Seed].map(FirstSeedingAdds));
        all.extend([
            RefusedAfterAdding,
            OtherAfterAdding,
            BoundReached,
            BoundReachedAsking,
        ]);
        all.extend(NotAwarded::ALL.map(BoundReachedAfter));
        all.push(BoundMissedBy);
        all.extend(Creditor::AWARDED.map(DeliveredAfter));
        all.extend([
            DeliveredAfterKey,
            HeaderRight(Version::One),
            HeaderRight(Version::Two),
            HeaderLetters,
            HeaderVersion,
            OneLetterWrong,
            OneLetterLower,
            AllLettersLower,
            LettersBeforeVersion(true),
            LettersBeforeVersion(false),
            VersionWrong,
        ]);
        all
    }

    /// The values at which it has to come up.
    pub fn values(self) -> Vec<u32> {
        match self {
            SpillByTime | SpillByNumberAfterTime => (1..=63).collect(),
            AnswerIn(_) => vec![0, 1, 2, 3, 4, 5, 7],
            EndIn(_) => vec![0, 3, 10, 11],
            KindWhole(_) => (1..=6).collect(),
            CutIn(version, kind) => cuts(version, kind),
            UnknownKindAlone | UnknownKindFollowed => {
                (0..=255).filter(|kind| !(1..=6).contains(kind)).collect()
            }
            DeviceDone(version) => (0..version.devices()).collect(),
            DeviceRefused(Version::One) => (16..=255).collect(),
            DeviceRefused(Version::Two) => BORDER_REFUSALS.to_vec(),
            EarnsFromTheFourthOn(Version::One) => (0..=15).collect(),
            EarnsFromTheFourthOn(Version::Two) => BORDER_DEVICES.to_vec(),
            OtherDeviceDoesNotCount => vec![1, 16, 256, 512],
            LastValueOfDevice0Kept => vec![16, 256, 512, 1_023],
            NewDeviceEarnsNothing | WorthNothingCounts | NewDeviceDoesNotSeed => (1..=3).collect(),
            FirstClockEarnsNothing => (1..=11).collect(),
            KnownDeviceEarns | KnownDeviceSeeds => vec![4, 5],
            RepeatedDoesNotCount => (0..=2).collect(),
            Credit(Creditor::Seed, Worth::SeveralTurns) => vec![2, 3, 4, 16],
            Credit(Creditor::BlockingRead, Worth::SeveralTurns) => vec![2],
            RefusedAfterAdding => vec![1, 2, 3, 4, 5, 7],
            OtherAfterAdding => vec![3, 5],
            BoundReached => (1..=12).collect(),
            BoundReachedAsking => vec![12, 13, 128, 129, 4_096],
            BoundMissedBy => vec![3, 6, 9, 119, 128, 256, 384],
            DeliveredAfterKey => vec![16, 24, 32],
            HeaderRight(_) => (0..=53).collect(),
            HeaderLetters => (1..=53).collect(),
            HeaderVersion => (4..=53).collect(),
            OneLetterWrong | OneLetterLower => (1..=3).collect(),
            VersionWrong => vec![0, 3, 255, 256, 257, 258, 512, 513, 65_535],
            _ => vec![0],
        }
    }
}

impl fmt::Display for Situation {
    fn fmt(&self, f: &mut fmt::Formatter<'_>) -> fmt::Result {
        let text = match self {
            Answer(number) => return write!(f, "answer {number}"),
            End(number) => return write!(f, "end {number}"),
            FirstSeeded(seeder, wait, past_zero) => {
                let seeder = seeder.name();
                let wait = match wait {
                    Wait::NotDue => "not due after 300,000 ticks",
                    Wait::Due => "due after 300,001 ticks",
                    Wait::RanBack => "not due as the clock ran back",
                };
                let zero = if *past_zero { ", past zero" } else { "" };
                return write!(f, "first seeded by {seeder}: reseed {wait}{zero}");
            }
            NothingCredited(next) => {
                let next = match next {
                    Next::Read => "a generator read",
                    Next::Reseed => "a reseed",
                    Next::BlockingRead => "a blocking read from the input pool",
                };
                return write!(f, "seed of 0 bits on 1,024 or more, then {next}");
            }
            Credit(creditor, worth) => {
                let creditor = creditor.name();
                let worth = match worth {
                    Worth::NoBits => "credits nothing",
                    Worth::NoUnits => "credits bits and adds no units",
                    Worth::OneTurn => "adds units in one turn",
                    Worth::SeveralTurns => "adds units in several turns",
                };
                return write!(f, "{creditor} {worth}");
            }
            FirstSeedingAdds(seeder) => {
                return write!(
                    f,
                    "first seeded by {}: more units added than left",
                    seeder.name()
                );
            }
            BoundReachedAfter(call) => {
                return write!(f, "the ledger's bound is reached after {}", call.name());
            }
            DeliveredAfter(creditor) => {
                return write!(f, "bytes are delivered after {} earned", creditor.name());
            }
            AnswerIn(version) => return write!(f, "answers in version {}", version.number()),
            EndIn(version) => {
                return write!(f, "ends behind a header of version {}", version.number())
            }
            KindWhole(version) => {
                return write!(f, "kinds read whole in version {}", version.number())
            }
            CutIn(version, kind) => {
                let version = version.number();
                return write!(
                    f,
                    "a record of kind {kind} cut after each byte in version {version}"
                );
            }
            DeviceDone(version) => {
                return write!(f, "devices done in version {}", version.number())
            }
            DeviceRefused(version) => {
                return write!(f, "devices refused in version {}", version.number())
            }
            EarnsFromTheFourthOn(version) => {
                let which = match version {
                    Version::One => "of each device in version 1",
                    Version::Two => "of devices at borders in version 2",
                };
                return write!(f, "event 3 earns nothing and event 4 earns, {which}");
            }
            RefusedDoesNotCount(version) => {
                let version = version.number();
                return write!(
                    f,
                    "event 3 earns nothing, after a like number was refused in version {version}"
                );
            }
            HeaderRight(version) => {
                let version = version.number();
                return write!(
                    f,
                    "header of version {version} right so far, of each length"
                );
            }
            NoSpillAt1000 => "no spill 1,000 ticks after the last",
            SpillAt1001 => "spill by time 1,001 ticks after the last",
            SpillByTime => "spill by time, at each tally",
            SpillByTimePastZero => "spill by time, past zero",
            SpillByNumberAfterTime => "spill by number, 64 after one by time at each tally",
            SpillByNumberAfterRunningBack => {
                "spill by number, the clock ran back since one by time"
            }
            UnknownKindAlone => "unknown kinds, alone",
            UnknownKindFollowed => "unknown kinds, with bytes after them",
            NewDeviceEarnsNothing => "events 1 to 3 of a device, worth something, earn nothing",
            FirstClockEarnsNothing => "event 1 at a clock worth 1 to 11 bits earns nothing",
            KnownDeviceEarns => "events 4 and 5 of a device earn",
            RepeatedDoesNotCount => "event 3 earns nothing, after a repeated one behind 0 to 2",
            OtherDeviceDoesNotCount => {
                "event 3 earns nothing, after one of a device 1, 16, 256 or 512 away was kept"
            }
            LastValueOfDevice0Kept => {
                "event kept with the last value of device 0, of devices 16, 256, 512, 1,023"
            }
            WorthNothingCounts => "event 4 earns, after event 1, 2 or 3 was worth nothing",
            TwoDevicesInTurn => "two new devices in turn, up to event 4 of each",
            NewDeviceDoesNotSeed => "events 1 to 3 of a device, worth enough to seed, do not",
            KnownDeviceSeeds => "events 4 and 5 of a device do the first seeding",
            FullBeforeTheRest => "a seed fills the pool before its last turn",
            NoTransfer(true) => "a blocking read adds nothing, its pool has enough",
            NoTransfer(false) => "a blocking read adds nothing, the input pool has too little",
            RefusedAfterAdding => "refused with each number, right after a call that adds",
            OtherAfterAdding => "a write and a generator read, right after a call that adds",
            BoundReached => "the ledger's bound is reached 1 to 12 times over",
            BoundReachedAsking => {
                "the ledger's bound is reached by a read of 12, 13, 128, 129, 4,096"
            }
            BoundMissedBy => "the ledger's bound is missed by 3, 6, 9, 119, 128, 256, 384",
            DeliveredAfterKey => "bytes are delivered after a key took 16, 24, 32",
            HeaderLetters => "header with wrong letters, of each length",
            HeaderVersion => "header with a wrong version, of each length",
            OneLetterWrong => "header with one wrong letter, each of them",
            OneLetterLower => "header with one letter in lower case, each of them",
            AllLettersLower => "header with all letters in lower case",
            LettersBeforeVersion(true) => "header with wrong letters and the right version",
            LettersBeforeVersion(false) => "header with wrong letters and a wrong version",
            VersionWrong => "header of versions 0, 3, 255 to 258, 512, 513, 65,535",
        };
        f.write_str(text)
    }
}
