//! Chooses a few small journals that together show what is easily missed, to
//! be kept with their transcripts.

use crate::journal::Version;
use crate::maker;
use crate::situations::{
    Creditor, Next, NotAwarded, Seeder, Situation, Situation::*, Wait, Worth, BORDER_DEVICES,
    BORDER_REFUSALS,
};
use crate::watch::Shown;

/// What a kept journal is to show.
struct Wish {
    text: String,
    shows: Vec<(Situation, Value)>,
}

#[derive(Clone, Copy)]
enum Value {
    Any,
    Is(u32),
}

/// A journal that was chosen, and what for.
pub struct Picked {
    pub text: String,
    pub journal: Vec<u8>,
}

impl Wish {
    fn new(text: &str, shows: &[(Situation, Value)]) -> Wish {
        Wish {
            text: text.to_owned(),
            shows: shows.to_vec(),
        }
    }

    fn met_by(&self, shown: &Shown) -> bool {
        self.shows.iter().all(|(situation, value)| match value {
            Value::Any => situation
                .values()
                .iter()
                .any(|value| shown.times(*situation, *value) > 0),
            Value::Is(value) => shown.times(*situation, *value) > 0,
        })
    }
}

fn wishes() -> Vec<Wish> {
    use Value::{Any, Is};
    let mut wishes = Vec::new();
    for seeder in [Seeder::Event, Seeder::Interrupt, Seeder::Seed] {
        let name = seeder.name();
        let waits = [Wait::NotDue, Wait::Due, Wait::RanBack];
        wishes.push(Wish {
            text: format!(
                "first seeded by {name}; reads at a clock that ran back, \
                 after 300,000 ticks, and after 300,001, when a reseed is due"
            ),
            shows: waits
                .map(|wait| (FirstSeeded(seeder, wait, false), Any))
                .to_vec(),
        });
        wishes.push(Wish {
            text: format!("first seeded by {name}; the clock goes through zero before a reseed"),
            shows: [Wait::NotDue, Wait::Due]
                .map(|wait| (FirstSeeded(seeder, wait, true), Any))
                .to_vec(),
        });
    }
    wishes.extend([
        Wish::new(
            "seeds of 0 bits on a count of 1,024 or more, then a read, a reseed and a blocking read",
            &[Next::Read, Next::Reseed, Next::BlockingRead].map(|next| (NothingCredited(next), Any)),
        ),
        Wish::new(
            "a spill by time at a tally of 5, and 64 interrupts later one by number",
            &[
                (SpillByTime, Is(5)),
                (SpillAt1001, Any),
                (NoSpillAt1000, Any),
                (SpillByNumberAfterTime, Is(5)),
                (SpillByNumberAfterRunningBack, Any),
            ],
        ),
        Wish::new("an unknown kind alone", &[(UnknownKindAlone, Any)]),
        Wish::new(
            "an unknown kind with bytes after it",
            &[(UnknownKindFollowed, Any), (Answer(0), Any)],
        ),
        Wish::new(
            "devices 224 to 255 refused in between, devices 0 to 15 done, their fourth events earn",
            &[
                (DeviceRefused(Version::One), Is(224)),
                (DeviceRefused(Version::One), Is(255)),
                (RefusedDoesNotCount(Version::One), Any),
                (EarnsFromTheFourthOn(Version::One), Is(0)),
                (EarnsFromTheFourthOn(Version::One), Is(15)),
            ],
        ),
        Wish::new(
            "a whole header with wrong letters",
            &[(HeaderLetters, Is(53))],
        ),
        Wish::new(
            "a header cut short, its letters in lower case",
            &[(AllLettersLower, Any), (LettersBeforeVersion(true), Any)],
        ),
        Wish::new(
            "a header cut within a version that cannot be right",
            &[(HeaderVersion, Is(4))],
        ),
        Wish::new(
            "a header cut short, of version 257",
            &[(VersionWrong, Is(257))],
        ),
        Wish::new(
            "a header one byte short, its version wrong",
            &[(HeaderVersion, Is(52))],
        ),
    ]);
    wishes.extend(new_devices());
    wishes.extend(worths());
    wishes.extend(versions());
    wishes.extend(ledgers());
    wishes
}

/// Those of devices that earn nothing at first.
fn new_devices() -> [Wish; 5] {
    use Value::{Any, Is};
    let nothing = [1, 2, 3].map(|nth| (NewDeviceEarnsNothing, Is(nth)));
    let unseeded = [1, 2, 3].map(|nth| (NewDeviceDoesNotSeed, Is(nth)));
    [
        Wish::new(
            "repeated events in between; three events of device 0 earn nothing, two earn",
            &[
                &nothing[..],
                &[
                    (RepeatedDoesNotCount, Any),
                    (EarnsFromTheFourthOn(Version::One), Is(0)),
                    (KnownDeviceEarns, Is(5)),
                ],
            ]
            .concat(),
        ),
        Wish::new(
            "two devices in turn, three events of each earn nothing",
            &[(TwoDevicesInTurn, Any), (KnownDeviceEarns, Is(5))],
        ),
        Wish::new(
            "one bit would seed the keeper; three events of a device do not, the fourth does",
            &[&unseeded[..], &[(KnownDeviceSeeds, Is(4))]].concat(),
        ),
        Wish::new(
            "one bit would seed the keeper; a device's fourth event is worth nothing, the fifth seeds it",
            &[&unseeded[..], &[(KnownDeviceSeeds, Is(5))]].concat(),
        ),
        Wish::new(
            "first, second or third event worth nothing; the fourth earns",
            &[1, 2, 3].map(|nth| (WorthNothingCounts, Is(nth))),
        ),
    ]
}

/// Those of what credits are worth.
fn worths() -> [Wish; 4] {
    use Value::{Any, Is};
    let nothing = [Creditor::Event, Creditor::Interrupt, Creditor::Seed]
        .map(|creditor| (Credit(creditor, Worth::NoUnits), Any));
    [
        Wish::new(
            "a nearly full pool: bits of an event, an interrupt and a seed add nothing",
            &nothing,
        ),
        Wish::new(
            "blocking reads that add in one turn and in two, and that add nothing",
            &[
                (Credit(Creditor::BlockingRead, Worth::OneTurn), Any),
                (Credit(Creditor::BlockingRead, Worth::SeveralTurns), Any),
                (NoTransfer(true), Any),
                (NoTransfer(false), Any),
            ],
        ),
        Wish::new(
            "refused with each number right after a call that adds",
            &[1, 2, 3, 4, 5, 7].map(|number| (RefusedAfterAdding, Is(number))),
        ),
        Wish::new(
            "a seed of three turns",
            &[(Credit(Creditor::Seed, Worth::SeveralTurns), Is(3))],
        ),
    ]
}

/// Those of the two versions and their devices.
fn versions() -> [Wish; 8] {
    use Value::{Any, Is};
    let (one, two) = (Version::One, Version::Two);
    let borders = BORDER_DEVICES.map(|device| (EarnsFromTheFourthOn(two), Is(device)));
    let refusals = BORDER_REFUSALS.map(|device| (DeviceRefused(two), Is(device)));
    [
        Wish::new(
            "version 1: device 15 is done, devices 16 to 31 are refused",
            &[
                (DeviceDone(one), Is(15)),
                (DeviceRefused(one), Is(16)),
                (DeviceRefused(one), Is(31)),
            ],
        ),
        Wish::new(
            "version 1: device 255 is refused, and the version ends well",
            &[(DeviceRefused(one), Is(255)), (EndIn(one), Is(0))],
        ),
        Wish::new(
            "version 2: devices at the borders earn from their fourth events on, \
             numbers from 1,024 on are refused and count for none of them",
            &[
                &borders[..],
                &refusals,
                &[
                    (RefusedDoesNotCount(two), Any),
                    (OtherDeviceDoesNotCount, Is(16)),
                    (OtherDeviceDoesNotCount, Is(256)),
                    (LastValueOfDevice0Kept, Is(256)),
                ],
            ]
            .concat(),
        ),
        Wish::new(
            "version 2: breaks off before the device of an event",
            &[(CutIn(two, 1), Is(5))],
        ),
        Wish::new(
            "version 2: breaks off between the two bytes of the device",
            &[(CutIn(two, 1), Is(6))],
        ),
        Wish::new(
            "version 2: breaks off a byte before the end of an event, where version 1 has it whole",
            &[(CutIn(two, 1), Is(18))],
        ),
        Wish::new(
            "a header of version 2, whole and with nothing behind it",
            &[(HeaderRight(two), Is(53))],
        ),
        Wish::new(
            "a header cut short, of version 513",
            &[(VersionWrong, Is(513))],
        ),
    ]
}

/// Those of the ledger and its bound.
fn ledgers() -> [Wish; 3] {
    use Value::{Any, Is};
    let all_the_same = NotAwarded::ALL.map(|call| (BoundReachedAfter(call), Any));
    [
        Wish::new(
            "the ledger's bound is reached four times over, after calls that are awarded nothing",
            &[&[(BoundReached, Is(4))][..], &all_the_same].concat(),
        ),
        Wish::new(
            "the ledger's bound is missed by 3, which is the least",
            &[(BoundMissedBy, Is(3))],
        ),
        Wish::new(
            "an event, an interrupt and a seed earn, and bytes are delivered for it",
            &Creditor::AWARDED.map(|creditor| (DeliveredAfter(creditor), Any)),
        ),
    ]
}

/// The smallest journal of a run for each wish.
pub fn pick(seed: u64, count: u64) -> Result<Vec<Picked>, String> {
    let mut journals: Vec<Vec<u8>> = (1..=count).map(|n| maker::journal(seed, n)).collect();
    journals.sort_by_key(Vec::len);
    let shown: Vec<Shown> = journals.iter().map(|journal| Shown::by(journal)).collect();
    wishes()
        .into_iter()
        .map(|wish| match shown.iter().position(|s| wish.met_by(s)) {
            Some(at) => Ok(Picked {
                text: wish.text,
                journal: journals[at].clone(),
            }),
            None => Err(format!("no journal shows this: {}", wish.text)),
        })
        .collect()
}

#[cfg(test)]
mod tests {
    use super::*;
    use crate::transcript::transcript;

    #[test]
    fn each_wish_is_met_by_a_small_journal() {
        let picked = pick(1, 2_000).unwrap();
        assert_eq!(picked.len(), wishes().len());
        for (one, wish) in picked.iter().zip(wishes()) {
            assert!(wish.met_by(&Shown::by(&one.journal)), "{}", wish.text);
            assert!(one.journal.len() < 1_900, "{}", wish.text);
        }
        let endings = ["11", "11", "0", "8", "8", "10", "9", "9"];
        for (one, ending) in picked[8..].iter().zip(endings) {
            let text = transcript(&one.journal);
            assert!(text.ends_with(&format!("end {ending}\n")), "{}", one.text);
        }
        let bytes: usize = picked.iter().map(|one| one.journal.len()).sum();
        assert!(bytes < 17_000, "{bytes}");
    }

    #[test]
    fn a_run_too_short_is_told() {
        let message = pick(1, 30).err().unwrap();
        assert!(message.starts_with("no journal shows this: "));
    }
}
