//! Journals of all sorts, with clocks and classes for each.

use std::io;

use super::classes;
use crate::issue::keeper_left;
use crate::journal::Version;
use crate::maker::sized::Fault;
use crate::maker::{self, in_turn, issuable, HALF};
use crate::random::Random;
use crate::trial::{Trial, JOURNAL};

#[derive(Clone, Copy, PartialEq)]
enum Sort {
    Seeded,
    Unseeded,
    /// As they are made for transcripts: some are good and many are not.
    Any,
    Broken,
}

/// The sorts in turn.
const SORTS: [Sort; 10] = [
    Sort::Seeded,
    Sort::Any,
    Sort::Seeded,
    Sort::Broken,
    Sort::Seeded,
    Sort::Any,
    Sort::Seeded,
    Sort::Unseeded,
    Sort::Seeded,
    Sort::Any,
];

/// Input counts, at the borders of what a reseed takes.
const COUNTS: [u32; 11] = [
    1_024, 2_048, 1_023, 1_279, 1_344, 20_000, 1_919, 1_984, 0, 2_047, 32_000,
];

/// Ticks from the seeding to the issuing.
const TICKS: [u32; 13] = [
    300_001,
    300_000,
    0,
    300_001,
    1_000_000,
    299_999,
    300_001,
    1,
    HALF - 1,
    HALF,
    300_002,
    u32::MAX,
    0u32.wrapping_sub(300_001),
];

/// How many classes there are in a run.
const CLASSES: [usize; 8] = [3, 1, 20, 66, 8, 2, 80, 40];

/// Journal `number`, counted from 1: issued from, and one time in five words that make
/// no sense.
pub fn journal(trial: &mut Trial, random: &mut Random, number: u64) -> io::Result<()> {
    let (sort, turn) = in_turn(&SORTS, number - 1);
    let version = Version::ALL[(turn % 2) as usize];
    let (count, _) = in_turn(&COUNTS, turn);
    let mut journal = match sort {
        Sort::Seeded | Sort::Broken => issuable::seeded(random, version, turn, count),
        Sort::Unseeded => issuable::unseeded(random, version, count),
        Sort::Any => maker::journal(random.u64(), turn + 1),
    };
    if sort == Sort::Broken {
        let (fault, _) = in_turn(&Fault::ALL, turn);
        fault.put(random, &mut journal);
    }
    let clock = clock(random, turn, &journal);
    let (count, _) = in_turn(&CLASSES, number - 1);
    let classes = classes::mixed(random, count);
    trial.lay(&[(JOURNAL, &journal)]);
    let name = format!("journal {number} of the mixture");
    trial.run(&name, &words(&clock.to_string(), &classes))?;
    if number % 5 == 0 {
        let (what, words) = senseless(random, number / 5, clock, classes);
        trial.run(&format!("{name}, {what}"), &words)?;
    }
    Ok(())
}

/// The command line that issues these classes.
pub fn words(clock: &str, classes: &[String]) -> Vec<String> {
    let mut words = ["issue", JOURNAL, clock].map(str::to_owned).to_vec();
    words.extend_from_slice(classes);
    words
}

/// Ticks from the seeding on, in turn; any clock where nothing was seeded.
fn clock(random: &mut Random, turn: u64, journal: &[u8]) -> u32 {
    let (ticks, _) = in_turn(&TICKS, turn);
    match keeper_left(journal) {
        Ok(keeper) if keeper.seeded => keeper.seeding_clock.wrapping_add(ticks),
        _ => random.u32(),
    }
}

/// One fault in words that would make sense.
fn senseless(
    random: &mut Random,
    turn: u64,
    clock: u32,
    mut classes: Vec<String>,
) -> (&'static str, Vec<String>) {
    let above = u64::from(clock) + (1 << 32);
    match turn % 3 {
        0 => ("a clock that is none", words(&above.to_string(), &classes)),
        1 => {
            let at = random.below(classes.len() as u64) as usize;
            classes[at] = format!("{}4", classes::wrong(random));
            ("a class that is none", words(&clock.to_string(), &classes))
        }
        _ => ("no class", words(&clock.to_string(), &[])),
    }
}
