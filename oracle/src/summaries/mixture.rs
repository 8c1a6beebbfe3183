//! Journals of all sorts, and the words on each.

use std::io;

use super::cases::{damaged, index_of, look, telling};
use super::{INDEX, MORE};
use crate::index;
use crate::journal::{Version, LARGEST};
use crate::maker::in_turn;
use crate::maker::sized::{self, Fault};
use crate::random::Random;
use crate::trial::{Trial, JOURNAL};

#[derive(Clone, Copy, PartialEq)]
enum Sort {
    Few,
    Many,
    Tiny,
    Large,
    Broken,
}

/// The sorts in turn.
const SORTS: [Sort; 10] = [
    Sort::Many,
    Sort::Broken,
    Sort::Few,
    Sort::Tiny,
    Sort::Broken,
    Sort::Many,
    Sort::Large,
    Sort::Broken,
    Sort::Many,
    Sort::Few,
];

/// A good journal of a sort. One in two of the largest has not a byte to spare.
fn good(random: &mut Random, version: Version, sort: Sort) -> Vec<u8> {
    let up_to = |random: &mut Random, most| random.between(0, most) as usize;
    let spare = random.below(2) * random.below(300);
    let size = LARGEST - spare as usize;
    match sort {
        Sort::Few => {
            let count = up_to(random, 20);
            sized::of_records(random, version, count)
        }
        Sort::Many | Sort::Broken => {
            let count = up_to(random, 200);
            sized::of_records(random, version, count)
        }
        Sort::Tiny => {
            let mut journal = sized::of_records(random, version, 3);
            sized::fill_with_tiny(random, &mut journal, size);
            journal
        }
        Sort::Large => {
            let count = up_to(random, 200);
            let mut journal = sized::of_records(random, version, count);
            sized::fill_with_large(random, &mut journal, size);
            journal
        }
    }
}

/// Journal `number`, counted from 1: its index, look-ups and appendings.
pub fn journal(trial: &mut Trial, random: &mut Random, number: u64) -> io::Result<()> {
    let (sort, turn) = in_turn(&SORTS, number - 1);
    // Each sort comes in the other version in the next round.
    let version = Version::ALL[(number as usize + number as usize / SORTS.len()) % 2];
    let mut journal = good(random, version, sort);
    let index = index_of(&journal);
    if sort == Sort::Broken {
        let (fault, _) = in_turn(&Fault::ALL, turn);
        fault.put(random, &mut journal);
    }
    trial.lay(&[(JOURNAL, &journal)]);
    if random.one_in(2) {
        // Where the index goes there may be another file.
        let old = random.below(200) as usize;
        trial.put(INDEX, &random.bytes(old));
    }
    let name = format!("journal {number} of the mixture");
    trial.run(&format!("{name}, its index"), &["index", JOURNAL, INDEX])?;
    trial.put(INDEX, &index);
    look_at_it(trial, random, &name)?;
    append_to_it(trial, random, version, &name)?;
    if sort == Sort::Broken {
        return Ok(());
    }
    look_at_it(trial, random, &format!("{name}, after appending"))?;

    let (how, wrong) = damaged(random, &trial.file(INDEX));
    trial.put(INDEX, &wrong);
    look_at_it(trial, random, &format!("{name}, index {how}"))?;
    append_to_it(trial, random, version, &format!("{name}, index {how}"))
}

fn look_at_it(trial: &mut Trial, random: &mut Random, name: &str) -> io::Result<()> {
    let records = index::records(&trial.file(JOURNAL)).map_or(0, |all| all.len());
    let count = random.pick(&[1, 20, 20, 20, 63, 64, 65]);
    let numbers = telling(random, records, count);
    trial.run(&format!("{name}, a look-up"), &look(&numbers))
}

/// Appends whole records, one time in three with a fault at their end.
fn append_to_it(
    trial: &mut Trial,
    random: &mut Random,
    version: Version,
    name: &str,
) -> io::Result<()> {
    let count = random.pick(&[0, 1, 2, 30, 64, 70]);
    let mut more = sized::part(random, version, count);
    if random.one_in(3) {
        random
            .pick(&Fault::OF_PARTS)
            .put_last(random, version, &mut more);
    }
    trial.put(MORE, &more);
    let name = format!("{name}, an appending");
    trial.run(&name, &["append", JOURNAL, INDEX, MORE])
}
