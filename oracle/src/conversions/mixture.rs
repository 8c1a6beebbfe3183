//! Journals of all sorts, each converted.

use std::io;

use super::OUT;
use crate::maker::convertible;
use crate::random::Random;
use crate::trial::{Trial, JOURNAL};

/// Journal `number`, counted from 1: converted, what came of it once more, and
/// then in its own place.
pub fn journal(trial: &mut Trial, random: &mut Random, number: u64) -> io::Result<()> {
    let journal = convertible::any_journal(random);
    trial.lay(&[(JOURNAL, &journal)]);
    if random.one_in(2) {
        // Shorter than the outcome, or longer.
        let old = random.pick(&[0, 40, 2_000]);
        trial.put(OUT, &random.bytes(old));
    }
    let name = format!("journal {number} of the mixture");
    trial.run(&name, &["convert", JOURNAL, OUT])?;
    if random.one_in(3) {
        trial.run(&format!("{name}, again"), &["convert", OUT, "@again"])?;
    }
    if random.one_in(3) {
        let what = format!("{name}, in its own place");
        trial.run(&what, &["convert", JOURNAL, JOURNAL])?;
    }
    Ok(())
}
