//! What the journals of a run show, and what they fail to show.

use std::fmt;
use std::io::{self, Write};

use crate::situations::Situation;
use crate::transcript::replay;
use crate::watch::Shown;

/// Tells how often each situation comes up among the journals, and how much
/// there is to replay. True where no situation is missing.
pub fn tally(journals: impl Iterator<Item = Vec<u8>>, out: &mut dyn Write) -> io::Result<bool> {
    let mut shown = Shown::default();
    let mut cost = Cost::default();
    for journal in journals {
        shown.add(&Shown::by(&journal));
        cost.add(&journal);
    }
    let mut missing = 0;
    for situation in Situation::all() {
        writeln!(out, "{situation}: {}", how_often(&shown, situation))?;
        missing += missing_values(&shown, situation).len();
    }
    writeln!(out, "{cost}")?;
    writeln!(out, "{}", nearest(&shown))?;
    writeln!(out, "{missing} missing")?;
    Ok(missing == 0)
}

/// The values at which a situation has to come up and did not.
fn missing_values(shown: &Shown, situation: Situation) -> Vec<u32> {
    let mut values = situation.values();
    values.retain(|value| shown.times(situation, *value) == 0);
    values
}

fn how_often(shown: &Shown, situation: Situation) -> String {
    let values = situation.values().into_iter();
    let times = values.map(|value| (value, shown.times(situation, value)));
    times_told(&times.collect::<Vec<(u32, u64)>>())
}

/// How often each value of a situation comes up, in a few words.
pub fn times_told(times: &[(u32, u64)]) -> String {
    let missing = times.iter().filter(|(_, times)| *times == 0);
    let missing: Vec<u32> = missing.map(|(value, _)| *value).collect();
    let least = times.iter().map(|(_, times)| *times).min().unwrap_or(0);
    let most = times.iter().map(|(_, times)| *times).max().unwrap_or(0);
    match (times.len(), missing.len()) {
        (1, 0) => most.to_string(),
        (1, _) => "missing".to_owned(),
        (all, 0) if most == 1 => format!("all {all}, each once"),
        (all, 0) if least == most => format!("all {all}, each {most} times"),
        (all, 0) => format!("all {all}, each {least} to {most} times"),
        (all, some) => format!("{} of {all}, missing {}", all - some, ranges(&missing)),
    }
}

/// How near the journals come to the ledger's bound.
fn nearest(shown: &Shown) -> String {
    let reached = shown.times(Situation::BoundReached, 1);
    let missed = match shown.least(Situation::BoundMissedBy) {
        Some(least) => format!("the closest miss is by {least}"),
        None => "no delivery misses it".to_owned(),
    };
    format!("the ledger's bound is reached in {reached} journals, {missed}")
}

/// Rising numbers as a person would tell them: `1 3 to 5 9`.
fn ranges(numbers: &[u32]) -> String {
    let mut ranges: Vec<(u32, u32)> = Vec::new();
    for number in numbers {
        match ranges.last_mut() {
            Some((_, last)) if *last + 1 == *number => *last = *number,
            _ => ranges.push((*number, *number)),
        }
    }
    let texts: Vec<String> = ranges
        .iter()
        .map(|(first, last)| match first == last {
            true => first.to_string(),
            false => format!("{first} to {last}"),
        })
        .collect();
    texts.join(" ")
}

/// How much there is to replay.
#[derive(Default)]
struct Cost {
    journals: u64,
    bytes: usize,
    large: u64,
    records: u64,
    blocks: u64,
    compressions: u64,
}

impl Cost {
    fn add(&mut self, journal: &[u8]) {
        self.journals += 1;
        self.bytes += journal.len();
        self.large += u64::from(journal.len() >= 2_048);
        replay(journal, &mut |step| {
            self.records += 1;
            self.blocks += step.answer.blocks;
            self.compressions += step.answer.compressions;
        });
    }
}

impl fmt::Display for Cost {
    fn fmt(&self, f: &mut fmt::Formatter<'_>) -> fmt::Result {
        writeln!(
            f,
            "{} journals, {} bytes, {} of 2,048 bytes or more",
            self.journals, self.bytes, self.large
        )?;
        write!(
            f,
            "{} records, {} ChaCha20 blocks, {} compressions",
            self.records, self.blocks, self.compressions
        )
    }
}

#[cfg(test)]
mod tests {
    use super::*;
    use crate::journal::{self, Version};
    use crate::maker;

    fn told(journals: &[Vec<u8>]) -> (bool, String) {
        let mut out = Vec::new();
        let complete = tally(journals.iter().cloned(), &mut out).unwrap();
        (complete, String::from_utf8(out).unwrap())
    }

    fn run(seed: u64) -> Vec<Vec<u8>> {
        (1..=2_000).map(|n| maker::journal(seed, n)).collect()
    }

    #[test]
    fn a_run_of_2_000_shows_every_situation_at_every_value() {
        for seed in [1, u64::MAX] {
            let (complete, text) = told(&run(seed));
            assert!(complete, "{text}");
            assert!(text.ends_with("\n0 missing\n"));
        }
    }

    #[test]
    fn the_closest_miss_of_a_run_is_told() {
        let run: Vec<Shown> = run(1).iter().map(|journal| Shown::by(journal)).collect();
        let mut all = Shown::default();
        run.iter().for_each(|shown| all.add(shown));
        let reached = run
            .iter()
            .filter(|shown| shown.times(Situation::BoundReached, 1) > 0)
            .count();
        assert!(reached >= 3);
        let expected = format!(
            "the ledger's bound is reached in {reached} journals, the closest miss is by 3"
        );
        assert_eq!(nearest(&all), expected);
        // Without those that come closest, and without any.
        let mut others = Shown::default();
        for shown in &run {
            if shown.times(Situation::BoundMissedBy, 3) == 0 {
                others.add(shown);
            }
        }
        assert!(nearest(&others).ends_with(", the closest miss is by 6"));
        let expected = "the ledger's bound is reached in 0 journals, no delivery misses it";
        assert_eq!(nearest(&Shown::default()), expected);
    }

    /// Each journal is replayed by a slow program too.
    #[test]
    fn a_run_of_2_000_stays_small() {
        let mut cost = Cost::default();
        run(1).iter().for_each(|journal| cost.add(journal));
        assert!(cost.bytes < 3_600_000);
        assert!(cost.large < 240);
        assert!(cost.records < 45_000);
        assert!(cost.compressions < 100_000);
    }

    #[test]
    fn without_a_journal_everything_is_missing() {
        let (complete, text) = told(&[]);
        assert!(!complete);
        let all: usize = Situation::all().iter().map(|s| s.values().len()).sum();
        assert!(text.ends_with(&format!("\n{all} missing\n")));
        assert!(text.contains("\nend 12: missing\n"));
        assert!(text.contains("\nunknown kinds, alone: 0 of 250, missing 0 7 to 255\n"));
    }

    /// Takes out of a run the journals that show one thing, for all things.
    #[test]
    fn what_no_journal_shows_is_missing() {
        let run: Vec<Shown> = run(1).iter().map(|journal| Shown::by(journal)).collect();
        for situation in Situation::all() {
            let values = situation.values();
            for value in [values[0], values[values.len() - 1]] {
                let mut others = Shown::default();
                for shown in &run {
                    if shown.times(situation, value) == 0 {
                        others.add(shown);
                    }
                }
                assert!(missing_values(&others, situation).contains(&value));
                assert!(how_often(&others, situation).contains("missing"));
            }
        }
    }

    #[test]
    fn the_times_of_several_values_are_told_by_the_least_and_the_most() {
        let mut journal = journal::header(Version::One, &[0; 48]);
        let situation = Situation::KindWhole(Version::One);
        let kinds = |journal: &[u8]| how_often(&Shown::by(journal), situation);
        let each = [
            vec![1; 18],
            vec![2; 25],
            vec![3, 0, 0, 0, 0, 0, 0],
            vec![4, 0, 0, 0, 0, 0, 0, 0, 0, 0, 0],
            vec![5, 0, 0, 0, 0, 0, 0],
            vec![6, 0, 0, 0, 0, 0, 0],
        ];
        journal.extend(each[..5].concat());
        assert_eq!(kinds(&journal), "5 of 6, missing 6");
        journal.extend(&each[5]);
        assert_eq!(kinds(&journal), "all 6, each once");
        journal.extend(each.concat());
        assert_eq!(kinds(&journal), "all 6, each 2 times");
        journal.extend(&each[0]);
        assert_eq!(kinds(&journal), "all 6, each 2 to 3 times");
    }

    #[test]
    fn numbers_in_a_row_are_told_by_their_ends() {
        assert_eq!(ranges(&[]), "");
        assert_eq!(ranges(&[1, 3, 4, 5, 9, 10]), "1 3 to 5 9 to 10");
    }
}
