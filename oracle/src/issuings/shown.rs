//! What the runs of a comparison show, read off their words and journals and not off
//! what they were made for.

use std::collections::BTreeMap;
use std::fmt;
use std::io::{self, Write};

use self::Situation::*;
use super::classes::{GOOD, LONGEST};
use crate::credits::clock_difference;
use crate::desk::{Issued, NO_CLASS, PLACES};
use crate::issue::{keeper_left, Issuing};
use crate::journal::Version;
use crate::keeper::{Keeper, DONE};
use crate::tally::times_told;
use crate::trial::{Files, JOURNAL};
use crate::words::Order;

/// What the runs have to show, some of it at several values.
#[derive(Clone, Copy, Debug, PartialEq, Eq, PartialOrd, Ord)]
enum Situation {
    /// By the number; so is the next.
    Answer,
    End,
    /// By the version of the journal.
    IssuedFrom,
    /// By the compressions.
    FirstDrawReseeds,
    /// The first draw that reseeds comes after a class that is none.
    ReseedsAfterNoClass,
    /// By the ticks since the seeding. There is enough for a reseed.
    WithEnoughAfter,
    /// The ticks go through zero, and a reseed is due.
    ReseedsPastZero,
    RanBack,
    /// By the count of the input pool. The reseed is due.
    DueWith,
    /// By how many numbers a run issues.
    Numbers,
    FullDesk,
    OldestGoes,
    /// By the byte. The keeper is seeded.
    OneByte,
    /// By the bytes of the field.
    FieldOf,
    Spelt(&'static str),
    BothCases,
    NoClassBetween,
    NoClassUnseeded,
    CounterCarries,
    NoClassAtAll,
    WrongClock,
    WrongClass,
    NoFile,
}

impl Situation {
    /// All of them, in the order in which they are told.
    fn all() -> Vec<Situation> {
        let mut all = vec![
            Answer,
            End,
            IssuedFrom,
            FirstDrawReseeds,
            ReseedsAfterNoClass,
            WithEnoughAfter,
            ReseedsPastZero,
            RanBack,
            DueWith,
            Numbers,
            FullDesk,
            OldestGoes,
            OneByte,
            FieldOf,
        ];
        all.extend(GOOD.map(Spelt));
        all.extend([
            BothCases,
            NoClassBetween,
            NoClassUnseeded,
            CounterCarries,
            NoClassAtAll,
            WrongClock,
            WrongClass,
            NoFile,
        ]);
        all
    }

    /// The values at which it has to come up.
    fn values(self) -> Vec<u32> {
        match self {
            Answer => vec![0, 2, 13],
            End => vec![0, 3, 8, 9, 10, 11, 12],
            IssuedFrom => vec![1, 2],
            FirstDrawReseeds => vec![16, 24, 32],
            WithEnoughAfter => vec![300_000, 300_001],
            DueWith => vec![1_023, 1_024],
            Numbers => vec![1, 63, 64, 65, 80],
            OneByte => (0..=255).collect(),
            FieldOf => vec![0, 1, 2, 3, 16, LONGEST as u32],
            _ => vec![0],
        }
    }
}

impl fmt::Display for Situation {
    fn fmt(&self, f: &mut fmt::Formatter<'_>) -> fmt::Result {
        f.write_str(match self {
            Answer => "answers 0, 2, 13",
            End => "ends 0, 3, 8, 9, 10, 11, 12",
            IssuedFrom => "numbers issued from journals of each version",
            FirstDrawReseeds => "a first draw that reseeds, with 16, 24, 32 compressions",
            ReseedsAfterNoClass => "a first draw that reseeds, after a class that is none",
            WithEnoughAfter => "300,000 and 300,001 ticks after the seeding, with enough",
            ReseedsPastZero => "a first draw that reseeds, past zero",
            RanBack => "the clock ran back since the seeding, with enough",
            DueWith => "a reseed is due, and the count is 1,023 or 1,024",
            Numbers => "runs that issue 1, 63, 64, 65, 80 numbers",
            FullDesk => "a full desk",
            OldestGoes => "a full desk whose oldest goes",
            OneByte => "class fields of each one byte, by a seeded keeper",
            FieldOf => "class fields of 0, 1, 2, 3, 16, 150 bytes",
            Spelt(word) => return write!(f, "a class spelt {word}"),
            BothCases => "a class field with digits of both cases",
            NoClassBetween => "13 between two numbers",
            NoClassUnseeded => "13 by an unseeded keeper",
            CounterCarries => "the generator's counter carries",
            NoClassAtAll => "no class at all",
            WrongClock => "a clock that is none",
            WrongClass => "a word that is no class",
            NoFile => "a journal that is not there",
        })
    }
}

/// How often situations came up.
#[derive(Default)]
pub struct Shown(BTreeMap<(Situation, u32), u64>);

impl Shown {
    /// What one run shows.
    pub fn add(&mut self, words: &[String], files: &Files) {
        let order = match Order::read(words) {
            Ok(order) => order,
            Err(_) => return self.senseless(words),
        };
        let issuing = match order.issuing() {
            Some(issuing) => issuing,
            None => return,
        };
        let journal = match files.get(&order.files[0]) {
            Some(journal) => journal,
            None => return self.see(NoFile, 0),
        };
        match (keeper_left(journal), issuing.issued(journal)) {
            (Ok(keeper), Ok(issued)) => {
                self.see(End, DONE.into());
                if issued.iter().any(|issued| issued.answer.number == DONE) {
                    let version = Version::of(journal).map_or(0, Version::number);
                    self.see(IssuedFrom, version.into());
                }
                self.classes(&words[3..], issuing, keeper.seeded);
                self.clock(issuing.clock, &keeper, &issued);
                self.issued(&keeper, &issued);
            }
            (left, _) => self.see(End, left.err().unwrap_or_default().into()),
        }
    }

    /// Words that make no sense, by the first of them that does not.
    fn senseless(&mut self, words: &[String]) {
        let reads = |words: &[&str]| {
            let words: Vec<String> = words.iter().map(|word| (*word).to_owned()).collect();
            Order::read(&words).is_ok()
        };
        let shown = match words {
            [_, _, clock] if reads(&["issue", JOURNAL, clock, "live"]) => NoClassAtAll,
            [_, _, clock, _, ..] => match reads(&["issue", JOURNAL, clock, "live"]) {
                true => WrongClass,
                false => WrongClock,
            },
            _ => return,
        };
        self.see(shown, 0);
    }

    fn classes(&mut self, words: &[String], issuing: &Issuing, seeded: bool) {
        for (word, field) in words.iter().zip(&issuing.classes) {
            self.see(FieldOf, field.len() as u32);
            if let ([byte], true) = (&field[..], seeded) {
                self.see(OneByte, (*byte).into());
            }
            if let Some(good) = GOOD.into_iter().find(|good| good == word) {
                self.see(Spelt(good), 0);
            }
            let has = |case: fn(&char) -> bool| word.chars().any(|c| case(&c));
            if has(char::is_ascii_uppercase) && has(char::is_ascii_lowercase) {
                self.see(BothCases, 0);
            }
        }
    }

    /// What the clock is to the keeper before the first draw.
    fn clock(&mut self, clock: u32, keeper: &Keeper, issued: &[Issued]) {
        let first = issued.iter().position(|i| i.answer.number == DONE);
        let first = match first {
            Some(first) => first,
            None => return,
        };
        let waited = clock_difference(clock, keeper.seeding_clock);
        let count = keeper.input.count;
        let enough = count >= 1_024;
        let due = waited > 300_000;
        let reseeds = issued[first].answer.compressions;
        if enough {
            self.see(WithEnoughAfter, waited as u32);
        }
        if enough && waited < 0 {
            self.see(RanBack, 0);
        }
        if due {
            self.see(DueWith, count);
        }
        if reseeds > 0 {
            self.see(FirstDrawReseeds, reseeds as u32);
            if clock < keeper.seeding_clock {
                self.see(ReseedsPastZero, 0);
            }
            if first > 0 {
                self.see(ReseedsAfterNoClass, 0);
            }
        }
    }

    fn issued(&mut self, keeper: &Keeper, issued: &[Issued]) {
        let answers: Vec<u8> = issued.iter().map(|i| i.answer.number).collect();
        for number in &answers {
            self.see(Answer, (*number).into());
            if *number == NO_CLASS && !keeper.seeded {
                self.see(NoClassUnseeded, 0);
            }
        }
        let numbers = answers.iter().filter(|number| **number == DONE).count();
        self.see(Numbers, numbers as u32);
        if numbers >= PLACES {
            self.see(FullDesk, 0);
        }
        if numbers > PLACES {
            self.see(OldestGoes, 0);
        }
        let between = answers
            .windows(3)
            .any(|three| three == [DONE, NO_CLASS, DONE]);
        if between {
            self.see(NoClassBetween, 0);
        }
        let blocks: u64 = issued.iter().map(|issued| issued.answer.blocks).sum();
        if u64::from(keeper.generator[12]) + blocks > u32::MAX.into() {
            self.see(CounterCarries, 0);
        }
    }

    fn see(&mut self, situation: Situation, value: u32) {
        *self.0.entry((situation, value)).or_default() += 1;
    }

    /// How often each value of a situation came up.
    fn times(&self, situation: Situation) -> Vec<(u32, u64)> {
        let times = |value| self.0.get(&(situation, value)).copied().unwrap_or(0);
        let values = situation.values().into_iter();
        values.map(|value| (value, times(value))).collect()
    }

    /// Tells how often each situation came up, and how many never did.
    pub fn tell(&self, out: &mut dyn Write) -> io::Result<usize> {
        let mut missing = 0;
        for situation in Situation::all() {
            let times = self.times(situation);
            writeln!(out, "{situation}: {}", times_told(&times))?;
            missing += times.iter().filter(|(_, times)| *times == 0).count();
        }
        writeln!(out, "{missing} missing")?;
        Ok(missing)
    }
}

#[cfg(test)]
pub mod tests {
    use super::*;

    impl Shown {
        fn join(&mut self, other: &Shown) {
            for (key, times) in &other.0 {
                *self.0.entry(*key).or_default() += times;
            }
        }

        fn missing(&self) -> usize {
            self.tell(&mut Vec::new()).unwrap()
        }
    }

    pub fn each_thing_is_missing_without_those_that_show_it(runs: &[Shown]) {
        let mut all = Shown::default();
        runs.iter().for_each(|run| all.join(run));
        assert_eq!(all.missing(), 0);
        for situation in Situation::all() {
            for value in situation.values() {
                let mut others = Shown::default();
                for run in runs {
                    if !run.0.contains_key(&(situation, value)) {
                        others.join(run);
                    }
                }
                let (_, times) = others
                    .times(situation)
                    .into_iter()
                    .find(|(other, _)| *other == value)
                    .unwrap();
                assert_eq!(times, 0);
                assert!(others.missing() > 0, "{situation} {value}");
            }
        }
    }

    #[test]
    fn senseless_words_are_told_apart() {
        let shown = |line: &str| {
            let words: Vec<String> = line.split(' ').map(str::to_owned).collect();
            let mut shown = Shown::default();
            shown.add(&words, &Files::new());
            let shown: Vec<Situation> = shown.0.keys().map(|(situation, _)| *situation).collect();
            shown
        };
        assert_eq!(shown("issue @journal 7"), [NoClassAtAll]);
        assert_eq!(shown("issue @journal 7 4"), [WrongClass]);
        assert_eq!(shown("issue @journal 7 live drill x"), [WrongClass]);
        assert_eq!(shown("issue @journal -7 live"), [WrongClock]);
        assert_eq!(shown("issue @journal x 4"), [WrongClock]);
        assert_eq!(shown("issue @journal 7 live"), [NoFile]);
        assert_eq!(shown("issue @journal"), []);
    }
}
