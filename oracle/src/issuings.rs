//! Holds another program's word `issue` to ours, and counts what the runs show.

mod cases;
mod classes;
mod mixture;
mod shown;

use std::io::{self, Write};

use self::shown::Shown;
use crate::trial::{self, Course, Files, Found, Program, Settings};

const COURSE: Course = Course {
    cases: &cases::ALL,
    journal: mixture::journal,
};

/// A program whose runs are looked at as they are made.
struct Watched<'a> {
    program: &'a mut dyn Program,
    shown: Shown,
}

impl Program for Watched<'_> {
    fn run(&mut self, words: &[String], files: &Files) -> io::Result<Found> {
        self.shown.add(words, files);
        self.program.run(words, files)
    }
}

/// Runs the whole comparison. True where nothing differs, and no situation is missing
/// among the runs.
pub fn compare(
    settings: &Settings,
    program: &mut dyn Program,
    out: &mut dyn Write,
) -> io::Result<bool> {
    let mut watched = Watched {
        program,
        shown: Shown::default(),
    };
    let totals = trial::go_through(&COURSE, settings, &mut watched, out)?;
    let missing = watched.shown.tell(out)?;
    totals.tell(settings, out)?;
    Ok(totals.differences == 0 && missing == 0)
}

#[cfg(test)]
mod tests {
    use super::*;
    use crate::trial::own::{run, sees_each, Spoil, FAULTS};

    /// Goes through the comparison with a program that is spoilt.
    fn compared(count: u64, spoil: Spoil) -> (bool, String) {
        let mut program = trial::own::Wrong::by(spoil);
        let settings = Settings {
            seed: 7,
            count,
            keep: None,
        };
        let mut out = Vec::new();
        let good = compare(&settings, &mut program, &mut out).unwrap();
        (good, String::from_utf8(out).unwrap())
    }

    #[test]
    fn no_difference_with_ourselves_and_nothing_is_missing() {
        let (good, text) = compared(20, |_, _, _| {});
        assert!(good, "{text}");
        let (_, _, program) = run(&COURSE, 20, |_, _, _| {});
        let runs = program.seen.len();
        let last = format!("\n0 missing\n20 journals, {runs} runs, 0 differences, seed 7\n");
        assert!(text.ends_with(&last), "{text}");
        assert!(runs <= 400, "{runs}");
        // A difference is no less one for being the only thing that is wrong.
        let (good, text) = compared(0, |_, _, found| found.output.push(b'\n'));
        assert!(
            !good && text.contains("\n0 missing\n0 journals, "),
            "{text}"
        );
    }

    /// Changes the first line, if it answers 0, as numbers and hex.
    fn change_first(found: &mut Found, change: impl Fn(&mut Vec<String>)) {
        let text = String::from_utf8_lossy(&found.output).into_owned();
        let mut lines: Vec<String> = text.lines().map(str::to_owned).collect();
        let first = lines.first_mut().filter(|line| line.starts_with("0 "));
        if let Some(first) = first {
            let mut words: Vec<String> = first.split(' ').map(str::to_owned).collect();
            change(&mut words);
            *first = words.join(" ");
            found.output = (lines.join("\n") + "\n").into_bytes();
        }
    }

    fn replace(found: &mut Found, from: &str, to: &str) {
        let text = String::from_utf8_lossy(&found.output);
        found.output = text.replace(from, to).into_bytes();
    }

    #[test]
    fn faults_are_found() {
        let faults: [Spoil; 14] = [
            // A file left behind.
            |_, _, found| {
                found.files.insert("@desk".to_owned(), Vec::new());
            },
            // The journal goes.
            |_, _, found| {
                found.files.clear();
            },
            // A status of 1 where a class was refused.
            |_, _, found| {
                if found.output.windows(3).any(|three| three == b"13 ") {
                    found.status = Some(1);
                }
            },
            // A broken journal is issued from all the same.
            |_, _, found| {
                if found.status == Some(1) {
                    found.status = Some(0);
                    found.output = b"end 0\n".to_vec();
                }
            },
            // Unseeded counts before a class that is none.
            |_, _, found| replace(found, "13 0 0", "2 0 0"),
            // The other way round.
            |_, _, found| {
                if found.output.starts_with(b"2 ") {
                    replace(found, "2 0 0", "13 0 0");
                }
            },
            // The work of a reseed is not told.
            |_, _, found| change_first(found, |words| words[2] = "0".to_owned()),
            // A reseed with enough for two blocks of it is told as three.
            |_, _, found| replace(found, "0 1 16 ", "0 1 24 "),
            // Hex in upper case.
            |_, _, found| change_first(found, |words| words[3] = words[3].to_uppercase()),
            // No class byte in front.
            |_, _, found| {
                change_first(found, |words| {
                    words[3].drain(..2);
                });
            },
            // The delivered length is told too.
            |_, _, found| change_first(found, |words| words.insert(1, "16".to_owned())),
            // Upper case digits are not read.
            |words, _, found| {
                if words.iter().any(|word| word == "4C") {
                    found.status = Some(2);
                    found.output.clear();
                    found.errors = b"no\n".to_vec();
                }
            },
            // A 65th number is refused.
            |_, _, found| {
                let text = String::from_utf8_lossy(&found.output).into_owned();
                let issued = |line: &&str| line.starts_with("0 ");
                if let Some(line) = text.lines().filter(issued).nth(64) {
                    replace(found, line, "14 4 0 00000000000000000000000000000000");
                }
            },
            // A clock above 32 bits is cut.
            |words, _, found| {
                if words.get(2).map_or(false, |clock| clock == "4294967302") {
                    found.status = Some(0);
                    found.output = b"end 0\n".to_vec();
                }
            },
        ];
        sees_each(&COURSE, &FAULTS);
        sees_each(&COURSE, &faults);
    }

    #[test]
    fn whatever_the_seed_nothing_is_missing() {
        for seed in [0, 4, 5, 1_000, u64::MAX] {
            let mut program = trial::own::Wrong::by(|_, _, _| {});
            let settings = Settings {
                seed,
                count: 0,
                keep: None,
            };
            let mut out = Vec::new();
            let good = compare(&settings, &mut program, &mut out).unwrap();
            assert!(good, "{}", String::from_utf8_lossy(&out));
        }
    }

    /// Takes out of a comparison the runs that show one thing, for all things.
    #[test]
    fn what_no_run_shows_is_missing() {
        let (_, _, program) = run(&COURSE, 5, |_, _, _| {});
        let each: Vec<Shown> = program
            .seen
            .iter()
            .map(|(words, files)| {
                let mut shown = Shown::default();
                shown.add(words, files);
                shown
            })
            .collect();
        shown::tests::each_thing_is_missing_without_those_that_show_it(&each);
        let mut out = Vec::new();
        assert!(Shown::default().tell(&mut out).unwrap() > 290);
        let text = String::from_utf8(out).unwrap();
        assert!(text.contains("\na full desk: missing\n"));
        assert!(text.starts_with("answers 0, 2, 13: 0 of 3, missing 0 2 13\n"));
    }
}
