//! Holds another program's words that work on files to ours: what it prints, its
//! exit status, and what its folder holds afterwards.

mod program;

use std::fs;
use std::io::{self, Write};
use std::path::Path;

use crate::compare::first_difference;
use crate::convert::replay_alike;
use crate::random::Random;
use crate::words::Order;
pub use program::Outside;
pub use program::{Files, Found, Program};

/// Differences beyond this many are counted and kept, but not shown.
const SHOWN: u64 = 20;

/// Words of a command line that are shown.
const SHOWN_WORDS: usize = 12;

/// Where all of them are kept.
const WORDS: &str = "words.txt";

/// The name of a run's journal. The sign marks a word that stands for a file in
/// the folder.
pub const JOURNAL: &str = "@journal";

pub struct Settings<'a> {
    pub seed: u64,
    pub count: u64,
    /// Where the files of runs with a difference are kept, if anywhere.
    pub keep: Option<&'a Path>,
}

/// A few runs that belong together.
pub type Case = fn(&mut Trial, &mut Random) -> io::Result<()>;

/// The runs on one journal of a mixture, which are counted from 1.
pub type Numbered = fn(&mut Trial, &mut Random, u64) -> io::Result<()>;

/// What a comparison goes through, however few journals it makes, and what it does
/// with each of these.
pub struct Course<'a> {
    pub cases: &'a [Case],
    pub journal: Numbered,
}

/// Runs the whole comparison and gives the number of differences.
pub fn compare(
    course: &Course,
    settings: &Settings,
    program: &mut dyn Program,
    out: &mut dyn Write,
) -> io::Result<u64> {
    let totals = go_through(course, settings, program, out)?;
    totals.tell(settings, out)?;
    Ok(totals.differences)
}

/// How many runs were made, and in how many of them something differed.
pub struct Totals {
    runs: u64,
    pub differences: u64,
}

impl Totals {
    /// The last line of a comparison.
    pub fn tell(&self, settings: &Settings, out: &mut dyn Write) -> io::Result<()> {
        let Totals { runs, differences } = self;
        let Settings { seed, count, .. } = settings;
        writeln!(
            out,
            "{count} journals, {runs} runs, {differences} differences, seed {seed}"
        )
    }
}

/// Makes all runs, and tells of differences.
pub fn go_through(
    course: &Course,
    settings: &Settings,
    program: &mut dyn Program,
    out: &mut dyn Write,
) -> io::Result<Totals> {
    let Settings { seed, count, keep } = *settings;
    let mut trial = Trial {
        program,
        out,
        keep,
        files: Files::new(),
        runs: 0,
        differences: 0,
    };
    let random = &mut Random::new(seed, 0);
    for case in course.cases {
        case(&mut trial, random)?;
    }
    for number in 1..=count {
        (course.journal)(&mut trial, &mut Random::new(seed, number), number)?;
    }
    Ok(Totals {
        runs: trial.runs,
        differences: trial.differences,
    })
}

/// A program that is tried, and what lies in its folder.
pub struct Trial<'a> {
    program: &'a mut dyn Program,
    out: &'a mut dyn Write,
    keep: Option<&'a Path>,
    files: Files,
    runs: u64,
    differences: u64,
}

/// What a run has to come to.
#[derive(Debug, PartialEq)]
pub struct Expected {
    pub status: i32,
    pub output: String,
    pub files: Files,
}

impl Trial<'_> {
    /// Lays out files for the runs to come, and no others.
    pub fn lay(&mut self, files: &[(&str, &[u8])]) {
        self.files.clear();
        for (name, bytes) in files {
            self.put(name, bytes);
        }
    }

    /// Gives one file other bytes.
    pub fn put(&mut self, name: &str, bytes: &[u8]) {
        self.files.insert(name.to_owned(), bytes.to_vec());
    }

    pub fn file(&self, name: &str) -> Vec<u8> {
        self.files.get(name).cloned().unwrap_or_default()
    }

    /// Runs one command on the files as they lie and compares. The next run then
    /// finds the files as this one has to leave them.
    pub fn run<W: AsRef<str>>(&mut self, what: &str, words: &[W]) -> io::Result<()> {
        let words: Vec<String> = words.iter().map(|w| w.as_ref().to_owned()).collect();
        self.runs += 1;
        let expected = expected(&words, &self.files);
        let found = self.program.run(&words, &self.files)?;
        let mut told = differences(&expected, &found);
        told += self.another_replay(&words, &found);
        if !told.is_empty() {
            self.report(what, &words, &told)?;
        }
        self.files = expected.files;
        Ok(())
    }

    /// Replays what came of a conversion and the journal it was made from, whatever
    /// is expected of its bytes.
    fn another_replay(&self, words: &[String], found: &Found) -> &'static str {
        let (journal, outcome) = match words {
            [word, journal, out] if word == "convert" && found.status == Some(0) => {
                (self.files.get(journal), found.files.get(out))
            }
            _ => return "",
        };
        match (journal, outcome) {
            (Some(journal), Some(outcome)) if replay_alike(journal, outcome) => "",
            _ => "  the outcome replays otherwise than the journal\n",
        }
    }

    fn report(&mut self, what: &str, words: &[String], told: &str) -> io::Result<()> {
        self.differences += 1;
        if let Some(folder) = self.keep {
            let folder = folder.join(format!("{:04}", self.runs));
            fs::create_dir_all(&folder)?;
            for (name, bytes) in &self.files {
                fs::write(folder.join(program::plain(name)), bytes)?;
            }
            // A line each, as an empty word counts too.
            let words: String = words.iter().map(|word| format!("{word}\n")).collect();
            fs::write(folder.join(WORDS), words)?;
        }
        if self.differences > SHOWN {
            return Ok(());
        }
        writeln!(self.out, "run {}, {what}", self.runs)?;
        writeln!(self.out, "  words: {}", short(words))?;
        for (name, bytes) in &self.files {
            writeln!(self.out, "  {name} has {} bytes", bytes.len())?;
        }
        write!(self.out, "{told}")?;
        if self.differences == SHOWN {
            writeln!(self.out, "further differences are counted only")?;
        }
        self.out.flush()
    }
}

/// A command line for a reader's eye.
fn short(words: &[String]) -> String {
    if words.len() <= SHOWN_WORDS {
        return words.join(" ");
    }
    let shown = words[..SHOWN_WORDS].join(" ");
    format!("{shown} .. ({} words)", words.len())
}

/// What a run has to come to. A file that is not there cannot be read, and none
/// can be written in a folder that is not there.
fn expected(words: &[String], files: &Files) -> Expected {
    let unable = Expected {
        status: 2,
        output: String::new(),
        files: files.clone(),
    };
    let order = match Order::read(words) {
        Ok(order) => order,
        Err(_) => return unable,
    };
    let given = order.given().iter().map(|name| files.get(name).cloned());
    let done = match given.collect::<Option<Vec<Vec<u8>>>>() {
        Some(given) => order.carry_out(&given),
        None => return unable,
    };
    let mut files = files.clone();
    for (which, bytes) in done.written {
        let name = &order.files[which];
        if name.contains('/') {
            return unable;
        }
        files.insert(name.clone(), bytes);
    }
    Expected {
        status: i32::from(done.number != 0),
        output: done.text,
        files,
    }
}

/// All that differs, in a few lines; nothing where all is as it has to be.
fn differences(expected: &Expected, found: &Found) -> String {
    let mut told = String::new();
    if found.status != Some(expected.status) {
        let found = match found.status {
            Some(status) => status.to_string(),
            None => "none: a signal ended it".to_owned(),
        };
        told += &format!(
            "  exit status: expected {}, found {found}\n",
            expected.status
        );
    }
    if found.output != expected.output.as_bytes() {
        told += "  standard output:\n";
        told += &first_difference(&expected.output, &found.output);
    }
    if expected.status == 2 && !is_one_line(&found.errors) {
        let lines = found.errors.split(|b| *b == b'\n').count() - 1;
        told += &format!("  standard error: expected one line, found {lines}\n");
    }
    let mut names: Vec<&String> = expected.files.keys().chain(found.files.keys()).collect();
    names.sort();
    names.dedup();
    for name in names {
        told += &file_difference(name, expected.files.get(name), found.files.get(name));
    }
    told
}

fn is_one_line(text: &[u8]) -> bool {
    text.len() > 1 && text.iter().position(|b| *b == b'\n') == Some(text.len() - 1)
}

fn file_difference(name: &str, expected: Option<&Vec<u8>>, found: Option<&Vec<u8>>) -> String {
    let (expected, found) = match (expected, found) {
        (Some(expected), Some(found)) if expected == found => return String::new(),
        (Some(expected), Some(found)) => (expected, found),
        (Some(_), None) => return format!("  {name}: the file is not there\n"),
        (None, _) => return format!("  {name}: no such file was to be there\n"),
    };
    let at = expected
        .iter()
        .zip(found)
        .take_while(|(e, f)| e == f)
        .count();
    let byte = |bytes: &[u8]| match bytes.get(at) {
        Some(byte) => format!("{byte:02x}"),
        None => "none".to_owned(),
    };
    format!(
        "  {name}: expected {} bytes, found {}; byte {at}: expected {}, found {}\n",
        expected.len(),
        found.len(),
        byte(expected),
        byte(found)
    )
}

/// Our own answers, for tests of what is compared.
#[cfg(test)]
pub mod own {
    use super::*;

    pub type Spoil = fn(&[String], &Files, &mut Found);

    /// What we expect ourselves, spoilt as the test says.
    pub struct Wrong {
        spoil: Spoil,
        /// The runs that were made, and the files that each found.
        pub seen: Vec<(Vec<String>, Files)>,
    }

    impl Program for Wrong {
        fn run(&mut self, words: &[String], files: &Files) -> io::Result<Found> {
            let Expected {
                status,
                output,
                files: after,
            } = expected(words, files);
            let mut found = Found {
                status: Some(status),
                output: output.into_bytes(),
                errors: if status == 2 {
                    b"no\n".to_vec()
                } else {
                    vec![]
                },
                files: after,
            };
            (self.spoil)(words, files, &mut found);
            self.seen.push((words.to_vec(), files.clone()));
            Ok(found)
        }
    }

    impl Wrong {
        pub fn by(spoil: Spoil) -> Wrong {
            Wrong {
                spoil,
                seen: Vec::new(),
            }
        }

        /// How many of the runs that were made are such.
        pub fn count(&self, such: &dyn Fn(&[String], &Files, &Expected) -> bool) -> usize {
            let such = |(words, files): &&(Vec<String>, Files)| {
                such(words, files, &expected(words, files))
            };
            self.seen.iter().filter(such).count()
        }
    }

    /// Goes through a course with a program that is spoilt. Gives the number of
    /// differences, what was printed, and the program with what it has seen.
    pub fn run(course: &Course, count: u64, spoil: Spoil) -> (u64, String, Wrong) {
        let mut program = Wrong::by(spoil);
        let settings = Settings {
            seed: 7,
            count,
            keep: None,
        };
        let mut out = Vec::new();
        let differences = compare(course, &settings, &mut program, &mut out).unwrap();
        (differences, String::from_utf8(out).unwrap(), program)
    }

    /// Whether each of the faults alone is seen and told.
    pub fn sees_each(course: &Course, faults: &[Spoil]) {
        for (number, fault) in faults.iter().enumerate() {
            let (differences, text, _) = run(course, 0, *fault);
            assert!(differences > 0, "fault {number}");
            assert!(text.contains("  words: "), "{text}");
            assert!(text.ends_with(&format!(" {differences} differences, seed 7\n")));
        }
    }

    /// Whether an output ends with this number.
    pub fn ends(expected: &Expected, number: u8) -> bool {
        expected.output.ends_with(&format!("end {number}\n"))
    }

    /// Faults that any word may have.
    pub const FAULTS: [Spoil; 4] = [
        // A status that is not told apart.
        |_, _, found| found.status = found.status.map(|status| status.min(1)),
        // A line end left out.
        |_, _, found| found.output.truncate(found.output.len().saturating_sub(1)),
        // A message of two lines.
        |_, _, found| found.errors.extend(b"usage\n"),
        // Ended by a signal.
        |_, _, found| found.status = None,
    ];
}

#[cfg(test)]
mod tests {
    use super::*;

    #[test]
    fn differences_are_told_in_short() {
        let files = |bytes: &[u8]| Files::from([("@index".to_owned(), bytes.to_vec())]);
        let expected = Expected {
            status: 1,
            output: "end 16\n".to_owned(),
            files: files(b"abc"),
        };
        let mut found = Found {
            status: Some(1),
            output: b"end 16\n".to_vec(),
            errors: Vec::new(),
            files: files(b"abc"),
        };
        assert_eq!(differences(&expected, &found), "");
        found.files = files(b"abd");
        found.files.insert("@new".to_owned(), Vec::new());
        found.status = Some(0);
        assert_eq!(
            differences(&expected, &found),
            "  exit status: expected 1, found 0\n  \
             @index: expected 3 bytes, found 3; byte 2: expected 63, found 64\n  \
             @new: no such file was to be there\n"
        );
    }

    #[test]
    fn one_line_is_one_line() {
        assert!(is_one_line(b"a\n"));
        for text in [&b""[..], b"\n", b"a", b"a\nb", b"a\nb\n", b"\na\n"] {
            assert!(!is_one_line(text));
        }
    }

    #[test]
    fn a_file_in_a_folder_that_is_not_there_cannot_be_written() {
        let journal = crate::journal::header(crate::journal::Version::One, &[0; 48]);
        let files = Files::from([(JOURNAL.to_owned(), journal)]);
        let run = |line: &str| {
            let words: Vec<String> = line.split(' ').map(str::to_owned).collect();
            expected(&words, &files)
        };
        for word in ["index", "convert"] {
            assert_eq!(run(&format!("{word} @journal @out")).status, 0);
            let unable = run(&format!("{word} @journal @none/out"));
            assert_eq!((unable.status, unable.output.as_str()), (2, ""));
            assert_eq!(unable.files, files);
            assert_eq!(run(&format!("{word} @none @out")).status, 2);
        }
    }
}
