//! A second program for the keeper, written from its rules alone, to hold the
//! first one's transcripts against.

mod balance;
mod calls;
mod cipher;
mod compare;
mod conversions;
mod convert;
mod converts;
mod credits;
mod desk;
mod folder;
mod hash;
mod index;
mod issue;
mod issuings;
mod journal;
mod keeper;
mod ledger;
mod lookups;
mod maker;
mod pick;
mod pools;
mod random;
#[cfg(test)]
mod read_back;
mod replace;
mod rules;
mod situations;
mod summaries;
mod tally;
mod transcript;
mod trial;
mod watch;
mod words;

use std::any::Any;
use std::fs;
use std::io::{self, BufWriter, Write};
use std::panic::{self, Location};
use std::path::{Path, PathBuf};
use std::process::ExitCode;

use pick::Picked;
use trial::Course;
use words::Order;

const USAGE: &str = "\
usage: oracle transcript FILE..
       oracle list FILE..
       oracle ledger FILE..
       oracle make --seed S --count N DIR
       oracle compare --seed S --count N [--batch B] [--keep DIR] --program COMMAND..
       oracle calls --seed S --count N
       oracle tally --seed S --count N
       oracle pick --seed S --count N --first F DIR
       oracle index JOURNAL INDEX
       oracle append JOURNAL INDEX MORE
       oracle look JOURNAL INDEX N..
       oracle summaries --seed S --count N [--keep DIR] --program COMMAND..
       oracle lookups --seed S --count N
       oracle convert JOURNAL OUT
       oracle conversions --seed S --count N [--keep DIR] --program COMMAND..
       oracle converts --seed S --count N
       oracle issue JOURNAL CLOCK CLASS..
       oracle issuings --seed S --count N [--keep DIR] --program COMMAND..
";

/// The words of a command line after the command's name.
#[derive(Debug, Default, PartialEq)]
struct Options {
    seed: u64,
    count: u64,
    batch: u64,
    first: u64,
    keep: Option<PathBuf>,
    program: Vec<String>,
    others: Vec<String>,
}

impl Options {
    /// `--program` takes all words after it, but for a `--keep` and its folder.
    fn read(words: &[String]) -> Result<Options, String> {
        let mut options = Options {
            count: 100,
            batch: 100,
            first: 1,
            ..Options::default()
        };
        let mut in_program = false;
        let mut words = words.iter();
        while let Some(word) = words.next() {
            let mut value = || words.next().ok_or(format!("{word} needs a value"));
            let number = |text: &String| {
                text.parse::<u64>()
                    .map_err(|_| format!("{word} needs a number, not {text}"))
            };
            match word.as_str() {
                "--keep" => options.keep = Some(value()?.into()),
                _ if in_program => options.program.push(word.clone()),
                "--program" => in_program = true,
                "--seed" => options.seed = number(value()?)?,
                "--count" => options.count = number(value()?)?,
                "--batch" => options.batch = number(value()?)?.max(1),
                "--first" => options.first = number(value()?)?,
                other if other.starts_with("--") => return Err(format!("unknown word {other}")),
                _ => options.others.push(word.clone()),
            }
        }
        Ok(options)
    }

    /// The one folder that a command writes into.
    fn folder(&self) -> Result<&Path, String> {
        match &self.others[..] {
            [folder] => Ok(Path::new(folder)),
            _ => Err(USAGE.to_owned()),
        }
    }
}

fn main() -> ExitCode {
    panic::set_hook(Box::new(|info| break_off(info.payload(), info.location())));
    let words: Vec<String> = std::env::args().skip(1).collect();
    let mut out = BufWriter::new(io::stdout().lock());
    let done = run(&words, &mut out).and_then(|good| {
        out.flush().map_err(|e| e.to_string())?;
        Ok(good)
    });
    match done {
        Ok(true) => ExitCode::SUCCESS,
        Ok(false) => ExitCode::from(1),
        Err(message) => {
            eprintln!("oracle: {message}");
            ExitCode::from(2)
        }
    }
}

/// Tells in one line why the program does not go on, as where a check fails.
fn break_off(reason: &(dyn Any + Send), place: Option<&Location>) {
    let whole = reason.downcast_ref::<String>().map(String::as_str);
    let plain = reason.downcast_ref::<&str>().copied();
    let text = whole.or(plain).unwrap_or("no reason told");
    let place = place.map(|place| format!(" ({place})"));
    eprintln!("oracle: {text}{}", place.unwrap_or_default());
}

/// Carries out one command; true where all was well.
fn run(words: &[String], out: &mut dyn Write) -> Result<bool, String> {
    let (command, rest) = words.split_first().ok_or(USAGE)?;
    if Order::begins_with(command) {
        return carry_out(&Order::read(words)?, out);
    }
    let options = Options::read(rest)?;
    let text = |e: io::Error| e.to_string();
    match command.as_str() {
        "transcript" => {
            for file in &options.others {
                let journal = read(file)?;
                write!(out, "{}", transcript::transcript(&journal)).map_err(text)?;
            }
            Ok(true)
        }
        "list" => {
            for file in &options.others {
                let journal = read(file)?;
                write!(out, "{file}: {}", journal::listing(&journal)).map_err(text)?;
            }
            Ok(true)
        }
        "ledger" => {
            for file in &options.others {
                let journal = read(file)?;
                write!(out, "{file}: {}", transcript::sums(&journal)).map_err(text)?;
            }
            Ok(true)
        }
        "make" => {
            make(&options, options.folder()?).map_err(text)?;
            Ok(true)
        }
        "compare" => {
            if options.program.is_empty() {
                return Err(USAGE.to_owned());
            }
            let settings = compare::Settings {
                seed: options.seed,
                count: options.count,
                batch: options.batch,
                keep: options.keep.as_deref(),
            };
            let mut program = compare::Outside::new(options.program).map_err(text)?;
            let differences = compare::compare(&settings, &mut program, out).map_err(text)?;
            Ok(differences == 0)
        }
        "summaries" => try_out(&through(&summaries::COURSE), options, out),
        "conversions" => try_out(&through(&conversions::COURSE), options, out),
        "issuings" => try_out(&issuings::compare, options, out),
        "calls" => {
            calls::calls(options.seed, options.count, out).map_err(text)?;
            Ok(true)
        }
        "lookups" => {
            lookups::lookups(options.seed, options.count, out).map_err(text)?;
            Ok(true)
        }
        "converts" => {
            converts::converts(options.seed, options.count, out).map_err(text)?;
            Ok(true)
        }
        "tally" => {
            let journals = (1..=options.count).map(|n| maker::journal(options.seed, n));
            tally::tally(journals, out).map_err(text)
        }
        "pick" => {
            let folder = options.folder()?;
            let picked = pick::pick(options.seed, options.count)?;
            keep(folder, options.first, &picked, out).map_err(text)?;
            Ok(true)
        }
        other => Err(format!("unknown command {other}\n{USAGE}")),
    }
}

/// A way to hold a program's words to ours; true where all is well.
type Way = dyn Fn(&trial::Settings, &mut dyn trial::Program, &mut dyn Write) -> io::Result<bool>;

/// Through a course, where nothing may differ.
fn through(
    course: &'static Course,
) -> impl Fn(&trial::Settings, &mut dyn trial::Program, &mut dyn Write) -> io::Result<bool> {
    move |settings, program, out| Ok(trial::compare(course, settings, program, out)? == 0)
}

/// Holds a program's words that work on files to ours.
fn try_out(way: &Way, options: Options, out: &mut dyn Write) -> Result<bool, String> {
    if options.program.is_empty() {
        return Err(USAGE.to_owned());
    }
    let text = |e: io::Error| e.to_string();
    let settings = trial::Settings {
        seed: options.seed,
        count: options.count,
        keep: options.keep.as_deref(),
    };
    let mut program = trial::Outside::new(options.program).map_err(text)?;
    way(&settings, &mut program, out).map_err(text)
}

fn read(file: &str) -> Result<Vec<u8>, String> {
    fs::read(file).map_err(|e| format!("{file}: {e}"))
}

/// Carries out a word on its files; true where it was not refused. What it
/// writes is written before a line of it is printed.
fn carry_out(order: &Order, out: &mut dyn Write) -> Result<bool, String> {
    let given: Result<Vec<Vec<u8>>, String> = order.given().iter().map(|f| read(f)).collect();
    let done = order.carry_out(&given?);
    let written: Vec<(&Path, &[u8])> = done
        .written
        .iter()
        .map(|(which, bytes)| (Path::new(&order.files[*which]), bytes.as_slice()))
        .collect();
    replace::replace(&written).map_err(|e| e.to_string())?;
    write!(out, "{}", done.text).map_err(|e| e.to_string())?;
    Ok(done.number == keeper::DONE)
}

fn make(options: &Options, folder: &Path) -> io::Result<()> {
    fs::create_dir_all(folder)?;
    for number in 1..=options.count {
        let journal = maker::journal(options.seed, number);
        fs::write(folder.join(maker::file_name(number)), journal)?;
    }
    Ok(())
}

/// Writes journals with their transcripts, and tells what each is for.
fn keep(folder: &Path, first: u64, picked: &[Picked], out: &mut dyn Write) -> io::Result<()> {
    fs::create_dir_all(folder)?;
    for (number, Picked { text, journal }) in (first..).zip(picked) {
        let name = format!("second{number:02}");
        fs::write(folder.join(format!("{name}.nkj")), journal)?;
        let transcript = transcript::transcript(journal);
        fs::write(folder.join(format!("{name}.txt")), transcript)?;
        writeln!(out, "{name}, {} bytes: {text}", journal.len())?;
    }
    Ok(())
}

#[cfg(test)]
mod tests {
    use super::*;

    fn words(line: &str) -> Vec<String> {
        line.split(' ').map(str::to_owned).collect()
    }

    #[test]
    fn a_program_keeps_its_own_words() {
        let line = "--seed 3 --count 4 --program run --seed 9 x --keep here";
        let options = Options::read(&words(line)).unwrap();
        assert_eq!((options.seed, options.count), (3, 4));
        assert_eq!(options.program, ["run", "--seed", "9", "x"]);
        assert_eq!(options.keep, Some("here".into()));
        assert!(Options::read(&words("--seed x")).is_err());
        assert!(Options::read(&words("--seed")).is_err());
        assert!(Options::read(&words("--sed 3")).is_err());
    }
}
