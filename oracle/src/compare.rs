//! Compares another program's transcripts with ours, and makes a journal on
//! which they differ as small as it goes.

use std::fs;
use std::io::{self, Write};
use std::path::Path;
use std::process::{Command, Stdio};

use crate::folder::Folder;
use crate::journal::{self, Record, Records, Version, HEADER};
use crate::maker;
use crate::transcript::transcript;

/// Differences beyond this many are reported and kept, but not shrunk.
const SHRUNK: u64 = 5;
/// Calls of the program that one shrinking may cost.
const SHRINKING_CALLS: usize = 300;

/// So few records that shrinking looks for the exact numbers.
const FEW: usize = 8;

/// A program that turns journals into transcripts, one after the other.
pub trait Program {
    fn run(&mut self, journals: &[Vec<u8>]) -> io::Result<Vec<u8>>;
}

/// A program outside: a command that is handed file names.
pub struct Outside {
    command: Vec<String>,
    /// For the journals of one batch.
    folder: Folder,
}

impl Outside {
    pub fn new(command: Vec<String>) -> io::Result<Outside> {
        Ok(Outside {
            command,
            folder: Folder::new("oracle-compare")?,
        })
    }
}

impl Program for Outside {
    fn run(&mut self, journals: &[Vec<u8>]) -> io::Result<Vec<u8>> {
        let mut files = Vec::new();
        for (i, journal) in journals.iter().enumerate() {
            let file = self.folder.path().join(format!("{i:04}.nkj"));
            fs::write(&file, journal)?;
            files.push(file);
        }
        let output = Command::new(&self.command[0])
            .args(&self.command[1..])
            .args(&files)
            .stdin(Stdio::null())
            .stderr(Stdio::inherit())
            .output()
            .map_err(|e| io::Error::new(e.kind(), format!("{}: {e}", self.command[0])))?;
        Ok(output.stdout)
    }
}

/// Splits an output after each line that ends a transcript.
fn split(output: &[u8]) -> Vec<Vec<u8>> {
    let mut parts = Vec::new();
    let mut part = Vec::new();
    for line in output.split_inclusive(|b| *b == b'\n') {
        part.extend_from_slice(line);
        if line.starts_with(b"end ") {
            parts.push(std::mem::take(&mut part));
        }
    }
    if !part.is_empty() {
        parts.push(part);
    }
    parts
}

/// The program's transcript of each journal. Where a batch gives another
/// number of transcripts than it has journals, its halves are run again: a
/// program that breaks off at one journal must not hide the others.
fn transcripts(program: &mut dyn Program, journals: &[Vec<u8>]) -> io::Result<Vec<Vec<u8>>> {
    let output = program.run(journals)?;
    if journals.len() < 2 {
        return Ok(vec![output; journals.len()]);
    }
    let parts = split(&output);
    if parts.len() == journals.len() {
        return Ok(parts);
    }
    let (left, right) = journals.split_at(journals.len() / 2);
    let mut all = transcripts(program, left)?;
    all.extend(transcripts(program, right)?);
    Ok(all)
}

pub struct Settings<'a> {
    pub seed: u64,
    pub count: u64,
    pub batch: u64,
    /// Where journals with a difference are kept, if anywhere.
    pub keep: Option<&'a Path>,
}

/// Runs the whole comparison and gives the number of differences.
pub fn compare(
    settings: &Settings,
    program: &mut dyn Program,
    out: &mut dyn Write,
) -> io::Result<u64> {
    let mut differences = 0;
    let mut first = 1;
    while first <= settings.count {
        let last = settings.count.min(first + settings.batch - 1);
        let journals: Vec<Vec<u8>> = (first..=last)
            .map(|number| maker::journal(settings.seed, number))
            .collect();
        let found = transcripts(program, &journals)?;
        for ((number, journal), found) in (first..).zip(&journals).zip(&found) {
            let expected = transcript(journal);
            if expected.as_bytes() == &found[..] {
                continue;
            }
            differences += 1;
            let seed = settings.seed;
            writeln!(out, "journal {number} of seed {seed} differs")?;
            write!(out, "{}", first_difference(&expected, found))?;
            if let Some(folder) = settings.keep {
                fs::create_dir_all(folder)?;
                fs::write(folder.join(maker::file_name(number)), journal)?;
            }
            if differences <= SHRUNK {
                report_shrunk(settings, program, number, journal, out)?;
            }
            out.flush()?;
        }
        first = last + 1;
    }
    let Settings { seed, count, .. } = settings;
    writeln!(
        out,
        "{count} journals, {differences} differences, seed {seed}"
    )?;
    Ok(differences)
}

fn report_shrunk(
    settings: &Settings,
    program: &mut dyn Program,
    number: u64,
    journal: &[u8],
    out: &mut dyn Write,
) -> io::Result<()> {
    let small = match shrink(program, journal, settings.batch as usize)? {
        Some(small) => small,
        None => {
            return writeln!(
                out,
                "  alone it does not differ: no smaller one was looked for"
            )
        }
    };
    let expected = transcript(&small);
    let found = program.run(std::slice::from_ref(&small))?;
    let text = format!(
        "journal {number} of seed {}, made smaller\n\n{}\n{}\nexpected:\n{expected}\nfound:\n{}",
        settings.seed,
        journal::listing(&small),
        first_difference(&expected, &found),
        String::from_utf8_lossy(&found)
    );
    writeln!(out, "  made smaller:")?;
    for line in journal::listing(&small).lines() {
        writeln!(out, "    {line}")?;
    }
    write!(out, "{}", first_difference(&expected, &found))?;
    if let Some(folder) = settings.keep {
        let name = format!("{number:04}-small");
        fs::write(folder.join(format!("{name}.nkj")), &small)?;
        fs::write(folder.join(format!("{name}.txt")), text)?;
        writeln!(out, "  kept as {number:04}.nkj, {name}.nkj and {name}.txt")?;
    }
    Ok(())
}

/// The first line in which two texts differ, from both.
pub fn first_difference(expected: &str, found: &[u8]) -> String {
    let found = String::from_utf8_lossy(found);
    let mut ours = expected.split_inclusive('\n');
    let mut theirs = found.split_inclusive('\n');
    let mut number = 1;
    loop {
        match (ours.next(), theirs.next()) {
            (None, None) => return "  no difference\n".to_owned(),
            (a, b) if a == b => number += 1,
            (a, b) => {
                let column = a
                    .unwrap_or("")
                    .chars()
                    .zip(b.unwrap_or("").chars())
                    .take_while(|(x, y)| x == y)
                    .count();
                return format!(
                    "  line {number}, column {}\n  expected: {}\n  found:    {}\n",
                    column + 1,
                    window(a, column),
                    window(b, column)
                );
            }
        }
    }
}

/// The part of a line that is worth showing.
fn window(line: Option<&str>, column: usize) -> String {
    const WIDTH: usize = 120;
    let line = match line {
        Some(line) => line,
        None => return "(no line)".to_owned(),
    };
    let from = if column < WIDTH { 0 } else { column - 40 };
    let shown: String = line.chars().skip(from).take(WIDTH).collect();
    let before = if from > 0 { ".." } else { "" };
    match shown.strip_suffix('\n') {
        Some(shown) => format!("{before}{shown}"),
        None if from + WIDTH < line.chars().count() => format!("{before}{shown}.."),
        None => format!("{before}{shown} (no line end)"),
    }
}

/// A journal taken apart. The tail is what no longer reads as a record.
#[derive(Clone, Debug, PartialEq)]
struct Pieces {
    /// How its records are read. Where the header names no version they are not,
    /// and either will do.
    version: Version,
    header: Vec<u8>,
    records: Vec<Vec<u8>>,
    tail: Vec<u8>,
}

impl Pieces {
    fn of(journal: &[u8]) -> Pieces {
        let (header, body) = journal.split_at(journal.len().min(HEADER));
        let version = Version::of(journal).unwrap_or(Version::One);
        let mut pieces = Pieces {
            version,
            header: header.to_vec(),
            records: Vec::new(),
            tail: Vec::new(),
        };
        let mut reading = Records::new(version, body);
        loop {
            let before = reading.rest();
            match reading.next() {
                Some(Ok(_)) => {
                    let length = before.len() - reading.rest().len();
                    pieces.records.push(before[..length].to_vec());
                }
                _ => {
                    pieces.tail = before.to_vec();
                    return pieces;
                }
            }
        }
    }

    fn journal(&self) -> Vec<u8> {
        let mut out = self.header.clone();
        out.extend(self.records.iter().flatten());
        out.extend(&self.tail);
        out
    }
}

/// One way to make a journal smaller or plainer.
enum Edit {
    DropRecords(usize, usize),
    Record(usize, Vec<u8>),
    AllRecords(Vec<Vec<u8>>),
    Header(Vec<u8>),
    Tail(Vec<u8>),
}

impl Edit {
    fn applied_to(&self, pieces: &Pieces) -> Pieces {
        let mut pieces = pieces.clone();
        match self {
            Edit::DropRecords(from, to) => {
                pieces.records.drain(from..to);
            }
            Edit::Record(at, bytes) => pieces.records[*at].clone_from(bytes),
            Edit::AllRecords(records) => pieces.records.clone_from(records),
            Edit::Header(header) => pieces.header.clone_from(header),
            Edit::Tail(tail) => pieces.tail.clone_from(tail),
        }
        pieces
    }
}

/// A smaller journal on which the program still differs, or none where it
/// does not differ on this one alone.
fn shrink(program: &mut dyn Program, journal: &[u8], batch: usize) -> io::Result<Option<Vec<u8>>> {
    let mut calls = 1;
    if first_differing(program, &[journal.to_vec()])?.is_none() {
        return Ok(None);
    }
    let mut best = Pieces::of(journal);
    'smaller: loop {
        for some in edits(&best).chunks(batch) {
            if calls == SHRINKING_CALLS {
                break 'smaller;
            }
            calls += 1;
            let tried: Vec<Pieces> = some.iter().map(|edit| edit.applied_to(&best)).collect();
            let journals: Vec<Vec<u8>> = tried.iter().map(Pieces::journal).collect();
            if let Some(i) = first_differing(program, &journals)? {
                // Read anew, as a dropped record may have made a tail whole.
                best = Pieces::of(&journals[i]);
                continue 'smaller;
            }
        }
        break;
    }
    Ok(Some(best.journal()))
}

fn first_differing(program: &mut dyn Program, journals: &[Vec<u8>]) -> io::Result<Option<usize>> {
    let found = transcripts(program, journals)?;
    Ok(journals
        .iter()
        .zip(found)
        .position(|(journal, found)| transcript(journal).as_bytes() != &found[..]))
}

/// All edits of a journal, the boldest first. Each makes it shorter or lowers
/// a number in it, so shrinking comes to an end.
fn edits(pieces: &Pieces) -> Vec<Edit> {
    let mut edits = Vec::new();
    let count = pieces.records.len();
    let mut size = count;
    while size > 0 {
        for from in (0..count).step_by(size) {
            edits.push(Edit::DropRecords(from, count.min(from + size)));
        }
        size /= 2;
    }
    let version = pieces.version;
    let plain = pieces.records.iter().map(|r| plain_record(version, r));
    let plain: Vec<Vec<u8>> = plain.collect();
    if plain != pieces.records {
        edits.push(Edit::AllRecords(plain));
    }
    edits.extend(lower_headers(&pieces.header).into_iter().map(Edit::Header));
    edits.extend(lower_bytes(&pieces.tail, true).into_iter().map(Edit::Tail));
    // Small steps are for the end, when few records are left.
    let fine = count <= FEW;
    for (at, record) in pieces.records.iter().enumerate() {
        for lower in lower_records(version, record, fine) {
            edits.push(Edit::Record(at, lower));
        }
    }
    edits
}

fn parse(version: Version, record: &[u8]) -> Record<'_> {
    let first = Records::new(version, record).next();
    first
        .and_then(Result::ok)
        .expect("the record was read before")
}

/// The same record with zero for all that is only mixed in.
fn plain_record(version: Version, record: &[u8]) -> Vec<u8> {
    let mut plain = parse(version, record);
    match &mut plain {
        Record::Device { stamp, .. } => *stamp = 0,
        Record::Interrupt {
            number,
            stamp,
            address,
            ..
        } => {
            *number = 0;
            *stamp = 0;
            *address = 0;
        }
        Record::Write { bytes, .. } | Record::Seed { bytes, .. } => bytes.to_mut().fill(0),
        Record::Generator { .. } | Record::Blocking { .. } => {}
    }
    plain.to_bytes(version)
}

/// Numbers below this one, the boldest first: zero, then half of it, and where
/// `fine` is asked for, ever smaller steps down to one.
fn lower_numbers(number: u64, fine: bool) -> Vec<u64> {
    (0..if fine { 64 } else { 2 })
        .map(|shift| number >> shift)
        .filter(|step| *step > 0)
        .map(|step| number - step)
        .collect()
}

/// Fewer bytes, then zero bytes.
fn lower_bytes(bytes: &[u8], fine: bool) -> Vec<Vec<u8>> {
    let mut lower: Vec<Vec<u8>> = lower_numbers(bytes.len() as u64, fine)
        .into_iter()
        .map(|length| bytes[..length as usize].to_vec())
        .collect();
    if bytes.iter().any(|b| *b != 0) {
        lower.push(vec![0; bytes.len()]);
        let set = (0..bytes.len()).filter(|at| fine && bytes[*at] != 0);
        for at in set.take(32) {
            let mut zeroed = bytes.to_vec();
            zeroed[at] = 0;
            lower.push(zeroed);
        }
    }
    lower
}

/// Records of the same kind with one field lowered.
fn lower_records(version: Version, record: &[u8], fine: bool) -> Vec<Vec<u8>> {
    let mut lower = Vec::new();
    let original = parse(version, record);
    let mut push = |record: Record| lower.push(record.to_bytes(version));
    // Writes the record once for each lower number of a field.
    macro_rules! fields {
        ($kind:ident: $($field:ident as $number:ty),+) => {
            $(
                if let Record::$kind { $field, .. } = &original {
                    for less in lower_numbers(u64::from(*$field), fine) {
                        let mut copy = original.clone();
                        if let Record::$kind { $field, .. } = &mut copy {
                            *$field = less as $number;
                        }
                        push(copy);
                    }
                }
            )+
        };
    }
    match &original {
        Record::Write { now, bytes } => {
            for less in lower_bytes(bytes, fine) {
                push(Record::Write {
                    now: *now,
                    bytes: less.into(),
                });
            }
        }
        Record::Seed { now, credit, bytes } => {
            for less in lower_bytes(bytes, fine) {
                // With no more credit than the bytes allow, unless it was too
                // much before.
                let most = 8 * less.len() as u32;
                let over = *credit > 8 * bytes.len() as u32;
                push(Record::Seed {
                    now: *now,
                    credit: if over { *credit } else { most.min(*credit) },
                    bytes: less.into(),
                });
            }
        }
        _ => {}
    }
    fields!(Device: now as u32, device as u32, stamp as u64, value as u32);
    fields!(Interrupt: now as u32, number as u32, stamp as u64, address as u64);
    fields!(Write: now as u32);
    fields!(Seed: now as u32, credit as u32);
    fields!(Generator: now as u32, length as u16);
    fields!(Blocking: now as u32, length as u16);
    lower
}

/// Headers with start bytes of zero, all or a word of them.
fn lower_headers(header: &[u8]) -> Vec<Vec<u8>> {
    let from = HEADER.min(journal::MARK.len() + 2);
    let mut lower = Vec::new();
    if header.len() <= from {
        return lower;
    }
    let mut zero = |from: usize, to: usize| {
        if header[from..to].iter().any(|b| *b != 0) {
            let mut copy = header.to_vec();
            copy[from..to].fill(0);
            lower.push(copy);
        }
    };
    zero(from, header.len());
    for word in (from..header.len()).step_by(4) {
        zero(word, header.len().min(word + 4));
    }
    lower
}

#[cfg(test)]
mod tests {
    use super::*;

    /// Our own transcripts, spoilt wherever a line is as the test says.
    struct Wrong {
        spoil: fn(&str) -> bool,
        calls: usize,
    }

    impl Program for Wrong {
        fn run(&mut self, journals: &[Vec<u8>]) -> io::Result<Vec<u8>> {
            self.calls += 1;
            let mut out = String::new();
            for journal in journals {
                for line in transcript(journal).lines() {
                    out += line;
                    out += if (self.spoil)(line) { "0\n" } else { "\n" };
                }
            }
            Ok(out.into_bytes())
        }
    }

    /// A program that stops at the first journal that ends with 9.
    struct Broken;

    impl Program for Broken {
        fn run(&mut self, journals: &[Vec<u8>]) -> io::Result<Vec<u8>> {
            let texts = journals.iter().map(|j| transcript(j));
            let texts = texts.take_while(|t| !t.ends_with("end 9\n"));
            Ok(texts.collect::<String>().into_bytes())
        }
    }

    fn run(program: &mut dyn Program, count: u64) -> (u64, String) {
        let settings = Settings {
            seed: 3,
            count,
            batch: 100,
            keep: None,
        };
        let mut out = Vec::new();
        let differences = compare(&settings, program, &mut out).unwrap();
        (differences, String::from_utf8(out).unwrap())
    }

    #[test]
    fn no_difference_with_ourselves() {
        let mut same = Wrong {
            spoil: |_| false,
            calls: 0,
        };
        let (differences, text) = run(&mut same, 250);
        assert_eq!(differences, 0);
        assert_eq!(text, "250 journals, 0 differences, seed 3\n");
        assert_eq!(same.calls, 3);
    }

    #[test]
    fn a_wrong_answer_is_found_and_shrunk_to_one_record() {
        let mut wrong = Wrong {
            spoil: |line| line.starts_with("4 "),
            calls: 0,
        };
        let (differences, text) = run(&mut wrong, 60);
        assert!(differences > 0);
        // A device that version 1 has not, and one that no version has.
        for (device, bytes) in [(16, 71), (1_024, 72)] {
            let listed = format!("device {device} stamp 0x0 value 0x0");
            assert!(text.contains(&listed), "{text}");
            assert!(text.contains(&format!("{bytes} bytes")), "{text}");
        }
    }

    #[test]
    fn a_program_that_breaks_off_hides_nothing() {
        let expected = (1..=300)
            .filter(|n| transcript(&maker::journal(3, *n)).ends_with("end 9\n"))
            .count() as u64;
        let (differences, _) = run(&mut Broken, 300);
        assert!(expected > 0);
        assert_eq!(differences, expected);
    }

    #[test]
    fn outputs_are_split_after_each_end() {
        let parts = split(b"0 0 0 0 0 0 0\nend 0\nend 8\n1 0");
        let parts: Vec<&[u8]> = parts.iter().map(Vec::as_slice).collect();
        assert_eq!(parts, [&b"0 0 0 0 0 0 0\nend 0\n"[..], b"end 8\n", b"1 0"]);
    }

    #[test]
    fn pieces_make_the_journal_again() {
        for number in 1..120 {
            let journal = maker::journal(4, number);
            assert_eq!(Pieces::of(&journal).journal(), journal);
        }
    }

    #[test]
    fn edits_make_a_journal_shorter_or_lower() {
        let weight = |journal: &[u8]| {
            let sum: u128 = journal.iter().map(|b| u128::from(*b)).sum();
            (journal.len(), sum)
        };
        for number in 1..30 {
            let pieces = Pieces::of(&maker::journal(4, number));
            let whole = pieces.journal();
            for edit in edits(&pieces) {
                let edited = edit.applied_to(&pieces).journal();
                assert_ne!(edited, whole);
                assert!(weight(&edited).0 <= weight(&whole).0);
            }
        }
    }

    #[test]
    fn the_first_difference_is_shown() {
        let text = first_difference("a\nb 1\nend 0\n", b"a\nb 2\nend 0\n");
        assert_eq!(
            text,
            "  line 2, column 3\n  expected: b 1\n  found:    b 2\n"
        );
        let text = first_difference("a\nend 0\n", b"a\n");
        assert!(text.contains("found:    (no line)"));
        let text = first_difference("end 0\n", b"end 0");
        assert!(text.contains("(no line end)"));
    }
}
