//! The words `index`, `append`, `look`, `convert` and `issue` of the keeper's
//! program: what each prints and writes, worked out from the bytes of its files.

use crate::convert::convert;
use crate::index::{self, Form, InFile, Index, Placed, PAST_THE_LAST};
use crate::issue::Issuing;
use crate::journal::{hex, Record, LARGEST};
use crate::keeper::DONE;

/// A command line that makes sense.
#[derive(Debug, PartialEq)]
pub struct Order {
    word: Word,
    /// The names of its files: the journal, the index, and for `append` what is
    /// to be appended; for `convert` the journal and where the outcome goes; for
    /// `issue` the journal alone.
    pub files: Vec<String>,
}

#[derive(Debug, PartialEq)]
enum Word {
    Index,
    Append,
    Look(Vec<Number>),
    Convert,
    Issue(Issuing),
}

/// What came of an order.
#[derive(Debug, PartialEq)]
pub struct Done {
    /// What is printed.
    pub text: String,
    /// The number of its last line.
    pub number: u8,
    /// The files that are written: which of the order's, and their bytes.
    pub written: Vec<(usize, Vec<u8>)>,
}

/// Where an order's files stand among them.
const JOURNAL: usize = 0;
const INDEX: usize = 1;
const MORE: usize = 2;
/// Of a converted journal, in the place of the index.
const OUT: usize = 1;

impl Order {
    /// Whether a word is one of the five.
    pub fn begins_with(word: &str) -> bool {
        matches!(word, "index" | "append" | "look" | "convert" | "issue")
    }

    /// Reads a command line whose first word is one of the five. What makes no
    /// sense is told in one line.
    pub fn read(words: &[String]) -> Result<Order, String> {
        let (word, rest) = words.split_first().ok_or("no word")?;
        let names = match word.as_str() {
            "append" => ["JOURNAL", "INDEX", "MORE"].as_slice(),
            "convert" => ["JOURNAL", "OUT"].as_slice(),
            "issue" => ["JOURNAL"].as_slice(),
            _ => ["JOURNAL", "INDEX"].as_slice(),
        };
        // What comes after the files; the last of these may come again.
        let more = match word.as_str() {
            "look" => ["N.."].as_slice(),
            "issue" => ["CLOCK", "CLASS.."].as_slice(),
            _ => &[],
        };
        let least = names.len() + more.len();
        let enough = match more {
            [] => rest.len() == least,
            _ => rest.len() >= least,
        };
        if !enough {
            let all = [names, more].concat();
            return Err(format!("{word} takes {}", all.join(" ")));
        }
        let (files, others) = rest.split_at(names.len());
        if let Some(at) = files.iter().position(String::is_empty) {
            return Err(format!("an empty word names no {}", names[at]));
        }
        let word = match word.as_str() {
            "index" => Word::Index,
            "append" => Word::Append,
            "convert" => Word::Convert,
            "issue" => Word::Issue(Issuing::read(&others[0], &others[1..])?),
            _ => Word::Look(others.iter().map(Number::read).collect::<Result<_, _>>()?),
        };
        Ok(Order {
            word,
            files: files.to_vec(),
        })
    }

    /// Carries it out on the bytes of the files that it reads.
    pub fn carry_out(&self, files: &[Vec<u8>]) -> Done {
        let journal = &files[JOURNAL];
        let kept = || InFile(files[INDEX].clone());
        let done = match &self.word {
            Word::Index => index::fresh(journal).map(|index| {
                let InFile(bytes) = InFile::of(&index);
                (figures(&index), vec![(INDEX, bytes)])
            }),
            Word::Append => {
                let appended = index::append(journal, &kept(), &files[MORE]);
                appended.map(|(longer, InFile(index))| {
                    (String::new(), vec![(JOURNAL, longer), (INDEX, index)])
                })
            }
            Word::Look(numbers) => {
                let values: Vec<u64> = numbers.iter().map(|number| number.value).collect();
                let found = index::look(journal, &kept(), &values);
                found.map(|found| (lines(numbers, &found), Vec::new()))
            }
            // A file has room for any outcome.
            Word::Convert => {
                convert(journal, LARGEST).map(|outcome| (String::new(), vec![(OUT, outcome)]))
            }
            Word::Issue(issuing) => issuing.lines(journal).map(|lines| (lines, Vec::new())),
        };
        let (number, text, written) = match done {
            Ok((text, written)) => (DONE, text, written),
            Err(number) => (number, String::new(), Vec::new()),
        };
        Done {
            text: format!("{text}end {number}\n"),
            number,
            written,
        }
    }

    /// What is to be issued, if that is what it asks for.
    pub fn issuing(&self) -> Option<&Issuing> {
        match &self.word {
            Word::Issue(issuing) => Some(issuing),
            _ => None,
        }
    }

    /// The names of the files that it reads.
    pub fn given(&self) -> &[String] {
        match self.word {
            Word::Index | Word::Convert | Word::Issue(_) => &self.files[..1],
            Word::Append | Word::Look(_) => &self.files,
        }
    }
}

/// A record number, however large.
#[derive(Debug, PartialEq)]
struct Number {
    /// Its digits, without zeros in front.
    digits: String,
    /// The number, or the greatest of 64 bits where it is above that.
    value: u64,
}

impl Number {
    fn read(word: &String) -> Result<Number, String> {
        if word.is_empty() || !word.bytes().all(|b| b.is_ascii_digit()) {
            return Err(format!("{word:?} is no record number"));
        }
        let digits = match word.trim_start_matches('0') {
            "" => "0",
            digits => digits,
        };
        Ok(Number {
            digits: digits.to_owned(),
            value: digits.parse().unwrap_or(u64::MAX),
        })
    }
}

/// The lines that tell of an index.
fn figures(index: &Index) -> String {
    let kinds: Vec<String> = index.kinds.iter().map(u32::to_string).collect();
    format!(
        "records {}\nkinds {}\nreads {}\n",
        index.records(),
        kinds.join(" "),
        index.reads
    )
}

fn lines(numbers: &[Number], found: &[Option<Placed>]) -> String {
    let line = |(number, found): (&Number, &Option<Placed>)| {
        let digits = &number.digits;
        match found {
            None => format!("{digits} {PAST_THE_LAST}\n"),
            Some(Placed { place, record }) => {
                format!(
                    "{digits} {DONE} {place} {} {}\n",
                    record.kind(),
                    told(record)
                )
            }
        }
    };
    numbers.iter().zip(found).map(line).collect()
}

/// A record's fields as the journal orders them, then its bytes if it has any.
fn told(record: &Record) -> String {
    let with = |fields: String, bytes: &[u8]| match bytes {
        [] => fields,
        bytes => format!("{fields} {}", hex(bytes)),
    };
    match record {
        Record::Device {
            now,
            device,
            stamp,
            value,
        } => format!("{now} {device} {stamp} {value}"),
        Record::Interrupt {
            now,
            number,
            stamp,
            address,
        } => format!("{now} {number} {stamp} {address}"),
        Record::Write { now, bytes } => with(format!("{now} {}", bytes.len()), bytes),
        Record::Seed { now, credit, bytes } => {
            with(format!("{now} {} {credit}", bytes.len()), bytes)
        }
        Record::Generator { now, length } | Record::Blocking { now, length } => {
            format!("{now} {length}")
        }
    }
}

#[cfg(test)]
mod tests {
    use super::*;
    use crate::journal::{self, Version};
    use std::borrow::Cow;

    fn order(line: &str) -> Result<Order, String> {
        let words: Vec<String> = line.split(' ').map(str::to_owned).collect();
        Order::read(&words)
    }

    fn one_of_each(version: Version, device: u32) -> Vec<u8> {
        let records = [
            Record::Device {
                now: 1,
                device,
                stamp: u64::MAX,
                value: 3,
            },
            Record::Interrupt {
                now: 4,
                number: 5,
                stamp: 6,
                address: 7,
            },
            Record::Write {
                now: 8,
                bytes: Cow::Borrowed(&[0xab, 0x0c]),
            },
            Record::Write {
                now: 9,
                bytes: Cow::Borrowed(&[]),
            },
            Record::Seed {
                now: 10,
                credit: u32::MAX,
                bytes: Cow::Borrowed(&[0xff]),
            },
            Record::Seed {
                now: 11,
                credit: 12,
                bytes: Cow::Borrowed(&[]),
            },
            Record::Generator { now: 13, length: 4 },
            Record::Blocking {
                now: 14,
                length: 65_535,
            },
        ];
        let mut journal = journal::header(version, &[0; 48]);
        for record in records {
            record.write(version, &mut journal);
        }
        journal
    }

    fn of_version_1() -> Vec<u8> {
        one_of_each(Version::One, 2)
    }

    /// Makes the index of a journal, and then looks.
    fn look(journal: &[u8], numbers: &str) -> Done {
        let order = order(&format!("look j i {numbers}")).unwrap();
        let InFile(index) = InFile::of(&index::fresh(journal).unwrap());
        order.carry_out(&[journal.to_vec(), index])
    }

    #[test]
    fn lines_of_each_kind() {
        let expected = "\
            0 0 53 1 1 2 18446744073709551615 3\n\
            1 0 71 2 4 5 6 7\n\
            2 0 96 3 8 2 ab0c\n\
            3 0 105 3 9 0\n\
            4 0 112 4 10 1 4294967295 ff\n\
            5 0 124 4 11 0 12\n\
            6 0 135 5 13 4\n\
            7 0 142 6 14 65535\n\
            8 18\n\
            end 0\n";
        let done = look(&of_version_1(), "0 1 2 3 4 5 6 7 8");
        assert_eq!((done.text.as_str(), done.number), (expected, 0));
        assert_eq!(done.written, []);
    }

    #[test]
    fn lines_of_a_journal_of_version_2() {
        for device in [2, 255, 256, 1_023, 65_535] {
            let done = look(&one_of_each(Version::Two, device), "0 1 7");
            let expected = format!(
                "0 0 53 1 1 {device} 18446744073709551615 3\n\
                 1 0 72 2 4 5 6 7\n\
                 7 0 143 6 14 65535\n\
                 end 0\n"
            );
            assert_eq!(done.text, expected);
        }
    }

    #[test]
    fn a_conversion_writes_its_outcome_alone() {
        let journal = of_version_1();
        let convert = |journal: &[u8]| {
            let order = order("convert j o").unwrap();
            assert_eq!(order.given(), ["j"]);
            order.carry_out(&[journal.to_vec()])
        };
        let done = convert(&journal);
        let outcome = one_of_each(Version::Two, 2);
        assert_eq!((done.text.as_str(), done.number), ("end 0\n", 0));
        assert_eq!(done.written, [(OUT, outcome.clone())]);
        // Refused, nothing is.
        for (journal, text) in [
            (outcome, "end 9\n"),
            (one_of_each(Version::One, 16), "end 4\n"),
            (b"NKJ".to_vec(), "end 10\n"),
        ] {
            let done = convert(&journal);
            assert_eq!((done.text.as_str(), &done.written), (text, &vec![]));
        }
    }

    #[test]
    fn numbers_of_any_size_lose_their_zeros() {
        let large = "340282366920938463463374607431768211456";
        let done = look(
            &of_version_1(),
            &format!("007 000 00{large} 18446744073709551615"),
        );
        let expected = format!(
            "7 0 142 6 14 65535\n\
             0 0 53 1 1 2 18446744073709551615 3\n\
             {large} 18\n\
             18446744073709551615 18\n\
             end 0\n"
        );
        assert_eq!(done.text, expected);
    }

    #[test]
    fn the_figures_of_an_index() {
        let journal = of_version_1();
        let done = order("index j i")
            .unwrap()
            .carry_out(std::slice::from_ref(&journal));
        let expected = "records 8\nkinds 1 1 2 2 1 1\nreads 65539\nend 0\n";
        assert_eq!(done.text, expected);
        let InFile(index) = InFile::of(&index::fresh(&journal).unwrap());
        assert_eq!(done.written, [(INDEX, index)]);
    }

    #[test]
    fn an_appending_writes_both_files_or_none() {
        let journal = of_version_1();
        let InFile(index) = InFile::of(&index::fresh(&journal).unwrap());
        let append = |more: &[u8]| {
            let files = [journal.clone(), index.clone(), more.to_vec()];
            order("append j i m").unwrap().carry_out(&files)
        };
        let done = append(&[5, 0, 0, 0, 0, 1, 0]);
        let longer = [&journal[..], &[5, 0, 0, 0, 0, 1, 0]].concat();
        let InFile(index) = InFile::of(&index::fresh(&longer).unwrap());
        assert_eq!(done.text, "end 0\n");
        assert_eq!(done.written, [(JOURNAL, longer), (INDEX, index)]);

        let done = append(&[9]);
        assert_eq!((done.text.as_str(), done.number), ("end 11\n", 11));
        assert_eq!(done.written, []);
    }

    #[test]
    fn a_refused_word_prints_its_number_alone() {
        let refused = |line: &str, files: &[&[u8]]| {
            let files: Vec<Vec<u8>> = files.iter().map(|file| file.to_vec()).collect();
            let done = order(line).unwrap().carry_out(&files);
            assert_eq!(done.written, []);
            done.text
        };
        let journal = of_version_1();
        assert_eq!(refused("index j i", &[b"NKJ"]), "end 10\n");
        assert_eq!(refused("look j i 0", &[&journal, b"NKI"]), "end 16\n");
        let InFile(index) = InFile::of(&index::fresh(&journal).unwrap());
        let line = format!("look j i{}", " 0".repeat(65));
        assert_eq!(refused(&line, &[&journal, &index]), "end 3\n");
    }

    #[test]
    fn words_that_make_no_sense() {
        let lines = [
            "index",
            "index j",
            "index j i x",
            "append j i",
            "append j i m x",
            "look",
            "look j",
            "look j i",
            "look j i x",
            "look j i 1 -1",
            "look j i +1",
            "look j i 1.0",
            "look j i 0x1",
            "look j i 1 ",
            "look j i \u{663}",
            "look j i 1_0",
            "convert",
            "convert j",
            "convert j o x",
            "issue",
            "issue j",
            "issue j 5",
            "issue j x drill",
            "issue j 5 drill x",
            // An empty word is no file's name.
            "index  i",
            "index j ",
            "append j  m",
            "look  i 0",
            "convert  o",
            "convert j ",
            "issue  5 drill",
        ];
        for line in lines {
            let message = order(line).unwrap_err();
            assert_eq!(message.lines().count(), 1, "{line}");
        }
        assert!(order("look j i 0 0").is_ok());
        // A journal may be converted where it stands.
        assert!(order("convert j j").is_ok());
        // An empty word is an empty class field.
        assert!(order("issue j 5 ").is_ok());
    }
}
