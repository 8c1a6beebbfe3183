//! The word `issue`: a journal is replayed, and numbers are issued by the keeper that
//! it leaves and an empty desk.

use crate::desk::{Desk, Issued, DRILL, LIVE};
use crate::journal::hex;
use crate::keeper::{Keeper, DONE};
use crate::transcript::replay;

/// What is asked for.
#[derive(Debug, PartialEq)]
pub struct Issuing {
    pub clock: u32,
    /// The class fields, one for each number.
    pub classes: Vec<Vec<u8>>,
}

impl Issuing {
    pub fn read(clock: &str, classes: &[String]) -> Result<Issuing, String> {
        Ok(Issuing {
            clock: read_clock(clock).ok_or_else(|| format!("{clock:?} is no clock"))?,
            classes: classes.iter().map(read_class).collect::<Result<_, _>>()?,
        })
    }

    /// A line for each class, or the number that ended the replay.
    pub fn lines(&self, journal: &[u8]) -> Result<String, u8> {
        Ok(self.issued(journal)?.iter().map(line).collect())
    }

    /// What is handed back for each class.
    pub fn issued(&self, journal: &[u8]) -> Result<Vec<Issued>, u8> {
        let mut keeper = keeper_left(journal)?;
        let mut desk = Desk::empty();
        let mut issue = |class: &Vec<u8>| desk.issue(&mut keeper, self.clock, class);
        Ok(self.classes.iter().map(&mut issue).collect())
    }
}

/// The keeper that a journal leaves, or the number that ended its replay.
pub fn keeper_left(journal: &[u8]) -> Result<Keeper, u8> {
    let ending = replay(journal, &mut |_| {});
    match (ending.number, ending.left) {
        (DONE, Some((_, keeper))) => Ok(keeper),
        (number, _) => Err(number),
    }
}

fn line(issued: &Issued) -> String {
    let answer = &issued.answer;
    format!(
        "{} {} {} {}\n",
        answer.number,
        answer.blocks,
        answer.compressions,
        hex(&issued.number)
    )
}

/// All decimal digits, and no more than 32 bits hold.
fn read_clock(word: &str) -> Option<u32> {
    let digits = !word.is_empty() && word.bytes().all(|b| b.is_ascii_digit());
    // Parsing alone would take a sign.
    word.parse().ok().filter(|_| digits)
}

/// The class field that a word stands for.
fn read_class(word: &String) -> Result<Vec<u8>, String> {
    match word.as_str() {
        "drill" => Ok(vec![DRILL]),
        "live" => Ok(vec![LIVE]),
        digits => read_hex(digits).ok_or_else(|| format!("{word:?} is no class")),
    }
}

/// Two digits a byte, in either case.
fn read_hex(digits: &str) -> Option<Vec<u8>> {
    let digit = |c: char| c.to_digit(16).map(|value| value as u8);
    let values = digits.chars().map(digit).collect::<Option<Vec<u8>>>()?;
    let whole = values.len() % 2 == 0;
    let bytes = values.chunks(2).map(|pair| match pair {
        [high, low] => high << 4 | low,
        _ => 0,
    });
    whole.then(|| bytes.collect())
}

#[cfg(test)]
mod tests {
    use super::*;
    use crate::desk::{draws_to_come, Number};
    use crate::journal::{self, Record, Version};

    fn issuing(clock: &str, classes: &str) -> Result<Issuing, String> {
        let classes: Vec<String> = classes.split(' ').map(str::to_owned).collect();
        Issuing::read(clock, &classes)
    }

    /// Seeded at clock 7, with these records behind it.
    fn journal(version: Version, records: &[Record]) -> Vec<u8> {
        let mut journal = journal::header(version, &[9; 48]);
        let seed = Record::Seed {
            now: 7,
            credit: 4_096,
            bytes: vec![1; 512].into(),
        };
        seed.write(version, &mut journal);
        for record in records {
            record.write(version, &mut journal);
        }
        journal
    }

    #[test]
    fn clocks() {
        for (word, clock) in [
            ("0", 0),
            ("7", 7),
            ("007", 7),
            ("4294967295", u32::MAX),
            ("0004294967295", u32::MAX),
        ] {
            assert_eq!(read_clock(word), Some(clock));
        }
        let wrong = [
            "",
            " ",
            "+7",
            "-7",
            "-0",
            "7 ",
            " 7",
            "7.0",
            "0x7",
            "7e0",
            "1_0",
            "seven",
            "4294967296",
            "18446744073709551616",
            "99999999999999999999999999999999999999999",
            "\u{663}",
        ];
        for word in wrong {
            assert_eq!(read_clock(word), None, "{word}");
        }
    }

    #[test]
    fn class_words() {
        let read = |word: &str| read_class(&word.to_owned()).ok();
        let long = "4c".repeat(300);
        for (word, field) in [
            ("drill", &[0x44][..]),
            ("live", &[0x4c]),
            ("44", &[0x44]),
            ("4c", &[0x4c]),
            ("4C", &[0x4c]),
            ("00", &[0]),
            ("fF", &[0xff]),
            ("4444", &[0x44, 0x44]),
            ("DEADbeef", &[0xde, 0xad, 0xbe, 0xef]),
            ("", &[]),
            (&long, &[0x4c; 300]),
        ] {
            assert_eq!(read(word).as_deref(), Some(field), "{word}");
        }
        for word in [
            "4",
            "444",
            "0x44",
            "4g",
            " 44",
            "44 ",
            "4 4",
            "+4",
            "-4",
            "drills",
            "Drill",
            "LIVE",
            "\u{ff14}\u{ff14}",
            "D",
            "é",
            "-",
        ] {
            assert_eq!(read(word), None, "{word}");
        }
    }

    #[test]
    fn lines_of_each_answer() {
        for version in Version::ALL {
            let journal = journal(version, &[]);
            let keeper = keeper_left(&journal).unwrap();
            let [first, second] = two_draws(&keeper, 7);
            let zeros = "00".repeat(16);
            let issuing = issuing("7", "drill 45 4C 4444 ").unwrap();
            let expected = format!(
                "0 1 0 44{}\n13 0 0 {zeros}\n0 1 0 4c{}\n13 0 0 {zeros}\n13 0 0 {zeros}\n",
                hex(&first[1..]),
                hex(&second[1..])
            );
            assert_eq!(issuing.lines(&journal), Ok(expected));
            // A reseed shows in the first line alone.
            let text = self::issuing("300008", "live live")
                .unwrap()
                .lines(&journal);
            let text = text.unwrap();
            let lines: Vec<&str> = text.lines().collect();
            assert!(lines[0].starts_with("0 1 32 4c") && lines[1].starts_with("0 1 0 4c"));
            // Before the first seeding.
            let unseeded = journal::header(version, &[9; 48]);
            let expected = format!("2 0 0 {zeros}\n13 0 0 {zeros}\n");
            let lines = self::issuing("7", "live 4d").unwrap().lines(&unseeded);
            assert_eq!(lines, Ok(expected));
        }
    }

    fn two_draws(keeper: &Keeper, now: u32) -> [Number; 2] {
        let draws = draws_to_come(keeper, now, DRILL, 2);
        [draws[0], draws[1]]
    }

    #[test]
    fn a_journal_that_does_not_end_with_0_gives_its_number() {
        let issuing = issuing("7", "drill").unwrap();
        let whole = journal(Version::Two, &[Record::Generator { now: 7, length: 9 }]);
        assert!(issuing.lines(&whole).is_ok());
        for (journal, number) in [
            (b"".to_vec(), 8),
            (b"NKJ\x03\0".to_vec(), 9),
            (whole[..whole.len() - 1].to_vec(), 10),
            ([&whole[..], &[7]].concat(), 11),
            (vec![b'N'; 61_441], 12),
        ] {
            assert_eq!(issuing.lines(&journal), Err(number));
        }
    }
}
