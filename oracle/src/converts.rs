//! A trace of conversions in memory, for another program to follow.
//!
//! The line format stands in `FORMAT`, which also opens each trace.

mod cases;

use std::io::{self, Write};

use crate::convert::convert;
use crate::index::{self, Placed};
use crate::journal::{hex, hex_word, Record};
use crate::keeper::DONE;
use crate::random::Random;

pub const FORMAT: &str = "\
# A trace of calls that convert a journal in memory, with what each call must answer
# and leave behind.
# Lines of words with single spaces between. Lines with # stand at the top only.
# Numbers are decimal. BYTES are hex, two digits a byte in order, or the one sign
# - for no bytes.
#
# journal BYTES           the journal that is lent to the calls that follow
# convert LENGTH FILL     a call with a room of LENGTH bytes; byte I of the room is
#                         FILL + I + I / 256 modulo 256, the quotient rounded down
#   answer NUMBER LENGTH
#   room PIECES           what then stands at the start of the room, LENGTH bytes; or
#                         the one sign - where nothing is written
#
# A piece is FROM+COUNT for COUNT bytes of the journal from byte FROM on, or BYTES;
# the pieces stand one behind the other. Whatever is not named here stays as it was:
# the journal, the room behind what is written, and all that lies beside them.
";

/// A part of the journal, or bytes that stand in no such part.
#[derive(Clone, Debug, PartialEq)]
enum Piece {
    Part(usize, usize),
    Bytes(Vec<u8>),
}

/// The outcome in pieces: its header's first bytes and the device of each event are
/// its own, and all else stands in the journal.
fn pieces(journal: &[u8], outcome: &[u8]) -> Vec<Piece> {
    const BEFORE_THE_START: usize = 5;
    const BEFORE_THE_DEVICE: usize = 5;
    let mut pieces = vec![Piece::Bytes(outcome[..BEFORE_THE_START].to_vec())];
    let mut from = BEFORE_THE_START;
    // How far the outcome is ahead of the journal.
    let mut ahead = 0;
    let records = index::records(journal).unwrap_or_default();
    for Placed { place, record } in records {
        if let Record::Device { .. } = record {
            let device = place + BEFORE_THE_DEVICE;
            pieces.push(Piece::Part(from, device - from));
            let wider = &outcome[device + ahead..device + ahead + 2];
            pieces.push(Piece::Bytes(wider.to_vec()));
            from = device + 1;
            ahead += 1;
        }
    }
    if from < journal.len() {
        pieces.push(Piece::Part(from, journal.len() - from));
    }
    assert!(
        joined(journal, &pieces) == outcome,
        "the pieces are not the outcome"
    );
    pieces
}

fn joined(journal: &[u8], pieces: &[Piece]) -> Vec<u8> {
    let mut joined = Vec::new();
    for piece in pieces {
        match piece {
            Piece::Part(from, count) => joined.extend(&journal[*from..from + count]),
            Piece::Bytes(bytes) => joined.extend(bytes),
        }
    }
    joined
}

fn words(pieces: &[Piece]) -> String {
    let word = |piece: &Piece| match piece {
        Piece::Part(from, count) => format!("{from}+{count}"),
        Piece::Bytes(bytes) => hex(bytes),
    };
    let words: Vec<String> = pieces.iter().map(word).collect();
    words.join(" ")
}

/// A trace that is being written.
pub struct Trace<'a> {
    out: &'a mut dyn Write,
    journal: Vec<u8>,
}

impl Trace<'_> {
    /// Lends another journal.
    fn journal(&mut self, journal: &[u8]) -> io::Result<()> {
        self.journal = journal.to_vec();
        writeln!(self.out, "journal {}", hex_word(journal))
    }

    fn convert(&mut self, random: &mut Random, room: usize) -> io::Result<()> {
        let fill = random.below(256) as u8;
        writeln!(self.out, "convert {room} {fill}")?;
        match convert(&self.journal, room) {
            Ok(outcome) => {
                writeln!(self.out, "answer {DONE} {}", outcome.len())?;
                writeln!(self.out, "room {}", words(&pieces(&self.journal, &outcome)))
            }
            Err(number) => writeln!(self.out, "answer {number} 0\nroom -"),
        }
    }

    /// The bytes of the outcome, or as many as it would have where it is refused.
    fn wanted(&self) -> usize {
        let events = |record: &&Placed| matches!(record.record, Record::Device { .. });
        let records = index::records(&self.journal).unwrap_or_default();
        self.journal.len() + records.iter().filter(events).count()
    }
}

/// Writes what every trace goes through, and then `count` journals of chance.
pub fn converts(seed: u64, count: u64, out: &mut dyn Write) -> io::Result<()> {
    write!(out, "{FORMAT}")?;
    let mut trace = Trace {
        out,
        journal: Vec::new(),
    };
    cases::all(&mut trace, &mut Random::new(!seed, 0))?;
    for number in 1..=count {
        cases::chance(&mut trace, &mut Random::new(!seed, number))?;
    }
    Ok(())
}

#[cfg(test)]
mod tests {
    use super::*;
    use crate::read_back::{bytes, number};
    use crate::convert::{replay_alike, ROOM_TOO_SHORT};
    use crate::journal::{Version, HEADER, LARGEST};
    use std::collections::BTreeSet;

    fn trace(seed: u64, count: u64) -> String {
        let mut out = Vec::new();
        converts(seed, count, &mut out).unwrap();
        String::from_utf8(out).unwrap()
    }

    /// What a line of pieces stands for.
    fn told(journal: &[u8], words: &[&str]) -> Vec<u8> {
        let piece = |word: &&str| match word.split_once('+') {
            Some((from, count)) => {
                let from = number::<usize>(from);
                journal[from..from + number::<usize>(count)].to_vec()
            }
            None => bytes(word),
        };
        words.iter().flat_map(piece).collect()
    }

    /// A call that a trace tells of, by its text alone.
    struct Call {
        journal: Vec<u8>,
        room: usize,
        number: u8,
        written: Vec<u8>,
    }

    fn follow(text: &str) -> Vec<Call> {
        let mut calls = Vec::new();
        let mut journal = Vec::new();
        let mut lines = text.lines().filter(|l| !l.starts_with('#'));
        while let Some(line) = lines.next() {
            let w: Vec<&str> = line.split(' ').collect();
            if w[0] == "journal" {
                journal = bytes(w[1]);
                continue;
            }
            assert_eq!((w[0], w.len()), ("convert", 3));
            assert!(number::<u32>(w[2]) < 256);
            let answer: Vec<&str> = lines.next().unwrap().split(' ').collect();
            assert_eq!((answer[0], answer.len()), ("answer", 3));
            let pieces: Vec<&str> = lines.next().unwrap().split(' ').collect();
            assert_eq!(pieces[0], "room");
            let written = told(&journal, &pieces[1..]);
            assert_eq!(written.len(), number::<usize>(answer[2]));
            calls.push(Call {
                journal: journal.clone(),
                room: number(w[1]),
                number: number(answer[1]),
                written,
            });
        }
        calls
    }

    #[test]
    fn a_trace_says_all_that_is_needed_to_follow_it() {
        for Call {
            journal,
            room,
            number,
            written,
        } in follow(&trace(8, 60))
        {
            match convert(&journal, room) {
                Ok(outcome) => assert!(number == DONE && written == outcome),
                Err(refused) => assert!(number == refused && written.is_empty()),
            }
        }
    }

    #[test]
    fn without_chance_a_trace_has_all_that_it_has_to() {
        for seed in [1, 2] {
            let calls = follow(&trace(seed, 0));
            let numbers: BTreeSet<u8> = calls.iter().map(|call| call.number).collect();
            assert_eq!(
                numbers,
                BTreeSet::from([0, 3, 4, 8, 9, 10, 11, 12, ROOM_TOO_SHORT])
            );
            let such = |such: &dyn Fn(&Call) -> bool| calls.iter().filter(|c| such(c)).count();
            let done = |call: &Call| call.number == DONE;
            for size in [HEADER, LARGEST - 1, LARGEST] {
                assert!(such(&|c| done(c) && c.written.len() == size) > 0, "{size}");
            }
            // The room as long as the outcome, a byte longer, much longer, and a
            // byte shorter.
            assert!(such(&|c| done(c) && c.room == c.written.len()) > 20);
            assert!(such(&|c| done(c) && c.room == c.written.len() + 1) > 20);
            assert!(such(&|c| done(c) && c.room == LARGEST) > 20);
            assert!(such(&|c| done(c) && c.room > LARGEST) > 20);
            let short = |call: &Call| call.number == ROOM_TOO_SHORT;
            assert!(such(&|c| short(c) && c.room == 0) > 20);
            let outcome = |call: &Call| convert(&call.journal, usize::MAX).map(|out| out.len());
            assert!(such(&|c| short(c) && outcome(c) == Ok(c.room + 1)) > 20);
            // Refused for something else, and the room is too short as well.
            for number in [3, 4, 8, 9, 10, 11, 12] {
                for room in [0, LARGEST] {
                    let times = such(&|c| c.number == number && c.room == room);
                    assert!(times > 0, "{number}, room {room}");
                }
            }
            let good_two = |call: &Call| {
                index::records(&call.journal).is_ok()
                    && Version::of(&call.journal) == Some(Version::Two)
            };
            assert!(such(&|c| c.number == 9 && good_two(c)) > 5);
        }
    }

    #[test]
    fn what_is_told_replays_as_the_journal() {
        let mut times = 0;
        for call in follow(&trace(3, 40)) {
            if call.number == DONE && call.journal.len() < 2_000 {
                assert!(replay_alike(&call.journal, &call.written));
                times += 1;
            }
        }
        assert!(times > 100, "{times}");
    }

    #[test]
    fn the_pieces_of_a_small_outcome() {
        let mut journal = crate::journal::header(Version::One, &[7; 48]);
        journal.extend([5, 0, 0, 0, 0, 1, 0]);
        journal.extend([1; 18]);
        let outcome = convert(&journal, LARGEST).unwrap();
        let pieces = pieces(&journal, &outcome);
        assert_eq!(words(&pieces), "4e4b4a0200 5+60 0100 66+12");
        assert_eq!(joined(&journal, &pieces), outcome);
    }
}
