//! A trace of calls on a journal and its index in memory, for another program
//! to follow.
//!
//! The line format stands in `FORMAT`, which also opens each trace.

mod cases;
mod chance;

use std::io::{self, Write};

use crate::index::{self, Form, InMemory, Index, PAST_THE_LAST};
use crate::journal::{hex_word, Version, LARGEST, TOO_LARGE};
use crate::keeper::DONE;
use crate::random::Random;

pub const FORMAT: &str = "\
# A trace of calls on a journal and its index in memory, with what each call must
# answer and leave behind.
# Lines of words with single spaces between. Lines with # stand at the top only.
# Numbers are decimal. BYTES are hex, two digits a byte in order, or the one sign
# - for no bytes.
#
# Three things are lent to every call: a room of 61,440 bytes, the length of the
# journal at its start, and an index of 145 numbers. These lines change them from
# outside; nothing is answered:
# sequence N              a new sequence: all of the room, the length and the
#                         index are 0
# room FILL BYTES         byte I of the room is FILL + I + I / 256 modulo 256, the
#                         quotient rounded down; BYTES are then laid over it from
#                         byte 0 on, and the length is their number
# length LENGTH           the length alone, 0 to 2^64 - 1
# put FIELD AT VALUE      one number of the index: FIELD is places with AT 0 to
#                         137, kinds with AT 0 to 5, or reads with AT 0
#
# A call is one of these lines, each with the lines after it that say what it
# answers:
# fresh                   the index worked out afresh
#   answer NUMBER
#   index NUMBERS
# append BYTES            appending these bytes
#   answer NUMBER LENGTH
#   index NUMBERS         or: index same, all 145 as they were lent
#   room more             the BYTES are laid from the length on that was lent, and
#                         all else is as it was; or: room same, all is
# look NUMBERS            looking up these record numbers, 0 to 2^32 - 1; or the
#                         one sign - for none
#   answer NUMBER
#   found PAIRS           for each an answer, 0 or 18, and a place; or the one sign
#                         - where no answer and no place is written
#
# An index is told by the sum of its reads, its six kinds, and its places as far
# as they are used; all other places are 0.
# The index of fresh, and the length and the index of append, are lent to the next
# call. Whatever is not named here stays as it was: the room, the bytes and the
# record numbers that are handed in, and of the answers and places of a look-up
# those past the record numbers, or all of them where it is refused.
";

/// One number of an index.
#[derive(Clone, Copy, Debug, PartialEq)]
enum Field {
    Place(usize),
    Kind(usize),
    Reads,
}

impl Field {
    fn of(self, index: &mut InMemory) -> &mut u32 {
        match self {
            Field::Place(at) => &mut index.places[at],
            Field::Kind(at) => &mut index.kinds[at],
            Field::Reads => &mut index.reads,
        }
    }

    /// All 145 of them.
    fn all() -> Vec<Field> {
        let places = (0..index::PLACES).map(Field::Place);
        let kinds = (0..index::KINDS).map(Field::Kind);
        places.chain(kinds).chain([Field::Reads]).collect()
    }
}

/// What is lent to the calls.
#[derive(Clone, Debug, PartialEq)]
struct Lent {
    room: Vec<u8>,
    length: u64,
    index: InMemory,
}

impl Lent {
    fn nothing() -> Lent {
        Lent {
            room: vec![0; LARGEST],
            length: 0,
            index: InMemory::of(&Index::default()),
        }
    }

    fn fill(&mut self, fill: u8, bytes: &[u8]) {
        for (at, byte) in self.room.iter_mut().enumerate() {
            *byte = (usize::from(fill) + at + at / 256) as u8;
        }
        self.room[..bytes.len()].copy_from_slice(bytes);
        self.length = bytes.len() as u64;
    }

    /// The journal, or its ending number where it is longer than any room.
    fn journal(&self) -> Result<&[u8], u8> {
        let length = usize::try_from(self.length).map_err(|_| TOO_LARGE)?;
        self.room.get(..length).ok_or(TOO_LARGE)
    }

    fn fresh(&mut self) -> u8 {
        let (number, index) = match self.journal().and_then(index::fresh) {
            Ok(index) => (DONE, index),
            Err(number) => (number, Index::default()),
        };
        self.index = InMemory::of(&index);
        number
    }

    fn append(&mut self, more: &[u8]) -> u8 {
        let appended = self
            .journal()
            .and_then(|journal| index::append(journal, &self.index, more));
        match appended {
            Ok((longer, index)) => {
                self.room[..longer.len()].copy_from_slice(&longer);
                self.length = longer.len() as u64;
                self.index = index;
                DONE
            }
            Err(number) => number,
        }
    }

    /// An answer and a place for each number.
    fn look(&self, numbers: &[u32]) -> Result<Vec<(u8, usize)>, u8> {
        let numbers: Vec<u64> = numbers.iter().map(|number| u64::from(*number)).collect();
        let found = index::look(self.journal()?, &self.index, &numbers)?;
        let pair = |found: &Option<index::Placed>| match found {
            Some(found) => (DONE, found.place),
            None => (PAST_THE_LAST, 0),
        };
        Ok(found.iter().map(pair).collect())
    }
}

/// The words of an index: nothing that follows its last place is used.
fn index_words(index: &InMemory) -> String {
    let used = index.places.iter().rposition(|place| *place != 0);
    let places = &index.places[..used.map_or(0, |last| last + 1)];
    let numbers = [index.reads].into_iter().chain(index.kinds);
    let numbers = numbers.chain(places.iter().copied());
    numbers.map(|number| format!(" {number}")).collect()
}

/// A trace that is being written.
pub struct Trace<'a> {
    out: &'a mut dyn Write,
    sequences: u64,
    lent: Lent,
}

impl Trace<'_> {
    fn sequence(&mut self) -> io::Result<()> {
        self.sequences += 1;
        self.lent = Lent::nothing();
        writeln!(self.out, "sequence {}", self.sequences)
    }

    /// Lends another journal, with any bytes after it.
    fn room(&mut self, random: &mut Random, journal: &[u8]) -> io::Result<()> {
        let fill = random.below(256) as u8;
        self.lent.fill(fill, journal);
        writeln!(self.out, "room {fill} {}", hex_word(journal))
    }

    fn length(&mut self, length: u64) -> io::Result<()> {
        self.lent.length = length;
        writeln!(self.out, "length {length}")
    }

    fn put(&mut self, field: Field, value: u32) -> io::Result<()> {
        *field.of(&mut self.lent.index) = value;
        let name = match field {
            Field::Place(at) => format!("places {at}"),
            Field::Kind(at) => format!("kinds {at}"),
            Field::Reads => "reads 0".to_owned(),
        };
        writeln!(self.out, "put {name} {value}")
    }

    fn get(&self, field: Field) -> u32 {
        *field.of(&mut self.lent.index.clone())
    }

    /// Lends this index, number by number where it differs.
    fn put_all(&mut self, index: &InMemory) -> io::Result<()> {
        for field in Field::all() {
            let value = *field.of(&mut index.clone());
            if self.get(field) != value {
                self.put(field, value)?;
            }
        }
        Ok(())
    }

    fn fresh(&mut self) -> io::Result<()> {
        let number = self.lent.fresh();
        writeln!(self.out, "fresh\nanswer {number}")?;
        writeln!(self.out, "index{}", index_words(&self.lent.index))
    }

    fn append(&mut self, more: &[u8]) -> io::Result<()> {
        writeln!(self.out, "append {}", hex_word(more))?;
        let number = self.lent.append(more);
        writeln!(self.out, "answer {number} {}", self.lent.length)?;
        match number {
            DONE => writeln!(
                self.out,
                "index{}\nroom more",
                index_words(&self.lent.index)
            ),
            _ => writeln!(self.out, "index same\nroom same"),
        }
    }

    fn look(&mut self, numbers: &[u32]) -> io::Result<()> {
        let words: String = numbers.iter().map(|number| format!(" {number}")).collect();
        let words = if words.is_empty() { " -" } else { &words };
        writeln!(self.out, "look{words}")?;
        let (number, found) = match self.lent.look(numbers) {
            Ok(found) => (DONE, found),
            Err(number) => (number, Vec::new()),
        };
        let pairs = found
            .iter()
            .map(|(answer, place)| format!(" {answer} {place}"));
        let pairs: String = pairs.collect();
        let pairs = if pairs.is_empty() { " -" } else { &pairs };
        writeln!(self.out, "answer {number}\nfound{pairs}")
    }
}

/// Writes what every trace goes through, and then `count` sequences of chance.
pub fn lookups(seed: u64, count: u64, out: &mut dyn Write) -> io::Result<()> {
    write!(out, "{FORMAT}")?;
    let mut trace = Trace {
        out,
        sequences: 0,
        lent: Lent::nothing(),
    };
    cases::all(&mut trace, &mut Random::new(!seed, 0))?;
    for number in 1..=count {
        trace.sequence()?;
        let version = Version::ALL[number as usize % 2];
        chance::sequence(&mut trace, &mut Random::new(!seed, number), version)?;
    }
    Ok(())
}

#[cfg(test)]
mod tests {
    use super::*;
    use crate::read_back::{bytes, number};
    use std::collections::BTreeSet;

    fn trace(seed: u64, count: u64) -> String {
        let mut out = Vec::new();
        lookups(seed, count, &mut out).unwrap();
        String::from_utf8(out).unwrap()
    }

    fn numbers(words: &[&str]) -> Vec<u32> {
        match words {
            ["-"] => Vec::new(),
            words => words.iter().map(|word| number(word)).collect(),
        }
    }

    fn field(name: &str, at: usize) -> Field {
        match (name, at) {
            ("places", at) => Field::Place(at),
            ("kinds", at) => Field::Kind(at),
            ("reads", 0) => Field::Reads,
            _ => panic!("{name} {at}"),
        }
    }

    /// The index that a line tells, its words being those after the first.
    fn told(words: &[&str], before: &InMemory) -> InMemory {
        if words == ["same"] {
            return before.clone();
        }
        let numbers = numbers(words);
        let (reads, rest) = numbers.split_first().unwrap();
        let (kinds, used) = rest.split_at(index::KINDS);
        let mut places = [0; index::PLACES];
        places[..used.len()].copy_from_slice(used);
        InMemory {
            places,
            kinds: kinds.try_into().unwrap(),
            reads: *reads,
        }
    }

    /// What a trace showed to one that followed it.
    #[derive(Default)]
    struct Seen {
        /// Calls by their names and numbers.
        calls: BTreeSet<(String, u8)>,
        /// Fields that were put last before a call that was refused with 16.
        spoilt: BTreeSet<(String, String)>,
        records: BTreeSet<u32>,
        /// Record numbers that were looked up, and how many at a time.
        looked: BTreeSet<u32>,
        counts: BTreeSet<usize>,
        lengths: BTreeSet<u64>,
    }

    /// Follows a trace by its text alone, as another program would.
    fn follow(text: &str) -> Seen {
        let mut seen = Seen::default();
        let mut lent = Lent::nothing();
        let mut put = String::new();
        let mut lines = text.lines().filter(|l| !l.starts_with('#'));
        while let Some(line) = lines.next() {
            let w: Vec<&str> = line.split(' ').collect();
            let mut next = |name: &str| -> Vec<&str> {
                let words: Vec<&str> = lines.next().unwrap().split(' ').collect();
                assert_eq!(words[0], name, "after {line}");
                words[1..].to_vec()
            };
            let before = lent.clone();
            let answered = match w[0] {
                "sequence" => {
                    lent = Lent::nothing();
                    continue;
                }
                "room" => {
                    lent.fill(number(w[1]), &bytes(w[2]));
                    continue;
                }
                "length" => {
                    lent.length = number(w[1]);
                    continue;
                }
                "put" => {
                    *field(w[1], number(w[2])).of(&mut lent.index) = number(w[3]);
                    put = line.rsplit_once(' ').unwrap().0.to_owned();
                    continue;
                }
                "fresh" => {
                    let answered = lent.fresh();
                    assert_eq!(next("answer"), [answered.to_string()]);
                    assert_eq!(lent.index, told(&next("index"), &before.index));
                    if answered == DONE {
                        seen.records.insert(lent.index.kinds.iter().sum());
                    }
                    answered
                }
                "append" => {
                    let more = bytes(w[1]);
                    let answered = lent.append(&more);
                    let words = [answered.to_string(), lent.length.to_string()];
                    assert_eq!(next("answer"), words);
                    assert_eq!(lent.index, told(&next("index"), &before.index));
                    let mut room = before.room.clone();
                    let length = before.length as usize;
                    match next("room")[..] {
                        ["more"] => room[length..length + more.len()].copy_from_slice(&more),
                        ["same"] => {}
                        _ => panic!("after {line}"),
                    }
                    assert!(lent.room == room);
                    answered
                }
                "look" => {
                    let numbers = numbers(&w[1..]);
                    let (answered, found) = match lent.look(&numbers) {
                        Ok(found) => (DONE, found),
                        Err(number) => (number, Vec::new()),
                    };
                    assert_eq!(next("answer"), [answered.to_string()]);
                    let pair =
                        |(answer, place): &(u8, usize)| [answer.to_string(), place.to_string()];
                    let pairs: Vec<String> = found.iter().flat_map(pair).collect();
                    match next("found")[..] {
                        ["-"] => assert!(pairs.is_empty()),
                        ref words => assert_eq!(words, pairs),
                    }
                    seen.looked.extend(&numbers);
                    seen.counts.insert(numbers.len());
                    answered
                }
                other => panic!("{other}"),
            };
            seen.lengths.insert(before.length);
            seen.calls.insert((w[0].to_owned(), answered));
            if answered == index::DIFFERS {
                seen.spoilt.insert((w[0].to_owned(), put.clone()));
            }
        }
        seen
    }

    #[test]
    fn a_trace_says_all_that_is_needed_to_follow_it() {
        let seen = follow(&trace(8, 10));
        for call in ["fresh", "append", "look"] {
            let mut expected = BTreeSet::from([0, 3, 8, 9, 10, 11, 12]);
            if call != "fresh" {
                expected.insert(16);
            }
            let calls = seen.calls.iter().filter(|(name, _)| name == call);
            let answered: BTreeSet<u8> = calls.map(|(_, number)| *number).collect();
            assert_eq!(answered, expected, "{call}");
        }
    }

    #[test]
    fn without_chance_a_trace_has_all_that_it_has_to() {
        for seed in [1, 2] {
            let seen = follow(&trace(seed, 0));
            for call in ["append", "look"] {
                for field in Field::all() {
                    let name = match field {
                        Field::Place(at) => format!("put places {at}"),
                        Field::Kind(at) => format!("put kinds {at}"),
                        Field::Reads => "put reads 0".to_owned(),
                    };
                    assert!(seen.spoilt.contains(&(call.to_owned(), name)), "{field:?}");
                }
            }
            assert!((0..=130).all(|count| seen.records.contains(&count)));
            assert!(seen.records.contains(&8_769));
            assert!((0..=8_832).all(|record| seen.looked.contains(&record)));
            assert!(seen.looked.contains(&u32::MAX));
            assert!((0..=66).all(|count| seen.counts.contains(&count)));
            for length in [61_440, 61_441, u64::MAX] {
                assert!(seen.lengths.contains(&length), "{length}");
            }
        }
    }

    #[test]
    fn the_room_of_a_journal_is_filled_by_place() {
        let mut lent = Lent::nothing();
        lent.fill(250, &[1, 2]);
        assert_eq!(lent.room[..8], [1, 2, 252, 253, 254, 255, 0, 1]);
        assert_eq!(lent.room[255..258], [249, 251, 252]);
        assert_eq!(lent.length, 2);
        assert_eq!(lent.room.len(), 61_440);
    }

    #[test]
    fn an_index_is_told_without_the_places_that_are_not_used() {
        let mut index = InMemory::of(&Index::default());
        assert_eq!(index_words(&index), " 0 0 0 0 0 0 0");
        index.reads = 9;
        index.kinds = [1, 2, 3, 4, 5, 6];
        index.places[1] = 77;
        assert_eq!(index_words(&index), " 9 1 2 3 4 5 6 0 77");
    }
}
