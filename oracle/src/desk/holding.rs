//! What has to hold of every call on a desk, told by what it was lent and what it
//! left. Draws are made again on a copy of the keeper, and nothing of the desk's own
//! way of going on is used.

use super::{draws_to_come, Desk, Issued, Number, DRAWN, NUMBER};
use super::{ALL_REPEATED, DRAWS, DRILL, LIVE, NO_CLASS, NO_NUMBER, PLACES};
use crate::keeper::{Answer, Keeper, DONE, OUT_OF_RANGE, UNSEEDED};

/// What a call is lent and told.
pub struct Given {
    desk: Desk,
    keeper: Keeper,
    now: u32,
    class: Vec<u8>,
}

impl Given {
    pub fn to(desk: &Desk, keeper: &Keeper, now: u32, class: &[u8]) -> Given {
        Given {
            desk: desk.clone(),
            keeper: keeper.clone(),
            now,
            class: class.to_vec(),
        }
    }

    /// Panics where something does not hold: a program that is used to find faults
    /// must not go on with one of its own.
    pub fn hold(&self, issued: &Issued, desk: &Desk, keeper: &Keeper) {
        if let Some(fault) = self.faults(issued, desk, keeper).first() {
            let Given { now, class, .. } = self;
            panic!("issuing at {now}, class {class:02x?}: {fault}");
        }
    }

    /// All that does not hold once the call has left the desk and the keeper so.
    pub fn faults(&self, issued: &Issued, desk: &Desk, keeper: &Keeper) -> Vec<String> {
        let answered = issued.answer.number;
        let mut faults = Faults::default();
        let refused = self.refused_before_drawing();
        let expected = match refused {
            Some(number) => answered == number,
            None => answered == DONE || answered == ALL_REPEATED,
        };
        faults.unless(expected, || match refused {
            Some(number) => format!("answered {answered}, and {number} counts first"),
            None => format!("answered {answered}, and nothing refuses it"),
        });
        if !expected {
            return faults.0;
        }
        match answered {
            DONE => self.faults_of_issued(issued, desk, keeper, &mut faults),
            ALL_REPEATED => self.faults_of_repeated(issued, desk, keeper, &mut faults),
            number => {
                let nothing = Answer::refusal(number);
                faults.unless(*keeper == self.keeper, || "a refusal changed the keeper");
                faults.unless(*desk == self.desk, || "a refusal changed the desk");
                faults.unless(issued.answer == nothing, || "a refusal tells of work");
            }
        }
        let zeros = issued.number == NO_NUMBER;
        faults.unless(answered == DONE || zeros, || {
            "a refusal handed back a number"
        });
        faults.0
    }

    /// By the order in which the papers have it.
    fn refused_before_drawing(&self) -> Option<u8> {
        if !self.keeper.in_range() || self.desk.count > PLACES as u32 {
            Some(OUT_OF_RANGE)
        } else if self.class != [DRILL] && self.class != [LIVE] {
            Some(NO_CLASS)
        } else if !self.keeper.seeded {
            Some(UNSEEDED)
        } else {
            None
        }
    }

    fn faults_of_issued(&self, issued: &Issued, desk: &Desk, keeper: &Keeper, faults: &mut Faults) {
        let drawn = self.drawn(keeper);
        faults.unless((1..=DRAWS as usize).contains(&drawn.len()), || {
            format!("a number was issued after {} draws", drawn.len())
        });
        if let Some((last, thrown)) = drawn.split_last() {
            faults.unless(issued.number == *last, || {
                "the number is not the class and what was drawn last"
            });
            self.faults_of_thrown(thrown, faults);
        }
        let place = self.place_of(&issued.number);
        faults.unless(place.is_none(), || {
            let place = place.unwrap_or_default();
            format!("the number issued is remembered at place {place}")
        });
        faults.unless(*desk == self.desk_with(&issued.number), || {
            "the desk is not what it was with the number behind it"
        });
        faults.unless(issued.answer.delivered == NUMBER, || {
            "not 16 bytes are said to be delivered"
        });
        self.faults_of_work(drawn.len(), issued, keeper, faults);
    }

    fn faults_of_repeated(
        &self,
        issued: &Issued,
        desk: &Desk,
        keeper: &Keeper,
        faults: &mut Faults,
    ) {
        let drawn = self.drawn(keeper);
        faults.unless(drawn.len() == DRAWS as usize, || {
            format!("refused with {ALL_REPEATED} after {} draws", drawn.len())
        });
        self.faults_of_thrown(&drawn, faults);
        faults.unless(*desk == self.desk, || {
            format!("refused with {ALL_REPEATED}, and the desk is another")
        });
        faults.unless(issued.answer.delivered == 0, || {
            format!("refused with {ALL_REPEATED}, and bytes are said to be delivered")
        });
        self.faults_of_work(drawn.len(), issued, keeper, faults);
    }

    fn faults_of_thrown(&self, thrown: &[Number], faults: &mut Faults) {
        for (draw, number) in (1..).zip(thrown) {
            faults.unless(self.place_of(number).is_some(), || {
                format!("draw {draw} was thrown away, and is not remembered")
            });
        }
    }

    /// The keeper has to be as so many reads leave it, and their work has to be told.
    fn faults_of_work(&self, draws: usize, issued: &Issued, keeper: &Keeper, faults: &mut Faults) {
        let mut read = self.keeper.clone();
        let mut work = [0; 4];
        for _ in 0..draws {
            let answer = read.generator_read(self.now, &mut [0; DRAWN]);
            for (sum, more) in work.iter_mut().zip(told(&answer)) {
                *sum += more;
            }
        }
        faults.unless(*keeper == read, || {
            format!("the keeper is not as {draws} reads leave it")
        });
        faults.unless(told(&issued.answer) == work, || {
            format!("the work told is not that of {draws} reads")
        });
    }

    /// What was drawn, by how far the keeper's counter went: each draw is one block.
    fn drawn(&self, after: &Keeper) -> Vec<Number> {
        let counter = |k: &Keeper| u64::from(k.generator[13]) << 32 | u64::from(k.generator[12]);
        let draws = counter(after).wrapping_sub(counter(&self.keeper));
        // No more than a few, or it would take for ever to draw them again.
        let draws = draws.min(100) as usize;
        draws_to_come(&self.keeper, self.now, self.class[0], draws)
    }

    fn place_of(&self, number: &Number) -> Option<usize> {
        let count = self.desk.count as usize;
        (0..count).find(|place| self.desk.places[*place] == *number)
    }

    /// The old desk with a number at its end.
    fn desk_with(&self, number: &Number) -> Desk {
        let count = self.desk.count as usize;
        let mut numbers = self.desk.places[..count].to_vec();
        numbers.push(*number);
        let over = numbers.len().saturating_sub(PLACES);
        let mut desk = self.desk.clone();
        desk.count = (numbers.len() - over) as u32;
        for (place, number) in desk.places.iter_mut().zip(&numbers[over..]) {
            *place = *number;
        }
        desk
    }
}

/// The work that an answer tells of, and what crediting added.
fn told(answer: &Answer) -> [u64; 4] {
    [
        answer.blocks,
        answer.compressions,
        answer.added.into(),
        answer.taken as u64,
    ]
}

#[derive(Default)]
struct Faults(Vec<String>);

impl Faults {
    fn unless<T: Into<String>>(&mut self, holds: bool, told: impl FnOnce() -> T) {
        if !holds {
            self.0.push(told().into());
        }
    }
}
