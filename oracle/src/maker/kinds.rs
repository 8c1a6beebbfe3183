//! Kinds that no record has.

use super::anything::any_record;
use super::draft::Draft;
use crate::random::Random;

/// All but 1 to 6.
const UNKNOWN: u64 = 250;

/// Ends a journal with a kind that no record has, each in turn: first alone,
/// then in the place of a record's own kind, with another record after it. A
/// program that guesses a kind, or leaves out what it does not know, goes on.
pub fn unknown_kind(random: &mut Random, turn: u64, draft: &mut Draft) {
    let kind = match (turn / 2) % UNKNOWN {
        0 => 0,
        other => other as u8 + 6,
    };
    if turn % 2 == 0 {
        draft.bytes.push(kind);
        return;
    }
    let version = draft.version;
    let any = |random: &mut Random| {
        any_record(random, version, &draft.keeper, draft.now, false).to_bytes(version)
    };
    let mut record = any(random);
    record[0] = kind;
    record.extend(any(random));
    draft.bytes.extend(record);
}

#[cfg(test)]
mod tests {
    use super::*;
    use crate::journal::Version;
    use crate::situations::Situation;
    use crate::watch::Shown;

    #[test]
    fn five_hundred_turns_show_all_unknown_kinds_both_ways() {
        let mut shown = Shown::default();
        for turn in 0..2 * UNKNOWN {
            let version = Version::ALL[turn as usize / 2 % 2];
            let mut draft = Draft::new(version, [0; 48], 0);
            unknown_kind(&mut Random::new(1, turn), turn, &mut draft);
            shown.add(&Shown::by(&draft.bytes));
        }
        for situation in [Situation::UnknownKindAlone, Situation::UnknownKindFollowed] {
            for kind in situation.values() {
                assert_eq!(shown.times(situation, kind), 1, "kind {kind}");
            }
        }
    }
}
