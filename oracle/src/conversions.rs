//! Holds another program's word `convert` to ours, through files.

mod cases;
mod mixture;

use crate::trial::Course;

/// Where a converted journal goes, as the words of a run have it.
const OUT: &str = "@out";

pub const COURSE: Course = Course {
    cases: &cases::ALL,
    journal: mixture::journal,
};

#[cfg(test)]
mod tests {
    use super::*;
    use crate::journal::{Version, LARGEST};
    use crate::trial::own::{ends, run, sees_each, Spoil, FAULTS};
    use crate::trial::{Expected, Files, JOURNAL};

    #[test]
    fn no_difference_with_ourselves_and_no_more_runs_than_are_bearable() {
        let (differences, text, program) = run(&COURSE, 20, |_, _, _| {});
        let runs = program.seen.len();
        assert_eq!(differences, 0, "{text}");
        assert_eq!(
            text,
            format!("20 journals, {runs} runs, 0 differences, seed 7\n")
        );
        assert!(runs <= 500, "{runs}");
    }

    #[test]
    fn faults_are_found() {
        let faults: [Spoil; 8] = [
            // A file left behind.
            |_, _, found| {
                found.files.insert("@out.new".to_owned(), Vec::new());
            },
            // A refused conversion that empties the file.
            |_, _, found| {
                if found.status == Some(1) {
                    found.files.insert(OUT.to_owned(), Vec::new());
                }
            },
            // A refused conversion of a file in its own place that removes it.
            |words, _, found| {
                if found.status == Some(1) && words[1] == words[2] {
                    found.files.remove(JOURNAL);
                }
            },
            // The journal goes once it is converted.
            |words, _, found| {
                if found.status == Some(0) && words[1] != words[2] {
                    found.files.remove(JOURNAL);
                }
            },
            // The last byte of a large outcome is lost.
            |_, _, found| {
                if let Some(out) = found.files.get_mut(OUT) {
                    out.truncate(LARGEST - 1);
                }
            },
            // A device of 16 is let through.
            |_, files, found| {
                let at_16 = |journal: &Vec<u8>| journal.get(58) == Some(&16);
                if files.get(JOURNAL).map_or(false, at_16) && found.output == b"end 4\n" {
                    found.output = b"end 0\n".to_vec();
                }
            },
            // A version 2 that is converted is taken for done.
            |_, _, found| {
                if found.output == b"end 9\n" {
                    found.output = b"end 0\n".to_vec();
                    found.status = Some(0);
                }
            },
            // The new byte of a device is not 0.
            |_, _, found| {
                let out = found.files.get_mut(OUT).filter(|out| out.len() > 59);
                if let Some(out) = out.filter(|out| out[..5] == *b"NKJ\x02\0" && out[53] == 1) {
                    out[59] = 1;
                }
            },
        ];
        sees_each(&COURSE, &FAULTS);
        sees_each(&COURSE, &faults);
    }

    #[test]
    fn an_outcome_that_replays_otherwise_is_told() {
        let (_, text, _) = run(&COURSE, 0, |_, _, found| {
            if let Some(out) = found.files.get_mut(OUT).filter(|out| out.len() > 20) {
                out[20] ^= 1;
            }
        });
        assert!(text.contains("the outcome replays otherwise than the journal"));
    }

    #[test]
    fn the_runs_cover_what_they_have_to() {
        let (_, _, program) = run(&COURSE, 20, |_, _, _| {});
        for number in [0, 3, 4, 8, 9, 10, 11, 12] {
            let times = program.count(&|_, _, e| ends(e, number));
            assert!(times >= 3, "end {number}: {times}");
            // In the journal's own place, onto a file and onto none.
            let own = |words: &[String]| words.get(1) == words.get(2);
            let times = program.count(&|words, _, e| ends(e, number) && own(words));
            assert!(times > 0, "end {number} in its own place");
            for there in [false, true] {
                let times = program.count(&|words, files, e| {
                    ends(e, number) && !own(words) && files.contains_key(&words[2]) == there
                });
                assert!(times > 0, "end {number}, a file {there}");
            }
        }
        let unable = program.count(&|_, _, e| e.status == 2);
        assert!(unable >= 8, "{unable}");

        let outcome = |e: &Expected| match e.status {
            0 => e.files.values().map(Vec::len).max().unwrap_or(0),
            _ => 0,
        };
        for size in [53, LARGEST - 1, LARGEST] {
            assert!(program.count(&|_, _, e| outcome(e) == size) > 0, "{size}");
        }
        let version = |files: &Files| files.get(JOURNAL).and_then(|j| Version::of(j));
        let of_two =
            program.count(&|_, files, e| ends(e, 9) && version(files) == Some(Version::Two));
        assert!(of_two >= 10, "{of_two}");
    }
}
