//! Holds another program's words `index`, `append` and `look` to ours, through
//! files.

mod cases;
mod mixture;

use crate::trial::Course;

/// The names of the files beside the journal, as the words of a run have them.
const INDEX: &str = "@index";
const MORE: &str = "@more";

pub const COURSE: Course = Course {
    cases: &cases::ALL,
    journal: mixture::journal,
};

#[cfg(test)]
mod tests {
    use super::*;
    use crate::journal::{Version, LARGEST};
    use crate::trial::own::{ends, run, sees_each, Spoil, FAULTS};
    use crate::trial::{Files, JOURNAL};

    #[test]
    fn no_difference_with_ourselves_and_no_more_runs_than_are_bearable() {
        let (differences, text, program) = run(&COURSE, 20, |_, _, _| {});
        let runs = program.seen.len();
        assert_eq!(differences, 0);
        assert_eq!(
            text,
            format!("20 journals, {runs} runs, 0 differences, seed 7\n")
        );
        assert!(runs <= 600, "{runs}");
    }

    #[test]
    fn faults_are_found() {
        let faults: [Spoil; 6] = [
            // A file left behind.
            |words, _, found| {
                if words[0] == "append" {
                    found.files.insert("journal.new".to_owned(), Vec::new());
                }
            },
            // A refused appending that writes the index.
            |words, _, found| {
                if words[0] == "append" && found.status == Some(1) {
                    found.files.insert(INDEX.to_owned(), b"NKI".to_vec());
                }
            },
            // The index differs, and it goes unseen as long as the length is right.
            |words, files, found| {
                let length = files.get(INDEX).map_or(0, Vec::len);
                if words[0] == "look" && found.output == b"end 16\n" && length == 37 {
                    found.output = b"end 0\n".to_vec();
                    found.status = Some(0);
                }
            },
            // A place is told from the first record on.
            |words, _, found| {
                if words[0] == "look" {
                    let text = String::from_utf8_lossy(&found.output);
                    found.output = text.replace(" 0 53 ", " 0 0 ").into_bytes();
                }
            },
            // Record 64 gets no entry.
            |words, _, found| {
                let index = found.files.get_mut(INDEX).filter(|index| index.len() == 41);
                if let (Some(index), "append") = (index, words[0].as_str()) {
                    index.truncate(37);
                }
            },
            // A device of two bytes is told by the first of them.
            |words, _, found| {
                if words[0] == "look" {
                    let text = String::from_utf8_lossy(&found.output);
                    found.output = text.replace(" 1023 ", " 255 ").into_bytes();
                }
            },
        ];
        sees_each(&COURSE, &FAULTS);
        sees_each(&COURSE, &faults);
    }

    fn version(files: &Files) -> Option<Version> {
        Version::of(files.get(JOURNAL)?)
    }

    #[test]
    fn the_runs_cover_what_they_have_to() {
        let (_, _, program) = run(&COURSE, 20, |_, _, _| {});
        for word in ["index", "append", "look"] {
            let mut numbers = vec![0, 3, 8, 9, 10, 11, 12];
            if word != "index" {
                numbers.push(16);
            }
            for number in numbers {
                let times = program.count(&|words, _, e| words[0] == word && ends(e, number));
                assert!(times > 0, "{word} ends with {number}");
            }
            let unable = program.count(&|words, _, e| words[0] == word && e.status == 2);
            assert!(unable >= 3, "{word}: {unable}");
            for version_of_it in Version::ALL {
                let times = program.count(&|words, files, e| {
                    words[0] == word && e.status == 0 && version(files) == Some(version_of_it)
                });
                assert!(times >= 15, "{word}, {version_of_it:?}: {times}");
            }
        }
        for records in (60..=68).chain(124..=132) {
            let line = format!("records {records}\n");
            let times = program.count(&|_, _, e| e.output.starts_with(&line));
            assert!(times > 0, "{records} records");
        }
        let grown = |from: u32, to: u32| {
            program.count(&|words, files, e| {
                let records = |files: &Files| {
                    let fresh = files.get(JOURNAL).map(|j| crate::index::fresh(j));
                    fresh.and_then(Result::ok).map(|index| index.records())
                };
                words[0] == "append"
                    && e.status == 0
                    && records(files) == Some(from)
                    && records(&e.files) == Some(to)
            })
        };
        for from in [63, 64, 127, 128] {
            assert!(grown(from, from + 1) > 0, "from {from}");
        }
        for size in [LARGEST, LARGEST + 1] {
            for version_of_it in Version::ALL {
                let times = program.count(&|words, files, _| {
                    let length = |name| files.get(name).map_or(0, Vec::len);
                    words[0] == "append"
                        && version(files) == Some(version_of_it)
                        && length(JOURNAL) + length(MORE) == size
                });
                assert!(times >= 2, "{size} bytes, {version_of_it:?}");
            }
        }
    }
}
