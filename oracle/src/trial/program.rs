//! The program that is tried, and the folder that it works in.

use std::collections::BTreeMap;
use std::fs;
use std::io;
use std::path::Path;
use std::process::{Command, Stdio};

use crate::folder::Folder;

/// Files by their names.
pub type Files = BTreeMap<String, Vec<u8>>;

/// What a run came to.
pub struct Found {
    /// None where a signal ended it.
    pub status: Option<i32>,
    pub output: Vec<u8>,
    pub errors: Vec<u8>,
    /// All that the folder then holds.
    pub files: Files,
}

/// A program with words that work on files.
pub trait Program {
    /// Runs it in a folder with these files and no others.
    fn run(&mut self, words: &[String], files: &Files) -> io::Result<Found>;
}

/// A program outside: a command that is handed the words.
pub struct Outside {
    command: Vec<String>,
    folder: Folder,
}

/// What marks a word as the name of a file in the folder.
const SIGN: char = '@';

/// A file's name without the sign.
pub fn plain(name: &str) -> &str {
    name.trim_start_matches(SIGN)
}

impl Outside {
    pub fn new(command: Vec<String>) -> io::Result<Outside> {
        Ok(Outside {
            command,
            folder: Folder::new("oracle-trial")?,
        })
    }

    fn lay(&self, files: &Files) -> io::Result<()> {
        let folder = self.folder.path();
        for entry in fs::read_dir(folder)? {
            let path = entry?.path();
            match path.is_dir() {
                true => fs::remove_dir_all(path)?,
                false => fs::remove_file(path)?,
            }
        }
        for (name, bytes) in files {
            fs::write(folder.join(plain(name)), bytes)?;
        }
        Ok(())
    }

    /// A word of the command line: a file's whole path, or the word itself.
    fn spelt(&self, word: &str) -> std::ffi::OsString {
        match word.starts_with(SIGN) {
            true => self.folder.path().join(plain(word)).into(),
            false => word.into(),
        }
    }
}

impl Program for Outside {
    fn run(&mut self, words: &[String], files: &Files) -> io::Result<Found> {
        self.lay(files)?;
        let output = Command::new(&self.command[0])
            .args(&self.command[1..])
            .args(words.iter().map(|word| self.spelt(word)))
            .stdin(Stdio::null())
            .output()
            .map_err(|e| io::Error::new(e.kind(), format!("{}: {e}", self.command[0])))?;
        Ok(Found {
            status: output.status.code(),
            output: output.stdout,
            errors: output.stderr,
            files: held_by(self.folder.path())?,
        })
    }
}

/// All that a folder holds. A folder in it, or whatever else is no file, counts
/// as one without bytes.
fn held_by(folder: &Path) -> io::Result<Files> {
    let mut files = Files::new();
    for entry in fs::read_dir(folder)? {
        let entry = entry?;
        let name = entry.file_name().to_string_lossy().into_owned();
        let bytes = match entry.file_type()?.is_file() {
            true => fs::read(entry.path())?,
            false => Vec::new(),
        };
        files.insert(format!("{SIGN}{name}"), bytes);
    }
    Ok(files)
}

#[cfg(test)]
mod tests {
    use super::*;

    fn outside(command: &[&str]) -> Outside {
        Outside::new(command.iter().map(|word| (*word).to_owned()).collect()).unwrap()
    }

    fn words(words: &[&str]) -> Vec<String> {
        words.iter().map(|word| (*word).to_owned()).collect()
    }

    #[test]
    fn what_a_command_leaves_behind_is_found() {
        let mut copy = outside(&["cp"]);
        let mut files = Files::from([("@a".to_owned(), b"x".to_vec())]);
        let found = copy.run(&words(&["@a", "@b"]), &files).unwrap();
        assert_eq!((found.status, &found.output[..]), (Some(0), &b""[..]));
        files.insert("@b".to_owned(), b"x".to_vec());
        assert_eq!(found.files, files);
        // The next run begins with its own files again.
        files.remove("@b");
        let found = copy.run(&words(&["@c", "@d"]), &files).unwrap();
        assert_ne!(found.status, Some(0));
        assert!(!found.errors.is_empty());
        assert_eq!(found.files, files);
    }

    #[test]
    fn other_words_are_handed_over_as_they_are() {
        let mut echo = outside(&["echo", "one"]);
        let found = echo.run(&words(&["007", ""]), &Files::new()).unwrap();
        assert_eq!(found.output, b"one 007 \n");
    }

    #[test]
    fn a_command_that_is_not_there_cannot_be_compared() {
        let mut none = outside(&["./no/such/command"]);
        assert!(none.run(&[], &Files::new()).is_err());
    }
}
