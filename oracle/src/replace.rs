//! Files that are replaced as a whole.

use std::fs::{self, File};
use std::io::{self, Write};
use std::path::{Path, PathBuf};

/// Gives each file its new bytes. All are made beside their places first, and
/// only once they are written and flushed does each take its place.
pub fn replace(files: &[(&Path, &[u8])]) -> io::Result<()> {
    let mut made = Vec::new();
    for (file, bytes) in files {
        let beside = beside(file);
        made.push(beside.clone());
        if let Err(error) = make(&beside, bytes) {
            clear(&made);
            return Err(error);
        }
    }
    for ((file, _), beside) in files.iter().zip(&made) {
        if let Err(error) = fs::rename(beside, file) {
            clear(&made);
            return Err(error);
        }
    }
    Ok(())
}

fn beside(file: &Path) -> PathBuf {
    let mut name = file.as_os_str().to_owned();
    name.push(".new");
    name.into()
}

fn make(file: &Path, bytes: &[u8]) -> io::Result<()> {
    let mut file = File::create(file)?;
    file.write_all(bytes)?;
    file.sync_all()
}

fn clear(files: &[PathBuf]) {
    for file in files {
        // One that was never made, or has taken its place, is not there.
        let _ = fs::remove_file(file);
    }
}
