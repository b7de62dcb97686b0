//! The project's files, for tests that read them.

use std::fs;
use std::path::{Path, PathBuf};

/// A path from the project's own folder on.
pub fn below_root(path: impl AsRef<Path>) -> PathBuf {
    Path::new(env!("CARGO_MANIFEST_DIR")).join("..").join(path)
}

/// The files in a folder of the project and below it that end so, in order.
pub fn files(folder: impl AsRef<Path>, ending: &str) -> Vec<PathBuf> {
    let mut found = Vec::new();
    gather(&below_root(folder), ending, &mut found);
    found.sort();
    found
}

fn gather(folder: &Path, ending: &str, found: &mut Vec<PathBuf>) {
    for entry in fs::read_dir(folder).unwrap().map(|entry| entry.unwrap().path()) {
        if entry.is_dir() {
            gather(&entry, ending, found);
        } else if entry.extension().is_some_and(|own| own == ending) {
            found.push(entry);
        }
    }
}
