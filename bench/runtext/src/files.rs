//! Reading and writing files, so that an error leaves what was there.

use std::fs::{self, File, OpenOptions};
use std::io::Write;
use std::path::{Path, PathBuf};
use std::process;

/// All bytes of a file, or a message with its name.
pub fn read(path: &Path) -> Result<Vec<u8>, String> {
    fs::read(path).map_err(|error| format!("cannot read {}: {error}", path.display()))
}

/// A file that is to be text.
pub fn read_text(path: &Path) -> Result<String, String> {
    let bytes = read(path)?;
    String::from_utf8(bytes).map_err(|_| format!("{} is not text", path.display()))
}

/// Says whether two names lead to one file.
pub fn same(one: &Path, other: &Path) -> bool {
    match (fs::canonicalize(one), fs::canonicalize(other)) {
        (Ok(one), Ok(other)) => one == other,
        _ => false,
    }
}

/// Writes a whole file or leaves the old one as it was.
pub fn write(path: &Path, bytes: &[u8]) -> Result<(), String> {
    let written = match fs::metadata(path) {
        Ok(there) if !there.is_file() => direct(path, bytes),
        // A link stays a link: what it leads to is replaced.
        Ok(_) => fs::canonicalize(path).and_then(|real| replace(&real, bytes)),
        Err(_) => beside(path, bytes),
    };
    written.map_err(|error| format!("cannot write {}: {error}", path.display()))
}

// Devices and pipes cannot be replaced, and have no old content to lose.
fn direct(path: &Path, bytes: &[u8]) -> std::io::Result<()> {
    OpenOptions::new().write(true).open(path)?.write_all(bytes)
}

// Replacing needs no leave to write the old file, so that is asked for first.
fn replace(path: &Path, bytes: &[u8]) -> std::io::Result<()> {
    OpenOptions::new().write(true).open(path)?;
    beside(path, bytes)
}

// A disk may fill up halfway: the file gets its name only when it is whole.
fn beside(path: &Path, bytes: &[u8]) -> std::io::Result<()> {
    let part = part_name(path);
    let written = File::create_new(&part)
        .and_then(|mut file| file.write_all(bytes))
        .and_then(|()| fs::rename(&part, path));
    if written.is_err() {
        let _ = fs::remove_file(&part);
    }
    written
}

fn part_name(path: &Path) -> PathBuf {
    let mut name = path.file_name().unwrap_or_default().to_os_string();
    name.push(format!(".{}.part", process::id()));
    path.with_file_name(name)
}
