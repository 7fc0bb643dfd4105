//! Stored texts through the program, against the outputs kept beside them.

use crate::program::Prints;
use crate::Score;
use runtext::difference;
use std::fs;
use std::path::{Path, PathBuf};

/// Runs every text of a folder, in the order of their names.
pub fn compare(prints: &Prints, folder: &Path) -> Result<Score, String> {
    let texts = texts(folder)?;
    if texts.is_empty() {
        return Err(format!("no texts in {}", folder.display()));
    }
    let mut score = Score::default();
    for text in texts {
        match check(prints, &text) {
            Ok(()) => score.passed += 1,
            Err(message) => {
                println!("{}: {message}", text.display());
                score.failed += 1;
            }
        }
    }
    Ok(score)
}

fn texts(folder: &Path) -> Result<Vec<PathBuf>, String> {
    let cannot = |error| format!("cannot read {}: {error}", folder.display());
    let mut texts = Vec::new();
    for entry in fs::read_dir(folder).map_err(cannot)? {
        let path = entry.map_err(cannot)?.path();
        if path.extension().is_some_and(|kind| kind == "txt") {
            texts.push(path);
        }
    }
    texts.sort();
    Ok(texts)
}

fn check(prints: &Prints, text: &Path) -> Result<(), String> {
    let said = read(text)?;
    let expected = read(&text.with_extension("out"))?;
    let file = runtext::to_file(&said).map_err(|fault| fault.to_string())?;
    let given = prints(&reference::encode(&file))?;
    match difference::first(&expected, &given) {
        None => Ok(()),
        Some(difference) => Err(difference.words("stored ", "program")),
    }
}

fn read(path: &Path) -> Result<String, String> {
    fs::read_to_string(path).map_err(|error| format!("cannot read {}: {error}", path.display()))
}

#[cfg(test)]
mod tests {
    use super::*;

    fn recorded() -> PathBuf {
        Path::new(env!("CARGO_MANIFEST_DIR")).join("../runs")
    }

    #[test]
    fn the_reference_gives_the_stored_outputs() {
        let score = compare(&|bytes: &[u8]| Ok(reference::run(bytes)), &recorded()).unwrap();
        assert!(score.passed >= 5);
        assert_eq!(score.failed, 0);
    }

    #[test]
    fn other_outputs_fail() {
        let score = compare(&|_: &[u8]| Ok(String::new()), &recorded()).unwrap();
        assert_eq!(score.passed, 0);
    }

    #[test]
    fn a_folder_without_texts_is_no_comparison() {
        let folder = Path::new(env!("CARGO_MANIFEST_DIR")).join("src");
        assert!(compare(&|_: &[u8]| Ok(String::new()), &folder).is_err());
    }
}
