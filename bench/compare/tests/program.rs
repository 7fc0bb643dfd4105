//! The program itself: its last line, its exit statuses and the file it keeps.

use std::fs;
use std::path::PathBuf;
use std::process::{Command, Output};

const COMPARE: &str = env!("CARGO_BIN_EXE_compare");

/// A folder of its own for one test.
fn folder(name: &str) -> PathBuf {
    let folder = PathBuf::from(env!("CARGO_TARGET_TMPDIR")).join(name);
    let _ = fs::remove_dir_all(&folder);
    fs::create_dir_all(&folder).expect("a folder for the test");
    folder
}

fn compare(folder: &PathBuf, words: &[&str]) -> Output {
    Command::new(COMPARE)
        .args(words)
        .current_dir(folder)
        .output()
        .expect("the program starts")
}

fn last_line(output: &Output) -> String {
    let text = String::from_utf8_lossy(&output.stdout);
    text.lines().last().unwrap_or("").to_string()
}

// Given a run file alone, this very program prints nothing, so it serves as one
// that is wrong in every output.

#[test]
fn a_wrong_program_fails_and_the_file_is_kept() {
    let folder = folder("wrong-program");
    let output = compare(&folder, &["--count", "5", COMPARE]);
    assert_eq!(output.status.code(), Some(1));
    assert_eq!(last_line(&output), "0 passed, 1 failed");
    let kept = fs::read(folder.join("difference.run")).expect("the kept file");
    assert_eq!(kept.len(), 12, "nothing is needed to differ");
}

#[test]
fn stored_texts_fail_one_by_one() {
    let folder = folder("stored");
    fs::write(folder.join("one.txt"), "in\n").unwrap();
    fs::write(folder.join("one.out"), "steps 1\n0 0 00000000 0\n").unwrap();
    fs::write(folder.join("two.txt"), "turn\nfall\n").unwrap();
    let output = compare(&folder, &["--stored", ".", COMPARE]);
    assert_eq!(output.status.code(), Some(1));
    assert_eq!(last_line(&output), "0 passed, 2 failed");
    let text = String::from_utf8_lossy(&output.stdout);
    assert!(text.contains("first difference in the first line"));
    assert!(text.contains("two.out"), "no output is stored for it");
}

// Each fault is looked for in two ways, but for four that can be seen in one way only.
fn looked_for() -> usize {
    2 * reference::Fault::ALL.len() - 4
}

#[test]
fn faults_are_told_in_a_table() {
    let folder = folder("faults");
    let output = compare(&folder, &["--faults"]);
    assert_eq!(output.status.code(), Some(0));
    let found = looked_for();
    assert_eq!(last_line(&output), format!("{found} passed, 0 failed"));
    let text = String::from_utf8_lossy(&output.stdout);
    assert_eq!(text.matches("| found at file number ").count(), found);
}

#[test]
fn faults_never_found_fail() {
    let folder = folder("faults-missed");
    let output = compare(&folder, &["--faults", "--count", "0"]);
    assert_eq!(output.status.code(), Some(1));
    let missed = looked_for();
    assert_eq!(last_line(&output), format!("0 passed, {missed} failed"));
    let text = String::from_utf8_lossy(&output.stdout);
    assert_eq!(text.matches(" never found |").count(), missed);
}

#[test]
fn the_library_is_compared_without_a_program() {
    let folder = folder("library");
    let output = compare(&folder, &["--library", "--count", "3", "--seed", "2"]);
    // Three files meet too little, and none of them differs.
    assert_eq!(output.status.code(), Some(1));
    let text = String::from_utf8_lossy(&output.stdout);
    assert!(text.starts_with("3 files driven through the library; met:\n"));
    assert!(text.contains("never met: "));
}

#[test]
fn what_cannot_be_compared_is_said() {
    let folder = folder("cannot");
    for words in [
        &["none"][..],
        &[],
        &["--stored", "none", COMPARE],
        &["--stored", ".", COMPARE],
        &["--often", COMPARE],
    ] {
        let output = compare(&folder, words);
        assert_eq!(output.status.code(), Some(2), "{words:?}");
        assert!(!output.stderr.is_empty());
        assert!(output.stdout.is_empty());
    }
}
