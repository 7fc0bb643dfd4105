//! The program itself prints its tables. Nothing is said here of how fast anything is.

use std::process::{Command, Output};

fn speed(words: &[&str]) -> Output {
    Command::new(env!("CARGO_BIN_EXE_speed"))
        .args(words)
        .output()
        .expect("the program starts")
}

#[test]
fn one_round_prints_every_table() {
    let output = speed(&["--rounds", "1"]);
    assert_eq!(output.status.code(), Some(0));
    let text = String::from_utf8_lossy(&output.stdout);
    for row in [
        "| register read, 024h/4 |",
        "| register write, 008h/4 |",
        "| acknowledgement, 030h/2 |",
        "| turn that fetches |",
        "| turn that moves 512 bytes, write |",
        "| turn that moves 512 bytes, read |",
        "| block taken |",
        "| block given |",
        "| survey of 4,096 lines |",
        "| whole write of 64 blocks |",
        "| whole read of 64 blocks |",
        "| write | 4096 |",
        "| read | 4096 |",
        "| the record of a slot | 100 |",
        "| stack of a survey of 4,096 lines |",
    ] {
        assert!(text.contains(row), "{row}");
    }
}

#[test]
fn other_words_are_refused() {
    for words in [&["--rounds"][..], &["--rounds", "0"], &["--fast"], &["1"]] {
        let output = speed(words);
        assert_eq!(output.status.code(), Some(2), "{words:?}");
        assert!(output.stdout.is_empty());
    }
}
