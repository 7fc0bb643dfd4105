//! The notation over the recorded runs, over random files and over wrong lines.

use reference::{RunFile, Step};
use runtext::{kinds, layout, to_file, to_text};
use std::fs;
use std::path::PathBuf;

/// Numbers that look random and are the same in every run of the tests.
struct Numbers(u64);

impl Numbers {
    fn next(&mut self) -> u32 {
        self.0 ^= self.0 << 13;
        self.0 ^= self.0 >> 7;
        self.0 ^= self.0 << 17;
        (self.0 >> 16) as u32
    }

    fn below(&mut self, limit: u32) -> u32 {
        self.next() % limit
    }

    // Small and zero fields are as likely as large ones, so that friendly and
    // raw lines both come up.
    fn field(&mut self) -> u32 {
        match self.below(3) {
            0 => 0,
            1 => self.below(12),
            _ => self.next(),
        }
    }

    fn bytes(&mut self, limit: u32) -> Vec<u8> {
        let zeros = self.below(2) == 0;
        (0..self.below(limit))
            .map(|place| {
                if zeros && place % 64 > 20 {
                    0
                } else {
                    self.next() as u8
                }
            })
            .collect()
    }
}

fn random_file(numbers: &mut Numbers) -> RunFile {
    let steps = (0..numbers.below(40))
        .map(|_| Step {
            kind: numbers.below(13) as u8,
            detail: numbers.field() as u8,
            offset: numbers.field() as u16,
            words: [(); 4].map(|()| numbers.field()),
        })
        .collect();
    RunFile {
        memory: numbers.bytes(300),
        steps,
        card: numbers.bytes(300),
    }
}

fn recorded() -> Vec<(PathBuf, String)> {
    let folder = PathBuf::from(env!("CARGO_MANIFEST_DIR")).join("../runs");
    let mut texts: Vec<(PathBuf, String)> = fs::read_dir(folder)
        .expect("the recorded runs")
        .map(|entry| entry.expect("an entry").path())
        .filter(|path| path.extension().is_some_and(|kind| kind == "txt"))
        .map(|path| (path.clone(), fs::read_to_string(path).expect("a text")))
        .collect();
    texts.sort();
    texts
}

#[test]
fn the_recorded_runs_go_through_text_and_back() {
    let texts = recorded();
    assert!(texts.len() >= 5);
    for (path, text) in texts {
        let file = to_file(&text).unwrap_or_else(|fault| panic!("{path:?}: {fault}"));
        let again = to_file(&to_text(&file)).expect("text of a file");
        assert_eq!(again, file, "{path:?}");
        assert!(
            reference::parse(&reference::encode(&file)).is_some(),
            "{path:?}"
        );
    }
}

#[test]
fn the_recorded_runs_give_the_stored_outputs() {
    for (path, text) in recorded() {
        let file = to_file(&text).expect("a recorded run");
        let stored = fs::read_to_string(path.with_extension("out")).expect("its output");
        assert_eq!(
            reference::run(&reference::encode(&file)),
            stored,
            "{path:?}"
        );
    }
}

#[test]
fn random_files_go_through_text_and_back() {
    let mut numbers = Numbers(0x5EED_0001);
    for _ in 0..2000 {
        let file = random_file(&mut numbers);
        let text = to_text(&file);
        let again = to_file(&text).unwrap_or_else(|fault| panic!("{fault}\n{text}"));
        assert_eq!(again, file);
        assert_eq!(to_text(&again), text);
    }
}

#[test]
fn the_layout_is_the_encoding_turned_round() {
    let mut numbers = Numbers(0x5EED_0002);
    for _ in 0..200 {
        let file = random_file(&mut numbers);
        let bytes = reference::encode(&file);
        assert_eq!(layout(&bytes), Some(file));
        assert_eq!(layout(&bytes[..bytes.len() - 1]), None);
        assert_eq!(layout(&[&bytes[..], &[0]].concat()), None);
    }
}

#[test]
fn good_steps_have_friendly_lines() {
    let steps = [
        (kinds::write(0x2C, 2, 5), "write 02Ch/2 5"),
        (kinds::read(0x24, 4), "read 024h/4"),
        (kinds::read(0x1000, 255), "read 1000h/255"),
        (kinds::response(0, [0x900, 0, 0, 0]), "response good 900h"),
        (kinds::response(4, [0, 0, 3, 0]), "response index 0 0 3"),
        (kinds::response(9, [0; 4]), "response 9"),
        (kinds::detailed(kinds::DATA_ERROR, 2), "error end"),
        (kinds::detailed(kinds::DATA_ERROR, 3), "error 3"),
        (kinds::detailed(kinds::LEVEL, 1), "level 1"),
        (kinds::plain(kinds::BUSY_OVER), "busy over"),
    ];
    for (step, line) in steps {
        assert_eq!(runtext::step_text(&step), line);
        assert_eq!(to_file(line).unwrap().steps, [step]);
    }
}

#[test]
fn malformed_steps_have_the_raw_line() {
    let level = kinds::detailed(kinds::LEVEL, 2);
    assert_eq!(runtext::step_text(&level), "raw 9 2 0 0 0 0 0");
    let mut turn = kinds::plain(kinds::TURN);
    turn.words[3] = 10;
    assert_eq!(runtext::step_text(&turn), "raw 10 0 0 0 0 0 0Ah");
    assert_eq!(runtext::step_text(&kinds::plain(11)), "raw 11 0 0 0 0 0 0");
}

#[test]
fn names_numbers_capitals_and_comments_are_read() {
    let text = "# a comment\n\n  WRITE Clock/2 5   # to the end\nwrite 0x02c/2 0x5\n";
    let steps = to_file(text).unwrap().steps;
    assert_eq!(steps, vec![kinds::write(0x2C, 2, 5); 2]);
}

#[test]
fn wrong_lines_are_named_with_what_was_expected() {
    let wrong = [
        ("wrote 02Ch/2 5", "expected memory, card, write"),
        ("write 02Ch/2", "expected a place and a value"),
        ("write 02Ch 5", "expected OFFSET/WIDTH"),
        ("write 10/2 5", "offset in hex"),
        (
            "write clock/256 5",
            "a width up to 0FFh, in decimal or in hex",
        ),
        ("write clock/2 5g", "as 0Fh or 0x0F, found `5g`"),
        ("read 10000h/4", "up to 0FFFFh"),
        ("read 024h/4 5", "a place alone"),
        ("response", "expected good, timeout"),
        ("response fine", "expected good, timeout"),
        ("response good 1 2 3 4 5", "at most four words"),
        ("error", "expected timeout, crc, end"),
        ("level 2", "`level 0` or `level 1`"),
        ("busy", "busy over"),
        ("in 1", "found `in 1`"),
        ("raw 1 2", "raw KIND DETAIL OFFSET"),
        ("raw 256 0 0 0 0 0 0", "a kind up to 0FFh"),
        ("raw 1 0 0 0 0 0", "seven numbers, found 6"),
        ("memory 1", "two hex digits"),
        ("card zeros 16385", "at most 16384 bytes of card"),
    ];
    for (line, expected) in wrong {
        let fault = to_file(&format!("in\n{line}\n")).expect_err(line);
        assert_eq!(fault.line, 2, "{line}");
        assert!(fault.message.contains(expected), "{line}: {fault}");
    }
}

#[test]
fn steps_over_the_limit_are_refused() {
    assert_eq!(to_file(&"turn\n".repeat(512)).unwrap().steps.len(), 512);
    assert_eq!(to_file(&"turn\n".repeat(513)).unwrap_err().line, 513);
}
