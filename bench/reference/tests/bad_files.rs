//! One bad file for each way to be bad, and the odd files that are good.

mod common;

use common::*;
use reference::{encode, parse, run, RunFile, Step};

fn file(steps: Vec<Step>) -> RunFile {
    RunFile {
        memory: vec![1, 2, 3],
        steps,
        card: vec![4, 5],
    }
}

fn is_bad(bytes: &[u8]) {
    assert_eq!(parse(bytes), None);
    assert_eq!(run(bytes), "bad file\n");
}

fn bad_step(step: Step) {
    is_bad(&encode(&file(vec![card_in(), step])));
}

fn answers(step: Step, answer: u32) {
    let text = run(&encode(&file(vec![step])));
    assert_eq!(text, format!("steps 1\n0 {answer} 00000000 0\n"));
}

fn sized(memory: usize, steps: usize, card: usize) -> Vec<u8> {
    encode(&RunFile {
        memory: vec![0; memory],
        steps: vec![read(0, 4); steps],
        card: vec![0; card],
    })
}

#[test]
fn every_cut_of_a_good_file_is_bad() {
    let bytes = encode(&file(vec![card_in(), turn()]));
    assert!(parse(&bytes).is_some());
    for length in 0..bytes.len() {
        is_bad(&bytes[..length]);
    }
}

#[test]
fn a_byte_after_the_third_section_is_bad() {
    let mut bytes = encode(&file(vec![card_in()]));
    bytes.push(0);
    is_bad(&bytes);
}

#[test]
fn counts_include_their_limits() {
    assert!(parse(&sized(32_768, 512, 16_384)).is_some());
    is_bad(&sized(32_769, 0, 0));
    is_bad(&sized(0, 513, 0));
    is_bad(&sized(0, 0, 16_385));
}

#[test]
fn a_huge_count_is_bad() {
    for section in 0..3 {
        let mut bytes = vec![0; 12];
        bytes[section * 4..][..4].fill(0xFF);
        is_bad(&bytes);
    }
    let mut bytes = vec![0; 12];
    bytes[4..8].copy_from_slice(&0x0CCC_CCCD_u32.to_le_bytes());
    is_bad(&bytes);
}

#[test]
fn a_kind_over_ten_is_bad() {
    for kind in 11..=255 {
        bad_step(Step { kind, ..card_in() });
    }
}

#[test]
fn an_unused_detail_is_bad() {
    for step in [card_in(), card_out(), given(), taken(), busy_over(), turn()] {
        bad_step(Step { detail: 1, ..step });
    }
}

#[test]
fn an_unused_offset_is_bad() {
    for kind in 2..=10 {
        let step = Step { kind, ..card_in() };
        assert!(parse(&encode(&file(vec![step.clone()]))).is_some());
        bad_step(Step {
            offset: 0x100,
            ..step
        });
    }
}

#[test]
fn an_unused_word_is_bad() {
    for kind in 0..=10 {
        let used = match kind {
            0 => 1,
            4 => 4,
            _ => 0,
        };
        for index in 0..4 {
            let mut step = Step { kind, ..card_in() };
            step.words[index] = 0x8000_0000;
            let bytes = encode(&file(vec![step]));
            assert_eq!(parse(&bytes).is_some(), index < used);
        }
    }
}

#[test]
fn a_level_over_one_is_bad() {
    for detail in 2..=255 {
        bad_step(level(detail));
    }
}

#[test]
fn the_whole_file_is_judged_before_the_first_step() {
    let mut steps = example_run().steps;
    steps.push(level(2));
    is_bad(&encode(&file(steps)));
}

#[test]
fn senseless_values_in_used_fields_are_answered() {
    for width in [0, 3, 5, 8, 255] {
        answers(read(0, width), 1);
        answers(write(0, width, 0), 1);
    }
    answers(read(0x1000, 1), 1);
    answers(write(0x100, 1, 0), 1);
    answers(write(0, 1, 0x100), 1);
    answers(write(0, 2, 0x1_0000), 1);
    answers(response(5, [1, 2, 3, 4]), 7);
    answers(response(255, [0; 4]), 7);
    answers(data_error(3), 7);
    answers(data_error(255), 7);
    answers(level(1), 7);
}

#[test]
fn an_empty_run_is_good() {
    assert_eq!(run(&[0; 12]), "steps 0\n");
    assert_eq!(run(&[]), "bad file\n");
}

#[test]
fn what_is_encoded_is_parsed_back() {
    let steps = vec![
        write(0x1234, 7, 0xDEAD_BEEF),
        response(9, [1, 0x2000, 3, u32::MAX]),
    ];
    assert_eq!(parse(&encode(&file(steps.clone()))), Some(file(steps)));
}
