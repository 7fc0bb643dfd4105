//! P1 to P10 and the values that are only run.

mod common;

use common::*;
use reference::{boot_check, survey, Survey};

fn found(kind: u32, state: u32, lines: u32, bytes: u32, after: u32) -> Survey {
    Survey {
        answer: 0,
        kind,
        state,
        lines,
        bytes,
        after,
    }
}

#[test]
fn p1_present_state_at_power_on() {
    assert_eq!(Bench::bare(vec![], vec![]).state(), 0x01FA_0000);
}

#[test]
fn p2_present_state_after_card_in() {
    let mut bench = Bench::bare(vec![], vec![]);
    bench.done(card_in());
    assert_eq!(bench.done(read(0x24, 4)), 0x01FF_0000);
}

#[test]
fn p3_length_zero_is_65536() {
    let mut memory = vec![0x21, 0, 0, 0, 8, 0, 0, 0];
    memory.extend(line(NOP | END, 0, 0));
    memory.resize(8 + 65_536, 0);
    assert_eq!(survey(&memory, 0, 65_536, 0), found(0, 0, 2, 65_536, 16));
}

#[test]
fn p4_to_p6_by_the_bytes_owed() {
    let memory = example_memory();
    assert_eq!(survey(&memory, 0, 8, 0), found(0, 0x00, 1, 8, 8));
    assert_eq!(survey(&memory, 0, 16, 0), found(1, 0x04, 1, 8, 8));
    assert_eq!(survey(&memory, 0, 4, 0), found(1, 0x07, 1, 0, 8));
}

#[test]
fn p7_a_line_past_memory() {
    let mut memory = example_memory();
    memory[4] = 0x14;
    assert_eq!(survey(&memory, 0, 8, 0), found(1, 0x03, 1, 0, 8));
}

#[test]
fn p8_a_line_that_is_not_valid() {
    let mut memory = example_memory();
    memory[0] = 0x22;
    assert_eq!(survey(&memory, 0, 8, 0), found(1, 0x01, 1, 0, 0));
}

#[test]
fn p9_empty_memory() {
    assert_eq!(survey(&[], 0, 8, 0), found(1, 0x01, 1, 0, 0));
}

#[test]
fn p10_a_line_linking_to_itself() {
    let memory = line(LINK, 0, 0);
    assert_eq!(survey(&memory, 0, 8, 0), found(2, 0x00, 64, 0, 0));
    assert_eq!(boot_check(&memory, 0, 8), (0, false));
}

#[test]
fn an_access_at_the_end_of_the_block() {
    let mut bench = Bench::bare(vec![], vec![]);
    bench.refused(1, read(0xFF, 2));
    bench.refused(1, write(0xFF, 2, 0));
    assert_eq!(bench.done(read(0xFC, 4)), 0x0001_0000);
    bench.done(write(0xFC, 4, u32::MAX));
}

#[test]
fn block_size_512_issues_and_513_does_not() {
    let mut bench = Bench::ready(vec![], vec![]);
    bench.done(write(0x04, 2, 513));
    bench.refused(6, write(0x0C, 4, WRITE_ONE));
    bench.done(write(0x04, 2, 512));
    bench.done(write(0x0C, 4, WRITE_ONE));
}

#[test]
fn survey_limit_4096_runs_and_4097_does_not() {
    let memory = line(LINK, 0, 0);
    assert_eq!(survey(&memory, 0, 8, 4_096), found(2, 0, 4_096, 0, 0));
    let refused = Survey {
        answer: 12,
        ..found(0, 0, 0, 0, 0)
    };
    assert_eq!(survey(&memory, 0, 8, 4_097), refused);
    assert_eq!(survey(&memory, 0, 8, u32::MAX), refused);
}

#[test]
fn a_lone_line_is_as_the_limit_says() {
    let memory = table(
        64,
        &[line(NOP, 0, 0), line(TRAN, 8, 32), line(TRAN | END, 8, 32)],
    );
    assert_eq!(survey(&memory, 0, 16, 1), found(2, 0, 1, 0, 8));
    assert_eq!(survey(&memory, 0, 16, 2), found(2, 0, 2, 8, 16));
    assert_eq!(survey(&memory, 0, 16, 3), found(0, 0, 3, 16, 24));
    assert_eq!(survey(&memory, 0, 17, 3), found(1, 4, 3, 16, 24));
    assert_eq!(survey(&memory, 0, 15, 3), found(1, 7, 3, 8, 24));
}

#[test]
fn a_survey_starts_at_a_multiple_of_four() {
    let memory = table(40, &[line(0, 0, 0), line(TRAN | END, 4, 32)]);
    assert_eq!(survey(&memory, 11, 4, 0), found(0, 0, 1, 4, 16));
    assert_eq!(survey(&memory, 3, 4, 0), found(1, 1, 1, 0, 0));
    assert_eq!(
        survey(&memory, u32::MAX, 4, 0),
        found(1, 1, 1, 0, u32::MAX - 3)
    );
}

#[test]
fn a_survey_follows_links() {
    let memory = table(
        40,
        &[line(LINK, 0, 19), line(0, 0, 0), line(LINK | END, 0, 7)],
    );
    assert_eq!(survey(&memory, 0, 0, 0), found(0, 0, 2, 0, 4));
    assert_eq!(survey(&memory, 0, 1, 0), found(1, 4, 2, 0, 4));
    assert_eq!(boot_check(&memory, 0, 0), (0, true));
    assert_eq!(boot_check(&memory, 0, 1), (0, false));
}

#[test]
fn too_long_and_past_memory_are_both_told() {
    let memory = line(TRAN, 16, 0);
    assert_eq!(survey(&memory, 0, 8, 0), found(1, 7, 1, 0, 8));
    assert_eq!(survey(&memory, 0, 16, 0), found(1, 3, 1, 0, 8));
}

#[test]
fn memory_over_16_megabytes_is_told_first() {
    let mut memory = vec![0; 16_777_216];
    memory[..8].copy_from_slice(&line(NOP | END, 0, 0));
    assert_eq!(survey(&memory, 0, 0, 0), found(0, 0, 1, 0, 8));
    assert_eq!(boot_check(&memory, 0, 0), (0, true));
    memory.push(0);
    let refused = Survey {
        answer: 11,
        ..found(0, 0, 0, 0, 0)
    };
    assert_eq!(survey(&memory, 0, 0, 0), refused);
    assert_eq!(survey(&memory, 0, 0, 4_097), refused);
    assert_eq!(boot_check(&memory, 0, 0), (11, false));
}
