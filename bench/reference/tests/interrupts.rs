//! Status, enables, forced events and the line.

mod common;

use common::*;

#[test]
fn a27_each_byte_clears_its_own_bits() {
    let mut bench = Bench::ready(vec![], vec![]);
    bench.all([write(0x52, 2, 0x3FF), card_out(), card_in(), level(1)]);
    let full = bench.status();
    assert_eq!(full, 0x03FF_81C0);
    bench.done(write(0x31, 1, 0xFF));
    assert_eq!(bench.status(), full);
    bench.done(write(0x30, 1, 0xFF));
    assert_eq!(bench.status(), 0x03FF_8100);
    bench.done(write(0x32, 1, 0xFF));
    assert_eq!(bench.status(), 0x0300_8100);
    bench.done(write(0x30, 4, 0xFFFF_FFFF));
    assert_eq!(bench.status(), CARD_INTERRUPT);
}

#[test]
fn a28_clearing_an_enable_clears_the_bit_for_good() {
    let mut bench = Bench::ready(vec![], vec![]);
    bench.all([write(0x52, 2, 0x3FF), card_out(), card_in()]);
    assert_eq!(bench.status(), 0x03FF_80C0);
    bench.done(write(0x37, 1, 0x01));
    assert_eq!(bench.status(), 0x01FF_80C0);
    bench.done(write(0x36, 1, 0x0F));
    assert_eq!(bench.status(), 0x010F_80C0);
    bench.done(write(0x34, 1, 0x40));
    assert_eq!(bench.status(), 0x010F_8040);
    bench.done(write(0x35, 1, 0x00));
    assert_eq!(bench.status(), 0x010F_8040);
    assert_eq!(bench.seen(write(0x34, 4, u32::MAX)).raised, 0);
    assert_eq!(bench.status(), 0x010F_8040);
}

#[test]
fn signal_enables_clear_nothing() {
    let mut bench = Bench::ready(vec![], vec![]);
    bench.all([write(0x52, 2, 0x3FF), write(0x38, 4, u32::MAX)]);
    assert!(!bench.seen(write(0x38, 4, 0)).line);
    assert_eq!(bench.status(), 0x03FF_8000);
    assert!(bench.seen(write(0x3B, 1, 2)).line);
}

#[test]
fn a29_the_card_interrupt_follows_the_level() {
    let mut bench = Bench::bare(vec![], vec![]);
    bench.all([card_in(), write(0x38, 4, 0x100), level(1)]);
    assert_eq!(bench.status(), 0);
    let seen = bench.seen(write(0x35, 1, 1));
    assert_eq!((seen.line, seen.raised), (true, CARD_INTERRUPT));
    assert!(bench.seen(write(0x30, 4, u32::MAX)).line);
    assert!(bench.seen(level(1)).line);
    assert!(!bench.seen(write(0x35, 1, 0)).line);
    assert!(bench.seen(write(0x35, 1, 1)).line);
    assert!(!bench.seen(level(0)).line);
    assert!(bench.seen(level(1)).line);
    assert!(!bench.seen(card_out()).line);
    bench.done(card_in());
    assert_eq!(bench.status(), 0);
}

#[test]
fn a30_an_event_without_its_enable_is_lost() {
    let mut bench = Bench::bare(vec![], vec![]);
    bench.all([card_in(), write(0x34, 4, 0x03FF_01FF)]);
    assert_eq!(bench.status(), 0);
    bench.all([write(0x34, 1, 0x7F), card_out(), write(0x34, 1, 0xFF)]);
    assert_eq!(bench.status(), 0);
    assert_eq!(bench.seen(card_in()).raised, 0x40);
    assert_eq!(bench.seen(card_out()).raised, 0x80);
}

#[test]
fn a31_the_error_summary_takes_no_part_in_the_line() {
    let mut bench = Bench::ready(vec![], vec![]);
    bench.done(write(0x38, 2, 0xFFFF));
    let seen = bench.seen(write(0x52, 2, 1));
    assert_eq!((seen.line, seen.raised), (false, 0x0001_8000));
    assert!(bench.seen(write(0x3A, 2, 1)).line);
    bench.done(write(0x32, 2, 1));
    assert_eq!(bench.status(), 0);
}

#[test]
fn a32_a_forced_event_sets_only_its_bits() {
    let mut bench = Bench::running(example_memory(), vec![], 8, WRITE_ONE);
    bench.done(write(0x36, 2, 0x02F0));
    bench.done(write(0x53, 1, 0xFF));
    assert_eq!(bench.status() >> 16, 0x0200);
    bench.done(write(0x50, 4, 0xFFFF_FFFF));
    assert_eq!(bench.status() >> 16, 0x02F0);
    assert_eq!(
        (bench.fault(), bench.word(0x3C), bench.word(0x50)),
        (0, 0, 0)
    );
    assert!(bench.0.running());
    assert_eq!(bench.state(), 0x01FF_0106);
    bench.all([turn(), turn(), taken()]);
    bench.done(write(0x52, 1, 0));
    assert_eq!(bench.status() >> 16, 0x02F0);
}

#[test]
fn a34_a_refused_step_shows_the_line_as_it_stands() {
    let mut bench = Bench::ready(vec![], vec![]);
    bench.all([write(0x38, 4, u32::MAX), write(0x52, 2, 1)]);
    let seen = bench.0.step(&read(0xFF, 2));
    assert_eq!((seen.answer, seen.line), (1, true));
}

#[test]
fn a78_an_adma_error_comes_without_its_enable() {
    let mut bench = Bench::running(vec![], vec![], 8, WRITE_ONE);
    bench.done(write(0x36, 2, 0));
    assert_eq!(bench.fails(1, 0).raised, 0);
    assert_eq!(bench.status(), COMMAND_COMPLETE);
    assert_eq!(bench.state(), 0x01FF_0106);
}

#[test]
fn a77_a_transfer_completes_without_its_enable() {
    let mut bench = Bench::running(example_memory(), vec![], 8, WRITE_ONE);
    bench.all([write(0x34, 2, 0), turn(), turn()]);
    assert_eq!(bench.seen(taken()).raised, 0);
    assert_eq!(bench.state(), 0x01FF_0000);
}
