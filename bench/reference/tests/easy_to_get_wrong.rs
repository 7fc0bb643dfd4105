//! One test for each item of the list "Easy to get wrong".

mod common;

use common::*;

#[test]
fn the_line_stays_up_while_another_bit_stands() {
    let mut bench = Bench::running(example_memory(), vec![], 8, WRITE_ONE);
    bench.done(write(0x38, 4, 0x03FF_01FF));
    bench.all([turn(), turn()]);
    assert!(bench.seen(taken()).line);
    assert!(bench.seen(write(0x30, 2, 1)).line);
    assert_eq!(bench.word(0xFC), 0x0001_0001);
    assert!(!bench.seen(write(0x30, 2, 2)).line);
    assert_eq!(bench.word(0xFC), 0x0001_0000);
}

#[test]
fn writing_one_bit_keeps_the_others() {
    let mut bench = Bench::ready(vec![], vec![]);
    bench.all([write(0x52, 2, 0x3FF), card_out(), card_in()]);
    assert_eq!(bench.status(), 0x03FF_80C0);
    bench.done(write(0x30, 4, 0x0001_0040));
    assert_eq!(bench.status(), 0x03FE_8080);
    bench.done(write(0x33, 1, 0x02));
    assert_eq!(bench.status(), 0x01FE_8080);
    bench.done(write(0x30, 4, 0));
    assert_eq!(bench.status(), 0x01FE_8080);
}

#[test]
fn length_zero_moves_65536_bytes() {
    let lines = [line(TRAN | END, 0, 8)];
    let mut bench = Bench::running(
        table(8 + 65_536, &lines),
        vec![],
        512 | 128 << 16,
        WRITE_MANY,
    );
    bench.done(turn());
    for block in 0..128 {
        assert_eq!(bench.done(turn()), 512, "block {block}");
        let seen = bench.seen(taken());
        assert_eq!(seen.raised & TRANSFER_COMPLETE != 0, block == 127);
    }
    assert_eq!(bench.count(), 0);
    let mut short = Bench::running(
        table(8 + 65_536, &lines),
        vec![],
        512 | 127 << 16,
        WRITE_MANY,
    );
    short.fails(7, 0);
}

#[test]
fn the_line_address_stays_at_a_line_that_is_not_valid() {
    let lines = [line(NOP, 0, 0), line(0x22, 8, 16)];
    let mut bench = Bench::running(table(24, &lines), vec![], 8, WRITE_ONE);
    bench.done(turn());
    assert_eq!(bench.at(), 8);
    let seen = bench.fails(1, 0);
    assert_eq!(seen.raised, ADMA_ERROR | ANY_ERROR);
    assert_eq!(bench.at(), 8);
}

#[test]
fn the_last_block_does_not_complete_with_end_unread() {
    let lines = [line(TRAN, 8, 16), line(NOP | END, 0, 0)];
    let mut bench = Bench::running(table(24, &lines), vec![], 8, WRITE_ONE);
    bench.all([turn(), turn()]);
    assert_eq!(bench.seen(taken()).raised, 0);
    assert!(bench.0.running());
    assert_eq!(bench.state(), 0x01FF_0106);
    let seen = bench.seen(turn());
    assert_eq!((seen.raised, seen.value), (TRANSFER_COMPLETE, 0));
    assert_eq!(bench.state(), 0x01FF_0000);
}

#[test]
fn end_read_before_the_last_block_is_taken_completes_with_the_block() {
    let mut bench = Bench::running(example_memory(), vec![], 8, WRITE_ONE);
    bench.done(turn());
    assert_eq!(bench.seen(turn()).raised, 0);
    bench.refused(10, turn());
    assert_eq!(bench.seen(taken()).raised, TRANSFER_COMPLETE);
    bench.refused(7, taken());
}
