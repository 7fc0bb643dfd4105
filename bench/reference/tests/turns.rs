//! Lines and turns.

mod common;

use common::*;

/// A single write of eight bytes over a table, with its response in.
fn single(lines: &[[u8; 8]]) -> Bench {
    Bench::running(table(64, lines), vec![], 8, WRITE_ONE)
}

#[test]
fn a11_the_moved_bytes_of_a_failing_turn() {
    let lines = [line(TRAN | END | INT, 4, 16)];
    let mut bench = single(&lines);
    bench.done(turn());
    let seen = bench.fails(4, 4);
    assert_eq!(seen.raised, ADMA_ERROR | ANY_ERROR | DMA_INTERRUPT);
    assert_eq!(bench.at(), 8);
}

#[test]
fn a23_the_line_address_may_be_written_during_a_transfer() {
    let lines = [line(TRAN, 4, 32), line(0, 0, 0), line(TRAN | END, 4, 36)];
    let mut bench = single(&lines);
    bench.all([turn(), write(0x58, 4, 0x13), write(0x5C, 4, 0x1234_5678)]);
    bench.done(turn());
    assert_eq!(bench.at(), 0x10);
    bench.all([turn(), turn()]);
    assert_eq!((bench.at(), bench.word(0x5C)), (0x18, 0x1234_5678));
    assert_eq!(bench.seen(taken()).raised, TRANSFER_COMPLETE);
    assert_eq!(bench.0.taken()[..8], [32, 33, 34, 35, 36, 37, 38, 39]);
}

#[test]
fn a61_blocks_and_engine_go_beside_each_other() {
    let lines = [line(TRAN, 4, 16), line(TRAN | END, 4, 20)];
    let mut bench = Bench::running(table(24, &lines), (1..=8).collect(), 8, READ_ONE);
    assert_eq!(bench.done(given()), 8);
    assert_eq!(bench.done(turn()), 0);
    assert_eq!(bench.done(turn()), 4);
    assert_eq!(bench.done(turn()), 0);
    let seen = bench.seen(turn());
    assert_eq!((seen.value, seen.raised), (4, TRANSFER_COMPLETE));
    assert_eq!(bench.0.memory()[16..], [1, 2, 3, 4, 5, 6, 7, 8]);
}

#[test]
fn a63_a_line_beyond_memory() {
    let mut bench = single(&[]);
    bench.done(write(0x58, 4, 60));
    bench.fails(1, 0);
    assert_eq!(bench.at(), 60);
    let mut bench = single(&[]);
    bench.done(write(0x58, 4, 0xFFFF_FFFF));
    bench.fails(1, 0);
    assert_eq!(bench.at(), 0xFFFF_FFFC);
}

#[test]
fn a66_link_goes_on_at_its_address() {
    let lines = [
        line(LINK | INT, 7, 0x13),
        line(0, 0, 0),
        line(TRAN | END, 8, 32),
    ];
    let mut bench = single(&lines);
    assert_eq!(bench.seen(turn()).raised, DMA_INTERRUPT);
    assert_eq!(bench.at(), 0x10);
    bench.all([turn(), turn(), taken()]);
    assert_eq!(bench.at(), 0x18);
}

#[test]
fn a66_link_with_end_stops_at_its_address() {
    let mut bench = single(&[line(LINK | END, 0, 0x23)]);
    bench.fails(4, 0);
    assert_eq!(bench.at(), 0x20);
    let mut bench = single(&[line(TRAN, 8, 32), line(LINK | END | INT, 0, 0x30)]);
    bench.all([turn(), turn(), taken()]);
    assert_eq!(bench.seen(turn()).raised, DMA_INTERRUPT | TRANSFER_COMPLETE);
    assert_eq!(bench.at(), 0x30);
}

#[test]
fn a67_other_lines_only_step_on() {
    for first in [0x01, 0x11, 0xC9, 0xD9] {
        let mut ignored = line(first | INT, 0xFFFF, u32::MAX);
        ignored[1] = 0xFF;
        let mut bench = single(&[ignored, line(first | END, 8, 0)]);
        assert_eq!(bench.seen(turn()).raised, DMA_INTERRUPT);
        assert_eq!(bench.at(), 8);
        bench.fails(4, 0);
        assert_eq!(bench.at(), 16);
    }
}

#[test]
fn a68_a_span_ends_inside_memory() {
    let mut bench = single(&[line(TRAN | END, 8, 56)]);
    bench.all([turn(), turn(), taken()]);
    let mut bench = single(&[line(TRAN | END, 8, 60)]);
    bench.fails(3, 0);
    assert_eq!(bench.at(), 8);
    let mut bench = single(&[line(TRAN | END, 8, 0xFFFF_FFFC)]);
    bench.fails(3, 0);
    let mut bench = single(&[line(TRAN | END, 9, 60)]);
    bench.fails(7, 0);
    let mut bench = single(&[line(TRAN | END, 9, 16)]);
    bench.fails(7, 0);
    assert_eq!(bench.at(), 8);
}

#[test]
fn a70_a_line_that_fails_in_the_fetch_is_not_done() {
    for first in [TRAN | INT | END, 0x20 | INT] {
        let mut bench = single(&[line(first, 9, 60)]);
        assert_eq!(bench.seen(turn()).raised, ADMA_ERROR | ANY_ERROR);
    }
    let mut bench = single(&[line(NOP | INT | END, 0, 0)]);
    assert_eq!(
        bench.fails(4, 0).raised,
        ADMA_ERROR | ANY_ERROR | DMA_INTERRUPT
    );
}

#[test]
fn a71_int_and_completion_come_together() {
    let lines = [line(TRAN | END | INT, 8, 8)];
    let mut bench = Bench::running(table(16, &lines), vec![1; 8], 8, READ_ONE);
    bench.all([turn(), given()]);
    assert_eq!(bench.seen(turn()).raised, DMA_INTERRUPT | TRANSFER_COMPLETE);
}

#[test]
fn a72_a_read_may_fill_over_its_own_line() {
    let lines = [line(TRAN | END | INT, 16, 0)];
    let mut bench = Bench::running(table(16, &lines), vec![0; 16], 8 | 2 << 16, READ_MANY);
    bench.all([turn(), given(), turn(), given()]);
    assert_eq!(bench.seen(turn()).raised, DMA_INTERRUPT | TRANSFER_COMPLETE);
    assert_eq!(bench.0.memory(), [0; 16]);
}

#[test]
fn a75_another_waiting_command_does_not_matter() {
    let mut bench = single(&[line(TRAN | END, 8, 16)]);
    bench.done(write(0x0E, 2, PLAIN));
    assert_eq!(bench.done(turn()), 0);
    assert_eq!(bench.done(turn()), 8);
}

#[test]
fn a75_a_fetch_goes_with_the_buffer_full() {
    let lines = [line(TRAN, 8, 24), line(NOP, 0, 0), line(TRAN | END, 8, 24)];
    let mut bench = Bench::running(table(32, &lines), vec![], 8 | 2 << 16, WRITE_MANY);
    bench.all([turn(), turn(), turn(), turn()]);
    bench.refused(9, turn());
    bench.all([taken(), turn(), taken()]);
}

#[test]
fn a76_nothing_owed_with_end_unread() {
    let after = |second: [u8; 8]| {
        let mut bench = single(&[line(TRAN, 8, 32), second, line(NOP | END, 0, 0)]);
        bench.all([turn(), turn()]);
        bench
    };
    let mut bench = after(line(LINK, 0, 16));
    bench.all([turn(), turn()]);
    bench.refused(10, turn());
    assert_eq!(bench.seen(taken()).raised, TRANSFER_COMPLETE);
    let mut bench = after(line(NOP, 0, 0));
    bench.all([taken(), turn()]);
    assert_eq!(bench.seen(turn()).raised, TRANSFER_COMPLETE);
    after(line(TRAN | END, 1, 32)).fails(7, 0);
    after(line(TRAN | END, 0, 32)).fails(7, 0);
    after(line(0, 0, 0)).fails(1, 0);
}

#[test]
fn a79_a_table_may_change_under_the_engine() {
    let lines = [line(TRAN, 8, 8)];
    let card = line(NOP | END, 0, 0).to_vec();
    let mut bench = Bench::running(table(16, &lines), card, 8, READ_ONE);
    bench.all([turn(), given(), turn()]);
    assert!(bench.0.running());
    assert_eq!(bench.seen(turn()).raised, TRANSFER_COMPLETE);
    assert_eq!(bench.at(), 16);
}

#[test]
fn a_line_longer_than_the_buffer_moves_in_parts() {
    let lines = [line(TRAN, 5, 20), line(TRAN | END, 7, 32)];
    let mut bench = Bench::running(table(64, &lines), vec![], 4 | 3 << 16, WRITE_MANY);
    let mut card = Vec::new();
    for (moved, take) in [
        (0, false),
        (4, true),
        (1, false),
        (0, false),
        (3, true),
        (4, true),
    ] {
        assert_eq!(bench.done(turn()), moved);
        if take {
            bench.done(taken());
            card.extend_from_slice(&bench.0.taken()[..4]);
        }
    }
    assert_eq!(card, [20, 21, 22, 23, 24, 32, 33, 34, 35, 36, 37, 38]);
    assert_eq!(bench.status(), COMMAND_COMPLETE | TRANSFER_COMPLETE);
}

#[test]
fn no_block_is_given_when_none_is_left() {
    let lines = [line(TRAN, 8, 24), line(NOP, 0, 0), line(NOP | END, 0, 0)];
    let mut bench = Bench::running(table(32, &lines), vec![1; 16], 8, READ_ONE);
    bench.all([turn(), given(), turn()]);
    bench.refused(7, given());
    bench.done(turn());
    bench.refused(7, given());
    assert_eq!(bench.0.card_left(), 8);
    assert_eq!(bench.seen(turn()).raised, TRANSFER_COMPLETE);
}
