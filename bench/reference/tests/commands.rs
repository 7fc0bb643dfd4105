//! Issuing, Abort, responses, and the card's events.

mod common;

use common::*;

#[test]
fn a3_the_mode_half_keeps_its_value_while_dat_is_inhibited() {
    let mut bench = Bench::running(example_memory(), vec![], 8, WRITE_ONE);
    bench.done(write(0x0C, 4, PLAIN << 16 | 0x37));
    assert_eq!(bench.word(0x0C), PLAIN << 16 | 0x01);
    bench.done(good());
    bench.refused(4, write(0x0C, 4, READ_ONE));
    bench.done(write(0x0C, 4, ABORT << 16 | 0x37));
    assert_eq!(bench.word(0x0C), ABORT << 16 | 0x01);
}

#[test]
fn a3_the_mode_half_is_set_first_while_dat_is_free() {
    let mut bench = Bench::ready(vec![], vec![]);
    bench.done(write(0x0C, 4, PLAIN << 16 | 0xFFFF));
    assert_eq!(bench.word(0x0C), PLAIN << 16 | 0x37);
    bench.done(good());
    bench.all([write(0x04, 4, 8), write(0x0C, 2, 0)]);
    bench.refused(6, write(0x0E, 2, WRITE_ONE >> 16));
    bench.done(write(0x0C, 4, WRITE_ONE));
    assert_eq!(bench.word(0x0C), WRITE_ONE);
}

#[test]
fn a7_byte_00f_issues_with_what_00e_holds() {
    let mut bench = Bench::ready(vec![], vec![]);
    bench.all([write(0x04, 4, 8), write(0x0C, 2, 1), write(0x0E, 1, 0x3A)]);
    assert_eq!(bench.state(), 0x01FF_0000);
    bench.done(write(0x0F, 1, 0xD8));
    assert_eq!(bench.state(), 0x01FF_0107);
    assert_eq!(bench.word(0x0C), WRITE_ONE);
    bench.refused(3, write(0x0F, 1, 0x18));
    bench.done(write(0x0E, 1, 0x00));
    assert_eq!(bench.word(0x0C), 0x1800_0001);
}

#[test]
fn a8_abort_with_data_is_not_carried() {
    let mut bench = Bench::running(example_memory(), vec![], 8, WRITE_ONE);
    bench.refused(6, write(0x0E, 2, ABORT | 0x20));
    bench.refused(6, write(0x0E, 2, ABORT_BUSY | 0x20));
    assert!(bench.0.running());
}

#[test]
fn a9_without_data_only_the_type_is_judged() {
    let mut bench = Bench::ready(vec![], vec![]);
    bench.all([write(0x28, 1, 0), write(0x04, 4, 0xFFF)]);
    bench.done(write(0x0C, 4, PLAIN << 16 | 0x26));
}

#[test]
fn a15_a_guest_cannot_write_the_adma_error() {
    let mut bench = Bench::running(vec![], vec![], 8, WRITE_ONE);
    bench.done(write(0x54, 4, 7));
    assert_eq!(bench.fault(), 0);
    bench.fails(1, 0);
    bench.all([
        write(0x54, 1, 0),
        write(0x30, 4, u32::MAX),
        write(0x2F, 1, 6),
    ]);
    assert_eq!(bench.fault(), 1);
    bench.all([write(0x0C, 4, WRITE_ONE), good()]);
    assert_eq!(bench.fault(), 1);
    bench.done(write(0x2F, 1, 1));
    assert_eq!(bench.fault(), 0);
}

#[test]
fn a42_present_state_rises_with_the_issue() {
    let mut bench = Bench::issued(vec![], vec![], 8, READ_ONE);
    assert_eq!(bench.state(), 0x01FF_0207);
    bench.done(good());
    assert_eq!(bench.state(), 0x01FF_0206);
    let mut bench = Bench::issued(vec![], vec![], 8, BUSY << 16);
    assert_eq!(bench.state(), 0x01FF_0007);
    assert!(!bench.0.running());
    bench.done(good());
    assert_eq!(bench.state(), 0x01FF_0006);
    assert_eq!(bench.seen(busy_over()).raised, TRANSFER_COMPLETE);
    assert_eq!(bench.state(), 0x01FF_0000);
}

#[test]
fn a43_a_command_keeps_its_settings() {
    let mut bench = Bench::issued(example_memory(), vec![], 8, WRITE_ONE);
    bench.all([write(0x0E, 1, 0x00), write(0x28, 1, 0x00)]);
    bench.refused(7, failed(5));
    bench.done(response(0, [0x123, 0x456, 0, 0]));
    assert_eq!((bench.word(0x10), bench.word(0x14)), (0x123, 0));
    bench.all([turn(), turn(), taken()]);
}

#[test]
fn a44_abort_halts_at_issue() {
    for (command, state) in [(WRITE_ONE, 0x106), (READ_ONE, 0x206), (BUSY << 16, 0x006)] {
        let mut bench = Bench::running(example_memory(), vec![], 8, command);
        bench.done(write(0x0E, 2, ABORT));
        assert_eq!(bench.state(), 0x01FF_0001 | state);
        bench.refused(10, turn());
        bench.refused(7, data_error(0));
        bench.refused(7, busy_over());
        assert_eq!(bench.seen(good()).raised, 0);
        assert_eq!(bench.state(), 0x01FF_0000 | state);
        bench.done(write(0x0E, 2, ABORT_BUSY));
        assert_eq!(bench.state(), 0x01FF_0001 | state);
        bench.done(write(0x2F, 1, 1));
    }
}

#[test]
fn a44_a_refused_abort_halts_nothing() {
    let mut bench = Bench::issued(example_memory(), vec![], 8, WRITE_ONE);
    bench.refused(3, write(0x0E, 2, ABORT));
    bench.all([good(), write(0x2C, 2, 1)]);
    bench.refused(5, write(0x0E, 2, ABORT));
    assert!(bench.0.running());
}

#[test]
fn a45_an_abort_without_a_use_is_an_ordinary_command() {
    let mut bench = Bench::ready(vec![], vec![]);
    bench.done(write(0x0E, 2, ABORT_BUSY));
    assert_eq!(bench.state(), 0x01FF_0007);
    bench.refused(7, busy_over());
    bench.all([good(), busy_over()]);
    bench.done(write(0x0E, 2, ABORT));
    assert_eq!(bench.state(), 0x01FF_0001);
}

#[test]
fn a46_an_error_response_halts_the_abort_alone() {
    let mut bench = Bench::running(example_memory(), vec![], 8, WRITE_ONE);
    bench.all([write(0x0E, 2, ABORT_BUSY), failed(1)]);
    assert_eq!(bench.state(), 0x01FF_0107);
    bench.done(write(0x2F, 1, 2));
    assert_eq!(bench.state(), 0x01FF_0106);
    bench.done(write(0x2F, 1, 4));
    assert_eq!(bench.state(), 0x01FF_0000);
}

#[test]
fn a47_an_abort_over_a_use_never_gets_a_busy() {
    let mut bench = Bench::running(example_memory(), vec![], 8, WRITE_ONE);
    bench.all([write(0x0E, 2, ABORT_BUSY), write(0x2F, 1, 4)]);
    assert_eq!(bench.state(), 0x01FF_0001);
    bench.done(good());
    assert_eq!(bench.state(), 0x01FF_0000);
    bench.refused(7, busy_over());
}

#[test]
fn a48_without_multi_the_block_count_stays() {
    for mode in [0x01, 0x03] {
        let command = WRITE_ONE & !0xFF | mode;
        let mut bench = Bench::running(example_memory(), vec![], 8 | 5 << 16, command);
        bench.all([turn(), turn()]);
        assert_eq!(bench.seen(taken()).raised, TRANSFER_COMPLETE);
        assert_eq!(bench.count(), 5);
    }
}

#[test]
fn a49_with_multi_the_block_count_falls() {
    let lines = [line(TRAN | END, 8, 8)];
    let mut bench = Bench::running(table(16, &lines), vec![7; 8], 4 | 2 << 16, READ_MANY);
    assert_eq!(bench.done(given()), 4);
    assert_eq!(bench.count(), 1);
    bench.refused(7, given());
    bench.all([turn(), turn(), given()]);
    assert_eq!(bench.count(), 0);
    bench.refused(7, given());
    assert_eq!(bench.0.card_left(), 0);
    assert_eq!(bench.seen(turn()).raised, TRANSFER_COMPLETE);
    assert_eq!(bench.word(0x04), 4);
    assert_eq!(bench.0.memory()[8..], [7; 8]);
}

#[test]
fn a50_a_command_without_response_waits_for_good() {
    let mut bench = Bench::ready(vec![], vec![]);
    bench.done(write(0x0E, 2, SILENT));
    assert_eq!(bench.state(), 0x01FF_0001);
    for number in 1..=5 {
        bench.refused(7, failed(number));
    }
    assert_eq!(
        bench.seen(response(0, [9, 9, 9, 9])).raised,
        COMMAND_COMPLETE
    );
    assert_eq!((bench.word(0x10), bench.word(0x1C)), (0, 0));
}

#[test]
fn a52_a_level_may_repeat() {
    let mut bench = Bench::ready(vec![], vec![]);
    bench.all([level(0), level(1), level(1)]);
    assert_eq!(bench.status(), CARD_INTERRUPT);
    bench.refused(7, card_in());
    bench.done(card_out());
    bench.refused(7, card_out());
    bench.refused(7, level(0));
}

#[test]
fn a53_card_out_halts_and_clears_only_its_bits() {
    let mut bench = Bench::issued(example_memory(), vec![], 8 | 2 << 16, WRITE_MANY);
    bench.all([write(0x2D, 1, 0x80), write(0x58, 4, 0x20), level(1)]);
    assert_eq!(bench.seen(card_out()).raised, 0x80);
    assert_eq!(bench.word(0x28), 0x0E10);
    assert_eq!(bench.word(0x2C), 0x8003);
    assert_eq!(bench.state(), 0x01FA_0107);
    assert_eq!((bench.count(), bench.at(), bench.status()), (2, 0x20, 0x80));
    bench.done(card_in());
    assert_eq!(bench.state(), 0x01FF_0107);
    bench.refused(7, good());
    bench.refused(10, turn());
    bench.done(write(0x2F, 1, 2));
    assert_eq!(bench.state(), 0x01FF_0106);
    bench.done(write(0x2F, 1, 4));
    assert_eq!(bench.state(), 0x01FF_0000);
}

#[test]
fn a54_which_response_errors_fit() {
    for checks in [0x00, 0x08, 0x10, 0x18] {
        for response_type in 1..=3 {
            let command = 0x0D00 | checks | response_type;
            let mut bench = Bench::ready(vec![], vec![]);
            bench.done(write(0x0E, 2, command));
            for number in 1..=4u8 {
                let fits = match number {
                    2 => checks & 0x08 != 0,
                    4 => checks & 0x10 != 0,
                    _ => true,
                };
                let mut bench = bench.clone();
                if fits {
                    let raised = bench.seen(failed(number)).raised;
                    assert_eq!(raised, 0x8000 | 0x8000 << number);
                } else {
                    bench.refused(7, failed(number));
                }
            }
        }
    }
}

#[test]
fn a55_a_response_error_stores_nothing_and_halts() {
    let mut bench = Bench::issued(example_memory(), vec![], 8, READ_ONE);
    let seen = bench.seen(response(3, [1, 2, 3, 4]));
    assert_eq!(seen.raised, 0x0004_8000);
    assert_eq!((bench.word(0x10), bench.state()), (0, 0x01FF_0207));
    bench.refused(7, good());
    bench.refused(7, given());
    bench.done(write(0x2F, 1, 2));
    assert_eq!(bench.state(), 0x01FF_0206);
    assert_eq!(bench.status(), 0x0004_8000);
}

#[test]
fn a56_a_long_response_keeps_its_last_byte() {
    let mut bench = Bench::ready(vec![], vec![]);
    let words = [0x1111_1111, 0x2222_2222, 0x3333_3333, 0x4444_4444];
    bench.all([write(0x0E, 2, LONG), response(0, words)]);
    let stored = [0x10, 0x14, 0x18, 0x1C].map(|at| bench.word(at));
    assert_eq!(stored, [0x1111_1111, 0x2222_2222, 0x3333_3333, 0x0044_4444]);
    bench.all([write(0x0E, 2, BUSY), response(0, [5, 6, 7, 8])]);
    let stored = [0x10, 0x14, 0x18, 0x1C].map(|at| bench.word(at));
    assert_eq!(stored, [5, 0x2222_2222, 0x3333_3333, 0x0044_4444]);
}

#[test]
fn a57_a_failing_command_leaves_an_earlier_transfer() {
    let mut bench = Bench::running(example_memory(), vec![], 8, WRITE_ONE);
    bench.all([turn(), write(0x0E, 2, PLAIN), failed(4)]);
    assert_eq!(bench.state(), 0x01FF_0107);
    assert!(bench.0.running());
    bench.done(turn());
    assert_eq!(bench.seen(taken()).raised, TRANSFER_COMPLETE);
    let mut busy = Bench::running(vec![], vec![], 8, BUSY << 16);
    busy.all([write(0x0E, 2, PLAIN), failed(1), busy_over()]);
    assert_eq!(busy.state(), 0x01FF_0001);
}

#[test]
fn a57_a_later_good_response_sets_nothing_going() {
    let mut bench = Bench::issued(example_memory(), vec![], 8, WRITE_ONE);
    bench.all([write(0x2F, 1, 2), write(0x0E, 2, PLAIN), good()]);
    assert_eq!(bench.state(), 0x01FF_0106);
    bench.refused(10, turn());
    bench.refused(7, data_error(0));
}

#[test]
fn a58_a_transfer_runs_until_it_completes() {
    let mut bench = Bench::running(example_memory(), vec![], 8, WRITE_ONE);
    bench.all([turn(), turn()]);
    assert!(bench.0.running());
    assert_eq!(bench.seen(data_error(2)).raised, 0x0040_8000);
    bench.refused(7, taken());
    let mut bench = Bench::running(example_memory(), vec![1; 8], 8, READ_ONE);
    bench.all([given(), data_error(1)]);
    assert_eq!(bench.status(), 0x0020_8001);
}

#[test]
fn a59_data_errors_need_the_response() {
    let mut bench = Bench::issued(example_memory(), vec![], 8, WRITE_ONE);
    bench.refused(7, data_error(0));
    let mut busy = Bench::issued(vec![], vec![], 8, BUSY << 16);
    busy.refused(7, data_error(0));
    busy.done(good());
    busy.refused(7, data_error(1));
    busy.refused(7, data_error(2));
    assert_eq!(busy.seen(data_error(0)).raised, 0x0010_8000);
    busy.refused(7, busy_over());
    assert_eq!(busy.state(), 0x01FF_0006);
}

#[test]
fn a60_a_data_error_leaves_a_waiting_command() {
    let mut bench = Bench::running(example_memory(), vec![], 8, WRITE_ONE);
    bench.all([write(0x0E, 2, PLAIN), data_error(0)]);
    assert_eq!(bench.state(), 0x01FF_0107);
    bench.done(good());
    assert_eq!(bench.state(), 0x01FF_0106);
}

#[test]
fn a62_a_taken_block_fills_the_first_bytes_of_the_room() {
    let lines = [line(TRAN | END, 8, 16), line(TRAN | END, 4, 32)];
    let mut bench = Bench::running(table(64, &lines), vec![], 8, WRITE_ONE);
    bench.all([turn(), turn()]);
    assert_eq!(bench.done(taken()), 8);
    assert_eq!(bench.0.taken()[..9], [16, 17, 18, 19, 20, 21, 22, 23, 0]);
    bench.all([write(0x04, 4, 4), write(0x0C, 4, WRITE_ONE), good()]);
    bench.all([turn(), turn()]);
    assert_eq!(bench.done(taken()), 4);
    assert_eq!(bench.0.taken()[..9], [32, 33, 34, 35, 20, 21, 22, 23, 0]);
}

#[test]
fn a92_what_is_left_of_the_card_serves_a_smaller_block() {
    let lines = [line(TRAN | END, 8, 16)];
    let mut memory = table(24, &lines);
    memory[8..16].copy_from_slice(&line(TRAN | END, 3, 16));
    let card = (1..=11).collect();
    let mut bench = Bench::running(memory, card, 8, READ_ONE);
    bench.all([given(), turn(), turn()]);
    assert_eq!(bench.0.card_left(), 3);
    bench.all([write(0x58, 4, 0), write(0x0C, 4, READ_ONE), good()]);
    bench.refused(8, given());
    bench.all([write(0x2F, 1, 4), write(0x04, 4, 3), write(0x58, 4, 8)]);
    bench.all([write(0x0C, 4, READ_ONE), good()]);
    assert_eq!(bench.done(given()), 3);
    bench.all([turn(), turn()]);
    assert_eq!(bench.0.memory()[16..], [9, 10, 11, 4, 5, 6, 7, 8]);
    bench.all([write(0x0C, 4, READ_ONE), good()]);
    bench.refused(8, given());
    assert_eq!(bench.0.card_left(), 0);
}
