//! Each number of the answer table, where it is given and where it is not, and their order.

mod common;

use common::*;

#[test]
fn answer_0_is_done() {
    let mut bench = Bench::bare(vec![], vec![]);
    assert_eq!(bench.done(read(0x40, 4)), 0x0108_32B2);
    bench.done(write(0x40, 4, 0));
    assert_eq!(bench.word(0x40), 0x0108_32B2);
}

#[test]
fn answer_1_for_what_names_no_place() {
    let mut bench = Bench::ready(vec![], vec![]);
    for width in [0, 3, 5, 8, 255] {
        bench.refused(1, read(0, width));
        bench.refused(1, write(0, width, 0));
    }
    for (offset, width) in [
        (1, 2),
        (2, 4),
        (0xFE, 4),
        (0xFF, 2),
        (0x100, 1),
        (0xFFFF, 1),
    ] {
        bench.refused(1, read(offset, width));
        bench.refused(1, write(offset, width, 0));
    }
    bench.refused(1, write(0x08, 1, 0x100));
    bench.refused(1, write(0x08, 2, 0x1_0000));
    bench.done(write(0x08, 1, 0xFF));
    bench.done(write(0x08, 2, 0xFFFF));
}

#[test]
fn answer_1_comes_before_the_others() {
    let mut bench = Bench::issued(example_memory(), vec![], 8, WRITE_ONE);
    bench.refused(1, write(0x04, 1, 0x100));
    bench.refused(1, write(0x0E, 2, 0x1_0000));
    bench.refused(1, write(0x0F, 1, 0x100));
    bench.refused(3, write(0x0F, 1, 0xFF));
}

#[test]
fn answer_2_for_writes_wholly_inside_the_guarded_places() {
    let mut bench = Bench::issued(example_memory(), vec![], 8, WRITE_ONE);
    for at in [4, 5, 6, 7, 0x0C, 0x0D] {
        bench.refused(2, write(at, 1, 0));
    }
    for at in [4, 6, 0x0C] {
        bench.refused(2, write(at, 2, 8));
    }
    bench.refused(2, write(4, 4, 8));
    bench.all([write(0x00, 4, 7), write(0x08, 4, 7), write(0x0E, 1, 0x1A)]);
    bench.all([write(0x2F, 1, 4), write(0x04, 4, 8), write(0x0C, 2, 1)]);
}

#[test]
fn answer_3_while_a_command_waits_or_is_halted() {
    let mut bench = Bench::ready(vec![], vec![]);
    bench.done(write(0x0E, 2, PLAIN));
    bench.refused(3, write(0x0E, 2, PLAIN));
    bench.refused(3, write(0x0E, 2, ABORT));
    bench.done(failed(1));
    bench.refused(3, write(0x0F, 1, 0));
    bench.done(card_out());
    bench.refused(3, write(0x0C, 4, 0));
    bench.done(write(0x2F, 1, 2));
    bench.refused(5, write(0x0C, 4, 0));
}

#[test]
fn answer_4_for_commands_that_need_dat() {
    let mut bench = Bench::running(example_memory(), vec![], 8, WRITE_ONE);
    bench.refused(4, write(0x0C, 4, READ_ONE));
    bench.refused(4, write(0x0E, 2, BUSY));
    bench.done(data_error(0));
    bench.refused(4, write(0x0E, 2, BUSY));
    bench.done(write(0x0E, 2, PLAIN));
}

#[test]
fn answer_4_comes_before_5_and_6() {
    let mut bench = Bench::running(example_memory(), vec![], 8, WRITE_ONE);
    bench.done(write(0x2C, 2, 1));
    bench.refused(4, write(0x0E, 2, BUSY | 0x40));
    bench.refused(5, write(0x0E, 2, PLAIN | 0x40));
    bench.done(write(0x2C, 2, 5));
    bench.refused(6, write(0x0E, 2, PLAIN | 0x40));
}

#[test]
fn answer_5_without_clock_or_power() {
    let mut bench = Bench::bare(vec![], vec![]);
    bench.refused(5, write(0x0E, 2, PLAIN));
    bench.done(card_in());
    bench.done(write(0x2C, 2, 5));
    bench.refused(5, write(0x0E, 2, PLAIN));
    bench.all([write(0x29, 1, 0x0F), write(0x2C, 2, 0)]);
    bench.refused(5, write(0x0E, 2, PLAIN));
    bench.refused(5, write(0x0E, 2, PLAIN | 0xC0 | 0x20));
    bench.done(write(0x2C, 2, 5));
    bench.done(write(0x0E, 2, PLAIN));
}

#[test]
fn answer_6_by_command_type_and_response() {
    let mut bench = Bench::ready(vec![], vec![]);
    bench.done(write(0x04, 4, 8));
    bench.refused(6, write(0x0E, 2, PLAIN | 0x40));
    bench.refused(6, write(0x0E, 2, PLAIN | 0x80));
    bench.refused(6, write(0x0C, 4, WRITE_ONE | 0x00C0_0000));
    for response in [0, 1, 3] {
        bench.refused(6, write(0x0C, 4, 0x1838_0001 | response << 16));
    }
    bench.done(write(0x0C, 4, WRITE_ONE));
}

#[test]
fn answer_6_by_transfer_mode() {
    let mut bench = Bench::ready(vec![], vec![]);
    bench.done(write(0x04, 4, 8));
    bench.refused(6, write(0x0C, 4, 0x183A_0000));
    bench.refused(6, write(0x0C, 4, 0x183A_0005));
    bench.refused(6, write(0x0C, 4, WRITE_MANY));
    bench.done(write(0x06, 2, 1));
    bench.refused(6, write(0x0C, 4, 0x183A_0021));
    for select in [0x00, 0x08, 0x18] {
        bench.done(write(0x28, 1, select));
        bench.refused(6, write(0x0C, 4, WRITE_MANY));
    }
    bench.done(write(0x28, 1, 0x17));
    bench.done(write(0x0C, 4, WRITE_MANY));
}

#[test]
fn answer_6_by_block_size() {
    let mut bench = Bench::ready(vec![], vec![]);
    for size in [0x0000, 0x0201, 0x0FFF, 0x7000] {
        bench.done(write(0x04, 4, size));
        bench.refused(6, write(0x0C, 4, WRITE_ONE));
    }
    bench.done(write(0x04, 4, 0xF001));
    assert_eq!(bench.word(0x04), 0x7001);
    bench.done(write(0x0C, 4, WRITE_ONE));
}

#[test]
fn answer_7_for_events_of_an_idle_slot() {
    let mut bench = Bench::bare(vec![], vec![1; 8]);
    for step in [card_out(), level(0), level(1)] {
        bench.refused(7, step);
    }
    bench.done(card_in());
    let idle = [
        card_in(),
        good(),
        given(),
        taken(),
        busy_over(),
        data_error(0),
    ];
    for step in idle {
        bench.refused(7, step);
    }
}

#[test]
fn answer_8_for_too_few_card_bytes() {
    let mut bench = Bench::running(example_memory(), vec![1; 7], 8, READ_ONE);
    bench.refused(8, given());
    assert_eq!(bench.0.card_left(), 7);
    let mut bench = Bench::issued(example_memory(), vec![1; 7], 8, READ_ONE);
    bench.refused(7, given());
}

#[test]
fn answer_9_before_the_response() {
    let mut bench = Bench::issued(example_memory(), vec![], 8, WRITE_ONE);
    bench.refused(9, turn());
    bench.done(good());
    bench.done(turn());
}

#[test]
fn answer_9_for_a_move_with_the_buffer_full_or_empty() {
    let lines = [line(TRAN | END, 16, 16)];
    let mut bench = Bench::running(table(32, &lines), vec![], 8 | 2 << 16, WRITE_MANY);
    bench.all([turn(), turn()]);
    bench.refused(9, turn());
    bench.done(taken());
    bench.done(turn());
    let mut bench = Bench::running(table(32, &lines), vec![9; 16], 8 | 2 << 16, READ_MANY);
    bench.done(turn());
    bench.refused(9, turn());
    bench.all([given(), turn()]);
    bench.refused(9, turn());
}

#[test]
fn answer_10_without_a_transfer() {
    let mut bench = Bench::ready(example_memory(), vec![]);
    bench.refused(10, turn());
    bench.done(write(0x0E, 2, BUSY));
    bench.refused(10, turn());
    bench.done(good());
    bench.refused(10, turn());
    let mut bench = Bench::running(example_memory(), vec![], 8, WRITE_ONE);
    bench.done(data_error(1));
    bench.refused(10, turn());
}

#[test]
fn answer_10_with_the_engine_stopped() {
    let mut bench = Bench::running(example_memory(), vec![], 8, WRITE_ONE);
    bench.all([turn(), turn()]);
    bench.refused(10, turn());
}

#[test]
fn answer_11_comes_before_10_and_9() {
    let large = vec![0; 16_777_217];
    let mut bench = Bench::bare(large.clone(), vec![]);
    bench.refused(11, turn());
    let mut bench = Bench::issued(large, vec![], 8, WRITE_ONE);
    bench.refused(11, turn());
    let mut bench = Bench::issued(vec![0; 16_777_216], vec![], 8, WRITE_ONE);
    bench.refused(9, turn());
}
