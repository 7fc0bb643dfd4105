//! Many runs of random steps: none may panic, and what always holds has to hold.

mod common;

use common::*;
use reference::{boot_check, encode, parse, run, survey, Machine, RunFile, Step};

/// A small generator, so that every run can be repeated.
struct Dice(u64);

impl Dice {
    fn next(&mut self) -> u32 {
        self.0 ^= self.0 << 13;
        self.0 ^= self.0 >> 7;
        self.0 ^= self.0 << 17;
        (self.0 >> 32) as u32
    }

    fn below(&mut self, limit: u32) -> u32 {
        self.next() % limit
    }

    fn one_of<T: Clone>(&mut self, choices: &[T]) -> T {
        let index = self.below(choices.len() as u32) as usize;
        choices[index].clone()
    }
}

fn random_line(dice: &mut Dice) -> [u8; 8] {
    let first = dice.one_of(&[
        TRAN,
        TRAN,
        TRAN | END,
        LINK,
        NOP,
        NOP | END,
        0x27,
        0x20,
        0x35,
    ]);
    let length = dice.one_of(&[4, 8, 8, 16, 3, 0, 512, 0xFFFF]);
    let address = dice.one_of(&[0, 8, 16, 32, 63, 64, 120, 0xFFFF_FFFC]);
    line(first, length, address)
}

fn random_write(dice: &mut Dice) -> Step {
    let places = [
        write(
            0x04,
            4,
            dice.one_of(&[8, 8 | 2 << 16, 4 | 4 << 16, 1, 0x7200, 513]),
        ),
        write(
            0x0C,
            4,
            dice.one_of(&[WRITE_ONE, READ_ONE, WRITE_MANY, READ_MANY]),
        ),
        write(
            0x0C,
            4,
            dice.one_of(&[WRITE_ONE, READ_ONE, WRITE_MANY, READ_MANY]),
        ),
        write(
            0x0E,
            2,
            dice.one_of(&[PLAIN, BUSY, SILENT, LONG, ABORT, ABORT_BUSY]),
        ),
        write(0x28, 1, 0x10),
        write(0x29, 1, dice.one_of(&[0x0F, 0x0F, 0x0D])),
        write(0x2C, 2, dice.one_of(&[5, 5, 4])),
        write(0x2F, 1, dice.below(16)),
        write(0x30, 4, dice.next()),
        write(0x34, 4, dice.next() | dice.next()),
        write(0x38, 4, dice.next()),
        write(0x52, 2, dice.below(1 << 16)),
        write(0x58, 4, dice.one_of(&[0, 8, 16, 24, 120, 4096])),
        write(dice.below(0x110) as u16, 1, dice.below(0x101)),
        write(dice.below(0x88) as u16 * 2, 2, dice.below(0x1_0001)),
        write(dice.below(0x44) as u16 * 4, 4, dice.next()),
    ];
    dice.one_of(&places)
}

fn random_step(dice: &mut Dice) -> Step {
    match dice.below(24) {
        0..=6 => random_write(dice),
        7 => read(dice.below(0x104) as u16, dice.one_of(&[1, 2, 4, 3])),
        8 => card_in(),
        9 if dice.below(4) == 0 => card_out(),
        9..=12 => good(),
        13 => response(dice.below(6) as u8, [dice.next(), 1, 2, 3]),
        14..=15 => given(),
        16..=17 => taken(),
        18 => busy_over(),
        19 if dice.below(3) == 0 => data_error(dice.below(4) as u8),
        19 => level(dice.below(2) as u8),
        _ => turn(),
    }
}

fn random_run(dice: &mut Dice) -> RunFile {
    let lines: Vec<[u8; 8]> = (0..8).map(|_| random_line(dice)).collect();
    let length = dice.below(200) as usize;
    let mut memory = table(length, &lines);
    memory.truncate(length.max(60));
    let mut steps = vec![
        card_in(),
        write(0x2C, 2, 5),
        write(0x29, 1, 0x0F),
        write(0x28, 1, 0x10),
        write(0x34, 4, 0x03FF_01FF),
        write(0x04, 4, 8 | 2 << 16),
    ];
    steps.extend((0..300).map(|_| random_step(dice)));
    let card = (0..dice.below(300)).map(|byte| byte as u8).collect();
    RunFile {
        memory,
        steps,
        card,
    }
}

/// What holds after any step of any run.
fn check_step(machine: &mut Machine, step: &Step) -> u32 {
    let before = machine.clone();
    let seen = machine.step(step);
    if seen.answer != 0 {
        assert!(*machine == before && seen.value == 0, "{step:?}");
    }
    let (state, status) = (machine.peek(0x24), machine.peek(0x30));
    assert_eq!(state & 0x01FA_0000, 0x01FA_0000);
    assert_eq!(state & !0x01FF_0307, 0);
    assert_eq!(state >> 1 & 1, state >> 2 & 1);
    assert!(state & 0x300 != 0x300);
    assert!(!machine.running() || state & 0x300 != 0);
    assert_eq!(status & !0x03FF_81FF, 0);
    assert_eq!(status & 0x8000 != 0, status >> 16 != 0);
    assert_eq!(status & !0x8000 & !machine.peek(0x34), 0);
    let line = status & !0x8000 & machine.peek(0x38) != 0;
    assert_eq!(
        (seen.line, machine.peek(0xFC)),
        (line, 0x0001_0000 | u32::from(line))
    );
    assert_eq!(seen.raised, status & !before.peek(0x30));
    assert_eq!(machine.memory().len(), before.memory().len());
    seen.answer
}

#[test]
fn random_runs_keep_what_always_holds() {
    let mut dice = Dice(0x9E37_79B9_7F4A_7C15);
    let mut met = [0u32; 12];
    for _ in 0..300 {
        let file = random_run(&mut dice);
        let bytes = encode(&file);
        assert_eq!(parse(&bytes).as_ref(), Some(&file));
        let text = run(&bytes);
        assert_eq!(text.lines().count(), file.steps.len() + 1);
        let mut machine = Machine::new(file.memory, file.card);
        for step in &file.steps {
            met[check_step(&mut machine, step) as usize] += 1;
        }
    }
    let missing: Vec<usize> = (0..11).filter(|answer| met[*answer] == 0).collect();
    assert!(missing.is_empty(), "answers never met: {missing:?}");
}

#[test]
fn random_bytes_are_judged_without_panic() {
    let mut dice = Dice(77);
    for _ in 0..2_000 {
        let length = dice.below(80);
        let bytes: Vec<u8> = (0..length).map(|_| dice.below(4) as u8).collect();
        let text = run(&bytes);
        assert_eq!(text == "bad file\n", parse(&bytes).is_none());
    }
}

#[test]
fn random_surveys_stay_in_their_bounds() {
    let mut dice = Dice(4_242);
    let mut kinds = [0; 3];
    for _ in 0..5_000 {
        let lines: Vec<[u8; 8]> = (0..8).map(|_| random_line(&mut dice)).collect();
        let memory = table(dice.below(1_000) as usize, &lines);
        let owed = dice.one_of(&[0, 4, 8, 16, 24, 40, 512, u32::MAX]);
        let start = dice.one_of(&[0, 1, 8, 16, 999, u32::MAX]);
        let limit = dice.one_of(&[0, 1, 2, 64, 4_096]);
        let found = survey(&memory, start, owed, limit);
        assert_eq!(found.answer, 0);
        assert!(found.bytes <= owed && found.after.is_multiple_of(4));
        let allowed = if limit == 0 { 64 } else { limit };
        assert!((1..=allowed).contains(&found.lines));
        assert_eq!(found.kind == 1, found.state != 0);
        assert!(found.kind != 0 || found.bytes == owed);
        assert!(found.kind != 2 || found.lines == allowed);
        let yes = survey(&memory, start, owed, 0).kind == 0;
        assert_eq!(boot_check(&memory, start, owed), (0, yes));
        kinds[found.kind as usize] += 1;
    }
    assert!(kinds.iter().all(|met| *met > 0));
}
