//! The worked example, byte for byte, through the library and through the program.

mod common;

use std::io::Write;
use std::process::{Command, Output, Stdio};

use common::*;
use reference::{encode, parse, run, Machine};

const OUTPUT: &str = "\
steps 17
0 0 00000000 0
1 0 00000000 0
2 0 00000000 0
3 0 00000000 0
4 0 00000000 0
5 0 00000000 0
6 0 00000000 0
7 0 00000000 0
8 0 00000000 0
9 0 01FF0107 0
10 0 00000000 0
11 0 00000000 0
12 0 00000008 0
13 0 00000008 1
14 0 00000003 1
15 0 00000000 1
16 0 00000000 0
";

fn program() -> Command {
    Command::new(env!("CARGO_BIN_EXE_reference"))
}

fn program_on(input: &[u8]) -> Output {
    let mut child = program()
        .stdin(Stdio::piped())
        .stdout(Stdio::piped())
        .spawn()
        .unwrap();
    child.stdin.take().unwrap().write_all(input).unwrap();
    child.wait_with_output().unwrap()
}

#[test]
fn the_library_prints_it() {
    assert_eq!(run(&encode(&example_run())), OUTPUT);
}

#[test]
fn the_file_is_laid_out_as_the_paper_says() {
    let bytes = encode(&example_run());
    assert_eq!(bytes.len(), 4 + 24 + 4 + 17 * 20 + 4);
    assert_eq!(bytes[..12], [24, 0, 0, 0, 0x23, 0, 8, 0, 0x10, 0, 0, 0]);
    assert_eq!(bytes[28..32], [17, 0, 0, 0]);
    let issue = &bytes[32 + 8 * 20..][..20];
    let expected = [
        0, 4, 0x0C, 0, 1, 0, 0x3A, 0x18, 0, 0, 0, 0, 0, 0, 0, 0, 0, 0, 0, 0,
    ];
    assert_eq!(issue, expected);
    assert_eq!(bytes[bytes.len() - 4..], [0, 0, 0, 0]);
    assert_eq!(parse(&bytes), Some(example_run()));
}

#[test]
fn the_block_reaches_the_card() {
    let file = example_run();
    let mut machine = Machine::new(file.memory, file.card);
    let raised: Vec<u32> = file
        .steps
        .iter()
        .map(|step| machine.step(step).raised)
        .collect();
    assert_eq!(
        machine.taken()[..8],
        [0x11, 0x22, 0x33, 0x44, 0x55, 0x66, 0x77, 0x88]
    );
    assert!(machine.taken()[8..].iter().all(|byte| *byte == 0));
    assert_eq!(machine.taken().len(), 512);
    assert_eq!(raised[10], COMMAND_COMPLETE);
    assert_eq!(raised[13], TRANSFER_COMPLETE);
    assert_eq!(raised.iter().filter(|raised| **raised != 0).count(), 2);
    assert!(!machine.running());
}

#[test]
fn the_program_reads_standard_input() {
    let output = program_on(&encode(&example_run()));
    assert!(output.status.success());
    assert_eq!(String::from_utf8(output.stdout).unwrap(), OUTPUT);
    let output = program_on(b"no run file");
    assert!(output.status.success());
    assert_eq!(output.stdout, b"bad file\n");
}

#[test]
fn the_program_opens_a_named_file() {
    let name = format!("{}/worked_example.run", env!("CARGO_TARGET_TMPDIR"));
    std::fs::write(&name, encode(&example_run())).unwrap();
    let output = program().arg(&name).output().unwrap();
    assert!(output.status.success());
    assert_eq!(String::from_utf8(output.stdout).unwrap(), OUTPUT);
}

#[test]
fn the_program_says_which_file_it_cannot_open() {
    let name = format!("{}/not_there.run", env!("CARGO_TARGET_TMPDIR"));
    let output = program().arg(&name).output().unwrap();
    assert_eq!(output.status.code(), Some(2));
    assert!(output.stdout.is_empty());
    let message = String::from_utf8(output.stderr).unwrap();
    assert!(message.contains("cannot open") && message.contains("not_there.run"));
}
