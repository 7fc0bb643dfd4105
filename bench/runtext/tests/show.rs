//! A run in words: what the worked example and some refusals say.

use runtext::{show, to_file};

fn shown(text: &str) -> Vec<String> {
    let file = to_file(text).expect("a text");
    show(&file).lines().map(str::to_string).collect()
}

fn said(line: &str, parts: &[&str]) {
    for part in parts {
        assert!(line.contains(part), "`{part}` is missing in: {line}");
    }
}

#[test]
fn the_worked_example_in_words() {
    let lines = shown(include_str!("../../runs/paper.txt"));
    assert_eq!(lines[0], "memory 24 bytes, 17 steps, card 0 bytes");
    said(&lines[1], &["0 0 00000000 0 ", "in"]);
    said(
        &lines[9],
        &[
            "(mode, command)",
            "CMD24, normal",
            "write 1 block of 8 bytes",
        ],
    );
    said(
        &lines[10],
        &[
            "9 0 01FF0107 0 ",
            "CMD inhibited, DAT inhibited, write, card in",
        ],
    );
    said(
        &lines[11],
        &["response good 900h", "raises Command Complete"],
    );
    said(&lines[13], &["turn", "8 bytes"]);
    said(
        &lines[14],
        &["13 0 00000008 1 ", "raises Transfer Complete"],
    );
    said(
        &lines[15],
        &["(status)", "Command Complete, Transfer Complete"],
    );
    said(&lines[16], &["acknowledges Command Complete"]);
}

#[test]
fn refusals_say_why() {
    let lines = shown("turn\nout\nread 0FFh/2\nwrite 00Eh/2 0\n");
    said(&lines[1], &["0 10 ", "refused: no transfer"]);
    said(&lines[2], &["1 7 ", "refused: event out of turn"]);
    said(&lines[3], &["2 1 ", "refused: the access names no place"]);
    said(&lines[4], &["3 5 ", "CMD0", "refused: SD Clock Enable"]);
}

#[test]
fn resets_forced_bits_and_faults_are_named() {
    let ready = "in\nwrite 02Ch/2 5\nwrite 029h/1 0Fh\nwrite 028h/1 10h\nwrite 034h/4 0FFFFFFFFh\n";
    let rest = "write 004h/2 8\nwrite 00Ch/4 183A0001h\nresponse good\nturn\nread 054h/1\n\
                write 02Ch/4 6000000h\nwrite 052h/2 1\n";
    let lines = shown(&format!("{ready}{rest}"));
    said(
        &lines[9],
        &[
            "turn",
            "raises Error Interrupt, ADMA Error",
            "ADMA error state 01",
        ],
    );
    said(&lines[10], &["(adma-error)", "state 01"]);
    said(
        &lines[11],
        &["(clock, timeout, reset)", "reset of CMD and DAT"],
    );
    said(
        &lines[12],
        &[
            "(force)",
            "forces Command Timeout",
            "raises Command Timeout",
        ],
    );
}
