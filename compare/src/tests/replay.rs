//! The script's own rules.

use super::{many, x, Play};
use crate::answer::{replay, LINE};

#[track_caller]
fn answers(script: &[u8], wanted: &str) {
    let mut output = Vec::new();
    replay(&mut &script[..], &mut output).unwrap();
    assert_eq!(String::from_utf8(output).unwrap(), wanted);
}

#[test]
fn one_line_for_each() {
    answers(b"", "");
    answers(b"\n", "?\n");
    answers(b"log 1024 0\n\nreader\ngoal\n", "log\n?\nreader 0\n?\n");
    answers(b"console 1 2\r\n", "?\n");
    answers(b"\xff\xfe\n\0\n", "?\n?\n");
    answers(b"console 1 2\nconsole 2 1", "yes\nno\n");
}

#[test]
fn lines_up_to_40000_bytes() {
    let mut line = b"line ".to_vec();
    line.resize(LINE - 1, b'0');
    answers(&[&line[..], b"\n"].concat(), "2\n");
    line.push(b'0');
    answers(&[&line[..], b"\n"].concat(), "?\n");
    line.push(b'0');
    answers(&[&line[..], b"\nconsole 1 2\n"].concat(), "?\nyes\n");
}

#[test]
fn nothing_is_there_before_it_is_made() {
    let mut play = Play::new(&[]);
    play.all(
        &[
            "numbers",
            "check",
            "peek 0 1",
            "poke 0 00",
            "number start 0",
            "outside 0 -",
            "box 1 1 0 - -",
            "reader",
            "at 0 0",
            "where 0",
            "read 0 0",
            "seek 0 0 0",
            "command 0 0 1 0 0",
            "minimum 1",
            "number minimum 1",
            "number saved -",
            "slot 16",
            "deliver -",
        ],
        "?",
    );
    play.is("line -", "3");
    play.is("console 0 1", "yes");
}

#[test]
fn words_that_are_none() {
    let mut play = Play::new(&["log 1024 7", "reader", "board 0"]);
    play.all_unmoved(
        &[
            "",
            " ",
            "log",
            "log 1024",
            "log 70001 0",
            "log 1024 256",
            "log -1 0",
            "log 1024 0 0",
            " numbers",
            "numbers ",
            "number goal 0",
            "number start",
            "number start 18446744073709551616",
            "number start -1",
            "number minimum -",
            "number minimum -1",
            "number minimum 18446744073709551616",
            "number saved",
            "number saved --",
            "number saved -1",
            "number saved 18446744073709551616",
            "number console -",
            "minimum",
            "minimum -",
            "minimum 1 1",
            "minimum +1",
            "minimum 9223372036854775808",
            "minimum -9223372036854775809",
            "poke 0 0",
            "poke 0 FF",
            "poke 0 ",
            "poke 0 --",
            "outside 0  61",
            "outside -1 -",
            "at 1 0",
            "where 1",
            "where -1",
            "read 1 0",
            "read 0 5001",
            "seek 1 0 0",
            "seek 0 x 0",
            "seek 0 - 0",
            "seek 0 9223372036854775808 0",
            "seek 0 0 2147483648",
            "command 2147483648 0 1 0 0",
            "command 0 -2147483649 1 0 0",
            "command 0 0 2 0 0",
            "command 0 0 0 2 0",
            "command 0 0 1 0 300001",
            "slot 15",
            "slot 24",
            "board 256",
            "Check",
        ],
        "?",
    );
    play.is("slot 16", "nothing 0");
}

#[test]
fn readers() {
    let mut play = Play::new(&["log 1024 0"]);
    play.is("number first 9", "set");
    for i in 0..16 {
        play.is("reader", &format!("reader {i}"));
    }
    play.is("reader", "?");
    play.is("where 15", "9");
    play.is("at 15 18446744073709551615", "set");
    play.is("where 15", "18446744073709551615");
    play.is("log 1024 0", "log");
    play.is("where 0", "?");
    play.is("reader", "reader 0");
}

#[test]
fn peeks_and_pokes_reach_as_far_as_the_buffer() {
    let mut play = Play::new(&["log 1024 7"]);
    play.is("peek 1022 9", "0707");
    play.is("peek 1024 9", "-");
    play.is("peek 18446744073709551615 18446744073709551615", "-");
    play.is("peek 0 0", "-");
    play.is("peek 0 18446744073709551615", &many(7, 1024));
    play.is("poke 1022 010203", "poked");
    play.is("peek 1020 9", "07070102");
    play.is("poke 18446744073709551615 010203", "poked");
    play.is("poke 1024 05", "poked");
    play.is("poke 0 -", "poked");
    play.is("peek 0 2", "0707");
    let mut play = Play::new(&["log 0 7"]);
    play.is("poke 0 01", "poked");
    play.is("peek 0 1", "-");
}

#[test]
fn numbers_set_by_hand() {
    let mut play = Play::new(&["log 1024 0"]);
    for (i, name) in [
        "start", "used", "first", "next", "clear", "position", "offset", "console", "minimum",
        "saved",
    ]
    .iter()
    .enumerate()
    {
        play.is(&format!("number {name} {}", 10 + i), "set");
    }
    play.is("numbers", "10 11 12 13 14 15 16 17 18 19");
    play.is("number saved -", "set");
    play.is("numbers", "10 11 12 13 14 15 16 17 18 -");
}

#[test]
fn a_board_stays_when_a_log_comes() {
    let mut play = Play::new(&["board 0"]);
    play.is(&format!("deliver {}", x("134,9,3,-;0-0\n")), "0");
    play.is("log 1024 0", "log");
    play.is("slot 16", &format!("9 3 {}", x("0-0")));
    play.is("board 1", "board");
    play.is("slot 16", "nothing 0");
}
