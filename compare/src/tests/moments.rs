//! The moments to try.

use super::{many, x, Play};

fn first_goal() -> Play {
    let mut play = Play::new(&["log 1024 165", "reader"]);
    play.is(
        &format!("outside 5000999 {}", x("<134>GOAL home 1")),
        "16 0",
    );
    play
}

#[test]
fn t1() {
    let mut play = first_goal();
    play.is("numbers", "0 43 0 1 0 0 0 7 1 -");
    let bytes = concat!(
        "274f4c0000000000",
        "0000000000000000",
        "0b00",
        "0000",
        "8600",
        "2d",
        "00",
        "00000000",
        "00000000",
        "474f414c20686f6d652031",
        "a5"
    );
    play.is("peek 0 44", bytes);
    let line = x("134,0,5000,-,caller=0;GOAL home 1\n");
    play.is("read 0 33", "-22 0 -");
    play.is("read 0 34", &format!("34 0 {line}"));
    play.is("where 0", "1");
}

#[test]
fn t2() {
    let mut play = first_goal();
    play.is("command 9 0 1 0 0", "17 -");
    play.is("command 2 5 1 0 5", &format!("5 {}", x("<134>")));
    play.is("command 9 0 1 0 0", "12 -");
    play.is("numbers", "0 43 0 1 0 0 5 7 1 -");
}

#[test]
fn t3_and_t4() {
    let mut play = first_goal();
    play.is("command 2 5 1 0 5", "5 3c3133343e");
    play.is("command 3 4 1 0 4", &format!("4 {}", x("e 1\n")));
    play.is("command 5 0 1 0 0", "0 -");
    play.is("command 3 100 1 0 100", "0 -");
    play.is("command 9 0 1 0 0", "12 -");
}

/// The prefix of the one record that these bytes make, with the line after it.
fn line_of(handed: &str) -> String {
    let mut play = Play::new(&["log 1024 0", "reader"]);
    let count = if handed == "-" { 0 } else { handed.len() / 2 };
    play.is(&format!("outside 0 {handed}"), &format!("{count} 0"));
    play.ask("read 0 5000")
}

fn read_of(line: &str) -> String {
    format!("{} 0 {}", line.len(), x(line))
}

#[test]
fn t5_to_t8() {
    assert_eq!(line_of(&x("<3>x")), read_of("11,0,0,-,caller=0;x\n"));
    assert_eq!(line_of(&x("<2047>x")), read_of("2047,0,0,-,caller=0;x\n"));
    assert_eq!(
        line_of(&x("<2048>x")),
        read_of("12,0,0,-,caller=0;<2048>x\n")
    );
    assert_eq!(line_of("-"), read_of("12,0,0,-,caller=0;\n"));
    assert_eq!(line_of("0a0a"), read_of("12,0,0,-,caller=0;\\x0a\n"));
}

#[test]
fn t9() {
    assert_eq!(
        line_of("7e7f5c"),
        read_of("12,0,0,-,caller=0;~\\x7f\\x5c\n")
    );
}

#[test]
fn t10() {
    let mut play = Play::new(&["log 1024 0", "reader"]);
    play.is("outside 999 61", "1 0");
    play.is("outside 1000 61", "1 0");
    play.is("read 0 5000", &read_of("12,0,0,-,caller=0;a\n"));
    play.is("read 0 5000", &read_of("12,1,1,-,caller=0;a\n"));
}

#[test]
fn t11_and_t12() {
    let mut play = Play::new(&["log 1024 0", "reader"]);
    for _ in 0..32 {
        play.is("outside 0 -", "0 0");
    }
    play.is("numbers", "0 1024 0 32 0 0 0 7 1 -");
    play.is("outside 0 -", "0 1");
    play.is("numbers", "32 1024 1 33 0 0 0 7 1 -");
    play.is("read 0 5000", "-32 1 -");
    play.is("where 0", "1");
    play.is("read 0 5000", &read_of("12,1,0,-,caller=0;\n"));

    play.is(&format!("outside 0 {}", many(b'p', 960)), "960 31");
    // Started at 32, moved past 31 records of 32; one empty record and the new one are left.
    play.is("numbers", "0 1024 32 34 0 0 0 7 1 -");
    play.is(&format!("outside 0 {}", many(b'p', 961)), "-22 0");
    play.is("check", "fine");
}

#[test]
fn t13() {
    let mut play = Play::new(&[]);
    let text = "NET: Registered protocol family 10";
    let wanted = format!("0 6 339 5140900 0 {} -", x(text));
    let plain = format!("6,339,5140900,-;{text}\n");
    let newer = format!("6,339,5140900,-,caller=T1;{text}\n");
    play.is(&format!("line {}", x(&plain)), &wanted);
    play.is(&format!("line {}", x(&newer)), &wanted);
}

#[test]
fn t14_to_t16() {
    let mut play = Play::new(&["board 7"]);
    play.is(&format!("deliver {}", x("134,7,1,-;1-0\n")), "0");
    play.is("slot 16", &format!("7 3 {}", x("1-0")));
    play.is(&format!("deliver {}", x("134,9,3,-;0-0\n")), "0");
    play.is("slot 16", &format!("9 3 {}", x("0-0")));
    play.is(&format!("deliver {}", x("134,8,2,-;1-0\n")), "10");
    play.is("slot 16", &format!("9 3 {}", x("0-0")));
    for channel in 17..24 {
        play.is(&format!("slot {channel}"), "nothing 0");
    }
}

#[test]
fn console_levels_and_odd_seeks() {
    let mut play = first_goal();
    play.is("command 8 0 1 0 0", "-22 -");
    play.is("command 8 9 1 0 0", "-22 -");
    play.is("seek 0 1 1", "-29");
}
