//! What the calls do when they are not refused.

use super::{many, x, Play};

fn played(records: &[&str]) -> Play {
    let mut play = Play::new(&["log 1024 0", "reader", "reader"]);
    for record in records {
        let count = record.len();
        play.is(&format!("outside 0 {}", x(record)), &format!("{count} 0"));
    }
    play
}

#[test]
fn prefixes_from_outside() {
    let cases = [
        ("<0>x", "8,0,0,-,caller=0;x\n"),
        ("<7>x", "15,0,0,-,caller=0;x\n"),
        ("<8>x", "8,0,0,-,caller=0;x\n"),
        ("<0007>x", "15,0,0,-,caller=0;x\n"),
        ("<00007>x", "12,0,0,-,caller=0;<00007>x\n"),
        ("<12345>x", "12,0,0,-,caller=0;<12345>x\n"),
        ("<>x", "12,0,0,-,caller=0;<>x\n"),
        ("<1", "12,0,0,-,caller=0;<1\n"),
        ("<", "12,0,0,-,caller=0;<\n"),
        ("<-1>x", "12,0,0,-,caller=0;<-1>x\n"),
        ("<1 >x", "12,0,0,-,caller=0;<1 >x\n"),
        ("<1><2>", "9,0,0,-,caller=0;<2>\n"),
        ("<134>\n", "134,0,0,-,caller=0;\n"),
        ("<134>\n\n", "134,0,0,-,caller=0;\\x0a\n"),
        ("x\r\n", "12,0,0,-,caller=0;x\\x0d\n"),
        ("\n", "12,0,0,-,caller=0;\n"),
    ];
    for (handed, line) in cases {
        let mut play = played(&[handed]);
        play.is("read 0 5000", &format!("{} 0 {}", line.len(), x(line)));
    }
}

#[test]
fn records_from_the_box_are_taken_as_they_come() {
    let mut play = Play::new(&["log 1024 0", "reader"]);
    play.is(
        &format!("box 0 3 1999 {} {}", x("x\n"), x("a=1\0b=\\")),
        "9 0",
    );
    let line = "3,0,1,-,caller=0;x\\x0a\n a=1\n b=\\x5c\n";
    play.is("read 0 5000", &format!("{} 0 {}", line.len(), x(line)));
    play.is("command 2 50 1 0 50", &format!("9 {}", x("<3>x\n<3>\n")));
    play.is("box 255 7 0 - -", "0 0");
    play.is(
        "read 0 5000",
        &format!("21 0 {}", x("2047,1,0,-,caller=0;\n")),
    );
    for good in ["a=", "a==", "a=1\0b=2", " =\0 ="] {
        let count = good.len();
        play.is(&format!("box 1 1 0 - {}", x(good)), &format!("{count} 0"));
    }
    play.is(&format!("box 1 1 0 {} 613d", many(b't', 958)), "960 6");
}

#[test]
fn the_box_may_write_zeros() {
    let mut play = Play::new(&["log 1024 0", "reader"]);
    play.is("box 1 4 0 00 -", "1 0");
    play.is(
        &format!("box 1 4 0 {} {}", x("a\0b"), x("a=1\0b=2")),
        "10 0",
    );
    // 33 and 42 bytes.
    play.is("numbers", "0 75 0 2 0 0 0 7 1 -");
    play.is(
        "read 0 5000",
        &format!("23 0 {}", x("12,0,0,-,caller=0;\\x00\n")),
    );
    let line = "12,1,0,-,caller=0;a\\x00b\n a=1\n b=2\n";
    play.is("read 0 5000", &format!("35 0 {}", x(line)));
    let forms = x("<12>\0\n<12>a\0b\n");
    play.is("command 3 99 1 0 99", &format!("14 {forms}"));
    play.is(&format!("box 1 4 0 {} -", many(0, 960)), "960 2");
    play.is("numbers", "75 992 2 3 0 0 0 7 1 -");
    play.is("check", "fine");
}

#[test]
fn a_record_runs_past_the_end_and_goes_on_at_the_start() {
    let mut play = Play::new(&["log 1024 165", "reader"]);
    let write = format!("outside 0 {} 4294967295", many(b'a', 944));
    play.is(&write, "944 0");
    play.is("numbers", "0 976 0 1 0 0 0 7 1 -");
    // 39 bytes at 976; there is room.
    play.is(&format!("outside 0 {}", x("bcdefgh")), "7 0");
    play.is("numbers", "0 1015 0 2 0 0 0 7 1 -");
    play.is(&format!("outside 3 {}", x("<134>ij")), "7 1");
    play.is("numbers", "976 73 1 3 0 0 0 7 1 -");
    play.is("peek 1015 9", "030000000000000002");
    play.is(
        "peek 0 25",
        concat!(
            "00000000000000",
            "0200",
            "0000",
            "8600",
            "2d00",
            "00000000",
            "00000000",
            "696a"
        ),
    );
    // What is left of the dropped record's heading stays: its caller.
    play.is("peek 25 4", "ffffff00");
    play.is("check", "fine");
    play.is("read 0 5000", "-32 1 -");
    play.is(
        "read 0 5000",
        &format!("26 0 {}", x("12,1,0,-,caller=0;bcdefgh\n")),
    );
    play.is(
        "read 0 5000",
        &format!("22 0 {}", x("134,2,0,-,caller=0;ij\n")),
    );
}

#[test]
fn time_may_go_back() {
    let mut play = Play::new(&["log 1024 0", "reader"]);
    play.is("outside 18446744073709551615 61", "1 0");
    play.is("outside 0 62", "1 0");
    let first = "12,0,18446744073709551,-,caller=0;a\n";
    play.is("read 0 5000", &format!("{} 0 {}", first.len(), x(first)));
    play.is(
        "read 0 5000",
        &format!("20 0 {}", x("12,1,0,-,caller=0;b\n")),
    );
}

#[test]
fn the_longest_line() {
    let mut play = Play::new(&["log 1024 0", "reader"]);
    play.is("number first 18446744073709551614", "set");
    play.is("number next 18446744073709551614", "set");
    play.is("at 0 18446744073709551614", "set");
    let write = format!(
        "box 255 7 18446744073709551615 {} - 0 4294967295",
        many(255, 960)
    );
    play.is(&write, "960 0");
    play.is("read 0 3904", "-22 0 -");
    let line = format!(
        "2047,18446744073709551614,18446744073709551,-,caller=4294967295;{}\n",
        "\\xff".repeat(960)
    );
    assert_eq!(line.len(), 3_905);
    play.is("read 0 3905", &format!("3905 0 {}", x(&line)));
}

#[test]
fn seeks() {
    let mut play = played(&["a", "b", "c"]);
    play.is("seek 0 0 2", "0");
    play.is("where 0", "3");
    play.is("seek 0 0 3", "0");
    play.is("where 0", "0");
    play.is("command 5 0 1 0 0", "0 -");
    play.is("outside 0 64", "1 0");
    play.is("seek 0 0 3", "0");
    play.is("where 0", "3");
    play.is("seek 0 0 0", "0");
    play.is("where 0", "0");
    play.is("where 1", "0");
}

#[test]
fn the_clear_mark_may_point_at_dropped_records() {
    let mut play = played(&["a"]);
    play.is("command 4 0 1 0 0", "0 -");
    play.is(&format!("outside 0 {}", many(b'b', 17)), "17 0");
    play.is(&format!("outside 0 {}", many(b'p', 960)), "960 2");
    play.is("numbers", "82 992 2 3 1 0 0 7 1 -");
    play.is("seek 0 0 3", "0");
    play.is("where 0", "1");
    play.is("read 0 5000", "-32 1 -");
    let all = format!("{}{}{}", x("<12>"), many(b'p', 960), "0a");
    play.is("command 3 2000 1 0 2000", &format!("965 {all}"));
}

#[test]
fn command_2_cuts_anywhere() {
    let mut play = played(&["ab", "cd"]);
    // "<12>ab\n<12>cd\n"
    play.is("command 2 6 1 0 6", &format!("6 {}", x("<12>ab")));
    play.is("numbers", "0 68 0 2 0 0 6 7 1 -");
    play.is("command 2 1 1 0 1", "1 0a");
    play.is("numbers", "0 68 0 2 0 1 0 7 1 -");
    play.is("command 2 0 1 0 0", "0 -");
    play.is("command 9 0 1 0 0", "7 -");
    play.is("command 2 100 1 0 100", &format!("7 {}", x("<12>cd\n")));
    play.is("numbers", "0 68 0 2 0 2 0 7 1 -");
    play.is("command 9 0 1 0 0", "0 -");
    // Readers keep their records.
    play.is(
        "read 0 5000",
        &format!("21 0 {}", x("12,0,0,-,caller=0;ab\n")),
    );
}

#[test]
fn command_2_goes_on_from_the_oldest_record() {
    let mut play = played(&["ab", "cd"]);
    play.is("command 2 6 1 0 6", &format!("6 {}", x("<12>ab")));
    play.is(&format!("outside 0 {}", many(b'p', 950)), "950 1");
    play.is("numbers", "34 1016 1 3 0 0 6 7 1 -");
    play.is("command 9 0 1 0 0", "962 -");
    play.is("command 2 0 1 0 9", "0 -");
    play.is("numbers", "34 1016 1 3 0 0 6 7 1 -");
    play.is("command 2 3 1 0 9", &format!("3 {}", x("<12")));
    play.is("numbers", "34 1016 1 3 0 1 3 7 1 -");
}

#[test]
fn commands_3_and_4_give_the_last_bytes() {
    let mut play = played(&["ab", "cd"]);
    let all = "<12>ab\n<12>cd\n";
    play.is("command 3 14 0 0 14", &format!("14 {}", x(all)));
    play.is("command 3 13 0 0 99", &format!("13 {}", x(&all[1..])));
    play.is("command 3 0 0 0 0", "0 -");
    play.is("numbers", "0 68 0 2 0 0 0 7 1 -");
    play.is("command 4 3 1 1 3", &format!("3 {}", x("cd\n")));
    play.is("numbers", "0 68 0 2 2 0 0 7 1 -");
    play.is("command 4 9 1 0 9", "0 -");
    play.is("command 9 0 1 0 0", "14 -");
    play.is("outside 0 65", "1 0");
    play.is("command 3 99 1 0 99", &format!("6 {}", x("<12>e\n")));
    play.is("command 4 0 1 0 0", "0 -");
    play.is("command 3 99 1 0 99", "0 -");
}

#[test]
fn console_commands() {
    let mut play = played(&[]);
    play.is("command 6 -5 1 0 0", "0 -");
    play.is("numbers", "0 0 0 0 0 0 0 1 1 7");
    play.is("command 7 -5 1 0 0", "0 -");
    play.is("numbers", "0 0 0 0 0 0 0 7 1 -");
    play.is("command 8 8 1 0 0", "0 -");
    play.is("numbers", "0 0 0 0 0 0 0 8 1 -");
    play.is("command 8 1 1 0 0", "0 -");
    play.is("numbers", "0 0 0 0 0 0 0 1 1 -");
    play.is("command 6 0 1 0 0", "0 -");
    play.is("command 7 0 1 0 0", "0 -");
    play.is("numbers", "0 0 0 0 0 0 0 1 1 -");
}

#[test]
fn the_console_question() {
    let mut play = Play::new(&[]);
    play.is("console 6 7", "yes");
    play.is("console 7 7", "no");
    play.is("console 8 7", "no");
    play.is("console -1 0", "yes");
    play.is("console 0 -1", "no");
    play.is("console -2147483648 2147483647", "yes");
    play.is("console 2147483648 2147483647", "no");
    play.is("console -9223372036854775808 9223372036854775807", "yes");
    play.all(
        &[
            "console 9223372036854775808 0",
            "console 0 -9223372036854775809",
        ],
        "?",
    );
}

#[test]
fn other_commands() {
    let mut play = played(&["ab"]);
    play.all(
        &[
            "command 0 -1 1 1 0",
            "command 1 99 1 0 3",
            "command 5 -9 1 0 0",
        ],
        "0 -",
    );
    play.is("command 10 -1 1 0 5", "1024 -");
    play.is("command 9 -1 1 0 2", "7 -");
}

#[test]
fn no_write_drops_more_than_31() {
    let mut play = Play::new(&["log 1056 0"]);
    for _ in 0..33 {
        play.is("outside 0 -", "0 0");
    }
    play.is("numbers", "0 1056 0 33 0 0 0 7 1 -");
    play.is(&format!("outside 0 {}", many(b'p', 960)), "960 31");
    play.is("numbers", "992 1056 31 34 0 0 0 7 1 -");
}
