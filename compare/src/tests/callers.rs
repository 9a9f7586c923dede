//! Who wrote it: the caller in a write, in a heading and in the kmsg line, and logs of the heading
//! before it.

use super::{many, x, Play};
use crate::answer::{hex, Machine};
use crate::record::{Record, WHOLE};
use std::collections::BTreeMap;

fn fresh() -> Play {
    Play::new(&["log 1024 165", "reader"])
}

#[test]
fn a_write_states_its_caller() {
    for (caller, bytes, length) in [
        ("0", "00000000", 20),
        ("1", "01000000", 20),
        ("9", "09000000", 20),
        ("10", "0a000000", 21),
        ("255", "ff000000", 22),
        ("256", "00010000", 22),
        ("65536", "00000100", 24),
        ("16777216", "00000001", 27),
        ("67305985", "01020304", 27),
        ("999999999", "ffc99a3b", 28),
        ("1000000000", "00ca9a3b", 29),
        ("2147483648", "00000080", 29),
        ("4294967295", "ffffffff", 29),
    ] {
        for (write, flag) in [
            (format!("outside 0 61 {caller}"), '-'),
            (format!("box 1 4 0 61 - 0 {caller}"), '-'),
            (format!("box 1 4 0 61 - 1 {caller}"), 'c'),
        ] {
            let mut play = fresh();
            play.is(&write, "1 0");
            // The caller and its zeros at 24, the text at 32; the byte behind it stays.
            play.is("peek 24 10", &format!("{bytes}0000000061a5"));
            play.is("numbers", "0 33 0 1 0 0 0 7 1 -");
            play.is("check", "fine");
            let line = format!("12,0,0,{flag},caller={caller};a\n");
            assert_eq!(line.len(), length);
            play.is(&format!("read 0 {}", length - 1), "-22 0 -");
            let read = format!("{length} 0 {}", x(&line));
            play.is(&format!("read 0 {length}"), &read);
            // Neither the syslog form nor its count has it.
            play.is("command 9 0 1 0 0", "6 -");
            play.is("command 2 9 1 0 9", &format!("6 {}", x("<12>a\n")));
        }
    }
}

#[test]
fn left_out_it_is_0() {
    for write in ["outside 0 61", "box 1 4 0 61 -", "box 1 4 0 61 - 0"] {
        let mut play = fresh();
        play.is(write, "1 0");
        play.is("peek 22 10", "2d000000000000000000");
        let line = x("12,0,0,-,caller=0;a\n");
        play.is("read 0 5000", &format!("20 0 {line}"));
    }
}

#[test]
fn words_that_are_no_caller() {
    let mut play = fresh();
    play.is("outside 0 61 5", "1 0");
    for word in [
        "4294967296",
        "4294967297",
        "9999999999",
        "18446744073709551615",
        "18446744073709551616",
        "-1",
        "-0",
        "-",
        "+1",
        "T1",
        "1x",
        "",
        "1 1",
        " 1",
        "1 ",
        "caller=1",
    ] {
        play.all_unmoved(
            &[
                &format!("outside 0 61 {word}"),
                &format!("box 1 4 0 61 - 0 {word}"),
                &format!("box 1 4 0 61 - 1 {word}"),
                // Refused by no number of the table, whatever else is wrong.
                &format!("outside 0 00 {word}"),
                &format!("box 256 8 0 61 3d 0 {word}"),
            ],
            "?",
        );
    }
    // A caller does not make up for a word that is no FRAGMENT.
    play.all_unmoved(
        &[
            "box 1 4 0 61 - 2 1",
            "box 1 4 0 61 - - 1",
            "box 1 4 0 61 -  1",
            "box 1 4 0 61 - 4294967295 1",
        ],
        "?",
    );
    play.is("outside 0 61 007", "1 0");
    play.is("box 1 4 0 61 - 01 04294967295", "1 0");
    play.is("numbers", "0 99 0 3 0 0 0 7 1 -");
    play.is("peek 57 4", "07000000");
    play.is("peek 90 4", "ffffffff");
}

#[test]
fn a_caller_refuses_nothing() {
    let over = many(b'p', 961);
    for caller in ["0", "1", "4294967295"] {
        let mut play = fresh();
        play.all_unmoved(
            &[
                &format!("outside 0 00 {caller}"),
                &format!("outside 0 {over} {caller}"),
                &format!("box 256 0 0 61 - 0 {caller}"),
                &format!("box 0 8 0 61 - 1 {caller}"),
                &format!("box 0 0 0 61 3d 0 {caller}"),
                &format!("box 0 0 0 {over} - 0 {caller}"),
            ],
            "-22 0",
        );
        let all = many(b'p', 960);
        play.is(&format!("outside 0 {all} {caller}"), "960 0");
        play.is("numbers", "0 992 0 1 0 0 0 7 1 -");
        play.is(&format!("box 0 0 0 {all} - 0 {caller}"), "960 1");
        play.is("number console 0", "set");
        play.all_unmoved(&[&format!("outside 0 61 {caller}")], "-77 0");
    }
}

/// The line that the log gives is one that the receiving end reads as it read the older one.
#[test]
fn the_receiving_end_ignores_it() {
    let mut play = Play::new(&["log 1024 0", "reader", "board 0", "joiner 0"]);
    play.is("box 16 6 5000999 312d30 6b3d76 0 4294967295", "6 0");
    let line = "134,0,5000,-,caller=4294967295;1-0\n k=v\n";
    play.is("read 0 5000", &format!("{} 0 {}", line.len(), x(line)));
    let older = "134,0,5000,-;1-0\n k=v\n";
    for message in [line, older] {
        let read = format!("0 134 0 5000 0 {} {}", x("1-0"), x("k=v"));
        play.is(&format!("line {}", x(message)), &read);
    }
    play.is(&format!("deliver {}", x(line)), "0");
    play.is("slot 16", &format!("0 3 {}", x("1-0")));
    play.is(&format!("deliver {}", x(older)), "10");
    play.is(&format!("join {}", x(line)), "0 16 312d30");
    for odd in [
        "caller=",
        "caller=4294967296",
        "caller=-1",
        "caller=T1,c",
        "c",
    ] {
        let message = format!("134,7,1,-,{odd};1-0\n");
        let read = format!("0 134 7 1 0 {} -", x("1-0"));
        play.is(&format!("line {}", x(&message)), &read);
    }
}

/// A log whose records lie at the buffer's front with headings of 24 bytes.
fn older_log(records: &[(u64, &str)]) -> Play {
    let mut bytes = Vec::new();
    for (sequence, (time, text)) in (0..).zip(records) {
        let record = Record {
            time: *time,
            sequence,
            prefix: 12,
            flag: WHOLE,
            caller: 0,
            text: text.bytes().collect(),
            dictionary: Vec::new(),
        };
        bytes.extend(record.old_bytes());
    }
    Play::new(&[
        "log 1024 0",
        "reader",
        &format!("poke 0 {}", hex(&bytes)),
        &format!("number used {}", bytes.len()),
        &format!("number next {}", records.len()),
    ])
}

#[test]
fn logs_of_the_older_heading() {
    // 25 bytes hold no heading of 32.
    older_log(&[(0, "x")]).is("check", "heading 0");
    // Of 50 bytes the first heading takes "x" and the next one's time; 17 are left.
    older_log(&[(0, "x"), (0, "y")]).is("check", "heading 1");
    // A time with a fourth byte is where zeros have to be.
    older_log(&[(0, "x"), (1 << 24, "y")]).is("check", "heading 0");
    older_log(&[(0, "x"), ((1 << 24) - 1, "y")]).is("check", "heading 1");
    // Text where the zeros have to be.
    older_log(&[(0, "eightlng"), (0, "y")]).is("check", "heading 0");
    older_log(&[(0, "four"), (0, "y")]).is("check", "heading 1");
    for mut play in [
        older_log(&[(0, "x")]),
        older_log(&[(0, "eightlng"), (0, "y")]),
    ] {
        play.all_unmoved(&["outside 0 61", "box 1 1 0 61 - 0 7"], "-77 0");
        play.all_unmoved(&["read 0 5000"], "-77 0 -");
        play.all_unmoved(&["command 9 0 1 0 0", "save 7 512"], "-77 -");
        play.all_unmoved(&["seek 0 0 0", "minimum 5"], "-77");
    }
    // Made longer by hand it is a record, which has its text behind 32 bytes.
    let mut play = older_log(&[(0, "x")]);
    play.is("number used 33", "set");
    play.is("check", "fine");
    let line = x("12,0,0,-,caller=120;\\x00\n");
    play.is("read 0 5000", &format!("25 0 {line}"));
}

/// Which callers a script's writes state, and what became of them.
#[test]
fn callers_in_scripts() {
    use crate::script::Kind;
    let mut met: BTreeMap<String, u64> = BTreeMap::new();
    for (kind, seeds) in [
        (Kind::Plain, 4),
        (Kind::Lines, 1),
        (Kind::Trail, 1),
        (Kind::Joiner, 1),
    ] {
        for seed in 0..seeds {
            let mut machine = Machine::default();
            for line in super::scripts::script_of(kind, seed, 6_000).split(|&b| b == b'\n') {
                let answer = machine.answer(line);
                let line = String::from_utf8_lossy(line);
                let words: Vec<&str> = line.split(' ').collect();
                let (call, caller) = match words[..] {
                    ["outside", _, _] => ("outside", "none"),
                    ["outside", _, _, caller] => ("outside", caller),
                    ["box", _, _, _, _, _] => ("box", "none"),
                    ["box", _, _, _, _, _, _] => ("box", "no caller"),
                    ["box", _, _, _, _, _, "0", caller] => ("box 0", caller),
                    ["box", _, _, _, _, _, "1", caller] => ("box 1", caller),
                    _ => continue,
                };
                let answer = match &*answer {
                    "?" => "?",
                    refused if refused.starts_with('-') => "refused",
                    _ => "taken",
                };
                *met.entry(format!("{call} {caller}: {answer}")).or_default() += 1;
                *met.entry(format!("{call} any: {answer}")).or_default() += 1;
            }
        }
    }
    for call in ["outside", "box 0", "box 1"] {
        for (case, least) in [
            ("0: taken", 15),
            ("1: taken", 15),
            ("4294967295: taken", 15),
            ("any: taken", 150),
            ("any: refused", 25),
            ("any: ?", 3),
        ] {
            let case = format!("{call} {case}");
            let count = met.get(&case).copied().unwrap_or(0);
            assert!(count >= least, "{case}: {count}");
        }
    }
    for case in [
        "outside none: taken",
        "box none: taken",
        "box no caller: taken",
    ] {
        assert!(met[case] > 100, "{case}");
    }
    assert!(met.contains_key("outside 4294967296: ?"));
}
