//! Fragments: the flag of a record, and the joiner.

use super::scripts::script_of;
use super::{many, x, Play};
use crate::answer::{unhex, Machine, LINE};
use crate::board::BOARD;
use crate::joiner::{Given, Joiner};
use crate::message::take_apart;
use crate::record::BULK;
use crate::script::{write_all_pieces, Kind};
use std::collections::{BTreeMap, BTreeSet};

/// The line that hands over a message, its newline aside.
fn join(message: &str) -> String {
    format!("join {}", x(&format!("{message}\n")))
}

/// A message of facility 16 with one letter so many times.
fn long(number: u64, flag: &str, letter: &str, count: usize) -> String {
    join(&format!("134,{number},0,{flag};{}", letter.repeat(count)))
}

fn joiner() -> Play {
    Play::new(&["joiner 165"])
}

// ---- the flag of a record

#[test]
fn a_fragment_has_its_flag() {
    let mut play = Play::new(&["log 1024 7", "reader"]);
    // 5,000,999 is 4c4f27 in hex, prefix 134 is 86, 'c' is 63.
    play.is("box 16 6 5000999 6162 - 1", "2 0");
    play.is(
        "peek 0 35",
        "274f4c0000000000000000000000000002000000860063000000000000000000616207",
    );
    play.is("check", "fine");
    play.is(
        "read 0 5000",
        &format!("25 0 {}", x("134,0,5000,c,caller=0;ab\n")),
    );
    // 0, or left out, is none; nor is a write from outside.
    play.is("box 16 6 0 61 - 0", "1 0");
    play.is("box 16 6 0 61 -", "1 0");
    play.is("outside 0 61", "1 0");
    for (number, prefix, length) in [(1, 134, 21), (2, 134, 21), (3, 12, 20)] {
        let line = x(&format!("{prefix},{number},0,-,caller=0;a\n"));
        play.is("read 0 5000", &format!("{length} 0 {line}"));
    }
    // Flags at 34 + 22, 67 + 22 and 100 + 22.
    for place in [56, 89, 122] {
        play.is(&format!("peek {place} 1"), "2d");
    }
    play.is("numbers", "0 133 0 4 0 0 0 7 1 -");
    // The syslog form has no flag: 5 + 2 + 1, 2 x (5 + 1 + 1), 4 + 1 + 1.
    play.is("command 9 0 1 0 0", "28 -");
}

#[test]
fn a_fragment_is_refused_as_any_write() {
    let mut play = Play::new(&["log 1024 7", "reader"]);
    play.all_unmoved(
        &[
            "box 256 0 0 61 - 1",
            "box 0 8 0 61 - 1",
            "box 0 0 0 61 3d 1",
            &format!("box 0 0 0 {} - 1", many(b'a', 961)),
        ],
        "-22 0",
    );
    play.all_unmoved(
        &[
            "box 1 1 0 61 - 2",
            "box 1 1 0 61 - ",
            "box 1 1 0 61 - -",
            "box 1 1 0 61 - -1",
            "box 1 1 0 61 - c",
            "box 1 1 0 61 - 18446744073709551616",
            "box 256 8 0 61 - 2",
            "box 1 1 0 61 613 1",
        ],
        "?",
    );
    play.is("box 1 1 0 - - 01", "0 0");
    play.is("number console 0", "set");
    play.is("box 1 1 0 61 - 1", "-77 0");
}

#[test]
fn headings_allow_two_flags() {
    let mut play = Play::new(&["log 1024 0", "outside 0 61", "outside 0 62"]);
    for byte in 0..=255 {
        let fits = byte == 45 || byte == 99;
        play.is(&format!("poke 22 {byte:02x}"), "poked");
        play.is("check", if fits { "fine" } else { "heading 0" });
        play.is("poke 22 63", "poked");
        play.is(&format!("poke 55 {byte:02x}"), "poked");
        play.is("check", if fits { "fine" } else { "heading 1" });
        play.is("poke 55 2d", "poked");
    }
    play.is("reader", "reader 0");
    play.is(
        "read 0 5000",
        &format!("20 0 {}", x("12,0,0,c,caller=0;a\n")),
    );
}

#[test]
fn trails_carry_the_flag() {
    let mut play = Play::new(&["log 1024 0"]);
    play.is("box 16 6 5000999 6162 6b3d76 1", "5 0");
    play.is("box 16 6 5001000 63 - 0", "1 0");
    // Costs 37 and 33, 46 in hex. The checks are zlib's.
    let records = "274f4c0000000000000000000000000002000300860063000000000000000000\
                   61626b3d76\
                   284f4c000000000001000000000000000100000086002d000000000000000000\
                   63";
    let spare = many(0, 426);
    let block = format!("000000004600010009000000{records}{spare}0cc5d66e");
    play.is("save 9 512", &format!("512 {block}"));
    play.is("disk 0 0", "disk");
    let fragment = "record 0 5000999 134 99 6162 6b3d76 0 1";
    let whole = "record 1 5001000 134 45 63 - 0 1";
    for (patches, wanted) in [
        (&[][..], &[fragment, whole, "end"][..]),
        (&["34 2b", "508 e99940b5"], &["stop record 0"]),
        (&["34 62", "508 ca37df0d"], &["stop record 0"]),
        (&["34 64", "508 1f1f9a9c"], &["stop record 0"]),
        (&["71 2b", "508 f5657673"], &[fragment, "stop record 1"]),
        (
            &["34 2d", "508 3cb10524"],
            &["record 0 5000999 134 45 6162 6b3d76 0 1", whole, "end"],
        ),
        (
            &["71 63", "508 08e88ae9"],
            &[fragment, "record 1 5001000 134 99 63 - 0 1", "end"],
        ),
    ] {
        play.is("cut 1", "cut 512");
        for patch in patches {
            play.is(&format!("patch {patch}"), "patched");
        }
        play.is("trail", "trail");
        for answer in wanted {
            play.is("next 960", answer);
        }
    }
}

// ---- the joiner

#[test]
fn pieces_join_until_another_flag_comes() {
    let mut play = joiner();
    play.is("open 16", "shut");
    play.is(&join("134,5,0,c;ab"), "0");
    play.is("open 16", "open 6162");
    play.is(&join("128,6,0,+;cd"), "0");
    play.is(&join("135,7,0,c;ef"), "0");
    play.is("open 16", &format!("open {}", x("abcdef")));
    // The closed text before the message that closed it.
    play.is(
        &join("134,8,0,-;gh"),
        &format!("0 16 {} 16 {}", x("abcdef"), x("gh")),
    );
    play.is("open 16", "shut");
    play.is(&join("134,9,0,-;gh"), &format!("0 16 {}", x("gh")));
    play.is("close", "none");
}

#[test]
fn a_plus_with_nothing_open_stands_alone() {
    let mut play = joiner();
    play.is(&join("134,1,0,+;ab"), "0 16 6162");
    play.is(&join("134,2,0,+;cd"), "0 16 6364");
    play.is("open 16", "shut");
    // What another facility has open is not its own.
    play.is(&join("142,3,0,c;xy"), "0");
    play.is(&join("134,4,0,+;ab"), "0 16 6162");
    play.is("open 17", "open 7879");
}

#[test]
fn flags_that_are_no_piece() {
    for flag in [
        "-", "cc", "c+", "+c", "++", "C", "x", " c", "c ", "\\x63", "0",
    ] {
        let mut play = joiner();
        play.is(&join(&format!("134,1,0,{flag};a")), "0 16 61");
        play.is("open 16", "shut");
        play.is(&join("134,2,0,c;b"), "0");
        play.is(&join(&format!("134,3,0,{flag};c")), "0 16 62 16 63");
        play.is("open 16", "shut");
    }
    // No flag at all is misshapen and closes nothing.
    let mut play = joiner();
    play.is(&join("134,1,0,c;a"), "0");
    play.is(&join("134,2,0,;b"), "4");
    play.is("open 16", "open 61");
    // Fields behind the flag are no part of it.
    play.is(&join("134,2,0,c,caller=T1,-;b"), "0");
    play.is("open 16", "open 6162");
}

#[test]
fn around_960_bytes() {
    // 959 + 1 fits, and stays open; one more byte does not.
    for flag in ["c", "+"] {
        let mut play = joiner();
        play.is(&long(1, "c", "a", 959), "0");
        play.is(&long(2, flag, "b", 1), "0");
        let full = many(b'a', 959) + "62";
        play.is("open 16", &format!("open {full}"));
        play.is(&long(3, flag, "", 0), "0");
        play.is("open 16", &format!("open {full}"));
        play.is(&long(4, flag, "d", 1), &format!("0 16 {full}"));
        play.is("open 16", "open 64");
        // 1 + 960 is 961, 960 + 960 is 1,920.
        play.is(&long(5, flag, "e", 960), "0 16 64");
        play.is(
            &long(6, flag, "f", 960),
            &format!("0 16 {}", many(b'e', 960)),
        );
        play.is("open 16", &format!("open {}", many(b'f', 960)));
        play.is(
            &long(7, "-", "g", 960),
            &format!("0 16 {} 16 {}", many(b'f', 960), many(b'g', 960)),
        );
        play.is("close", "none");
    }
    // 480 + 480, and 480 + 481.
    let mut play = joiner();
    play.is(&long(1, "c", "a", 480), "0");
    play.is(
        &long(2, "+", "b", 481),
        &format!("0 16 {}", many(b'a', 480)),
    );
    play.is(&long(3, "c", "c", 479), "0");
    play.is(
        "close",
        &format!("16 {}{}", many(b'b', 481), many(b'c', 479)),
    );
    // More than 960 bytes of one message are refused as ever, and close nothing.
    play.is(&long(4, "c", "a", 1), "0");
    play.is(&long(5, "-", "b", 961), "8");
    play.is("open 16", "open 61");
}

#[test]
fn empty_pieces() {
    let mut play = joiner();
    play.is(&join("134,1,0,c;"), "0");
    play.is("open 16", "open -");
    play.is(&join("134,2,0,+;"), "0");
    play.is("open 16", "open -");
    play.is(&join("134,3,0,-;"), "0 16 - 16 -");
    play.is("open 16", "shut");
    play.is(&join("134,4,0,+;"), "0 16 -");
    // 0 + 960 fits.
    play.is(&join("134,5,0,c;"), "0");
    play.is(&long(6, "+", "a", 960), "0");
    play.is("close", &format!("16 {}", many(b'a', 960)));
    play.is(&join("134,7,0,c;"), "0");
    play.is("close", "16 -");
    play.is("close", "none");
}

#[test]
fn two_facilities() {
    let mut play = joiner();
    for (line, wanted) in [
        ("134,1,0,c;a", "0"),
        ("142,2,0,c;A", "0"),
        ("134,3,0,+;b", "0"),
        ("142,4,0,c;B", "0"),
        ("134,5,0,-;c", "0 16 6162 16 63"),
        ("142,6,0,+;C", "0"),
        ("134,7,0,+;d", "0 16 64"),
        ("142,8,0,x;D", "0 17 414243 17 44"),
    ] {
        play.is(&join(line), wanted);
    }
    // A full text of one, and a piece of the other.
    play.is(&long(9, "c", "a", 960), "0");
    play.is(&join("142,10,0,c;B"), "0");
    play.is("open 16", &format!("open {}", many(b'a', 960)));
    play.is("open 17", "open 42");
}

#[test]
fn late_whichever_the_facility() {
    let mut play = joiner();
    play.is(&join("134,0,0,c;a"), "0");
    play.is(&join("134,0,0,c;b"), "10");
    play.is(&join("142,0,0,c;b"), "10");
    // Numbers may be left out.
    play.is(&join("142,9,0,c;b"), "0");
    play.is(&join("134,8,9,+;c"), "10");
    play.is(&join("134,9,9,-;c"), "10");
    play.is("open 16", "open 61");
    // What lies outside of the eight is told as that, also where it is late, and takes no number.
    play.is(&join("127,5,0,c;x"), "9");
    play.is(&join("192,99,0,c;x"), "9");
    play.is(&join("134,10,0,+;c"), "0");
    // Misshapen ones take none either.
    play.is(&join("134,50,0,+;\\"), "6");
    play.is(&join("134,11,0,+;d"), "0");
    play.is("open 16", &format!("open {}", x("acd")));
    let top = "18446744073709551615";
    play.is(&join(&format!("134,{top},0,+;e")), "0");
    for message in ["134,0,0,c;f", "135,12,0,-;f", &format!("142,{top},0,+;f")] {
        play.is(&join(message), "10");
    }
    play.is("open 16", &format!("open {}", x("acde")));
    // A number of more is NUMBER.
    play.is(&join("134,18446744073709551616,0,c;f"), "5");
}

#[test]
fn closes_go_upward_and_leave_the_last_number() {
    let mut play = joiner();
    play.is("close", "none");
    for (number, facility) in [(1, 23), (2, 16), (3, 19), (4, 17)] {
        let message = format!("{},{number},0,c;{facility}", facility * 8);
        play.is(&join(&message), "0");
    }
    for facility in [16, 17, 19, 23] {
        let text = x(&facility.to_string());
        play.is("close", &format!("{facility} {text}"));
        play.is(&format!("open {facility}"), "shut");
    }
    play.is("close", "none");
    play.is(&join("134,4,0,c;a"), "10");
    play.is(&join("134,5,0,+;a"), "0 16 61");
    play.is(&join("134,6,0,c;b"), "0");
    play.is("joiner 0", "joiner");
    play.is("open 16", "shut");
    play.is(&join("134,4,0,c;a"), "0");
}

#[test]
fn refusals_of_messages() {
    for (message, refusal) in [
        (vec![b'x'; 8_193], "2"),
        (b"".to_vec(), "3"),
        (b"134,2,0,-;b".to_vec(), "3"),
        (b"134,2,0;b\n".to_vec(), "4"),
        (b"134,02,0,-;b\n".to_vec(), "5"),
        (b"134,2,0,-;\x7f\n".to_vec(), "6"),
        (b"134,2,0,-;b\nk=v\n".to_vec(), "7"),
        (b"127,2,0,-;b\n".to_vec(), "9"),
        (b"127,1,0,-;b\n".to_vec(), "9"),
        (b"134,1,0,-;b\n".to_vec(), "10"),
    ] {
        let mut play = joiner();
        play.is(&join("134,1,0,c;a"), "0");
        play.is(&format!("join {}", crate::answer::hex(&message)), refusal);
        play.is("open 16", "open 61");
        play.is(&join("134,2,0,+;c"), "0");
        play.is("close", "16 6163");
    }
}

#[test]
fn texts_alone_are_joined() {
    let mut play = joiner();
    // Escapes are read, and a dictionary is not kept nor counted with what is open.
    play.is(&join("134,1,0,c;a\\x0a\\x5c\n k=v"), "0");
    play.is("open 16", "open 610a5c");
    let message = format!("134,2,0,+;{}\n k={}", "b".repeat(900), "v".repeat(58));
    play.is(&join(&message), "0");
    play.is("open 16", &format!("open 610a5c{}", many(b'b', 900)));
    let message = format!("134,3,0,+;{}\n k={}", "c".repeat(900), "v".repeat(59));
    play.is(&join(&message), "8");
    play.is("close", &format!("16 610a5c{}", many(b'b', 900)));
}

#[test]
fn the_logs_own_lines() {
    let mut play = Play::new(&["log 4096 0", "reader", "joiner 0"]);
    for (write, answer) in [
        ("box 20 3 0 4741 - 1", "2 0"),
        ("box 20 3 1000 4f41 - 1 4294967295", "2 0"),
        ("box 21 3 2000 78 - 1", "1 0"),
        ("box 20 3 3000 4c - 0", "1 0"),
    ] {
        play.is(write, answer);
    }
    for (line, answer) in [
        ("163,0,0,c,caller=0;GA\n", "0"),
        ("163,1,1,c,caller=4294967295;OA\n", "0"),
        ("171,2,2,c,caller=0;x\n", "0"),
        ("163,3,3,-,caller=0;L\n", "0 20 47414f41 20 4c"),
    ] {
        play.is("read 0 5000", &format!("{} 0 {}", line.len(), x(line)));
        play.is(&format!("join {}", x(line)), answer);
    }
    play.is("close", "21 78");
}

#[test]
fn logs_and_boards_leave_the_joiner() {
    let mut play = Play::new(&[]);
    let lines = ["join -", "close", "open 16", "open 15", "joiner 256"];
    play.all(&lines, "?");
    play.is("joiner 255", "joiner");
    play.is(&join("134,7,0,c;a"), "0");
    play.is("log 1024 0", "log");
    play.is("board 0", "board");
    play.is("open 16", "open 61");
    // The board knows nothing of it.
    play.is(&format!("deliver {}", x("134,3,0,c;b\n")), "0");
    play.is(&join("134,7,0,+;b"), "10");
    play.all(
        &[
            "joiner",
            "joiner 256",
            "joiner -1",
            "joiner 0 0",
            "join",
            "join zz",
            "join 0",
            "join - -",
            "close 1",
            "close ",
            "open",
            "open 15",
            "open 24",
            "open -16",
            "open 16 16",
        ],
        "?",
    );
    play.is("open 16", "open 61");
}

#[test]
fn room_comes_first() {
    let good = b"134,7,0,c;a\n";
    let lent = || vec![165; BULK];
    for (buffer, first, second) in [
        (BOARD - 1, 960, 960),
        (BOARD + 1, 960, 960),
        (0, 960, 960),
        (BOARD, 959, 960),
        (BOARD, 960, 959),
        (BOARD, 0, 0),
    ] {
        let mut joiner = Joiner::fresh(vec![9; buffer]);
        let before = joiner.clone();
        let (mut first, mut second) = (vec![165; first], vec![165; second]);
        assert_eq!(joiner.join(good, &mut first, &mut second), Err(1));
        assert_eq!(joiner.join(b"", &mut first, &mut second), Err(1));
        assert_eq!(joiner, before);
        assert!(first.iter().chain(&second).all(|&byte| byte == 165));
    }
    let mut joiner = Joiner::fresh(vec![9; BOARD]);
    assert_eq!(joiner.close(&mut [0; 959]), Err(1));
    assert_eq!(Joiner::fresh(vec![9; 7_679]).close(&mut lent()), Err(1));
    assert_eq!(joiner.close(&mut lent()), Ok(None));
    // Any of the eight lengths, whichever facility is meant.
    joiner.open[7] = Some(960);
    assert_eq!(joiner.join(b"", &mut lent(), &mut lent()), Err(3));
    joiner.open[7] = Some(961);
    assert_eq!(joiner.join(good, &mut lent(), &mut lent()), Err(1));
    assert_eq!(joiner.close(&mut lent()), Err(1));
    assert_eq!((joiner.last, joiner.open[0]), (None, None));
}

#[test]
fn no_other_byte_is_touched() {
    let mut joiner = Joiner::fresh(vec![9; BOARD]);
    let mut wanted = vec![9; BOARD];
    let (mut first, mut second) = ([165; 1_000], [165; 960]);
    let mut step = |joiner: &mut Joiner, message: &[u8]| {
        let given = joiner.join(message, &mut first, &mut second).unwrap();
        let (one, two) = (first, second);
        first.fill(165);
        second.fill(165);
        (given, one, two)
    };
    let (given, one, two) = step(&mut joiner, b"142,1,0,c;abc\n");
    assert_eq!(given, []);
    assert!(one.iter().chain(&two).all(|&byte| byte == 165));
    wanted[960..963].copy_from_slice(b"abc");
    assert_eq!(joiner.buffer, wanted);
    step(&mut joiner, b"142,2,0,+;de\n");
    wanted[963..965].copy_from_slice(b"de");
    assert_eq!(joiner.buffer, wanted);
    // Closed, the text's bytes stay; what stands alone is never among them.
    let (given, one, two) = step(&mut joiner, b"142,3,0,-;xy\n");
    let text = |length| Given {
        facility: 17,
        length,
    };
    assert_eq!(given, [text(5), text(2)]);
    assert_eq!((&one[..6], &two[..3]), (&b"abcde\xa5"[..], &b"xy\xa5"[..]));
    assert_eq!(joiner.buffer, wanted);
    step(&mut joiner, b"142,4,0,c;F\n");
    wanted[960] = b'F';
    assert_eq!(joiner.buffer, wanted);
    // Over 960: the new piece goes to the front.
    let full = [&b"142,5,0,+;"[..], &[b'z'; 960], b"\n"].concat();
    let (given, one, two) = step(&mut joiner, &full);
    assert_eq!(given, [text(1)]);
    assert_eq!(&one[..2], b"F\xa5");
    assert!(two.iter().all(|&byte| byte == 165));
    wanted[960..1_920].fill(b'z');
    assert_eq!(joiner.buffer, wanted);
    let mut result = [165; 961];
    assert_eq!(joiner.close(&mut result), Ok(Some(text(960))));
    assert_eq!((result[959], result[960]), (b'z', 165));
    assert_eq!(joiner.buffer, wanted);
    assert_eq!((joiner.open[1], joiner.last), (None, Some(5)));
}

// ---- scripts

/// What a script asks of joiners and is answered, with what the pieces come to.
fn met_by(script: &[u8]) -> BTreeMap<String, u64> {
    let mut met = BTreeMap::new();
    let mut note = |case: String| *met.entry(case).or_insert(0u64) += 1;
    let mut machine = Machine::default();
    for line in script.split(|&b| b == b'\n') {
        assert!(line.len() <= LINE);
        let before = machine.joiner.clone();
        let answer = machine.answer(line);
        assert!(!answer.ends_with("CHANGED"), "{answer}");
        let line = String::from_utf8_lossy(line);
        let words: Vec<&str> = line.split(' ').collect();
        let said: Vec<&str> = answer.split(' ').collect();
        match words[..] {
            _ if answer == "?" => {
                if matches!(words[0], "join" | "close" | "open" | "joiner" | "box") {
                    note(format!("{} ?", words[0]));
                }
            }
            ["box", _, _, _, _, _, ref more @ ..] => {
                let taken = !said[0].starts_with('-');
                note(format!("box {} {taken}", more.join(" ")));
            }
            ["joiner", _] => note("joiner".into()),
            ["close"] => note(format!("close {}", said[0])),
            ["open", _] => note(said[0].to_string()),
            ["next", _] if said[0] == "record" => note(format!("record {}", said[4])),
            ["join", message] => {
                note(format!("join {}", said[0]));
                let message = unhex(message).unwrap();
                let Ok(taken) = take_apart(&message) else {
                    continue;
                };
                let facility = (taken.prefix / 8) as usize;
                let joiner = before.expect("there is one");
                if said[0] == "10" {
                    let same = joiner.last == Some(taken.sequence);
                    note(format!("late, the same {same}"));
                }
                if said[0] != "0" {
                    continue;
                }
                let skipped = joiner.last.is_some_and(|last| taken.sequence > last + 1);
                if skipped {
                    note("skipped".into());
                }
                let open = joiner.open[facility - 16];
                let flag = ["-", "c", "+", "other"][taken.flag as usize];
                let texts = (said.len() - 1) / 2;
                note(format!("{flag}, open {}, {texts} given", open.is_some()));
                if let Some(length) = open.filter(|_| matches!(flag, "c" | "+")) {
                    let sum = length + taken.text.len() as u64;
                    if (958..=962).contains(&sum) {
                        note(format!("{sum} bytes with {flag}"));
                    }
                }
                if taken.text.is_empty() {
                    note("empty piece".into());
                }
                if let Some(log) = &mut machine.log {
                    let records = log.records().cloned().unwrap_or_default();
                    if records.iter().any(|record| record.line() == message) {
                        note(format!("the log's own {flag}"));
                    }
                }
            }
            _ => (),
        }
    }
    met
}

/// What was taken and not yet given is what is open, facility by facility and byte by byte.
fn nothing_lost(script: &[u8]) {
    let mut machine = Machine::default();
    let mut waiting: [Vec<u8>; 8] = Default::default();
    for line in script.split(|&b| b == b'\n') {
        let answer = machine.answer(line);
        let words: Vec<&[u8]> = line.split(|&b| b == b' ').collect();
        let said: Vec<&str> = answer.split(' ').collect();
        let given = match (words[0], said[0]) {
            (_, "?") => continue,
            (b"joiner", _) => {
                waiting = Default::default();
                continue;
            }
            (b"join", "0") => {
                let message = unhex(std::str::from_utf8(words[1]).unwrap()).unwrap();
                let taken = take_apart(&message).unwrap();
                waiting[taken.prefix as usize / 8 - 16].extend(taken.text);
                &said[1..]
            }
            (b"close", facility) if facility != "none" => &said[..],
            (b"join" | b"close", _) => &[],
            _ => continue,
        };
        for text in given.chunks(2) {
            let facility: usize = text[0].parse().unwrap();
            let bytes = unhex(text[1]).unwrap();
            let rest = waiting[facility - 16].split_off(bytes.len());
            assert_eq!(waiting[facility - 16], bytes);
            waiting[facility - 16] = rest;
        }
        let joiner = machine.joiner.as_ref().unwrap();
        for (index, waiting) in waiting.iter().enumerate() {
            assert_eq!(waiting, joiner.open_text(index).unwrap_or_default());
        }
    }
}

#[test]
fn no_piece_is_dropped_or_shown_twice() {
    for seed in 0..3 {
        nothing_lost(&script_of(Kind::Joiner, seed, 5_000));
    }
    let mut script = Vec::new();
    write_all_pieces(&mut script).unwrap();
    nothing_lost(&script);
}

#[track_caller]
fn often(met: &BTreeMap<String, u64>, least: u64, cases: &[&str]) {
    for case in cases {
        let count = met.get(*case).copied().unwrap_or(0);
        assert!(count >= least, "{case}: {count}");
    }
}

const ACCEPTED: &[&str] = &[
    "c, open false, 0 given",
    "c, open true, 0 given",
    "c, open true, 1 given",
    "+, open false, 1 given",
    "+, open true, 0 given",
    "+, open true, 1 given",
    "-, open false, 1 given",
    "-, open true, 2 given",
    "other, open false, 1 given",
    "other, open true, 2 given",
];

const REFUSED: &[&str] = &[
    "join 2", "join 3", "join 4", "join 5", "join 6", "join 7", "join 8", "join 9", "join 10",
];

/// Scripts of the joiner alone have as many lines as wanted, and meet the border again and again.
#[test]
fn joiner_runs() {
    let whole = script_of(Kind::Joiner, 3, 700);
    for lines in 0..700 {
        let script = script_of(Kind::Joiner, 3, lines);
        assert!(whole.starts_with(&script));
        let count = script.iter().filter(|&&b| b == b'\n').count();
        assert_eq!(count as u64, lines);
    }
    let mut met = BTreeMap::new();
    for seed in 0..4 {
        for (case, count) in met_by(&script_of(Kind::Joiner, seed, 5_000)) {
            *met.entry(case).or_insert(0) += count;
        }
    }
    often(&met, 80, ACCEPTED);
    often(&met, 10, REFUSED);
    for sum in 958..=962 {
        for flag in ["c", "+"] {
            often(&met, 25, &[&format!("{sum} bytes with {flag}")]);
        }
    }
    for sum in 960..=961 {
        for flag in ["c", "+"] {
            often(&met, 150, &[&format!("{sum} bytes with {flag}")]);
        }
    }
    for facility in 16..24 {
        often(&met, 10, &[&format!("close {facility}")]);
    }
    often(
        &met,
        60,
        &[
            "joiner",
            "open",
            "shut",
            "close none",
            "skipped",
            "empty piece",
            "late, the same true",
            "late, the same false",
            "the log's own c",
            "the log's own -",
        ],
    );
    for word in ["join", "close", "open", "joiner"] {
        often(&met, 2, &[&format!("{word} ?")]);
    }
}

/// Ordinary scripts meet fragments and the joiner too, and trails that carry the flag.
#[test]
fn fragments_in_plain_scripts() {
    let mut met = BTreeMap::new();
    for (kind, seeds) in [(Kind::Plain, 10), (Kind::Wide, 2), (Kind::Trail, 2)] {
        for seed in 0..seeds {
            for (case, count) in met_by(&script_of(kind, seed, 6_000)) {
                *met.entry(case).or_insert(0) += count;
            }
        }
    }
    often(&met, 10, ACCEPTED);
    often(&met, 5, REFUSED);
    often(
        &met,
        100,
        &[
            "box  true",
            "box 0 true",
            "box 1 true",
            "record 45",
            "record 99",
        ],
    );
    often(
        &met,
        20,
        &["box  false", "box 0 false", "box 1 false", "box ?"],
    );
    often(
        &met,
        10,
        &[
            "960 bytes with +",
            "961 bytes with c",
            "close none",
            "the log's own c",
        ],
    );
    often(&met, 1, &["join ?", "close ?", "open ?", "joiner ?"]);
}

/// The exhaustive runs: how many there are, and that no two of them are one.
#[test]
fn all_pieces() {
    let mut script = Vec::new();
    write_all_pieces(&mut script).unwrap();
    let text = String::from_utf8(script.clone()).unwrap();
    let runs: BTreeSet<&str> = text.split("joiner 46\n").skip(1).collect();
    // 45 and 45^2 of the wide steps, 17^3 of the middle ones, 5^4 and 5^5 of a few.
    let counts = [(45, 1), (2_025, 2), (4_913, 3), (625, 4), (3_125, 5)];
    assert_eq!(runs.len(), counts.iter().map(|(count, _)| count).sum());
    let lines: usize = counts
        .iter()
        .map(|(count, steps)| count * (steps + 3))
        .sum();
    assert_eq!(text.lines().count(), lines);
    let met = met_by(&script);
    often(&met, 50, ACCEPTED);
    often(
        &met,
        50,
        &[
            "join 4",
            "join 9",
            "join 10",
            "960 bytes with c",
            "961 bytes with +",
        ],
    );
    assert!(!met.keys().any(|case| case.contains('?')));
}
