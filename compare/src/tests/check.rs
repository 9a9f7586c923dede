//! The log check.

use super::{x, Play};

const TOP: &str = "18446744073709551615";

/// Three records at places 0, 35 and 68: text "abc"; "x"; "t" with dictionary "k=v".
fn three() -> Play {
    let mut play = Play::new(&["log 1024 0", "reader"]);
    play.is(&format!("outside 1 {}", x("<134>abc")), "8 0");
    play.is("box 0 3 2 78 -", "1 0");
    play.is(&format!("box 1 3 3 74 {}", x("k=v")), "4 0");
    play.is("numbers", "0 104 0 3 0 0 0 7 1 -");
    play
}

#[track_caller]
fn after(changes: &[&str], wanted: &str) {
    let mut play = three();
    for change in changes {
        assert_ne!(play.ask(change), "?", "{change}");
    }
    play.is("check", wanted);
}

#[test]
fn numbers_that_need_no_heading() {
    after(&[], "fine");
    after(&["number start 1024"], "numbers");
    after(&["number used 1025"], "numbers");
    after(&["number used 1024"], "numbers");
    after(&["number first 4"], "numbers");
    after(&["number clear 3"], "fine");
    after(&["number clear 4"], "numbers");
    after(&["number position 3"], "fine");
    after(&["number position 4"], "numbers");
    after(&["number position 3", "number offset 1"], "numbers");
    after(&["number console 0"], "numbers");
    after(&["number console 1"], "fine");
    after(&["number console 8"], "fine");
    after(&["number console 9"], "numbers");
    for name in ["minimum", "saved"] {
        for (value, wanted) in [
            ("0", "numbers"),
            ("1", "fine"),
            ("8", "fine"),
            ("9", "numbers"),
        ] {
            after(&[&format!("number {name} {value}")], wanted);
        }
        // Numbers whose low bits would be a level.
        for value in ["257", "4294967301", "9223372036854775809", TOP] {
            after(&[&format!("number {name} {value}")], "numbers");
        }
    }
    after(&["number saved 9", "number saved -"], "fine");
    after(
        &["number next 18446744073709551615", "number start 1024"],
        "numbers",
    );
}

#[test]
fn the_offset() {
    // "<134>abc\n" has 9 bytes, "<3>x\n" 5, "<11>t\n" 6.
    after(&["number offset 8"], "fine");
    after(&["number offset 9"], "numbers");
    after(&["number position 1", "number offset 4"], "fine");
    after(&["number position 1", "number offset 5"], "numbers");
    after(&["number position 2", "number offset 5"], "fine");
    after(&["number position 2", "number offset 6"], "numbers");
    after(&[&format!("number offset {TOP}")], "numbers");
    // Records 0 and 1 dropped: the log starts at the third.
    let dropped = ["number first 2", "number start 68", "number used 36"];
    after(&dropped, "fine");
    for (offset, wanted) in [
        ("966", "fine"),
        ("967", "fine"),
        ("6726", "fine"),
        ("6727", "numbers"),
    ] {
        for position in ["0", "1"] {
            let mut changes = dropped.to_vec();
            let (position, offset) = (
                format!("number position {position}"),
                format!("number offset {offset}"),
            );
            changes.extend([position.as_str(), offset.as_str()]);
            after(&changes, wanted);
        }
    }
}

#[test]
fn headings() {
    // Sequence.
    after(&["poke 8 01"], "heading 0");
    after(&["poke 43 02"], "heading 1");
    after(&["poke 83 80"], "heading 2");
    after(&["number first 1", "number next 4"], "heading 0");
    // Text length: a record swallows the next one's heading.
    after(&["poke 16 04"], "heading 1");
    after(&["poke 84 02"], "heading 2");
    after(&["poke 84 ffff"], "heading 2");
    after(&["poke 16 ffff0400"], "heading 0");
    // Prefix, flag, zero.
    after(&["poke 20 ff07"], "fine");
    after(&["poke 20 0008"], "heading 0");
    after(&["poke 22 63"], "fine");
    after(&["poke 22 2b"], "heading 0");
    after(&["poke 23 01"], "heading 0");
    after(&["poke 58 01"], "heading 1");
    // The four zeros behind the caller, and any caller.
    for (place, wanted) in [
        (28, "heading 0"),
        (29, "heading 0"),
        (30, "heading 0"),
        (31, "heading 0"),
        (63, "heading 1"),
        (66, "heading 1"),
        (96, "heading 2"),
        (97, "heading 2"),
        (98, "heading 2"),
        (99, "heading 2"),
    ] {
        for byte in ["01", "80", "ff"] {
            after(&[&format!("poke {place} {byte}")], wanted);
            after(
                &[&format!("poke {place} {byte}"), &format!("poke {place} 00")],
                "fine",
            );
        }
    }
    for caller in ["01000000", "00000080", "ffffffff"] {
        after(
            &[
                &format!("poke 24 {caller}"),
                &format!("poke 59 {caller}"),
                &format!("poke 92 {caller}"),
            ],
            "fine",
        );
    }
    // Dictionary: "k=v" lies from 101.
    after(&["poke 101 3d"], "heading 2");
    after(&["poke 102 61"], "heading 2");
    after(&["poke 103 00"], "heading 2");
    after(&["poke 101 00"], "heading 2");
    after(&["poke 103 3d"], "fine");
    // The first failing heading is told.
    after(&["poke 90 00", "poke 58 01"], "heading 1");
    after(&["poke 90 00", "poke 64 01"], "heading 1");
    after(&["poke 96 01", "poke 28 01"], "heading 0");
    // Time and text are free.
    after(&["poke 0 ffffffffffffffff", "poke 32 00ff0a"], "fine");
}

#[test]
fn lengths_at_their_limit() {
    // A text of 960 bytes fits where the log has room; 961 does not.
    let mut play = Play::new(&["log 2048 0"]);
    play.is("outside 0 61", "1 0");
    play.is("poke 16 c003", "poked");
    play.is("number used 992", "set");
    play.is("check", "fine");
    play.is("poke 16 c103", "poked");
    play.is("number used 993", "set");
    play.is("check", "heading 0");
    // 959 of text and 1 of dictionary, which then is bad; and 958 with "a=".
    play.is("poke 16 bf030100", "poked");
    play.is("number used 992", "set");
    play.is("check", "heading 0");
    play.is("poke 16 be030200", "poked");
    play.is("poke 990 613d", "poked");
    play.is("check", "fine");
    play.is("poke 16 bf030200", "poked");
    play.is("poke 991 613d", "poked");
    play.is("number used 993", "set");
    play.is("check", "heading 0");
}

#[test]
fn room_for_headings() {
    // One heading more than there is room for.
    after(&["number next 4"], "heading 3");
    after(&[&format!("number next {TOP}")], "heading 3");
    after(&["number used 103"], "heading 2");
    after(&["number used 99"], "heading 2");
    after(&["number used 68"], "heading 2");
    after(&["number used 35"], "heading 1");
    after(&["number used 31"], "heading 0");
    after(&["number used 0"], "heading 0");
    // Bytes left over.
    after(&["number used 105"], "numbers");
    after(&["number next 2"], "numbers");
    after(&["number used 68", "number next 2"], "fine");
}

#[test]
fn the_order_of_the_tests() {
    // Numbers that need no heading come before headings.
    after(&["poke 22 00", "number console 9"], "numbers");
    after(&["poke 22 00", "number minimum 0"], "numbers");
    after(&["poke 22 00", "number saved 9"], "numbers");
    after(
        &["poke 22 00", "number minimum 8", "number saved 1"],
        "heading 0",
    );
    after(
        &["poke 22 00", "number position 3", "number offset 1"],
        "numbers",
    );
    after(&["poke 22 00", "number clear 4"], "numbers");
    // Headings come before bytes left over and the offset.
    after(&["poke 90 00", "number used 110"], "heading 2");
    after(&["poke 90 00", "number offset 9"], "heading 2");
    after(&["poke 90 00", "number offset 967"], "heading 2");
    after(&["poke 90 00", "number offset 6727"], "heading 2");
    // But not before the offset of a record that is dropped: only the third is held here.
    let dropped = ["number first 2", "number start 68", "number used 36"];
    for (offset, wanted) in [
        ("number offset 6726", "heading 0"),
        ("number offset 6727", "numbers"),
    ] {
        after(&[&dropped[..], &["poke 90 00", offset]].concat(), wanted);
    }
}

#[test]
fn records_found_by_the_check_are_read() {
    let mut play = three();
    play.is("poke 32 5a", "poked");
    play.is("poke 24 05", "poked");
    let line = "134,0,0,-,caller=5;Zbc\n";
    play.is("read 0 5000", &format!("23 0 {}", x(line)));
    play.is("number console 9", "set");
    play.is("outside 0 61", "-77 0");
    play.is("number console 5", "set");
    play.is("outside 0 61", "1 0");
    play.is("numbers", "0 137 0 4 0 0 0 5 1 -");
}

#[test]
fn a_log_moved_by_hand() {
    // The first record left out, then an empty log that starts on the last byte.
    let mut play = three();
    play.is("number start 35", "set");
    play.is("number first 1", "set");
    play.is("number used 69", "set");
    play.is("check", "fine");
    play.is("read 0 5000", "-32 1 -");
    play.is(
        "read 0 5000",
        &format!("19 0 {}", x("3,1,0,-,caller=0;x\n")),
    );
    play.is("number start 1023", "set");
    play.is("number first 3", "set");
    play.is("number used 0", "set");
    play.is("check", "fine");
    play.is("outside 0 7a", "1 0");
    play.is("numbers", "1023 33 3 4 0 0 0 7 1 -");
    play.is(
        "peek 0 32",
        concat!(
            "00000000000000",
            "0300000000000000",
            "0100",
            "0000",
            "0c00",
            "2d00",
            "00000000",
            "00000000",
            "7a"
        ),
    );
}
