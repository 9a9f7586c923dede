//! Texts of many lines in the syslog form: document 02's ticket 5.

use super::{many, x, Play};
use crate::record::Record;

/// A log with this one text from the box, at facility and level.
fn of(source: &str, text: &str) -> Play {
    let mut play = Play::new(&["log 1024 165", "reader"]);
    play.is(
        &format!("box {source} 0 {} -", x(text)),
        &format!("{} 0", text.len()),
    );
    play
}

impl Play {
    /// Commands 9, 3 and 2 have all of this, and nothing else.
    #[track_caller]
    fn gives(&mut self, form: &str) {
        let count = form.len();
        let all = format!("{count} {}", x(form));
        self.is("command 9 0 1 0 0", &format!("{count} -"));
        self.is("command 3 9000 1 0 9000", &all);
        self.is("command 2 9000 1 0 9000", &all);
        self.is("command 9 0 1 0 0", "0 -");
    }
}

#[test]
fn each_line_has_its_prefix() {
    for (text, form, count) in [
        ("", "<12>\n", 5),
        ("\n", "<12>\n<12>\n", 10),
        ("a\n", "<12>a\n<12>\n", 11),
        ("\na", "<12>\n<12>a\n", 11),
        ("\n\n", "<12>\n<12>\n<12>\n", 15),
        ("a\nb", "<12>a\n<12>b\n", 12),
        ("a\n\nb", "<12>a\n<12>\n<12>b\n", 17),
        ("\na\n", "<12>\n<12>a\n<12>\n", 16),
        // Nothing but a newline ends a line, and a prefix in the text is text.
        ("a\r\nb", "<12>a\r\n<12>b\n", 13),
        ("a\rb", "<12>a\rb\n", 8),
        ("\0\n\0", "<12>\0\n<12>\0\n", 12),
        ("<5>a\n<6>b", "<12><5>a\n<12><6>b\n", 18),
        ("\\x0a", "<12>\\x0a\n", 9),
    ] {
        assert_eq!(form.len(), count);
        of("1 4", text).gives(form);
    }
}

#[test]
fn prefixes_of_one_to_four_digits() {
    for (source, form) in [
        ("0 3", "<3>a\n<3>\n<3>b\n"),
        ("1 4", "<12>a\n<12>\n<12>b\n"),
        ("16 6", "<134>a\n<134>\n<134>b\n"),
        ("255 7", "<2047>a\n<2047>\n<2047>b\n"),
    ] {
        of(source, "a\n\nb").gives(form);
    }
}

#[test]
fn from_outside_one_final_newline_is_no_text() {
    for (handed, form) in [
        ("\n", "<12>\n"),
        ("\n\n", "<12>\n<12>\n"),
        ("a\n", "<12>a\n"),
        ("a\n\n", "<12>a\n<12>\n"),
        ("<134>a\nb", "<134>a\n<134>b\n"),
        ("<134>a\nb\n", "<134>a\n<134>b\n"),
        ("<134>\na\n\n", "<134>\n<134>a\n<134>\n"),
        // Only the first line's prefix is read.
        ("<3>a\n<134>b", "<11>a\n<11><134>b\n"),
        ("\n<134>b", "<12>\n<12><134>b\n"),
    ] {
        let mut play = Play::new(&["log 1024 0"]);
        let count = handed.len();
        play.is(&format!("outside 0 {}", x(handed)), &format!("{count} 0"));
        play.gives(form);
    }
}

#[test]
fn the_kmsg_line_stays() {
    let mut play = of("1 4", "a\n\nb");
    let line = "12,0,0,-,caller=0;a\\x0a\\x0ab\n";
    play.is("read 0 5000", &format!("29 0 {}", x(line)));
    // A dictionary has no part in the form, newlines or not.
    play.is(&format!("box 1 4 0 61 {}", x("k=\n\0l=\n")), "8 0");
    let line = "12,1,0,-,caller=0;a\n k=\\x0a\n l=\\x0a\n";
    play.is("read 0 5000", &format!("36 0 {}", x(line)));
    play.gives("<12>a\n<12>\n<12>b\n<12>a\n");
}

/// Records of "ab\nc" with prefix 134 and of "\n" with prefix 12: 15 and 10 bytes of form.
const TWO: &str = "<134>ab\n<134>c\n<12>\n<12>\n";

fn two() -> Play {
    let mut play = of("16 6", "ab\nc");
    play.is("box 1 4 0 0a -", "1 0");
    play
}

#[test]
fn command_2_cut_at_every_byte() {
    for cut in 0..=25 {
        let mut play = two();
        play.is(
            &format!("command 2 {cut} 1 0 {cut}"),
            &format!("{cut} {}", x(&TWO[..cut])),
        );
        let place = match cut {
            0..=14 => format!("0 {cut}"),
            15..=24 => format!("1 {}", cut - 15),
            _ => "2 0".into(),
        };
        play.is("numbers", &format!("0 69 0 2 0 {place} 7 1 -"));
        play.is("check", "fine");
        play.is("command 9 0 1 0 0", &format!("{} -", 25 - cut));
        let rest = match cut {
            25 => "-11 -".into(),
            _ => format!("{} {}", 25 - cut, x(&TWO[cut..])),
        };
        play.is("command 2 99 1 0 99", &rest);
        play.is("numbers", "0 69 0 2 0 2 0 7 1 -");
    }
}

#[test]
fn commands_3_and_4_cut_at_every_byte() {
    for len in 0..=26 {
        let count = len.min(25);
        let last = x(&TWO[25 - count..]);
        let mut play = two();
        for kind in [3, 4] {
            play.is(
                &format!("command {kind} {len} 1 0 {len}"),
                &format!("{count} {last}"),
            );
        }
        play.is("command 3 99 1 0 99", "0 -");
        // Command 2 has read nothing.
        play.is("command 9 0 1 0 0", "25 -");
        play.is("numbers", "0 69 0 2 2 0 0 7 1 -");
    }
    // From the clear mark on: the second record alone.
    let mut play = two();
    play.is("number clear 1", "set");
    play.is("command 3 99 1 0 99", &format!("10 {}", x(&TWO[15..])));
    play.is("command 4 7 1 0 7", &format!("7 {}", x(&TWO[18..])));
}

#[test]
fn dropped_while_inside_a_later_line() {
    // Costs 36 and 33; with 991 more the first is dropped. The dictionary makes no form longer.
    let filler = format!("box 1 4 0 - {}{}", x("k="), many(b'v', 957));
    for cut in 1..15 {
        let mut play = two();
        play.is(
            &format!("command 2 {cut} 1 0 {cut}"),
            &format!("{cut} {}", x(&TWO[..cut])),
        );
        play.is(&filler, "959 1");
        play.is("numbers", &format!("36 1024 1 3 0 0 {cut} 7 1 -"));
        play.is("check", "fine");
        play.is("command 9 0 1 0 0", "15 -");
        play.is("command 2 0 1 0 0", "0 -");
        play.is("numbers", &format!("36 1024 1 3 0 0 {cut} 7 1 -"));
        play.is("command 2 6 1 0 6", &format!("6 {}", x("<12>\n<")));
        play.is("numbers", "36 1024 1 3 0 1 6 7 1 -");
        play.is("command 9 0 1 0 0", "9 -");
        play.is("command 2 99 1 0 99", &format!("9 {}", x("12>\n<12>\n")));
        play.is("numbers", "36 1024 1 3 0 3 0 7 1 -");
    }
}

#[test]
fn over_the_buffers_end() {
    // The cost is 38, so the record may have 0 to 38 bytes at the end.
    for here in 0..=38 {
        let start = (1024 - here) % 1024;
        let mut play = Play::new(&["log 1024 10", &format!("number start {start}")]);
        play.is(&format!("box 16 6 0 {} -", x("\na\n\nb\n")), "6 0");
        play.is("check", "fine");
        play.gives("<134>\n<134>a\n<134>\n<134>b\n<134>\n");
        play.is("numbers", &format!("{start} 38 0 1 0 1 0 7 1 -"));
    }
}

#[test]
fn the_longest_form() {
    let write = format!("box 255 7 0 {} -", many(b'\n', 960));
    let mut play = Play::new(&["log 1024 0", "reader", &write]);
    play.is("command 9 0 1 0 0", "6727 -");
    let form = "<2047>\n".repeat(961);
    play.is("command 3 6727 1 0 6727", &format!("6727 {}", x(&form)));
    play.is("command 3 6728 1 0 6728", &format!("6727 {}", x(&form)));
    // 6,726 bytes are 960 lines and "<2047>".
    play.is(
        "command 2 6726 1 0 6726",
        &format!("6726 {}", x(&form[..6_726])),
    );
    play.is("numbers", "0 992 0 1 0 0 6726 7 1 -");
    play.is("check", "fine");
    play.is("command 9 0 1 0 0", "1 -");
    play.is("number offset 6727", "set");
    play.is("check", "numbers");
    play.is("number offset 6726", "set");
    // 992 and 33 bytes are one too many: dropped, its offset stays and fits.
    play.is("outside 0 70", "1 1");
    play.is("numbers", "992 33 1 2 0 0 6726 7 1 -");
    play.is("check", "fine");
    play.is("command 9 0 1 0 0", "6 -");
    play.is("number offset 6727", "set");
    play.is("check", "numbers");
    play.all_unmoved(&["outside 0 61"], "-77 0");
    play.all_unmoved(&["command 9 0 1 0 0", "command 2 1 1 0 1"], "-77 -");
    play.all_unmoved(&["read 0 5000"], "-77 0 -");
    play.is("number offset 6726", "set");
    play.is("command 2 4 1 0 4", &format!("4 {}", x("<12>")));
    play.is("numbers", "992 33 1 2 0 1 4 7 1 -");
}

#[test]
fn the_offset_of_a_held_record() {
    for (source, text, length) in [
        ("1 4", "", 5),
        ("1 4", "\n", 10),
        ("1 4", "a\n", 11),
        ("1 4", "\na", 11),
        ("1 4", "\n\n", 15),
        ("0 3", "ab\nc", 11),
        ("16 6", "ab\nc", 15),
        ("255 7", "ab\nc", 17),
    ] {
        let mut play = of(source, text);
        for offset in 0..length {
            play.is(&format!("number offset {offset}"), "set");
            play.is("check", "fine");
            play.is("command 9 0 1 0 0", &format!("{} -", length - offset));
        }
        for offset in [length, length + 1, 966, 967, 6_726, 6_727] {
            play.is(&format!("number offset {offset}"), "set");
            play.is("check", "numbers");
            play.all_unmoved(&["command 9 0 1 0 0"], "-77 -");
        }
    }
}

#[test]
fn newlines_put_into_a_text_by_hand() {
    // "abc" lies at 32: "<12>abc\n" has 8 bytes, "<12>a\n<12>c\n" 12.
    let mut play = of("1 4", "abc");
    play.is("number offset 7", "set");
    play.is("command 9 0 1 0 0", "1 -");
    play.is("poke 33 0a", "poked");
    play.is("command 9 0 1 0 0", "5 -");
    play.is("command 2 9 1 0 9", &format!("5 {}", x("12>c\n")));
    play.is("numbers", "0 35 0 1 0 1 0 7 1 -");
    play.all(&["number position 0", "number offset 11"], "set");
    play.is("check", "fine");
    // The form is shorter again, and the offset too high.
    play.is("poke 33 62", "poked");
    play.is("check", "numbers");
    play.all_unmoved(&["command 9 0 1 0 0"], "-77 -");
    play.is("poke 33 0a", "poked");
    play.is("command 9 0 1 0 0", "1 -");
    play.is("poke 32 0a0a0a", "poked");
    play.is("command 9 0 1 0 0", "9 -");
    play.is("number offset 0", "set");
    play.gives("<12>\n<12>\n<12>\n<12>\n");
}

#[test]
fn the_largest_count() {
    let long = format!("box 255 7 0 {} -", many(b'\n', 960));
    let mut play = Play::new(&["log 65536 0"]);
    for _ in 0..66 {
        play.is(&long, "960 0");
    }
    // 66 records of 992 bytes leave room for one of 64.
    play.is(&format!("box 255 7 0 {} -", many(b'\n', 32)), "32 0");
    play.is("numbers", "0 65536 0 67 0 0 0 7 1 -");
    // 66 x 961 + 33 lines of 7 bytes.
    play.is("command 9 0 1 0 0", "444213 -");
    let all = "<2047>\n".repeat(63_459);
    assert_eq!(all.len(), 444_213);
    play.is(
        "command 3 300000 1 0 300000",
        &format!("300000 {}", x(&all[144_213..])),
    );
    play.is(
        "command 2 300000 1 0 300000",
        &format!("300000 {}", x(&all[..300_000])),
    );
    // 44 forms of 6,727 bytes are 295,988.
    play.is("numbers", "0 65536 0 67 0 44 4012 7 1 -");
    play.is("command 9 0 1 0 0", "144213 -");
    play.is(
        "command 2 300000 1 0 300000",
        &format!("144213 {}", x(&all[300_000..])),
    );
    play.is("numbers", "0 65536 0 67 0 67 0 7 1 -");
    // 992 bytes make room for 32.
    play.is("number position 0", "set");
    play.is("outside 0 -", "0 1");
    play.is("command 9 0 1 0 0", "437491 -");
}

/// The length is counted apart from the form itself; both say the same.
#[test]
fn lengths_of_forms() {
    for prefix in [0, 9, 10, 99, 100, 999, 1000, 2047] {
        for bits in 0..256 {
            for length in 0..8 {
                let text = (0..length).map(|i| if bits >> i & 1 == 1 { b'\n' } else { b'a' });
                let record = Record {
                    time: 0,
                    sequence: 0,
                    prefix,
                    flag: b'-',
                    caller: 0,
                    text: text.collect(),
                    dictionary: Vec::new(),
                };
                assert_eq!(record.syslog().len(), record.syslog_length());
            }
        }
    }
}
