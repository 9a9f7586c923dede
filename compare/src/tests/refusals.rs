//! Every row of "When the log says no", and the order of the rows.

use super::{many, x, Play};
use crate::answer::hex;

const TOP: &str = "18446744073709551615";

fn played() -> Play {
    let mut play = Play::new(&["log 1024 165", "reader"]);
    play.is(&format!("outside 0 {}", x("ab")), "2 0");
    play.is(&format!("outside 0 {}", x("cd")), "2 0");
    play
}

#[test]
fn ebadfd_when_the_check_fails() {
    for damage in [
        "number console 0",
        "number minimum 0",
        "number minimum 9",
        "number saved 0",
        "number saved 9",
        "poke 22 2b",
        "number used 67",
        "number start 1024",
    ] {
        let mut play = played();
        play.ask(damage);
        let over = format!("outside 0 {}", many(0, 961));
        play.all_unmoved(
            &["outside 0 61", "box 1 1 0 61 -", "box 999 9 0 - 3d", &over],
            "-77 0",
        );
        play.all_unmoved(&["outside 0 00", "outside 0 610062"], "-77 0");
        play.all_unmoved(&["read 0 5000", "read 0 0"], "-77 0 -");
        play.all_unmoved(&["seek 0 0 0", "seek 0 1 9"], "-77");
        for kind in -1..=11 {
            play.all_unmoved(&[&format!("command {kind} 1 1 0 1")], "-77 -");
            play.all_unmoved(&[&format!("command {kind} 9 0 1 1")], "-77 -");
        }
        play.all_unmoved(&["minimum 5", "minimum 0", "minimum 9"], "-77");
        play.all_unmoved(&["save 7 512", "save 7 0"], "-77 -");
        // Making a reader asks nothing.
        play.is("reader", "reader 1");
        play.is("where 1", "0");
    }
}

#[test]
fn ebadfd_on_capacities_out_of_range() {
    for capacity in [0, 1, 1_023, 65_537, 70_000] {
        let mut play = Play::new(&[&format!("log {capacity} 0"), "reader"]);
        play.is("check", "numbers");
        play.is("outside 0 -", "-77 0");
        play.is("read 0 0", "-77 0 -");
        play.is("command 10 0 1 0 0", "-77 -");
    }
    for capacity in [1_024, 65_536] {
        let mut play = Play::new(&[&format!("log {capacity} 0")]);
        play.is("check", "fine");
        play.is("command 10 0 0 0 0", &format!("{capacity} -"));
    }
}

#[test]
fn ebadfd_when_a_reader_is_above_next() {
    let mut play = played();
    play.is("at 0 3", "set");
    play.all_unmoved(&["read 0 5000", "read 0 0"], "-77 0 -");
    play.is(&format!("at 0 {TOP}"), "set");
    play.all_unmoved(&["read 0 5000"], "-77 0 -");
    // A seek does not mind.
    play.is("seek 0 0 2", "0");
    play.is("read 0 5000", "-11 0 -");
}

#[test]
fn eperm() {
    let mut play = played();
    for kind in -1..=11 {
        play.all_unmoved(&[&format!("command {kind} 1 0 1 1")], "-1 -");
        if kind != 3 && kind != 10 {
            play.all_unmoved(&[&format!("command {kind} 1 0 0 1")], "-1 -");
        }
    }
    play.is("command 3 1 0 0 1", "1 0a");
    play.is("command 10 0 0 0 0", "1024 -");
    // Before -22 and -14.
    play.all_unmoved(
        &[
            "command 2 -1 0 0 0",
            "command 2 5 0 0 4",
            "command 8 0 0 0 0",
        ],
        "-1 -",
    );
    play.all_unmoved(&["command 3 -1 0 0 0"], "-22 -");
}

#[test]
fn espipe() {
    let mut play = played();
    play.is(
        "read 0 5000",
        &format!("21 0 {}", x("12,0,0,-,caller=0;ab\n")),
    );
    play.all_unmoved(
        &["seek 0 1 0", "seek 0 -1 2", "seek 0 1 1", "seek 0 2 9"],
        "-29",
    );
}

#[test]
fn einval_on_seeks_and_commands() {
    let mut play = played();
    play.all_unmoved(&["seek 0 0 1", "seek 0 0 -1", "seek 0 0 4"], "-22");
    play.all_unmoved(
        &[
            "command -1 0 1 0 0",
            "command 11 0 1 0 0",
            "command 2147483647 0 1 0 0",
            "command -2147483648 0 1 0 0",
            "command 2 -1 1 0 9",
            "command 3 -1 1 0 9",
            "command 4 -2147483648 1 0 0",
            "command 8 0 1 0 0",
            "command 8 9 1 0 0",
            "command 8 -1 1 0 0",
            "command 8 2147483647 1 0 0",
        ],
        "-22 -",
    );
}

#[test]
fn einval_on_writes() {
    let mut play = played();
    let over = [
        format!("outside 0 {}", many(b'p', 961)),
        format!("outside 0 {}", x(&format!("<134>{}\n", "p".repeat(955)))),
        format!("box 1 1 0 {} -", many(b'p', 961)),
        format!("box 1 1 0 {} 613d", many(b'p', 959)),
    ];
    play.all_unmoved(&over.each_ref().map(String::as_str), "-22 0");
    play.all_unmoved(
        &[
            "box 256 1 0 - -",
            "box 1 8 0 - -",
            "box 65535 65535 0 - -",
            "box 0 9 0 - -",
            "box -1 0 0 - -",
            "box 0 -9223372036854775808 0 - -",
            "box 18446744073709551615 18446744073709551615 0 - -",
        ],
        "-22 0",
    );
    play.all_unmoved(
        &[
            "box 18446744073709551616 0 0 - -",
            "box 0 -9223372036854775809 0 - -",
            "box - 0 0 - -",
        ],
        "?",
    );
    for bad in [
        "=", "a", "a=\0", "\0a=", "a=\0\0b=", "\0", "=a", "a=\0=b", "a=\0b",
    ] {
        play.all_unmoved(&[&format!("box 1 1 0 61 {}", x(bad))], "-22 0");
    }
    play.is(&format!("outside 0 {}", many(b'p', 960)), "960 2");
}

/// `length` plain bytes from outside, but for a zero at this place.
fn zero_at(place: usize, length: usize) -> String {
    let mut handed = vec![b'p'; length];
    handed[place] = 0;
    format!("outside 0 {}", hex(&handed))
}

#[test]
fn einval_on_a_zero_from_outside() {
    let mut play = played();
    for handed in [
        "\0",
        "<1\x003>x",
        "<\x0013>x",
        "<13\0>x",
        "<13\0",
        "\0<13>x",
        "<13>\0",
        "<13>\0x",
        "<13>\0\n",
        "\0\n",
        "x\0\n",
        "\n\0",
        "x\n\0",
        "\0\0",
    ] {
        play.all_unmoved(&[&format!("outside 0 {}", x(handed))], "-22 0");
    }
    for place in 0..40 {
        play.all_unmoved(&[&zero_at(place, 40)], "-22 0");
        play.all_unmoved(&[&zero_at(place, place + 1)], "-22 0");
    }
    for place in [0, 1, 479, 480, 943, 944, 958, 959] {
        play.all_unmoved(&[&zero_at(place, 960), &zero_at(place, 961)], "-22 0");
    }
    play.all_unmoved(&[&zero_at(960, 961)], "-22 0");
    for count in [960, 961] {
        play.all_unmoved(&[&format!("outside 0 {}", many(0, count))], "-22 0");
    }
    // Two records of 34 bytes, as before; 960 bytes without a zero are still taken, 961 are not.
    play.is("numbers", "0 68 0 2 0 0 0 7 1 -");
    play.is("check", "fine");
    play.all_unmoved(&[&format!("outside 0 {}", many(b'p', 961))], "-22 0");
    play.is(&format!("outside 0 {}", many(b'p', 960)), "960 2");
    for byte in 1..=255 {
        let mut play = Play::new(&["log 1024 0"]);
        play.is(&format!("outside 0 {byte:02x}"), "1 0");
    }
}

#[test]
fn einval_on_a_short_buffer() {
    let mut play = played();
    play.all_unmoved(&["read 0 20", "read 0 0"], "-22 0 -");
    play.is(
        "read 0 21",
        &format!("21 0 {}", x("12,0,0,-,caller=0;ab\n")),
    );
}

#[test]
fn efault() {
    let mut play = played();
    play.all_unmoved(
        &[
            "command 2 1 1 0 0",
            "command 3 15 1 0 14",
            "command 4 15 1 0 14",
            "command 2 2147483647 1 0 300000",
        ],
        "-14 -",
    );
    // After -22, before -11.
    play.is(
        "command 2 14 1 0 14",
        &format!("14 {}", x("<12>ab\n<12>cd\n")),
    );
    play.all_unmoved(&["command 2 -1 1 0 0"], "-22 -");
    play.all_unmoved(&["command 2 5 1 0 4"], "-14 -");
    play.all_unmoved(&["command 2 5 1 0 5"], "-11 -");
    // Other types have no lent bytes.
    play.is("command 9 99 1 0 0", "0 -");
    play.is("command 5 99 1 0 0", "0 -");
    play.is("command 8 5 1 0 0", "0 -");
}

#[test]
fn eoverflow() {
    let mut play = Play::new(&["log 1024 0", "reader"]);
    play.is("number first 18446744073709551614", "set");
    play.is("number next 18446744073709551614", "set");
    play.is("check", "fine");
    play.is("outside 0 61", "1 0");
    play.is(
        "numbers",
        "0 33 18446744073709551614 18446744073709551615 0 0 0 7 1 -",
    );
    play.all_unmoved(&["outside 0 61", "box 1 1 0 61 -"], "-75 0");
    // After -22.
    let over = format!("outside 0 {}", many(b'p', 961));
    play.all_unmoved(&[&over, "box 256 1 0 - -"], "-22 0");
    for zero in [zero_at(0, 1), zero_at(959, 960), zero_at(0, 961)] {
        play.all_unmoved(&[&zero], "-22 0");
    }
    play.all_unmoved(&["box 1 1 0 00 -"], "-75 0");
    play.is("read 0 5000", "-32 18446744073709551614 -");
    let line = "12,18446744073709551614,0,-,caller=0;a\n";
    play.is("read 0 5000", &format!("{} 0 {}", line.len(), x(line)));
    play.is("read 0 5000", "-11 0 -");
    play.is("command 2 9 1 0 9", &format!("6 {}", x("<12>a\n")));
    play.is(
        "numbers",
        &format!("0 33 18446744073709551614 {TOP} 0 {TOP} 0 7 1 -"),
    );
    play.is("check", "fine");
}

#[test]
fn epipe() {
    let mut play = played();
    play.is(&format!("outside 0 {}", many(b'p', 960)), "960 2");
    let before = play.ask("numbers");
    // Before -22, also with no room at all.
    play.is("read 0 0", "-32 2 -");
    play.is("where 0", "2");
    play.is("numbers", &before);
    play.is("read 0 0", "-22 0 -");
    // Before -11: an empty log that starts at 5.
    let mut play = Play::new(&["log 1024 0", "reader"]);
    play.is("number next 5", "set");
    play.is("number first 5", "set");
    play.is("read 0 0", "-32 5 -");
    play.is("read 0 0", "-11 0 -");
    play.is("command 2 1 1 0 1", "-11 -");
    play.is("numbers", "0 0 5 5 0 0 0 7 1 -");
}

#[test]
fn eagain() {
    let mut play = played();
    play.is("seek 0 0 2", "0");
    play.all_unmoved(&["read 0 5000", "read 0 0"], "-11 0 -");
    play.is(
        "command 2 14 1 0 14",
        &format!("14 {}", x("<12>ab\n<12>cd\n")),
    );
    play.all_unmoved(&["command 2 1 1 0 1", "command 2 99 1 1 99"], "-11 -");
    play.all_unmoved(&["command 2 0 1 0 0", "command 2 0 1 0 9"], "0 -");
}
