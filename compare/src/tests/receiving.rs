//! The receiving end: refusals 1 to 10, and what is accepted.

use super::{many, x, Play};
use crate::board::{Board, BOARD};
use crate::message::read_line;

/// Both the line reader and a fresh board give this refusal.
#[track_caller]
fn refused(message: &[u8], number: u32) {
    let hex = crate::answer::hex(message);
    let mut play = Play::new(&["board 165"]);
    play.is(&format!("line {hex}"), &number.to_string());
    play.is(&format!("deliver {hex}"), &number.to_string());
    for channel in 16..24 {
        play.is(&format!("slot {channel}"), "nothing 0");
    }
}

/// The line reader takes the message apart so.
#[track_caller]
fn read(message: &[u8], wanted: &str) {
    let mut play = Play::new(&[]);
    play.is(&format!("line {}", crate::answer::hex(message)), wanted);
}

#[test]
fn room_of_the_line_reader() {
    let good = b"134,7,1,-;1-0\n";
    for (result, block, wanted) in [
        (959, 48, 1),
        (0, 48, 1),
        (960, 47, 1),
        (960, 49, 1),
        (960, 0, 1),
        (960, 48, 0),
        (961, 48, 0),
    ] {
        let mut result = vec![165; result];
        let mut block = vec![165; block];
        assert_eq!(read_line(good, &mut result, &mut block), wanted);
        let untouched = |bytes: &[u8]| bytes.iter().all(|&b| b == 165);
        if wanted == 1 {
            assert!(untouched(&result) && untouched(&block));
        } else {
            assert_eq!(&result[..3], b"1-0");
            assert!(untouched(&result[3..]));
            let numbers = [134u64, 7, 1, 3, 0, 0].map(u64::to_le_bytes).concat();
            assert_eq!(block, numbers);
        }
    }
    // Before every other refusal.
    assert_eq!(read_line(b"", &mut [0; 959], &mut [0; 48]), 1);
    assert_eq!(read_line(&[0; 9_000], &mut [0; 960], &mut [0; 47]), 1);
}

#[test]
fn room_of_the_board() {
    for size in [0, BOARD - 1, BOARD + 1] {
        let mut board = Board::fresh(vec![0; size]);
        assert_eq!(board.deliver(b"134,7,1,-;1-0\n"), 1);
        assert_eq!(board.deliver(b""), 1);
    }
    let mut board = Board::fresh(vec![0; BOARD]);
    board.slots[7].length = 960;
    assert_eq!(board.deliver(b""), 3);
    board.slots[7].length = 961;
    assert_eq!(board.deliver(b"134,7,1,-;1-0\n"), 1);
    assert_eq!(board.deliver(b""), 1);
    assert_eq!(board.slots[0].number, None);
}

/// A message of so many bytes, by an added field.
fn padded(length: usize, text: &str) -> Vec<u8> {
    let rest = format!(";{text}\n");
    let mut message = b"134,7,1,-,".to_vec();
    message.resize(length - rest.len(), b'p');
    message.extend(rest.bytes());
    message
}

#[test]
fn long() {
    refused(&padded(8_193, "x"), 2);
    refused(&[b'x'; 8_193], 2);
    refused(&[0; 10_000], 2);
    read(&padded(8_192, "x"), "0 134 7 1 0 78 -");
}

#[test]
fn unended() {
    refused(b"", 3);
    refused(b"134,7,1,-;1-0", 3);
    refused(b"x", 3);
    refused(b"134,7,1,-;1-0\n k=v", 3);
    refused(&[b'x'; 8_192], 3);
}

#[test]
fn header() {
    refused(b"\n", 4);
    refused(b"\n\n", 4);
    refused(b";\n", 4);
    refused(b"134,7,1,-\n", 4);
    refused(b"134,7,1,-\n;x\n", 4);
    refused(b"134,7,1;x\n", 4);
    refused(b"134,7,1;,-;x\n", 4);
    refused(b"134,7,1,;x\n", 4);
    refused(b"134,7,1,,caller=T1;x\n", 4);
    refused(b",,,;\n", 4);
    // Before a bad number or byte.
    refused(b"a,b,c,;\x00\n", 4);
    // An empty added field is none of its business.
    read(b"134,7,1,-,;x\n", "0 134 7 1 0 78 -");
    read(b"134,7,1,-,,,;x\n", "0 134 7 1 0 78 -");
}

#[test]
fn number() {
    for prefix in [
        "",
        "06",
        "00",
        "+6",
        "-6",
        " 6",
        "6 ",
        "2048",
        "0x6",
        "6a",
        "99999999999999999999999",
    ] {
        refused(format!("{prefix},7,1,-;x\n").as_bytes(), 5);
    }
    for wide in [
        "",
        "01",
        "00",
        "+1",
        "-1",
        "1 ",
        "18446744073709551616",
        "1e3",
        "20000000000000000000",
    ] {
        refused(format!("134,{wide},1,-;x\n").as_bytes(), 5);
        refused(format!("134,7,{wide},-;x\n").as_bytes(), 5);
    }
    refused(b",,,-;\n", 5);
    // Before a bad byte.
    refused(b"134,07,1,-;\x7f\n", 5);
    read(b"0,0,0,-;\n", "0 0 0 0 0 - -");
    let top = "18446744073709551615";
    read(
        format!("2047,{top},{top},-;x\n").as_bytes(),
        &format!("0 2047 {top} {top} 0 78 -"),
    );
}

#[test]
fn byte() {
    let bad: &[&[u8]] = &[
        b"\x1f", b"\x7f", b"\x80", b"\xff", b"\x00", b"\t", b"\r", b"\\", b"\\x", b"\\x4",
        b"\\X41", b"\\x4A", b"\\xA4", b"\\xg0", b"\\x0g", b"\\n", b"\\\\", b"a\\x4", b"\\x41\\",
    ];
    for bad in bad {
        refused(&[b"134,7,1,-;", *bad, b"\n"].concat(), 6);
        refused(&[b"134,7,1,-;x\n k=", *bad, b"\n"].concat(), 6);
        // Also where an entry before it is bad.
        refused(&[b"134,7,1,-;x\nk\n k=", *bad, b"\n"].concat(), 6);
    }
    // An escape does not go on over a newline.
    refused(b"134,7,1,-;\\\nx41\n", 6);
    refused(b"134,7,1,-;\\x4\n1\n", 6);
    // Before ';' any bytes may stand.
    read(b"134,7,1,\x7f\\,\x00\xff;x\n", "0 134 7 1 3 78 -");
    read(
        b"134,7,1,-; ~\\x41\\x7f\\x5c\\x00\\x0a\n",
        "0 134 7 1 0 207e417f5c000a -",
    );
}

#[test]
fn entry() {
    let bad: &[&[u8]] = &[
        b"a=b",
        b"",
        b" ",
        b" =",
        b" =b",
        b" ab",
        b" \\x3d",
        b" \\x3da=",
        b" a\\x00=b",
        b" a=\\x00",
        b"\\x20a=b",
        b"=",
        b"  ",
    ];
    for bad in bad {
        refused(&[b"134,7,1,-;x\n", *bad, b"\n"].concat(), 7);
        refused(&[b"134,7,1,-;x\n k=v\n", *bad, b"\n k=v\n"].concat(), 7);
    }
    // Before too much bulk.
    let bulk = vec![b'x'; 961];
    refused(&[b"134,7,1,-;", &bulk[..], b"\n\n"].concat(), 7);
    let message = b"134,7,1,-;x\n a\\x3db\n  =\n a==\\x0a\n";
    let dictionary = x("a=b\0 =\0a==\n");
    read(message, &format!("0 134 7 1 0 78 {dictionary}"));
}

#[test]
fn bulk() {
    let text = |length: usize| vec![b'x'; length];
    refused(&[b"134,7,1,-;", &text(961)[..], b"\n"].concat(), 8);
    refused(&[b"134,7,1,-;", &text(959)[..], b"\n k=\n"].concat(), 8);
    // The zero byte that parts two entries counts.
    refused(
        &[b"134,7,1,-;", &text(956)[..], b"\n a=\n b=\n"].concat(),
        8,
    );
    let wanted = format!("0 134 7 1 0 {} {}", many(b'x', 955), x("a=\0b="));
    read(
        &[b"134,7,1,-;", &text(955)[..], b"\n a=\n b=\n"].concat(),
        &wanted,
    );
    let wanted = format!("0 134 7 1 0 {} -", many(b'x', 960));
    read(&[b"134,7,1,-;", &text(960)[..], b"\n"].concat(), &wanted);
    // Bytes are counted once unescaped.
    let message = format!("134,7,1,-;{}\n", "\\x78".repeat(960));
    read(message.as_bytes(), &wanted);
    let message = format!("134,7,1,-;{}\n", "\\x78".repeat(961));
    refused(message.as_bytes(), 8);
    // Before a facility without channel.
    refused(&[b"6,7,1,-;", &text(961)[..], b"\n"].concat(), 8);
}

#[test]
fn channel() {
    let mut play = Play::new(&["board 0"]);
    for prefix in [0, 6, 127, 192, 2_047] {
        play.is(
            &format!("deliver {}", x(&format!("{prefix},7,1,-;x\n"))),
            "9",
        );
    }
    for prefix in [128, 135, 136, 191] {
        let line = format!("deliver {}", x(&format!("{prefix},{prefix},1,-;x\n")));
        play.is(&line, "0");
    }
    play.is("slot 16", "135 1 78");
    play.is("slot 17", "136 1 78");
    play.is("slot 18", "nothing 0");
    play.is("slot 23", "191 1 78");
}

#[test]
fn late() {
    let mut play = Play::new(&["board 0"]);
    play.is(&format!("deliver {}", x("134,9,9000,-;new\n")), "0");
    play.is(&format!("deliver {}", x("134,9,9000,-;new\n")), "10");
    play.is(&format!("deliver {}", x("128,9,9999,-;other\n")), "10");
    play.is(&format!("deliver {}", x("134,8,9999,-;old\n")), "10");
    play.is("slot 16", &format!("9 3 {}", x("new")));
    // Another channel goes by its own numbers; the first number may be 0.
    play.is(&format!("deliver {}", x("142,0,1,-;\n")), "0");
    play.is("slot 17", "0 0 -");
    play.is(&format!("deliver {}", x("142,0,1,-;\n")), "10");
    // Time does not decide.
    play.is(&format!("deliver {}", x("134,10,1,-;newer\n")), "0");
    play.is("slot 16", &format!("10 5 {}", x("newer")));
    let top = "18446744073709551615";
    play.is(
        &format!("deliver {}", x(&format!("134,{top},1,-;end\n"))),
        "0",
    );
    play.is(
        &format!("deliver {}", x(&format!("134,{top},1,-;end\n"))),
        "10",
    );
}

#[test]
fn flags() {
    for (flag, wanted) in [
        ("-", 0),
        ("c", 1),
        ("+", 2),
        ("x", 3),
        ("--", 3),
        ("C", 3),
        (" -", 3),
    ] {
        let message = format!("134,7,1,{flag};x\n");
        read(message.as_bytes(), &format!("0 134 7 1 {wanted} 78 -"));
    }
}

#[test]
fn commas_and_semicolons_in_the_text() {
    read(
        b"134,7,1,-;a,b;c,d\n",
        &format!("0 134 7 1 0 {} -", x("a,b;c,d")),
    );
    read(b"134,7,1,-;;\n", "0 134 7 1 0 3b -");
}

#[test]
fn the_board_keeps_text_alone() {
    let mut board = Board::fresh(vec![9; BOARD]);
    assert_eq!(board.deliver(b"143,5,1,-;first\n k=v\n"), 0);
    assert_eq!(board.deliver(b"143,6,1,-;ab\n"), 0);
    let mut wanted = vec![9; BOARD];
    wanted[960..965].copy_from_slice(b"abrst");
    assert_eq!(board.buffer, wanted);
    assert_eq!((board.slots[1].number, board.slots[1].length), (Some(6), 2));
    assert_eq!((board.slots[0].number, board.slots[0].length), (None, 0));
    let full = [&b"191,1,1,-;"[..], &[b'z'; 960][..], b"\n"].concat();
    assert_eq!(board.deliver(&full), 0);
    wanted[6_720..].fill(b'z');
    assert_eq!(board.buffer, wanted);
}
