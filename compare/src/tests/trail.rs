//! Saved trails of both editions. The checks of blocks come from zlib, but where a block is sealed.

use super::{many, Play};
use crate::answer::{hex, unhex};
use crate::trail::{crc, image};

const X: &str = "record 0 0 12 45 78 - 0 1";
const Y: &str = "record 1 0 12 45 79 - 0 1";
/// The records of x and y as they lie in the payload.
const X_BYTES: &str = "00000000000000000000000000000000010000000c002d00000000000000000078";
const Y_BYTES: &str = "00000000000000000100000000000000010000000c002d00000000000000000079";

/// The same in an older trail.
const OLD_X: &str = "record 0 0 12 45 78 - 0 0";
const OLD_Y: &str = "record 1 0 12 45 79 - 0 0";
const OLD_X_BYTES: &str = "00000000000000000000000000000000010000000c002d0078";
const OLD_Y_BYTES: &str = "00000000000000000100000000000000010000000c002d0079";

/// A whole file of the records x and y: one block, save number 7.
fn two_records() -> Play {
    let mut play = Play::new(&["log 1024 0", "outside 0 78", "outside 0 79"]);
    let spare = many(0, 430);
    let block = format!("000000004200010007000000{X_BYTES}{Y_BYTES}{spare}ec47bf3c");
    play.is("save 7 512", &format!("512 {block}"));
    play.is("disk 0 0", "disk");
    play.is("cut 1", "cut 512");
    play
}

/// The same in an older trail, which no save writes.
fn two_old_records() -> Play {
    let spare = many(0, 446);
    let block = format!("000000003200000007000000{OLD_X_BYTES}{OLD_Y_BYTES}{spare}52f02ac0");
    Play::new(&["disk 512 0", &format!("patch 0 {block}")])
}

/// A file of two full blocks, each with one record.
fn two_blocks() -> Play {
    let a = format!("outside 0 {}", many(b'a', 464));
    let b = format!("outside 0 {}", many(b'b', 464));
    let mut play = Play::new(&["log 1024 0", &a, &b, "save 7 1024", "disk 0 0"]);
    play.is("cut 9", "cut 1024");
    play
}

fn full(number: u64, byte: u8) -> String {
    format!("record {number} 0 12 45 {} - 0 1", many(byte, 464))
}

/// The same in an older trail, whose headings leave more room for text.
fn two_old_blocks() -> Play {
    let heading = |number| format!("0000000000000000{number:02x}00000000000000d80100000c002d00");
    let payload = [(0, b'a'), (1, b'b')]
        .map(|(number, byte)| heading(number) + &many(byte, 472))
        .concat();
    let file = image(&unhex(&payload).unwrap(), 7, 0);
    assert_eq!(file.len(), 1_024);
    Play::new(&["disk 1024 0", &format!("patch 0 {}", hex(&file))])
}

fn old_full(number: u64, byte: u8) -> String {
    format!("record {number} 0 12 45 {} - 0 0", many(byte, 472))
}

impl Play {
    /// After these patches a fresh reader says this, and the last of it again and again.
    #[track_caller]
    fn reads(&mut self, patches: &[&str], wanted: &[&str]) {
        for patch in patches {
            self.is(&format!("patch {patch}"), "patched");
        }
        self.is("trail", "trail");
        for answer in wanted {
            self.is("next 959", "room");
            self.is("next 960", answer);
        }
        self.is("next 0", "room");
        self.is("next 5000", wanted[wanted.len() - 1]);
    }

    /// The same with the blocks' checks put right behind the patches.
    #[track_caller]
    fn reads_sealed(&mut self, patches: &[&str], wanted: &[&str]) {
        for patch in patches {
            self.is(&format!("patch {patch}"), "patched");
        }
        let file = self.0.file.clone().unwrap();
        for (i, block) in file.chunks_exact(512).enumerate() {
            let check = hex(&crc(&block[..508]).to_le_bytes());
            self.is(&format!("patch {} {check}", 512 * i + 508), "patched");
        }
        self.reads(&[], wanted);
    }
}

#[test]
fn checks() {
    assert_eq!(crc(b"123456789"), 0xcbf4_3926);
    assert_eq!(crc(b""), 0);
    assert_eq!(crc(b"\0"), 0xd202_ef8d);
    assert_eq!(crc(&[255; 4]), u32::MAX);
}

#[test]
fn an_empty_log_is_one_block() {
    let mut play = Play::new(&["log 1024 9"]);
    let rest = many(0, 496);
    play.is(
        "save 7 512",
        &format!("512 000000000000010007000000{rest}f3d6bce5"),
    );
    play.is(
        "save 0 513",
        &format!("512 000000000000010000000000{rest}84724c32"),
    );
    play.is(
        "save 4294967295 90000",
        &format!("512 0000000000000100ffffffff{rest}013430cf"),
    );
    play.all(&["save 7 511", "save 7 1", "save 7 0"], "-14 -");
    play.is("disk 0 0", "disk");
    play.is("cut 1", "cut 512");
    play.reads(&[], &["end"]);
    // The same block as an older save would have it.
    play.is(
        &format!("patch 0 000000000000000007000000{rest}23c94bd8"),
        "patched",
    );
    play.reads(&[], &["end"]);
}

#[test]
fn a_record_over_two_blocks() {
    let mut play = Play::new(&["log 1024 0"]);
    let text = many(b'a', 957);
    play.is(&format!("box 16 6 5000999 {text} 6b3d76"), "960 0");
    let heading = "274f4c00000000000000000000000000bd03030086002d000000000000000000";
    // 32 and 960 bytes fill both blocks.
    let first = format!(
        "00000000f001010009000000{heading}{}a237c337",
        many(b'a', 464)
    );
    let second = format!("01000000f001010009000000{}6b3d768fe5f34b", many(b'a', 493));
    play.all(&["save 9 1023", "save 9 512"], "-14 -");
    play.is("save 9 1024", &format!("1024 {first}{second}"));
    play.is("disk 0 0", "disk");
    play.is("cut 1", "cut 512");
    play.reads(&[], &["stop unfinished 0"]);
    play.is("cut 2", "cut 1024");
    let record = format!("record 0 5000999 134 45 {text} 6b3d76 0 1");
    play.reads(&[], &[&record, "end"]);
}

#[test]
fn full_blocks_end_with_the_file() {
    let mut play = two_blocks();
    let (a, b) = (full(0, b'a'), full(1, b'b'));
    play.reads(&[], &[&a, &b, "end"]);
    for (length, last) in [(1_535, "end"), (1_536, "stop number 2")] {
        play.is(&format!("disk {length} 0"), "disk");
        play.is("cut 2", &format!("cut {length}"));
        play.reads(&[], &[&a, &b, last]);
    }
    two_old_blocks().reads(&[], &[&old_full(0, b'a'), &old_full(1, b'b'), "end"]);
}

#[test]
fn a_log_that_fails_is_not_saved() {
    let mut play = two_records();
    play.is("number console 0", "set");
    play.all(&["save 1 0", "save 1 512", "save 1 90000"], "-77 -");
    play.is("cut 1", "cut 512");
    play.reads(&[], &[X, Y, "end"]);
    play.is("number console 1", "set");
    play.is("outside 0 7a", "1 0");
    play.is("save 8 511", "-14 -");
    play.is("cut 1", "cut 512");
    play.reads(&[], &[X, Y, "end"]);
}

#[test]
fn files_too_short_for_a_block() {
    let mut play = Play::new(&[]);
    for (length, answer) in [
        (0, "end"),
        (511, "end"),
        (512, "stop check 0"),
        (513, "stop check 0"),
    ] {
        play.is(&format!("disk {length} 0"), "disk");
        play.reads(&[], &[answer]);
    }
    play.is("disk 512 1", "disk");
    play.reads(&[], &["stop number 0"]);
}

#[test]
fn blocks_that_are_wrong() {
    let a = full(0, b'a');
    for (patches, answer) in [
        (&["512 02"][..], "stop number 1"),
        (&["515 80"], "stop number 1"),
        (&["520 08"], "stop save 1"),
        (&["523 01"], "stop save 1"),
        (&["518 00"], "stop edition 1"),
        (&["518 02"], "stop edition 1"),
        (&["519 01"], "stop edition 1"),
        (&["518 ffff"], "stop edition 1"),
        (&["516 f101"], "stop count 1"),
        (&["517 03"], "stop count 1"),
        (&["516 ffff"], "stop count 1"),
        (&["516 ef01"], "stop check 1"),
        (&["524 01"], "stop check 1"),
        (&["1020 00"], "stop check 1"),
        (&["512 02", "520 08"], "stop number 1"),
        (&["512 02", "518 00"], "stop number 1"),
        (&["520 08", "518 00"], "stop save 1"),
        (&["520 08", "516 f101"], "stop save 1"),
        (&["518 00", "516 f101"], "stop edition 1"),
        (&["518 00", "1020 00"], "stop edition 1"),
        (&["516 f101", "1020 00"], "stop count 1"),
        (
            &["512 02", "520 08", "518 02", "516 f101", "1020 00"],
            "stop number 1",
        ),
        (&["520 08", "518 02", "516 f101", "1020 00"], "stop save 1"),
        (&["518 02", "516 f101", "1020 00"], "stop edition 1"),
    ] {
        two_blocks().reads(patches, &[&a, answer]);
    }
    for (patch, answer) in [
        ("0 01", "stop number 0"),
        ("6 02", "stop edition 0"),
        ("7 01", "stop edition 0"),
        ("6 ffff", "stop edition 0"),
        ("6 00", "stop check 0"),
        ("4 f101", "stop count 0"),
        ("4 ffff", "stop count 0"),
        ("8 08", "stop check 0"),
    ] {
        two_blocks().reads(&[patch], &[answer]);
    }
    for (patches, answer) in [
        (["0 01", "6 02"], "stop number 0"),
        (["6 02", "4 f101"], "stop edition 0"),
        (["6 02", "508 00"], "stop edition 0"),
        (["6 00", "4 f101"], "stop count 0"),
    ] {
        two_blocks().reads(&patches, &[answer]);
    }
}

#[test]
fn blocks_of_older_trails_that_are_wrong() {
    let a = old_full(0, b'a');
    for (patches, answer) in [
        (&["512 02", "518 01"][..], "stop number 1"),
        (&["520 08", "518 01"], "stop save 1"),
        (&["518 01"], "stop edition 1"),
        (&["518 02", "516 f101"], "stop edition 1"),
        (&["519 01", "1020 00"], "stop edition 1"),
        (&["516 f101", "1020 00"], "stop count 1"),
        (&["516 ef01"], "stop check 1"),
    ] {
        two_old_blocks().reads(patches, &[&a, answer]);
    }
}

/// One good block of each edition, and of editions that there are none of.
#[test]
fn the_first_blocks_edition() {
    two_records().reads(&[], &[X, Y, "end"]);
    two_old_records().reads(&[], &[OLD_X, OLD_Y, "end"]);
    for patches in [
        ["6 0200", "508 9c67a67a"],
        ["6 ffff", "508 a70ee3ff"],
        ["6 0001", "508 595fc22e"],
    ] {
        two_records().reads(&patches, &["stop edition 0"]);
    }
    for patches in [["6 0200", "508 f2cfc4bb"], ["6 ffff", "508 c9a6813e"]] {
        two_old_records().reads(&patches, &["stop edition 0"]);
    }
    // New headings taken for old ones: the text is the caller's first byte, and the second heading
    // begins eight bytes early. Old ones taken for new: "x" is in the caller, and 17 bytes are left.
    two_records().reads(
        &["6 00", "508 3c584801"],
        &["record 0 0 12 45 00 - 0 0", "stop record 1"],
    );
    two_old_records().reads(
        &["6 01", "508 82efddfd"],
        &["record 0 0 12 45 00 - 120 1", "stop unfinished 1"],
    );
}

#[test]
fn an_edition_that_changes() {
    let (a, b) = (full(0, b'a'), full(1, b'b'));
    let (old_a, old_b) = (old_full(0, b'a'), old_full(1, b'b'));
    for edition in ["0000", "0200", "0001", "ffff"] {
        let patch = format!("518 {edition}");
        two_blocks().reads_sealed(&[&patch], &[&a, "stop edition 1"]);
    }
    for edition in ["0100", "0200", "0001", "ffff"] {
        let patch = format!("518 {edition}");
        two_old_blocks().reads_sealed(&[&patch], &[&old_a, "stop edition 1"]);
    }
    two_blocks().reads_sealed(&["518 0100"], &[&a, &b, "end"]);
    two_old_blocks().reads_sealed(&["518 0000"], &[&old_a, &old_b, "end"]);
    // A record that goes on in a block of another edition is not finished by it. Read as old, the
    // first block has eight bytes behind its record; read as new, its record is eight bytes longer.
    let short = format!("record 0 0 12 45 {}{} - 0 0", many(0, 8), many(b'a', 456));
    two_blocks().reads_sealed(&["6 0000"], &[&short, "stop edition 1"]);
    two_old_blocks().reads_sealed(
        &["6 0100", "36 00000000", "40 00000000"],
        &["stop edition 1"],
    );
}

#[test]
fn counts_of_both_editions() {
    let (a, b) = (full(0, b'a'), full(1, b'b'));
    let (old_a, old_b) = (old_full(0, b'a'), old_full(1, b'b'));
    for (count, last) in [
        ("f001", &[&a, &b, "end"][..]),
        ("f101", &[&a, "stop count 1"]),
        ("ffff", &[&a, "stop count 1"]),
        ("ef01", &[&a, "stop unfinished 1"]),
        ("0000", &[&a, "end"]),
    ] {
        two_blocks().reads_sealed(&[&format!("516 {count}")], last);
    }
    for (count, last) in [
        ("f001", &[&old_a, &old_b, "end"][..]),
        ("f101", &[&old_a, "stop count 1"]),
        ("ffff", &[&old_a, "stop count 1"]),
        ("ef01", &[&old_a, "stop unfinished 1"]),
        ("0000", &[&old_a, "end"]),
    ] {
        two_old_blocks().reads_sealed(&[&format!("516 {count}")], last);
    }
    for count in ["f101", "ffff", "f0f1"] {
        let patch = format!("4 {count}");
        two_blocks().reads_sealed(&[&patch], &["stop count 0"]);
        two_old_blocks().reads_sealed(&[&patch], &["stop count 0"]);
    }
}

#[test]
fn records_that_break_a_rule() {
    // The second record begins at 45: its number, lengths, prefix, flag, zero, and the four zeros.
    for patches in [
        ["53 02", "508 92b3ff40"],
        ["61 e001e101", "508 960fa65f"],
        ["65 0008", "508 e2633b62"],
        ["67 2b", "508 9193a8d3"],
        ["68 01", "508 acddd9f1"],
        ["73 01", "508 96221f8b"],
        ["74 80", "508 e4ca977b"],
        ["75 ff", "508 9716231c"],
        ["76 01", "508 71ae4ad3"],
    ] {
        two_records().reads(&patches, &[X, "stop record 1"]);
    }
    for (patches, caller) in [
        (["69 01", "508 1994238d"], "1"),
        (["72 80", "508 51756f67"], "2147483648"),
        (["69 ffffffff", "508 692aab3e"], "4294967295"),
    ] {
        let record = format!("record 1 0 12 45 79 - {caller} 1");
        two_records().reads(&patches, &[X, &record, "end"]);
    }
}

#[test]
fn records_of_older_trails_that_break_a_rule() {
    // The second record begins at 37, and its text behind 24 bytes.
    for patches in [
        ["45 02", "508 986abbda"],
        ["53 e001e101", "508 da181570"],
        ["57 0008", "508 8bd850ec"],
        ["59 2b", "508 6831a41c"],
        ["60 01", "508 e0db276d"],
    ] {
        two_old_records().reads(&patches, &[OLD_X, "stop record 1"]);
    }
    two_old_records().reads(
        &["61 ff", "508 4700c180"],
        &[OLD_X, "record 1 0 12 45 ff - 0 0", "end"],
    );
    // 'c' is a flag there too.
    two_old_records().reads_sealed(&["34 63"], &["record 0 0 12 99 78 - 0 0", OLD_Y, "end"]);
}

#[test]
fn records_that_are_unfinished() {
    for (patches, wanted) in [
        (["4 00", "508 14e6019e"], &["end"][..]),
        (["4 20", "508 f5436ec3"], &["stop unfinished 0"]),
        (["4 21", "508 e8b65ecf"], &[X, "end"]),
        (["4 40", "508 d6adde24"], &[X, "stop unfinished 1"]),
        (["4 41", "508 cb58ee28"], &[X, "stop unfinished 1"]),
        (["4 43", "508 f1b28f30"], &[X, Y, "stop unfinished 2"]),
        (["61 e001e001", "508 8e48a6e7"], &[X, "stop unfinished 1"]),
    ] {
        two_records().reads(&patches, wanted);
    }
    for (patches, wanted) in [
        (["4 00", "508 59ee2b46"], &["end"][..]),
        (["4 18", "508 6117a3e4"], &["stop unfinished 0"]),
        (["4 19", "508 7ce293e8"], &[OLD_X, "end"]),
        (["4 30", "508 681a4bd8"], &[OLD_X, "stop unfinished 1"]),
        (["4 31", "508 75ef7bd4"], &[OLD_X, "stop unfinished 1"]),
        (
            ["4 33", "508 4f051acc"],
            &[OLD_X, OLD_Y, "stop unfinished 2"],
        ),
    ] {
        two_old_records().reads(&patches, wanted);
    }
}

/// A heading is judged at its last byte, whichever that is: the 24th or the 32nd.
#[test]
fn the_last_byte_of_a_heading() {
    // The flag of the second record, at 45 + 22 or 37 + 22, is wrong.
    for count in 0x22..=0x42 {
        let last = match count {
            0x41.. => "stop record 1",
            _ => "stop unfinished 1",
        };
        two_records().reads_sealed(&["67 2b", &format!("4 {count:02x}")], &[X, last]);
    }
    for count in 0x1a..=0x32 {
        let last = match count {
            0x31.. => "stop record 1",
            _ => "stop unfinished 1",
        };
        two_old_records().reads_sealed(&["59 2b", &format!("4 {count:02x}")], &[OLD_X, last]);
    }
}

/// Callers go into the image and come back.
#[test]
fn callers_in_a_trail() {
    let mut play = Play::new(&["log 1024 0"]);
    for (line, answer) in [
        ("outside 0 61 0", "1 0"),
        ("outside 0 61 1", "1 0"),
        ("outside 0 61 4294967295", "1 0"),
        ("box 1 4 0 61 - 0 2147483648", "1 0"),
        ("box 1 4 0 61 - 1 16909060", "1 0"),
        ("box 1 4 0 61 - 1", "1 0"),
        ("save 7 512", ""),
    ] {
        let said = play.ask(line);
        assert!(said.starts_with(answer), "{line}: {said}");
    }
    play.is("disk 0 0", "disk");
    play.is("cut 1", "cut 512");
    play.reads(
        &[],
        &[
            "record 0 0 12 45 61 - 0 1",
            "record 1 0 12 45 61 - 1 1",
            "record 2 0 12 45 61 - 4294967295 1",
            "record 3 0 12 45 61 - 2147483648 1",
            "record 4 0 12 99 61 - 16909060 1",
            "record 5 0 12 99 61 - 0 1",
            "end",
        ],
    );
    // 16,909,060 is 01020304 in hex: lowest byte first, behind 4 x 33 and 24 bytes.
    play.is("peek 156 8", "0403020100000000");
}

#[test]
fn an_older_save_behind_a_cut() {
    let mut play = two_blocks();
    assert!(play.ask("save 8 1024").starts_with("1024 "));
    play.is("cut 1", "cut 1024");
    play.reads(&[], &[&full(0, b'a'), "stop save 1"]);
    // Behind it lies an older edition of another save: the save number is told.
    let mut play = two_old_blocks();
    play.is("log 1024 0", "log");
    play.is(&format!("outside 0 {}", many(b'a', 464)), "464 0");
    play.is("outside 0 62", "1 0");
    assert!(play.ask("save 8 1024").starts_with("1024 "));
    play.is("cut 1", "cut 1024");
    play.reads(&[], &[&full(0, b'a'), "stop save 1"]);
}

#[test]
fn what_was_never_made_or_is_gone() {
    let mut play = Play::new(&[]);
    let lines = ["save 1 512", "cut 1", "patch 0 00", "trail", "next 960"];
    play.all(&lines, "?");
    play.is("disk 512 0", "disk");
    play.all(&["save 1 512", "cut 1", "cut 0", "next 960"], "?");
    play.is("trail", "trail");
    play.all(&["cut 1", "disk 90001 0", "disk 0 256", "next 5001"], "?");
    play.is("next 960", "stop check 0");
    play.is("log 1024 0", "log");
    play.is("next 960", "stop check 0");
    play.is("disk 512 0", "disk");
    play.is("next 960", "?");

    let mut play = two_records();
    play.is("trail", "trail");
    play.is("next 960", X);
    play.is("log 1024 0", "log");
    play.is("next 960", Y);
    play.is("cut 0", "cut 512");
    play.is("next 960", "?");
    play.all(&["save 4294967296 512", "save 1 90001", "cut -1"], "?");
    play.all(&["patch 0 0", "patch -1 00", "trail 0", "next"], "?");
}
