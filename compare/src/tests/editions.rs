//! What scripts meet of trails of either edition.

use super::scripts::script_of;
use crate::answer::{Machine, LINE};
use crate::script::{write_all_editions, Kind};
use crate::trail::{crc, BLOCK, CHECKED, PAYLOAD};
use std::collections::BTreeMap;

/// What a file's blocks say, and whether each has its right check.
fn blocks(file: &[u8]) -> Vec<(u16, u16, bool)> {
    let narrow = |block: &[u8], at| u16::from_le_bytes([block[at], block[at + 1]]);
    file.chunks_exact(BLOCK)
        .map(|block| {
            let check = crc(&block[..CHECKED]).to_le_bytes();
            (
                narrow(block, 6),
                narrow(block, 4),
                block[CHECKED..] == check,
            )
        })
        .collect()
}

fn name(edition: u16) -> &'static str {
    match edition {
        0 => "0",
        1 => "1",
        2 => "2",
        65_535 => "65535",
        _ => "other",
    }
}

/// How often a script's readers come to each case.
fn met_by(script: &[u8]) -> BTreeMap<String, u64> {
    let mut met = BTreeMap::new();
    let mut note = |case: String| *met.entry(case).or_insert(0u64) += 1;
    let mut machine = Machine::default();
    let mut patched = false;
    // Where the next record begins in the payload, and whether the last one was told.
    let (mut place, mut told) = (0, false);
    for line in script.split(|&b| b == b'\n') {
        assert!(line.len() <= LINE);
        let answer = machine.answer(line);
        assert!(!answer.ends_with("CHANGED"), "{answer}");
        let line = String::from_utf8_lossy(line);
        let words: Vec<&str> = line.split(' ').collect();
        let said: Vec<&str> = answer.split(' ').collect();
        match (words[0], said[0]) {
            (_, "?" | "room") => (),
            ("patch", _) => patched = true,
            ("disk" | "cut", _) => patched = false,
            ("trail", _) => {
                patched = false;
                (place, told) = (0, false);
            }
            ("next", "record") => {
                assert!(!patched);
                let edition = said[8];
                let heading = if edition == "0" { 24 } else { 32 };
                let bulk: usize = [said[5], said[6]]
                    .iter()
                    .map(|hex| if *hex == "-" { 0 } else { hex.len() / 2 })
                    .sum();
                let before = PAYLOAD - place % PAYLOAD;
                if before < heading {
                    note(format!("heading {edition} over a border, {before} before"));
                }
                if before < heading + bulk {
                    note(format!("record {edition} over a border"));
                }
                assert!(edition != "0" || said[7] == "0");
                if said[7] != "0" {
                    note("a caller that is not 0".into());
                }
                note(format!("record of edition {edition}, flag {}", said[4]));
                place += heading + bulk;
            }
            ("next", _) if told => (),
            ("next", last) => {
                assert!(!patched);
                told = true;
                let blocks = blocks(machine.file.as_ref().unwrap());
                let first = blocks.first().map_or("none", |block| name(block.0));
                let reason = said.get(1).copied().unwrap_or("");
                note(format!("{last} {reason} in edition {first}"));
                if reason == "edition" {
                    let at: usize = said[2].parse().unwrap();
                    let (edition, count, checked) = blocks[at];
                    let check = if checked { "right" } else { "wrong" };
                    note(format!("{first} then {}, {check} check", name(edition)));
                    note(format!("first block wrong {}", at == 0));
                    if count > PAYLOAD as u16 {
                        note(format!("edition before a count in {first}"));
                    }
                }
                if reason == "count" {
                    let at: usize = said[2].parse().unwrap();
                    note(format!("count {} in edition {first}", blocks[at].1));
                }
            }
            _ => (),
        }
    }
    met
}

#[track_caller]
fn often(met: &BTreeMap<String, u64>, least: u64, cases: &[&str]) {
    for case in cases {
        let count = met.get(*case).copied().unwrap_or(0);
        assert!(count >= least, "{case}: {count}");
    }
}

fn met_in(kind: Kind, seeds: u64) -> BTreeMap<String, u64> {
    let mut met = BTreeMap::new();
    for seed in 0..seeds {
        for (case, count) in met_by(&script_of(kind, seed, 6_000)) {
            *met.entry(case).or_insert(0) += count;
        }
    }
    met
}

const ENDS: &[&str] = &[
    "end  in edition 0",
    "end  in edition 1",
    "stop number in edition 0",
    "stop number in edition 1",
    "stop save in edition 0",
    "stop save in edition 1",
    "stop edition in edition 0",
    "stop edition in edition 1",
    "stop count in edition 0",
    "stop count in edition 1",
    "stop check in edition 0",
    "stop check in edition 1",
    "stop record in edition 0",
    "stop record in edition 1",
    "stop unfinished in edition 0",
    "stop unfinished in edition 1",
];

const CHANGES: &[&str] = &[
    "0 then 1, right check",
    "0 then 1, wrong check",
    "1 then 0, right check",
    "1 then 0, wrong check",
    "0 then 2, right check",
    "1 then 65535, right check",
    "2 then 2, right check",
    "65535 then 65535, right check",
    "other then other, right check",
    "first block wrong true",
    "first block wrong false",
];

/// Scripts of editions alone have as many lines as wanted, and meet all that there is.
#[test]
fn editions_runs() {
    let whole = script_of(Kind::Editions, 3, 700);
    for lines in 0..700 {
        let script = script_of(Kind::Editions, 3, lines);
        assert!(whole.starts_with(&script));
        let count = script.iter().filter(|&&b| b == b'\n').count();
        assert_eq!(count as u64, lines);
    }
    let met = met_in(Kind::Editions, 5);
    often(&met, 8, ENDS);
    often(&met, 4, CHANGES);
    for edition in ["0", "1"] {
        often(
            &met,
            100,
            &[
                &format!("record of edition {edition}, flag 45"),
                &format!("record of edition {edition}, flag 99"),
                &format!("record {edition} over a border"),
            ],
        );
        often(
            &met,
            2,
            &[
                &format!("count 497 in edition {edition}"),
                &format!("count 65535 in edition {edition}"),
                &format!("edition before a count in {edition}"),
            ],
        );
    }
    for before in 1..24 {
        often(
            &met,
            2,
            &[&format!("heading 0 over a border, {before} before")],
        );
    }
    for before in 1..32 {
        often(
            &met,
            1,
            &[&format!("heading 1 over a border, {before} before")],
        );
    }
    often(&met, 300, &["a caller that is not 0"]);
}

/// Trails of other scripts meet both editions too.
#[test]
fn editions_in_trail_scripts() {
    let met = met_in(Kind::Trail, 5);
    often(&met, 4, ENDS);
    often(
        &met,
        4,
        &[
            "0 then 1, right check",
            "1 then 0, right check",
            "first block wrong true",
            "a caller that is not 0",
        ],
    );
    often(
        &met,
        100,
        &["record of edition 0, flag 45", "record 0 over a border"],
    );
}

/// Every choice of editions over one to three blocks: what each file is told as is known from its
/// editions and its one fault.
#[test]
fn all_editions() {
    let mut script = Vec::new();
    write_all_editions(&mut script).unwrap();
    let text = String::from_utf8(script.clone()).unwrap();
    assert!(text.lines().count() <= 30_000);
    // 4, 16 and 64 choices, each twice without a fault and seven times for each block.
    let files = 4 * (2 + 7) + 16 * (2 + 14) + 64 * (2 + 21);
    assert_eq!(text.matches("disk ").count(), files);
    let met = met_by(&script);
    let told: u64 = met
        .iter()
        .filter(|(case, _)| case.starts_with("end ") || case.starts_with("stop "))
        .map(|(_, count)| count)
        .sum();
    assert_eq!(told, files as u64);
    // Without a fault: 1 of 4, 16 and 64 begins with 0 and goes on so, twice for both layouts.
    often(&met, 3 * 2, &["end  in edition 0", "end  in edition 1"]);
    // Half of all begin with an edition that there is none of; two of the seven faults in the
    // first block are told before it, and no wrong save number is.
    let half = files as u64 / 2 - 2 * (2 + 8 + 32);
    let first = met["stop edition in edition 2"] + met["stop edition in edition 65535"];
    assert_eq!(first, half);
    often(&met, 10, &CHANGES[..4]);
    for reason in ["number", "save", "count", "check", "edition"] {
        for edition in ["0", "1"] {
            often(&met, 10, &[&format!("stop {reason} in edition {edition}")]);
        }
    }
}
