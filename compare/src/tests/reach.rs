//! What scripts meet of texts of many lines, and that command 2 gives the same bytes cut or whole.

use super::scripts::script_of;
use crate::answer::{unhex, Machine};
use crate::log::{Log, EAGAIN};
use crate::record::Record;
use crate::script::{write_all_bytes, Kind};
use std::collections::BTreeMap;

/// Where in its form an offset lies: in the first line, or how far in a later one.
fn place_in(record: &Record, offset: usize) -> &'static str {
    let form = record.syslog();
    let Some(newline) = form[..offset].iter().rposition(|&b| b == b'\n') else {
        return "in the first line";
    };
    let line = &form[newline + 1..];
    let prefix = line.iter().position(|&b| b == b'>').unwrap() + 1;
    match offset - newline - 1 {
        0 => "behind a newline",
        inside if inside < prefix => "inside a later prefix",
        inside if inside == prefix => "behind a later prefix",
        _ => "in a later line",
    }
}

/// The held record where command 2 is, and the offset, which may be too high for it.
fn reading(log: &Log) -> Option<(Record, usize)> {
    let n = *log.numbers();
    let index = n.position.checked_sub(n.first)?;
    let mut other = log.clone();
    other.set_number("offset", 0);
    let record = other.records()?.get(index as usize)?.clone();
    Some((record, n.offset as usize))
}

/// Where in a record's form the last `count` of the bytes that command 3 has begin.
fn beginning(log: &mut Log, count: usize) -> &'static str {
    let n = *log.numbers();
    let from = n.first.max(n.clear) - n.first;
    let mut before = log.uncleared().unwrap().len() - count;
    for record in log.records().unwrap().range(from as usize..) {
        if before < record.syslog_length() {
            return place_in(record, before);
        }
        before -= record.syslog_length();
    }
    unreachable!("there are so many bytes")
}

/// How a text of many lines is parted; nothing for one line.
fn parted(text: &[u8]) -> Vec<&'static str> {
    let newlines = newlines(text);
    if newlines == 0 {
        return Vec::new();
    }
    let mut kinds = vec![if newlines < 4 { "few" } else { "many" }];
    kinds.extend((newlines == text.len()).then_some("only newlines"));
    kinds.extend(
        text.windows(4)
            .any(|bytes| bytes == b"\n<6>")
            .then_some("a prefix in a later line"),
    );
    kinds.extend(text.starts_with(b"\n").then_some("at the start"));
    kinds.extend(text.ends_with(b"\n").then_some("at the end"));
    kinds
}

fn newlines(text: &[u8]) -> usize {
    text.iter().filter(|&&b| b == b'\n').count()
}

/// All held newlines, if the offset is left out of the check.
fn held_newlines(log: &Log) -> Option<usize> {
    let mut other = log.clone();
    other.set_number("offset", 0);
    let records = other.records()?;
    Some(records.iter().map(|record| newlines(&record.text)).sum())
}

/// How often a script comes to each case in which lines matter.
fn met(script: &[u8]) -> BTreeMap<String, u64> {
    let mut cases = Vec::new();
    let mut machine = Machine::default();
    for line in script.split(|&b| b == b'\n') {
        let mut before = machine.log.clone();
        let answer = machine.answer(line);
        let (Some(before), Some(log)) = (&mut before, &mut machine.log) else {
            continue;
        };
        let line = String::from_utf8_lossy(line);
        let words: Vec<&str> = line.split(' ').collect();
        let first: &str = answer.split(' ').next().unwrap();
        let count: Option<usize> = first.parse().ok();
        match (&words[..], count) {
            ([word @ ("outside" | "box"), ..], Some(_)) => {
                cases.extend(
                    written(log)
                        .into_iter()
                        .map(|case| format!("{word}: {case}")),
                );
                let n = log.numbers();
                if let (Some((record, offset)), true) = (reading(before), n.first > n.position) {
                    cases.push(format!("dropped {}", place_in(&record, offset)));
                }
            }
            (["command", "2", ..], Some(1..)) => {
                if let Some((record, offset)) = reading(log) {
                    cases.push(format!("2 stops {}", place_in(&record, offset)));
                }
            }
            (["command", kind @ ("3" | "4"), ..], Some(count @ 1..)) => {
                cases.push(format!("{kind} begins {}", beginning(before, count)));
            }
            (["command", "9", ..], Some(444_213)) => cases.push("9 at its most".into()),
            (["command", "9", ..], Some(967..)) => cases.push("9 over 966".into()),
            (["check"], _) => cases.extend(checked(log).map(|case| format!("{case}: {first}"))),
            (["poke", ..], _) if answer == "poked" => {
                if let (true, Some(was), Some(is)) = (
                    before.check().is_ok(),
                    held_newlines(before),
                    held_newlines(log),
                ) {
                    let fine = log.check().is_ok();
                    let lines = if was < is { "more" } else { "fewer" };
                    if was != is {
                        cases.push(format!("poke, {lines} lines: {fine}"));
                    }
                }
            }
            _ => (),
        }
    }
    let mut met = BTreeMap::new();
    for case in cases {
        *met.entry(case).or_default() += 1;
    }
    met
}

/// What the newest record is a case of.
fn written(log: &mut Log) -> Vec<&'static str> {
    let text = log.records().unwrap().back().unwrap().text.clone();
    let dictionary = log.records().unwrap().back().unwrap().dictionary.len();
    let mut cases = parted(&text);
    let n = log.numbers();
    let capacity = log.bytes().len();
    // The bytes of the record that lie behind the buffer's end.
    let behind = (n.start + n.used) as usize % capacity;
    let text_behind = behind.saturating_sub(dictionary);
    if text_behind > 0 && text_behind < text.len() {
        let (here, there) = text.split_at(text.len() - text_behind);
        cases.extend(
            here.ends_with(b"\n")
                .then_some("newline before the buffer's end"),
        );
        cases.extend(
            there
                .starts_with(b"\n")
                .then_some("newline behind the buffer's end"),
        );
    }
    cases
}

/// What the offset at a check is a case of.
fn checked(log: &Log) -> Option<String> {
    let n = log.numbers();
    if n.position < n.first {
        return Some(format!("dropped, {}", n.offset));
    }
    let (record, offset) = reading(log)?;
    if newlines(&record.text) == 0 {
        return None;
    }
    let length = record.syslog_length();
    Some(match offset {
        _ if offset + 1 == length => "held, length less one".into(),
        _ if offset == length => "held, length".into(),
        _ if offset > length => "held, more".into(),
        _ => return None,
    })
}

/// Scripts of these seeds come to each of these cases so often.
fn reach(kind: Kind, seeds: u64, often: u64, cases: &[&str]) {
    let mut all = BTreeMap::new();
    for seed in 0..seeds {
        for (case, count) in met(&script_of(kind, seed, 6_000)) {
            *all.entry(case).or_default() += count;
        }
    }
    for case in cases {
        let count: u64 = all.get(*case).copied().unwrap_or(0);
        assert!(count >= often, "{case}: {count}");
    }
}

const TEXTS: &[&str] = &[
    "outside: few",
    "outside: many",
    "outside: only newlines",
    "outside: at the start",
    "outside: at the end",
    "outside: a prefix in a later line",
    "outside: newline before the buffer's end",
    "outside: newline behind the buffer's end",
    "box: few",
    "box: many",
    "box: only newlines",
    "box: at the start",
    "box: at the end",
    "box: a prefix in a later line",
    "box: newline before the buffer's end",
    "box: newline behind the buffer's end",
];

const COMMANDS: &[&str] = &[
    "2 stops behind a newline",
    "2 stops inside a later prefix",
    "2 stops behind a later prefix",
    "2 stops in a later line",
    "3 begins behind a newline",
    "3 begins inside a later prefix",
    "3 begins behind a later prefix",
    "4 begins behind a newline",
    "4 begins inside a later prefix",
    "9 over 966",
    "dropped behind a newline",
    "dropped inside a later prefix",
    "dropped behind a later prefix",
    "dropped in a later line",
];

const BY_HAND: &[&str] = &[
    "held, length less one: fine",
    "held, length: numbers",
    "held, more: numbers",
    "dropped, 966: fine",
    "dropped, 967: fine",
    "dropped, 6726: fine",
    "dropped, 6727: numbers",
    "dropped, 6728: numbers",
    "poke, more lines: true",
    "poke, fewer lines: true",
    "poke, fewer lines: false",
];

#[test]
fn lines_in_plain_scripts() {
    let cases = [TEXTS, COMMANDS, BY_HAND].concat();
    reach(Kind::Plain, 6, 2, &cases);
}

/// Scripts of lines alone have as many lines as wanted, and meet all that there is.
#[test]
fn lines_runs() {
    let whole = script_of(Kind::Lines, 3, 900);
    for lines in (0..900).step_by(11) {
        let script = script_of(Kind::Lines, 3, lines);
        assert!(whole.starts_with(&script));
        let count = script.iter().filter(|&&b| b == b'\n').count();
        assert_eq!(count as u64, lines);
    }
    let cases = [TEXTS, COMMANDS, BY_HAND].concat();
    reach(Kind::Lines, 3, 6, &cases);
    reach(Kind::Lines, 3, 1, &["9 at its most"]);
}

/// Every log of the script that reads each twice, byte by byte and in one, gives the same both
/// times; a byte moves the position by one.
#[test]
fn every_byte() {
    let mut script = Vec::new();
    write_all_bytes(&mut script).unwrap();
    let script = String::from_utf8(script).unwrap();
    assert!(script.lines().count() <= 30_000);
    let mut machine = Machine::default();
    let mut logs: Vec<(Vec<u8>, String)> = Vec::new();
    let mut stepped = 0;
    for line in script.lines() {
        let before = machine.log.as_ref().map(|log| *log.numbers());
        let answer = machine.answer(line.as_bytes());
        let words: Vec<&str> = answer.split(' ').collect();
        match line {
            "log 1024 10" => logs.push(Default::default()),
            "numbers" => logs.last_mut().unwrap().1 = answer,
            _ if line.starts_with("command 2 ") => {
                let given = unhex(words[1]).unwrap();
                let (old, new) = (before.unwrap(), machine.log.as_ref().unwrap().numbers());
                if given.len() == 1 && old.position >= old.first {
                    let on = (old.position, old.offset + 1);
                    let end = (old.position + 1, 0);
                    assert!([on, end].contains(&(new.position, new.offset)), "{line}");
                    stepped += 1;
                }
                logs.last_mut().unwrap().0.extend(given);
            }
            _ => assert_ne!(answer, "?", "{line}"),
        }
    }
    assert!(logs.len() >= 600 && stepped > 10_000);
    for pair in logs.chunks(2) {
        assert!(!pair[0].0.is_empty());
        assert_eq!(pair[0], pair[1]);
    }
}

/// The bytes that command 2 gives in pieces of this size until nothing is left. Command 9 counts
/// the rest behind each piece.
fn read_in_pieces(log: &mut Log, piece: usize, all: usize) -> Vec<u8> {
    let mut joined = Vec::new();
    loop {
        let mut lent = vec![0; piece];
        match log.command(2, piece as i32, true, false, &mut lent) {
            EAGAIN => return joined,
            count => joined.extend(&lent[..count as usize]),
        }
        let rest = log.command(9, 0, true, false, &mut []);
        assert_eq!(rest as usize, all - joined.len());
        assert!(log.check().is_ok());
    }
}

/// Logs that scripts come by, read in pieces of every size, give what one read of all gives.
#[test]
fn pieces_or_all() {
    let mut logs = 0;
    for seed in 0..8 {
        let mut machine = Machine::default();
        let script = script_of(Kind::Lines, seed, 3_000);
        for (i, line) in script.split(|&b| b == b'\n').enumerate() {
            machine.answer(line);
            let Some(log) = machine.log.as_mut().filter(|_| i % 15 == 0) else {
                continue;
            };
            let count = log.unread().map_or(0, |unread| unread.len());
            if !(1..=400).contains(&count) {
                continue;
            }
            logs += 1;
            let mut whole = log.clone();
            let mut all = vec![0; count];
            let answer = whole.command(2, count as i32, true, false, &mut all);
            assert_eq!(answer as usize, count);
            for piece in [1, 2, 3, 7, 50, count + 1] {
                let mut cut = log.clone();
                assert_eq!(read_in_pieces(&mut cut, piece, count), all);
                assert_eq!(cut.numbers(), whole.numbers());
                assert_eq!(cut.bytes(), whole.bytes());
            }
        }
    }
    assert!(logs > 500, "{logs}");
}
