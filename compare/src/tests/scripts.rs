//! The scripts that are written, and long runs of them.

use crate::answer::{Machine, LINE};
use crate::log::walk;
use crate::script::{write_script, Kind};
use std::collections::BTreeSet;

pub(super) fn script_of(kind: Kind, seed: u64, lines: u64) -> Vec<u8> {
    let mut out = Vec::new();
    write_script(seed, lines, kind, &mut out).unwrap();
    out
}

fn script(seed: u64, lines: u64, wide: bool) -> Vec<u8> {
    let kind = if wide { Kind::Wide } else { Kind::Plain };
    script_of(kind, seed, lines)
}

#[test]
fn as_many_lines_as_wanted() {
    for lines in [0, 1, 5, 1_000] {
        let script = script(7, lines, false);
        let count = script.iter().filter(|&&b| b == b'\n').count();
        assert_eq!(count as u64, lines);
        assert!(lines == 0 || script.ends_with(b"\n"));
        assert!(lines == 0 || script.starts_with(b"log "));
    }
    assert_eq!(script(3, 500, false), script(3, 500, false));
    assert_ne!(script(3, 500, false), script(4, 500, false));
    assert!(script(3, 900, false).starts_with(&script(3, 500, false)));
}

/// The queue agrees with the bytes after every call, and every kind of answer comes up.
#[test]
fn long_runs() {
    let mut met = BTreeSet::new();
    for seed in 0..6 {
        let script = script(seed, 6_000, seed % 2 == 1);
        let mut machine = Machine::default();
        for line in script.split(|&b| b == b'\n') {
            assert!(line.len() <= LINE);
            let answer = machine.answer(line);
            assert!(!answer.ends_with("CHANGED"), "{answer}");
            if let Some(log) = &mut machine.log {
                let found = walk(log.bytes(), log.numbers()).ok();
                assert_eq!(found.as_ref(), log.records());
            }
            let word = line.split(|&b| b == b' ').next().unwrap();
            let mut first = answer.split(' ').next().unwrap().to_string();
            let known = match word {
                b"outside" | b"box" | b"read" | b"command" | b"seek" => {
                    if first.parse::<i64>().is_ok_and(|n| n > 0) {
                        first = "+".into();
                    }
                    true
                }
                b"deliver" | b"line" | b"check" | b"console" => true,
                _ => false,
            };
            if known {
                met.insert(format!("{} {first}", String::from_utf8_lossy(word)));
            }
        }
    }
    let wanted = [
        ("outside", "+ 0 -22 -75 -77"),
        ("box", "+ 0 -22 -75 -77"),
        ("read", "+ -11 -22 -32 -77"),
        ("seek", "0 -22 -29 -77"),
        ("command", "+ 0 -1 -11 -14 -22 -77"),
        ("check", "fine heading numbers"),
        ("console", "yes no"),
        ("deliver", "0 2 3 4 5 6 7 8 9 10"),
        ("line", "0 2 3 4 5 6 7 8"),
    ];
    for (word, answers) in wanted {
        for answer in answers.split(' ') {
            let case = format!("{word} {answer}");
            assert!(met.contains(&case), "{case}");
        }
    }
}

/// Trails meet every kind of answer, and no reader reads on behind a patch.
#[test]
fn trail_runs() {
    let whole = script_of(Kind::Trail, 3, 900);
    for lines in 0..900 {
        let script = script_of(Kind::Trail, 3, lines);
        assert!(whole.starts_with(&script));
        let count = script.iter().filter(|&&b| b == b'\n').count();
        assert_eq!(count as u64, lines);
    }
    let mut met = BTreeSet::new();
    // One seed in seven never saves a full log, so there are a few.
    let trails = [0, 1, 3, 4].map(|seed| (Kind::Trail, seed));
    for (kind, seed) in trails.into_iter().chain([(Kind::Plain, 2)]) {
        let mut machine = Machine::default();
        let mut patched = false;
        for line in script_of(kind, seed, 6_000).split(|&b| b == b'\n') {
            assert!(line.len() <= LINE);
            let answer = machine.answer(line);
            assert!(!answer.ends_with("CHANGED"), "{answer}");
            let word = String::from_utf8_lossy(line.split(|&b| b == b' ').next().unwrap());
            match (&*word, &*answer) {
                (_, "?") => (),
                ("patch", _) => patched = true,
                ("disk" | "cut" | "trail", _) => patched = false,
                ("next", _) => assert!(!patched),
                _ => (),
            }
            if matches!(&*word, "save" | "next" | "cut") {
                let mut words = answer.split(' ');
                let said = match (&*word, words.next().unwrap()) {
                    ("next", "stop") => format!("stop {}", words.next().unwrap()),
                    ("save", count) if !count.starts_with('-') => count.into(),
                    (_, first) => first.into(),
                };
                met.insert(format!("{word} {said}"));
            }
        }
    }
    for case in [
        "save -14",
        "save -77",
        "save 512",
        "save 1024",
        "save 68096",
        "cut ?",
        "next ?",
        "next room",
        "next record",
        "next end",
        "next stop number",
        "next stop save",
        "next stop edition",
        "next stop count",
        "next stop check",
        "next stop record",
        "next stop unfinished",
    ] {
        assert!(met.contains(case), "{case}");
    }
}

/// What console calls were answered, and levels by hand whose log was fine again afterwards.
fn console_calls(kind: Kind, seeds: u64) -> BTreeSet<String> {
    let mut met = BTreeSet::new();
    for seed in 0..seeds {
        let mut machine = Machine::default();
        let mut wrong: Option<String> = None;
        for line in script_of(kind, seed, 6_000).split(|&b| b == b'\n') {
            let answer = machine.answer(line);
            let line = String::from_utf8_lossy(line);
            let words: Vec<&str> = line.split(' ').collect();
            match words[..] {
                _ if answer == "?" => (),
                ["log", ..] => wrong = None,
                ["number", name @ ("minimum" | "saved"), value] => {
                    met.insert(format!("{name} {value}"));
                    // The first of them; the second may be what sets it back.
                    wrong = wrong.or(Some(format!("{name} {value}")));
                }
                ["command", kind @ ("6" | "7"), ..] => {
                    met.insert(format!("{kind}: {answer}"));
                }
                ["command", "8", len, ..] => {
                    met.insert(format!("8 {len}: {answer}"));
                }
                ["minimum", level] => {
                    met.insert(format!("minimum {level}: {answer}"));
                }
                ["check"] if answer == "fine" => met.extend(wrong.take().map(|w| w + " set back")),
                _ => (),
            }
        }
    }
    met
}

fn all_met(met: &BTreeSet<String>, wanted: &[&str]) {
    for case in wanted {
        assert!(met.contains(*case), "{case}");
    }
}

/// Ordinary scripts meet the console's calls with every answer, and levels by hand of every kind.
#[test]
fn console_calls_in_plain_scripts() {
    let met = console_calls(Kind::Plain, 40);
    for kind in ["6", "7", "8 0", "8 9"] {
        let done = if kind.len() == 1 { "0 -" } else { "-22 -" };
        for answer in [done, "-1 -", "-77 -"] {
            all_met(&met, &[&format!("{kind}: {answer}")]);
        }
    }
    for level in 1..=8 {
        all_met(
            &met,
            &[
                &format!("8 {level}: 0 -"),
                &format!("8 {level}: -77 -"),
                &format!("minimum {level}: 0"),
                &format!("minimum {level}: -77"),
                &format!("minimum {level}"),
                &format!("saved {level}"),
            ],
        );
    }
    for level in ["-1", "0", "9", "10", "9223372036854775807"] {
        all_met(&met, &[&format!("minimum {level}: -22")]);
    }
    all_met(&met, &["minimum -9223372036854775808: -22", "saved -"]);
    for value in ["0", "9", "18446744073709551615"] {
        for name in ["minimum", "saved"] {
            all_met(&met, &[&format!("{name} {value} set back")]);
        }
    }
}

/// Scripts of console calls alone have as many lines as wanted, and meet all that there is.
#[test]
fn console_runs() {
    let whole = script_of(Kind::Console, 3, 900);
    for lines in 0..900 {
        let script = script_of(Kind::Console, 3, lines);
        assert!(whole.starts_with(&script));
        let count = script.iter().filter(|&&b| b == b'\n').count();
        assert_eq!(count as u64, lines);
    }
    let met = console_calls(Kind::Console, 3);
    for len in 0..=9 {
        let answer = if (1..=8).contains(&len) { "0" } else { "-22" };
        all_met(
            &met,
            &[
                &format!("8 {len}: {answer} -"),
                &format!("8 {len}: -77 -"),
                &format!("8 {len}: -1 -"),
                &format!("minimum {len}: {answer}"),
                &format!("minimum {len}: -77"),
            ],
        );
    }
    for far in ["4294967301", "-4294967291", "257", "-9223372036854775803"] {
        all_met(&met, &[&format!("minimum {far}: -22")]);
    }
    for value in ["0", "9", "10", "255", "256", "257", "4294967301"] {
        for name in ["minimum", "saved"] {
            all_met(&met, &[&format!("{name} {value} set back")]);
        }
    }
}

/// Zeros from outside are met at every place that matters, and leave most writes without one.
#[test]
fn zeros_from_outside() {
    let (mut taken, mut zeros, mut at_top, mut damaged) = (0, 0, 0, 0);
    let (mut alone, mut values) = (BTreeSet::new(), BTreeSet::new());
    for seed in 0..6 {
        let mut machine = Machine::default();
        for line in script(seed, 6_000, seed % 2 == 1).split(|&b| b == b'\n') {
            let next = machine.log.as_ref().map(|log| log.numbers().next);
            let answer = machine.answer(line);
            let words: Vec<&[u8]> = line.split(|&b| b == b' ').collect();
            if words[0] != b"outside" || answer == "?" || words[2] == b"-" {
                continue;
            }
            let handed: Vec<&[u8]> = words[2].chunks(2).collect();
            let places: Vec<usize> = (0..handed.len()).filter(|&i| handed[i] == b"00").collect();
            match (answer.as_str(), places.len()) {
                ("-77 0", 0) | ("-75 0", 0) | ("-22 0", 0) => (),
                ("-77 0", _) => damaged += 1,
                ("-22 0", count) => {
                    zeros += 1;
                    at_top += u64::from(next == Some(u64::MAX));
                    if count == 1 {
                        alone.insert(places[0]);
                    }
                }
                (_, count) => {
                    assert_eq!(count, 0, "{answer}");
                    taken += 1;
                    values.extend(handed.into_iter().map(<[u8]>::to_vec));
                }
            }
        }
    }
    assert!(zeros * 10 > taken && zeros * 2 < taken, "{zeros} {taken}");
    assert!(at_top > 0 && damaged > 0);
    for place in [0, 7, 8, 15, 16, 17, 31, 32, 943, 944, 958, 959] {
        assert!(alone.contains(&place), "{place}");
    }
    for byte in 1..=255 {
        assert!(values.contains(format!("{byte:02x}").as_bytes()), "{byte}");
    }
}

/// Bytes of every kind make no trouble.
#[test]
fn any_bytes_at_all() {
    let mut random = crate::random::Random::new(1);
    let mut machine = Machine::default();
    let mut good = script(11, 3_000, true);
    for _ in 0..6_000 {
        let at = random.below(good.len() as u64) as usize;
        good[at] = match random.below(3) {
            0 => random.below(256) as u8,
            1 => random.pick(b" \n-0"),
            _ => random.within(48, 57) as u8,
        };
    }
    for line in good.split(|&b| b == b'\n') {
        assert!(!machine.answer(line).is_empty());
    }
    for _ in 0..3_000 {
        let line: Vec<u8> = (0..random.below(60))
            .map(|_| random.below(256) as u8)
            .collect();
        assert_eq!(machine.answer(&line), "?");
    }
}
