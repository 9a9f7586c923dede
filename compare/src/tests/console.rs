//! Console off and on, the level and its minimum: document 02's ticket 4.

use super::Play;
use crate::script::{write_all_levels, write_all_runs};
use std::collections::BTreeSet;

const MOST: &str = "9223372036854775807";
const LEAST: &str = "-9223372036854775808";

fn fresh() -> Play {
    Play::new(&["log 1024 0", "reader"])
}

impl Play {
    /// The call answers 0, and level, minimum and saved level are then these.
    #[track_caller]
    fn leads(&mut self, call: &str, levels: &str) {
        let answer = self.ask(call);
        assert!(answer == "0" || answer == "0 -", "{call}: {answer}");
        self.levels(levels);
    }

    #[track_caller]
    fn levels(&mut self, levels: &str) {
        self.is("numbers", &format!("0 0 0 0 0 0 0 {levels}"));
    }
}

#[test]
fn a_fresh_log() {
    let mut play = fresh();
    play.levels("7 1 -");
    play.is("check", "fine");
    // A new log forgets what the old one had.
    play.leads("minimum 5", "7 5 -");
    play.leads("command 6 0 1 0 0", "5 5 7");
    play.is("log 1024 0", "log");
    play.levels("7 1 -");
}

#[test]
fn off_and_on_keep_the_level() {
    let mut play = fresh();
    play.leads("command 8 4 1 0 0", "4 1 -");
    play.leads("command 6 0 1 0 0", "1 1 4");
    play.leads("command 7 0 1 0 0", "4 1 -");
}

#[test]
fn on_with_nothing_saved() {
    let mut play = fresh();
    play.leads("command 7 0 1 0 0", "7 1 -");
    play.leads("command 8 3 1 0 0", "3 1 -");
    play.leads("command 7 0 1 0 0", "3 1 -");
    play.leads("minimum 5", "3 5 -");
    play.leads("command 7 0 1 0 0", "3 5 -");
}

#[test]
fn off_twice_and_on_twice() {
    let mut play = fresh();
    play.leads("command 8 4 1 0 0", "4 1 -");
    play.leads("command 6 0 1 0 0", "1 1 4");
    play.leads("command 6 0 1 0 0", "1 1 4");
    play.leads("command 7 0 1 0 0", "4 1 -");
    play.leads("command 7 0 1 0 0", "4 1 -");
    play.leads("command 8 6 1 0 0", "6 1 -");
    play.leads("command 7 0 1 0 0", "6 1 -");
    play.leads("command 6 0 1 0 0", "1 1 6");
}

#[test]
fn a_level_set_while_off() {
    let mut play = fresh();
    play.leads("command 6 0 1 0 0", "1 1 7");
    play.leads("command 8 4 1 0 0", "4 1 7");
    play.leads("command 7 0 1 0 0", "7 1 -");
    // A second 6 switches off again, and the first one's save stays.
    play.leads("command 6 0 1 0 0", "1 1 7");
    play.leads("command 8 4 1 0 0", "4 1 7");
    play.leads("command 6 0 1 0 0", "1 1 7");
    play.leads("command 7 0 1 0 0", "7 1 -");
}

#[test]
fn levels_below_the_minimum_are_raised() {
    let mut play = fresh();
    play.leads("minimum 5", "7 5 -");
    play.leads("command 8 3 1 0 0", "5 5 -");
    for minimum in 1..=8 {
        play.is(&format!("minimum {minimum}"), "0");
        for level in 1..=8 {
            let raised = if level < minimum { minimum } else { level };
            play.leads(
                &format!("command 8 {level} 1 0 0"),
                &format!("{raised} {minimum} -"),
            );
        }
        // No legal levels: they are not raised.
        play.all_unmoved(
            &[
                "command 8 0 1 0 0",
                "command 8 9 1 0 0",
                "command 8 -1 1 0 0",
                "command 8 -2147483648 1 0 0",
                "command 8 2147483647 1 0 0",
            ],
            "-22 -",
        );
    }
}

#[test]
fn the_minimum() {
    let mut play = fresh();
    for level in 1..=8 {
        play.leads(&format!("minimum {level}"), &format!("7 {level} -"));
    }
    for level in ["0", "9", "-1", "10", "-8", "256", "257", "-255"] {
        play.all_unmoved(&[&format!("minimum {level}")], "-22");
    }
    for level in ["4294967297", "-4294967291", "-0", MOST, LEAST] {
        play.all_unmoved(&[&format!("minimum {level}")], "-22");
    }
    play.all_unmoved(
        &[
            "minimum 9223372036854775808",
            "minimum -9223372036854775809",
        ],
        "?",
    );
    play.leads("minimum 003", "7 3 -");
}

#[test]
fn the_minimum_leaves_level_and_save() {
    let mut play = fresh();
    play.leads("minimum 8", "7 8 -");
    play.leads("command 6 0 1 0 0", "8 8 7");
    play.leads("minimum 2", "8 2 7");
    play.leads("command 6 0 1 0 0", "2 2 7");
    play.leads("minimum 8", "2 8 7");
    play.is("check", "fine");
    play.leads("command 7 0 1 0 0", "7 8 -");
}

#[test]
fn off_sets_the_minimum() {
    let mut play = fresh();
    play.leads("minimum 5", "7 5 -");
    play.leads("command 6 0 1 0 0", "5 5 7");
    play.leads("command 7 0 1 0 0", "7 5 -");
    // Also where it is above the level.
    play.leads("minimum 1", "7 1 -");
    play.leads("command 8 3 1 0 0", "3 1 -");
    play.leads("minimum 5", "3 5 -");
    play.leads("command 6 0 1 0 0", "5 5 3");
    play.leads("command 7 0 1 0 0", "3 5 -");
}

#[test]
fn what_was_saved_may_be_below_the_minimum() {
    let mut play = fresh();
    play.leads("command 8 3 1 0 0", "3 1 -");
    play.leads("command 6 0 1 0 0", "1 1 3");
    play.leads("minimum 5", "1 5 3");
    play.leads("command 7 0 1 0 0", "3 5 -");
}

#[test]
fn without_privilege_nothing_moves() {
    let mut play = fresh();
    for _ in 0..2 {
        for kind in 6..=8 {
            for restriction in 0..=1 {
                let call = format!("command {kind} 3 0 {restriction} 0");
                play.all_unmoved(&[&call], "-1 -");
            }
        }
        play.is("command 6 -9 1 1 9", "0 -");
        play.levels("1 1 7");
    }
}

#[test]
fn levels_by_hand() {
    for (name, levels) in [("minimum", "7 {} -"), ("saved", "7 1 {}")] {
        for value in ["0", "9", "257", "18446744073709551615"] {
            let mut play = fresh();
            play.is(&format!("number {name} {value}"), "set");
            play.levels(&levels.replace("{}", value));
            play.is("check", "numbers");
            play.all_unmoved(&["outside 0 61", "box 1 1 0 61 -"], "-77 0");
            play.all_unmoved(&["read 0 5000"], "-77 0 -");
            play.all_unmoved(&["seek 0 0 0", "minimum 5", "minimum 0"], "-77");
            play.all_unmoved(&["save 1 512", "save 1 0"], "-77 -");
            for kind in -1..=11 {
                play.all_unmoved(&[&format!("command {kind} 3 1 0 3")], "-77 -");
            }
            // Set back, the log goes on.
            play.is("number minimum 1", "set");
            play.is("number saved -", "set");
            play.leads("command 6 0 1 0 0", "1 1 7");
        }
    }
    // Ones that fit are taken as they are.
    let mut play = fresh();
    play.all(&["number minimum 8", "number saved 1"], "set");
    play.is("check", "fine");
    play.leads("command 7 0 1 0 0", "1 8 -");
    play.is("number saved 8", "set");
    play.leads("command 6 0 1 0 0", "8 8 8");
    play.is("number saved -", "set");
    play.leads("command 7 0 1 0 0", "8 8 -");
}

/// The minimum that a run of calls leaves: the last legal one.
fn minimum_after(run: &[&str]) -> u64 {
    let levels = run.iter().filter_map(|call| call.strip_prefix("minimum "));
    let mut back = levels.rev().map(|word| word.parse().unwrap());
    back.find(|level| (1..=8).contains(level)).unwrap_or(1)
}

/// What a run leaves saved: the level before the first 6 behind the last 7.
fn saved_after(run: &[&str]) -> Option<u64> {
    let last = run.iter().rposition(|call| call.starts_with("command 7 "));
    let from = last.map_or(0, |place| place + 1);
    let mut behind = from..run.len();
    let first = behind.find(|&place| run[place].starts_with("command 6 "))?;
    Some(level_after(&run[..first]))
}

fn level_after(run: &[&str]) -> u64 {
    let Some((call, before)) = run.split_last() else {
        return 7;
    };
    let words: Vec<&str> = call.split(' ').collect();
    match words[..] {
        ["command", "6", ..] => minimum_after(before),
        ["command", "7", ..] => saved_after(before).unwrap_or_else(|| level_after(before)),
        ["command", "8", len, ..] => match len.parse().unwrap() {
            len @ 1..=8 => minimum_after(before).max(len),
            _ => level_after(before),
        },
        _ => level_after(before),
    }
}

/// Every run is there once, and its numbers are those that the ticket reads out of the whole run.
#[test]
fn every_run() {
    let mut script = Vec::new();
    write_all_runs(&mut script).unwrap();
    let script = String::from_utf8(script).unwrap();
    assert_eq!(script.lines().count(), 8 * 8 * 8 * 8 * 8 * 11);
    let mut play = Play::new(&[]);
    let (mut run, mut runs) = (Vec::new(), BTreeSet::new());
    for line in script.lines() {
        match line {
            "log 1024 0" => run.clear(),
            "numbers" => {
                let saved = saved_after(&run).map_or("-".into(), |level| level.to_string());
                let (level, minimum) = (level_after(&run), minimum_after(&run));
                play.levels(&format!("{level} {minimum} {saved}"));
                if run.len() == 5 {
                    runs.insert(run.clone());
                }
                continue;
            }
            call => run.push(call),
        }
        assert_ne!(play.ask(line), "?", "{line}");
    }
    assert_eq!(runs.len(), 8 * 8 * 8 * 8 * 8);
}

/// Every log of levels 0 to 9 meets every call, and only those that do not fit refuse with -77.
#[test]
fn every_level() {
    let mut script = Vec::new();
    write_all_levels(&mut script).unwrap();
    let script = String::from_utf8(script).unwrap();
    let mut play = Play::new(&["log 1024 0"]);
    let lines: Vec<&str> = script.lines().skip(1).collect();
    let mut met = BTreeSet::new();
    for lines in lines.chunks(5) {
        let mut words = lines[..3]
            .iter()
            .map(|line| line.split(' ').nth(2).unwrap());
        let fine = words.all(|word| word != "0" && word != "9");
        play.all(&lines[..3], "set");
        let before = play.ask("numbers");
        let answer = play.ask(lines[3]);
        assert_eq!(fine, !matches!(&*answer, "numbers" | "-77" | "-77 -"));
        let refused = answer.starts_with('-');
        assert!(!refused || play.ask("numbers") == before);
        assert_ne!(play.ask("check"), if fine { "numbers" } else { "fine" });
        met.insert(lines[..4].concat());
    }
    assert_eq!(met.len(), 10 * 10 * 11 * 23);
}
