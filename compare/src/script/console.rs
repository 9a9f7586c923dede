//! The console's level, the minimum and what is saved: runs of calls, and levels by hand.

use super::Script;
use std::io::{self, Write};

/// No levels, though the low bits of some would be one.
const NO_LEVELS: &[u64] = &[
    0,
    9,
    10,
    255,
    256,
    257,
    1 << 32,
    (1 << 32) + 5,
    1 << 63,
    (1 << 63) + 5,
    u64::MAX - 1,
    u64::MAX,
];

/// Minimums far from any level, alike.
const FAR: &[i64] = &[
    i64::MIN,
    i64::MIN + 5,
    5 - (1 << 32),
    -(1 << 31),
    -251,
    -8,
    255,
    256,
    257,
    264,
    1 << 31,
    (1 << 32) + 5,
    i64::MAX - 1,
    i64::MAX,
];

impl Script<'_> {
    /// A log with a few records, and what befalls its levels.
    pub(super) fn console_chapter(&mut self) {
        let capacity = self
            .random
            .pick(&[1_024, 1_024, 1_024, 1_024, 4_096, 65_536, 1_023]);
        let fill = self.fill_byte();
        self.say(format!("log {capacity} {fill}"));
        self.say("reader");
        for _ in 0..self.random.below(4) {
            self.outside();
        }
        // A log out of range soon makes room for another.
        let scenes = match self.fine() {
            true => self.random.within(2, 10),
            false => 1,
        };
        for _ in 0..scenes {
            self.console_scene();
        }
    }

    pub(super) fn console_scene(&mut self) {
        match self.random.below(10) {
            0 | 1 => self.wrong_level(),
            2 | 3 => self.levels_by_hand(),
            4 | 5 => self.off_and_on(),
            _ => self.level_run(),
        }
    }

    /// Console calls in a row, with the numbers behind each.
    fn level_run(&mut self) {
        for _ in 0..self.random.within(1, 8) {
            self.level_call();
            self.say("numbers");
        }
    }

    pub(super) fn level_call(&mut self) {
        match self.random.below(10) {
            0..=2 => self.level_command(6),
            3..=5 => self.level_command(7),
            6 | 7 => self.level_command(8),
            _ => self.minimum(),
        }
    }

    fn level_command(&mut self, kind: i32) {
        let len = match self.random.below(20) {
            0 => self
                .random
                .pick(&[i32::MIN, i32::MAX, -1, 10, 255, 256, 257, 264]),
            _ => self.random.below(10) as i32,
        };
        let privilege = u8::from(self.random.chance(95));
        let restriction = self.random.below(2);
        let lent = self.random.pick(&[0, 0, 0, 9]);
        self.say(format!(
            "command {kind} {len} {privilege} {restriction} {lent}"
        ));
    }

    pub(super) fn minimum(&mut self) {
        let level = match self.random.below(20) {
            0 | 1 => self.random.pick(FAR),
            2 | 3 => self.random.pick(&[-1, 0, 9, 10]),
            _ => self.random.within(1, 8) as i64,
        };
        self.say(format!("minimum {level}"));
    }

    /// A level, off, and on again, with little between them.
    fn off_and_on(&mut self) {
        let level = self.random.within(1, 8);
        self.say(format!("command 8 {level} 1 0 0"));
        self.say("command 6 0 1 0 0");
        for _ in 0..self.random.pick(&[0, 0, 1, 2]) {
            match self.random.chance(70) {
                true => self.level_call(),
                false => self.log_call(),
            }
        }
        self.say("numbers");
        for _ in 0..self.random.pick(&[1, 2]) {
            self.say("command 7 0 1 0 0");
            self.say("numbers");
        }
    }

    /// A level by hand that does not fit: calls are refused until it is set back, and then go on.
    fn wrong_level(&mut self) {
        let name = self
            .random
            .pick(&["minimum", "minimum", "saved", "saved", "console"]);
        let old = self.word_of(name);
        let wrong = match name {
            "console" if !self.wide => self.random.pick(&NO_LEVELS[..6]),
            _ => self.random.pick(NO_LEVELS),
        };
        self.say(format!("number {name} {wrong}"));
        self.say("check");
        for _ in 0..self.random.within(1, 5) {
            match self.random.chance(60) {
                true => self.level_call(),
                false => self.log_call(),
            }
        }
        self.say("numbers");
        self.say(format!("number {name} {old}"));
        self.say("check");
        self.level_run();
    }

    /// Levels by hand that fit, whatever calls led to, and what calls make of them.
    fn levels_by_hand(&mut self) {
        for name in ["console", "minimum", "saved"] {
            if self.random.chance(60) {
                let level = self.any_level(name);
                self.say(format!("number {name} {level}"));
            }
        }
        self.say("check");
        self.level_run();
    }

    /// A level that fits; of those saved, also none.
    pub(super) fn any_level(&mut self, name: &str) -> String {
        match name == "saved" && self.random.chance(40) {
            true => "-".into(),
            false => self.random.within(1, 8).to_string(),
        }
    }
}

/// What the runs are made of: off, on, levels below and above a minimum, minimums above and below
/// the levels, and one refusal of each call.
const CALLS: [&str; 8] = [
    "command 6 0 1 0 0",
    "command 7 0 1 0 0",
    "command 8 3 1 0 0",
    "command 8 4 1 0 0",
    "command 8 9 1 0 0",
    "minimum 5",
    "minimum 2",
    "minimum 0",
];
const RUN: u32 = 5;

/// Every run of five of these calls, each on a fresh log and with the numbers behind each call: 8^5
/// runs of 11 lines. The shorter runs are their beginnings, so every run of up to five is met.
pub fn write_all_runs(output: &mut dyn Write) -> io::Result<()> {
    for run in 0..CALLS.len().pow(RUN) {
        writeln!(output, "log 1024 0")?;
        for step in (0..RUN).rev() {
            let call = CALLS[run / CALLS.len().pow(step) % CALLS.len()];
            writeln!(output, "{call}\nnumbers")?;
        }
    }
    output.flush()
}

/// The check and every console call on every log whose level, minimum and saved level are 0 to 9 or,
/// of the last, none: each single step, also from where no run of calls leads, and each refusal.
pub fn write_all_levels(output: &mut dyn Write) -> io::Result<()> {
    let mut calls: Vec<String> = ["check", "command 6 0 1 0 0", "command 7 0 1 0 0"]
        .map(String::from)
        .to_vec();
    for level in 0..=9 {
        calls.push(format!("command 8 {level} 1 0 0"));
        calls.push(format!("minimum {level}"));
    }
    writeln!(output, "log 1024 0")?;
    for state in 0..10 * 10 * 11 {
        let (level, minimum, saved) = (state / 110, state / 11 % 10, state % 11);
        let saved = match saved {
            10 => "-".into(),
            saved => saved.to_string(),
        };
        for call in &calls {
            writeln!(output, "number console {level}\nnumber minimum {minimum}")?;
            writeln!(output, "number saved {saved}\n{call}\nnumbers")?;
        }
    }
    output.flush()
}
