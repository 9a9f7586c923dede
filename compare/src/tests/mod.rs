//! Cases with answers worked out by hand from document 01, as document 02 amends it.

mod callers;
mod check;
mod console;
mod editions;
mod joiner;
mod lines;
mod moments;
mod reach;
mod receiving;
mod refusals;
mod replay;
mod rules;
mod scripts;
mod trail;

use crate::answer::{hex, Machine};

/// A script under way.
struct Play(Machine);

impl Play {
    fn new(lines: &[&str]) -> Play {
        let mut play = Play(Machine::default());
        for line in lines {
            assert_ne!(play.ask(line), "?", "{line}");
        }
        play
    }

    fn ask(&mut self, line: &str) -> String {
        self.0.answer(line.as_bytes())
    }

    #[track_caller]
    fn is(&mut self, line: &str, wanted: &str) {
        assert_eq!(self.ask(line), wanted, "{line}");
    }

    /// Every line gets this answer.
    #[track_caller]
    fn all(&mut self, lines: &[&str], wanted: &str) {
        for line in lines {
            self.is(line, wanted);
        }
    }

    /// None of the lines changes the log's numbers, its bytes or reader 0.
    #[track_caller]
    fn all_unmoved(&mut self, lines: &[&str], wanted: &str) {
        let state = |play: &mut Play| {
            [
                play.ask("numbers"),
                play.ask("peek 0 70000"),
                play.ask("where 0"),
            ]
        };
        for line in lines {
            let before = state(self);
            self.is(line, wanted);
            assert_eq!(state(self), before, "{line}");
        }
    }
}

/// Hex of a text.
fn x(text: &str) -> String {
    hex(text.as_bytes())
}

/// Hex of one byte many times.
fn many(byte: u8, count: usize) -> String {
    hex(&vec![byte; count])
}
