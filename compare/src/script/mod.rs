//! Writes scripts: random, but made to meet the places where answers may part.
//!
//! The script is played as it is written, so that lengths and places can be chosen to fit.

mod calls;
mod console;
mod damage;
mod editions;
mod joiner;
mod lines;
mod messages;
mod trail;

use crate::answer::{hex, Machine};
use crate::log::{Log, Numbers};
use crate::random::Random;
use crate::record::Record;
use std::io::{self, Write};

pub use console::{write_all_levels, write_all_runs};
pub use editions::write_all_editions;
pub use joiner::write_all_pieces;
pub use lines::write_all_bytes;

/// What a script is made of.
#[derive(Clone, Copy, PartialEq, Eq)]
pub enum Kind {
    /// Calls of every kind.
    Plain,
    /// The same, also with numbers whose range the script's description leaves open.
    Wide,
    /// Saved trails, and what they need.
    Trail,
    /// Trails that the script makes itself, of either edition and of both.
    Editions,
    /// The console's levels: runs of calls that move them, and levels by hand.
    Console,
    /// Texts of many lines, and the commands that give them.
    Lines,
    /// Pieces of texts, and the joiner that puts them together.
    Joiner,
}

/// Writes `lines` lines.
pub fn write_script(seed: u64, lines: u64, kind: Kind, output: &mut dyn Write) -> io::Result<()> {
    let mut script = Script {
        random: Random::new(seed),
        machine: Machine::default(),
        output,
        failure: None,
        left: lines,
        wide: kind == Kind::Wide,
        over: false,
        clock: 5_000_999,
        style: Style::Mixed,
        pool: Vec::new(),
        main_channel: 16,
    };
    script.opening(kind);
    while script.left > 0 {
        match kind {
            Kind::Trail => script.trail_chapter(),
            Kind::Editions => script.editions_chapter(),
            Kind::Console => script.console_chapter(),
            Kind::Lines => script.lines_chapter(),
            Kind::Joiner => script.joiner_chapter(),
            _ => script.chapter(),
        }
        if let Some(error) = script.failure.take() {
            return Err(error);
        }
    }
    script.output.flush()
}

/// How long the texts of a chapter are.
#[derive(Clone, Copy)]
enum Style {
    Tiny,
    Middle,
    Long,
    Mixed,
}

struct Script<'a> {
    random: Random,
    machine: Machine,
    output: &'a mut dyn Write,
    failure: Option<io::Error>,
    left: u64,
    wide: bool,
    /// The chapter ends early.
    over: bool,
    clock: u64,
    style: Style,
    /// Records to deliver, and the channel that most of them have.
    pool: Vec<Record>,
    main_channel: u64,
}

impl Script<'_> {
    /// Writes one line and plays it.
    fn say(&mut self, line: impl AsRef<[u8]>) {
        if self.left == 0 || self.failure.is_some() {
            return;
        }
        self.left -= 1;
        let line = line.as_ref();
        self.machine.answer(line);
        let written = self
            .output
            .write_all(line)
            .and_then(|()| self.output.write_all(b"\n"));
        if let Err(error) = written {
            self.failure = Some(error);
            self.left = 0;
        }
    }

    fn log(&mut self) -> &mut Log {
        self.machine
            .log
            .as_mut()
            .expect("a script opens with a log")
    }

    fn numbers(&mut self) -> Numbers {
        *self.log().numbers()
    }

    fn capacity(&mut self) -> u64 {
        self.log().bytes().len() as u64
    }

    fn fine(&mut self) -> bool {
        self.log().check().is_ok()
    }

    fn opening(&mut self, kind: Kind) {
        self.say("log 2048 165");
        // Kept also where not even one line was wanted.
        self.machine.answer(b"log 2048 165");
        if kind == Kind::Trail {
            for line in ["cut 1", "patch 0 00", "trail", "next 960", "disk 600 0"] {
                self.say(line);
            }
            // There is a file, but neither an image nor a reader.
            for line in ["cut 1", "next 960", "save 7 511", "cut 1", "save 7 512"] {
                self.say(line);
            }
            return;
        }
        if matches!(kind, Kind::Console | Kind::Lines | Kind::Editions) {
            return;
        }
        if kind == Kind::Joiner {
            for line in [
                "join -",
                "close",
                "open 16",
                "joiner 256",
                "close",
                "reader",
            ] {
                self.say(line);
            }
            self.fresh_board();
            self.fresh_joiner();
            return;
        }
        for _ in 0..3 {
            self.say("reader");
        }
        self.fresh_board();
        self.fresh_joiner();
        for _ in 0..40 {
            self.step();
        }
    }

    fn fill_byte(&mut self) -> u64 {
        match self.random.below(3) {
            0 => self.random.pick(&[0, 45, 61, 165, 255]),
            _ => self.random.below(256),
        }
    }

    /// A fresh log with its readers, and what befalls it.
    fn chapter(&mut self) {
        let capacity = match self.random.below(100) {
            0..=24 => 1_024,
            25..=34 => self.random.within(1_024, 1_100),
            35..=64 => self.random.within(1_024, 4_096),
            65..=79 => 65_536,
            80..=81 => 65_535,
            82..=87 => self.random.within(4_097, 65_535),
            _ => self.random.pick(&[
                0, 1, 31, 1_023, 1_023, 1_023, 65_537, 65_537, 65_537, 70_000,
            ]),
        };
        let fill = self.fill_byte();
        self.say(format!("log {capacity} {fill}"));
        let readers = match self.random.below(20) {
            0 => 17,
            1 => 0,
            _ => self.random.within(1, 5),
        };
        for _ in 0..readers {
            self.say("reader");
        }
        if self.random.chance(35) {
            self.fresh_board();
        }
        self.style = match self.random.below(4) {
            0 => Style::Tiny,
            1 => Style::Middle,
            2 => Style::Long,
            _ => Style::Mixed,
        };
        let usable = (1_024..=65_536).contains(&capacity);
        let length = if usable {
            self.random.within(80, 600)
        } else {
            self.random.within(8, 20)
        };
        if usable {
            match self.random.below(10) {
                0..=2 => self.forge(),
                3..=6 if capacity > 8_192 => self.fill_up(),
                7 if capacity <= 4_096 || self.random.chance(6) => self.fill_with_empty(),
                _ => (),
            }
        }
        self.over = false;
        let end = self.left.saturating_sub(length);
        let deliveries = self.random.chance(25);
        while self.left > end && !self.over {
            match deliveries && self.random.chance(90) {
                true => self.delivery(),
                false => self.step(),
            }
            // A log that takes no more writes soon makes room for another.
            if self.numbers().next == u64::MAX && self.random.chance(8) {
                break;
            }
        }
        if deliveries {
            self.all_slots();
        }
    }

    fn step(&mut self) {
        match self.random.below(1_170) {
            0..=199 => self.outside(),
            200..=309 => self.from_box(),
            310..=459 => self.read(),
            460..=519 => self.move_reader(),
            520..=659 => self.command(),
            660..=674 => self.console(),
            675..=724 => self.look(),
            725..=744 => self.overtake(),
            745..=764 => self.cut_command(),
            765..=799 => self.damage(),
            800..=804 => self.top_numbers(),
            805..=809 => self.forge(),
            810..=811 => self.sweep_numbers(),
            812..=813 => self.sweep_heading(),
            814..=817 => self.sweep_calls(),
            818..=822 => self.fresh_board(),
            823..=826 => self.all_slots(),
            827..=836 => self.odd_line(),
            837..=999 => self.delivery(),
            1_000..=1_009 => self.trail_scene(),
            1_010..=1_049 => self.console_scene(),
            1_050..=1_094 => self.lines_scene(),
            _ => self.joiner_scene(),
        }
    }

    /// Any call on the log.
    fn log_call(&mut self) {
        match self.random.below(18) {
            0 | 1 => self.outside(),
            2 | 3 => self.from_box(),
            4..=7 => self.read(),
            8 | 9 => self.move_reader(),
            10..=13 => self.command(),
            14 | 15 => self.look(),
            16 => self.minimum(),
            _ => self.any_save(),
        }
    }

    fn length(&mut self) -> usize {
        let style = match self.style {
            Style::Mixed => {
                self.random
                    .pick(&[Style::Tiny, Style::Tiny, Style::Middle, Style::Long])
            }
            style => style,
        };
        let (low, high) = match style {
            Style::Tiny => (0, 6),
            Style::Middle => (0, 120),
            _ => (500, 960),
        };
        self.random.within(low, high) as usize
    }

    /// Bytes of one of several kinds.
    fn bytes(&mut self, length: usize) -> Vec<u8> {
        let kind = self.random.below(10);
        let same = self.random.below(256) as u8;
        (0..length)
            .map(|i| match kind {
                0..=3 => b"GOAL home 1, corner 2; card "[i % 28],
                4 | 5 => self.random.within(32, 126) as u8,
                6 | 7 => self.random.below(256) as u8,
                8 => self.random.pick(b"\\\n\x7f~\x1f \x00\xff=;,<>x0\t\r\x80"),
                _ => same,
            })
            .collect()
    }

    /// A text: bytes of one of those kinds, which often have lines.
    fn text(&mut self, length: usize) -> Vec<u8> {
        let mut text = self.bytes(length);
        if self.random.chance(35) {
            self.part(&mut text);
        }
        text
    }

    /// A dictionary that keeps the rules, of at most `most` bytes.
    fn dictionary(&mut self, most: usize) -> Vec<u8> {
        let mut dictionary = Vec::new();
        for _ in 0..self.random.pick(&[0u64, 0, 0, 1, 1, 2, 3, 8]) {
            let mut entry = Vec::new();
            if !dictionary.is_empty() {
                entry.push(0);
            }
            let key = self.random.within(1, 4) as usize;
            let plain = self.random.chance(70);
            for _ in 0..key {
                entry.push(match plain {
                    true => self.random.within(97, 122) as u8,
                    false => self.random.pick(b" \\\n\x7f\x01\xffx,;"),
                });
            }
            entry.push(b'=');
            let value = self.random.below(12) as usize;
            entry.extend(self.bytes(value).iter().filter(|&&b| b != 0));
            if dictionary.len() + entry.len() <= most {
                dictionary.extend(entry);
            }
        }
        dictionary
    }

    /// Exactly `length` bytes of dictionary that keep the rules; at least 2.
    fn dictionary_of(&mut self, length: usize) -> Vec<u8> {
        let mut dictionary = vec![b'v'; length];
        dictionary[0] = b'k';
        dictionary[1] = b'=';
        if length > 5 && self.random.chance(50) {
            let cut = self.random.within(2, length as u64 - 3) as usize;
            dictionary[cut] = 0;
            dictionary[cut + 2] = b'=';
        }
        dictionary
    }

    fn time(&mut self) -> u64 {
        let back = self.random.below(100_000);
        match self.random.below(20) {
            0 => self.random.pick(&[0, 999, 1_000, 1_001, 1_999, 5_000_999]),
            1 => self
                .random
                .pick(&[u64::MAX, u64::MAX - 1, u64::MAX - 615, u64::MAX - 616]),
            2 => self.random.any(),
            3 | 4 => self.clock.saturating_sub(back),
            _ => {
                self.clock += back;
                self.clock
            }
        }
    }

    /// One of the number's neighbours, itself among them.
    fn near(&mut self, number: u64) -> u64 {
        match self.random.below(4) {
            0 => number.saturating_sub(1),
            1 => number.saturating_add(1),
            2 => number,
            _ => {
                let step = self.random.below(5);
                number.saturating_add(2).saturating_sub(step)
            }
        }
    }

    /// A line that is no call.
    fn odd_line(&mut self) {
        const LINES: &[&str] = &[
            "",
            " ",
            "?",
            "goal",
            "LOG 1024 0",
            "log",
            "log 1024",
            "log 1024 256",
            "log 70001 0",
            "log 1024 0 0",
            "log -1 0",
            "log x 0",
            "number",
            "number start",
            "number goal 5",
            "number start 18446744073709551616",
            "number start -1",
            "number start 1x",
            "number start -",
            "number console -",
            "number minimum",
            "number minimum -",
            "number minimum -1",
            "number minimum 18446744073709551616",
            "number saved",
            "number saved -1",
            "number saved --",
            "number saved - -",
            "number saved 18446744073709551616",
            "poke 0",
            "poke 0 0",
            "poke 0 0G",
            "poke 0 FF",
            "poke x 00",
            "numbers 0",
            "numbers ",
            " numbers",
            "peek 0",
            "peek 0 -1",
            "check fine",
            "outside 0",
            "outside 18446744073709551616 -",
            "outside -1 -",
            "outside 0 abc",
            "outside 0  61",
            "outside 0 61 ",
            "outside 0 61 -",
            "outside 0 61 -1",
            "outside 0 61 x",
            "outside 0 61 4294967296",
            "outside 0 61 1 1",
            "outside 0 1",
            "box 1 1 0 61",
            "box 1 1 0 61 613",
            "box x 1 0 61 -",
            "box 1 1 0 61 - 2",
            "box 1 1 0 61 - ",
            "box 1 1 0 61 - -",
            "box 1 1 0 61 - -1",
            "box 1 1 0 61 - c",
            "box 1 1 0 61 613 1",
            "box 1 1 0 61 1",
            "box 1 1 0 61 - 1 ",
            "box 1 1 0 61 - 1 -",
            "box 1 1 0 61 - 1 -1",
            "box 1 1 0 61 - 1 x",
            "box 1 1 0 61 - 1 4294967296",
            "box 1 1 0 61 - 2 1",
            "box 1 1 0 61 - 0 1 1",
            "box 256 8 0 61 - 0 4294967296",
            "reader 0",
            "at 0",
            "at 99 0",
            "at 16 0",
            "at 0 x",
            "where",
            "where 99",
            "where -1",
            "read 0",
            "read 99 100",
            "read 0 5001",
            "read 0 -1",
            "seek 0 0",
            "seek 99 0 0",
            "seek 0 x 0",
            "command 2 5 1 0",
            "command 2 5 2 0 5",
            "command 2 5 1 2 5",
            "command 2 5 -1 0 5",
            "command 2 5 1 0 300001",
            "command x 5 1 0 5",
            "minimum",
            "minimum ",
            "minimum x",
            "minimum -",
            "minimum 5 5",
            "minimum 9223372036854775808",
            "minimum -9223372036854775809",
            "minimum 18446744073709551615",
            "console 1",
            "console x 1",
            "board",
            "board 256",
            "board x",
            "deliver",
            "deliver ABCD",
            "deliver 0",
            "slot",
            "slot 15",
            "slot 24",
            "slot x",
            "line",
            "line 0g",
            "line - -",
            "joiner",
            "joiner ",
            "joiner 256",
            "joiner -1",
            "joiner x",
            "joiner 0 0",
            "join",
            "join ",
            "join 0",
            "join zz",
            "join 0A",
            "join - -",
            "join 3132 1",
            "close ",
            "close 1",
            "close 16",
            "close -",
            "closes",
            "open",
            "open ",
            "open 0",
            "open 15",
            "open 24",
            "open 144",
            "open -16",
            "open x",
            "open -",
            "open 16 17",
            "save",
            "save 1",
            "save 1 90001",
            "save 4294967296 512",
            "save -1 512",
            "save 1 -1",
            "save 1 512 0",
            "disk",
            "disk 512",
            "disk 90001 0",
            "disk 512 256",
            "disk -1 0",
            "disk 512 0 0",
            "cut",
            "cut -1",
            "cut x",
            "cut 18446744073709551616",
            "cut 1 1",
            "patch",
            "patch 0",
            "patch 0 0",
            "patch 0 FF",
            "patch -1 00",
            "patch 18446744073709551616 00",
            "trail 0",
            "trails",
            "next",
            "next 5001",
            "next -1",
            "next x",
            "next 960 0",
        ];
        const WIDE: &[&str] = &[
            "log 01024 0",
            "at 0 +1",
            "at 0 007",
            "seek 0 9223372036854775807 0",
            "seek 0 -9223372036854775808 0",
            "seek 0 9223372036854775808 0",
            "seek 0 -0 0",
            "seek 0 0 2147483648",
            "seek 0 0 -2147483649",
            "command 2147483648 0 1 0 0",
            "command -2147483649 0 1 0 0",
            "command 3 2147483648 1 0 0",
            "command 3 -2147483649 1 0 0",
            "console -9223372036854775808 9223372036854775807",
            "console 2147483648 2147483647",
            "console -2147483649 0",
            "console 9223372036854775808 0",
            "console 0 -9223372036854775809",
            "box -1 0 0 - -",
            "box 0 -1 0 - -",
            "box -0 -00 0 - -",
            "box 001 007 0 - -",
            "box 65536 0 0 - -",
            "box 4294967296 0 0 - -",
            "box 0 4294967296 0 - -",
            "box 18446744073709551615 18446744073709551615 0 - -",
            "box 18446744073709551616 0 0 - -",
            "box 0 -9223372036854775808 0 - -",
            "box 0 -9223372036854775809 0 - -",
            "box - 0 0 - -",
            "box 1 1 0 61 - 01",
            "box 1 1 0 61 - 000",
            "box 1 1 0 61 - +1",
            "box 256 8 0 61 - 01",
            "box 256 8 0 61 - 1 007",
            "box 1 1 0 61 - 1 04294967295",
            "box 1 1 0 61 - 1 +1",
            "outside 0 61 007",
            "outside 0 61 +7",
            "outside 0 61 -0",
            "joiner 007",
            "joiner +7",
            "open 016",
            "open +16",
            "number console 4294967303",
            "number console 18446744073709551615",
            "number offset 4294967296",
            "minimum 005",
            "minimum -0",
            "minimum +5",
            "number minimum 01",
            "number saved 008",
        ];
        if self.wide && self.random.chance(60) {
            let line = self.random.pick(WIDE);
            self.say(line);
        } else if self.random.chance(80) {
            let line = self.random.pick(LINES);
            self.say(line);
        } else {
            let length = self.random.below(30) as usize;
            let mut line = vec![b'#'];
            line.extend(self.bytes(length));
            line.retain(|&b| b != b'\n');
            self.say(line);
        }
    }

    fn say_hex(&mut self, words: &str, bytes: &[u8]) {
        self.say(format!("{words} {}", hex(bytes)));
    }
}
