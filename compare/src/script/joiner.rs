//! The joiner: pieces of texts in long runs, and what comes between them.

use super::messages::Escaping;
use super::Script;
use crate::answer::hex;
use crate::board::{FIRST_CHANNEL, SLOTS};
use crate::message::MESSAGE;
use crate::record::{Record, BULK, WHOLE};
use std::io::{self, Write};

/// Flags that are neither 'c' nor '+', though some begin or end with one; the empty one is HEADER.
const OTHERS: &[&str] = &[
    "cc", "cc", "c+", "c+", "+c", "++", "-c", "+-", "C", " c", "c ", " +", "x", "--", "c\0",
    "\\x63", "", "",
];

impl Script<'_> {
    /// A long run on the joiner that there is; now and then on a fresh one.
    pub(super) fn joiner_chapter(&mut self) {
        if self.random.chance(12) {
            self.fresh_joiner();
        }
        if self.random.chance(25) {
            self.main_channel = self.random.within(16, 23);
        }
        for _ in 0..self.random.within(3, 9) {
            self.joiner_scene();
        }
        match self.random.below(12) {
            0 => self.odd_line(),
            1 => self.fresh_board(),
            2 => self.delivery(),
            _ => (),
        }
    }

    pub(super) fn joiner_scene(&mut self) {
        // Behind the highest number there is nothing but LATE.
        if self.last_number() == Some(u64::MAX) && self.random.chance(60) {
            self.fresh_joiner();
        }
        match self.random.below(20) {
            0..=7 => self.pieces(),
            8..=14 => self.up_to_the_border(),
            15 => self.interrupted(),
            16 | 17 => self.written_pieces(),
            18 => self.close_texts(),
            _ => {
                for _ in 0..self.random.within(1, 4) {
                    let message = self.any_message();
                    self.say_hex("join", &message);
                }
            }
        }
    }

    pub(super) fn fresh_joiner(&mut self) {
        let fill = self.fill_byte();
        self.say(format!("joiner {fill}"));
        match self.random.below(6) {
            0 => self.all_open(),
            1 => self.say("close"),
            _ => (),
        }
    }

    fn all_open(&mut self) {
        for facility in 16..24 {
            self.say(format!("open {facility}"));
        }
    }

    fn last_number(&self) -> Option<u64> {
        self.machine.joiner.as_ref()?.last
    }

    /// The length of a facility's open text.
    fn open_length(&self, facility: u64) -> Option<usize> {
        let index = facility.checked_sub(FIRST_CHANNEL)? as usize;
        let open = self.machine.joiner.as_ref()?.open.get(index).copied()??;
        Some(open as usize)
    }

    /// Most times the next number; some are left out, repeated, or lie before it.
    fn piece_number(&mut self) -> u64 {
        let Some(last) = self.last_number() else {
            let any = self.random.any() >> 8;
            let few = self.random.below(1_000);
            return match self.random.below(12) {
                0..=3 => 0,
                4 => u64::MAX - self.random.below(60),
                5 => self
                    .random
                    .pick(&[u64::MAX, u64::MAX - 1, 1 << 32, 1 << 63]),
                6 => any,
                _ => few,
            };
        };
        let before = self.random.below(last);
        let far = last.saturating_add(1 << self.random.below(40));
        match self.random.below(120) {
            0..=8 => last,
            9..=12 => last.saturating_sub(1),
            13..=15 => before,
            16 => 0,
            17 => last ^ (1 << self.random.below(40)),
            18 | 19 => far,
            20 if self.random.chance(20) => u64::MAX,
            21..=35 => last.saturating_add(self.random.within(2, 12)),
            _ => last.saturating_add(1),
        }
    }

    fn piece_facility(&mut self) -> u64 {
        let neighbour = match self.main_channel {
            23 => 22,
            facility => facility + 1,
        };
        match self.random.below(40) {
            0..=24 => self.main_channel,
            25..=34 => neighbour,
            35 => self.random.pick(&[15, 24, 0, 255, 14, 25]),
            _ => self.random.within(16, 23),
        }
    }

    /// Most times one that opens a text or goes on with it.
    fn piece_flag(&mut self, open: bool) -> &'static str {
        match self.random.below(20) {
            0..=6 => "c",
            7..=9 if !open => "c",
            7..=15 => "+",
            16 | 17 => "-",
            _ => self.random.pick(OTHERS),
        }
    }

    /// How long a piece is: often such that the text has 960 bytes with it, or a few less or more.
    fn piece_length(&mut self, open: Option<usize>) -> usize {
        let left = BULK - open.unwrap_or(0).min(BULK);
        match self.random.below(20) {
            0 => 0,
            1 => 1,
            2..=5 => self.random.below(30) as usize,
            6 => self.random.pick(&[479, 480, 481]),
            7 => self.random.pick(&[BULK - 1, BULK, BULK, BULK + 1]),
            8 => self.random.within(0, BULK as u64) as usize,
            9..=11 => self.random.below(300) as usize,
            // Nearly as much as there is room for, so that the border is near.
            12 => left.saturating_sub(self.random.below(6) as usize),
            _ => self.near(left as u64) as usize,
        }
    }

    /// Bytes that show their place; of short texts all kinds.
    fn piece_text(&mut self, number: u64, length: usize) -> Vec<u8> {
        if length < 60 && self.random.chance(50) {
            return self.bytes(length);
        }
        if self.random.chance(8) {
            return self.bytes(length);
        }
        let from = number % 26;
        (0..length as u64)
            .map(|i| b'a' + ((from + i / 7) % 26) as u8)
            .collect()
    }

    /// A message of this facility, flag, number and text, as one of its spellings.
    fn piece(&mut self, facility: u64, flag: &str, number: u64, text: Vec<u8>) -> Vec<u8> {
        let room = BULK.saturating_sub(text.len());
        let dictionary = match self.random.below(20) {
            0 => self.dictionary(room),
            1 if room >= 2 => self.dictionary_of(room),
            2 if self.random.chance(30) => self.dictionary_of(room.max(1) + 1),
            _ => Vec::new(),
        };
        let escaping = match self.random.below(20) {
            0 => Escaping::All,
            1 => Escaping::Some,
            _ => Escaping::Needed,
        };
        let record = Record {
            time: self.time(),
            sequence: number,
            prefix: (facility * 8 + self.random.below(8)) as u16,
            flag: WHOLE,
            caller: 0,
            text,
            dictionary,
        };
        let mut parts = self.spelled_with(&record, flag.into(), escaping);
        match self.random.below(120) {
            0 => parts.pad(MESSAGE),
            1 => parts.pad(MESSAGE + 1),
            _ => (),
        }
        parts.join()
    }

    /// One piece for the joiner, and maybe a look at what is open.
    fn next_piece(&mut self) {
        let facility = self.piece_facility();
        let open = self.open_length(facility);
        let flag = self.piece_flag(open.is_some());
        let length = self.piece_length(open);
        self.join_piece(facility, flag, length);
    }

    fn join_piece(&mut self, facility: u64, flag: &str, length: usize) {
        let number = self.piece_number();
        let text = self.piece_text(number, length);
        let message = self.piece(facility, flag, number, text);
        self.say_hex("join", &message);
        if self.random.chance(18) {
            self.say(format!("open {}", facility.clamp(16, 23)));
        }
    }

    fn pieces(&mut self) {
        for _ in 0..self.random.within(4, 20) {
            self.next_piece();
            match self.random.below(60) {
                0 | 1 => self.say("close"),
                2 => self.all_open(),
                _ => (),
            }
        }
    }

    /// A text that is opened and brought to its border, or just over it, by a piece or two.
    fn up_to_the_border(&mut self) {
        let facility = self.main_channel;
        if self.open_length(facility).is_none() {
            let length = match self.random.below(3) {
                0 => self.random.within(900, 960) as usize,
                _ => self.piece_length(None),
            };
            self.join_piece(facility, "c", length);
        }
        for _ in 0..self.random.within(2, 8) {
            let left = BULK - self.open_length(facility).unwrap_or(0).min(BULK);
            let length = match self.random.below(12) {
                0 | 1 => left.saturating_sub(1),
                2..=4 => left,
                5..=7 => left + 1,
                8 => left.saturating_sub(2),
                9 => left + 2,
                10 => self.random.below(BULK as u64 + 1) as usize,
                _ => 0,
            };
            let flag = self
                .random
                .pick(&["c", "+", "c", "+", "c", "+", "c", "+", "-", "x"]);
            self.join_piece(facility, flag, length.min(BULK));
            if self.random.chance(12) {
                // Another facility's piece between them moves nothing of it.
                let other = 16 + (facility - 15) % SLOTS as u64;
                self.join_piece(other, "c", 1);
            }
        }
        self.say(format!("open {facility}"));
    }

    /// Messages that are refused, between the pieces of one text.
    fn interrupted(&mut self) {
        let facility = self.main_channel;
        self.join_piece(facility, "c", 3);
        for _ in 0..self.random.within(1, 5) {
            let text = self.bytes(4);
            let last = self.last_number().unwrap_or(0);
            let next = last.saturating_add(1);
            let message = match self.random.below(6) {
                0 => self.piece(facility, "-", last, text),
                1 => {
                    // One that is only late goes by no facility.
                    let other = self.random.within(16, 23);
                    let number = last.saturating_sub(self.random.below(3));
                    self.piece(other, "c", number, text)
                }
                2 => {
                    // Its number is not taken.
                    let outside = self.random.pick(&[15, 24]);
                    self.piece(outside, "-", next.saturating_add(50), text)
                }
                _ => {
                    let number = next.saturating_add(self.random.below(2));
                    let prefix = (facility * 8) as u16;
                    let record = Record {
                        time: 0,
                        sequence: number,
                        prefix,
                        flag: WHOLE,
                        caller: 0,
                        text,
                        dictionary: b"k=v".to_vec(),
                    };
                    let mut parts = self.spelled_with(&record, b"-".to_vec(), Escaping::Needed);
                    self.spoil(&mut parts);
                    parts.join()
                }
            };
            self.say_hex("join", &message);
            self.say(format!("open {facility}"));
        }
        self.join_piece(facility, "+", 2);
        let flag = self.piece_flag(true);
        self.join_piece(facility, flag, 1);
    }

    /// Pieces that a log took from the box: its own kmsg lines go to the joiner.
    fn written_pieces(&mut self) {
        let last = self.last_number().unwrap_or(0);
        let held = self.numbers();
        if !self.fine() || self.random.chance(15) || held.next > u64::MAX - 50 {
            let capacity = self.random.pick(&[1_024, 2_048, 4_096]);
            let fill = self.fill_byte();
            self.say(format!("log {capacity} {fill}"));
            self.say("reader");
            if last < u64::MAX - 60 && self.random.chance(80) {
                // Its numbers go on behind the joiner's.
                self.say(format!("number next {}", last + 1));
                self.say(format!("number first {}", last + 1));
            }
        } else if held.next <= last && self.random.chance(60) {
            self.fresh_joiner();
        }
        if self.machine.readers.is_empty() {
            self.say("reader");
        }
        let from = self.numbers().next;
        let facility = self.main_channel;
        for _ in 0..self.random.within(1, 8) {
            self.written_piece(facility);
        }
        if self.random.chance(30) {
            self.say("check");
        }
        let records = self.log().records().cloned().unwrap_or_default();
        let all = self.random.chance(30);
        for record in records {
            let near = (15..=24).contains(&(record.prefix / 8));
            if record.sequence < from && !(all && near) {
                continue;
            }
            if self.random.chance(50) {
                self.say(format!("at 0 {}", record.sequence));
                self.say("read 0 5000");
            }
            self.say_hex("join", &record.line());
            if self.random.chance(20) {
                self.say(format!("open {facility}"));
            }
        }
        if self.random.chance(20) {
            if let Some(record) = self.from_log() {
                self.say_hex("join", &record.line());
            }
        }
        self.say(format!("open {facility}"));
    }

    fn written_piece(&mut self, main: u64) {
        let facility = match self.random.below(8) {
            0 => self.random.within(15, 24),
            _ => main,
        };
        let open = self.open_length(facility);
        let length = self.piece_length(open).min(BULK + 1);
        let number = self.numbers().next;
        let text = self.piece_text(number, length);
        let time = self.time();
        if self.random.chance(12) {
            // From outside no piece comes, but what ends one may.
            let handed = [format!("<{}>", facility * 8 + 5).into_bytes(), text].concat();
            let caller = self.caller_word();
            self.say(format!("outside {time} {}{caller}", hex(&handed)));
            return;
        }
        let level = self.random.below(8);
        let dictionary = match self.random.chance(15) {
            true => self.dictionary(BULK.saturating_sub(text.len())),
            false => Vec::new(),
        };
        let last = match self.random.pick(&[" 1", " 1", " 1", " 1", " 0", ""]) {
            "" => String::new(),
            fragment => fragment.to_string() + &self.caller_word(),
        };
        self.say(format!(
            "box {facility} {level} {time} {} {}{last}",
            hex(&text),
            hex(&dictionary)
        ));
    }

    /// Several texts opened in any order, closed from the lowest facility upward.
    fn close_texts(&mut self) {
        for _ in 0..self.random.below(6) {
            let facility = self.random.within(16, 23);
            let length = self.random.pick(&[0, 1, 2, 8]);
            self.join_piece(facility, "c", length);
        }
        let closes = match self.random.chance(60) {
            true => SLOTS as u64 + 1,
            false => self.random.within(1, 4),
        };
        for _ in 0..closes {
            let none = self.nothing_open();
            self.say("close");
            if none {
                break;
            }
        }
        if self.random.chance(60) {
            // What comes later still has to be above the last number.
            let last = self.last_number().unwrap_or(0);
            let flag = self.random.pick(&["c", "+", "-"]);
            let message = self.piece(self.main_channel, flag, last, b"late".to_vec());
            self.say_hex("join", &message);
            self.join_piece(self.main_channel, "+", 3);
        }
    }

    fn nothing_open(&self) -> bool {
        let joiner = self.machine.joiner.as_ref();
        joiner.is_none_or(|joiner| joiner.open.iter().all(Option::is_none))
    }
}

/// One call of the exhaustive runs.
#[derive(Clone, Copy)]
enum Step {
    /// A message with this facility, flag and length of text.
    Piece(u64, &'static str, usize),
    /// The same with the number of the call before it.
    Again(u64, &'static str, usize),
    /// The same with a number far above all.
    Far(u64, &'static str, usize),
    Close,
}

impl Step {
    /// The line for this step as the run's i-th call, counted from 1.
    fn line(self, i: usize) -> String {
        let (facility, flag, length, number) = match self {
            Step::Piece(facility, flag, length) => (facility, flag, length, i),
            Step::Again(facility, flag, length) => (facility, flag, length, i - 1),
            Step::Far(facility, flag, length) => (facility, flag, length, 99),
            Step::Close => return "close".into(),
        };
        let mut message = format!("{},{number},0,{flag};", facility * 8 + 6).into_bytes();
        // Each call has a letter of its own.
        message.resize(message.len() + length, b'`' + i as u8);
        message.push(b'\n');
        format!("join {}", hex(&message))
    }
}

/// Two facilities, each flag and each length; numbers that come again; refusals that would have
/// taken a high number; closes.
fn wide_steps() -> Vec<Step> {
    let mut steps = vec![
        Step::Close,
        Step::Again(16, "c", 1),
        Step::Again(17, "-", 1),
        Step::Far(15, "c", 1),
        Step::Far(16, "", 1),
    ];
    for facility in [16, 17] {
        for flag in ["c", "+", "-", "cc"] {
            for length in [0, 1, 480, 959, 960] {
                steps.push(Step::Piece(facility, flag, length));
            }
        }
    }
    steps
}

fn middle_steps() -> Vec<Step> {
    let mut steps = vec![
        Step::Close,
        Step::Again(17, "+", 1),
        Step::Far(24, "-", 1),
        Step::Piece(17, "c", 1),
        Step::Piece(17, "-", 0),
    ];
    for flag in ["c", "+"] {
        for length in [0, 1, 480, 959, 960] {
            steps.push(Step::Piece(16, flag, length));
        }
    }
    steps.extend([Step::Piece(16, "-", 1), Step::Piece(16, "x", 0)]);
    steps
}

fn few_steps() -> Vec<Step> {
    vec![
        Step::Piece(16, "c", 480),
        Step::Piece(16, "+", 480),
        Step::Piece(16, "-", 0),
        Step::Piece(17, "c", 0),
        Step::Close,
    ]
}

/// Every run of one or two wide steps, of three middle ones, and of four and five of a few: each on
/// a fresh joiner, with what is then open, so that every run is met with its end.
pub fn write_all_pieces(output: &mut dyn Write) -> io::Result<()> {
    for (steps, lengths) in [
        (wide_steps(), 1..=2),
        (middle_steps(), 3..=3),
        (few_steps(), 4..=5),
    ] {
        for length in lengths {
            for run in 0..steps.len().pow(length) {
                writeln!(output, "joiner 46")?;
                for place in 0..length {
                    let step = steps[run / steps.len().pow(length - 1 - place) % steps.len()];
                    writeln!(output, "{}", step.line(place as usize + 1))?;
                }
                writeln!(output, "open 16\nopen 17")?;
            }
        }
    }
    output.flush()
}
