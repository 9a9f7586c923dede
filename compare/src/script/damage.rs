//! Changes by hand: numbers and bytes that do not fit, and logs built from nothing.

use super::Script;
use crate::answer::hex;
use crate::log::TOP_OFFSET;
use crate::record::{Record, BULK, FRAGMENT, HEADING, WHOLE};

/// What puts a change by hand right again.
pub(super) enum Repair {
    Number(&'static str, String),
    Bytes(u64, Vec<u8>),
}

/// The log's numbers, as `numbers` writes them.
const NAMES: [&str; 10] = [
    "start", "used", "first", "next", "clear", "position", "offset", "console", "minimum", "saved",
];

impl Script<'_> {
    /// Changes something by hand, makes calls, and may put it right.
    pub(super) fn damage(&mut self) {
        let mut repairs = Vec::new();
        for _ in 0..self.random.pick(&[1, 1, 1, 2, 3]) {
            match self.random.chance(50) {
                true => self.change_number(&mut repairs),
                false => self.change_bytes(&mut repairs),
            }
        }
        self.say("check");
        for _ in 0..self.random.within(1, 7) {
            self.log_call();
        }
        self.say("numbers");
        if self.fine() {
            return;
        }
        match self.random.below(10) {
            0..=6 => {
                self.put_right(repairs);
                self.say("check");
            }
            7 | 8 => self.over = true,
            _ => (),
        }
    }

    /// The word that sets one of the log's numbers to what it is now.
    pub(super) fn word_of(&mut self, name: &str) -> String {
        let numbers = self.machine.answer(b"numbers");
        let mut words = NAMES.iter().zip(numbers.split(' '));
        let (_, word) = words
            .find(|(&other, _)| other == name)
            .expect("it is one of the numbers");
        word.into()
    }

    fn change_number(&mut self, repairs: &mut Vec<Repair>) {
        let name = self.random.pick(&NAMES);
        let n = self.numbers();
        let capacity = self.capacity();
        let held = n.position.checked_sub(n.first).map(|index| index as usize);
        let form = match (held, self.log().records()) {
            (Some(index), Some(records)) => records.get(index).map(Record::syslog_length),
            _ => None,
        };
        let form = form.map_or(TOP_OFFSET + 1, |length| length as u64);
        let any = self.random.below(100);
        let choices = match name {
            "start" => vec![0, n.start, capacity, n.start.saturating_add(any)],
            "used" => vec![0, n.used, capacity, n.used.saturating_add(any)],
            "first" => vec![0, n.first, n.next, n.first.saturating_sub(any)],
            "next" => vec![n.first, n.next, n.next, n.next.saturating_add(any)],
            "clear" | "position" => vec![0, n.first, n.next, n.next.saturating_sub(any)],
            "offset" => vec![form, form, form, 966, TOP_OFFSET, 0],
            _ => vec![0, 1, 8, 255],
        };
        let choice = self.random.pick(&choices);
        let value = match self.random.below(20) {
            0 => self
                .random
                .pick(&[u64::MAX, u64::MAX - 1, 1 << 32, 65_536, 1]),
            _ => self.near(choice),
        };
        let wide_console = name == "console" && value > i32::MAX as u64;
        if wide_console && !self.wide {
            return;
        }
        repairs.push(Repair::Number(name, self.word_of(name)));
        match name == "saved" && self.random.chance(20) {
            true => self.say("number saved -"),
            false => self.say(format!("number {name} {value}")),
        }
    }

    /// Puts bytes at a place of the ring, going on at its start.
    pub(super) fn poke_ring(&mut self, place: usize, bytes: &[u8], repairs: &mut Vec<Repair>) {
        let capacity = self.capacity() as usize;
        if capacity == 0 {
            self.say_hex("poke 0", bytes);
            return;
        }
        let place = place % capacity;
        let (here, wrapped) = bytes.split_at(bytes.len().min(capacity - place));
        for (place, bytes) in [(place, here), (0, wrapped)] {
            // A line holds no more than so many bytes.
            for (i, piece) in bytes.chunks(19_000).enumerate() {
                let place = (place + i * 19_000) as u64;
                let old = self.log().peek(place, piece.len() as u64).to_vec();
                repairs.push(Repair::Bytes(place, old));
                self.say_hex(&format!("poke {place}"), piece);
            }
        }
    }

    fn change_bytes(&mut self, repairs: &mut Vec<Repair>) {
        let capacity = self.capacity();
        let start = self.numbers().start as usize;
        let held = self.log().records().cloned().unwrap_or_default();
        if held.is_empty() || self.random.chance(12) {
            let place = match self.random.below(6) {
                0 => self.near(capacity),
                1 => u64::MAX,
                2 => capacity.saturating_sub(3),
                _ => self.random.below(capacity),
            };
            let length = self.random.within(0, 6);
            let bytes = self.bytes(length as usize);
            let old = self.log().peek(place, length).to_vec();
            repairs.push(Repair::Bytes(place, old));
            self.say_hex(&format!("poke {place}"), &bytes);
            return;
        }

        let index = match self.random.below(4) {
            0 => 0,
            1 => held.len() - 1,
            _ => self.random.below(held.len() as u64) as usize,
        };
        let place = start + held.iter().take(index).map(Record::cost).sum::<usize>();
        let record = &held[index];
        let (text, dictionary) = (record.text.len(), record.dictionary.len());
        let kind = match dictionary {
            0 => self.random.below(13),
            _ => self.random.below(16),
        };
        let (at, bytes): (usize, Vec<u8>) = match kind {
            0 => {
                let number = match self.random.below(3) {
                    0 => self
                        .random
                        .pick(&[0, u64::MAX, record.sequence.swap_bytes()]),
                    _ => self.near(record.sequence),
                };
                (8, number.to_le_bytes().into())
            }
            1 | 2 => {
                // Lengths: one alone, or both with their total kept or wrapped round.
                let (text, dictionary) = (text as u16, dictionary as u16);
                let total = text + dictionary;
                let part = self.random.below(u64::from(total) + 1) as u16;
                let pair = match self.random.below(12) {
                    0 => (text + 1, dictionary),
                    1 => (text.wrapping_sub(1), dictionary),
                    2 => (text, dictionary + 1),
                    3 => (text, dictionary.wrapping_sub(1)),
                    4 => (part, total - part),
                    5 => (dictionary, text),
                    6 => (960 - dictionary, dictionary),
                    7 => (961 - dictionary, dictionary),
                    8 => (65_535, total + 1),
                    9 => (total + 1, 65_535),
                    10 => (
                        part.wrapping_sub(300),
                        total.wrapping_sub(part).wrapping_add(300),
                    ),
                    _ => (
                        self.random.below(1_000) as u16,
                        self.random.below(20) as u16,
                    ),
                };
                let mut bytes = pair.0.to_le_bytes().to_vec();
                bytes.extend(pair.1.to_le_bytes());
                (16, bytes)
            }
            3 => {
                let prefix: u16 = self
                    .random
                    .pick(&[0, 1, 2_046, 2_047, 2_048, 2_049, 65_535]);
                (20, prefix.to_le_bytes().into())
            }
            4 => (22, vec![self.heading_flag()]),
            5 => (23, vec![self.random.pick(&[1, 45, 128, 255, 0])]),
            6 => (0, self.random.any().to_le_bytes().into()),
            7 => {
                let at = self.random.below(record.cost() as u64) as usize;
                (at, vec![self.random.below(256) as u8])
            }
            8 => {
                let at = self.random.below(HEADING as u64) as usize;
                let old = record.bytes()[at];
                (at, vec![old ^ (1 << self.random.below(8))])
            }
            9 => (24, self.caller().to_le_bytes().into()),
            10 | 11 => self.heading_zero(),
            12 => {
                // The text may then have a line more, or one less.
                let at = self.random.below(text as u64) as usize;
                (HEADING + at, vec![self.random.pick(b"\n\n\na")])
            }
            _ => {
                let at = match self.random.below(4) {
                    0 => 0,
                    1 => dictionary - 1,
                    2 => record
                        .dictionary
                        .iter()
                        .position(|&b| b == b'=')
                        .unwrap_or(0),
                    _ => self.random.below(dictionary as u64) as usize,
                };
                let byte = self.random.pick(&[0, 0, b'=', b'=', b'a', 255]);
                (HEADING + text + at, vec![byte])
            }
        };
        self.poke_ring(place + at, &bytes, repairs);
    }

    /// One of the two flags that a record has.
    pub(super) fn any_flag(&mut self) -> u8 {
        self.random.pick(&[WHOLE, WHOLE, FRAGMENT])
    }

    /// A heading's flag by hand: one of the two, their neighbours, and others.
    pub(super) fn heading_flag(&mut self) -> u8 {
        self.random.pick(&[
            WHOLE, FRAGMENT, FRAGMENT, FRAGMENT, b'+', b'+', 0, 44, 46, 67, 98, 100, 173, 227, 255,
        ])
    }

    /// One of the four bytes behind the caller, and what it is not to be.
    pub(super) fn heading_zero(&mut self) -> (usize, Vec<u8>) {
        let at = 28 + self.random.below(4) as usize;
        (at, vec![self.random.pick(&[1, 1, 45, 128, 255, 0])])
    }

    /// An empty log whose next number is at the end of all numbers.
    pub(super) fn top_numbers(&mut self) {
        let next = self.random.pick(&[
            u64::MAX,
            u64::MAX - 1,
            u64::MAX - 1,
            u64::MAX - 2,
            u64::MAX - 5,
        ]);
        self.say("number used 0");
        self.say(format!("number first {next}"));
        self.say(format!("number next {next}"));
        if self.random.chance(50) {
            self.say(format!("number position {next}"));
            self.say("number offset 0");
        }
        if self.random.chance(30) {
            self.say(format!("number clear {next}"));
        }
        self.say("check");
        for _ in 0..self.random.within(4, 12) {
            self.log_call();
        }
        for _ in 0..self.random.within(1, 5) {
            self.outside();
            self.from_box();
        }
        self.say("numbers");
        self.say("check");
        for _ in 0..self.random.within(2, 8) {
            self.log_call();
        }
        if self.random.chance(60) {
            self.over = true;
        }
    }

    /// Breaks one rule of a record, or comes close to it.
    pub(super) fn flaw(&mut self, record: &mut Record) {
        const DICTIONARIES: &[&[u8]] = &[
            b"=",
            b"a",
            b"a=\0",
            b"\0a=",
            b"a=\0\0b=",
            b"\0",
            b"a=\0=",
            b"a=\0b",
            b"=\0a=",
            b"a==",
            b"a=\0b=",
        ];
        match self.random.below(8) {
            0 => record.prefix = self.random.pick(&[2_047, 2_048, 2_049]),
            1 => record.sequence = self.near(record.sequence),
            7 => record.flag = self.heading_flag(),
            2..=4 => {
                // As many bytes as a record may have, or a few more.
                let total = BULK + self.random.pick(&[0, 1, 1, 2, 40]);
                let share = match self.random.below(3) {
                    0 => 0,
                    1 => total,
                    _ => self.random.within(2, total as u64) as usize,
                };
                record.text = self.bytes(total - share);
                record.dictionary = match share {
                    0 => Vec::new(),
                    _ => self.dictionary_of(share),
                };
            }
            _ => record.dictionary = self.random.pick(DICTIONARIES).into(),
        }
    }

    /// Sets each number at and around its limits, and back again. Half of the times one
    /// heading is broken, so that the order of the tests shows.
    pub(super) fn sweep_numbers(&mut self) {
        if !self.fine() {
            return;
        }
        let n = self.numbers();
        let capacity = self.capacity();
        let held = self.log().records().cloned().unwrap_or_default();
        let mut repairs = Vec::new();
        if !held.is_empty() && self.random.chance(50) {
            let index = self.random.below(held.len() as u64) as usize;
            let place = held.iter().take(index).map(Record::cost).sum::<usize>();
            let zero = 28 + self.random.below(4) as usize;
            let (at, byte) = self.random.pick(&[(22, 46), (23, 1), (zero, 1)]);
            self.poke_ring(n.start as usize + place + at, &[byte], &mut repairs);
        }
        let around = |number: u64| [number.wrapping_sub(1), number, number.wrapping_add(1)];
        let last = [capacity - 1, capacity, u64::MAX];
        let none = [u64::MAX; 3];
        let far = [257, (1 << 32) + 5, u64::MAX];
        let sweeps = [
            ("start", [around(n.start), last, none]),
            ("used", [around(n.used), around(capacity), none]),
            ("first", [around(n.first), around(n.next), none]),
            ("next", [around(n.next), around(n.first), none]),
            ("clear", [around(n.next), around(n.first), none]),
            ("console", [around(1), around(8), around(256)]),
            ("minimum", [around(1), around(8), far]),
            ("saved", [around(1), around(8), far]),
        ];
        for (name, values) in sweeps {
            let old = self.word_of(name);
            for value in values.concat() {
                if name == "console" && value > i32::MAX as u64 && !self.wide {
                    continue;
                }
                self.say(format!("number {name} {value}"));
                self.say("check");
                if !self.fine() && self.random.chance(25) {
                    self.log_call();
                }
            }
            self.say(format!("number {name} {old}"));
        }
        let mut places = vec![
            (n.first.wrapping_sub(1), 967),
            (n.first.wrapping_sub(1), TOP_OFFSET + 1),
            (n.first.wrapping_sub(1), 0),
            (n.next, 1),
            (n.next.wrapping_add(1), 1),
            (n.next.wrapping_add(2), 1),
        ];
        let parted = held.iter().position(|record| record.text.contains(&b'\n'));
        let newest = held.len().saturating_sub(1);
        for index in [0, newest, held.len() / 2, parted.unwrap_or(newest)] {
            if let Some(record) = held.get(index) {
                places.push((record.sequence, record.syslog_length() as u64));
                places.push((record.sequence, self.random.pick(&[967, TOP_OFFSET + 1])));
            }
        }
        for (position, offset) in places {
            self.say(format!("number position {position}"));
            for offset in around(offset) {
                self.say(format!("number offset {offset}"));
                self.say("check");
                if !self.fine() && self.random.chance(15) {
                    self.log_call();
                }
            }
        }
        self.say(format!("number position {}", n.position));
        self.say(format!("number offset {}", n.offset));
        self.put_right(repairs);
    }

    /// Changes one record's heading in every way that matters, and back again.
    pub(super) fn sweep_heading(&mut self) {
        let start = self.numbers().start as usize;
        let held = self.log().records().cloned().unwrap_or_default();
        if held.is_empty() {
            return;
        }
        let with_entries = held.iter().position(|record| !record.dictionary.is_empty());
        let index = match with_entries {
            Some(index) if self.random.chance(70) => index,
            _ => self.random.below(held.len() as u64) as usize,
        };
        let place = start + held.iter().take(index).map(Record::cost).sum::<usize>();
        let record = &held[index];
        let (text, dictionary) = (record.text.len() as u16, record.dictionary.len() as u16);
        let pair = |text: u16, dictionary: u16| -> Vec<u8> {
            [text.to_le_bytes(), dictionary.to_le_bytes()].concat()
        };
        let mut changes: Vec<(usize, Vec<u8>)> = vec![
            (8, record.sequence.wrapping_sub(1).to_le_bytes().into()),
            (8, record.sequence.wrapping_add(1).to_le_bytes().into()),
            (12, vec![record.bytes()[12] ^ 1]),
            (15, vec![record.bytes()[15] ^ 128]),
            (16, pair(text + 1, dictionary)),
            (16, pair(text.wrapping_sub(1), dictionary)),
            (16, pair(text, dictionary + 1)),
            (16, pair(text, dictionary.wrapping_sub(1))),
            (16, pair(text + 1, dictionary.wrapping_sub(1))),
            (16, pair(text.wrapping_sub(1), dictionary + 1)),
            (16, pair(960 - dictionary, dictionary)),
            (16, pair(961 - dictionary, dictionary)),
            (16, pair(dictionary, text)),
            (20, vec![255, 7]),
            (20, vec![0, 8]),
            (22, vec![44]),
            (22, vec![46]),
            (22, vec![b'+']),
            (22, vec![b'b']),
            (22, vec![b'c']),
            (22, vec![b'd']),
            (22, vec![b'-']),
            (23, vec![1]),
            (23, vec![255]),
            (24, vec![255; 4]),
            (24, vec![0; 4]),
            (28, vec![1]),
            (29, vec![1]),
            (30, vec![1]),
            (31, vec![1]),
            (31, vec![255]),
        ];
        for at in 0..record.dictionary.len().min(6) {
            for byte in [0, b'=', b'a'] {
                changes.push((HEADING + text as usize + at, vec![byte]));
            }
        }
        for (at, bytes) in changes {
            let mut repairs = Vec::new();
            self.poke_ring(place + at, &bytes, &mut repairs);
            self.say("check");
            if !self.fine() && self.random.chance(20) {
                self.log_call();
            }
            self.put_right(repairs);
        }
        self.say("check");
    }

    pub(super) fn put_right(&mut self, repairs: Vec<Repair>) {
        for repair in repairs.into_iter().rev() {
            match repair {
                Repair::Number(name, old) => self.say(format!("number {name} {old}")),
                Repair::Bytes(place, old) => self.say_hex(&format!("poke {place}"), &old),
            }
        }
    }

    /// Builds a log by hand that fits, or all but fits.
    pub(super) fn forge(&mut self) {
        let capacity = self.capacity() as usize;
        if capacity < 100 {
            return;
        }
        let start = match self.random.below(4) {
            0 => 0,
            1 => capacity - 1 - self.random.below(30) as usize,
            _ => self.random.below(capacity as u64) as usize,
        };
        let first = match self.random.below(4) {
            0 => self.random.below(50),
            1 => self.random.pick(&[1 << 32, (1 << 32) - 3, 1 << 63, 255]),
            2 => u64::MAX - self.random.below(60),
            _ => self.random.any(),
        };
        let room = match self.random.below(3) {
            0 => self.random.below(capacity as u64 + 1) as usize,
            _ => capacity,
        };
        let most = self.random.pick(&[3u64, 20, 100]).min(u64::MAX - first);
        let flaw = match self.random.chance(35) {
            true => self.random.pick(&[0, 0, 0, 1, 2, 5]),
            false => most,
        };
        let mut records: Vec<Record> = Vec::new();
        let mut used = 0;
        for i in 0..most {
            let length = self.length();
            let text = self.text(length);
            let dictionary = self.dictionary(BULK - length);
            let mut record = Record {
                time: self.time(),
                sequence: first + i,
                prefix: self.random.below(2_048) as u16,
                flag: self.any_flag(),
                caller: self.caller(),
                text,
                dictionary,
            };
            if i == flaw {
                self.flaw(&mut record);
            }
            if used + record.cost() > room {
                break;
            }
            used += record.cost();
            records.push(record);
        }
        if self.random.chance(30) && used + HEADING <= room && (records.len() as u64) < most {
            // Fills the room to the last byte where it can.
            let length = (room - used - HEADING).min(BULK);
            let record = Record {
                time: 1,
                sequence: first + records.len() as u64,
                prefix: 134,
                flag: self.any_flag(),
                caller: self.caller(),
                text: self.text(length),
                dictionary: Vec::new(),
            };
            used += record.cost();
            records.push(record);
        }

        // A log that was left by headings of 24 bytes does not fit.
        let old = self.random.chance(8);
        let layout: Vec<u8> = match old {
            true => records.iter().flat_map(Record::old_bytes).collect(),
            false => records.iter().flat_map(Record::bytes).collect(),
        };
        if old && self.random.chance(70) {
            used = layout.len();
        }
        self.poke_ring(start, &layout, &mut Vec::new());
        let next = first + records.len() as u64;
        let before = first.saturating_sub(self.random.below(3));
        let clear = match self.random.below(3) {
            0 => 0,
            1 => next,
            _ => self.random.within(first, next),
        };
        let position = match self.random.below(4) {
            0 => before,
            1 => next,
            _ => self.random.within(first, next),
        };
        let held = position.checked_sub(first).map(|index| index as usize);
        let top = match held.map(|index| records.get(index)) {
            Some(Some(record)) => record.syslog_length() as u64 - 1,
            Some(None) => 0,
            None => TOP_OFFSET,
        };
        let offset = match self.random.below(3) {
            0 => 0,
            1 => top,
            _ => self.random.within(0, top),
        };
        let console = self.random.within(1, 8);
        let minimum = match self.random.below(2) {
            0 => 1,
            _ => self.random.within(1, 8),
        };
        let mut values = [
            start as u64,
            used as u64,
            first,
            next,
            clear,
            position,
            offset,
            console,
            minimum,
        ];
        if self.random.chance(15) {
            let index = self.random.below(values.len() as u64) as usize;
            values[index] = self.near(values[index]);
        }
        for (name, value) in NAMES.iter().zip(values) {
            self.say(format!("number {name} {value}"));
        }
        let saved = self.any_level("saved");
        self.say(format!("number saved {saved}"));
        self.say("check");
        for reader in 0..self.machine.readers.len().min(3) {
            let number = self.random.within(first, next);
            self.say(format!("at {reader} {number}"));
        }
        for _ in 0..self.random.within(3, 9) {
            self.log_call();
        }
        if self.random.chance(20) {
            let capacity = self.capacity();
            let length = capacity.min(4_096);
            let line = format!("peek {} {length}", self.random.below(capacity));
            self.say(line);
        }
        self.say(format!("poke 0 {}", hex(&[])));
        self.say("check");
    }
}
