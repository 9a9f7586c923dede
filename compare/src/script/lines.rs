//! Texts of many lines, and the commands that give each line its prefix: 2, 3, 4 and 9.

use super::Script;
use crate::answer::{hex, Machine};
use crate::log::TOP_OFFSET;
use crate::random::Random;
use crate::record::{Record, BULK, HEADING};
use std::io::{self, Write};

impl Script<'_> {
    /// Parts a text into lines: a few or many, nothing but empty ones, some at its start or its
    /// end, and some where the text goes over the buffer's end.
    pub(super) fn part(&mut self, text: &mut [u8]) {
        let length = text.len();
        let few = (self.random.within(1, 3) as usize).min(length);
        match self.random.below(8) {
            0 | 1 => {
                for _ in 0..few {
                    let place = self.random.below(length as u64) as usize;
                    text[place] = b'\n';
                    // A line may begin as if it had a prefix of its own.
                    if place + 4 < length && self.random.chance(25) {
                        text[place + 1..place + 4].copy_from_slice(b"<6>");
                    }
                }
            }
            2 => {
                let share = self.random.pick(&[10, 50, 80]);
                for byte in text {
                    if self.random.chance(share) {
                        *byte = b'\n';
                    }
                }
            }
            3 => text.fill(b'\n'),
            4 => text[..few].fill(b'\n'),
            5 => text[length - few..].fill(b'\n'),
            6 => {
                text[..few].fill(b'\n');
                text[length - few..].fill(b'\n');
            }
            _ => {
                // Where it does not go over the end, it is its last byte.
                let behind = self.text_before_end().min(length.saturating_sub(1));
                for place in [behind.saturating_sub(1), behind, behind + 1] {
                    if place < length && self.random.chance(60) {
                        text[place] = b'\n';
                    }
                }
            }
        }
    }

    /// How many bytes of the next record's text have room before the buffer's end.
    fn text_before_end(&mut self) -> usize {
        let n = self.numbers();
        let capacity = self.capacity();
        let place = n.start.saturating_add(n.used).checked_rem(capacity);
        let room = capacity - place.unwrap_or(0);
        room.saturating_sub(HEADING as u64) as usize
    }

    /// A log of many lines, and what befalls it.
    pub(super) fn lines_chapter(&mut self) {
        let capacity = match self.random.below(30) {
            0 | 1 => 65_536,
            2 => self.random.pick(&[1_023, 65_537]),
            3..=8 => self.random.within(1_025, 2_000),
            9 | 10 => 4_096,
            _ => 1_024,
        };
        let fill = self.random.pick(&[10, 10, 0, 165]);
        self.say(format!("log {capacity} {fill}"));
        self.say("reader");
        if self.random.chance(60) {
            // The first text goes over the buffer's end, or begins near it.
            let start = capacity - 1 - self.random.below(40);
            self.say(format!("number start {start}"));
        }
        if self.random.chance(60) {
            let first = self.random.pick(&[1, 2, 9, 1 << 32, u64::MAX - 300]);
            self.say(format!("number next {first}"));
            self.say(format!("number first {first}"));
        }
        if capacity == 65_536 {
            self.fill_with_lines();
        }
        for _ in 0..self.random.within(1, 6) {
            self.lines_write();
        }
        // A log out of range soon makes room for another.
        let scenes = match self.fine() {
            true => self.random.within(4, 14),
            false => 1,
        };
        for _ in 0..scenes {
            self.lines_scene();
        }
    }

    pub(super) fn lines_scene(&mut self) {
        for _ in 0..self.random.below(3) {
            self.lines_write();
        }
        if !self.fine() {
            let kind = self.random.pick(&[2, 3, 4, 9]);
            self.say(format!("command {kind} 1 1 0 1"));
            return;
        }
        match self.random.below(20) {
            0..=5 => self.read_lines(),
            6..=9 => self.drop_lines(),
            10..=12 => self.last_lines(),
            13..=15 => self.place_by_hand(),
            16 | 17 => self.lines_by_hand(),
            18 => self.every_cut_of_lines(),
            _ => self.longest_form(),
        }
    }

    fn lines_text(&mut self) -> Vec<u8> {
        let most = self.random.pick(&[4, 6, 6, 12, 12, 40, 40, 960]);
        let length = self.random.within(0, most) as usize;
        let mut text = self.bytes(length);
        self.part(&mut text);
        text
    }

    /// A text of lines, from outside or from the box.
    fn lines_write(&mut self) {
        let mut text = self.lines_text();
        let time = self.time();
        if self.random.chance(50) {
            let prefix = self
                .random
                .pick(&["", "", "<0>", "<9>", "<12>", "<134>", "<1000>", "<2047>"]);
            let tail = self.random.pick(&["", "", "\n", "\n\n"]);
            // A zero would be refused.
            text.retain(|&byte| byte != 0);
            let mut handed = [prefix.as_bytes(), &text, tail.as_bytes()].concat();
            handed.truncate(BULK);
            let caller = self.caller_word();
            self.say(format!("outside {time} {}{caller}", hex(&handed)));
            return;
        }
        let (facility, level) = match self.random.below(3) {
            0 => (self.random.below(256), self.random.below(8)),
            // Prefixes 0, 9, 10, 99, 100, 999, 1000 and 2047.
            _ => self.random.pick(&[
                (0, 0),
                (1, 1),
                (1, 2),
                (12, 3),
                (12, 4),
                (124, 7),
                (125, 0),
                (255, 7),
            ]),
        };
        let dictionary = match self.random.chance(30) {
            true => self.dictionary(BULK - text.len()),
            false => Vec::new(),
        };
        let last = self.last_words();
        self.say(format!(
            "box {facility} {level} {time} {} {}{last}",
            hex(&text),
            hex(&dictionary)
        ));
    }

    /// A record with a short form that takes much room: dictionaries are in no form.
    fn filler(&mut self) {
        let length = self.random.within(200, 950) as usize;
        let dictionary = self.dictionary_of(length);
        let text = self.random.pick(&["-", "0a", "61", "610a"]);
        self.say(format!("box 1 4 0 {text} {}", hex(&dictionary)));
    }

    /// A full log of records whose forms are far longer than their costs.
    fn fill_with_lines(&mut self) {
        let length = self.random.pick(&[BULK, BULK, 900]);
        for _ in 0..self.capacity() / (length + HEADING) as u64 {
            self.say(format!("box 255 7 0 {} -", hex(&vec![b'\n'; length])));
        }
        let n = self.numbers();
        let left = (self.capacity().saturating_sub(n.used) as usize).saturating_sub(HEADING);
        let last = vec![b'\n'; left.min(BULK)];
        self.say(format!("box 255 7 0 {} -", hex(&last)));
        self.say("command 9 0 1 0 0");
        self.say("command 3 300000 1 0 300000");
        self.say("command 2 300000 1 0 300000");
        self.say("numbers");
        self.say("command 9 0 1 0 0");
    }

    fn say_place(&mut self, position: u64, offset: u64) {
        self.say(format!("number position {position}"));
        self.say(format!("number offset {offset}"));
    }

    /// Puts command 2 back to the oldest record where it has read all, and sometimes elsewhere.
    fn rewind(&mut self) {
        let n = self.numbers();
        if n.position == n.next || self.random.chance(20) {
            let position = n.first.saturating_add(self.random.below(3)).min(n.next);
            self.say_place(position, 0);
        }
    }

    /// A place in these bytes: at a line's border, next to it, in the prefix behind it, or any.
    pub(super) fn stop(&mut self, all: &[u8]) -> usize {
        let ends = (0..all.len()).filter(|&place| all[place] == b'\n');
        let borders: Vec<usize> = ends.map(|place| place + 1).take(30).collect();
        if borders.is_empty() || self.random.chance(15) {
            return self.random.below(all.len() as u64 + 1) as usize;
        }
        let border = self.random.pick(&borders);
        // The first '>' behind a border is its prefix's.
        let closing = all[border..].iter().position(|&byte| byte == b'>');
        let prefix = closing.map_or(0, |place| place + 1);
        match self.random.below(10) {
            0 => border - 1,
            1 | 2 => border,
            3 => border + 1,
            4 => border + prefix - 1,
            5 => border + prefix,
            6 => border + prefix + 1,
            _ => border + self.random.below(prefix as u64 + 1) as usize,
        }
    }

    /// How many of the last bytes there are from such a place on, which is not far from the end.
    pub(super) fn stop_from_end(&mut self, all: &[u8]) -> usize {
        let last = &all[all.len().saturating_sub(400)..];
        last.len().saturating_sub(self.stop(last))
    }

    /// Command 2 with a len that stops it at or near a line's border.
    fn stop_command(&mut self) {
        let unread = self.log().unread().unwrap_or_default();
        let len = match self.random.below(8) {
            0 => 1,
            1 => unread.len() + self.random.below(2) as usize,
            _ => self.stop(&unread),
        };
        let len = len.min(300_000);
        let lent = (len + self.random.pick(&[0, 0, 1, 40])).min(300_000);
        self.say(format!("command 2 {len} 1 0 {lent}"));
    }

    /// Command 2 again and again, with little between.
    fn read_lines(&mut self) {
        self.rewind();
        for _ in 0..self.random.within(2, 8) {
            self.stop_command();
            if self.random.chance(50) {
                self.say("numbers");
            }
            match self.random.below(8) {
                0..=2 => self.say("command 9 0 1 0 0"),
                3 => self.lines_write(),
                4 => self.say("read 0 5000"),
                _ => (),
            }
        }
    }

    /// Stops command 2 inside a form, and drops that record.
    fn drop_lines(&mut self) {
        self.rewind();
        self.stop_command();
        self.say("numbers");
        for _ in 0..self.random.within(1, 12) {
            let n = self.numbers();
            if n.first > n.position {
                break;
            }
            match self.random.chance(70) {
                true => self.filler(),
                false => self.lines_write(),
            }
        }
        self.say("check");
        self.say("command 9 0 1 0 0");
        if self.random.chance(40) {
            self.say("command 2 0 1 0 0");
            self.say("numbers");
        }
        self.stop_command();
        self.say("numbers");
        self.say("command 9 0 1 0 0");
    }

    /// Commands 3 and 4 whose bytes begin at or near a line's border.
    fn last_lines(&mut self) {
        let n = self.numbers();
        for _ in 0..self.random.within(2, 6) {
            let all = self.log().uncleared().unwrap_or_default();
            let len = match self.random.below(8) {
                0 => 0,
                1 => all.len() + self.random.below(2) as usize,
                2 => self.random.below(20) as usize,
                _ => self.stop_from_end(&all),
            };
            let len = len.min(300_000);
            let kind = self.random.pick(&[3, 3, 4]);
            self.say(format!("command {kind} {len} 1 0 {len}"));
            if self.random.chance(40) {
                self.say("command 9 0 1 0 0");
            }
            if self.random.chance(50) {
                let clear = self.random.pick(&[0, n.first, n.next.saturating_sub(1)]);
                self.say(format!("number clear {clear}"));
            }
        }
    }

    /// A held record, most times one of many lines, and its place in the ring.
    fn any_held(&mut self) -> Option<(usize, Record)> {
        let start = self.numbers().start as usize;
        let held = self.log().records()?.clone();
        let parted = |record: &Record| record.text.contains(&b'\n');
        let choices: Vec<usize> = match self.random.chance(85) {
            true => (0..held.len()).filter(|&i| parted(&held[i])).collect(),
            false => (0..held.len()).collect(),
        };
        if choices.is_empty() {
            return None;
        }
        let index = self.random.pick(&choices);
        let place = start + held.iter().take(index).map(Record::cost).sum::<usize>();
        Some((place, held[index].clone()))
    }

    /// Command 2's place by hand: at lines' borders, at both limits of the offset and behind them.
    fn place_by_hand(&mut self) {
        let n = self.numbers();
        for _ in 0..self.random.within(2, 5) {
            let dropped = n.first.checked_sub(1 + self.random.below(2));
            let (position, offset) = match (self.any_held(), dropped) {
                (Some((_, record)), _) if self.random.chance(60) => {
                    let form = record.syslog();
                    let length = form.len() as u64;
                    // What the form would have if only its first line had a prefix.
                    let bare =
                        record.text.len() as u64 + record.prefix.to_string().len() as u64 + 3;
                    let inside = self.stop(&form) as u64;
                    let limit = self.random.pick(&[966, 967, TOP_OFFSET, TOP_OFFSET + 1]);
                    let offset = match self.random.below(10) {
                        0 | 1 => length - 1,
                        2 | 3 => length,
                        4 => length + 1,
                        5 => self.near(bare),
                        6 => limit,
                        _ => inside,
                    };
                    (record.sequence, offset)
                }
                (_, Some(position)) => {
                    let limit = self.random.pick(&[966, TOP_OFFSET, TOP_OFFSET]);
                    (position, self.near(limit))
                }
                _ => (n.next, self.random.below(2)),
            };
            self.say_place(position, offset);
            self.say("check");
            for _ in 0..self.random.within(1, 4) {
                match self.random.below(8) {
                    0 | 1 => self.say("command 9 0 1 0 0"),
                    2 | 3 => self.stop_command(),
                    4 => self.say("command 3 40 1 0 40"),
                    5 => self.say("read 0 5000"),
                    6 => self.say("numbers"),
                    _ => self.lines_write(),
                }
            }
        }
        if !self.fine() || self.random.chance(50) {
            let n = self.numbers();
            self.say_place(n.first, 0);
            self.say("check");
        }
    }

    /// Turns bytes of a held text into newlines or newlines into other bytes, so that its form is
    /// longer or shorter, and may put them back.
    fn lines_by_hand(&mut self) {
        let Some((place, record)) = self.any_held() else {
            return;
        };
        if record.text.is_empty() {
            return;
        }
        if self.random.chance(70) {
            let back = self.random.within(1, 8).min(record.syslog_length() as u64);
            self.say_place(record.sequence, record.syslog_length() as u64 - back);
        }
        let newlines: Vec<usize> = (0..record.text.len())
            .filter(|&at| record.text[at] == b'\n')
            .collect();
        let mut repairs = Vec::new();
        for _ in 0..self.random.within(1, 3) {
            let at = match newlines.is_empty() || self.random.chance(50) {
                true => self.random.below(record.text.len() as u64) as usize,
                false => self.random.pick(&newlines),
            };
            let byte = match record.text[at] {
                b'\n' => self.random.pick(b"n\r\0\x0b"),
                _ => b'\n',
            };
            self.poke_ring(place + HEADING + at, &[byte], &mut repairs);
            self.say("check");
            self.say("command 9 0 1 0 0");
        }
        for _ in 0..self.random.below(3) {
            self.stop_command();
            self.say("numbers");
        }
        self.say("command 3 60 1 0 60");
        if !self.fine() || self.random.chance(50) {
            self.put_right(repairs);
            self.say("check");
            self.say("command 9 0 1 0 0");
        }
        if !self.fine() {
            self.say("number offset 0");
            self.say("check");
        }
    }

    /// One short form, cut at its every byte.
    fn every_cut_of_lines(&mut self) {
        let Some((_, record)) = self.any_held() else {
            return;
        };
        let length = record.syslog_length() as u64;
        if length > 45 {
            return;
        }
        match self.random.below(3) {
            0 => {
                for offset in 0..=length {
                    self.say_place(record.sequence, offset);
                    self.say("command 9 0 1 0 0");
                    self.say("command 2 1 1 0 1");
                    self.say("numbers");
                }
                self.say("number offset 0");
            }
            1 => {
                for len in 0..=length + 1 {
                    self.say_place(record.sequence, 0);
                    self.say(format!("command 2 {len} 1 0 {len}"));
                    self.say("numbers");
                }
            }
            _ => {
                self.say(format!("number clear {}", record.sequence));
                for len in 0..=length + 1 {
                    self.say(format!("command 3 {len} 1 0 {len}"));
                }
            }
        }
    }

    /// The longest form or nearly, read to its end and then dropped.
    fn longest_form(&mut self) {
        let length = self.random.pick(&[BULK, BULK, BULK - 1]);
        let level = self.random.pick(&[7, 7, 6]);
        self.say(format!("box 255 {level} 0 {} -", hex(&vec![b'\n'; length])));
        // There may be no number left for it.
        let n = self.numbers();
        let Some(newest) = n.next.checked_sub(1).filter(|&number| number >= n.first) else {
            return;
        };
        self.say("command 9 0 1 0 0");
        self.say_place(newest, 0);
        match self.random.chance(50) {
            true => {
                let len = TOP_OFFSET - self.random.below(3);
                self.say(format!("command 2 {len} 1 0 {len}"));
            }
            false => {
                for offset in [TOP_OFFSET - 1, TOP_OFFSET, TOP_OFFSET + 1] {
                    self.say(format!("number offset {offset}"));
                    self.say("check");
                    self.say("command 9 0 1 0 0");
                }
                let offset = self.random.pick(&[TOP_OFFSET - 7, TOP_OFFSET]);
                self.say(format!("number offset {offset}"));
            }
        }
        self.say("numbers");
        if self.random.chance(70) {
            self.filler();
            self.filler();
        }
        self.say("check");
        self.say("command 9 0 1 0 0");
        self.stop_command();
        self.say("numbers");
        if !self.fine() {
            self.say("number offset 0");
        }
    }
}

/// The bytes that a run of command 2 gives, one by one or all at once.
struct Pairs<'a> {
    machine: Machine,
    output: &'a mut dyn Write,
}

/// A log to be read: the lines that make it, and a write that comes when so many bytes are read.
struct Small {
    made: Vec<String>,
    later: Option<(usize, String)>,
}

/// Small logs with texts of many lines: each is read by command 2 byte by byte until nothing is
/// left, and then, made again, in one read. In both a write may drop the record that is being read.
pub fn write_all_bytes(output: &mut dyn Write) -> io::Result<()> {
    let mut pairs = Pairs {
        machine: Machine::default(),
        output,
    };
    for small in short_texts().chain(over_the_end()).chain(dropped()) {
        pairs.pair(&small, true)?;
    }
    for small in any_logs() {
        pairs.pair(&small, false)?;
    }
    pairs.output.flush()
}

impl Pairs<'_> {
    fn say(&mut self, line: &str) -> io::Result<String> {
        writeln!(self.output, "{line}")?;
        Ok(self.machine.answer(line.as_bytes()))
    }

    /// The log read both ways, where wanted with the numbers behind each byte.
    fn pair(&mut self, small: &Small, numbers: bool) -> io::Result<()> {
        for whole in [false, true] {
            for line in &small.made {
                self.say(line)?;
            }
            self.say("command 9 0 1 0 0")?;
            if let Some((count, write)) = &small.later {
                match whole {
                    true => self.read(*count)?,
                    false => self.read_bytes(*count, numbers)?,
                }
                self.say(write)?;
                self.say("command 9 0 1 0 0")?;
            }
            let log = self.machine.log.as_mut().expect("it was made");
            let unread = log.unread().map_or(0, |bytes| bytes.len());
            match whole {
                true => self.read(unread)?,
                false => self.read_bytes(unread, numbers)?,
            }
            self.say("command 2 1 1 0 1")?;
            self.say("numbers")?;
        }
        Ok(())
    }

    fn read(&mut self, count: usize) -> io::Result<()> {
        self.say(&format!("command 2 {count} 1 0 {count}"))?;
        Ok(())
    }

    fn read_bytes(&mut self, count: usize, numbers: bool) -> io::Result<()> {
        for _ in 0..count {
            self.say("command 2 1 1 0 1")?;
            if numbers {
                self.say("numbers")?;
            }
        }
        Ok(())
    }
}

fn made(start: u64, writes: Vec<String>) -> Vec<String> {
    let mut made = vec!["log 1024 10".to_string()];
    if start > 0 {
        made.push(format!("number start {start}"));
    }
    made.extend(writes);
    made
}

/// Every text of so many bytes, each an 'a' or a newline.
fn texts(length: u32) -> impl Iterator<Item = Vec<u8>> {
    (0..1u32 << length).map(move |bits| {
        let byte = |i| if bits >> i & 1 == 1 { b'\n' } else { b'a' };
        (0..length).map(byte).collect()
    })
}

/// Every text of up to four bytes alone, with prefix 3 and with 2047, and every pair of up to two.
fn short_texts() -> impl Iterator<Item = Small> {
    let alone = (0..=4).flat_map(texts).flat_map(|text| {
        ["0 3", "255 7"].map(|source| vec![format!("box {source} 0 {} -", hex(&text))])
    });
    let pairs = (0..=2).flat_map(texts).flat_map(|one| {
        let two = (0..=2).flat_map(texts);
        two.map(move |two| {
            vec![
                format!("box 1 4 0 {} -", hex(&one)),
                format!("box 16 6 0 {} -", hex(&two)),
            ]
        })
    });
    alone.chain(pairs).map(|writes| Small {
        made: made(0, writes),
        later: None,
    })
}

/// One record with 1 to 38 of its 38 bytes before the buffer's end, so that each newline is the
/// last byte there once, and once the first at the start.
fn over_the_end() -> impl Iterator<Item = Small> {
    (1..=38).map(|here| Small {
        made: made(
            1024 - here,
            vec![format!("box 16 6 0 {} -", hex(b"\na\n\nb\n"))],
        ),
        later: None,
    })
}

/// Records that are dropped when so many bytes of them are read: at each byte of their forms.
fn dropped() -> impl Iterator<Item = Small> {
    // Text of 2 to 4 bytes, and 991 bytes of which the form has 5: the first record has no room.
    let filler = format!("box 1 4 0 - {}", hex(&[b"k=", &[b'v'; 957][..]].concat()));
    let texts = [
        ("16 6", "ab\nc", 15),
        ("0 3", "\n\n", 12),
        ("255 7", "a\n", 15),
    ];
    texts.into_iter().flat_map(move |(source, text, form)| {
        let first = format!("box {source} 0 {} -", hex(text.as_bytes()));
        let writes = vec![first, "box 1 4 0 0a -".into()];
        let filler = filler.clone();
        (1..form).map(move |count| Small {
            made: made(0, writes.clone()),
            later: Some((count, filler.clone())),
        })
    })
}

/// Logs of one to five records, made from a fixed seed; in half of them a write comes while one of
/// them is read.
fn any_logs() -> impl Iterator<Item = Small> {
    let mut random = Random::new(5);
    (0..150).map(move |_| {
        let writes: Vec<String> = (0..random.within(1, 5))
            .map(|_| any_write(&mut random))
            .collect();
        let start = random.below(1_024);
        let filler = [b"k=", &[b'v'; 900][..]].concat();
        let write = match random.chance(50) {
            true => any_write(&mut random),
            false => format!("box 1 4 0 0a {}", hex(&filler)),
        };
        let count = random.below(25) as usize;
        Small {
            made: made(start, writes),
            later: random.chance(50).then_some((count, write)),
        }
    })
}

fn any_write(random: &mut Random) -> String {
    let length = random.below(13);
    let text: Vec<u8> = (0..length).map(|_| random.pick(b"\n\n\nab<>1")).collect();
    match random.chance(50) {
        true => {
            let prefix = random.pick(&["", "<5>", "<134>", "<2047>"]);
            let handed = [prefix.as_bytes(), &text].concat();
            format!("outside 0 {}", hex(&handed))
        }
        false => {
            let (facility, level) = (random.below(256), random.below(8));
            format!("box {facility} {level} 0 {} -", hex(&text))
        }
    }
}
