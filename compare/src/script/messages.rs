//! Deliveries: spellings of records, and messages that are misshapen.

use super::Script;
use crate::message::MESSAGE;
use crate::record::{escape_byte, stands, Record, BULK};

/// A message in pieces.
#[derive(Clone)]
pub(super) struct Parts {
    pub(super) fields: Vec<Vec<u8>>,
    semicolon: bool,
    text: Vec<u8>,
    /// Continuation lines, each with its space.
    lines: Vec<Vec<u8>>,
    ended: bool,
}

impl Parts {
    pub(super) fn join(&self) -> Vec<u8> {
        let mut out = self.fields.join(&b',');
        if self.semicolon {
            out.push(b';');
        }
        out.extend(&self.text);
        for line in &self.lines {
            out.push(b'\n');
            out.extend(line);
        }
        if self.ended {
            out.push(b'\n');
        }
        out
    }

    /// Adds a field so that the message has this many bytes.
    pub(super) fn pad(&mut self, length: usize) {
        let now = self.join().len();
        if now < length {
            self.fields.push(vec![b'p'; length - now - 1]);
        }
    }
}

/// How much of a text is escaped.
#[derive(Clone, Copy)]
pub(super) enum Escaping {
    Needed,
    Some,
    All,
}

impl Script<'_> {
    /// A fresh board, and the records to be delivered to it.
    pub(super) fn fresh_board(&mut self) {
        let fill = self.fill_byte();
        self.say(format!("board {fill}"));
        if self.random.chance(30) {
            self.all_slots();
        }
        self.pool.clear();
        let base = match self.random.below(4) {
            0 => 0,
            1 => u64::MAX - 40,
            2 => self.random.any() >> 8,
            _ => self.random.below(1_000),
        };
        self.main_channel = self.random.within(16, 23);
        for i in 0..self.random.within(3, 12) {
            let same = u64::from(self.random.chance(15));
            self.add_to_pool(base + (2 * i).saturating_sub(2 * same));
        }
        if base == 0 && self.random.chance(50) {
            // The lowest number of all comes first.
            let mut record = self.from_pool();
            record.sequence = 0;
            record.prefix = (self.main_channel * 8) as u16;
            let message = self.spelling(&record);
            self.say_hex("deliver", &message);
            self.say(format!("slot {}", self.main_channel));
        }
    }

    fn add_to_pool(&mut self, sequence: u64) {
        let facility = match self.random.below(20) {
            0..=9 => self.main_channel,
            10..=16 => self.random.within(16, 23),
            17 | 18 => self.random.pick(&[15, 24, 0, 255]),
            _ => self.random.below(256),
        };
        let length = match self.random.below(8) {
            0 => self.random.within(0, BULK as u64) as usize,
            1 => 0,
            _ => self.random.below(24) as usize,
        };
        let record = Record {
            time: self.time(),
            sequence,
            prefix: (facility * 8 + self.random.below(8)) as u16,
            flag: self.any_flag(),
            caller: self.caller(),
            text: self.bytes(length),
            dictionary: self.dictionary(BULK - length),
        };
        self.pool.push(record);
    }

    pub(super) fn all_slots(&mut self) {
        for channel in 16..24 {
            self.say(format!("slot {channel}"));
        }
    }

    /// Any message: of a record or of the log, spoilt, at a limit, or odd.
    pub(super) fn any_message(&mut self) -> Vec<u8> {
        match self.random.below(100) {
            0..=44 => {
                let record = self.from_pool();
                self.spelling(&record)
            }
            45..=49 => match self.from_log() {
                Some(record) => record.line(),
                None => Vec::new(),
            },
            50..=82 => {
                let record = self.from_pool();
                let mut parts = self.spelled(&record);
                for _ in 0..self.random.pick(&[1, 1, 1, 2, 3]) {
                    self.spoil(&mut parts);
                }
                parts.join()
            }
            83..=89 => self.at_the_limit(),
            90..=97 => self.scratched(),
            _ => self.oddity(),
        }
    }

    pub(super) fn delivery(&mut self) {
        let message = self.any_message();
        if self.random.chance(8) {
            self.say_hex("join", &message);
        }
        match self.random.below(20) {
            0..=3 => self.say_hex("line", &message),
            4..=7 => {
                self.say_hex("deliver", &message);
                self.say_hex("line", &message);
            }
            _ => self.say_hex("deliver", &message),
        }
        match self.random.below(30) {
            0 => self.all_slots(),
            1..=9 => {
                let end = message.iter().position(|b| !b.is_ascii_digit());
                let digits = String::from_utf8_lossy(&message[..end.unwrap_or(0)]);
                let facility = digits.parse::<u64>().unwrap_or(0) / 8;
                self.say(format!("slot {}", facility.clamp(16, 23)));
            }
            _ => (),
        }
    }

    /// A record that came before, or a newer one.
    fn from_pool(&mut self) -> Record {
        if self.pool.is_empty() || self.random.chance(35) {
            let newest = self.pool.iter().map(|record| record.sequence).max();
            let step = self.random.pick(&[0, 1, 1, 2, 2, 3, 9]);
            self.add_to_pool(newest.unwrap_or(0).saturating_add(step));
        }
        let count = self.pool.len() as u64;
        let back = match self.random.below(3) {
            0 => self.random.below(count),
            _ => self.random.below(count.min(4)),
        };
        self.pool[(count - 1 - back) as usize].clone()
    }

    pub(super) fn from_log(&mut self) -> Option<Record> {
        let records = self.log().records()?.clone();
        let index = self.random.below(records.len() as u64) as usize;
        records.get(index).cloned()
    }

    /// A message that is a spelling of the record.
    fn spelling(&mut self, record: &Record) -> Vec<u8> {
        let mut parts = self.spelled(record);
        match self.random.below(30) {
            0 => parts.pad(MESSAGE),
            1 => parts.pad(MESSAGE - 1),
            _ => (),
        }
        let message = parts.join();
        if message.len() > MESSAGE {
            return record.line();
        }
        message
    }

    fn spelled(&mut self, record: &Record) -> Parts {
        let flag = self.message_flag();
        let escaping = self.random.pick(&[
            Escaping::Needed,
            Escaping::Needed,
            Escaping::Some,
            Escaping::All,
        ]);
        self.spelled_with(record, flag, escaping)
    }

    fn message_flag(&mut self) -> Vec<u8> {
        match self.random.below(10) {
            0..=4 => b"-".to_vec(),
            5 => b"c".to_vec(),
            6 => b"+".to_vec(),
            7 => self
                .random
                .pick(&[
                    "x", "--", "c+", "-c", "C", " ", "-\x00", "=", "\\x2d", "\x7f",
                ])
                .into(),
            _ => {
                let length = self.random.within(1, 9) as usize;
                let mut flag = self.bytes(length);
                flag.retain(|b| !b",;\n".contains(b));
                flag.push(b'n');
                flag
            }
        }
    }

    pub(super) fn spelled_with(
        &mut self,
        record: &Record,
        flag: Vec<u8>,
        escaping: Escaping,
    ) -> Parts {
        let mut fields: Vec<Vec<u8>> = vec![
            record.prefix.to_string().into(),
            record.sequence.to_string().into(),
            (record.time / 1000).to_string().into(),
            flag,
        ];
        for _ in 0..self.random.pick(&[0, 0, 0, 1, 1, 2, 5]) {
            let length = self.random.below(12) as usize;
            let mut field = match self.random.below(6) {
                0 => b"caller=T1".to_vec(),
                1 => Vec::new(),
                2 => format!("caller={}", record.caller).into(),
                3 => self
                    .random
                    .pick(&["caller=", "caller=4294967296", "caller", "caller=-1,c"])
                    .into(),
                _ => self.bytes(length),
            };
            field.retain(|b| !b";\n".contains(b));
            fields.push(field);
        }
        let text = self.escaped(&record.text, escaping);
        let mut lines = Vec::new();
        for entry in record.entries() {
            let mut line = vec![b' '];
            line.extend(self.escaped(entry, escaping));
            lines.push(line);
        }
        Parts {
            fields,
            semicolon: true,
            text,
            lines,
            ended: true,
        }
    }

    fn escaped(&mut self, bytes: &[u8], escaping: Escaping) -> Vec<u8> {
        let mut out = Vec::new();
        for &byte in bytes {
            let beyond_need = match escaping {
                Escaping::Needed => false,
                Escaping::Some => self.random.chance(30),
                Escaping::All => true,
            };
            if stands(byte) && !beyond_need {
                out.push(byte);
            } else {
                escape_byte(byte, &mut out);
            }
        }
        out
    }

    /// Spoils a message in one way; now and then it stays good.
    pub(super) fn spoil(&mut self, parts: &mut Parts) {
        match self.random.below(18) {
            0 => {
                let length = self
                    .random
                    .pick(&[MESSAGE, MESSAGE + 1, MESSAGE + 1, 9_000, 15_000]);
                parts.pad(length);
            }
            1 => parts.ended = false,
            2 => parts.semicolon = false,
            3 => {
                // The first ';' after the first newline.
                parts.semicolon = false;
                parts.text.retain(|&b| b != b';');
                for field in &mut parts.fields {
                    field.retain(|&b| b != b';');
                }
                parts.lines.insert(0, b" k=;v".to_vec());
            }
            4 => {
                let keep = self.random.below(4) as usize;
                parts.fields.truncate(keep);
            }
            5 => {
                if let Some(flag) = parts.fields.get_mut(3) {
                    flag.clear();
                }
            }
            6..=8 => self.spoil_number(parts),
            9..=11 => {
                let bad: &[u8] = self.random.pick(&[
                    b"\\", b"\\X41", b"\\x4", b"\\x", b"\\x4G", b"\\x4A", b"\\xAb", b"\\xaB",
                    b"\\\\", b"\\n", b"\\x 1", b"\\x:0", b"\\x/0", b"\\xg0", b"\\x`0", b"\x7f",
                    b"\x1f", b"\0", b"\xff", b"\x80", b"\t", b"\r", b"\\x4\n", b"\\x\n41",
                    b"\\\nx41", b"~", b" ", b"\\x7f", b"\\x5c", b"\\x00", b"\\x0a",
                ]);
                let piece = match self.random.below(parts.lines.len() as u64 + 1) {
                    0 => &mut parts.text,
                    i => &mut parts.lines[i as usize - 1],
                };
                let at = match self.random.below(3) {
                    0 => piece.len(),
                    _ => self.random.below(piece.len() as u64 + 1) as usize,
                };
                piece.splice(at..at, bad.iter().copied());
            }
            12..=15 => {
                let line: &[u8] = self.random.pick(&[
                    b"a=b",
                    b"",
                    b" ",
                    b" =b",
                    b" =",
                    b" ab",
                    b" \\x3db=",
                    b" \\x3d",
                    b" a\\x00=b",
                    b" \\x00a=b",
                    b" a=\\x00",
                    b"\\x20a=b",
                    b" a\\x3db",
                    b"  a=b",
                    b" a=b=c",
                    b" a==",
                    b"  =",
                    b"\ta=b",
                    b"=",
                    b" a=\\x0a",
                    b"  ",
                    b" \\x61=",
                    b" a=",
                ]);
                let at = self.random.below(parts.lines.len() as u64 + 1) as usize;
                parts.lines.insert(at, line.into());
            }
            16 => {
                let total = self.random.pick(&[BULK, BULK + 1, BULK + 2, 1_500]);
                parts.text = vec![b'B'; total];
            }
            _ => {
                let at = self.random.below(parts.fields.len() as u64 + 1) as usize;
                let field = self
                    .random
                    .pick(&["", "-", "1", "x;y", "a\nb", ";", "\n", "0"]);
                parts.fields.insert(at, field.into());
            }
        }
    }

    fn spoil_number(&mut self, parts: &mut Parts) {
        let index = self.random.below(3) as usize;
        let Some(field) = parts.fields.get_mut(index) else {
            return;
        };
        let old = String::from_utf8_lossy(field).into_owned();
        *field = match self.random.below(18) {
            0 => format!("0{old}"),
            1 => String::new(),
            2 => format!("+{old}"),
            3 => format!("-{old}"),
            4 => format!(" {old}"),
            5 => format!("{old} "),
            6 => format!("{old}a"),
            7 => format!("0x{old}"),
            8 => "00".into(),
            9 => "0".into(),
            10 if index == 0 => self
                .random
                .pick(&["2047", "2048", "2049", "9999", "65536"])
                .into(),
            10 | 11 => "18446744073709551615".into(),
            12 => "18446744073709551616".into(),
            13 => self
                .random
                .pick(&[
                    "18446744073709551625",
                    "18446744073709551700",
                    "99999999999999999999",
                ])
                .into(),
            14 | 15 if index == 0 => self.random.pick(&["2047", "2048"]).into(),
            14 => "1".repeat(self.random.within(21, 400) as usize),
            _ => self
                .random
                .pick(&["/", ":", "1:", "/1", "1.0", "\u{660}"])
                .into(),
        }
        .into_bytes();
    }

    /// Text and dictionary at or just over what a message may hold.
    fn at_the_limit(&mut self) -> Vec<u8> {
        let mut record = self.from_pool();
        let total = self
            .random
            .pick(&[BULK - 1, BULK, BULK, BULK + 1, BULK + 1]);
        let share = match self.random.below(4) {
            0 => 0,
            1 => total,
            _ => self.random.within(2, total as u64) as usize,
        };
        record.text = self.bytes(total - share);
        record.dictionary = match share {
            0 => Vec::new(),
            _ => self.dictionary_of(share),
        };
        let mut parts = self.spelled(&record);
        match self.random.below(6) {
            0 => parts.pad(MESSAGE),
            1 => parts.pad(MESSAGE + 1),
            2 => self.spoil(&mut parts),
            _ => (),
        }
        parts.join()
    }

    /// A good message with a few bytes changed, put in or taken out.
    fn scratched(&mut self) -> Vec<u8> {
        let record = self.from_pool();
        let mut message = self.spelled(&record).join();
        for _ in 0..self.random.within(1, 3) {
            let at = self.random.below(message.len() as u64) as usize;
            let byte = match self.random.below(3) {
                0 => self.random.pick(b",;\n\\ =x0-"),
                1 => self.random.below(256) as u8,
                _ => self.random.within(48, 57) as u8,
            };
            match self.random.below(5) {
                0 if !message.is_empty() => message[at] = byte,
                1 if !message.is_empty() => message[at] ^= 1 << self.random.below(8),
                2 if !message.is_empty() => {
                    message.remove(at);
                }
                3 => message.truncate(at),
                _ => message.insert(at, byte),
            }
        }
        message
    }

    fn oddity(&mut self) -> Vec<u8> {
        const ODD: &[&[u8]] = &[
            b"",
            b"\n",
            b"\n\n",
            b";\n",
            b",,,;\n",
            b",,,-;\n",
            b"1,2,3;\n",
            b"1,2,3,;\n",
            b"1,2,3,,;\n",
            b"1,2,3,-;",
            b"1,2,3,-;\n",
            b"134,2,3,-;;\n",
            b"134,2,3,-;a,b;c\n",
            b"134,2,3,-,;x\n",
            b"134,2,3,-\n;x\n",
            b"134,2,3,-;x\n\n",
            b"134,2,3,-;x\n \n",
            b"134,2,3,-;x\n k=v\n",
            b"134,2,3,-;x\nk=v\n",
            b"134,2,3\n",
            b" 134,2,3,-;x\n",
            b"6,339,5140900,-;NET: Registered protocol family 10\n",
            b"6,339,5140900,-,caller=T1;NET: Registered protocol family 10\n",
            b"134,7,1,-;1-0\n",
            b"134,9,3,-;0-0\n",
            b"134,8,2,-;1-0\n",
            b"134,18446744073709551615,18446744073709551615,-;end\n",
            b"0,0,0,-;\n",
            b"2047,0,0,-;\n",
            b"128,0,0,-;\n",
            b"191,0,0,-;\n",
            b"127,0,0,-;\n",
            b"192,0,0,-;\n",
        ];
        match self.random.below(5) {
            0 => {
                let length = self.random.within(8_190, 8_194) as usize;
                let mut message = self.bytes(length);
                if self.random.chance(70) {
                    message[length - 1] = b'\n';
                }
                message
            }
            1 => {
                let length = self.random.below(40) as usize;
                let mut message = self.bytes(length);
                message.push(b'\n');
                message
            }
            _ => self.random.pick(ODD).into(),
        }
    }
}
