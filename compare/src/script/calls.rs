//! Calls on the log: writes, reads, seeks, commands.

use super::{Script, Style};
use crate::answer::hex;
use crate::record::{Record, BULK, HEADING};

impl Script<'_> {
    /// Bytes that are a prefix, or look like one.
    fn prefix_spelling(&mut self) -> Vec<u8> {
        const ODD: &[&str] = &[
            "<0>", "<7>", "<8>", "<3>", "<134>", "<191>", "<2047>", "<2048>", "<2049>", "<9999>",
            "<12345>", "<02047>", "<0000>", "<0007>", "<00007>", "<>", "<", "<1", "<12", "<123",
            "<1234", "<-1>", "<+1>", "< 1>", "<1 >", "<1a>", "<a>", "<1>>", "<1><2>", " <1>",
            "<<1>", ">1<", "<1;", "<1:>", "<1/>", "<1\n>",
        ];
        match self.random.below(10) {
            0..=3 => {
                let value = self.random.below(2_048);
                format!("<{value}>").into_bytes()
            }
            4..=7 => self.random.pick(ODD).into(),
            _ => Vec::new(),
        }
    }

    pub(super) fn outside(&mut self) {
        let mut handed = self.prefix_spelling();
        let prefix = handed.len();
        let length = self.length();
        handed.extend(self.text(length));
        let tail = self
            .random
            .pick(&["", "", "", "\n", "\n", "\n\n", "\n\n\n", "\r\n"]);
        handed.extend(tail.bytes());
        // Zeros are refused here: they come by choice alone, so that most writes are taken.
        for byte in handed.iter_mut().filter(|byte| **byte == 0) {
            *byte = self.random.within(1, 255) as u8;
        }
        let zeros = self.random.chance(20);
        let kind = self.random.below(60);
        let total = match kind {
            0 | 1 => Some(BULK),
            2 | 3 => Some(BULK + 1),
            4 => Some(BULK - 1),
            5 => Some(self.random.within(962, 2_000) as usize),
            6 if self.random.chance(10) => Some(self.random.within(2_000, 19_000) as usize),
            7 => Some(BULK - 16),
            8..=11 if zeros => Some(1),
            12..=15 if zeros => Some(prefix + 1),
            16..=31 if zeros => Some(self.random.within(1, 40) as usize),
            32..=40 if zeros => Some(self.random.pick(&[BULK - 16, BULK - 1, BULK, BULK + 1])),
            _ if handed.len() > BULK => Some(BULK),
            _ => None,
        };
        if let Some(total) = total {
            handed.resize(total, self.random.pick(b"...\n"));
            if self.random.chance(50) {
                handed[total - 1] = b'\n';
            }
        }
        if zeros {
            self.put_zeros(&mut handed, prefix);
        }
        let time = self.time();
        let caller = match self.random.below(30) {
            0 => self.odd_caller().into(),
            _ => self.caller_word(),
        };
        self.say(format!("outside {time} {}{caller}", hex(&handed)));
        self.after_call();
    }

    /// Puts zeros among bytes that begin with a prefix of so many: at either end, in the prefix and
    /// behind it, around a final newline, and where steps of 8 or 16 bytes begin and end.
    fn put_zeros(&mut self, bytes: &mut [u8], prefix: usize) {
        const PLACES: &[usize] = &[0, 7, 8, 15, 16, 17, 31, 32, 943, 944, 958, 959];
        let Some(last) = bytes.len().checked_sub(1) else {
            return;
        };
        let within = PLACES.partition_point(|&place| place <= last);
        for _ in 0..self.random.pick(&[1, 1, 1, 2, 5]) {
            let place = match self.random.below(13) {
                0 => 0,
                1 => last,
                2 | 3 if prefix > 0 => self.random.below(prefix as u64) as usize,
                4 | 5 if prefix > 0 => prefix,
                6 if last > 0 => {
                    bytes[last] = b'\n';
                    last - 1
                }
                7 if last > 0 => {
                    bytes[last - 1] = b'\n';
                    last
                }
                8 => self.random.below(last as u64 + 1) as usize,
                _ => self.random.pick(&PLACES[..within]),
            };
            bytes[place.min(last)] = 0;
        }
    }

    pub(super) fn from_box(&mut self) {
        const BAD: &[&[u8]] = &[
            b"=",
            b"a",
            b"a=\0",
            b"\0a=",
            b"a=\0\0b=",
            b"\0",
            b"=a",
            b"a=\0=b",
            b"a=\0b",
            b"a\0b=",
            b"==",
            b"a=1\0b=2\0",
        ];
        const GOOD: &[&[u8]] = &[b"", b"a=", b"a=1\0b=2", b"a==", b"a=\n", b" ==", b"\\=\x7f"];
        let facility = match self.random.below(30) {
            0 => self.random.pick(&[256, 257, 300, 2_047, 65_535]),
            1 => self.random.pick(&[0, 255]),
            2..=6 => self.random.within(15, 24),
            _ => self.random.below(256),
        };
        let level = match self.random.below(30) {
            0 => self.random.pick(&[8, 9, 255, 256, 65_535]),
            _ => self.random.below(8),
        };
        let length = self.length();
        let mut text = self.text(length);
        let more = self.random.pick(b"!!!\n");
        let dictionary = match self.random.below(20) {
            0..=2 => self.random.pick(BAD).to_vec(),
            3..=5 => self.random.pick(GOOD).to_vec(),
            6 | 7 => {
                let total = self
                    .random
                    .pick(&[BULK - 1, BULK, BULK, BULK + 1, BULK + 1]);
                let share = match self.random.below(4) {
                    0 => total,
                    _ => self.random.within(2, total as u64) as usize,
                };
                text.resize(total - share, more);
                self.dictionary_of(share)
            }
            8 => {
                let total = self.random.pick(&[BULK, BULK, BULK + 1, 1_500]);
                text.resize(total, more);
                Vec::new()
            }
            _ => {
                let most = BULK.saturating_sub(text.len());
                self.dictionary(most)
            }
        };
        if text.len() + dictionary.len() > BULK + 1 && self.random.chance(90) {
            text.truncate(BULK - dictionary.len());
        }
        if self.random.chance(15) {
            self.put_zeros(&mut text, 0);
        }
        let time = self.time();
        let last = match self.random.below(50) {
            0 | 1 => self.odd_fragment().into(),
            2 => format!(" {}{}", self.random.below(2), self.odd_caller()),
            _ => self.last_words(),
        };
        self.say(format!(
            "box {facility} {level} {time} {} {}{last}",
            hex(&text),
            hex(&dictionary)
        ));
        self.after_call();
    }

    /// A caller: at the edges of its range and of its digits, with bytes that show their places,
    /// or any.
    pub(super) fn caller(&mut self) -> u32 {
        match self.random.below(4) {
            0 => self.random.pick(&[0, 1, u32::MAX]),
            1 => self.random.pick(&[
                9,
                10,
                255,
                256,
                65_535,
                65_536,
                999_999_999,
                1_000_000_000,
                0x0403_0201,
                1 << 24,
                1 << 31,
                u32::MAX - 1,
            ]),
            2 => self.random.below(1_000) as u32,
            _ => self.random.any() as u32,
        }
    }

    /// The last word of a write with the space before it, or nothing.
    pub(super) fn caller_word(&mut self) -> String {
        match self.random.chance(60) {
            true => format!(" {}", self.caller()),
            false => String::new(),
        }
    }

    /// What a write from the box ends with: nothing, whether it is a fragment, or that and a caller.
    pub(super) fn last_words(&mut self) -> String {
        match self
            .random
            .pick(&["", "", "", " 0", " 0", " 1", " 1", " 1"])
        {
            "" => String::new(),
            fragment => fragment.to_string() + &self.caller_word(),
        }
    }

    /// A last word that is no caller, so that the line is no call.
    fn odd_caller(&mut self) -> &'static str {
        const ODD: &[&str] = &[
            " 4294967296",
            " 4294967296",
            " 4294967297",
            " 9999999999",
            " 18446744073709551615",
            " 18446744073709551616",
            " -1",
            " -4294967295",
            " -",
            " T1",
            " 1x",
            " ",
            " 1 ",
            "  1",
            " 1 1",
            " caller=1",
        ];
        const WIDE: &[&str] = &[" 01", " 00", " 04294967295", " 04294967296", " +1", " -0"];
        match self.wide && self.random.chance(50) {
            true => self.random.pick(WIDE),
            false => self.random.pick(ODD),
        }
    }

    /// A word that says neither yes nor no, so that the line is no call.
    fn odd_fragment(&mut self) -> &'static str {
        const ODD: &[&str] = &[
            " 2",
            " 2",
            " 10",
            " 99",
            " 255",
            " 256",
            " -1",
            " -",
            " c",
            " ",
            " 0 ",
            "  1",
            " 1x",
            " 2 7",
            " - 7",
            "  7",
            " 4294967295 1",
            " 18446744073709551615",
            " 18446744073709551616",
        ];
        const WIDE: &[&str] = &[" 01", " 00", " 001", " 02", " +1", " -0", " 01 007"];
        match self.wide && self.random.chance(50) {
            true => self.random.pick(WIDE),
            false => self.random.pick(ODD),
        }
    }

    fn after_call(&mut self) {
        if self.random.chance(20) {
            self.say("numbers");
        }
        if self.random.chance(2) {
            self.look();
        }
    }

    fn any_reader(&mut self) -> usize {
        let readers = self.machine.readers.len() as u64;
        if self.random.chance(2) {
            return readers as usize;
        }
        self.random.below(readers) as usize
    }

    /// The record that a reader would get next.
    fn record_for(&mut self, reader: usize) -> Option<Record> {
        let number = *self.machine.readers.get(reader)?;
        let first = self.numbers().first;
        let index = number.checked_sub(first)?;
        self.log().records()?.get(index as usize).cloned()
    }

    pub(super) fn read(&mut self) {
        let reader = self.any_reader();
        for _ in 0..self.random.pick(&[1, 1, 1, 2, 5]) {
            let exact = match self.record_for(reader) {
                Some(record) => record.line().len() as u64,
                None => self.random.below(60),
            };
            let ample = self.random.within(3_905, 5_000);
            let length = match self.random.below(20) {
                0..=4 => exact,
                5 | 6 => exact.saturating_sub(1),
                7 | 8 => exact + 1,
                9 => 0,
                10 => self.random.below(exact + 1),
                _ => ample,
            };
            self.say(format!("read {reader} {}", length.min(5_000)));
            if self.random.chance(25) {
                self.say(format!("where {reader}"));
            }
        }
    }

    pub(super) fn move_reader(&mut self) {
        let reader = self.any_reader();
        let n = self.numbers();
        match self.random.below(10) {
            0..=4 => {
                let whence = match self.random.below(10) {
                    0 => self.random.pick(&[-1, 1, 4, 5, i32::MIN, i32::MAX]),
                    1..=3 => 0,
                    4..=6 => 2,
                    _ => 3,
                };
                let offset = match self.random.below(10) {
                    0 => self.random.pick(&[1, -1, 2, i32::MIN, i32::MAX]),
                    _ => 0,
                };
                self.say(format!("seek {reader} {offset} {whence}"));
                if self.random.chance(50) {
                    self.say(format!("where {reader}"));
                }
            }
            5..=7 => {
                let middle = n.first.saturating_add(self.random.below(50));
                let number = match self.random.below(8) {
                    0 | 1 => self.near(n.first),
                    2 | 3 => self.near(n.next),
                    4 => self.random.pick(&[0, u64::MAX, u64::MAX - 1]),
                    5 => self.near(n.clear),
                    _ => middle,
                };
                self.say(format!("at {reader} {number}"));
                if self.random.chance(60) {
                    let length = self.random.pick(&[5_000, 5_000, 0]);
                    self.say(format!("read {reader} {length}"));
                    self.say(format!("where {reader}"));
                }
            }
            8 => self.say("reader"),
            _ => self.say(format!("where {reader}")),
        }
    }

    pub(super) fn command(&mut self) {
        let kind = match self.random.below(100) {
            0..=29 => 2,
            30..=44 => 3,
            45..=54 => 4,
            55..=67 => 9,
            68..=73 => 5,
            74..=77 => 6,
            78..=81 => 7,
            82..=88 => 8,
            89..=92 => 10,
            93 => 0,
            94 => 1,
            95 | 96 => -1,
            97 | 98 => 11,
            _ => self.random.pick(&[i32::MIN, i32::MAX, 12, 256, -2]),
        };
        self.command_of(kind);
        self.after_call();
    }

    /// A command of this type with a length that means something to it.
    fn command_of(&mut self, kind: i32) {
        let (all, edge, stop) = match kind {
            2 | 9 => {
                let all = self.log().unread().unwrap_or_default();
                let edge = all.iter().position(|&b| b == b'\n').map_or(0, |p| p + 1);
                (all.len() as i64, edge as i64, self.stop(&all) as i64)
            }
            _ => {
                let all = self.log().uncleared().unwrap_or_default();
                let last = all.iter().rev().skip(1).position(|&b| b == b'\n');
                let edge = last.map_or(all.len(), |p| p + 1);
                (
                    all.len() as i64,
                    edge as i64,
                    self.stop_from_end(&all) as i64,
                )
            }
        };
        let part = self.random.below(all as u64 + 1) as i64;
        let nothing = matches!(kind, 3 | 4) && self.random.chance(15);
        let few = self.random.below(40) as i64;
        let len = match kind {
            8 => self.random.pick(&[
                -1,
                0,
                1,
                2,
                3,
                4,
                5,
                6,
                7,
                8,
                9,
                i32::MIN as i64,
                i32::MAX as i64,
                255,
                256,
                257,
            ]),
            _ if nothing => 0,
            _ => match self.random.below(20) {
                0 => 0,
                1 => 1,
                2..=4 => few,
                5..=7 => stop,
                8 => edge - 1,
                9 | 10 => edge,
                11 => edge + 1,
                12 => all - 1,
                13 => all,
                14 => all + 1,
                15 => part,
                16 => 70_000,
                17 => self.random.pick(&[-1, -2, i32::MIN as i64]),
                18 => self
                    .random
                    .pick(&[i32::MAX as i64, 300_000, 300_001, 65_536]),
                _ => few / 4,
            },
        };
        let lent = match self.random.below(12) {
            0 | 1 => len - 1,
            2 => len + 1,
            3 => 0,
            4 => all,
            5 => self.random.below(3_000) as i64,
            _ => len,
        };
        let privilege = u8::from(self.random.chance(88));
        let restriction = self.random.below(2);
        let lent = lent.clamp(0, 300_000);
        self.say(format!(
            "command {kind} {len} {privilege} {restriction} {lent}"
        ));
    }

    pub(super) fn console(&mut self) {
        let mut number = || match self.random.below(4) {
            0 => self.random.pick(&[i32::MIN, i32::MAX, -1, 0]),
            _ => self.random.below(10) as i32,
        };
        let (level, setting) = (number(), number());
        self.say(format!("console {level} {setting}"));
    }

    /// Looks at the log without a call on it.
    pub(super) fn look(&mut self) {
        match self.random.below(8) {
            0..=2 => self.say("numbers"),
            3 | 4 => self.say("check"),
            _ => {
                let n = self.numbers();
                let capacity = self.capacity();
                let end = n.start.saturating_add(n.used).checked_rem(capacity);
                let (place, length) = match self.random.below(8) {
                    0 | 1 if capacity <= 4_096 || self.random.chance(5) => (0, capacity),
                    0..=2 => (end.unwrap_or(0).saturating_sub(100), 140),
                    3 => (n.start, 30),
                    4 => (self.near(capacity), self.random.below(5)),
                    5 => (capacity.saturating_sub(40), 100),
                    6 => (self.random.below(capacity), self.random.below(200)),
                    _ => (
                        self.random.pick(&[u64::MAX, 0, 70_000]),
                        self.random
                            .pick(&[u64::MAX, 0, 1])
                            .min(u64::from(capacity < 5_000) * 5_000),
                    ),
                };
                self.say(format!("peek {place} {length}"));
            }
        }
    }

    /// Seeks, readers and refused commands at each of their limits.
    pub(super) fn sweep_calls(&mut self) {
        let reader = self.any_reader();
        let n = self.numbers();
        match self.random.below(4) {
            0 => {
                for whence in -1..=4 {
                    for offset in [0, 1, -1] {
                        self.say(format!("seek {reader} {offset} {whence}"));
                        self.say(format!("where {reader}"));
                    }
                }
            }
            1 => {
                for number in [n.first, n.next] {
                    for number in [number.wrapping_sub(1), number, number.wrapping_add(1)] {
                        for length in [0, 5_000] {
                            self.say(format!("at {reader} {number}"));
                            self.say(format!("read {reader} {length}"));
                            self.say(format!("where {reader}"));
                        }
                        self.say(format!("at {reader} {number}"));
                        self.say(format!("seek {reader} 0 0"));
                    }
                }
            }
            2 => {
                for level in [-1, 0, 1, 7, 8, 9, 255, 256, 257, 264, i32::MIN, i32::MAX] {
                    self.say(format!("command 8 {level} 1 0 0"));
                    self.say("numbers");
                }
                for level in [-1, 0, 1, 5, 8, 9, 257, 1 << 32, i64::MIN, i64::MAX] {
                    self.say(format!("minimum {level}"));
                    self.say("numbers");
                }
                for call in ["6 0", "7 0", "6 9", "6 0", "8 3", "7 0", "7 9"] {
                    self.say(format!("command {call} 1 0 0"));
                    self.say("numbers");
                }
                self.say(format!("minimum {}", n.minimum));
            }
            _ => {
                // Nothing in here changes the log.
                for kind in -1..=11 {
                    for (len, lent) in [(-1, 0), (0, 0), (1, 0), (9, 8)] {
                        let refused = len < 0 || len > lent || !matches!(kind, 2 | 4);
                        let bits = self.random.below(4);
                        let (privilege, restriction) = (bits / 2, bits % 2);
                        if refused && !matches!(kind, 5..=8) || privilege == 0 {
                            self.say(format!(
                                "command {kind} {len} {privilege} {restriction} {lent}"
                            ));
                        }
                    }
                }
                self.say("numbers");
            }
        }
    }

    /// Writes long records until the log has gone round.
    pub(super) fn fill_up(&mut self) {
        let style = self.style;
        self.style = Style::Long;
        let rounds = self.capacity() / 580 + 4;
        for _ in 0..rounds {
            match self.random.chance(60) {
                true => self.outside(),
                false => self.from_box(),
            }
        }
        self.style = style;
    }

    /// Fills the log with as many records as it can hold.
    pub(super) fn fill_with_empty(&mut self) {
        for _ in 0..self.capacity() / HEADING as u64 + 2 {
            let time = self.time();
            let caller = self.caller_word();
            self.say(format!("outside {time} -{caller}"));
        }
        self.say("command 9 0 1 0 0");
        self.say("command 3 65536 1 0 65536");
        self.say(format!("outside 1 {}", hex(&[b'x'; BULK])));
        self.say("numbers");
        self.say("read 0 5000");
    }

    /// Puts a reader at or near the oldest record and writes until it is gone.
    pub(super) fn overtake(&mut self) {
        let reader = self.any_reader();
        let n = self.numbers();
        match self.random.below(3) {
            0 => self.say(format!("seek {reader} 0 0")),
            1 => {
                let number = n.first.saturating_add(self.random.below(4));
                self.say(format!("at {reader} {number}"));
            }
            _ => (),
        }
        let rounds = self.random.within(1, 30);
        let target = n.first.saturating_add(self.random.below(6));
        for _ in 0..rounds {
            self.outside();
            if self.numbers().first > target {
                break;
            }
        }
        for _ in 0..self.random.within(2, 4) {
            self.say(format!("read {reader} 5000"));
            self.say(format!("where {reader}"));
        }
    }

    /// Stops command 2 inside a record, and may drop that record.
    pub(super) fn cut_command(&mut self) {
        let few = self.random.within(1, 12);
        self.say(format!("command 2 {few} 1 0 {few}"));
        self.say("numbers");
        let drop = self.random.chance(60);
        let rounds = self.random.within(1, 40);
        for _ in 0..rounds {
            let n = self.numbers();
            if n.first > n.position || !drop {
                break;
            }
            self.outside();
        }
        self.say("command 9 0 1 0 0");
        if self.random.chance(50) {
            self.say("command 2 0 1 0 0");
            self.say("numbers");
        }
        self.command_of(2);
        self.say("numbers");
        self.say("command 9 0 1 0 0");
        if self.random.chance(30) {
            self.say("command 2 300000 1 1 300000");
            self.say("numbers");
            self.say("command 2 1 1 0 1");
            self.say("command 2 0 1 0 1");
        }
    }
}
