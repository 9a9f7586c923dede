//! Saved trails: saves, files as a power cut leaves them, and damage to them.
//!
//! Behind a patch there is always a new reader: the script's description leaves open what an
//! older one sees.

use super::Script;
use crate::answer::hex;
use crate::record::{Record, BULK, HEADING, OLD_HEADING};
use crate::trail::{crc, heading_of, image, BLOCK, CHECKED, EDITION, FRONT, OLD_EDITION, PAYLOAD};

/// Where a block's number, save number, edition, count and check lie, and how many bytes each
/// has, in the order they are judged.
const FIELDS: [(usize, usize); 5] = [(0, 4), (8, 4), (6, 2), (4, 2), (CHECKED, 4)];
const CHECK: usize = 4;
/// Most bytes of one patch: a line holds no more.
const PIECE: usize = 19_000;

/// What lies in a file: records one behind the other, each with a heading of so many bytes.
pub(super) struct Laid {
    pub(super) heading: usize,
    pub(super) records: Vec<Record>,
    pub(super) blocks: usize,
}

impl Laid {
    pub(super) fn new(edition: u16, records: Vec<Record>) -> Laid {
        let mut laid = Laid {
            heading: heading_of(edition),
            records,
            blocks: 0,
        };
        laid.blocks = laid.payload().len().div_ceil(PAYLOAD).max(1);
        laid
    }

    pub(super) fn payload(&self) -> Vec<u8> {
        match self.heading {
            OLD_HEADING => self.records.iter().flat_map(Record::old_bytes).collect(),
            _ => self.records.iter().flat_map(Record::bytes).collect(),
        }
    }

    fn cost(&self, record: &Record) -> usize {
        self.heading + record.text.len() + record.dictionary.len()
    }
}

impl Script<'_> {
    /// A log laid out for its saves, and what befalls them.
    pub(super) fn trail_chapter(&mut self) {
        self.lay_out();
        for _ in 0..self.random.within(4, 12) {
            self.trail_scene();
        }
    }

    pub(super) fn trail_scene(&mut self) {
        match self.random.below(30) {
            0 => self.saves(),
            1 | 2 => self.power_cut(),
            3 => self.every_cut(),
            4 => self.forged_file(),
            5 => self.odd_files(),
            6..=15 => self.editions_scene(),
            _ => self.harm(),
        }
    }

    /// A fresh log whose records meet the borders of blocks in many ways.
    fn lay_out(&mut self) {
        let kind = self.random.below(20);
        let capacity = match kind {
            0 => 65_536,
            1 => self.random.pick(&[0, 1_023, 65_537, 70_000]),
            2 | 3 => self.random.pick(&[1_024, 4_096, 65_536]),
            4..=6 => self.random.within(1_024, 3_000),
            _ => self.random.within(3_000, 8_000),
        };
        let fill = self.fill_byte();
        self.say(format!("log {capacity} {fill}"));
        // The old image, file and reader are still there.
        if self.machine.trail.is_some() && self.random.chance(50) {
            self.say("next 960");
        }
        if self.random.chance(40) {
            let start = self.random.below(capacity);
            self.say(format!("number start {start}"));
        }
        if self.random.chance(60) {
            let first = match self.random.below(4) {
                0 => self.random.pick(&[1, 255, 1 << 32, 1 << 63]),
                1 => u64::MAX - self.random.below(8),
                _ => self.random.any(),
            };
            self.say(format!("number next {first}"));
            self.say(format!("number first {first}"));
        }
        match kind {
            0 => self.lay_to(65_536, BULK + HEADING),
            1..=3 => (),
            4 | 5 => {
                for _ in 0..self.random.within(5, 40) {
                    self.from_box();
                }
            }
            6 => self.forge(),
            7..=9 => {
                // The last block is full, or has one byte less or more.
                let blocks = self.random.within(1, 5);
                let end = blocks * PAYLOAD as u64 + self.random.pick(&[1, 1, 1, 0, 2]) - 1;
                let most = self.random.pick(&[80, 300, BULK + HEADING]);
                self.lay_to(end, most);
            }
            _ => {
                for block in 1..=self.random.within(1, 4) {
                    // So many bytes of a heading, or of what comes behind it, lie before the border.
                    let before = match self.random.below(5) {
                        0 => self.random.within(32, 70),
                        _ => self.random.below(36),
                    };
                    self.lay_to(block * PAYLOAD as u64 - before, BULK + HEADING);
                }
                let last = self.random.within(HEADING as u64, 700);
                let end = self.numbers().used + last;
                self.lay_to(end, BULK + HEADING);
            }
        }
    }

    /// Writes records of at most so many bytes until the log has used that many.
    fn lay_to(&mut self, end: u64, most: usize) {
        loop {
            let used = self.numbers().used;
            let left = end.saturating_sub(used) as usize;
            if left < HEADING || self.left == 0 {
                return;
            }
            let high = most.min(left.saturating_sub(HEADING)) as u64;
            let cost = match left <= most {
                true => left,
                // The longest records there are, or any of those that are allowed.
                false if most == BULK + HEADING => high as usize,
                false => self.random.within(HEADING as u64, high) as usize,
            };
            let bulk = cost - HEADING;
            let share = match bulk >= 2 && self.random.chance(50) {
                true => self.random.within(2, bulk as u64) as usize,
                false => 0,
            };
            let text = self.bytes(bulk - share);
            let dictionary = match share {
                0 => Vec::new(),
                _ => self.dictionary_of(share),
            };
            let (facility, level) = (self.random.below(256), self.random.below(8));
            let time = self.time();
            let last = self.last_words();
            self.say(format!(
                "box {facility} {level} {time} {} {}{last}",
                hex(&text),
                hex(&dictionary)
            ));
            // No number is left for a write, or the log fails its check.
            if self.numbers().used == used {
                return;
            }
        }
    }

    pub(super) fn save_number(&mut self) -> u32 {
        let any = self.random.any() as u32;
        self.random
            .pick(&[any, any, 0, 1, 496, 0xa5a5_a5a5, u32::MAX, 1 << 31])
    }

    pub(super) fn other_number(&mut self, number: u32) -> u32 {
        let other = match self.random.below(4) {
            0 => number.wrapping_add(1),
            1 => number.swap_bytes(),
            2 => 0,
            _ => number ^ (1 << self.random.below(32)),
        };
        match other == number {
            true => number ^ 1,
            false => other,
        }
    }

    /// The payload of a save of the log as it stands; none where the log fails its check.
    fn payload(&mut self) -> Option<Vec<u8>> {
        let records = self.log().records()?;
        Some(records.iter().flat_map(Record::bytes).collect())
    }

    /// Blocks of the image; 0 where there is none.
    pub(super) fn blocks(&self) -> usize {
        self.machine.image.as_ref().map_or(0, Vec::len) / BLOCK
    }

    pub(super) fn any_save(&mut self) {
        let number = self.save_number();
        self.save(number);
    }

    /// Saves the log as it stands, maybe after a refused try; false where that was not done.
    pub(super) fn save(&mut self, number: u32) -> bool {
        let Some(payload) = self.payload() else {
            let length = self.random.pick(&[0, 512, 90_000]);
            self.say(format!("save {number} {length}"));
            return false;
        };
        let exact = payload.len().div_ceil(PAYLOAD).max(1) * BLOCK;
        let few = self.random.below(exact as u64) as usize;
        match self.random.below(8) {
            0 => self.say(format!("save {number} {}", exact - 1)),
            1 => self.say(format!("save {number} 0")),
            2 => self.say(format!("save {number} {}", exact - BLOCK)),
            3 => self.say(format!("save {number} {few}")),
            _ => (),
        }
        // The answer to a large save is long.
        if exact > 20 * BLOCK && self.random.chance(60) {
            return false;
        }
        let ample = match self.random.below(6) {
            0 => exact + 1,
            1 => exact + few,
            2 => 90_000,
            _ => exact,
        };
        self.say(format!("save {number} {}", ample.min(90_000)));
        // It was not played if the script had no line left.
        self.left > 0
    }

    /// Whether the image is the log's as it stands, which may take a save.
    fn saved(&mut self) -> bool {
        if let (Some(payload), Some(old)) = (self.payload(), &self.machine.image) {
            let number = u32::from_le_bytes(old[8..12].try_into().unwrap());
            if image(&payload, number, EDITION) == *old {
                return true;
            }
        }
        let number = self.save_number();
        self.save(number)
    }

    /// Saves at each length that matters, and of a log that fails its check.
    fn saves(&mut self) {
        let number = self.save_number();
        if self.save(number) && self.random.chance(50) {
            // A refused save leaves the old image.
            let other = self.other_number(number);
            let length = self.blocks() * BLOCK;
            self.say(format!("save {other} {}", length - 1));
            self.say("disk 0 0");
            self.say("cut 200");
            self.read_trail(3);
        }
        if self.random.chance(50) {
            let name = self.random.pick(&["console", "minimum", "saved"]);
            let old = self.word_of(name);
            self.say(format!("number {name} 9"));
            self.say(format!("save {number} 0"));
            self.say(format!("save {number} 90000"));
            self.say(format!("number {name} {old}"));
        }
    }

    /// A file that was there before: of zeros, of one byte, or an old image.
    fn old_file(&mut self, number: u32) {
        let length = self.blocks() * BLOCK;
        let length = match self.random.below(8) {
            0 | 1 => 0,
            2 => self.random.pick(&[1, 511, 512, 513, 1_023, 1_024]),
            3 => length,
            4 => length + self.random.pick(&[1, 511, 512, 513, 1_024]),
            5 => length - 1,
            6 => self.random.below(90_001) as usize,
            _ => length + self.random.below(2_000) as usize,
        };
        let fill = self.random.pick(&[0, 0, 165, 255, 1]);
        self.say(format!("disk {} {fill}", length.min(90_000)));
        if self.random.chance(60) {
            let other = self.other_number(number);
            if self.save(other) {
                self.say("cut 200");
            }
        }
    }

    /// One cut over an old file.
    fn power_cut(&mut self) {
        let number = self.save_number();
        if !self.save(number) {
            return;
        }
        self.old_file(number);
        if self.random.chance(40) {
            for _ in 0..self.random.within(1, 3) {
                self.from_box();
            }
        }
        if !self.save(number) {
            return;
        }
        let blocks = self.blocks() as u64;
        let cut = match self.random.below(6) {
            0 => blocks,
            1 => self.random.pick(&[0, u64::MAX, blocks + 1]),
            _ => self.random.below(blocks + 1),
        };
        self.say(format!("cut {cut}"));
        if self.random.chance(10) {
            self.say("next 960");
        }
        self.read_trail(80);
    }

    /// Every cut over one old file, which is put back each time.
    fn every_cut(&mut self) {
        let number = self.save_number();
        if !self.save(number) || self.blocks() > 8 {
            return;
        }
        self.old_file(number);
        let old = self.machine.file.clone().unwrap_or_default();
        if old.len() > PIECE || !self.save(number) {
            return;
        }
        for cut in 0..=self.blocks() + 1 {
            self.say(format!("disk {} 0", old.len()));
            self.patch(0, &old);
            self.say(format!("cut {cut}"));
            self.read_trail(40);
        }
    }

    /// A file of the image alone, or with something behind it; none where the log fails.
    fn whole_file(&mut self) -> Option<Laid> {
        if !self.saved() {
            return None;
        }
        let image = self.blocks() * BLOCK;
        let length = match self.random.below(4) {
            0 => (image + self.random.pick(&[1, 511, 512, 513])).min(90_000),
            _ => 0,
        };
        let fill = self.fill_byte();
        self.say(format!("disk {length} {fill}"));
        self.say("cut 200");
        let records = self.log().records()?.iter().cloned().collect();
        Some(Laid::new(EDITION, records))
    }

    /// Damage to a whole file.
    fn harm(&mut self) {
        if let Some(laid) = self.whole_file() {
            self.harm_laid(&laid);
            self.read_trail(80);
        }
    }

    /// Damage of one kind or two at once to a file that begins with what is laid.
    pub(super) fn harm_laid(&mut self, laid: &Laid) {
        for _ in 0..self.random.pick(&[1, 1, 1, 2]) {
            match self.random.below(13) {
                0..=3 => self.harm_block(laid.blocks),
                4..=7 => self.harm_heading(laid),
                8 | 9 => self.harm_dictionary(laid),
                10 | 11 => self.harm_count(laid),
                _ => self.renumber(laid),
            }
        }
    }

    pub(super) fn patch(&mut self, place: usize, bytes: &[u8]) {
        for (i, piece) in bytes.chunks(PIECE).enumerate() {
            self.say_hex(&format!("patch {}", place + i * PIECE), piece);
        }
    }

    /// The file's number of so many bytes at a place that it reaches.
    fn word(&self, place: usize, width: usize) -> Option<u32> {
        let bytes = self.machine.file.as_ref()?.get(place..place + width)?;
        let value = |sum: u32, &byte: &u8| sum << 8 | u32::from(byte);
        Some(bytes.iter().rev().fold(0, value))
    }

    /// Gives a block the check that it should have.
    pub(super) fn seal(&mut self, block: usize) {
        let from = block * BLOCK;
        let file = self.machine.file.as_ref();
        if let Some(bytes) = file.and_then(|file| file.get(from..from + CHECKED)) {
            let check = crc(bytes);
            self.patch(from + CHECKED, &check.to_le_bytes());
        }
    }

    /// Puts bytes into the payload, running on from block to block. Most times the blocks get
    /// the right check for it.
    fn put(&mut self, at: usize, bytes: &[u8]) {
        let sealed = self.random.chance(92);
        let (mut at, mut rest) = (at, bytes);
        while !rest.is_empty() {
            let (block, inside) = (at / PAYLOAD, at % PAYLOAD);
            let (here, later) = rest.split_at(rest.len().min(PAYLOAD - inside));
            self.patch(block * BLOCK + FRONT + inside, here);
            if sealed {
                self.seal(block);
            }
            at += here.len();
            rest = later;
        }
    }

    /// Makes one field of a block wrong.
    pub(super) fn wrong_field(&mut self, block: usize, field: usize) {
        let (place, width) = FIELDS[field];
        let place = block * BLOCK + place;
        let Some(old) = self.word(place, width) else {
            return;
        };
        let bit = old ^ (1 << self.random.below(8 * width as u64));
        let choices = match field {
            0 => [
                bit,
                old.wrapping_add(1),
                old.wrapping_sub(1),
                old | 256,
                old | 1 << 31,
                u32::MAX,
            ],
            1 => [bit, bit, old.wrapping_add(1), !old, 0, old.swap_bytes()],
            // The other edition as often as one that there is none of.
            2 => [old ^ 1, old ^ 1, bit, 2, 256, 65_535],
            3 => [497, 512, 496 | 1 << 15, 65_535, 65_535, 497],
            _ => [bit, bit, !old, 0, old.swap_bytes(), old.wrapping_add(1)],
        };
        let value = self.random.pick(&choices);
        self.patch(place, &value.to_le_bytes()[..width]);
    }

    /// The count of a block, most times with the right check for it.
    fn put_count(&mut self, block: usize, count: usize) {
        self.patch(block * BLOCK + 4, &(count as u16).to_le_bytes());
        if self.random.chance(92) {
            self.seal(block);
        }
    }

    /// One to three fields of a block wrong, maybe under a right check.
    fn harm_block(&mut self, blocks: usize) {
        let block = self.random.below(blocks as u64) as usize;
        let mut check = false;
        for _ in 0..self.random.pick(&[1, 1, 2, 2, 3]) {
            let field = self.random.below(FIELDS.len() as u64) as usize;
            self.wrong_field(block, field);
            check |= field == CHECK;
        }
        if !check && self.random.chance(40) {
            self.seal(block);
        }
        if self.random.chance(10) {
            let other = self.random.below(blocks as u64) as usize;
            let field = self.random.below(FIELDS.len() as u64) as usize;
            self.wrong_field(other, field);
        }
    }

    /// Makes a field wrong in the block where something is judged, or in the one behind it.
    fn beside(&mut self, at: usize) {
        if self.random.chance(50) {
            let block = at / PAYLOAD + usize::from(self.random.chance(70));
            let field = self.random.pick(&[0, 1, 2, 3, CHECK, CHECK, CHECK]);
            self.wrong_field(block, field);
        }
    }

    /// A record and where its bytes begin, by choice near a border.
    fn any_record(&mut self, laid: &Laid) -> Option<(usize, Record)> {
        let mut place = 0;
        let mut all = Vec::new();
        let mut near = Vec::new();
        for record in &laid.records {
            let cost = laid.cost(record);
            let ends = [0, laid.heading, cost];
            if ends.iter().any(|end| (place + end + 32) % PAYLOAD < 64) {
                near.push(all.len());
            }
            all.push((place, record.clone()));
            place += cost;
        }
        // What lies far behind takes long to be read.
        near.retain(|&index| index < 60);
        all.truncate(60);
        let index = match near.is_empty() || self.random.chance(25) {
            true => self.random.below(all.len() as u64) as usize,
            false => self.random.pick(&near),
        };
        all.get(index).cloned()
    }

    /// A heading that breaks a rule, or comes close to it.
    fn harm_heading(&mut self, laid: &Laid) {
        let Some((place, record)) = self.any_record(laid) else {
            return;
        };
        let (text, dictionary) = (record.text.len() as u16, record.dictionary.len() as u16);
        let total = text + dictionary;
        // Only the longer heading has a caller and zeros behind it; in an older trail these places
        // are text, dictionary or the next heading.
        let (at, bytes): (usize, Vec<u8>) = match self.random.below(12) {
            0 | 1 => {
                let number = match self.random.below(3) {
                    0 => self
                        .random
                        .pick(&[0, u64::MAX, record.sequence.swap_bytes()]),
                    1 => record.sequence ^ (1 << self.random.below(64)),
                    _ => self.near(record.sequence),
                };
                (8, number.to_le_bytes().into())
            }
            2..=4 => {
                let part = self.random.below(u64::from(total) + 1) as u16;
                let pair = self.random.pick(&[
                    (text + 1, dictionary),
                    (text, dictionary + 1),
                    (text.wrapping_sub(1), dictionary),
                    (text, dictionary.wrapping_sub(1)),
                    (960, 0),
                    (961, 0),
                    (0, 960),
                    (0, 961),
                    (960 - dictionary, dictionary),
                    (961 - dictionary, dictionary),
                    (text, 960 - text),
                    (text, 961 - text),
                    (part, total - part),
                    (65_535, total + 1),
                    (total + 1, 65_535),
                    (32_768, 32_768),
                    (text, 1),
                ]);
                let bytes = [pair.0.to_le_bytes(), pair.1.to_le_bytes()].concat();
                (16, bytes)
            }
            5 | 6 => {
                let prefix: u16 = self.random.pick(&[2_047, 2_048, 2_048, 32_768, 65_535]);
                (20, prefix.to_le_bytes().into())
            }
            7 => (22, vec![self.heading_flag()]),
            8 => (23, vec![self.random.pick(&[1, 45, 128, 255])]),
            9 => (24, self.caller().to_le_bytes().into()),
            _ => self.heading_zero(),
        };
        self.put(place + at, &bytes);
        self.beside(place + laid.heading - 1);
    }

    /// A dictionary that breaks its rule, most times at its last byte.
    fn harm_dictionary(&mut self, laid: &Laid) {
        let Some((place, record)) = self.any_record(laid) else {
            return;
        };
        let Some(last) = record.dictionary.len().checked_sub(1) else {
            return;
        };
        let at = place + laid.heading + record.text.len();
        let (inside, bytes) = match self.random.below(6) {
            0 => (0, vec![self.random.pick(b"=\0a")]),
            1 => (1.min(last), vec![self.random.pick(b"=\0a")]),
            2 => (last - 1, vec![0, self.random.pick(b"=\0a")]),
            3 => (
                self.random.below(last as u64 + 1) as usize,
                vec![self.random.pick(b"=\0a")],
            ),
            _ => (last, vec![self.random.pick(b"=\0\0a")]),
        };
        self.put(at + inside, &bytes);
        self.beside(at + last);
    }

    /// A block that counts fewer bytes and ends inside a record, or more than there are.
    fn harm_count(&mut self, laid: &Laid) {
        let total = laid.payload().len();
        // Both lengths that a heading may have.
        let ends = [22, 23, 24, 25, 30, 31, 32, 33];
        let end = match self.any_record(laid) {
            Some((place, record)) if self.random.chance(75) => {
                let (text, cost) = (laid.heading + record.text.len(), laid.cost(&record));
                let any = self.random.below(cost as u64) as usize;
                let heading = self.random.pick(&ends);
                let inside = self.random.pick(&[
                    0,
                    1,
                    heading,
                    heading,
                    text - 1,
                    text,
                    cost - 1,
                    cost,
                    any,
                ]);
                place + inside
            }
            _ => {
                let heading = self.random.pick(&ends);
                total + self.random.pick(&[1, heading, heading, 48, 100])
            }
        };
        let mut block = end / PAYLOAD;
        let mut count = end % PAYLOAD;
        if self.random.chance(20) {
            block = self.random.below(laid.blocks as u64) as usize;
            count = self.random.pick(&[0, 1, 495, 496, 497, 65_535]);
        }
        if block < laid.blocks {
            self.put_count(block, count);
        }
    }

    /// Other numbers for the first records, such as go past the highest.
    fn renumber(&mut self, laid: &Laid) {
        let first = match self.random.below(3) {
            0 => self.random.any(),
            1 => u64::MAX,
            _ => u64::MAX - self.random.below(4),
        };
        let step = self.random.pick(&[1, 1, 1, 0]);
        let mut place = 0;
        for (i, record) in laid.records.iter().take(6).enumerate() {
            let number = first.wrapping_add(i as u64 * step);
            self.put(place + 8, &number.to_le_bytes());
            place += laid.cost(record);
        }
        if let Some(record) = laid.records.first().filter(|_| self.random.chance(40)) {
            // Nothing behind the first record, or something begun.
            let begun = self.random.pick(&[0, 1, laid.heading - 1, laid.heading]);
            let end = laid.cost(record) + begun;
            if end.div_ceil(PAYLOAD) <= laid.blocks {
                self.put_count(end / PAYLOAD, end % PAYLOAD);
            }
        }
    }

    /// A file made by hand, with records that keep the rules or all but keep them.
    fn forged_file(&mut self) {
        let first = match self.random.below(3) {
            0 => self.random.below(50),
            1 => u64::MAX - self.random.below(5),
            _ => self.random.any(),
        };
        let count = self.random.below(7);
        let flaw = self.random.below(count * 2 + 1);
        let edition = self.random.pick(&[EDITION, OLD_EDITION]);
        let mut records = Vec::new();
        for i in 0..count {
            let length = self.length();
            let text = self.bytes(length);
            let dictionary = self.dictionary(BULK - length);
            let mut record = Record {
                time: self.time(),
                sequence: first.wrapping_add(i),
                prefix: self.random.below(2_048) as u16,
                flag: self.any_flag(),
                caller: self.caller(),
                text,
                dictionary,
            };
            if i == flaw {
                self.flaw(&mut record);
            }
            records.push(record);
        }
        let mut payload = Laid::new(edition, records).payload();
        match self.random.below(4) {
            0 => {
                let less = self.random.within(1, 30) as usize;
                payload.truncate(payload.len().saturating_sub(less));
            }
            1 => {
                let more = self.random.within(1, 30) as usize;
                let more = self.bytes(more);
                payload.extend(more);
            }
            _ => (),
        }
        let number = self.save_number();
        let mut bytes = image(&payload, number, edition);
        if self.random.chance(20) {
            bytes.pop();
        }
        let length = bytes.len() + self.random.pick(&[0, 0, 1, 511, 512, 513]);
        let fill = self.fill_byte();
        self.say(format!("disk {length} {fill}"));
        self.patch(0, &bytes);
        self.read_trail(40);
    }

    /// Files of lengths around one block, and lines at their limits.
    fn odd_files(&mut self) {
        let length = self.random.pick(&[0usize, 1, 511, 512, 513, 1_024, 90_000]);
        let fill = self.random.pick(&[0, 0, 1, 255]);
        self.say(format!("disk {length} {fill}"));
        if self.random.chance(30) {
            self.say("next 960");
        }
        match self.random.below(5) {
            0 => {
                // One block with count 0, also where the file is too short for it.
                let number = self.save_number();
                let edition = self.random.pick(&[EDITION, OLD_EDITION, 2]);
                self.patch(0, &image(&[], number, edition));
            }
            1 => {
                self.say(format!("patch {length} 00"));
                self.patch(length.saturating_sub(1), b"\0\0");
                self.say(format!("patch {} 00", u64::MAX));
                self.say("patch 0 -");
            }
            2 => {
                let cut = self.random.pick(&[0, 1, 2, 200, u64::MAX]);
                self.say(format!("cut {cut}"));
            }
            3 if self.saved() && self.blocks() > 1 => {
                // A block of a good image at another place.
                self.say("cut 200");
                let block = self.random.below(self.blocks() as u64) as usize;
                let place = self.random.below(self.blocks() as u64) as usize;
                let image = self.machine.image.clone().unwrap_or_default();
                self.patch(place * BLOCK, &image[block * BLOCK..(block + 1) * BLOCK]);
            }
            _ => (),
        }
        self.read_trail(20);
    }

    /// A fresh reader that reads to the end and beyond, if it is not too far.
    pub(super) fn read_trail(&mut self, most: usize) {
        self.say("trail");
        for _ in 0..most {
            if self.machine.trail.as_ref().is_none_or(|trail| trail.over()) {
                break;
            }
            if self.random.chance(4) {
                let short = self.random.pick(&[0, 1, 958, 959]);
                self.say(format!("next {short}"));
            }
            let any = self.random.within(960, 5_000);
            let length = self.random.pick(&[960, 960, 960, 960, 961, 5_000, any]);
            self.say(format!("next {length}"));
        }
        for _ in 0..self.random.pick(&[1, 1, 2, 3]) {
            let length = self.random.pick(&[960, 960, 5_000, 959, 0]);
            self.say(format!("next {length}"));
        }
    }
}
