//! Trails of either edition: files that the script makes itself, with the longer heading or with
//! the older one, whose blocks say one edition or several.

use super::trail::Laid;
use super::Script;
use crate::answer::{hex, Machine};
use crate::record::{Record, BULK, WHOLE};
use crate::trail::{crc, heading_of, image, BLOCK, CHECKED, EDITION, FRONT, OLD_EDITION, PAYLOAD};
use std::io::{self, Write};

/// Editions that there are none of.
const UNKNOWN: &[u16] = &[2, 65_535, 256, 257, 32_768, 3];

impl Script<'_> {
    /// A log for the saves, and files of either edition.
    pub(super) fn editions_chapter(&mut self) {
        let capacity = self.random.within(1_024, 3_000);
        let fill = self.fill_byte();
        self.say(format!("log {capacity} {fill}"));
        for _ in 0..self.random.below(6) {
            self.from_box();
        }
        for _ in 0..self.random.within(6, 14) {
            self.editions_scene();
        }
    }

    pub(super) fn editions_scene(&mut self) {
        match self.random.below(20) {
            0..=7 => self.harmed_edition(),
            8..=12 => self.mixed_editions(),
            13 | 14 => self.cut_edition(),
            15 | 16 => self.over_an_older_trail(),
            17 => self.older_blocks_over_a_trail(),
            _ => self.other_heading(),
        }
    }

    /// One of the two editions, the older one more often: saves never write it.
    fn edition(&mut self) -> u16 {
        self.random.pick(&[OLD_EDITION, OLD_EDITION, EDITION])
    }

    /// Records for headings of an edition, some of which go over the borders of blocks.
    fn made_records(&mut self, edition: u16) -> Laid {
        let heading = heading_of(edition);
        let mut sequence = match self.random.below(4) {
            0 => 0,
            1 => u64::MAX - self.random.below(12),
            _ => self.random.any(),
        };
        let mut records = Vec::new();
        let mut used = 0;
        let blocks = self.random.below(4) as usize;
        for block in 1..=blocks {
            // So many bytes of a heading, or of what comes behind it, lie before the border.
            let before = match self.random.below(6) {
                0 => 0,
                1 => self.random.within(heading as u64, 70) as usize,
                _ => self.random.below(heading as u64 + 4) as usize,
            };
            self.lay_records(block * PAYLOAD - before, heading, &mut used, &mut records);
        }
        let last = self.random.within(heading as u64, 300) as usize;
        if self.random.chance(80) {
            self.lay_records(used + last, heading, &mut used, &mut records);
        }
        for record in &mut records {
            record.sequence = sequence;
            sequence = sequence.wrapping_add(1);
        }
        Laid::new(edition, records)
    }

    /// Records until so many bytes are used, the last one as long as that takes.
    fn lay_records(
        &mut self,
        end: usize,
        heading: usize,
        used: &mut usize,
        records: &mut Vec<Record>,
    ) {
        while end.saturating_sub(*used) >= heading {
            let left = end - *used;
            let most = left.min(heading + BULK);
            let cost = match left < 2 * heading || self.random.chance(60) {
                true => most,
                false => self
                    .random
                    .within(heading as u64, most.min(left - heading) as u64)
                    as usize,
            };
            let bulk = cost - heading;
            let share = match bulk >= 2 && self.random.chance(40) {
                true => self.random.within(2, bulk as u64) as usize,
                false => 0,
            };
            let text = self.bytes(bulk - share);
            let dictionary = match share {
                0 => Vec::new(),
                _ => self.dictionary_of(share),
            };
            records.push(Record {
                time: self.time(),
                sequence: 0,
                prefix: self.random.below(2_048) as u16,
                flag: self.any_flag(),
                caller: self.caller(),
                text,
                dictionary,
            });
            *used += cost;
        }
    }

    /// A file with these bytes at its front and so many behind them.
    fn file_of(&mut self, bytes: &[u8], behind: usize) {
        let fill = self.fill_byte();
        self.say(format!("disk {} {fill}", bytes.len() + behind));
        self.patch(0, bytes);
    }

    /// A good file of one edition, as it is or damaged.
    fn harmed_edition(&mut self) {
        let edition = self.edition();
        let laid = self.made_records(edition);
        let number = self.save_number();
        let behind = self.random.pick(&[0, 0, 0, 1, 511, 512, 513]);
        self.file_of(&image(&laid.payload(), number, edition), behind);
        if self.random.chance(75) {
            self.harm_laid(&laid);
        }
        self.read_trail(40);
    }

    /// A file whose blocks do not all say the edition that its headings have. Other fields may be
    /// wrong in the same blocks or in others, so that their order shows.
    fn mixed_editions(&mut self) {
        let edition = self.edition();
        let laid = self.made_records(edition);
        let number = self.save_number();
        let mut file = image(&laid.payload(), number, edition);
        let unknown = self.random.pick(UNKNOWN);
        let other = match self.random.below(3) {
            0 => unknown,
            _ => edition ^ 1,
        };
        let from = self.random.below(laid.blocks as u64) as usize;
        let to = match self.random.below(3) {
            0 => laid.blocks,
            _ => from + 1,
        };
        let sealed = self.random.chance(75);
        for block in file[from * BLOCK..to * BLOCK].chunks_exact_mut(BLOCK) {
            put_edition(block, other);
            if sealed {
                seal(block);
            }
        }
        self.file_of(&file, 0);
        for _ in 0..self.random.pick(&[0, 0, 1, 1, 2]) {
            let block = match self.random.chance(70) {
                true => from,
                false => self.random.below(laid.blocks as u64) as usize,
            };
            let field = self.random.below(5) as usize;
            self.wrong_field(block, field);
            if self.random.chance(50) {
                self.seal(block);
            }
        }
        self.read_trail(40);
    }

    /// A file that holds only the first blocks of an image, and maybe a part of the next one.
    fn cut_edition(&mut self) {
        let edition = self.edition();
        let laid = self.made_records(edition);
        let number = self.save_number();
        let mut file = image(&laid.payload(), number, edition);
        let blocks = self.random.below(laid.blocks as u64) as usize;
        let part = self.random.pick(&[0, 0, 1, 508, 511]);
        file.truncate(blocks * BLOCK + part);
        self.file_of(&file, 0);
        self.read_trail(40);
    }

    /// A save that is cut short over an older trail. That is told by its save number, and where
    /// this is the same, by its edition.
    fn over_an_older_trail(&mut self) {
        let laid = self.made_records(OLD_EDITION);
        let number = self.save_number();
        let old = match self.random.chance(50) {
            true => number,
            false => self.other_number(number),
        };
        self.file_of(&image(&laid.payload(), old, OLD_EDITION), 0);
        if self.random.chance(60) {
            // More records, so that there are blocks to be cut off.
            for _ in 0..self.random.within(1, 4) {
                self.from_box();
            }
        }
        if !self.save(number) {
            return;
        }
        let cut = self.random.below(self.blocks() as u64 + 1);
        self.say(format!("cut {cut}"));
        self.read_trail(40);
    }

    /// The first blocks of an older trail over one of today, with one save number.
    fn older_blocks_over_a_trail(&mut self) {
        let number = self.save_number();
        let under = self.made_records(EDITION);
        let over = self.made_records(OLD_EDITION);
        self.file_of(&image(&under.payload(), number, EDITION), 0);
        let old = image(&over.payload(), number, OLD_EDITION);
        let blocks = self.random.within(1, over.blocks as u64) as usize;
        self.patch(0, &old[..blocks * BLOCK]);
        self.read_trail(40);
    }

    /// Headings of one edition in a file that says the other one throughout.
    fn other_heading(&mut self) {
        let edition = self.edition();
        let laid = self.made_records(edition);
        let number = self.save_number();
        self.file_of(&image(&laid.payload(), number, edition ^ 1), 0);
        self.read_trail(40);
    }
}

/// Gives a block another edition.
fn put_edition(block: &mut [u8], edition: u16) {
    block[6..8].copy_from_slice(&edition.to_le_bytes());
}

/// Gives a block the check that it should have.
fn seal(block: &mut [u8]) {
    let check = crc(&block[..CHECKED]);
    block[CHECKED..].copy_from_slice(&check.to_le_bytes());
}

/// The byte that the exhaustive files are full of.
const FILL: u8 = b'a';

/// Bytes that are put into one block at a place, and whether the block then gets the right check.
type Fault = (usize, &'static [u8], bool);

/// A wrong number, save number, count (497 and 65,535) and check.
const FAULTS: [Fault; 7] = [
    (0, &[9], true),
    (0, &[9], false),
    (8, &[8], true),
    (8, &[8], false),
    (4, &[0xf1, 1], true),
    (4, &[255, 255], false),
    (CHECKED, &[1, 2, 3, 4], false),
];

/// Files of one to three full blocks with every choice of editions among four, each good otherwise,
/// with a record in each block or with a heading over the border, and with each fault in each block.
pub fn write_all_editions(output: &mut dyn Write) -> io::Result<()> {
    let mut files = Files {
        machine: Machine::default(),
        output,
    };
    for blocks in 1..=3u32 {
        for choice in 0..4usize.pow(blocks) {
            let editions: Vec<u16> = (0..blocks)
                .map(|block| [0, 1, 2, 65_535][choice / 4usize.pow(block) % 4])
                .collect();
            files.file(&editions, 0, None)?;
            files.file(&editions, 9, None)?;
            for block in 0..blocks as usize {
                for fault in FAULTS {
                    files.file(&editions, 0, Some((block, fault)))?;
                }
            }
        }
    }
    files.output.flush()
}

struct Files<'a> {
    machine: Machine,
    output: &'a mut dyn Write,
}

impl Files<'_> {
    fn say(&mut self, line: &str) -> io::Result<()> {
        writeln!(self.output, "{line}")?;
        self.machine.answer(line.as_bytes());
        Ok(())
    }

    /// A file whose first record leaves so many bytes of its block to the next one, maybe with a
    /// fault in one block, read to its end and once more.
    fn file(
        &mut self,
        editions: &[u16],
        before: usize,
        fault: Option<(usize, Fault)>,
    ) -> io::Result<()> {
        let mut file = image(&payload(editions, before), 9, editions[0]);
        let blocks = file.chunks_exact_mut(BLOCK).zip(editions);
        for (i, (block, &edition)) in blocks.enumerate() {
            put_edition(block, edition);
            seal(block);
            if let Some((_, (place, bytes, sealed))) = fault.filter(|(block, _)| *block == i) {
                block[place..place + bytes.len()].copy_from_slice(bytes);
                if sealed {
                    seal(block);
                }
            }
        }
        self.say(&format!("disk {} {FILL}", file.len()))?;
        self.patch_all(&file)?;
        self.say("trail")?;
        while self
            .machine
            .trail
            .as_ref()
            .is_some_and(|trail| !trail.over())
        {
            self.say("next 960")?;
        }
        self.say("next 960")
    }

    /// Patches for all of a file that is not the fill: fronts with headings, and checks.
    fn patch_all(&mut self, file: &[u8]) -> io::Result<()> {
        let mut at = 0;
        while let Some(skipped) = file[at..].iter().position(|&byte| byte != FILL) {
            at += skipped;
            let end = file[at..]
                .windows(FRONT)
                .position(|few| few == [FILL; FRONT]);
            let piece = &file[at..][..end.unwrap_or(file.len() - at)];
            self.say(&format!("patch {at} {}", hex(piece)))?;
            at += piece.len();
        }
        Ok(())
    }
}

/// One record for each block, with the first edition's heading. The first record is so many bytes
/// short of its block, and the last one has them.
fn payload(editions: &[u16], before: usize) -> Vec<u8> {
    let heading = heading_of(editions[0]);
    let last = editions.len() - 1;
    let records = (0..=last).map(|i| {
        let cost = match i {
            0 if last > 0 => PAYLOAD - before,
            _ if i == last && last > 0 => PAYLOAD + before,
            _ => PAYLOAD,
        };
        Record {
            time: 0,
            sequence: i as u64,
            prefix: 12,
            flag: WHOLE,
            caller: 7,
            text: vec![FILL; cost - heading],
            dictionary: Vec::new(),
        }
    });
    Laid::new(editions[0], records.collect()).payload()
}
