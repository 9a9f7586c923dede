//! What crates/trailthrough does, as plain safe Rust: saves a full log into a lent buffer, and reads the image back.
//! Standard input is four numbers: the log's capacity, the bytes of text in each record, how often it is saved and how often read.

mod crc;
#[path = "../../log.rs"]
#[allow(dead_code)] // the calls of the other programs
mod log;
mod trail;

use log::{Heading, Log};
use std::io::Read;
use trail::{Ending, Reader, Stop};

const RESULT: usize = 960;
/// Who writes every record.
const CALLER: u32 = 4_711;

/// What is told of the reads that are timed: records, bytes, and the sum of the times and of each record's last byte.
#[derive(Default)]
struct Tally {
    records: u64,
    bytes: u64,
    sum: u64,
}

impl Tally {
    fn add(&mut self, heading: &Heading, payload: &[u8]) {
        self.records += 1;
        self.bytes += payload.len() as u64;
        let last = payload.last().copied().unwrap_or(0);
        self.sum = self.sum.wrapping_add(heading.time).wrapping_add(last.into());
    }
}

/// A checksum: the sum of all bytes, and the sum of what that was after each byte.
#[derive(Default)]
struct Sum {
    bytes: u64,
    plain: u64,
    weighed: u64,
}

impl Sum {
    fn add(&mut self, bytes: &[u8]) {
        for &b in bytes {
            self.plain = self.plain.wrapping_add(b.into());
            self.weighed = self.weighed.wrapping_add(self.plain);
        }
        self.bytes += bytes.len() as u64;
    }

    fn print(&self, what: &str) {
        println!("{what}: {} bytes, checksum {}", self.bytes, self.weighed);
    }
}

/// Records of this text, until the oldest is dropped for one.
fn fill(log: &mut Log, text: &[u8]) {
    for n in 0.. {
        let (_, dropped) = log.write(16, 6, n * 1_000_999, text, &[], false, CALLER).expect("a write by the rules");
        if dropped > 0 {
            return;
        }
    }
}

/// All records of an image, from first to last.
fn read_through(file: &[u8], result: &mut [u8], mut take: impl FnMut(&Heading, &[u8])) {
    let mut reader = Reader::fresh(file);
    loop {
        match reader.next(result) {
            Ok((heading, _)) => take(&heading, &result[..heading.text + heading.dictionary]),
            Err(Stop::Over(Ending::Ended)) => return,
            Err(stop) => panic!("{stop:?}"),
        }
    }
}

fn main() {
    let mut input = String::new();
    std::io::stdin().read_to_string(&mut input).expect("standard input");
    let numbers: Vec<usize> = input.split_whitespace().map(|word| word.parse().expect("a number")).collect();
    let [capacity, bytes, saves, reads] = numbers[..] else {
        panic!("four numbers are wanted");
    };
    let text: Vec<u8> = (b'a'..=b'z').cycle().take(bytes).collect();
    let mut buffer = vec![0; capacity];
    let mut log = Log::fresh(&mut buffer);
    fill(&mut log, &text);

    let mut out = vec![0; trail::LONGEST];
    let mut save = |number: usize| trail::save(&log, number as u32, &mut out).expect("a log and a buffer by the rules");
    let saved: usize = (0..saves).map(&mut save).sum();
    println!("{saved} bytes saved");
    let length = save(saves);
    let file = &out[..length];
    let mut sum = Sum::default();
    sum.add(file);
    sum.print("image");

    let mut result = [0; RESULT];
    let mut tally = Tally::default();
    for _ in 0..reads {
        read_through(file, &mut result, |heading, payload| tally.add(heading, payload));
    }
    println!("{} records read, {} bytes, sum {}", tally.records, tally.bytes, tally.sum);
    let mut sum = Sum::default();
    read_through(file, &mut result, |heading, payload| {
        sum.add(&heading.to_bytes());
        sum.add(payload);
    });
    sum.print("records");
}
