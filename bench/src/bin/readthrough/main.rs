//! What crates/readthrough does, as plain safe Rust: fills a log of 65,536 bytes and reads it through.
//! Standard input is two numbers: the bytes of text in each record, and how often the log is read.

#[path = "../../log.rs"]
#[allow(dead_code)] // the calls of the other programs
mod log;

use log::{Log, Refusal};
use std::io::Read;

const CAPACITY: usize = 65_536;
const LINE_MOST: usize = 3_905;
/// Who writes every record.
const CALLER: u32 = 4_711;

#[derive(Default)]
struct Tally {
    records: u64,
    bytes: u64,
    /// The sum of all bytes, and the sum of what that was after each byte.
    plain: u64,
    weighed: u64,
}

impl Tally {
    fn add(&mut self, line: &[u8]) {
        for &b in line {
            self.plain = self.plain.wrapping_add(b.into());
            self.weighed = self.weighed.wrapping_add(self.plain);
        }
        self.records += 1;
        self.bytes += line.len() as u64;
    }
}

/// Records of this text, until the oldest is dropped for one.
fn fill(log: &mut Log, text: &[u8]) {
    for n in 0.. {
        let (_, dropped) = log.write(16, 6, n * 1_000_999, text, &[], false, CALLER).expect("a write by the rules");
        if dropped > 0 {
            return;
        }
    }
}

fn read_through(log: &Log, lent: &mut [u8], tally: &mut Tally) {
    let mut reader = log.first();
    loop {
        match log.read(&mut reader, lent) {
            Ok(length) => tally.add(&lent[..length]),
            Err(Refusal::Again) => return,
            Err(refusal) => panic!("{refusal:?}"),
        }
    }
}

fn main() {
    let mut input = String::new();
    std::io::stdin().read_to_string(&mut input).expect("standard input");
    let numbers: Vec<usize> = input.split_whitespace().map(|word| word.parse().expect("a number")).collect();
    let [bytes, times] = numbers[..] else {
        panic!("two numbers are wanted");
    };
    let text: Vec<u8> = (b'a'..=b'z').cycle().take(bytes).collect();
    let mut buffer = vec![0; CAPACITY];
    let mut log = Log::fresh(&mut buffer);
    fill(&mut log, &text);
    let mut lent = [0; LINE_MOST];
    let mut tally = Tally::default();
    for _ in 0..times {
        read_through(&log, &mut lent, &mut tally);
    }
    println!("{} records, {} bytes, checksum {}", tally.records, tally.bytes, tally.weighed);
}
