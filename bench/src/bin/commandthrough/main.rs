//! What crates/commandthrough does, as plain safe Rust: asks one command of a full log over and over.
//! Standard input is six numbers: the bytes of text in each record, after how many of them each is a newline (0: none is), the log's capacity; the command's
//! type, its len, and how often it is asked.

#[path = "../../log.rs"]
#[allow(dead_code)] // the calls of the other programs
mod log;
mod syslog;

use log::Log;
use std::io::Read;
use syslog::{command, Asked};

const LENT: usize = 460_000;
/// Who writes every record.
const CALLER: u32 = 4_711;

/// Records of this text, until the oldest is dropped for one.
fn fill(log: &mut Log, text: &[u8]) {
    for n in 0.. {
        let (_, dropped) = log.write(16, 6, n * 1_000_999, text, &[], false, CALLER).expect("a write by the rules");
        if dropped > 0 {
            return;
        }
    }
}

/// The sum of what the sum of all bytes was after each byte.
fn checksum(bytes: &[u8]) -> u64 {
    let (mut plain, mut weighed) = (0u64, 0u64);
    for &b in bytes {
        plain = plain.wrapping_add(b.into());
        weighed = weighed.wrapping_add(plain);
    }
    weighed
}

fn main() {
    let mut input = String::new();
    std::io::stdin().read_to_string(&mut input).expect("standard input");
    let numbers: Vec<usize> = input.split_whitespace().map(|word| word.parse().expect("a number")).collect();
    let [bytes, every, capacity, kind, len, times] = numbers[..] else {
        panic!("six numbers are wanted");
    };
    let ends = |i: usize| every > 0 && i % every == every - 1;
    let letters = (b'a'..=b'z').cycle().take(bytes);
    let text: Vec<u8> = letters.enumerate().map(|(i, letter)| if ends(i) { b'\n' } else { letter }).collect();
    let mut buffer = vec![0; capacity];
    let mut log = Log::fresh(&mut buffer);
    fill(&mut log, &text);

    let mut lent = vec![0; LENT];
    let asked = Asked { command: kind as i32, len: len as i32, privilege: true, restriction: false };
    let marks = log.marks;
    let mut answered = 0;
    for _ in 0..times {
        // Each time of the same log, so that each does the same work.
        log.marks = marks;
        answered += command(&mut log, asked, &mut lent).unwrap_or(0);
    }
    let (position, offset, sum) = (log.marks.position, log.marks.offset, checksum(&lent));
    println!("{answered} answered; position {position}, offset {offset}; checksum {sum}");
}
