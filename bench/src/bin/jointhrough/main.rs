//! What crates/jointhrough does, as plain safe Rust: hands messages to a joiner over and over.
//! Standard input is three numbers and a newline, the bytes of each message, the place behind the digit of its number that is raised after each call (0: none is),
//! and how often a message is handed over; then the messages, which are taken in turn.

#[path = "../../joiner.rs"]
mod joiner;
#[path = "../../plain.rs"]
#[allow(dead_code)] // the line reader's own call
mod plain;

use joiner::{Given, Joiner, Text, BUFFER, TEXT};
use std::io::Read;

/// What was given: texts and their bytes, the sum of each text's facility and last byte; and the refusals, with the sum of their numbers.
#[derive(Default)]
struct Tally {
    texts: u64,
    bytes: u64,
    marks: u64,
    refused: u64,
    refusals: u64,
}

impl Tally {
    fn text(&mut self, text: &Text, result: &[u8]) {
        self.texts += 1;
        self.bytes += text.size as u64;
        self.marks += text.facility + result[..text.size].last().map_or(0, |&b| u64::from(b));
    }

    fn count(&mut self, told: Result<Given, u32>, first: &[u8], second: &[u8]) {
        match told {
            Ok(Given::Nothing) => {}
            Ok(Given::One(a)) => self.text(&a, first),
            Ok(Given::Two(a, b)) => {
                self.text(&a, first);
                self.text(&b, second);
            }
            Err(number) => {
                self.refused += 1;
                self.refusals += u64::from(number);
            }
        }
    }
}

/// The last digit, raised by one, with its carry.
fn raise(digits: &mut [u8]) {
    for digit in digits.iter_mut().rev() {
        if *digit < b'9' {
            *digit += 1;
            return;
        }
        *digit = b'0';
    }
}

fn join_often(size: usize, digit: usize, times: usize, feed: &mut [u8], texts: &mut [u8], first: &mut [u8], second: &mut [u8]) -> Tally {
    let mut joiner = Joiner::default();
    let mut tally = Tally::default();
    let mut at = 0;
    for _ in 0..times {
        let told = joiner.join(texts, &feed[at..at + size], first, second);
        tally.count(told, first, second);
        raise(&mut feed[at..at + digit]);
        at = if at + size < feed.len() { at + size } else { 0 };
    }
    tally
}

/// The sum of what the sum of all bytes was after each byte.
fn checksum(bytes: &[u8]) -> u64 {
    let (mut plain, mut weighed) = (0u64, 0u64);
    for &b in bytes {
        plain += u64::from(b);
        weighed += plain;
    }
    weighed
}

fn main() {
    let mut input = Vec::new();
    std::io::stdin().read_to_end(&mut input).expect("standard input");
    let end = input.iter().position(|&b| b == b'\n').expect("a line of numbers");
    let (line, feed) = input.split_at_mut(end + 1);
    let line = std::str::from_utf8(line).expect("numbers");
    let numbers: Vec<usize> = line.split_whitespace().map(|word| word.parse().expect("a number")).collect();
    let [size, digit, times] = numbers[..] else {
        panic!("three numbers are wanted");
    };
    let (mut texts, mut first, mut second) = ([0; BUFFER], [0; TEXT], [0; TEXT]);
    let Tally { texts: given, bytes, marks, refused, refusals } =
        join_often(size, digit, times, feed, &mut texts, &mut first, &mut second);
    println!("{given} texts of {bytes} bytes, marks {marks}; {refused} refused, numbers {refusals}");
    let [open, first, second] = [&texts[..], &first, &second].map(checksum);
    println!("{open} of the open texts' buffer, {first} and {second} of the results");
}
