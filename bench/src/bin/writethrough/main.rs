//! What crates/writethrough does, as plain safe Rust: writes one message from outside over and over.
//! Standard input is two numbers and a newline, the log's capacity and how often the message is written; then the message.

#[path = "../../log.rs"]
#[allow(dead_code)] // the calls of the other programs
mod log;

use log::Log;
use std::io::Read;

const LINE_MOST: usize = 3_905;
/// Who writes.
const CALLER: u32 = 4_711;

fn main() {
    let mut input = Vec::new();
    std::io::stdin().read_to_end(&mut input).expect("standard input");
    let end = input.iter().position(|&b| b == b'\n').expect("a line of numbers");
    let (line, message) = (std::str::from_utf8(&input[..end]).expect("numbers"), &input[end + 1..]);
    let numbers: Vec<usize> = line.split_whitespace().map(|word| word.parse().expect("a number")).collect();
    let [capacity, times] = numbers[..] else {
        panic!("two numbers are wanted");
    };
    let mut buffer = vec![0; capacity];
    let mut log = Log::fresh(&mut buffer);
    let (mut answered, mut records_dropped) = (0, 0);
    for time in 0..times as u64 {
        let (bytes, dropped) = log.write_outside(time, message, CALLER).unwrap_or((0, 0));
        answered += bytes;
        records_dropped += dropped;
    }
    let (start, used, next) = (log.start(), log.used(), log.next());
    println!("{answered} bytes answered, {records_dropped} records dropped; start {start}, used {used}, next {next}");
    let mut lent = [0; LINE_MOST];
    match log.read(&mut log.first(), &mut lent) {
        Ok(length) => print!("{}", std::str::from_utf8(&lent[..length]).expect("a line is ASCII")),
        Err(_) => println!("no record is held"),
    }
}
