//! The proved line reader beside a plain Rust reader: first the same answers on many messages, then the time of each.

mod messages;
mod plain;

use messages::{cases, message, Random};
use std::hint::black_box;
use std::time::Instant;

extern "C" {
    fn kmsg_read_line(
        message: *const u8,
        message_len: usize,
        result: *mut u8,
        result_len: usize,
        numbers: *mut u8,
        numbers_len: usize,
    ) -> u32;
}

fn proved(m: &[u8], result: &mut [u8], numbers: &mut [u8]) -> u32 {
    // The call takes any three slices, and asks nothing else.
    unsafe {
        kmsg_read_line(m.as_ptr(), m.len(), result.as_mut_ptr(), result.len(), numbers.as_mut_ptr(), numbers.len())
    }
}

type Reader = fn(&[u8], &mut [u8], &mut [u8]) -> u32;

const MESSAGES: usize = 400_000;
const RUNS: usize = 60;
const NANOSECONDS_A_RUN: u128 = 2_000_000;

/// Both readers on many messages, good and damaged, with lent buffers of any content and sometimes of an unfit length.
fn compare() {
    let mut random = Random::new(2047);
    let mut answers = [0usize; 9];
    for n in 0..MESSAGES {
        let m = message(&mut random);
        let room = if random.below(50) == 0 { random.below(1100) } else { 960 + random.below(3) };
        let block = if random.below(50) == 0 { random.below(100) } else { 48 };
        let mut result = [random.bytes(room), vec![]];
        let mut numbers = [random.bytes(block), vec![]];
        result[1] = result[0].clone();
        numbers[1] = numbers[0].clone();
        let before = (result[0].clone(), numbers[0].clone());
        let a = proved(&m, &mut result[0], &mut numbers[0]);
        let b = plain::read_line(&m, &mut result[1], &mut numbers[1]);
        if a != b || result[0] != result[1] || numbers[0] != numbers[1] {
            println!("message {n} differs: proved {a}, plain {b}: {}", m.escape_ascii());
            std::process::exit(1);
        }
        if a != 0 && (result[0] != before.0 || numbers[0] != before.1) {
            println!("message {n}: a refusal changed a lent byte: {}", m.escape_ascii());
            std::process::exit(1);
        }
        answers[a as usize] += 1;
    }
    println!("{MESSAGES} messages, alike in the answer and in every lent byte; answers 0 to 8: {answers:?}");
    if answers.iter().any(|&seen| seen < 100) {
        println!("an answer was hardly seen");
        std::process::exit(1);
    }
}

/// Nanoseconds a call, over so many calls into the same buffers.
fn time(reader: Reader, m: &[u8], calls: u32) -> f64 {
    let mut result = [0; 960];
    let mut numbers = [0; 48];
    let start = Instant::now();
    for _ in 0..calls {
        black_box(reader(black_box(m), black_box(&mut result), black_box(&mut numbers)));
    }
    start.elapsed().as_nanos() as f64 / f64::from(calls)
}

fn main() {
    compare();
    println!("best of {RUNS} runs, ns a call; the buffers are not cleared between calls");
    println!("{:<30} {:>7} {:>9} {:>9} {:>7}", "case", "answer", "proved", "plain", "ratio");
    let readers: [Reader; 2] = [proved, plain::read_line];
    for (name, m) in cases() {
        let mut best = [f64::INFINITY; 2];
        let calls = (NANOSECONDS_A_RUN / (time(readers[1], &m, 1000) as u128).max(1)) as u32;
        for _ in 0..RUNS {
            for (reader, best) in readers.iter().zip(&mut best) {
                *best = best.min(time(*reader, &m, calls));
            }
        }
        let answer = proved(&m, &mut [0; 960], &mut [0; 48]);
        println!("{name:<30} {answer:>7} {:>9.1} {:>9.1} {:>7.2}", best[0], best[1], best[0] / best[1]);
    }
}
