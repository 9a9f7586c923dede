//! The replay: a script of calls in, one line of answer for each out.

use crate::board::{Board, BOARD, FIRST_CHANNEL, SLOTS};
use crate::joiner::{Given, Joiner};
use crate::log::{to_console, Log, Misfit, Stamp};
use crate::message::{hex_digit, read_line, BLOCK};
use crate::record::BULK;
use crate::trail::{save, Last, Next, Reason, Trail, BLOCK as SAVED};
use std::io::{self, BufRead, Write};

/// Most bytes of a script's line, its newline aside.
pub const LINE: usize = 40_000;
/// Most readers at once.
pub const READERS: usize = 16;
/// Most bytes of a file, and of what is lent to a save.
const FILE: u64 = 90_000;
/// Lent buffers are filled with this before each call.
const LENT: u8 = 165;

#[derive(Default)]
pub struct Machine {
    pub log: Option<Log>,
    pub readers: Vec<u64>,
    pub board: Option<Board>,
    pub joiner: Option<Joiner>,
    /// What the last good save wrote, the file, and the reader on it.
    pub image: Option<Vec<u8>>,
    pub file: Option<Vec<u8>>,
    pub trail: Option<Trail>,
}

/// Answers a whole script.
pub fn replay(input: &mut dyn BufRead, output: &mut dyn Write) -> io::Result<()> {
    let mut machine = Machine::default();
    let mut line = Vec::new();
    while take_line(input, &mut line)? {
        writeln!(output, "{}", machine.answer(&line))?;
    }
    output.flush()
}

/// Takes one line without its newline; false at the end of the input.
/// Of a line that is too long, only enough is kept to know it.
fn take_line(input: &mut dyn BufRead, line: &mut Vec<u8>) -> io::Result<bool> {
    line.clear();
    let mut any = false;
    loop {
        let piece = input.fill_buf()?;
        if piece.is_empty() {
            return Ok(any);
        }
        any = true;
        let end = piece.iter().position(|&b| b == b'\n');
        let bytes = &piece[..end.unwrap_or(piece.len())];
        let room = (LINE + 1).saturating_sub(line.len());
        line.extend(&bytes[..bytes.len().min(room)]);
        let used = bytes.len() + usize::from(end.is_some());
        input.consume(used);
        if end.is_some() {
            return Ok(true);
        }
    }
}

impl Machine {
    /// The answer to one line.
    pub fn answer(&mut self, line: &[u8]) -> String {
        let text = match std::str::from_utf8(line) {
            Ok(text) if line.len() <= LINE => text,
            _ => return "?".into(),
        };
        let words: Vec<&str> = text.split(' ').collect();
        self.call(&words).unwrap_or_else(|| "?".into())
    }

    /// None where the line is no call. Every word is read before anything is done.
    fn call(&mut self, words: &[&str]) -> Option<String> {
        match *words {
            ["log", capacity, fill] => {
                let capacity = num_to(capacity, 70_000)? as usize;
                let fill = num_to(fill, 255)? as u8;
                self.log = Some(Log::fresh(vec![fill; capacity]));
                self.readers.clear();
                Some("log".into())
            }
            ["number", "saved", "-"] => {
                self.log.as_mut()?.forget_saved();
                Some("set".into())
            }
            ["number", name, value] => {
                let value = num(value)?;
                let log = self.log.as_mut()?;
                log.set_number(name, value).then(|| "set".into())
            }
            ["poke", place, bytes] => {
                let (place, bytes) = (num(place)?, unhex(bytes)?);
                self.log.as_mut()?.poke(place, &bytes);
                Some("poked".into())
            }
            ["numbers"] => {
                let n = self.log.as_ref()?.numbers();
                let saved = n.saved.map_or("-".into(), |level| level.to_string());
                Some(format!(
                    "{} {} {} {} {} {} {} {} {} {saved}",
                    n.start,
                    n.used,
                    n.first,
                    n.next,
                    n.clear,
                    n.position,
                    n.offset,
                    n.console,
                    n.minimum
                ))
            }
            ["peek", place, length] => {
                let (place, length) = (num(place)?, num(length)?);
                Some(hex(self.log.as_ref()?.peek(place, length)))
            }
            ["check"] => Some(match self.log.as_mut()?.check() {
                Ok(()) => "fine".into(),
                Err(Misfit::Numbers) => "numbers".into(),
                Err(Misfit::Heading(count)) => format!("heading {count}"),
            }),
            ["outside", time, handed, ref more @ ..] => {
                let stamp = stamp(time, more)?;
                let handed = unhex(handed)?;
                let log = self.log.as_mut()?;
                write(log, |log| log.outside(stamp, &handed))
            }
            ["box", facility, level, time, text, dictionary, ref more @ ..] => {
                // Left out, it is no fragment.
                let (fragment, more) = match more.split_first() {
                    Some((word, more)) => (num_to(word, 1)? == 1, more),
                    None => (false, &[][..]),
                };
                let stamp = stamp(time, more)?;
                let (facility, level) = (any_int(facility)?, any_int(level)?);
                let (text, dictionary) = (unhex(text)?, unhex(dictionary)?);
                let log = self.log.as_mut()?;
                write(log, |log| {
                    log.from_box(facility, level, stamp, &text, &dictionary, fragment)
                })
            }
            ["reader"] => {
                let first = self.log.as_ref()?.numbers().first;
                if self.readers.len() == READERS {
                    return None;
                }
                self.readers.push(first);
                Some(format!("reader {}", self.readers.len() - 1))
            }
            ["at", reader, value] => {
                let value = num(value)?;
                *self.reader(reader)? = value;
                Some("set".into())
            }
            ["where", reader] => Some(self.reader(reader)?.to_string()),
            ["read", reader, length] => {
                let length = num_to(length, 5_000)? as usize;
                let mut number = *self.reader(reader)?;
                let log = self.log.as_mut()?;
                let before = log.bytes().to_vec();
                let mut lent = vec![LENT; length];
                let (answer, lost) = log.read(&mut number, &mut lent);
                let count = counted(answer);
                let changed = !stayed(&lent, count) || log.bytes() != before;
                *self.reader(reader)? = number;
                let bytes = hex(&lent[..count]);
                Some(format!("{answer} {lost} {bytes}{}", mark(changed)))
            }
            ["seek", reader, offset, whence] => {
                let (offset, whence) = (wide_int(offset)?, int(whence)?);
                let mut number = *self.reader(reader)?;
                let answer = self.log.as_mut()?.seek(&mut number, offset, whence);
                *self.reader(reader)? = number;
                Some(answer.to_string())
            }
            ["command", kind, len, privilege, restriction, lent] => {
                let (kind, len) = (int(kind)?, int(len)?);
                let privilege = num_to(privilege, 1)? == 1;
                let restriction = num_to(restriction, 1)? == 1;
                let mut lent = vec![LENT; num_to(lent, 300_000)? as usize];
                let log = self.log.as_mut()?;
                let before = log.bytes().to_vec();
                let answer = log.command(kind, len, privilege, restriction, &mut lent);
                let count = match kind {
                    2..=4 => counted(answer),
                    _ => 0,
                };
                let changed = !stayed(&lent, count) || log.bytes() != before;
                let bytes = hex(&lent[..count]);
                Some(format!("{answer} {bytes}{}", mark(changed)))
            }
            ["minimum", level] => {
                let level = wide_int(level)?;
                let log = self.log.as_mut()?;
                let before = log.bytes().to_vec();
                let answer = log.set_minimum(level);
                let changed = log.bytes() != before;
                Some(format!("{answer}{}", mark(changed)))
            }
            ["console", level, setting] => {
                let yes = to_console(wide_int(level)?, wide_int(setting)?);
                Some(if yes { "yes" } else { "no" }.into())
            }
            ["board", fill] => {
                let fill = num_to(fill, 255)? as u8;
                self.board = Some(Board::fresh(vec![fill; BOARD]));
                Some("board".into())
            }
            ["deliver", message] => {
                let message = unhex(message)?;
                let board = self.board.as_mut()?;
                let before = board.clone();
                let answer = board.deliver(&message);
                Some(format!("{answer}{}", mark(!board_stayed(&before, board))))
            }
            ["slot", channel] => {
                let index = channel_index(channel)?;
                let board = self.board.as_ref()?;
                let slot = board.slots[index];
                Some(match slot.number {
                    None => format!("nothing {}", slot.length),
                    Some(number) => {
                        format!("{number} {} {}", slot.length, hex(board.shown(index)))
                    }
                })
            }
            ["joiner", fill] => {
                let fill = num_to(fill, 255)? as u8;
                self.joiner = Some(Joiner::fresh(vec![fill; BOARD]));
                Some("joiner".into())
            }
            ["join", message] => {
                let message = unhex(message)?;
                Some(join(self.joiner.as_mut()?, &message))
            }
            ["close"] => Some(close(self.joiner.as_mut()?)),
            ["open", facility] => {
                let index = channel_index(facility)?;
                Some(match self.joiner.as_ref()?.open_text(index) {
                    None => "shut".into(),
                    Some(text) => format!("open {}", hex(text)),
                })
            }
            ["line", message] => Some(line(&unhex(message)?)),
            ["save", number, length] => {
                let number = num_to(number, u32::MAX.into())? as u32;
                let mut lent = vec![LENT; num_to(length, FILE)? as usize];
                let log = self.log.as_mut()?;
                let before = log.bytes().to_vec();
                let answer = save(log, number, &mut lent);
                let count = counted(answer);
                let changed = !stayed(&lent, count) || log.bytes() != before;
                if answer >= 0 {
                    self.image = Some(lent[..count].to_vec());
                }
                let bytes = hex(&lent[..count]);
                Some(format!("{answer} {bytes}{}", mark(changed)))
            }
            ["disk", length, fill] => {
                let length = num_to(length, FILE)? as usize;
                let fill = num_to(fill, 255)? as u8;
                self.file = Some(vec![fill; length]);
                self.trail = None;
                Some("disk".into())
            }
            ["cut", blocks] => {
                let blocks = num(blocks)?;
                let (file, image) = (self.file.as_mut()?, self.image.as_ref()?);
                let whole = (image.len() / SAVED) as u64;
                let written = &image[..blocks.min(whole) as usize * SAVED];
                let behind = file.split_off(written.len().min(file.len()));
                *file = [written, &behind].concat();
                self.trail = None;
                Some(format!("cut {}", file.len()))
            }
            ["patch", place, bytes] => {
                let (place, bytes) = (num(place)?, unhex(bytes)?);
                let here = self.file.as_mut()?.iter_mut();
                let place = usize::try_from(place).unwrap_or(usize::MAX);
                for (old, new) in here.skip(place).zip(bytes) {
                    *old = new;
                }
                Some("patched".into())
            }
            ["trail"] => {
                self.file.as_ref()?;
                self.trail = Some(Trail::default());
                Some("trail".into())
            }
            ["next", length] => {
                let mut result = vec![LENT; num_to(length, 5_000)? as usize];
                let trail = self.trail.as_mut()?;
                Some(next(trail, self.file.as_ref()?, &mut result))
            }
            _ => None,
        }
    }

    fn reader(&mut self, word: &str) -> Option<&mut u64> {
        let index = usize::try_from(num(word)?).ok()?;
        self.readers.get_mut(index)
    }
}

/// A write's time, and its caller: the last word, or 0 where that is left out.
fn stamp(time: &str, more: &[&str]) -> Option<Stamp> {
    let caller = match *more {
        [] => 0,
        [word] => num_to(word, u32::MAX.into())? as u32,
        _ => return None,
    };
    let time = num(time)?;
    Some(Stamp { time, caller })
}

/// A write, and whether bytes beside its record stayed.
fn write(log: &mut Log, call: impl FnOnce(&mut Log) -> (i64, u64)) -> Option<String> {
    let before = log.bytes().to_vec();
    let old = *log.numbers();
    let (answer, dropped) = call(log);
    let mut wanted = before;
    if answer >= 0 {
        // The record's own bytes are the write's to change.
        let cost = log.records()?.back()?.cost();
        let capacity = wanted.len();
        for step in 0..cost {
            let place = (old.start as usize + old.used as usize + step) % capacity;
            wanted[place] = log.bytes()[place];
        }
    }
    let changed = log.bytes() != wanted;
    Some(format!("{answer} {dropped}{}", mark(changed)))
}

/// Whether only slots that took a message changed, and those only at their front.
fn board_stayed(before: &Board, after: &Board) -> bool {
    let mut wanted = before.buffer.clone();
    for index in 0..SLOTS {
        if before.slots[index] != after.slots[index] {
            let shown = after.shown(index);
            wanted[index * BULK..index * BULK + shown.len()].copy_from_slice(shown);
        }
    }
    wanted == after.buffer
}

fn join(joiner: &mut Joiner, message: &[u8]) -> String {
    let before = joiner.clone();
    let mut results = [vec![LENT; BULK], vec![LENT; BULK]];
    let [first, second] = &mut results;
    match joiner.join(message, first, second) {
        Err(refusal) => {
            let changed = *joiner != before || results.iter().any(|result| !stayed(result, 0));
            format!("{refusal}{}", mark(changed))
        }
        Ok(given) => {
            let mut said = String::from("0");
            let mut changed = !texts_stayed(&before, joiner, &given);
            for (i, result) in results.iter().enumerate() {
                let length = given.get(i).map_or(0, |text| text.length);
                changed |= !stayed(result, length);
                if let Some(text) = given.get(i) {
                    said += &format!(" {} {}", text.facility, hex(&result[..length]));
                }
            }
            said + mark(changed)
        }
    }
}

fn close(joiner: &mut Joiner) -> String {
    let before = joiner.clone();
    let mut result = vec![LENT; BULK];
    let (said, length) = match joiner.close(&mut result) {
        Err(refusal) => (refusal.to_string(), 0),
        Ok(None) => ("none".into(), 0),
        Ok(Some(Given { facility, length })) => {
            let text = hex(&result[..length]);
            (format!("{facility} {text}"), length)
        }
    };
    let changed = joiner.buffer != before.buffer || !stayed(&result, length);
    format!("{said}{}", mark(changed))
}

/// Whether nothing but the piece's own place changed among the open texts.
fn texts_stayed(before: &Joiner, after: &Joiner, given: &[Given]) -> bool {
    let mut wanted = before.buffer.clone();
    for index in 0..SLOTS {
        let facility = FIRST_CHANNEL + index as u64;
        // Behind what was open; at the front where that was given.
        let from = match given.iter().any(|text| text.facility == facility) {
            true => 0,
            false => before.open[index].unwrap_or(0) as usize,
        };
        let to = after.open[index].unwrap_or(0) as usize;
        if from < to {
            let place = index * BULK + from..index * BULK + to;
            wanted[place.clone()].copy_from_slice(&after.buffer[place]);
        }
    }
    wanted == after.buffer
}

fn line(message: &[u8]) -> String {
    let mut result = vec![LENT; BULK];
    let mut block = vec![LENT; BLOCK];
    let answer = read_line(message, &mut result, &mut block);
    if answer != 0 {
        let changed = !stayed(&result, 0) || !stayed(&block, 0);
        return format!("{answer}{}", mark(changed));
    }
    let numbers: Vec<u64> = block
        .chunks_exact(8)
        .map(|place| u64::from_le_bytes(place.try_into().unwrap()))
        .collect();
    let [prefix, sequence, time, text, dictionary, flag] = numbers[..] else {
        unreachable!("the block holds six numbers");
    };
    let (text, dictionary) = (text as usize, dictionary as usize);
    let changed = !stayed(&result, text + dictionary);
    format!(
        "0 {prefix} {sequence} {time} {flag} {} {}{}",
        hex(&result[..text]),
        hex(&result[text..text + dictionary]),
        mark(changed)
    )
}

fn next(trail: &mut Trail, file: &[u8], result: &mut [u8]) -> String {
    let (said, count) = match trail.next(file, result) {
        Next::Room => ("room".into(), 0),
        Next::Last(Last::End) => ("end".into(), 0),
        Next::Last(Last::Stop(reason, place)) => {
            let reason = match reason {
                Reason::Number => "number",
                Reason::Save => "save",
                Reason::Edition => "edition",
                Reason::Count => "count",
                Reason::Check => "check",
                Reason::Record => "record",
                Reason::Unfinished => "unfinished",
            };
            (format!("stop {reason} {place}"), 0)
        }
        Next::Record(record, edition) => {
            let count = record.text.len() + record.dictionary.len();
            let (text, dictionary) = result[..count].split_at(record.text.len());
            let said = format!(
                "record {} {} {} {} {} {} {} {edition}",
                record.sequence,
                record.time,
                record.prefix,
                record.flag,
                hex(text),
                hex(dictionary),
                record.caller
            );
            (said, count)
        }
    };
    format!("{said}{}", mark(!stayed(result, count)))
}

/// The place of a channel or facility among the eight.
fn channel_index(word: &str) -> Option<usize> {
    let channel = num_to(word, FIRST_CHANNEL + SLOTS as u64 - 1)?;
    Some(channel.checked_sub(FIRST_CHANNEL)? as usize)
}

/// How many lent bytes an answer counts.
fn counted(answer: i64) -> usize {
    usize::try_from(answer).unwrap_or(0)
}

fn stayed(lent: &[u8], count: usize) -> bool {
    lent[count..].iter().all(|&b| b == LENT)
}

fn mark(changed: bool) -> &'static str {
    if changed {
        " CHANGED"
    } else {
        ""
    }
}

fn num(word: &str) -> Option<u64> {
    let digits = !word.is_empty() && word.bytes().all(|b| b.is_ascii_digit());
    if digits {
        word.parse().ok()
    } else {
        None
    }
}

fn num_to(word: &str, top: u64) -> Option<u64> {
    num(word).filter(|&value| value <= top)
}

/// From -2^63 to 2^64 - 1: what some call takes, of one sign or the other.
fn any_int(word: &str) -> Option<i128> {
    let digits = word.strip_prefix('-').unwrap_or(word);
    let value = i128::from(num(digits)?);
    let value = if word.starts_with('-') { -value } else { value };
    (value >= i128::from(i64::MIN)).then_some(value)
}

fn wide_int(word: &str) -> Option<i64> {
    i64::try_from(any_int(word)?).ok()
}

fn int(word: &str) -> Option<i32> {
    i32::try_from(wide_int(word)?).ok()
}

/// Lower-case hex, or '-' for no bytes.
pub fn hex(bytes: &[u8]) -> String {
    if bytes.is_empty() {
        return "-".into();
    }
    let digits = b"0123456789abcdef";
    let mut out = String::with_capacity(2 * bytes.len());
    for byte in bytes {
        out.push(digits[usize::from(byte >> 4)] as char);
        out.push(digits[usize::from(byte & 15)] as char);
    }
    out
}

pub fn unhex(word: &str) -> Option<Vec<u8>> {
    if word == "-" {
        return Some(Vec::new());
    }
    let digits = word.as_bytes();
    if digits.is_empty() || digits.len() % 2 != 0 {
        return None;
    }
    digits
        .chunks_exact(2)
        .map(|pair| Some(hex_digit(pair[0])? * 16 + hex_digit(pair[1])?))
        .collect()
}
