//! A second program for the event log: it answers replay scripts, and writes them.

mod answer;
mod board;
mod joiner;
mod log;
mod message;
mod random;
mod record;
mod script;
#[cfg(test)]
mod tests;
mod trail;

use script::Kind;
use std::io::{self, BufWriter, ErrorKind, Write};
use std::process::ExitCode;

const USAGE: &str = "usage: compare answer
       compare script SEED N [wide|trail|editions|console|lines|joiner]
       compare script all console|levels|bytes|pieces|editions";

fn main() -> ExitCode {
    let words: Vec<String> = std::env::args().skip(1).collect();
    let words: Vec<&str> = words.iter().map(String::as_str).collect();
    let mut output = BufWriter::new(io::stdout().lock());
    let done = match words[..] {
        ["answer"] => answer::replay(&mut io::stdin().lock(), &mut output),
        ["script", "all", "console"] => script::write_all_runs(&mut output),
        ["script", "all", "levels"] => script::write_all_levels(&mut output),
        ["script", "all", "bytes"] => script::write_all_bytes(&mut output),
        ["script", "all", "pieces"] => script::write_all_pieces(&mut output),
        ["script", "all", "editions"] => script::write_all_editions(&mut output),
        ["script", seed, lines] => write_script(seed, lines, Kind::Plain, &mut output),
        ["script", seed, lines, "wide"] => write_script(seed, lines, Kind::Wide, &mut output),
        ["script", seed, lines, "trail"] => write_script(seed, lines, Kind::Trail, &mut output),
        ["script", seed, lines, "editions"] => {
            write_script(seed, lines, Kind::Editions, &mut output)
        }
        ["script", seed, lines, "console"] => write_script(seed, lines, Kind::Console, &mut output),
        ["script", seed, lines, "lines"] => write_script(seed, lines, Kind::Lines, &mut output),
        ["script", seed, lines, "joiner"] => write_script(seed, lines, Kind::Joiner, &mut output),
        _ => Err(io::Error::new(ErrorKind::InvalidInput, USAGE)),
    };
    match done {
        Ok(()) => ExitCode::SUCCESS,
        // Whoever reads us may stop early.
        Err(error) if error.kind() == ErrorKind::BrokenPipe => ExitCode::SUCCESS,
        Err(error) => {
            eprintln!("{error}");
            ExitCode::FAILURE
        }
    }
}

fn write_script(seed: &str, lines: &str, kind: Kind, output: &mut dyn Write) -> io::Result<()> {
    let (Ok(seed), Ok(lines)) = (seed.parse(), lines.parse()) else {
        return Err(io::Error::new(ErrorKind::InvalidInput, USAGE));
    };
    script::write_script(seed, lines, kind, output)
}
