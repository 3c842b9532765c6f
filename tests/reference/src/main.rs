//! The reference for liblcf.a and the ratio lister, written from the paper and the scope alone.

mod calls;
mod cases;
mod histories;
mod inputs;
mod keys;
mod lines;
mod lister;
mod random;
mod ratios;
mod stock;
mod tables;

use cases::Cases;
use random::Random;
use std::io::{self, BufWriter, Read, Write};
use std::process::ExitCode;

const USAGE: &str = "\
usage: reference cases SEED COUNT   writes COUNT calls and their answers, one a line
       reference lines SEED COUNT   writes COUNT lines for the ratio lister, good and bad
       reference list               writes what the lister must write for standard input";

fn cases(seed: u64, count: usize, out: &mut impl Write) -> io::Result<()> {
    for case in Cases::new(seed).take(count) {
        writeln!(out, "{case}")?;
    }
    Ok(())
}

/// The last line has no newline.
fn lines(random: &mut Random, count: u64, out: &mut impl Write) -> io::Result<()> {
    for number in 0..count {
        out.write_all(if number == 0 { b"" } else { b"\n" })?;
        out.write_all(&lines::line(random))?;
    }
    Ok(())
}

fn list(out: &mut impl Write) -> io::Result<()> {
    let mut input = Vec::new();
    io::stdin().read_to_end(&mut input)?;
    out.write_all(&lister::list(&input))
}

fn run(arguments: &[&str], out: &mut impl Write) -> Option<io::Result<()>> {
    match arguments {
        ["cases", seed, count] => Some(cases(seed.parse().ok()?, count.parse().ok()?, out)),
        ["lines", seed, count] => Some(lines(&mut Random::new(seed.parse().ok()?), count.parse().ok()?, out)),
        ["list"] => Some(list(out)),
        _ => None,
    }
}

fn main() -> ExitCode {
    let arguments: Vec<String> = std::env::args().skip(1).collect();
    let arguments: Vec<&str> = arguments.iter().map(String::as_str).collect();
    let mut out = BufWriter::new(io::stdout().lock());
    match run(&arguments, &mut out).map(|done| done.and_then(|()| out.flush())) {
        Some(Ok(())) => ExitCode::SUCCESS,
        Some(Err(error)) => {
            eprintln!("reference: {error}");
            ExitCode::FAILURE
        }
        None => {
            eprintln!("{USAGE}");
            ExitCode::from(2)
        }
    }
}
