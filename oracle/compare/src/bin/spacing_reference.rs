//! The program spacing_report in plain Rust: it takes the same words and prints the same lines.
//!
//!     spacing_reference AGENTS LIMIT [FILE ..]
//!
//! A file that can't be read is said on standard error.
use std::env;
use std::fs::File;
use std::io::{self, Write};
use std::process::ExitCode;

use compare::spacing::{outcome, Tally};

/// Decimal digits alone; what no u64 holds is as good as the largest.
fn number(word: &str) -> Option<u64> {
    let is_number = !word.is_empty() && word.bytes().all(|byte| byte.is_ascii_digit());
    is_number.then(|| word.parse().unwrap_or(u64::MAX))
}

fn report(name: &str, tally: Tally) -> io::Result<Vec<String>> {
    let outcome = if name == "-" {
        outcome(io::stdin().lock(), tally)
    } else {
        outcome(File::open(name)?, tally)
    };
    Ok(outcome?.lines())
}

fn run(agents: u64, limit: u32, files: &[String]) -> io::Result<bool> {
    let mut out = io::stdout().lock();
    let begun = match Tally::begin(agents, limit) {
        Ok(tally) => tally,
        Err(refusal) => {
            writeln!(out, "{}", refusal.line())?;
            return Ok(true);
        }
    };
    let standard = ["-".to_string()];
    let inputs = if files.is_empty() { &standard } else { files };
    let mut all_read = true;
    for name in inputs {
        if !files.is_empty() {
            writeln!(out, "file {name}")?;
        }
        match report(name, begun.clone()) {
            Ok(lines) => writeln!(out, "{}", lines.join("\n"))?,
            Err(error) => {
                eprintln!("spacing_reference: {name}: {error}");
                all_read = false;
            }
        }
    }
    Ok(all_read)
}

fn main() -> ExitCode {
    let words: Vec<String> = env::args().skip(1).collect();
    let number_at = |at: usize| words.get(at).and_then(|word| number(word));
    let limit = number_at(1).and_then(|limit| u32::try_from(limit).ok());
    let (Some(agents), Some(limit)) = (number_at(0), limit) else {
        eprintln!("usage: spacing_reference AGENTS LIMIT [FILE ..]");
        return ExitCode::from(2);
    };
    match run(agents, limit, &words[2..]) {
        Ok(true) => ExitCode::SUCCESS,
        Ok(false) => ExitCode::FAILURE,
        Err(error) => {
            eprintln!("spacing_reference: standard output: {error}");
            ExitCode::FAILURE
        }
    }
}
