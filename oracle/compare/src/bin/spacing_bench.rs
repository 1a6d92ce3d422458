//! Times Guineacrumb's spacing report and the one in plain Rust on the same file.
//!
//!     spacing_bench SEED FOLDER REFERENCE COMMAND ..
//!
//! COMMAND is the program spacing_report and REFERENCE the program spacing_reference. Each is timed as a process, from its
//! start to its end, in turns. The file is drawn from the seed, written to FOLDER, and used again by a later call.
use std::fs::{self, File};
use std::io::{self, BufWriter, Write};
use std::process::{Command, ExitCode};
use std::time::Instant;
use std::{env, iter};

use compare::random::Random;
use compare::spacing::BYTES;
use compare::times::{median, ROUNDS};

const AGENTS: usize = 64;
const FRAMES: usize = 200_000;
/// In millimetres; two or three pairs of a frame lie below it.
const LIMIT: u32 = 1500;
/// Agents are so far from the middle at most, in metres.
const HALF: [f32; 3] = [20.0, 15.0, 4.0];

/// Writes the file, unless it is there already.
fn prepare(seed: u64, file: &str) -> io::Result<()> {
    let size = (FRAMES * AGENTS * BYTES) as u64;
    if fs::metadata(file).is_ok_and(|found| found.len() == size) {
        return Ok(());
    }
    let random = Random::of(seed, 0);
    let mut to = BufWriter::new(File::create(file)?);
    for half in iter::repeat_n(HALF, FRAMES * AGENTS).flatten() {
        to.write_all(&random.between(-half, half).to_le_bytes())?;
    }
    to.flush()
}

/// What a command prints for the file, and the seconds that it took.
fn time(command: &[String], file: &str) -> io::Result<(String, f64)> {
    let start = Instant::now();
    let output = Command::new(&command[0])
        .args(&command[1..])
        .args([&AGENTS.to_string(), &LIMIT.to_string(), file])
        .output()?;
    let seconds = start.elapsed().as_secs_f64();
    if !output.status.success() {
        let ended = format!("{} ended with {}", command.join(" "), output.status);
        return Err(io::Error::other(ended));
    }
    Ok((String::from_utf8_lossy(&output.stdout).into(), seconds))
}

fn bench(seed: u64, folder: &str, reference: &[String], command: &[String]) -> io::Result<bool> {
    let file = format!("{folder}/spacing-bench-{seed}");
    prepare(seed, &file)?;
    // The first turn, which is not timed, has the file read from the disk.
    let (ours, theirs) = (time(command, &file)?.0, time(reference, &file)?.0);
    if ours != theirs {
        println!("They differ. Ours:\n{ours}The Rust's:\n{theirs}");
        return Ok(false);
    }
    let (mut ours, mut theirs, mut ratios) = (vec![], vec![], vec![]);
    for _ in 0..ROUNDS {
        let our = time(command, &file)?.1;
        let their = time(reference, &file)?.1;
        ours.push(our);
        theirs.push(their);
        ratios.push(our / their);
    }
    let (ours, theirs) = (median(ours), median(theirs));
    let each_second = |seconds: f64| (FRAMES as f64 / seconds).round();
    println!(
        "{:>9} {:>7} {:>7} {:>7} {:>7} {:>13} {:>13} {:>6}",
        "setting",
        "agents",
        "frames",
        "ours s",
        "Rust s",
        "ours frames/s",
        "Rust frames/s",
        "ratio"
    );
    println!(
        "{:>9} {AGENTS:>7} {FRAMES:>7} {ours:>7.3} {theirs:>7.3} {:>13} {:>13} {:>6.2}",
        "spacing",
        each_second(ours),
        each_second(theirs),
        median(ratios)
    );
    println!(
        "(medians of {ROUNDS} timings, in turns, each of a process from its start to its end)"
    );
    Ok(true)
}

fn main() -> ExitCode {
    let words: Vec<String> = env::args().skip(1).collect();
    let (Some(Ok(seed)), true) = (words.first().map(|word| word.parse()), words.len() > 3) else {
        eprintln!("usage: spacing_bench SEED FOLDER REFERENCE COMMAND ..");
        return ExitCode::from(2);
    };
    match bench(seed, &words[1], &words[2..3], &words[3..]) {
        Ok(true) => ExitCode::SUCCESS,
        Ok(false) => ExitCode::FAILURE,
        Err(error) => {
            eprintln!("spacing_bench: {error}");
            ExitCode::FAILURE
        }
    }
}
