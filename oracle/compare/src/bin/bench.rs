//! Times Guineacrumb's velocity call, the published one, and the published one with its square roots taken digit by digit,
//! on the same inputs.
//!
//!     bench SEED COMMAND ..
//!
//! COMMAND is the server, which times the library's calls in its own process; the Rust's are timed here,
//! in turns with them. No side is given anything to clear: the library's calls share one scratch,
//! which holds what the call before left, and the Rust allocates what it needs.
//!
//! It panics where the roots taken digit by digit are not those of `sqrt`, or lead to other answers.
use std::process::ExitCode;
use std::{env, io};

use compare::case::*;
use compare::inputs::{draw_of, Kind};
use compare::published::{catch_quietly, expected, Expected};
use compare::server::Server;
use compare::times::{columns, heading, Side, ROUNDS};
use compare::{by_digits, published};

const COUNTS: [usize; 5] = [1, 8, 16, 32, 63];
/// The different inputs of a line.
const INPUTS: usize = 64;
/// Of so many patterns one has its root compared.
const STEP: usize = 4099;

#[derive(Clone, Copy, PartialEq, Debug)]
enum Setting {
    /// Drones with room, whose velocities stay free.
    Sparse,
    /// Drones in a crowd, where the 3D program fails and the 4D program runs.
    Crowded,
}

/// Cases with so many neighbours, all of which the two answer alike with 0, free or relaxed.
fn inputs(seed: u64, setting: Setting, count: usize) -> Vec<Case> {
    let (kind, relaxed) = match setting {
        Setting::Sparse => (Kind::Hangar, false),
        Setting::Crowded => (Kind::Crowd, true),
    };
    let cases = (0..).map(|index| {
        let mut case = draw_of(seed, index, kind, count);
        case.scratch.truncate(SCRATCH * count);
        case
    });
    let fits = |case: &Case| match expected(case) {
        Expected::Reply(reply) => reply.answer == 0 && (reply.relaxed != NO_PLANE) == relaxed,
        _ => false,
    };
    cases.filter(fits).take(INPUTS).collect()
}

fn bench(seed: u64, server: &mut Server) -> io::Result<()> {
    let different = digits::first_difference(STEP);
    assert_eq!(different, None, "a number with another root than sqrt's");
    println!("{:>9} {:>3} {}", "setting", "n", heading());
    for setting in [Setting::Sparse, Setting::Crowded] {
        for count in COUNTS {
            let cases = inputs(seed, setting, count);
            let plain: Vec<_> = cases.iter().map(published::Call::of).collect();
            let without: Vec<_> = cases.iter().map(by_digits::Call::of).collect();
            for (one, other) in plain.iter().zip(&without) {
                assert_eq!(one.answer(), other.answer(), "answers of the two Rusts");
            }
            let sides: [Side; 3] = [
                &mut |passes| server.time(&cases, passes),
                &mut |passes| Ok(published::time(&plain, passes)),
                &mut |passes| Ok(by_digits::time(&without, passes)),
            ];
            println!(
                "{:>9} {count:>3} {}",
                format!("{setting:?}").to_lowercase(),
                columns(INPUTS, sides)?
            );
        }
    }
    println!("(medians of {ROUNDS} timings, in turns, each of many passes over {INPUTS} inputs;");
    println!("scratch is not cleared before a call; digits: the Rust, its square roots taken digit by digit;");
    println!("each ratio is that of ours to the column before it)");
    Ok(())
}

fn main() -> ExitCode {
    let words: Vec<String> = env::args().skip(1).collect();
    let (Some(Ok(seed)), true) = (words.first().map(|word| word.parse()), words.len() > 1) else {
        eprintln!("usage: bench SEED COMMAND ..");
        return ExitCode::from(2);
    };
    catch_quietly();
    let result = Server::start(&words[1..]).and_then(|mut server| {
        bench(seed, &mut server)?;
        server.stop()
    });
    match result {
        Ok(true) => ExitCode::SUCCESS,
        Ok(false) => ExitCode::FAILURE,
        Err(error) => {
            eprintln!("bench: the server: {error}");
            ExitCode::FAILURE
        }
    }
}
