//! Flies a fleet file in place: ten ticks of half a second, by the near rule.
//!
//!     tick FILE
//!
//! The first tick that is refused ends the flight, with the line `refused N P`, its number and place, and exit
//! status 1. A refused tick leaves every byte as it was, so the file then has the fleet after the ticks before it:
//! where the load is refused, the very bytes that it had. Why it was refused is said on standard error.
//! examples/run builds it, and compares what it makes of some files with what the program tenticks makes of them.
use std::process::ExitCode;
use std::{env, fs, io};

use guineacrumb::{tick, Refusal, Rule};

const TICKS: usize = 10;

fn fly(file: &mut [u8]) -> Result<(), Refusal> {
    for _ in 0..TICKS {
        tick(file, 0.5, Rule::Near)?;
    }
    Ok(())
}

fn fly_stored(name: &str) -> io::Result<Result<(), Refusal>> {
    let mut file = fs::read(name)?;
    let flown = fly(&mut file);
    fs::write(name, &file)?;
    Ok(flown)
}

fn main() -> ExitCode {
    let words: Vec<String> = env::args().skip(1).collect();
    let [name] = words.as_slice() else {
        eprintln!("usage: tick FILE");
        return ExitCode::from(2);
    };
    match fly_stored(name) {
        Ok(Ok(())) => ExitCode::SUCCESS,
        Ok(Err(refusal)) => {
            println!("refused {} {}", refusal.number, refusal.place);
            eprintln!("{refusal}");
            ExitCode::FAILURE
        }
        Err(error) => {
            eprintln!("{name}: {error}");
            ExitCode::from(2)
        }
    }
}
