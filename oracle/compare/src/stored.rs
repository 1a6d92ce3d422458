//! What the programs that write stored lists have in common: the two words that they are called with.
use std::process::ExitCode;
use std::{env, io};

use crate::published::catch_quietly;

/// Has `write` write what it draws of the seed to the file or folder. `usage` says which of them it is.
pub fn write_by(usage: &str, write: fn(u64, &str) -> io::Result<()>) -> ExitCode {
    let words: Vec<String> = env::args().skip(1).collect();
    let (Some(Ok(seed)), Some(to), 2) =
        (words.first().map(|w| w.parse()), words.get(1), words.len())
    else {
        eprintln!("usage: {usage}");
        return ExitCode::from(2);
    };
    catch_quietly();
    match write(seed, to) {
        Ok(()) => ExitCode::SUCCESS,
        Err(error) => {
            eprintln!("{to}: {error}");
            ExitCode::FAILURE
        }
    }
}
