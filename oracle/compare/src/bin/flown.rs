//! Writes what ten ticks over the published velocity call make of a fleet file.
//!
//!     flown < FILE
//!
//! The fleet file after ten ticks by the near rule, or the line of the first refused call, as the program tenticks
//! has to write it.
use std::io::{self, Read, Write};

use compare::published::catch_quietly;
use compare::simulated::ten_ticks;

fn main() -> io::Result<()> {
    catch_quietly();
    let mut file = Vec::new();
    io::stdin().read_to_end(&mut file)?;
    let (wanted, _) = ten_ticks(&file);
    io::stdout().write_all(&wanted)
}
