//! The program replay, which makes the calls of a flight; crates/replay/src/main.rt says what it reads and prints.
use std::io;

use crate::calls::{Call, Flight};
use crate::{file, piped};

/// The lines that replay prints for the load, for each tick with the reads after it, and for the fleet at the end.
/// There are so many `agents` after each tick.
pub fn run(command: &[String], flight: &Flight, agents: &[usize]) -> io::Result<Vec<Vec<String>>> {
    let file = file::of(&flight.records);
    let mut input = file::little_endian(&[file.len() as u32]);
    input.extend(file);
    let mut lengths = vec![1];
    for calls in flight.with_reads(agents) {
        input.extend(calls.iter().flat_map(Call::bytes));
        lengths.push(calls.len());
    }
    let output = piped::output(command, input)?;
    let text = String::from_utf8(output).map_err(io::Error::other)?;
    let mut lines = text.lines().map(String::from);
    let mut parts: Vec<Vec<String>> = lengths
        .iter()
        .map(|&length| lines.by_ref().take(length).collect())
        .collect();
    parts.push(lines.collect());
    Ok(parts)
}
