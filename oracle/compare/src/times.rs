//! What the programs that time have in common.
use std::{io, iter};

/// How often each side is timed; the medians are printed.
pub const ROUNDS: usize = 9;
/// How long a timing takes, at least, in nanoseconds.
const LONG_ENOUGH: u64 = 20_000_000;

/// What is timed: so many passes over the inputs of a line, and nanoseconds for them.
pub type Side<'a> = &'a mut dyn FnMut(u32) -> io::Result<u64>;

pub fn median(mut times: Vec<f64>) -> f64 {
    times.sort_by(f64::total_cmp);
    times[times.len() / 2]
}

/// The names of the columns.
pub fn heading() -> String {
    format!(
        "{:>11} {:>11} {:>6} {:>11} {:>6}",
        "ours ns", "Rust ns", "ratio", "digits ns", "ratio"
    )
}

/// The columns of a line: ours, the Rust's, and the Rust's with its square roots taken digit by digit, timed in turns. A
/// pass does `count` times what the columns have the time of.
pub fn columns(count: usize, mut sides: [Side; 3]) -> io::Result<String> {
    let mut once = u64::MAX;
    for side in &mut sides {
        once = once.min(side(1)?);
    }
    let passes = (LONG_ENOUGH / once.max(1)).clamp(1, 100_000) as u32;
    let each = f64::from(passes) * count as f64;
    let mut rounds: [Vec<f64>; 5] = Default::default();
    for _ in 0..ROUNDS {
        let mut times = [0.0; 3];
        for (time, side) in iter::zip(&mut times, &mut sides) {
            *time = side(passes)? as f64 / each;
        }
        let [ours, rusts, digits] = times;
        let row = [ours, rusts, ours / rusts, digits, ours / digits];
        for (column, x) in iter::zip(&mut rounds, row) {
            column.push(x);
        }
    }
    let [ours, rusts, ratio, digits, digits_ratio] = rounds.map(median);
    Ok(format!(
        "{ours:>11.1} {rusts:>11.1} {ratio:>6.2} {digits:>11.1} {digits_ratio:>6.2}"
    ))
}
