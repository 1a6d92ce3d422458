//! Writes the stored list of velocity calls: cases of every kind and with every answer, each with what
//! the published Rust and document 01 make of it.
//!
//!     sample SEED FOLDER
//!
//! writes a file for each kind of input, rust-KIND.txt. crates/velocity_vectors/src/main.rt says what its lines are.
use std::collections::BTreeMap;
use std::process::ExitCode;
use std::{fs, io};

use compare::case::*;
use compare::inputs::{draw, Kind, KINDS};
use compare::published::{expected, Expected};
use compare::stored::write_by;

/// The cases that are looked through.
const DRAWN: u64 = 400_000;
/// Up to so many neighbours a case is a short one.
const SHORT: usize = 4;
/// One with more than so many is not taken, so that the file fits, but for one with too many.
const LONG: usize = 40;
/// The short and the long cases of each kind and answer that are taken.
const TAKEN: [usize; 2] = [9, 1];
/// A program that runs the list has room for so many numbers, places and neighbours together, and for so
/// many bytes of a file.
const MOST_NUMBERS: usize = 537;
const MOST_BYTES: usize = 65536;

/// A kind of answer: the number, whether it is relaxed, and whether the Rust panics.
type Class = (u32, bool, bool);

fn class(expected: &Expected) -> Option<(Class, &Reply)> {
    match expected {
        Expected::Reply(reply) | Expected::Panic(reply) if reply.answer != BAD_LENGTHS => {
            let panics = matches!(expected, Expected::Panic(_));
            Some(((reply.answer, reply.relaxed != NO_PLANE, panics), reply))
        }
        _ => None,
    }
}

/// The cases of a kind that are taken, each answer's together.
fn taken(seed: u64, wanted: Kind) -> Vec<String> {
    let mut taken: BTreeMap<Class, [Vec<String>; 2]> = BTreeMap::new();
    for index in 0..DRAWN {
        let (kind, case) = draw(seed, index);
        let fits = case.count() <= LONG || case.count() > MOST_NEIGHBOURS;
        if kind != wanted || !fits || REQUEST + case.neighbours.len() > MOST_NUMBERS {
            continue;
        }
        let expected = expected(&case);
        let Some((class, reply)) = class(&expected) else {
            continue;
        };
        let long = usize::from(case.count() > SHORT);
        let list = &mut taken.entry(class).or_default()[long];
        if list.len() < TAKEN[long] {
            let count = case.count();
            let (call, answer) = (case.text(), reply.text(count));
            list.push(format!("case {kind:?} {index}\n{call}{answer}"));
        }
    }
    taken.into_values().flatten().flatten().collect()
}

fn write(seed: u64, folder: &str) -> io::Result<()> {
    for kind in KINDS {
        let cases = taken(seed, kind);
        let (name, count) = (format!("rust-{kind:?}.txt").to_lowercase(), cases.len());
        if count == 0 {
            return Err(io::Error::other(format!("{name} would have no case")));
        }
        let head = format!(
            "# {count} velocity calls that oracle/sample drew, of the kind {kind:?} and seed {seed}, each \
             with what the published\n# Rust and document 01 make of it. A case's number is the one that it \
             was drawn by.\n"
        );
        let text = head + &cases.concat();
        if text.len() > MOST_BYTES {
            return Err(io::Error::other(format!("{name} would be too long")));
        }
        fs::write(format!("{folder}/{name}"), &text)?;
        println!("{name}: {count} calls, {} bytes", text.len());
    }
    Ok(())
}

fn main() -> ExitCode {
    write_by("sample SEED FOLDER", write)
}
