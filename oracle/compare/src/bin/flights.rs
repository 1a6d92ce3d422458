//! Writes the stored flights: a few small ones, in which as much is seen as can be, each with what document 01 and the
//! published Rust make of it. There is no file in them, and no scratch is shown; scripts.txt has such calls.
//!
//!     flights SEED FILE
//!
//! writes FILE; crates/replay/assemble says what its lines are.
use std::cmp::Reverse;
use std::collections::BTreeSet;
use std::process::ExitCode;
use std::{fs, io};

use compare::calls::{Call, Flight};
use compare::flights::draw_plain;
use compare::record::WORDS;
use compare::simulated::{outcome, Outcome};
use compare::stored::write_by;

/// The flights that are looked through, and those of them that are taken.
const DRAWN: u64 = 100_000;
const TAKEN: usize = 6;
/// A small flight has so many agents, and ticks.
const AGENTS: [usize; 4] = [2, 3, 4, 5];
const TICKS: [usize; 2] = [1, 2];

struct Drawn {
    name: String,
    outcome: Outcome,
    /// with the reads after each tick
    calls: Vec<Call>,
    /// What is seen in it, which for another kind of flight is something else.
    seen: BTreeSet<String>,
}

impl Drawn {
    /// The flight of a number, if it is a small one.
    fn small(seed: u64, index: u64) -> Option<Drawn> {
        let (kind, flight) = draw_plain(seed, index);
        if !AGENTS.contains(&flight.records.len()) || !TICKS.contains(&flight.ticks.len()) {
            return None;
        }
        let outcome = outcome(&flight);
        let counted = outcome.counts.keys();
        Some(Drawn {
            name: format!("{kind:?}-{index}").to_lowercase(),
            seen: counted.map(|what| format!("{kind:?}: {what}")).collect(),
            calls: outcome.made.with_reads(&outcome.agents()).concat(),
            outcome,
        })
    }

    /// How much is seen in it that was not yet; of two with as much the shorter one is better.
    fn worth(&self, seen: &BTreeSet<String>) -> (usize, Reverse<usize>) {
        let calls = self.calls.len();
        (self.seen.difference(seen).count(), Reverse(calls))
    }

    /// The fleet file by its words, and each call with the line that has to come.
    fn script(&self) -> String {
        let Flight { records, .. } = &self.outcome.made;
        let mut lines = vec![
            format!("\ninput {}", self.name),
            format!("words {}", 4 * WORDS * records.len()),
        ];
        for record in records {
            lines.push(format!("words 0x{}", record.text().replace(' ', " 0x")));
        }
        let wanted = self.outcome.parts.iter().flat_map(|part| &part.lines);
        let mut wanted = wanted.map(|line| format!("> {line}"));
        lines.extend(wanted.next());
        for call in &self.calls {
            lines.push(call.text());
            lines.extend(wanted.next());
        }
        lines.extend(wanted);
        lines.join("\n") + "\n"
    }
}

fn write(seed: u64, file: &str) -> io::Result<()> {
    let small: Vec<Drawn> = (0..DRAWN)
        .filter_map(|index| Drawn::small(seed, index))
        .collect();
    let mut seen = BTreeSet::new();
    let mut text = format!(
        "# Flights that oracle/flights drew of seed {seed}, each with what document 01 and the published Rust make of \
         it. An input's\n# name has the kind of its flight and the number that it was drawn by.\n"
    );
    for _ in 0..TAKEN {
        let best = small.iter().max_by_key(|drawn| drawn.worth(&seen));
        let best = best.ok_or(io::Error::other("no flight is small"))?;
        let (unseen, _) = best.worth(&seen);
        println!("{}, with {unseen} not seen before", best.name);
        seen.extend(best.seen.iter().cloned());
        text += &best.script();
    }
    fs::write(file, text)
}

fn main() -> ExitCode {
    write_by("flights SEED FILE", write)
}
