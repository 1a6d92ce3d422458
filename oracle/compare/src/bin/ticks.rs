//! Compares Guineacrumb's fleet table with the published Simulator, tick by tick.
//!
//!     ticks SEED TICKS COMMAND ..
//!
//! draws flights until so many ticks have been closed, has COMMAND, the program replay, make their calls, and
//! compares every line with what has to come: each plan's answer, and after every tick each agent's words. It has them
//! made in the canonical order too, and compares the fleets after every tick. The last line counts. The exit status is
//! 0 only where something was compared and nothing differs.
use std::process::ExitCode;
use std::{env, io};

use compare::calls::Flight;
use compare::flights::{draw, KINDS};
use compare::published::catch_quietly;
use compare::record::{Record, WORDS};
use compare::replay::run;
use compare::simulated::{outcome, Counts, Outcome, Part, CLOSED};

/// How many differences are shown.
const SHOWN: u64 = 4;

/// Where a flight first differs: the part, what is wanted there and by what, and what was got.
struct Difference {
    part: usize,
    by: &'static str,
    wanted: String,
    got: String,
}

/// The first line in which the two differ.
fn unlike(part: usize, by: &'static str, wanted: &[String], got: &[String]) -> Option<Difference> {
    let line = |lines: &[String], at: usize| lines.get(at).cloned().unwrap_or("nothing".into());
    let mut both = (0..wanted.len().max(got.len())).map(|at| (line(wanted, at), line(got, at)));
    let (wanted, got) = both.find(|(wanted, got)| wanted != got)?;
    Some(Difference {
        part,
        by,
        wanted,
        got,
    })
}

fn difference(command: &[String], outcome: &Outcome) -> io::Result<Option<Difference>> {
    let agents = outcome.agents();
    let got = run(command, &outcome.made, &agents)?;
    let canonical = run(command, &outcome.canonical, &agents)?;
    Ok((0..got.len()).find_map(|part| {
        let (got, ordered) = (&got[part], &canonical[part]);
        let Part { lines, agents, .. } = &outcome.parts[part];
        unlike(part, "document 01 and the Rust", lines, got).or_else(|| {
            // a part ends with the fleet
            let fleet = |lines: &[String]| lines.len().saturating_sub(*agents);
            let (ordered, got) = (&ordered[fleet(ordered)..], &got[fleet(got)..]);
            unlike(part, "the canonical order", ordered, got)
        })
    }))
}

/// The flight of one tick, on the records before it.
fn alone(outcome: &Outcome, part: usize) -> Option<Flight> {
    let calls = outcome.made.ticks.get(part.checked_sub(1)?)?.clone();
    Some(Flight {
        records: outcome.parts[part].before.clone(),
        ticks: vec![calls],
    })
}

/// A flight that differs, to be made small.
struct Differing<'a> {
    command: &'a [String],
    flight: Flight,
    difference: Difference,
}

impl Differing<'_> {
    /// Takes the smaller flight where its fleet can be loaded and it still differs from the same.
    fn reduce(&mut self, less: Flight) -> io::Result<()> {
        if !less.records.iter().all(Record::is_accepted) {
            return Ok(());
        }
        if let Some(difference) = difference(self.command, &outcome(&less))? {
            if difference.by == self.difference.by {
                self.flight = less;
                self.difference = difference;
            }
        }
        Ok(())
    }

    /// Tries what `less` makes of the flight for each of so many places, from the last on.
    fn reduce_at_each(
        &mut self,
        places: impl Fn(&Flight) -> usize,
        less: impl Fn(&Flight, usize) -> Flight,
    ) -> io::Result<()> {
        for place in (0..places(&self.flight)).rev() {
            self.reduce(less(&self.flight, place))?;
        }
        Ok(())
    }

    fn make_small(&mut self) -> io::Result<()> {
        self.reduce_at_each(|flight| flight.ticks.len(), Flight::without_tick)?;
        self.reduce_at_each(Flight::most_agents, Flight::without_agent)?;
        self.reduce_at_each(Flight::call_count, Flight::without_call)?;
        self.reduce_at_each(Flight::most_agents, Flight::without_agent)?;
        self.reduce_at_each(|flight| WORDS * flight.records.len(), Flight::with_zero)
    }

    fn show(&self) {
        for record in &self.flight.records {
            println!("  {}", record.text());
        }
        for call in self.flight.ticks.iter().flatten() {
            println!("  {}", call.text().replace('\n', "\n  "));
        }
        let Difference {
            by, wanted, got, ..
        } = &self.difference;
        println!("  wanted {wanted}\n  by     {by}\n  got    {got}");
    }
}

/// What was counted, of one kind of flight or of all.
#[derive(Clone, Default)]
struct Tally {
    flights: u64,
    most_agents: usize,
    counts: Counts,
    different: u64,
}

impl Tally {
    fn count(&mut self, outcome: &Outcome, differs: bool) {
        self.flights += 1;
        let agents = outcome.parts.iter().map(|part| part.agents);
        self.most_agents = agents.chain([self.most_agents]).max().unwrap_or(0);
        for (what, often) in &outcome.counts {
            *self.counts.entry(what.clone()).or_default() += often;
        }
        self.different += u64::from(differs);
    }

    fn closed(&self) -> u64 {
        let closed = |what: &str| what.starts_with(CLOSED);
        self.counts
            .iter()
            .filter(|(what, _)| closed(what))
            .map(|(_, often)| often)
            .sum()
    }

    fn line(&self) -> String {
        let counts: Vec<String> = self
            .counts
            .iter()
            .map(|(what, often)| format!("{what}: {often}"))
            .collect();
        format!(
            "{} ticks closed in {} flights with up to {} agents, {}; {} differences",
            self.closed(),
            self.flights,
            self.most_agents,
            counts.join(", "),
            self.different
        )
    }
}

fn show_small(command: &[String], found: Outcome, difference: Difference) -> io::Result<()> {
    let one = alone(&found, difference.part);
    let mut differing = Differing {
        command,
        flight: found.made,
        difference,
    };
    one.map_or(Ok(()), |one| differing.reduce(one))?;
    differing.make_small()?;
    differing.show();
    Ok(())
}

fn compare(seed: u64, ticks: u64, command: &[String]) -> io::Result<Tally> {
    let mut all = Tally::default();
    let mut of_kind = KINDS.map(|_| Tally::default());
    let mut index = 0;
    while all.closed() < ticks {
        let (kind, flight) = draw(seed, index);
        let found = outcome(&flight);
        let differs = difference(command, &found)?;
        all.count(&found, differs.is_some());
        of_kind[kind as usize].count(&found, differs.is_some());
        if let (Some(difference), true) = (differs, all.different <= SHOWN) {
            let part = difference.part;
            println!("seed {seed}, flight {index}, {kind:?}, part {part}, made small:");
            show_small(command, found, difference)?;
        }
        index += 1;
    }
    for kind in KINDS {
        println!("{kind:?}: {}", of_kind[kind as usize].line());
    }
    Ok(all)
}

fn main() -> ExitCode {
    let words: Vec<String> = env::args().skip(1).collect();
    let number = |at: usize| words.get(at).and_then(|word| word.parse::<u64>().ok());
    let (Some(seed), Some(ticks), true) = (number(0), number(1), words.len() > 2) else {
        eprintln!("usage: ticks SEED TICKS COMMAND ..");
        return ExitCode::from(2);
    };
    catch_quietly();
    match compare(seed, ticks, &words[2..]) {
        Ok(tally) => {
            if tally.flights == 0 {
                println!("seed {seed}: NO FLIGHTS: nothing was compared");
                return ExitCode::FAILURE;
            }
            println!("seed {seed}: {}", tally.line());
            if tally.different == 0 {
                ExitCode::SUCCESS
            } else {
                ExitCode::FAILURE
            }
        }
        Err(error) => {
            eprintln!("ticks: replay: {error}");
            ExitCode::FAILURE
        }
    }
}
