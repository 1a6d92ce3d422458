//! Compares Guineacrumb's velocity call with the published one.
//!
//!     compare SEED COUNT COMMAND ..
//!
//! draws COUNT cases, has COMMAND, the server, make the calls, and compares: the answer with its place,
//! the velocity as numbers, its zeros as +0, the relaxed plane, the unseen neighbour, and scratch number by number, planes by
//! their bits. The last line counts. The exit status is 0 only where something was compared and nothing differs.
use std::process::ExitCode;
use std::{env, io};

use compare::case::*;
use compare::inputs::{draw, Kind, KINDS};
use compare::published::{catch_quietly, expected, well_formed, Expected};
use compare::server::Server;

/// The cases in a batch: the server works through it while this program works out what has to come of it.
const BATCH: u64 = 256;
/// How many differences are shown.
const SHOWN: u64 = 4;

/// Why a reply is not what has to come of a case, if it is not.
fn difference(case: &Case, expected: &Expected, reply: &Reply) -> Option<String> {
    match expected {
        Expected::Reply(wanted) | Expected::Panic(wanted) if reply == wanted => None,
        Expected::Reply(wanted) | Expected::Panic(wanted) => Some(format!(
            "wanted\n{}got\n{}{}",
            wanted.text(case.count()),
            reply.text(case.count()),
            if reply.stray {
                "and wrote where nothing was lent\n"
            } else {
                ""
            }
        )),
        Expected::LeftOut if well_formed(case, reply) => None,
        Expected::LeftOut => Some(format!("not well formed:\n{}", reply.text(case.count()))),
        Expected::Surprise(message) => Some(format!("{message}\n")),
    }
}

/// The smallest case found that differs too: neighbours are left out, and numbers made 0 or 1, as long as
/// the two still differ.
fn smallest(server: &mut Server, case: &Case) -> io::Result<Case> {
    let mut least = case.clone();
    let mut differs = |case: &Case| -> io::Result<bool> {
        let reply = server.call(case)?;
        Ok(difference(case, &expected(case), &reply).is_some())
    };
    let mut at = 0;
    while at < least.neighbours.len() {
        let mut less = least.clone();
        less.neighbours
            .drain(at..(at + AGENT).min(at.max(least.neighbours.len())));
        if differs(&less)? {
            least = less;
        } else {
            at += AGENT;
        }
    }
    for place in 0..least.request.len() + least.neighbours.len() {
        for simple in [0.0, 1.0] {
            let mut less = least.clone();
            match place.checked_sub(less.request.len()) {
                None => less.request[place] = simple,
                Some(at) => less.neighbours[at] = simple,
            }
            if differs(&less)? {
                least = less;
                break;
            }
        }
    }
    Ok(least)
}

/// The numbers of the refusals, in the order of the checks.
const NUMBERS: [u32; 9] = [1, 17, 2, 3, 4, 5, 6, 18, 7];

/// Where a refusal's number stands among them.
fn at(number: u32) -> usize {
    let at = NUMBERS.iter().position(|&other| other == number);
    at.expect("it is a number of the velocity call's")
}

/// What was counted, of one kind of input or of all.
#[derive(Clone, Copy, Default)]
struct Tally {
    cases: u64,
    free: u64,
    relaxed: u64,
    unseen: u64,
    refused: [u64; NUMBERS.len()],
    bad_lengths: u64,
    panicked: u64,
    left_out: u64,
    different: u64,
}

impl Tally {
    fn count(&mut self, expected: &Expected, differs: bool) {
        self.cases += 1;
        self.different += u64::from(differs);
        self.panicked += u64::from(matches!(expected, Expected::Panic(_)));
        if let Expected::Reply(reply) = expected {
            self.unseen += u64::from(reply.answer == 0 && reply.unseen != NO_NEIGHBOUR);
        }
        match expected {
            Expected::LeftOut => self.left_out += 1,
            Expected::Surprise(_) => (),
            Expected::Reply(reply) | Expected::Panic(reply) => match reply.answer {
                0 if reply.relaxed == NO_PLANE => self.free += 1,
                0 => self.relaxed += 1,
                BAD_LENGTHS => self.bad_lengths += 1,
                number => self.refused[at(number)] += 1,
            },
        }
    }

    fn line(&self) -> String {
        let refused: Vec<String> = NUMBERS
            .iter()
            .zip(self.refused)
            .map(|(number, often)| format!("{number}: {often}"))
            .collect();
        format!(
            "{} cases, {} free, {} relaxed, {} of both name a neighbour, refused {}, lengths: {} (the Rust panics at {}), \
             {} left out, {} differences",
            self.cases,
            self.free,
            self.relaxed,
            self.unseen,
            refused.join(", "),
            self.bad_lengths,
            self.panicked,
            self.left_out,
            self.different
        )
    }
}

fn compare(seed: u64, count: u64, server: &mut Server) -> io::Result<Tally> {
    let mut all = Tally::default();
    let mut of_kind = [Tally::default(); KINDS.len()];
    for start in (0..count).step_by(BATCH as usize) {
        let numbers = start..count.min(start + BATCH);
        let (kinds, cases): (Vec<Kind>, Vec<Case>) =
            numbers.clone().map(|index| draw(seed, index)).unzip();
        server.send(&cases)?;
        let wanted: Vec<Expected> = cases.iter().map(expected).collect();
        let replies = server.receive(&cases)?;
        for (i, index) in numbers.enumerate() {
            let found = difference(&cases[i], &wanted[i], &replies[i]);
            all.count(&wanted[i], found.is_some());
            of_kind[kinds[i] as usize].count(&wanted[i], found.is_some());
            if found.is_some() && all.different <= SHOWN {
                let least = smallest(server, &cases[i])?;
                let reply = server.call(&least)?;
                println!("seed {seed}, case {index}, {:?}, made small:", kinds[i]);
                print!("{}", least.text());
                print!(
                    "{}",
                    difference(&least, &expected(&least), &reply).unwrap_or_default()
                );
            }
        }
    }
    for kind in KINDS {
        println!("{kind:?}: {}", of_kind[kind as usize].line());
    }
    Ok(all)
}

fn main() -> ExitCode {
    let words: Vec<String> = env::args().skip(1).collect();
    let number = |at: usize| words.get(at).and_then(|word| word.parse::<u64>().ok());
    let (Some(seed), Some(count), true) = (number(0), number(1), words.len() > 2) else {
        eprintln!("usage: compare SEED COUNT COMMAND ..");
        return ExitCode::from(2);
    };
    catch_quietly();
    let result = Server::start(&words[2..]).and_then(|mut server| {
        let tally = compare(seed, count, &mut server)?;
        Ok((tally, server.stop()?))
    });
    match result {
        Ok((tally, well)) => {
            if tally.cases == tally.left_out {
                println!("seed {seed}: NO CASES: nothing was compared");
                return ExitCode::FAILURE;
            }
            println!("seed {seed}: {}", tally.line());
            if well && tally.cases == count && tally.different == 0 {
                ExitCode::SUCCESS
            } else {
                ExitCode::FAILURE
            }
        }
        Err(error) => {
            eprintln!("compare: the server: {error}");
            ExitCode::FAILURE
        }
    }
}
