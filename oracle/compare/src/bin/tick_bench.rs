//! Times whole ticks of Guineacrumb and of the published Rust on the same fleets.
//!
//!     tick_bench SEED COMMAND ..
//!
//! COMMAND is the server, which times the library's calls in its own process; the Rust's are timed here, in turns with
//! them: that of the published files, and the same with its square roots taken digit by digit. Each side is used as it is
//! meant to be. The library is lent a fleet file and leaves the fleet file after the tick in its place, so each of its
//! ticks loads, checks and saves; the Rust's Simulator keeps its fleet from tick to tick. So that all do the same work, a
//! timing is of flights of many ticks in a row. Each flight begins with the fleet put back to its start, which is timed
//! too: for the library the file is copied, for the Rust each agent's position and velocity are stored.
//!
//! It ends at the first fleet on which they don't agree, before that is timed.
use std::process::ExitCode;
use std::time::Instant;
use std::{env, io, iter};

use compare::file;
use compare::flights::{draw_fleet, Kind};
use compare::published::{catch_quietly, caught};
use compare::record::{Record, POSITION, VELOCITY};
use compare::server::Server;
use compare::times::{columns, heading, Side, ROUNDS};

const SETTINGS: [(&str, Kind); 2] = [("sparse", Kind::Hangar), ("crowded", Kind::Crowd)];
const COUNTS: [usize; 2] = [8, 64];
/// The different fleets of a line.
const FLEETS: usize = 8;
/// The ticks of a flight, and their step, which the server knows too.
const TICKS: u32 = 20;
const TIME_STEP: f32 = 0.5;

/// Where each agent of a fleet is, and its velocity.
type State = Vec<[f32; 6]>;

fn state(records: &[Record]) -> State {
    records
        .iter()
        .map(|record| {
            let ([x, y, z], [u, v, w]) = (record.numbers(POSITION), record.numbers(VELOCITY));
            [x, y, z, u, v, w]
        })
        .collect()
}

/// A fleet that can be flown again and again.
trait Flight {
    fn of(records: &[Record]) -> Self;

    /// Flies so many ticks from the start.
    fn fly(&mut self, ticks: u32);

    fn state(&self) -> State;
}

/// A module with the fleets of one copy of the published files, given by the name of the module that has its agents, and by
/// its own as a crate.
macro_rules! flight_of {
    ($name:ident, $dodgy:ident) => {
        mod $name {
            use std::hint::black_box;

            use compare::case::AGENT;
            use compare::record::Record;
            use compare::$name::{agent, parameters};
            use $dodgy::{Agent, Simulator};

            pub struct Flight {
                simulator: Simulator,
                start: Vec<Agent>,
            }

            fn start(record: &Record) -> Agent {
                agent(&record.numbers::<AGENT>(0))
            }

            impl super::Flight for Flight {
                fn of(records: &[Record]) -> Flight {
                    let mut simulator = Simulator::new();
                    for record in records {
                        simulator.add_agent(start(record), parameters(record));
                    }
                    Flight {
                        simulator,
                        start: records.iter().map(start).collect(),
                    }
                }

                fn fly(&mut self, ticks: u32) {
                    for (index, start) in self.start.iter().enumerate() {
                        let agent = self.simulator.get_agent_mut(index);
                        (agent.position, agent.velocity) = (start.position, start.velocity);
                    }
                    for _ in 0..ticks {
                        black_box(&mut self.simulator).step(black_box(super::TIME_STEP));
                    }
                }

                fn state(&self) -> super::State {
                    (0..self.start.len())
                        .map(|index| {
                            let Agent {
                                position: p,
                                velocity: v,
                                ..
                            } = self.simulator.get_agent(index);
                            [p.x, p.y, p.z, v.x, v.y, v.z]
                        })
                        .collect()
                }
            }
        }
    };
}

flight_of!(published, dodgy_3d);
flight_of!(by_digits, dodgy_3d_digits);

/// Fleets that the published Rust flies to the end, and stays finite.
fn fleets(seed: u64, kind: Kind, count: usize) -> Vec<Vec<Record>> {
    let flies = |records: &Vec<Record>| {
        let flown = caught(|| {
            let mut flight: published::Flight = Flight::of(records);
            flight.fly(TICKS);
            flight.state()
        });
        flown.is_ok_and(|state| state.iter().flatten().all(|x| x.is_finite()))
    };
    (0..)
        .map(|index| draw_fleet(seed, index, kind, count))
        .filter(flies)
        .take(FLEETS)
        .collect()
}

/// Whether the three agree on where the fleets are after so many ticks: by their bits, but for the sign of a zero, which
/// the library never writes with a minus.
fn agree(
    server: &mut Server,
    fleets: &[Vec<Record>],
    files: &[Vec<u8>],
    ticks: u32,
) -> io::Result<bool> {
    let flown = server.fly(files, ticks)?;
    for (index, (records, (answer, file))) in iter::zip(fleets, flown).enumerate() {
        let ours = match (answer, file::loaded(&file)) {
            (0, Ok(records)) => state(&records),
            _ => {
                println!(
                    "Fleet {index} of {} agents: ours answered {answer} by tick {ticks}.",
                    records.len()
                );
                return Ok(false);
            }
        };
        let mut published: published::Flight = Flight::of(records);
        let mut digits: by_digits::Flight = Flight::of(records);
        published.fly(ticks);
        digits.fly(ticks);
        if [published.state(), digits.state()] != [ours.clone(), ours] {
            println!(
                "Fleet {index} of {} agents: they differ after tick {ticks}.",
                records.len()
            );
            return Ok(false);
        }
    }
    Ok(true)
}

/// Nanoseconds for so many passes over the flights.
fn time(flights: &mut [impl Flight], passes: u32) -> u64 {
    let start = Instant::now();
    for _ in 0..passes {
        for flight in flights.iter_mut() {
            flight.fly(TICKS);
        }
    }
    start.elapsed().as_nanos() as u64
}

fn flights<F: Flight>(fleets: &[Vec<Record>]) -> Vec<F> {
    fleets.iter().map(|records| F::of(records)).collect()
}

fn bench(seed: u64, server: &mut Server) -> io::Result<bool> {
    println!("{:>9} {:>7} {}", "setting", "agents", heading());
    for (setting, kind) in SETTINGS {
        for count in COUNTS {
            let fleets = fleets(seed, kind, count);
            let files: Vec<Vec<u8>> = fleets.iter().map(|records| file::of(records)).collect();
            if !(agree(server, &fleets, &files, 1)? && agree(server, &fleets, &files, TICKS)?) {
                return Ok(false);
            }
            let mut published: Vec<published::Flight> = flights(&fleets);
            let mut digits: Vec<by_digits::Flight> = flights(&fleets);
            let sides: [Side; 3] = [
                &mut |passes| server.time_flights(&files, TICKS, passes),
                &mut |passes| Ok(time(&mut published, passes)),
                &mut |passes| Ok(time(&mut digits, passes)),
            ];
            let columns = columns(FLEETS * TICKS as usize, sides)?;
            println!("{setting:>9} {count:>7} {columns}");
        }
    }
    println!("(medians of {ROUNDS} timings, in turns, each of many passes over {FLEETS} fleets, each flown for {TICKS} ticks from its");
    println!("start; ours loads, checks and saves a fleet file in every tick, the Rust's Simulator keeps its fleet;");
    println!("digits: the Rust, its square roots taken digit by digit; each ratio is that of ours to the column before it)");
    Ok(true)
}

fn main() -> ExitCode {
    let words: Vec<String> = env::args().skip(1).collect();
    let (Some(Ok(seed)), true) = (words.first().map(|word| word.parse()), words.len() > 1) else {
        eprintln!("usage: tick_bench SEED COMMAND ..");
        return ExitCode::from(2);
    };
    catch_quietly();
    let result = Server::start(&words[1..]).and_then(|mut server| {
        let agreed = bench(seed, &mut server)?;
        Ok(server.stop()? && agreed)
    });
    match result {
        Ok(true) => ExitCode::SUCCESS,
        Ok(false) => ExitCode::FAILURE,
        Err(error) => {
            eprintln!("tick_bench: the server: {error}");
            ExitCode::FAILURE
        }
    }
}
