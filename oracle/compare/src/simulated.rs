//! What has to come of a flight: document 01's table, in which each plan is the published velocity call. By the source
//! rule the published Simulator flies beside it, and has to come to the same numbers.
use std::collections::BTreeMap;
use std::mem;

use dodgy_3d::{Agent, Simulator, Vec3};

use crate::calls::{Call, File, Flight, Rule};
use crate::case::{Case, Reply, NO_NEIGHBOUR, NO_PLANE};
use crate::file::{self, RECORD};
use crate::published::{caught, expected, vector, Expected};
use crate::record::*;

/// How often what was seen.
pub type Counts = BTreeMap<String, u64>;

/// What is counted of an accepted close begins with this.
pub const CLOSED: &str = "close by the";

/// What each byte of a buffer is before a save.
const UNTOUCHED: u8 = 0xa5;

/// The lines of a part of a flight, the last of them those of the agents after it, and the records before it. Where the
/// Rust does what document 01 does not foresee, the line says so; replay prints no such line, and the two differ there.
pub struct Part {
    pub before: Vec<Record>,
    pub agents: usize,
    pub lines: Vec<String>,
}

pub struct Outcome {
    /// The load; each tick; the fleet at the end.
    pub parts: Vec<Part>,
    /// The flight as it is made, with the bytes of every file.
    pub made: Flight,
    /// The same in the canonical order.
    pub canonical: Flight,
    pub counts: Counts,
}

impl Outcome {
    /// The agents that there are after each tick.
    pub fn agents(&self) -> Vec<usize> {
        let ticks = &self.parts[1..=self.made.ticks.len()];
        ticks.iter().map(|part| part.agents).collect()
    }
}

/// In how many directions a position of -0 is that still.
fn stays_minus_zero(before: &Record, after: &Record) -> u64 {
    let minus_zero =
        |record: &Record, at: usize| record.words[POSITION + at] == (-0.0f32).to_bits();
    let stays = |&at: &usize| minus_zero(before, at) && minus_zero(after, at);
    [0, 1, 2].iter().filter(|at| stays(at)).count() as u64
}

/// Whether a rule keeps another: the source rule by document 01's q, which is the Rust's, and the near rule by
/// document 02's.
fn keeps(rule: Rule, own: &Record, other: &Record) -> bool {
    let square = own.position().distance_squared(other.position());
    let (speed, horizon) = (own.number(MAX_SPEED), own.number(HORIZON));
    match rule {
        Rule::Source => {
            let query = speed * horizon + own.agent().radius * 2.0;
            square > query * query
        }
        Rule::Near => {
            let way = (speed + other.number(MAX_SPEED)) * horizon;
            let query = way + own.agent().radius + other.agent().radius;
            square <= query * query
        }
    }
}

/// The indices of the others that a rule keeps.
fn neighbours(records: &[Record], index: usize, rule: Rule) -> Vec<usize> {
    (0..records.len())
        .filter(|&other| other != index && keeps(rule, &records[index], &records[other]))
        .collect()
}

/// What a scratch of a length holds before a plan: zeros, or where it is shown the numbers from these bits on.
fn lent_scratch(length: usize, shown: Option<u32>) -> Vec<u32> {
    match shown {
        None => vec![0; length],
        Some(first) => (0..length).map(|i| first.wrapping_add(i as u32)).collect(),
    }
}

/// The velocity call that a plan is.
fn case(
    records: &[Record],
    index: usize,
    kept: &[usize],
    time_step: f32,
    scratch: Vec<u32>,
) -> Case {
    let own = &records[index];
    let preferred: Vec3 = own.goal() - own.position();
    let mut request = own.numbers::<8>(0).to_vec();
    request.extend([preferred.x, preferred.y, preferred.z]);
    request.extend([own.number(MAX_SPEED), time_step, own.number(HORIZON)]);
    request.extend(own.numbers::<3>(FALLBACK));
    Case {
        request,
        neighbours: kept
            .iter()
            .flat_map(|&k| records[k].numbers::<8>(0))
            .collect(),
        scratch,
        velocity: vec![0; 3],
    }
}

/// Words, each after a space.
fn spaced(words: impl IntoIterator<Item = u32>) -> String {
    let words = words.into_iter().map(|word| format!(" {word:08x}"));
    words.collect()
}

/// How a scratch is shown: a NaN by the bits of one, whichever it is.
fn scratch_text(words: &[u32]) -> String {
    let shown = |&word: &u32| match f32::from_bits(word).is_nan() {
        true => 0x7fc0_0000,
        false => word,
    };
    format!(" scratch{}", spaced(words.iter().map(shown)))
}

fn buffer_text(bytes: &[u8]) -> String {
    let digits: String = bytes.iter().map(|byte| format!("{byte:02x}")).collect();
    let space = if bytes.is_empty() { "" } else { " " };
    format!(" buffer{space}{digits}")
}

/// How a refused call leaves what it was lent and is shown: as it was.
fn untouched(call: &Call) -> String {
    match *call {
        Call::Plan { scratch, shown, .. } if shown.is_some() => {
            scratch_text(&lent_scratch(scratch, shown))
        }
        Call::Save(length) => buffer_text(&vec![UNTOUCHED; length]),
        _ => String::new(),
    }
}

fn plan_line(reply: &Reply, kept: &[usize]) -> String {
    let words = || spaced(reply.velocity.iter().copied());
    let unseen = match reply.unseen {
        NO_NEIGHBOUR => String::new(),
        neighbour => format!(" unseen {}", kept[neighbour as usize]),
    };
    match (reply.answer, reply.relaxed) {
        (0, NO_PLANE) => format!("velocity{} free{unseen}", words()),
        (0, plane) => format!("velocity{} relaxed {plane}{unseen}", words()),
        // the place is the neighbour's table index; 18's is the plane of the call
        (6, _) => format!("refused 6 {}", kept[reply.place as usize]),
        (number, _) => format!("refused {number} {}", reply.place),
    }
}

fn simulator(records: &[Record]) -> Simulator {
    let mut simulator = Simulator::new();
    for record in records {
        simulator.add_agent(record.agent(), record.parameters());
    }
    simulator
}

/// Has the Simulator make a step, which has to come to our positions and velocities, as numbers.
fn step(simulator: &mut Simulator, time_step: f32, moved: &[Record]) -> Result<(), String> {
    caught(|| simulator.step(time_step))
        .map_err(|message| format!("the Simulator panicked: {message}"))?;
    for (index, record) in moved.iter().enumerate() {
        let Agent {
            position, velocity, ..
        } = simulator.get_agent(index);
        if (*position, *velocity) != (record.position(), record.velocity()) {
            let message = format!("the Simulator has agent {index} at {position:?}, {velocity:?}");
            return Err(message);
        }
    }
    Ok(())
}

/// An open tick.
#[derive(Clone)]
struct Tick {
    time_step: f32,
    rule: Rule,
    /// the velocity planned for each agent
    plans: Vec<Option<Vec3>>,
    /// agents and their goals, in call order
    held: Vec<(usize, [f32; 3])>,
}

/// The table by document 01, and the published one.
struct Fleet {
    records: Vec<Record>,
    tick: Option<Tick>,
    simulator: Simulator,
    /// what the saves wrote
    saved: Vec<Vec<u8>>,
    /// the calls so far that take effect, in the canonical order
    canonical: Vec<Call>,
    counts: Counts,
}

impl Fleet {
    fn of(records: &[Record]) -> Fleet {
        Fleet {
            records: records.to_vec(),
            tick: None,
            simulator: simulator(records),
            saved: Vec::new(),
            canonical: Vec::new(),
            counts: Counts::new(),
        }
    }

    fn count(&mut self, what: impl Into<String>) {
        self.add(what, 1);
    }

    fn add(&mut self, what: impl Into<String>, often: u64) {
        *self.counts.entry(what.into()).or_default() += often;
    }

    fn tick(&mut self) -> &mut Tick {
        self.tick
            .as_mut()
            .expect("a call is refused where it needs a tick")
    }

    /// The call with the bytes of its file.
    fn made(&self, call: &Call) -> Call {
        let mut made = call.clone();
        if let Some(file) = made.file_mut() {
            if let File::Saved(number) = *file {
                *file = File::Bytes(self.saved[number].clone());
            }
        }
        made
    }

    /// Document 01's refusal, number and place, but for those that plan passes on and for 13; and document 02's 16.
    fn refusal(&self, call: &Call) -> Option<Refusal> {
        let nobody = |agent: usize| (agent >= self.records.len()).then_some((8, agent));
        match (call, &self.tick) {
            (Call::Remove(_) | Call::Open { .. } | Call::Load(_), Some(_)) => Some((10, 0)),
            (Call::Plan { .. } | Call::Close | Call::Drop, None) => Some((11, 0)),
            (Call::Remove(agent) | Call::Read(agent) | Call::Plan { agent, .. }, _) => {
                nobody(*agent)
            }
            (Call::Goal { agent, to }, _) => nobody(*agent).or_else(|| {
                let axis = to.iter().position(|x| !x.is_finite())?;
                Some((3, GOAL + axis))
            }),
            (Call::Close, Some(tick)) => {
                let unplanned = tick.plans.iter().position(Option::is_none)?;
                Some((12, unplanned))
            }
            (Call::Load(file), None) => file::loaded(file.bytes()).err(),
            (Call::Save(length), _) => {
                let needed = RECORD * self.records.len();
                (*length < needed).then_some((16, needed))
            }
            (Call::Record { index, file }, _) => file::read(file.bytes(), *index).err(),
            (Call::Open { .. }, None) | (Call::Drop, Some(_)) => None,
        }
    }

    fn refused(&mut self, call: &Call, (number, place): Refusal) -> String {
        self.count(format!("{} refused {number}", call.name()));
        if let Call::Plan { shown: Some(_), .. } = call {
            self.count(format!("scratch after {number}"));
        }
        format!("refused {number} {place}")
    }

    /// The line that has to come of a call.
    fn answer(&mut self, call: &Call) -> String {
        if let Some(refusal) = self.refusal(call) {
            return self.refused(call, refusal) + &untouched(call);
        }
        match *call {
            Call::Remove(agent) => self.remove(agent),
            Call::Read(agent) => return self.read(agent),
            Call::Goal { agent, to } if self.tick.is_some() => self.hold_goal(agent, to),
            Call::Goal { agent, to } => {
                self.count("goal at once");
                self.set_goal(agent, to);
            }
            Call::Open { time_step, rule } => self.open(time_step, rule),
            Call::Plan {
                agent,
                scratch,
                shown,
            } => return self.plan(agent, scratch, shown),
            Call::Close => return self.close(),
            Call::Drop => {
                self.count("drop");
                self.end(Call::Drop);
            }
            Call::Load(ref file) => self.load(file.bytes()),
            Call::Save(length) => return self.save(length),
            Call::Record { index, ref file } => return self.record(index, file.bytes()),
        }
        "done".into()
    }

    fn load(&mut self, file: &[u8]) {
        let saved = self.saved.iter().any(|saved| saved == file);
        let what = if saved { "a saved" } else { "another" };
        self.count(format!("load of {what} file"));
        let load = Call::Load(File::Bytes(file.to_vec()));
        self.canonical.push(load);
        self.records = file::loaded(file).expect("a file that is refused is not loaded");
        self.simulator = simulator(&self.records);
    }

    /// A save into a buffer that is long enough: the standing records, whatever was planned or is held.
    fn save(&mut self, length: usize) -> String {
        self.count(match &self.tick {
            None => "save outside a tick",
            Some(tick) if tick.held.is_empty() => "save in a tick",
            Some(_) => "save in a tick with a goal held",
        });
        let file = file::of(&self.records);
        let mut buffer = vec![UNTOUCHED; length];
        buffer[..file.len()].copy_from_slice(&file);
        let line = format!("saved {}{}", file.len(), buffer_text(&buffer));
        self.saved.push(file);
        line
    }

    fn record(&mut self, index: usize, file: &[u8]) -> String {
        self.count("record");
        let record = file::read(file, index);
        record.expect("a record that is refused is not read").text()
    }

    fn remove(&mut self, agent: usize) {
        self.canonical.push(Call::Remove(agent));
        self.records.remove(agent);
        self.simulator = simulator(&self.records);
    }

    fn read(&mut self, agent: usize) -> String {
        if self.tick.is_some() {
            self.count("read in a tick");
        }
        self.records[agent].text()
    }

    fn hold_goal(&mut self, agent: usize, to: [f32; 3]) {
        let again = self.tick().held.iter().any(|held| held.0 == agent);
        self.count(if again {
            "goal held again"
        } else {
            "goal held"
        });
        self.tick().held.push((agent, to));
    }

    fn set_goal(&mut self, agent: usize, to: [f32; 3]) {
        self.canonical.push(Call::Goal { agent, to });
        self.records[agent].set(GOAL, &to);
        let parameters = self.simulator.get_agent_parameters_mut(agent);
        parameters.goal_point = vector(&to);
    }

    fn open(&mut self, time_step: f32, rule: Rule) {
        let count = self.records.len();
        self.tick = Some(Tick {
            time_step,
            rule,
            plans: vec![None; count],
            held: Vec::new(),
        });
        self.canonical.push(Call::Open { time_step, rule });
        self.canonical.extend((0..count).map(Call::plan));
    }

    fn plan(&mut self, agent: usize, scratch: usize, shown: Option<u32>) -> String {
        let &mut Tick {
            time_step, rule, ..
        } = self.tick();
        let kept = neighbours(&self.records, agent, rule);
        let what = format!("neighbour by the {} rule", rule.name());
        self.add(what, kept.len() as u64);
        let asked = rand::calls();
        let scratch = lent_scratch(scratch, shown);
        let reply = match expected(&case(&self.records, agent, &kept, time_step, scratch)) {
            Expected::Reply(reply) | Expected::Panic(reply) => reply,
            Expected::LeftOut => return "a direction by chance that is not the fallback".into(),
            Expected::Surprise(message) => return message,
        };
        if rand::calls() > asked {
            self.count("plan with a direction by chance");
        }
        let again = self.tick().plans[agent].is_some();
        match (reply.answer, reply.relaxed) {
            (0, _) if again => self.count("plan repeated"),
            (0, NO_PLANE) => self.count("plan free"),
            (0, _) => self.count("plan relaxed"),
            (number, _) if again => self.count(format!("plan refused {number} after an answer")),
            (number, _) => self.count(format!("plan refused {number}")),
        }
        if reply.unseen != NO_NEIGHBOUR {
            self.count("plan that names an unseen agent");
        }
        if reply.answer == 0 {
            let numbers = [0, 1, 2].map(|axis| f32::from_bits(reply.velocity[axis]));
            self.tick().plans[agent] = Some(vector(&numbers));
        }
        let mut line = plan_line(&reply, &kept);
        if shown.is_some() {
            self.count(match reply.answer {
                0 => "scratch with planes".into(),
                number => format!("scratch after {number}"),
            });
            line += &scratch_text(&reply.scratch);
        }
        line
    }

    /// A close with all planned.
    fn close(&mut self) -> String {
        let Tick {
            time_step,
            rule,
            plans,
            ..
        } = self.tick().clone();
        let moved: Vec<Record> = self
            .records
            .iter()
            .zip(plans.into_iter().flatten())
            .map(|(record, velocity)| record.moved(velocity, time_step))
            .collect();
        if rule == Rule::Source {
            if let Err(message) = step(&mut self.simulator, time_step, &moved) {
                return message;
            }
        }
        // all but the position is as finite as before
        let astray = moved.iter().position(|record| !record.is_accepted());
        if astray.is_none() {
            let kept = self.records.iter().zip(&moved);
            let kept = kept
                .map(|(before, after)| stays_minus_zero(before, after))
                .sum();
            self.add("position that stays -0", kept);
            self.records = moved;
        }
        if astray.is_some() || rule == Rule::Near {
            self.simulator = simulator(&self.records);
        }
        if let Some(agent) = astray {
            return self.refused(&Call::Close, (13, agent));
        }
        self.count(format!("{CLOSED} {} rule", rule.name()));
        self.end(Call::Close);
        "done".into()
    }

    /// Ends the tick by that call: the goals that are held take effect.
    fn end(&mut self, call: Call) {
        self.canonical.push(call);
        let held = self.tick.take().map(|tick| tick.held);
        for (agent, to) in held.into_iter().flatten() {
            self.set_goal(agent, to);
        }
    }
}

pub fn outcome(flight: &Flight) -> Outcome {
    let mut fleet = Fleet::of(&flight.records);
    let flight_of = |ticks| Flight {
        records: flight.records.clone(),
        ticks,
    };
    let (mut made, mut canonical) = (Vec::new(), Vec::new());
    let mut parts = vec![Part {
        before: Vec::new(),
        agents: 0,
        lines: vec!["done".into()],
    }];
    for calls in &flight.ticks {
        let before = fleet.records.clone();
        let (calls, mut lines): (Vec<Call>, Vec<String>) = calls
            .iter()
            .map(|call| {
                let made = fleet.made(call);
                let line = fleet.answer(&made);
                (made, line)
            })
            .unzip();
        lines.extend(fleet.records.iter().map(Record::text));
        parts.push(Part {
            before,
            agents: fleet.records.len(),
            lines,
        });
        made.push(calls);
        canonical.push(mem::take(&mut fleet.canonical));
    }
    let mut lines = vec!["fleet".into()];
    lines.extend(fleet.records.iter().map(Record::text));
    parts.push(Part {
        agents: fleet.records.len(),
        before: fleet.records,
        lines,
    });
    Outcome {
        parts,
        made: flight_of(made),
        canonical: flight_of(canonical),
        counts: fleet.counts,
    }
}

/// The ticks of the program tenticks, and their step.
const TICKS: usize = 10;
const TIME_STEP: f32 = 0.5;

impl Fleet {
    /// A tick by the near rule, as tenticks makes it: the line of the first call that is refused.
    fn near_tick(&mut self) -> Result<(), String> {
        let open = Call::Open {
            time_step: TIME_STEP,
            rule: Rule::Near,
        };
        let plans = (0..self.records.len()).map(Call::plan);
        let mut calls = [open].into_iter().chain(plans).chain([Call::Close]);
        calls.try_for_each(|call| match self.answer(&call) {
            line if line == "done" || line.starts_with("velocity") => Ok(()),
            line => Err(line),
        })
    }

    fn ten_ticks(&mut self) -> Result<(), String> {
        (0..TICKS).try_for_each(|tick| {
            self.near_tick().inspect_err(|line| {
                if tick > 0 {
                    let number = line.split(' ').nth(1).unwrap_or_default();
                    self.count(format!("refused {number} after the first tick"));
                }
            })
        })
    }
}

/// What tenticks has to write for a file, the fleet's file after ten ticks or the line of the first refused call, and what
/// is counted of it.
pub fn ten_ticks(file: &[u8]) -> (Vec<u8>, Counts) {
    let mut fleet = Fleet::of(&[]);
    let result = match file::loaded(file) {
        Ok(records) => {
            fleet = Fleet::of(&records);
            fleet.ten_ticks()
        }
        Err(refusal) => {
            let load = Call::Load(File::Bytes(file.to_vec()));
            Err(fleet.refused(&load, refusal))
        }
    };
    match result {
        Ok(()) => {
            fleet.count("fleet written");
            (file::of(&fleet.records), fleet.counts)
        }
        Err(line) => (format!("{line}\n").into_bytes(), fleet.counts),
    }
}
