//! Flights, and fleet files, drawn by chance from a seed and a number.
use std::mem;

use crate::calls::{Call, File, Flight, Rule, ENOUGH};
use crate::case::{RADIUS, RESPONSIBILITY, SCRATCH};
use crate::file::{self, RECORD};
use crate::published::BY_CHANCE;
use crate::random::Random;
use crate::record::*;

#[derive(Clone, Copy, PartialEq, Eq, Debug)]
pub enum Kind {
    /// Drones with room around them, of the sizes and speeds that drones have.
    Hangar,
    /// Many in a narrow space, small ones that look ahead a little and large ones among them: the source rule keeps
    /// most of the others, and many collide.
    Crowd,
    /// Small whole numbers: touching ones, and distances equal to the query distance, are common.
    Grid,
    /// A crowd made larger or smaller by a power of two, up to where squares overflow or underflow.
    Scaled,
    /// Many in few places, so large and fast that every square overflows: they push each other along, further in each
    /// tick, until a plane or a position is not finite.
    Pile,
}

pub const KINDS: [Kind; 5] = [
    Kind::Hangar,
    Kind::Crowd,
    Kind::Grid,
    Kind::Scaled,
    Kind::Pile,
];

/// The kinds but the pile, in the proportion in which they are drawn.
const SHARES: [Kind; 8] = [
    Kind::Hangar,
    Kind::Hangar,
    Kind::Hangar,
    Kind::Crowd,
    Kind::Crowd,
    Kind::Grid,
    Kind::Grid,
    Kind::Scaled,
];

/// What a flight's ticks choose from.
const RULES: [&[Rule]; 3] = [&[Rule::Source], &[Rule::Near], &[Rule::Source, Rule::Near]];

const MOST_AGENTS: usize = 64;
const MOST_TICKS: usize = 40;
/// The longest buffer that replay lends to a save.
const MOST_BUFFER: usize = 8192;
/// Lengths of files that are longer than 64 records, of whole records and not.
const TOO_LONG: [usize; 7] = [4865, 4868, 4940, 4941, 5016, 8208, 16416];
/// Of so many flights in a row one is a pile, and of so many files.
const PILES: u64 = 9;

/// Infinities and NaNs.
const ENDLESS: [u32; 5] = [0x7f80_0000, 0xff80_0000, 0x7f80_0001, 0x7fc0_0000, u32::MAX];
/// The largest number below 0, and others.
const NEGATIVE: [u32; 4] = [0x8000_0001, 0xbf80_0000, 0xc000_0000, 0xff7f_ffff];
/// The first numbers of a fallback along an axis that is not of length 1: the two next to those that are, and others.
const NO_DIRECTION: [u32; 5] = [0x3f7f_ffab, 0x3f80_002b, 0, 0x3f00_0000, 0x7f7f_ffff];

/// Where a pile's agents are: some so far out that few steps more are not finite.
const SITES: [[f32; 3]; 5] = [
    [0.0, 0.0, 0.0],
    [1.0e38, 0.0, 0.0],
    [3.0e38, 0.0, 0.0],
    [-1.0e38, 0.0, 0.0],
    [0.0, 1.0e38, -1.0e38],
];

/// The flight of a number.
pub fn draw(seed: u64, index: u64) -> (Kind, Flight) {
    let random = Random::of(seed, index);
    let field = Field::of(&random, any_kind(&random, index));
    let mut flight = field.flight(&random);
    field.put_files(&random, &mut flight);
    (field.kind, flight)
}

/// The flight of a number as far as it has to do with no file and shows no scratch. No such flight is a pile.
pub fn draw_plain(seed: u64, index: u64) -> (Kind, Flight) {
    let random = Random::of(seed, index);
    let field = Field::of(&random, random.pick(&SHARES));
    (field.kind, field.flight(&random))
}

/// The fleet file of a number. Load refuses one of twelve.
pub fn draw_file(seed: u64, index: u64) -> (Kind, Vec<u8>) {
    let random = Random::of(seed, index);
    let field = Field::of(&random, any_kind(&random, index));
    let file = if random.one_in(12) {
        field.bad_file(&random)
    } else {
        field.fleet_file(&random)
    };
    (field.kind, file)
}

/// A fleet of that kind and size.
pub fn draw_fleet(seed: u64, index: u64, kind: Kind, count: usize) -> Vec<Record> {
    let random = Random::of(seed, index);
    Field::sized(&random, kind, count).records(&random, count)
}

fn any_kind(random: &Random, index: u64) -> Kind {
    if index % PILES == PILES - 1 {
        Kind::Pile
    } else {
        random.pick(&SHARES)
    }
}

/// A number of agents, from 0 to 64.
fn count(random: &Random) -> usize {
    match random.below(8) {
        0 => random.below(4),
        1..=3 => 2 + random.below(15),
        4..=5 => 12 + random.below(29),
        6 => MOST_AGENTS,
        _ => 32 + random.below(MOST_AGENTS - 31),
    }
}

/// What the agents and the ticks of a flight have in common.
struct Field {
    kind: Kind,
    /// The agents that it begins with.
    count: usize,
    rules: &'static [Rule],
    /// One call in so many is an idle one.
    idle: usize,
    half: [f32; 3],
    /// Where most of a pile's agents are.
    site: [f32; 3],
    scale: f32,
    speeds: [f32; 2],
    horizons: [f32; 2],
    radii: [f32; 2],
}

impl Field {
    fn of(random: &Random, kind: Kind) -> Field {
        Field::sized(random, kind, count(random))
    }

    fn sized(random: &Random, kind: Kind, count: usize) -> Field {
        let narrow = [random.between(0.3, 1.5) * ((count + 1) as f32).cbrt(); 3];
        let crowd = Field {
            kind,
            count,
            rules: random.pick(&RULES),
            idle: random.pick(&[2, 6, 20]),
            half: narrow,
            site: SITES[0],
            scale: 1.0,
            speeds: [0.2, 2.0],
            horizons: [0.05, 0.5],
            radii: [0.05, 1.5],
        };
        match kind {
            Kind::Hangar => Field {
                half: [20.0, 15.0, 4.0],
                speeds: [0.5, 4.0],
                horizons: [0.2, 3.0],
                radii: [0.1, 0.6],
                ..crowd
            },
            Kind::Crowd => crowd,
            Kind::Grid => Field {
                half: random.pick(&[[2.0; 3], [4.0; 3], [4.0, 4.0, 0.0], [9.0, 0.0, 0.0]]),
                ..crowd
            },
            Kind::Scaled => Field {
                scale: 2.0f32.powi(if random.one_in(4) {
                    random.from_to(60, 125)
                } else {
                    random.from_to(-80, 60)
                }),
                ..crowd
            },
            Kind::Pile => Field {
                site: random.pick(&SITES),
                scale: 2.0f32.powi(random.from_to(112, 124)),
                ..crowd
            },
        }
    }

    /// A flight in which no file is.
    fn flight(&self, random: &Random) -> Flight {
        Flight {
            records: self.records(random, self.count),
            ticks: (0..1 + random.below(MOST_TICKS))
                .map(|_| self.tick(random, self.count))
                .collect(),
        }
    }

    fn point(&self, random: &Random) -> [f32; 3] {
        match self.kind {
            Kind::Grid => self
                .half
                .map(|h| random.from_to(-(h as i32), h as i32) as f32),
            Kind::Pile if random.one_in(40) => random.pick(&SITES),
            Kind::Pile => self.site,
            _ => self.half.map(|h| random.between(-h, h) * self.scale),
        }
    }

    fn records(&self, random: &Random, count: usize) -> Vec<Record> {
        (0..count).map(|_| self.record(random)).collect()
    }

    fn record(&self, random: &Random) -> Record {
        let mut record = Record::blank();
        record.set(POSITION, &self.point(random));
        record.set(GOAL, &self.point(random));
        record.set(FALLBACK, &BY_CHANCE);
        match self.kind {
            Kind::Grid => self.set_whole(random, &mut record),
            Kind::Pile => self.set_piled(random, &mut record),
            _ => self.set_usual(random, &mut record),
        }
        // kept, and unread by both
        record.set(OBSTACLE_HORIZON, &[random.between(-1.0, 4.0)]);
        if random.one_in(2) {
            record.words[MARGIN] = 1;
            record.set(DISTANCE, &[random.between(0.0, 2.0)]);
        }
        record
    }

    fn set_whole(&self, random: &Random, record: &mut Record) {
        let most = random.pick(&[0, 1, 2]);
        let velocity = self
            .half
            .map(|h| if h > 0.0 { whole(random, most) } else { 0.0 });
        record.set(VELOCITY, &velocity);
        let radius = random.pick(&[0.0, 0.5, 1.0, 1.0, 2.0, 4.0]);
        let responsibility = random.pick(&[0.0, 1.0, 1.0, 1.0, 1.0, 1.0, 1.0, 2.0]);
        record.set(RADIUS, &[radius, responsibility]);
        let speed = random.pick(&[0.0, 0.5, 1.0, 1.0, 2.0, 8.0]);
        record.set(MAX_SPEED, &[speed, random.pick(&[0.25, 0.5, 1.0, 2.0])]);
    }

    fn set_usual(&self, random: &Random, record: &mut Record) {
        let speed = within(random, self.speeds) * self.scale;
        let velocity = [0; 3].map(|_: i32| random.between(-speed, speed));
        record.set(VELOCITY, &velocity);
        // more often a small one
        let part = random.between(0.0, 1.0);
        let radius = self.radii[0] + (self.radii[1] - self.radii[0]) * part * part;
        let responsibility = match random.below(4) {
            0 => random.between(0.0, 2.0),
            1 => random.pick(&[0.5, 2.0]),
            _ => 1.0,
        };
        record.set(RADIUS, &[radius * self.scale, responsibility]);
        record.set(MAX_SPEED, &[speed, within(random, self.horizons)]);
    }

    fn set_piled(&self, random: &Random, record: &mut Record) {
        let radius = self.scale * random.pick(&[0.5, 1.0, 1.0, 1.5]);
        let responsibility = random.pick(&[0.5, 1.0, 1.0, 1.0, 2.0]);
        record.set(RADIUS, &[radius, responsibility]);
        let speed = 2.0f32.powi(random.from_to(60, 126));
        record.set(MAX_SPEED, &[speed, within(random, self.horizons)]);
    }

    fn open(&self, random: &Random) -> Call {
        Call::Open {
            time_step: random.pick(&[0.02, 0.1, 0.25, 0.5, 1.0]),
            rule: random.pick(self.rules),
        }
    }

    /// In one of three times some goals, of two agents at most.
    fn goals(&self, random: &Random, count: usize) -> Vec<Call> {
        if count == 0 || !random.one_in(3) {
            return Vec::new();
        }
        let agents = [0; 2].map(|_: i32| random.below(count));
        (0..1 + random.below(4))
            .map(|_| Call::Goal {
                agent: random.pick(&agents),
                to: self.point(random),
            })
            .collect()
    }

    /// A plan on a scratch that may be too short, by as little as one number.
    fn scant_plan(&self, random: &Random, agent: usize, count: usize) -> Call {
        Call::Plan {
            agent,
            scratch: (SCRATCH * random.below(count)).saturating_sub(random.below(2)),
            shown: None,
        }
    }

    /// A call in a tick that changes nothing, by document 01, as long as some agent is unplanned. It plans no agent
    /// but the `earlier` ones, which are planned anyway.
    fn idle(&self, random: &Random, earlier: &[usize], count: usize) -> Call {
        let somebody = random.below(count);
        let nobody = random.pick(&[count, count + 1, MOST_AGENTS, u32::MAX as usize]);
        let mut to = self.point(random);
        match random.below(8) {
            0 if !earlier.is_empty() => self.scant_plan(random, random.pick(earlier), count),
            1 => Call::plan(nobody),
            2 => {
                let infinity = random.pick(&[f32::INFINITY, f32::NEG_INFINITY]);
                to[random.below(3)] = random.pick(&[f32::NAN, infinity]);
                let agent = somebody;
                Call::Goal { agent, to }
            }
            3 => Call::Goal { agent: nobody, to },
            4 => Call::Read(random.pick(&[somebody, nobody])),
            5 => Call::Close,
            6 => self.open(random),
            _ => Call::Remove(random.pick(&[somebody, nobody])),
        }
    }

    /// Every agent planned, in an order drawn by chance, with idle calls between and goals anywhere.
    fn steps(&self, random: &Random, count: usize) -> Vec<Call> {
        let mut order: Vec<usize> = (0..count).collect();
        for last in (1..count).rev() {
            order.swap(last, random.below(last + 1));
        }
        let mut steps = Vec::new();
        for &agent in &order {
            // The last one stays unplanned until then.
            while random.one_in(self.idle) {
                steps.push(self.idle(random, &order[..count - 1], count));
            }
            steps.push(Call::plan(agent));
        }
        while count > 0 && random.one_in(self.idle) {
            steps.push(self.scant_plan(random, random.below(count), count));
        }
        for goal in self.goals(random, count) {
            steps.insert(random.below(steps.len() + 1), goal);
        }
        steps
    }

    /// A tick that is closed, or in one of six times dropped early, and goals after it. A drop ends it where it can't be
    /// closed.
    fn tick(&self, random: &Random, count: usize) -> Vec<Call> {
        let mut calls = vec![self.open(random)];
        calls.extend(self.steps(random, count));
        if random.one_in(6) {
            calls.truncate(1 + random.below(calls.len()));
        } else {
            calls.push(Call::Close);
        }
        calls.push(Call::Drop);
        calls.extend(self.goals(random, count));
        calls
    }
}

/// What a flight has come to while it is drawn.
struct Standing {
    /// the agents
    count: usize,
    /// and those in each file that was saved
    saved: Vec<usize>,
}

impl Standing {
    /// Takes up what a call outside a tick changes.
    fn take_up(&mut self, call: &Call) {
        match call {
            Call::Load(File::Saved(number)) => self.count = self.saved[*number],
            Call::Load(File::Bytes(bytes)) => {
                if let Ok(records) = file::loaded(bytes) {
                    self.count = records.len();
                }
            }
            _ => self.take_up_save(call),
        }
    }

    /// Takes up what a call changes, of which the loads are refused.
    fn take_up_save(&mut self, call: &Call) {
        match call {
            Call::Save(length) if *length >= RECORD * self.count => self.saved.push(self.count),
            _ => (),
        }
    }

    /// The records in a file, as far as they are whole.
    fn count_of(&self, file: &File) -> usize {
        match file {
            File::Bytes(bytes) => bytes.len() / RECORD,
            File::Saved(number) => self.saved[*number],
        }
    }
}

/// What has to do with files, and plans that show their scratch: these are put among the calls of a flight that is drawn.
impl Field {
    fn varied(&self, random: &Random, count: usize) -> Vec<Record> {
        let mut records = self.records(random, count);
        for record in &mut records {
            vary(random, record);
        }
        records
    }

    /// A file with a fleet like the one that the flight begins with, of any size.
    fn fleet_file(&self, random: &Random) -> Vec<u8> {
        file::of(&self.varied(random, count(random)))
    }

    /// The records of a small file.
    fn few(&self, random: &Random) -> Vec<Record> {
        self.varied(random, 1 + random.below(6))
    }

    /// A file that load refuses: of a bad length, or with bad records.
    fn bad_file(&self, random: &Random) -> Vec<u8> {
        let mut records = self.few(random);
        match random.below(4) {
            0 => {
                let mut ragged = file::of(&records);
                ragged.truncate(ragged.len() - random.from_to(1, RECORD as i32 - 1) as usize);
                ragged
            }
            1 => {
                let long = file::of(&records).into_iter().cycle();
                long.take(random.pick(&TOO_LONG)).collect()
            }
            _ => {
                for _ in 0..1 + random.below(2) {
                    let at = random.below(records.len());
                    spoil(random, &mut records[at]);
                }
                file::of(&records)
            }
        }
    }

    /// In one of two times a file that was saved, if one was; else what `other` makes.
    fn saved_or(
        &self,
        random: &Random,
        standing: &Standing,
        other: impl FnOnce() -> Vec<u8>,
    ) -> File {
        if !standing.saved.is_empty() && random.one_in(2) {
            File::Saved(random.below(standing.saved.len()))
        } else {
            File::Bytes(other())
        }
    }

    /// A file that load accepts.
    fn good_file(&self, random: &Random, standing: &Standing) -> File {
        self.saved_or(random, standing, || self.fleet_file(random))
    }

    /// A file that was saved, or a small one, which load may refuse.
    fn any_file(&self, random: &Random, standing: &Standing) -> File {
        self.saved_or(random, standing, || {
            if random.one_in(3) {
                file::of(&self.few(random))
            } else {
                self.bad_file(random)
            }
        })
    }

    /// A record of a file, or of an index that it does not have.
    fn record_call(&self, random: &Random, standing: &Standing) -> Call {
        let file = self.any_file(random, standing);
        let count = standing.count_of(&file);
        let beyond = random.pick(&[count, count + 1, MOST_AGENTS, u32::MAX as usize]);
        let index = if random.one_in(4) {
            beyond
        } else {
            random.below(count)
        };
        Call::Record { index, file }
    }

    /// A call in a tick that has to change nothing.
    fn idle_on_files(&self, random: &Random, standing: &Standing) -> Call {
        match random.below(4) {
            0 => Call::Load(self.any_file(random, standing)),
            1 => self.record_call(random, standing),
            _ => save(random, standing.count),
        }
    }

    /// Puts such calls into a tick, and has some plans show their scratch.
    fn put_in_tick(&self, random: &Random, standing: &Standing, calls: &mut Vec<Call>) {
        let is_drop = |call: &Call| matches!(call, Call::Drop);
        let drop = calls.iter().position(is_drop);
        let drop = drop.expect("every tick that is drawn has one");
        // where the tick is open for the last time
        let end = drop - usize::from(matches!(calls[drop - 1], Call::Close));
        for (at, mut call) in mem::take(calls).into_iter().enumerate() {
            if (1..=end).contains(&at) && random.one_in(16) {
                calls.push(self.idle_on_files(random, standing));
            }
            if random.one_in(12) {
                show_scratch(random, standing.count, &mut call);
            }
            calls.push(call);
        }
    }

    /// In one of three times, once or more, a call between ticks, and goals after it for those that a load brought.
    fn between(&self, random: &Random, standing: &mut Standing) -> Vec<Call> {
        let mut calls = Vec::new();
        while random.one_in(3) {
            let mut call = match random.below(6) {
                0 => self.record_call(random, standing),
                1 => Call::plan(random.below(MOST_AGENTS)),
                2 => Call::Load(self.good_file(random, standing)),
                3 => Call::Load(File::Bytes(self.bad_file(random))),
                _ => save(random, standing.count),
            };
            show_scratch(random, standing.count, &mut call);
            standing.take_up(&call);
            calls.push(call);
            calls.extend(self.goals(random, standing.count));
        }
        calls
    }

    /// Puts all that among the calls of a flight. Its ticks are drawn anew where a load has brought another number of
    /// agents.
    fn put_files(&self, random: &Random, flight: &mut Flight) {
        for record in &mut flight.records {
            vary(random, record);
        }
        let mut standing = Standing {
            count: self.count,
            saved: Vec::new(),
        };
        for calls in &mut flight.ticks {
            if standing.count != self.count {
                *calls = self.tick(random, standing.count);
            }
            self.put_in_tick(random, &standing, calls);
            for call in calls.iter() {
                standing.take_up_save(call);
            }
            calls.extend(self.between(random, &mut standing));
        }
    }
}

/// Has a plan show its scratch. Where that is enough for every neighbour there are not many numbers more.
fn show_scratch(random: &Random, count: usize, call: &mut Call) {
    if let Call::Plan { scratch, shown, .. } = call {
        if *scratch == ENOUGH {
            *scratch = SCRATCH * count.saturating_sub(1) + random.below(4);
        }
        *shown = Some(first_bits(random));
    }
}

/// A save into a buffer that fits, is too long or, by as little as one byte, too short.
fn save(random: &Random, count: usize) -> Call {
    let needed = RECORD * count;
    Call::Save(match random.below(8) {
        0..=2 => needed,
        3 => needed + 1 + random.below(RECORD),
        4 => random.from_to(needed as i32, MOST_BUFFER as i32) as usize,
        5 => needed.saturating_sub(1),
        6 => random.below(needed),
        _ => 0,
    })
}

/// The bits of the first number in a scratch: any, or such that a zero or an infinity comes soon, with NaNs before or
/// after it.
fn first_bits(random: &Random) -> u32 {
    let near: u32 = random.pick(&[0, 0x7f80_0000, 0x8000_0000, 0xff80_0000]);
    let before = near.wrapping_sub(random.below(64) as u32);
    random.pick(&[random.word(), before])
}

/// Gives a record bits that a save has to keep: zeros of both signs, now and then a position that stays -0, and any finite
/// numbers in the words that no call reads.
fn vary(random: &Random, record: &mut Record) {
    for word in &mut record.words[..HORIZON] {
        if *word == 0 && random.one_in(4) {
            *word = (-0.0f32).to_bits();
        }
    }
    if random.one_in(16) {
        rest(random, record);
    }
    let unread: &[usize] = match record.words[MARGIN] {
        0 => &[OBSTACLE_HORIZON],
        _ => &[OBSTACLE_HORIZON, DISTANCE],
    };
    for &place in unread {
        let any = f32::from_bits(random.word());
        if any.is_finite() && random.one_in(4) {
            record.set(place, &[any]);
        }
    }
}

/// Has a record rest at its goal, but in one direction: there its position is -0, and the way to the goal so small that in
/// most steps it is -0 too. So the position stays -0 where nobody is in the way.
fn rest(random: &Random, record: &mut Record) {
    let axis = random.below(3);
    record.set(GOAL, &record.numbers::<3>(POSITION));
    record.set(POSITION + axis, &[-0.0]);
    record.set(GOAL + axis, &[-f32::from_bits(1)]);
}

/// Gives a record with a fallback along the first axis a word for which it is refused.
fn spoil(random: &Random, record: &mut Record) {
    let (word, bits) = match random.below(6) {
        0 => (MARGIN, random.pick(&[2, 0x100, 0x8000_0000, u32::MAX])),
        1 => {
            record.words[MARGIN] = 0;
            (
                DISTANCE,
                random.pick(&[1, 0x8000_0000, 0x3f80_0000, 0x7fc0_0000]),
            )
        }
        2 => (random.below(WORDS), random.pick(&ENDLESS)),
        3 => {
            let place = random.pick(&[RADIUS, RESPONSIBILITY, MAX_SPEED, HORIZON]);
            (place, random.pick(&NEGATIVE))
        }
        4 => (HORIZON, random.pick(&[0, 0x8000_0000])),
        _ => (FALLBACK, random.pick(&NO_DIRECTION)),
    };
    record.words[word] = bits;
}

fn within(random: &Random, ends: [f32; 2]) -> f32 {
    random.between(ends[0], ends[1])
}

fn whole(random: &Random, most: i32) -> f32 {
    random.from_to(-most, most) as f32
}
