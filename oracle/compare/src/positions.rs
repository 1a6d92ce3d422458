//! Inputs of the program spacing_report, drawn by chance from a seed and a number.
use std::time::Duration;

use crate::random::Random;
use crate::spacing::{is_within, numbers, points, squared};
use crate::spacing::{BYTES, MOST_AGENTS, MOST_FRAMES, NUMBERS, REACH};

/// `REACH` in millimetres.
const MOST_MILLIMETRES: i32 = 16_384_000;

#[derive(Clone, Copy, PartialEq, Eq, Debug)]
pub enum Kind {
    /// Agents that move about in a space of any size, from a millimetre to all that is within reach.
    Space,
    /// Points few sixteenths of a metre apart: every other component is a tie, and equal distances are common, in a
    /// frame and from frame to frame.
    Grid,
    /// Ties of any size, and the numbers beside them. The odd sixteenths are all the ties that there are.
    Ties,
    /// 16384 and -16384, and the numbers just inside.
    Edge,
    /// Pairs whose squared distance is a square of whole millimetres, or one beside it.
    Squares,
    /// Bit patterns of any size, subnormal ones among them, and zeros of both signs.
    Bits,
    /// As many frames and as many agents as may be, more, and no agents: always the same runs, but for some numbers.
    Bounds,
}

pub const KINDS: [Kind; 7] = [
    Kind::Space,
    Kind::Grid,
    Kind::Ties,
    Kind::Edge,
    Kind::Squares,
    Kind::Bits,
    Kind::Bounds,
];

/// The kinds in the proportion in which they are drawn.
const SHARES: [Kind; 9] = [
    Kind::Space,
    Kind::Space,
    Kind::Grid,
    Kind::Grid,
    Kind::Ties,
    Kind::Ties,
    Kind::Edge,
    Kind::Squares,
    Kind::Bits,
];

/// How the inputs of a run reach the program.
#[derive(Clone, Copy, PartialEq, Eq, Debug)]
pub enum Way {
    /// Each by the name of its file.
    Files,
    /// The one at this place by the name `-`, the others by files.
    Among(usize),
    /// The only one by standard input, with no name.
    Alone,
}

/// A run of the program: what it is called with, and its inputs.
#[derive(Clone, Debug)]
pub struct Run {
    pub kind: Kind,
    pub agents: u64,
    pub limit: u32,
    pub inputs: Vec<Vec<u8>>,
    pub way: Way,
    /// Standard input is written in pieces of so many bytes, with a pause between.
    pub piece: usize,
    pub pause: Duration,
}

/// Longer than the program needs to begin and to read all that is there: it then gets a part of what it asks for.
const PAUSE: Duration = Duration::from_millis(100);

impl Run {
    /// Whether the input at this place comes by standard input.
    pub fn is_piped(&self, place: usize) -> bool {
        match self.way {
            Way::Files => false,
            Way::Among(at) => at == place,
            Way::Alone => true,
        }
    }

    /// Has standard input, if there is any, come in two pieces.
    fn pause_once(&mut self, random: &Random) {
        if let Some(place) = (0..self.inputs.len()).find(|&place| self.is_piped(place)) {
            let length = self.inputs[place].len();
            self.piece = length / 2 + 1 + random.below(length / 2 + 1);
            self.pause = PAUSE;
        }
    }

    /// The run of the input at this place alone.
    pub fn of_one(&self, place: usize) -> Run {
        Run {
            inputs: vec![self.inputs[place].clone()],
            way: if self.is_piped(place) {
                Way::Alone
            } else {
                Way::Files
            },
            ..*self
        }
    }
}

/// How many inputs, and how long ones.
#[derive(Clone, Copy)]
enum Shape {
    /// Many of hardly a frame, so that what comes of every frame is printed.
    Tiny,
    Usual,
    /// Few, of about as many bytes as a program may read at once, or a few times as many.
    Long,
}

const SHAPES: [Shape; 8] = [
    Shape::Tiny,
    Shape::Tiny,
    Shape::Usual,
    Shape::Usual,
    Shape::Usual,
    Shape::Usual,
    Shape::Usual,
    Shape::Long,
];

/// The run of a number.
pub fn draw(seed: u64, index: u64) -> Run {
    let random = Random::of(seed, index);
    let kind = random.pick(&SHARES);
    let shape = random.pick(&SHAPES);
    let agents = agents(&random, shape);
    let count = match shape {
        _ if agents > MOST_AGENTS as u64 => 1 + random.below(3),
        Shape::Tiny => 100 + random.below(200),
        Shape::Usual => 1 + random.below(10),
        Shape::Long => 1 + random.below(2),
    };
    let way = match shape {
        Shape::Tiny => Way::Files,
        _ if random.one_in(4) => Way::Alone,
        _ if random.one_in(3) => Way::Among(random.below(count)),
        _ => Way::Files,
    };
    let count = if way == Way::Alone { 1 } else { count };
    let inputs: Vec<Vec<u8>> = (0..count)
        .map(|_| input(&random, kind, shape, agents))
        .collect();
    let mut run = Run {
        kind,
        agents,
        limit: limit(&random, agents as usize, &inputs),
        inputs,
        way,
        piece: random.pick(&[5, 1000, 4096, 65536]),
        pause: Duration::ZERO,
    };
    if random.one_in(8) {
        run.pause_once(&random);
    }
    run
}

fn agents(random: &Random, shape: Shape) -> u64 {
    if matches!(shape, Shape::Tiny) && !random.one_in(8) {
        return random.pick(&[2, 2, 2, 3, 3, 4]);
    }
    let agents = match random.below(16) {
        0 => 0,
        1 => 1,
        2..=6 => 2 + random.below(7),
        7..=10 => 2 + random.below(31),
        11..=12 => 32 + random.below(33),
        13 => MOST_AGENTS - 1,
        14 => MOST_AGENTS,
        _ => {
            let over = MOST_AGENTS as u64 + 1;
            return random.pick(&[over, over, over + 1, 1000, 1 << 32, (1 << 32) + 2, u64::MAX]);
        }
    };
    agents as u64
}

fn input(random: &Random, kind: Kind, shape: Shape, agents: u64) -> Vec<u8> {
    if agents == 0 {
        let length = match random.below(8) {
            0..=3 => 0,
            4..=6 => 1 + random.below(12),
            _ => random.below(200_000),
        };
        return (0..length).map(|_| random.word() as u8).collect();
    }
    let agents = agents.min(MOST_AGENTS as u64 + 1) as usize;
    let frames = match shape {
        Shape::Tiny => random.pick(&[0, 1, 1, 1, 1, 1, 1, 2]),
        Shape::Usual => random.below(40),
        Shape::Long => {
            let bytes = random.pick(&[1, 1, 2]) << random.from_to(12, 16);
            (bytes / (BYTES * agents)).saturating_add_signed(random.pick(&[-1, 0, 0, 1]))
        }
    };
    let mut bytes = to_bytes(&frames_of(random, kind, agents, frames));
    if random.one_in(5) {
        damage(random, &mut bytes, agents);
    }
    bytes
}

fn to_bytes(numbers: &[f32]) -> Vec<u8> {
    numbers.iter().flat_map(|x| x.to_le_bytes()).collect()
}

/// So many frames, back to back.
fn frames_of(random: &Random, kind: Kind, agents: usize, frames: usize) -> Vec<f32> {
    let field = Field::of(random, kind);
    let mut all: Vec<f32> = Vec::with_capacity(NUMBERS * agents * frames);
    for at in 0..frames {
        let frame = if at == 0 {
            field.frame(random, agents)
        } else {
            let earlier = random.pick(&[0, at - 1, random.below(at)]);
            let from = NUMBERS * agents * earlier;
            field.next(random, &all[from..from + NUMBERS * agents])
        };
        all.extend(frame);
    }
    all
}

/// What the frames of an input have in common.
struct Field {
    kind: Kind,
    /// The middle, for each axis: of a space in metres, else in sixteenths of a metre.
    middle: [f32; 3],
    /// How far from the middle a component lies at most, for each axis.
    half: [f32; 3],
    /// Exponent fields, the least and the largest.
    exponents: [i32; 2],
}

impl Field {
    fn of(random: &Random, kind: Kind) -> Field {
        let bits = random.from_to(0, 18);
        let sixteenth = |_: i32| random.from_to(-(1 << bits), 1 << bits) as f32;
        let size = 2f32.powi(random.from_to(-10, 14));
        let most = random.pick(&[1.0, 2.0, 4.0, 8.0]);
        Field {
            kind,
            middle: match kind {
                Kind::Space if random.one_in(2) => {
                    [0; 3].map(|_: i32| random.between(-REACH, REACH))
                }
                Kind::Grid if random.one_in(2) => [0; 3].map(sixteenth),
                Kind::Ties => [0; 3].map(sixteenth),
                _ => [0.0; 3],
            },
            half: match kind {
                Kind::Space => [size; 3],
                // in space, in a plane, on a line
                _ => random.pick(&[[most; 3], [most, most, 0.0], [0.0, most, 0.0]]),
            },
            exponents: random.pick(&[[0, 0], [0, 140], [112, 120], [120, 140], [137, 140]]),
        }
    }

    fn component(&self, random: &Random, axis: usize) -> f32 {
        let (middle, half) = (self.middle[axis], self.half[axis]);
        match self.kind {
            Kind::Space => (middle + random.between(-half, half)).clamp(-REACH, REACH),
            Kind::Grid => {
                let most = half as i32;
                let x = (middle + random.from_to(-most, most) as f32) / 16.0;
                if random.one_in(2) && x == 0.0 {
                    -0.0
                } else {
                    x
                }
            }
            Kind::Ties => {
                let odd = 2 * ((middle as i32 + random.from_to(-3, 3)) / 2) + 1;
                let units = random.pick(&[0, 0, 0, -2, -1, 1, 2]);
                moved(odd as f32 / 16.0, units)
            }
            Kind::Edge => {
                let inside = random.pick(&[0, 0, 1, 2, 3]);
                random.pick(&[1.0, -1.0]) * moved(REACH, -inside)
            }
            Kind::Squares => metres(random.from_to(-MOST_MILLIMETRES, MOST_MILLIMETRES)),
            Kind::Bits => {
                let field = random.from_to(self.exponents[0], self.exponents[1]) as u32;
                let mantissa = random.word() & random.pick(&[0x007F_FFFF, 0x7, 0]);
                f32::from_bits(random.word() & 0x8000_0000 | field << 23 | mantissa)
            }
            Kind::Bounds => random.from_to(-4, 4) as f32,
        }
    }

    fn frame(&self, random: &Random, agents: usize) -> Vec<f32> {
        let mut frame: Vec<f32> = (0..NUMBERS * agents)
            .map(|place| self.component(random, place % NUMBERS))
            .collect();
        if self.kind == Kind::Squares {
            for two in frame.chunks_exact_mut(2 * NUMBERS) {
                two.copy_from_slice(&near_square(random));
            }
        }
        frame
    }

    /// A frame after an earlier one: another, or the same with some agents elsewhere, or the same with the agents in
    /// another order, mirrored, or farther on; its distances are often equal to those before.
    fn next(&self, random: &Random, earlier: &[f32]) -> Vec<f32> {
        let mut frame = earlier.to_vec();
        let agents = frame.len() / NUMBERS;
        match random.below(8) {
            0..=2 => return self.frame(random, agents),
            3..=4 => {
                for _ in 0..1 + random.below(4) {
                    let place = random.below(frame.len());
                    frame[place] = self.component(random, place % NUMBERS);
                }
            }
            5 => frame.rotate_left(NUMBERS * random.below(agents)),
            6 => frame.iter_mut().for_each(|x| *x = -*x),
            _ => {
                let on = random.pick(&[0.25, -0.25, 0.0625, 0.125]);
                let axis = random.below(NUMBERS);
                for x in frame.iter_mut().skip(axis).step_by(NUMBERS) {
                    *x = (*x + on).clamp(-REACH, REACH);
                }
            }
        }
        frame
    }
}

/// The number whose nearest whole millimetres are these.
fn metres(millimetres: i32) -> f32 {
    (f64::from(millimetres) / 1000.0) as f32
}

/// Two points 2kk millimetres apart along an axis. 1 along another gives one more than a square, 2k along another one less
/// than that of 2kk + 1, and both give that square itself.
fn near_square(random: &Random) -> [f32; 2 * NUMBERS] {
    let k = random.from_to(0, 4047 >> random.below(12));
    let half = [k * k, k * random.from_to(0, 1), 0].map(metres);
    let one = metres(random.from_to(0, 1));
    let mut two = [half[0], half[1], one, -half[0], -half[1], 0.0];
    let axis = random.below(NUMBERS);
    two[..NUMBERS].rotate_right(axis);
    two[NUMBERS..].rotate_right(axis);
    two
}

/// x, which is not 0, moved by so many units in the last place.
fn moved(x: f32, units: i32) -> f32 {
    f32::from_bits(x.to_bits().wrapping_add_signed(units))
}

/// A component that is to be refused.
fn outside(random: &Random) -> f32 {
    let beyond = random.from_to(141, 254) as u32;
    let size = match random.below(6) {
        0 => f32::INFINITY,
        1 => f32::from_bits(random.pick(&[0x7FC0_0000, 0x7F80_0001, 0x7FFF_FFFF, 0x7FA5_A5A5])),
        2 | 3 => moved(REACH, random.pick(&[1, 1, 1, 2])),
        4 => random.pick(&[16385.0, 2.0 * REACH, 65536.0, f32::MAX]),
        // 16384 itself is within reach
        _ => f32::from_bits(beyond << 23 | random.word() & 0x007F_FFFF | 1),
    };
    // the sign of a NaN too
    f32::from_bits(size.to_bits() | random.pick(&[0, 0x8000_0000]))
}

/// Something to be refused: components out of reach, or an end that is no whole frame, or both.
fn damage(random: &Random, bytes: &mut Vec<u8>, agents: usize) {
    let what = random.below(6);
    if what < 3 {
        let more = match what {
            0 => random.below(BYTES),
            _ => random.below(BYTES * agents),
        };
        bytes.extend((0..more).map(|_| random.word() as u8));
    }
    let count = bytes.len() / 4;
    if what > 1 && count > 0 {
        for _ in 0..random.pick(&[1, 1, 2, 3]) {
            // one of a frame's ends, or anywhere
            let place = random.below(count);
            let start = place - place % (NUMBERS * agents);
            let end = start + NUMBERS * agents - 1;
            let at = 4 * random.pick(&[place, place, start, end.min(count - 1)]);
            bytes[at..at + 4].copy_from_slice(&outside(random).to_le_bytes());
        }
    }
}

/// The squared distance of two agents of some frame, if there are two and they are within reach.
fn some_squared(random: &Random, agents: usize, inputs: &[Vec<u8>]) -> Option<u64> {
    if !(2..=MOST_AGENTS).contains(&agents) {
        return None;
    }
    let input = &inputs[random.below(inputs.len())];
    let mut frames = input.chunks_exact(BYTES * agents);
    let frame: Vec<f32> = numbers(frames.nth(random.below(frames.len()))?).collect();
    if !frame.iter().all(|&x| is_within(x)) {
        return None;
    }
    let points: Vec<_> = points(&frame).collect();
    let first = random.below(points.len() - 1);
    let second = first + 1 + random.below(points.len() - first - 1);
    Some(squared(&points[first], &points[second]))
}

/// A limit, most often the whole root of some pair's squared distance, which it may equal, or one beside it.
fn limit(random: &Random, agents: usize, inputs: &[Vec<u8>]) -> u32 {
    match random.below(8) {
        0 => random.pick(&[
            0,
            1,
            2,
            65535,
            65536,
            65537,
            1 << 31,
            u32::MAX - 1,
            u32::MAX,
        ]),
        1 => random.word() >> random.below(32),
        _ => match some_squared(random, agents, inputs) {
            Some(squared) => {
                let root = squared.isqrt() as u32;
                root.saturating_add_signed(random.pick(&[0, 0, 0, 0, 1, 1, -1]))
            }
            None => random.word() >> random.below(32),
        },
    }
}

/// The runs at the bounds.
pub fn bounds(seed: u64) -> Vec<Run> {
    let random = Random::of(seed, u64::MAX);
    let run = |agents: u64, inputs: Vec<Vec<u8>>| Run {
        kind: Kind::Bounds,
        agents,
        limit: u32::MAX,
        inputs,
        way: Way::Files,
        piece: 65536,
        pause: Duration::ZERO,
    };
    let field = Field::of(&random, Kind::Bounds);
    let most = MOST_AGENTS as u64;
    let mut runs: Vec<Run> = [most, most + 1, most + 2, 1 << 32, (1 << 32) + 2, u64::MAX]
        .map(|agents| run(agents, vec![to_bytes(&field.frame(&random, MOST_AGENTS))]))
        .into();
    runs.push(run(
        0,
        (0..BYTES + 2).map(|length| vec![0; length]).collect(),
    ));
    let inputs = about_last_frame(&random);
    let mut alone = run(1, vec![inputs[1].clone()]);
    alone.way = Way::Alone;
    runs.extend([
        alone,
        run(1, inputs),
        run(2, vec![near_in_last_frame(&random)]),
    ]);
    runs
}

fn all_frames(random: &Random, agents: usize, frames: usize) -> Vec<f32> {
    Field::of(random, Kind::Bounds).frame(random, agents * frames)
}

/// Inputs of one agent: as many frames as may be, one more, one that is not whole, and components out of reach before
/// and after.
fn about_last_frame(random: &Random) -> Vec<Vec<u8>> {
    let most = MOST_FRAMES as usize;
    let all = all_frames(random, 1, most + 2);
    let of = |frames: usize| to_bytes(&all[..NUMBERS * frames]);
    let with_outside = |frames: usize, at: usize| {
        let mut bytes = of(frames);
        let place = 4 * (NUMBERS * at + random.below(NUMBERS));
        bytes[place..place + 4].copy_from_slice(&outside(random).to_le_bytes());
        bytes
    };
    let mut ragged = of(most);
    ragged.extend((0..1 + random.below(BYTES - 1)).map(|_| random.word() as u8));
    vec![
        of(most),
        of(most + 1),
        ragged,
        with_outside(most + 1, most),
        with_outside(most + 2, most + 1),
        with_outside(most, most - 1),
    ]
}

/// Two agents for as many frames as may be, a metre apart at least, and in the last frame at one point.
fn near_in_last_frame(random: &Random) -> Vec<u8> {
    let mut two = all_frames(random, 2, MOST_FRAMES as usize);
    two.iter_mut().step_by(2 * NUMBERS).for_each(|x| *x += 9.0);
    let end = two.len() - NUMBERS;
    two.copy_within(end - NUMBERS..end, end);
    to_bytes(&two)
}
