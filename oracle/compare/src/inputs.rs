//! Inputs of several kinds, drawn by chance from a seed and a number.
use crate::case::*;
use crate::published::BY_CHANCE;
use crate::random::Random;
use crate::ties;

#[derive(Clone, Copy, PartialEq, Eq, Debug)]
pub enum Kind {
    /// Drones with room around them, of the sizes and speeds that drones have.
    Hangar,
    /// Many in a narrow space: most collide, and the planes leave no velocity free.
    Crowd,
    /// Small whole numbers: touching, parallel, coincident and equal ones are common.
    Grid,
    /// One of the three above with some numbers moved by a few units in the last place.
    Nudged,
    /// Bit patterns of any finite size, subnormal ones among them.
    Bits,
    /// One of the others with something in it that is to be refused.
    Damaged,
    /// A hangar or a grid with neighbours flown at straight, past the tangent ring, where no normal can be
    /// made.
    HeadOn,
    /// A number that is compared with epsilon is that to the bit: on a plane, the square of a cross product.
    TieOnPlane,
    /// Along a line, the square of its direction's product with a normal.
    TieAlongLine,
    /// Along a line, how far a parallel plane lies from it: -epsilon.
    TieNumerator,
    /// On a plane of the 4D program, the square of what is left of the direction there.
    TieProjection,
    /// In the 4D program itself, the square of a cross product.
    TieTurned,
}

pub const KINDS: [Kind; 12] = [
    Kind::Hangar,
    Kind::Crowd,
    Kind::Grid,
    Kind::Nudged,
    Kind::Bits,
    Kind::Damaged,
    Kind::HeadOn,
    Kind::TieOnPlane,
    Kind::TieAlongLine,
    Kind::TieNumerator,
    Kind::TieProjection,
    Kind::TieTurned,
];

/// The kinds in the proportion in which they are drawn.
const SHARES: [Kind; 16] = [
    Kind::Hangar,
    Kind::Hangar,
    Kind::Crowd,
    Kind::Crowd,
    Kind::Crowd,
    Kind::Grid,
    Kind::Grid,
    Kind::Grid,
    Kind::Grid,
    Kind::Nudged,
    Kind::Nudged,
    Kind::Bits,
    Kind::Bits,
    Kind::Bits,
    Kind::Damaged,
    Kind::Damaged,
];

/// One number in so many, with this remainder, is a head-on case, whatever is drawn. No case of the stored
/// lists has such a number but the head-on ones.
const HEAD_ON: [u64; 2] = [48, 34];
/// The same of ties, of each kind in turn.
const TIED: [u64; 2] = [96, 17];
const TIES: [Kind; 5] = [
    Kind::TieOnPlane,
    Kind::TieAlongLine,
    Kind::TieNumerator,
    Kind::TieProjection,
    Kind::TieTurned,
];

/// The case of a number.
pub fn draw(seed: u64, index: u64) -> (Kind, Case) {
    let random = Random::of(seed, index);
    let drawn = random.pick(&SHARES);
    let kind = if index % HEAD_ON[0] == HEAD_ON[1] {
        Kind::HeadOn
    } else if index % TIED[0] == TIED[1] {
        TIES[(index / TIED[0]) as usize % TIES.len()]
    } else {
        drawn
    };
    let count = count(&random);
    (kind, of_kind(&random, kind, count))
}

/// A case of a kind that is not damaged, with so many neighbours.
pub fn draw_of(seed: u64, index: u64, kind: Kind, count: usize) -> Case {
    of_kind(&Random::of(seed, index), kind, count)
}

fn of_kind(random: &Random, kind: Kind, count: usize) -> Case {
    match kind {
        Kind::Hangar => lend(random, hangar(random, count)),
        Kind::Crowd => lend(random, crowd(random, count)),
        Kind::Grid => lend(random, grid(random, count)),
        Kind::Nudged => lend(random, nudged(random, count)),
        Kind::Bits => lend(random, bits(random, count)),
        Kind::Damaged => damaged(random, count),
        Kind::HeadOn => lend(random, head_on(random, count)),
        Kind::TieOnPlane => lend(random, ties::on_plane(random)),
        Kind::TieAlongLine => lend(random, ties::along_line(random)),
        Kind::TieNumerator => lend(random, ties::numerator(random)),
        Kind::TieProjection => lend(random, ties::projection(random)),
        Kind::TieTurned => lend(random, ties::turned(random)),
    }
}

/// A number of neighbours, from 0 to 63, more often a small one.
fn count(random: &Random) -> usize {
    match random.below(16) {
        0..=5 => random.below(7),
        6..=9 => 2 + random.below(15),
        10..=13 => 12 + random.below(29),
        _ if random.one_in(3) => MOST_NEIGHBOURS,
        _ => 32 + random.below(MOST_NEIGHBOURS - 31),
    }
}

/// The numbers of a call.
#[derive(Clone)]
pub(crate) struct Draft {
    pub request: [f32; REQUEST],
    pub neighbours: Vec<[f32; AGENT]>,
}

impl Draft {
    pub fn of(
        agent: [f32; AGENT],
        preferred: [f32; 3],
        max_speed: f32,
        time_step: f32,
        horizon: f32,
        fallback: [f32; 3],
    ) -> Draft {
        let mut request = [0.0; REQUEST];
        request[..AGENT].copy_from_slice(&agent);
        request[PREFERRED..][..3].copy_from_slice(&preferred);
        request[MAX_SPEED] = max_speed;
        request[TIME_STEP] = time_step;
        request[HORIZON] = horizon;
        request[FALLBACK..].copy_from_slice(&fallback);
        Draft {
            request,
            neighbours: Vec::new(),
        }
    }

    /// Every number, with its place.
    fn numbers(&mut self) -> impl Iterator<Item = (usize, &mut f32)> {
        self.request
            .iter_mut()
            .chain(self.neighbours.iter_mut().flatten())
            .enumerate()
    }
}

/// Whether document 01's answer 4 can be due at a place.
fn is_ranged(place: usize) -> bool {
    let of_agent = |place| matches!(place, RADIUS | RESPONSIBILITY);
    match place {
        MAX_SPEED | TIME_STEP | HORIZON => true,
        _ if place < REQUEST => of_agent(place),
        _ => of_agent((place - REQUEST) % AGENT),
    }
}

fn is_fallback(place: usize) -> bool {
    (FALLBACK..REQUEST).contains(&place)
}

/// Lends memory to a call: scratch that is just long enough or longer, and holds anything.
pub(crate) fn lend(random: &Random, draft: Draft) -> Case {
    let needed = SCRATCH * draft.neighbours.len();
    let length = needed
        + if random.one_in(3) {
            0
        } else {
            random.below(30)
        };
    let scratch = (0..length).map(|_| random.word()).collect();
    Case {
        request: draft.request.into(),
        neighbours: draft.neighbours.concat(),
        scratch,
        velocity: [0; VELOCITY].map(|_: i32| random.word()).into(),
    }
}

fn vector(mut component: impl FnMut() -> f32) -> [f32; 3] {
    [component(), component(), component()]
}

pub(crate) fn agent(
    position: [f32; 3],
    velocity: [f32; 3],
    radius: f32,
    responsibility: f32,
) -> [f32; AGENT] {
    let ([x, y, z], [u, v, w]) = (position, velocity);
    [x, y, z, u, v, w, radius, responsibility]
}

/// A drone within a box, no faster than `speed` along any axis.
pub(crate) fn drone(random: &Random, half: [f32; 3], speed: f32, radius: [f32; 2]) -> [f32; AGENT] {
    let position = half.map(|h| random.between(-h, h));
    let velocity = vector(|| random.between(-speed, speed));
    let responsibility = match random.below(4) {
        0 => random.between(0.0, 2.0),
        1 => random.pick(&[0.5, 2.0]),
        _ => 1.0,
    };
    agent(
        position,
        velocity,
        random.between(radius[0], radius[1]),
        responsibility,
    )
}

fn flight(random: &Random, count: usize, half: [f32; 3], radius: [f32; 2]) -> Draft {
    let speed = random.between(0.5, 4.0);
    let own = drone(random, half, speed, radius);
    let goal = half.map(|h| random.between(-h, h));
    // Towards a goal, as the fleet plans, or at a speed of its own.
    let preferred = if random.one_in(2) {
        [0, 1, 2].map(|axis| goal[axis] - own[axis])
    } else {
        vector(|| random.between(-speed, speed))
    };
    let mut draft = Draft::of(
        own,
        preferred,
        random.between(0.5, 6.0),
        random.pick(&[0.02, 0.05, 0.1, 0.25, 0.5]),
        random.between(0.5, 8.0),
        fallback(random),
    );
    draft.neighbours = (0..count)
        .map(|_| drone(random, half, speed, radius))
        .collect();
    draft
}

fn hangar(random: &Random, count: usize) -> Draft {
    flight(random, count, [20.0, 15.0, 4.0], [0.1, 0.6])
}

fn crowd(random: &Random, count: usize) -> Draft {
    let half = random.between(0.3, 1.5) * ((count + 1) as f32).cbrt();
    flight(random, count, [half; 3], [0.3, 1.5])
}

fn whole(random: &Random, most: i32) -> f32 {
    random.from_to(-most, most) as f32
}

/// A vector of small whole numbers, of which the last `flat` are 0.
fn whole_vector(random: &Random, most: i32, flat: usize) -> [f32; 3] {
    let mut v = vector(|| whole(random, most));
    v[3 - flat..].fill(0.0);
    v
}

fn whole_agent(random: &Random, most: i32, flat: usize) -> [f32; AGENT] {
    let position = whole_vector(random, most, flat);
    let velocity = whole_vector(random, random.pick(&[0, 1, 2]), flat);
    let radius = random.pick(&[0.0, 0.5, 1.0, 1.0, 1.0, 2.0]);
    agent(
        position,
        velocity,
        radius,
        random.pick(&[0.0, 1.0, 1.0, 1.0, 1.0, 2.0, 3.0]),
    )
}

/// A fallback: half of the time the one with which the Rust can be compared where it takes a direction by
/// chance.
pub(crate) fn fallback(random: &Random) -> [f32; 3] {
    match random.below(4) {
        0 => axis(random),
        1 => random.direction(),
        _ => BY_CHANCE,
    }
}

fn axis(random: &Random) -> [f32; 3] {
    let mut v = [0.0; 3];
    v[random.below(3)] = random.pick(&[1.0, -1.0]);
    v
}

fn grid(random: &Random, count: usize) -> Draft {
    let most = random.pick(&[1, 2, 4]);
    // 2 leaves a line, 1 a plane, 0 all of space
    let flat = random.pick(&[0, 0, 0, 1, 2]);
    let own = whole_agent(random, most, flat);
    let preferred = whole_vector(random, random.pick(&[0, 2, 5]), flat);
    let mut draft = Draft::of(
        own,
        preferred,
        random.pick(&[0.0, 1.0, 1.0, 2.0, 3.0, 8.0]),
        random.pick(&[0.25, 0.5, 1.0, 2.0]),
        random.pick(&[0.5, 1.0, 1.0, 2.0, 4.0]),
        fallback(random),
    );
    for _ in 0..count {
        let drawn = whole_agent(random, most, flat);
        let earlier = draft.neighbours.len();
        // Now and then an earlier one again, or its mirror image as our agent sees it: equal and opposed
        // planes.
        let next = match random.below(8) {
            0 if earlier > 0 => draft.neighbours[random.below(earlier)],
            1 if earlier > 0 => {
                let mut mirrored = draft.neighbours[random.below(earlier)];
                // position and velocity
                for (x, own) in mirrored.iter_mut().zip(draft.request).take(6) {
                    *x = 2.0 * own - *x;
                }
                mirrored
            }
            _ => drawn,
        };
        draft.neighbours.push(next);
    }
    draft
}

/// Flies at a neighbour straight: it stands some way along a direction, and our velocity as it sees it is
/// along that direction too, and faster than would bring us there within the horizon.
fn flown_at(random: &Random, request: &[f32; REQUEST], neighbour: &mut [f32; AGENT]) {
    let direction = if random.one_in(4) {
        whole_vector(random, 2, 0)
    } else {
        axis(random)
    };
    let apart = (request[RADIUS] + neighbour[RADIUS]).ceil() + (1 + random.below(6)) as f32;
    let speed = (apart / request[HORIZON]).ceil() + random.below(8) as f32;
    for at in 0..3 {
        neighbour[at] = request[at] + direction[at] * apart;
        neighbour[3 + at] = request[3 + at] - direction[at] * speed;
    }
}

fn head_on(random: &Random, count: usize) -> Draft {
    let mut draft = match random.below(3) {
        0 => hangar(random, count),
        _ => grid(random, count),
    };
    let often = random.pick(&[1, 2, 4]);
    let request = draft.request;
    for neighbour in &mut draft.neighbours {
        if random.one_in(often) {
            flown_at(random, &request, neighbour);
        }
    }
    draft
}

/// x, moved by so many units in the last place; past 0 and past the largest number it stays as it was.
fn moved(x: f32, units: i32) -> f32 {
    let to = x.to_bits().wrapping_add_signed(units);
    let y = f32::from_bits(to);
    if y.is_finite() && y.is_sign_negative() == x.is_sign_negative() {
        y
    } else {
        x
    }
}

fn nudged(random: &Random, count: usize) -> Draft {
    let mut draft = match random.below(4) {
        0 => hangar(random, count),
        1 => crowd(random, count),
        _ => grid(random, count),
    };
    let often = random.pick(&[1, 4, 16]);
    let most = random.pick(&[1, 4, 1 << 12]);
    for (place, x) in draft.numbers() {
        if random.one_in(often) && !is_fallback(place) {
            *x = moved(*x, random.from_to(-most, most));
        }
    }
    draft
}

/// The exponent field of the largest numbers.
const LARGEST: i32 = 254;

/// A finite number with an exponent field from `low` to `high`, as far as there are such.
fn pattern(random: &Random, low: i32, high: i32) -> f32 {
    let field = random.from_to(low, high).clamp(0, LARGEST) as u32;
    f32::from_bits(random.word() & 0x807F_FFFF | field << 23)
}

/// A draft with every number but the fallback redrawn; what answer 4 is about stays above 0.
fn redrawn(random: &Random, count: usize, mut number: impl FnMut(&Random) -> f32) -> Draft {
    let mut draft = grid(random, count);
    for (place, x) in draft.numbers() {
        if is_fallback(place) {
            continue;
        }
        *x = number(random);
        if is_ranged(place) {
            *x = x.abs();
        }
        if matches!(place, TIME_STEP | HORIZON) && *x == 0.0 {
            *x = f32::from_bits(1);
        }
    }
    draft
}

fn bits(random: &Random, count: usize) -> Draft {
    match random.below(7) {
        0 => redrawn(random, count, |random| pattern(random, 0, LARGEST)),
        1 => {
            let high = random.pick(&[0, 0, 0, 1, 30]);
            redrawn(random, count, |random| pattern(random, 0, high))
        }
        // numbers of about one size, whatever that is
        2 => {
            let middle = random.pick(&[random.from_to(0, LARGEST), LARGEST - random.from_to(0, 4)]);
            let width = random.pick(&[0, 1, 3, 12]);
            redrawn(random, count, |random| {
                pattern(random, middle - width, middle + width)
            })
        }
        // one size for lengths, as far from 1 as their squares allow, and times of about 1
        3 => {
            let middle = 127 + random.from_to(-60, 60);
            let mut draft = redrawn(random, count, |random| {
                pattern(random, middle - 2, middle + 2)
            });
            draft.request[TIME_STEP] = random.between(0.1, 1.0);
            draft.request[HORIZON] = random.between(0.5, 4.0);
            draft
        }
        4 => scaled(random, count),
        5 => convoy(random, count),
        // a maximum speed whose square may overflow, or be 0
        _ => {
            let mut draft = if random.one_in(2) {
                crowd(random, count)
            } else {
                grid(random, count)
            };
            draft.request[MAX_SPEED] = pattern(random, 0, LARGEST).abs();
            draft
        }
    }
}

/// Whole numbers at another scale: as exact as those of a grid, until they over- or underflow.
fn scaled(random: &Random, count: usize) -> Draft {
    let mut draft = grid(random, count);
    let scale = 2.0f32.powi(random.pick(&[-74, -64, -40, -1, 1, 40, 60, 63]));
    for (place, x) in draft.numbers() {
        let is_scaled = match place.checked_sub(REQUEST) {
            None => !matches!(place, RESPONSIBILITY | TIME_STEP..),
            Some(at) => at % AGENT != RESPONSIBILITY,
        };
        if is_scaled {
            *x *= scale;
        }
    }
    draft
}

/// All fly one way together, so fast that squares of speeds overflow: beside it what they differ by is a
/// few units in the last place, and the planes that it gives lie far out.
fn convoy(random: &Random, count: usize) -> Draft {
    let mut draft = if random.one_in(2) {
        crowd(random, count)
    } else {
        grid(random, count)
    };
    let middle = 127 + random.from_to(24, 126);
    let common = vector(|| pattern(random, middle - 2, middle));
    let faster = |random: &Random, at: usize| moved(common[at], random.from_to(-2, 2));
    for at in 0..3 {
        draft.request[3 + at] = faster(random, at);
        draft.request[PREFERRED + at] = faster(random, at);
        for neighbour in &mut draft.neighbours {
            neighbour[3 + at] = faster(random, at);
        }
    }
    draft.request[MAX_SPEED] = pattern(random, middle - 4, middle + 2).abs();
    draft
}

fn not_finite(random: &Random) -> f32 {
    random.pick(&[
        f32::INFINITY,
        f32::NEG_INFINITY,
        f32::NAN,
        f32::from_bits(0x7F80_0001),
        f32::from_bits(0xFFFF_FFFF),
    ])
}

/// What answer 4 is given for, at some place: -0 is below 0 nowhere, and above 0 nowhere.
fn not_in_range(random: &Random) -> f32 {
    let tiny = f32::from_bits(1);
    random.pick(&[-1.0, -tiny, -f32::MAX, -0.0, 0.0, tiny])
}

/// A place of those whose numbers have a range.
fn ranged_place(random: &Random, count: usize) -> usize {
    let own = [RADIUS, RESPONSIBILITY, MAX_SPEED, TIME_STEP, HORIZON];
    if count == 0 || random.one_in(2) {
        random.pick(&own)
    } else {
        REQUEST + AGENT * random.below(count) + random.pick(&[RADIUS, RESPONSIBILITY])
    }
}

/// A fallback whose length is off by a little or by much.
fn bad_fallback(random: &Random) -> [f32; 3] {
    // On one axis, near the roots of 0.99999 and 1.00001, so that both sides of each are met.
    let edge = |random: &Random| {
        let root = random.pick(&[0.99999f32, 1.00001]).sqrt();
        moved(root, random.from_to(-4, 4))
    };
    match random.below(4) {
        0 => axis(random).map(|x| x * 0.5),
        1 => random.direction().map(|x| x * 1.001),
        2 => [0.0; 3],
        _ => {
            let size = edge(random);
            axis(random).map(|x| x * size)
        }
    }
}

/// Stores x at a place of the request or of the neighbours.
fn put(case: &mut Case, place: usize, x: f32) {
    match place.checked_sub(REQUEST) {
        None => case.request[place] = x,
        Some(at) => case.neighbours[at] = x,
    }
}

/// Something to be refused, which a later damage may hide. Lengths of request and velocity come last, for
/// the others need them as they are.
fn damage(random: &Random, case: &mut Case) {
    let places = REQUEST + case.neighbours.len();
    match random.below(8) {
        0 => {
            let length = case.neighbours.len() + 1 + random.below(AGENT - 1);
            case.neighbours
                .resize_with(length, || random.between(-9.0, 9.0));
        }
        1 => {
            let many = AGENT * (MOST_NEIGHBOURS + 1 + random.below(6));
            case.neighbours
                .resize_with(many, || random.between(0.0, 9.0));
        }
        2 => {
            let needed = SCRATCH * case.count();
            let missing = if random.one_in(2) {
                1
            } else {
                1 + random.below(needed.max(1))
            };
            case.scratch.truncate(needed.saturating_sub(missing));
        }
        3 | 4 => put(case, random.below(places), not_finite(random)),
        5 | 6 => {
            let place = ranged_place(random, case.count());
            put(case, place, not_in_range(random));
        }
        _ => case.request[FALLBACK..].copy_from_slice(&bad_fallback(random)),
    }
}

fn damaged(random: &Random, count: usize) -> Case {
    let draft = match random.below(4) {
        0 => hangar(random, count),
        1 => crowd(random, count),
        2 => grid(random, count),
        _ => bits(random, count),
    };
    let mut case = lend(random, draft);
    for _ in 0..random.pick(&[1, 1, 1, 2, 3]) {
        damage(random, &mut case);
    }
    if random.one_in(12) {
        case.request.resize(random.pick(&[0, 1, 16, 18, 40]), 1.0);
    }
    if random.one_in(12) {
        case.velocity.resize(random.pick(&[0, 1, 2, 4, 9]), 0);
    }
    case
}
