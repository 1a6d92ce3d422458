//! Safe Rust over Guineacrumb's static library. include/guineacrumb.h of the repository says what each
//! function promises; this crate adds types and no arithmetic.
use std::error::Error;
use std::fmt;

extern "C" {
    fn guineacrumb_version() -> u32;

    fn guineacrumb_root(x: f32) -> f32;

    fn guineacrumb_roots(numbers: *mut f32);

    fn guineacrumb_velocity(
        request: *const f32,
        request_length: usize,
        neighbours: *const f32,
        neighbours_length: usize,
        scratch: *mut f32,
        scratch_length: usize,
        velocity: *mut f32,
        velocity_length: usize,
        place: *mut u64,
        relaxed: *mut u64,
        unseen: *mut u64,
    ) -> u32;

    fn guineacrumb_tick(
        file: *mut u8,
        length: usize,
        time_step: f32,
        rule: u32,
        place: *mut u64,
    ) -> u32;
}

/// At most so many neighbours.
pub const MOST_NEIGHBOURS: usize = 63;

/// The bytes of a record of a fleet file, and at most so many records.
pub const RECORD_BYTES: usize = 76;
pub const MOST_AGENTS: usize = 64;

/// The numbers of an agent.
const AGENT_LENGTH: usize = 8;

/// What the library writes for no plane, and for no neighbour.
const NONE: u64 = u64::MAX;

/// An agent, laid out as the library reads it.
#[repr(C)]
#[derive(Clone, Copy, PartialEq, Debug)]
pub struct Agent {
    pub position: [f32; 3],
    pub velocity: [f32; 3],
    pub radius: f32,
    pub responsibility: f32,
}

const _: () = assert!(size_of::<Agent>() == AGENT_LENGTH * size_of::<f32>());
const _: () = assert!(align_of::<Agent>() == align_of::<f32>());

/// What a velocity is asked for.
#[derive(Clone, Copy, PartialEq, Debug)]
pub struct Request {
    pub agent: Agent,
    pub preferred: [f32; 3],
    pub max_speed: f32,
    pub time_step: f32,
    pub horizon: f32,
    /// A direction of length 1, taken where agents coincide.
    pub fallback: [f32; 3],
}

impl Request {
    fn numbers(&self) -> [f32; 17] {
        let Agent {
            position: [x, y, z],
            velocity: [u, v, w],
            radius,
            responsibility,
        } = self.agent;
        let [px, py, pz] = self.preferred;
        let [fx, fy, fz] = self.fallback;
        [
            x,
            y,
            z,
            u,
            v,
            w,
            radius,
            responsibility,
            px,
            py,
            pz,
            self.max_speed,
            self.time_step,
            self.horizon,
            fx,
            fy,
            fz,
        ]
    }
}

/// A velocity that avoids the neighbours, or comes as near to it as their planes allow.
#[derive(Clone, Copy, PartialEq, Debug)]
pub struct Velocity {
    pub velocity: [f32; 3],
    /// The plane from which it is relaxed, where the planes leave none free.
    pub relaxed: Option<usize>,
    /// The first neighbour that is unseen, which means NOT AVOIDED: flown at straight, too fast to be turned
    /// from. Whoever flies the drone has to do something about it.
    pub unseen: Option<usize>,
}

/// Whom an agent avoids in a tick. A hangar wants the near rule.
#[derive(Clone, Copy, PartialEq, Debug)]
pub enum Rule {
    /// NOT TO FLY BY. As in dodgy_3d, an agent avoids those that are FAR, farther away than own maximum speed * own
    /// horizon + 2 * own radius, and SKIPS THOSE THAT ARE NEAR: it flies into them.
    Source = 0,
    /// An agent avoids those no farther away than (own maximum speed + the other's) * own horizon + own radius + the
    /// other's radius: all who can touch it within its horizon.
    Near = 1,
}

/// A refusal: its number, and the place that it is about. Displayed, it says why, and what to do about it.
#[derive(Clone, Copy, PartialEq, Debug)]
pub struct Refusal {
    pub number: u32,
    pub place: u64,
}

impl fmt::Display for Refusal {
    fn fmt(&self, f: &mut fmt::Formatter) -> fmt::Result {
        let Refusal { number, place } = self;
        write!(f, "refused, {number} at {place}: ")?;
        match number {
            2 => write!(f, "scratch is short; lend {place} numbers"),
            17 => write!(f, "{place} neighbours; leave out the farthest until {MOST_NEIGHBOURS} are left"),
            3 => write!(f, "a number is not finite; mend the one at the place"),
            4 => write!(f, "a number is out of its range; mend the one at the place"),
            5 => write!(f, "the fallback is no direction of length 1; give one"),
            6 => write!(f, "the plane of neighbour {place} is not finite; leave the neighbour out"),
            18 => write!(f, "a bad pair of bounds on plane {place}; look at that neighbour and the maximum speed"),
            7 => write!(f, "the velocity is not finite; look for numbers of very different sizes"),
            13 => write!(f, "agent {place} would come to a position that is not finite; bring it back first"),
            14 => write!(f, "{place} bytes are no fleet file; lend records of {RECORD_BYTES}, at most {MOST_AGENTS}"),
            15 => write!(f, "a margin is not 0 or 1, or is 0 with a distance; mend the word at the place"),
            _ => write!(f, "not a number of this library's"),
        }
    }
}

impl Error for Refusal {}

/// The version of the library, a byte each for its three numbers: 0x000200 is 0.2.0, and so is this crate's where
/// the two belong together.
pub fn version() -> u32 {
    // SAFETY: the function gives a number, and touches no memory.
    unsafe { guineacrumb_version() }
}

/// The nearest f32 to the square root of x.
pub fn root(x: f32) -> f32 {
    // SAFETY: the function takes and gives a number, and touches no memory.
    unsafe { guineacrumb_root(x) }
}

/// The nearest f32 to the square root of each of eight numbers, in less time than by eight calls of `root`.
pub fn roots(mut numbers: [f32; 8]) -> [f32; 8] {
    // SAFETY: the pointer is to eight numbers, which are this function's own.
    unsafe { guineacrumb_roots(numbers.as_mut_ptr()) };
    numbers
}

/// The scratch numbers that so many neighbours need.
pub const fn scratch_length(neighbours: usize) -> usize {
    12 * neighbours
}

/// The velocity nearest to the preferred one that avoids the neighbours. What scratch holds alters no
/// answer; after one that is not refused, the planes of the neighbours stand in its first half.
pub fn velocity(
    request: &Request,
    neighbours: &[Agent],
    scratch: &mut [f32],
) -> Result<Velocity, Refusal> {
    let numbers = request.numbers();
    let mut velocity = [0.0; 3];
    let (mut place, mut relaxed, mut unseen) = (0, 0, 0);
    // SAFETY: each pointer comes with the length of what it points to, in numbers, and an Agent is 8 of
    // them. What is lent to be written is borrowed mutably, so nothing else that is lent overlaps it. A
    // reference is never null.
    let number = unsafe {
        guineacrumb_velocity(
            numbers.as_ptr(),
            numbers.len(),
            neighbours.as_ptr().cast(),
            neighbours.len() * AGENT_LENGTH,
            scratch.as_mut_ptr(),
            scratch.len(),
            velocity.as_mut_ptr(),
            velocity.len(),
            &mut place,
            &mut relaxed,
            &mut unseen,
        )
    };
    if number != 0 {
        return Err(Refusal { number, place });
    }
    let index = |number: u64| (number != NONE).then_some(number as usize);
    Ok(Velocity {
        velocity,
        relaxed: index(relaxed),
        unseen: index(unseen),
    })
}

/// One tick of a fleet file, in place: it is loaded, every agent is planned, and the fleet after the tick stands in it.
/// A tick that is refused leaves every byte as it was; the place of 3, 4, 5 and 15 is 19 * record + word, but for a
/// time step, 12, and a plan, 8 to 10. It does not say who is unseen, which means NOT AVOIDED: `velocity` does.
pub fn tick(file: &mut [u8], time_step: f32, rule: Rule) -> Result<(), Refusal> {
    let mut place = 0;
    // SAFETY: the file's pointer comes with its length, and place is this function's own. References are never null.
    let number = unsafe {
        guineacrumb_tick(
            file.as_mut_ptr(),
            file.len(),
            time_step,
            rule as u32,
            &mut place,
        )
    };
    if number != 0 {
        return Err(Refusal { number, place });
    }
    Ok(())
}
