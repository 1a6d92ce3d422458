//! What has to come of a call: the published Rust's answer, and document 01's where it refuses.
use std::borrow::Cow;
use std::cell::{Cell, RefCell};
use std::panic::{catch_unwind, set_hook, take_hook, AssertUnwindSafe};

use dodgy_3d::{Agent, Plane, Vec3};

use crate::call::call_of;
use crate::case::*;

pub enum Expected {
    /// The whole of the reply.
    Reply(Reply),
    /// The same, a refusal for which the Rust panics.
    Panic(Reply),
    /// The Rust took a direction by chance, and not the fallback, so its answer says nothing.
    LeftOut,
    /// The Rust did what document 01 does not foresee.
    Surprise(String),
}

/// The direction that the Rust takes by chance: the stand-in for rand answers 0 for the z and for the
/// longitude. With this fallback the two have the same to work on.
pub const BY_CHANCE: [f32; 3] = [1.0, 0.0, 0.0];

thread_local! {
    /// Whether a panic is expected, and what the last expected one said.
    static CATCHING: Cell<bool> = const { Cell::new(false) };
    static MESSAGE: RefCell<String> = const { RefCell::new(String::new()) };
}

/// Keeps panics that are expected from being printed. To be called once, at the start.
pub fn catch_quietly() {
    let usual = take_hook();
    set_hook(Box::new(move |info| {
        if CATCHING.get() {
            MESSAGE.set(info.to_string());
        } else {
            usual(info);
        }
    }));
}

/// What `f` gives, or what it said when it panicked.
pub fn caught<T>(f: impl FnOnce() -> T) -> Result<T, String> {
    CATCHING.set(true);
    let result = catch_unwind(AssertUnwindSafe(f));
    CATCHING.set(false);
    result.map_err(|_| MESSAGE.take())
}

call_of!(dodgy_3d);

impl Call {
    pub fn with_planes(&self, neighbours: &[Cow<'_, Agent>]) -> (Vec3, Vec<Plane>) {
        self.agent.compute_avoiding_velocity_with_debug(
            neighbours,
            self.preferred,
            self.max_speed,
            self.time_step,
            &self.options,
        )
    }

    /// The planes, from calls with one neighbour each: with one plane no line is solved, so no clamp can
    /// panic.
    pub fn planes_one_by_one(&self) -> Vec<Plane> {
        self.borrowed()
            .chunks(1)
            .flat_map(|neighbour| self.with_planes(neighbour).1)
            .collect()
    }

    /// The plane that was being solved on when a clamp panicked in the 3D program: the first with which the
    /// planes up to it, and no others, panic. None where no clamp of that program does.
    fn clamped_plane(&self, planes: &[Plane]) -> Option<usize> {
        (0..planes.len()).find(|&k| {
            caught(|| self.relaxed(&planes[..=k])).is_err_and(|message| is_clamp(&message))
        })
    }

    /// The plane from which the answer is relaxed.
    pub fn relaxed(&self, planes: &[Plane]) -> Option<usize> {
        Plane::failed_index(planes, self.max_speed, self.preferred)
    }

    /// The same, of a call that does not panic.
    pub fn relaxed_plane(&self) -> Option<usize> {
        self.relaxed(&self.with_planes(&self.borrowed()).1)
    }
}

/// Whether that is what the Rust says of a clamp whose bounds are crossed, or not numbers.
fn is_clamp(message: &str) -> bool {
    message.contains("min > max, or either was NaN")
}

/// The first neighbour whose plane has a normal of zeros, of either sign.
fn unseen(planes: impl Iterator<Item = [f32; PLANE]>) -> u64 {
    let zeros = |[.., x, y, z]: [f32; PLANE]| [x, y, z] == [0.0; 3];
    let first = planes.enumerate().find(|&(_, plane)| zeros(plane));
    first.map_or(NO_NEIGHBOUR, |(neighbour, _)| neighbour as u64)
}

pub fn components(plane: &Plane) -> [f32; PLANE] {
    let (p, n) = (plane.point, plane.normal);
    [p.x, p.y, p.z, n.x, n.y, n.z]
}

/// The first place, request before neighbours, whose number is bad.
fn first_bad(case: &Case, bad: impl Fn(usize, f32) -> bool) -> Option<u64> {
    let mut numbers = case.request.iter().chain(&case.neighbours).enumerate();
    numbers
        .find(|&(place, &x)| bad(place, x))
        .map(|(place, _)| place as u64)
}

/// Whether document 01's answer 4 is due to a number at a place, which is finite.
fn out_of_range(place: usize, x: f32) -> bool {
    match place {
        TIME_STEP | HORIZON => x <= 0.0,
        RADIUS | RESPONSIBILITY | MAX_SPEED => x < 0.0,
        _ if place < REQUEST => false,
        _ => matches!((place - REQUEST) % AGENT, RADIUS | RESPONSIBILITY) && x < 0.0,
    }
}

/// Whether document 01 takes it for a fallback direction, answer 5 not being due.
pub fn is_direction([x, y, z]: [f32; 3]) -> bool {
    (0.99999..=1.00001).contains(&((x * x + y * y) + z * z))
}

/// The refusals that need no plane, with their places: lengths, the documents' 1 and 17, and then 2 to 5.
fn refusal(case: &Case) -> Option<(u32, u64)> {
    if case.request.len() != REQUEST || case.velocity.len() != VELOCITY {
        return Some((BAD_LENGTHS, UNWRITTEN));
    }
    if case.neighbours.len() % AGENT != 0 {
        return Some((1, 0));
    }
    if case.count() > MOST_NEIGHBOURS {
        return Some((17, case.count() as u64));
    }
    let needed = SCRATCH * case.count();
    if case.scratch.len() < needed {
        return Some((2, needed as u64));
    }
    if let Some(place) = first_bad(case, |_, x| !x.is_finite()) {
        return Some((3, place));
    }
    if let Some(place) = first_bad(case, out_of_range) {
        return Some((4, place));
    }
    if !is_direction(case.vector(FALLBACK)) {
        return Some((5, FALLBACK as u64));
    }
    None
}

impl Reply {
    /// A refusal that leaves scratch as it was.
    fn refused(case: &Case, answer: u32, place: u64) -> Reply {
        let written = answer != BAD_LENGTHS;
        Reply {
            answer,
            place,
            relaxed: if written { NO_PLANE } else { UNWRITTEN },
            unseen: if written { NO_NEIGHBOUR } else { UNWRITTEN },
            velocity: if written {
                vec![0; VELOCITY]
            } else {
                case.velocity.clone()
            },
            scratch: case.scratch.clone(),
            stray: false,
        }
    }

    /// A refusal once planes have been made.
    fn refused_late(case: &Case, answer: u32, place: u64) -> Reply {
        let mut reply = Reply::refused(case, answer, place);
        reply.scratch[..SCRATCH * case.count()].fill(0);
        reply
    }

    fn done(case: &Case, velocity: Vec3, planes: &[Plane], relaxed: Option<usize>) -> Reply {
        let mut reply = Reply::refused_late(case, 0, 0);
        reply.relaxed = relaxed.map_or(NO_PLANE, |plane| plane as u64);
        reply.unseen = unseen(planes.iter().map(components));
        // A zero component is written as +0, whichever zero the Rust chose.
        reply.velocity = [velocity.x, velocity.y, velocity.z]
            .map(|x| (x + 0.0).to_bits())
            .into();
        let numbers = planes.iter().flat_map(components);
        for (word, x) in reply.scratch.iter_mut().zip(numbers) {
            *word = x.to_bits();
        }
        reply
    }
}

/// A refusal by document 01's table. Of these the Rust has one, of the time step: it panics.
fn refused(case: &Case, answer: u32, place: u64) -> Expected {
    let reply = Reply::refused(case, answer, place);
    if answer != 4 || place != TIME_STEP as u64 {
        return Expected::Reply(reply);
    }
    let call = Call::of(case);
    match caught(|| call.velocity(&call.borrowed())) {
        Err(message) if message.contains("time_step must be positive") => Expected::Panic(reply),
        Err(message) => Expected::Surprise(format!("the Rust panicked: {message}")),
        Ok(_) => Expected::Surprise("the Rust took the time step".into()),
    }
}

pub fn expected(case: &Case) -> Expected {
    if let Some((answer, place)) = refusal(case) {
        return refused(case, answer, place);
    }
    let call = Call::of(case);
    let asked = rand::calls();
    let result = caught(|| call.with_planes(&call.borrowed()));
    let fallback = case.vector(FALLBACK).map(f32::to_bits);
    if rand::calls() != asked && fallback != BY_CHANCE.map(f32::to_bits) {
        return Expected::LeftOut;
    }
    let (velocity, planes) = match result {
        Ok((velocity, planes)) => (Some(velocity), planes),
        Err(message) if is_clamp(&message) => (None, call.planes_one_by_one()),
        Err(message) => return Expected::Surprise(format!("the Rust panicked: {message}")),
    };
    let finite = |numbers: &[f32]| numbers.iter().all(|x| x.is_finite());
    if let Some(bad) = planes.iter().position(|plane| !finite(&components(plane))) {
        return Expected::Reply(Reply::refused_late(case, 6, bad as u64));
    }
    match velocity {
        None => match call.clamped_plane(&planes) {
            Some(plane) => Expected::Panic(Reply::refused_late(case, 18, plane as u64)),
            None => Expected::Surprise("a clamp panicked outside the 3D program".into()),
        },
        Some(v) if finite(&[v.x, v.y, v.z]) => {
            Expected::Reply(Reply::done(case, v, &planes, call.relaxed(&planes)))
        }
        Some(_) => Expected::Reply(Reply::refused_late(case, 7, 0)),
    }
}

/// Whether a reply to a case that is left out keeps to what the documents say of every answer: it is 0, 6,
/// 18 or 7, since the checks before passed; a velocity that is refused is three +0s; the neighbour that
/// is named is the first whose plane, as scratch has it, has a zero normal; and scratch is as it has to be.
pub fn well_formed(case: &Case, reply: &Reply) -> bool {
    let (planes, rest) = (PLANE * case.count(), SCRATCH * case.count());
    let finite = |words: &[u32]| words.iter().all(|&word| f32::from_bits(word).is_finite());
    let zero = |words: &[u32]| words.iter().all(|&word| word == 0);
    let numbers = |words: &[u32]| [0, 1, 2, 3, 4, 5].map(|at| f32::from_bits(words[at]));
    let left = &reply.scratch[..planes];
    let answered = match reply.answer {
        0 => {
            finite(&reply.velocity)
                && !reply.velocity.contains(&(-0.0f32).to_bits())
                && finite(left)
                && reply.place == 0
                && (reply.relaxed == NO_PLANE || reply.relaxed < case.count() as u64)
                && reply.unseen == unseen(left.chunks_exact(PLANE).map(numbers))
        }
        6 | 7 | 18 => {
            zero(&reply.velocity)
                && zero(left)
                && reply.relaxed == NO_PLANE
                && reply.unseen == NO_NEIGHBOUR
        }
        _ => false,
    };
    answered
        && zero(&reply.scratch[planes..rest])
        && reply.scratch[rest..] == case.scratch[rest..]
        && !reply.stray
}
