//! Writes what the published Rust answers, for `../../../glams` to compare over one glam and over another.
//!
//!     rust_answers SEED COUNT
//!
//! draws COUNT pairs of vectors with a scalar, and writes what each operation of `Vec3` that the three files use makes of
//! them; then COUNT cases, as compare does, and writes of each velocity call the planes, the velocity and the plane from
//! which it is relaxed, or what it says where it panics. Numbers are written by their bits, signs of zeros included, but
//! every NaN as the same one: Rust does not promise a NaN's bits. What it counted goes to standard error.
use std::env;
use std::io::{self, BufWriter, Write};
use std::process::ExitCode;

use compare::case::*;
use compare::inputs::draw;
use compare::published::{catch_quietly, caught, components, Call};
use compare::random::Random;
use dodgy_3d::Vec3;

struct Answers<W> {
    to: W,
    velocities: u64,
    planes: u64,
    panics: u64,
}

fn bits(x: f32) -> u32 {
    if x.is_nan() {
        0x7FC0_0000
    } else {
        x.to_bits()
    }
}

/// A number of any bits, a small whole one, or one of a size whose square is in the middle of the range.
fn number(random: &Random) -> f32 {
    match random.below(4) {
        0 => f32::from_bits(random.word()),
        1 => random.from_to(-3, 3) as f32,
        _ => random.between(-100.0, 100.0),
    }
}

fn vector(random: &Random) -> Vec3 {
    Vec3::new(number(random), number(random), number(random))
}

/// What the operations make of two vectors and a scalar.
fn operations(u: Vec3, v: Vec3, s: f32) -> impl Iterator<Item = f32> {
    let mut sum = u;
    sum += v;
    let numbers = [
        u.dot(v),
        u.length(),
        u.length_squared(),
        u.length_recip(),
        u.distance_squared(v),
    ];
    let vectors = [
        u.cross(v),
        u.normalize(),
        u.normalize_or_zero(),
        u + v,
        u - v,
        u * s,
        s * u,
        u / s,
        sum,
        Vec3::ZERO,
    ];
    let components = vectors.into_iter().flat_map(|v| [v.x, v.y, v.z]);
    numbers.into_iter().chain(components)
}

impl<W: Write> Answers<W> {
    fn write(&mut self, numbers: impl IntoIterator<Item = f32>) -> io::Result<()> {
        numbers
            .into_iter()
            .try_for_each(|x| self.to.write_all(&bits(x).to_le_bytes()))
    }

    fn call(&mut self, case: &Case) -> io::Result<()> {
        let call = Call::of(case);
        let answered = caught(|| {
            let (velocity, planes) = call.with_planes(&call.borrowed());
            let relaxed = call.relaxed(&planes);
            (velocity, planes, relaxed)
        });
        match answered {
            Ok((v, planes, relaxed)) => {
                self.velocities += 1;
                self.planes += planes.len() as u64;
                self.write(planes.iter().flat_map(components))?;
                self.write([v.x, v.y, v.z])?;
                let plane = relaxed.map_or(NO_PLANE, |plane| plane as u64);
                self.to.write_all(&plane.to_le_bytes())
            }
            Err(message) => {
                self.panics += 1;
                self.to.write_all(message.as_bytes())
            }
        }
    }

    fn all(&mut self, seed: u64, count: u64) -> io::Result<()> {
        for index in 0..count {
            let random = Random::of(seed, index);
            let (u, v, s) = (vector(&random), vector(&random), number(&random));
            self.write(operations(u, v, s))?;
        }
        for index in 0..count {
            let (_, case) = draw(seed, index);
            if case.request.len() == REQUEST && case.neighbours.len() % AGENT == 0 {
                self.call(&case)?;
            }
        }
        self.to.flush()
    }
}

fn main() -> ExitCode {
    let words: Vec<String> = env::args().skip(1).collect();
    let number = |at: usize| words.get(at).and_then(|word| word.parse::<u64>().ok());
    let (Some(seed), Some(count), 2) = (number(0), number(1), words.len()) else {
        eprintln!("usage: rust_answers SEED COUNT");
        return ExitCode::from(2);
    };
    catch_quietly();
    let mut answers = Answers {
        to: BufWriter::new(io::stdout().lock()),
        velocities: 0,
        planes: 0,
        panics: 0,
    };
    if let Err(error) = answers.all(seed, count) {
        eprintln!("rust_answers: {error}");
        return ExitCode::FAILURE;
    }
    eprintln!(
        "seed {seed}: {count} pairs of vectors, {} velocities with {} planes, {} panics",
        answers.velocities, answers.planes, answers.panics
    );
    ExitCode::SUCCESS
}
