//! The spacing report in plain Rust, written from document 02's words, with nothing of Guineacrumb's in it. A component
//! times 1000 is exact in an f64, so that one rounding makes its millimetres; from there on all is whole numbers.
use std::io::{self, BufReader, Read};

pub const MOST_AGENTS: usize = 64;
pub const MOST_FRAMES: u64 = 1_048_576;
/// A component lies at most so many metres from 0.
pub const REACH: f32 = 16384.0;
/// The bytes of an agent in a frame, and its numbers.
pub const BYTES: usize = 12;
pub const NUMBERS: usize = 3;

/// Where an agent is, in millimetres. None is over 16384000, and no difference of two over 32768000.
pub type Point = [i32; NUMBERS];

/// Finite, and not too far out. A NaN is within no reach.
pub fn is_within(component: f32) -> bool {
    component.abs() <= REACH
}

/// Whole millimetres: 1000 times the exact value, the nearest, and of two as near the even one.
fn millimetres(component: f32) -> i32 {
    (f64::from(component) * 1000.0).round_ties_even() as i32
}

pub fn points(frame: &[f32]) -> impl Iterator<Item = Point> + '_ {
    frame
        .chunks_exact(NUMBERS)
        .map(|agent| [agent[0], agent[1], agent[2]].map(millimetres))
}

/// The square of the distance of two points.
pub fn squared(a: &Point, b: &Point) -> u64 {
    let [x, y, z] = [a[0] - b[0], a[1] - b[1], a[2] - b[2]].map(i64::from);
    (x * x + y * y + z * z) as u64
}

/// The square of a limit.
pub fn square(limit: u32) -> u64 {
    u64::from(limit) * u64::from(limit)
}

#[derive(Clone, Copy, PartialEq, Eq, Debug)]
pub struct Refusal {
    pub number: u32,
    pub place: u64,
}

impl Refusal {
    fn of<T>(number: u32, place: u64) -> Result<T, Refusal> {
        Err(Refusal { number, place })
    }

    pub fn line(&self) -> String {
        format!("refused {} {}", self.number, self.place)
    }
}

/// The smallest squared distance, and where it was first seen.
#[derive(Clone, Copy, Debug)]
pub struct Smallest {
    pub squared: u64,
    pub frame: u64,
    pub first: usize,
    pub second: usize,
}

/// A running tally, which a frame updates.
#[derive(Clone)]
pub struct Tally {
    agents: usize,
    limit: u32,
    pub frames: u64,
    pub smallest: Option<Smallest>,
    pub below: u64,
    /// Those of the last frame: room that is used again.
    points: Vec<Point>,
}

impl Tally {
    pub fn begin(agents: u64, limit: u32) -> Result<Tally, Refusal> {
        if agents > MOST_AGENTS as u64 {
            return Refusal::of(9, MOST_AGENTS as u64);
        }
        Ok(Tally {
            agents: agents as usize,
            limit,
            frames: 0,
            smallest: None,
            below: 0,
            points: Vec::new(),
        })
    }

    /// Takes a frame, or refuses it and stays as it was.
    pub fn take(&mut self, frame: &[f32]) -> Result<(), Refusal> {
        if frame.len() != NUMBERS * self.agents {
            return Refusal::of(14, frame.len() as u64);
        }
        if self.frames == MOST_FRAMES {
            return Refusal::of(9, MOST_FRAMES);
        }
        if let Some(place) = frame.iter().position(|&component| !is_within(component)) {
            return Refusal::of(19, place as u64);
        }
        self.points.clear();
        self.points.extend(points(frame));
        self.take_pairs();
        self.frames += 1;
        Ok(())
    }

    fn take_pairs(&mut self) {
        let limit = square(self.limit);
        let mut below = 0;
        let mut least = self.smallest.map_or(u64::MAX, |smallest| smallest.squared);
        for (first, a) in self.points.iter().enumerate() {
            for (second, b) in self.points.iter().enumerate().skip(first + 1) {
                let squared = squared(a, b);
                if squared < limit {
                    below += 1;
                }
                if squared < least {
                    least = squared;
                    self.smallest = Some(Smallest {
                        squared,
                        frame: self.frames,
                        first,
                        second,
                    });
                }
            }
        }
        self.below += below;
    }

    fn lines(&self) -> Vec<String> {
        let smallest = match self.smallest {
            None => "smallest none".into(),
            Some(Smallest {
                squared,
                frame,
                first,
                second,
            }) => {
                let root = squared.isqrt();
                format!("smallest {root} mm, squared {squared}, frame {frame}, agents {first} and {second}")
            }
        };
        vec![
            format!("frames {}", self.frames),
            smallest,
            format!("below {} mm: {}", self.limit, self.below),
        ]
    }
}

/// What comes of an input: its tally, and the refusal of the frame that ended it early.
pub struct Outcome {
    pub tally: Tally,
    pub refusal: Option<Refusal>,
}

impl Outcome {
    /// The lines that the program prints for it.
    pub fn lines(&self) -> Vec<String> {
        match self.refusal {
            None => self.tally.lines(),
            Some(refusal) => vec![format!("{} frame {}", refusal.line(), self.tally.frames)],
        }
    }
}

/// The numbers in these bytes; up to three at the end are in none.
pub fn numbers(bytes: &[u8]) -> impl Iterator<Item = f32> + '_ {
    let number = |four: &[u8]| f32::from_le_bytes(four.try_into().expect("four bytes"));
    bytes.chunks_exact(4).map(number)
}

/// Fills the room, but for the end of the input, and says how many bytes it got.
fn fill(input: &mut impl Read, room: &mut [u8]) -> io::Result<usize> {
    let mut filled = 0;
    while filled < room.len() {
        match input.read(&mut room[filled..]) {
            Ok(0) => break,
            Ok(more) => filled += more,
            Err(error) if error.kind() == io::ErrorKind::Interrupted => {}
            Err(error) => return Err(error),
        }
    }
    Ok(filled)
}

/// Takes the frames of an input into a tally that was just begun.
pub fn outcome(input: impl Read, mut tally: Tally) -> io::Result<Outcome> {
    let mut input = BufReader::with_capacity(1 << 16, input);
    if tally.agents == 0 {
        let length = io::copy(&mut input, &mut io::sink())?;
        let refusal = (length > 0).then_some(Refusal {
            number: 14,
            place: length / 4,
        });
        return Ok(Outcome { tally, refusal });
    }
    let mut bytes = vec![0; BYTES * tally.agents];
    let mut frame = Vec::new();
    loop {
        let filled = fill(&mut input, &mut bytes)?;
        if filled == 0 {
            return Ok(Outcome {
                tally,
                refusal: None,
            });
        }
        frame.clear();
        // a rest is short of a frame, and refused for that
        frame.extend(numbers(&bytes[..filled]));
        if let Err(refusal) = tally.take(&frame) {
            return Ok(Outcome {
                tally,
                refusal: Some(refusal),
            });
        }
    }
}
