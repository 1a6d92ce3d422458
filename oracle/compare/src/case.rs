//! A velocity call as the numbers of its lent memory, and what comes of it.

/// The numbers of a request.
pub const REQUEST: usize = 17;
/// Where they stand in it, by document 01's places.
pub const RADIUS: usize = 6;
pub const RESPONSIBILITY: usize = 7;
pub const PREFERRED: usize = 8;
pub const MAX_SPEED: usize = 11;
pub const TIME_STEP: usize = 12;
pub const HORIZON: usize = 13;
pub const FALLBACK: usize = 14;

/// The numbers of an agent, and of a neighbour.
pub const AGENT: usize = 8;
/// The numbers of a velocity.
pub const VELOCITY: usize = 3;
/// The numbers of a plane: point, normal.
pub const PLANE: usize = 6;
/// The scratch numbers for a neighbour.
pub const SCRATCH: usize = 2 * PLANE;
pub const MOST_NEIGHBOURS: usize = 63;

/// Guineacrumb's answer to lengths that do not fit: no number of document 01.
pub const BAD_LENGTHS: u32 = 255;
/// What stands for no relaxed plane.
pub const NO_PLANE: u64 = u64::MAX;
/// What stands for no neighbour that is unseen.
pub const NO_NEIGHBOUR: u64 = u64::MAX;
/// What the server puts where the place, the relaxed plane and the unseen neighbour are to be written.
pub const UNWRITTEN: u64 = 0xA5A5_A5A5_A5A5_A5A5;

/// What the first number of scratch holds where a stored call is made again, the next one unit more.
const FILL: u32 = 0x4B1D_0000;

/// What is lent to a call. What scratch and velocity hold before is kept as bit patterns, since it may be
/// anything.
#[derive(Clone)]
pub struct Case {
    pub request: Vec<f32>,
    pub neighbours: Vec<f32>,
    pub scratch: Vec<u32>,
    pub velocity: Vec<u32>,
}

/// What a call answers, and what it leaves in what it was lent.
#[derive(Clone, PartialEq, Debug)]
pub struct Reply {
    pub answer: u32,
    pub place: u64,
    pub relaxed: u64,
    pub unseen: u64,
    pub velocity: Vec<u32>,
    pub scratch: Vec<u32>,
    /// Whether it wrote where nothing was lent to be written.
    pub stray: bool,
}

impl Case {
    /// The number of neighbours, where the list is whole.
    pub fn count(&self) -> usize {
        self.neighbours.len() / AGENT
    }

    pub fn vector(&self, place: usize) -> [f32; 3] {
        [
            self.request[place],
            self.request[place + 1],
            self.request[place + 2],
        ]
    }

    /// The call in the form of a stored list, whose lines crates/velocity_vectors/src/main.rt describes.
    pub fn text(&self) -> String {
        let mut text = String::new();
        for (start, numbers) in [(0, &self.request), (self.request.len(), &self.neighbours)] {
            for (i, part) in numbers.chunks(AGENT).enumerate() {
                let words = part.iter().map(|x| x.to_bits());
                text += &line("at", Some(start + AGENT * i), words);
            }
        }
        text += &line("scratch", Some(self.scratch.len()), [FILL]);
        text
    }
}

impl Reply {
    /// The answer in the form of a stored list, with so many planes where there are any.
    pub fn text(&self, count: usize) -> String {
        if self.answer != 0 {
            return format!("refused {} {}\n", self.answer, self.place);
        }
        let mut text = String::new();
        for (k, plane) in self.scratch[..PLANE * count].chunks(PLANE).enumerate() {
            text += &line("plane", Some(k), plane.iter().copied());
        }
        if self.unseen != NO_NEIGHBOUR {
            text += &line("unseen", Some(self.unseen as usize), []);
        }
        let velocity = self.velocity.iter().copied();
        text += &match self.relaxed {
            NO_PLANE => line("free", None, velocity),
            plane => line("relaxed", Some(plane as usize), velocity),
        };
        text
    }
}

fn line(key: &str, count: Option<usize>, words: impl IntoIterator<Item = u32>) -> String {
    let mut line = String::from(key);
    if let Some(count) = count {
        line += &format!(" {count}");
    }
    for word in words {
        line += &format!(" {word:08x}");
    }
    line + "\n"
}
