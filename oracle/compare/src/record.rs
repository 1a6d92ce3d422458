//! A stored agent: document 01's 19 words.
use dodgy_3d::{Agent, AgentParameters, Vec3};

use crate::case::{AGENT, RADIUS, RESPONSIBILITY};
use crate::published::{agent, is_direction, parameters, vector};

/// The words of a record.
pub const WORDS: usize = 19;
/// Where they stand in it; the first eight are the agent's, as in a request.
pub const POSITION: usize = 0;
pub const VELOCITY: usize = 3;
pub const GOAL: usize = 8;
pub const MAX_SPEED: usize = 11;
pub const HORIZON: usize = 12;
pub const FALLBACK: usize = 13;
pub const OBSTACLE_HORIZON: usize = 16;
pub const MARGIN: usize = 17;
pub const DISTANCE: usize = 18;

/// The number of a refusal, and its place.
pub type Refusal = (usize, usize);

/// All words but the margin are bits of numbers.
#[derive(Clone, Copy, PartialEq, Eq, Debug)]
pub struct Record {
    pub words: [u32; WORDS],
}

impl Record {
    pub fn blank() -> Record {
        Record { words: [0; WORDS] }
    }

    pub fn number(&self, place: usize) -> f32 {
        f32::from_bits(self.words[place])
    }

    pub fn numbers<const N: usize>(&self, place: usize) -> [f32; N] {
        std::array::from_fn(|i| self.number(place + i))
    }

    pub fn set(&mut self, place: usize, numbers: &[f32]) {
        for (word, x) in self.words[place..].iter_mut().zip(numbers) {
            *word = x.to_bits();
        }
    }

    fn set_vector(&mut self, place: usize, v: Vec3) {
        self.set(place, &[v.x, v.y, v.z]);
    }

    pub fn agent(&self) -> Agent {
        agent(&self.numbers::<AGENT>(0))
    }

    pub fn position(&self) -> Vec3 {
        vector(&self.numbers::<3>(POSITION))
    }

    pub fn velocity(&self) -> Vec3 {
        vector(&self.numbers::<3>(VELOCITY))
    }

    pub fn goal(&self) -> Vec3 {
        vector(&self.numbers::<3>(GOAL))
    }

    /// Why a table does not take it, number and place: document 01's checks 15, 3, 4 and 5.
    pub fn refusal(&self) -> Option<Refusal> {
        match (self.words[MARGIN], self.words[DISTANCE]) {
            (0, 0) | (1, _) => (),
            (0, _) => return Some((15, DISTANCE)),
            _ => return Some((15, MARGIN)),
        }
        // the margin, 0 or 1, has the bits of a finite number
        let endless = (0..WORDS).find(|&place| !self.number(place).is_finite());
        let out_of_range = |&place: &usize| match place {
            HORIZON => self.number(place) <= 0.0,
            _ => self.number(place) < 0.0,
        };
        let mut ranged = [RADIUS, RESPONSIBILITY, MAX_SPEED, HORIZON].into_iter();
        if let Some(place) = endless {
            Some((3, place))
        } else if let Some(place) = ranged.find(out_of_range) {
            Some((4, place))
        } else if !is_direction(self.numbers(FALLBACK)) {
            Some((5, FALLBACK))
        } else {
            None
        }
    }

    pub fn is_accepted(&self) -> bool {
        self.refusal().is_none()
    }

    /// With that velocity, and moved by it: what a close makes of it.
    pub fn moved(&self, velocity: Vec3, time_step: f32) -> Record {
        let mut moved = *self;
        moved.set_vector(VELOCITY, velocity);
        moved.set_vector(POSITION, self.position() + velocity * time_step);
        moved
    }

    pub fn parameters(&self) -> AgentParameters {
        parameters(self)
    }

    /// The words as replay prints them.
    pub fn text(&self) -> String {
        self.words.map(|word| format!("{word:08x}")).join(" ")
    }
}
