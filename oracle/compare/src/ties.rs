//! Inputs with a tie: a number that the Rust compares with epsilon, or with -epsilon, is that to the bit. Each is drawn
//! until the Rust's own planes have the tie, and so that the answer hangs on it.
use dodgy_3d::{Plane, Vec3};

use crate::case::MAX_SPEED;
use crate::inputs::{agent, drone, fallback, lend, Draft};
use crate::published::Call;
use crate::random::Random;

/// linear_programming.rs's RVO_EPSILON, which is private there.
const EPSILON: f32 = 0.00001;
/// The sine of an angle whose square is about that.
const SINE: f64 = 0.003_162_277_6;
/// Maximum speeds: powers of two.
const SPEEDS: [f64; 4] = [0.5, 1.0, 2.0, 8.0];

type Vector = [f64; 3];

fn dot(a: Vector, b: Vector) -> f64 {
    a[0] * b[0] + a[1] * b[1] + a[2] * b[2]
}

/// Three directions at right angles: the axes in any order and with any signs, or any three.
fn frame(random: &Random) -> [Vector; 3] {
    if random.one_in(2) {
        let (first, step) = (random.below(3), 1 + random.below(2));
        return [0, 1, 2].map(|k| {
            let mut axis = [0.0; 3];
            axis[(first + k * step) % 3] = random.pick(&[1.0, -1.0]);
            axis
        });
    }
    let a = random.direction().map(f64::from);
    let b = random.direction().map(f64::from);
    let upright = [0, 1, 2].map(|i| b[i] - dot(a, b) * a[i]);
    let b = upright.map(|x| x / dot(upright, upright).sqrt());
    let c = [0, 1, 2].map(|i| a[(i + 1) % 3] * b[(i + 2) % 3] - a[(i + 2) % 3] * b[(i + 1) % 3]);
    [a, b, c]
}

/// The planes that are wanted, by normal and distance from 0, and the rest of the call. All is said in a frame of its own,
/// and in parts of a size.
struct Scene {
    frame: [Vector; 3],
    size: f64,
    planes: Vec<(Vector, f64)>,
    preferred: Vector,
    max_speed: f64,
}

impl Scene {
    fn of(random: &Random, size: f64) -> Scene {
        Scene {
            frame: frame(random),
            size,
            planes: Vec::new(),
            preferred: [0; 3].map(|_: i32| part(random, -0.5, 0.5)),
            max_speed: 1.0,
        }
    }

    /// The vector in the frame, by its numbers.
    fn vector(&self, along: Vector, size: f64) -> [f32; 3] {
        [0, 1, 2].map(|i| (dot([0, 1, 2].map(|k| self.frame[k][i]), along) * size) as f32)
    }

    /// A neighbour's velocity as we see it, in a time step, is the normal times the size, which is a power of two: so the
    /// normal is hardly rounded. Either both stand still and it is our way to it, or both are at one place and it flies
    /// off. The plane then lies its radius, in a time step, less that far out.
    fn neighbour(&self, random: &Random, normal: Vector, out: f64, time: f32) -> [f32; 8] {
        // One that is not responsible leaves the whole way to us.
        let (responsibility, share) = if out < 0.0 || random.one_in(2) {
            (0.0, 1.0)
        } else {
            (1.0, 0.5)
        };
        let radius = ((1.0 + out / share) * self.size) as f32 * time;
        let away = self.vector(normal, -self.size);
        let (position, velocity) = if random.one_in(2) {
            (away.map(|x| x * time), [0.0; 3])
        } else {
            ([0.0; 3], away)
        };
        agent(position, velocity, radius.max(0.0), responsibility)
    }

    fn draft(&self, random: &Random) -> Draft {
        let time = random.pick(&[0.5, 1.0, 2.0]);
        let mut draft = Draft::of(
            agent([0.0; 3], [0.0; 3], 0.0, 1.0),
            self.vector(self.preferred, self.size),
            (self.max_speed * self.size) as f32,
            time,
            time,
            fallback(random),
        );
        draft.neighbours = self
            .planes
            .iter()
            .map(|&(normal, out)| self.neighbour(random, normal, out, time))
            .collect();
        draft
    }
}

/// A part of a size, from `low` to `high`.
fn part(random: &Random, low: f32, high: f32) -> f64 {
    f64::from(random.between(low, high))
}

/// One of the numbers near x.
fn near(random: &Random, x: f64) -> f64 {
    x * (1.0 + part(random, -1.0e-6, 1.0e-6))
}

/// The cosine of an angle, by its sine.
fn cosine(sine: f64) -> f64 {
    (1.0 - sine * sine).sqrt()
}

/// The first scene whose planes are tied. Now and then some others stand around, behind those that make the tie.
fn until(
    random: &Random,
    scene: impl Fn(&Random) -> Scene,
    tied: impl Fn(&[Plane]) -> bool,
) -> Draft {
    loop {
        let mut draft = scene(random).draft(random);
        let case = lend(random, draft.clone());
        if !tied(&Call::of(&case).planes_one_by_one()) {
            continue;
        }
        let size = draft.request[MAX_SPEED];
        let others = random.pick(&[0, 0, 0, 1, 2, 6]);
        draft.neighbours.extend(
            (0..others).map(|_| drone(random, [4.0 * size; 3], size, [0.1 * size, 0.6 * size])),
        );
        return draft;
    }
}

fn squared(v: Vec3) -> f32 {
    v.dot(v)
}

/// The square of the cross product of two normals.
fn across(earlier: &Plane, later: &Plane) -> f32 {
    squared(earlier.normal.cross(later.normal))
}

/// The line in which a plane meets an earlier one, direction and point, as the Rust has it on the later one.
fn line(earlier: &Plane, later: &Plane) -> (Vec3, Vec3) {
    let direction = earlier.normal.cross(later.normal).normalize();
    let normal = direction.cross(later.normal);
    let apart = earlier.signed_distance_to_plane(later.point) / normal.dot(earlier.normal);
    (direction, later.point - apart * normal)
}

/// Two planes that look nearly the same way, and meet so near to where the way from what is preferred leads that the
/// nearest point of either violates the other.
fn alike(random: &Random, aside: f64) -> Scene {
    let mut scene = Scene::of(random, random.pick(&SPEEDS));
    let sine = near(random, SINE);
    let cosine = cosine(sine);
    let (out, below) = (part(random, -0.2, 0.5), part(random, 0.3, 1.0));
    let between = part(random, 0.3, 0.7) * sine * sine * below;
    scene.preferred[0] = out - below;
    scene.preferred[1] = aside;
    scene.planes = vec![
        ([cosine, sine, 0.0], cosine * out + sine * aside + between),
        ([1.0, 0.0, 0.0], out),
    ];
    scene
}

/// Two planes that look nearly opposite ways, and leave no velocity between them.
fn opposed(random: &Random, sine: f64) -> Scene {
    let mut scene = Scene::of(random, random.pick(&SPEEDS));
    let sine = near(random, sine);
    scene.planes = vec![
        ([-cosine(sine), sine, 0.0], part(random, 0.05, 0.4)),
        ([1.0, 0.0, 0.0], part(random, -0.03, 0.4)),
    ];
    scene
}

/// Two planes that meet in a line along the frame's third direction, and where that is. Their normals make no acute angle:
/// so the way to one does not lead past the other.
fn corner(random: &Random, size: f64, most: f32) -> (Scene, Vector) {
    let mut scene = Scene::of(random, size);
    let out = [0; 2].map(|_: i32| part(random, -0.5, 1.0) * f64::from(most));
    let rise = random.pick(&[0.0, part(random, -0.5, 0.0)]);
    let run = cosine(rise);
    scene.planes = vec![([rise, run, 0.0], out[1]), ([1.0, 0.0, 0.0], out[0])];
    let meet = [out[0], (out[1] - rise * out[0]) / run, 0.0];
    (scene, meet)
}

/// On a plane, the square of the cross product of its normal and a constraint's.
pub(crate) fn on_plane(random: &Random) -> Draft {
    let scene = |random: &Random| alike(random, part(random, -0.5, 0.5));
    until(random, scene, |planes| {
        across(&planes[0], &planes[1]) == EPSILON
    })
}

/// Along a line, the square of its direction's product with a constraint's normal. Planes 1 and 2 meet in the line. What
/// is preferred violates both and not plane 0, which would cut off the part of the line that is nearest to it.
pub(crate) fn along_line(random: &Random) -> Draft {
    let scene = |random: &Random| {
        let (mut scene, meet) = corner(random, random.pick(&SPEEDS), 0.4);
        let sine = near(random, SINE);
        let x = part(random, 0.1, 0.9);
        let y = cosine(x);
        let (up, cut) = (random.pick(&[1.0, -1.0]), part(random, -0.5, 0.5));
        let normal = [-cosine(sine) * x, -cosine(sine) * y, up * sine];
        scene
            .planes
            .insert(0, (normal, dot(normal, meet) + cut * sine));
        scene.preferred = [
            meet[0] - part(random, 0.1, 0.5),
            meet[1] - part(random, 0.1, 0.5),
            up * (cut - part(random, 0.05, 0.4)),
        ];
        scene
    };
    until(random, scene, |planes| {
        let (direction, _) = line(&planes[1], &planes[2]);
        let product = direction.dot(planes[0].normal);
        product * product == EPSILON
    })
}

/// Along a line, how far its point lies from a constraint that is parallel to it: -epsilon. By that much the three planes
/// leave no room.
pub(crate) fn numerator(random: &Random) -> Draft {
    let scene = |random: &Random| {
        let size = 2.0f64.powi(random.from_to(-18, -14));
        let (mut scene, meet) = corner(random, size, 1.0);
        let x = part(random, 0.1, 0.9);
        let y = cosine(x);
        let normal = [-x, -y, random.pick(&[0.0, 0.5 * SINE])];
        let violated = near(random, f64::from(EPSILON) / size);
        scene
            .planes
            .insert(0, (normal, dot(normal, meet) + violated));
        let speed = 2.0f64.powi(random.from_to(5, 18));
        let far = |random: &Random| part(random, 0.1, 0.5) * speed;
        scene.preferred = [meet[0] - far(random), meet[1] - far(random), far(random)];
        scene.max_speed = speed;
        scene
    };
    until(random, scene, |planes| {
        let (direction, point) = line(&planes[1], &planes[2]);
        let product = direction.dot(planes[0].normal);
        product * product <= EPSILON && planes[0].signed_distance_to_plane(point) == -EPSILON
    })
}

/// On a plane of the 4D program, the square of what is left of the direction there.
pub(crate) fn projection(random: &Random) -> Draft {
    let scene = |random: &Random| opposed(random, 2.0 * SINE);
    until(random, scene, |planes| {
        let (earlier, direction) = (planes[0].normal, planes[1].normal);
        let normal = (earlier - direction).normalize();
        squared(direction - direction.dot(normal) * normal) == EPSILON
    })
}

/// In the 4D program itself, the square of the cross product of two normals.
pub(crate) fn turned(random: &Random) -> Draft {
    let same_way = random.one_in(2);
    let scene = |random: &Random| match same_way {
        true => alike(random, part(random, 0.0, 0.5)),
        false => opposed(random, SINE),
    };
    until(random, scene, |planes| {
        across(&planes[0], &planes[1]) == EPSILON
    })
}
